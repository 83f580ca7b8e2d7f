#!/usr/bin/env python3
"""Gives `ccq play` and `ccq audit`, at a terminal too, inputs near the limits in the memory that docs/FORMATS.md says
they take at most, and no more.

Usage: tests/memory.py

The two factors, for plans and receipts and for any other input, and the base are read from the sentence in
docs/FORMATS.md. Each plan and all receipts have as many short parts as fit into the limit, or just more than a power of
two of them, where a list that doubles has the most room to spare; the other inputs have a quarter of the limit. Last,
one of each kind is given in a quarter of that memory, where `ccq` must say that it ran out: so the limit holds the
program. Exit status 0 if all did so.
"""

import dataclasses
import json
import os
import re
import sys

sys.dont_write_bytecode = True
import asked
from programs import PROGRAM, TOP, Row, does, placed, refused

SAYS = (r"at most (\d+) bytes of memory for each byte of a\s+plan or of receipts, "
        r"(\d+) for each byte of any other input, and (\d+) MB")
QUARTER = 4 << 20


def plan(calls, number, senders, version=1, schedule="", receivers="1"):
    """The text of a plan in which each sender has the same call that often."""
    head = '"version":2,"groups":1,' if version == 2 else ""
    lists = ",".join(["[" + ",".join([calls] * number) + "]"] * senders)
    passes = f'"senders":[{lists}],"receivers":[{receivers}],"schedule":[{schedule}]'
    return f'{{{head}"capacity":2,"bound":2,"life":10,{passes}}}'.encode()


def clean(text):
    """The row of a plan that is played to the end."""
    return Row(["play"], 0, b"audit clean\n", input=text)


def audit(verdict, status, accepted, taken):
    """The row of receipts with this verdict."""
    text = f'{{"accepted":[{",".join(accepted)}],"taken":[{",".join(taken)}]}}'
    return Row(["audit"], status, f"audit {verdict}\n".encode(), input=text.encode())


TWO_WORDS = plan("[1,1]", 32800, 64, 2)


def rows():
    """What an input has, and its row."""
    yield "bodies of one word", clean(plan("[1]", 65536, 63, 2))
    yield "bodies of two words, half of the room to spare", clean(TWO_WORDS)
    yield "numbers, half of the room to spare", clean(plan("1", 32800, 64))
    strange = refused("play", plan("[1]", 65536, 63, 2, '["s99",1]'), "P4 at 0")
    yield "a stranger in the schedule", strange
    place = f"1:{strange.input.index(b's99')} schedule[0][0]: \"s99\" names no pass (s1 to s63, r1)"
    yield "the place of the stranger", placed(strange, place)
    yield "two words, at a terminal", dataclasses.replace(clean(TWO_WORDS), at_terminal=True)
    long = plan("1", 1, 1, schedule=",".join(['["s1",1]'] * 1800000))
    yield "a schedule past its limit", refused("play", long, "P3 schedule")
    body = plan("[" + ",".join("1" * 8300000) + "]", 1, 1, 2)
    wide = refused("play", body, "P3 senders")
    yield "a body of too many words", wide
    words = "senders[0][0]: an array of 8300000 elements is no array of 1 to 4 elements"
    yield "the place of the body", placed(wide, f"1:{body.index(b'[1,1') + 1} {words}")
    place = f"1:{len(body)}: the text ends too early"
    yield "the place where a text ends", placed(refused("play", body[:-1], "P1"), place)
    often = plan("1", 1, 1, receivers=",".join("1" * 8300000))
    yield "receivers past their limit", refused("play", often, "P3 receivers")
    items = range(330000)
    sent = [f"[1,{n + 1},{n},5]" for n in items]
    taken = [f"[1,{n},1,{n + 1},5]" for n in items]
    yield "items taken once", audit("clean", 0, sent, taken)
    yield "one send many times", audit("fault 1 place 0", 1, ["[1,1,0,0]"] * 1050000, [])
    yield "one take many times", audit("fault 2 place 0", 1, [], ["[1,0,1,1,0]"] * 1050000)


def nested(opens, inside, closes, depth):
    """An array of values that nest that deep."""
    value = opens * depth + inside + closes * depth
    return ("[" + ",".join([value] * (QUARTER // (len(value) + 1))) + "]").encode()


def others():
    """What an input that is neither a plan nor receipts has, and its text."""
    yield "arrays", nested("[", "", "]", 120)
    yield "objects of one number", nested('{"":', "0", "}", 1)
    yield "objects of objects", nested('{"":', "0", "}", 100)
    yield "short texts", nested("", '""', "", 0)


def main():
    if not os.access(PROGRAM, os.X_OK):
        sys.exit(f"memory: there is no {PROGRAM}: run `rt ci` first, or `rt run` in crates/ccq")
    says = re.search(SAYS, (TOP / "docs/FORMATS.md").read_text())
    if not says:
        sys.exit("memory: docs/FORMATS.md doesn't say how much memory ccq takes")
    factor, other, base = int(says[1]), int(says[2]), int(says[3]) << 20
    within = lambda row, bytes_a_byte: does(PROGRAM, row, memory=base + bytes_a_byte * len(row.input))
    no_memory = lambda task, text: Row([task], 3, err=b"ccq: out of memory\n", input=text)
    cases = [(name, row, factor) for name, row in rows()]
    for name, text in others():
        row = refused("play", text, "P2")
        cases.append((name, row, other))
        place = f"1:1: an array of {len(json.loads(text))} elements is no object"
        cases.append((f"the place of {name}", placed(row, place), other))
    cases.append(("two words, in a quarter of the memory", no_memory("play", TWO_WORDS), factor // 4))
    deep = dict(others())["objects of objects"]
    cases.append(("objects of objects, in a quarter of the memory", no_memory("play", deep), other // 4))
    right = []
    for name, row, bytes_a_byte in cases:
        right.append(within(row, bytes_a_byte))
        if not right[-1]:
            print(f"memory: so it was with {name}")
    print(f"memory: {sum(right)} of {len(right)} inputs in {factor} bytes a byte of plans and receipts and {other} of "
          f"others, and {base >> 20} MB, two of them in a quarter")
    sys.exit(not all(right))


if __name__ == "__main__":
    main()
