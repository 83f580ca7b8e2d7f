#!/usr/bin/env python3
"""Splits a log of `ccq judge` into lanes, one for each thread that sent, and has each lane judged.

    tools/lanes.py LOG [OPTIONS OF ccq judge]

It is for queues that promise order for each sender alone, as moodycamel::ConcurrentQueue. A lane has the accepted and
the pending sends of one thread, the takes that got one of these items, all closes, and each take that hasn't returned,
since that may have got any item. Takes that found none and sends that were refused belong to no lane. A take of an item
that no line sent is in a lane of its own with all such takes. A lane is judged as a log of its lines, and what is said
of it has the line numbers of the whole log. What the first line says of the log's begin and the last one of its end
holds for each lane.

Clean lanes mean: no item was taken twice, none was taken that wasn't sent, and the items of one thread were taken in
the order in which it sent them. They don't mean that a take which found none was right, so a lost item is found only if
a later one of its sender is taken. Prints a line for each lane that isn't clean, and one of all lanes; the exit status
is the greatest of `ccq judge`, or 64 for a line that isn't understood. The program is what CCQ names, or `ccq` on the
path, or else the one in bin.
"""
import json
import os
import pathlib
import re
import shutil
import subprocess
import sys
from concurrent.futures import ThreadPoolExecutor

CCQ = os.environ.get("CCQ") or shutil.which("ccq") or str(
    pathlib.Path(__file__).resolve().parent.parent / "bin/x86_64-unknown-linux-gnu/ccq")

# The lane of takes of items that no line sent.
UNSENT = "no line"


class Refused(Exception):
    """Why a log is refused."""


def item_of(body):
    """An item, with or without its brackets."""
    return tuple(body) if isinstance(body, list) else (body,)


def calls_of(lines):
    """The calls of a log by their places, and the places of the lines that say how it begins and ends."""
    calls = {}
    for place, line in enumerate(lines):
        if not line.strip():
            continue
        try:
            call = json.loads(line)
        except ValueError as error:
            raise Refused(f"line {place + 1}: no JSON object") from error
        if not isinstance(call, dict):
            raise Refused(f"line {place + 1}: no JSON object")
        calls[place] = call
    said = {place for place, key in ((min(calls, default=None), "begins"), (max(calls, default=None), "ends"))
            if key in calls.get(place, ())}
    for place in said:
        del calls[place]
    for place, call in calls.items():
        if "thread" not in call or not {"send", "take", "close"} & call.keys():
            raise Refused(f"line {place + 1}: no call")
    return calls, said


def lanes_of(lines):
    """The places of the lines of each lane, by the names of their threads."""
    calls, said = calls_of(lines)
    # A send without an answer was accepted, or is pending.
    sent_by = {item_of(call["send"]): str(call["thread"])
               for call in calls.values() if "send" in call and "answer" not in call}
    lanes, shared = {thread: [] for thread in sent_by.values()}, []
    for place, call in calls.items():
        if "send" in call and "answer" not in call:
            lanes[str(call["thread"])].append(place)
        elif call.get("take") is not None:
            lanes.setdefault(sent_by.get(item_of(call["take"]), UNSENT), []).append(place)
        elif "close" in call or "take" in call and "end" not in call:
            shared.append(place)
    return {thread: sorted({*places, *shared, *said}) for thread, places in lanes.items()}


def in_whole(said, places):
    """What is said of a lane, with the line numbers of the whole log; those in the name of a thread are left."""
    number = lambda found: str(places[int(found[0]) - 1] + 1)
    lines = r"\(threads? .*?\)|\blines? \d+(?:(?:, | and )\d+\b(?! others))*"
    return re.sub(lines, lambda found: found[0] if found[0][0] == "(" else re.sub(r"\d+", number, found[0]), said)


def judge_lanes(program, lines, options=()):
    """What the program says of each lane: its status, and its line."""
    def judged(places):
        log = "".join(lines[place] for place in places)
        run = subprocess.run([program, "judge", *options], input=log, capture_output=True, text=True, check=False)
        return run.returncode, in_whole((run.stdout or run.stderr).partition("\n")[0], places)

    lanes = lanes_of(lines)
    with ThreadPoolExecutor(os.cpu_count()) as pool:
        return dict(zip(lanes, pool.map(judged, lanes.values())))


def main(words):
    if words in (["-h"], ["--help"]):
        print(__doc__.strip())
        return 0
    if not words or words[0].startswith("-"):
        print("usage: tools/lanes.py LOG [OPTIONS OF ccq judge]", file=sys.stderr)
        return 64
    try:
        with open(words[0], encoding="utf-8") as file:
            said = judge_lanes(CCQ, file.readlines(), words[1:])
    except (OSError, Refused, UnicodeDecodeError) as error:
        print(f"lanes: {error}", file=sys.stderr)
        return 64
    if not said:
        print("lanes: no accepted send, and no take of an item", file=sys.stderr)
        return 64
    for thread, (status, line) in said.items():
        if status != 0:
            print(f"lanes: thread {thread}: {line}")
    clean = sum(status == 0 for status, _ in said.values())
    print(f"lanes: {clean} of {len(said)} lanes are clean")
    return max((status for status, _ in said.values()), default=0)


if __name__ == "__main__":
    sys.exit(main(sys.argv[1:]))
