#!/usr/bin/env python3
"""Refuses memory and threads from outside, one in each run, on the programs that the gate left, as each compiler built
them.

    tests/refuse.py

- `ccq play` and `ccq audit` on every plan and on the receipts of examples/, on seven rows of tests/rows.py, for help
  and for command lines that are refused: each allocation in turn. The program must end with status 3, say so on
  standard error and have written nothing; or it did without that memory, and leaves just what it leaves with it. At a
  terminal the line with the place of a fault may be missing.
- `ccq drive` by three threads that send 100 items each beside two that take: each allocation, until ten runs in a row
have
  asked for fewer, since their number depends on the order of the threads; then each of the five threads isn't started.
  The run must come to its clean end, or print nothing and end with status 3 and one line: memory, or a thread. It asks
  for no sixth thread, and with a capacity of 4096 for a larger allocation than with 64.
- `cc_memory_rows`, which opens three topics and three machines, plays calls, audits receipts and prints each answer:
each
  allocation, and 100 runs more. Either a call fails for want of memory, with status 3 and a beginning of the answers;
  or a begin was refused, was made again, and the answers are whole; or the program did without. Each of FAULTS must
  have come.

Before that the script shows, on a program that answers wrongly in six ways (tests/wrong_answers.c), that it finds each.
Exit status 0 if all runs did so. It proves and builds nothing of the programs: `rt ci` does.
"""
import collections
import os
import pathlib
import shutil
import subprocess
import sys
import tempfile

sys.dont_write_bytecode = True
from programs import TOP, by_hand, derived, places, shown_at, terminal

NO_MEMORY, NO_THREAD = b"ccq: out of memory\n", b"ccq: a thread was refused\n"
DRIVE = "drive --senders 3 --receivers 2 --items 100 --capacity 4 --bound 2".split()
FAULTS = {
    b"broker: NoMemory\n",
    b"broker: Topic(0, NoMemory)\n",
    b"broker: Topic(1, NoMemory)\n",
    b"broker: Topic(2, NoMemory)\n",
    b"machine: NoMemory\n",
    b"audit: AllocError\n",
}
ROWS = ["close_in_every_place", "a_place_that_was_passed_over", "greatest_configuration"]
ROWS += ["place_first_of_two_strangers", "place_text_in_a_row", "place_no_colon"]
ROWS += ["a_key_that_no_plan_has_at_a_terminal"]
# Of each kind of answer to a line without a task one
LINES = ["--help", "-h", "--version", "help play", "plaz", "play x y", "drive --senders 64", "judge --until 1 --skew 1"]
MET = 9
AGAIN = b"begin: 1 refused, and made again\n"

# What a run left, how many allocations it asked for, and how many bits the size of the largest has.
Ran = collections.namedtuple("Ran", "status out err met bits")


class Wrong(Exception):
    """What a program did that it may not do."""


def compiled(room):
    """The library that is loaded before a program, and the program that answers wrongly."""
    if not shutil.which("gcc"):
        raise Wrong("gcc is not on this machine, and the library that refuses memory is compiled by it")
    refuses, answers = f"{room}/refuse.so", f"{room}/wrong_answers"
    subprocess.run(["gcc", "-O1", "-fPIC", "-shared", "-o", refuses, TOP / "tests/refuse.c"], check=True)
    subprocess.run(["gcc", "-O1", "-o", answers, TOP / "tests/wrong_answers.c"], check=True)
    return refuses, answers


def run(library, words, input=os.devnull, memory=0, thread=0, at_terminal=False):
    """Runs a program with the allocation, and the thread, of this number refused; 0 for none. Standard error may be a
    terminal."""
    env = {**os.environ, "LD_PRELOAD": library, "REFUSE": str(memory), "REFUSE_THREAD": str(thread), "TERM": "dumb"}
    ours, errors = terminal() if at_terminal else (None, subprocess.PIPE)
    with open(input, "rb") as given, tempfile.TemporaryFile() as met:
        # The library writes a byte there for each allocation.
        os.dup2(met.fileno(), MET)
        ran = subprocess.run(words, stdin=given, stdout=subprocess.PIPE, stderr=errors, timeout=60, env=env,
                             pass_fds=[MET])
        sizes = os.pread(MET, os.fstat(MET).st_size, 0)
        err = shown_at(ours, errors) if at_terminal else ran.stderr
        return Ran(ran.returncode, ran.stdout, err, len(sizes), max(sizes, default=0))


def refuse_each(library, words, input=os.devnull, at_terminal=False):
    """Refuses each allocation in turn: how many runs there were, and how many of them ended for want of memory. At a
    terminal the second line, with the place of a fault, may be missing."""
    whole, refused = run(library, words, input, at_terminal=at_terminal), 0
    first = (*whole[:2], whole.err.partition(b"\n")[0] + b"\n")
    for number in range(1, whole.met + 1):
        ran = run(library, words, input, number, at_terminal=at_terminal)
        if ran.met < number:
            raise Wrong(f"{words} <{input}: allocation {number} of {whole.met} was not asked for again")
        if (ran.status, ran.out, ran.err) == (3, b"", NO_MEMORY):
            refused += 1
        elif ran[:3] != whole[:3] and not (at_terminal and ran[:3] == first):
            raise Wrong(f"{words} <{input}: allocation {number} of {whole.met} refused: neither status 3 with nothing "
                        f"written nor the whole, but {ran}")
    if refused == 0:
        raise Wrong(f"{words} <{input}: no run ended for want of memory, of {whole.met} allocations")
    return whole.met, refused


def check_this_script(library, answers):
    """It finds each wrong answer to a refusal, and passes the right one."""
    refuse_each(library, [answers, "tells"])
    for way in ("asks_for_none", "writes_first", "is_stopped", "goes_on", "keeps_quiet", "answers_success"):
        try:
            refuse_each(library, [answers, way])
        except Wrong:
            continue
        raise Wrong(f"a program that {way} was let through, so this script finds nothing")


def inputs(room):
    """The words and the input of each run with a plan or with receipts, and of some command lines; and whether standard
    error is a terminal."""
    for path in sorted((TOP / "examples").glob("*.json")):
        yield (["audit"] if path.name.startswith("receipts") else ["play"]), path, False
    yield ["judge"], TOP / "examples/calls.jsonl", False
    there = {**dict(derived()), **dict(places()), **dict(by_hand("worked_rows"))}
    for name in ROWS:
        path = pathlib.Path(room, name)
        path.write_bytes(there[name].input)
        yield there[name].words, path, there[name].at_terminal
    for line in LINES:
        yield line.split(), os.devnull, False


def refuse_plans(library, program):
    with tempfile.TemporaryDirectory() as room:
        counts = [refuse_each(library, [program, *words], input, at) for words, input, at in inputs(room)]
    runs, refused = map(sum, zip(*counts))
    return (f"each allocation on {len(counts)} inputs and lines: {runs} runs, {refused} ended with status 3 "
            "and nothing written, the others did without")


def refuse_drive(library, program):
    whole = (0, b"sent 300\ntaken 300\naudit clean\n", b"")
    ends = [(3, b"", NO_MEMORY), (3, b"", NO_THREAD)]
    number = spare = refused = 0
    while spare < 10:
        number += 1
        ran = run(library, [program, *DRIVE], memory=number)
        spare = spare + 1 if ran.met < number else 0
        refused += ran[:3] in ends
        if ran[:3] not in [whole, *ends]:
            raise Wrong(f"{program}: allocation {number} refused: neither the clean end nor status 3 with its line, "
                        f"but {ran}")
    if refused == 0:
        raise Wrong(f"{program}: no run ended for want of memory")
    for thread in range(1, 7):
        ran = run(library, [program, *DRIVE], thread=thread)
        if ran[:3] != (ends[1] if thread < 6 else whole):
            raise Wrong(f"{program}: thread {thread} of 5 refused: neither status 3 with its line nor, of a sixth, "
                        f"the clean end, but {ran}")
    least, most = (run(library, [program, "drive", "--items", "5", "--capacity", it]).bits for it in ("64", "4096"))
    if least >= most:
        raise Wrong(f"{program}: the largest allocation has {least} bits with a capacity of 64, and {most} with one "
                    f"of 4096")
    return (f"each allocation of a driven run: {refused} runs said so, {number - refused} came to their clean end; "
            "and each of its 5 threads")


def refuse_calls(library, program):
    whole = (TOP / "crates/cc_memory_rows/stdout").read_bytes()
    most, refused, repeated, seen = run(library, [program]).met, 0, 0, set()
    for number in range(most + 101):
        ran = run(library, [program], memory=number)
        is_beginning = len(ran.out) < len(whole) and whole.startswith(ran.out)
        if ran.status == 3 and is_beginning and ran.err in FAULTS:
            refused += 1
            seen.add(ran.err)
        elif ran[:3] == (0, whole, AGAIN):
            repeated += 1
        elif ran[:3] != (0, whole, b""):
            raise Wrong(f"{program}: allocation {number} of {most} refused: no fault of a call for memory and not the "
                        f"same answers, but {ran}")
    if seen != FAULTS or repeated == 0:
        raise Wrong(f"{program}: of {most} allocations, {repeated} refused begins, and only these faults: {seen}")
    return (f"each of {most} allocations, and 100 more: {refused} runs failed by the call that met it, "
            f"{repeated} begins were made again")


def main():
    with tempfile.TemporaryDirectory() as room:
        library, answers = compiled(room)
        check_this_script(library, answers)
        for crate, ways in (("ccq", (refuse_plans, refuse_drive)), ("cc_memory_rows", (refuse_calls,))):
            made = [TOP / f"crates/{crate}/out/{crate}{by}" for by in ("", ".by-rattle")]
            programs = [str(it) for it in made if os.access(it, os.X_OK)]
            if not programs:
                raise Wrong(f"there is no {made[0]}: run `rt ci` first, or `rt run` in crates/{crate}")
            for program in programs:
                for way in ways:
                    print(f"{program}: {way(library, program)}", flush=True)


if __name__ == "__main__":
    if sys.argv[1:]:
        print(__doc__)
        sys.exit(0 if sys.argv[1:] in (["-h"], ["--help"]) else 64)
    try:
        main()
    except Wrong as wrong:
        sys.exit(f"refuse: {wrong}")
