#!/usr/bin/env python3
"""Compares traces of `ccq show`, as `rt run` built it, with the steps that a second program makes of the same plan.

    tests/trace.py              the program in crates/ccq/out
    tests/trace.py PROGRAM      another one

The plans are those of examples/ and of tests/rows.py, refused ones too. The second program is tests/derive.py, which
knows the algorithm from the documents alone; the status, standard error and each line have to be the same. Before that
the script shows that it finds each value of a line that is wrong, a line too few and one too many. Exit status 0 if all
is so.
"""
import json
import subprocess
import sys

sys.dont_write_bytecode = True
import derive
from programs import PROGRAM, TOP, by_hand, derived as derived_rows


def told(program, data):
    """The status, standard error and standard output of the program."""
    ran = subprocess.run([program, "show", "--trace"], input=data, capture_output=True, timeout=120)
    return ran.returncode, ran.stderr.decode(), ran.stdout.decode()


def derived(data):
    """What the second program tells of a plan, in the same form."""
    status, error, lines = derive.outcome_of("trace", data)
    return status, error and error + "\n", "".join(line + "\n" for line in lines)


def difference(seen, due):
    """The first place at which what is told isn't what is due; None if there is none."""
    if seen[:2] != due[:2]:
        return f"status {seen[0]} and {seen[1]!r}, and {due[0]} and {due[1]!r} are due"
    lines, wanted = seen[2].split("\n"), due[2].split("\n")
    for number, (line, other) in enumerate(zip(lines, wanted)):
        if line != other:
            return f"line {number + 1} is {line}, and {other} is due"
    return None if len(lines) == len(wanted) else f"{len(lines) - 1} lines, and {len(wanted) - 1} are due"


def wrong_traces(text):
    """Traces that differ from this one: each value of its middle line is another, a line is missing, or stands
    twice."""
    lines = text.splitlines(keepends=True)
    middle = len(lines) // 2
    for key, value in json.loads(lines[middle]).items():
        other = json.loads(lines[middle]) | {key: value + 1 if isinstance(value, int) else value + "x"}
        yield key, [*lines[:middle], json.dumps(other, separators=(",", ":")) + "\n", *lines[middle + 1 :]]
    yield "a line too few", lines[:-1]
    yield "no line in the middle", [*lines[:middle], *lines[middle + 1 :]]
    yield "a line too many", [*lines, lines[-1]]


def plans():
    """The plans by their names."""
    for path in sorted(TOP.glob("examples/*.json")):
        yield path.name, path.read_bytes()
    for name, row in [*by_hand("worked_rows"), *derived_rows()]:
        if row.words[0] in ("play", "audit") and not row.words[1:]:
            yield name, row.input


def finds_what_is_wrong():
    """Whether each wrong trace is found, and the right one is let through."""
    due = derived((TOP / "examples/bodies_of_words.json").read_bytes())
    misjudged = [name for name, lines in wrong_traces(due[2]) if difference((0, "", "".join(lines)), due) is None]
    if difference(due, due):
        misjudged.append("the right trace")
    if misjudged:
        print(f"trace: {misjudged} judged wrongly, so this script finds nothing")
    return not misjudged


def main(program):
    if not finds_what_is_wrong():
        return 1
    wrong, events, played = 0, 0, 0
    for name, data in plans():
        due = derived(data)
        found = difference(told(program, data), due)
        events, played, wrong = events + due[2].count("\n"), played + (due[0] == 0), wrong + bool(found)
        if found:
            print(f"trace: {name}: {found}")
    print(f"trace: {played} traces with {events} events, each as tests/derive.py derives it; {wrong} wrong")
    return wrong > 0


if __name__ == "__main__":
    if sys.argv[1:] in (["-h"], ["--help"]) or len(sys.argv) > 2:
        print(__doc__)
        sys.exit(0 if len(sys.argv) == 2 else 64)
    sys.exit(main(sys.argv[1] if sys.argv[1:] else PROGRAM))
