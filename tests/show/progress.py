#!/usr/bin/env python3
"""Checks what the page says of waiting passes by the laws of progress, on random runs of the right table.

    tests/show/progress.py [RUNS]    100 runs, if no number is given, of docs/pages/index.html

At each event of a run, of each pass that waits, the page says how many steps are ahead of its answer, at most, and
whose turn it is; the numbers come from the definitions of the laws (tools/page_steps.py). By the runs of
tests/show/second.py the script checks that just the passes that read that their state is 1 wait, that it is some pass's
turn and never that of one that waits, that no event makes the number of a call more, and that each step of a pass whose
turn it is makes it less. And it counts the steps after which a combiner was seen, and fails if one of them never was:
then a line of the count would be untried.
"""
import json
import pathlib
import subprocess
import sys

sys.dont_write_bytecode = True
HERE = pathlib.Path(__file__).resolve().parent
sys.path.insert(0, str(HERE))
import second
from second import derive

TOP = HERE.parent.parent
# What a combiner's last step can be while another pass of its chain waits: the kind and the field of its word.
OF_SENDS = {("ReadState", "state"), ("ReadNext", "next"), ("ReadRequest", "tag"),
            *(("ReadRequest", f"body{k}") for k in range(4)), ("ReadObject", "shut"), ("ReadObject", "count"),
            ("ReadObject", "cursor"),
            ("ReadObject", "last"), ("ReadPassed", "passed"), ("ResetListNode", "passed"), ("ResetListNode", "next"),
            ("WriteItem", "tag"), *(("WriteItem", f"body{k}") for k in range(4)), ("LinkLast", "next"),
            ("WriteObject", "last"), ("WriteObject", "count"), ("WriteObject", "cursor"), ("WriteObject", "shut"),
            ("WriteAnswer", "ret"), ("MarkDone", "state")}
OF_TAKES = {("ReadState", "state"), ("ReadNext", "next"), ("ReadObject", "head"), ("ReadObject", "taken"),
            ("ReadDummyNext", "next"), ("ReadItem", "tag"), *(("ReadItem", f"body{k}") for k in range(4)),
            ("WriteObject", "head"), ("WriteObject", "taken"), ("AddPassed", "passed"), ("WriteAnswer", "ret"),
            ("WriteAnswer", "tag"), *(("WriteAnswer", f"body{k}") for k in range(4)), ("MarkDone", "state")}


def compare(run):
    """The number of waits of a run, and the combiners' steps that were seen; says where the laws don't hold."""
    story, waits, wrong = second.Story(run["plan"], "", [(name, 1) for name in run["steps"]]), 0, 0
    seen, before = {second.SENDERS: set(), 1: set()}, {}
    for e, told in zip(story.events, run["waits"]):
        state, now = story.states[e.n], {}
        due = [name for name, last in state.last.items() if state.calls[name] and last.kind in ("Link", "ReadState")
               and state.words.get(derive.node(last.chain, "state", state.nodes[name])) == 1]
        for name, steps, turns in told:
            chain, call = story.passes[name].chain, state.calls[name]
            now[chain, call.place] = steps, turns
            seen[min(chain, 1)] |= {(state.last[one].kind, second.field_of(state.last[one].word))
                                    for one in state.turns if one in story.on(chain)}
            was = before.get((chain, call.place), (steps + 1, []))
            if not turns or set(turns) & set(due) or steps < 1 or steps > was[0] or e.name in was[1] and steps == was[
                    0]:
                print(f"progress: event {e.n} of {run['plan']}: {steps} steps are ahead of {name}, in the turn of "
                      f"{turns}, and before {was}")
                wrong += 1
        if [name for name, _, _ in told] != due:
            print(f"progress: event {e.n} of {run['plan']}: the page says {told}, and {due} wait")
            wrong += 1
        waits, before = waits + len(due), now
    return waits, seen, wrong


def main(runs):
    lines = subprocess.run(["node", HERE / "alone.js", "waits", TOP / "docs/pages/index.html", "7", runs],
                           stdout=subprocess.PIPE, text=True, check=True).stdout.splitlines()
    waits, wrong, sends, takes = 0, 0, set(), set()
    for line in lines:
        count, seen, faults = compare(json.loads(line))
        waits, wrong = waits + count, wrong + faults
        sends, takes = sends | seen[second.SENDERS], takes | seen[1]
    unseen = (OF_SENDS - sends) | (OF_TAKES - takes)
    if unseen:
        print(f"progress: no pass waited while a combiner's last step was one of {sorted(unseen)}")
    print(f"progress: {len(lines)} runs, in which passes waited at {waits} events; {wrong} wrong")
    return wrong > 0 or bool(unseen) or waits < 1000


if __name__ == "__main__":
    if len(sys.argv) > 2 or sys.argv[1:] and not sys.argv[1].isdigit():
        print(__doc__)
        sys.exit(0 if sys.argv[1:] in (["-h"], ["--help"]) else 64)
    sys.exit(main(sys.argv[1] if sys.argv[1:] else "100"))
