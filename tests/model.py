#!/usr/bin/env python3
"""Searches every interleaving of a few passes of the queue, by the model checker Spin.

    tests/model.py                  all searches, in half a minute
    tests/model.py NAME             the shortest counterexample of a broken table of tools/definitions.py
    tests/model.py FILE SIZE=N..    that of a model in a file with the ending .pml, as tests/model/queue.pml, in these
                                    sizes: tests/model/around.pml has their names

A counterexample is printed as a plan of `ccq`. Standard error says what is wrong, and has a link to the page that shows
the plan: with a broken table, if the page has one of this name.

tests/model/queue.pml is the table of steps as a model, written by tools/model.py; tests/model/around.pml says what is
checked. A line for each search says its sizes and how many states there are:

- The answers are those of a sequential queue that moves at the points of docs/ARCHITECTURE.md; or, without points, of
  some order that agrees with real time. No call is stuck, and no run is endless.
- With store buffers of x86-TSO, and the plain stores that may be early, there is each history that atomic steps have,
  and no other one: also if one thread drives several passes, and if another thread takes up a pass between its calls.
  With all stores plain there are histories of no queue.
- Each step of the model is made in some search, and random runs of it have the steps of tests/derive.py, which
  tests/trace.py compares with those of the proved program.
- Each broken table is found, and so are points which aren't those of the document: Full at its decision, and the order
  of the links for that of the exchanges.

If VAHEPITO_ROUNDS is set, as many of a hundred searches are made, and at least one. Exit status 0 if all is so, and 77
without spin or gcc, where nothing is done.
"""
import json
import os
import pathlib
import re
import shutil
import subprocess
import sys
import tempfile
import urllib.parse

sys.dont_write_bytecode = True
import derive

TOP = pathlib.Path(derive.TOP)
sys.path.insert(0, str(TOP / "tools"))
import model
from page_steps import VARIANTS

# What is searched for, as flags of the compiler.
FAULTS, CYCLES = "-DSAFETY -DNOCOMP", "-DNP -DNOFAIR"
# What a right model has.
AT_POINTS, ORDERED = "the answers of a queue that moves at the points", "the answers of some order in real time"
ENDS = "no run is endless"
# Sizes in which the model is searched, and what it has there.
RIGHT = [("SENDERS=1 SENDS=2 GROUPS=2 BOUND=1", AT_POINTS), ("SENDERS=2 SENDS=2 TAKES=2", AT_POINTS),
         ("SENDERS=1 SENDS=2 RECEIVERS=2", AT_POINTS), ("SENDERS=2 SENDS=2 FINAL=0 CLOSERS=2 LIFE=1", AT_POINTS),
         ("SENDERS=2 TAKES=2 ORDERS=1", ORDERED)]
LONG_BODIES = "SENDERS=2 TAKES=2"
# Sizes in which histories with store buffers are compared with those of atomic steps; a 3 says that all stores are
# plain too.
BUFFERED = ["SENDERS=1 SENDS=2 TAKES=2 HISTORIES=2", "SENDERS=2 THREADS=2 SIDES=1 HISTORIES=2",
            "SENDERS=1 SENDS=2 THREADS=2 HISTORIES=3"]
# Sizes, what is searched for, and the broken tables that are found there, each with smaller sizes for a counterexample;
# and what the right table has, if it is searched there too.
WRONG = [
    ("SENDERS=1 SENDS=3 GROUPS=2 RECEIVERS=2 TAKES=2 BOUND=3", FAULTS, {
        "marked_early": "SENDERS=1 RECEIVERS=3 TAKES=2 BOUND=3", "answer_late": "SENDERS=1 SENDS=2 RECEIVERS=2",
        "marks_nothing": "SENDERS=1 RECEIVERS=2", "one_group": "SENDERS=1 SENDS=3 GROUPS=2 TAKES=2"}, None),
    ("SENDERS=3 FINAL=0 CLOSERS=1 BOUND=1", FAULTS, {
        "handed_past": "SENDERS=3 BOUND=1", "past_the_bound": "SENDERS=3 BOUND=1",
        "never_shut": "SENDERS=2 FINAL=0 CLOSERS=1", "full_always": "SENDERS=1",
        "keeps_the_chain": "SENDERS=1 SENDS=2", "returns_unserved": "SENDERS=1", "links_nothing": "SENDERS=1"},
     AT_POINTS),
    ("SENDERS=1 SENDS=6 CLOSERS=1 TAKES=4 CAPACITY=3", FAULTS, {
        "full_early": "SENDERS=1 SENDS=6 TAKES=3 CAPACITY=3", "freed_dummy": "SENDERS=1 SENDS=4 TAKES=4 CAPACITY=2",
        "freed_before_read": "SENDERS=1 SENDS=2 TAKES=2", "ended_early": "SENDERS=1 CLOSERS=1 TAKES=2",
        "same_again": "SENDERS=1 SENDS=2 TAKES=2", "empty_always": "SENDERS=1", "waits_for_a_link": "SENDERS=1"},
     AT_POINTS),
    ("SENDERS=2 TAKES=2", CYCLES, {"scans_again": "SENDERS=1 SENDS=2"}, ENDS),
]
# Points which aren't those of the document, and sizes in which that is found.
OTHER_POINTS = "SENDERS=2 TAKES=2 OTHER_POINTS=1", {"Full at its decision": None, "the order of the links": None}
# For how many seconds a shortest counterexample is looked for.
PATIENCE = 30
# The words for a fault, by a part of what Spin says.
FAULT = {
    "invalid end state": "a call is stuck",
    "non-progress": "a run is endless",
    "turn[p]": "calls are decided out of order",
    "did[me]": "a pass decides more calls in a turn than the bound",
    "reads_next": "a node is used again while a take may read it",
    "due[me]": "a call returns an answer that wasn't decided for it",
    "tags": "an item isn't the one that is due",
    "": "an answer isn't that of a queue",
}
# The sizes of random runs of the model, and how many of each.
RANDOM, RUNS = ["SENDERS=2 SENDS=2 TAKES=3", "SENDERS=3 CLOSERS=1 RECEIVERS=2 GROUPS=2 BOUND=1"], 3
ROUNDS = int(os.environ.get("VAHEPITO_ROUNDS", 100))


def words_of(sizes):
    return [f"-D{word}" for word in sizes.split()]


def described(sizes):
    """The sizes of a model in words."""
    size = sizes_of(sizes)
    count = lambda n, word: f"{n} {word}{'s' * (n != 1)}"
    groups = f"{count(size['GROUPS'], 'group')} of " if size["GROUPS"] > 1 else ""
    last = f", the last one with {size['FINAL']}" if "FINAL" in size else ""
    parts = [f"{count(size['SENDERS'], 'sender')} with {count(size['SENDS'], 'send')}{last}",
             f"{count(size['CLOSERS'], 'close')}" if size["CLOSERS"] else "",
             f"{groups}{count(size['RECEIVERS'], 'receiver')} with {count(size['TAKES'], 'take')}",
             f"capacity {size['CAPACITY']}", f"bound {size['BOUND']}",
             f"life {size['LIFE']}" if size["LIFE"] < 9 else "",
             "a thread for each side" if "SIDES" in sizes else "2 threads for any pass" if "THREADS" in sizes else ""]
    return ", ".join(filter(None, parts))


def sizes_of(sizes):
    return {"SENDERS": 2, "RECEIVERS": 1, "GROUPS": 1, "CAPACITY": 1, "BOUND": 2, "LIFE": 9, "SENDS": 1, "TAKES": 1,
            "CLOSERS": 0} | {name: int(number) for name, number in re.findall(r"(\w+)=(\d+)", sizes)}


class Room:
    """A folder for temporary files, in which a model is compiled, searched and run."""

    def __init__(self, folder):
        self.folder = pathlib.Path(folder)

    def put(self, text):
        for file in self.folder.iterdir():
            file.unlink()
        shutil.copy(TOP / "tests/model/around.pml", self.folder)
        (self.folder / "queue.pml").write_text(text)

    def compile(self, text, sizes, flags):
        """Makes the search of a model of these sizes."""
        self.put(text)
        self.run("spin", "-a", "-o3", *words_of(sizes), "queue.pml")
        self.run("gcc", "-w", "-O0", *flags.split(), "-DNOREDUCE", "-DVECTORSZ=2048", "-o", "pan", "pan.c")

    def search(self, flags, *words, table=0, limit=None):
        """What the search says; nothing if it hasn't ended after so many seconds."""
        loops = ["-l"] if "-DNP" in flags else []
        try:
            return self.run("./pan", "-m100000", "-w19", *loops, *words, table=table, limit=limit)
        except subprocess.TimeoutExpired:
            return ""

    def run(self, *command, table=0, limit=None):
        done = subprocess.run(command, cwd=self.folder, env={**os.environ, "TABLE": str(table)}, text=True,
                              stdout=subprocess.PIPE, timeout=limit)
        if done.returncode != 0:
            raise SystemExit(f"model: {' '.join(command)} has status {done.returncode}: {done.stdout}")
        return done.stdout


def states_of(said):
    return int(re.search(r"(\d+) states, stored", said)[1])


def fault_in(said):
    """What is wrong in the last counterexample of a search."""
    found = re.findall(r"pan:\d+: (.*) .at depth|failed assertion: (.*)", said)
    return next(words for part, words in FAULT.items() if part in "".join(found[-1])) if found else ""


def is_clean(said):
    return "errors: 0\n" in said and "too small" not in said and "not completed" not in said


class Check:
    """The searches that were made: how many states, which lines of the model have a step that was in none of them, how
    many wrong machines were found, and how many searches failed."""

    def __init__(self, room):
        self.room, self.states, self.left, self.found, self.failed = room, 0, None, 0, 0

    def tell(self, fault, line, said=""):
        print(f"model: {line}" if not fault else f"model: FAILED: {line}: {fault}\n{said}", flush=True)
        self.failed += bool(fault)

    def right(self, text, sizes, has):
        """Searches a right model."""
        self.room.compile(text, f"QUIET=1 {sizes}", FAULTS)
        said = self.all_right(sizes, FAULTS, has)
        if text.startswith("/*"):
            lines = set(re.findall(r"queue\.pml:(\d+), state \d+, \"(?!-end-)", said.split("unreached in init")[0]))
            self.left = lines if self.left is None else self.left & lines

    def all_right(self, sizes, flags, has):
        said = self.room.search(flags)
        self.states += states_of(said)
        self.tell("" if is_clean(said) else "it isn't so", f"{described(sizes)}: {states_of(said)} states: {has}", said)
        return said

    def reached(self):
        for line in sorted(self.left, key=int):
            self.tell("its step is made in no search", f"line {line} of queue.pml")

    def buffered(self, text, sizes):
        """Compares the histories with store buffers with those of atomic steps."""
        self.room.compile(text, f"QUIET=1 ORDERS=1 BUFFERS=1 {sizes}", FAULTS)
        said = self.room.search(FAULTS)
        self.states += states_of(said)
        atomic, early, plain = (set(re.findall(rf"^history {k} (.*)$", said, re.M)) for k in range(3))
        wrong = {line for line in atomic | early if line.startswith("0")}
        fault = "" if is_clean(said) and atomic == early and atomic and not wrong else "it isn't so"
        line = f"{described(sizes)}: {states_of(said)} states: with store buffers "
        line += f"the {len(early)} histories of atomic steps"
        if "HISTORIES=3" in sizes:
            more = sum(line.startswith("0") for line in plain)
            fault = fault or ("" if more else "with all stores plain nothing wrong was found")
            line += f"; {more} of no queue if all stores are plain"
        self.tell(fault, line, said[-2000:])

    def wrong(self, text, sizes, flags, names, has=None):
        """Searches models in which something is wrong, each by its number in the text; and the right one."""
        self.room.compile(text, f"QUIET=1 {sizes}", flags)
        if has:
            self.all_right(sizes, flags, has)
        for number, name in enumerate(names, 1):
            said = self.room.search(flags, "-c1", table=number)
            is_found = "errors: 1\n" in said
            self.found += is_found
            self.tell("" if is_found else "nothing wrong was found",
                      f"{described(sizes)}: {name} is found after {states_of(said)} states: {fault_in(said)}")

    def random(self, text, sizes, table=None):
        """Compares random runs of the model with the steps of a second program."""
        self.room.put(text)
        steps, differ = 0, 0
        for number in range(RUNS):
            said = self.room.run("spin", f"-n{number}", *words_of(sizes), "queue.pml")
            made = re.findall(r"\b([sr]\d+) (\w+)$", said, re.M)
            plan = plan_of(sizes, [name for name, _ in made], table)
            events = derive.run_of(derive.plan_of(json.dumps(plan).encode()))[1]
            due = [(event["pass"], event["kind"]) for event in events]
            steps, differ = steps + len(made), differ + (made != due)
        self.tell(f"{differ} differ" if differ or not steps else "",
                  f"{described(sizes)}: {RUNS} random runs, {steps} steps: those of a second program")


def plan_of(sizes, steps, table=None):
    """The plan of a run of the model, by the passes of its steps."""
    size, senders, schedule = sizes_of(sizes), [], []
    for number in range(1, size["SENDERS"] + 1):
        sends = size["SENDS"] if number < size["SENDERS"] else size.get("FINAL", size["SENDS"])
        tags = [number * 8 + k + 1 for k in range(sends)]
        calls = [[tag, tag + 100] if table == "two_words" and tag % 2 else [tag] for tag in tags]
        senders.append(calls + ["close"] * (number > size["SENDERS"] - size["CLOSERS"]))
    for name in steps:
        if schedule and schedule[-1][0] == name:
            schedule[-1][1] += 1
        else:
            schedule.append([name, 1])
    return {"version": 2, "groups": size["GROUPS"], "capacity": size["CAPACITY"], "bound": size["BOUND"],
            "life": size["LIFE"], "senders": senders,
            "receivers": [size["TAKES"]] * (size["RECEIVERS"] * size["GROUPS"]), "schedule": schedule}


def show(room, text, sizes, flags, name):
    """Prints the shortest counterexample of a model that is found in some time: what is wrong, and a link to the page,
    on standard error; and its plan."""
    room.compile(text, sizes, flags if flags == CYCLES else f"{flags} -DREACH")
    room.search(flags, "-i", limit=PATIENCE)
    if not (room.folder / "queue.pml.trail").exists():
        print(f"model: {name}: {described(sizes)}: nothing wrong was found", file=sys.stderr)
        return 1
    said = room.run("spin", "-t", *words_of(sizes), "queue.pml")
    steps = re.findall(r"\b([sr]\d+) \w+$", said, re.M)
    plan = json.dumps(plan_of(sizes, steps), separators=(",", ":"))
    table = f"table={name}&" if name in VARIANTS else ""
    fault = "a run is endless" if flags == CYCLES else fault_in(said) or "a call is stuck"
    address = f"docs/pages/index.html#{table}event={len(steps)}&plan={urllib.parse.quote(plan, safe=',:')}"
    print(f"model: {name}: {described(sizes)}: {len(steps)} steps: {fault}\n{address}", file=sys.stderr)
    print(plan)
    return 0


def main(words):
    tables = {name: (sizes, flags) for _, flags, names, _ in WRONG for name, sizes in names.items()}
    is_file = words and words[0].endswith(".pml") and pathlib.Path(words[0]).is_file()
    are_sizes = all(re.fullmatch(r"[A-Z]+=\d+", word) for word in words[1:])
    if words and not (is_file and are_sizes) and (words[1:] or words[0] not in tables):
        print(__doc__)
        return 0 if words in (["-h"], ["--help"]) else 64
    if not shutil.which("spin") or not shutil.which("gcc"):
        print("model: SKIPPED: spin or gcc is not on this machine")
        return 77
    with tempfile.TemporaryDirectory() as folder:
        room = Room(folder)
        if is_file:
            text = pathlib.Path(words[0]).read_text()
            return show(room, text, " ".join(words[1:]), FAULTS, pathlib.Path(words[0]).stem)
        if words:
            return show(room, model.model(words[0]), *tables[words[0]], words[0])
        return check_all(Check(room))


def check_all(check):
    text, long_text = (TOP / "tests/model/queue.pml").read_text(), model.model("two_words")
    searches = [*((check.right, text, *row) for row in RIGHT),
                (check.right, long_text, LONG_BODIES, f"{AT_POINTS}, with bodies of one word and of two"),
                *((check.buffered, text, sizes) for sizes in BUFFERED),
                *((check.random, text, sizes) for sizes in RANDOM),
                *((check.random, long_text, sizes, "two_words") for sizes in RANDOM),
                (check.wrong, model.model(None, None, None), OTHER_POINTS[0], FAULTS, OTHER_POINTS[1]),
                *((check.wrong, model.model(None, *tables), sizes, flags, tables, has)
                  for sizes, flags, tables, has in WRONG)]
    made = searches[:: max(100 // ROUNDS, 1)]
    for search, *words in made:
        search(*words)
    if made == searches:
        check.reached()
    print(f"model: {check.failed} searches FAILED" if check.failed
          else f"model: no fault in {check.states} states, and {check.found} wrong machines are found")
    return bool(check.failed)


if __name__ == "__main__":
    sys.exit(main(sys.argv[1:]))
