#!/usr/bin/env python3
"""Converts histories of Jepsen and Porcupine by `tools/to_log.py`, and splits logs by `tools/lanes.py`, and sees what
`ccq judge` says.

Usage: tests/histories.py

The logs that are due, and the verdicts, are written here by hand. Each kind of history is judged as it is, and with a
planted fault, which has to be found; histories that aren't understood have to be refused, each by its line or with the
counts of what isn't understood, and read right by the option that the refusal names. Of lanes: two senders' items
overtake each other, which is a fault of the log and none of its lanes; a planted fault in one lane has the line numbers
of the whole log.
"""

import os
import subprocess
import sys
import tempfile
from pathlib import Path

sys.dont_write_bytecode = True
import asked

TOP = Path(__file__).resolve().parent.parent
PROGRAM = Path(os.environ.get("CCQ", TOP / "crates/ccq/out/ccq"))

# One operation a line, as Jepsen writes them; a client's process, a nemesis, a failed enqueue, two failed dequeues, an
# enqueue whose end isn't known, and a drain.
JEPSEN = """
{:type :invoke, :f :enqueue, :value 1, :process 0, :time 10, :index 0}
{:type :info, :f :start, :value nil, :process :nemesis, :time 11, :index 1} ; a comment, with a { in it
{:type :ok, :f :enqueue, :value 1, :process 0, :time 20, :index 2}
{:type :invoke, :f :enqueue, :value 2, :process 0, :time 21}
{:type :fail, :f :enqueue, :value 2, :process 0, :time 22, :error [:refused "a \\"text\\" with }"]}
{:type :invoke, :f :dequeue, :value nil, :process 1, :time 23}
{:type :ok, :f :dequeue, :value 1, :process 1, :time 25}
{:type :invoke, :f :dequeue, :process 1, :time 26}
{:type :fail, :f :dequeue, :process 1, :time 27, :error :empty}
{:type :invoke, :f :dequeue, :process 1, :time 28}
{:type :fail, :f :dequeue, :process 1, :time 29, :error :timeout}
#jepsen.history.Op{:index 11, :type :invoke, :f :enqueue, :value 3, :process 0, :time 30}
#jepsen.history.Op{:index 12, :type :info, :f :enqueue, :value 3, :process 0, :time 40}
{:type :invoke, :f :enqueue, :value [4 7], :process 2, :time 41}
{:type :ok, :f :enqueue, :value [4 7], :process 2, :time 42}
{:type :invoke, :f :drain, :process 1, :time 50}
{:type :ok, :f :drain, :process 1, :value [3 [4, 7]], :time 60}
{:type :invoke, :f :dequeue, :process 1, :time 61}
"""
JEPSEN_LOG = """
{"thread":"0","begin":10,"end":20,"send":1}
{"thread":"1","begin":23,"end":25,"take":1}
{"thread":"1","begin":26,"end":27,"take":null}
{"thread":"0","begin":30,"send":3}
{"thread":"2","begin":41,"end":42,"send":[4,7]}
{"thread":"1 drain 50 0","begin":50,"end":60,"take":3}
{"thread":"1 drain 50 1","begin":50,"end":60,"take":[4,7]}
{"thread":"1","begin":61,"take":null}
"""
# What is replaced in the history, the options, and how the verdict begins.
JEPSEN_ROWS = [
    (("", ""), [], "judge clean: 8 calls"),
    (("", ""), ["--drained"], "judge clean: 9 calls"),
    (("[3 [4, 7]]", "[3]"), [], "judge clean: 7 calls"),
    (("[3 [4, 7]]", "[3]"), ["--drained"], "judge fault: not empty: line 7 "),
    (("[3 [4, 7]]", "[3 3]"), [], "judge fault: taken twice: "),
    (("[3 [4, 7]]", "[3 5]"), [], "judge fault: never sent: "),
    ((":time 22, :error [:refused", ":time 22, :error [:timeout"), ["--empty", "timeout"], "judge clean: 9 calls"),
    ((":fail, :f :dequeue, :process 1, :time 27", ":fail, :f :dequeue, :process 1, :time 27, :value nil"), [],
     "judge clean: 8 calls"),
]
# A history without times, in a vector: the places are the times.
UNTIMED = ("[{:process 0 :type :invoke :f :enqueue :value 5} {:process 0 :type :ok :f :enqueue :value 5} #_ {:a 1} "
           "{:process 1 :type :invoke :f :close}]")
UNTIMED_LOG = '{"thread":"0","begin":0,"end":1,"send":5}\n{"thread":"1","begin":2,"close":true}\n'

PORCUPINE = """[
 {"ClientId":0,"Input":{"Op":"enqueue","Value":1},"Call":-5,"Output":{"Ok":true},"Return":10},
 {"ClientId":0,"Input":{"Op":"Put","Value":2},"Call":11,"Output":{"Ok":false},"Return":12},
 {"ClientId":1,"Input":{"Op":"dequeue"},"Call":11,"Output":{"Value":1,"Ok":true},"Return":20},
 {"ClientId":1,"Input":{"Op":"dequeue"},"Call":21,"Output":{"Ok":false},"Return":22}]
 {"clientId":2,"input":{"op":"take"},"call":23,"output":null,"return":24}
 {"clientId":2,"input":{"op":"take"},"call":25,"output":7,"return":9223372036854775807}
"""
PORCUPINE_LOG = """
{"thread":"0","begin":0,"end":15,"send":1}
{"thread":"0","begin":16,"end":17,"send":2,"answer":"full"}
{"thread":"1","begin":16,"end":25,"take":1}
{"thread":"1","begin":26,"end":27,"take":null}
{"thread":"2","begin":28,"end":29,"take":null}
{"thread":"2","begin":30,"take":null}
"""

# An item is polled that was never sent.
POLL = """
{:type :invoke, :f :enqueue, :value 1, :process 0, :time 1}
{:type :ok, :f :enqueue, :value 1, :process 0, :time 2}
{:type :invoke, :f :poll, :value nil, :process 1, :time 3}
{:type :ok, :f :poll, :value 9, :process 1, :time 4}
"""
# Calls on the queues of two keys, whose item has one number: each queue alone has an order.
KEYS = """
{:type :invoke, :f :enqueue, :value [7 1], :process 0, :time 10}
{:type :ok, :f :enqueue, :value [7 1], :process 0, :time 20}
{:type :invoke, :f :enqueue, :value [:b 1], :process 0, :time 21}
{:type :ok, :f :enqueue, :value [:b 1], :process 0, :time 25}
{:type :invoke, :f :dequeue, :value [:b nil], :process 1, :time 30}
{:type :ok, :f :dequeue, :value [:b 1], :process 1, :time 40}
{:type :invoke, :f :dequeue, :value [7 nil], :process 1, :time 41}
{:type :ok, :f :dequeue, :value [7 1], :process 1, :time 42}
{:type :invoke, :f :dequeue, :value [7 nil], :process 1, :time 43}
{:type :info, :f :dequeue, :value [7 nil], :process 1, :time 44}
"""
# Items that are texts, the first of which is taken first.
TEXTS = """
[{:type :invoke, :f :enqueue, :value "x", :process 0}
{:type :ok, :f :enqueue, :value "x", :process 0}
{:type :invoke, :f :enqueue, :value :x, :process 0}
{:type :ok, :f :enqueue, :value :x, :process 0}
{:type :invoke, :f :dequeue, :process 1}
{:type :ok, :f :dequeue, :value "x", :process 1}]
"""
# Operations of many threads by one ClientId: two that overlap, then one, and one that hasn't returned while it is made.
ONE_CLIENT = """
{"ClientId":0,"Input":{"Op":"enqueue","Value":1},"Call":1,"Output":null,"Return":20}
{"ClientId":0,"Input":{"Op":"dequeue"},"Call":5,"Output":{"Value":1,"Ok":true},"Return":25}
{"ClientId":0,"Input":{"Op":"dequeue"},"Call":20,"Output":{"Value":2},"Return":9223372036854775807}
{"ClientId":0,"Input":{"Op":"enqueue","Value":2},"Call":21,"Output":null,"Return":30}
"""
# The call at 20 may not follow that of thread 0, which ended at 20: lines would order the two.
THREADS = """
{"thread":"0","begin":1,"end":20,"send":1}
{"thread":"1","begin":5,"end":25,"take":1}
{"thread":"2","begin":20,"take":null}
{"thread":"0","begin":21,"end":30,"send":2}
"""
# Operations whose names are Go's numbers.
NUMBERED = """[{"ClientId":0,"Input":{"Op":0,"Value":1},"Call":1,"Output":{},"Return":2},
{"ClientId":0,"Input":{"Op":1},"Call":3,"Output":{"Value":1},"Return":4},
{"ClientId":0,"Input":{"Op":1},"Call":5,"Output":{},"Return":6}]"""
# The kind of a history, its text, options, and how the verdict begins, or what the refusal has.
READ_BY_OPTIONS = [
    ("jepsen", POLL, [], "to_log: FILE: unknown operations: poll (2); known are enqueue, "),
    ("jepsen", POLL, ["--ops", "poll=dequeue"], "judge fault: never sent: line 2 "),
    ("jepsen", POLL, ["--ignore", ":poll"], "to_log: left out: ignored poll (2)\njudge clean: 1 call has"),
    ("jepsen", POLL.replace(":enqueue", ":txn"), [], "to_log: FILE: unknown operations: txn (2), poll (2); "),
    ("jepsen", POLL, ["--ignore", "poll", "--ignore=enqueue"],
     "to_log: FILE: no calls are left; left out: ignored enqueue (2), ignored poll (2)"),
    ("jepsen", KEYS, [], "to_log: FILE: calls on several queues, by their keys: 7 (3), b (2); --key KEY "),
    ("jepsen", KEYS, ["--key", "7"], "judge clean: 3 calls"),
    ("jepsen", KEYS, ["--key", ":b"], "judge clean: 2 calls"),
    ("jepsen", KEYS.replace("[:b 1], :process 1", "[:b 2], :process 1"), ["--key", "b"],
     "judge fault: never sent: line 2 "),
    ("jepsen", KEYS.replace("[:b 1], :process 1", "[7 1], :process 1"), ["--key", "b"],
     "to_log: FILE: operation 6: process 1 began an "),
    ("jepsen", KEYS.replace("[7 1], :process 1", "1, :process 1"), ["--key=7"], "to_log: FILE: operation 8: no pair "),
    ("jepsen", KEYS, ["--key", "8"], "to_log: FILE: no call has the key 8; calls by their keys: 7 (3), b (2)"),
    ("jepsen", TEXTS, [],
     'to_log: FILE: operation 2: no item of one to four whole numbers below 2^64: "x"; --number-items '),
    ("jepsen", TEXTS, ["--number-items"], "judge clean: 3 calls"),
    ("jepsen", TEXTS.replace('"x", :process 1', ":x, :process 1"), ["--number-items"],
     "judge fault: overtaken: line "),
    ("porcupine", ONE_CLIENT, [],
     "to_log: FILE: operations that began before the last one of their client returned: ClientId 0 (3); "),
    ("porcupine", ONE_CLIENT, ["--no-clients"], "judge clean: 4 calls"),
    ("porcupine", ONE_CLIENT.replace('"Value":1,"Ok"', '"Value":3,"Ok"'), ["--no-clients"],
     "judge fault: never sent: line 2 "),
    ("porcupine", NUMBERED, [], "to_log: FILE: unknown operations: 1 (2), 0 (1); "),
    ("porcupine", NUMBERED, ["--ops", "0=enqueue", "--ops", "1=take"], "judge clean: 3 calls"),
    ("porcupine", NUMBERED, ["--ops", "1=enqueue", "--ops", "0=take"], "to_log: FILE: operation 2: no item "),
    ("porcupine", NUMBERED, ["--ignore", "1", "--ops=0=Put"], "to_log: left out: ignored 1 (2)\njudge clean: 1 call has"),
    ("porcupine", NUMBERED.replace('"Op":0,', ""), [], "to_log: FILE: 1 of 3 operations have no Op in Input: "),
]
# Lines that are refused.
LINES = [
    ["knossos", "FILE"],
    ["jepsen", "--no-clients", "FILE"],
    ["porcupine", "--drained", "FILE"],
    ["jepsen", "--ops", "poll=peek", "FILE"],
]

# The kind of a history, its text, and what its refusal has.
REFUSED = [
    ("jepsen", "", "no operation of a client"),
    ("jepsen", "{:process 0 :type :ok :f :enqueue :value 1}", "operation 1: process 0 has no pending operation"),
    ("jepsen", "{:process 0 :type :invoke :f :enqueue :value 1}" * 2, "operation 2: process 0 has a pending operation"),
    ("jepsen", "{:process 0 :type :invoke :f :enqueue :value :a} {:process 0 :type :ok :f :enqueue :value :a}",
     "operation 2: no item"),
    ("jepsen", "{:process 0 :type :invoke :f :drain} {:process 0 :type :info :f :drain}",
     "operation 2: a :drain that isn't :ok"),
    ("jepsen", "{:process 0 :type :invoke", "the history ends within a value"),
    ("jepsen", "{:process 0 :type}", "a key without a value"),
    ("porcupine", "", "no operation"),
    ("porcupine", "{", "no JSON"),
    ("jepsen", '{:process "a" :type :invoke :f :dequeue}', "operation 1: no map with a :process "),
    ("porcupine", '{"ClientId":0,"Call":1,"Return":2,"Input":{"Op":"drain"}}', "operation 1: a drain, "),
    ("porcupine", '{"ClientId":0,"Call":1,"Return":2,"Input":{"Op":"send","Value":"x"}}', "operation 1: no item"),
    ("porcupine", '{"ClientId":0,"Call":1,"Input":{"Op":"send","Value":1}}', "operation 1: no ClientId, Call, Return"),
]

# Items of two senders overtake each other, and each sender's are in order; the pending take may have got the item 12.
LANES = """{"thread":"a","begin":1,"end":2,"send":11}
{"thread":"b","begin":3,"end":4,"send":21}
{"thread":"a","begin":5,"end":6,"send":12}
{"thread":"a","begin":7,"end":8,"send":13}
{"thread":"c","begin":9,"end":10,"take":21}
{"thread":"c","begin":11,"end":12,"take":11}
{"thread":"c","begin":13,"end":14,"take":null}
{"thread":"d","begin":13,"take":null}
{"thread":"c","begin":15,"end":16,"take":13}
"""
# What is replaced in it, and what the lanes say.
LANE_ROWS = [
    (("", ""), "lanes: 2 of 2 lanes are clean\n"),
    # 13 is taken while 11 and 12 are in the queue, and one take is pending: that shows before 13 is taken again.
    (('"take":11}', '"take":13}'),
     "lanes: thread a: judge fault: overtaken: line 6 (thread c) took item 13 of line 4 (thread a), while item 12 of "
     "line 3 (thread a), sent before it, was in the queue; there at least until line 8 (thread d) began (no line took "
     "it, and 1 take hasn't returned)\nlanes: 1 of 2 lanes are clean\n"),
    (('"take":13}', '"take":99}'),
     "lanes: thread no line: judge fault: never sent: line 9 (thread c) took item 99, which no accepted send sent\n"
     "lanes: 2 of 3 lanes are clean\n"),
    (('"thread":"d","begin":13,"take":null', '"thread":"d","begin":13,"end":14,"take":null'),
     "lanes: thread a: judge fault: overtaken: line 9 (thread c) took item 13 of line 4 (thread a), while item 12 of "
     "line 3 (thread a), sent before it, was in the queue; no line took it: lost, or still in the queue\n"
     "lanes: 1 of 2 lanes are clean\n"),
    (('"take":13}', '"take":99}\n{"ends":"whole"}'),
     "lanes: thread no line: judge fault: never sent: line 9 (thread c) took item 99, which no accepted send sent\n"
     "lanes: 2 of 3 lanes are clean\n"),
    (('"take":13}', '"take":99}\n{"ends":"early"}'), "lanes: 3 of 3 lanes are clean\n"),
    (('"take":13}', '"take":13}\n{"ends":"whole"}\n{"ends":"whole"}'), ""),
]


def judge(log):
    """What the program says of a log."""
    run = subprocess.run([PROGRAM, "judge"], input=log, capture_output=True, text=True, check=False)
    return run.stdout or run.stderr


def tool(name, words, text):
    """What a tool says of a file with this text: its status, its output and its errors."""
    with tempfile.NamedTemporaryFile("w", suffix=".txt") as file:
        file.write(text)
        file.flush()
        command = [sys.executable, "-B", TOP / "tools" / name,
                   *[file.name if word == "FILE" else word for word in words]]
        run = subprocess.run(command, capture_output=True, text=True, check=False,
                             env=os.environ | {"CCQ": str(PROGRAM)})
    return run.returncode, run.stdout, run.stderr.replace(file.name, "FILE")


def is_right(what, found, due):
    if found != due:
        print(f"histories: {what}: found {found!r}, and due is {due!r}")
    return found == due


def judge_histories():
    """Whether all is as it has to be."""
    found = tool("to_log.py", ["jepsen", "FILE"], JEPSEN)
    left = "to_log: left out: failed enqueue (1), failed dequeue (1)\n"
    right = is_right("Jepsen's", found, (0, JEPSEN_LOG.lstrip(), left))
    for (old, new), options, due in JEPSEN_ROWS:
        _, log, _ = tool("to_log.py", ["jepsen", *options, "FILE"], JEPSEN.replace(old, new) if old else JEPSEN)
        right &= is_right(f"{new} {options}", judge(log)[: len(due)], due)
    right &= is_right("without times", tool("to_log.py", ["jepsen", "FILE"], UNTIMED), (0, UNTIMED_LOG, ""))
    found = tool("to_log.py", ["porcupine", "FILE"], PORCUPINE)
    right &= is_right("Porcupine's", found, (0, PORCUPINE_LOG.lstrip(), ""))
    right &= is_right("its verdict", judge(found[1])[:21], "judge clean: 5 calls ")
    twice = tool("to_log.py", ["porcupine", "FILE"], PORCUPINE.replace('"output":null', '"output":1'))[1]
    right &= is_right("an item twice", judge(twice)[:25], "judge fault: taken twice:")
    for kind, text, due in REFUSED:
        status, out, error = tool("to_log.py", [kind, "FILE"], text)
        right &= is_right(f"{text}: {error}", (status, out, due in error), (1, "", True))
    for kind, text, options, due in READ_BY_OPTIONS:
        status, out, error = tool("to_log.py", [kind, *options, "FILE"], text)
        said = error + judge(out) if status == 0 else error
        right &= is_right(f"{options} {text}", (said[: len(due)], status), (due, int("FILE" in due)))
    found = tool("to_log.py", ["porcupine", "--no-clients", "FILE"], ONE_CLIENT)
    right &= is_right("without clients", found, (0, THREADS.lstrip(), ""))
    right &= is_right("no file", tool("to_log.py", ["jepsen", "/nowhere"], "")[0], 1)
    for line in LINES:
        right &= is_right(f"{line}", tool("to_log.py", line, POLL)[0], 64)
    right &= is_right("the whole log", judge(LANES)[:12], "judge fault:")
    for (old, new), due in LANE_ROWS:
        right &= is_right("lanes", tool("lanes.py", ["FILE"], LANES.replace(old, new) if old else LANES)[1], due)
    right &= is_right("no lanes", tool("lanes.py", ["FILE"], "\n")[0], 64)
    right &= is_right("no log", tool("lanes.py", ["FILE"], "[1]\n")[0], 64)
    refused = len(REFUSED) + sum("FILE" in due for *_, due in READ_BY_OPTIONS)
    converted = len(JEPSEN_ROWS) + 4 + len(REFUSED) + len(READ_BY_OPTIONS) - refused
    print(f"histories: {converted} histories are converted, {refused} refused, {len(LANE_ROWS)} logs split into lanes")
    return right


def main():
    if not os.access(PROGRAM, os.X_OK):
        print("histories: there is no crates/ccq/out/ccq: run `rt ci` first, or `rt run` in crates/ccq")
        return 1
    return 0 if judge_histories() else 1


if __name__ == "__main__":
    sys.exit(main())
