#!/usr/bin/env python3
"""Cuts windows out of what is recorded of real bounded queues, and sees that `ccq judge` accuses no window, and finds a
planted fault.

Usage: tests/windows.py

The queues are Python's `queue.Queue` and a `deque` under a lock that can be closed. Threads send, take and close; a
clock is read directly before and after each call. A window begins and ends at a moment, and is said to begin late: it
lacks calls before it, the items of these that are still in the queue, and often the close. Half of the windows are
judged with the capacity of the queue. None may be accused, whatever the judge's rules are: each is of a correct queue.
Some are cut by the program too, which has to say the same. Then two takes of a window are exchanged, the first of which
ended before the second began, of items sent one after another; or a send that found the queue closed is said to have
been accepted. These have to be found, the latter also in a window that the program cuts behind the only close. And of
each window some calls are dropped, wherever they are, and it is said to end early in place of beginning late: it isn't
accused.
"""

import collections
import json
import os
import queue
import random
import re
import subprocess
import sys
import threading
import time
from concurrent.futures import ThreadPoolExecutor
from pathlib import Path

sys.dont_write_bytecode = True
import asked

TOP = Path(__file__).resolve().parent.parent
PROGRAM = Path(os.environ.get("CCQ", TOP / "crates/ccq/out/ccq"))
CAPACITY = 16
WINDOWS = 1000
# Every how many windows the program itself cuts one out of the whole log, too.
CUTS = 7
# How many calls each thread of a recording makes.
CALLS = 1200
LATE, EARLY = '{"begins":"late"}\n', '{"ends":"early"}\n'
# A queue that was full before the log, and one that was closed before the log and is closed again in it.
BY_HAND = [
    (["--capacity", "1"], '{"thread":"a","begin":10,"end":11,"send":5,"answer":"full"}\n'),
    ([], '{"thread":"a","begin":10,"end":11,"send":5,"answer":"closed"}\n'
         '{"thread":"a","begin":12,"end":13,"close":true}\n'),
    ([], '{"thread":"a","begin":10,"end":11,"take":null,"answer":"ended"}\n'
         '{"thread":"a","begin":12,"end":13,"close":true}\n'),
]


class Library:
    """Python's own bounded queue."""

    def __init__(self):
        self.queue = queue.Queue(CAPACITY)

    def send(self, item):
        try:
            self.queue.put_nowait(item)
        except queue.Full:
            return "full"
        return None

    def take(self):
        try:
            return self.queue.get_nowait(), None
        except queue.Empty:
            return None, None

    def close(self):
        """It can't be closed."""
        return False


class Locked:
    """A deque under a lock, which can be closed any number of times."""

    def __init__(self):
        self.lock, self.items, self.closed = threading.Lock(), collections.deque(), False

    def send(self, item):
        with self.lock:
            if self.closed:
                return "closed"
            if len(self.items) == CAPACITY:
                return "full"
            self.items.append(item)
            return None

    def take(self):
        with self.lock:
            if self.items:
                return self.items.popleft(), None
            return None, "ended" if self.closed else None

    def close(self):
        with self.lock:
            self.closed = True
        return True


def act(kind, number, turn, rng, subject):
    """One call of a thread on a queue: its line without its times."""
    if kind == "close":
        return {"close": True} if subject.close() else None
    if kind == "send":
        item = number << 32 | turn
        answer = subject.send(item)
        return {"send": item} | ({"answer": answer} if answer else {})
    item, answer = subject.take()
    return {"take": item} | ({"answer": answer} if answer else {})


def kind_of(turn, sends, closing, rng):
    """What a thread does next. The queue fills and empties by turns, and is closed late and often."""
    if closing and turn > CALLS * 0.6 and rng.random() < 0.05:
        return "close"
    busy = 0.9 if turn // 100 % 2 == sends else 0.5
    return "send" if (rng.random() < busy) == sends else "take"


def record(kind, seed):
    """The calls that six threads made on a queue of this kind."""
    subject, logs = kind(), [[] for _ in range(6)]
    start = threading.Barrier(len(logs))

    def work(number):
        rng, log = random.Random(seed * 100 + number), logs[number]
        start.wait()
        for turn in range(CALLS):
            what = kind_of(turn, number % 2, kind is Locked, rng)
            begin = time.monotonic_ns()
            done = act(what, number, turn, rng, subject)
            end = time.monotonic_ns()
            if done:
                log.append({"thread": number, "begin": begin, "end": end} | done)

    threads = [threading.Thread(target=work, args=(number,)) for number in range(len(logs))]
    for thread in threads:
        thread.start()
    for thread in threads:
        thread.join()
    return sorted((call for log in logs for call in log), key=lambda call: call["begin"])


def cut(call, until):
    """The call as it was at a moment: one that ended later hasn't returned. Or None, if it is a send that was refused
    later."""
    if call["end"] < until:
        return call
    if "send" in call and "answer" in call:
        return None
    open_call = {key: value for key, value in call.items() if key not in ("end", "answer")}
    return open_call | ({"take": None} if "take" in call else {})


def window(calls, rng):
    """The calls between two moments, with those that were under way at the first, or without; and the moments. There
    are some: of sends alone that are refused after the second moment nothing is left."""
    while True:
        size = rng.choice([3, 10, 40, 200, 600])
        first = rng.randrange(len(calls) - size)
        start, until = calls[first]["begin"], calls[first + size]["begin"]
        kept = within(calls, rng.choice(["begin", "end"]), start, until)
        if kept:
            return kept, start, until


def within(calls, key, start, until):
    """The calls that began or ended at the first moment or later, and began before the second."""
    kept = [cut(call, until) for call in calls if call[key] >= start and call["begin"] < until]
    return [call for call in kept if call]


def exchanged(calls):
    """The calls with two takes exchanged: of two items sent one after another the later one is taken first. Or None."""
    sends = {call["send"]: call for call in calls if "send" in call and "answer" not in call and "end" in call}
    takes = [call for call in calls if call.get("take") is not None and call["take"] in sends]
    for first in takes:
        for second in takes:
            earlier, later = sends[first["take"]], sends[second["take"]]
            if earlier["end"] < later["begin"] and first["end"] < second["begin"]:
                swap = {id(first): second["take"], id(second): first["take"]}
                return [call | {"take": swap[id(call)]} if id(call) in swap else call for call in calls]
    return None


def reopened(calls):
    """The calls with a send accepted that found the queue closed, after another call that showed it closed. Or None."""
    if not any("close" in call for call in calls):
        return None
    shown = [call["end"] for call in calls if "end" in call
             and ("close" in call or call.get("answer") in ("closed", "ended"))]
    for call in calls:
        if call.get("answer") == "closed" and "send" in call and min(shown) < call["begin"]:
            accepted = {key: value for key, value in call.items() if key != "answer"}
            return [accepted if other is call else other for other in calls]
    return None


def behind_close(calls):
    """The calls with one close, the first that ended; the same with a send accepted of two that found the queue closed
    behind it; and the moment behind it. Or None."""
    closes = sorted((call for call in calls if "close" in call), key=lambda call: call["end"])
    if not closes:
        return None
    kept = [call for call in calls if call is closes[0] or "close" not in call]
    first, *later = [call for call in kept if call.get("answer") == "closed" and closes[0]["end"] < call["begin"]]
    accepted = next(call for call in later if first["end"] < call["begin"])
    plant = {key: value for key, value in accepted.items() if key != "answer"}
    return kept, [plant if call is accepted else call for call in kept], closes[0]["end"] + 1


def judged(options, text, first=LATE):
    """What the program says of a log that begins late, or doesn't."""
    run = subprocess.run([PROGRAM, "judge", *options], input=first + text, capture_output=True, text=True, check=False)
    return run.returncode, run.stdout or run.stderr


def text_of(calls):
    return "".join(json.dumps(call) + "\n" for call in calls)


def judged_window(logs, number):
    """Of a window what is wrong with its verdict, or None; whether it has calls that found the queue full or closed;
    and the same of the planted faults: what is wrong, and how many there are."""
    rng = random.Random(number)
    calls, start, until = window(logs[number % len(logs)], rng)
    options = ["--capacity", str(CAPACITY)] * (rng.random() < 0.5)
    answers = {call.get("answer") for call in calls}
    status, said = judged(options, text_of(calls))
    wrong = [f"window {number} is accused: {said}"] if status != 0 else []
    plants = [plant for plant in (exchanged(calls), reopened(calls)) if plant]
    for plant in plants:
        status, said = judged(options, text_of(plant))
        if status != 1:
            wrong.append(f"the fault in window {number} isn't found: {said}")
    kept = [call for call in calls if rng.random() < 0.9]
    status, said = judged(options, text_of(kept) + EARLY, "") if kept else (0, "")
    if status != 0:
        wrong.append(f"window {number} without some calls is accused: {said}")
    if number % CUTS == 0:
        wrong += cut_wrongly(logs[number % len(logs)], number, start, until)
    return wrong, "full" in answers and bool(options), "close" in {key for call in calls for key in call}, len(plants)


def cut_wrongly(calls, number, start, until):
    """What is wrong if the program cuts the log itself: at both moments, and at the second, with the capacity and with
    every call before it."""
    whole = text_of(calls)
    kept = within(calls, "end", start, until)
    # Closes are judged if the log has one, in the window or not.
    lacks = any("close" in call for call in calls) and not any("close" in call for call in kept)
    due = judged([], text_of(kept + [{"thread": "close", "begin": 0, "close": True}] * lacks))
    due = (due[0], re.sub(r"(?<=clean: )\d+", lambda calls: str(int(calls[0]) - lacks), due[1]))
    both = judged(["--from", str(start), f"--until={until}"], whole, "")
    has_calls = within(calls, "begin", 0, until)
    first = judged(["--until", str(until), "--capacity", str(CAPACITY)], whole, "") if has_calls else (0, "")
    wrong = [] if both == due else [f"window {number} cut by the program: {both[1]}, and by the test: {due[1]}"]
    return wrong + ([f"log {number} until {until} is accused: {first[1]}"] if first[0] != 0 else [])


def judge_windows():
    """Whether no window is accused, and each planted fault is found."""
    right = True
    for options, text in BY_HAND:
        status, said = judged(options, text)
        if status != 0:
            print(f"windows: a log by hand is accused: {said}", end="")
            right = False
    switch = sys.getswitchinterval()
    sys.setswitchinterval(1e-6)
    logs = [record(kind, seed) for seed, kind in enumerate([Library, Locked, Locked, Library])]
    sys.setswitchinterval(switch)
    full = closes = faults = 0
    for legal, plant, moment in filter(None, map(behind_close, logs)):
        faults += 1
        for calls, due in ((legal, 0), (plant, 1)):
            status, said = judged(["--from", str(moment)], text_of(calls), "")
            if status != due:
                print(f"windows: a window behind the close has the status {status}, not {due}: {said}", end="")
                right = False
    with ThreadPoolExecutor(os.cpu_count()) as pool:
        for wrong, has_full, has_close, plants in pool.map(lambda number: judged_window(logs, number), range(WINDOWS)):
            full, closes, faults = full + has_full, closes + has_close, faults + plants
            right &= not wrong
            for line in wrong:
                print(f"windows: {line}", end="")
    print(f"windows: {WINDOWS} windows of {len(logs)} recorded logs are judged, {full} with a capacity and full, "
          f"{closes} with closes; {faults} faults are planted")
    return right and min(full, closes, faults) > 50


def main():
    if not os.access(PROGRAM, os.X_OK):
        print("windows: there is no crates/ccq/out/ccq: run `rt ci` first, or `rt run` in crates/ccq")
        return 1
    return 0 if judge_windows() else 1


if __name__ == "__main__":
    sys.exit(main())
