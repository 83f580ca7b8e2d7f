#!/usr/bin/env python3
"""Follows logs with `ccq judge --follow`: recorded ones of a correct queue, the same with planted faults, a pipe that
stays open, a recorder that is killed, and a long log, whose time and memory are measured.

Usage: tests/follow.py

The queue is a `deque` under a lock (tests/windows.py). No log of it may be accused, nor one that is cut anywhere. Then
two takes are exchanged, an item is taken again, or a send is accepted behind the close: that has to be found, with the
numbers of the lines that were changed, and while the pipe is still open. The long log has 1,000,000 calls of a queue
that holds up to some hundred items. To follow it takes at most twice the time of judging it, and a tenth of the memory.
"""

import os
import random
import re
import subprocess
import sys
import tempfile
import time
from pathlib import Path

sys.dont_write_bytecode = True
import asked
import windows
from windows import PROGRAM, judged, text_of

# The calls of the long log, and how many lines before a fault are enough for several parts.
LONG, LINES = 1_000_000, 60_000


def made(number, seed, threads=8):
    """The lines of a log of a correct queue: each call takes effect at a moment between its begin and its end."""
    rng, moment, held, item, busy = random.Random(seed), 0, [], 0, [0] * threads
    lines = []
    for _ in range(number):
        thread = rng.randrange(threads)
        begin = max(busy[thread] + 1, moment + rng.randrange(10))
        moment = max(moment + 1, begin + rng.randrange(10))
        end = moment + rng.randrange(30)
        busy[thread] = end
        if rng.random() < (0.6 if len(held) < 100 else 0.4):
            held.append(item)
            act, item = {"send": item}, item + 1
        else:
            act = {"take": held.pop(0) if held else None}
        lines.append({"thread": thread, "begin": begin, "end": end} | act)
    return sorted(lines, key=lambda call: call["end"])


def followed(calls):
    """The status of the program that follows the log of these calls, and what it says."""
    return judged(["--follow"], text_of(calls), first="")


def exchange(calls, start):
    """The calls with two takes exchanged, of items that were sent one after another; and the lines of the takes."""
    sends = {call["send"]: call for call in calls if "send" in call}
    takes = [place for place in range(start, len(calls)) if calls[place].get("take") is not None]
    for first, second in zip(takes, takes[20:]):
        one, other = calls[first], calls[second]
        if one["end"] < other["begin"] and sends[one["take"]]["end"] < sends[other["take"]]["begin"]:
            new = calls.copy()
            new[first], new[second] = one | {"take": other["take"]}, other | {"take": one["take"]}
            return new, {first + 1, second + 1}
    raise AssertionError("no two takes can be exchanged")


def again(calls, start):
    """The calls with one more take of an item that was taken before; and the lines of both."""
    first = next(place for place in range(start, len(calls)) if calls[place].get("take") is not None)
    second = next(place for place in range(first + 50, len(calls)) if calls[place].get("take") is not None)
    taken = calls[second] | {"take": calls[first]["take"]}
    return calls[:second] + [taken] + calls[second + 1:], {first + 1, second + 1}


def reopened(calls, start):
    """The calls with a close, and a send behind it; and the lines of the close and of a send."""
    call = calls[start]
    close = {"thread": "close", "begin": call["begin"], "end": call["begin"] + 1, "close": True}
    send = next(place for place in range(start, len(calls)) if "send" in calls[place]
                and calls[place]["begin"] > call["begin"] + 1)
    return calls[:start] + [close] + calls[start:], {start + 1, send + 2}


def is_found(name, plant, calls):
    """Whether a fault that is planted behind several parts is found, with a changed line."""
    changed, lines = plant(calls, LINES * 2 // 3)
    status, said = followed(changed)
    named = {int(line) for line in re.findall(r"\d+", said)}
    if status == 1 and named & lines:
        return True
    print(f"follow: {name}: the lines {sorted(lines)} have a fault, and the status is {status}: {said}", end="")
    return False


def stops_early(calls):
    """Whether the program ends at a fault while its pipe stays open, and the writer goes on."""
    changed, _lines = exchange(calls, 1000)
    program = subprocess.Popen([PROGRAM, "judge", "--follow"], stdin=subprocess.PIPE, stdout=subprocess.PIPE, text=True)
    try:
        for at in range(0, len(changed), 1000):
            program.stdin.write(text_of(changed[at:at + 1000]))
            program.stdin.flush()
    except BrokenPipeError:
        pass
    status = program.wait(timeout=60)
    if status != 1:
        print(f"follow: a pipe that stays open has the status {status}")
    return status == 1


def is_cut_clean(calls):
    """Whether no log is accused that ends anywhere, as that of a recorder that is killed."""
    rng, right = random.Random(1), True
    for _ in range(20):
        status, said = followed(calls[:rng.randrange(1, len(calls))])
        right &= status == 0
        if status != 0:
            print(f"follow: a log that ends early is accused: {said}", end="")
    return right


def are_recorded_clean():
    """Whether no recorded log is accused, whole or with some lines lost."""
    right, rng = True, random.Random(2)
    for seed, kind in enumerate([windows.Library, windows.Locked] * 2):
        calls = windows.record(kind, seed)
        calls.sort(key=lambda call: call["end"])
        for kept in (calls, [call for call in calls if rng.random() < 0.9]):
            status, said = followed(kept)
            right &= status == 0
            if status != 0:
                print(f"follow: a recorded log is accused: {said}", end="")
    return right


def peak_of(pid):
    """The kilobytes that a process has had at most; 0 once it has ended."""
    found = re.search(r"^VmHWM:\s+(\d+) kB$", Path(f"/proc/{pid}/status").read_text(encoding="ascii"), re.M)
    return int(found[1]) if found else 0


def measured(options, path):
    """The exit status, the seconds of the processor and the megabytes of a run, which are looked at while it runs."""
    peak = 0
    with open(path, "rb") as log:
        program = subprocess.Popen([PROGRAM, "judge", *options], stdin=log, stdout=subprocess.DEVNULL)
    while True:
        ended, status, used = os.wait4(program.pid, os.WNOHANG)
        if ended:
            return status, used.ru_utime + used.ru_stime, peak / 1024
        peak = max(peak, peak_of(program.pid))
        time.sleep(0.005)


def is_bounded():
    """Whether a long log is followed in bounded time and memory."""
    with tempfile.TemporaryDirectory() as folder:
        path = Path(folder, "log")
        path.write_text(text_of(made(LONG, 3)), encoding="ascii")
        whole = measured([], path)
        parts = measured(["--follow"], path)
    print(f"follow: {LONG} calls take {whole[1]:.2f} s and {whole[2]:.1f} MB, and followed {parts[1]:.2f} s "
          f"and {parts[2]:.1f} MB")
    return whole[0] == parts[0] == 0 and parts[1] <= 2 * whole[1] and parts[2] <= whole[2] / 10


def main():
    calls = made(LINES, 1)
    right = followed(calls)[0] == 0
    for name, plant in [("exchanged", exchange), ("taken again", again), ("reopened", reopened)]:
        right &= is_found(name, plant, calls)
    right &= stops_early(made(4 * LINES, 4))
    right &= is_cut_clean(calls)
    right &= are_recorded_clean()
    right &= is_bounded()
    print(f"follow: {'1 passed, 0 failed' if right else '0 passed, 1 failed'}")
    return 0 if right else 1


if __name__ == "__main__":
    sys.exit(main())
