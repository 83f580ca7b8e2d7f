#!/usr/bin/env python3
"""Times `ccq drive`, another build of it and the driver by hand, interleaved: each round runs every program once, and
the median of the rounds is printed with its quartiles.

    bench/drive.py [--rounds N] [--seconds N] [--beside PROGRAM] [--only crowd|few|twice|memory].. [--write]

It runs `crates/ccq/out/ccq` (build it by `rt run` in crates/ccq) and `plain drive` of bench/plain (`cargo build
--release`), the driver by hand over std's Mutex with Condvars, which has no bound; --beside names another `ccq`, called
`before`. A round goes over all shapes of a part; no further round of a part begins when it has had its share of
--seconds. With --write `crowd` writes the table `driver` of docs/BENCH.md, and `memory` the table `memory`.

  crowd   4 and 63 or 64 threads on each side, bounds 1, 8 and 64, capacity 64; and capacity 1
  few     one thread, two and four on each side, capacities 64 and 1024
  twice   a sender and a receiver for each processor: twice as many threads as processors
  memory  one million items, four million, and none: what a run keeps for each item at its peak

A row a shape: for an item the nanoseconds of the clock, with the quartiles and after them the worst run, and in square
brackets those of all processors together; `memory` has the bytes for an item.
"""
import argparse
import os
import random
import signal
import statistics
import sys
import threading
import time

sys.dont_write_bytecode = True
from document import row, spread, write

TOP = os.path.dirname(os.path.dirname(os.path.abspath(__file__)))
QUEUE = os.path.join(TOP, "crates", "ccq", "out", "ccq")
PLAIN = os.path.join(TOP, "bench", "plain", "target", "release", "plain")
LIMIT = 30.0
PROCESSORS = os.cpu_count() or 4

# Senders, receivers, capacity, bound, items of each sender.
CROWD = [(s, r, 64, b, n // s) for s, r, n in ((4, 4, 8000), (63, 64, 6300)) for b in (1, 8, 64)]
CROWD += [(4, 4, 1, 8, 2000), (63, 64, 1, 8, 100)]
FEW = [(s, s, c, 8, 200_000 // s) for s in (1, 2, 4) for c in (64, 1024)] + [(1, 1, 1, 8, 20_000)]
TWICE = [(PROCESSORS, PROCESSORS, 64, b, 40_000 // PROCESSORS) for b in (1, 2, 8, 64)]
MEMORY = [(4, 4, 64, 8, n) for n in (0, 250_000, 1_000_000)]
PARTS = {"crowd": CROWD, "few": FEW, "twice": TWICE, "memory": MEMORY}
TABLES = {"crowd": "driver", "memory": "memory"}


def command(program, shape):
    """The line that drives this shape, and what it has to print."""
    senders, receivers, capacity, bound, items = shape
    if program == "by hand":
        line = [PLAIN, "drive", str(senders), str(receivers), str(capacity), str(items)]
    else:
        numbers = {"senders": senders, "receivers": receivers, "items": items, "capacity": capacity, "bound": bound}
        line = [program, "drive", *(word for name, n in numbers.items() for word in (f"--{name}", str(n)))]
    return line, f"sent {senders * items}\ntaken {senders * items}\naudit clean\n"


def run(program, shape):
    """The seconds of the clock and of the processors that a run takes, and the most bytes that it keeps. A run that
    doesn't end is ended, and counts as long as that took."""
    line, wanted = command(program, shape)
    out, into = os.pipe()
    start = time.perf_counter()
    child = os.posix_spawn(line[0], line, os.environ, file_actions=[(os.POSIX_SPAWN_DUP2, into, 1)])
    os.close(into)
    timer = threading.Timer(LIMIT, os.kill, (child, signal.SIGKILL))
    timer.start()
    _, status, usage = os.wait4(child, 0)
    clock = time.perf_counter() - start
    timer.cancel()
    with os.fdopen(out) as told:
        text = told.read()
    if status == 0 and text != wanted or status not in (0, signal.SIGKILL):
        sys.exit(f"{' '.join(line)}: status {status}, {text!r}")
    return clock, usage.ru_utime + usage.ru_stime, usage.ru_maxrss * 1024


def machine():
    """The load, and the processors' time so far: all of it, and what the host took."""
    with open("/proc/stat") as stat:
        times = [int(n) for n in stat.readline().split()[1:9]]
    return os.getloadavg(), sum(times), times[7]


def times(shapes, names, runs):
    """A row for each shape, with the time of each program."""
    rows = [["senders and receivers", "capacity", "bound", *names.values()]]
    for shape in shapes:
        senders, receivers, capacity, bound, items = shape
        per = 1e9 / (senders * items)
        cells = []
        for measured in runs[shape].values():
            clocks, processors, _ = zip(*measured)
            cells.append(f"{spread([c * per for c in clocks])}, {max(clocks) * per:,.0f} "
                         f"[{statistics.median(processors) * per:,.0f}]")
        rows.append([f"{senders} and {receivers}", str(capacity), str(bound), *cells])
    return rows


def memory(shapes, names, runs):
    """A row for each number of items, with the bytes that each program keeps of an item at its peak."""
    rows = [["items", *names.values()]]
    none, *rest = shapes
    for shape in rest:
        items = shape[0] * shape[4]
        cells = []
        for name, measured in runs[shape].items():
            least = statistics.median(kept for _, _, kept in runs[none][name])
            cells.append(spread([(kept - least) / items for _, _, kept in measured]))
        rows.append([f"{items:,}", *cells])
    return rows


def main():
    parser = argparse.ArgumentParser()
    parser.add_argument("--rounds", type=int, default=20)
    parser.add_argument("--seconds", type=float, default=1e9)
    parser.add_argument("--beside", metavar="PROGRAM")
    parser.add_argument("--only", action="append", choices=PARTS)
    parser.add_argument("--write", action="store_true")
    options = parser.parse_args()
    names = {QUEUE: "`ccq drive`"}
    if options.beside:
        names[os.path.abspath(options.beside)] = "before"
    names["by hand"] = "by hand"
    parts = options.only or list(PARTS)
    load, total, stolen = machine()
    print(f"{time.strftime('%Y-%m-%d %H:%M', time.gmtime())} UTC, {PROCESSORS} processors, load {load[0]:.2f}",
          flush=True)
    for part in parts:
        shapes = PARTS[part]
        runs = {shape: {name: [] for name in names} for shape in shapes}
        end = time.monotonic() + options.seconds / len(parts)
        rounds = 0
        while rounds < options.rounds and (rounds < 3 or time.monotonic() < end):
            for shape in shapes:
                for name in random.sample(list(names), len(names)):
                    runs[shape][name].append(run(name, shape))
            rounds += 1
        print(f"{part}, {rounds} rounds", flush=True)
        rows = (memory if part == "memory" else times)(shapes, names, runs)
        print(*map(row, rows), sep="\n", flush=True)
        if options.write and part in TABLES:
            write(TABLES[part], rows)
    load, total_now, stolen_now = machine()
    share = (stolen_now - stolen) / max(1, total_now - total)
    print(f"load {load[0]:.2f} at the end; the host took {share:.3f} of the processors", flush=True)


if __name__ == "__main__":
    main()
