#!/usr/bin/env python3
"""Times the proved queue beside its peers, in one run, and writes the tables and pictures of docs/BENCH.md.

    bench/peers/run.py [--seconds N] [--print | --all | --busy | --tail | --busy-tail | --steps | --unbounded
        | --pinned | --c] [--again]

One command, in some N seconds (420 where no number is given; 120 are a short form, and 20 a trial), after the build. It
takes crossbeam's, flume's and smol's queues from Debian's packages: those that aren't there it installs, where it is
root and there is apt-get, and goes on without those that it can't have. The proved queue is linked from
bindings/rust/lib.

A run is some rounds of bursts: each round runs each queue in each shape once, all of them in a random order, each in a
process of its own. The medians of the rounds are told, and their quartiles. What others took of the processors
meanwhile is measured and written beside them. --print writes nothing into docs, --again takes the figures of the last
run. With --busy a process is busy on each processor meanwhile, and the table `busy` of docs/BENCH.md is written. With
--tail the slowest calls are measured, and the table `tail` is written; with --busy-tail these with a process that is
busy on each processor, and the table `busy_tail`. With --steps the exports are timed with the same atomic steps by
hand, and the table `steps` is written. With --unbounded queues without a bound are timed, and the table `unbounded` is
written. With --pinned short bursts of pinned threads are timed, of which those count in which no thread lost its
processor, and the table `pinned` is written: also on a busy machine. With --c the queue of vahepito.h is timed beside
queues of libraries for C and C++, with the adapters of bench/judged, and the table `c` is written. --all measures all
but the steps and the queues without a bound, in some N + 300 seconds, then writes README's table (bench/readme.py).
"""
import argparse
import glob
import importlib.util
import json
import math
import os
import pathlib
import random
import resource
import shutil
import statistics
import subprocess
import sys
import textwrap
import time

HERE = os.path.dirname(os.path.abspath(__file__))
TOP = os.path.dirname(os.path.dirname(HERE))
sys.path.insert(0, os.path.dirname(HERE))
sys.dont_write_bytecode = True
from busy import busy_processors
from document import spread, write
from packages import install
from picture import draw

OUT = os.path.join(HERE, "out")
BENCH = os.path.join(TOP, "docs", "BENCH.md")
PICTURES = os.path.join(TOP, "docs", "pictures")
BEGIN, END = "<!-- bench/peers/run.py writes from here -->\n", "<!-- to here -->\n"
REGISTRY = "/usr/share/cargo/registry"
LIBRARIES = ["crossbeam-channel", "crossbeam-queue", "flume", "async-channel", "concurrent-queue"]
OURS, POLLED = ["words", "C", "typed"], ["crossbeam-queue", "concurrent-queue"]
OF_STD = ["sync_channel", "Mutex+Condvar"]
SHOWN = {"words": "**words**", "C": "**C**", "typed": "**typed**", "strict": "typed, strict",
         "crossbeam-queue": "crossbeam's ArrayQueue"}
BOUND = 64


# What is there, and the build.

def version(library):
    """Of a library that cargo finds among Debian's, or None."""
    found = [os.path.basename(path)[len(library) + 1:] for path in glob.glob(f"{REGISTRY}/{library}-*")]
    return next((text for text in found if text[0].isdigit()), None)


def install_libraries():
    install([f"librust-{library}-dev" for library in LIBRARIES if not version(library)])
    there = [library for library in LIBRARIES if version(library)]
    for library in LIBRARIES:
        if library not in there:
            print(f"peers: goes on without {library}: apt-get install --no-install-recommends librust-{library}-dev")
    return there


def build(there):
    """The program, of the libraries that are there (its package names no other ones), and the program over the strict
    archive."""
    os.makedirs(os.path.join(OUT, ".cargo"), exist_ok=True)
    wanted, features = "", ""
    for library in LIBRARIES:
        if library in there:
            default = "false" if library == "flume" else "true"
            wanted += f'{library} = {{ version = "*", optional = true, default-features = {default} }}\n'
        features += f'{library} = ["dep:{library}"]\n' if library in there else f"{library} = []\n"
    with open(os.path.join(OUT, "Cargo.toml"), "w") as file:
        file.write('[package]\nname = "peers"\nversion = "0.1.0"\nedition = "2024"\n\n[workspace]\n\n'
                   '[[bin]]\nname = "peers"\npath = "../src/main.rs"\n\n'
                   '[dependencies]\nvahepito = { path = "../../../bindings/rust" }\n' + wanted
                   + "\n[features]\n" + features)
    with open(os.path.join(OUT, ".cargo", "config.toml"), "w") as file:
        file.write(f'[source.crates-io]\nreplace-with = "debian"\n\n[source.debian]\ndirectory = "{REGISTRY}"\n'
                   if there else "")
    lock = os.path.join(OUT, "Cargo.lock")
    if os.path.exists(lock):
        os.remove(lock)
    c, archive = os.path.join(TOP, "bindings", "c"), os.path.join(OUT, "libvahepito_queue.a")
    subprocess.run(["cc", "-O2", "-I", c, "-c", f"{c}/vahepito_queue.c", "-o", f"{OUT}/vahepito_queue.o"], check=True)
    subprocess.run(["ar", "rcs", archive, f"{OUT}/vahepito_queue.o"], check=True)
    with_c = {**os.environ, "RUSTFLAGS": f"-L native={OUT}"}
    for target, features in (("target", there), ("strict", [*there, "vahepito/strict"])):
        command = ["cargo", "build", "-q", "--release", "--offline", "--target-dir", target, "--features",
                   ",".join(features)]
        subprocess.run(command, cwd=OUT, check=True, env=with_c)
    return [os.path.join(OUT, target, "release", "peers") for target in ("target", "strict")]


def command_of(programs, mode, queue, it, milliseconds):
    """The command of a burst. *strict* is the typed channel over the strict archive."""
    default, strict = programs
    program = [strict, mode, "typed"] if queue == "strict" else [default, mode, queue]
    return [*program, *map(str, it), str(milliseconds)]


# What the machine does meanwhile.

def ticks():
    """The seconds of all processors since the boot: in use, and stolen by the host."""
    with open("/proc/stat") as file:
        words = [int(word) / os.sysconf("SC_CLK_TCK") for word in file.readline().split()[1:]]
    return sum(words[:3]) + words[5] + words[6], words[7]


def own():
    return sum(sum(resource.getrusage(who)[:2]) for who in (resource.RUSAGE_SELF, resource.RUSAGE_CHILDREN))


def processes():
    """The seconds of the processors that each other process has had, by its number and name."""
    spent = {}
    for path in glob.glob("/proc/[0-9]*/stat"):
        try:
            with open(path) as file:
                text = file.read()
        except OSError:
            continue
        number, name = int(text.split()[0]), text[text.index("(") + 1:text.rindex(")")]
        words = text[text.rindex(")") + 2:].split()
        if number != os.getpid():
            spent[number, name] = (int(words[11]) + int(words[12])) / os.sysconf("SC_CLK_TCK")
    return spent


class Watch:
    """What others take of the processors, in the mean and in the worst round."""

    def __init__(self):
        self.load, self.processes, self.start, self.rounds = os.getloadavg(), processes(), time.time(), []
        self.last = (*ticks(), own(), time.time())

    def round(self):
        now = (*ticks(), own(), time.time())
        busy, stolen, mine, seconds = (after - before for before, after in zip(self.last, now))
        self.rounds.append((max(0, busy - mine) / seconds, stolen / seconds))
        self.last = now

    def told(self):
        seconds = time.time() - self.start
        names = {}
        for key, spent in processes().items():
            names[key[1]] = names.get(key[1], 0) + (spent - self.processes.get(key, 0)) / seconds
        busiest = sorted(names.items(), key=lambda it: -it[1])[:3]
        mean, worst = (pick(others for others, _ in self.rounds)
                       for pick in (lambda it: statistics.mean(list(it)), max))
        model = next((line.split(":")[1].strip() for line in open("/proc/cpuinfo") if line.startswith("model name")),
                     "unknown")
        return {
            "date": time.strftime("%Y-%m-%d %H:%M UTC", time.gmtime(self.start)), "seconds": round(seconds),
            "rounds": len(self.rounds),
            "processors": os.cpu_count(), "usable": len(os.sched_getaffinity(0)), "model": model,
            "kernel": os.uname().release,
            "load": [self.load, os.getloadavg()], "others": mean, "worst": worst,
            "stolen": statistics.mean(stolen for _, stolen in self.rounds),
            "busiest": [(name, share) for name, share in busiest if share >= 0.01],
        }


# The tables: what a cell runs, and which of the numbers of its bursts it shows.

PAIRS = [(1, 1), (2, 2), (4, 4), (8, 8), (16, 16), (32, 32)]
CAPACITIES = [1, 16, 64, 256, 1024, 4096]
BOUNDS = [4, 8, 16, 64, 256, 1024]


def shape(senders, receivers, capacity=64, bound=BOUND):
    return (senders, receivers, capacity, bound)


def cell(mode, queue, it, length=1.0):
    """A burst: its mode, its queue, its shape, and how long it is beside the others."""
    return (mode, queue, it, length)


def tables(queues):
    """Name, title, whether columns are joined in the picture, unit, what is told of it, and {row: {column: (cell, which
    number)}}."""
    waiting = [queue for queue in queues if queue not in [*POLLED, "words"]]
    at = lambda n: f"{n[0]}/{n[1]}"
    return [
        ("clock", "An item's time, by the clock", True, "ns an item",
         "Capacity 64, the blocking calls; *one thread* is a send and the take of its item, by the calls that don't "
         "wait. Columns are senders/receivers, each on a thread of its own.",
         {q: {"one thread": (cell("alone", q, shape(1, 1), 0.3), 0),
              **{at(n): (cell("pass", q, shape(*n)), 0) for n in PAIRS}} for q in queues}),
        ("processors", "An item's time, of all processors together", True, "ns an item",
         "The same bursts.",
         {q: {at(n): (cell("pass", q, shape(*n)), 1) for n in PAIRS} for q in queues}),
        ("calls", "One call's time", False, "ns",
         "`try_send` that is accepted and `try_recv` that gets an item, with 0 to 10 us of other work before each "
         "call; capacity 64. The clock's own time, about 20 to 50 ns, is in each. 4/4 are more threads than four "
         "processors.",
         {q: {f"{at(n)} {name}": (cell("calls", q, shape(*n)), k) for n in ((2, 2), (4, 4))
              for k, name in enumerate(("send p50", "send p99", "take p50", "take p99"))} for q in queues}),
        ("paced", "A receiver that waits, an item a millisecond", False, "us",
         "p50 and p99 from before the send to after the take, and the processors' time of both threads for an item. "
         "Queues that don't wait, and the exports (*words*), aren't in it.",
         {q: {name: (cell("paced", q, shape(1, 1), 5), k)
              for k, name in enumerate(("p50", "p99", "receiver's processor", "sender's processor"))}
          for q in waiting}),
        ("idle", "Receivers that wait for nothing", False, "thousandths of a processor, each",
         "1 or 8 receivers of an empty queue, into which nothing is sent.",
         {q: {f"{n} waiting": (cell("idle", q, shape(1, n), 2), 0) for n in (1, 8)} for q in waiting}),
        ("full", "A send that finds the queue full, by capacity", True, "ns a call",
         "`try_send` on one thread, again and again. The exports (*words*) look at all nodes. C and the channel look "
         "at two counts first. A look takes up to twice as long if the linker puts a jump of this loop across 32 bytes "
         "(Intel's erratum of conditional jumps).",
         {q: {str(c): (cell("full", q, shape(1, 1, c), 0.2), 0) for c in CAPACITIES} for q in queues}),
        ("bounds", "The bound, by threads", True, "ns an item",
         "The exports with capacity 64 and bounds of 4 to 1,024; the crate's own is 64.",
         {f"bound {b}": {at(n): (cell("pass", "words", shape(*n, 64, b)), 0) for n in PAIRS[2:]} for b in BOUNDS}),
    ]


def measure(programs, all_tables, seconds):
    """The numbers of each cell's bursts, round by round, in about this number of seconds."""
    cells = list({one: None for *_, rows in all_tables for columns in rows.values() for one, _ in columns.values()})
    rounds = 3 if seconds < 60 else 9 if seconds < 300 else 15
    start, watch, numbers, took = time.time(), Watch(), {one: [] for one in cells}, 0.0
    own_time = 0.015  # what a burst takes beside its length: a process's start, and its threads' ends
    length = max(10, (seconds / rounds - own_time * len(cells)) / sum(one[3] for one in cells) * 1000)
    print(f"peers: {len(cells)} bursts a round, {rounds} rounds, {length:.0f} ms the usual burst", flush=True)
    for number in range(rounds):
        if number > 0 and time.time() - start + took > seconds * 1.1:
            break
        began = time.time()
        for one in random.sample(cells, len(cells)):
            mode, queue, it, part = one
            command = command_of(programs, mode, queue, it, max(5, round(length * part)))
            try:
                done = subprocess.run(command, capture_output=True, text=True, timeout=30 + length / 100)
                numbers[one].append([float(word) for word in done.stdout.split()] if done.returncode == 0 else None)
                fault = done.stderr.strip()
            except subprocess.TimeoutExpired:
                numbers[one].append(None)
                fault = "no end in time"
            if numbers[one][-1] is None:
                print(f"peers: {' '.join(command[1:])} failed: {fault}", flush=True)
        watch.round()
        took = time.time() - began
        others = watch.rounds[-1][0]
        print(f"peers: round {number + 1} of {rounds} in {took:.0f} s, others had {others:.2f} processors", flush=True)
    return {"machine": watch.told(), "length": length, "numbers": [[one, of] for one, of in numbers.items()]}


def quartiles(numbers, one, which):
    """Of a cell; None where no burst of it came to its end."""
    values = [burst[which] for burst in numbers[one] if burst and math.isfinite(burst[which])]
    if not values:
        return None
    low, _, high = statistics.quantiles(values, n=4, method="inclusive") if len(values) > 1 else values * 3
    return low, statistics.median(values), high


def short(value):
    return f"{value:,.0f}" if value >= 99.5 else f"{value:.2g}" if value < 9.95 else f"{value:.0f}"


def wrapped(text):
    """A paragraph in lines as wide as those of the other documents."""
    return textwrap.fill(text, 110, break_long_words=False, break_on_hyphens=False)


def text_of(machine, length, versions, all_tables, numbers):
    """The section of docs/BENCH.md."""
    idle = machine["others"] < 0.1
    busiest = ", ".join(f"`{name}` {share:.2f}"
                        for name, share in machine["busiest"]) or "none with a hundredth of a processor"
    loads = " and ".join(", ".join(f"{one:.2f}" for one in load) for load in machine["load"])
    queues = ", ".join(f"{library} {number}" for library, number in versions.items())
    queues += " (as Debian has them), " if queues else ""
    lines = [wrapped(
        f"{machine['date']}, {machine['rounds']} rounds in {machine['seconds']} s, a burst of {length:.0f} ms in each: "
        f"{machine['model']}, {machine['usable']} of {machine['processors']} processors, Linux {machine['kernel']}. "
        f"The load was {loads} before and after (of 1, 5 and 15 minutes); "
        + ("the machine was idle otherwise: " if idle
           else "**others ran meanwhile, so compare within a column alone**: ")
        + f"other processes had {machine['others']:.2f} processors in the mean and {machine['worst']:.2f} in the worst "
        f"round ({busiest}), and the host took {machine['stolen']:.2f}."), "", wrapped(
        f"*words* are the exports of the library, with bodies of one word and a caller of the bench's own, whose waits "
        f"are counts; *C* is the queue of `bindings/c`, and *typed* the channel of any type of `bindings/rust`, with a "
        f"bound of {BOUND}. "
        "Both are over the default archive, and *typed, strict* is the channel over the strict one. "
        f"The peers are {queues}std's `sync_channel`, whose one receiver is shared under a lock, and std's `Mutex` "
        "with two `Condvar`s round a `VecDeque`, which notifies only if a thread waits. ArrayQueue and "
        "concurrent-queue have no calls that wait: they are tried again, first with spinning between two tries and "
        "then with yields. Cells have the medians of the rounds, the pictures the quartiles too."), "",
    ]
    for name, title, _, unit, about, rows in all_tables:
        columns = list(next(iter(rows.values())))
        lines += [f"### {title}", "", wrapped(f"{about} In {unit}."), "", f"![{title}](pictures/peers-{name}.svg)", "",
                  f"| | {' | '.join(columns)} |", "|---" * (len(columns) + 1) + "|"]
        for row, cells in rows.items():
            shown = [quartiles(numbers, *cells[column]) for column in columns]
            shown = [short(it[1]) if it else "failed" for it in shown]
            lines.append(f"| {SHOWN.get(row, row)} | {' | '.join(shown)} |")
        lines.append("")
    return "\n".join(lines)


# Beside busy processes.

def beside_busy(programs, seconds):
    """The rows of the table `busy`: an item's time by the clock and, in square brackets, of all processors together."""
    queues, shapes = [*OURS, "Mutex+Condvar"], [(1, 1), (4, 4), (8, 8), (32, 32)]
    cells, start, rounds = {(at, queue): [] for at in shapes for queue in queues}, time.time(), 0
    with busy_processors():
        while time.time() - start < seconds:
            for at, queue in random.sample(list(cells), len(cells)):
                command = command_of(programs, "pass", queue, shape(*at), 40)
                done = subprocess.run(command, capture_output=True, text=True, check=True, timeout=60)
                cells[at, queue].append([float(word) for word in done.stdout.split()])
            rounds += 1
    print(f"peers: {rounds} rounds with a busy process on each processor")
    shown = lambda bursts: f"{spread([clock for clock, _ in bursts])} [{spread([spent for _, spent in bursts])}]"
    rows = [[f"{at[0]}/{at[1]}", *(shown(cells[at, queue]) for queue in queues)] for at in shapes]
    return [["senders/receivers", *queues], *rows]


# The slowest calls.

# The column of the typed channel by threads that have the longer slice.
SLICED = "typed, slice of 12 ms"

# What docs/BENCH.md gets once the slowest calls were measured beside busy processes.
BUSY_TAIL = """
`bench/peers/run.py --busy-tail`: the same with a busy process on each processor, ns. ArrayQueue's receivers don't
block: they try, spin and yield.

<!-- busy_tail -->
<!-- end of busy_tail -->
"""


def slowest_calls(programs, queues, seconds, counts):
    """The rows of the tables `tail` and `busy_tail`: percentiles of the time of a send that doesn't wait, beside four
    receivers that block."""
    cells, start, rounds = {(count, queue): [] for count in counts for queue in queues}, time.time(), 0
    while time.time() - start < seconds:
        for count, queue in random.sample(list(cells), len(cells)):
            mode, name = ("sliced", "typed") if queue == SLICED else ("tail", queue)
            command = command_of(programs, mode, name, shape(count, 4, 1024), 1000)
            done = subprocess.run(command, capture_output=True, text=True, check=True, timeout=120)
            cells[count, queue].append([float(word) for word in done.stdout.split()])
        rounds += 1
    load = ", ".join(f"{one:.2f}" for one in os.getloadavg())
    print(f"peers: {rounds} rounds of the slowest calls, and a load of {load} at their end")
    median = lambda count, queue, at: short(statistics.median(burst[at] for burst in cells[count, queue]))
    parts = {"p99": 1, "p99.9": 2, "p99.99": 3}
    rows = [[part, str(count), *(median(count, queue, at) for queue in queues)] for count in counts
            for part, at in parts.items()]
    return [["part", "senders", *queues], *rows]


def write_tail(programs, there, seconds):
    queues = ["typed", SLICED, *(queue for queue in there if queue not in POLLED), "Mutex+Condvar"]
    write("tail", slowest_calls(programs, queues, seconds, (4, 16, 64)))


def write_busy_tail(programs, there, seconds):
    """Writes the table, after that of the idle machine if docs/BENCH.md has none yet."""
    wanted = ["crossbeam-channel", "crossbeam-queue", "async-channel"]
    with busy_processors():
        rows = slowest_calls(programs,
                             ["typed", SLICED, *(queue for queue in wanted if queue in there), "Mutex+Condvar"],
                             seconds, (4, 16, 64))
    with open(BENCH) as file:
        text = file.read()
    if "<!-- busy_tail -->" not in text:
        with open(BENCH, "w") as file:
            file.write(text.replace("<!-- end of tail -->\n", "<!-- end of tail -->\n" + BUSY_TAIL))
    write("busy_tail", rows)


# Tables of their own: a row for each shape, a column for each queue.

def timed(shapes, queues, seconds):
    """The times of an item, by shape and queue. A shape has a mode, numbers, and whether a queue is timed in it; a
    queue has the program, its name there, and its capacity."""
    times = {(name, queue): [] for name, (_, _, has) in shapes.items() for queue in queues if has(queue)}
    start = time.time()
    while time.time() - start < seconds:
        for name, queue in random.sample(list(times), len(times)):
            (mode, it, _), (program, called, capacity) = shapes[name], queues[queue]
            command = [program, mode, called, *map(str, (*it[:2], capacity, it[3])), "100"]
            done = subprocess.run(command, capture_output=True, text=True, check=True, timeout=60)
            time_of_item = float(done.stdout.split()[0])
            if not math.isnan(time_of_item):
                times[name, queue].append(time_of_item)
    print(f"peers: {min(map(len, times.values()))} rounds")
    return times


def quotient(ones, others):
    """The median of the rounds' quotients."""
    return f"{statistics.median(one / other for one, other in zip(ones, others)):.2f}"


def by_hand(programs, seconds):
    """The rows of the table `steps`: an item's time by the exports over both archives and by the same steps by hand."""
    default, strict = programs
    queues = {"words": (default, "words", 64), "words, strict": (strict, "words", 64),
              "by hand": (default, "steps", 64)}
    each = lambda queue: True
    shapes = {"one thread": ("alone", shape(1, 1), each),
              **{f"{n[0]}/{n[1]}": ("pass", shape(*n), each) for n in PAIRS[:4]}}
    times = timed(shapes, queues, seconds)
    rows = [["senders/receivers", *queues, "strict / by hand"]]
    for name in shapes:
        rows.append([name, *(spread(times[name, queue]) for queue in queues),
                     quotient(times[name, "words, strict"], times[name, "by hand"])])
    return rows


def in_short_bursts(programs, there, seconds):
    """The rows of the table `pinned`: an item's time while each thread has a processor of its own."""
    relaxed, _ = programs
    names = [*OURS, *(library for library in ("crossbeam-channel", "crossbeam-queue") if library in there)]
    queues = {name: (relaxed, name, 4096) for name in names}
    each = lambda queue: True
    shapes = {f"{n}/{n}": ("pinned", shape(n, n), each) for n in (1, 2) if 2 * n <= os.cpu_count()}
    times = timed(shapes, queues, seconds)
    return [["senders/receivers", *queues],
            *([name, *(spread(times[name, queue]) for queue in queues)] for name in shapes)]


def without_bound(programs, there, seconds):
    """The rows of the table `unbounded`: an item's time in queues without a bound, and in the channel with one."""
    default, _ = programs
    queues = {"typed, capacity 64": (default, "typed", 64), "typed": (default, "typed", 0)}
    queues |= {library: (default, library, 0) for library in ("crossbeam-channel", "flume") if library in there}
    queues |= {"SegQueue": (default, "SegQueue", 0)} if "crossbeam-queue" in there else {}
    each = lambda queue: True
    shapes = {
        "a pair on one thread": ("alone", shape(1, 1), each),
        "100,000 sent, then taken": ("swell", shape(1, 1), lambda queue: "capacity" not in queue),
        "1/1": ("pass", shape(1, 1), each),
        "4/4": ("pass", shape(4, 4), each),
    }
    times = timed(shapes, queues, seconds)
    rows = [["", *queues, "typed, without / with"]]
    for name in shapes:
        cells = [spread(times[name, queue]) if (name, queue) in times else "" for queue in queues]
        bounded = times.get((name, "typed, capacity 64"))
        rows.append([name, *cells, quotient(times[name, "typed"], bounded) if bounded else ""])
    return rows


# The queue of vahepito.h beside others in C and C++.

IN_C = {"vahepito": "`vahepito.h`", "mutex": "mutex and condition variables", "glib": "`GAsyncQueue`",
        "tbb_bounded": "TBB's bounded queue", "ck_ring_mpmc": "`ck_ring`", "boost_bounded": "boost::lockfree",
        "urcu_wfcqueue": "liburcu's wfcqueue", "urcu_rculfqueue": "its rculfqueue"}
WAIT_IN_C = ["vahepito", "mutex", "glib", "tbb_bounded"]


def build_in_c():
    """The program, and the queues that it has: by the build of bench/judged."""
    spec = importlib.util.spec_from_file_location("judged", os.path.join(TOP, "bench", "judged", "run.py"))
    judged = sys.modules["judged"] = importlib.util.module_from_spec(spec)
    spec.loader.exec_module(judged)
    judged.install_for([judged.C])
    room, bindings = pathlib.Path(OUT, "c"), os.path.join(TOP, "bindings")
    room.mkdir(parents=True, exist_ok=True)
    queue = os.path.join(room, "vahepito_queue.o")
    judged.told(["cc", "-std=c11", "-O2", "-c", os.path.join(bindings, "c", "vahepito_queue.c"), "-o", queue])
    kept = os.path.join(bindings, "rust", "lib", "x86_64-unknown-linux-gnu")
    archives = [os.path.join(kept, f"libvahepito{name}.a") for name in ("", "_heap")]
    words = ["-DPLACES=64", "-I", str(judged.SOURCES), "-I", os.path.join(bindings, "c")]
    program, = judged.build_c(room, [os.path.join(HERE, "src", "waits.cpp"), queue, *archives], words)
    packages = {one.name: one.package for one in judged.C.queues}
    return str(program), [name for name in IN_C if name in WAIT_IN_C[:2] or judged.version(packages[name])]


def in_c(seconds):
    """The rows of the table `c`, whose head has what other processes took meanwhile."""
    program, names = build_in_c()
    watch = Watch()
    queues = {name: (program, name, 64) for name in names}
    each, waits = lambda queue: True, lambda queue: queue in WAIT_IN_C
    shapes = {
        "a take that waits, p50, us": ("p50", shape(1, 1), waits), "the same, p99, us": ("p99", shape(1, 1), waits),
        "its processor time, us": ("processor", shape(1, 1), waits),
        "8 that wait for nothing, thousandths of a processor": ("idle", shape(1, 8), waits),
        **{f"{n}/{n}, ns an item": ("pass", shape(n, n), each) for n in (1, 2, 4, 8)},
        "one thread, ns a pair": ("alone", shape(1, 1), each),
    }
    times = timed(shapes, queues, seconds)
    watch.round()
    others = f"others: {watch.told()['others']:.2f} of {os.cpu_count()} processors"
    told = lambda it: "" if it is None else f"{short(it[1])} ({short(it[0])}–{short(it[2])})"
    cells = {key: told(quartiles({key: [[time] for time in of]}, key, 0)) for key, of in times.items()}
    rows = [[at, *(cells.get((at, name), "") for name in names)] for at in shapes]
    return [[others, *(IN_C[name] for name in names)], *rows]


# The pictures.

def picture(title, joined, unit, rows, numbers):
    """The medians and quartiles of a table."""
    columns = list(next(iter(rows.values())))
    points = {row: [quartiles(numbers, *cells[column]) if column in cells else None for column in columns]
              for row, cells in rows.items()}
    return draw(title, joined, unit, columns, points, [*OURS, *LIBRARIES, *OF_STD], OURS,
                {row: SHOWN.get(row, row).strip("*") for row in rows})


def main():
    parser = argparse.ArgumentParser(description=__doc__, formatter_class=argparse.RawDescriptionHelpFormatter)
    parser.add_argument("--seconds", type=int, default=420)
    parser.add_argument("--again", action="store_true")
    what = parser.add_mutually_exclusive_group()
    for name in ("print", "all", "busy", "busy-tail", "tail", "steps", "unbounded", "pinned", "c"):
        what.add_argument(f"--{name}", action="store_true")
    options = parser.parse_args()
    if options.all and options.again:
        parser.error("--all measures, and writes")
    kept = os.path.join(OUT, "last.json")
    if options.again:
        with open(kept) as file:
            told = json.load(file)
    else:
        if options.c:
            return write("c", in_c(options.seconds))
        there = [] if options.steps else install_libraries()
        programs = build(there)
        if options.busy:
            return write("busy", beside_busy(programs, options.seconds))
        if options.steps:
            return write("steps", by_hand(programs, options.seconds))
        if options.unbounded:
            return write("unbounded", without_bound(programs, there, options.seconds))
        if options.pinned:
            return write("pinned", in_short_bursts(programs, there, options.seconds))
        if options.tail:
            return write_tail(programs, there, options.seconds)
        if options.busy_tail:
            return write_busy_tail(programs, there, options.seconds)
        order = [*OURS, "strict", *there, *OF_STD]
        told = measure(programs, tables(order), options.seconds)
        told.update(queues=order, versions={library: version(library) for library in there})
        with open(kept, "w") as file:
            json.dump(told, file)
    numbers = {(mode, queue, tuple(it), length): of for (mode, queue, it, length), of in told["numbers"]}
    all_tables = tables(told["queues"])
    text = text_of(told["machine"], told["length"], told["versions"], all_tables, numbers)
    if options.print:
        print(text)
        return
    with open(BENCH) as file:
        before, rest = file.read().split(BEGIN)
    with open(BENCH, "w") as file:
        file.write(before + BEGIN + "\n" + text + END + rest.split(END)[1])
    os.makedirs(PICTURES, exist_ok=True)
    for name, title, joined, unit, _, rows in all_tables:
        with open(os.path.join(PICTURES, f"peers-{name}.svg"), "w") as file:
            file.write(picture(title, joined, unit, rows, numbers))
    print(f"peers: wrote {os.path.relpath(BENCH)} and {len(all_tables)} pictures in {os.path.relpath(PICTURES)}")
    if options.all:
        write_tail(programs, there, 100)
        write("busy", beside_busy(programs, 100))
        write_busy_tail(programs, there, 100)
        subprocess.run([sys.executable, os.path.join(TOP, "bench", "readme.py"), "--write"], check=True)


if __name__ == "__main__":
    main()
