#!/usr/bin/env python3
"""Records and judges the queues that this machine has, and writes the table of docs/JUDGE.md.

    bench/judged/run.py [--seeds N] [--only LANGUAGE] [--again] [--print]
    bench/judged/run.py --short

Threads send and take on each queue, in a program of its language, which records the calls; `ccq judge` judges the log.
In C, C++ and Rust half of the runs are with stops: threads are stopped in the middle of their calls; in the other
languages one program is killed, and what it leaves has to be clean. What a program needs and the machine lacks is
installed, if this is root's and there is apt-get; what can't be had is skipped, and a line names it. All runs use two
processors. N is how many runs there are of each number of threads, with stops and without (1). --only runs the queues
of one language, and takes what was seen last of the others; --again takes that of all. --print writes nothing into
docs.

Controls have to be clean, planted faults have to be found, and each other fault has to be one that NOTES explains, else
the exit status is 1. The short form is for the gate: fewer runs, of what is installed; it installs nothing and writes
nothing. The program is bin's, or what CCQ names.
"""
import argparse
import collections
import ctypes
import datetime
import json
import os
import platform
import re
import shutil
import subprocess
import sys
import tempfile
import textwrap
import time
from dataclasses import dataclass, field
from pathlib import Path

sys.dont_write_bytecode = True
HERE = Path(__file__).resolve().parent
TOP = HERE.parent.parent
sys.path[:0] = [str(TOP / "tools"), str(HERE.parent)]
from lanes import judge_lanes
from packages import install

SOURCES = HERE / "src"
DOCUMENT = TOP / "docs/JUDGE.md"
BEGIN, END = "<!-- bench/judged/run.py writes from here -->\n", "<!-- to here -->\n"
PROGRAM = os.environ.get("CCQ", str(TOP / "bin/x86_64-unknown-linux-gnu/ccq"))
KEPT = HERE / "out/last.json"
REGISTRY = "/usr/share/cargo/registry"
JARS = [f"/usr/share/java/{name}.jar" for name in ("jctools-core", "disruptor", "conversant-disruptor")]
PR_SET_TIMERSLACK = 29
# All calls of a run, and of one in Python; how long a run may take, and how long a planted fault may need.
CALLS, FEW_CALLS = 40_000, 8_000
LIMIT, PATIENCE = 120, 240
SHAPES = [(1, 1), (2, 2), (4, 4)]
# The runs by which a planted fault is looked for.
PLANTED_SHAPE, STOPPED_CALLS = (2, 2), 100_000


@dataclass
class Queue:
    """A queue: its name for its program, and in the table; the package whose version is shown; how many items it
    holds."""

    name: str
    title: str
    package: str = ""
    capacity: int = 0
    # Whether it is for one sender and one taker; whether it keeps order for each sender alone.
    single: bool = False
    lanes: bool = False
    # What it is beside a queue to be judged: a control, or the fault that is planted.
    control: bool = False
    planted: str = ""
    # Whether the planted fault needs stops.
    needs_stops: bool = False


@dataclass
class Program:
    """A program that records queues: what its packages are, what it needs, and whether it stops threads."""

    language: str
    queues: list
    packages: list = field(default_factory=list)
    tools: list = field(default_factory=list)
    stops: bool = False


BOUNDED = 16
C = Program("C and C++", tools=["cc", "c++"], stops=True, queues=[
    Queue("locked", "std::deque under a lock, 16", capacity=BOUNDED, control=True),
    Queue("planted_lost", "the same, each thousandth item lost", capacity=BOUNDED,
          planted="overtaken|not empty|too many"),
    Queue("planted_twice", "the same, each thousandth item given twice", capacity=BOUNDED, planted="taken twice"),
    Queue("planted_overtaken", "the same, each thousandth item overtaken", capacity=BOUNDED, planted="overtaken"),
    Queue("planted_full", "the same, full if it is empty", capacity=BOUNDED, planted="not full"),
    Queue("vyukov", "Vyukov's bounded queue as published, 16", capacity=BOUNDED, planted="not empty|not full",
          needs_stops=True),
    Queue("pipe", "pipe of 4 KiB, writes of 8 bytes"),
    Queue("datagrams", "socketpair, datagrams"),
    Queue("posix", "POSIX message queue, 10", capacity=10),
    Queue("system_v", "System V message queue"),
    Queue("boost", "boost::lockfree::queue", "libboost-dev"),
    Queue("boost_bounded", "the same, 16", "libboost-dev", BOUNDED),
    Queue("boost_spsc", "boost::lockfree::spsc_queue, 16", "libboost-dev", BOUNDED, single=True),
    Queue("moodycamel", "moodycamel::ConcurrentQueue", "libconcurrentqueue-dev", lanes=True),
    Queue("tbb", "tbb::concurrent_queue", "libtbb-dev"),
    Queue("tbb_bounded", "tbb::concurrent_bounded_queue, 16", "libtbb-dev", BOUNDED),
    Queue("glib", "`GAsyncQueue`", "libglib2.0-dev"),
    Queue("urcu_wfcqueue", "liburcu's `wfcqueue`", "liburcu-dev"),
    Queue("urcu_rculfqueue", "liburcu's `rculfqueue`", "liburcu-dev"),
    Queue("ck_fifo_mpmc", "`ck_fifo_mpmc`", "libck-dev"),
    Queue("ck_fifo_spsc", "`ck_fifo_spsc`", "libck-dev", single=True),
    Queue("ck_ring_mpmc", "`ck_ring` of 16, many to many", "libck-dev", BOUNDED - 1),
    Queue("ck_ring_spsc", "`ck_ring` of 16, one to one", "libck-dev", BOUNDED - 1, single=True),
])
RUST = Program("Rust", tools=["cargo"], stops=True, queues=[
    Queue("locked", "`VecDeque` under a lock, 16", capacity=BOUNDED, control=True),
    Queue("locked_closed", "the same, closed", capacity=BOUNDED, control=True),
    Queue("planted_reopened_closed", "the same, closed, each tenth send accepted", capacity=BOUNDED,
          planted="open after closed"),
    Queue("vyukov", "Vyukov's bounded queue, all orders strong, 16", capacity=BOUNDED, planted="not empty|not full",
          needs_stops=True),
    Queue("vahepito", "the channel of this repository, 16", capacity=BOUNDED),
    Queue("sync_channel", "std::sync::mpsc::sync_channel, 16", "rustc", BOUNDED),
    Queue("channel", "std::sync::mpsc::channel", "rustc"),
    Queue("ArrayQueue", "crossbeam's `ArrayQueue`, 16", "librust-crossbeam-queue-dev", BOUNDED),
    Queue("SegQueue", "crossbeam's `SegQueue`", "librust-crossbeam-queue-dev"),
    Queue("crossbeam_bounded", "`crossbeam-channel`, 16", "librust-crossbeam-channel-dev", BOUNDED),
    Queue("crossbeam_unbounded", "the same, without a bound", "librust-crossbeam-channel-dev"),
    Queue("flume_bounded", "flume, 16", "librust-flume-dev", BOUNDED),
    Queue("flume_unbounded", "the same, without a bound", "librust-flume-dev"),
    Queue("async_bounded", "`async-channel`, 16", "librust-async-channel-dev", BOUNDED),
    Queue("async_bounded_closed", "the same, closed", "librust-async-channel-dev", BOUNDED),
    Queue("async_unbounded", "the same, without a bound", "librust-async-channel-dev"),
    Queue("concurrent_bounded", "`concurrent-queue`, 16", "librust-concurrent-queue-dev", BOUNDED),
    Queue("concurrent_bounded_closed", "the same, closed", "librust-concurrent-queue-dev", BOUNDED),
    Queue("concurrent_single", "the same, 1", "librust-concurrent-queue-dev", 1),
    Queue("concurrent_unbounded", "the same, without a bound", "librust-concurrent-queue-dev"),
    Queue("tokio", "tokio's `mpsc`, 16", "librust-tokio-dev", BOUNDED),
    Queue("tokio_closed", "the same, closed", "librust-tokio-dev", BOUNDED),
])
JAVA = Program("Java", tools=["java", "javac"], queues=[
    Queue("ConcurrentLinkedQueue", "`ConcurrentLinkedQueue`", "java"),
    Queue("ConcurrentLinkedDeque", "`ConcurrentLinkedDeque`", "java"),
    Queue("LinkedTransferQueue", "`LinkedTransferQueue`", "java"),
    Queue("ArrayBlockingQueue", "`ArrayBlockingQueue`, 16", "java", BOUNDED),
    Queue("LinkedBlockingQueue", "`LinkedBlockingQueue`, 16", "java", BOUNDED),
    Queue("LinkedBlockingDeque", "`LinkedBlockingDeque`, 16", "java", BOUNDED),
    Queue("ArrayDeque", "`ArrayDeque` without a lock", "java"),
    Queue("LinkedList", "`LinkedList` without a lock", "java"),
    Queue("MpmcArrayQueue", "JCTools' `MpmcArrayQueue`, 16", "libjctools-java", BOUNDED),
    Queue("MpmcArrayQueue_relaxed", "the same, relaxed calls", "libjctools-java", BOUNDED),
    Queue("DisruptorBlockingQueue", "Conversant's `DisruptorBlockingQueue`, 16", "libconversant-disruptor-java",
          BOUNDED),
    Queue("MultithreadConcurrentQueue", "Conversant's `MultithreadConcurrentQueue`, 16",
          "libconversant-disruptor-java", BOUNDED),
    Queue("RingBuffer", "LMAX's `RingBuffer`, many senders, 16", "libdisruptor-java", BOUNDED),
])
GO = Program("Go", tools=["go"], queues=[
    Queue("chan", "`chan`, 16", "golang-go", BOUNDED),
    Queue("chan_single", "`chan`, 1", "golang-go", 1),
    Queue("chan_closed", "`chan`, 16, closed", "golang-go", BOUNDED),
])
PYTHON = Program("Python", queues=[
    Queue("Queue_bounded", "`queue.Queue`, 16", "python", BOUNDED),
    Queue("Queue", "`queue.Queue`", "python"),
    Queue("SimpleQueue", "`queue.SimpleQueue`", "python"),
    Queue("deque", "`collections.deque`", "python"),
    Queue("multiprocessing_Queue", "`multiprocessing.Queue`", "python"),
    Queue("multiprocessing_SimpleQueue", "`multiprocessing.SimpleQueue`, takes under a lock", "python"),
])
PROGRAMS = [C, RUST, JAVA, GO, PYTHON]
# What a queue is known to do, by its name: the faults, and why. Each was read by hand in a recorded log.
NOTES = {
    "moodycamel": ("overtaken|not empty", "documented: order is kept for each sender alone, so items of two senders "
                                          "overtake each other"),
    "MpmcArrayQueue_relaxed": ("not empty|not full", "documented: a relaxed call may find none or no room while "
                                                     "another call is under way"),
    "RingBuffer": ("not empty", "by its design: a sender claims its place before it writes, and later items aren't "
                                "available until then"),
    "multiprocessing_Queue": ("not empty", "documented: put returns before a thread of the library has written the "
                                           "item to the pipe"),
    "ArrayDeque": ("taken twice|overtaken|not empty|never sent",
                   "documented: it isn't safe for threads without a lock"),
    "LinkedList": ("taken twice|overtaken|not empty|never sent",
                   "documented: it isn't safe for threads without a lock"),
}
FAULTS_OF_PLANTED = {
    "vyukov": "planted: a place that a call has claimed and not written yet makes the queue look empty or full",
}


def say(text):
    print(f"judged: {text}", flush=True)


# What is there, and the build.

def version(package):
    """The version of what a queue is of, or None."""
    commands = {"rustc": ["rustc", "--version"], "java": ["java", "--version"], "python": [sys.executable, "--version"]}
    command = commands.get(package, ["dpkg-query", "-W", "-f=${Version}", package])
    try:
        run = subprocess.run(command, capture_output=True, text=True, check=True)
    except (OSError, subprocess.CalledProcessError):
        return None
    words = run.stdout.split()
    return (words[0] if package not in commands else words[1]) if words else None


def install_for(programs):
    """Installs what the queues of these programs are of, where it is missing."""
    packages = dict.fromkeys(queue.package for program in programs for queue in program.queues
                             if queue.package.startswith(("lib", "golang")))
    install([package for package in packages if not version(package)])


def told(command, **options):
    """Runs a command of a build, and stops with what it says if it fails."""
    run = subprocess.run(command, capture_output=True, text=True, check=False, **options)
    if run.returncode:
        raise RuntimeError(f"{' '.join(map(str, command))}: {run.stderr.strip()}")
    return run.stdout


def build_c(room, main=("record.cpp",), more=()):
    """A program over the libraries that are there: its own sources, and further words for the compilers."""
    libraries = {"BOOST": ("libboost-dev", []), "MOODYCAMEL": ("libconcurrentqueue-dev", []),
                 "TBB": ("libtbb-dev", ["tbb"]), "GLIB": ("libglib2.0-dev", ["glib-2.0"]),
                 "URCU": ("liburcu-dev", ["liburcu", "liburcu-cds"]), "CK": ("libck-dev", ["ck"])}
    there = {name: links for name, (package, links) in libraries.items() if version(package)}
    links = [link for of_one in there.values() for link in of_one]
    flags = lambda kind: told(["pkg-config", kind, *links]).split() if links else []
    defines = [*more, *(f"-DHAS_{name}" for name in there)]
    objects = [name for name in ("ck", "urcu") if name.upper() in there]
    for name in objects:
        told(["cc", "-std=gnu11", "-O2", *more, "-c", SOURCES / f"{name}.c", "-o", room / f"{name}.o",
              *flags("--cflags")])
    sources = [SOURCES / name for name in (*main, "cpp.cpp", "from_c.cpp")]
    told(["c++", "-std=c++17", "-O2", "-pthread", *defines, *flags("--cflags"), *sources,
          *[room / f"{name}.o" for name in objects],
          "-o", room / "record", *flags("--libs"), "-lrt"])
    return [room / "record"]


def build_rust(_):
    libraries = ["crossbeam-channel", "crossbeam-queue", "flume", "async-channel", "concurrent-queue", "tokio"]
    there = [library for library in libraries if version(f"librust-{library}-dev")]
    folder = KEPT.parent / "rust"
    folder.mkdir(parents=True, exist_ok=True)
    (folder / "Cargo.lock").unlink(missing_ok=True)
    extra = {"flume": ", default-features = false", "tokio": ', default-features = false, features = ["sync"]'}
    wanted = "".join(f'{library} = {{ version = "*", optional = true{extra.get(library, "")} }}\n' for library in there)
    features = "".join(f'{library} = ["dep:{library}"]\n' if library in there else f"{library} = []\n"
                       for library in libraries)
    (folder / "Cargo.toml").write_text(
        '[package]\nname = "judged"\nversion = "0.1.0"\nedition = "2024"\n\n[workspace]\n\n'
        f'[[bin]]\nname = "judged"\npath = "{SOURCES}/main.rs"\n\n'
        f'[dependencies]\nvahepito = {{ path = "{TOP}/bindings/rust" }}\n'
        f'vahepito-record = {{ path = "{TOP}/bindings/rust/record", features = ["stops"] }}\n'
        f'{wanted}\n[features]\n{features}')
    debian = ["--config", 'source.crates-io.replace-with = "debian"', "--config",
              f'source.debian.directory = "{REGISTRY}"']
    environment = os.environ | {"CARGO_TARGET_DIR": str(folder / "target")}
    told(["cargo", *(debian if there else []), "--quiet", "--offline", "build", "--release", "--jobs", "1",
          "--features", ",".join(there)],
         cwd=folder, env=environment)
    return [folder / "target/release/judged"]


def build_java(room):
    jars = [jar for jar in JARS if os.path.exists(jar)]
    sources = [SOURCES / "Judged.java", SOURCES / "Recorder.java"] + [SOURCES / "Jars.java"] * (len(jars) == len(JARS))
    path = ":".join([str(room), *jars])
    told(["javac", "-nowarn", "-d", room, "-cp", path, *sources])
    return ["java", "-cp", path, "Judged"]


def build_go(room):
    told(["go", "build", "-o", room / "channels", SOURCES / "main.go", SOURCES / "recorder.go"])
    return [room / "channels"]


def build_python(_):
    return [sys.executable, SOURCES / "queues.py"]


BUILDS = {"C and C++": build_c, "Rust": build_rust, "Java": build_java, "Go": build_go, "Python": build_python}


# Runs.

@dataclass
class Result:
    """What was seen of a queue."""

    queue: Queue
    language: str
    runs: int = 0
    stopped: int = 0
    calls: int = 0
    verdicts: collections.Counter = field(default_factory=collections.Counter)
    # Those of the runs with stops.
    with_stops: collections.Counter = field(default_factory=collections.Counter)
    lanes: collections.Counter = field(default_factory=collections.Counter)

    def faults(self):
        return [verdict for verdict in self.verdicts if verdict != "clean"]


def verdict_of(log, queue):
    """What the program says: `clean`, the fault's name, or all of another answer."""
    options = ["--capacity", str(queue.capacity)] * bool(queue.capacity)
    run = subprocess.run([PROGRAM, "judge", *options, log], capture_output=True, text=True, check=False)
    fault = re.match(r"judge fault: ([a-z ]+):", run.stdout)
    return "clean" if run.returncode == 0 else fault[1] if fault else (run.stdout + run.stderr).strip()


def join_threads(log):
    """Makes one log of the files of the threads, which are the log's with their numbers."""
    if parts := [*log.parent.glob(f"{log.name}.*")]:
        log.write_bytes(b"".join(part.read_bytes() for part in parts))
    for part in parts:
        part.unlink()


def run_once(command, result, log, shape, calls, seed, stops, has_stops):
    """Records a run, and has it judged. Its verdict."""
    words = [*command, result.queue.name, log, *map(str, shape), str(calls // sum(shape)), str(seed),
             *([str(int(stops))] * has_stops)]
    done = subprocess.run(words, capture_output=True, text=True, timeout=LIMIT, check=False)
    if done.returncode:
        raise RuntimeError(done.stderr.strip() or f"exit status {done.returncode}")
    join_threads(log)
    verdict = verdict_of(log, result.queue)
    result.runs, result.stopped = result.runs + 1, result.stopped + stops
    with open(log, "rb") as file:
        result.calls += sum(not line.startswith(b'{"ends"') for line in file)
    result.verdicts[verdict] += 1
    result.with_stops[verdict] += stops
    if result.queue.lanes:
        with open(log, encoding="utf-8") as file:
            said = judge_lanes(PROGRAM, file.readlines())
        result.lanes.update("clean" if status == 0 else line for status, line in said.values())
    return verdict


def find_planted(command, result, log, calls, program):
    """Runs until the planted fault is found, or a time has passed."""
    start, seed = time.monotonic(), 1000
    while time.monotonic() - start < PATIENCE:
        seed += 1
        if run_once(command, result, log, PLANTED_SHAPE, calls, seed, program.stops, program.stops) != "clean":
            say(f"{result.language}: {result.queue.name}: found after {time.monotonic() - start:.0f} s, {result.runs} "
                f"runs, {result.calls:,} calls")
            return


def judge_queue(program, command, queue, room, short, seeds):
    """The result of all runs of a queue."""
    result, log = Result(queue, program.language), room / "calls.log"
    shapes = [(1, 1)] if queue.single else [(2, 2)] if short else SHAPES
    calls = FEW_CALLS if program is PYTHON else CALLS // 2 if short else CALLS
    if queue.needs_stops and not short:
        calls, seeds = STOPPED_CALLS, seeds * 4
    if not (short and queue.planted):
        for shape in shapes:
            for seed in range(1, seeds + 1):
                for stops in ([True] if short else [False, True]) if program.stops else [False]:
                    run_once(command, result, log, shape, calls, seed, stops, program.stops)
    if queue.planted and not result.faults():
        find_planted(command, result, log, STOPPED_CALLS if queue.needs_stops else calls, program)
    return result


def wrong_of(result):
    """What is wrong with a result, or None."""
    queue, faults = result.queue, result.faults()
    if queue.planted:
        if not faults:
            return f"the planted fault isn't found in {result.calls:,} calls"
        allowed = queue.planted.split("|")
    else:
        allowed = NOTES[queue.name][0].split("|") if queue.name in NOTES and not queue.control else []
    strange = [fault for fault in faults if fault not in allowed]
    if strange:
        return f"{'the control is accused' if queue.control else 'a fault that nothing explains'}: {', '.join(strange)}"
    if any(lane != "clean" for lane in result.lanes):
        return f"lanes of one sender aren't clean: {result.lanes}"
    return None


def wrong_if_killed(command, queue, room):
    """What is wrong with what a program leaves that is killed while it records a correct queue, or None."""
    log = room / "killed.log"
    last = log.with_name(log.name + ".3")
    with subprocess.Popen([*command, queue.name, log, "2", "2", str(10**9), "1"]) as run:
        while run.poll() is None and not (last.exists() and last.stat().st_size > 1 << 14):
            time.sleep(0.01)
        run.kill()
    join_threads(log)
    verdict = verdict_of(log, queue)
    return None if verdict == "clean" else f"killed, it leaves a log: {verdict}"


def judge_program(program, short, seeds, skip):
    """The results of a program's queues, those that are skipped, and whether all are as they have to be."""
    missing = [tool for tool in program.tools if not shutil.which(tool)]
    if missing:
        skip.append(f"the queues in {program.language}: {', '.join(missing)} is not on this machine")
        return [], True
    results, right = [], True
    with tempfile.TemporaryDirectory() as name:
        room = Path(name)
        try:
            command = BUILDS[program.language](room)
        except (OSError, RuntimeError) as error:
            say(f"the program in {program.language} isn't built: {error}")
            return [], False
        # The recorders in C and Rust are killed by tests/judge.py
        if not program.stops and (wrong := wrong_if_killed(command, program.queues[0], room)):
            say(f"{program.language}: {wrong}")
            right = False
        for queue in program.queues:
            if queue.package and not version(queue.package):
                skip.append(f"{program.language}: {queue.name}: {queue.package} is not on this machine")
                continue
            try:
                result = judge_queue(program, command, queue, room, short, seeds)
            except (OSError, RuntimeError, subprocess.TimeoutExpired) as error:
                say(f"{program.language}: {queue.name}: {error}")
                right = False
                continue
            wrong = wrong_of(result)
            right &= wrong is None
            verdicts = ", ".join(f"{count} {verdict}" for verdict, count in result.verdicts.items())
            say(f"{program.language}: {queue.name}: {result.runs} runs, {result.calls:,} calls: "
                f"{verdicts}{f': WRONG: {wrong}' if wrong else ''}")
            results.append(result)
    return results, right


# The table.

def verdict_text(result):
    counts = result.verdicts
    stopped = lambda verdict: f" ({result.with_stops[verdict]} with stops)" if result.stopped else ""
    faults = ", ".join(f"{count} {verdict}{stopped(verdict)}" for verdict, count in sorted(counts.items())
                       if verdict != "clean")
    text = f"**{faults}**" + f", {counts['clean']} clean" * bool(counts["clean"]) if faults else "clean"
    if result.lanes:
        text += f"; by sender {result.lanes['clean']:,} of {sum(result.lanes.values()):,} lanes clean"
    return text


def why(result):
    if not result.faults():
        return ""
    if result.queue.planted:
        return FAULTS_OF_PLANTED.get(result.queue.name, "planted")
    return NOTES[result.queue.name][1]


def about(results):
    """Where and when the runs were, and how many."""
    runs, calls = sum(result.runs for result in results), sum(result.calls for result in results)
    stopped = sum(result.stopped for result in results)
    load = ", ".join(f"{one:.2f}" for one in os.getloadavg())
    ccq = subprocess.run([PROGRAM, "--version"], capture_output=True, text=True, check=True).stdout.strip()
    models = re.findall(r"model name\s*: (.*)", Path("/proc/cpuinfo").read_text())
    model = models[0] if models else platform.machine()
    text = (f"{datetime.date.today()}, `{ccq}`: {len(results)} queues, {runs:,} runs, {calls:,} calls; {stopped:,} "
            f"runs with stops. {model}, two processors, Linux {platform.release()}, a load of {load} at the end.")
    return textwrap.fill(text, 116, break_long_words=False, break_on_hyphens=False)


def titled(results):
    """The results with their titles, which have the name of the queue above in place of `the same`, and their
    versions."""
    for result in results:
        title, package = result.queue.title, result.queue.package
        if not title.startswith("the same"):
            above = title.partition(",")[0]
        yield result, title.replace("the same", above, 1), version(package) if package else ""


def table(head, results):
    """The text between the marks of docs/JUDGE.md: of each language the faults, and the names of the clean queues."""
    lines = [head, ""]
    for program in PROGRAMS:
        faults, clean = [], []
        for result, title, known in titled(result for result in results if result.language == program.language):
            counts = f"{result.runs} ({result.stopped})" if program.stops else str(result.runs)
            if result.faults():
                faults.append(f"| {title} | {known} | {counts} | {result.calls:,} | {verdict_text(result)} | "
                              f"{why(result)} |")
            else:
                clean.append(f"{title} ({known})" if known else title)
        if faults:
            columns = f"| {program.language} | version | runs (with stops) | calls | verdicts | what the fault is |"
            lines += [columns, "|---|---|---|---|---|---|", *faults, ""]
        if clean:
            names = f"Clean in {program.language}: {'; '.join(clean)}."
            lines += [*textwrap.wrap(names, 116, break_long_words=False, break_on_hyphens=False), ""]
    return "\n".join(lines)


def keep(results):
    """Keeps what was seen, for --again. What was seen before of other languages stays."""
    languages = {result.language for result in results}
    before = kept()[1] if KEPT.exists() else []
    results = [result for result in before if result.language not in languages] + results
    told = [{"language": result.language, "name": result.queue.name, "runs": result.runs, "stopped": result.stopped,
             "calls": result.calls,
             "verdicts": result.verdicts, "with_stops": result.with_stops, "lanes": result.lanes} for result in results]
    KEPT.parent.mkdir(exist_ok=True)
    KEPT.write_text(json.dumps({"about": about(results), "results": told}))


def kept():
    """What was seen last: the head of the table, and the results."""
    told, results = json.loads(KEPT.read_text()), []
    queues = {(program.language, queue.name): queue for program in PROGRAMS for queue in program.queues}
    for it in told["results"]:
        queue = queues[it["language"], it["name"]]
        counts = [collections.Counter(it.get(key, {})) for key in ("verdicts", "with_stops", "lanes")]
        results.append(Result(queue, it["language"], it["runs"], it["stopped"], it["calls"], *counts))
    return told["about"], results


def write(head, results, prints):
    """Writes the table, or prints it."""
    text = table(head, results)
    if prints:
        print(text)
        return 0
    before, rest = DOCUMENT.read_text().split(BEGIN)
    DOCUMENT.write_text(before + BEGIN + "\n" + text + END + rest.split(END)[1])
    say(f"wrote {DOCUMENT.relative_to(TOP)}")
    return 0


def main():
    parser = argparse.ArgumentParser(description=__doc__, formatter_class=argparse.RawDescriptionHelpFormatter)
    parser.add_argument("--seeds", type=int, default=1)
    parser.add_argument("--print", action="store_true")
    parser.add_argument("--again", action="store_true")
    parser.add_argument("--only", choices=[program.language for program in PROGRAMS])
    parser.add_argument("--short", action="store_true")
    options = parser.parse_args()
    if options.again:
        head, results = kept()
        wrong = [result for result in results if wrong_of(result)]
        for result in wrong:
            say(f"{result.language}: {result.queue.name}: {wrong_of(result)}")
        return 1 if wrong else write(head, results, options.print)
    os.sched_setaffinity(0, sorted(os.sched_getaffinity(0))[-2:])
    # Sleeps of the programs are as short as they say: 50 microseconds less than usual.
    ctypes.CDLL(None).prctl(PR_SET_TIMERSLACK, 1, 0, 0, 0)
    if not options.short:
        install_for(PROGRAMS)
    results, right, skip = [], True, []
    for program in PROGRAMS:
        if options.only not in (None, program.language):
            continue
        found, fine = judge_program(program, options.short, options.seeds, skip)
        results, right = results + found, right and fine
    for text in skip:
        say(f"SKIPPED: {text}")
    if options.short:
        say(f"{len(results)} queues are judged, {sum(result.calls for result in results):,} calls")
        return 0 if right else 1
    keep(results)
    return write(*kept(), options.print) if right else 1


if __name__ == "__main__":
    sys.exit(main())
