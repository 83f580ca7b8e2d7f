#!/usr/bin/env python3
"""Compares the verdicts of `ccq judge` on small random logs with a search over all orders of their calls, and sees
what it says of recorded queues.

Usage: tests/judge.py [LOGS [FIRST]]

Half of the logs are those of a real queue, half are altered; in one of two some calls haven't returned, and some sends
are refused. Some queues are closed, or have a capacity; some logs have coarse stamps or times that are far apart, are
judged with a skew, begin late, or say how they end. The log with the number N is always the same. Without words it
makes 1,500 logs, from number 0 on, and those of `RARE`. The search knows nothing of the program's: it tries every call
that began before each call that is left had ended. `judge undecided` is a failure. As many logs are of a bounded queue
that holds one item too many, or is full though there is room: a fault that the program finds there has to leave no
order of a queue with that capacity, and of a queue of one thread each such log has to be found. Without words it also
records 80,000 calls each of this crate's channel, of std's, of crossbeam's and flume's where Debian's packages of them
are, and of a queue with a fault, which has to be found. And it records a ring of one's own by a program in Rust and by
one in C: as it is, also with stops, with a planted fault, which has to be found, while the program is killed, with a
file that can't grow, and into a pipe. Logs in other forms are refused by their forms. `windows.py` has the windows of
logs, `histories.py` those of other tools, and `bench/judged/run.py --short` records the queues that this machine has.
"""

import gzip
import json
import os
import random
import re
import resource
import shutil
import subprocess
import sys
import tempfile
import threading
import time
from concurrent.futures import ThreadPoolExecutor
from pathlib import Path

sys.dont_write_bytecode = True
import asked
from histories import judge_histories
from windows import judge_windows

TOP = Path(__file__).resolve().parent.parent
PROGRAM = Path(os.environ.get("CCQ", TOP / "crates/ccq/out/ccq"))
REGISTRY = Path("/usr/share/cargo/registry")
NEVER = 1 << 70
# What the program says of the end of a log.
SAID_END = {
    None: "the log doesn't say how it ends",
    "whole": "the log says that it is whole",
    "early": "the log says that it ends early",
}
# Logs of rare faults: a closed queue held the item of a send that hasn't returned.
RARE = [98583]


def play(rng, capacity, closes, most=4, room=lambda: 0):
    """The calls of one to four threads on a queue, each of which takes effect at a moment between its begin and its end. With room it
    holds so many items more than its capacity, or fewer."""
    threads = rng.randint(1, most)
    free = [0] * threads
    queue, calls, item, moment, closed = [], [], 0, 0, False
    for _ in range(rng.randint(1, 9)):
        thread = rng.randrange(threads)
        moment = max(moment + rng.randint(4, 12), free[thread] + 1)
        begin = max(free[thread] + 1, moment - rng.randint(0, 14))
        free[thread] = moment + rng.randint(0, 14)
        call = {"thread": str(thread), "begin": begin, "end": free[thread]}
        if closes and rng.random() < 0.15:
            closed = True
            calls.append(call | {"close": True})
        elif rng.random() < 0.55:
            item += 1
            answer = "closed" if closed else "full" if capacity and len(queue) >= capacity + room() else None
            if answer is None:
                queue.append(item)
            calls.append(call | {"send": [item]} | ({"answer": answer} if answer else {}))
        elif queue:
            calls.append(call | {"take": [queue.pop(0)]})
        else:
            calls.append(call | {"take": None} | ({"answer": rng.choice(["ended", "closed"])} if closed else {}))
    return calls


def alter(rng, calls):
    """Changes what one or two of the calls did. The items that are sent go on to differ."""
    items = [call["send"] for call in calls if "send" in call]
    for _ in range(rng.randint(1, 2)):
        call, other = rng.choice(calls), rng.choice(calls)
        if "take" in call and "answer" not in call:
            call["take"] = rng.choice([None, [99], *items])
        elif "answer" in call:
            del call["answer"]
        elif "send" in call and "send" in other:
            call["send"], other["send"] = other["send"], call["send"]
        elif "send" in call and rng.random() < 0.5:
            call["answer"] = rng.choice(["full", "closed"])


def leave_open(rng, calls):
    """Lets the last calls of some threads not return, and adds up to three takes that don't."""
    last = {call["thread"]: call for call in calls}
    for call in last.values():
        if rng.random() < 0.5:
            del call["end"]
            call.pop("answer", None)
            if "take" in call:
                call["take"] = None
    for number in range(rng.randint(0, 3)):
        begin = max(0, rng.choice(calls)["begin"] + rng.randint(-4, 4))
        calls.append({"thread": f"open {number}", "begin": begin, "take": None})


def refuse(rng, calls):
    """Adds up to three sends that are refused, and lets some takes that found none be answered Ended."""
    for number in range(rng.randint(0, 3)):
        begin = rng.choice(calls)["begin"]
        answer = rng.choice(["full", "closed"])
        item = rng.choice([[1], [7, 7]])
        calls.append({"thread": f"refused {number}", "begin": begin, "end": begin, "send": item, "answer": answer})
    for call in calls:
        if "end" in call and call.get("take", True) is None and "answer" not in call and rng.random() < 0.3:
            call["answer"] = "ended"


def log(number):
    """The calls of a log, the capacity and the skew by which it is judged, whether it is said to begin late, and how it is said to end."""
    rng = random.Random(number)
    capacity = rng.choice([None, None, 1, 2, 3])
    calls = play(rng, capacity, rng.random() < 0.4)
    if rng.random() < 0.5:
        alter(rng, calls)
    if rng.random() < 0.5:
        leave_open(rng, calls)
        refuse(rng, calls)
    skew = rng.choice([0, 0, 0, 2])
    if rng.random() < 0.2:
        unit = rng.choice([4, 8])
        for call in calls:
            call.update({key: call[key] // unit for key in ("begin", "end") if key in call})
    late = rng.random() < 0.15
    if late:
        calls = calls[rng.randrange(len(calls)) :]
    if capacity is None and number % 8 == 5:
        for call in calls:
            call.update({key: call[key] << 56 for key in ("begin", "end") if key in call})
    return calls, capacity, skew, late, ("early", None, None, "whole")[number % 4]


def padded(calls, skew, part):
    """The calls as they are judged: wider by the skew; and with those that a part of a log may lack."""
    wide = [
        call | {"begin": max(0, call["begin"] - skew)} | ({"end": call["end"] + skew} if "end" in call else {})
        for call in calls
    ]
    if part:
        sent = [call["send"] for call in calls if "send" in call and "answer" not in call]
        taken = [list(item) for item in {tuple(call["take"]) for call in calls if call.get("take")}]
        wide += [{"begin": 0, "send": item} for item in taken if item not in sent]
        wide += [{"begin": 0, "take": None} for item in sent if item not in taken]
        wide += [{"begin": 0, "close": True}] * any("close" in call for call in calls)
    return wide


def ties_of(calls, skew):
    """Of each call the last one of its thread, by their places, if the times as they are judged let the two overlap."""
    last, ties = {}, {}
    for place, call in enumerate(calls):
        before = last.get(call["thread"])
        if before is not None and calls[before].get("end", -1) + skew >= max(0, call["begin"] - skew):
            ties[place] = before
        last[call["thread"]] = place
    return ties


def are_lone(calls, ties):
    """Whether the two calls of each tie meet at a time, and no others at the same time."""
    meetings = [calls[place]["begin"] for place, before in ties.items() if calls[before].get("end") == calls[place]["begin"]]
    return len(set(meetings)) == len(ties)


def cut(calls, ties):
    """The calls with each time in four parts, so that the times order the two calls of a tie, if no others meet at their time."""
    if not are_lone(calls, ties):
        return calls
    earlier = set(ties.values())
    parts = [{**call, "begin": 4 * call["begin"] + 2 * (place in ties)} for place, call in enumerate(calls)]
    for place, call in enumerate(parts):
        if "end" in call:
            call["end"] = 4 * call["end"] + (1 if place in earlier else 3)
    return parts


def may_fit(calls, capacity):
    """Whether at no moment more items than the queue holds were in it for certain."""
    taker = {tuple(call["take"]): call for call in calls if call.get("take")}
    for moment in {call["end"] for call in calls if "end" in call}:
        sent = [tuple(c["send"]) for c in calls if "send" in c and "answer" not in c and c.get("end", NEVER) <= moment]
        later = sum(item in taker and taker[item]["begin"] > moment for item in sent)
        left = sum(item not in taker for item in sent)
        waiting = sum("take" in c and "end" not in c and c["begin"] <= moment for c in calls)
        if later + max(0, left - waiting) > capacity:
            return False
    return True


def may_be_full(calls, call, capacity):
    """Whether at a moment of the call as many items as the queue holds may be in it."""
    for moment in range(call["begin"], call["end"] + 1):
        sends = sum("send" in c and "answer" not in c and c["begin"] <= moment for c in calls)
        takes = sum(bool(c.get("take")) and c["end"] < moment for c in calls)
        if sends - takes >= capacity:
            return True
    return False


def has_order(calls, ties, capacity):
    """Whether the calls have a legal order, by trying all. Of a queue of whatever capacity if none is given."""
    closes = any("close" in call for call in calls)
    returned = sum(1 << i for i, call in enumerate(calls) if "end" in call)
    tried = set()

    def after(call, queue, closed):
        """What the queue holds behind the call and whether it is closed, or None if it wouldn't answer so."""
        answer = call.get("answer")
        if "close" in call:
            return queue, True
        if "send" in call and answer == "closed":
            return None if closes and not closed else (queue, closed)
        if "send" in call and answer == "full":
            return None if closes and closed or capacity and len(queue) != capacity else (queue, closed)
        if "send" in call:
            return None if closes and closed or capacity and len(queue) >= capacity else ((*queue, tuple(call["send"])), closed)
        if "end" in call and call["take"] is None:
            return None if queue or answer and closes and not closed else (queue, closed)
        if not queue or ("end" in call and queue[0] != tuple(call["take"])):
            return None
        return queue[1:], closed

    def go(done, queue, closed):
        if done & returned == returned:
            return True
        if (done, queue, closed) in tried:
            return False
        tried.add((done, queue, closed))
        left = [(i, call) for i, call in enumerate(calls) if not done >> i & 1]
        due = min(call.get("end", NEVER) for _, call in left)
        for i, call in left:
            if call["begin"] > due or i in ties and not done >> ties[i] & 1:
                continue
            rest = after(call, queue, closed)
            if rest is not None and go(done | 1 << i, *rest):
                return True
        return False

    return go(0, (), False)


# An item of the fault `not empty`: the line of its send or of several, the line that shows the queue closed, and the line of the
# first take that may have it.
LINE = r"line (\d+) \(thread [^)]*\)"
STAY = re.compile(
    rf"; (?:item \S+|one of the items) of (?:lines? ([\d, and]*\d)(?: and \d+ others)?(?: \(thread [^)]*\))?|a send before the log)"
    rf"(?:, sent before {LINE} showed that the queue was closed)?, (?:(?:taken later by|there at least until) {LINE})?"
)


def is_explained(calls, ties, said):
    """Whether what the fault `not empty` says of its items is so: the first was sent before the take that found none began, and
    each other one before the take of the one before it, by the times, by these ties, or since the queue was closed."""
    lines = dict(enumerate(calls, 1))
    come_before = lambda first, second: lines[first].get("end", NEVER) < lines[second]["begin"] or ties.get(second) == first
    accused = begins = int(re.match(r"judge fault: not empty: line (\d+) ", said)[1])
    for sends, closed, take in STAY.findall(said):
        timely = bool(sends) and all(come_before(int(send), begins) for send in re.findall(r"\d+", sends))
        if closed:
            call = lines[int(closed)]
            shows = "close" in call or call.get("answer") in ("closed", "ended")
            if not shows or not (int(closed) == begins or come_before(int(closed), begins)):
                return False
        elif not timely:
            return False
        begins = int(take or 0)
    return "one after another" in said or not begins or come_before(accused, begins)


def line_of(rng, call):
    """A line of the log: some items stand without their brackets, and some threads are numbers."""
    call = dict(call)
    for key in ("send", "take"):
        if call.get(key) and len(call[key]) == 1 and rng.random() < 0.5:
            call[key] = call[key][0]
    if call["thread"].isdigit() and rng.random() < 0.5:
        call["thread"] = int(call["thread"])
    return json.dumps(call) + "\n"


def judged(number):
    """The number, whether the log has an order, whether the program says the same, and what it says."""
    calls, capacity, skew, late, ends = log(number)
    rng = random.Random(number)
    text = ('{"begins":"late"}\n' if late else "") + "".join(line_of(rng, call) for call in calls)
    text += f'{{"ends":"{ends}"}}\n' if ends else ""
    options = ["--capacity", str(capacity)] * bool(capacity) + ["--skew", str(skew)] * bool(skew)
    run = subprocess.run([PROGRAM, "judge", *options], input=text, capture_output=True, text=True, check=False)
    # A log that begins late or ends early may lack calls, and items that the queue holds.
    part = late or ends == "early"
    wide, ties = padded(calls, skew, part), ties_of(calls, skew)
    capacity = None if part else capacity
    closes = any("close" in call for call in calls)
    answers = [call["answer"] for call in calls if "send" in call and "answer" in call]
    full = 0 if capacity else answers.count("full")
    closed = 0 if closes else answers.count("closed")
    ordered = has_order(wide, ties, None)
    parts = cut(wide, ties)
    possible = not capacity or all(
        may_be_full(parts, call, capacity) for call in parts if call.get("answer") == "full" and "end" in call
    )
    possible &= not capacity or may_fit(parts, capacity)
    # If lines alone order three calls and more at one time, a capacity is judged in each log that is cut between them.
    if capacity and not are_lone(wide, ties):
        possible = run.stdout.startswith("judge clean")
    right = ordered and possible
    ordinary = len(calls) - answers.count("full") - closed
    clean = f"judge clean: {ordinary} call{' has' if ordinary == 1 else 's have'} a legal order, {full + closed} not judged"
    clean += f": {full} full, {closed} closed" * bool(full + closed)
    clean += f"; {answers.count('full')} may have found {capacity} in the queue" * bool(capacity)
    clean += f"; {SAID_END[ends]}"
    same = run.stdout == clean + "\n" if right else run.stdout.startswith("judge fault: ")
    same &= run.returncode == (0 if right else 1)
    if run.stdout.startswith("judge fault: not empty: "):
        lines = {place + late + 1: before + late + 1 for place, before in ties.items()} if are_lone(wide, ties) else {}
        same &= is_explained([{}] * late + wide[: len(calls)], lines, run.stdout)
    # A fault of the capacity leaves no order of a queue with it.
    same &= possible or not ordered or not has_order(wide, ties, capacity)
    return number, right, same, f"{run.returncode}, {run.stdout or run.stderr}"


def bounded(number):
    """The number of a log of a bounded queue, in which it may hold one item too many or be full though there is room; whether the
    log has an order of a queue with its capacity, whether one thread made it, whether the program finds it right, and what it says."""
    rng = random.Random(f"bounded {number}")
    capacity = rng.randint(1, 3)
    fault = rng.choice([0, 1, -1])
    calls = play(rng, capacity, rng.random() < 0.2, rng.choice([1, 2, 4]), lambda: rng.choice([0, fault]))
    if rng.random() < 0.2:
        leave_open(rng, calls)
    text = "".join(line_of(rng, call) for call in calls)
    run = subprocess.run([PROGRAM, "judge", "--capacity", str(capacity)], input=text, capture_output=True, text=True, check=False)
    ordered = has_order(calls, ties_of(calls, 0), capacity)
    alone = len({call["thread"] for call in calls}) == 1
    return number, ordered, alone, run.stdout.startswith("judge clean: "), f"{run.returncode}, {run.stdout or run.stderr}"


def judge_bounded(pool, numbers):
    """Whether each fault of a bounded queue leaves no order, and each log of one thread without an order has one."""
    right, faults, missed = True, 0, 0
    for number, ordered, alone, clean, said in pool.map(bounded, numbers):
        faults += not ordered
        missed += clean and not ordered
        if ordered != clean and (ordered or alone):
            right = False
            print(f"judge: log {number} of a bounded queue has {'an' if ordered else 'no'} order, and the program says {said}", end="")
    print(f"judge: of {len(numbers)} logs of a bounded queue {faults} have no order of its capacity, and {missed} of these are clean")
    return right and 0 <= missed * 4 < faults


# A log that another program writes in another form: how it begins, and what is said of it.
LINE = b'{"thread":"a","begin":1,"end":2,"send":7}\n'
FORMS = [
    (b"\xef\xbb\xbf" + LINE, "a byte-order mark: write the log without one"),
    (gzip.compress(LINE), "gzip: unpack the log first"),
    *((LINE.decode().encode(code), "UTF-16: write the log as UTF-8") for code in ("utf-16", "utf-16-le", "utf-16-be")),
    (LINE[1:], "no JSON object"),
]


def judge_forms():
    """Whether the program says of each log in another form which one it is."""
    right = True
    for form, due in FORMS:
        run = subprocess.run([PROGRAM, "judge"], input=form, capture_output=True, check=False)
        said = run.stderr.decode()
        if run.returncode != 2 or said != f"ccq: log refused: standard input: line 1: {due}\n":
            right = False
            print(f"judge: a log that begins with {form[:4]}: status {run.returncode}, {said}", end="")
    print(f"judge: {len(FORMS)} logs in other forms are{'' if right else ' not'} refused by their forms")
    return right


def build(folder):
    """Builds tests/recorded with those of the peers that are on this machine, and the ring: the program, and their names."""
    peers = [peer for peer in ("crossbeam-channel", "flume") if any(REGISTRY.glob(f"{peer}-[0-9]*"))]
    needs = "".join(f'{peer} = {{ version = "*", optional = true }}\n' for peer in peers)
    (folder / "Cargo.toml").write_text(
        '[package]\nname = "recorded"\nversion = "0.1.0"\nedition = "2024"\n\n[workspace]\n\n'
        f'[[bin]]\nname = "recorded"\npath = "{TOP}/tests/recorded/main.rs"\n\n'
        f'[[bin]]\nname = "ring"\npath = "{TOP}/bindings/rust/record/examples/ring.rs"\n\n'
        f'[dependencies]\nvahepito = {{ path = "{TOP}/bindings/rust" }}\n'
        f'vahepito-record = {{ path = "{TOP}/bindings/rust/record" }}\n{needs}\n[features]\nstops = ["vahepito-record/stops"]\n'
    )
    debian = ["--config", 'source.crates-io.replace-with = "debian"', "--config", f'source.debian.directory = "{REGISTRY}"']
    command = ["cargo", *(debian if peers else []), "--quiet", "--offline", "build", "--release", "--features", ",".join(["stops", *peers])]
    built = subprocess.run(
        command, cwd=folder, env=os.environ | {"CARGO_TARGET_DIR": str(folder)}, capture_output=True, text=True, check=False
    )
    if built.returncode:
        sys.exit(f"judge: tests/recorded isn't built: {built.stderr}")
    return folder / "release/recorded", peers


def judged_file(log):
    """What the program says of the log in a file."""
    run = subprocess.run([PROGRAM, "judge"], input=log.read_text(), capture_output=True, text=True, check=False)
    return run.stdout or run.stderr


def judge_cut_short(language, ring, log):
    """Whether a recording that can't be written whole fails, and leaves a log that is judged."""
    size = 1 << 20
    limit = lambda: resource.setrlimit(resource.RLIMIT_FSIZE, (size, size))
    run = subprocess.run([ring, log, "right", "50000"], stdout=subprocess.DEVNULL, stderr=subprocess.PIPE, preexec_fn=limit, restore_signals=False, check=False)
    said = judged_file(log)
    print(f"judge: the ring in {language}, in a file of at most {size} bytes: status {run.returncode}, {said}", end="")
    return run.returncode == 1 and b"arge" in run.stderr and log.stat().st_size > size // 2 and is_clean(said, "early")


def is_clean(said, ends):
    """Whether the program says that a log is clean and ends so."""
    return said.startswith("judge clean: ") and said.endswith(f"; {SAID_END[ends]}\n")


def judge_ring(language, ring, log):
    """Whether the program finds the planted fault of a ring, and none without it, also with stops, and if the recording is killed or
    can't be written whole."""
    right = judge_cut_short(language, ring, log)
    for kind in [["right"], ["early"], ["right", "5000", "stops"]]:
        subprocess.run([ring, log, *kind], stdout=subprocess.DEVNULL, check=True)
        said = judged_file(log)
        print(f"judge: the ring in {language}, {' '.join(kind)}: {said}", end="")
        right &= said.startswith("judge fault: ") if kind == ["early"] else is_clean(said, "whole")
    clean = 0
    for later in range(5):
        log.unlink()
        with subprocess.Popen([ring, log, "right", "1000000000"]) as run:
            while run.poll() is None and not (log.exists() and log.stat().st_size):
                time.sleep(0.01)
            time.sleep(later / 20)
            run.kill()
        said = judged_file(log)
        print(f"judge: the ring in {language}, killed: {said}", end="")
        clean += is_clean(said, None)
        # It was killed while it wrote.
        right &= is_clean(said, None) or (": no JSON object" in said and "\n!" in "\n" + log.read_text())
    return right & judge_pipe(language, ring, log) and clean > 0


def judge_pipe(language, ring, log):
    """The same of what a pipe gets. Of a program that is killed these are whole lines, of a log that ends early."""
    right = True
    pipe = log.with_name("pipe")
    os.mkfifo(pipe)
    runs = [("right", "5000", "whole"), ("early", "5000", "whole"), *[("right", "1000000000", "early")] * 3]
    for kind, items, ends in runs:
        seconds = 60 if ends == "whole" else 0.2
        with subprocess.Popen([ring, pipe, kind, items], stdout=subprocess.DEVNULL) as run, pipe.open() as read:
            kill = threading.Timer(seconds, run.kill)
            kill.start()
            text = read.read()
            kill.cancel()
        log.write_text(text if ends == "whole" else text + '{"ends":"early"}\n')
        said = judged_file(log)
        print(f"judge: the ring in {language}, {kind}, in a pipe, for {seconds} s at most: {said}", end="")
        is_due = said.startswith("judge fault: ") if kind == "early" else is_clean(said, ends)
        right &= text.endswith("\n") and is_due
    return right


def judge_recorded():
    """Whether the program finds each queue clean, and the fault of the one with a fault, in what is recorded of them."""
    if shutil.which("cargo") is None:
        print("judge: recorded queues: SKIPPED: cargo is not on this machine")
        return True
    right = True
    with tempfile.TemporaryDirectory() as name:
        recorder, peers = build(Path(name))
        for queue in ["channel", "mpsc", *peers, "fault"]:
            log = Path(name, queue)
            subprocess.run([recorder, queue, log, "20000"], check=True)
            said = judged_file(log)
            print(f"judge: {queue}: {said}", end="")
            right &= said.startswith("judge fault: taken twice: ") if queue == "fault" else is_clean(said, "whole")
        right &= judge_ring("Rust", recorder.with_name("ring"), Path(name, "ring.log"))
    return right


def judge_ring_in_c():
    """The same of the ring in C."""
    if shutil.which("cc") is None:
        print("judge: the ring in C: SKIPPED: cc is not on this machine")
        return True
    with tempfile.TemporaryDirectory() as name:
        ring = Path(name, "ring")
        subprocess.run(["cc", "-std=c11", "-O2", "-pthread", TOP / "bindings/c/ring.c", "-o", ring], check=True)
        return judge_ring("C", ring, Path(name, "ring.log"))


def judge_queues():
    """Whether the queues that this machine has are judged as they have to be: no control is accused, and each planted fault is found."""
    command = [sys.executable, TOP / "bench/judged/run.py", "--short"]
    return subprocess.run(command, env=os.environ | {"CCQ": str(PROGRAM)}, check=False).returncode == 0


def main(count=None, first=0):
    if not os.access(PROGRAM, os.X_OK):
        print("judge: there is no crates/ccq/out/ccq: run `rt ci` first, or `rt run` in crates/ccq")
        return 1
    recorded = count is not None or all([judge_forms(), judge_histories(), judge_windows(), judge_recorded(), judge_ring_in_c(), judge_queues()])
    numbers = [*range(first, first + count)] if count else [*range(1500), *RARE]
    count = len(numbers)
    clean = wrong = 0
    with ThreadPoolExecutor(os.cpu_count()) as pool:
        for number, right, same, said in pool.map(judged, numbers):
            clean += right
            if not same:
                wrong += 1
                print(f"judge: log {number} has {'an' if right else 'no'} order, and the program says {said}", end="")
        recorded &= judge_bounded(pool, numbers)
    print(f"judge: {count - wrong} of {count} verdicts are those of a search over all orders; "
          f"{clean} logs have an order")
    return 1 if wrong or not recorded or not 0 < clean < count else 0


if __name__ == "__main__":
    sys.exit(main(*map(int, sys.argv[1:3])))
