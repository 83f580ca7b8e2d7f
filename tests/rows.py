#!/usr/bin/env python3
"""Gives `ccq`, as the gate left it by each compiler, every row: those of tests/worked_rows and tests/command_lines,
which are written by hand, and those of tests/derive.py, refused ones also at a terminal.

    tests/rows.py            the programs in crates/ccq/out
    tests/rows.py --try      the program that `rt try` compiles, on the first row of each task and status and each
                             250th after it, since a row there costs half a second: statuses and standard outputs alone
    tests/rows.py --derived  no program: tests/derive.py on the rows of tests/worked_rows, and the sums of its own rows
    tests/rows.py --sums     prints these sums, which tests/derived.sums has: so a change of a row is seen in the tree

The head of tests/command_lines says how the rows by hand are written.

After the rows: every strict prefix of two plans; inputs of 16 MiB, at the limit and one byte past it; lists of a plan
at their limit and one item past it; a large input in little memory; a word that is no text; outputs without room, at
once or after a prefix of the text; inputs that can't be read; what a person at a terminal is told, and in which
colours, by a terminal of the script's own; and the width and the height of each text of help. Before them, the script
shows that it finds a wrong status, a wrong text, a wrong prefix, one on the other output, a word too many, and an input
that was read. Exit status 0 if all did so. It proves and builds nothing: `rt ci` does.
"""
import collections
import dataclasses
import hashlib
import os
import pathlib
import pty
import re
import resource
import select
import shutil
import signal
import subprocess
import sys
import tempfile
import termios
import time

sys.dont_write_bytecode = True
import derive
from programs import TOP, Row, by_hand, derived, does, placed, places, refused

LIMIT = 16777216
CLEAN = b"E 0 s1 send 7 -> accepted 0\naudit clean\n"
SUMS = TOP / "tests/derived.sums"
TASKS = ["play", "audit", "judge", "show", "drive"]
HELPS = ["ccq", *(f"ccq {task}" for task in TASKS)]


def sums():
    """The lines of tests/derived.sums: of each task and status how many rows there are, and a sum of them all."""
    parts = collections.defaultdict(list)
    for name, row in [*derived(), *places()]:
        kind = f"{row.words[0]} {row.status}{' at a terminal' if row.at_terminal else ''}"
        parts[kind].append(b"\0".join([name.encode(), row.input, row.out, row.err]))
    for kind, rows in sorted(parts.items()):
        yield f"{kind}: {len(rows)} rows, sha256 {hashlib.sha256(repr(sorted(rows)).encode()).hexdigest()}\n"


def is_derived():
    """Whether the second program derives what tests/worked_rows has, and its own rows are those of
    tests/derived.sums."""
    wrong, number = 0, 0
    for number, (name, row) in enumerate(by_hand("worked_rows"), 1):
        task, *files = row.words
        data = (TOP / files[0]).read_bytes() if files else row.input
        status, told, lines = derive.outcome_of(task, data)
        due = Row(row.words, status, "".join(f"{it}\n" for it in lines).encode(), f"{told}\n".encode() if told else b"")
        due = placed(due, derive.place_of(data)) if row.at_terminal else due
        if (due.status, due.out, due.err) != (row.status, row.out, row.err):
            wrong += 1
            print(f"rows: tests/worked_rows, {name}: by hand {row.out or row.err}, and derived {due.out or due.err}")
    now, kept = list(sums()), SUMS.read_text().splitlines(keepends=True)
    for line in now:
        if line not in kept:
            print(f"rows: other rows are derived than tests/derived.sums has (tests/rows.py --sums): {line}", end="")
    print(f"rows: {number} worked rows by the second program, {wrong} of them wrong; and the sums of its own "
          f"{sum(1 for _ in [*derived(), *places()])}")
    return wrong == 0 and now == kept


def others():
    """Rows that are too many or too large for a file: fronts of plans, inputs and lists at their limits and one past
    them."""
    for name in ("one_item", "bodies_of_words"):
        plan = (TOP / f"examples/{name}.json").read_bytes().rstrip(b"\n")
        yield from (refused("play", plan[:length], "P1") for length in range(len(plan)))
    for task in ("play", "audit"):
        yield refused(task, b" " * LIMIT, "P1")
        yield refused(task, b" " * (LIMIT + 1), "P3 input")
    yield placed(refused("play", b" " * LIMIT, "P1"), "1:16777217: the text ends too early")
    yield placed(refused("audit", b" " * (LIMIT + 1), "P3 input"), "input is out of its range")
    zeros = b"[" + b"0," * (LIMIT // 2 - 2) + b"0]"
    yield placed(refused("play", zeros, "P2"), "1:1: an array of 8388607 elements is no object")
    front = b'{"capacity":2,"bound":2,"life":10,"receivers":[0],"schedule":['
    for length in (65536, 65537):
        sends = front + b'["s1",28]],"senders":[[7' + b",7" * (length - 1) + b"]]}"
        entries = front + b'["r1",1],' * (length - 1) + b'["s1",28]],"senders":[[7]]}'
        for name, plan in (("senders", sends), ("schedule", entries)):
            yield Row(["play"], 0, CLEAN, input=plan) if length == 65536 else refused("play", plan, f"P3 {name}")


def is_told(program, words, status, err, **outputs):
    """Whether a program ends with this status if a stream is another one, and writes this on standard error."""
    ran = subprocess.run([program, *words], **{"stdin": subprocess.DEVNULL, **outputs})
    if (ran.returncode, ran.stderr or b"") == (status, err):
        return True
    print(f"{program} {words}: status {ran.returncode} and {ran.stderr!r} in place of {status} and {err!r}")
    return False


def fills(program, words, text):
    """Whether a program whose output takes this text and no byte more writes it, and ends with status 4 and its
    line."""

    def bounds():
        # A write past the limit fails, and doesn't stop the program.
        signal.signal(signal.SIGXFSZ, signal.SIG_IGN)
        resource.setrlimit(resource.RLIMIT_FSIZE, (len(text), len(text)))

    with tempfile.TemporaryFile() as output:
        well = is_told(program, words, 4, b"ccq: writing failed\n", stdout=output, stderr=subprocess.PIPE,
                       preexec_fn=bounds)
        output.seek(0)
        seen = output.read()
    if seen != text:
        print(f"{program} {words}: {seen!r} on an output that takes {text!r}")
    return well and seen == text


def without_room(program):
    """A large input in little memory, a word that is no text, and outputs that are full, at once or after some
    bytes."""
    objects = b"[" + (b'{"a":0},' * (LIMIT // 8))[: LIMIT - 8] + b"0]"
    for task in ("play", "audit"):
        yield does(program, Row([task], 3, err=b"ccq: out of memory\n", input=objects), memory=20000 * 1024)
    no_text = (b"error: invalid UTF-8 was detected in one or more arguments; a file of such a name is read by `ccq "
               b"TASK < FILE`\n\n"
               b"Usage: ccq <COMMAND>\n\nFor more information, try '--help'.\n")
    yield is_told(program, [b"\xff"], 64, no_text, stdout=subprocess.DEVNULL, stderr=subprocess.PIPE)
    with open("/dev/full", "wb") as full:
        for line in ("--help", "drive --help", "drive --items 5"):
            yield is_told(program, line.split(), 4, b"ccq: writing failed\n", stdout=full, stderr=subprocess.PIPE)
        yield is_told(program, ["drive", "--senders", "64"], 64, b"", stdout=subprocess.DEVNULL, stderr=full)
        yield is_told(program, ["drive", "--items", "5"], 4, b"", stdout=full, stderr=full)
    for text in (b"", b"sent 20\n", b"sent 20\ntaken 20\n", b"sent 20\ntaken 20\naudit clean"):
        yield fills(program, ["drive", "--items", "5"], text)
    yield fills(program, ["drive", "--help"], b"Drives")


def unread(program):
    """Inputs that can't be read: a folder as standard input, and a file without permission."""
    folder = os.open(TOP, os.O_RDONLY)
    reason = b"ccq: standard input: Is a directory (os error 21)\n"
    for task in ("play", "audit", "judge", "show"):
        yield is_told(program, [task], 4, reason, stdin=folder, stdout=subprocess.DEVNULL, stderr=subprocess.PIPE)
    os.close(folder)
    with tempfile.TemporaryDirectory() as room:
        os.chmod(room, 0o755)
        locked = pathlib.Path(room, "locked")
        locked.touch(0o000)
        # root may read each file, so the program is run as nobody
        nobody = {"user": 65534, "group": 65534} if os.geteuid() == 0 else {}
        ours = shutil.copy(program, room)
        for task in ("play", "judge"):
            reason = f"ccq: {locked}: Permission denied (os error 13)\n".encode()
            yield is_told(ours, [task, locked], 64, reason, stdout=subprocess.DEVNULL, stderr=subprocess.PIPE, **nobody)


# A terminal without colours.
DUMB = {**os.environ, "TERM": "dumb"}


class Terminal:
    """A program some of whose streams are a terminal."""

    def __init__(self, program, words, at, **others):
        self.ours, theirs = pty.openpty()
        modes = termios.tcgetattr(theirs)
        modes[3] &= ~termios.ECHO
        termios.tcsetattr(theirs, termios.TCSANOW, modes)
        streams = {"stdin": subprocess.DEVNULL, **others, **dict.fromkeys(at, theirs)}
        # A shell's background jobs ignore interrupts, and so would a program that this script starts in one.
        self.child = subprocess.Popen([program, *words], cwd=TOP, **{"env": DUMB, **streams},
                                      preexec_fn=lambda: signal.signal(signal.SIGINT, signal.SIG_DFL))
        os.close(theirs)

    def read_up_to(self, pattern, seconds=30):
        """What the terminal shows, up to a pattern or to the end of the program."""
        shown, end = b"", time.monotonic() + seconds
        while not re.search(pattern, shown) and time.monotonic() < end:
            if select.select([self.ours], [], [], 0.2)[0]:
                try:
                    shown += os.read(self.ours, 4096)
                except OSError: # the end, as Linux has it
                    break
        return shown

    def end(self):
        """The status, and what the program wrote to its other streams."""
        texts = self.child.communicate(timeout=30)
        os.close(self.ours)
        return self.child.returncode, *texts


def at_terminals(program):
    """At a terminal a task says what it waits for, no page is written, and a drive of seconds says how far it is."""

    def same(what, seen, due):
        if seen != due:
            print(f"{program} {what}: {seen!r} at a terminal, and not {due!r}")
        return seen == due

    for task, waits in (("play", b"a plan on standard input; Ctrl-D ends it"),
                        ("audit", b"receipts on standard input; Ctrl-D ends them")):
        there = Terminal(program, [task], ["stdin", "stderr"], stdout=subprocess.PIPE)
        shown = there.read_up_to(rb"\n")
        os.write(there.ours, b"\x04")
        yield same(task, (shown, there.end()[:2]), (b"ccq: waiting for " + waits + b"\r\n", (2, b"")))
    for line in ("show examples/one_item.json", "judge --page examples/calls.jsonl"):
        there = Terminal(program, line.split(), ["stdout"], stderr=subprocess.PIPE)
        due = b"error: a page is for a browser, and standard output is a terminal: add `> page.html`\n"
        yield same(line, (there.read_up_to(b"."), there.end()), (b"", (64, None, due)))
    there = Terminal(program, "show --trace examples/one_item.json".split(), ["stdout"], stderr=subprocess.PIPE)
    yield same("show --trace", there.read_up_to(rb"\n")[:10], b'{"event":1') and same("show --trace", there.end()[0], 0)
    # The progress of a drive ends before its answer begins.
    there = Terminal(program, "drive --items 20000 --senders 8 --capacity 1".split(), ["stdout", "stderr"])
    shown = there.read_up_to(rb"(?!)", 300)
    well = re.fullmatch(
        rb"((\rccq: \d+ s, \d+ calls answered, \d+ a second  )+\r\n)?sent 160000\r\ntaken 160000\r\naudit clean\r\n",
        shown) is not None
    yield same("drive", (well, shown if not well else b"", there.end()[0]), (True, b"", 0))
    # It needs minutes; and writes nothing else while it runs, also if standard error is no terminal
    line = "drive --items 1000000 --senders 63 --capacity 1".split()
    there, piped = Terminal(program, line, ["stderr"], stdout=subprocess.PIPE), Terminal(program, line, [],
        stdout=subprocess.PIPE, stderr=subprocess.PIPE)
    shown = there.read_up_to(rb" a second  $")
    for it in (there, piped):
        it.child.send_signal(signal.SIGINT)
    well = re.fullmatch(rb"(\rccq: \d+ s, \d+ calls answered, \d+ a second  )+", shown) is not None
    yield same("drive", (well, shown if not well else b""), (True, b"")) and same("drive", there.end()[:2],
        (-signal.SIGINT, b"")) and same("drive", piped.end(), (-signal.SIGINT, b"", b""))


def hints(program):
    """At a terminal a second line after a refusal of a plan or of receipts has the place, by the name of the input."""
    place = "standard input: 1:1: x is no JSON here\r\n"
    due = {"play": "ccq: plan refused: P1\r\nccq: " + place, "show": "ccq: plan refused: P1\r\nccq: " + place,
           "audit": "ccq: plan refused: P1\r\nccq: " + place,
           "judge": "ccq: log refused: standard input: line 1: no JSON object\r\n",
           "play examples/receipts.json": "ccq: plan refused: P2\r\nccq: examples/receipts.json: no fault: these "
                                          "receipts aren't refused\r\n"}
    for line, text in due.items():
        with tempfile.TemporaryFile() as given:
            given.write(b"x\n")
            given.seek(0)
            there = Terminal(program, line.split(), ["stderr"], stdin=given, stdout=subprocess.DEVNULL)
            said = there.read_up_to(rb"(?!)").decode()
            there.end()
        if said != text:
            print(f"{program} {line}: {said!r} at a terminal")
        yield said == text


def colours(program):
    """At a terminal that has colours the head of a log's verdict or of a fault stands between marks, and the rest is as
    it is elsewhere. So is the whole if the environment forbids colours, or if only the other stream is a terminal."""
    red, green = (b"\x1b[%sm" % it for it in (b"1;31", b"1;32"))
    twice = b'{"thread":1,"begin":0,"end":1,"send":[5]}\n' + b"".join(
        b'{"thread":%d,"begin":2,"end":3,"take":[5]}\n' % it for it in (2, 3))
    lines = [
        ("judge examples/calls.jsonl", b"", "stdout", green, rb"judge clean"),
        ("judge", twice, "stdout", red, rb"judge fault"),
        ("play no_such_file", b"", "stderr", red, rb"ccq"),
        ("judge", b"x", "stderr", red, rb"ccq"),
        ("judge --skew", b"", "stderr", red, rb"error"),
        ("judge --page examples/calls.jsonl extra", b"", "stderr", red, rb"error"),
        ("plays", b"", "stderr", red, rb"error"),
        ("drive --senders 64", b"", "stderr", red, rb"error"),
        ("play examples/one_item.json", b"", "stdout", b"", rb""),
        ("show --trace examples/one_item.json", b"", "stdout", b"", rb""),
        ("drive --items 5", b"", "stdout", b"", rb""),
        ("judge --help", b"", "stdout", b"", rb""),
        ("--version", b"", "stdout", b"", rb""),
    ]
    rest = {it: text for it, text in os.environ.items() if it not in ("TERM", "NO_COLOR")}
    some, none = ({}, {"NO_COLOR": ""}), ({"NO_COLOR": "1"}, {"NO_COLOR": "0", "TERM": "linux"}, {"TERM": "dumb"},
                                          {"TERM": ""}, {"TERM": None})
    for line, input, stream, mark, pattern in lines:
        other = "stdout" if stream == "stderr" else "stderr"

        def shown(at, variables):
            env = {it: text for it, text in {**rest, "TERM": "xterm", **variables}.items() if text is not None}
            with tempfile.TemporaryFile() as file, tempfile.TemporaryFile() as out:
                file.write(input)
                file.seek(0)
                there = Terminal(program, line.split(), at, stdin=file, env=env,
                                 **{it: out for it in (stream, other) if it not in at})
                said = there.read_up_to(rb"(?!)")
                there.end()
                out.seek(0)
                return (said if stream in at else out.read()).replace(b"\r\n", b"\n")

        plain = shown([], {})
        head = re.match(pattern, plain)
        painted = mark + head[0] + b"\x1b[0m" + plain[head.end():] if head and mark else plain
        seen = [*(shown([stream], it) for it in some), *(shown([stream], it) for it in none), shown([other], {}), plain]
        due = [painted] * len(some) + [plain] * (len(none) + 2)
        well = head is not None and bool(plain) and b"\x1b" not in plain and seen == due
        if not well:
            print(f"{program} {line}: {seen!r} on {stream} at terminals, and not {due!r}")
        yield well


def is_narrow(program):
    """Whether no line of the texts of help has more than 78 columns, and no short text more than 24 lines."""
    texts = {f"{it} {flag}": subprocess.run([program, *it.split()[1:], flag], capture_output=True, text=True,
             check=True).stdout.splitlines() for it in HELPS for flag in ("-h", "--help")}
    wide = [line for line, said in texts.items() if any(len(it) > 78 for it in said)]
    tall = [line for line, said in texts.items() if line.endswith(" -h") and len(said) > 24]
    for line in wide + tall:
        print(f"{program} {line}: a line of more than 78 columns, or more than 24 lines")
    return not wide + tall


def programs():
    """What the gate left of the program, by each compiler."""
    built = [it for it in (TOP / "crates/ccq/out/ccq", TOP / "crates/ccq/out/ccq.by-rattle") if os.access(it, os.X_OK)]
    if not built:
        print("rows: there is no crates/ccq/out/ccq: run `rt ci` first, or `rt run` in crates/ccq")
    return built


def finds_what_is_wrong(program):
    """Whether each of these wrong rows, and none of the right ones, is one that the program doesn't do."""
    worked = dict(by_hand("worked_rows"))
    item, place = worked["words_for_two_groups"], worked["a_pass_that_isn_t_there_at_a_terminal"]
    plan = Row(["play"], 2, err=b"ccq: plan refused: P1\n", input=b"{")
    line = Row(["play", "x", "y"], 64, err=b"error:", is_read=False, more=True)
    wrong = [
        dataclasses.replace(item, status=1),
        dataclasses.replace(item, err=b"ccq: reading failed\n"),
        dataclasses.replace(item, out=item.out.replace(b"accepted 0", b"accepted 1")),
        dataclasses.replace(item, out=item.out.replace(b"D 2 0", b"D 1 1")),
        dataclasses.replace(item, out=item.out.replace(b"1 7 8\n", b"1 7\n")),
        dataclasses.replace(plan, out=plan.err, err=b""),
        dataclasses.replace(place, err=place.err.replace(b"[1]", b"[0]")),
        dataclasses.replace(place, err=place.err.replace(b"3:", b"2:")),
        dataclasses.replace(line, words=["play"]),
        dataclasses.replace(line, input=b"x", is_read=True),
        dataclasses.replace(line, err=b"error: no"),
    ]
    if not all(does(program, it) for it in (item, plan, line, place)):
        return False
    with open(os.devnull, "w") as quiet:
        shown, sys.stdout = sys.stdout, quiet
        found = [*(not does(program, it) for it in wrong), not fills(program, ["drive", "--items", "5"], b"sent 21\n")]
        sys.stdout = shown
    if not all(found):
        print(f"rows: wrong row {found.index(False)} was let through, so this script finds nothing")
    return all(found)


def on_programs():
    built = programs()
    for program in built:
        parts = by_hand("worked_rows"), [*derived(), *places()], by_hand("command_lines")
        rows = [[it for _, it in part] for part in parts] + [list(others())]
        well = finds_what_is_wrong(program)
        for row in (it for part in rows for it in part):
            well &= does(program, row)
        well &= all([*without_room(program), *unread(program), *hints(program), *at_terminals(program),
                     *colours(program)]) and is_narrow(program)
        if not well:
            return False
        worked, corpus, lines, large = map(len, rows)
        print(f"{program}: {worked} worked rows, {corpus} derived ones, {lines} command lines, and {large + 14} "
              f"prefixes of plans, large inputs and full outputs")
    return bool(built)


def on_tried():
    """The rows as the cases of one `rt try`, whose lines tell each one's status, and whether its output is the expected
    one. Rows at a terminal aren't tried."""
    if not shutil.which("rt"):
        print("rows: the program that is tried: SKIPPED: rt is not on this machine")
        sys.exit(77)
    rows = [*by_hand("worked_rows"), *derived(), *by_hand("command_lines")]
    alike = collections.defaultdict(list)
    for name, row in rows:
        task, *others = row.words or [""]
        # `rt try` runs the program in a folder of its own
        if not row.at_terminal and not any((TOP / word).exists() for word in others):
            alike[task if task in TASKS else "", row.status].append((name, row))
    rows = dict(it for part in alike.values() for it in part[::250])
    with tempfile.TemporaryDirectory() as folder:
        for name, row in rows.items():
            case = pathlib.Path(folder, name)
            case.write_bytes(row.input)
            if row.words:
                case.with_suffix(".args").write_text("".join(it + "\n" for it in row.words))
            if not (row.more and row.out):
                case.with_suffix(".stdout").write_bytes(row.out)
        ran = subprocess.run(["rt", "try", "--cases", folder], cwd=TOP / "crates/ccq", stdin=subprocess.DEVNULL,
                             capture_output=True, text=True)
    told = dict(re.findall(r"^case=(\S+) (run=.*)$", ran.stdout + ran.stderr, flags=re.M))
    wrong = 0
    for name, row in rows.items():
        said = told.get(name, "no line")
        if f" status={row.status} " not in said or "output=differs" in said:
            wrong += 1
            print(f"rows: {name}: {said}, and status {row.status} is due")
    if len(told) != len(rows):
        print((ran.stdout + ran.stderr)[-2000:])
    print(f"rows: {len(rows)} rows on the program that was tried, {wrong} of them wrong; what stands on standard "
          f"error wasn't compared")
    return wrong == 0


if __name__ == "__main__":
    does_it = {"": on_programs, "--try": on_tried, "--derived": is_derived,
               "--sums": lambda: print(*sums(), sep="", end="")}.get(" ".join(sys.argv[1:]))
    if does_it is None:
        print(__doc__)
        sys.exit(0 if sys.argv[1:] in (["-h"], ["--help"]) else 64)
    sys.exit(does_it() is False)
