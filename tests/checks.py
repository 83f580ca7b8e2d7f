#!/usr/bin/env python3
"""Does the checks of ./test, side by side, and counts them; `./test --help` says which. ./test calls it.

    tests/checks.py [--quick] [NAME..]

A check is a command of one of the lists below. Its exit status is 0 if all is well, and 77 if nothing of it could be
done; a line with the word SKIPPED says of what this machine can't do why. The gate, without --quick and names, does
ALWAYS, then `rt ci`, then GATE, and last it compares the processor seconds of all parts with the limit
(tests/budget.py).
"""
import os
import pathlib
import re
import shutil
import subprocess
import sys
import tempfile
import time

sys.dont_write_bytecode = True
import asked
from side_by_side import Command, Side, lanes, quiet_at_interrupt

TOP = pathlib.Path(__file__).resolve().parent.parent
# Those that are always done, those of the gate alone behind `rt ci`, and those with --quick alone. The longest come
# first, so that none of them is left at the end.
ALWAYS = """tests/model.py
tests/store_buffers.py
tests/statements.py
tools/release.sh
tools/page_text.py
tools/show_pictures.sh
tools/build_library.sh --sums
tools/programs.sh --sums
tests/install.py
tools/statements.py
tools/steps_table.py
tools/page_steps.py
tools/model.py
tests/border.py
tests/documents.py
tests/helps.py
tests/plain_words.py
tests/release_stores.py
tests/unwind.py
tests/arm_words.py
tests/module.py
tests/rows.py --derived""".splitlines()
GATE = """tests/bindings.py
tests/readme.py --gate
tools/build_library.sh --over-gate
tests/arm.py --quick
tests/show.sh
tests/judge.py
tests/rows.py
tests/refuse.py
tools/programs.sh
tools/manual.py
tests/memory.py
tests/follow.py""".splitlines()
WITHOUT_PROOF = """tests/bindings.py --quick
try_tests cc_tests
tests/rows.py --try""".splitlines()
# Checks that run steps side by side, and show each when it has ended.
OF_STEPS = {"tests/bindings.py", "tests/show.sh", "tests/readme.py"}
# Checks whose threads spin for each other on all processors: each runs alone.
ALONE = {"tests/store_buffers.py"}
LEFT_OUT = "proofs, wrong bodies, README in a fresh Debian, builds by two compilers, refused memory, the build of " \
    "the library, most of the rows, pages in a browser, valgrind, sanitizers, the package"
# The tests of a crate, without their proofs; all that they say if one fails.
TRY_TESTS = """command -v rt >/dev/null || { echo "$0: its tests: SKIPPED: rt is not on this machine"; exit 77; }
said=$(cd "crates/$0" && rt try --test 2>&1) && echo "$0: $(grep '^test result' <<<"$said")" && exit
echo "$said"; exit 1"""
MEMORY_OF_RT = 4  # gigabytes of a job of `rt ci`


class Run:
    """The checks that were done, and what was skipped; a part is a line of tests/budget.py."""

    def __init__(self):
        self.passed, self.failed, self.skipped, self.parts = 0, 0, [], []

    def do(self, names):
        """Does checks side by side, and counts each."""
        commands = []
        for name in names:
            words = name.split()
            if words[0] == "try_tests":
                words = ["bash", "-c", TRY_TESTS, words[1]]
            commands.append(Command(name, words, at_once=words[0] in OF_STEPS, shares=words[0] in OF_STEPS,
                                    alone=words[0] in ALONE))
        side = Side(commands)
        for check in side.run():
            if not check.at_once:
                side.say(check.said)
            if check.status not in (0, 77):
                side.say(f"test: FAILED: {check.name}" + (f" (status {check.status})" if not check.said else ""))
            self.failed += check.status not in (0, 77)
            self.passed += check.status == 0
            self.skipped += check.skipped()
            self.note(check.seconds, check.start, check.name, check.end)

    def note(self, seconds, start, name, end=None):
        """Notes the processor seconds of a part, and when it began and ended."""
        self.parts.append(f"{seconds:.1f} {start:.0f} {end or time.time():.0f} {name}")

    def end(self, passed=None):
        """Repeats what was skipped, and writes the last line: how many parts passed, failed and were skipped."""
        for line in self.skipped:
            print("test: skipped: " + line.replace(": SKIPPED: ", ": ", 1))
        count = f", {len(self.skipped)} skipped" if self.skipped else ""
        print(f"{self.passed if passed is None else passed} passed, {self.failed} failed{count}", flush=True)
        return int(self.failed > 0)


def waited(process):
    """The exit status of a process, and its processor seconds, with all that it started."""
    _, status, used = os.wait4(process.pid, 0)
    process.returncode = os.waitstatus_to_exitcode(status)
    return process.returncode, used.ru_utime + used.ru_stime


def prove(run):
    """Does `rt ci`. Its last line, which has the numbers of the gate, isn't printed: the status, and this line."""
    start, last = time.time(), ""
    variables = os.environ | {"RT_JOBS": str(lanes(MEMORY_OF_RT))}
    process = subprocess.Popen(["rt", "ci"], env=variables, stdout=subprocess.PIPE, text=True, errors="replace")
    for line in process.stdout:
        print(last, end="", flush=True)
        last = line
    status, seconds = waited(process)
    run.note(seconds, start, "rt ci")
    return status, last


def gate(run):
    """The whole."""
    run.do(ALWAYS)
    # A build of the library that failed leaves links, and rt ci refuses a tree that has some.
    shutil.rmtree("out/toolchain", ignore_errors=True)
    with tempfile.TemporaryDirectory() as room:
        yards, parts = pathlib.Path(room, "yards"), pathlib.Path(room, "parts")
        start = time.time()
        with yards.open("w") as file:
            # It measures the host beside the gate.
            yardstick = subprocess.Popen(["tests/budget.py", "--yards"], stdout=file, env=os.environ | {"TMPDIR": room})
        try:
            status, last = prove(run)
            if status:
                print(last, end="")
                return status
            run.do(GATE)
        finally:
            yardstick.terminate()
            run.note(waited(yardstick)[1], start, "the yardstick")
        with yards.open("a") as file:
            start = time.time()
            again = subprocess.Popen(["tests/budget.py", "--yard"], stdout=file)
            run.note(waited(again)[1], start, "the yardstick again")
        parts.write_text("\n".join(run.parts) + "\n")
        run.do([f"tests/budget.py {parts} {yards}"])
    return run.end(int(re.match(r"\d+", last)[0]))


def main(words):
    quick, names = words[:1] == ["--quick"], [word for word in words if word != "--quick"]
    quiet_at_interrupt()
    os.chdir(TOP)
    os.environ["PYTHONDONTWRITEBYTECODE"] = "1"
    run = Run()
    if names:
        lists = ALWAYS + (WITHOUT_PROOF if quick else GATE)
        unknown = [name for name in names if name not in {line.split()[0] for line in lists}]
        if unknown:
            print(f"test: no check has the name {' '.join(unknown)}", file=sys.stderr)
            return 64
        run.do([line for line in lists if line.split()[0] in names])
        return run.end()
    if quick:
        run.do(WITHOUT_PROOF + ALWAYS)
        print(f"test: not done: {LEFT_OUT}")
        return run.end()
    os.environ.pop("VAHEPITO_ROUNDS", None)  # all rounds
    return gate(run)


if __name__ == "__main__":
    sys.exit(main(sys.argv[1:]))
