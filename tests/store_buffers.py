#!/usr/bin/python3
"""Looks on real processors for a store that a call of the library leaves in its processor's buffer when it returns.

    tests/store_buffers.py [ROUNDS]

tests/store_buffers/border.c has the pattern: a send and a look at a mark, beside the mark and a take.
tests/store_buffers/queues.c has it with two queues, each of two threads calling on both. No round may miss. Both are
linked with each archive of bindings/rust/lib/x86_64-unknown-linux-gnu. Then they are linked with a control: the same
library, all of whose stores are release stores. There a round has to miss, by marks and by `accepted`; so the test
would see such an archive. (In the other forms a locked instruction of the take comes between the store and the load.)

ROUNDS is the number for each archive. If it isn't given, it is 100,000, or as many of a hundred of these as
VAHEPITO_ROUNDS says. The exit status is 0 if all is as it should be, and 77 if nothing was done: a processor other than
x86-64, one processor alone, or no C compiler.
"""
import lzma
import os
import pathlib
import platform
import re
import shutil
import subprocess
import sys
import tempfile

sys.dont_write_bytecode = True
import asked
from module import compiled, compiler_of

TOP = pathlib.Path(__file__).resolve().parent.parent
ARCHIVES = TOP / "bindings/rust/lib/x86_64-unknown-linux-gnu"
ROUNDS = 1000 * int(os.environ.get("VAHEPITO_ROUNDS", 100))
OF_CONTROL = 6_000_000  # rounds in which the control has to miss; it stops at the first
LIMIT = 1200  # seconds, on a machine with much other work
# The programs with their words, and whether the control has to miss.
FORMS = {("border",): True, ("queues", "accepted"): True, ("queues", "taken"): False, ("queues", "take"): False}


def skip(what: str) -> int:
    print(f"store buffers: {what}")
    return 77


def control() -> bytes | None:
    """The object of the strict archive's module in which each store is a release store, if a compiler for it is
    here."""
    clang, _, words = compiler_of(ARCHIVES)
    text = lzma.open(ARCHIVES / "module.ll.xz", "rt").read()
    weaker = re.sub(r"(store atomic [^\n]*) seq_cst,", r"\1 release,", text)
    return compiled(clang, words, weaker) if clang else None


def run(room: pathlib.Path, library: pathlib.Path, form: tuple, rounds: int) -> tuple[int, int, int]:
    """The rounds, in how many of them a call found nothing of the other's, and how many missed."""
    program = room / "program"
    command = ["cc", "-O2", "-std=c11", "-Wall", "-Wextra", "-Werror", "-I", str(TOP / "bindings/c"), "-pthread", "-o",
               str(program)]
    command += [str(TOP / f"tests/store_buffers/{form[0]}.c"), str(library), str(ARCHIVES / "libvahepito_heap.a")]
    subprocess.run(command, check=True)
    said = subprocess.run([program, *form[1:], str(rounds), "1"], check=True, stdout=subprocess.PIPE, text=True,
                          timeout=LIMIT).stdout
    return tuple(int(number) for number in re.fullmatch(r"rounds (\d+), alone (\d+), missed (\d+)\n", said).groups())


def main(rounds: int) -> int:
    if platform.machine() != "x86_64" or len(os.sched_getaffinity(0)) < 2 or not shutil.which("cc"):
        return skip("SKIPPED: no C compiler, one processor alone, or the processor isn't x86-64")
    failed = 0
    with tempfile.TemporaryDirectory() as name:
        room = pathlib.Path(name)
        wrong = control()
        (room / "control.o").write_bytes(wrong or b"")
        for form, has_to_miss in FORMS.items():
            told = " ".join(form)
            for archive in ("libvahepito.a", "libvahepito_strict.a"):
                done, alone, missed = run(room, ARCHIVES / archive, form, rounds)
                print(f"store buffers: {archive}, {told}: {missed} of {done} rounds missed; in {alone} a call saw "
                      f"nothing of the other's")
                failed += missed > 0 or alone == 0
            if has_to_miss and wrong:
                done, _, missed = run(room, room / "control.o", form, OF_CONTROL)
                print(f"store buffers: the control, {told}: "
                      + (f"round {done} missed" if missed else f"none of {done} rounds missed: FAILED"))
                failed += not missed
    if not wrong:
        skip("the control: SKIPPED: no clang that compiles its module is on this machine")
    return 1 if failed else 0


if __name__ == "__main__":
    sys.exit(main(int(sys.argv[1]) if len(sys.argv) > 1 else ROUNDS))
