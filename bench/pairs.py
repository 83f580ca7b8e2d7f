#!/usr/bin/env python3
"""Times a send with its take on one thread, by handles, beside the library of another commit.

    bench/pairs.py COMMIT [--rounds N] [--write]

A round runs bench/pair.c with each archive (the default one of COMMIT, of this tree, and this tree's strict one), in a
random order, for some 40 ms each. It prints medians with quartiles in nanoseconds, of 31 rounds if no number is given.
--write writes the table of docs/BENCH.md.
"""
import argparse
import pathlib
import random
import subprocess
import sys
import tempfile

sys.dont_write_bytecode = True
from document import row, spread, write

TOP = pathlib.Path(__file__).resolve().parent.parent
KEPT = "bindings/rust/lib/x86_64-unknown-linux-gnu"
PAIRS = 300_000


def build(room: pathlib.Path, name: str, archive: bytes) -> str:
    library, program = room / f"{name}.a", room / name
    library.write_bytes(archive)
    command = ["cc", "-O2", "-I", TOP / "bindings/c", TOP / "bench/pair.c", library, TOP / KEPT / "libvahepito_heap.a",
               "-pthread", "-o", program]
    subprocess.run(command, check=True)
    return str(program)


def main() -> int:
    parser = argparse.ArgumentParser()
    parser.add_argument("commit")
    parser.add_argument("--rounds", type=int, default=31)
    parser.add_argument("--write", action="store_true")
    words = parser.parse_args()
    before = subprocess.run(["git", "show", f"{words.commit}:{KEPT}/libvahepito.a"], cwd=TOP, check=True,
                            stdout=subprocess.PIPE).stdout
    times: dict = {}
    with tempfile.TemporaryDirectory() as name:
        room = pathlib.Path(name)
        now, strict = ((TOP / KEPT / each).read_bytes() for each in ("libvahepito.a", "libvahepito_strict.a"))
        programs = {each: build(room, each, archive)
                    for each, archive in (("before", before), ("now", now), ("strict", strict))}
        for _ in range(words.rounds):
            for each in random.sample(list(programs), len(programs)):
                said = subprocess.run([programs[each], str(PAIRS)], check=True, stdout=subprocess.PIPE,
                                      text=True).stdout
                times.setdefault(each, []).append(float(said))
    told = [spread(times[each], 1) for each in ("before", "now", "strict")]
    quotients = [now / before for before, now in zip(times["before"], times["now"])]
    rows = [["a send and its take", "before", "now", "now, strict", "now / before"],
            ["by handles", *told, spread(quotients, 2)]]
    print("\n".join(map(row, rows)))
    if words.write:
        write("pairs", rows)
    return 0


if __name__ == "__main__":
    sys.exit(main())
