#!/usr/bin/env python3
"""Whether the gate stays within its price: the processor seconds of its parts, and the limit of CONTRIBUTING.md.

Usage: tests/budget.py --yard           prints the time, and the processor seconds of a fixed piece of work, now
       tests/budget.py --yards          prints them now, and again every five minutes until it is killed
       tests/budget.py PARTS YARDS      compares: PARTS has a line `SECONDS START END NAME` for each part, which may
                                        have run side by side, and YARDS the lines of --yards

The piece of work is the proof of the toolchain's own template of a library, from nothing. CONTRIBUTING.md has the
limit, in processor minutes, and the seconds that this work takes on the host of its table. A part counts less on a
slower host, by as much as the host was slower while the part ran: by the mean of the speeds that were measured then, or
else by the speed that was measured nearest to it. For a host's speed changes with its load, and four proofs at once are
another load than one test. The exit status is 0 if the sum of all parts is within the limit, and 127 if there is no git or rt to measure.
"""

import os
import re
import resource
import shutil
import signal
import subprocess
import sys
import tempfile
import time
from pathlib import Path

sys.dont_write_bytecode = True
import asked
TOP = Path(__file__).resolve().parent.parent
LIMIT = re.compile(r"\*\*The limit is (\d+) processor minutes\*\*, on a host on which `tests/budget\.py --yard` "
                   r"prints (\d+\.\d)")
SHOWN = 12  # the costliest parts, each on a line of its own
PAUSE = 300  # seconds between two measurements of --yards


def yard() -> float:
    """The processor seconds of the fixed piece of work."""

    def run(*words: str, cwd: str) -> None:
        subprocess.run(words, cwd=cwd, check=True, stdin=subprocess.DEVNULL, stdout=subprocess.DEVNULL,
                       stderr=subprocess.DEVNULL)

    with tempfile.TemporaryDirectory() as top:
        run("git", "init", "-q", cwd=top)
        run("rt", "new", "crates/yard", "start_lib", cwd=top)
        Path(top, "crates.txt").write_text("yard:\n")
        for name in ("BUILD.bazel", "crates/yard/BUILD.bazel"):
            Path(top, name).unlink(missing_ok=True)
        before = resource.getrusage(resource.RUSAGE_CHILDREN)
        run("rt", "check", "--jobs", "1", cwd=os.path.join(top, "crates", "yard"))
        after = resource.getrusage(resource.RUSAGE_CHILDREN)
    return after.ru_utime - before.ru_utime + after.ru_stime - before.ru_stime


def print_yard() -> None:
    seconds = yard()
    print(f"{time.time():.0f} {seconds:.1f}", flush=True)


def print_yards() -> None:
    """Prints what the work takes, again and again; when it is killed, its folder goes first."""
    signal.signal(signal.SIGTERM, lambda *_: sys.exit(0))
    while True:
        print_yard()
        time.sleep(PAUSE)


def speed_between(yards: list[tuple[float, float]], start: float, end: float) -> float:
    """How often the host does the work in a second, between these times: the mean, or of none the nearest."""
    within = [1 / seconds for at, seconds in yards if start <= at <= end]
    if within:
        return sum(within) / len(within)
    return 1 / min(yards, key=lambda it: abs(it[0] - (start + end) / 2))[1]


def verdict(parts: list[tuple[float, float, float, str]], yards: list[tuple[float, float]],
            text: str) -> tuple[list[str], bool]:
    """What is said of these parts, each with its seconds, its start, its end and its name, and whether they are within
    the limit that this text has."""
    found = LIMIT.search(text)
    if not found or not yards or not parts:
        return ["budget: CONTRIBUTING.md has no limit, or nothing was measured"], False
    minutes, there = int(found[1]), float(found[2])
    counted = [seconds * there * speed_between(yards, start, end) for seconds, start, end, _ in parts]
    spent, price = sum(seconds for seconds, *_ in parts) / 60, sum(counted) / 60
    said = [f"budget: {seconds:8.1f} s, counted as {as_there:8.1f} s  {name}"
            for as_there, (seconds, *_, name) in sorted(zip(counted, parts), reverse=True)[:SHOWN]]
    seen = ", ".join(f"{seconds:.1f}" for _, seconds in yards)
    said.append(f"budget: the yardstick took {seen} s, and {there} s on the host of CONTRIBUTING.md")
    said.append(f"budget: {spent:.1f} processor minutes, which are {price:.1f} there; the limit is {minutes}")
    return said, price <= minutes


def main() -> int:
    words = sys.argv[1:]
    lacking = [it for it in ("git", "rt") if not shutil.which(it)]
    if words in (["--yard"], ["--yards"]) and lacking:
        print(f"budget: there is no {lacking[0]} on the path, which the fixed piece of work needs", file=sys.stderr)
        return 127
    if words == ["--yard"]:
        print_yard()
        return 0
    if words == ["--yards"]:
        print_yards()
    if len(words) != 2:
        print(__doc__, file=sys.stderr)
        return 64
    lines = [line.split(" ", 3) for line in Path(words[0]).read_text().splitlines()]
    yards = [line.split() for line in Path(words[1]).read_text().splitlines()]
    parts = [(float(seconds), float(start), float(end), name) for seconds, start, end, name in lines]
    said, within = verdict(parts, [(float(at), float(seconds)) for at, seconds in yards],
                           (TOP / "CONTRIBUTING.md").read_text())
    print("\n".join(said))
    return int(not within)


if __name__ == "__main__":
    sys.exit(main())
