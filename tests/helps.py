#!/usr/bin/env python3
"""Checks that each script of the repository explains itself, and that docs/FORMATS.md has the statuses of `ccq --help`.

    tests/helps.py

Each script that can be run, in tests/, tools/ and bench/ and at the top, is run with --help: it has to end at once with
status 0, to print its use on standard output, and to print nothing on standard error. Each number in the table of
docs/FORMATS.md, "Exit statuses", is one of those in the help of the program in bin/, and each of these is in the table.
"""
import os
import pathlib
import re
import subprocess
import sys
from concurrent.futures import ThreadPoolExecutor

sys.dont_write_bytecode = True
import asked

TOP = pathlib.Path(__file__).resolve().parent.parent
CCQ = TOP / "bin/x86_64-unknown-linux-gnu/ccq"
LIMIT = 60  # seconds, on a machine with much other work


def scripts():
    """The scripts that can be run, of bash and Python."""
    for pattern in ("*", "tests/**/*", "tools/*", "bench/**/*"):
        for path in sorted(TOP.glob(pattern)):
            if path.is_file() and os.access(path, os.X_OK) and path.read_bytes().startswith(b"#!"):
                yield path


def unexplained(path):
    """What is wrong with the help of a script, or None."""
    try:
        run = subprocess.run([path, "--help"], stdin=subprocess.DEVNULL, capture_output=True, text=True, timeout=LIMIT)
    except subprocess.TimeoutExpired:
        return "it doesn't end"
    if run.returncode != 0 or run.stderr:
        return f"status {run.returncode}, and on standard error {run.stderr[-200:]!r}"
    return None if path.name in run.stdout else "it doesn't name the script"


def other_statuses():
    """The statuses that one of the two has alone."""
    text = (TOP / "docs/FORMATS.md").read_text().split("## Exit statuses")[1]
    table = set(re.findall(r"(?m)^\| (\d+) \|", text))
    told = subprocess.run([CCQ, "--help"], capture_output=True, text=True, check=True).stdout.split("Exit status")[-1]
    return table ^ set(re.findall(r"(?m)^ +(\d+) ", told))


def main():
    with ThreadPoolExecutor(len(os.sched_getaffinity(0))) as pool:
        paths = list(scripts())
        found = zip(paths, pool.map(unexplained, paths))
        found = [f"{path.relative_to(TOP)} --help: {said}" for path, said in found if said]
    try:
        found += [f"docs/FORMATS.md and `ccq --help` don't both have the status {it}" for it in other_statuses()]
        statuses = "the statuses are those of docs/FORMATS.md"
    except OSError:
        statuses = "SKIPPED: the program in bin/ doesn't run here: the statuses of docs/FORMATS.md"
    print("\n".join(f"helps: {line}" for line in found or [f"{len(paths)} scripts explain themselves", statuses]))
    return 1 if found else 0


if __name__ == "__main__":
    sys.exit(main())
