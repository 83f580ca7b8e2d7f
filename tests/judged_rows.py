#!/usr/bin/env python3
"""Judges the calls of threads over tiny queues and rows of them, which bindings/rust/src/channel/judged.rs recorded, by
`ccq judge` in bin/.

Usage: tests/judged_rows.py FOLDER

A log is of one group of receivers. Each log in the folder has to be clean, with its capacity if it has one. Then a
fault is planted in each, which has to be found: the line of a take that returned an item goes (the item is lost), or
stands a second time under another thread. The exit status is 0 if all that holds, and 77 if the program doesn't run
here.
"""

import random
import subprocess
import sys
import tempfile
from pathlib import Path

sys.dont_write_bytecode = True
import asked
CCQ = Path(__file__).resolve().parent.parent / "bin" / "x86_64-unknown-linux-gnu" / "ccq"


def judge(log: Path, limit: str) -> tuple[int, str]:
    """The status and the line of the verdict."""
    capacity = [] if limit == "none" else ["--capacity", limit]
    done = subprocess.run([CCQ, "judge", *capacity, log], capture_output=True, text=True, timeout=120)
    return done.returncode, (done.stdout + done.stderr).strip()


def planted(lines: list[str], twice: bool) -> list[str]:
    """The log without one of its takes, or with one of them a second time."""
    takes = [place for place, line in enumerate(lines) if '"take":' in line and '"take":null' not in line]
    place = random.choice(takes)
    if not twice:
        return lines[:place] + lines[place + 1 :]
    again = lines[place].replace('{"thread":"', '{"thread":"again ', 1)
    return lines[:place] + [again] + lines[place:]


def main() -> int:
    if len(sys.argv) != 2:
        print(__doc__, file=sys.stderr)
        return 64
    try:
        subprocess.run([CCQ, "--version"], check=True, stdout=subprocess.DEVNULL)
    except (OSError, subprocess.CalledProcessError):
        print("judged rows: SKIPPED: the program in bin/ doesn't run here")
        return 77
    logs = sorted(Path(sys.argv[1]).iterdir())
    wrong, calls = [], 0
    with tempfile.TemporaryDirectory() as room:
        for log in logs:
            limit, lines = log.name.rsplit("-", 1)[1], log.read_text().splitlines()
            calls += len(lines) - 1
            verdicts = [(log, 0)]
            for twice in (False, True):
                other = Path(room, f"{log.name}-{twice}")
                other.write_text("\n".join(planted(lines, twice)) + "\n")
                verdicts.append((other, 1))
            for path, due in verdicts:
                status, said = judge(path, limit)
                if status != due:
                    wrong.append(f"{path.name}: status {status} in place of {due}: {said}")
    print("\n".join([f"judged rows: {len(logs)} logs of {calls} calls are clean, and {2 * len(logs)} planted faults "
                     f"are found"] if not wrong else wrong))
    return 1 if wrong or not logs else 0


if __name__ == "__main__":
    sys.exit(main())
