#!/usr/bin/env python3
"""Writes the speed table of README.md from the tables of docs/BENCH.md, or checks that it is what they give.

    bench/readme.py [--write]

Each figure is a cell of docs/BENCH.md: an item's time by the clock, the p99.99 of a send of 16 senders beside four
receivers, and an item's time in C. The peers' versions are those that docs/BENCH.md names. Without --write it writes
nothing, and says if README differs; exit status 1 then.
"""
import os
import re
import sys

TOP = os.path.dirname(os.path.dirname(os.path.abspath(__file__)))
BEGIN, END = "<!-- speed -->\n", "<!-- end of speed -->\n"
# The rows, by their names in the tables of docs/BENCH.md, and the columns of an item's time.
ROWS = {"typed": "**vahepito** (Rust)", "crossbeam-channel": None, "Mutex+Condvar": "std `Mutex`, `Condvar`"}
COLUMNS = {"one thread": "one thread", "1/1": "1→1", "4/4": "4→4", "32/32": "32→32"}
# The same of the calls that wait in C, where the queues are the columns.
OF_C = {"`vahepito.h`": "**vahepito**", "TBB's bounded queue": "TBB, bounded", "boost::lockfree": "boost::lockfree",
        "mutex and condition variables": "mutex"}


def rows_after(text, mark):
    """The first table after a mark: {row: {column: cell}}, and all lines as lists of cells."""
    lines = text[text.index(mark):].split("\n")
    begin = next(at for at, line in enumerate(lines) if line.startswith("|"))
    end = next(at for at in range(begin, len(lines) + 1) if at == len(lines) or not lines[at].startswith("|"))
    head, _, *rows = [[cell.strip().strip("*") for cell in line.strip().strip("|").split("|")]
                      for line in lines[begin:end]]
    return {row[0]: dict(zip(head, row)) for row in rows}, [dict(zip(head, row)) for row in rows]


def named(text, row):
    """A row's name, with the version that was measured."""
    if ROWS[row]:
        return ROWS[row]
    version = re.search(rf"The peers are .*?\b{row} ([\d.]*\d)", " ".join(text.split()))
    return f"{row} {version[1]}"


def brief(nanoseconds):
    """A time of the tail, in the unit that makes it short."""
    value = float(nanoseconds.replace(",", ""))
    return f"{value / 1e6:.1f} ms" if value >= 99_500 else f"{value / 1e3:.0f} us"


def section(text):
    clock, _ = rows_after(text, "### An item's time, by the clock")
    _, tails = rows_after(text, "<!-- tail -->")
    tail = next(row for row in tails if row["part"] == "p99.99" and row["senders"] == "16")
    lines = ["On four idle processors ([more](docs/BENCH.md)):", "",
             f"| ns an item, senders→receivers | {' | '.join(COLUMNS.values())} | slowest of 10,000 sends, 16→4 |",
             "|---" * (len(COLUMNS) + 2) + "|"]
    for row in ROWS:
        cells = [clock[row][column] for column in COLUMNS] + [brief(tail[row])]
        lines.append(f"| {named(text, row)} | {' | '.join(cells)} |")
    waits, _ = rows_after(text, "<!-- c -->")
    lines += ["", f"| ns an item in C | {' | '.join(OF_C.values())} |", "|---" * (len(OF_C) + 1) + "|"]
    for row in ("1/1", "4/4"):
        cells = [waits[f"{row}, ns an item"][queue].split(" (")[0] for queue in OF_C]
        lines.append(f"| {COLUMNS[row]} | {' | '.join(cells)} |")
    return "\n".join(lines) + "\n"


def main():
    if sys.argv[1:] not in ([], ["--write"]):
        print(__doc__)
        return 0 if sys.argv[1:] == ["--help"] else 64
    with open(os.path.join(TOP, "docs", "BENCH.md"), encoding="utf-8") as file:
        due = section(file.read())
    path = os.path.join(TOP, "README.md")
    with open(path, encoding="utf-8") as file:
        before, rest = file.read().split(BEGIN)
    now, after = rest.split(END)
    if sys.argv[1:]:
        with open(path, "w", encoding="utf-8") as file:
            file.write(before + BEGIN + due + END + after)
        print(due, end="")
        return 0
    if now != due:
        print("README.md: its speed table isn't that of docs/BENCH.md: bench/readme.py --write")
    return int(now != due)


if __name__ == "__main__":
    sys.exit(main())
