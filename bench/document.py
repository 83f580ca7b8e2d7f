"""The tables of docs/BENCH.md that the scripts of this folder write."""
import os
import statistics

BENCH = os.path.join(os.path.dirname(os.path.dirname(os.path.abspath(__file__))), "docs", "BENCH.md")


def spread(values, digits=0):
    """The median, with the quartiles in brackets."""
    low, middle, high = statistics.quantiles(values, n=4) if len(values) > 1 else values * 3
    return f"{middle:,.{digits}f} ({low:,.{digits}f}–{high:,.{digits}f})"


def row(cells):
    return f"| {' | '.join(cells)} |"


def write(name, rows):
    """Writes a table between the marks of this name, its head first."""
    begin, end = f"<!-- {name} -->\n", f"<!-- end of {name} -->\n"
    with open(BENCH, encoding="utf-8") as file:
        before, rest = file.read().split(begin)
    head, *others = rows
    lines = [row(head), "|---" * len(head) + "|", *map(row, others)]
    with open(BENCH, "w", encoding="utf-8") as file:
        file.write(before + begin + "\n".join(lines) + "\n" + end + rest.split(end)[1])
    print(f"wrote the table {name} of docs/BENCH.md")
