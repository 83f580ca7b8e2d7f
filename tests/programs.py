"""Rows: arguments and an input of `ccq` with what is due, by hand and by tests/derive.py; and what a program does of
one."""
import dataclasses
import os
import pathlib
import pty
import re
import resource
import subprocess
import sys
import tempfile
import tty

sys.dont_write_bytecode = True
import derive

TOP = pathlib.Path(__file__).resolve().parent.parent
PROGRAM = pathlib.Path(os.environ.get("CCQ", TOP / "crates/ccq/out/ccq"))
UNREAD = b"untouched"


@dataclasses.dataclass(frozen=True)
class Row:
    """Arguments and input of the program, and what has to come of them. With `more` the output that has text may go on;
    `is_read` says whether the whole input is read or all of it left, and None that it isn't looked at. With
    `at_terminal` standard error is a terminal without colours."""

    words: list
    status: int
    out: bytes = b""
    err: bytes = b""
    input: bytes = UNREAD
    is_read: bool | None = None
    more: bool = False
    at_terminal: bool = False


def by_hand(name):
    """The rows of tests/command_lines or tests/worked_rows, by their names: the line above the row, or its number."""
    blocks = re.split(r"\n{2,}", (TOP / "tests" / name).read_text())
    for number, block in enumerate(it for it in blocks if re.search(r"^\$ ccq", it, flags=re.M)):
        title = re.search(r"^# (.*)\n\$ ccq", block, flags=re.M)
        lines = [it for it in block.split("\n") if not it.startswith("#")]
        words = ["" if it == "''" else it for it in lines[0].split()[2:]]
        given = b"\n".join(it[2:].encode() for it in lines if it.startswith("< "))
        status, output = next(it.split() for it in lines if re.match(r"\d", it))
        due = "".join(it[2:] + "\n" for it in lines if it == "|" or it.startswith("| ")).encode()
        more = "..." in lines
        due = due[:-1] if more else due
        out, err = (due, b"") if output == "output" else (b"", due)
        yield re.sub(r"\W+", "_", title[1]) if title else f"line_{number}", Row(words, int(status), out, err,
            given or UNREAD, bool(given), more, output == "terminal")


def derived():
    """The rows of tests/derive.py, by their names."""
    for name, task, data, (status, told, lines), _ in derive.derived():
        out = "".join(f"{it}\n" for it in lines)
        yield name, Row([task], status, out.encode(), f"{told}\n".encode() if told else b"", data)


def places():
    """At a terminal, the rows of tests/derive.py whose input is refused."""
    for name, task, data, (status, told, _), place in derive.derived():
        if status == 2:
            yield "place_" + name, placed(Row([task], status, err=f"{told}\n".encode(), input=data), place)


def terminal():
    """A terminal that shows bytes as they are: the end that a person sees, and the program's."""
    ours, theirs = pty.openpty()
    tty.setraw(theirs)
    return ours, theirs


def shown_at(ours, theirs):
    """What a terminal showed by the end of the program."""
    os.close(theirs)
    shown = b""
    with open(ours, "rb", buffering=0) as screen:
        try:
            while part := screen.read(4096):
                shown += part
        except OSError: # the end, as Linux has it
            pass
    return shown


def run(program, row, seconds=120, memory=None):
    """What the program does of a row: the row as it should have been written."""
    bounds = (lambda: resource.setrlimit(resource.RLIMIT_AS, (memory, memory))) if memory else None
    ours, errors = terminal() if row.at_terminal else (None, subprocess.PIPE)
    with tempfile.TemporaryFile() as given:
        given.write(row.input)
        given.seek(0)
        ran = subprocess.run([program, *row.words], stdin=given, stdout=subprocess.PIPE, stderr=errors, timeout=seconds,
                             preexec_fn=bounds, cwd=TOP, env={**os.environ, "TERM": "dumb"})
        at = os.lseek(given.fileno(), 0, os.SEEK_CUR)
    err = shown_at(ours, errors) if row.at_terminal else ran.stderr
    is_read = True if at == len(row.input) else False if at == 0 else None
    return dataclasses.replace(row, status=ran.returncode, out=ran.stdout, err=err, is_read=is_read)


def does(program, row, **how):
    """Whether the program does what the row says; tells what it did if it doesn't."""
    seen = run(program, row, **how)
    compared = seen if row.is_read is not None else dataclasses.replace(seen, is_read=None)
    if row.more:
        compared = dataclasses.replace(compared, out=seen.out[: len(row.out)], err=seen.err[: len(row.err)])
    if compared == row and (not row.more or bool(seen.out) != bool(seen.err)):
        return True
    told = [f"{name}: {getattr(seen, name)!r:.400} and not {getattr(row, name)!r:.400}"
            for name in ("status", "out", "err", "is_read")]
    print(f"{program} {row.words} <{row.input!r:.200}:", *told, sep="\n    ")
    return False


def refused(task, input, why):
    return Row([task], 2, err=f"ccq: plan refused: {why}\n".encode(), input=input)


def placed(row, place):
    """The row of a refused input at a terminal, where a second line has the place."""
    return dataclasses.replace(row, err=row.err + f"ccq: standard input: {place}\n".encode(), at_terminal=True)
