#!/usr/bin/env python3
"""The page for man, docs/ccq.1: the texts of help of `ccq` and of each of its tasks, by the sections of a manual page.

    tools/manual.py            compares docs/ccq.1 with the texts of crates/ccq/out/ccq: exit status 0 if it has them
    tools/manual.py --write    writes docs/ccq.1

A text of help is what the task does, how it is called, its options, and blocks between empty lines. A block is a
paragraph; or lines that are indented by two columns, below a paragraph: a table if they have a gap of two blanks, or
options with their texts below them, and else lines as they are. The options of all tasks are in OPTIONS, their tables
of exit statuses in EXIT STATUS, their examples in EXAMPLES; all else is in the section of the task. So each word of a
text of help is in the page. The date is that of the version in CHANGELOG.md. The variable CCQ names another program.
"""
import os
import pathlib
import re
import subprocess
import sys

sys.dont_write_bytecode = True
import written
from sources import TOP, Unreadable

PROGRAM = pathlib.Path(os.environ.get("CCQ", TOP / "crates/ccq/out/ccq"))
SEE_ALSO = """.BR vahepito (3)
.PP
In the sources: docs/FORMATS.md has the rules of plans, receipts and reports, docs/JUDGE.md those of logs, and
docs/PROVED.md what is proved of each task.
"""


def said(*words):
    return subprocess.run([PROGRAM, *words], capture_output=True, text=True, check=True).stdout


def texts():
    """The texts of help, by their lines. The program's own names the tasks."""
    about = said("--help")
    listed = re.search(r"^Commands:\n(.*?)\n\n", about, flags=re.M | re.S)[1]
    tasks = [task for task in re.findall(r"^  (\w+)", listed, flags=re.M) if task != "help"]
    return {"ccq": about, **{f"ccq {task}": said(task, "--help") for task in tasks}}


def raw(text):
    """A text as roff has it: what is between backquotes in bold."""
    text = text.replace("\\", "\\e").replace("-", "\\-")
    return re.sub(r"`([^`]*)`", r"\\fB\1\\fR", text)


def lines(them):
    """Lines as they are, or a paragraph of them, which no roff reads as a request."""
    return "".join(re.sub(r"^([.'])", r"\\&\1", raw(it)) + "\n" for it in them)


def rows(block):
    """The rows of a table, each a name and its text, which may go on below it; none if the lines are no table."""
    found = []
    for line in block:
        row = re.fullmatch(r" {2,6}(\S.*?) {2,}(\S.*)", line) or re.fullmatch(r" {2,6}(-\S.*)()", line)
        if row and not line.startswith(" " * 7):
            found.append([row[1], row[2]])
        elif found and line.startswith(" " * 4):
            found[-1][1] = f"{found[-1][1]} {line.strip()}".strip()
        else:
            return []
    return found


def table(found):
    return "".join(f".TP\n.B {raw(name)}\n{lines([text])}" for name, text in found)


def as_they_are(block):
    """Lines that aren't filled, without the two blanks before them."""
    return f".PP\n.nf\n{lines(it[2:] for it in block)}.fi\n"


def body(block):
    """A paragraph, and the table or the lines below it."""
    out, at = "", 0
    while at < len(block):
        end = at
        inside = block[at].startswith("  ")
        while end < len(block) and block[end].startswith("  ") == inside:
            end += 1
        part = block[at:end]
        if inside:
            out += table(rows(part)) or as_they_are(part)
        else:
            out += ".PP\n" + lines(part)
        at = end
    return out


def parted(text):
    """Of a text of help: what the task does, its usage, its blocks by their kind: options, exit statuses, examples,
    others."""
    # The options of a long help stand apart
    text = re.sub(r"\n\n+(?=  )", "\n", re.sub(r" +$", "", text, flags=re.M))
    about, usage, *blocks = [it.split("\n") for it in text.rstrip("\n").split("\n\n")]
    kinds = {"options": [], "statuses": [], "examples": [], "others": []}
    for block in blocks:
        head = block[0]
        kind = next((kind for word,
                     kind in (("Option", "options"), ("Exit status:", "statuses"), ("Example", "examples"))
                     if head.startswith(word)), "others")
        if head not in ("Commands:", "Arguments:"):
            kinds[kind].append(block)
    return about, usage[0].removeprefix("Usage: "), kinds


def manual(texts):
    parts = {line: parted(text) for line, text in texts.items()}
    about = parts["ccq"][0][0]
    version = said("--version").split()[1]
    date = re.search(rf"^## {re.escape(version)} \((.*)\)", (TOP / "CHANGELOG.md").read_text(), flags=re.M)
    page = f'.TH CCQ 1 "{date[1] if date else ""}" "ccq {version}" "User Commands"\n'
    page += f".SH NAME\nccq \\- {raw(about[0].lower() + about[1:])}\n.SH SYNOPSIS\n"
    for line, (_, usage, _) in parts.items():
        words, note = re.fullmatch(r"((?:ccq)(?: [a-z]+)?)(.*)", usage).groups()
        note = re.sub(r" \(.*\)", "", note)
        page += f".B {words}\n{lines([note.strip()])}.br\n"
    page += ".SH DESCRIPTION\n.PP\n" + lines([about + "."])
    page += ".PP\n" + lines(
        ["A task with an input reads the file that is named, or standard input if none is named or the name is `-`."])
    page += "".join(body(it) for it in parts["ccq"][2]["others"])
    for line, (first, _, kinds) in parts.items():
        if line != "ccq":
            page += f'.SS "{line}"\n' + ".PP\n" + lines([" ".join(first) + "."]) + "".join(body(it)
                for it in kinds["others"])
    page += ".SH OPTIONS\n"
    for line, (_, _, kinds) in parts.items():
        found = [row for block in kinds["options"]
                 for row in rows(block[1:]) if line == "ccq" or "--help" not in row[0]]
        heads = [block[0].rstrip(":") for block in kinds["options"] if not block[0].startswith("Options:")]
        if found:
            page += (f'.SS "{line}"\n' if line != "ccq" else "") + "".join(".PP\n" + lines([it + "."])
                for it in heads) + table(found)
    page += ".SH EXIT STATUS\n"
    for line, (_, _, kinds) in parts.items():
        for block in kinds["statuses"]:
            page += (f'.SS "{line}"\n' if line != "ccq" else "") + table(rows(block[1:]))
    page += ".SH EXAMPLES\n"
    for line, (_, _, kinds) in parts.items():
        for block in kinds["examples"]:
            head = block[0].rstrip(":")
            head = {"Examples": "Some lines", "Example": "An example"}.get(head, head)
            page += ".PP\n" + lines([f"{head}:" if line == "ccq" else f"{head} (`{line}`):"]) + as_they_are(block[1:])
    return page + ".SH SEE ALSO\n" + SEE_ALSO.replace("-", "\\-")


def due():
    if not PROGRAM.exists():
        raise Unreadable("there is no crates/ccq/out/ccq: run `rt ci` first, or `rt run` in crates/ccq")
    return {"docs/ccq.1": manual(texts())}


if __name__ == "__main__":
    sys.exit(written.main(__doc__, due))
