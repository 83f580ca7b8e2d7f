#!/usr/bin/env python3
"""The table of steps of docs/ARCHITECTURE.md, written from the definitions in crates/cc_runs/specs: a row for each line
of Lines, SendLines, TakeLines and CountLines that makes a step, and behind the rows of a file the functions that they
name.

    tools/steps_table.py            compares the document with the definitions; exit status 0 if it has their table
    tools/steps_table.py --write    writes the table into the document
"""
import re
import sys

sys.dont_write_bytecode = True
import written
from definitions import definition_at, read_cases, spelled
from sources import TOP, Unreadable, read_text

MARKS = "<!-- steps -->\n", "<!-- end of steps -->\n"
SECTIONS = {
    "Lines": "A call on its chain",
    "SendLines": "The service of a send or a close",
    "TakeLines": "The service of a take",
    "CountLines": "The service of the counter",
}
# What stands in the column of the operation, for each verb and the words behind it.
OPERATIONS = {
    "load": lambda found, word, *_: f"loads {word}" + (f" as {code(found)}" if found[1] != ["_"] else ""),
    "store": lambda found, word, value, *_: f"stores {value} in {word}",
    "add": lambda found, word, value, *_: f"adds {value} to {word}",
    "swap": lambda found, word, value, entry, node, *_:
    f"swaps {value} into {word}, finds {code(found)}: its node is {node}, "
    f"and {entry} enters the history",
}
# What a line says of the pass behind its step.
LEADS = {
    "On": lambda place: place,
    "Decides": lambda answer: f"decides {answer}",
    "DecidesAndOn": lambda answer, place: f"decides {answer}, then {place}",
    "Tells": lambda answer: f"returns {answer}",
}


def code(tree):
    return f"`{spelled(tree)}`"


def pattern(tree):
    """A pattern as a tree."""
    name, inside = tree
    head = "name", name.split(".")
    return ("apply", head, [pattern(one) for one in inside]) if inside else head


def head_and_arguments(tree):
    head, arguments = tree[1:] if tree[0] == "apply" else (tree, [])
    return spelled(head) if head[0] == "name" else "", arguments


def leads(tree):
    head, arguments = head_and_arguments(tree)
    return LEADS[head](*map(code, arguments)) if head in LEADS else code(tree)


def row(patterns, value):
    """The row of a line `line .. PLACE FOUND = VERB KIND WORD ..`, or nothing if the line makes no step."""
    verb, arguments = head_and_arguments(value)
    if value[0] == "record" or verb == "none":
        return ""
    if verb not in OPERATIONS:
        raise Unreadable(f"not understood: {spelled(value)}")
    place, found = map(pattern, patterns[-2:])
    kind, *rest = arguments
    operation = OPERATIONS[verb](found, *map(code, rest))
    return f"| {code(place)} | {spelled(kind)} | {operation} | {leads(rest[-1])} |\n"


def section(file, title):
    place = "cc_runs", file, "line"
    table = "".join(row(*case) for case in read_cases(place, definition_at(place)))
    text = re.sub(r"\b[A-Z][A-Za-z]*\.([A-Z])", r"\1", read_text(TOP / f"crates/cc_runs/specs/{file}.antt"))
    named = re.findall(r"^(--.*\n)abbrev pub (?:mark|after|serves|by_).*\n((?:.+\n)+)",
                       re.split(r"^ *abbrev pub line ", text, flags=re.M)[0], flags=re.M)
    shown = "".join("\n" + "".join(f"    {line}\n" for line in (comment + lines).splitlines())
                    for comment, lines in named)
    return f"\n### {title}\n\n| phase | kind | operation | next phase |\n|---|---|---|---|\n{table}{shown}"


if __name__ == "__main__":
    table = lambda: "".join(section(*one) for one in SECTIONS.items()) + "\n"
    sys.exit(written.main(__doc__, lambda: written.between("docs/ARCHITECTURE.md", *MARKS, table())))
