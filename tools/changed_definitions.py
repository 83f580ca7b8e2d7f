#!/usr/bin/env python3
"""Prints which definitions of specs/ changed between two commits, apart from layout and comments.

    tools/changed_definitions.py COMMIT [COMMIT]

Without a second commit, it compares with the files of the tree. A clause of docs/statements cites definitions, so one
that gets weaker weakens clauses that stay as they are: a reviewer reads this beside the diff of docs/statements.

A definition is named by crate, module and name. A line says that it is new, gone, moved (the same text under the same
name elsewhere), or changed, with the words that it lost and got. Parameters of a module are a part of each text in it.
A name that a module imports from elsewhere than before is a change too. The last line counts. The exit status is 0,
and 64 if the command line is refused.
"""
import difflib
import io
import pathlib
import re
import subprocess
import sys
import tarfile

from sources import TOP

# How a definition begins: the words that say of what kind it is, and its name. Its other lines begin with its name, or
# with a pattern of an operator.
NAME = re.compile(r"((?:(?:pub|abbrev|record|data|unfoldable|infixl) )*)(\S+)")
IMPORT = re.compile(r"(?:pub )?use (\S+?)(?:\.\{(.*)\}| as (\w+))?")


def files_of(commit):
    """The text of each file of definitions by its path, of a commit, or of the tree if there is none."""
    if commit is None:
        return {path.relative_to(TOP).as_posix(): path.read_text() for path in TOP.glob("crates/*/specs/**/*.antt")}
    told = subprocess.run(["git", "-C", TOP, "archive", commit, "crates"], capture_output=True, check=True).stdout
    with tarfile.open(fileobj=io.BytesIO(told)) as archive:
        return {entry.name: archive.extractfile(entry).read().decode() for entry in archive
                if re.fullmatch(r"crates/\w+/specs/.*\.antt", entry.name)}


def definitions(files):
    """The text of each definition, in one line, by crate, module and name; and where each imported name is from."""
    found = {}
    for path, text in files.items():
        _, crate, _, *rest = pathlib.PurePath(path).with_suffix("").parts
        if rest == ["Lib"]:  # the list of the modules
            continue
        lines = [line for line in re.sub(r"(?m)(^|\s)--( .*)?$", "", text).splitlines() if line.strip()]
        found |= read(lines, 0, (crate, ".".join(rest)), "")
    return found


def read(lines, margin, place, scope):
    """The definitions of these lines, which begin behind this margin, in a module with these parameters."""
    found, key = {}, None
    starts = [at for at, line in enumerate(lines) if len(line) - len(line.lstrip()) == margin] + [len(lines)]
    for at, end in zip(starts, starts[1:]):
        words = " ".join(" ".join(lines[at:end]).split())
        imported = IMPORT.fullmatch(words)
        if imported:
            for name in (imported[2] or imported[3] or imported[1].rpartition(".")[2]).split(", "):
                found[*place, f"use {name}"] = imported[1]
        elif words.startswith("module "):
            inside = next(at for at in range(at, end) if lines[at].endswith(" where")) + 1
            found |= read(lines[inside:end], margin + 2, place, " ".join(" ".join(lines[at:inside]).split()) + " ")
        else:
            kind, name = NAME.match(words).groups()
            if kind or (*place, name) in found:
                key = (*place, name)
            found[key] = f"{found[key]} {words}" if key in found else scope + words
    return found


def compared(old, new):
    """The lines that say what changed."""
    moved, counts = {}, dict.fromkeys(("the same", "moved", "changed", "gone", "new"), 0)
    for key, text in new.items():
        if key not in old:
            moved.setdefault((key[2], text), key)
    for key in sorted({*old, *new}):
        is_import, name = key[2].startswith("use "), "{} {}.{}".format(*key)
        before, after = old.get(key), new.get(key)
        at = moved.get((key[2], before))
        if is_import and None in (before, after):
            continue
        kind = "the same" if before == after else "new" if before is None else "changed" if after else "gone"
        if kind == "gone" and at:
            kind, name = "moved", f"{name} to {at[0]} {at[1]}"
        elif kind == "new" and moved[key[2], after] == key and any(
                other[2] == key[2] and text == after and other not in new for other, text in old.items()):
            continue
        counts[kind] += not is_import
        if kind != "the same":
            yield f"{kind}: {name}"
        if kind == "changed":
            yield from parts(before.split(), after.split())
    yield ", ".join(f"{count} {kind}" for kind, count in counts.items())


def parts(old, new):
    """The words that a text lost and got, place by place."""
    for kind, at, end, start, stop in difflib.SequenceMatcher(None, old, new, False).get_opcodes():
        for sign, words in (("-", old[at:end]), ("+", new[start:stop])):
            if kind != "equal" and words:
                yield f"  {sign} {' '.join(words)}"


def main(words):
    if not 1 <= len(words) <= 2 or words[0].startswith("-"):
        is_help = words in (["-h"], ["--help"])
        print(__doc__.strip() if is_help else "usage: tools/changed_definitions.py COMMIT [COMMIT]",
              file=sys.stdout if is_help else sys.stderr)
        return 0 if is_help else 64
    try:
        old, new = (definitions(files_of(commit)) for commit in (words + [None])[:2])
    except subprocess.CalledProcessError as why:
        print(f"tools/changed_definitions.py: {why.stderr.decode().strip()}", file=sys.stderr)
        return 64
    print("\n".join(compared(old, new)))
    return 0


if __name__ == "__main__":
    sys.exit(main(sys.argv[1:]))
