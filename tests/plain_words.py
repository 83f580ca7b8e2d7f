#!/usr/bin/env python3
"""Checks that README.md is short, that documents and comments are plain, and that documents equal what they quote.

    tests/plain_words.py

- Words: README.md has at most 900, as `wc -w` counts them.
- Patterns: none of PATTERNS is found in a document, or in a comment that has its lines for itself, without code,
  headings and words in backquotes. Each has the words to use, and a sentence in which it is found.
- Names: none of the words of NAMES is a part of a name in the code, in definitions or in the bindings.
- Quotes: after a line `<!-- from PATH -->` the next block of code has the lines of that file, one after another.
- Figures: README's table of speed is that of docs/BENCH.md.

The exit status is 0 if all checks pass. A pattern finds words, and can't judge a sentence. A reader has to look for: an
"it", "that" or "one" whose noun is far away; a list whose parts have different subjects; a chain of "of"; a clause hung
on by "as" or "since"; "where" in the sense of "if"; a noun that the glossary of docs/ARCHITECTURE.md lacks. Mend a
pattern that forbids good English.
"""
import pathlib
import re
import subprocess
import sys
import textwrap

sys.dont_write_bytecode = True
import asked

TOP = pathlib.Path(__file__).resolve().parent.parent
LIMIT_OF_README = 900
DOCUMENTS = ["*.md", "docs/*.md", "bindings/*/*.md", "examples/README.md"]
C_CODE = ["bindings/c/*.[ch]", "bindings/c/*.hpp"]
CODE = ["crates/*/src/**/*.rt", "crates/*/specs/**/*.antt", "bindings/rust/**/*.rs", "bench/**/*.rs"]

# What a reader stumbles over, what to write instead, and a sentence that had it.
PATTERNS = [
    (r"[.:;|]\s(?-i:Who|What)(?:ever)? (?![^.;|]*\?)", "a noun as the subject", "It may. Whoever calls it is trusted."),
    (r"\b(?:is|are|was|were|be|been) told\b", "receives, is reported", "That want of memory is told only where"),
    (r"\btell(?:s|ing)?\b|\btold\b", "returns, reports, says", "each export makes the call, or tells why not"),
    (r"\b(?:un)?lawful", "legal", "the history of every run is lawful and first in, first out;"),
    (r"(?-i:\bworn\b|\bspent\b)|\bwears? out\b", "exhausted, used", "a sender is worn exactly where it has begun"),
    (r"\bfronts? of\b|\ba front\b", "prefix", "a front of a run is a run, and its history begins the later one."),
    (r"\blet(?:s|ting)? go\b", "release, drop", "A pending call can't be let go:"),
    (r"\bdear(?:er|est)?\b", "costly, expensive", "So what is many is dear, however small each is:"),
    (r"\bwant of\b", "lack of, out of", "Its only error is want of memory;"),
    (r"\bcom(?:e|es|ing) about\b|\bcame about\b", "happens", "Whether such items come about depends on the schedule"),
    (r"\banswered (?:Accepted|Full|Closed|Spent|Shut|Already|Got|Empty|Ended)\b", "returns", "it is answered Shut."),
    (r"(?<!\*)\bst(?:ands?|ood)\b(?! in (?:the |all )?lines?\b)", "is, is in", "the channel that stands over it"),
    (r"\bowe[sd]?\b", "has to, must", "In C the caller owes it, as the head of the header says."),
    (r"\bin the midst\b|\b(?:henceforth|thereby|wherever|whence)\b", "during, at each place", "in the midst of them."),
]

# Parts of names that no reader looks for, and those to use.
NAMES = {
    "lawful": "legal, or valid", "whoever": "the noun", "whence": "from", "thereby": "by",
    "fronts": "prefixes", "nobody": "no thread, none", "dear": "costly", "mend": "fix", "midst": "during",
}  # fmt: skip


def files(*patterns):
    """The paths of these patterns' files, but of those that scripts write, each with its text."""
    for path in sorted({path for pattern in patterns for path in TOP.glob(pattern)}):
        if path.name != "page.rt" and "target" not in path.parts:
            yield path.relative_to(TOP), path.read_text(encoding="utf-8")


def blanked(found):
    return re.sub(r"[^\n]", " ", found[0])


def prose(path, text):
    """A text without all that is no prose: its lines stay, and what was left out is blank."""
    if path.suffix == ".md":
        left_out = r"<!-- steps -->.*?<!-- end of steps -->|<!--.*?-->|^```.*?^```"
        text = re.sub(left_out, blanked, text, flags=re.S | re.M)
        text = re.sub(r"^(?:    |#|!\[).*", "", text, flags=re.M)
        text = re.sub(r"^ *(?:[-*]|\d+\.) |^\|", "\n", text, flags=re.M)
    elif path.suffix in (".c", ".h", ".hpp"):
        parts = re.split(r"(/\*.*?\*/)", text, flags=re.S)
        text = "".join(part if at % 2 else re.sub(r"[^\n]", "", part) for at, part in enumerate(parts))
        text = re.sub(r"^ \*(?: |$)|/\*|\*/", "", text, flags=re.M)
    else:
        found = [re.fullmatch(r" *(?:///|//!|//|--)(?: (.*))?", line) for line in text.split("\n")]
        text = "\n".join(line[1] or "" if line else "" for line in found)
        text = re.sub(r"^```.*?^```", blanked, text, flags=re.S | re.M)
    return re.sub(r"`[^`\n]*`", "`..`", text)


def check_words():
    words = len((TOP / "README.md").read_text().split())
    if words > LIMIT_OF_README:
        yield f"README.md: {words} words, and {LIMIT_OF_README} are the limit"


def check_patterns():
    texts = [(path, prose(path, text)) for path, text in files(*DOCUMENTS, *CODE, *C_CODE)]
    for words, instead, example in PATTERNS:
        pattern = re.compile(words.replace(" ", r"\s+"), re.IGNORECASE)
        if not pattern.search(example):
            yield f"tests/plain_words.py: the pattern {words!r} isn't found in its example"
        for path, text in texts:
            for found in pattern.finditer(text):
                line, near = text.count("\n", 0, found.start()) + 1, text[max(0, found.start() - 30) : found.end() + 30]
                yield f"{path}:{line}: {' '.join(near.split())!r} has {found[0].strip()!r}; better: {instead}"


def check_names():
    for path, text in files(*CODE, *C_CODE):
        code = re.sub(r'/\*.*?\*/|(?:--|//)[^\n]*|"(?:\\.|[^"\\])*"', " ", text, flags=re.DOTALL)
        for name in sorted(set(re.findall(r"[A-Za-z_]\w*", code))):
            for part in re.findall(r"[A-Z]?[a-z]+|[A-Z]+(?![a-z])", name):
                if part.lower() in NAMES:
                    yield f"{path}: the name {name} has {part!r}; better: {NAMES[part.lower()]}"


def block_after(text):
    """The first block of code of a text, without its margin and its fences."""
    fenced = re.match(r"\n*```\w*\n(.*?)\n```", text, flags=re.S)
    return fenced[1] if fenced else textwrap.dedent(re.match(r"\n*((?:    .*\n|\n)*)", text)[1]).strip("\n")


def has_lines(text, block):
    """Whether these lines are lines of a text, or of its documentation, one after another, at any margin."""
    lines, size = re.sub(r"(?m)^//! ?", "", text).split("\n"), block.count("\n") + 1
    return any(textwrap.dedent("\n".join(lines[at : at + size])) == block for at in range(len(lines) - size + 1))


def check_quotes():
    for path, text in files(*DOCUMENTS):
        for mark in re.finditer(r"^<!-- from (\S+) -->$", text, flags=re.M):
            source = TOP / mark[1]
            if not source.is_file() or not has_lines(source.read_text(), block_after(text[mark.end() :])):
                yield f"{path}: there is no file {mark[1]}, or the next block isn't in it"


def check_figures():
    command = [sys.executable, TOP / "bench/readme.py"]
    yield from subprocess.run(command, capture_output=True, text=True).stdout.splitlines()


def main():
    checks = (check_words, check_patterns, check_names, check_quotes, check_figures)
    faults = [fault for check in checks for fault in check()]
    print("\n".join(faults or ["plain words: README is short, documents and comments are plain, and quotes are so"]))
    return 1 if faults else 0


if __name__ == "__main__":
    sys.exit(main())
