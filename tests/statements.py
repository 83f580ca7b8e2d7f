#!/usr/bin/env python3
"""Tests tools/statements.py: what changes a clause changes the text of its crate's statements or is refused, a
definition names nothing from elsewhere than specs/, and other layout and other comments change nothing. Exit status 0
if so. It writes no file.

    tests/statements.py                 all that follows, with some random edits
    tests/statements.py --edits N       the random edits alone, N of them
    tests/statements.py --edits N SEED  those that another run names by its seed

CHANGES are of the repository's own sources, and STEPS of a small crate: each step is one that a reviewer may pass, and
the last one changes what is proved. A random edit changes one word of what a public item of the code says. If
VAHEPITO_ROUNDS is set, as many of a hundred CHANGES and random edits are made.
"""
import hashlib
import os
import pathlib
import random
import re
import sys

sys.dont_write_bytecode = True
import asked
sys.path.insert(0, str(pathlib.Path(__file__).resolve().parent.parent / "tools"))
import sources
import statements

ROUNDS = int(os.environ.get("VAHEPITO_ROUNDS", 100))
# How many random edits the gate tries.
EDITS = max(30 * ROUNDS // 100, 1)
# A public function, up to one of its clauses or its body.
FUNCTION = r'(\n *pub (?:extern "C" )?fn (?:(?!\n *\{\n)(?!;\n).)*?)'
# What is changed in which crate: the first text of its code that matches becomes the other.
CHANGES = [
    ("an ensures goes", "cc_queue", FUNCTION + r"\n *ensures [^\n]*", r"\1"),
    ("an ensures says less", "cc_model", FUNCTION + r"(\n *ensures [^\n]*?) ≡ ", r"\1\2 ≤ "),
    ("a requires goes", "cc_machine", FUNCTION + r"\n *requires [^\n]*", r"\1"),
    ("a requires comes", "cc_cli", FUNCTION + r"(\n *ensures )", r"\1\n    requires further { ⊥ }\2"),
    ("an ensures comes", "cc_audit", FUNCTION + r"(\n *ensures )", r"\1\n    ensures further { ⊤ }\2"),
    ("an invariant says nothing", "cc_steps", r"(ghost invariant = )\{[^\n]*\};", r"\1{ λ _. ⊤ };"),
    ("a bound goes", "cc_drive", r"Threads \+ Wait", r"Threads"),
    ("a ghost member is another", "cc_io", r"(ghost \w+: \{ )Self", r"\1ℕ → Self"),
    ("an export says less", "cc_capi", FUNCTION + r"\n *ensures [^\n]*", r"\1"),
    ("a derived trait goes", "cc_broker", r"#\[derive\(Drop\)\]\n(pub struct)", r"\1"),
    ("a code is another number", "cc_passes", r"(pub const \w+: u32 = )\d+", r"\g<1>99"),
    ("a name is from elsewhere", "cc_play", r"(ghost use Rattle\.cc_play\.specs\.)Play", r"\1Other"),
    ("a function isn't public", "cc_show", r"\npub fn", r"\nfn"),
    ("a law of a function that isn't public goes", "cc_drive",
     r"(\npub\(crate\) fn send_all.*?)\n *ensures [^\n]*", r"\1"),
    ("an operator of clauses has another name", "cc_queue", r"(ghost use [^\n]*)◌≤◌", r"\1◌<◌ as ◌≤◌"),
    ("a comment in a comment hides clauses", "cc_capi", r"(vahepito_try_send.*?)\n( *ensures .*?)\n\{\n",
     r"\1\n/* /* */\n\2\n// */\n{\n"),
]

# A crate of some files, on which steps are tried.
LIB, NUMBERS, BELOW, ECHO = ("crates/low/" + name
                             for name in ("src/lib.rt", "src/numbers.rt", "src/deep.rt", "specs/Echo.antt"))
LOW = {
    "crates.txt": "low:\n",
    "docs/PROVED.md": "",
    LIB: """\
//! A crate with a function.
#![tactic(auto)]
mod numbers;
mod further;

use further::Count;
use numbers::SMALL as LIMIT;

ghost use Rattle.low.specs.Echo.{IsEcho, IsLong};
ghost use Rattle.low.specs.Other;
ghost use Rattle.std.specs.Prelude.{◌≤◌, ◌≡◌};

pub const MARKS: [&str; 2] = ["a b", "c  d"];
pub const QUOTES: [char; 2] = ['"', '"'];

pub struct Meter {
    pub at: usize,
}

impl Meter {
    const LEAST: usize = 2;

    pub fn read(&self) -> usize
        ensures { Self.LEAST ≤ result }
    {
        self.at
    }
}

pub trait Small {
    ghost size: { ℕ };

    fn get(&self) -> usize;

    ghost small: { size ≤ 3 };
}

pub fn echo(x: usize) -> usize
    ensures { IsEcho x result }
{
    x
}

pub fn long(x: usize) -> (usize,)
    requires { IsLong x }
    ensures same { Other.IsSame x x }
    ensures least { result.0 ≤ LIMIT }
{
    (x,)
}

pub fn count() -> Count {
    Count(1)
}
""",
    NUMBERS: "//! Numbers.\npub(crate) const SMALL: usize = 7;\nconst HIDDEN: usize = 3;\n\npub struct Count(pub "
             "usize);\n",
    "crates/low/src/further.rt": "//! What is further.\npub(crate) use crate::numbers::Count;\n",
    "crates/low/src/others.rt": "//! Others.\npub struct Count(pub u8);\n",
    ECHO: """\
-- What `echo` returns.
use Rattle.std.specs.Prelude.{ℕ, ◌≡◌}
use Rattle.low.specs.Other.{IsSame}
use Rattle.low.specs.declared.numbers.HIDDEN.{HIDDEN}

abbrev pub IsEcho : ℕ → ℕ → Type 0
IsEcho x y = IsSame x y
""",
}
DEEP = """\
//! What is deep.
ghost use Rattle.std.specs.Prelude.{◌≤◌};
use crate::LIMIT;

pub fn least() -> usize
    ensures { result ≤ LIMIT }
{
    7
}
"""
CLAUSE = "IsEcho x result }"
ECHOES = "IsEcho x y = IsSame x y"
# What is tried, what the refusal says if it is refused, and its steps: in each, some texts of files that become others,
# or that a new file has. If the steps aren't refused, the last one has to change the texts.
STEPS = [
    ("a comment in braces in a clause", "a comment or a hole", [{LIB: (CLAUSE, "IsEcho x result {- not -} }")}]),
    ("a comment in a comment hides a clause", "'/*'",
     [{LIB: ("    ensures { IsEcho x result }\n", "/* /* */\n    ensures { IsEcho x result }\n// */\n")}]),
    ("a comment in a comment, with other texts between", "'/*'",
     [{LIB: ("    ensures { IsEcho x result }\n", "/*/*/*/ */\n    ensures { IsEcho x result }\n// */\n")}]),
    ("a comment in a clause, and then more behind it", "a comment or a hole", [
        {LIB: (CLAUSE, "IsEcho x -- the argument\n        result }")},
        {LIB: ("-- the argument\n *result }", "-- the argument result\n    }")}]),
    ("an operator of two slashes, which begins a comment of the code", "a comment or a hole",
     [{LIB: (CLAUSE, "IsEcho x result // Any\n    }")}]),
    ("a hole in a clause", "a comment or a hole", [{LIB: (CLAUSE, "?any }")}]),
    ("a string over two lines in a clause", "reads as another text", [{LIB: (CLAUSE, 'IsEcho x "a\nb" }')}]),
    ("a path that begins with the library, in a clause", "isn't in specs/",
     [{LIB: (CLAUSE, "Rattle.low.proofs.Any x result }")}]),
    ("a path that begins with the library, in a definition", "isn't in specs/",
     [{ECHO: (ECHOES, "IsEcho x y = Rattle.low.proofs.Any x y")}]),
    ("a path that begins with the library of all", "isn't in specs/",
     [{ECHO: (ECHOES, "IsEcho x y = package.Rattle.low.proofs.Any x y")}]),
    ("an import from what is proved of a definition", "isn't in specs/",
     [{ECHO: ("low.specs.Other", "low.proofs.Other")}]),
    ("an import from what is proved of a clause", "isn't in specs/",
     [{LIB: ("low.specs.Echo", "low.proofs.Echo")}]),
    ("an import by the new name of a module", "isn't in specs/", [
        {ECHO: ("use Rattle.low.specs.Other.{IsSame}", "use Rattle.low.specs.Other as N\nuse N.{IsSame}")}]),
    ("a module with the name of the library", "isn't in specs/",
     [{ECHO: (r"\A", "use Rattle.low.specs.Other as Rattle\n")}]),
    ("a file below with the name of the library", "isn't in specs/", [{ECHO: (r"\A", "mod Rattle\n")}]),
    ("a sign that looks like a space", "U+00A0", [{ECHO: (ECHOES, "IsEcho x y = IsSame\u00a0x y")}]),
    ("a sign that looks like another", "U+0443", [{ECHO: ("IsEcho x y = ", "IsEcho x у = ")}]),
    ("a carriage return", "U+000D", [{ECHO: ("-- What", "-- What\r")}]),
    ("a tab", "U+0009", [{LIB: ("    ensures { IsEcho", "\tensures { IsEcho")}]),
    ("a constant of an impl", None, [{LIB: ("LEAST: usize = 2", "LEAST: usize = 0")}]),
    ("a constant by another name", None, [{NUMBERS: ("= 7", "= 9")}]),
    ("a private constant that a definition names", None, [{NUMBERS: ("= 3", "= 9")}]),
    ("a type of the same name, passed on", None, [{"crates/low/src/further.rt": ("numbers::Count", "others::Count")}]),
    ("an import of a clause by another name", None, [{LIB: ("◌≤◌, ◌≡◌", "◌≡◌ as ◌≤◌, ◌≡◌")}]),
    ("a private import of the module above", None, [
        {LIB: ("mod further;", "mod further;\nmod deep;\npub use deep::least;"), BELOW: ("", DEEP)},
        {LIB: ("numbers::SMALL as LIMIT", "numbers::HIDDEN as LIMIT")}]),
    ("a private import of the module above, by a path", None, [
        {LIB: ("mod further;", "mod further;\nmod deep;\npub use deep::least;"),
         BELOW: ("", DEEP.replace("use crate::LIMIT;\n", "").replace("-> usize", "-> [u8; super::LIMIT]"))},
        {LIB: ("numbers::SMALL as LIMIT", "numbers::HIDDEN as LIMIT")}]),
    ("all names of a module of the code", "all names of a module", [{LIB: ("use further::Count;", "use further::*;")}]),
    ("a module inside of a file", "a module inside",
     [{LIB: ("mod numbers;", "mod numbers {\n    pub fn one() {}\n}")}]),
    ("a law that is a member", None, [{LIB: (r"(    fn get.*;\n)\n(    ghost small.*\n)", r"\2\n\1")}]),
    ("a tuple of one", None, [{LIB: (r"\(usize,\)", "(usize)")}]),
    ("white space in a text", None, [{LIB: ("c  d", "c d")}]),
    ("white space in a text behind a quote", None,
     [{LIB: (r'\[char; 2\] = .*;', r"""(char, &str) = ('"', "a  b");""")}, {LIB: ("a  b", "a b")}]),
]
# What a random edit writes before a word.
SIGNS = ["{-", "-}", "-- ", "/*", "*/", "//", ".", ".*", "*", "«", "»", "(", ")", "[", "]", "{", "}", ",", ";", ":",
         "=", "|", "'", '"', "◌", "\\", "@", "?", "\t", "\r", "\u00a0", "\u200b", "Rattle.", "package.", "pub ", "mod ",
         "use ", "as x", "let x = ⊥ in ", "ghost ", "requires ", "#[cfg(test)] ", "suc ", "0 ", "x ", "not "]


def change(files, crate, pattern, replacement):
    """The files with the first place in the code of a crate changed that matches."""
    for path in sorted(path for path in files if path.startswith(f"crates/{crate}/src/")):
        text, count = re.subn(pattern, replacement, files[path], count=1, flags=re.S)
        if count:
            return {**files, path: text}
    raise SystemExit(f"statements: nothing in {crate} matches {pattern}")


def said(files):
    """The texts of all statements, or why they are refused."""
    try:
        return statements.texts(files)
    except sources.Unreadable as why:
        return str(why)


def taken(files, step):
    """The files after a step, which changes texts that have to be there."""
    files = dict(files)
    for path, edits in step.items():
        for old, new in edits if isinstance(edits, list) else [edits]:
            files[path], count = re.subn(old, lambda found: found.expand(new) if "\\" in new else new,
                                         files.get(path, ""), count=1)
            if not count:
                raise SystemExit(f"statements: nothing in {path} matches {old}")
    return files


def is_seen(why, steps):
    """Whether the last step changes the texts, or some step is refused for this reason."""
    files, texts = LOW, [said(LOW)]
    for step in steps:
        files = taken(files, step)
        texts.append(said(files))
    refused = [text for text in texts if isinstance(text, str)]
    return why in refused[0] if why and refused else not (why or refused) and texts[-1] != texts[-2]


def laid_out_otherwise(path, text, chance):
    """A source with its lines broken elsewhere, and with other comments."""
    if not path.endswith(".rt"):
        return text
    source = sources.Source(text)
    inside = {at for begin, end in source.terms.items() for at in range(begin, end + 1)}
    pieces = []
    for at, (_, word, _) in enumerate(source.tokens):
        breaks = [" ", "\n            "] if at in inside else [" ", "\n            ", ' // a note, { of "no\n',
                                                               "\n// /* a note\n"]
        pieces += [chance.choice(breaks) if at in source.gaps and at else "", word]
    return "".join(pieces) + "\n"


# ---------------------------------------------------------------- random edits


def words_to_edit(files, texts):
    """The places of words, each as a file and where the word begins and ends: in what the items of the code say that
    the texts have."""
    places = []
    for name in sources.crates(files):
        text = re.sub(r"\n {8,}", " ", texts.get(f"{statements.FOLDER}/{name}.txt", ""))
        for module, items in statements.modules(statements.code_of(files, name)).items():
            path = f"crates/{name}/src/{module}.rt"
            spans = [span for item in items if item.head in text for span in spans_of(item)]
            ends = [(path, at, at + len(word)) for _, word, at in sources.Source(files[path]).tokens]
            places.append([one for one in ends if any(begin <= one[1] < end for begin, end in spans)])
    return [ones for ones in places if ones]


def spans_of(item):
    """Where an item of the code says something: without what isn't public, and without long constants."""
    if item.kind in ("impl", "trait"):
        parts = statements.said_parts(item)
        return item.spans[:1] * bool(parts) + [span for part in parts for span in spans_of(part)]
    return item.spans if item.public or item.kind == "ghost" else []


def edited(text, begin, end, chance):
    """A text with one word changed, or with a sign before it."""
    word = text[begin:end]
    others = re.findall(r"\S+", text[max(0, begin - 300) : end + 300])
    behind = re.match(r"(\s+)(\S+)", text[end:])
    ways = [chance.choice(others), "", f"{word} {word}", chance.choice(SIGNS) + word, chance.choice(SIGNS) + " " + word,
            word + chance.choice(SIGNS)]
    changed = chance.choice(ways)
    if behind and chance.randrange(7) == 0:
        return text[:begin] + behind[2] + behind[1] + word + text[end + len(behind[0]) :]
    return text[:begin] + changed + text[end:]


def read_alike(one, other):
    """Whether two texts of a file are the same but for comments and white space, for commas at the end of a list and
    for the order of what is derived."""
    forms = [" ".join(word for _, word, _ in sources.Source(text).tokens) for text in (one, other)]
    return len({re.sub(r"[,;] ([)\]}>])", r"\1", form) for form in forms}) == 1


def unseen_edits(files, count, seed):
    """Random edits that change no text and aren't refused."""
    chance, before = random.Random(seed), statements.texts(files)
    places = words_to_edit(files, before)
    weights = [min(len(ones), 400) for ones in places]
    for _ in range(count):
        path, begin, end = chance.choice(chance.choices(places, weights)[0])
        text = edited(files[path], begin, end, chance)
        if said({**files, path: text}) == before and not read_alike(files[path], text):
            line = files[path].count("\n", 0, begin) + 1
            yield f"{path}, line {line}: {text.splitlines()[line - 1].strip()[:150]}"


def try_edits(files, count, seed=None):
    """Tries random edits. Their seed is of the sources, so that a changed tree has others and a second run the same
    ones."""
    seed = seed or hashlib.sha256("".join(files.values()).encode()).hexdigest()[:12]
    found = list(unseen_edits(files, count, seed))
    for line in found:
        print(f"statements: not seen, a random edit of seed {seed}: {line}")
    print(f"statements: {count - len(found)} of {count} random edits are seen")
    return len(found)


def main(words):
    files = sources.read_files()
    if words[:1] == ["--edits"] and len(words) in (2, 3):
        return 1 if try_edits(files, int(words[1]), *words[2:]) else 0
    if words:
        print("usage: tests/statements.py [--edits N [SEED]]", file=sys.stderr)
        return 64
    before, failed = statements.texts(files), []
    changes = CHANGES[:: max(100 // ROUNDS, 1)]
    for what, crate, pattern, replacement in changes:
        changed = said(change(files, crate, pattern, replacement))
        path = f"{statements.FOLDER}/{crate}.txt"
        if isinstance(changed, dict) and changed[path] == before[path]:
            failed.append(f"not seen in {crate}: {what}")
    failed += [f"not seen for what it is: {what}" for what, why, steps in STEPS if not is_seen(why, steps)]
    chance = random.Random(1)
    if said({path: laid_out_otherwise(path, text, chance) for path, text in files.items()}) != before:
        failed.append("other layout and other comments change the texts")
    for line in failed:
        print(f"statements: {line}")
    print(f"statements: {len(changes) + len(STEPS) + 1 - len(failed)} of {len(changes) + len(STEPS) + 1} changes are "
          f"seen for what they are")
    return 1 if failed or try_edits(files, EDITS) else 0


if __name__ == "__main__":
    sys.exit(main(sys.argv[1:]))
