#!/usr/bin/env python3
"""Checks that what documents name is in the tree, and that each source file has a head.

    tests/documents.py

- Names: in a document each path in backticks is one of the tree, and each other name is a word of some source; behind a
  heading that names a crate, of a source of the crates. What is fenced isn't read; words in capitals stand for others.
- Pointers: each document that a text names is there, and each section, named as `docs/NAME.md, "Heading"` or by a link.
- For readers who have a clone and no toolchain, in the texts of STRANGERS: no program is one that a build leaves, and a
  line of code that begins with a path begins with that of a file of the tree. A size, as `NAME` (12 KB), is the file's.
- Proofs: docs/TRUST.md explains each word of the line of each PROOF, and names each library that crates.txt has.
- Heads: each source file begins with a comment that says what is in it, as HEADS has it.

The script first shows that it finds each line of WRONG. Its exit status is 0 if there is no fault; each has a line.
"""
import fnmatch
import os
import pathlib
import re
import sys

sys.dont_write_bytecode = True
import asked

TOP = pathlib.Path(__file__).resolve().parent.parent
DOCUMENTS = ["README.md", "CONTRIBUTING.md", "docs/*.md", "bindings/*.md"]
TEXTS = [*DOCUMENTS, "CHANGELOG.md", "examples/*.md", "crates/*/src/*.rt", "bindings/*.[ch]", "bindings/*.rs"]
TEXTS += ["tools/*.*", "tests/*.*", "bench/*.*", "play", "show", "test"]
STRANGERS = ["README.md", "examples/*.md", "bindings/*/*.md", "play", "show", "Makefile"]
STRANGERS += [f"docs/{name}.md" for name in ("FORMATS", "JUDGE", "USING", "BENCH", "TEACHING")]
# Lines with a name, a document, a section, a program or a size that isn't there.
WRONG = ["`no_such_name`", "`docs/nowhere.md`", "[x](nowhere.md)", "docs/NOWHERE.md says", '(README.md, "Nowhere")']
WRONG += ['docs/TRUST.md,\n"Nowhere"', "[x](docs/TRUST.md#nowhere)"]
WRONG += ["    crates/ccq/out/ccq play", "```sh\n./nowhere PLAN\n```", "`libvahepito.a` (1 KB)"]
# Names of others: of C, of gdb, of the toolchain, of other channels, of a program, and of a reader's own files.
OUTSIDE = {"stddef.h", "stdint.h", "bt", "backtrace", "start_io", "Permit", "Selector", "blocking_recv"}
OUTSIDE |= {"blocking_send", "into_sink", "into_stream", "max_capacity", "poll_recv", "recv_many"}
OUTSIDE |= {"tokio::time::timeout", "jq", "log.c", "item.c", "mine.py", "sum.cpp", "../trial/src/main.rs",
            "../project/src/main.rs", "CMakeLists.txt"}
PATH = re.compile(r"[\w.*-]*/[\w./*-]*|[\w*-]+\.(?:antt|c|cmake|edit|expect|h|html|in|js|json|md|py|rs|rt|sh|toml|txt)")
NAME = re.compile(r"(?:\w+::)*\w+")
POINTER = re.compile(
    r'`?\b([\w./-]+\.md)`?,\s(?:[#/*]+ +)?"([A-Z][^"\n]+)"'  # a document and its section
    r"|\]\(([^)#:\s]*)(?:#([^)\s]+))?\)"  # a link
    r"|\b(docs/[A-Z]+\.md)"
)
# How a file begins, by its ending, after the line that names its program and attributes of a Rust crate.
HEADS = {"rt": "//! ", "rs": r"//! |#!\[doc = include_str!", "antt": "-- ", "py": '"""', "sh": "# ", "js": "// "}
HEADS |= {"": "# "} | dict.fromkeys(["c", "cpp", "h", "hpp"], r"/\*\s|// ")
SOURCES = re.compile(r"crates/\w+/(src|specs)/(?!Lib.antt).*|(tools|tests|bench|bindings)/.*|[^./]+")
WITHOUT_HEADS = re.compile(r"HANDLES|.*/(PROOF|debian/.*)")
WITHOUT_WORDS = re.compile(r".*\.(md|txt|svg|png|a|xz)|bin/.*|docs/statements/.*|tests/documents\.py")


class Tree:
    """The paths of the tree's files, and the words of its sources and of its crates."""

    def __init__(self):
        self.files = set(kept_files())
        folders = {str(folder) for path in self.files for folder in pathlib.Path(path).parents}
        self.paths = self.files | folders | {re.sub(r"\.(antt|rt|rs)$", "", path) for path in self.files}
        self.words, self.of_crates = set(), set()
        for path in self.files:
            found = {pathlib.Path(path).name.split(".")[0], *path.split("/")[:-1]}
            if not WITHOUT_WORDS.fullmatch(path):
                found.update(words_in(path))
            self.words |= found
            self.of_crates |= found if path.startswith("crates/") else set()

    def named_by(self, patterns):
        """The files that these patterns name, where `*` stands for folders too."""
        return sorted({TOP / path for path in self.files for pattern in patterns if fnmatch.fnmatch(path, pattern)})

    def has_path(self, path):
        """Whether a path is in the tree, from the top or as the end of one that is, or is what a build leaves."""
        path = "/" + re.sub(r"^(\.{1,2}/)+", "", path).rstrip("/")
        if "*" not in path or "out" in path.split("/"):
            return "out" in path.split("/") or any(("/" + other).endswith(path) for other in self.paths)
        return any(fnmatch.fnmatch("/" + other, "*" + path) for other in self.paths)


def kept_files():
    """The paths of all files, but those that a build leaves, and programs beside README, as its commands leave one."""
    for folder, folders, files in os.walk(TOP):
        folders[:] = [name for name in folders if name not in (".git", "out", "target", "__pycache__")]
        for path in (pathlib.Path(folder, name) for name in files):
            if folder != str(TOP) or not path.read_bytes().startswith(b"\x7fELF"):
                yield str(path.relative_to(TOP))


def words_in(path):
    """The words of a source; of one of the crates without those of comments."""
    text = (TOP / path).read_text(errors="replace")
    return re.findall(r"\w+", re.sub(r"(?m)(//|--) .*$", "", text) if path.startswith("crates/") else text)


def unfenced(text):
    return re.sub(r"^```.*?^```", lambda found: "\n" * found[0].count("\n"), text, flags=re.M | re.S)


def line_of(text, found):
    return text.count("\n", 0, found.start()) + 1


def wrong_names(tree, text):
    """The names that are nowhere in the tree. Of several words those are looked at that are no plain words."""
    text = unfenced(text)
    headings = [(found.start(), found[0]) for found in re.finditer(r"^#.*", text, re.M)]
    for found in re.finditer(r"(?<!`)`([^`]+)`(?!`)", text):
        heading = "".join([line for at, line in headings if at <= found.start()][-1:])
        words = [word.rstrip(",.;:()") for word in found[1].split()]
        known = tree.of_crates if "`cc" in heading and len(words) == 1 else tree.words
        for word in words:
            if word in OUTSIDE or re.search(r"(^|[/.])[A-Z]{2,}([/.]|$)", word) or word.startswith(("/", "$", "-")):
                continue
            is_name = NAME.fullmatch(word) and (len(words) == 1 or "::" in word or "_" in word)
            if not tree.has_path(word) if PATH.fullmatch(word) else is_name and not known.issuperset(word.split("::")):
                yield line_of(text, found), f"`{word}` is nowhere in the tree"


def sections(path):
    """The headings of a document, without what is in brackets too, and their names in links, as GitHub makes them."""
    found = [re.sub(r"[`*]", "", line).strip() for line in re.findall(r"^#+ (.*)", unfenced(path.read_text()), re.M)]
    links = {re.sub(r"[^\w -]", "", heading.lower()).replace(" ", "-") for heading in found}
    return {*found, *(re.sub(r" \([^()]*\)$", "", heading) for heading in found), *links}


def wrong_pointers(path, text):
    """Documents and sections that texts and links name and that aren't there."""
    for found in POINTER.finditer(text):
        name, section = found[1] or found[3] or found[5] or path.name, found[2] or found[4]
        if found[3] is not None and path.suffix != ".md" or "NAME" in name:
            continue
        document = next((place / name for place in (path.parent, TOP) if (place / name).exists()), None)
        if document is None or section and document.suffix == ".md" and section not in sections(document):
            yield line_of(text, found), f"there is no {name}" + (f', "{section}"' if section else "")


def wrong_programs(tree, path, text):
    """Programs that a clone doesn't have."""
    text = re.sub(r"^```sh\n.*?^```", lambda found: found[0].replace("\n", "\n    "), text, flags=re.M | re.S)
    folder = path.parent.relative_to(TOP).as_posix()
    for at, line in enumerate(text.splitlines(), 1):
        begun = re.match(r"    \(?(?:cd [\w/]+ && )?(\.{0,2}/?[\w-]+(?:/[\w.-]+)+|\./[\w-]+)(?: |$)", line)
        name = begun[1].removeprefix("./") if begun else ""
        # What the reader's own compiler leaves, by the lines before, is there.
        own = re.search(rf" -o {re.escape(name)}(?!\S)", text)
        own = own or name.startswith("build/") and "cmake --build build\n" in text
        if re.search(r"crates/\S*\bout/\w", line) or name and not own and not {name, f"{folder}/{name}"} & tree.files:
            yield at, f"a clone doesn't have this program: {line.strip()}"


def wrong_sizes(tree, text):
    """Sizes of files that are others."""
    for found in re.finditer(r"`([\w./-]+)` \(([\d,]+) (bytes|KB|MB)\)", text):
        of = {"bytes": 1, "KB": 1000, "MB": 1000000}[found[3]]
        files = [TOP / path for path in tree.files if ("/" + path).endswith("/" + found[1])]
        sizes = {round(path.stat().st_size / of) for path in files}
        if sizes != {int(found[2].replace(",", ""))}:
            yield line_of(text, found), f"{found[0]}: it has {sorted(sizes)}"


def wrong_proofs():
    """The words of the lines of the proofs that docs/TRUST.md doesn't explain."""
    text = (TOP / "docs/TRUST.md").read_text()
    for path in sorted([*TOP.glob("bin/*/PROOF"), *TOP.glob("bindings/rust/lib/*/PROOF")]):
        line = re.findall(r"^proof[\w ]*: (.*)", path.read_text(), re.M)[-1]
        for word in re.findall(r"([\w-]+)=", line):
            if f"`{word}=" not in text:
                yield f"docs/TRUST.md doesn't explain `{word}=` of {path.relative_to(TOP)}"


def wrong_libraries():
    """The libraries that crates.txt has and the rows of docs/TRUST.md don't, and the reverse."""
    lines = re.findall(r"^(\w+).*?:(.*)", (TOP / "crates.txt").read_text(), re.M)
    used = {name for _, names in lines for name in names.split()} - {name for name, _ in lines}
    text = (TOP / "docs/TRUST.md").read_text()
    rows = re.findall(r"^\| the (?:ported crates|toolchain's libraries)(.*?) \|", text, re.M)
    told = set(re.findall(r"`(\w+)`", "".join(rows))) - {"std", "io", "os", "ccq"}
    for name in sorted(used ^ told):
        yield f"crates.txt and docs/TRUST.md don't both have the library `{name}`"


def has_head(path):
    """Whether a file begins with its head, if it is a source."""
    ending = path.rpartition(".")[2] if "." in path else ""
    if ending not in HEADS or "/." in path or not SOURCES.fullmatch(path) or WITHOUT_HEADS.fullmatch(path):
        return True
    return re.match(rf"(#!/.*\n)?(#!\[(?!doc).*\n)*({HEADS[ending]})", (TOP / path).read_text()) is not None


def main():
    tree = Tree()
    checks = [
        (DOCUMENTS, lambda path, text: wrong_names(tree, text)),
        (TEXTS, wrong_pointers),
        (STRANGERS, lambda path, text: [*wrong_programs(tree, path, text), *wrong_sizes(tree, text)]),
    ]
    found = []
    for line in WRONG:
        if not any([*check(TOP / "README.md", line)] for _, check in checks):
            found.append(f"this script lets a wrong line through: {line}")
    for patterns, check in checks:
        for path in [path for path in tree.named_by(patterns) if path.name != "documents.py"]:
            found += [f"{path.relative_to(TOP)}:{line}: {said}" for line, said in check(path, path.read_text())]
    found += [*wrong_proofs(), *wrong_libraries()]
    found += [f"{path} has no head" for path in sorted(tree.files) if not has_head(path)]
    print("\n".join(found) or "documents: names in backticks are in the tree, pointers lead there, files have heads")
    return 1 if found else 0


if __name__ == "__main__":
    sys.exit(main())
