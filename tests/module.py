#!/usr/bin/env python3
"""Compiles the compiler's modules beside the archives once more, by another binary, and compares the objects, byte for
byte.

    tests/module.py
    tests/module.py --into FOLDER TARGET

`bindings/rust/lib/TARGET/module.ll.xz` is what the toolchain's compiler read when the library was built, and the line
`compiler:` of PROOF says which version of clang it is and by which words it was called. Debian's clang of that version,
which was built by others, has to make the object of `libvahepito_strict.a` of that text, and that of `libvahepito.a` of
the text that tools/release_stores.py makes of it. So the toolchain's own binary isn't trusted alone.

It also shows that the comparison can fail: of a module with one weaker access of a shared word comes another object.

What the optimizer leaves of the second text is compared with the machine code: each function has as many exchanges as
the text has swaps and seq_cst stores there, and as many fences; the other stores are plain. And in each function all
marks (stores of 2) are of one kind: so the choice between both kinds of mark is made when the library is compiled, and
not at each mark.

Without that clang it does nothing, says so in a line, and the exit status is 77. Exit status 0 if all is so.

With --into it writes archives of these objects of a target into a folder, for `make from-text` in bindings/c; exit
status 1 if they aren't those of the tree.
"""
import collections
import lzma
import pathlib
import re
import shutil
import subprocess
import sys
import tempfile

TOP = pathlib.Path(__file__).resolve().parent.parent
sys.dont_write_bytecode = True
import asked
sys.path.insert(0, str(TOP / "tools"))
from release_stores import Refused, released

# The toolchain's names for memory, and the library's: tools/build_library.sh renames them in what was built.
RENAMED = [(b"rattle_alloc", b"vahepito_mem"), (b"rattle_realloc", b"vahepito_renew"),
           (b"rattle_dealloc", b"vahepito_freed")]
# What is an exchange in the machine code, and a fence: in its text, and there.
KINDS = {
    "exchanges": (r"^  (?:%\S+ = )?(?:atomicrmw xchg|store atomic [^\n]* seq_cst,)", r"\txchg .*\(%"),
    "fences": (r"^  fence seq_cst", r"\tlock orl +\$0x0,.*\(%rsp\)|\tmfence"),
}


def compiled(clang: str, words: list, module: str, *kind: str) -> bytes:
    """What this compiler makes of a module: the object, with the library's names, or another kind of output."""
    with tempfile.TemporaryDirectory() as room:
        command = [clang, *words, *(kind or ("-c",)), "-x", "ir", "-", "-o", f"{room}/made"]
        subprocess.run(command, input=module.encode(), check=True)
        made = pathlib.Path(room, "made").read_bytes()
    for theirs, ours in RENAMED:
        made = made.replace(theirs, ours)
    return made


def object_in(archive: pathlib.Path) -> bytes:
    """The one object of an archive."""
    return subprocess.run(["ar", "p", archive], capture_output=True, check=True).stdout


def codes_of(archive: pathlib.Path) -> dict:
    """The machine code of each function, as text."""
    text = subprocess.run(["objdump", "-d", "--no-show-raw-insn", archive], capture_output=True, text=True,
                          check=True).stdout
    parts = re.split(r"^[0-9a-f]+ <(.*)>:$", text, flags=re.M)
    return dict(zip(parts[1::2], parts[2::2]))


def wrong_stores(archive: pathlib.Path, optimized: str) -> list:
    """The functions whose machine code has other exchanges or fences than their text, or which have marks of two
    kinds."""
    found, orders, codes = [], collections.Counter(), codes_of(archive)
    for name, body in re.findall(r'^define [^\n]*@"?([^"(\n]+)"?\([^\n]*\n(.*?)^}$', optimized, re.M | re.S):
        for kind, (in_text, in_code) in KINDS.items():
            here, due = len(re.findall(in_code, codes.get(name, ""))), len(re.findall(in_text, body, re.M))
            if here != due:
                found.append(f"{name}: {here} {kind}, and {due} in its text")
        orders.update(re.findall(r"store atomic [^\n]* (release|seq_cst),", body))
        if len(kinds := set(re.findall(r"store atomic i64 2,[^\n]* (release|seq_cst),", body))) > 1:
            found.append(f"{name}: has marks of both kinds")
    return found if len(orders) == 2 else [*found, f"stores of these kinds alone: {dict(orders)}"]


def texts_of(folder: pathlib.Path) -> dict:
    """The text of each archive of a target."""
    strict = lzma.open(folder / "module.ll.xz", "rt").read()
    texts = {"libvahepito_strict.a": strict}
    return texts | {"libvahepito.a": released(strict)} if (folder / "libvahepito.a").exists() else texts


def build(folder: pathlib.Path, into: pathlib.Path, clang: str, words: list) -> list:
    """Writes archives into another folder. Returns what is wrong with them."""
    found = []
    for name, text in texts_of(folder).items():
        made = (into / name).with_suffix(".o")
        made.write_bytes(compiled(clang, words, text))
        (into / name).unlink(missing_ok=True)
        subprocess.run(["ar", "rcsD", into / name, made], check=True)
        if made.read_bytes() != object_in(folder / name):
            found.append(f"{name} is another object")
    return found


def faults_of(folder: pathlib.Path, clang: str, words: list) -> list:
    """What is wrong with the archives of a target."""
    texts, found = texts_of(folder), []
    strict = texts["libvahepito_strict.a"]
    if (default := folder / "libvahepito.a").exists():
        optimized = compiled(clang, words, texts[default.name], "-S", "-emit-llvm").decode()
        found += wrong_stores(default, optimized)
        if not wrong_stores(folder / "libvahepito_strict.a", optimized):
            found.append("the strict archive has the same exchanges")
    found += [f"{name} is another object"
              for name, text in texts.items() if compiled(clang, words, text) != object_in(folder / name)]
    weaker = strict.replace(" seq_cst, align 8", " monotonic, align 8", 1)
    if compiled(clang, words, weaker) == object_in(folder / "libvahepito_strict.a"):
        found.append("a weaker access makes no other object")
    return found


def compiler_of(folder: pathlib.Path) -> tuple:
    """Debian's compiler of the version that PROOF names, what it says of itself, and the words; if this machine has
    none, the version."""
    version, words = re.search(r"^compiler: clang version (\S+?),? (.*)$", (folder / "PROOF").read_text(),
                               re.M).groups()
    clang = f"clang-{version.split('.')[0]}"
    said = subprocess.run([clang, "--version"], capture_output=True, text=True).stdout if shutil.which(clang) else ""
    return (clang, said.splitlines()[0], words.split()) if f"clang version {version} " in said else (None, version, [])


def main() -> int:
    failed, into = 0, pathlib.Path(sys.argv[2]) if sys.argv[1:2] == ["--into"] else None
    for folder in sorted((TOP / "bindings/rust/lib").glob(f"{sys.argv[3] if into else '*'}/")):
        clang, said, words = compiler_of(folder)
        if not clang or not shutil.which("objdump"):
            print(f"module: another compiler of the same version: SKIPPED: clang {said} or objdump is not on this "
                  f"machine")
            return 77
        try:
            found = build(folder, into, clang, words) if into else faults_of(folder, clang, words)
        except Refused as why:
            found = [f"the module is refused: {why}"]
        print("\n".join(f"module: {folder.name}: {line}"
                        for line in found or [f"{said} makes the same objects, byte for byte"]))
        failed += bool(found)
    return 1 if failed else 0


if __name__ == "__main__":
    sys.exit(main())
