#!/usr/bin/env python3
"""Checks that the library for aarch64 has each atomic access of its module, sequentially consistent, and no weaker one.

    tests/arm_words.py

- In the module's text each atomic access is seq_cst, of 8 bytes, and of no single thread's scope; there is no fence.
- For these LLVM writes `ldar`, `stlr`, and `ldaxr` with `stlxr` for a read-modify-write. Of all instructions with an
order, and of those that
  are atomic, the machine code has these four of 8 bytes alone.
- Each function has at least as many of each as what the optimizer leaves of the module (the compiler may write a block
twice). Debian's
  clang of PROOF's version says how many these are; without it a line says that this was skipped.

So no access that the module marks was left out or weakened. Whether another access, a plain one, leads to a shared word
isn't seen here: that the compiler adds none is trusted (docs/TRUST.md).

Wrong words and wrong texts are refused. Exit status 0 if all is so.
"""
import collections
import lzma
import pathlib
import re
import struct
import subprocess
import sys

sys.dont_write_bytecode = True
import asked
from module import compiled, compiler_of, object_in

FOLDER = pathlib.Path(__file__).resolve().parent.parent / "bindings/rust/lib/aarch64-unknown-linux-gnu"
ARCHIVE = FOLDER / "libvahepito_strict.a"
# The words of the four, but for their registers: the bits that count, and these bits.
KNOWN = {"load": (0xFFFFFC00, 0xC8DFFC00), "store": (0xFFFFFC00, 0xC89FFC00), "take": (0xFFFFFC00, 0xC85FFC00),
         "put": (0xFFE0FC00, 0xC800FC00)}
# The kinds of instructions that are exclusive, ordered or atomic: exclusive ones with compare-and-swap, those of LSE
# with `ldapr`, and those of RCpc with an offset.
ORDERED = [(0x3F000000, 0x08000000), (0x3B200C00, 0x38200000), (0x3B000000, 0x19000000)]
# ldxr, stxr, stllr, ldlar, ldapr, swpa, ldaddal, casal, ldapur, stlur; ldar, stlr and stlxr of four bytes; ldaxp.
WRONG = [0xC85F7D00, 0xC8017D02, 0xC89F7D00, 0xC8DF7D00, 0xF8BFC100, 0xF8A18100, 0xF8E10100, 0xC8E1FD00, 0xD9400100,
         0xD9000100]
WRONG += [0x88DFFD00, 0x889FFD00, 0x8801FD02, 0xC87F8500]
KIND_OF_MARK = {"load atomic": "load", "store atomic": "store", "atomicrmw": "put", "cmpxchg": "put"}
MARK = re.compile(r"^  (?:%\S+ = )?(load atomic|store atomic|atomicrmw|cmpxchg|fence)\b.*$", re.M)
RIGHT_TEXTS = ["%v = load atomic i64, ptr %a seq_cst, align 8",
               "%n = cmpxchg ptr %a, i64 1, i64 2 seq_cst seq_cst, align 8"]
WRONG_TEXTS = ["%v = load atomic i64, ptr %a acquire, align 8", "store atomic i64 1, ptr %a release, align 8",
               "fence seq_cst"]
WRONG_TEXTS += ["%n = atomicrmw add ptr %a, i64 1 acq_rel, align 8",
                "%n = cmpxchg ptr %a, i64 1, i64 2 seq_cst monotonic, align 8"]
WRONG_TEXTS += ['%v = load atomic i64, ptr %a syncscope("singlethread") seq_cst, align 8',
                "store atomic i32 1, ptr %a seq_cst, align 4"]


def kind_of(word: int) -> str | None:
    """Which of the four a word is; None if it is neither ordered nor atomic; and else `weaker`."""
    known = [kind for kind, (bits, due) in KNOWN.items() if word & bits == due]
    return known[0] if known else "weaker" if any(word & bits == due for bits, due in ORDERED) else None


def functions_of(archive: pathlib.Path) -> dict:
    """The words of each function."""
    whole, found = object_in(archive), {}
    told = subprocess.run(["readelf", "-SW", archive], capture_output=True, text=True, check=True).stdout
    for name, at, size in re.findall(r" \.text\.(?:unlikely\.)?(\S+) +PROGBITS +\w+ (\w+) (\w+)", told):
        found[name] = struct.unpack_from(f"<{int(size, 16) // 4}I", whole, int(at, 16))
    return found


def wrong_marks(text: str) -> list:
    """The atomic accesses of a text that aren't sequentially consistent, or not of 8 bytes."""
    return [
        mark[0]
        for mark in MARK.finditer(text)
        if mark[0].count(" seq_cst") != 1 + (mark[1] == "cmpxchg") or " i64" not in mark[0] or "syncscope" in mark[0]
        or mark[1] == "fence"
    ]


def counts_in(optimized: str) -> dict:
    """How many accesses of each kind the functions of a text have."""
    parts = re.findall(r'^define [^\n]*@"?([^"(\n]+)"?\([^\n]*\n(.*?)^}$', optimized, re.M | re.S)
    return {name: collections.Counter(KIND_OF_MARK[mark[1]] for mark in MARK.finditer(body)) for name, body in parts}


def main() -> int:
    module, functions = lzma.open(FOLDER / "module.ll.xz", "rt").read(), functions_of(ARCHIVE)
    counts = {name: collections.Counter(filter(None, map(kind_of, words))) for name, words in functions.items()}
    failed = [f"the module has {mark}" for mark in wrong_marks(module)]
    failed += [f"{name}: a weaker access" for name, count in counts.items() if count["weaker"]]
    failed += [f"{word:x} is accepted" for word in WRONG if kind_of(word) != "weaker"]
    failed += [f"accepted: {text}" for text in WRONG_TEXTS if not wrong_marks("  " + text)]
    failed += [f"refused: {text}" for text in RIGHT_TEXTS if wrong_marks("  " + text)]
    clang, said, words = compiler_of(FOLDER)
    if clang:
        optimized = compiled(clang, words, module, "-S", "-emit-llvm").decode()
        failed += [f"the optimizer leaves {mark}" for mark in wrong_marks(optimized)]
        for name, due in counts_in(optimized).items():
            here = counts.get(name, collections.Counter())
            if any(here[kind] < due[kind] or (here[kind] and not due[kind]) for kind in ("load", "store", "put")):
                failed.append(f"{name}: {dict(here)}, and {dict(due)} in its text")
    else:
        print(f"words: the accesses of each function on aarch64: SKIPPED: clang {said} is not on this machine")
    total = sum(counts.values(), collections.Counter())
    if not all(total[kind] for kind in KNOWN):
        failed.append("no access of some kind was found")
    print("\n".join([*failed, f"words: {dict(total)} on aarch64, {len(failed)} failed"]))
    return 1 if failed else 0


if __name__ == "__main__":
    sys.exit(main())
