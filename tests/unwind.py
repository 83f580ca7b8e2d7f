#!/usr/bin/env python3
"""Checks what the archives tell debuggers and profilers, and the processor's protection of jumps.

    tests/unwind.py

- In each archive `.eh_frame` has a table for each function, of the function's size. Its first row, if it has one, is
that of an entry (readelf). - gdb steps through the calls of tests/unwind.c, and finds main from each instruction
(tests/unwind_walk.py). It doesn't without the tables. - For x86-64 the archives have the note of CET. So each export
begins with `endbr64`, and each jump by a register is `notrack`. The linker
  finds the note in each object.
- tools/mark_module.py makes of small modules what is due.

Exit status 0 if all is so.
"""
import collections
import pathlib
import platform
import re
import shutil
import subprocess
import sys
import tempfile

TOP = pathlib.Path(__file__).resolve().parent.parent
LIBRARIES = TOP / "bindings/rust/lib"
X86 = LIBRARIES / "x86_64-unknown-linux-gnu"
FIRST = {"x86_64-unknown-linux-gnu": "rsp+8", "aarch64-unknown-linux-gnu": "sp+0"}
sys.dont_write_bytecode = True
import asked
sys.path.insert(0, str(TOP / "tools"))
import mark_module

FUNCTION, GROUP = "define internal void @it(ptr %a0) #0 {\nret void\n}\n", "attributes #0 = { nounwind }\n"
MARKED = GROUP.replace("{ ", "{ uwtable ")
TRIPLE = 'target triple = "x86_64-unknown-linux-gnu"\n'
FLAGS = ('!llvm.module.flags = !{!1, !2}\n!1 = !{i32 8, !"cf-protection-return", i32 1}\n'
         '!2 = !{i32 8, !"cf-protection-branch", i32 1}\n')
# Modules, and what becomes of them; None, if they are refused.
MODULES = [
    (FUNCTION + GROUP, FUNCTION + MARKED),
    (FUNCTION + MARKED, FUNCTION + MARKED),
    (FUNCTION + GROUP + "attributes #1 = { cold }\n", FUNCTION + MARKED + "attributes #1 = { cold }\n"),
    (TRIPLE + FUNCTION + GROUP + "!0 = !{}\n", TRIPLE + FUNCTION + MARKED + "!0 = !{}\n" + FLAGS),
    (TRIPLE + FUNCTION + GROUP + FLAGS, TRIPLE + FUNCTION + MARKED + FLAGS),
    (FUNCTION.replace(" #0", "") + GROUP, None),
    (TRIPLE + FUNCTION + GROUP + "!llvm.module.flags = !{!0}\n", None),
]
failed = []


def said_by(*command) -> str:
    return subprocess.run(command, capture_output=True, text=True, check=True).stdout


def check_tables(archive: pathlib.Path) -> None:
    """Each function has a table of its size; without rows it is as at an entry."""
    sizes = collections.Counter(int(size, 16)
                                for size in re.findall(r" \.text\.\S+ +PROGBITS +\S+ \S+ (\S+)",
                                                       said_by("readelf", "-SW", archive)))
    told = said_by("readelf", "-W", "--debug-dump=frames-interp", archive)
    tables = re.findall(r" FDE [^\n]*pc=(\w+)\.\.(\w+)\n(?:[^\n]* LOC [^\n]*\n0+ (\S+))?", told)
    wrong = [row for begin, end, row in tables if (row or FIRST[archive.parent.name]) != FIRST[archive.parent.name]
             or int(begin, 16)]
    if wrong or not sizes or collections.Counter(int(end, 16) for _, end, _ in tables) != sizes:
        failed.append(f"{archive}: the tables aren't those of the functions, or begin so: {wrong}")


def check_jumps(archive: pathlib.Path) -> None:
    """The rules of CET."""
    code = said_by("objdump", "-d", "--no-show-raw-insn", archive)
    entries = dict(re.findall(r"^0+ <(vahepito_\w+)>:\n +0:\t(\w+)", code, re.M))
    exports = set(re.findall(r" T (vahepito_\w+)", said_by("nm", archive)))
    if not exports or any(entries.get(name) != "endbr64" for name in exports):
        failed.append(f"{archive}: exports that don't begin with endbr64, of {len(exports)}")
    failed.extend(f"{archive}: {jump}" for jump in re.findall(r"\t(?!notrack )\w*jmp +\*.*", code))
    if "IBT, SHSTK" not in said_by("readelf", "-n", archive):
        failed.append(f"{archive}: no note of CET")


def walk(room: str, archive: pathlib.Path) -> tuple:
    """How many stops gdb makes in the calls, and how many are wrong; nothing if no process may be traced here."""
    program = f"{room}/unwind"
    command = ["cc", "-std=c11", "-O1", "-I", str(TOP / "bindings/c"), str(TOP / "tests/unwind.c"), str(archive),
               str(X86 / "libvahepito_heap.a")]
    linked = subprocess.run([*command, "-Wl,-z,now", "-Wl,-z,cet-report=warning", "-o", program], capture_output=True,
                            text=True, check=True)
    failed.extend(line for line in linked.stderr.splitlines() if "libvahepito" in line)
    done = subprocess.run(["gdb", "-nx", "-q", "-batch", "-x", TOP / "tests/unwind_walk.py", program],
                          capture_output=True, text=True, timeout=300)
    found = re.search(r"^(\d+) stops, (\d+) wrong$", done.stdout, re.M)
    if not found and "ptrace" not in done.stderr:
        failed.append(f"{archive}: gdb says {done.stdout[-500:]}{done.stderr}")
    return tuple(map(int, found.groups())) if found else ()


def check_walks() -> None:
    if platform.machine() != "x86_64" or not shutil.which("gdb") or not shutil.which("cc"):
        print("unwind: from each instruction to main: SKIPPED: gdb or cc is not on this machine, or it isn't x86-64")
        return
    with tempfile.TemporaryDirectory() as room:
        none = pathlib.Path(room, "none.a")
        said_by("objcopy", "-R", ".eh_frame", "-R", ".rela.eh_frame", X86 / "libvahepito.a", none)
        for archive in (X86 / "libvahepito.a", X86 / "libvahepito_strict.a", none):
            if not (found := walk(room, archive)):
                print("unwind: from each instruction to main: SKIPPED: no process may be traced here")
                return
            print(f"unwind: {archive.name}: {found[0]} stops, {found[1]} wrong")
            if found[1] != (archive == none) or (found[0] < 1000 and archive != none):
                failed.append(f"{archive.name}: so few stops, or so many wrong ones")


def main() -> int:
    for archive in sorted(LIBRARIES.glob("*/libvahepito*.a")):
        if "heap" not in archive.name:
            check_tables(archive)
        if archive.parent == X86 and "heap" not in archive.name:
            check_jumps(archive)
    for module, due in MODULES:
        try:
            made = mark_module.marked(module)
        except mark_module.Refused:
            made = None
        if made != due:
            failed.append(f"this module becomes {made!r}:\n{module}")
    check_walks()
    print("\n".join([*failed, f"unwind: {len(failed)} failed"]))
    return 1 if failed else 0


if __name__ == "__main__":
    sys.exit(main())
