#!/usr/bin/env python3
"""Looks in what is built for paths of the machine that built it: an archive is the same wherever it is built.

    tests/host_paths.py FOLDER..

No archive (.a) of a folder, and no text that is packed there (.xz), has an absolute path or a section for debuggers.
`readelf` shows such a path in the names of files, in texts and in what a compiler writes for debuggers, which may be
packed; so the section is refused by its name.

Before it looks, it shows that it finds each of PLANTED, and what a compiler of C leaves in an archive with `-g`, packed
or not, and by the name of a source. The last needs cc and ar. Exit status 0 if nothing is found.
"""
import lzma
import os
import pathlib
import re
import shutil
import subprocess
import sys
import tempfile

sys.dont_write_bytecode = True
import asked

# Folders that a machine has wherever they are, any absolute path of two names (and no address of a site), and the
# sections of debuggers.
FOUND = re.compile(
    rb"/(?:home|root|tmp|work|opt|build|mnt|srv|usr|var)/[\x21-\x7e]*|(?<![\w./])/[\w.+-]{3,}/[\w.+-]{3,}[\x21-\x7e]*"
    rb"|\.z?debug_\w+"
)
PLANTED = [b"\0/root/a.c\0", b"-I/home/somebody\0", b"\n/work/vahepito/crates/cc_capi/src/lib.rt/\n",
           b"\0/data/builds/x.o", b"\0.zdebug_info\0"]
# Words of a compiler, each of which leaves a path in an object, or a packed one.
LEAVING = ["-g", "-g -gz=zlib", "-DTHEIRS=__FILE__"]
SOURCE = "#ifdef THEIRS\nconst char *name = THEIRS;\n#endif\nint number;\n"


def found_in(path: pathlib.Path) -> list:
    """The paths in a file, each once, and the sections for debuggers."""
    whole = path.read_bytes()
    return sorted({found.decode()
                   for found in FOUND.findall(lzma.decompress(whole) if path.suffix == ".xz" else whole)})


def misses() -> list:
    """Which of the planted ones aren't found."""
    missed = []
    with tempfile.TemporaryDirectory() as room:
        archive = pathlib.Path(room, "planted.a")
        for planted in PLANTED:
            archive.write_bytes(b"!<arch>\n" + bytes(range(256)) + planted)
            if not found_in(archive):
                missed.append(planted.decode())
        if not (shutil.which("cc") and shutil.which("ar")):
            print("host_paths: what a compiler leaves: SKIPPED: cc or ar is not on this machine")
            return missed
        source = pathlib.Path(room, "source.c")
        source.write_text(SOURCE)
        for words in LEAVING:
            archive.unlink(missing_ok=True)
            subprocess.run(["cc", *words.split(), "-c", str(source), "-o", "made.o"], cwd=room, check=True)
            subprocess.run(["ar", "rcs", str(archive), "made.o"], cwd=room, check=True)
            if not found_in(archive):
                missed.append(f"cc {words}")
    return missed


def main() -> int:
    if not sys.argv[1:] or not all(os.path.isdir(folder) for folder in sys.argv[1:]):
        print("usage: tests/host_paths.py FOLDER..", file=sys.stderr)
        return 64
    failed = [f"the search doesn't find this: {name!r}" for name in misses()]
    for folder in map(pathlib.Path, sys.argv[1:]):
        files = sorted([*folder.glob("*.a"), *folder.glob("*.xz")])
        failed += [f"{folder} has no archive"] * (not any(path.suffix == ".a" for path in files))
        failed += [f"{path} has {', '.join(found)}" for path in files if (found := found_in(path))]
    for line in failed:
        print(f"host_paths: {line}")
    return bool(failed)


if __name__ == "__main__":
    sys.exit(main())
