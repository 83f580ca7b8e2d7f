#!/usr/bin/env python3
"""Plants faults in a copy of the Rust crate, each of which the search of bindings/rust/tests/explore has to find.

Usage: tests/explore.py [NAME..]

A fault is a file of `faults` there: `search: ` and the words of the search, `scenario: ` and the scenario in which it
is found, `file: ` and a file of the crate's src, and then pairs of `old: ` and `new: `, which are code. Any space in
`old` is any space in the file. With names it plants these faults alone. First it makes some runs of each search
without a fault, which find nothing.
Exit status 0 if each fault is found, and 77 if cargo isn't on this machine.
"""
import os
import re
import shutil
import subprocess
import sys
import tempfile
import time
from pathlib import Path

sys.dont_write_bytecode = True
import asked

CRATE = Path(__file__).resolve().parent.parent / 'bindings/rust'
USED = ['src', 'tests/explore', 'Cargo.toml', 'Cargo.lock', 'build.rs', 'README.md']
CARGO = ['cargo', '--quiet', '--offline', '--locked', 'test', '--test', 'explore', '--no-run']
SETTINGS = {'RUSTFLAGS': '--cfg vahepito_explore --cfg vahepito_unproved', 'CARGO_INCREMENTAL': '1',
            'CARGO_PROFILE_DEV_DEBUG': 'none', 'VAHEPITO_ROUNDS': '100'}


def parts(path):
    """The lines of a fault, by what they are."""
    fault = {'search': [], 'scenario': [], 'file': [], 'old': [], 'new': []}
    for line in path.read_text().splitlines():
        kind, _, text = line.partition(': ')
        fault[kind].append(text)
    return fault


def edited(text, fault):
    """The text with each pair of the fault; each old code is in it once."""
    for old, new in zip(fault['old'], fault['new'], strict=True):
        pattern = r'\s+'.join(re.escape(word) for word in old.split())
        text, count = re.subn(pattern, lambda _: new, text)
        if count != 1:
            sys.exit(f'explore.py: {fault["file"][0]} has this {count} times: {old}')
    return text


def build(copy, environment):
    """The program that searches."""
    made = subprocess.run(CARGO, cwd=copy, env=environment, stderr=subprocess.PIPE, text=True)
    if made.returncode:
        sys.exit(made.stderr)
    programs = [it for it in (copy / 'target/debug/deps').glob('explore-*') if not it.suffix]
    return max(programs, key=lambda it: it.stat().st_mtime)


def search(program, fault, *further):
    """What the search prints; None if it finds nothing."""
    words = [*' '.join(fault['search']).split(), *(f'scenario={it}' for it in fault['scenario']), *further]
    run = subprocess.run([program, *words], env=os.environ | SETTINGS, capture_output=True, text=True, timeout=300)
    # A call of the queue that panics ends the program by a signal.
    if run.returncode > 0 and 'after these steps' not in run.stdout:
        sys.exit(run.stdout + run.stderr)
    return run.stdout + run.stderr if run.returncode else None


def main(names, room):
    if not shutil.which('cargo'):
        print('explore.py: SKIPPED: cargo is not on this machine')
        sys.exit(77)
    environment = os.environ | SETTINGS | {'CARGO_TARGET_DIR': str(room / 'target')}
    (room / 'tests').mkdir()
    for it in USED:
        (shutil.copytree if (CRATE / it).is_dir() else shutil.copy)(CRATE / it, room / it)
    paths = sorted((CRATE / 'tests/explore/faults').glob('*.edit'))
    faults = {it.stem: parts(it) for it in paths if not names or it.stem in names}
    program = build(room, environment)
    for name, fault in faults.items():
        wrong = search(program, fault, 'samples=300')
        if wrong:
            sys.exit(f'explore.py: without {name} the search says:\n{wrong}')
    missed = []
    for name, fault in faults.items():
        file = room / 'src' / fault['file'][0]
        before = file.read_text()
        file.write_text(edited(before, fault))
        program = build(room, environment)
        begin = time.monotonic()
        found = search(program, fault)
        file.write_text(before)
        if not found:
            missed.append(name)
        said = 'found' if found else 'NOT FOUND'
        print(f'explore.py: {name}: {said} in {time.monotonic() - begin:.2f} s', flush=True)
    if missed:
        sys.exit(f'explore.py: {len(missed)} of {len(faults)} faults are not found')
    print(f'explore.py: {len(faults)} faults are found')


if __name__ == '__main__':
    with tempfile.TemporaryDirectory() as folder:
        main(sys.argv[1:], Path(folder))
