#!/usr/bin/env python3
"""Times the channel of bindings/rust beside the same crate at another commit, and beside crossbeam's, in one run.

    bench/channel.py COMMIT [--archives LIBRARY HEAP] [--seconds N] [--only MODE] [--alone] [--write]

One command, in some N seconds (330 if no number is given) after the build. The crate of the commit is taken by git
archive into bench/channel/out. Its own library and functions for memory are named by --archives; without that it is
linked with the archives in bindings/rust/lib, as this crate is. crossbeam's channel is Debian's
librust-crossbeam-channel-dev; the run goes on without it.

A round runs each burst once, in a random order, each in a process of its own: half of the rounds with nothing beside
it, and half with a process that is busy on each processor (none with --alone). Medians are printed, with quartiles in
brackets, and the median of each round's quotient to the crate of the commit, or to crossbeam where that is compared.
With --write the table `channel` of docs/BENCH.md is written: what of this bench/peers/run.py doesn't measure, with
nothing beside it.
"""
import argparse
import contextlib
import os
import random
import re
import shutil
import statistics
import subprocess
import sys
import time

sys.dont_write_bytecode = True
from busy import busy_processors
from document import spread, write

HERE = os.path.dirname(os.path.abspath(__file__))
TOP = os.path.dirname(HERE)
OUT = os.path.join(HERE, "channel", "out")
REGISTRY = "/usr/share/cargo/registry"
LIBRARY = os.path.join(TOP, "bindings", "rust", "lib", "x86_64-unknown-linux-gnu")
ARCHIVES = {"VAHEPITO_LIB": os.path.join(LIBRARY, "libvahepito.a"),
            "VAHEPITO_HEAP": os.path.join(LIBRARY, "libvahepito_heap.a")}

VERSION = r'(?m)(?<=^version = ")\d+\.\d+\.\d+(?="$)'

# What a burst is, its mode and number, its milliseconds, and what it is compared with: "old" or "crossbeam".
BURSTS = [
    ("a pair on one thread", "alone", 1, 150, "old"),
    ("a pair of 16 bytes", "alone", 2, 100, "old"),
    ("a pair of 32 bytes", "alone", 4, 100, "old"),
    ("a pair of 40 bytes", "alone", 5, 100, "old"),
    ("1 and 1", "shared", 1, 250, "old"),
    ("4 and 4", "shared", 4, 250, "old"),
    ("8 and 8", "shared", 8, 250, "old"),
    ("32 and 32", "shared", 32, 300, "old"),
    ("a receiver that waits, p50", "blocked", 1, 300, "crossbeam"),
    ("the slowest try_send, p99", "slowest", 9900, 1000, "crossbeam"),
    ("the slowest try_send, p99.99", "slowest", 9999, 1000, "crossbeam"),
    ("a select that waits, p50", "select", 64, 300, "crossbeam"),
    ("the same with capacity 0, p50", "select", 0, 300, "crossbeam"),
    ("a round trip with capacity 0", "meet", 1, 150, "crossbeam"),
    ("a round trip of two tasks", "tasks", 1, 150, "old"),
    ("channel::<u64>(1)", "open", 1, 100, "old"),
    ("len", "len", 1, 50, "old"),
]


NEW = {"select", "meet"}  # the modes that the crate of an earlier commit may not have


def build(name, crate, archives, peers, selects):
    """The program over this crate and these archives, with the modes NEW if it has selects."""
    room = os.path.join(OUT, name)
    os.makedirs(os.path.join(room, ".cargo"), exist_ok=True)
    wanted = 'crossbeam-channel = { version = "*", optional = true }\n' if peers else ""
    feature = '["dep:crossbeam-channel"]' if peers else "[]"
    with open(os.path.join(room, "Cargo.toml"), "w") as file:
        file.write('[package]\nname = "channel"\nversion = "0.1.0"\nedition = "2024"\n\n[workspace]\n\n'
                   f'[[bin]]\nname = "channel"\npath = "{HERE}/channel/src/main.rs"\n\n'
                   f'[dependencies]\nvahepito = {{ path = "{crate}" }}\n{wanted}\n'
                   f'[features]\nselect = []\ncrossbeam-channel = {feature}\n')
    with open(os.path.join(room, ".cargo", "config.toml"), "w") as file:
        file.write(f'[source.crates-io]\nreplace-with = "debian"\n\n[source.debian]\ndirectory = "{REGISTRY}"\n'
                   if peers else "")
    features = ["select"] * selects + ["crossbeam-channel"] * peers
    words = ["cargo", "build", "-q", "--release", "--offline", "--features", ",".join(features)]
    environment = {**archives, **os.environ, "CARGO_TARGET_DIR": os.path.join(room, "target")}
    subprocess.run(words, cwd=room, check=True, env=environment)
    return os.path.join(room, "target", "release", "channel")


def read(path):
    with open(path) as file:
        return file.read()


def change(path, pattern, text):
    """Puts this text in the place of the one that the pattern finds."""
    changed, count = re.subn(pattern, text, read(path))
    assert count == 1, path
    with open(path, "w") as file:
        file.write(changed)


def crate_at(commit, is_linked_with_its_own):
    """The crate of this commit. If it is linked with the archives in bindings/rust/lib, it takes them for those of its
    version."""
    room = os.path.join(OUT, "tree")
    shutil.rmtree(room, ignore_errors=True)
    os.makedirs(room)
    archive = subprocess.run(["git", "archive", commit, "bindings"], cwd=TOP, check=True, capture_output=True)
    subprocess.run(["tar", "x", "-C", room], input=archive.stdout, check=True)
    crate = os.path.join(room, "bindings", "rust")
    if is_linked_with_its_own:
        return crate
    version = re.search(VERSION, read(os.path.join(TOP, "bindings", "rust", "Cargo.toml")))[0]
    for name in "Cargo.toml", "Cargo.lock":
        change(os.path.join(crate, name), VERSION, version)
    # It compares three sizes, where the library tells four.
    handle = os.path.join(crate, "src", "words", "handle.rs")
    if os.path.exists(handle) and "pass: &mut usize, item: &mut usize);" in read(handle):
        change(handle, r"(?<=fn vahepito_sizes\(config: &mut usize, pass: &mut usize, item: &mut usize)(?=\);)",
               ", _: &mut usize")
        change(handle, r"(?<=vahepito_sizes\(&mut config, &mut pass, &mut item)(?=\);)", ", &mut 0")
    return crate


def run(program, queue, burst):
    _, mode, number, milliseconds, _ = burst
    words = [program, mode, queue, str(number), str(milliseconds)]
    return float(subprocess.run(words, check=True, capture_output=True, text=True).stdout)


def told(values):
    low, middle, high = statistics.quantiles(values, n=4, method="inclusive") if len(values) > 1 else values * 3
    return f"{middle:.0f} ({low:.0f} to {high:.0f})"


def table(took, bursts):
    """The rows of the table `channel`: what bench/peers/run.py doesn't measure of this crate and of crossbeam's,
    alone."""
    rows = [["", "typed", "crossbeam-channel"]]
    for name, mode, number, *_ in bursts:
        if mode not in ("shared", "blocked", "slowest") and (mode, number) != ("alone", 1):
            rows.append([name, *(spread(took[name, False, of]) if (name, False, of) in took else ""
                                 for of in ("new", "crossbeam"))])
    return rows


def main():
    parser = argparse.ArgumentParser(description=__doc__, formatter_class=argparse.RawDescriptionHelpFormatter)
    parser.add_argument("commit", help="of the crate that is beside this one")
    parser.add_argument("--archives", nargs=2, metavar=("LIBRARY", "HEAP"), help="the archives of that commit")
    parser.add_argument("--seconds", type=int, default=330)
    parser.add_argument("--only", help="bursts of this mode alone")
    parser.add_argument("--alone", action="store_true", help="no rounds beside busy processes")
    parser.add_argument("--write", action="store_true", help="the table of docs/BENCH.md")
    words = parser.parse_args()
    there = os.listdir(REGISTRY) if os.path.isdir(REGISTRY) else []
    peers = any(name.startswith("crossbeam-channel-") for name in there)
    own = dict(zip(ARCHIVES, map(os.path.abspath, words.archives))) if words.archives else ARCHIVES
    programs = {"new": (build("new", os.path.join(TOP, "bindings", "rust"), ARCHIVES, peers, True), "vahepito"),
                "old": (build("old", crate_at(words.commit, words.archives), own, False, False), "vahepito")}
    if peers:
        programs["crossbeam"] = (programs["new"][0], "crossbeam")
    bursts = [burst for burst in BURSTS if words.only in (None, burst[1])]
    took = {}
    start, rounds = time.time(), 0
    while time.time() - start < words.seconds or rounds < 2:
        busy = rounds % 2 == 1 and not words.alone
        misses = lambda name, mode: name == "crossbeam" and mode == "tasks" or name == "old" and mode in NEW
        cells = [(burst, name) for burst in bursts for name in programs if not misses(name, burst[1])]
        random.shuffle(cells)
        with busy_processors() if busy else contextlib.nullcontext():
            for burst, name in cells:
                took.setdefault((burst[0], busy, name), []).append(run(*programs[name], burst))
        rounds += 1
    print(f"{rounds} rounds in {time.time() - start:.0f} s, {os.cpu_count()} processors, load "
          f"{os.getloadavg()[0]:.1f}: nanoseconds\n")
    for busy in [False] if words.alone else [False, True]:
        print("| " + ("beside a busy process on each processor" if busy else "alone") + " | now | " + words.commit
              + " | now to that | crossbeam | now to crossbeam |\n|---|---|---|---|---|---|")
        for burst in bursts:
            new, old, peer = (took.get((burst[0], busy, name)) for name in ["new", "old", "crossbeam"])
            quotient = lambda base: f"{statistics.median(a / b for a, b in zip(new, base)):.2f}" if base else ""
            print(f"| {burst[0]} | {told(new)} | {told(old) if old else ''} | {quotient(old)} | "
                  f"{told(peer) if peer else ''} | {quotient(peer)} |")
        print()
    if words.write:
        write("channel", table(took, bursts))


if __name__ == "__main__":
    main()
