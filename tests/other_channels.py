#!/usr/bin/env python3
"""Runs the tests of other channels over the crate in bindings/rust: those of crossbeam-channel, flume and
async-channel, as Debian packages them, each over a crate of its name that calls this one (tests/other_channels/*.rs).

Usage: tests/other_channels.py [NAME..]      the names: crossbeam, flume, async_channel

Each is run twice: over the crate as it is, and over a copy in which every queue of a channel without a bound has one
place. It needs Debian's librust-NAME-dev of crossbeam-channel, flume, async-channel, async-std, easy-parallel, futures,
futures-lite, num-cpus, rand, signal-hook, tokio and waker-fn; what is missing is skipped. The other files of flume's
tests are comments, but for mpsc, whose tests are of crossbeam-channel. It takes some minutes, and isn't part of the
gate. The exit status is 0 if no tests but those of `FAIL` failed, and 77 if nothing could be run.
"""

import json
import os
import re
import shutil
import subprocess
import sys
import tempfile
from pathlib import Path

sys.dont_write_bytecode = True
import asked
TOP = Path(__file__).resolve().parent.parent
REGISTRY = Path("/usr/share/cargo/registry")
SHAPE = ("[64, 512]", "[1, 1]")
RESULT = re.compile(r"^test (\S+)(?: - should panic)? \.\.\. (ok|FAILED|ignored)", re.M)

# Of each other channel: its package, the files of its tests, what these need, each with its features, and its edition.
CHANNELS = {
    "crossbeam": ("crossbeam-channel",
                  ["after", "array", "golang", "iter", "list", "mpsc", "never", "ready", "same_channel", "select",
                  "select_macro", "thread_locals", "tick", "zero"],
                  ["crossbeam-utils", "num_cpus", "rand", "signal-hook"], "2018"),
    "flume": ("flume", ["array", "async", "basic", "iter", "list", "method_sharing", "stream", "zero"],
              ["async-std attributes unstable",
              "crossbeam-utils", "futures", "rand", "tokio macros rt", "waker-fn"], "2018"),
    "async_channel": ("async-channel", ["bounded", "unbounded"], ["easy-parallel", "futures-lite", "futures-core"],
                      "2018"),
}

# Tests that may fail, and why.
FAIL = {
    "crossbeam": {
        "array::panic_on_drop": "wants an item to leak if the drop of another one panics",
        "same_channel::never_same_channel": "wants two channels made by `never` to be one",
    },
    "flume": {
        "async::change_waker": "wants the item of a send that was dropped before it was done",
        "basic::recv_deadline": "wants a time limit to be kept within 5 ms, which a busy machine doesn't",
        "basic::recv_timeout": "the same",
        "basic::send_timeout": "the same",
        "async::parallel_async_receivers": "wants 100,000 items within 5 s, which queues of one place on a busy "
                                           "machine don't give",
        "stream::parallel_streams_and_async_recv": "the same",
    },
    "async_channel": {},
}
# Those of them that wait for ever: they aren't run, and count as failed.
WAITING = {"async::change_waker"}
# Files whose tests run one after another: one of golang counts the memory of its process, and three of basic have 5 ms.
SINGLE = {"golang", "basic"}


def package(room: Path, name: str, crate: Path) -> Path | None:
    """A package of the other channel's name over this crate, with the other channel's tests; None if it isn't
    installed."""
    other, files, wanted, edition = CHANNELS[name]
    needs = {need: features for need, *features in map(str.split, wanted)}
    found = sorted(REGISTRY.glob(f"{other}-[0-9]*"))
    needed = {need: sorted(REGISTRY.glob(f"{need}-[0-9]*")) for need in needs}
    missing = [need for need, there in {other: found, **needed}.items() if not there]
    if missing:
        print(f"other channels: {name}: SKIPPED: not in {REGISTRY}: {', '.join(missing)}")
        return None
    at = room / name
    (at / "src").mkdir(parents=True)
    (at / "tests").mkdir()
    shims = TOP / "tests" / "other_channels"
    shutil.copy(shims / f"{name}.rs", at / "src" / "lib.rs")
    shutil.copy(shims / "wrapped.rs", at / "src")
    for file in files:
        shutil.copy(found[-1] / "tests" / f"{file}.rs", at / "tests")
    lines = ["[package]", f'name = "{other}"', 'version = "0.0.0"', f'edition = "{edition}"', "[workspace]",
             "[dependencies]",
             f'vahepito = {{ path = "{crate}" }}',
             *[f'vahepito-futures = {{ path = "{crate}/futures" }}'] * ("futures" in needs),
             *(f'{need} = {{ version = "*", features = {json.dumps(features)} }}' for need, features in needs.items()),
             "[features]", 'default = ["async", "select", "std"]', "async = []", "select = []", "std = []",
             "[profile.dev]", "debug = false"]
    (at / "Cargo.toml").write_text("\n".join(lines) + "\n")
    return at


def run(at: Path, target: Path, name: str) -> tuple[set[str], set[str]]:
    """The tests that passed, and those that failed."""
    config = ["--config", 'source.crates-io.replace-with = "debian"', "--config",
              f'source.debian.directory = "{REGISTRY}"']
    passed, failed = set(), set()
    for file in CHANNELS[name][1]:
        waiting = {test for test in WAITING & set(FAIL[name]) if test.startswith(f"{file}::")}
        skips = [word for test in waiting for word in ("--skip", test.removeprefix(f"{file}::"))]
        options = ["--format", "pretty", "--exact", *skips, *["--test-threads=1"] * (file in SINGLE)]
        words = ["cargo", *config, "test", "--offline", "--quiet", "--test", file, "--", *options]
        done = subprocess.run(words, cwd=at, capture_output=True, text=True, timeout=900, env=environment(target))
        results = RESULT.findall(done.stdout)
        if not results or done.returncode and "FAILED" not in dict(results).values():
            print(f"other channels: {name}, {file}: {(done.stdout + done.stderr)[-3000:]}")
            failed.add(file)
        passed |= {f"{file}::{test}" for test, how in results if how == "ok"}
        failed |= waiting | {f"{file}::{test}" for test, how in results if how == "FAILED"}
    return passed, failed


def environment(target: Path) -> dict[str, str]:
    return {**os.environ, "CARGO_TARGET_DIR": str(target), "CARGO_TERM_COLOR": "never", "CARGO_INCREMENTAL": "0"}


def copies(room: Path) -> list[tuple[str, Path]]:
    """The crate as it is, and a copy in which each queue of a row has one place."""
    one = room / "one_place"
    shutil.copytree(TOP / "bindings" / "rust", one, ignore=shutil.ignore_patterns("target"))
    source = one / "src" / "channel" / "mod.rs"
    text = source.read_text()
    if SHAPE[0] not in text:
        sys.exit("other channels: src/channel/mod.rs has no such row of queues")
    source.write_text(text.replace(*SHAPE))
    return [("as it is", TOP / "bindings" / "rust"), ("queues of one place", one)]


def main() -> int:
    names = sys.argv[1:] or list(CHANNELS)
    if unknown := set(names) - set(CHANNELS):
        print(f"other channels: no such channel: {', '.join(sorted(unknown))}\n{__doc__}", file=sys.stderr)
        return 64
    wrong = ran = 0
    with tempfile.TemporaryDirectory() as folder:
        for which, crate in copies(Path(folder)):
            for name in names:
                room = Path(folder, which.replace(" ", "_"))
                at = package(room, name, crate)
                if at is None:
                    continue
                passed, failed = run(at, Path(folder, "target"), name)
                ran += 1
                print(f"other channels: {name}, {which}: {len(passed)} passed, {len(failed)} failed: "
                      f"{', '.join(sorted(failed)) or 'none'}")
                wrong += not failed <= set(FAIL[name])
    return 77 if not ran else 1 if wrong else 0


if __name__ == "__main__":
    sys.exit(main())
