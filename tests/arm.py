#!/usr/bin/env python3
"""Tests the library for aarch64 on another machine, by qemu-user: what `make check` of bindings/c does, as a cross
compiler builds it, and the crate in bindings/rust by plain cargo: its tests, its examples, the programs of its
documents, and a crate outside of the tree.

    tests/arm.py [--quick]

With --quick it does eight of the programs in C, in half a minute. Without, all parts of `make check` by gcc and by
clang, the library from an installed copy, and the crate.

What runs so shows that the code is right, and nothing of a weak memory: the processor below orders more than aarch64
does. qemu keeps memory for each thread that was. A program without a queue shows how much; if that is more than a test
of the crate allows for its thousand threads, this test is left out, and a line says so.

It needs make, qemu-aarch64, aarch64-linux-gnu-gcc and Debian's libc6-dev-arm64-cross. The crate needs a rustc that has
std for the target: by `rustup target add aarch64-unknown-linux-gnu`, or on Debian 12 by `dpkg --add-architecture
arm64`, `apt-get update` and `apt-get install cargo-web libstd-rust-web-dev:arm64`. RUSTC and RUSTDOC may name another
rustc, and CARGO_TARGET_DIR a folder that keeps what cargo builds. What is missing is skipped, and a line says so. All
else is written into a folder for temporary files. Exit status 0 if no step failed, 77 if none could be done.
"""
import glob
import os
import pathlib
import re
import shutil
import subprocess
import sys
import tempfile
import time

sys.dont_write_bytecode = True
import asked

TOP = pathlib.Path(__file__).resolve().parent.parent
TARGET, QEMU = "aarch64-unknown-linux-gnu", "qemu-aarch64 -L /usr/aarch64-linux-gnu"
GCC, CLANG = "aarch64-linux-gnu-gcc", "clang --target=aarch64-linux-gnu"
QUICK = ["version", "headers", "refusals", "words", "orders", "hand_over", "any_order", "memory"]
LIMIT = 3600  # seconds by the clock for a step, on a machine that others use too
# What the examples of the crate print.
EXAMPLES = {
    "pipeline": "77031 takes 350 steps",
    "thread_pool": "9592 primes below 100000",
    "tasks": "the sum of the squares up to 10000 is 333383335000",
    "log": "40000 events in the archive, 4000 alarms",
}
# A thousand threads, one after another, and no queue: by how many pages the process grows. The test of the crate allows
# 20,000.
THREADS = r"""#include <pthread.h>
#include <stdio.h>
static void *nothing(void *at) { return at; }
static long resident(void) {
    long all, pages = 0;
    FILE *file = fopen("/proc/self/statm", "r");
    if (!file || fscanf(file, "%ld %ld", &all, &pages) != 2) return -1;
    fclose(file);
    return pages;
}
int main(void) {
    const long before = resident();
    pthread_t thread;
    for (int k = 0; k < 1000; k++)
        if (pthread_create(&thread, NULL, nothing, NULL) || pthread_join(thread, NULL)) return 1;
    printf("%ld\n", resident() - before);
    return 0;
}
"""
ALLOWED, LEFT_OUT = 20_000, "the_last_handle_frees_the_queue"
failed, done = [], []


def skip(name, why):
    print(f"arm: {name}: SKIPPED: {why}", flush=True)


def step(name, command, due="", printed=None, folder=".", **more):
    """Does a command. It may have to print just this, or to say this line among others; what it said is shown if it
    fails."""
    start = time.monotonic()
    try:
        ran = subprocess.run(command, cwd=TOP / folder, env={**os.environ, **more}, capture_output=True, text=True,
                             timeout=LIMIT)
        said = ran.stdout + ran.stderr
        is_right = ran.returncode == 0 and due in said and printed in (None, ran.stdout.strip())
    except subprocess.TimeoutExpired:
        is_right, said = False, f"it took more than {LIMIT} s"
    done.append(name)
    print(f"arm: {name}: {'passed' if is_right else 'FAILED'} ({time.monotonic() - start:.0f} s)", flush=True)
    for line in said.splitlines():
        if is_right and re.match(r"test result: ok\. [1-9]|C: .*SKIPPED", line):
            print(f"    {line}", flush=True)
    if not is_right:
        failed.append(name)
        print("\n".join(said.splitlines()[-40:]))


def in_c(parts, compiler, room, cxx="none"):
    """Parts of `make check`, each a step."""
    words = [f"CC={compiler}", f"CXX={cxx}", f"RUN={QEMU}", f"OUT={room}/{compiler.split()[0]}"]
    made = ["make", "-s", "-C", "bindings/c", *words]
    if not parts:
        parts = subprocess.run([*made, "names"], cwd=TOP, capture_output=True, text=True, check=True).stdout.split()
        parts.append("check-installed")
    for part in parts:
        step(f"C: {part.removeprefix('check-')}, by {compiler.split()[0]}", [*made, part])


def all_in_c(room):
    """All parts of `make check`, by each compiler of the machine."""
    has_cxx = shutil.which("aarch64-linux-gnu-g++")
    if not has_cxx:
        skip("C++: queue", "aarch64-linux-gnu-g++ is not on this machine")
    in_c([], GCC, room, "aarch64-linux-gnu-g++" if has_cxx else "none")
    if shutil.which("clang"):
        in_c([], CLANG, room)
    else:
        skip("C, by clang", "clang is not on this machine")


def left_out(room):
    """The words by which cargo leaves the one test out, if qemu's own memory of threads is more than it allows."""
    pathlib.Path(room, "threads.c").write_text(THREADS)
    subprocess.run([GCC, "-O2", "-Wall", "-Wextra", "-Werror", f"{room}/threads.c", "-pthread", "-o",
                    f"{room}/threads"], check=True)
    grown = int(subprocess.run([*QEMU.split(), f"{room}/threads"], capture_output=True, text=True, check=True).stdout)
    if grown <= ALLOWED:
        return []
    skip(f"Rust: {LEFT_OUT}", f"by qemu a program in C without a queue grows by {grown} pages with its 1,000 threads; "
                              f"the test allows {ALLOWED}")
    return ["--skip", LEFT_OUT]


def outside(room, words, more):
    """A crate outside of the tree, with the main of README."""
    readme = (TOP / "README.md").read_text()
    source = re.search(r"^```rust\n(fn main.*?)^```$", readme, re.M | re.S)[1]
    subprocess.run(["cargo", "new", "--quiet", "--vcs", "none", f"{room}/trial"], check=True, capture_output=True)
    pathlib.Path(room, "trial/src/main.rs").write_text(source)
    add = ["cargo", "add", "--quiet", "--offline", "vahepito", "--path", str(TOP / "bindings/rust")]
    step("Rust: a crate outside of the tree adds it", add, folder=f"{room}/trial", **more)
    # In a folder of its own, so that the crate's build script runs, and says what it links.
    more = {**more, "CARGO_TARGET_DIR": f"{room}/of_trial"}
    links = f"links {TOP}/bindings/rust/lib/{TARGET}/libvahepito_strict.a"
    step("Rust: which links the archive of its target", ["cargo", "build", "-vv", *words], links,
         folder=f"{room}/trial", **more)
    step("Rust: and runs", ["cargo", "run", "--quiet", *words], printed="the sum is 20200", folder=f"{room}/trial",
         **more)


def crate(room):
    """The tests of the crate, its examples, and a crate that depends on it."""
    rustc = os.environ.get("RUSTC", "rustc")
    ask = [rustc, "--print", "target-libdir", "--target", TARGET]
    is_there = shutil.which(rustc) and shutil.which("cargo")
    std = subprocess.run(ask, capture_output=True, text=True).stdout.strip() if is_there else ""
    if not std or not glob.glob(f"{std}/libstd-*"):
        return skip("the crate",
                    "no rustc on this machine has std for that target; the head of tests/arm.py says how to get it")
    words = ["--offline", "--target", TARGET]
    own = ["--quiet", "--locked", *words]
    front = "CARGO_TARGET_" + TARGET.upper().replace("-", "_")
    more = {"CARGO_TERM_COLOR": "never", "CARGO_INCREMENTAL": "0", "CARGO_PROFILE_DEV_DEBUG": "none",
            "VAHEPITO_ROUNDS": "5"}
    more |= {f"{front}_LINKER": GCC, f"{front}_RUNNER": QEMU,
             "CARGO_TARGET_DIR": os.environ.get("CARGO_TARGET_DIR", f"{room}/target")}
    outside(room, words, more)
    for name, printed in EXAMPLES.items():
        step(f"Rust: the example {name}", ["cargo", "run", *own, "--example", name], printed=printed,
             folder="bindings/rust", **more)
    test = ["cargo", "test", *own, "--no-fail-fast"]
    step("Rust: tests", [*test, "--lib", "--tests", "--", *left_out(room)], folder="bindings/rust", **more)
    step("Rust: the programs of its documents", [*test, "--doc"], folder="bindings/rust", **more)
    # An archive of version 999, which check-others has made.
    more |= {"VAHEPITO_LIB": f"{room}/{GCC}/older/libvahepito.a", "VAHEPITO_LINKED": "999",
             "CARGO_TARGET_DIR": f"{room}/of_other"}
    step("Rust: an archive of another version is refused", [*test, "--test", "other_library", "--", "--ignored"],
         folder="bindings/rust", **more)


def main():
    if sys.argv[1:] not in ([], ["--quick"]):
        print("usage: tests/arm.py [--quick]", file=sys.stderr)
        return 64
    for program in ("make", GCC, QEMU.split()[0]):
        if not shutil.which(program):
            skip("programs on aarch64", f"{program} is not on this machine")
            return 77
    for name in ("VAHEPITO_LIB", "VAHEPITO_HEAP"):
        os.environ.pop(name, None)
    with tempfile.TemporaryDirectory() as room:
        if sys.argv[1:]:
            in_c([f"check-{name}" for name in QUICK], GCC, room)
        else:
            all_in_c(room)
            crate(room)
    spent = os.times()
    minutes = (spent.children_user + spent.children_system) / 60
    print(f"arm: {len(done)} steps, {len(failed)} failed, in {minutes:.1f} processor minutes")
    return bool(failed)


if __name__ == "__main__":
    sys.exit(main())
