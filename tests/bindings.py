#!/usr/bin/env python3
"""Tests what stands over the proved static library, with the archives in bindings/rust/lib: the programs in bindings/c
by make, the crate in bindings/rust by cargo, also with `--cfg vahepito_unproved`, and a copy of its folder and its
package in folders of their own; the first two again under valgrind and the sanitizers. All but the package and the copy
is done over the default archive, which is linked if nothing is said, and what threads do again over the strict one. The
package in bindings/rust/record, which has no library, is tested too. It needs no rt, writes into a folder of its own,
and fetches nothing.

    tests/bindings.py [--quick]

Steps run side by side, as many as there are processors. With --quick it leaves out valgrind, the sanitizers, the copy
and the package; makes a twentieth of the rounds of the long tests, or as many of a hundred as VAHEPITO_ROUNDS says;
does over the strict archive and with that cfg the tests by threads alone; gives the crate one archive of another
version; and uses what cargo has in the folder CARGO_TARGET_DIR, if that is set. Prints a line for each step. A step for
which something isn't on the machine is skipped, and its line says so. Exit status 0 if no step failed, 77 if none could
be done.
"""
import glob
import os
import pathlib
import re
import shutil
import subprocess
import sys
import tempfile

sys.dont_write_bytecode = True
import asked
from side_by_side import Command, Side, quiet_at_interrupt

TOP = pathlib.Path(__file__).resolve().parent.parent
RUST = TOP / "bindings/rust"
REGISTRY = "/usr/share/cargo/registry"
# Ends with status 1 if a command prints anything else than the first word.
PRINTS = '''printed=$("$@") || exit
[ "$printed" = "$0" ] || { echo "it printed '$printed' in place of '$0'"; exit 1; }'''
# For each archive of another version, beside which is a program that says which: the crate refuses it.
OTHERS = '''for archive in "$0"/c/*/libvahepito.a; do
    says=$(dirname "$archive")/version; [ -x "$says" ] || continue
    linked=$("$says" | sed 's/.*library \\([0-9]*\\),.*/\\1/')
    VAHEPITO_LINKED=$linked VAHEPITO_LIB=$archive "$@" || exit; seen=1; [ -z "$VAHEPITO_ROUNDS" ] || break
done; [ "$seen" ]'''
# Two tests look at how much memory the process has, which says nothing under another allocator. Of the rounds of the
# long tests a few are enough there.
FEWER = ["--skip", "frees_the_queue", "--skip", "cheap_in_memory"]


def said(*words):
    """What a command prints, or "" if it fails."""
    try:
        return subprocess.run(words, capture_output=True, text=True, check=True).stdout
    except (OSError, subprocess.CalledProcessError):
        return ""


class Steps:
    """The steps, in the order in which they are begun, and what was skipped."""

    def __init__(self, quick, room):
        self.quick, self.room, self.steps, self.left_out = quick, room, [], []
        # A machine with other work to do is slower: with a load of 25 on four processors a twentieth of the rounds of
        # the crate's tests took 285 s. So a step has its seconds three times, and once more for each whole unit of the
        # load of one processor.
        self.times = 3 + int(os.getloadavg()[0] / os.cpu_count())

    def add(self, name, *words, limit=300, after=(), folder=RUST, prints=None, at_once=False, **variables):
        if prints is not None:
            words = "bash", "-c", PRINTS, prints, *words
        words = ["timeout", str(limit * self.times), *map(str, words)]
        self.steps.append(Command(name, words, after=after, at_once=at_once, shares=True, folder=folder,
                                  variables={k: str(v) for k, v in variables.items()}))

    def skip(self, name, why):
        self.left_out.append(f"bindings: {name}: SKIPPED: {why}")

    def target(self, name):
        """The folder in which cargo compiles: several, so that no step waits for another one's lock."""
        kept = os.environ.get("CARGO_TARGET_DIR")
        return kept if self.quick and kept else self.room / name


def add_c(steps):
    """The programs in C."""
    if not shutil.which("make") or not shutil.which("cc"):
        return steps.skip("the programs in C", "make or cc is not on this machine")
    make = ["make", "-s", "-C", TOP / "bindings/c"]
    # Some parts of check-all share files, so these are made one by one.
    how = ["-Otarget", "check"] if steps.quick else ["-j1", "check-all"]
    steps.add("C", *make, *how, f"OUT={steps.room}/c", limit=3600, at_once=True)
    # The sanitizers see the programs alone, which are the same; and the searches over interleavings have a model of
    # the library.
    strict = ["check-version", "check-any_order", "check-hand_over", "check-waits"]
    if not steps.quick:
        names = said(*map(str, make), "names").split()
        strict = [name for name in names if not re.fullmatch("check-(row_)?interleavings", name)] + ["check-valgrind"]
    how = [] if steps.quick else ["-j1"]
    steps.add("C over the strict archive", *make, *how, *strict, "STRICT=yes", f"OUT={steps.room}/strict", limit=1800)


def add_searches(steps, cargo, bare):
    """The crate's own code in many schedules of a few threads, with a small queue in the place of the library."""
    flags = {"RUSTFLAGS": "--cfg vahepito_explore --cfg vahepito_unproved"}
    explored = {**flags, **bare, "CARGO_TARGET_DIR": steps.target("of_search"),
                "CARGO_PROFILE_TEST_OPT_LEVEL": 0 if steps.quick else 1}
    search = [*cargo, "test", "--test", "explore", "--"]
    two = "Rust: schedules with two preemptions"
    steps.add(two, *search, "bound=2", "samples=500", **explored)
    some = [*search, "bound=2", "samples=500", "buffers"]
    steps.add("Rust: the same with store buffers", *some, after=(two,), **explored)
    steps.add("Rust: the same once a call was parked", *some, "used", after=(two,), **explored)
    if not steps.quick:
        steps.add("Rust: all schedules with one preemption", *search, after=(two,), **explored)
        waiting = "Rust: all schedules with one preemption, or with one store that waits"
        steps.add(waiting, *search, "buffers", after=(two,), **explored)
        steps.add("Rust: the search of schedules finds each fault", TOP / "tests/explore.py", limit=600)


def add_crate(steps):
    """The crate, its examples, and the recorder. A debugger's lines are enough here: valgrind and the sanitizers print
    them. The tests with a feature and those of the package run under neither, and are compiled without them."""
    cargo = ["cargo", "--quiet", "--locked", "--offline"]
    rounds = lambda count: os.environ.get("VAHEPITO_ROUNDS", count)
    main = {"CARGO_TARGET_DIR": steps.target("target")}
    bare = {"CARGO_PROFILE_DEV_DEBUG": "none"}
    # The tests in src search for orders of many recorded calls. Optimized they take a third of the time, compiling
    # included.
    in_src = {**main, "CARGO_PROFILE_TEST_OPT_LEVEL": 0 if steps.quick else 1}
    chosen = ["--test", "threads", "--test", "hand_over"] if steps.quick else ["--tests"]
    lib = [*cargo, "test", "--lib"]
    steps.add("Rust: compiled", *cargo, "test", "--no-run", "--tests", **main)
    compiled = ("Rust: compiled",)
    steps.add("Rust: tests with the feature strict", *cargo, "test", *chosen, "--features", "strict", limit=600,
              CARGO_TARGET_DIR=steps.target("of_strict"), **bare, VAHEPITO_ROUNDS=rounds(25))
    of_unproved = {"CARGO_TARGET_DIR": steps.target("of_unproved"), "RUSTFLAGS": "--cfg vahepito_unproved"}
    locked = "Rust: tests with a lock in the place of the queue"
    steps.add(locked, *cargo, "test", *chosen, limit=600, **of_unproved, **bare, VAHEPITO_ROUNDS=rounds(5))
    add_searches(steps, cargo, bare)
    steps.add("Rust: tests in src", *lib, limit=600, after=compiled, **in_src)
    steps.add("Rust: tests beside src", *cargo, "test", "--test", "*", limit=600, after=compiled, **main)
    steps.add("Rust: tests in the documentation", *cargo, "test", "--doc", after=compiled, **main)
    logs = steps.room / "logs"
    logs.mkdir()
    steps.add("Rust: calls over tiny queues and rows are recorded", *lib, "judged", "--", "--ignored",
              after=("Rust: tests in src",), **in_src, VAHEPITO_LOGS=logs, VAHEPITO_ROUNDS=rounds(50))
    steps.add("Rust: the recorded calls are judged", TOP / "tests/judged_rows.py", logs,
              after=("Rust: calls over tiny queues and rows are recorded",))
    record = ["--manifest-path", "record/Cargo.toml"]
    of_record = {"CARGO_TARGET_DIR": steps.target("of_record")}
    steps.add("Rust: the recorder", *cargo, "test", *record, **of_record)
    steps.add("Rust: the recorder with stops", *cargo, "test", *record, "--all-features", "--lib",
              after=("Rust: the recorder",), **of_record)
    steps.add("Rust: that lock is warned of", "bash", "-c",
              "cargo check --locked --offline 2>&1 | grep 'warning: .* nothing is proved'", after=(locked,),
              **of_unproved)
    for example, prints in (("thread_pool", "9592 primes below 100000"), ("pipeline", "77031 takes 350 steps"),
                            ("tasks", "the sum of the squares up to 10000 is 333383335000"),
                            ("topics", "10000 orders in the archive, 100010000 in the accounts"),
                            ("log", "40000 events in the archive, 4000 alarms")):
        steps.add(f"Rust: the example {example}", *cargo, "run", "--example", example, prints=prints, after=compiled,
                  **main)
    if any(step.name == "C" for step in steps.steps):
        steps.add("Rust: archives of other versions are refused", "bash", "-c", OTHERS, steps.room, *cargo, "test",
                  "--test", "other_library", "--", "--ignored", after=("C",), CARGO_TARGET_DIR=steps.room / "others")


def add_tools(steps):
    """What reads the crate's code, and streams and sinks, whose dependencies are packages of Debian."""
    cargo = ["cargo", "--quiet", "--locked", "--offline"]
    steps.add("The instructions of calls", TOP / "tests/instructions.py", after=("Rust: compiled",),
              CARGO_TARGET_DIR=steps.target("target"))
    if said("cargo", "clippy", "--version"):
        of_clippy = {"CARGO_TARGET_DIR": steps.room / "of_clippy"}
        steps.add("Rust: clippy", *cargo, "clippy", "--all-targets", "--", "-D", "warnings", **of_clippy)
        steps.add("Rust: clippy on the recorder", *cargo, "clippy", "--manifest-path", "record/Cargo.toml",
                  "--all-features", "--all-targets", "--", "-D", "warnings", after=("Rust: clippy",), **of_clippy)
    else:
        steps.skip("Rust: clippy", "it is not on this machine")
    if not all(glob.glob(f"{REGISTRY}/futures-{name}-*") for name in ("core", "sink")):
        return steps.skip("Rust: streams and sinks",
                          "librust-futures-core-dev or librust-futures-sink-dev is not on this machine")
    futures = steps.room / "futures"
    shutil.copytree(RUST / "futures", futures)
    manifest = futures / "Cargo.toml"
    manifest.write_text(manifest.read_text().replace('path = ".."', f'path = "{RUST}"'))
    debian = ["cargo", "--config", 'source.crates-io.replace-with = "debian"', "--config",
              f'source.debian.directory = "{REGISTRY}"', "--quiet", "--offline"]
    own = {"CARGO_TARGET_DIR": steps.room / "of_futures"}
    steps.add("Rust: streams and sinks", *debian, "test", "--manifest-path", manifest, **own)
    # Its package needs the crate as a registry would have it.
    steps.add("Rust: the package of streams and sinks is made", *debian[:5], "--config",
              f'patch.crates-io.vahepito.path = "{RUST}"', *debian[5:], "package", "--no-verify", "--allow-dirty",
              "--manifest-path", manifest, after=("Rust: streams and sinks",), **own)


def add_memory(steps):
    """The crate under valgrind and the sanitizers. What the strict archive does the default one may do too. So the
    memory of the crate's own code is checked over the default one alone; the strict archive itself runs under valgrind
    with the programs in C. The examples of the documentation ran with the tests."""
    cargo = ["--quiet", "--locked", "--offline"]
    host = re.search(r"(?m)^host: (.*)", said("rustc", "-vV"))[1]
    if shutil.which("valgrind"):
        lost = "definite,indirect"
        under = {f"CARGO_TARGET_{host.upper().replace('-', '_')}_RUNNER":
                 f"valgrind -q --fair-sched=yes --error-exitcode=99 --leak-check=full --show-leak-kinds={lost} "
                 f"--errors-for-leak-kinds={lost}", "VAHEPITO_ROUNDS": 1, "CARGO_TARGET_DIR": steps.target("target")}
        steps.add("Rust: tests in src under valgrind", "cargo", *cargo, "test", "--lib", "--", *FEWER, limit=600,
                  after=("Rust: tests in src",), **under, CARGO_PROFILE_TEST_OPT_LEVEL=1)
        steps.add("Rust: tests beside src under valgrind", "cargo", *cargo, "test", "--test", "*", "--", *FEWER,
                  limit=600, after=("Rust: tests beside src",), **under)
    else:
        steps.skip("Rust: under valgrind", "valgrind is not on this machine")
    if not said("cargo", "+nightly", "--version"):
        return steps.skip("Rust: the sanitizers", "there is no nightly cargo on this machine")
    nightly = ["cargo", "+nightly", *cargo, "test", "--target", host]
    steps.add("Rust: sanitizer address", *nightly, "--tests", "--", *FEWER, limit=600, VAHEPITO_ROUNDS=5,
              RUSTFLAGS="-Zsanitizer=address", CARGO_TARGET_DIR=steps.room / "address")
    # Its std isn't built for this sanitizer, which so reports the test runner's own channel.
    thread = "-Zsanitizer=thread -Cunsafe-allow-abi-mismatch=sanitizer --cfg vahepito_tsan"
    (steps.room / "of_the_runner").write_text("race:std::sync::mpmc::list::Channel<test::event::CompletedTest>\n")
    (steps.room / "probe.rs").write_text("fn main() {}\n")
    probe = steps.room / "probe"
    if subprocess.run(["bash", "-c", 'rustc +nightly $0 -o "$1" "$1.rs" && "$1"', thread, probe],
                      capture_output=True, check=False).returncode != 0:
        return steps.skip("Rust: sanitizer thread", "the nightly compiler has none that runs here")
    for feature in ("", "strict"):
        steps.add(f"Rust: sanitizer thread{feature and ', strict'}", *nightly, "--features", feature, "--test",
                  "hand_over", "--", "--test-threads=1", RUSTFLAGS=thread, CARGO_TARGET_DIR=steps.room / "thread",
                  TSAN_OPTIONS=f"suppressions={steps.room}/of_the_runner")
    return None


def main_of(path):
    """The main that a README shows, with the lines that it uses, from the margin on."""
    margin, lines = None, []
    for line in path.read_text().splitlines():
        begun = re.match(r"( *)fn main\(\) ->", line)
        if begun:
            margin = begun[1]
        if margin is not None or re.fullmatch("use .*;", line):
            lines.append(line[len(margin or ""):])
        if margin is not None and line == margin + "}":
            return "\n".join(lines) + "\n"
    return None


def add_copies(steps):
    """The crate as a stranger has it: a copy of its folder, its package, and the repository as a dependency by git."""
    cargo, room = ["cargo", "--quiet", "--locked", "--offline"], steps.room
    copy, repository = room / "copy", room / "repository"
    shutil.copytree(RUST, copy, ignore=shutil.ignore_patterns("target"))
    shutil.copytree(copy, repository / "bindings/rust")
    git = "git init -q . && git add . && git -c user.name=test -c user.email=test@localhost commit -qm bindings"
    steps.add("Rust: a repository has the crate", "bash", "-c", git, folder=repository)
    version = re.search(r'(?m)^version = "(.*)"', (RUST / "Cargo.toml").read_text())[1]
    package, own = room / f"vahepito-{version}", {"CARGO_TARGET_DIR": room / "packed"}
    steps.add("Rust: the package is made, and compiles", *cargo, "package", "--allow-dirty", **own)
    made = ("Rust: the package is made, and compiles",)
    # So the tests of the one are those of the other.
    same = '''tar xzf "$0/packed/package/$1.crate" -C "$0" || exit
        for it in build.rs src tests examples lib README.md; do diff -r "$0/copy/$it" "$0/$1/$it" || exit; done'''
    steps.add("Rust: the package has what the copy has", "bash", "-c", same, room, package.name, after=made)
    there = ("Rust: the package has what the copy has",)
    own = {"CARGO_TARGET_DIR": room / "of_package", "CARGO_PROFILE_DEV_DEBUG": "none"}
    manifest = ["--manifest-path", package / "Cargo.toml"]
    steps.add("Rust: the tests of the package", "cargo", "test", *manifest, "--tests", *cargo[1:], limit=600,
              after=there, VAHEPITO_ROUNDS=1, **own)
    if said("cargo", "clippy", "--version"):
        steps.add("Rust: clippy on the package", "cargo", "clippy", "--quiet", "--offline", "--all-targets", *manifest,
                  "--", "-D", "warnings", after=there, **own)
    sources = {"package": f"path = '{package}'", "within": "path = 'within'", "copy": f"path = '{copy}'",
               "git": f"git = 'file://{repository}'"}
    before = (*there, "Rust: a repository has the crate")
    for name, source in sources.items():
        # Each has a program of its own name, since they share a folder for what is built and run side by side.
        for kind, path, prints in (("crate", RUST / "README.md", "\n".join(f"line {k}" for k in range(10))),
                                   ("top", TOP / "README.md", "the sum is 20200")):
            trial = room / f"trial_{name}_{kind}"
            (trial / "src").mkdir(parents=True)
            (trial / "src/main.rs").write_text(main_of(path))
            (trial / "Cargo.toml").write_text(f'[package]\nname = "{trial.name}"\nedition = "2021"\n\n[dependencies]\n'
                                              f"vahepito = {{ {source} }}\n\n[workspace]\n")
            if name == "within":
                (trial / "within").symlink_to(package)
            step = f"Rust: the main of {path.relative_to(TOP)}, by {source.replace(f'{room}/', '')}"
            steps.add(step, "cargo", "run", "--quiet", folder=trial, prints=prints, after=before, **own)
    # The last of these, by git, again from what cargo has vendored.
    vendored = "mkdir .cargo && cargo vendor --offline >.cargo/config.toml && cargo build -vv --offline 2>&1 | " \
        "grep 'links .*/vendor/vahepito/lib/'"
    steps.add("Rust: the dependency by git, vendored", "bash", "-c", vendored, folder=trial, after=(step,),
              CARGO_TARGET_DIR=room / "of_vendored")
    refused = '''! cargo check --offline --target riscv64gc-unknown-linux-gnu 2>"$0" &&
        grep -F 'cfg vahepito_unproved' "$0" &&
        grep -F 'x86_64-unknown-linux-gnu and aarch64-unknown-linux-gnu alone, and the target is riscv' "$0"'''
    steps.add("Rust: another target is refused", "bash", "-c", refused, room / "said", folder=copy, **own)


def ended(step):
    """What is said of a step that has ended; and whether it failed."""
    took = f"{step.end - step.start:.0f} s"
    if step.status == 77 and step.skipped():
        return "\n".join(step.skipped()), False
    if step.status == 0:
        return f"bindings: {step.name}: passed ({took})", False
    why = f"stopped after {took}; the load is {os.getloadavg()}" if step.status == 124 else f"status {step.status}"
    if step.at_once:
        return f"bindings: {step.name}: FAILED ({why})", True
    return "\n".join([f"bindings: {step.name}: FAILED ({why}); its last lines:", *step.said.splitlines()[-60:]]), True


def main(words):
    if words not in ([], ["--quick"]):
        print("usage: tests/bindings.py [--quick]", file=sys.stderr)
        return 64
    quiet_at_interrupt()
    for name in ("VAHEPITO_LIB", "VAHEPITO_HEAP"):
        os.environ.pop(name, None)
    # Nothing is compiled a second time after a change, so what cargo would keep for that isn't made.
    os.environ |= {"CARGO_TERM_COLOR": "never", "CARGO_INCREMENTAL": "0", "CARGO_PROFILE_DEV_DEBUG": "line-tables-only"}
    if words:
        # Without valgrind and the rest no lines are needed.
        os.environ |= {"VAHEPITO_ROUNDS": os.environ.get("VAHEPITO_ROUNDS", "5"), "CARGO_PROFILE_DEV_DEBUG": "none"}
    with tempfile.TemporaryDirectory() as room:
        steps, failed = Steps(bool(words), pathlib.Path(room)), 0
        add_c(steps)
        if said("cargo", "--version"):
            for add in (add_crate, *((add_tools, add_memory, add_copies) if not words else ())):
                add(steps)
        else:
            steps.skip("the crate in Rust", "cargo is not on this machine")
        side = Side(steps.steps)
        side.say("\n".join(steps.left_out))
        for step in side.run():
            text, has_failed = ended(step)
            side.say(text)
            failed += has_failed
    if failed:
        print(f"bindings: {failed} steps failed")
    return 1 if failed else 0 if steps.steps else 77


if __name__ == "__main__":
    sys.exit(main(sys.argv[1:]))
