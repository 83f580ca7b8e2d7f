#!/usr/bin/env python3
"""Counts the instructions of calls of the crate and of the C library, and holds each count to a limit.

    tests/instructions.py [--print]

Time differs from machine to machine, and the number of instructions doesn't. A program makes the same calls some
hundred times under valgrind's callgrind, and then twice as often; the difference of both counts, divided by the calls,
is what one costs. So opening, closing and the start of the program don't count, but in the rows of openings. The limits
are the counts of docs/BENCH.md, plus a hundredth, since another compiler writes other code of the crate. --print prints
the counts alone.

One thread makes all calls. The C program is linked with the archives that bindings/c links. The exit status
is 0 if no count is above its limit, and 77 without valgrind, cargo or cc, where nothing is counted.
"""
import functools
import os
import re
import shutil
import subprocess
import sys
import tempfile

sys.dont_write_bytecode = True
import asked

TOP = os.path.dirname(os.path.dirname(os.path.abspath(__file__)))
CALLS = 300

# What the crate's user writes, and the most instructions that it may cost.
IN_RUST = {
    "send and recv of a word": ("let (s, r) = channel::<u64>(64)?;", "s.send(i).unwrap(); assert_eq!(r.recv(), Ok(i));",
                                645),
    "try_send and try_recv of a word": ("let (s, r) = channel::<u64>(64)?;",
                                        "s.try_send(i).unwrap(); assert_eq!(r.try_recv(), Ok(i));", 669),
    "four words": ("let (s, r) = channel::<[u64; 4]>(64)?;",
                   "s.send([i; 4]).unwrap(); assert_eq!(r.recv(), Ok([i; 4]));", 1008),
    "two groups": ("let (s, r) = groups::<u64>(64, 2)?;",
                   "s.send(i).unwrap(); for r in &r { assert_eq!(r.recv(), Ok(i)); }", 1265),
    "a refused try_send": ("let (s, _r) = channel::<u64>(1)?; s.send(0).unwrap();", "assert!(s.try_send(i).is_err());",
                           139),
    "the same with 4,096 places": (
        "let (s, _r) = channel::<u64>(4096)?; (0..4096).for_each(|i| s.send(i).unwrap());",
        "assert!(s.try_send(i).is_err());", 187,
    ),
    "an empty try_recv": ("let (_s, r) = channel::<u64>(64)?;", "assert!(r.try_recv().is_err() && i < calls);", 57),
    "send, and a select that takes": (
        "let (s, r) = channel::<u64>(64)?;", "s.send(i).unwrap(); select! { recv(r) -> it => assert_eq!(it, Ok(i)) }",
        822,
    ),
    "a select that sends, and recv": (
        "let (s, r) = channel::<u64>(64)?;", "select! { send(s, i) -> it => it.unwrap() } assert_eq!(r.recv(), Ok(i));",
        1046,
    ),
    "a select of two takes in vain": (
        "let ((_s, r), (_t, q)) = (channel::<u64>(64)?, channel::<u64>(64)?);",
        "select! { recv(r) -> _ => panic!(), recv(q) -> _ => panic!(), default => assert!(i < calls) }", 538,
    ),
    "after and its drop": ("", "let r = after(std::time::Duration::from_secs(100)); assert!(r.len() as u64 <= i);",
                           397),
    "never and its drop": ("", "let r = never::<u64>(); assert!(r.len() as u64 <= i);", 293),
}
# Openings with a pair and the drop, in a program of their own: what the compiler inlines into `main` changes with its
# rows.
OPENINGS = {
    f"an opening for {name}, a pair and the drop": ("",
                                                    f"let (s, r) = channel::<u64>({places})?; s.send(i).unwrap(); "
                                                    f"assert_eq!(r.recv(), Ok(i));", limit)
    for name, places, limit in (("one item", 1, 10574), ("64 items", 64, 19634))
}
# The same pair with a bound and without one, in a program of their own too. By the limits the second one costs at most
# a twentieth more.
BOUNDS = {
    f"send and recv of a word, {name}": (f"let (s, r) = {opening}?;",
                                         "s.send(i).unwrap(); assert_eq!(r.recv(), Ok(i));", limit)
    for name, opening, limit in (("capacity 64", "channel::<u64>(64)", 645),
                                 ("without a bound", "try_unbounded::<u64>()", 679))
}
# Futures that are ready at their first poll, in a program of their own too.
CONTEXT = "let context = &mut std::task::Context::from_waker(std::task::Waker::noop());"
FUTURES = {
    "a try_send, and a ready recv_async": (
        f"let (s, r) = channel::<u64>(64)?; {CONTEXT}",
        "s.try_send(i).unwrap(); assert_eq!(std::pin::pin!(r.recv_async()).poll(context), "
        "std::task::Poll::Ready(Ok(i)));", 816,
    ),
    "a ready send_async, and a try_recv": (
        f"let (s, r) = channel::<u64>(64)?; {CONTEXT}",
        "assert!(std::pin::pin!(s.send_async(i)).poll(context).is_ready()); assert_eq!(r.try_recv(), Ok(i));", 757,
    ),
}
# A batch, in a program of its own too: by the limit an item of it costs at most 0.93 of a pair.
BATCHES = {
    "send_many and recv_many of 64 words": (
        "let (s, r) = channel::<u64>(64)?; let (mut some, mut all) = (std::collections::VecDeque::new(), vec![]);",
        "some.extend(i..i + 64); s.send_many(&mut some).unwrap(); assert_eq!(r.recv_many(&mut all, 64), 64); "
        "all.clear();",
        37848,
    ),
}
# The pairs of the program in C: by handles, as the Rust crate makes them, and the calls that wait, which take a seat
# and make a call by its handle. The last number is how many of these may be locked: two exchanges of a tail, a mark,
# and an addition; and for each call that waits one, by which it takes a seat.
IN_C = {
    "vahepito_try_send and vahepito_try_take": ("handles", 498, 4),
    "vahepito_send and vahepito_take": ("waits", 644, 6),
    "the same by the twentieth thread, with 8 places": ("few", 644, 6),
}
RUST = """#![allow(unused_imports)]
use vahepito::{after, channel, groups, never, select, try_unbounded};

fn main() -> Result<(), Box<dyn std::error::Error>> {
    let args: Vec<String> = std::env::args().collect();
    let calls: u64 = args[2].parse()?;
    match args[1].as_str() {
        %s
        _ => panic!("no such calls"),
    }
    Ok(())
}
"""
C = """#include "handles.h"
#include <pthread.h>
#include <stdlib.h>

static const vahepito_config config = {1, 1, 64, 64, 1000000, 1000000};

static int by_handles(uint64_t calls) {
    vahepito_handle sender = VAHEPITO_HANDLE_EMPTY, receiver = VAHEPITO_HANDLE_EMPTY;
    if (vahepito_open_words(&config, 1, 1, &sender, 1, &receiver, 1) != VAHEPITO_DONE) return 1;
    for (uint64_t i = 0; i < calls; i++) {
        uint64_t place, total;
        uint32_t served;
        vahepito_word_item item;
        if (vahepito_try_send(&sender, i, &place, &served) != VAHEPITO_ACCEPTED) return 2;
        if (vahepito_try_take(&receiver, &item, &total, &served) != VAHEPITO_GOT || item.body != i) return 3;
    }
    return 0;
}

static vahepito_queue *queue;

static int by_waits(uint64_t calls) {
    if (!queue && !(queue = vahepito_create(64))) return 1;
    for (uint64_t i = 0; i < calls; i++) {
        vahepito_item item;
        if (vahepito_send(queue, i, NULL) != VAHEPITO_ACCEPTED) return 2;
        if (vahepito_take(queue, 1, &item, NULL) != VAHEPITO_GOT || item.words[0] != i) return 3;
    }
    return 0;
}

static void *in_thread(void *calls) {
    if (by_waits(*(uint64_t *)calls) != 0) exit(5);
    return NULL;
}

static int by_few(uint64_t calls) {
    vahepito_attributes attributes = VAHEPITO_ATTRIBUTES;
    uint64_t one = 1;
    attributes.places = 8;
    if (vahepito_create_as(&attributes, &queue) != VAHEPITO_DONE) return 1;
    for (int number = 1; number <= 20; number++) {
        pthread_t thread;
        if (pthread_create(&thread, NULL, in_thread, number == 20 ? &calls : &one)) return 2;
        if (pthread_join(thread, NULL)) return 2;
    }
    return 0;
}

int main(int count, char **args) {
    if (count != 3) return 4;
    return (args[1][0] == 'h' ? by_handles : args[1][0] == 'f' ? by_few : by_waits)(strtoull(args[2], NULL, 10));
}
"""


def archives():
    """The library that bindings/c links, and the heap for it."""
    where = {folder for folder, _, names in os.walk(os.path.join(TOP, "bindings")) if "libvahepito.a" in names}
    folder = next(folder for folder in where if os.path.join("lib", "x86_64-unknown-linux-gnu") in folder)
    return [os.path.join(folder, name) for name in ("libvahepito.a", "libvahepito_heap.a")]


def build_rust(room, part, rows):
    """The program of this name, with a mode for each of these rows. The crate is compiled once for all programs."""
    folder = os.path.join(room, part)
    arms = "\n        ".join(f'"{name}" => {{ {opening} for i in 0..calls {{ {calls} }} }}'
                             for name, (opening, calls, _) in rows.items())
    os.makedirs(os.path.join(folder, "src"))
    with open(os.path.join(folder, "src", "main.rs"), "w") as file:
        file.write(RUST % arms)
    with open(os.path.join(folder, "Cargo.toml"), "w") as file:
        file.write(f'[package]\nname = "{part}"\nversion = "0.1.0"\nedition = "2024"\n\n[workspace]\n\n[dependencies]\n'
                   f'vahepito = {{ path = "{TOP}/bindings/rust" }}\n')
    target = os.path.join(room, "target")
    subprocess.run(["cargo", "build", "--quiet", "--release", "--offline", "--target-dir", target], cwd=folder,
                   check=True)
    return os.path.join(target, "release", part)


def build_c(room):
    """The program with the pairs of IN_C."""
    source, program = os.path.join(room, "pair.c"), os.path.join(room, "pair")
    with open(source, "w") as file:
        file.write(C)
    subprocess.run(["cc", "-O2", "-no-pie", "-I", f"{TOP}/bindings/c", source, f"{TOP}/bindings/c/vahepito_queue.c",
                    *archives(), "-pthread", "-o", program], check=True)
    return program


@functools.cache
def locked_in(program):
    """The addresses of its locked instructions."""
    told = subprocess.run(["objdump", "-d", "-M", "intel", "--no-show-raw-insn", program], capture_output=True,
                          text=True, check=True).stdout
    return {int(at, 16) for at, _ in re.findall(r"^ *([0-9a-f]+):\t(lock |mfence|xchg [^\n]*\[)", told, re.M)}


def instructions(command, room, wants_locked):
    """How many instructions a run of this program executes, and if it is asked how many locked ones of its own, for
    which it has fixed addresses."""
    out = os.path.join(room, "counts")
    by_address = ["--dump-instr=yes", "--compress-pos=no"] if wants_locked else []
    counted = ["valgrind", "--tool=callgrind", *by_address, f"--callgrind-out-file={out}", *command]
    done = subprocess.run(counted, capture_output=True, text=True, check=True)
    counts = [int(re.search(r"Collected : (\d+)", done.stderr)[1])]
    if wants_locked:
        with open(out) as file:
            # A line behind `calls=` has what was called, and no cost of its own.
            costs = re.findall(r"^0x([0-9a-f]+) \d+ (\d+)$", re.sub(r"^calls=.*\n.*\n", "", file.read(), flags=re.M),
                               re.M)
        counts.append(sum(int(cost) for at, cost in costs if int(at, 16) in locked_in(command[0])))
    return counts


def main():
    missing = [name for name in ("valgrind", "cargo", "cc") if not shutil.which(name)]
    if missing:
        print(f"instructions: SKIPPED: this machine has no {' and no '.join(missing)}")
        return 77
    with tempfile.TemporaryDirectory() as room:
        c, rows = build_c(room), []
        for part, of_part in (("calls", IN_RUST), ("openings", OPENINGS), ("bounds", BOUNDS), ("futures", FUTURES),
                              ("batches", BATCHES)):
            rust = build_rust(room, part, of_part)
            rows += [(name, [rust, name], [limit]) for name, (_, _, limit) in of_part.items()]
        rows += [(name, [c, mode], limits) for name, (mode, *limits) in IN_C.items()]
        counts = []
        for name, run, limits in rows:
            twice, once = (instructions([*run, str(calls)], room, len(limits) > 1) for calls in (2 * CALLS, CALLS))
            differences = [(more - less) / CALLS for more, less in zip(twice, once)]
            counts += zip([name, f"locked in {name}"], differences, limits)
    for name, count, limit in counts:
        above = "" if count <= limit or "--print" in sys.argv else f": ABOVE ITS LIMIT OF {limit}"
        print(f"instructions: {name}: {count:.0f}{above}")
    return int("--print" not in sys.argv and any(count > limit for _, count, limit in counts))


if __name__ == "__main__":
    sys.exit(main())
