#!/usr/bin/env python3
"""Tests tools/release_stores.py: it makes the due text of a module, and refuses modules whose stores it can't know.

    tests/release_stores.py

- Of the small module below comes the text that is due.
- WRONG has changes of that module. Each is refused, and nothing is written.
- The lines in which the library's own module becomes another text are these: two calls, the copy of the one atomic
store, which is a release
  store, and the body of the fence.

Exit status 0 if no case failed.
"""
import collections
import lzma
import pathlib
import subprocess
import sys

sys.dont_write_bytecode = True
import asked

TOP = pathlib.Path(__file__).resolve().parent.parent
TOOL = TOP / "tools/release_stores.py"
MODULE = TOP / "bindings/rust/lib/x86_64-unknown-linux-gnu/module.ll.xz"


def function(name: str, *lines: str, parameters: str = "ptr noundef %a0") -> str:
    return "\n".join([f'define internal void @"{name}"({parameters}) #0 {{', "start:", *(f"  {line}" for line in lines),
                      "  ret void", "}", "", ""])


RAW, RELEASE = "core::raw_atomic::store::<#5>", "core::raw_atomic::store::<#5>.release"
CALL, TO_RELEASE = f'call void @"{RAW}"(ptr %a0)', f'call void @"{RELEASE}"(ptr %a0)'
BARRIER = 'call void asm sideeffect "", "~{memory}"()'
STORE = f"{BARRIER}\n  store atomic i64 1, ptr %a0 seq_cst, align 8\n  {BARRIER}"
KINDS = {"cc_steps::operations::store": "1", "cc_steps::operations::store_release": "2",
         "cc_steps::operations::begin_with::<#7>": "3"}


def instance(number: str) -> str:
    return f"atomic_table::shared::Shared::store::<#{number}>"


def calls(number: str) -> str:
    return f'call void @"{instance(number)}"(ptr %a0)'


STEPS = {name: function(name, calls(number)) for name, number in KINDS.items()}
STORES = {number: function(instance(number), CALL) for number in KINDS.values()}
FENCE = function("core::atomic::fence", parameters="i8 noundef %a0")
PARTS = [*STEPS.values(), *STORES.values(), function(RAW, STORE), FENCE]
SMALL = "".join(PARTS)
DUE = "".join([*STEPS.values(), STORES["1"], *(STORES[number].replace(CALL, TO_RELEASE) for number in "23")])
DUE += function(RAW, STORE) + function(RELEASE, STORE.replace("seq_cst", "release")) + FENCE.replace("start:\n",
    "start:\n  fence seq_cst\n")

WRONG = {
    "no function of early stores": SMALL.replace(STEPS["cc_steps::operations::store_release"], ""),
    "no function of first stores": SMALL.replace(STEPS["cc_steps::operations::begin_with::<#7>"], ""),
    "two functions of one name": SMALL + STEPS["cc_steps::operations::store_release"],
    "two functions of one name, for two types": SMALL
    + STEPS["cc_steps::operations::begin_with::<#7>"].replace("#7", "#8"),
    "a second atomic store in the module": SMALL + function("other", STORE),
    "a second atomic store beside the first": SMALL.replace(f"  {STORE}\n", f"  {STORE}\n  {STORE}\n"),
    "a store without a barrier before it": SMALL.replace(f"  {BARRIER}\n  store", "  store"),
    "a store without a barrier behind it": SMALL.replace(f"align 8\n  {BARRIER}\n", "align 8\n"),
    "a store that isn't seq_cst": SMALL.replace("seq_cst", "monotonic"),
    "a store of another size": SMALL.replace("store atomic i64", "store atomic i32"),
    "two stores in a step": SMALL.replace(calls("2"), calls("2") + "\n  " + calls("2")),
    "a store of marks and an early one in a step": SMALL.replace(calls("2"), calls("2") + "\n  " + calls("1")),
    "an early store that is one of marks too": SMALL.replace(calls("2"), calls("1")),
    "an early store that another function makes too": SMALL + function("other", calls("3")),
    "an early store to which a pointer leads": SMALL + f'@table = constant ptr @"{instance("2")}"\n',
    "both early stores are one": SMALL.replace(calls("3"), calls("2")).replace(STORES["3"], ""),
    "an early store that isn't there": SMALL.replace(STORES["2"], ""),
    "an early store that stores twice": SMALL.replace(STORES["2"], STORES["2"].replace(CALL, f"{CALL}\n  {CALL}")),
    "two atomic stores of one name": SMALL + function(RAW, "ret void"),
    "no fence": SMALL.replace(FENCE, ""),
    "two fences": SMALL + FENCE,
    "a fence with two entries": SMALL.replace(FENCE, FENCE.replace("start:\n", "start:\n  br label %start\nstart:\n")),
    "a module that has release stores": DUE,
    "nothing": "",
}


def made(text: str) -> tuple:
    done = subprocess.run([sys.executable, TOOL], input=text, capture_output=True, text=True)
    return done.returncode, done.stdout, done.stderr


def changes(before: str, after: str) -> tuple:
    """The lines that went, and those that came, each with how often."""
    one, two = collections.Counter(before.splitlines()), collections.Counter(after.splitlines())
    return one - two, two - one


def wrong_lines(text: str) -> list:
    """What is wrong in the text of the library's module."""
    status, after, said = made(text)
    if status:
        return [f"the library's module is refused: {said}"]
    went, came = changes(text, after)
    calls_raw = [line for line in went if 'call void @"core::raw_atomic::store::<#' in line]
    head = [line for line in came if line.startswith("define ")]
    found = [] if len(went) == len(calls_raw) and sum(went.values()) == 2 else [f"these lines went: {dict(went)}"]
    if len(head) != 1 or '.release"(' not in head[0] or sum(" release," in line
                                                            for line in came) != 1 or came["  fence seq_cst"] != 1:
        found.append(f"these lines came: {dict(came)}")
    if sum('.release"(' in line for line in after.splitlines()) != 3 or after.count("store atomic") != 2:
        found.append("not two calls of one release store")
    return found


def main() -> int:
    failed = [] if made(SMALL) == (0, DUE, "") else [f"the small module becomes:\n{made(SMALL)[1:]}"]
    for name, text in WRONG.items():
        status, written, said = made(text)
        if text == SMALL or status != 1 or written or not said.startswith("release_stores: refused: "):
            failed.append(f"{name}: status {status}: {said}{written}")
    failed += wrong_lines(lzma.open(MODULE, "rt").read())
    print("\n".join([*failed, f"release stores: {len(WRONG) + 2} modules, {len(failed)} failed"]))
    return 1 if failed else 0


if __name__ == "__main__":
    sys.exit(main())
