#!/usr/bin/env python3
"""Makes the module of the default archive of that of the strict one, both as LLVM's text: some stores become release
stores.

    tools/release_stores.py < MODULE > RELEASED

A module of rattle has one atomic store, `core::raw_atomic::store`, which is seq_cst, between two barriers for the
compiler. The contracts of the functions in STORES ask at each call that the step may be early (`early`), and that is
proved. So the stores of these functions call a copy of that store, which is a release store. All others stay.

The toolchain's `fence` is an empty function, since each step of the proofs is sequentially consistent. With release
stores it has to be a fence, so it gets a body. By it a thread empties its store buffer before a turn.

All other lines stay as they are. A module is refused in which one of these functions isn't there once, has more than
one store, or shares its store with another function; then the exit status is 1, and nothing is written.
"""
import re
import sys

from module_filter import Refused, changes

STORES = ("cc_steps::operations::store_release", "cc_steps::operations::begin_with")
# Over this no access of memory moves in the compiler.
BARRIER = r'  call void asm sideeffect "", "~\{memory\}"\(\)\n'


def one(pattern: str, text: str) -> str:
    found = re.findall(pattern, text, re.S | re.M)
    if len(found) != 1:
        raise Refused(f"{len(found)} times {pattern}")
    return found[0]


def function(name: str, text: str) -> str:
    """The one function of this name, for whichever types."""
    return one(rf'^define [^\n]*@"{name}(?:::<#\w+>)?"\([^\n]*\n.*?^}}\n', text)


def released(text: str) -> str:
    raw = function("core::raw_atomic::store", text)
    name = one(r'^define [^\n]*(@"[^"]*)"\(', raw)
    one("store atomic", text), one(f"{BARRIER}  store atomic i64 [^\n]* seq_cst,[^\n]*\n{BARRIER}", raw)
    for caller in STORES:
        store = one(r'call void @"(atomic_table::shared::Shared::store::<#\w+>)"\(', function(caller, text))
        if text.count(f'@"{store}"') != 2:
            raise Refused(f"{store} has other uses")
        body = function(re.escape(store), text)
        one(re.escape(name), body)
        text = text.replace(body, body.replace(name, name + ".release"))
    fence = function("core::atomic::fence", text)
    text = text.replace(fence, fence.replace(one("^start:\n", fence), "start:\n  fence seq_cst\n"))
    return text.replace(raw, raw + "\n" + raw.replace(name, name + ".release").replace(" seq_cst,", " release,"))


if __name__ == "__main__":
    sys.exit(changes(released, __doc__))
