#!/usr/bin/env python3
"""Marks a module of LLVM, as text, so that the compiler writes what debuggers and a processor's protection of jumps
need.

    tools/mark_module.py < MODULE > MARKED

- Each function that is defined gets the attribute `uwtable`. Then `.eh_frame` says for each instruction where the
caller's
  registers are, so that a debugger or a profiler finds the callers.
- For x86-64 the module gets the flags of the compiler's `-fcf-protection=full` (CET). Then each function that a pointer
may reach begins
  with `endbr64`, and `.note.gnu.property` says so. Without that note a linker turns CET off for the whole program.

No other byte changes, and a module that has these marks already stays as it is. The exit status is 1 if a function has
no group of attributes, or the module has other flags.
"""
import re
import sys

from module_filter import Refused, changes

TABLES = "uwtable"
FLAGS = ("cf-protection-return", "cf-protection-branch")


def with_tables(text: str) -> str:
    """The module in which each function asks for a table of unwinding."""
    groups = set()
    for head in re.findall(r"^define .*$", text, re.M):
        if not (found := re.search(r" (#\d+)\b[^()]*\{$", head)):
            raise Refused(f"a function without attributes: {head}")
        groups.add(found[1])

    def marked(line: re.Match) -> str:
        has = line[1] not in groups or TABLES in line[2].split()
        return line[0] if has else f"attributes {line[1]} = {{ {TABLES} {line[2]} }}"

    return re.sub(r"^attributes (#\d+) = \{ (.*) \}$", marked, text, flags=re.M)


def with_flags(text: str) -> str:
    """The module with the flags of CET."""
    if "!llvm.module.flags" in text:
        if all(f'!"{flag}", i32 1}}' in text for flag in FLAGS):
            return text
        raise Refused("the module has flags already")
    first = max(map(int, re.findall(r"^!(\d+) = ", text, re.M)), default=-1) + 1
    numbers = range(first, first + len(FLAGS))
    lines = [f'!{n} = !{{i32 8, !"{flag}", i32 1}}' for n, flag in zip(numbers, FLAGS)]
    return text + "\n".join(["!llvm.module.flags = !{" + ", ".join(f"!{n}" for n in numbers) + "}", *lines, ""])


def marked(text: str) -> str:
    text = with_tables(text)
    return with_flags(text) if re.search('^target triple = "x86_64-', text, re.M) else text


if __name__ == "__main__":
    sys.exit(changes(marked, __doc__))
