#!/usr/bin/env python3
"""The machine in the page of `ccq show`, as JavaScript, written from the definitions in crates/cc_runs/specs: the table
of steps (`line` of Lines, which names SendLines, TakeLines and CountLines), what the laws of progress count (PROGRESS),
and all definitions that these name; and the broken tables of VARIANTS, each of which is that table with some lines
changed.

    tools/page_steps.py            compares the page with the definitions; exit status 0 if it has their machine
    tools/page_steps.py --write    writes the machine into the page

A number is a BigInt, a list an array, a record an object, and a value of an enum an object with its variant's name in
`is` and what the variant holds by the names of its fields, or by 0, 1 and so on. A statement is whether it holds.
"""
import difflib
import json
import re
import sys

sys.dont_write_bytecode = True
import written
from definitions import definition_at, edited, meaning, read_cases
from sources import Unreadable

MARKS = "// <steps>\n", "// </steps>\n"
HEAD = """\
// The machine, by tools/page_steps.py: the table of steps of crates/cc_runs/specs, what is ahead of a call, and the
// definitions that these name. Each of CHANGES makes a broken table, by its name.
const minus = (a, b) => a > b ? a - b : 0n;
"""
# What the laws of progress count, by its crate, its file and its name: the steps that are ahead of a call, and whose
# turn it is.
PROGRESS = [("cc_runs", "Ahead", "ahead"), ("cc_runs", "Turns", "IsTurn")]
# What the page calls.
WANTED = [
    ("cc_runs", "Lines", "line"),
    ("cc_runs", "Codes", "list_reads"),
    ("cc_runs", "Codes", "further_words"),
    ("cc_runs", "Codes", "tag_sender"),
    ("cc_runs", "Codes", "tag_number"),
    ("cc_runs", "Codes", "code_of"),
    ("cc_runs", "Codes", "value_of"),
    ("cc_model", "Body", "body_of"),
    ("cc_model", "Body", "words_of"),
    *PROGRESS,
]
# The broken tables that the page shows, by their names in tools/definitions.py.
VARIANTS = ["marked_early", "handed_past", "freed_dummy", "one_group", "full_early"]
# Functions of the library of the definitions, in JavaScript.
LIBRARY = {
    "suc": "({} + 1n)",
    "nat_lt": "({} < {})",
    "length": "BigInt({}.length)",
    "slice_index_or": "({}[{}] ?? {})",
    "list_any": "{1}.some({0})",
    "drop": "{1}.slice(Number({0}))",
    "not": "(!{})",
    "IsTrue": "{}",
    "true": "true",
    "false": "false",
}
# Operators in JavaScript.
OPERATORS = {"×": "({} && {})", "&&": "({} && {})", "==": "({} === {})", "≡": "({} === {})", "<": "({} < {})",
             "+": "({} + {})", "-": "minus({}, {})", "*": "({} * {})", "/": "({} / {})", "%": "({} % {})",
             "^": "({} ** {})"}


class Script:
    """The JavaScript of the expressions of a case, with what it calls the names in it; `named` are the definitions."""

    def __init__(self, place, known):
        self.place, self.known, self.named = place, known, []

    def expression(self, tree):
        kind, *parts = tree
        if kind == "number":
            return f"{parts[0]}n"
        if kind == "if":
            test, yes, no = map(self.expression, parts)
            return f"({test} ? {yes} : {no})"
        if kind == "λ":
            self.known[parts[0]] = parts[0]
            return f"({parts[0]}) => {self.expression(parts[1])}"
        if kind == "op":
            sign, left, right = parts[0], self.expression(parts[1]), self.expression(parts[2])
            return listed(left, right) if sign == "∷" else OPERATORS[sign].format(left, right)
        if kind == "of":
            return ".".join([self.expression(parts[0]), *parts[1]])
        if kind == "record":
            base = [f"...{self.expression(parts[0])}"] if parts[0] else []
            inside = [member(field, self.expression(value)) for field, value in parts[1].items()]
            return f"{{ {', '.join(base + inside)} }}"
        head, arguments = (parts[0], parts[1]) if kind == "apply" else (tree, [])
        if head[0] != "name":
            raise Unreadable(f"{'/'.join(self.place)}: {head} is applied, and is no name")
        return self.call(head[1], [self.expression(one) for one in arguments])

    def call(self, words, arguments):
        """A name with its arguments."""
        first, *rest = words
        if first == "[]":
            return first
        if first in self.known:
            value = ".".join([self.known[first]] + rest)
            return f"{value}({', '.join(arguments)})" if arguments else value
        kind, *what = meaning(*self.place[:2], words)
        if kind == "library":
            return LIBRARY[first].format(*arguments)
        if kind == "constructor":
            held = "".join(", " + member(field, value) for field, value in zip(what[1], arguments))
            return f"{{ is: '{what[0]}'{held} }}"
        if kind != "definition":
            raise Unreadable(f"{'/'.join(self.place)}: {first} is no name that can be written in JavaScript")
        self.named.append(tuple(what))
        definition = definition_at(what)
        given = definition.given if tuple(what[:2]) == self.place[:2] else []
        name = f"{what[1]}_{what[2]}"
        if not arguments and read_cases(what, definition)[0][0]:
            return name
        return f"{name}({', '.join(given + arguments)})"

    def match(self, pattern, path, less=0):
        """The tests of a pattern at a value, and keeps the names that it gives to parts of it."""
        name, inside = pattern
        if name == "zero":
            return [f"{path} === {less}n"]
        if name == "suc":
            return self.match(inside[0], path, less + 1)
        if name in ("[]", "∷"):
            if name == "[]":
                return [f"{path}.length === 0"]
            parts = self.match(inside[0], f"{path}[0]") + self.match(inside[1], f"{path}.slice(1)")
            return [f"{path}.length > 0"] + parts
        kind, *what = meaning(*self.place[:2], name.split("."))
        if kind == "constructor":
            tests = [f"{path}.is === '{what[0]}'"]
            for field, part in zip(what[1], inside):
                tests += self.match(part, f"{path}[{field}]" if field.isdigit() else f"{path}.{field}")
            return tests
        if name != "_":
            self.known[name] = f"({path} - {less}n)" if less else path
        return [f"{path} >= {less}n"] if less else []


def listed(first, rest):
    """A list of this one and those behind it."""
    if rest.startswith("["):
        return f"[{first}{', ' if rest != '[]' else ''}{rest[1:]}"
    return f"[{first}, ...{rest}]"


def member(field, value):
    return field if field == value else f"{field}: {value}"


def parameters(columns):
    """Names for the parameters of these rows of patterns: that which all rows give one that name it, or a number."""
    names = []
    for at, column in enumerate(zip(*columns)):
        given = {name for name, inside in column if not inside and re.fullmatch(r"[a-z]\w*", name) and name != "zero"}
        plain = given.pop() if len(given) == 1 else ""
        names.append(plain if plain and plain not in names else f"v{at}")
    return names


def function(place, definition=None):
    """A definition, or one that is changed: its parameters, its cases, each with the tests that lead to its value, and
    the definitions that it names."""
    definition = definition or definition_at(place)
    given, lines = definition.given, read_cases(place, definition)
    own = parameters([patterns for patterns, _ in lines])
    found, named = [], []
    for patterns, value in lines:
        script = Script(place, {name: name for name in given})
        tests = [test for pattern, path in zip(patterns, own) for test in script.match(pattern, path)]
        found.append((tuple(tests), re.sub(r"^\((.*\?.*)\)$", r"\1", script.expression(value))))
        named += script.named
    return given + own, found, named


def javascript(parameters, cases):
    """A function of JavaScript with these cases, each of all tables or of the broken one that it names."""
    head = f"({', '.join(parameters)}) =>"
    if cases[0][1]:
        tests = [[f"variant === '{variant}'" for variant in [variant] if variant] + list(tests)
                 for variant, tests, _ in cases]
        returns = [(f"if ({' && '.join(test)}) " if test else "") + f"return {value};"
                   for test, (_, _, value) in zip(tests, cases)]
        return head + " {\n  " + "\n  ".join(returns) + "\n}"
    *broken, (_, _, value) = cases
    if broken:
        return head + "\n  " + "".join(f"variant === '{variant}' ? {other}\n  : "
                                       for variant, _, other in broken) + value
    return head + (f" ({value})" if value.startswith("{") else f" {value}")


def merged(place, cases, broken):
    """The cases of a definition with those of its broken tables: the cases of a broken table come before the one that
    they replace."""
    all_cases = [(None, *case) for case in cases]
    for variant, others in broken:
        mine = [(tests, value) for other, tests, value in all_cases if not other]
        for kind, begin, end, first, last in reversed(
                difflib.SequenceMatcher(None, mine, others, autojunk=False).get_opcodes()):
            if kind == "equal":
                continue
            added = [(variant, *case) for case in others[first:last]]
            if any(case[0] not in [tests for _, tests, _ in added] for case in mine[begin:end]):
                raise Unreadable(f"{variant} leaves out a case of {'/'.join(place)}")
            at = [k for k, (other, _, _) in enumerate(all_cases) if not other][begin]
            all_cases[at:at] = added
    return all_cases


def changed():
    """The changed definitions, by the place of each and the name of its broken table; and of each table its lines
    before and after."""
    found, shows = {}, {}
    for variant in VARIANTS:
        definitions, edits = edited(variant)
        found |= {(place, variant): definition for place, definition in definitions.items()}
        shows[variant] = [{"in": ".".join(place[1:]), "was": "" if was in now else shown(was),
                           "is": shown("\n".join(line for line in now if line != was))}
                          for place, was, now in edits]
    return found, shows


def shown(text):
    """A text of the definitions as docs/ARCHITECTURE.md shows it: without the enums of its variants."""
    return re.sub(r"\b(?:Phase|Kind|Word|NodeField|ItemField|Object|Answer|SendAnswer|TakeAnswer)\.", "", text)


def wrapped(line):
    """A line of JavaScript of more than 160 columns as several: each goes on before an operator or after a comma,
    outside of all texts and inside as few brackets as possible."""
    lines, indent = [], re.match(" *", line)[0]
    while len(line) > 160:
        quoted, depth, places = False, 0, []
        for k, sign in enumerate(line):
            quoted ^= sign == "'"
            depth += 0 if quoted else (sign in "([{") - (sign in ")]}")
            if k > len(indent) + 40 and not quoted and (line[k - 1: k + 1] == ", "
                                                        or re.match(r" (\?|:|&&) ", line[k:])):
                places.append((k > 160, depth, -k))
        if not places or min(places)[0]:
            break
        at = -min(places)[2]
        lines.append(line[:at])
        line = indent + "  " + line[at + 1:]
    return "\n".join([*lines, line])


def machine():
    found, left = {}, list(WANTED)
    while left:
        place = left.pop()
        if place not in found:
            found[place] = function(place)
            left += found[place][2]
    changes, shows = changed()
    broken = {}
    for (place, variant), definition in changes.items():
        given, cases, named = function(place, definition)
        if given != found[place][0] or any(other not in found for other in named):
            raise Unreadable(f"{variant} has other parameters, or names a definition that the table doesn't")
        broken.setdefault(place, []).append((variant, cases))
    texts = {place: javascript(given, merged(place, cases, broken.get(place, [])))
             for place, (given, cases, _) in found.items()}
    table = "".join(f"const {place[1]}_{place[2]} = {text};\n" for place, text in sorted(texts.items()))
    table = "".join(wrapped(line) + "\n" for line in table.splitlines())
    wanted = ", ".join(f"{module}_{name}" for _, module, name in WANTED)
    return (HEAD + "const CHANGES = " + json.dumps(shows, indent=1) + ";\nconst tableOf = variant => {\n" + table
            + f"return {{ {wanted} }};\n}};\n")


if __name__ == "__main__":
    sys.exit(written.main(__doc__, lambda: written.between("docs/pages/index.html", *MARKS, machine())))
