#!/usr/bin/env python3
"""A model of the queue for the model checker Spin, written from the definitions in crates/cc_runs/specs: a label for
each phase of a pass, with the one step that Lines, SendLines and TakeLines give it.

    tools/model.py              compares tests/model/queue.pml with the definitions; exit status 0 if it has their model
    tools/model.py --write      writes it
    tools/model.py --of NAME    prints the model of a broken table of tools/definitions.py

What a call is, how a sequential queue answers, and what is checked, isn't of the definitions: tests/model/around.pml.
In place of the definitions the model says how long bodies are (one word; --of two_words: an odd tag has two), that an
item is its parcel, and that 2^56 is 16, so that each word is a byte. A load that leaves its pass as it was is a wait.
"""
import functools
import re
import sys

sys.dont_write_bytecode = True
import written as written_files
from definitions import BROKEN, definition_at, edited, meaning, read_cases
from sources import Unreadable

POWERS = {56: 16}
# Registers that hold a word of a body; the others have none in a model.
BODY = {"first": "body", "second": "more"}
# What a step does in around.pml beside its word: before and after the registers of its pass change.
BEFORE = {"Link": "LINKS", "ReadCursor": "SCANS"}
AFTER = {"ResetPassed": "CLEARS(node)", "LinkItem": "LINKED", "HandOver": "HANDS"}
# The list node that a take reads next, + 1, at its places.
READS = {"ReadTaken": "dummy + 1", "AddFirst": "dummy + 1", "LookAtShut": "dummy + 1", "ReadDummyNext": "dummy + 1",
         "ReadItemTag": "node + 1", "ReadItemBody": "node + 1"}
# Constructors that name no place of their own.
WRAPPERS = ("", "Sending", "Taking", "Send", "Close", "Take")


# ---- values: ("number", n), ("variable", name) and ("op", sign, a, b) are numbers; ("made", constructor, values by
# name, names) is a constructor or a record; ("function", place, values) is a definition that wants more values; and a
# list ["later", compute] is a value that isn't computed yet: a test that no path needs isn't made

def made(name, **held):
    return "made", name, held, tuple(held)


def number(n):
    return "number", n


def variable(name):
    return "variable", name


def forced(value):
    while value[0] == "later":
        if len(value) == 2:
            value.append(value[1]())
        value = value[2]
    return value


def whole(value):
    """A value of which nothing is left to be computed."""
    value = forced(value)
    if value[0] != "made":
        return value
    return (*value[:2], {name: whole(part) for name, part in value[2].items()}, value[3])


def computed(sign, a, b):
    """What an operator gives: a number, simpler if that can be seen, or whether a test holds, or ("op", ..)."""
    a, b = forced(a), forced(b)
    if a[0] == b[0] == "number":
        x, y = a[1], b[1]
        if sign in ("==", "<"):
            return x == y if sign == "==" else x < y
        return number({"+": x + y, "-": max(x - y, 0), "*": x * y, "/": x // max(y, 1), "%": x % max(y, 1)}[sign])
    inverse = {"-": "+", "+": "-"}.get(sign)
    if inverse and (b == number(0) or a[0] == "op" and a[1] == inverse and a[3] == b):
        return a if b == number(0) else a[2]
    if sign == "<" and b == number(0):
        return False
    if sign == "+" and a[0] == "op" and a[1] == "+" and a[3][0] == b[0] == "number":
        return computed("+", a[2], number(a[3][1] + b[1]))
    if sign == "==" and b[0] == "number" and a[0] == "op" and a[1] == "-" and a[3][0] == "number":
        return computed("==", a[2], number(a[3][1] + b[1]))
    return "op", sign, a, b


def written(value):
    """A number in Promela."""
    return f"{inside(value[2])} {value[1]} {inside(value[3])}" if value[0] == "op" else str(value[1])


def inside(value):
    return f"({written(value)})" if value[0] == "op" else written(value)


@functools.cache
def cases_at(place):
    """The parameters of the section of a definition, and its cases."""
    return definition_at(place).given, read_cases(place, definition_at(place))


class Evaluator:
    """Computes what definitions give, with the edits of a broken table, path by path."""

    def __init__(self, table=None):
        self.changed = edited(table)[0] if table in BROKEN else {}
        further = lambda tag: number(int(self.decide(computed("==", computed("%", tag, number(2)), number(1)))))
        # What the model says in place of definitions, and of the library: how many values each wants, what it gives.
        self.own = {
            "further_words": (1, further if table == "two_words" else lambda tag: number(0)),
            "item_in": (1, forced),
            "request_in": (1, forced),
            "tag_of": (1, lambda item: self.part(item, ["tag"])),
            "body_words": (1, lambda item: self.part(item, ["body"])),
            "groups": (1, lambda config: self.part(config, ["groups"])),
            "suc": (1, lambda n: computed("+", n, number(1))),
            "nat_lt": (2, lambda a, b: computed("<", a, b)),
        }

    def call(self, module, name, *values):
        return whole(self.apply(("function", ("cc_runs", module, name), ()), values))

    def paths(self, compute):
        """What this gives on each path, with the tests on it."""
        path, found = [], []
        while True:
            self.path, self.facts = path, {}
            value = whole(compute())
            found.append((dict(self.facts), value))
            path = list(self.facts.values())
            while path and not path[-1]:
                path.pop()
            if not path:
                return found
            path[-1] = False

    def decide(self, test):
        """Whether a test holds: on each path it does or doesn't."""
        if isinstance(test, bool):
            return test
        if test not in self.facts:
            self.facts[test] = self.path[len(self.facts)] if len(self.facts) < len(self.path) else True
        return self.facts[test]

    def definition(self, place):
        if place not in self.changed:
            return cases_at(place)
        return self.changed[place].given, read_cases(place, self.changed[place])

    def apply(self, head, values):
        head = forced(head)
        if head[0] == "made":
            names = [name for name in head[3] if name not in head[2]]
            return "made", head[1], head[2] | dict(zip(names, values)), head[3]
        _, place, values = *head[:2], (*head[2], *values)
        if place[2] in self.own:
            wants, compute = self.own[place[2]]
            return compute(*values) if len(values) == wants else ("function", place, values)
        given, cases = self.definition(place)
        wants = len(given) + len(cases[0][0])
        if len(values) < wants:
            return "function", place, values
        for patterns, tree in cases:
            known = dict(zip(given, values))
            if all(self.match(place, *pair, known) for pair in zip(patterns, values[len(given):])):
                found = self.value(place, tree, known)
                return self.apply(found, values[wants:]) if len(values) > wants else found
        raise Unreadable(f"{'/'.join(place)}: no line is of {values}")

    def match(self, place, pattern, value, known):
        name, inside = pattern
        if name in ("zero", "suc"):
            is_zero = self.decide(computed("==", value, number(0)))
            if name == "zero" or is_zero:
                return name == "zero" and is_zero
            return self.match(place, inside[0], computed("-", value, number(1)), known)
        kind, *what = meaning(*place[:2], name.split("."))
        if kind == "constructor":
            value = forced(value)
            return value[1] == what[0] and all(
                self.match(place, one, value[2][field], known) for field, one in zip(what[1], inside))
        if name != "_":
            known[name] = value
        return True

    def value(self, place, tree, known):
        later = lambda part: ["later", lambda: self.value(place, part, dict(known))]
        kind, *parts = tree
        if kind == "number":
            return tree
        if kind == "if":
            test, yes, no = parts
            return self.value(place, yes if self.decide(self.value(place, test, known)) else no, known)
        if kind == "op" and parts[0] == "^":
            return number(POWERS[parts[2][1]])
        if kind == "op":
            return computed(parts[0], *(self.value(place, one, known) for one in parts[1:]))
        if kind == "of":
            return self.part(self.value(place, parts[0], known), parts[1])
        if kind == "record":
            base = forced(self.value(place, parts[0], known))[2] if parts[0] else {}
            return made("", **(base | {field: later(part) for field, part in parts[1].items()}))
        if kind == "apply":
            return self.apply(self.value(place, parts[0], known), [later(one) for one in parts[1]])
        if kind == "name":
            return self.named(place, parts[0], known)
        raise Unreadable(f"{'/'.join(place)}: {kind} isn't computed")

    def named(self, place, words, known):
        if words[0] in known:
            return self.part(known[words[0]], words[1:])
        kind, *what = meaning(*place[:2], words)
        if kind == "library" and words[0] in ("true", "false"):
            return made(words[0])
        if kind == "library" and words[0] in self.own:
            return "function", ("", "", words[0]), ()
        if kind == "constructor":
            return "made", what[0], {}, what[1]
        if kind != "definition":
            raise Unreadable(f"{'/'.join(place)}: {'.'.join(words)} isn't computed")
        what = tuple(what)
        if what[2] in self.own:
            return "function", what, ()
        given, cases = self.definition(what)
        values = tuple(known[name] for name in given) if what[:2] == place[:2] else ()
        head = "function", what, values
        return self.apply(head, ()) if len(values) == len(given) + len(cases[0][0]) else head

    def part(self, value, names):
        value = forced(value)
        for name in names:
            value = forced(value[2][name])
        return value


# ---- places of a pass: their labels and registers

def label(value):
    """The constructors of a place, and the number of a body's word behind the first."""
    return "_".join(names_in(value))


def names_in(value, name=""):
    if value[0] != "made":
        return [str(value[1])] if name == "index" and value != number(0) else []
    inner = [one for field, part in value[2].items() for one in names_in(part, field)]
    return inner if value[1] in WRAPPERS else [value[1], *inner]


def registers(value, words, name=""):
    """The registers of a place and what is in them, by their names: of a body so many words."""
    if value[0] == "made":
        found = {}
        for field, part in value[2].items():
            found |= registers(part, words, name if field.isdigit() else field)
        return found
    if name in ("third", "fourth") or name == "second" and words == 1:
        if value != number(0):
            raise Unreadable(f"{name} is {written(value)}, and no body has so many words")
        return {}
    return {} if name == "index" else {BODY.get(name, name): value}


def symbolic(value, words, name=""):
    """The same place with the names of its registers in them."""
    if value[0] == "made":
        return (*value[:2], {field: symbolic(part, words, name if field.isdigit() else field)
                             for field, part in value[2].items()}, value[3])
    return variable(BODY.get(name, name)) if registers(value, words, name) else value


def assigned(now, after):
    """The assignments from registers to registers, each before what it reads changes; a register that is dead is 0."""
    left = {name: value for name, value in after.items() if value != variable(name)}
    left |= {name: number(0) for name in now if name not in after}
    done = []
    while left:
        free = [name for name in left if not any(re.search(rf"\b{name}\b", written(value))
                                                 for other, value in left.items() if other != name)]
        if not free:
            raise Unreadable(f"{left} can't be assigned one by one")
        done.append(f"{free[0]} = {written(left.pop(free[0]))}")
    return done


# ---- Promela

def word(value):
    """A word of the table."""
    kind, held = value[1], list(value[2].values())
    if kind == "Tail":
        return "TAIL"
    if kind == "Object":
        return held[0][1].upper()
    at, field = held[-2:]
    name = "MORE" if field[1] == "Body" and field[2]["0"] == number(1) else field[1].upper()
    return f"{kind.upper()}({written(at)}, {name})"


def answer(value, words):
    """An answer: its code, its number, and of an item its tag and its words."""
    while value[1] in ("Send", "Close", "Take"):
        value = value[2]["0"]
    held = registers(value, words)
    counted = held.get("place", held.get("total", number(0)))
    item = [held.get(name, number(0)) for name in ("tag", "body", "more")]
    return ", ".join([value[1].upper(), *map(written, [counted, *item])])


def tests_of(tests):
    """The tests of a path; that a number isn't another one needn't be said beside what it is."""
    equal = [test[2] for test, holds in tests.items() if holds and test[1] == "=="]
    return " && ".join(written(test) if holds else f"!({written(test)})" for test, holds in tests.items()
                       if holds or not (test[1] == "==" and test[2] in equal and test[3][0] == "number"))


class Side:
    """The steps of the passes of a chain, from the request of a call on, by their labels: what each waits for, and
    its statements."""

    def __init__(self, table, chain, request):
        self.evaluator, self.chain, self.words = Evaluator(table), chain, 2 if table == "two_words" else 1
        config = made("", **{name: variable(name.upper()) for name in ("capacity", "bound", "life", "groups")})
        self.setting = made("", served=made("List"), config=config)
        self.registers, self.steps = set(registers(request, self.words)), {}
        self.places, self.left = {}, []
        self.goes(made("ResetNext", call=request))
        while self.left:
            name = self.left.pop(0)
            self.steps[name] = self.step(name, self.places[name])

    def goes(self, place):
        name = label(place)
        if name not in self.places:
            self.places[name] = symbolic(place, self.words)
            self.left.append(name)
        self.registers |= set(registers(place, self.words))

    def step(self, name, place):
        known = self.setting, self.chain, variable("own"), place, variable("found")
        paths = self.evaluator.paths(lambda: self.evaluator.call("Lines", "line", *known))
        first = paths[0][1][2]
        at, *value = first["does"][2].values()
        early = self.evaluator.call("Early", "may_be_early", self.chain, place)[1] == "true"
        verb = {"Store": "STORE" if early else "LOCKED"}.get(first["does"][1], first["does"][1].upper())
        head = f"{verb}({', '.join([word(at), *map(written, value)])})"
        waits, guard = [tests for tests, found in paths if verb == "LOAD" and self.is_still(place, found[2])], []
        if waits:
            (*_, (test, holds)), = (tests.items() for tests in waits)
            seen = written(test).replace("==", "!=") if holds else written(test)
            guard, head = [re.sub(r"\bfound\b", f"SEES({word(at)})", seen)], f"TAKES_UP(1); {head}"
        branches = [(tests_of(tests), self.branch(name, place, found[2]))
                    for tests, found in paths if tests not in waits]
        kind = first["event"][2]["0"][1]
        return guard, "; ".join([head, f'SAY("%c%d {kind}\\n")', choice(branches)])

    def is_still(self, place, line):
        after = line["goes"]
        return label(after) == label(place) and registers(after, self.words) == registers(place, self.words)

    def branch(self, name, place, line):
        """What one path of a step does, behind its word."""
        after, now, target = line["goes"], registers(place, self.words), label(line["goes"])
        said = [f"ENTERS({written(line['node'])})"] if line["enters"][1] == "Some" else []
        said += [BEFORE[name]] if name in BEFORE else []
        if line["decides"][1] == "Some":
            said.append(f"DECIDES({answer(line['decides'][2]['0'], self.words)})")
        if after[1] == "Finished":
            said += [f"RETURNS({answer(after[2]['answer'], self.words)})", *assigned(now, {"own": line["node"]})]
            return "; ".join([*said, "goto end"])
        self.goes(after)
        said += assigned(now, registers(after, self.words) | {"own": line["node"]})
        said += [AFTER[name]] if name in AFTER else []
        if {target.split("_")[0], name.split("_")[0]} & READS.keys():
            said.append(f"READS({READS.get(target.split('_')[0], '0')})")
        said += ["SERVES"] if (name, target) == ("ReadState", "ReadNext") else []
        return "; ".join([*said, f"goto {target}"])


def choice(branches):
    """The branches of a step: the last one is that of what is left."""
    if len({text for _, text in branches}) == 1:
        return branches[0][1]
    *tested, (_, last) = branches
    return "if" + "".join(f"\n    :: {test} -> {text}" for test, text in [*tested, ("else", last)]) + "\n    fi"


HEAD = """\
/* The queue for the model checker Spin, by tools/model.py from crates/cc_runs/specs: a label for each phase of a pass,
   and there its one atomic step. around.pml says how to set the sizes. Each interleaving of two senders and a receiver:

       spin -a -DTAKES=2 tests/model/queue.pml && gcc -O1 -DSAFETY -o pan pan.c && ./pan */
"""
CALLS = {"sender": ["NEW_SEND", "NEW_CLOSE"], "receiver": ["NEW_TAKE"]}


@functools.cache
def side(table, name):
    """The steps of the senders, or of the receivers of a group."""
    if name == "receiver":
        return Side(table, made("Take", **{"0": variable("group")}), made(""))
    second = variable("more") if table == "two_words" else number(0)
    body = made("", first=variable("body"), second=second, third=number(0), fourth=number(0))
    return Side(table, made("Send"), made("", tag=variable("tag"), body=body))


def process(tables, name):
    """The processes of a side: each step is that of a table, by its number among these."""
    sides = [side(table, name) for table in tables]
    options = [f"  :: atomic {{ {call}; {sides[0].steps['ResetNext'][1]} }}" for call in CALLS[name]]
    labels = []
    for place in dict.fromkeys(place for one in sides for place in one.steps if place != "ResetNext"):
        having = {k: one.steps[place] for k, one in enumerate(sides) if place in one.steps}
        usual = next(iter(having.values()))
        others = {k: step for k, step in having.items() if step != usual}
        cases = [([f"table == {k}", *guard], text) for k, (guard, text) in others.items()]
        cases.append(([*(f"table != {k}" for k in others), *usual[0]], usual[1]))
        texts = [f"{' && '.join(tests)} -> {text}" if tests else text for tests, text in cases]
        own_step = texts[0] if len(texts) == 1 else "if\n  :: " + "\n  :: ".join(texts) + "\n  fi"
        labels.append(f"{place}: atomic {{ {own_step} }}")
    own = ", ".join(sorted(set.union(*(one.registers for one in sides))))
    return "\n".join([f"proctype {name}(byte me; byte own; bit closes; byte chain) {{", f"  byte made, {own};", "end:",
                      "  if", *options, "  fi;", ";\n".join(labels), "}"])


def model(*tables):
    """The model of a table, None for the right one; or of several, of which the environment's TABLE names one by its
    number."""
    tables = tables or (None,)
    head = ("#define TWO_WORDS\n" if "two_words" in tables else "") + '#include "around.pml"\n'
    head += "byte table;\n" if len(tables) > 1 else ""
    chosen = '  c_code { now.table = atoi(getenv("TABLE")); };\n' if len(tables) > 1 else ""
    text = (f"{head}\n{process(tables, 'sender')}\n\n{process(tables, 'receiver')}\n\n"
            f"init {{\n{chosen}  atomic {{ OPENS() }};\n  CHECKED\n}}\n")
    return "".join(f"{wrapped(line)}\n" for line in text.splitlines())


def wrapped(line):
    """A line of at most 120 columns, or several: each goes on behind a statement."""
    indent = " " * (len(line) - len(line.lstrip()) + 2)
    done = []
    while len(line) > 120 and line.rfind("; ", 0, 120) > len(indent):
        at = line.rfind("; ", 0, 120)
        done.append(line[:at + 1])
        line = indent + line[at + 2:]
    return "\n".join([*done, line])


if __name__ == "__main__":
    if sys.argv[1:2] == ["--of"]:
        names = [*BROKEN, "two_words"]
        if sys.argv[2:3] == [] or sys.argv[2] not in names:
            print(f"usage: tools/model.py --of NAME, of {', '.join(names)}", file=sys.stderr)
            sys.exit(64)
        print(model(sys.argv[2]), end="")
    else:
        sys.exit(written_files.main(__doc__, lambda: {"tests/model/queue.pml": HEAD + model()}))
