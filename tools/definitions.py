"""Reads the definitions in specs/ of the crates, as trees: tools/page_steps.py writes JavaScript from them,
tools/model.py a model for Spin, and tools/steps_table.py the table of steps. BROKEN has edits that make broken tables.

A tree is one of ("number", n); ("name", words), for a name with a dot between its words; ("apply", head, arguments);
("op", sign, left, right), where the sign may be that of a list, ∷; ("if", test, yes, no); ("of", value, fields);
("record", base or None, parts by name); and ("λ", name, value). A pattern is a name with the patterns behind it.
"""
import copy
import dataclasses
import functools
import re

from sources import TOP, Unreadable, brought, read_items, read_text

# Operators, the looser ones first; ∷ binds tighter than all of them.
OPERATORS = [{"×"}, {"&&"}, {"==", "≡", "<"}, {"+", "-"}, {"*", "/", "%"}, {"^"}]
STOPS = {sign for level in OPERATORS for sign in level} | {"∷", ")", "}", ";", "=", "then", "else", None}
# What std gives, and no file of specs/.
LIBRARY = {"suc", "nat_lt", "length", "slice_index_or", "list_any", "drop", "not", "IsTrue", "true", "false"}
# Broken tables: a name, and each changed definition of cc_runs with the text that is in one of its lines and the text
# in its place. The page shows the first five.
BROKEN = {
    "marked_early": [
        ("Lines", "line", "(after_done c.config.bound job)", "(Phase.FollowNext job)"),
        ("Lines", "line", "line (Phase.HandOver at) _ =",
         "line (Phase.FollowNext was) next = load Kind.ReadNext (Word.Node x was.round.at NodeField.Next) (if next == "
         "0 then Phase.HandOver "
         "was.round.at else after_done c.config.bound (record was { next = next - 1 }))\nline (Phase.HandOver at) _ ="),
    ],
    "handed_past": [
        ("Lines", "after_done", "if job.round.served + 1 == bound then Phase.HandOver job.next else Phase.ReadNext",
         "Phase.ReadNext"),
        ("Lines", "line", "(after_next c.served x round next)",
         "(if round.served == c.config.bound then (if next == 0 then Phase.HandOver round.at else Phase.HandOver "
         "(next - 1)) else "
         "after_next c.served x round next)"),
    ],
    "freed_dummy": [("TakeLines", "line", "(On (WriteTaken dummy parcel))", "(On (WriteTaken at parcel))")],
    "one_group": [("SendLines", "by_passed", "if passed == groups c", "if nat_lt 0 passed")],
    "full_early": [("SendLines", "by_passed", "reads == c.capacity + 1", "reads + 1 == c.capacity")],
    "returns_unserved": [
        ("Lines", "after_state", "Phase.ReadNext record { at = own; served = 0 }", "Phase.ReadAnswer"),
    ],
    "answer_late": [
        ("Lines", "after_answer", "= Phase.WriteAnswerTag job item", "= Phase.MarkFirst job item"),
        ("Lines", "line", "line (Phase.HandOver at) _ =",
         "line (Phase.MarkFirst job item) _ = store Kind.MarkDone (Word.Node x job.round.at NodeField.State) 2 "
         "(Phase.LateTag job item)\n"
         "line (Phase.LateTag job item) _ = store Kind.WriteAnswer (Word.Node x job.round.at NodeField.Tag) "
         "(tag_of item) (Phase.LateBody job item)\n"
         "line (Phase.LateBody job item) _ = store Kind.WriteAnswer (Word.Node x job.round.at (NodeField.Body 0)) "
         "(word (body_words item) 0) (after_done c.config.bound job)\n"
         "line (Phase.HandOver at) _ ="),
    ],
    "freed_before_read": [
        ("TakeLines", "line", "(On (ReadDummyNext dummy taken))", "(On (AddFirst dummy taken))"),
        ("TakeLines", "line", "line g (ReadDummyNext dummy taken) next =",
         "line g (AddFirst dummy taken) _ = add Kind.AddPassed (Word.Item dummy ItemField.Passed) 1 "
         "(On (ReadDummyNext dummy taken))\n"
         "line g (ReadDummyNext dummy taken) next ="),
        ("TakeLines", "line", "(parcel.place + 1) (On (AddPassed dummy parcel))",
         "(parcel.place + 1) (Decides (Answer.Take (TakeAnswer.Got (item_in parcel))))"),
    ],
    "empty_always": [
        ("TakeLines", "by_next", "On (ReadItemTag dummy taken at)", "Decides (Answer.Take TakeAnswer.Empty)"),
    ],
    "full_always": [("SendLines", "by_passed", "On (ResetPassed parcel at)", "Decides (Answer.Send SendAnswer.Full)")],
    "never_shut": [
        ("SendLines", "line", "(mark c + 1) (On (WriteShut total))",
         "(mark c + 1) (Tells (Answer.Close (CloseAnswer.Shut total)))"),
    ],
    "ended_early": [
        ("TakeLines", "line", "(On (ReadDummyNext dummy taken))", "(On (LookAtShut dummy taken))"),
        ("TakeLines", "line", "line g (ReadDummyNext dummy taken) next =",
         "line g (LookAtShut dummy taken) shut = load Kind.ReadObject (Word.Object Object.Shut) (if shut == 0 then On "
         "(ReadDummyNext dummy taken) else Decides (Answer.Take (TakeAnswer.Ended taken)))\n"
         "line g (ReadDummyNext dummy taken) next ="),
    ],
    "same_again": [
        ("TakeLines", "line", "(at + 1) (On (WriteTaken dummy parcel))", "(dummy + 1) (On (WriteTaken dummy parcel))"),
    ],
    "past_the_bound": [("Lines", "after_done", "job.round.served + 1 == bound", "job.round.served == bound")],
    "waits_for_a_link": [("Lines", "after_next", "= Phase.HandOver round.at", "= Phase.ReadNext round")],
    "scans_again": [
        ("SendLines", "by_passed", "Decides (Answer.Send SendAnswer.Full)", "On (ReadPassed parcel (after c at) 1)"),
    ],
    "keeps_the_chain": [
        ("Lines", "line", "(Word.Node x at NodeField.State) 0 Phase.ReadAnswer",
         "(Word.Node x at NodeField.State) 1 Phase.ReadAnswer"),
    ],
    "marks_nothing": [("Lines", "line", "NodeField.State) 2 (after_done", "NodeField.State) 1 (after_done")],
    "links_nothing": [
        ("Lines", "line", "NodeField.Next) (put + 1) Phase.ReadState", "NodeField.Next) 0 Phase.ReadState"),
    ],
}
# The places that only broken tables have, with the names of what they hold.
FURTHER_PLACES = {"FollowNext": ("was",), "MarkFirst": ("job", "item"), "LateTag": ("job", "item"),
                  "LateBody": ("job", "item"), "AddFirst": ("dummy", "taken"), "LookAtShut": ("dummy", "taken")}


@dataclasses.dataclass
class Definition:
    """A definition of specs/: its lines, each whole, and the names of the parameters of the section that it is in."""

    lines: list
    given: list


class Module:
    """A file of specs/: its definitions by their names, and pairs of the imported names and their paths."""

    def __init__(self, text):
        self.definitions, self.imports = {}, {}
        lines = [re.sub(r" *--.*", "", line) for line in text.splitlines()]
        given, indent = [], 0
        for line in filter(str.strip, lines):
            column = len(line) - len(line.lstrip())
            if column == 0:
                given, indent = [], 0
            if line.startswith("module _ "):
                indent = None
                given = [name for names in re.findall(r"\(([^:()]+) :", line) for name in names.split()]
                continue
            indent = column if indent is None else indent
            self.add(line.strip(), column > indent, given)

    def add(self, line, is_inside, given):
        use = re.match(r"(?:pub )?use (.*)", line)
        begins = re.match(r"(?:abbrev |pub |unfoldable )*(?:record |data )?(\S+) .*:", line)
        if use and not is_inside:
            self.imports.update(brought(use[1]))
        elif is_inside and not self.last.lines[0].endswith(" where"):
            self.last.lines[-1] += " " + line
        elif begins and not is_inside and (line.split()[0] in ("abbrev", "pub", "record", "data")
                                           or not self.definitions):
            self.last = self.definitions[begins[1]] = Definition([line], given)
        else:
            self.last.lines.append(line)


@functools.cache
def read_module(crate, path):
    """The file of specs/ of a crate that has this path, if it is there."""
    file = TOP / "crates" / crate / "specs" / (path.replace(".", "/") + ".antt")
    return Module(read_text(file)) if file.is_file() else None


def definition_at(place):
    return read_module(*place[:2]).definitions[place[2]]


def meaning(crate, module, words):
    """What a name means in a file of specs/: a definition, or a constructor with the names of what it holds."""
    return meaning_of(crate, module, tuple(words))


@functools.cache
def meaning_of(crate, module, words):
    first, last = words[0], words[-1]
    if last in FURTHER_PLACES:
        return "constructor", last, FURTHER_PLACES[last]
    if first in LIBRARY:
        return "library", first
    file = read_module(crate, module)
    if first in file.definitions:
        return "definition", crate, module, first
    for definition in file.definitions.values():
        shape = next((line for line in definition.lines[1:] if line.split()[0] == first and ":" in line), None)
        if shape and definition.lines[0].endswith(" where"):
            return "constructor", first, tuple(str(at) for at in range(shape.count("→")))
    if first not in file.imports:
        return None, first
    crate, specs, *path = file.imports[first].split(".")
    if crate == "std":
        return ("constructor", first,
                {"Some": ("0",), "None": ()}[first]) if first in ("Some", "None") else (None, first)
    if path[0] == "declared":
        module, enum = path[1:-1], path[-1]
        while module[-1][0].isupper():
            enum = module.pop()
        return "constructor", last, fields(crate, "/".join(module), enum, last)
    if read_module(crate, ".".join(path)):
        return meaning(crate, ".".join(path), words[1:])
    return meaning(crate, ".".join(path[:-1]), [path[-1], *words[1:]])


@functools.cache
def fields(crate, module, enum, variant):
    """The names of what a variant of an enum of the code holds."""
    items = read_items(read_text(TOP / "crates" / crate / "src" / (module + ".rt")))
    for part in next(item.parts for item in items if (item.kind, item.name) == ("enum", enum)):
        found = re.fullmatch(r"(\w+)(?: {(.*)}|\((.*)\))?", part)
        if found and found[1] == variant:
            named = tuple(field.split(":")[0].strip() for field in (found[2] or "").split(",") if field.strip())
            return named or tuple(str(at) for at in range(len(found[3].split(",")) if found[3] else 0))
    raise Unreadable(f"{enum} has no variant {variant}")


class Reader:
    """The reader of one line of a definition."""

    def __init__(self, line, place=()):
        self.tokens = re.findall(r"[(){};,]|[^\s(){};,]+", line)
        self.place = place

    def peek(self):
        return self.tokens[0] if self.tokens else None

    def take(self, wanted=None):
        if wanted and self.peek() != wanted:
            raise Unreadable(f"{'/'.join(self.place)}: {self.peek()} stands for {wanted}")
        return self.tokens.pop(0)

    def case(self):
        """The patterns of the line, and its value."""
        self.take()
        patterns = self.patterns()
        self.take("=")
        value = self.expression()
        if self.tokens:
            raise Unreadable(f"{'/'.join(self.place)}: {' '.join(self.tokens)} isn't understood")
        return patterns, value

    def expression(self, level=0):
        if self.peek() == "if":
            self.take()
            test = self.expression()
            self.take("then")
            yes = self.expression()
            self.take("else")
            return "if", test, yes, self.expression()
        if self.peek() == "λ":
            self.take()
            return "λ", self.take().rstrip("."), self.expression()
        if level == len(OPERATORS):
            return self.listed()
        left = self.expression(level + 1)
        while self.peek() in OPERATORS[level]:
            left = "op", self.take(), left, self.expression(level + 1)
        return left

    def listed(self):
        """An application, or a list of several behind each other."""
        first = self.application()
        return ("op", self.take(), first, self.listed()) if self.peek() == "∷" else first

    def application(self):
        head, arguments = self.atom(), []
        while self.peek() not in STOPS:
            arguments.append(self.atom())
        return ("apply", head, arguments) if arguments else head

    def atom(self):
        token = self.take()
        if token == "(":
            value = self.expression()
            self.take(")")
        elif token == "record":
            value = self.record()
        elif token.isdigit():
            return "number", int(token)
        else:
            return "name", token.split(".")
        while (self.peek() or "").startswith("."):
            value = "of", value, self.take()[1:].split(".")
        return value

    def record(self):
        base = None if self.peek() == "{" else self.atom()
        self.take("{")
        parts = {}
        while self.peek() != "}":
            field = self.take()
            self.take("=")
            parts[field] = self.expression()
            if self.peek() == ";":
                self.take()
        self.take("}")
        return "record", base, parts

    def patterns(self):
        """The patterns up to the equals sign, or to the bracket that closes."""
        found = []
        while self.peek() not in ("=", ")"):
            if self.peek() == "(":
                self.take()
                inside = self.patterns()
                self.take(")")
                found.append(applied(inside))
            elif self.peek() == "∷":
                self.take()
                found = [("∷", [applied(found), applied(self.patterns())])]
            else:
                found.append((self.take(), []))
        return found


def applied(patterns):
    """The pattern that these are side by side: the first one's name, with the others in it."""
    return patterns[0] if len(patterns) == 1 else (patterns[0][0], patterns[1:])


def read_cases(place, definition):
    """The patterns and the value of each line of a definition."""
    lines = [line for line in definition.lines if line.split()[0] == place[2] and " = " in line]
    if not lines:
        raise Unreadable(f"{'/'.join(place)} has no equations")
    return [Reader(line, place).case() for line in lines]


def spelled(tree, level=-1):
    """A tree as specs/ have it, but variants without their enums; in brackets if it binds looser than this level."""
    kind, *parts = tree
    if kind == "number":
        return str(parts[0])
    if kind == "name":
        return ".".join(parts[0][1:] if re.match(r"[A-Z]", parts[0][-1]) and len(parts[0]) > 1 else parts[0])
    if kind == "record":
        base = f"{spelled(parts[0], len(OPERATORS) + 1)} " if parts[0] else ""
        return f"record {base}{{ {'; '.join(f'{name} = {spelled(value)}' for name, value in parts[1].items())} }}"
    if kind == "of":
        return ".".join([spelled(parts[0], len(OPERATORS) + 1), *parts[1]])
    if kind == "if":
        own, text = -1, "if {} then {} else {}".format(*map(spelled, parts))
    elif kind == "op":
        own = next(at for at, level in enumerate(OPERATORS) if parts[0] in level)
        text = f"{spelled(parts[1], own)} {parts[0]} {spelled(parts[2], own + 1)}"
    else:
        own = len(OPERATORS)
        text = " ".join(spelled(one, own + 1) for one in [parts[0], *parts[1]])
    return text if own >= level else f"({text})"


def edited(name):
    """The changed definitions of a broken table, by their places, and of each edit its place, the line before, and the
    lines in its place."""
    found, edits = {}, []
    for module, function, old, new in BROKEN[name]:
        place = ("cc_runs", module, function)
        definition = found.setdefault(place, copy.copy(definition_at(place)))
        at = [k for k, line in enumerate(definition.lines) if old in line]
        if len(at) != 1:
            raise Unreadable(f"{name}: {old} isn't in one line of {module}.{function}")
        was = definition.lines[at[0]]
        now = was.replace(old, new).split("\n")
        definition.lines = [*definition.lines[:at[0]], *now, *definition.lines[at[0] + 1:]]
        edits.append((place, was, now))
    return found, edits
