#!/usr/bin/env python3
"""A second program for the texts of `ccq`, and 900 inputs with what has to come of each: the corpus.

    tests/derive.py FOLDER                          writes the corpus into a folder: NAME.in, and NAME.due
    tests/derive.py play|audit|trace|place < INPUT  derives what is due of one input, or the place of its fault

The program is written from docs/FORMATS.md and docs/ARCHITECTURE.md alone: a strict reader of JSON, the checks of plans
and receipts, the machine one step at a time, the audit by its seven kinds, and the place of a fault. It never runs the
program that is tested. Of each row that is to be refused or audited the fault is also written here by hand, and of some
that are played the report; if the two differ, it ends with status 1. `tests/rows.py` gives these rows to `ccq`, and
compares their sums with tests/derived.sums.

NAME.due: line 1 has the task and the exit status, line 2 the standard error, and the others the standard output. If the
input is refused, line 3 is the place that a terminal shows.
"""
import collections
import json
import os
import random
import re
import sys

LIMIT = 16777216
EVENT_LIMIT = 20000
TOP = os.path.dirname(os.path.dirname(os.path.abspath(__file__)))


class Fault(Exception):
    """Why an input is refused, in the program's words."""


# ---------------------------------------------------------------- JSON texts


class Number(str):
    """A number, as it is written."""

    def whole(self):
        """Its value, where it is written as a whole number that a word holds."""
        return int(self) if self.isdigit() and int(self) < 2**64 else None


class Text:
    """One JSON text, read by its grammar. Of each value `spans` has where it begins and ends, by its path, and `names`
    the same of the keys; `token` is where the text, number or word begins that is being read."""

    def __init__(self, data):
        if data.startswith(b"\xef\xbb\xbf"):
            raise Fault("P1")
        try:
            self.text = data.decode("utf-8", "strict")
        except UnicodeDecodeError:
            raise Fault("P1")
        self.at = 0
        self.token, self.path, self.spans, self.names = None, (), {}, {}

    def peek(self):
        return self.text[self.at] if self.at < len(self.text) else ""

    def want(self, word):
        if not self.text.startswith(word, self.at):
            raise Fault("P1")
        self.at += len(word)

    def space(self):
        while self.peek() and self.peek() in " \t\n\r":
            self.at += 1

    def read(self):
        self.space()
        tree = self.value(0)
        self.space()
        if self.peek():
            raise Fault("P1")
        return tree

    def value(self, depth):
        start = self.at
        tree = self.any_value(depth)
        self.spans[self.path] = start, self.at
        return tree

    def inside(self, place, depth):
        """The value at a place of the one that is being read."""
        self.path += (place,)
        tree = self.value(depth)
        self.path = self.path[:-1]
        return tree

    def any_value(self, depth):
        sign = self.peek()
        if sign in ("[", "{") and depth == 127:
            raise Fault("P1")
        if sign == "[":
            return self.array(depth + 1)
        if sign == "{":
            return self.object(depth + 1)
        if sign == '"':
            return self.string()
        for word, value in (("null", None), ("true", True), ("false", False)):
            if sign == word[0]:
                self.token = self.at
                self.want(word)
                self.token = None
                return value
        return self.number()

    def array(self, depth):
        items = []
        self.want("[")
        self.space()
        if self.peek() == "]":
            self.want("]")
            return items
        while True:
            self.space()
            items.append(self.inside(len(items), depth))
            self.space()
            if self.peek() == "]":
                self.want("]")
                return items
            self.want(",")

    def object(self, depth):
        members = {}
        self.want("{")
        self.space()
        if self.peek() == "}":
            self.want("}")
            return members
        while True:
            self.space()
            start = self.at
            key = self.string()
            self.names[self.path + (key,)] = start, self.at
            self.space()
            self.want(":")
            self.space()
            members[key] = self.inside(key, depth)
            self.space()
            if self.peek() == "}":
                self.want("}")
                return members
            self.want(",")

    def unit(self):
        digits = self.text[self.at : self.at + 4]
        if len(digits) < 4 or any(c not in "0123456789abcdefABCDEF" for c in digits):
            raise Fault("P1")
        self.at += 4
        return int(digits, 16)

    def escape(self):
        sign = self.peek()
        self.at += 1
        plain = {'"': '"', "\\": "\\", "/": "/", "b": "\b", "f": "\f", "n": "\n", "r": "\r", "t": "\t"}
        if sign in plain and sign:
            return plain[sign]
        if sign != "u":
            raise Fault("P1")
        unit = self.unit()
        if 0xDC00 <= unit < 0xE000:
            raise Fault("P1")
        if 0xD800 <= unit < 0xDC00:
            self.want("\\u")
            low = self.unit()
            if not 0xDC00 <= low < 0xE000:
                raise Fault("P1")
            return chr(0x10000 + (unit - 0xD800) * 0x400 + low - 0xDC00)
        return chr(unit)

    def string(self):
        self.token = self.at
        self.want('"')
        parts = []
        while True:
            sign = self.peek()
            if not sign or ord(sign) < 0x20:
                raise Fault("P1")
            self.at += 1
            if sign == '"':
                self.token = None
                return "".join(parts)
            parts.append(self.escape() if sign == "\\" else sign)

    def digits(self):
        start = self.at
        while self.peek() and self.peek() in "0123456789":
            self.at += 1
        if self.at == start:
            raise Fault("P1")

    def number(self):
        start = self.token = self.at
        if self.peek() == "-":
            self.at += 1
        if self.peek() == "0":
            self.at += 1
        else:
            self.digits()
        if self.peek() == ".":
            self.at += 1
            self.digits()
        if self.peek() and self.peek() in "eE":
            self.at += 1
            if self.peek() and self.peek() in "+-":
                self.at += 1
            self.digits()
        written = self.text[start : self.at]
        if abs(float(written)) == float("inf"):
            raise Fault("P1")
        self.token = None
        return Number(written)


def tree_of(data):
    if len(data) > LIMIT:
        raise Fault("P3 input")
    return Text(data).read()


# ------------------------------------------------------- shapes and ranges


def need(holds, fault):
    if not holds:
        raise Fault(fault)


def is_number(value):
    return isinstance(value, Number)


def is_list(value):
    return isinstance(value, list)


def check_keys(tree, needed, optional):
    need(isinstance(tree, dict), "P2")
    need(all(key in tree for key in needed), "P2")
    need(all(key in needed or key in optional for key in tree), "P2")


def check_range(number, least, most, key):
    value = number.whole()
    need(value is not None and least <= value <= most, "P3 " + key)
    return value


def pass_of(name):
    """The side and the number of a pass name."""
    digits = name[1:]
    need(name[:1] in ("s", "r") and 1 <= len(digits) <= 10, "P2")
    need(all(c in "0123456789" for c in digits) and digits[0] != "0", "P2")
    return name[0], int(digits)


def version_of(tree):
    """The version whose table holds of a plan or receipts: 2 where the root says so by a whole number, else 1."""
    written = tree.get("version") if isinstance(tree, dict) else None
    return 2 if is_number(written) and written.whole() == 2 else 1


def is_body(value, version):
    """The shape of a body: a number, and in version 2 an array of them."""
    return is_number(value) if version == 1 else is_list(value) and all(is_number(word) for word in value)


def body_of(value, version, key):
    """The words of a body."""
    words = [value] if version == 1 else value
    need(1 <= len(words) <= 4, "P3 " + key)
    return [check_range(word, 0, 2**64 - 1, key) for word in words]


PLAN_KEYS = ["capacity", "bound", "life", "senders", "receivers", "schedule"]


def is_close(call):
    return type(call) is str and call == "close"


def check_plan_shape(tree, version):
    needed, optional = (PLAN_KEYS, ["version"]) if version == 1 else (["version", "groups"] + PLAN_KEYS, [])
    check_keys(tree, needed, optional)
    for key in ["version", "groups", "capacity", "bound", "life"]:
        need(key not in tree or is_number(tree[key]), "P2")
    need(is_list(tree["senders"]) and all(is_list(calls) for calls in tree["senders"]), "P2")
    need(all(is_close(c) or is_body(c, version) for calls in tree["senders"] for c in calls), "P2")
    need(is_list(tree["receivers"]) and all(is_number(n) for n in tree["receivers"]), "P2")
    need(is_list(tree["schedule"]), "P2")
    for entry in tree["schedule"]:
        need(is_list(entry) and len(entry) == 2 and type(entry[0]) is str and is_number(entry[1]), "P2")
        pass_of(entry[0])


def plan_of(data):
    tree = tree_of(data)
    version = version_of(tree)
    check_plan_shape(tree, version)
    if "version" in tree:
        check_range(tree["version"], version, version, "version")
    plan = {
        "version": version,
        "groups": check_range(tree["groups"], 1, 8, "groups") if version == 2 else 1,
        "capacity": check_range(tree["capacity"], 1, 4096, "capacity"),
        "bound": check_range(tree["bound"], 1, 1024, "bound"),
        "life": check_range(tree["life"], 1, 2**48, "life"),
    }
    need(1 <= len(tree["senders"]) <= 64 and all(len(calls) <= 65536 for calls in tree["senders"]), "P3 senders")
    plan["senders"] = [
        [None if is_close(c) else body_of(c, version, "senders") for c in calls] for calls in tree["senders"]
    ]
    each, left = divmod(len(tree["receivers"]), plan["groups"])
    need(left == 0 and 1 <= each <= 64, "P3 receivers")
    plan["receivers"] = [check_range(n, 0, 65536, "receivers") for n in tree["receivers"]]
    need(len(tree["schedule"]) <= 65536, "P3 schedule")
    plan["schedule"] = [
        (pass_of(name), check_range(events, 1, 100000, "schedule")) for name, events in tree["schedule"]
    ]
    for place, ((side, number), _) in enumerate(plan["schedule"]):
        there = plan["senders"] if side == "s" else plan["receivers"]
        need(number <= len(there), "P4 at %d" % place)
    return plan


def receipts_of(data):
    tree = tree_of(data)
    version = version_of(tree)
    check_keys(tree, ["accepted", "taken"], ["version", "total"])
    need("version" not in tree or is_number(tree["version"]), "P2")
    total = tree.get("total")
    need(total is None or is_number(total), "P2")
    for key, length in (("accepted", 4), ("taken", 5)):
        need(is_list(tree[key]), "P2")
        for row in tree[key]:
            need(is_list(row) and len(row) == length and all(is_number(n) for n in row[:-1]), "P2")
            need(is_body(row[-1], version), "P2")
    if "version" in tree:
        check_range(tree["version"], version, version, "version")
    if total is not None:
        total = check_range(total, 0, 2**64 - 1, "total")
    word, number, sender = (0, 2**64 - 1), (1, 2**32 - 1), (1, 64)
    receiver = (1, 64) if version == 1 else (1, 512)
    ranges = {"accepted": [sender, number, word], "taken": [receiver, word, sender, number]}
    rows = {
        key: [
            [check_range(n, *r, key) for n, r in zip(row, ranges[key])] + [body_of(row[-1], version, key)]
            for row in tree[key]
        ]
        for key in ranges
    }
    return rows["accepted"], rows["taken"], total


# ----------------------------------------------------------- where it is refused

# What a part has to be: a test of its shape and one of its range, the words for what doesn't pass, and what its
# elements are.
Want = collections.namedtuple("Want", "shape shape_text range range_text inside")


def wanted_number(least, most):
    text = "is no whole number from %d to %d" % (least, most)
    return Want(is_number, "is no number", lambda n: n.whole() is not None and least <= n.whole() <= most, text, None)


def wanted_array(inside, least=0, most=LIMIT, text="%d to %d"):
    return Want(
        is_list, "is no array", lambda x: least <= len(x) <= most,
        "is no array of " + text % (least, most) + " elements", inside
    )


def wanted_row(parts, text):
    """An array of just these parts."""
    shape = lambda x: is_list(x) and len(x) == len(parts)
    return Want(shape, "is no array of " + text, lambda x: True, "", lambda place: parts[place])


WORD = wanted_number(0, 2**64 - 1)


def wanted_body(version):
    return WORD if version == 1 else wanted_array(lambda place: WORD, 1, 4)


def wanted_call(version):
    body = wanted_body(version)
    kind = "a number" if version == 1 else "an array"
    text = 'is neither %s nor "close"' % kind
    return Want(lambda x: is_close(x) or body.shape(x), text, lambda x: is_close(x) or body.range(x), body.range_text,
                body.inside)


def is_pass_name(value):
    return type(value) is str and re.fullmatch("[sr][1-9][0-9]{0,9}", value, re.ASCII) is not None


def wanted_of_plan(tree, version):
    """The parts of a plan, in the order of its table."""
    written = tree.get("groups")
    groups = is_number(written) and written.whole() or 1
    name = Want(is_pass_name, "is no pass name, as s1 or r1", lambda x: True, "", None)
    entry = wanted_row([name, wanted_number(1, 100000)], "a pass name and a number")
    calls = wanted_array(lambda place: wanted_call(version), 0, 65536)
    receivers = wanted_array(lambda place: wanted_number(0, 65536), groups, 64 * groups)
    if groups > 1:
        receivers = receivers._replace(range_text="is no array of %d times 1 to 64 elements" % groups)
    return {
        "version": wanted_number(1, 2),
        "groups": wanted_number(1, 8),
        "capacity": wanted_number(1, 4096),
        "bound": wanted_number(1, 1024),
        "life": wanted_number(1, 2**48),
        "senders": wanted_array(lambda place: calls, 1, 64),
        "receivers": receivers._replace(range=lambda x: len(x) % groups == 0 and groups <= len(x) <= 64 * groups),
        "schedule": wanted_array(lambda place: entry, 0, 65536),
    }


def wanted_of_receipts(version):
    """The parts of receipts, in the order of their table."""
    number, sender = wanted_number(1, 2**32 - 1), wanted_number(1, 64)
    receiver = wanted_number(1, 64 if version == 1 else 512)
    body = wanted_body(version)
    total = WORD._replace(
        shape=lambda x: x is None or is_number(x),
        shape_text="is neither a number nor null",
        range=lambda x: x is None or WORD.range(x),
    )
    accepted = wanted_row([sender, number, WORD, body], "3 numbers and a body")
    taken = wanted_row([receiver, WORD, sender, number, body], "4 numbers and a body")
    rows = {"accepted": wanted_array(lambda place: accepted), "taken": wanted_array(lambda place: taken)}
    return {"version": wanted_number(1, 2), "total": total, **rows}


def parts_of(path, value, want):
    """A value and those inside of it if it has its shape, each with its path and what it has to be."""
    yield path, value, want
    if is_list(value) and want.inside and want.shape(value):
        for place, element in enumerate(value):
            yield from parts_of(path + (place,), element, want.inside(place))


def quoted(text, kind):
    """The text as it is told: if it is short and plain, else its kind."""
    return text if len(text) <= 40 and re.fullmatch("[ -~]+", text) else kind


def kind_of(value):
    if is_list(value):
        return "an array of %d elements" % len(value)
    return "an object" if isinstance(value, dict) else "a number" if is_number(value) else "a text"


def told_at(text, place, path, said):
    """The line of a fault at a place of the text."""
    front = text[:place]
    spelled = "".join("[%d]" % step if type(step) is int else step for step in path)
    where = "%d:%d" % (front.count("\n") + 1, place - front.rfind("\n"))
    return "%s%s: %s" % (where, spelled and " " + spelled, said)


def unread_place(data):
    """The line of an input that is no JSON: of the token with which it doesn't go on, or of its end."""
    try:
        text = data.decode("utf-8", "strict")
    except UnicodeDecodeError as wrong:
        return told_at(data[: wrong.start].decode(), wrong.start, (), "a byte that is no UTF-8")
    at = 0
    if not data.startswith(b"\xef\xbb\xbf"):
        reader = Text(data)
        try:
            reader.read()
        except Fault:
            at = reader.at if reader.token is None else reader.token
    run = "[^][{},: \t\n\r\"]+"
    at = next((found.start() for found in re.finditer(run, text) if found.start() < at < found.end()), at)
    if at == len(text):
        return told_at(text, at, (), "the text ends too early")
    token = re.compile('"(?:\\\\.|[^"\\\\])*"?|[][{},:]|' + run, re.DOTALL).match(text, at)
    return told_at(text, at, (), quoted(token.group(), "this") + " is no JSON here")


def keys_place(tree, version, wants, receipts):
    """The key of the root that isn't known, or the one that is missing; or None."""
    without = "groups" if version == 1 else ""
    for key in sorted(tree, key=str.encode):
        if key not in wants or key == without:
            return key, "is no key of " + ("receipts" if receipts else "a plan of version %d" % version)
    for key in wants:
        if key not in tree and key not in ("version", "total", without):
            return None, '"%s" is missing' % key
    return None


def place_of(data):
    """What is told at a terminal of where an input is refused."""
    if len(data) > LIMIT:
        return "input is out of its range"
    try:
        reader = Text(data)
        tree = reader.read()
    except Fault:
        return unread_place(data)
    text = reader.text

    def told(path, value, said):
        start, end = reader.spans[path]
        return told_at(text, start, path, quoted(text[start:end], kind_of(value)) + " " + said)

    if not isinstance(tree, dict):
        return told((), tree, "is no object")
    receipts, version = "accepted" in tree or "taken" in tree, version_of(tree)
    wants = wanted_of_receipts(version) if receipts else wanted_of_plan(tree, version)
    keys = keys_place(tree, version, wants, receipts)
    if keys is not None:
        start, end = reader.spans[()] if keys[0] is None else reader.names[keys[0],]
        said = keys[1] if keys[0] is None else quoted(text[start:end], "a text") + " " + keys[1]
        return told_at(text, start, (), said)
    parts = [part for key in wants if key in tree for part in parts_of((key,), tree[key], wants[key])]
    for path, value, want in parts:
        if not want.shape(value):
            return told(path, value, want.shape_text)
    for path, value, want in parts:
        if not want.range(value):
            return told(path, value, want.range_text)
    if receipts:
        return "no fault: these receipts aren't refused"
    counts = {"s": len(tree["senders"]), "r": len(tree["receivers"])}
    for place, (name, _) in enumerate(tree["schedule"]):
        if int(name[1:]) > counts[name[0]]:
            there = ["%s1" % side if count == 1 else "%s1 to %s%d" % (side, side, count)
                     for side, count in counts.items()]
            return told(("schedule", place, 0), name, "names no pass (%s)" % ", ".join(there))
    return "no fault: this plan isn't refused"


# ------------------------------------------------------------- the machine


def tag_of(sender, number, words):
    return (words - 1) * 2**48 + sender * 2**32 + number


def untagged(tag):
    """The sender, the number and how many words, of a tag. A close's tag is 0, and it has one word."""
    return tag // 2**32 % 2**16, tag % 2**32, tag // 2**48 + 1


def spaced(words):
    return " ".join(str(word) for word in words)


def of(chain, field):
    """The name of a word of a chain."""
    return ("d%d.%s" % (chain, field)) if chain else "e." + field


def node(chain, field, number):
    """The name of a word of a chain's node."""
    return "%s[%d]" % (of(chain, field), number)


def answer_word(code, number=0):
    """An answer word: which answer it is, and its number."""
    return code * 2**56 + number


# The chain of the senders. The chain of a group of receivers is the group's number, from 1.
SENDERS = 0


class Pass:
    """A sender or a receiver: its name, its chain, its number in the whole queue, and its own node there."""

    def __init__(self, chain, number, node, calls):
        self.name = ("s%d" if chain == SENDERS else "r%d") % number
        self.chain, self.number, self.node, self.calls = chain, number, node, calls
        self.begun, self.sends, self.steps = 0, 0, None


class Machine:
    """The queue, one atomic step at each `next` of a call: a load, a store, a swap or an add on one of the words, which
    a trace names. `step` has the last one: its kind, its word, and the values before and after."""

    def __init__(self, plan):
        self.capacity, self.bound, self.life = plan["capacity"], plan["bound"], plan["life"]
        self.groups = plan["groups"]
        chains = range(self.groups + 1)
        self.words, self.step = {"list.last": 1, "list.cursor": 1, "list.passed[0]": 0}, None
        for chain in chains:
            self.words[of(chain, "tail")] = self.words[of(chain, "head")] = 1
        for node in range(1, self.capacity + 1):
            self.words["list.passed[%d]" % node] = self.groups
        self.calls, self.answers = [[] for _ in chains], [[] for _ in chains]
        self.sent, self.got, self.total = [], [[] for _ in chains], None

    def change(self, kind, word, by):
        """One step, in which the word's value becomes what is made of it; the value that it found."""
        assert self.step is None, "two steps in one"
        found = self.words.get(word, 0)
        self.words[word] = by(found)
        self.step = {"kind": kind, "word": word, "before": found, "after": self.words[word]}
        return found

    def load(self, kind, word):
        return self.change(kind, word, lambda found: found)

    def store(self, kind, word, value):
        return self.change(kind, word, lambda _: value)

    def call(self, pass_, body):
        """The steps of a call: of a sender a body, or None for a close; of a receiver a take."""
        chain, tag = pass_.chain, 0
        if chain != SENDERS:
            told = "take"
        elif body is None:
            told = "close"
        else:
            told = "send " + spaced(body)
            pass_.sends += 1
            tag = tag_of(pass_.number, pass_.sends, len(body))
        own = pass_.node
        yield self.store("ResetNext", node(chain, "next", own), 0)
        yield self.store("ResetState", node(chain, "state", own), 1)
        pass_.node = self.store("Exchange", of(chain, "tail"), own + 1) - 1
        self.calls[chain].append((pass_.number, told))
        yield
        mine = pass_.node
        if chain == SENDERS:
            yield self.store("WriteRequest", node(chain, "tag", mine), tag)
            yield from self.write_words("WriteRequest", node(chain, "body%d", mine), body or [0])
        yield self.store("Link", node(chain, "next", mine), own + 1)
        state = 1
        while state == 1:
            state = self.load("ReadState", node(chain, "state", mine))
            yield
        if state == 0:
            yield from self.combine(chain, mine)
        answer = self.load("ReadAnswer", node(chain, "ret", mine))
        yield
        if chain != SENDERS and answer // 2**56 == 1:
            tag = self.load("ReadAnswer", node(chain, "tag", mine))
            yield
            yield from self.read_words("ReadAnswer", node(chain, "body%d", mine), untagged(tag)[2], [])

    def combine(self, chain, at):
        served = 0
        while served < self.bound:
            link = self.load("ReadNext", node(chain, "next", at))
            yield
            if link == 0:
                break
            yield from self.serve_send(at) if chain == SENDERS else self.serve_take(chain, at)
            yield self.store("MarkDone", node(chain, "state", at), 2)
            at, served = link - 1, served + 1
        yield self.store("HandOver", node(chain, "state", at), 0)

    def decide(self, chain, *answer):
        self.answers[chain].append(spaced(answer))

    def answer(self, chain, at, word):
        """The step that writes an answer word."""
        return self.store("WriteAnswer", node(chain, "ret", at), word)

    def read_words(self, kind, word, words, body):
        """The first words of a node's body, one at each step, put behind those of a list."""
        for place in range(words):
            body.append(self.load(kind, word % place))
            yield

    def write_words(self, kind, word, body):
        """A body, one word at each step."""
        for place, value in enumerate(body):
            yield self.store(kind, word % place, value)

    def serve_send(self, at):
        tag, body = self.load("ReadRequest", node(SENDERS, "tag", at)), []
        yield
        sender, number, words = untagged(tag)
        yield from self.read_words("ReadRequest", node(SENDERS, "body%d", at), words, body)
        shut = self.load("ReadObject", "list.shut")
        if shut and tag:
            self.decide(SENDERS, "closed")
            yield
            yield self.answer(SENDERS, at, answer_word(3))
            return
        yield
        count = self.load("ReadObject", "list.count")
        if shut:
            self.decide(SENDERS, "already", count)
            yield
            yield self.answer(SENDERS, at, answer_word(6, count))
            return
        if tag and count == self.life:
            self.decide(SENDERS, "spent")
            yield
            yield self.answer(SENDERS, at, answer_word(4))
            return
        yield
        if not tag:
            yield from self.close(count)
            yield self.answer(SENDERS, at, answer_word(5, count))
            return
        free = yield from self.scan()
        if free is None:
            yield self.answer(SENDERS, at, answer_word(2))
            return
        yield self.store("ResetListNode", "list.passed[%d]" % free, 0)
        yield self.store("ResetListNode", "list.next[%d]" % free, 0)
        yield self.store("WriteItem", "list.tag[%d]" % free, tag)
        yield from self.write_words("WriteItem", "list.body%%d[%d]" % free, body)
        last = self.load("ReadObject", "list.last")
        yield
        self.store("LinkLast", "list.next[%d]" % (last - 1), free + 1)
        self.decide(SENDERS, "accepted", count)
        self.sent.append((sender, number, count, body))
        yield
        yield self.store("WriteObject", "list.last", free + 1)
        yield self.store("WriteObject", "list.count", count + 1)
        yield self.store("WriteObject", "list.cursor", (free + 1) % (self.capacity + 1))
        yield self.answer(SENDERS, at, answer_word(1, count))

    def close(self, count):
        """The steps that link the mark and set shut."""
        last = self.load("ReadObject", "list.last")
        yield
        self.store("LinkLast", "list.next[%d]" % (last - 1), self.capacity + 2)
        self.decide(SENDERS, "shut", count)
        self.total = count
        yield
        yield self.store("WriteObject", "list.last", self.capacity + 2)
        yield self.store("WriteObject", "list.shut", 1)

    def scan(self):
        """The steps that look for a free list node from the cursor on, and that node; None where all were busy."""
        cursor = self.load("ReadObject", "list.cursor")
        yield
        for step in range(self.capacity + 1):
            place = (cursor + step) % (self.capacity + 1)
            is_free = self.load("ReadPassed", "list.passed[%d]" % place) == self.groups
            if not is_free and step == self.capacity:
                self.decide(SENDERS, "full")
            yield
            if is_free:
                return place
        return None

    def serve_take(self, group, at):
        head = self.load("ReadObject", of(group, "head"))
        yield
        taken = self.load("ReadObject", of(group, "taken"))
        yield
        link = self.load("ReadDummyNext", "list.next[%d]" % (head - 1))
        if link == 0:
            self.decide(group, "empty")
            yield
            yield self.answer(group, at, answer_word(2))
            return
        yield
        tag, body = self.load("ReadItem", "list.tag[%d]" % (link - 1)), []
        if tag == 0:
            self.decide(group, "ended", taken)
            yield
            yield self.answer(group, at, answer_word(3, taken))
            return
        yield
        sender, number, words = untagged(tag)
        yield from self.read_words("ReadItem", "list.body%%d[%d]" % (link - 1), words, body)
        yield self.store("WriteObject", of(group, "head"), link)
        yield self.store("WriteObject", of(group, "taken"), taken + 1)
        self.change("AddPassed", "list.passed[%d]" % (head - 1), lambda found: found + 1)
        self.decide(group, "got", taken, "s%d" % sender, number, *body)
        self.got[group].append((0, taken, sender, number, body))
        yield
        yield self.answer(group, at, answer_word(1, taken))
        yield self.store("WriteAnswer", node(group, "tag", at), tag)
        yield from self.write_words("WriteAnswer", node(group, "body%d", at), body)

    def event(self, pass_):
        """One event of a pass, which begins its next call where it is idle: its line of a trace, without its number.
        None where it has no call left."""
        while True:
            if pass_.steps is None:
                if not pass_.calls:
                    return None
                pass_.begun += 1
                pass_.steps = self.call(pass_, pass_.calls.pop(0))
            self.step = None
            for _ in pass_.steps:
                return {"pass": pass_.name, **self.step, "call": pass_.begun}
            pass_.steps = None


def passes_of(plan):
    """The passes by their names. Receivers are numbered through, group by group."""
    each = len(plan["receivers"]) // plan["groups"]
    passes = {("s", i + 1): Pass(SENDERS, i + 1, i + 1, list(calls)) for i, calls in enumerate(plan["senders"])}
    for i, takes in enumerate(plan["receivers"]):
        passes["r", i + 1] = Pass(i // each + 1, i + 1, i % each + 1, [None] * takes)
    return passes


def run_of(plan):
    """The machine that followed the schedule of a plan, and its events."""
    machine, passes, events = Machine(plan), passes_of(plan), []
    for name, count in plan["schedule"]:
        for _ in range(count):
            event = machine.event(passes[name])
            if event is None:
                break
            events.append(event)
    return machine, events


def report_of(plan):
    machine, _ = run_of(plan)
    lines = []
    for chain in range(machine.groups + 1):
        side = "s" if chain == SENDERS else "r"
        begins = "E" if chain == SENDERS else "D" if plan["version"] == 1 else "D %d" % chain
        answers = machine.answers[chain]
        for k, (number, told) in enumerate(machine.calls[chain]):
            answer = answers[k] if k < len(answers) else "pending"
            lines.append("%s %d %s%d %s -> %s" % (begins, k, side, number, told, answer))
    verdicts = [verdict_of(machine.sent, got, machine.total) for got in machine.got[1:]]
    return lines + [next((verdict for verdict in verdicts if verdict != CLEAN), CLEAN)]


# --------------------------------------------------------------- the audit


CLEAN = "audit clean"


def kind_at(place, accepted, taken, total):
    """The least kind of fault that holds at a place, or None."""
    sends = [row for row in accepted if row[2] == place]
    takes = [row for row in taken if row[1] == place]
    if len(sends) > 1:
        return 1
    if len(takes) > 1:
        return 2
    if takes and not sends:
        return 3
    if any((s[0], s[1], s[3]) != (t[2], t[3], t[4]) for s in sends for t in takes):
        return 4
    if not takes and any(row[1] > place for row in taken):
        return 5
    if any(a[0] == s[0] and a[2] < place and a[1] >= s[1] for s in sends for a in accepted):
        return 6
    if (sends or takes) and total is not None and place >= total:
        return 7
    return None


def verdict_of(accepted, taken, total):
    named = {row[2] for row in accepted} | {row[1] for row in taken}
    gap = 0
    while gap in {row[1] for row in taken}:
        gap += 1
    for place in sorted(named | {gap}):
        kind = kind_at(place, accepted, taken, total)
        if kind is not None:
            return "audit fault %d place %d" % (kind, place)
    return CLEAN


def trace_of(plan):
    """The status, what is told on standard error, and the lines of a trace."""
    events = run_of(plan)[1]
    if len(events) > EVENT_LIMIT:
        return 5, "ccq: more than 20000 events", []
    lines = [{"event": number + 1, **event} for number, event in enumerate(events)]
    return 0, "", [json.dumps(line, separators=(",", ":")) for line in lines]


def outcome_of(task, data):
    """The status, what is told on standard error, and the lines on standard output."""
    try:
        if task == "trace":
            return trace_of(plan_of(data))
        if task == "play":
            return 0, "", report_of(plan_of(data))
        line = verdict_of(*receipts_of(data))
        return (0 if line == CLEAN else 1), "", [line]
    except Fault as fault:
        return 2, "ccq: plan refused: %s" % fault, []


# ---------------------------------------------------------------- the rows

ROW = {
    "capacity": "2",
    "bound": "2",
    "life": "10",
    "senders": "[[7]]",
    "receivers": "[1]",
    "schedule": '[["s1",100],["r1",100]]',
}


# One item of two words, for two groups of one receiver.
ROW_OF_WORDS = {
    "version": "2",
    "groups": "2",
    "capacity": "2",
    "bound": "2",
    "life": "10",
    "senders": "[[[7,8]]]",
    "receivers": "[1,1]",
    "schedule": '[["s1",100],["r1",100],["r2",100]]',
}


def changed(row, changes):
    """A plan with some values changed; a key with None is left out."""
    members = {**row, **changes}
    return "{" + ",".join('"%s":%s' % (k, v) for k, v in members.items() if v is not None) + "}"


def plan(**changes):
    """The plan of one item with some values changed."""
    return changed(ROW, changes)


def words(**changes):
    """The plan of two words with some values changed."""
    return changed(ROW_OF_WORDS, changes)


def listed(items):
    return "[" + ",".join(items) + "]"


def entries(text):
    """A schedule: `s1 3, r1 100` are three events of `s1`, and then a hundred of `r1`."""
    return listed('["%s",%s]' % tuple(entry.split()) for entry in text.split(","))


def example(name):
    """A text of examples/."""
    with open(os.path.join(TOP, "examples", name + ".json"), encoding="utf-8") as text:
        return text.read()


ONE = plan()
WORDS = words()

# No JSON text: name, input.
NO_JSON = {
    "nothing": "",
    "spaces": "   \n\t",
    "open_brace": "{",
    "open_bracket_of_two_hundred": "[" * 200,
    "one_level_too_deep": "[" * 128 + "]" * 128,
    "objects_one_level_too_deep": '{"a":' * 128 + "1" + "}" * 128,
    "brackets_that_cross": "[{]}",
    "cut_in_a_key": ONE[:20],
    "text_behind": ONE + "x",
    "two_plans": ONE + ONE,
    "comma_behind": ONE + ",",
    "nul_behind": ONE + "\0",
    "nul_before": "\0" + ONE,
    "byte_order_mark": "\ufeff" + ONE,
    "comma_before_the_brace": ONE[:-1] + ",}",
    "comma_in_a_list": plan(receivers="[1,]"),
    "no_comma": ONE.replace(',"bound"', '"bound"'),
    "no_colon": ONE.replace('"bound":2', '"bound" 2'),
    "key_without_quotes": ONE.replace('"bound"', "bound"),
    "single_quotes": ONE.replace('"', "'"),
    "comment": "/* a plan */" + ONE,
    "number_with_a_leading_zero": plan(capacity="02"),
    "number_with_a_plus": plan(capacity="+2"),
    "number_in_hex": plan(capacity="0x2"),
    "number_without_digits_behind_the_point": plan(life="1."),
    "number_without_digits_before_the_point": plan(life=".5"),
    "number_without_an_exponent": plan(life="1e"),
    "number_too_large_for_a_float": plan(life="1e400"),
    "number_of_four_hundred_digits": plan(life="1" * 400),
    "number_with_an_underscore": plan(life="1_0"),
    "minus_alone": plan(capacity="-"),
    "not_a_number": plan(capacity="NaN"),
    "infinity": plan(capacity="Infinity"),
    "word_cut_short": plan(capacity="nul"),
    "word_in_capitals": plan(capacity="TRUE"),
    "text_that_does_not_end": '{"capacity',
    "line_feed_in_a_text": plan(schedule='[["s1\n",1]]'),
    "nul_in_a_text": plan(schedule='[["s1\0",1]]'),
    "unknown_escape": plan(schedule='[["\\x731",1]]'),
    "escape_cut_short": plan(schedule='[["s\\u00",1]]'),
    "lone_high_surrogate": plan(schedule='[["s\\ud800",1]]'),
    "lone_low_surrogate": plan(schedule='[["s\\udc00",1]]'),
    "no_break_space": "\u00a0" + ONE,
    "form_feed": "\f" + ONE,
    "escaped_bracket": "\\[\\]",
    "words_cut_in_a_body": WORDS[: WORDS.index("8")],
    "words_cut_before_the_last_brace": WORDS[:-1],
    "words_and_text_behind": WORDS + "]",
    "body_one_level_too_deep": words(senders="[" * 127 + "]" * 127),
    "comma_in_a_body": words(senders="[[[7,]]]"),
    "no_comma_in_a_body": words(senders="[[[7 8]]]"),
    "body_that_does_not_end": words(senders="[[[7,8]]"),
    "body_in_round_brackets": words(senders="[[(7,8)]]"),
    "word_with_a_leading_zero": words(senders="[[[7,08]]]"),
    "word_too_large_for_a_float": words(senders="[[[7,1e400]]]"),
    "groups_with_a_plus": words(groups="+2"),
    "text_behind_what_is_no_plan": '{"capacity":0,"bound":0} x',
}

# Bytes that are no text in UTF-8: name, input.
NO_UTF8 = {
    "byte_255": b'{"capacity\xff":2}',
    "overlong_slash": b'{"capacity\xc0\xaf":2}',
    "surrogate_as_bytes": b'{"capacity\xed\xa0\x80":2}',
    "character_past_the_last": b'{"capacity\xf4\x90\x80\x80":2}',
    "character_cut_short": b'{"capacity\xe2\x82":2}',
    "utf_16": b"\xff\xfe" + ONE.encode("utf-16-le"),
}

# Plans that are refused: the fault that docs/FORMATS.md gives, and the inputs by their names.
REFUSED_PLANS = {
    "P2": {
        "brackets_of_one_hundred": "[" * 100 + "]" * 100,
        "nested_just_enough": "[" * 127 + "]" * 127,
        "root_is_null": "null",
        "root_is_a_number": "2",
        "root_is_a_text": '"{}"',
        "root_is_an_empty_object": "{}",
        "root_is_a_list_of_a_plan": "[" + ONE + "]",
        "without_capacity": plan(capacity=None),
        "without_schedule": plan(schedule=None),
        "unknown_key_before_a_range": plan(x="1", capacity="0"),
        "empty_key": ONE[:-1] + ',"":1}',
        "key_in_capitals": ONE.replace("bound", "Bound"),
        "key_with_a_space": ONE.replace('"bound"', '"bound "'),
        "key_with_a_nul": ONE.replace('"bound"', '"bound\\u0000"'),
        "key_in_wide_letters": ONE.replace('"life"', '"\uff4cife"'),
        "capacity_is_a_text": plan(capacity='"2"'),
        "capacity_is_null": plan(capacity="null"),
        "version_is_null": plan(version="null"),
        "bound_is_a_list": plan(bound="[2]"),
        "life_is_an_object": plan(life='{"life":10}'),
        "senders_is_an_object": plan(senders='{"0":[7]}'),
        "sender_is_a_number": plan(senders="[7]"),
        "body_is_a_list": plan(senders="[[[7]]]"),
        "body_is_null": plan(senders="[[null]]"),
        "close_in_capitals": plan(senders='[["Close"]]'),
        "close_with_a_space": plan(senders='[["close "]]'),
        "close_with_a_nul": plan(senders='[["close\\u0000"]]'),
        "receivers_is_a_number": plan(receivers="1"),
        "receiver_is_a_list": plan(receivers="[[1]]"),
        "schedule_is_a_text": plan(schedule='"s1"'),
        "entry_is_a_text": plan(schedule='["s1"]'),
        "entry_of_one": plan(schedule='[["s1"]]'),
        "entry_of_three": plan(schedule='[["s1",1,1]]'),
        "entry_the_other_way_round": plan(schedule='[[1,"s1"]]'),
        "entry_is_an_object": plan(schedule='[{"s1":1}]'),
        "pass_name_empty": plan(schedule='[["",1]]'),
        "pass_name_without_a_number": plan(schedule='[["s",1]]'),
        "pass_name_of_zero": plan(schedule='[["s0",1]]'),
        "pass_name_with_a_leading_zero": plan(schedule='[["s01",1]]'),
        "pass_name_in_capitals": plan(schedule='[["S1",1]]'),
        "pass_name_of_another_letter": plan(schedule='[["t1",1]]'),
        "pass_name_with_a_sign": plan(schedule='[["s-1",1]]'),
        "pass_name_with_a_space": plan(schedule='[["s1 ",1]]'),
        "pass_name_with_a_wide_digit": plan(schedule='[["s\uff11",1]]'),
        "pass_name_of_eleven_digits": plan(schedule='[["s12345678901",1]]'),
        "pass_name_behind_a_stranger": plan(schedule='[["s9",1],["s01",1]]'),
        "receipts_as_a_plan": '{"accepted":[],"taken":[]}',
        "version_two": plan(version="2"),
        "version_two_with_all_out_of_range": plan(version="2", capacity="0", senders="[]", receivers="[]"),
        "version_two_as_a_text": words(version='"2"'),
        "version_two_with_a_point": words(version="2.0"),
        "version_two_with_an_exponent": words(version="2e0"),
        "version_two_as_a_list": words(version="[2]"),
        "version_two_below_zero": words(version="-2"),
        "version_three_with_groups": words(version="3"),
        "version_one_behind_version_two": WORDS[:-1] + ',"version":1}',
        "groups_without_a_version": words(version=None),
        "groups_in_version_one": plan(version="1", groups="1"),
        "bodies_of_words_in_version_one": plan(version="1", senders="[[[7]]]"),
        "words_without_groups": words(groups=None),
        "words_without_life": words(life=None),
        "words_without_receivers": words(receivers=None),
        "words_and_an_unknown_key": words(x="1", groups="0"),
        "groups_in_capitals": WORDS.replace("groups", "Groups"),
        "groups_is_a_text": words(groups='"2"'),
        "groups_is_null": words(groups="null"),
        "groups_is_true": words(groups="true"),
        "groups_is_a_list": words(groups="[1,1]"),
        "groups_is_an_object": words(groups='{"1":[1],"2":[1]}'),
        "body_is_a_number_in_version_two": words(senders="[[7]]"),
        "body_is_a_number_behind_a_body": words(senders="[[[7],8]]"),
        "body_is_a_text": words(senders='[["7 8"]]'),
        "body_is_an_object": words(senders='[[{"0":7}]]'),
        "body_in_a_body": words(senders="[[[[7,8]]]]"),
        "empty_body_in_a_body": words(senders="[[[[]]]]"),
        "body_nested_just_enough": words(senders="[" * 126 + "]" * 126),
        "word_is_a_text": words(senders='[[[7,"8"]]]'),
        "word_is_null": words(senders="[[[7,null]]]"),
        "word_is_false": words(senders="[[[false]]]"),
        "close_in_a_body": words(senders='[[["close"]]]'),
        "close_in_place_of_a_sender": words(senders='["close"]'),
        "sender_in_place_of_a_body": words(senders="[[7,8]]"),
        "five_words_and_a_text": words(senders='[[[1,2,3,4,"5"]]]'),
        "receivers_by_groups": words(receivers="[[1],[1]]"),
        "receivers_of_a_close": words(receivers='[1,"close"]'),
        "pass_name_with_a_group": words(schedule='[["r1.2",1]]'),
        "pass_name_of_zero_among_groups": words(schedule='[["r9",1],["r0",1]]'),
        "entry_with_a_group": words(schedule='[["r",1,1]]'),
        "receipts_of_words_as_a_plan": '{"version":2,"accepted":[],"taken":[]}',
        "root_is_an_empty_list": "[]",
        "unknown_key_first": '{"x":1,' + plan(capacity="0")[1:],
        "unknown_key_that_begins_as_one_that_is_known": plan(**{"capacit\\u0079s": "1"}),
        "total_in_a_plan": plan(total="1"),
        "version_one_as_a_text": plan(version='"1"'),
        "groups_without_version_two": plan(groups="1"),
        "capacity_is_a_list": plan(capacity="[2]"),
        "bound_is_true": plan(bound="true"),
        "life_is_an_empty_object": plan(life="{}"),
        "senders_is_a_number": plan(senders="7"),
        "senders_is_an_empty_object": plan(senders="{}"),
        "call_is_a_text": plan(senders='[["open"]]'),
        "body_is_null_behind_another": plan(senders="[[7],[null]]"),
        "receiver_is_a_text": plan(receivers='["1"]'),
        "schedule_is_an_empty_object": plan(schedule="{}"),
        "events_as_a_text": plan(schedule='[["s1","1"]]'),
        "pass_name_with_a_plus": plan(schedule='[["s+1",1]]'),
        "pass_name_with_a_letter_behind": plan(schedule='[["s1x",1]]'),
        "pass_name_of_zero_before_another": plan(schedule='[["s0",100],["r1",100]]'),
        "pass_name_behind_events_of_zero": plan(schedule='[["s1",0],["s01",1]]'),
        "without_bound": plan(bound=None),
        "without_life": plan(life=None),
        "without_senders": plan(senders=None),
        "without_receivers": plan(receivers=None),
        "version_two_first_of_a_plan_of_numbers": '{"version":2,' + ONE[1:],
        "version_two_alone": '{"version":2}',
        "version_one_with_groups": words(version="1"),
        "words_and_an_unknown_key_alone": words(x="1"),
        "words_without_groups_of_capacity_zero": words(groups=None, capacity="0"),
        "words_without_capacity": words(capacity=None),
        "words_without_bound": words(bound=None),
        "words_without_senders": words(senders=None),
        "words_without_schedule": words(schedule=None),
        "groups_is_a_list_of_one": words(groups="[2]"),
        "close_in_capitals_among_bodies": words(senders='[["Close"]]'),
        "body_of_one_word_in_a_body": words(senders="[[[[7]]]]"),
        "body_is_an_empty_object": words(senders="[[{}]]"),
        "body_is_a_number_before_all_ranges": words(groups="9", capacity="0", bound="0", senders="[[7]]",
                                                    receivers="[]"),
        "pass_name_of_a_group_with_a_leading_zero": words(schedule='[["r02",1]]'),
    },
    "P3 version": {
        "version_before_capacity": plan(version="0", capacity="0"),
        "version_three": plan(version="3"),
        "version_two_and_a_point_alone": plan(version="2.0"),
        "version_two_and_an_exponent_alone": plan(version="2e0"),
        "version_two_below_zero_alone": plan(version="-2"),
        "version_two_past_a_word": plan(version="18446744073709551618"),
        "version_zero": plan(version="0"),
        "version_three_before_capacity": plan(version="3", capacity="0"),
        "version_three_first": '{"version":3,' + ONE[1:],
    },
    "P3 groups": {
        "groups_zero": words(groups="0", capacity="0"),
        "groups_nine": words(groups="9", receivers="[1,1,1,1,1,1,1,1,1]"),
        "groups_nine_with_bound_zero": words(groups="9", bound="0"),
        "groups_below_zero": words(groups="-1"),
        "groups_with_a_point": words(groups="2.0"),
        "groups_with_an_exponent": words(groups="2e0"),
        "groups_past_a_word": words(groups="18446744073709551618"),
        "groups_behind_a_duplicate": WORDS[:-1] + ',"groups":9}',
        "groups_zero_alone": words(groups="0"),
        "groups_nine_alone": words(groups="9"),
        "groups_nine_before_all_ranges": words(groups="9", capacity="0", bound="0", receivers="[]"),
    },
    "P3 capacity": {
        "capacity_zero_of_words": words(capacity="0", bound="0"),
        "capacity_past_its_range_of_words": words(capacity="4097", senders="[[[]]]"),
        "capacity_past_its_range": plan(capacity="4097"),
        "capacity_with_a_point": plan(capacity="2.0"),
        "capacity_with_an_exponent": plan(capacity="2e0"),
        "capacity_of_two_words": plan(capacity="36893488147419103234"),
        "capacity_zero_alone": plan(capacity="0"),
        "capacity_behind_bound": changed({"bound": "0", **ROW}, {"bound": "0", "capacity": "0"}),
        "capacity_past_its_range_of_words_alone": words(capacity="4097"),
        "capacity_before_the_ranges_behind_it": words(capacity="0", bound="0", senders="[[[]]]", receivers="[]"),
    },
    "P3 bound": {
        "bound_zero": plan(bound="0"),
        "bound_past_its_range": plan(bound="1025"),
        "bound_past_its_range_of_words": words(bound="1025", life="0"),
        "bound_past_its_range_of_words_alone": words(bound="1025"),
        "bound_before_the_ranges_behind_it": words(bound="0", life="0", senders="[[[]]]", receivers="[]"),
    },
    "P3 life": {
        "life_past_its_range_of_words": words(life="281474976710657", receivers="[1]"),
        "life_zero": plan(life="0"),
        "life_past_its_range": plan(life="281474976710657"),
        "life_too_small_for_a_float": plan(life="1e-400"),
        "life_behind_a_duplicate": ONE[:-1] + ',"life":0}',
        "life_past_its_range_of_words_alone": words(life="281474976710657"),
        "life_before_the_ranges_behind_it": plan(life="0", senders="[]", receivers="[]", schedule='[["s1",0]]'),
        "life_before_the_ranges_behind_it_of_words": words(life="0", senders="[[[]]]", receivers="[]"),
    },
    "P3 senders": {
        "no_senders": plan(senders="[]"),
        "sixty_five_senders": plan(senders="[" + ",".join(["[]"] * 65) + "]"),
        "body_below_zero": plan(senders="[[-7]]"),
        "body_with_a_point": plan(senders="[[7.0]]"),
        "body_empty": words(senders="[[[]]]"),
        "body_empty_behind_others": words(senders='[[[7],"close"],[[1,2,3,4],[]]]'),
        "body_of_five_words": words(senders="[[[1,2,3,4,5]]]"),
        "body_of_a_thousand_words": words(senders="[[[%s]]]" % ",".join(["7"] * 1000)),
        "word_below_zero": words(senders="[[[7,-8]]]"),
        "word_with_a_point": words(senders="[[[7,8.0]]]"),
        "word_with_an_exponent": words(senders="[[[7e0,8]]]"),
        "last_word_past_its_range": words(senders="[[[1,2,3,18446744073709551616]]]"),
        "first_word_past_its_range": words(senders="[[[18446744073709551616,2]]]"),
        "no_senders_of_words": words(senders="[]", receivers="[]"),
        "sixty_five_senders_of_words": words(senders="[" + ",".join(["[]"] * 65) + "]"),
        "body_empty_before_receivers": words(senders="[[[]]]", receivers="[1]", schedule='[["s1",0]]'),
        "body_below_zero_of_a_second_sender": plan(senders="[[7],[-1]]"),
        "no_senders_before_the_ranges_behind": plan(senders="[]", receivers="[]", schedule='[["s1",0]]'),
        "no_senders_of_words_alone": words(senders="[]"),
        "lone_word_with_a_point": words(senders="[[[1.5]]]"),
        "last_of_two_words_below_zero": words(senders="[[[7,-1]]]"),
        "body_empty_of_a_second_sender": words(senders="[[[7]],[[]]]"),
        "body_empty_before_the_ranges_behind": words(senders="[[[]]]", receivers="[]", schedule='[["r3",0]]'),
    },
    "P3 receivers": {
        "one_receiver_of_two_groups": words(receivers="[1]"),
        "three_receivers_of_two_groups": words(receivers="[1,1,1]"),
        "no_receivers_of_two_groups": words(receivers="[]"),
        "sixty_five_receivers_of_one_group": words(groups="1", receivers=listed(["0"] * 65)),
        "sixty_five_receivers_of_each_group": words(receivers=listed(["0"] * 130)),
        "receivers_past_those_of_two_groups": words(receivers=listed(["0"] * 129)),
        "sixty_five_receivers_of_eight_groups": words(groups="8", receivers=listed(["0"] * 520)),
        "receivers_past_those_of_eight_groups": words(groups="8", receivers=listed(["0"] * 513)),
        "seven_receivers_of_eight_groups": words(groups="8", receivers="[1,1,1,1,1,1,1]"),
        "takes_past_their_range_of_a_group": words(receivers="[1,65537]"),
        "takes_with_a_point": words(receivers="[1.0,1]"),
        "one_receiver_before_the_schedule": words(receivers="[1]", schedule='[["s1",0]]'),
        "no_receivers": plan(receivers="[]"),
        "sixty_five_receivers": plan(receivers="[" + ",".join(["0"] * 65) + "]"),
        "takes_past_their_range": plan(receivers="[65537]"),
        "takes_past_their_range_behind_others": plan(receivers="[1,65537]"),
        "no_receivers_before_the_schedule": plan(senders="[[]]", receivers="[]", schedule='[["s1",0]]'),
        "no_receivers_of_words_before_the_schedule": words(senders="[[[7]]]", receivers="[]", schedule='[["r3",0]]'),
        "two_receivers_of_three_groups": words(groups="3"),
        "two_receivers_of_eight_groups": words(groups="8"),
    },
    "P3 schedule": {
        "events_zero": plan(schedule='[["s1",0]]'),
        "events_past_their_range": plan(schedule='[["s1",100001]]'),
        "events_zero_behind_a_stranger": plan(schedule='[["s2",1],["s1",0]]'),
        "events_zero_of_a_group": words(schedule='[["r3",1],["r2",0]]'),
        "events_past_their_range_of_a_group": words(schedule='[["r2",100001]]'),
        "events_zero_of_a_stranger": plan(schedule='[["s2",0]]'),
        "events_zero_of_a_stranger_of_words": words(senders="[[[7]]]", receivers="[0,0]", schedule='[["r3",0]]'),
    },
    "P4 at 0": {
        "stranger_among_receivers": plan(schedule='[["r9",1]]'),
        "stranger_of_ten_digits": plan(schedule='[["s9999999999",1]]'),
        "stranger_past_thirty_two_bits": plan(schedule='[["s4294967297",1]]'),
        "stranger_of_the_other_side": plan(senders="[[7],[9]]", schedule='[["r2",1],["s3",1]]'),
        "stranger_of_a_third_group": words(schedule='[["r3",1],["s2",1]]'),
        "stranger_of_a_second_group": words(groups="1", receivers="[1]", schedule='[["r2",1]]'),
        "stranger_with_one_number_in_each_group": words(receivers="[1,1,1,1]", schedule='[["r5",1],["r4",1]]'),
        "stranger_among_senders_of_words": words(schedule='[["s2",1]]'),
    },
    "P4 at 1": {
        "stranger_behind_the_last_receiver_of_two_groups": words(
            receivers=listed(["0"] * 128), schedule='[["r128",1],["r129",1]]'
        ),
        "stranger_behind_the_last_receiver_of_eight_groups": words(
            groups="8", receivers=listed(["0"] * 512), schedule='[["r512",1],["r513",1]]'
        ),
        "first_of_two_strangers": plan(schedule='[["s1",1],["s3",1],["r2",1]]'),
        "stranger_behind_a_receiver_of_words": words(schedule='[["r1",1],["r3",1]]'),
    },
}

# Receipts that are refused.
REFUSED_RECEIPTS = {
    "P1": {
        "receipts_cut_short": '{"accepted":[],"taken":[]',
        "receipts_with_text_behind": '{"accepted":[],"taken":[]}]',
        "receipts_cut_in_a_body": '{"version":2,"accepted":[[1,1,0,[5,',
        "receipts_of_nothing": "",
        "receipts_cut_behind_a_list": '{"accepted":[]',
        "receipts_one_level_too_deep": "[" * 128 + "]" * 128,
    },
    "P2": {
        "plan_as_receipts": ONE,
        "receipts_without_taken": '{"accepted":[]}',
        "receipts_of_objects": '{"accepted":[{}],"taken":[]}',
        "short_row_of_accepted": '{"accepted":[[1,1,0]],"taken":[]}',
        "long_row_of_taken": '{"accepted":[],"taken":[[1,0,1,1,5,6]]}',
        "text_in_a_row": '{"accepted":[[1,1,0,"5"]],"taken":[]}',
        "short_row_behind_a_bad_range": '{"accepted":[[0,1,0,5]],"taken":[[1]]}',
        "total_is_a_text": '{"total":"0","accepted":[],"taken":[]}',
        "receipts_version_is_null": '{"version":null,"accepted":[],"taken":[]}',
        "receipts_version_is_a_text": '{"version":"2","accepted":[[1,1,0,[5]]],"taken":[]}',
        "receipts_of_words_without_a_version": '{"accepted":[[1,1,0,[5]]],"taken":[]}',
        "receipts_of_words_in_version_one": '{"version":1,"accepted":[],"taken":[[1,0,1,1,[5]]]}',
        "receipts_of_words_in_version_three": '{"version":3,"accepted":[[1,1,0,[5]]],"taken":[]}',
        "receipts_of_words_in_version_two_with_a_point": '{"version":2.0,"accepted":[[1,1,0,[5]]],"taken":[]}',
        "accepted_number_in_version_two": '{"version":2,"accepted":[[1,1,0,5]],"taken":[]}',
        "taken_number_in_version_two": '{"version":2,"accepted":[[1,1,0,[5]]],"taken":[[1,0,1,1,5]]}',
        "words_without_a_list": '{"version":2,"accepted":[[1,1,0,5,6]],"taken":[]}',
        "two_bodies_in_a_row": '{"version":2,"accepted":[[1,1,0,[5],[6]]],"taken":[]}',
        "row_without_a_body": '{"version":2,"accepted":[],"taken":[[1,0,1,1]]}',
        "body_first_in_a_row": '{"version":2,"accepted":[[[5],1,1,0]],"taken":[]}',
        "list_in_place_of_a_sender": '{"version":2,"accepted":[[[1],1,0,[5]]],"taken":[]}',
        "body_in_a_body_of_a_row": '{"version":2,"accepted":[[1,1,0,[[5]]]],"taken":[]}',
        "text_in_a_body_of_a_row": '{"version":2,"accepted":[],"taken":[[1,0,1,1,["5"]]]}',
        "five_words_and_null_in_a_row": '{"version":2,"accepted":[[1,1,0,[1,2,3,4,null]]],"taken":[]}',
        "receipts_with_groups": '{"version":2,"groups":2,"accepted":[],"taken":[]}',
        "receipts_of_words_without_accepted": '{"version":2,"taken":[]}',
        "words_as_receipts": WORDS,
        "receipts_of_one_hundred_brackets": "[" * 100 + "]" * 100,
        "receipts_nested_just_enough": "[" * 127 + "]" * 127,
        "receipts_are_a_list": "[]",
        "receipts_without_accepted": '{"taken":[]}',
        "receipts_version_one_as_a_text": '{"version":"1","accepted":[],"taken":[]}',
        "receipts_version_is_a_list": '{"version":[2],"accepted":[],"taken":[]}',
        "receipts_with_an_unknown_key": '{"versions":1,"accepted":[],"taken":[]}',
        "total_of_one_as_a_text": '{"total":"1","accepted":[],"taken":[]}',
        "total_is_false": '{"total":false,"accepted":[],"taken":[]}',
        "accepted_is_an_object": '{"accepted":{},"taken":[]}',
        "taken_is_null": '{"accepted":[],"taken":null}',
        "row_of_accepted_is_a_number": '{"accepted":[1],"taken":[]}',
        "long_row_of_accepted": '{"accepted":[[1,1,0,5,6]],"taken":[]}',
        "short_row_of_taken": '{"accepted":[],"taken":[[1,0,1,1]]}',
        "null_in_a_row": '{"accepted":[],"taken":[[1,0,null,1,5]]}',
        "accepted_body_in_version_one": '{"version":1,"accepted":[[1,1,0,[5]]],"taken":[]}',
        "taken_number_alone_in_version_two": '{"version":2,"accepted":[],"taken":[[1,0,1,1,5]]}',
        "list_in_place_of_a_place": '{"version":2,"accepted":[[1,1,[0],[5]]],"taken":[]}',
        "text_in_an_accepted_body": '{"version":2,"accepted":[[1,1,0,["5"]]],"taken":[]}',
        "row_of_accepted_without_a_body": '{"version":2,"accepted":[[1,1,0]],"taken":[]}',
        "number_behind_a_body": '{"version":2,"accepted":[[1,1,0,[5],6]],"taken":[]}',
        "short_row_with_a_body": '{"version":2,"accepted":[],"taken":[[1,0,1,[5]]]}',
        "row_of_nothing": '{"version":2,"accepted":[[]],"taken":[]}',
        "short_row_behind_an_empty_body": '{"version":2,"accepted":[[1,1,0,[]]],"taken":[[1]]}',
    },
    "P3 version": {
        "receipts_version_zero": '{"version":0,"accepted":[],"taken":[]}',
        "receipts_version_three": '{"version":3,"total":-1,"accepted":[[0,1,0,5]],"taken":[]}',
        "receipts_version_two_with_a_point": '{"version":2.0,"accepted":[[1,1,0,5]],"taken":[]}',
        "receipts_version_of_one_and_a_half": '{"total":1.5,"accepted":[],"taken":[],"version":1.5}',
        "receipts_version_one_with_a_point": '{"version":1.0,"accepted":[],"taken":[]}',
        "receipts_version_three_alone": '{"version":3,"accepted":[],"taken":[]}',
        "receipts_version_zero_with_a_row": '{"version":0,"accepted":[[1,1,0,5]],"taken":[]}',
        "receipts_version_of_one_and_a_half_with_a_row": '{"version":1.5,"accepted":[],"taken":[[1,0,1,1,5]]}',
    },
    "P3 total": {
        "total_with_a_point_of_words": '{"version":2,"total":2.0,"accepted":[[1,1,0,[]]],"taken":[]}',
        "total_before_accepted_in_version_one": '{"version":1,"total":-1,"accepted":[[0,1,0,5]],"taken":[]}',
        "total_below_zero": '{"total":-1,"accepted":[[0,0,0,0]],"taken":[]}',
        "total_of_two_words": '{"total":18446744073709551616,"accepted":[],"taken":[]}',
        "total_of_one_and_a_half": '{"total":1.5,"accepted":[[0,1,0,5]],"taken":[]}',
        "total_below_zero_alone": '{"total":-1,"accepted":[],"taken":[]}',
        "total_of_one_and_a_half_of_words": '{"version":2,"total":1.5,"accepted":[[1,1,0,[]]],"taken":[]}',
    },
    "P3 accepted": {
        "sender_sixty_five": '{"accepted":[[65,1,0,5]],"taken":[[0,0,1,1,5]]}',
        "number_zero": '{"accepted":[[1,0,0,5]],"taken":[]}',
        "number_past_thirty_two_bits": '{"accepted":[[1,4294967296,0,5]],"taken":[]}',
        "place_of_two_words": '{"accepted":[[1,1,18446744073709551616,5]],"taken":[]}',
        "accepted_body_empty": '{"version":2,"accepted":[[1,1,0,[]]],"taken":[[1,0,1,1,[]]]}',
        "accepted_body_of_five_words": '{"version":2,"accepted":[[1,1,0,[1,2,3,4,5]]],"taken":[]}',
        "accepted_word_with_a_point": '{"version":2,"accepted":[[1,1,0,[1,2.5]]],"taken":[]}',
        "accepted_word_past_its_range": '{"version":2,"accepted":[[1,1,0,[1,2,3,18446744073709551616]]],"taken":[]}',
        "sender_sixty_five_of_words": '{"version":2,"accepted":[[65,1,0,[5]]],"taken":[[513,0,1,1,[5]]]}',
        "number_past_thirty_two_bits_of_words": '{"version":2,"accepted":[[1,4294967296,0,[5]]],"taken":[]}',
        "sender_zero_in_version_one": '{"version":1,"accepted":[[0,1,0,5]],"taken":[]}',
        "place_below_zero": '{"accepted":[[1,1,-1,5]],"taken":[]}',
        "accepted_body_past_its_range": '{"accepted":[[1,1,0,18446744073709551616]],"taken":[]}',
        "accepted_body_empty_before_taken": '{"version":2,"accepted":[[1,1,0,[]]],"taken":[[0,0,1,1,[5]]]}',
        "accepted_word_below_zero": '{"version":2,"accepted":[[1,1,0,[1,2,3,-4]]],"taken":[]}',
        "sender_sixty_five_of_words_alone": '{"version":2,"accepted":[[65,1,0,[5]]],"taken":[]}',
        "number_zero_of_words": '{"version":2,"accepted":[[1,0,0,[5]]],"taken":[]}',
    },
    "P3 taken": {
        "receiver_sixty_five": '{"accepted":[],"taken":[[65,0,1,1,5]]}',
        "number_zero_of_a_take": '{"accepted":[],"taken":[[1,0,1,0,5]]}',
        "body_of_a_take_with_a_point": '{"accepted":[],"taken":[[1,0,1,1,5.0]]}',
        "receiver_sixty_five_in_version_one": '{"version":1,"accepted":[],"taken":[[65,0,1,1,5]]}',
        "receiver_five_hundred_and_thirteen": '{"version":2,"accepted":[],"taken":[[513,0,1,1,[5]]]}',
        "receiver_zero_of_words": '{"version":2,"accepted":[],"taken":[[0,0,1,1,[5]]]}',
        "sender_sixty_five_of_a_take": '{"version":2,"accepted":[],"taken":[[65,0,65,1,[5]]]}',
        "taken_body_empty": '{"version":2,"accepted":[[1,1,0,[5]]],"taken":[[1,0,1,1,[]]]}',
        "taken_body_of_five_words": '{"version":2,"accepted":[],"taken":[[1,0,1,1,[1,2,3,4,5]]]}',
        "taken_word_below_zero": '{"version":2,"accepted":[],"taken":[[1,0,1,1,[5,-6]]]}',
        "receiver_zero": '{"accepted":[],"taken":[[0,0,1,1,5]]}',
        "place_of_a_take_with_a_point": '{"accepted":[],"taken":[[1,1.5,1,1,5]]}',
        "sender_sixty_five_of_a_take_in_version_one": '{"accepted":[],"taken":[[1,0,65,1,5]]}',
        "body_of_a_take_with_an_exponent": '{"accepted":[],"taken":[[1,0,1,1,1e2]]}',
        "taken_body_empty_alone": '{"version":2,"accepted":[],"taken":[[1,0,1,1,[]]]}',
        "taken_word_past_its_range": '{"version":2,"accepted":[],"taken":[[1,0,1,1,[18446744073709551616]]]}',
        "sender_sixty_five_of_a_take_of_words": '{"version":2,"accepted":[],"taken":[[1,0,65,1,[5]]]}',
    },
}

GREATEST = "18446744073709551615"

# Receipts that are audited: the verdict that docs/FORMATS.md gives, and the inputs by their names.
AUDITED = {
    "audit clean": {
        "no_receipts": '{"accepted":[],"taken":[]}',
        "numbers_with_holes": '{"accepted":[[1,3,0,5],[2,9,1,5],[1,4294967295,2,5]],"taken":[]}',
        "rows_in_falling_order": '{"accepted":[[1,2,1,6],[1,1,0,5]],"taken":[[1,1,1,2,6],[1,0,1,1,5]]}',
        "places_with_a_hole": '{"accepted":[[1,1,9,5]],"taken":[]}',
        "receipts_with_a_version": '{"version":1,"accepted":[],"taken":[]}',
        "receipts_of_version_one": '{"taken":[[64,0,1,1,5]],"accepted":[[1,1,0,5]],"total":1,"version":1}',
        "no_receipts_of_words": '{"version":2,"accepted":[],"taken":[]}',
        "no_receipts_of_words_and_no_total": '{"version":2,"total":null,"accepted":[],"taken":[]}',
        "bodies_of_each_length": '{"version":2,"total":4,'
        '"accepted":[[1,1,0,[5]],[1,2,1,[5,6]],[2,1,2,[5,6,7]],[64,9,3,[5,6,7,8]]],'
        '"taken":[[1,0,1,1,[5]],[512,1,1,2,[5,6]],[65,2,2,1,[5,6,7]],[1,3,64,9,[5,6,7,8]]]}',
        "greatest_words": '{"version":2,"accepted":[[64,4294967295,0,[%s]]],"taken":[[512,0,64,4294967295,[%s]]]}'
        % (",".join([GREATEST] * 4), ",".join([GREATEST] * 4)),
        "receipts_of_words": example("receipts_of_words"),
        "receipts_behind_a_duplicate_version": '{"version":1,"accepted":[[1,1,0,[0]]],"taken":[],"version":2}',
        "total_is_null": '{"total":null,"accepted":[],"taken":[]}',
        "total_just_enough": '{"total":1,"accepted":[[1,1,0,5]],"taken":[[1,0,1,1,5]]}',
        "numbers_with_holes_of_two_senders": '{"accepted":[[1,1,0,5],[2,9,1,5],[1,2,2,5]],"taken":[]}',
        "body_of_four_words_taken": '{"version":2,"accepted":[[1,1,0,[5,6,7,8]]],"taken":[[512,0,1,1,[5,6,7,8]]]}',
    },
    "audit fault 1 place 0": {
        "accepted_twice_and_more": '{"total":0,"accepted":[[1,1,0,5],[1,1,0,5]],"taken":[[1,0,1,1,5],[1,0,1,1,5]]}',
        "accepted_twice_with_other_words":
            '{"version":2,"accepted":[[1,1,0,[5]],[1,2,0,[5,6]]],"taken":[[1,0,1,1,[5]]]}',
        "accepted_twice_alike": '{"accepted":[[1,1,0,5],[1,1,0,5]],"taken":[]}',
    },
    "audit fault 2 place 0": {
        "taken_by_two_groups": '{"version":2,"accepted":[[1,1,0,[7,8]]],"taken":[[1,0,1,1,[7,8]],[2,0,1,1,[7,8]]]}',
        "taken_twice_by_one": '{"accepted":[[1,1,0,5]],"taken":[[1,0,1,1,5],[1,0,1,1,5]]}',
        "taken_twice_and_never_sent": '{"total":0,"accepted":[],"taken":[[1,0,1,1,5],[1,0,1,1,5]]}',
    },
    "audit fault 3 place 0": {
        "invented_in_four_words": '{"version":2,"total":0,"accepted":[],"taken":[[512,0,1,1,[0,0,0,0]]]}',
        "invented_below_a_place_accepted_twice": '{"accepted":[[1,1,3,5],[2,1,3,6]],"taken":[[1,0,1,1,5]]}',
        "invented_past_the_total": '{"total":0,"accepted":[],"taken":[[1,0,1,1,5]]}',
    },
    "audit fault 3 place 1": {
        "invented_behind_another": '{"version":2,"accepted":[[1,1,0,[5,6]],[1,2,2,[5,6]]],'
        '"taken":[[1,0,1,1,[5,6]],[1,1,1,2,[5,6]]]}',
    },
    "audit fault 4 place 0": {
        "altered_by_a_word_more": '{"version":2,"accepted":[[1,1,0,[5]]],"taken":[[1,0,1,1,[5,0]]]}',
        "altered_by_a_word_less": '{"version":2,"accepted":[[1,1,0,[5,0]]],"taken":[[1,0,1,1,[5]]]}',
        "altered_in_the_first_word": '{"version":2,"accepted":[[1,1,0,[1,2,3,4]]],"taken":[[1,0,1,1,[9,2,3,4]]]}',
        "altered_in_the_second_word": '{"version":2,"accepted":[[1,1,0,[1,2,3,4]]],"taken":[[1,0,1,1,[1,9,3,4]]]}',
        "altered_in_the_third_word": '{"version":2,"accepted":[[1,1,0,[1,2,3,4]]],"taken":[[1,0,1,1,[1,2,9,4]]]}',
        "altered_in_the_last_word": '{"version":2,"accepted":[[1,1,0,[1,2,3,4]]],"taken":[[1,0,1,1,[1,2,3,9]]]}',
        "altered_in_the_last_of_two_words": '{"version":2,"accepted":[[1,1,0,[1,2]]],"taken":[[1,0,1,1,[1,9]]]}',
        "altered_by_the_order_of_words": '{"version":2,"accepted":[[1,1,0,[7,8]]],"taken":[[1,0,1,1,[8,7]]]}',
        "altered_in_the_sender_alone": '{"version":2,"accepted":[[1,1,0,[7,8]]],"taken":[[1,0,2,1,[7,8]]]}',
        "altered_in_the_number_alone": '{"version":2,"total":0,"accepted":[[1,1,0,[7,8]]],"taken":[[1,0,1,2,[7,8]]]}',
        "altered_past_the_total": '{"total":0,"accepted":[[1,1,0,5]],"taken":[[1,0,1,1,6]]}',
        "altered_to_a_lesser_body": '{"total":0,"accepted":[[1,1,0,5]],"taken":[[1,0,1,1,4]]}',
        "altered_in_the_sender": '{"accepted":[[1,1,0,5]],"taken":[[1,0,2,1,5]]}',
        "altered_in_the_number": '{"accepted":[[1,1,0,5]],"taken":[[1,0,1,2,5]]}',
        "altered_by_a_word_of_zero_more": '{"version":2,"accepted":[[1,1,0,[0,0,0]]],"taken":[[1,0,1,1,[0,0,0,0]]]}',
        "altered_in_the_last_of_four_words":
            '{"version":2,"accepted":[[1,1,0,[5,6,7,8]]],"taken":[[512,0,1,1,[5,6,7,9]]]}',
    },
    "audit fault 4 place 1": {
        "altered_by_a_word_behind_an_item": example("receipts_altered"),
        "altered_behind_an_item": '{"version":2,"accepted":[[1,1,0,[5]],[1,2,1,[5,6,7]]],'
        '"taken":[[1,0,1,1,[5]],[2,1,1,2,[5,6]]]}',
    },
    "audit fault 5 place 0": {
        "gap_below_the_last_place": '{"accepted":[[64,4294967295,%s,0]],"taken":[[64,%s,64,4294967295,0]]}' % (GREATEST,
            GREATEST),
        "gap_of_words": '{"version":2,"accepted":[[1,1,0,[5,6]],[1,2,1,[7]]],"taken":[[1,1,1,2,[7,0]]]}',
        "gap_below_what_was_never_sent": '{"accepted":[],"taken":[[1,1,1,1,5]]}',
        "gap_of_two_senders": '{"accepted":[[1,1,0,5],[2,1,1,6]],"taken":[[1,1,2,1,6]]}',
        "gap_past_the_total": '{"total":0,"accepted":[[1,1,0,5],[2,1,1,6]],"taken":[[1,1,2,1,6]]}',
        "gap_below_a_last_place_altered": '{"accepted":[[1,1,%s,5]],"taken":[[1,%s,1,1,5]]}' % (GREATEST, GREATEST),
    },
    "audit fault 6 place 1": {
        "numbers_that_fall_of_words": '{"version":2,"accepted":[[1,2,0,[5,6]],[1,1,1,[5,6]]],"taken":[]}',
        "numbers_that_stay": '{"accepted":[[1,5,0,5],[1,5,1,6]],"taken":[]}',
        "numbers_that_stay_past_the_total": '{"total":1,"accepted":[[1,1,0,5],[1,1,1,6]],"taken":[]}',
    },
    "audit fault 7 place 1": {
        "more_words_than_the_total": '{"version":2,"total":1,"accepted":[[1,1,0,[5,6,7]],[1,2,1,[6]]],"taken":[]}',
    },
    "audit fault 7 place " + GREATEST: {
        "total_at_the_last_place": '{"total":%s,"accepted":[[64,4294967295,%s,0]],"taken":[]}' % (GREATEST, GREATEST),
        "total_at_the_last_place_of_words": '{"version":2,"total":%s,"accepted":[[64,4294967295,%s,[0,0]]],"taken":[]}'
        % (GREATEST, GREATEST),
        "total_at_the_last_place_of_another": '{"total":%s,"accepted":[[1,1,%s,5]],"taken":[]}' % (GREATEST, GREATEST),
    },
    "audit fault 1 place " + GREATEST: {
        "last_place_accepted_twice": '{"accepted":[[1,1,%s,5],[2,1,%s,6]],"taken":[]}' % (GREATEST, GREATEST)
    },
    "audit fault 6 place 2": {
        "numbers_that_fall_behind_another_sender": '{"accepted":[[1,3,0,5],[2,1,1,5],[1,2,2,5],[1,4,3,5]],"taken":[]}',
    },
    "audit fault 6 place " + GREATEST: {
        "numbers_that_stay_at_the_last_place": '{"accepted":[[1,1,0,5],[1,1,%s,5]],"taken":[[1,0,1,1,5]]}' % GREATEST,
    },
    "audit fault 7 place 0": {
        "total_of_zero": '{"total":0,"accepted":[[1,1,0,5]],"taken":[]}',
        "total_of_zero_and_all_taken": '{"total":0,"accepted":[[1,1,0,5]],"taken":[[1,0,1,1,5]]}',
        "total_of_zero_before_a_place_accepted_twice":
            '{"total":0,"accepted":[[1,1,0,5],[1,2,1,6],[2,1,1,7]],"taken":[]}',
    },
}

# Plans that are odd, and are played all the same.
PLAYED = {
    "escaped_key": ONE.replace('"capacity"', '"capacit\\u0079"'),
    "escaped_pass_name": plan(schedule='[["\\u0073\\u0031",100],["r1",100]]'),
    "escaped_close": plan(senders='[["cl\\u006fse"]]'),
    "duplicate_that_is_never_read": '{"capacity":"x",' + ONE[1:],
    "much_space": "\r\n\t " + ONE.replace(",", " ,\n\t").replace(":", " : ") + "\n\n",
    "version_one": plan(version="1"),
    "keys_in_another_order": "{" + ",".join(reversed(ONE[1:-1].replace(',"', '\n"').split("\n"))) + "}",
    "greatest_body": plan(senders="[[%s,0]]" % GREATEST, receivers="[2]", schedule='[["s1",100],["r1",100]]'),
    "greatest_configuration": plan(capacity="4096", bound="1024", life="281474976710656"),
    "all_passes": plan(
        capacity="64",
        bound="64",
        senders="[" + ",".join("[%d]" % n for n in range(64)) + "]",
        receivers="[" + ",".join(["1"] * 64) + "]",
        schedule="[" + ",".join('["s%d",6],["r%d",4]' % (n, n) for n in range(64, 0, -1))
        + ',["s64",9999],["r64",9999]]',
    ),
    "no_calls": plan(senders="[[]]", receivers="[0]", schedule='[["s1",100000],["r1",100000]]'),
    "empty_schedule": plan(schedule="[]"),
    "stops_before_the_exchange": plan(schedule='[["s1",2],["r1",2]]'),
    "combiner_stops_while_it_serves": plan(
        senders="[[1],[2],[3]]", schedule='[["s1",3],["s2",6],["s3",6],["s1",20],["s2",100000],["s3",100000]]'
    ),
    "combiner_stops_between_answer_and_mark": plan(senders="[[1],[2]]", schedule='[["s1",24],["s2",100],["s2",100]]'),
    "taker_stops_before_it_frees": plan(
        capacity="1", senders="[[1,2,3]]", receivers="[1,1]", schedule='[["s1",100],["r1",13],["r2",100],["s1",100]]'
    ),
    "waits_for_a_link": plan(bound="1", senders="[[1],[2],[3]]",
                             schedule='[["s1",5],["s2",100],["s3",6],["s1",30],["s3",9],["s2",30]]'),
    "close_in_every_place": plan(senders='[["close",1],[2,"close"],["close"]]', receivers="[2]",
                                 schedule=entries("s2 3, s1 3, s3 6, r1 4, s1 9, s2 200, r1 90, s1 200, s3 90")),
    "life_of_one": plan(life="1", senders="[[1,2],[3]]", receivers="[2]",
                        schedule='[["s2",3],["s1",200],["s2",200],["s1",200],["r1",99]]'),
    "escaped_groups": WORDS.replace('"groups"', '"gro\\u0075ps"'),
    "much_space_in_bodies": "\n" + WORDS.replace(",", " ,\n\t").replace("[", "[ ").replace("]", "\r\n]") + " ",
    "keys_of_words_in_another_order": "{" + ",".join(reversed(WORDS[1:-1].replace(',"', '\n"').split("\n"))) + "}",
    "version_two_behind_version_one": '{"version":1,' + WORDS[1:],
    "version_two_behind_a_text": '{"version":"1",' + WORDS[1:],
    "one_group": words(groups="1", receivers="[1,1]"),
    "most_takes_of_a_receiver": words(receivers="[0,65536]", schedule=entries("r2 100, s1 100, r2 100")),
    "eight_groups": words(
        groups="8",
        capacity="1",
        senders='[[[1],[2,3],[4,5,6],"close"]]',
        receivers="[3,3,3,3,3,3,3,3]",
        schedule=entries("s1 200, r8 999, r7 999, r6 999, r5 999, r4 999, r3 999, r2 999, r1 999, s1 999, r5 999"),
    ),
    "eight_groups_of_sixty_four": words(
        groups="8",
        receivers=listed(["1"] * 512),
        schedule=entries("s1 100, r512 100, r1 100, r64 100, r65 100, r128 100, r129 100, r448 100, r449 100"),
    ),
    "all_passes_of_two_groups": words(
        capacity="64",
        bound="64",
        life="64",
        senders=listed("[[%s]]" % ",".join(["%d" % n] * (n % 4 + 1)) for n in range(64)),
        receivers=listed(["1"] * 128),
        schedule=entries(
            "".join("s%d %d, " % (n, 6 + (n - 1) % 4) for n in range(64, 0, -1))
            + "".join("r%d 4, " % n for n in range(128, 0, -1))
            + "s64 9999, r128 9999, r64 9999"
        ),
    ),
    "greatest_configuration_of_words": words(
        groups="8",
        capacity="4096",
        bound="1024",
        life="281474976710656",
        receivers="[1,0,0,0,0,0,0,1]",
        schedule=entries("s1 100000, r8 100000, r1 100000"),
    ),
    "no_calls_of_groups": words(senders="[[]]", receivers="[0,0]", schedule=entries("s1 100000, r2 100000, r1 1")),
    "empty_schedule_of_words": words(schedule="[]"),
    "each_group_stops_before_its_exchange": words(
        groups="3", receivers="[1,1,1]", schedule=entries("s1 2, r1 2, r3 2, r2 3")
    ),
    "bodies_of_each_length_combined": words(
        capacity="4",
        bound="4",
        senders="[[[1]],[[2,20]],[[3,30,300]],[[4,40,400,4000]]]",
        receivers="[4,4]",
        schedule=entries("s4 9, s3 8, s2 7, s1 6, s4 300, r2 300, r1 300"),
    ),
    "long_body_then_short_ones_in_one_node": words(
        groups="1",
        capacity="1",
        senders="[[[1,2,3,4],[5],[6,7],[8]]]",
        receivers="[4]",
        schedule=entries("s1 37, r1 32, s1 28, r1 23, s1 31, r1 26, s1 28, r1 23"),
    ),
    "two_groups_take_turns": words(
        capacity="1",
        senders='[[[1,2],[3],[4,5,6],"close"]]',
        receivers="[4,4]",
        schedule=entries("s1 31, r2 26, s1 20, r1 26, s1 34, r1 29, r2 29, s1 99, r2 99, r1 99"),
    ),
    "one_group_stops_before_it_adds": words(
        capacity="1",
        senders="[[[1,2],[3,4],[5,6]]]",
        receivers="[1,1]",
        schedule=entries("s1 31, r1 14, r2 99, s1 22, r1 1, s1 99"),
    ),
    "one_group_never_takes": words(
        capacity="2",
        senders="[[[1,2],[3],[4],[5]]]",
        receivers="[4,4]",
        schedule=entries("s1 59, r1 999, s1 999, r1 999"),
    ),
    "one_group_stands_while_another_takes": words(
        senders="[[[1,2],[3,4,5,6]]]",
        receivers="[1,1,1,1]",
        schedule=entries("s1 99, r1 3, r2 50, r3 3, r4 4, r3 90, r4 90"),
    ),
    "takers_combine_in_two_groups": words(
        capacity="3",
        bound="3",
        senders="[[[1,2,3,4],[5,6],[7]]]",
        receivers="[1,1,1,1,1,1]",
        schedule=entries("s1 999, r3 4, r6 4, r2 4, r5 4, r1 4, r4 4, r6 20, r3 999, r6 999"),
    ),
    "combiner_stops_between_two_words": words(
        senders="[[[1,2,3,4]],[[5,6,7,8]]]",
        receivers="[2,2]",
        schedule=entries("s1 3, s2 9, s1 46, s2 100, r1 100, s1 100, s2 100, r2 100"),
    ),
    "sender_stops_between_two_words": words(
        senders="[[[1,2,3,4]],[[5,6]]]",
        bound="1",
        schedule=entries("s2 3, s1 7, s2 99, s1 99, r1 99"),
        receivers="[2,2]",
    ),
    "taker_stops_between_two_words": words(
        senders="[[[1,2,3,4],[5]]]",
        receivers="[1,1,0,2]",
        schedule=entries("s1 99, r1 12, r2 99, r4 21, r1 99, r4 99"),
    ),
    "answer_is_read_between_two_words": words(
        senders="[[[1,2,3,4]]]", receivers="[2,0]", schedule=entries("s1 99, r1 30, r1 1, r1 1, r1 99")
    ),
    "close_among_bodies": words(
        senders='[[[1,2],"close"],["close",[3,4,5]]]',
        receivers="[3,3]",
        schedule=entries("s1 40, s2 3, s1 60, r2 40, s2 200, r1 200, r2 200"),
    ),
    "life_of_one_body": words(
        life="1",
        senders="[[[1,2],[3,4]],[[5,6,7,8]]]",
        receivers="[2,2]",
        schedule=entries("s2 3, s1 200, s2 200, s1 200, r2 99"),
    ),
    "bound_of_one_in_two_groups": words(
        bound="1",
        senders="[[[1,2]],[[3,4]]]",
        receivers="[1,1,1,1]",
        schedule=entries("s1 3, s2 99, s1 99, s2 99, r2 3, r1 99, r4 99, r2 99, r3 99, r1 99"),
    ),
    "capacity_of_one": plan(capacity="1"),
    "greatest_capacity": plan(capacity="4096"),
    "bound_of_one": plan(bound="1"),
    "greatest_bound": plan(bound="1024"),
    "life_of_one_item": plan(life="1"),
    "greatest_life": plan(life="281474976710656"),
    "no_sends": plan(senders="[[]]"),
    "lone_close": plan(senders='[["close"]]'),
    "no_takes": plan(receivers="[0]"),
    "most_takes": plan(receivers="[65536]"),
    "most_events": plan(schedule='[["s1",100000]]'),
    "much_escaped": ' {"capacit\\u0079":2 , "bound":2,"life":10,"senders":[[7]], '
                    '"receivers":[1],"schedule":[["\\u0073\\u0031",1]]} ',
    "widest_plan": '{"version":1,"schedule":[["s2",100000],["r1",1],["s1",7]],"receivers":[0,65536],'
    '"senders":[[5,"close",%s],[]],"life":281474976710656,"bound":1024,"capacity":4096}' % GREATEST,
    "widest_plan_played": '{"schedule":[["s2",100000],["r2",3],["s1",100000],["r2",100000]],"receivers":[0,65536],'
    '"senders":[[5,"close",%s],[]],"life":281474976710656,"bound":1024,"capacity":4096}' % GREATEST,
    "greatest_capacity_of_words": words(capacity="4096"),
    "greatest_bound_of_words": words(bound="1024"),
    "greatest_life_of_words": words(life="281474976710656"),
    "no_sends_of_words": words(senders="[[]]"),
    "lone_close_of_words": words(senders='[["close"]]'),
    "bodies_of_two_senders": words(senders='[[[7],"close",[7,8]],[[7,8,9]]]'),
    "greatest_last_word": words(senders="[[[1,2,3,%s]]]" % GREATEST),
    "most_takes_of_a_second_group": words(receivers="[0,65536]"),
    "two_receivers_in_each_group": words(receivers="[1,1,1,1]"),
    "one_event_of_each_group": words(schedule=entries("r1 1, r2 1")),
    "version_two_stands_last": '{"version":1,"groups":2,"capacity":1,"bound":1,"life":1,"senders":[[[7]]],'
    '"receivers":[0,0],"schedule":[],"version":2}',
    "three_groups_of_two_receivers": '{"schedule":[["r6",1]],"receivers":[0,1,2,3,4,65536],'
    '"senders":[[[5],"close",[1,2,3]],[[1,2,3,%s],[7,8]]],'
    '"life":9,"bound":8,"capacity":7,"groups":3,"version":2}' % GREATEST,
    "three_groups_of_two_receivers_played": words(
        groups="3",
        senders='[[[5],"close",[1,2,3]],[[1,2,3,%s],[7,8]]]' % GREATEST,
        receivers="[0,1,2,3,4,65536]",
        schedule=entries("s2 99, s1 99, s1 99, r6 99, r4 99, r2 99"),
    ),
}

# Plans with the whole report written by hand.
REPORTED = {
    "the_greatest_body": (
        plan(senders="[[18446744073709551615]]"),
        ["E 0 s1 send 18446744073709551615 -> accepted 0", "D 0 r1 take -> got 0 s1 1 18446744073709551615", CLEAN],
    ),
    "shut_before_its_linking_store": (
        plan(senders='[["close"]]', receivers="[0]", schedule=entries("s1 13")),
        ["E 0 s1 close -> pending", CLEAN],
    ),
    "shut_at_its_step": (
        plan(senders='[["close"]]', receivers="[0]", schedule=entries("s1 14")),
        ["E 0 s1 close -> shut 0", CLEAN],
    ),
    "empty_before_the_load_of_the_next": (
        plan(senders="[[]]", schedule=entries("r1 8")),
        ["D 0 r1 take -> pending", CLEAN],
    ),
    "empty_at_its_step": (
        plan(senders="[[]]", schedule=entries("r1 9")),
        ["D 0 r1 take -> empty", CLEAN],
    ),
    "got_before_the_add": (
        plan(schedule=entries("s1 100, r1 13")),
        ["E 0 s1 send 7 -> accepted 0", "D 0 r1 take -> pending", CLEAN],
    ),
    "got_at_its_step": (
        plan(schedule=entries("s1 100, r1 14")),
        ["E 0 s1 send 7 -> accepted 0", "D 0 r1 take -> got 0 s1 1 7", CLEAN],
    ),
    "ended_before_the_load_of_the_tag": (
        plan(senders='[["close"]]', schedule=entries("s1 100, r1 9")),
        ["E 0 s1 close -> shut 0", "D 0 r1 take -> pending", CLEAN],
    ),
    "ended_at_its_step": (
        plan(senders='[["close"]]', schedule=entries("s1 100, r1 10")),
        ["E 0 s1 close -> shut 0", "D 0 r1 take -> ended 0", CLEAN],
    ),
    "full_before_the_last_load_of_the_scan": (
        plan(capacity="1", senders="[[5,6]]", receivers="[0]", schedule=entries("s1 42")),
        ["E 0 s1 send 5 -> accepted 0", "E 1 s1 send 6 -> pending", CLEAN],
    ),
    "full_at_its_step": (
        plan(capacity="1", senders="[[5,6]]", receivers="[0]", schedule=entries("s1 43")),
        ["E 0 s1 send 5 -> accepted 0", "E 1 s1 send 6 -> full", CLEAN],
    ),
    "spent_before_the_load_of_the_count": (
        plan(life="1", senders="[[5,6]]", receivers="[0]", schedule=entries("s1 39")),
        ["E 0 s1 send 5 -> accepted 0", "E 1 s1 send 6 -> pending", CLEAN],
    ),
    "spent_at_its_step": (
        plan(life="1", senders="[[5,6]]", receivers="[0]", schedule=entries("s1 40")),
        ["E 0 s1 send 5 -> accepted 0", "E 1 s1 send 6 -> spent", CLEAN],
    ),
    "closed_before_the_load_of_shut": (
        plan(senders='[["close",6]]', receivers="[0]", schedule=entries("s1 31")),
        ["E 0 s1 close -> shut 0", "E 1 s1 send 6 -> pending", CLEAN],
    ),
    "closed_at_its_step": (
        plan(senders='[["close",6]]', receivers="[0]", schedule=entries("s1 32")),
        ["E 0 s1 close -> shut 0", "E 1 s1 send 6 -> closed", CLEAN],
    ),
    "already_before_the_load_of_the_count": (
        plan(senders='[["close","close"]]', receivers="[0]", schedule=entries("s1 32")),
        ["E 0 s1 close -> shut 0", "E 1 s1 close -> pending", CLEAN],
    ),
    "already_at_its_step": (
        plan(senders='[["close","close"]]', receivers="[0]", schedule=entries("s1 33")),
        ["E 0 s1 close -> shut 0", "E 1 s1 close -> already 0", CLEAN],
    ),
    "four_words_before_the_linking_store": (
        words(groups="1", senders="[[[1,0,18446744073709551615,4]]]", receivers="[0]", schedule=entries("s1 28")),
        ["E 0 s1 send 1 0 18446744073709551615 4 -> pending", CLEAN],
    ),
    "four_words_at_its_step": (
        words(groups="1", senders="[[[1,0,18446744073709551615,4]]]", receivers="[0]", schedule=entries("s1 29")),
        ["E 0 s1 send 1 0 18446744073709551615 4 -> accepted 0", CLEAN],
    ),
    "four_words_are_got_before_the_add": (
        words(groups="1", senders="[[[1,2,3,4]]]", receivers="[1]", schedule=entries("s1 37, r1 16")),
        ["E 0 s1 send 1 2 3 4 -> accepted 0", "D 1 0 r1 take -> pending", CLEAN],
    ),
    "four_words_are_got_at_its_step": (
        words(groups="1", senders="[[[1,2,3,4]]]", receivers="[1]", schedule=entries("s1 37, r1 17")),
        ["E 0 s1 send 1 2 3 4 -> accepted 0", "D 1 0 r1 take -> got 0 s1 1 1 2 3 4", CLEAN],
    ),
}


def cuts():
    """A lone send and a lone take of one to four words, cut before and at the step that decides, with their reports."""
    for further, count in enumerate(["one", "two", "three", "four"]):
        body = [7, 8, 9, 10][: further + 1]
        link, add = 20 + 3 * further, 14 + further
        sent, got = "E 0 s1 send %s -> " % spaced(body), "D 2 0 r2 take -> "

        def cut(schedule):
            return words(senders="[[[%s]]]" % ",".join(map(str, body)), schedule=schedule)

        accepted = sent + "accepted 0"
        yield "send_of_%s_cut_before_its_link" % count, cut(entries("s1 %d" % (link - 1))), [sent + "pending", CLEAN]
        yield "send_of_%s_cut_at_its_link" % count, cut(entries("s1 %d" % link)), [accepted, CLEAN]
        taken = got + "got 0 s1 1 " + spaced(body)
        early, late = cut(entries("s1 99, r2 %d" % (add - 1))), cut(entries("s1 99, r2 %d" % add))
        yield "take_of_%s_cut_before_its_add" % count, early, [accepted, got + "pending", CLEAN]
        yield "take_of_%s_cut_at_its_add" % count, late, [accepted, taken, CLEAN]


def ends():
    """Two calls of one pass, cut before and at the exchange of the second, three events behind the first."""
    sends = words(senders="[[[1,2,3,4],[5]]]", schedule=entries("s1 %d"))
    takes = words(senders="[[[1,2,3,4]]]", receivers="[2,0]", schedule=entries("s1 99, r1 %d"))
    sent, got = "E 0 s1 send 1 2 3 4 -> accepted 0", "D 1 0 r1 take -> got 0 s1 1 1 2 3 4"
    yield "second_send_before_its_exchange", sends % (37 + 2), [sent, CLEAN]
    yield "second_send_at_its_exchange", sends % (37 + 3), [sent, "E 1 s1 send 5 -> pending", CLEAN]
    yield "second_take_before_its_exchange", takes % (32 + 2), [sent, got, CLEAN]
    yield "second_take_at_its_exchange", takes % (32 + 3), [sent, got, "D 1 1 r1 take -> pending", CLEAN]


def numbers_that_are_not_whole():
    """Such a number at each place of a plan that has one, and the fault that comes of it."""
    numbers = {
        "a_point": "1.5",
        "an_exponent": "1e2",
        "a_sign": "-1",
        "too_many_digits": "18446744073709551616",
    }
    places = {
        "version": "%s",
        "capacity": "%s",
        "bound": "%s",
        "life": "%s",
        "senders": "[[1],[1,%s]]",
        "receivers": "[1,%s]",
        "schedule": '[["s1",%s]]',
    }
    for kind, number in numbers.items():
        for key, place in places.items():
            yield "%s_has_%s" % (key, kind), plan(**{key: place % number}), "P3 " + key


def numbers_of_receivers():
    """The fewest and the most receivers of some groups, and one past each; the last of them, and the next."""
    for groups in (1, 2, 3, 8):

        def of(receivers, schedule="[]"):
            return words(
                groups=str(groups), senders="[[]]", receivers=listed(["0"] * receivers), schedule=schedule
            )

        def named(text):
            return "%s_of_%d" % (text, groups)

        most = 64 * groups
        yield named("fewest_receivers"), of(groups), [CLEAN]
        yield named("last_of_most_receivers"), of(most, entries("r%d 1" % most)), [CLEAN]
        yield named("stranger_behind_most_receivers"), of(most, entries("r%d 1" % (most + 1))), "P4 at 0"
        yield named("one_receiver_less"), of(groups - 1), "P3 receivers"
        yield named("one_receiver_more"), of(most + 1), "P3 receivers"
        if groups > 1:
            yield named("no_receivers"), of(0), "P3 receivers"
            yield named("one_receiver_more_in_each"), of(most + groups), "P3 receivers"


def lone_sends():
    """A lone send cut after each event: it is pending from its exchange, event 3, to its linking store, event 20."""
    for events in range(1, 101):
        answers = [] if events < 3 else ["pending"] if events < 20 else ["accepted 0"]
        lines = ["E 0 s1 send 7 -> " + answer for answer in answers]
        yield "lone_send_cut_at_%03d" % events, plan(schedule=entries("s1 %d" % events)), lines + [CLEAN]


# The run in which a node is freed between two sends, of 90 events, and its calls: where each exchanges, where it is
# decided, what is called, and the answer.
FREED = [("s1", 28), ("r1", 13), ("s2", 20), ("r1", 1), ("s2", 28)]
FREED_CALLS = [
    (3, 20, "E 0 s1 send 5", "accepted 0"),
    (44, 56, "E 1 s2 send 7", "full"),
    (65, 82, "E 2 s2 send 8", "accepted 1"),
    (31, 62, "D 0 r1 take", "got 0 s1 1 5"),
]


def freed_nodes():
    """That run cut after each event: a call is told from its exchange on, its answer from its deciding event on."""
    for cut in range(1, 91):
        schedule, left = [], cut
        for name, events in FREED:
            if left > 0:
                schedule.append("%s %d" % (name, min(events, left)))
            left -= events
        text = plan(capacity="1", senders="[[5],[7,8]]", schedule=entries(", ".join(schedule)))
        lines = [
            "%s -> %s" % (call, answer if cut >= decided else "pending")
            for exchanged, decided, call, answer in FREED_CALLS
            if cut >= exchanged
        ]
        yield "freed_node_cut_at_%02d" % cut, text, lines + [CLEAN]


def random_plan(dice, groups, entries, body):
    """The parts of a small plan in which passes stop anywhere."""
    senders = [
        [dice.choice(['"close"'] + [body() for _ in range(7)]) for _ in range(dice.randrange(5))]
        for _ in range(dice.randrange(1, 4))
    ]
    receivers = [dice.randrange(5) for _ in range(groups * dice.randrange(1, 4))]
    names = ["s%d" % (n + 1) for n in range(len(senders))] * (2 * groups - 1)
    names += ["r%d" % (n + 1) for n in range(len(receivers))]
    schedule = [(dice.choice(names), dice.choice([1, 2, 3, 5, 8, 13, 21, 34])) for _ in range(dice.randrange(entries))]
    return {
        "capacity": str(dice.randrange(1, 4)),
        "bound": str(dice.randrange(1, 4)),
        "life": str(dice.randrange(1, 9)),
        "senders": listed(listed(calls) for calls in senders),
        "receivers": listed(str(takes) for takes in receivers),
        "schedule": listed('["%s",%d]' % entry for entry in schedule),
    }


def random_plans():
    """Thirty plans of version 1, and forty of version 2."""
    dice = random.Random(16)
    for n in range(30):
        yield "any_order_%02d" % (n + 1), plan(**random_plan(dice, 1, 60, lambda: str(dice.randrange(100))))
    dice = random.Random(48)

    def body():
        return listed(str(dice.randrange(100)) for _ in range(dice.randrange(1, 5)))

    for n in range(40):
        groups = n % 3 + 1
        parts = random_plan(dice, groups, 60 * groups, body)
        yield "any_order_of_words_%02d" % (n + 1), words(groups=str(groups), **parts)


def rows():
    """Each row: its name, its task, its bytes, and what has to come of it where that is written above."""
    for name, text in NO_JSON.items():
        yield name, "play", text.encode(), "P1"
    for name, data in NO_UTF8.items():
        yield name, "play", data, "P1"
    for fault, inputs in REFUSED_PLANS.items():
        for name, text in inputs.items():
            yield name, "play", text.encode(), fault
    for fault, inputs in REFUSED_RECEIPTS.items():
        for name, text in inputs.items():
            yield name, "audit", text.encode(), fault
    for verdict, inputs in AUDITED.items():
        for name, text in inputs.items():
            yield name, "audit", text.encode(), [verdict]
    for name, text in PLAYED.items():
        yield name, "play", text.encode(), None
    for name, (text, lines) in REPORTED.items():
        yield name, "play", text.encode(), lines
    for name, text, wanted in [*numbers_that_are_not_whole(), *numbers_of_receivers()]:
        yield name, "play", text.encode(), wanted
    for name, text, lines in [*cuts(), *ends(), *lone_sends(), *freed_nodes()]:
        yield name, "play", text.encode(), lines
    for name, text in random_plans():
        yield name, "play", text.encode(), None


def check(name, task, outcome, wanted):
    """Ends the program where what was derived isn't what is written by hand, or where a played plan isn't clean."""
    status, told, lines = outcome
    if wanted is not None and wanted != (lines or told.replace("ccq: plan refused: ", "")):
        sys.exit("%s: by hand %s, but derived %s %s" % (name, wanted, told, lines))
    if task == "play" and status == 0 and lines[-1] != CLEAN:
        sys.exit("%s: it is played, and its verdict is %s" % (name, lines[-1]))


def derived():
    """Of each row its name, its task, its bytes, its outcome and the place of its fault, if all rows are as they have to
    be."""
    names = {}
    for name, task, data, wanted in rows():
        for key, what in ((name, "name"), ((task, data), "input")):
            if key in names:
                sys.exit("%s has the %s of %s" % (name, what, names[key]))
            names[key] = name
        outcome, place = outcome_of(task, data), place_of(data)
        check(name, task, outcome, wanted)
        # A refused plan may be receipts that aren't refused.
        if outcome[0] != 2 and not place.startswith("no fault: "):
            sys.exit("%s isn't refused, and has a fault: %s" % (name, place))
        yield name, task, data, outcome, place


def write_corpus(folder):
    """Writes all rows into a folder, which may be there."""
    os.makedirs(folder, exist_ok=True)
    for name, task, data, (status, told, lines), place in derived():
        shown = [place] if status == 2 else lines
        due = "".join(line + "\n" for line in ["%s %d" % (task, status), told, *shown])
        for ending, content in ((".in", data), (".due", due.encode())):
            with open(os.path.join(folder, name + ending), "wb") as out:
                out.write(content)


def derive_one(task):
    """Writes what is due of the input on standard input. Ends with the status."""
    data = sys.stdin.buffer.read()
    status, told, lines = (0, "", [place_of(data)]) if task == "place" else outcome_of(task, data)
    sys.stdout.write("".join(line + "\n" for line in lines))
    sys.stderr.write(told and told + "\n")
    sys.exit(status)


if __name__ == "__main__":
    if sys.argv[1:] in (["play"], ["audit"], ["trace"], ["place"]):
        derive_one(sys.argv[1])
    elif len(sys.argv) != 2 or sys.argv[1].startswith("-"):
        print(__doc__)
        sys.exit(0 if sys.argv[1:] in (["-h"], ["--help"]) else 64)
    else:
        write_corpus(sys.argv[1])
