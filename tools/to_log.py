#!/usr/bin/env python3
"""Converts the history of another tool into a log of `ccq judge`.

    tools/to_log.py jepsen [--key KEY] [--empty WORD].. [--drained] [OPTION].. history.edn > LOG
    tools/to_log.py porcupine [--no-clients] [OPTION].. operations.json > LOG

Known operations are enqueue, send, put and push, which send; dequeue, take, get and pop, which take; close; and drain,
of Jepsen. Letters' case doesn't matter. A history with another operation is refused, with the counts of each. OPTION is
one of

    --ops NAME=OP     reads the operations NAME as the known operation OP: --ops poll=dequeue, --ops 0=enqueue
    --ignore NAME     leaves the operations NAME out; on a queue they must do nothing
    --number-items    items may be any values: writes a number for each, from 1 on

`jepsen` reads the operations of clients, as maps or as Op records, in a vector or one after another.

- `:ok` is a call that returned. One that ends in `:info`, or in nothing, hasn't returned.
- `:fail` had no effect, so the call is left out: a failed enqueue always, and a failed dequeue unless its `:error` is
  `:empty`, `:exhausted` or a WORD of `--empty`, or a vector that begins with one; then it found none.
- A `:drain` that is `:ok` is a take of each of its items, by threads of their own, over all its time. With `--drained`
  it is a take that found none, too: a lost item is found so, but only if a drain ends when the queue is empty.
- Values that are pairs of a key and a value (jepsen.independent) are calls on one queue for each key. Such a history is
  refused, with the counts of each key; `--key KEY` reads the queue of one key. A dequeue that is invoked with a vector
  shows that a history has keys.
- Times are `:time`, or the places in the history if an operation has none.

`porcupine` reads Go's JSON of `[]porcupine.Operation`, in an array or one after another: `ClientId`, `Call`, `Return`,
`Input` and `Output`. `Input` has an `Op`, and for a send its `Value`; `Output` has the `Value` of a take, or null for
none, and may have `Ok`, false for a send that found the queue full and a take that found none. An operation whose
`Return` is below its `Call`, or the greatest number of 64 bits, hasn't returned. Operations of one `ClientId` that
overlap are refused, with the counts of each; with `--no-clients` the ClientId isn't read, and the times alone order the
calls.

Items are whole numbers, or vectors of one to four. The lines are sorted by their begins. What is left out is counted on
standard error. Exit status 0, 1 for a history that isn't understood, and 64 for a line that isn't.
"""
import argparse
import heapq
import json
import re
import sys
from collections import Counter
from math import inf

TOKEN = re.compile(r'[\s,]*(?:;[^\n]*[\s,]*)*(#_|#\{|#[\w./*+!?<>=-]+|[()\[\]{}]|"(?:\\.|[^"\\])*"|\\\S+|[^\s,()\[\]{}";]+)', re.S)
CLOSERS = {"(": ")", "[": "]", "{": "}", "#{": "}"}
NEVER = 2**63 - 1
SEND, TAKE, CLOSE, DRAIN = "enqueue", "dequeue", "close", "drain"
SENDS, TAKES = (SEND, "send", "put", "push"), (TAKE, "take", "get", "pop")
ACTS = dict.fromkeys(SENDS, SEND) | dict.fromkeys(TAKES, TAKE) | {CLOSE: CLOSE, DRAIN: DRAIN}


class Refused(Exception):
    """Why a history is refused."""


class Edn:
    """A reader of EDN: maps are dicts, keywords are texts with their colon, and of a tagged value the tag is
    dropped."""

    def __init__(self, text):
        self.tokens, place = [], 0
        while found := TOKEN.match(text, place):
            self.tokens.append(found[1])
            place = found.end()
        if re.sub(r";[^\n]*", "", text[place:]).strip(" \t\r\n,"):
            raise Refused(f"no EDN: {text[place:].strip()[:40]}")
        self.at = 0

    def values(self):
        """All values, one after another."""
        while self.at < len(self.tokens):
            if self.tokens[self.at] == "#_":
                self.at += 1
                self.value()
            else:
                yield self.value()

    def value(self):
        if self.at == len(self.tokens):
            raise Refused("the history ends within a value")
        token = self.tokens[self.at]
        self.at += 1
        if token in CLOSERS:
            return self.collection(token)
        if token == "#_":
            self.value()
            return self.value()
        if token.startswith("#"):
            return self.value()
        if token in ("nil", "true", "false"):
            return {"nil": None, "true": True, "false": False}[token]
        if re.fullmatch(r"[+-]?\d+[NM]?", token):
            return int(token.rstrip("NM"))
        return token

    def collection(self, opened):
        parts = []
        while self.at == len(self.tokens) or self.tokens[self.at] != CLOSERS[opened]:
            if self.at < len(self.tokens) and self.tokens[self.at] == "#_":
                self.at += 1
                self.value()
            else:
                parts.append(self.value())
        self.at += 1
        if opened != "{":
            return parts
        if len(parts) % 2:
            raise Refused("a map has a key without a value")
        return {str(key): value for key, value in zip(parts[::2], parts[1::2])}


def name_of(value):
    """A name or a key, as it is given on the command line."""
    return str(value).lstrip(":").strip('"')


def listed(counts):
    """The first names of some, with their counts."""
    several = ", ".join(f"{name} ({count})" for name, count in counts.most_common(20))
    return several + (f" and {len(counts) - 20} others" if len(counts) > 20 else "")


class Words:
    """What the operations and the items of a history are, by the options."""

    def __init__(self, options):
        self.acts = ACTS | options.ops | dict.fromkeys(map(str.lower, options.ignore))
        self.numbers = {} if options.number_items else None
        self.left = Counter()

    def known(self, named):
        """Of pairs of a name and an operation those that aren't ignored, each with its act in place of its name."""
        named = [(name_of(name).lower(), operation) for name, operation in named]
        if unknown := Counter(name for name, _ in named if name not in self.acts):
            raise Refused(f"unknown operations: {listed(unknown)}; known are {', '.join(ACTS)}; "
                          "--ops NAME=OP reads NAME as one of these, and --ignore NAME leaves it out")
        self.left.update(f"ignored {name}" for name, _ in named if self.acts[name] is None)
        return [(self.acts[name], operation) for name, operation in named if self.acts[name]]

    def item(self, value, where):
        """An item: a number, or one to four."""
        if self.numbers is not None and value is not None:
            return self.numbers.setdefault(json.dumps(value, sort_keys=True), len(self.numbers) + 1)
        numbers = value if isinstance(value, list) else [value]
        fits = lambda number: isinstance(number, int) and not isinstance(number, bool) and 0 <= number < 2**64
        if not 1 <= len(numbers) <= 4 or not all(map(fits, numbers)):
            raise Refused(f"{where}: no item of one to four whole numbers below 2^64: {value}; --number-items writes a "
                          "number for each item")
        return value


class Jepsen:
    """The calls of a history of Jepsen."""

    def __init__(self, options, words):
        self.empty = {"empty", "exhausted", *map(name_of, options.empty)}
        self.key, self.drained, self.words = options.key, options.drained, words
        self.calls, self.pending = [], {}

    def read(self, text):
        operations = list(Edn(text).values())
        if len(operations) == 1 and isinstance(operations[0], list):
            operations = operations[0]
        clients = [it for it in operations if not isinstance(it, dict) or it.get(":process") != ":nemesis"]
        if not clients:
            raise Refused("no operation of a client")
        for place, it in enumerate(clients):
            if not isinstance(it, dict) or not isinstance(it.get(":process"), int):
                raise Refused(f"operation {place + 1}: no map with a :process that is a number or :nemesis")
        timed = all(isinstance(it.get(":time"), int) and it[":time"] >= 0 for it in clients)
        for place, it in enumerate(clients):
            it.update({"at": f"operation {place + 1}"} | ({} if timed else {":time": place}))
        known = self.words.known((it.get(":f"), it) for it in clients)
        for operation in self.of_key([it | {":f": act} for act, it in known]):
            self.add(operation)
        for invoked in self.pending.values():
            self.end(invoked, invoked | {":type": ":info"})
        return self.calls

    def of_key(self, operations):
        """The operations of the key that is asked for, without the key; or all, if none shows that there are keys."""
        is_pair = lambda it: isinstance(it.get(":value"), list) and len(it[":value"]) == 2
        invoked = [it for it in operations if it.get(":type") == ":invoke"]
        keys = Counter(name_of(it[":value"][0]) for it in invoked if is_pair(it))
        if self.key is None:
            if any(is_pair(it) for it in invoked if it[":f"] != SEND):
                raise Refused(f"calls on several queues, by their keys: {listed(keys)}; --key KEY reads those on one")
            return operations
        if self.key not in keys:
            raise Refused(f"no call has the key {self.key}; calls by their keys: {listed(keys)}")
        kept, key_of = [], {}
        for it in operations:
            if it.get(":type") in (":invoke", ":ok") and not is_pair(it):
                raise Refused(f"{it['at']}: no pair of a key and a value: {it.get(':value')}")
            if it.get(":type") == ":invoke":
                key_of[it[":process"]] = name_of(it[":value"][0])
            elif is_pair(it) and name_of(it[":value"][0]) != key_of.get(it[":process"]):
                raise Refused(f"{it['at']}: process {it[':process']} began an operation of another key")
            if key_of.get(it[":process"]) == self.key:
                kept.append(it | {":value": it[":value"][1] if is_pair(it) else None})
        return kept

    def add(self, operation):
        kind, process, where = operation.get(":type"), operation[":process"], operation["at"]
        if kind == ":invoke":
            if process in self.pending:
                raise Refused(f"{where}: process {process} has a pending operation")
            self.pending[process] = operation
        elif kind in (":ok", ":fail", ":info"):
            if process not in self.pending:
                raise Refused(f"{where}: process {process} has no pending operation")
            invoked = self.pending.pop(process)
            if invoked[":f"] != operation[":f"]:
                raise Refused(f"{where}: process {process} began another operation")
            self.end(invoked, operation)
        else:
            raise Refused(f"{where}: a :type that isn't :invoke, :ok, :fail or :info: {kind}")

    def put(self, thread, begin, end, **what):
        self.calls.append({"thread": str(thread), "begin": begin} | ({} if end is None else {"end": end}) | what)

    def end(self, invoked, operation):
        kind, process, act = operation[":type"], operation[":process"], operation[":f"]
        value, where, begin = operation.get(":value"), operation["at"], invoked[":time"]
        end = operation[":time"] if kind == ":ok" else None
        if kind == ":fail" and not self.is_none(operation):
            self.words.left[f"failed {act}"] += 1
        elif act == SEND:
            self.put(process, begin, end, send=self.words.item(invoked.get(":value"), where))
        elif act == CLOSE:
            self.put(process, begin, end, close=True)
        elif act == DRAIN:
            self.drain(process, begin, end, value, where)
        elif kind == ":fail":
            self.put(process, begin, operation[":time"], take=None)
        else:
            self.put(process, begin, end, take=None if end is None or value is None else self.words.item(value, where))

    def is_none(self, operation):
        """Whether a failed operation is a dequeue that found none."""
        error = operation.get(":error")
        word = error[0] if isinstance(error, list) and error else error
        return operation[":f"] == TAKE and name_of(word) in self.empty

    def drain(self, process, begin, end, items, where):
        if end is None:
            raise Refused(f"{where}: a :drain that isn't :ok: what it took isn't known")
        if not isinstance(items, list):
            raise Refused(f"{where}: a :drain whose :value is no list")
        for place, item in enumerate(items):
            self.put(f"{process} drain {begin} {place}", begin, end, take=self.words.item(item, where))
        if self.drained:
            self.put(f"{process} drain {begin}", begin, end, take=None)


def lower(value):
    """The same with keys in small letters."""
    if isinstance(value, dict):
        return {key.lower(): lower(inner) for key, inner in value.items()}
    return value


def operations_of(text):
    """All values of a text, one after another, or those of an array."""
    decoder, place, found = json.JSONDecoder(), 0, []
    while text[place:].strip():
        place += len(text[place:]) - len(text[place:].lstrip())
        try:
            value, place = decoder.raw_decode(text, place)
        except ValueError as error:
            raise Refused(f"no JSON: {error}") from error
        found += value if isinstance(value, list) else [value]
    return found


def call_of(act, operation, words):
    """The call of an operation of Porcupine."""
    given, output, where = operation["input"], operation.get("output"), operation["at"]
    output = output if isinstance(output, dict) else {"value": output}
    begin, end = operation["call"], operation["return"]
    if not isinstance(begin, int) or not isinstance(end, int):
        raise Refused(f"{where}: Call and Return are whole numbers")
    is_open = end < begin or end == NEVER
    call = {"thread": str(operation["clientid"]), "begin": begin} | ({} if is_open else {"end": end})
    fails = output.get("ok") is False and not is_open
    if act == SEND:
        return call | {"send": words.item(given.get("value"), where)} | ({"answer": "full"} if fails else {})
    if act == TAKE:
        value = None if is_open or fails else output.get("value")
        return call | {"take": None if value is None else words.item(value, where)}
    if act == CLOSE:
        return call | {"close": True}
    raise Refused(f"{where}: a drain, which Porcupine's operations can't say")


def is_after(call, before):
    """Whether a call may be the next one of the thread of one that came before it."""
    return before.get("end", inf) <= call["begin"]


def without_clients(calls):
    """The calls, which are sorted, each by a thread whose last call ended before. So the threads order no calls."""
    free = []
    for call in calls:
        at = heapq.heappop(free)[1] if free and free[0][0] < call["begin"] else len(free)
        heapq.heappush(free, (call.get("end", inf), at))
        yield call | {"thread": str(at)}


def porcupine(text, options, words):
    told = list(map(lower, operations_of(text)))
    if not told:
        raise Refused("no operation")
    for place, operation in enumerate(told):
        where = f"operation {place + 1}"
        if not isinstance(operation, dict):
            raise Refused(f"{where}: no object")
        if not isinstance(operation.get("input"), dict) or not {"clientid", "call", "return"} <= operation.keys():
            raise Refused(f"{where}: no ClientId, Call, Return, or an Input that is no object")
        operation["at"] = where
    if nameless := sum("op" not in it["input"] for it in told):
        raise Refused(f"{nameless} of {len(told)} operations have no Op in Input: Go's JSON has exported fields alone")
    calls = [call_of(act, it, words) for act, it in words.known((it["input"]["op"], it) for it in told)]
    # The judge's times are from 0 on
    first = min((call["begin"] for call in calls), default=0)
    shift = -first if first < 0 else 0
    calls = in_order(call | {key: call[key] + shift for key in ("begin", "end") if key in call} for call in calls)
    if options.no_clients:
        return list(without_clients(calls))
    last, overlapping = {}, Counter()
    for call in calls:
        client = call["thread"]
        overlapping[f"ClientId {client}"] += client in last and not is_after(call, last[client])
        last[client] = call
    if overlapping.total():
        raise Refused(f"operations that began before the last one of their client returned: {listed(+overlapping)}; "
                      "with --no-clients the times alone order them")
    return calls


def in_order(calls):
    return sorted(calls, key=lambda call: (call["begin"], call.get("end", inf)))


def other_name(text):
    """The two names of --ops."""
    name, _, known = text.partition("=")
    if ACTS.get(known.lower()) is None:
        raise argparse.ArgumentTypeError(f"NAME=OP is due, and an OP of {', '.join(ACTS)}")
    return name_of(name).lower(), ACTS[known.lower()]


def options_of():
    form = {"description": __doc__, "formatter_class": argparse.RawDescriptionHelpFormatter}
    parser = argparse.ArgumentParser(**form)
    kinds = parser.add_subparsers(dest="kind", required=True)
    for kind in ("jepsen", "porcupine"):
        of_kind = kinds.add_parser(kind, **form)
        if kind == "jepsen":
            of_kind.add_argument("--key", type=name_of)
            of_kind.add_argument("--empty", action="append", default=[], metavar="WORD")
            of_kind.add_argument("--drained", action="store_true")
        else:
            of_kind.add_argument("--no-clients", action="store_true")
        of_kind.add_argument("--ops", action="append", default=[], metavar="NAME=OP", type=other_name)
        of_kind.add_argument("--ignore", action="append", default=[], metavar="NAME", type=name_of)
        of_kind.add_argument("--number-items", action="store_true")
        of_kind.add_argument("history")
    options = parser.parse_args()
    options.ops = dict(options.ops)
    return options


def main():
    try:
        options = options_of()
    except SystemExit as ended:
        return 64 if ended.code else 0
    words = Words(options)
    try:
        with open(options.history, encoding="utf-8") as file:
            text = file.read()
        calls = Jepsen(options, words).read(text) if options.kind == "jepsen" else porcupine(text, options, words)
        left = f"left out: {listed(words.left)}" if words.left else ""
        if not calls:
            raise Refused(f"no calls are left{f'; {left}' * bool(left)}")
    except (OSError, UnicodeDecodeError, RecursionError, Refused) as error:
        print(f"to_log: {options.history}: {error}", file=sys.stderr)
        return 1
    for call in in_order(calls):
        print(json.dumps(call, separators=(",", ":")))
    if left:
        print(f"to_log: {left}", file=sys.stderr)
    return 0


if __name__ == "__main__":
    sys.exit(main())
