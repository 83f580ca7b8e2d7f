#!/usr/bin/env python3
"""Decides what the page says of a state, and each field of a lesson's sentences, by a second program
(tests/show/second.py).

    tests/show/reads.py            docs/pages/index.html, whose texts node prints (tests/show/alone.js tells)

A field is a value in a sentence of a lesson, with its name: {owner:s2}. FIELDS decides the fields of a moment by the
event and its state, and WHOLE those of a text by the run. Outside of its fields a sentence has no number and no pass.
The cards of a state (the newest event, the chains, the list, the passes, an order of all calls, the report) are decided
line by line. That is done for each lesson and exercise and for some random runs, by each table of steps, at each event.

Before that the script shows that it finds a fault: each field of a moment with another value, each moment one event too
early and one too late, and each card with another number. Exit status 0 if all is so.
"""
import json
import pathlib
import re
import subprocess
import sys

sys.dont_write_bytecode = True
HERE = pathlib.Path(__file__).resolve().parent
sys.path.insert(0, str(HERE))
from second import SENDERS, Story, body_at, derive, field_of, node_of

PAGE = HERE.parent.parent / "docs/pages/index.html"
STATES = ["serve", "wait", "done"]
LOADS = {"ReadState", "ReadObject", "ReadNext", "ReadRequest", "ReadAnswer", "ReadPassed", "ReadDummyNext", "ReadItem"}
# What a field can't be read of, at an event at which it makes no sense.
NO_SENSE = (AssertionError, AttributeError, IndexError, KeyError, TypeError, ValueError, StopIteration)


def ordinal(n):
    return str(n) + ("th" if n % 100 in (11, 12, 13) else {1: "st", 2: "nd", 3: "rd"}.get(n % 10, "th"))


def in_words(names):
    names = [str(name) for name in names]
    return ", ".join(names[:-1]) + " and " + names[-1] if names[1:] else "".join(names)


def counted(n, word):
    return f"{n} {word}" + ("" if n == 1 else "s")


def plain(text):
    """A text without its marks."""
    return re.sub(r"[*`]", "", text)


def answer_said(text):
    """An answer as the page says it, of one as a report has it."""
    word, *rest = text.split()
    if word == "accepted":
        return "accepted as item " + rest[0]
    if word == "got":
        return f"got {' '.join(rest[3:])} as item {rest[0]}"
    after = {"shut": "shut after ", "already": "already shut after ", "ended": "ended after "}
    return after[word] + counted(int(rest[0]), "item") if rest else word


class At:
    """A state: a story after n events, with the newest one."""

    def __init__(self, story, n):
        self.story, self.n, self.state = story, n, story.states[n]
        self.e = story.events[n - 1] if n else None
        self.words = self.state.words

    def of(self, name):
        return self.words.get(name, 0)

    def node(self, chain, field, node):
        return self.of(derive.node(chain, field, node))

    def item(self, field, node):
        return self.of("list.%s[%d]" % (field, node))

    def body(self, node):
        """The words of the item in a list node."""
        return body_at(self.words, "list.body%%d[%d]" % node, self.item("tag", node))

    def head(self, group):
        return self.of(derive.of(group, "head")) - 1

    def tail(self, chain):
        return self.of(derive.of(chain, "tail")) - 1

    def waiting(self):
        """How many items wait: those that were accepted, less those that the slowest group got."""
        return len(self.story.accepted(self.n)) - min(len(self.taken(group)) for group in self.story.each_group())

    def taken(self, group):
        return self.story.taken(group, self.n)

    def reachable(self, group):
        """The items that a group can still reach, in order."""
        return [self.body(node) for node in self.story.walk(self.n, group)[1:] if node != self.story.capacity + 1]

    def answer_at(self, chain, node):
        """The answer in a node, by its words."""
        ret = self.node(chain, "ret", node)
        code, number = divmod(ret, 2**56)
        if chain == SENDERS:
            texts = ["", f"accepted {number}", "full", "closed", "spent", f"shut {number}", f"already {number}"]
            return answer_said(texts[code]) if ret else "none"
        if code == 1:
            body = body_at(self.words, derive.node(chain, "body%d", node), self.node(chain, "tag", node))
            return f"got {body} as item {number}"
        return ["none", "", "empty", "ended after " + counted(number, "item")][code]


# ---- The fields of a moment: what each has to be, by the event and its state.


def linked(at, value):
    assert field_of(at.e.word) in ("tail", "next", "head", "last")
    return f"node {value - 1}"


def first(at):
    """The first call of the event's chain without an answer."""
    return at.story.first_open(at.e.chain, at.n)


def holder(at, node):
    return at.story.holder(at.e.chain, node, at.n)


def prepared(at):
    """The list node that the event's pass links next."""
    return next(e for e in at.story.events[at.n:] if e.name == at.e.name and e.kind == "LinkLast").after - 1


def behind(at):
    """The group whose dummy is the event's node."""
    return next(group for group in at.story.each_group() if at.head(group) == at.e.index())


def slow(at):
    return min(at.story.each_group(), key=lambda group: len(at.taken(group)))


def answered(at):
    """The pass whose call the history gives the answer that the event's call returns."""
    calls = zip(at.story.history[at.e.chain], at.story.decisions[at.e.chain])
    return next(call.name for call, e in calls if answer_said(e.decides) == FIELDS["returned"](at))


def got(at):
    """The item that the event decides to give: by the decision, and by the words of the new dummy."""
    assert at.e.decides.startswith("got") and at.taken(at.e.chain)[-1] == at.body(at.head(at.e.chain))
    return at.taken(at.e.chain)[-1]


def cut(at):
    """The items that the group behind could reach until the event."""
    return in_words(At(at.story, at.n - 1).reachable(behind(at)))


FIELDS = {
    "pass": lambda at: at.e.name,
    "group": lambda at: at.e.chain,
    "node": lambda at: f"node {at.e.index()}" if at.e.index() >= 0 else None,
    "to": lambda at: linked(at, at.e.after),
    "was": lambda at: linked(at, at.e.before),
    "cursor": lambda at: f"node {at.e.after}" if at.e.word == "list.cursor" else None,
    "value": lambda at: at.e.after if at.e.kind in LOADS else None,
    "waits": lambda at: at.e.after if At(at.story, at.n - 1).state.last[at.e.name].kind == "Link" else None,
    "word": lambda at: {"next": "next link", "passed": "passed count"}.get(field_of(at.e.word), field_of(at.e.word)),
    "state": lambda at: at.node(at.e.chain, "state", at.state.nodes[at.e.name]),
    "owner": lambda at: holder(at, at.e.index()),
    "led": lambda at: holder(at, at.e.before - 1),
    "client": lambda at: holder(at, at.e.serves),
    "asked": lambda at: at.story.asked(at.e.chain, at.e.serves, at.n - 1).split(" ", 2)[2],
    "first": lambda at: first(at).name,
    "open_node": lambda at: f"node {at.state.nodes[first(at).name]}",
    "served": lambda at: ["no", "one", "two", "three"][len((at.state.turns.get(at.e.name) or at.state.over[0][1:])[0])],
    "combiner": lambda at: next(name for name in at.state.turns if name in at.story.on(at.e.chain)),
    "at": lambda at: f"node {at.state.turns[FIELDS['combiner'](at)][1]}",
    "tail": lambda at: f"node {at.tail(at.e.chain)}",
    "linked": lambda at: in_words(f"node {at.state.nodes[name]} of {name}" for name in at.story.on(at.e.chain)
                                  if at.node(at.e.chain, "next", at.state.nodes[name])),
    "place": lambda at: ordinal(at.e.call.place + 1) if at.e.enters else None,
    "order": lambda at: ordinal(1 + [n for n, _, _ in at.story.effects(len(at.story.events))].index(at.n)),
    "decided": lambda at: answer_said(at.e.decides),
    "returned": lambda at: at.answer_at(at.e.chain, at.e.index()) if at.e.ends else None,
    "answered": answered,
    "got": got,
    "number": lambda at: at.e.decides.split()[1],
    "whose": lambda at: at.story.accepted(at.n)[int(at.e.decides.split()[1])].name,
    "item": lambda at: at.body(at.e.after - 1 if at.e.kind == "LinkLast" else prepared(at)),
    "prepared": lambda at: f"node {prepared(at)}",
    "dummy": lambda at: f"node {at.head(at.e.chain)}",
    "slow": slow,
    "next": lambda at: at.reachable(slow(at))[0],
    "behind": behind,
    "cut": cut,
    "waiting": At.waiting,
    "capacity": lambda at: at.story.capacity,
    "free": lambda at: in_words(i for i in range(at.story.capacity + 1) if at.item("passed", i) == at.story.groups),
}

# ---- The fields of a text: the values that each may have, by the end of the run.


def turns(end):
    """The requests of each turn of a run, as the passes that asked."""
    marks = {}
    for e in end.story.events:
        if e.kind == "MarkDone":
            began = max(one.n for one in end.story.events[: e.n] if (one.name, one.kind) == (e.name, "ReadState"))
            marks.setdefault((began, e.name), []).append(end.story.holder(e.chain, e.serves, e.n))
    return marks


def sends(end, *answers):
    """The items of the sends with such an answer, or of all."""
    decided = {place: e.decides for place, e in enumerate(end.story.decisions[SENDERS])}
    return {call.text[5:] for call in end.story.history[SENDERS] if not answers or decided.get(call.place) in answers}


def pending(end):
    """The items of the sends that are pending for ever: at the end each pass in a call reads that its state is 1."""
    stuck = [name for name, call in end.state.calls.items() if call]
    assert all((end.state.last[name].kind, end.state.last[name].after) == ("ReadState", 1) for name in stuck)
    return [in_words(sorted(end.state.calls[name].text[5:] for name in stuck))]


def untaken(end):
    """The groups that reach no item at the end and haven't got all, each with the accepted items that it never gets."""
    missing = {group: [call.text[5:] for call in end.story.accepted(end.n)][len(end.taken(group)):]
               for group in end.story.each_group()}
    return {group: in_words(items) for group, items in missing.items() if items and not end.reachable(group)}


def again(end):
    """The list nodes that a send links after a take has freed them."""
    frees = {e.index(): e.n
             for e in reversed(end.story.events) if e.kind == "AddPassed" and e.after == end.story.groups}
    return [f"node {e.after - 1}"
            for e in end.story.events if e.kind == "LinkLast" and e.n > frees.get(e.after - 1, e.n)]


WHOLE = {
    "pass": lambda end: {e.name for e in end.story.events},
    "combiner": lambda end: {name for _, name in turns(end)},
    "turn": lambda end: {in_words(asked) for asked in turns(end).values()},
    "next": lambda end: {end.story.holder(e.chain, e.index(), e.n) for e in end.story.events if e.kind == "HandOver"},
    "sent": sends,
    "full": lambda end: sends(end, "full"),
    "waiting": lambda end: {At(end.story, e.n).waiting() for e in end.story.events if e.decides == "full"},
    "taker": lambda end: {e.name for e in end.story.events if e.decides.startswith("got")},
    "again": again,
    "capacity": lambda end: [end.story.capacity],
    "bound": lambda end: [end.story.bound],
    "groups": lambda end: [
        ", and ".join(f"{name} is group {group}" for group in end.story.each_group() for name in end.story.on(group))],
    "behind": untaken,
    "untaken": lambda end: untaken(end).values(),
    "pending": pending,
    "twice": lambda end: {item
                          for item in end.taken(1)
                          if end.taken(1).count(item) > 1 == [call.text[5:]
                              for call in end.story.accepted(end.n)].count(item)},
}


def fields(text):
    """The fields of a text; a text that names a number or a pass outside of them is a fault."""
    rest = re.sub(r"\{\w+:[^{}]+\}", "", text)
    if re.search(r"\d|\b[sr]\d|[{}]", rest):
        yield "field", f"a number or a pass is in no field: {text}"
    yield from re.findall(r"\{(\w+):([^{}]+)\}", text)


def wrong_in_moment(at, text):
    """The fields of a moment that are wrong. At an event at which a field makes no sense it is wrong too."""
    for name, value in fields(text):
        try:
            due = FIELDS[name](at)
        except NO_SENSE as fault:
            due = repr(fault)
        if str(due) != value:
            yield f"{name} is {due}, and not {value}: {text}"


def wrong_in_text(story, text):
    for name, value in fields(text):
        due = {str(one) for one in WHOLE[name](At(story, len(story.events)))} if name in WHOLE else set()
        if value not in due:
            yield f"{name} is one of {sorted(due)}, and not {value}: {text}"


# ---- The cards of a state, line by line.


def word_said(at, word):
    """A word as the page says it."""
    story, chain = at.story, 0 if word.startswith("e.") else int((re.match(r"d(\d+)", word) or [0, 0])[1])
    named = "send chain" if chain == SENDERS else "take chain" + (f" of group {chain}" if story.groups > 1 else "")
    field = field_of(word)
    index = re.fullmatch(r"body(\d)", field)
    field = {"next": "next link", "ret": "answer", "passed": "passed count"}.get(field,
        f"{ordinal(int(index[1]) + 1)} word" if index else field)
    if field == "tail":
        return "the tail of the " + named
    if not word.endswith("]"):
        return field + (f" of group {chain}" if chain and story.groups > 1 else "")
    if not word.startswith("list."):
        return f"the {field} of node {node_of(word)} in the {named}"
    return f"the {field} of " + ("the closing mark" if node_of(word) == story.capacity + 1
                                 else f"list node {node_of(word)}")


def value_said(at, word, value):
    """A value of a word as the page says it."""
    field, groups = field_of(word), at.story.groups
    if field in ("tail", "next", "head", "last"):
        is_mark = value - 1 == at.story.capacity + 1 and (word.startswith("list.") or field == "head")
        return "null" if value == 0 else "the mark" if is_mark else f"node {value - 1}"
    if field == "tag":
        sender, count, size = derive.untagged(value)
        return f"the {ordinal(count)} send of s{sender}, {counted(size, 'word')}" if value else "0 (a close, or none)"
    if field == "ret":
        code, number = divmod(value, 2**56)
        if word.startswith("e."):
            return answer_said(["none", f"accepted {number}", "full", "closed", "spent", f"shut {number}",
                                f"already {number}"][code])
        return ["none", f"got item {number}", "empty", "ended after " + counted(number, "item")][code]
    said = {"cursor": f"node {value}", "shut": f"{value} ({'shut' if value else 'open'})",
            "passed": f"{value} of {counted(groups, 'group')}"}
    return f"{value} ({STATES[value]})" if field == "state" else said.get(field, str(value))


def event_due(at):
    """What the page says of the newest event."""
    e = at.e
    if e is None:
        yield "The opening. Every pass is idle, each tail names node 0 of its chain, and the list is its dummy alone."
        return
    word, before, after = word_said(at, e.word), value_said(at, e.word, e.before), value_said(at, e.word, e.after)
    if e.kind in LOADS:
        yield f"{e.name} reads {word}: {after}."
    elif e.kind == "Exchange":
        yield f"{e.name} swaps {after} into {word} and gets {before}."
    elif e.kind == "AddPassed":
        yield f"{e.name} adds 1 to {word}: now {after}."
    else:
        same = f"writes {after} into {word}, which had this value."
        yield f"{e.name} {same if before == after else f'changes {word} from {before} to {after}.'}"
    if e.kind == "ResetNext":
        yield f"This is the first step of its call: {e.call.text}."
    if e.serves >= 0:
        whose = "its own" if at.story.holder(e.chain, e.serves, at.n - 1) == e.name else "the"
        yield f"It serves {whose} request in node {e.serves}: {at.story.asked(e.chain, e.serves, at.n - 1)}."
    if e.kind == "ReadState" and e.after == 1:
        yield "It waits: nothing changes."
    if e.enters:
        yield "The call enters the history."
    if e.decides:
        yield f"Decided: {answer_said(e.decides)}."
    if e.ends:
        yield f"The call returns: {at.answer_at(e.chain, e.index())}."


def turns_due(at, chain):
    """What the page says of the turn in a chain."""
    def shown(served):
        texts = ("the last six are " if served[6:] else "") + ", ".join(asked for _, asked in served[-6:])
        return f": {texts}." if served else "."

    combiners = [name for name in at.story.on(chain) if name in at.state.turns]
    bound = counted(at.story.bound, "request")
    for name in combiners:
        served = at.state.turns[name][0]
        yield f"{name} combines, and has served {len(served)} of at most {bound}{shown(served)}"
    if not combiners:
        yield "No pass combines."
        if chain in at.state.over:
            name, served = at.state.over[chain]
            yield f"In the last turn {name} served {counted(len(served), 'request')}{shown(served)}"


def chain_due(at, chain):
    """The boxes of a chain: those of calls that wait and of the tail, and those that are marked done; and the nodes in
    no chain."""
    story, nodes, last = at.story, at.state.nodes, at.state.last
    state = lambda node: f"state {at.node(chain, 'state', node)}: {STATES[at.node(chain, 'state', node)]}"
    # A combiner is at the node that it serves, and each other pass at its own.
    at_node = {turn[1]: [f"{name} serves this" if turn[2] else f"{name} is here"]
               for name, turn in at.state.turns.items() if story.passes[name].chain == chain}
    inside = sorted((name for name in story.on(chain) if story.inside(name, at.n)),
                    key=lambda name: at.state.calls[name].place)
    done = [name for name in inside if at.node(chain, "state", nodes[name]) == 2]
    waiting, tail = [name for name in inside if name not in done], at.tail(chain)

    def box(name, then=None):
        node, link = nodes[name], at.node(chain, "next", nodes[name])
        writes = chain == SENDERS and (last[name].kind == "Exchange" or last[name].kind == "WriteRequest"
                                       and is_unfinished(at, name))
        lines = [f"node {node}", f"{name} writes its request" if writes else story.asked(chain, node, at.n),
                 state(node)]
        here = at_node.get(node, []) + [name] * (name not in at.state.turns)
        if then is None:
            return [here, lines + [at.answer_at(chain, node)]
                    + ["next: " + value_said(at, "e.next", link)] * bool(story.table), ""]
        return [here, lines, "not linked" if link == 0 else "" if link - 1 == then
                else f"to node {link - 1}"]

    follows = [nodes[name] for name in waiting[1:]] + [tail]
    boxes = [box(name, then) for name, then in zip(waiting, follows)]
    boxes.append([["tail", *at_node.get(tail, [])], [f"node {tail}", "of no call yet", state(tail)], ""])
    return [boxes, [box(name) for name in done],
            [f"{name}: node {nodes[name]}" for name in story.on(chain) if name not in inside]]


def is_unfinished(at, name):
    """Whether a pass hasn't written the whole body of its request."""
    size = len(at.state.calls[name].text.split()[1:]) or 1
    return field_of(at.state.last[name].word) != f"body{size - 1}"


def is_prepared(at, node):
    """Whether a combiner has cleared a list node that it hasn't linked."""
    for name in set(at.state.turns) & set(at.story.on(SENDERS)):
        newest = next((e for e in reversed(at.story.events[: at.n])
                       if e.name == name and e.kind in ("LinkLast", "ResetListNode")), None)
        if newest and newest.kind == "ResetListNode" and newest.index() == node:
            return True
    return False


def item_due(at, node, reached, arrow, looks):
    """The names over a list node, its lines and its arrow; `looks` are the names that no word decides."""
    story = at.story
    tag, passed, groups = at.item("tag", node), at.item("passed", node), story.each_group()
    held = [f"item {at.body(node)}",
            "the %s send of s%d" % (ordinal(derive.untagged(tag)[1]), derive.untagged(tag)[0])] if tag else ["no item"]
    if node == story.capacity + 1:
        lines = ["closing mark"]
    elif is_prepared(at, node):
        lines = ["is prepared", *held]
    elif node not in reached or passed == story.groups:
        lines = ["free"]
    else:
        lines = held if any(node in story.walk(at.n, group)[1:] for group in groups) else ["dummy"]
    ends = [f"head {group}" if story.groups > 1 else "head" for group in groups if at.head(group) == node]
    ends += ["last"] * (at.of("list.last") - 1 == node) + ["cursor"] * (at.of("list.cursor") == node)
    return [ends + looks,
            [f"node {node}", *lines, *[f"passed by {passed} of {story.groups}"] * (node <= story.capacity)], arrow]


def list_due(at, told):
    """The rows of the list, the nodes outside of it, and its words; a row ends at null, or at a node that is there
    already."""
    story, (rows, free, _) = at.story, told
    reached = {node for group in story.each_group() for node in story.walk(at.n, group)}
    number = lambda box: int(box[1][0].split()[1])
    boxes = [number(box) for row in rows for box in row]
    outside = [node for node in range(story.capacity + 1) if node not in reached]
    if sorted(boxes) != sorted(reached) or [number(box) for box in free] != outside:
        return [sorted(reached), outside]

    def due(box, then=None):
        link = at.item("next", number(box)) - 1
        arrow = "" if box in free or then and link == number(then) else "null" if link < 0 else f"to node {link}"
        return item_due(at, number(box), reached, arrow, [end for end in box[0] if end == "looks here"])

    drawn = {re.sub(r"^head (\d)", r"head of group \1", end) for row in [*rows, free] for box in row for end in box[0]}
    words = ["list." + field for field in ("last", "cursor", "count", "shut")]
    words += [derive.of(group, field) for group in story.each_group() for field in ("head", "taken")]
    return [[[due(box, then) for box, then in zip(row, [*row[1:], None])] for row in rows], [due(box) for box in free],
            [[word_said(at, word), value_said(at, word, at.of(word))]
             for word in words if word_said(at, word) not in drawn]]


def pass_due(at, name):
    """What the page says of a pass."""
    story, call, last, chain = at.story, at.state.calls[name], at.state.last[name], at.story.passes[name].chain
    if call is None:
        left = story.texts[name][sum(e.name == name and e.kind == "ResetNext" for e in story.events[: at.n]):]
        return "idle, next " + left[0] if left else "idle, no call left"
    if name in at.state.turns:
        return f"combines, {len(at.state.turns[name][0])} of {story.bound}"
    if last.kind in ("HandOver", "ReadAnswer") or last.kind == "ReadState" and last.after == 2:
        return "reads its answer: " + call.text
    looks = last.kind in ("Link", "ReadState")
    return (["is to serve", "waits", "answered"][at.node(chain, "state", at.state.nodes[name])] if looks
            else "enters") + ": " + call.text


def order_due(at):
    """What the page says of an order of all calls."""
    fault, said = at.story.order_fault(at.n), lambda call: call.said() if call else "a request of no call"
    due = "So far each answer is that of a queue that does one call after another."
    if fault:
        call, answer, wanted = fault
        due = (f"In this order {said(call)} is answered {answer_said(answer)}, "
               f"and a queue that does one call after another answers {answer_said(wanted)}.")
    elif not at.story.table:
        due = ("In this order each answer is that of a queue that does one call after another: "
               "every run is linearizable, and that is proved.")
    return [due, [[n, e.n, said(call), answer_said(e.decides)] for n, e, call in at.story.effects(at.n)]]


def report_due(at):
    """The history, as a report has it."""
    story = at.story
    for chain, calls in enumerate(story.history):
        front = "E" if chain == SENDERS else "D" if story.plan["version"] == 1 else f"D {chain}"
        answers = [e.decides for e in story.decided(chain, at.n)]
        for place, call in enumerate(call for call in calls if call.exchanged <= at.n):
            yield f"{front} {place} {call.name} {call.text} -> {answers[place] if place < len(answers) else 'pending'}"
    yield from ["audit clean"] * (story.table == "")


def wrong_in_state(at, told):
    """The texts of a state that are wrong."""
    story = at.story
    due = [list(event_due(at)),
           [[list(turns_due(at, chain)), *chain_due(at, chain)] for chain in range(story.groups + 1)],
           list_due(at, told[2]), [[name, pass_due(at, name)] for name in story.passes], order_due(at),
           "".join(line + "\n" for line in report_due(at))]
    return [f"{seen} is told, and {wanted} is due" for seen, wanted in zip(told, due) if seen != wanted]


# ---- All of it.


def with_other_numbers(told):
    """What is told, each time with one other number."""
    for found in re.finditer(r"\d+(?=[^{}]*)", told):
        yield told[: found.start()] + str(int(found[0]) + 1) + told[found.end():]


def wrong_in_lesson(story, part):
    """The texts and moments of a lesson that are wrong, and the faults in them that aren't found."""
    for text in (part["text"], part.get("lost", "")):
        yield from wrong_in_text(story, text)
    for n, kind, text in part["moments"]:
        at = At(story, n)
        yield from wrong_in_moment(at, text)
        yield from [f"event {n} is no {kind}"] * (at.e.kind != kind)
        for name, value in fields(text):
            if not list(wrong_in_moment(at, text.replace(f"{{{name}:{value}}}", f"{{{name}:{value}0}}"))):
                yield f"no fault is found with another {name}: {text}"
        for other in (n - 1, n + 1):
            if 0 < other <= len(story.events) and story.events[other
                - 1].kind == kind and not list(wrong_in_moment(At(story, other), text)):
                yield f"the moment is right at event {other} too: {text}"


def parting_due(*stories):
    """Where two runs of one plan part."""
    same = next(n for n, (e, f) in enumerate(zip(*(story.events for story in stories)))
                if (e.name, e.kind, e.word, e.before, e.after) != (f.name, f.kind, f.word, f.before, f.after))
    return f"The two queues do the same up to event {same}, and part at event {same + 1}."


def main():
    lessons = {lesson["id"]: lesson
               for lesson in json.loads(re.search(r'id="lessons">(.*?)</script>', PAGE.read_text(), re.S)[1])}
    process = subprocess.Popen(["node", HERE / "alone.js", "tells", PAGE], stdout=subprocess.PIPE, text=True)
    wrong, count, moments, planted = [], 0, 0, 0
    for line in process.stdout:
        told = json.loads(plain(line))
        name = f"{told['id']} by the {told['table'] or 'right'} table"
        story = Story(told["plan"], told["table"], told.get("steps"))
        if len(told["states"]) != len(story.events) + 1:
            sys.exit(f"reads: {name}: the page's run has {len(told['states']) - 1} events, and {len(story.events)} "
                     f"are due")
        for n, state in enumerate(told["states"]):
            wrong += [(f"{name}, event {n}", fault) for fault in wrong_in_state(At(story, n), state)]
        count += len(told["states"])
        lesson = lessons.get(told["id"])
        if lesson and told["table"] in ("", lesson.get("table", "")):
            part = lesson if told["table"] == lesson.get("table", "") else lesson["right"]
            wrong += [(name, fault) for fault in wrong_in_lesson(story, part)]
            moments += len(part["moments"])
            if told["table"] and told["parting"] != parting_due(Story(told["plan"]), story):
                wrong.append((name, told["parting"]))
            n = len(story.events) * 2 // 3
            for other in with_other_numbers(json.dumps(told["states"][n])):
                planted += 1
                if not wrong_in_state(At(story, n), json.loads(other)):
                    wrong.append((f"{name}, event {n}", f"no fault is found in {other}"))
    for where, fault in wrong[:40]:
        print(f"reads: {where}: {fault[:500]}")
    print(f"reads: {count} states, {moments} moments, each field decided; {planted} other numbers in states found; "
          f"{len(wrong)} wrong")
    return process.wait() or bool(wrong)


if __name__ == "__main__":
    if sys.argv[1:]:
        print(__doc__)
        sys.exit(0 if sys.argv[1:] in (["-h"], ["--help"]) else 64)
    sys.exit(main())
