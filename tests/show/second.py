"""A second program for the page: runs of the queue, right or broken, and their states.

tests/show/reads.py and tests/show/progress.py import it. The machine is that of tests/derive.py, which knows the
algorithm from the documents alone. The broken tables are written here from what docs/pages/index.html says that each of
them does wrong. Nothing here is taken from the page's own machine.
"""
import pathlib
import re
import sys
from dataclasses import dataclass, field

sys.dont_write_bytecode = True
sys.path.insert(0, str(pathlib.Path(__file__).resolve().parent.parent))
import derive

SENDERS = derive.SENDERS
ENTERS = {"ResetNext", "ResetState", "Exchange", "WriteRequest"}
# The steps of a combiner that are no step of a service.
BETWEEN = {"ReadState", "ReadNext", "HandOver", "ReadAnswer", "Link", *ENTERS}


@dataclass
class Sequential:
    """A queue that one caller at a time uses."""

    capacity: int
    life: int
    groups: int
    items: list[str] = field(default_factory=list)
    shut: bool = False

    def __post_init__(self) -> None:
        self.handed = [0] * self.groups
        self.sends: dict[int, int] = {}

    def answer(self, chain: int, number: int, call: str) -> str:
        """What the next call returns: of the pass with this number, on the chain of the senders or of a group."""
        word, _, body = call.partition(" ")
        if word == "take":
            return self.take(chain - 1)
        count = len(self.items)
        if word == "close":
            told = "already" if self.shut else "shut"
            self.shut = True
            return f"{told} {count}"
        self.sends[number] = self.sends.get(number, 0) + 1
        if self.shut:
            return "closed"
        if count == self.life:
            return "spent"
        if count - min(self.handed) == self.capacity:
            return "full"
        self.items.append(f"{count} s{number} {self.sends[number]} {body}")
        return f"accepted {count}"

    def take(self, group: int) -> str:
        """What a take of a group returns."""
        place = self.handed[group]
        if place == len(self.items):
            return f"ended {place}" if self.shut else "empty"
        self.handed[group] += 1
        return "got " + self.items[place]


class Broken(derive.Machine):
    """The machine, by one of the page's tables: `""` is the right one."""

    def __init__(self, plan, table):
        super().__init__(plan)
        self.table, self.stepping, self.linked = table, None, {}

    def event(self, pass_):
        self.stepping = pass_.name
        return super().event(pass_)

    def change(self, kind, word, by):
        if kind == "AddPassed" and self.table == "freed_dummy":
            word = "list.passed[%d]" % (self.linked[self.stepping] - 1)
        found = super().change(kind, word, by)
        if kind == "ReadDummyNext":
            self.linked[self.stepping] = found
        return found

    def combine(self, chain, at):
        broken = {"marked_early": self.mark_early, "handed_past": self.hand_past}
        yield from broken.get(self.table, super().combine)(chain, at)

    def serve(self, chain, at):
        yield from self.serve_send(at) if chain == SENDERS else self.serve_take(chain, at)
        yield self.store("MarkDone", derive.node(chain, "state", at), 2)

    def mark_early(self, chain, at):
        """The combiner reads the link by which it continues after the mark."""
        for _ in range(self.bound):
            link = self.load("ReadNext", derive.node(chain, "next", at))
            yield
            if link == 0:
                break
            yield from self.serve(chain, at)
            link = self.load("ReadNext", derive.node(chain, "next", at))
            yield
            if link == 0:
                break
            at = link - 1
        yield self.store("HandOver", derive.node(chain, "state", at), 0)

    def hand_past(self, chain, at):
        """At the bound the combiner reads one link more."""
        for served in range(self.bound + 1):
            link = self.load("ReadNext", derive.node(chain, "next", at))
            yield
            if link == 0:
                break
            if served < self.bound:
                yield from self.serve(chain, at)
            at = link - 1
        yield self.store("HandOver", derive.node(chain, "state", at), 0)

    def scan(self):
        if self.table not in ("one_group", "full_early"):
            return (yield from super().scan())
        place, reads = self.load("ReadObject", "list.cursor"), 1
        yield
        while True:
            passed = self.load("ReadPassed", "list.passed[%d]" % place)
            is_free = passed > 0 if self.table == "one_group" else passed == self.groups
            is_over = reads == self.capacity + (1 if self.table == "one_group" else -1)
            if not is_free and is_over:
                self.decide(SENDERS, "full")
            yield
            if is_free or is_over:
                return place if is_free else None
            place, reads = (place + 1) % (self.capacity + 1), reads + 1


@dataclass
class Call:
    """A call: its pass, its text in a report, and its place in the history of its chain."""

    name: str
    text: str
    place: int = -1
    exchanged: int = 0

    def said(self):
        """The call as the page says it: s2 sends 7."""
        word, _, body = self.text.partition(" ")
        return f"{self.name} {word}s {body}".strip()


@dataclass
class Event:
    """An event, as a trace has it, with its call; `serves` is the node whose request is served, or -1."""

    n: int
    name: str
    chain: int
    kind: str
    word: str
    before: int
    after: int
    call: Call
    enters: bool = False
    decides: str = ""
    ends: bool = False
    serves: int = -1

    def index(self):
        return node_of(self.word)


@dataclass
class State:
    """The words after an event. Of each pass: its call, its node, its last event, and its turn as a combiner: the nodes
    that it has served, and the node that it is at, with whether it serves that node's request."""

    words: dict
    calls: dict
    nodes: dict
    last: dict
    turns: dict = field(default_factory=dict)
    over: dict = field(default_factory=dict)


class Story:
    """A run, with its state after each event: of a plan, or of steps in the place of the plan's schedule."""

    def __init__(self, plan, table="", steps=None):
        self.plan, self.table = derive.plan_of(plan.encode()), table
        self.machine = machine = Broken(self.plan, table)
        self.groups, self.capacity, self.bound = machine.groups, machine.capacity, machine.bound
        self.passes = {one.name: one for one in derive.passes_of(self.plan).values()}
        self.texts = {one.name: [text_of(one.chain, body) for body in one.calls] for one in self.passes.values()}
        self.events, self.history, self.decisions = [], [[] for _ in machine.calls], [[] for _ in machine.calls]
        nothing = dict.fromkeys(self.passes)
        self.states = [State(dict(machine.words), nothing, {name: one.node for name, one in self.passes.items()},
                             nothing)]
        for name, count in steps or [("%s%d" % name, count) for name, count in self.plan["schedule"]]:
            for _ in range(count):
                if not self.do(name):
                    break

    def do(self, name):
        """A step of a pass, and the state after it; False if the pass has no call left."""
        pass_, was, n = self.passes[name], self.states[-1], len(self.events) + 1
        chain, step = pass_.chain, self.machine.event(pass_)
        if step is None:
            return False
        call = was.calls[name] or Call(name, self.texts[name][pass_.begun - 1])
        e = Event(n, name, chain, step["kind"], step["word"], step["before"], step["after"], call)
        if len(self.machine.calls[chain]) > len(self.history[chain]):
            e.enters, call.exchanged, call.place = True, n, len(self.history[chain])
            self.history[chain].append(call)
        if len(self.machine.answers[chain]) > len(self.decisions[chain]):
            e.decides = self.machine.answers[chain][-1]
            self.decisions[chain].append(e)
        e.ends = e.kind == "ReadAnswer" and is_last_word(e, self.machine.words)
        turns, over = dict(was.turns), dict(was.over)
        self.follow(e, pass_.node, turns, over)
        now = State(dict(self.machine.words), was.calls | {name: None if e.ends else call},
                    was.nodes | {name: pass_.node},
                    was.last | {name: e}, turns, over)
        self.events.append(e)
        self.states.append(now)
        return True

    def follow(self, e, own, turns, over):
        """The turn of a pass, as its event leaves it: the nodes served, the node that the pass is at, whether the
        request there is served, and the link that was read last."""
        if e.kind == "ReadState" and e.after == 0:
            turns[e.name] = [], own, False, 0
        if e.name not in turns:
            return
        served, at, _, link = turns[e.name]
        if e.kind == "ReadNext":
            marked = self.table == "marked_early" and self.states[-1].last[e.name].kind == "MarkDone"
            past = marked or self.table == "handed_past" and len(served) == self.bound
            turns[e.name] = served, (e.after - 1 if past and e.after else e.index()), e.after > 0 and not past, e.after
        elif e.kind == "MarkDone":
            e.serves = at
            turns[e.name] = served + [(at, self.asked(e.chain, at, e.n - 1))], (at if self.table == "marked_early"
                else link - 1), False, link
        elif e.kind == "HandOver":
            over[e.chain] = e.name, turns.pop(e.name)[0]
        elif e.kind not in BETWEEN:
            e.serves = at

    def each_group(self):
        return range(1, self.groups + 1)

    def on(self, chain):
        """The names of the passes of a chain."""
        return [name for name, pass_ in self.passes.items() if pass_.chain == chain]

    def inside(self, name, n):
        """Whether a pass is in a call that has exchanged."""
        call = self.states[n].calls[name]
        return call is not None and 0 < call.exchanged <= n

    def holder(self, chain, node, n):
        """The pass that has a node in a call that has exchanged, or None."""
        return next((name for name in self.on(chain) if self.states[n].nodes[name] == node and self.inside(name, n)),
                    None)

    def asked(self, chain, node, n):
        """The request in a node as the page says it, by the words: s2 sends 7."""
        words, name = self.states[n].words, self.holder(chain, node, n)
        if name is None:
            return "a request of no call"
        if chain != SENDERS:
            return name + " takes"
        tag = words.get(derive.node(chain, "tag", node), 0)
        return f"{name} sends {body_at(words, derive.node(chain, 'body%d', node), tag)}" if tag else name + " closes"

    def first_open(self, chain, n):
        """The first call of a chain that isn't marked done. Calls get their marks in the order of the history."""
        return self.history[chain][sum(e.kind == "MarkDone" and e.chain == chain for e in self.events[:n])]

    def decided(self, chain, n):
        """The decisions of a chain up to an event, the k-th for the k-th call."""
        return [e for e in self.decisions[chain] if e.n <= n]

    def accepted(self, n):
        """The sends that the history answers with Accepted, in order."""
        return [call for call, e in zip(self.history[SENDERS], self.decided(SENDERS, n))
                if e.decides.startswith("accepted")]

    def taken(self, group, n):
        """The items that a group got, in order."""
        return [" ".join(e.decides.split()[4:]) for e in self.decided(group, n) if e.decides.startswith("got")]

    def walk(self, n, group):
        """The nodes of the list from the dummy of a group on, up to null or to a node that comes again."""
        words = self.states[n].words
        at, nodes = words[derive.of(group, "head")] - 1, []
        while at >= 0 and at not in nodes:
            nodes.append(at)
            at = words.get("list.next[%d]" % at, 0) - 1
        return nodes

    def effects(self, n):
        """The decided calls in the order of their effects: each as the event of its effect, its decision and its
        call."""
        found = []
        for chain, calls in enumerate(self.history):
            for place, e in enumerate(self.decided(chain, n)):
                cursors = [one.n for one in self.events[: e.n]
                           if (one.name, one.word, one.kind) == (e.name, "list.cursor", "ReadObject")]
                found.append((cursors[-1] if e.decides == "full" else e.n, e, calls[place] if place < len(calls)
                              else None))
        return sorted(found, key=lambda one: one[0])

    def order_fault(self, n):
        """The first answer in the order of effects that a sequential queue doesn't give, as its call, the answer and
        the one that is due; or None."""
        queue = Sequential(self.capacity, self.machine.life, self.groups)
        for _, e, call in self.effects(n):
            due = queue.answer(e.chain, int(call.name[1:]), call.text) if call else "nothing"
            if due != e.decides:
                return call, e.decides, due
        return None


def text_of(chain, body):
    return "take" if chain != SENDERS else "close" if body is None else "send " + derive.spaced(body)


def body_at(words, name, tag):
    """The words of a body; `name` has the place of their numbers."""
    return derive.spaced(words.get(name % k, 0) for k in range(derive.untagged(tag)[2]))


def field_of(word):
    return word.split(".")[1].split("[")[0]


def node_of(word):
    """The node that a word is of, or -1."""
    found = re.search(r"\[(\d+)\]$", word)
    return int(found[1]) if found else -1


def is_last_word(e, words):
    """Whether a call ends with this read of its answer."""
    if e.word.split("[")[0].endswith("ret"):
        return e.chain == SENDERS or e.after // 2**56 != 1
    index = re.search(r"body(\d)", e.word)
    return bool(index) and int(index[1]) + 1 == derive.untagged(words["d%d.tag[%d]" % (e.chain, e.index())])[2]
