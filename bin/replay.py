"""Takes the steps of a run again, by the rules of docs/model.md, so that bin/falkirk-page can show what no line prints: what is
pending and settled, and which writes are in flight. What a recovery cuts, and whether a collection is idle, is read off the lines
that the program printed; all else that these say is compared, and where one differs `Differs` says so.

It keeps whole histories, so it is for small runs. It is no part of what is proved, and nothing proved rests on it.
"""
from collections import Counter, defaultdict
from dataclasses import dataclass, field

MODULUS, GREATEST = 2**64, 2**32 - 1
NOTIFIED = {"sum", "total", "sequence"}


class Differs(Exception):
    """The texts and what was printed do not belong together, or a text is none."""


@dataclass
class Node:
    name: str
    kind: str
    words: list  # those behind the kind, without the loop and the policy
    loop: str | None
    policy: str
    part: tuple | None  # of a replica: the remainder of the keys that come to it, and by which number
    ins: list = field(default_factory=list)
    outs: list = field(default_factory=list)


@dataclass
class Edge:
    name: str
    sender: str
    receiver: str


@dataclass
class Event:
    """An event of a node: `message` is what was delivered on `edge`, (stamp, key, value, cause); `sent` what the node sent."""

    stamp: tuple
    edge: str | None = None
    message: tuple | None = None
    notified: bool = False
    sent: list = field(default_factory=list)
    serial: int = 0


@dataclass
class Write:
    """A checkpoint at `front`, or the write of the event `serial`."""

    node: str
    front: tuple | None
    serial: int
    in_flight: bool = True


def leq(s, t):
    return all(a <= b for a, b in zip(s, t))


def least(stamps):
    """The least of these stamps, which name a frontier: the stamps above none of them. No stamps name all."""
    kept = set(stamps)
    return tuple(sorted(s for s in kept if not any(t != s and leq(t, s) for t in kept)))


def inside(front, stamp):
    return not any(leq(s, stamp) for s in front)


def is_within(small, large):
    return all(not inside(small, s) for s in large)


def meet(one, other):
    return least(one + other)


def join(one, other):
    return least(tuple(map(max, s, t)) for s in one for t in other)


def said(front):
    """A frontier as it is printed."""
    return " ".join(["until", *(".".join(map(str, s)) for s in front)]) if front else "all"


def front_of(words):
    """The frontier that is printed so, and None where the node stays as it is."""
    return None if words == ["present"] else tuple(tuple(map(int, it.split("."))) for it in words if it not in ("all", "until"))


def replicas_of(lines):
    """How many replicas each split node of a flow has."""
    return {words[1]: int(words[-3]) for _, words in lines if words[0] == "node" and len(words) > 6 and words[-4] == "split"}


def expanded(lines):
    """The lines of a flow with each split node spelled out as its replicas, the node that joins them and the edges between."""
    replicas, out = replicas_of(lines), []
    for number, words in lines:
        count = replicas.get(words[1 if words[0] == "node" else -1], 0) if words[0] in ("node", "edge") else 0
        if not count:
            out.append((number, words))
        elif words[0] == "edge":
            _, name, sender, receiver = words
            out += [(number, ["edge", f"{name}.{i}", sender, f"{receiver}.{i}"]) for i in range(count)]
        else:
            name, loop = words[1], words[3:-4]
            out += [(number, ["node", f"{name}.{i}", *words[2:-4], *words[-2:]]) for i in range(count)]
            out.append((number, ["node", name, "concat", *loop, "policy", "none"]))
            out += [(number, ["edge", f"{name}.out.{i}", f"{name}.{i}", name]) for i in range(count)]
    return out


class Flow:
    """The declarations of a flow that was accepted, with each split node spelled out."""

    def __init__(self, lines):
        self.nodes, self.edges, self.most, self.parent = {}, {}, {}, {}
        parts = {f"{name}.{i}": (i, count) for name, count in replicas_of(lines).items() for i in range(count)}
        for _, words in expanded(lines):
            if words[0] == "loop":
                self.most[words[1]], self.parent[words[1]] = int(words[3]), words[5] if len(words) > 4 else None
            elif words[0] == "node":
                self.nodes[words[1]] = self.node(parts.get(words[1]), *words[1:])
            else:
                self.edges[words[1]] = Edge(*words[1:])
        for edge in self.edges.values():
            self.nodes[edge.sender].outs.append(edge.name)
            self.nodes[edge.receiver].ins.append(edge.name)

    @staticmethod
    def node(part, name, kind, *words):
        words, policy, loop = list(words), "none", None
        if words[-2:-1] == ["policy"]:
            policy, words = words[-1], words[:-2]
        if kind in ("enter", "feedback", "leave"):
            loop, words = words[0], []
        elif words[-2:-1] == ["loop"]:
            loop, words = words[-1], words[:-2]
        return Node(name, kind, words, loop, policy, part)

    def carried(self, edge, messages):
        """Those of the messages that the edge carries: of its part of the keys, where it leads to a replica."""
        part = self.nodes[self.edges[edge].receiver].part
        return messages if part is None else [it for it in messages if it[1] % part[1] == part[0]]

    def domain(self, node):
        """The loop in whose domain a node is, or None outside loops."""
        return self.parent[node.loop] if node.kind == "enter" else node.loop

    def first_stamp(self, node):
        loop, stamp = self.domain(node), (0,)
        while loop:
            loop, stamp = self.parent[loop], stamp + (0,)
        return stamp

    def is_numbered(self, edge):
        return self.nodes[self.edges[edge].receiver].kind in ("ledger", "regroup") or self.nodes[self.edges[edge].receiver].words == ["number"]


class Replay:
    """A state of the machine, and the steps that lead on from it; `printed` are the lines of the program that are not told yet,
    or None where nothing is to be compared."""

    def __init__(self, flow, batches, printed):
        self.flow, self.batches, self.printed = flow, batches, printed if printed is None else list(printed)
        self.events = {node: [] for node in flow.nodes}
        self.settled = {node.name: (flow.first_stamp(node),) for node in flow.nodes.values()}
        self.acknowledged = dict.fromkeys(flow.nodes, 0)
        self.failed, self.writes, self.serial = set(), [], 0
        self.count, self.idle, self.faults = 0, 0, 0
        self.count_again()

    # What follows from the events.

    def count_again(self):
        """What is pending, and how many messages came, by the events that there are."""
        self.pending = {edge: Counter() for edge in self.flow.edges}
        self.came = dict.fromkeys(self.flow.edges, 0)
        for name, node in self.flow.nodes.items():
            for event in self.events[name]:
                for edge in node.outs:
                    self.pending[edge].update(self.flow.carried(edge, event.sent))
                if event.edge:
                    self.pending[event.edge][event.message] -= 1
                    self.came[event.edge] += 1
        for edge, messages in self.pending.items():
            if min(messages.values(), default=0) < 0:
                raise Differs(f"what was printed leaves a delivery on {edge} of a message that is undone")
            self.pending[edge] = +messages
        self.known = None

    def injected(self, node):
        return len(self.events[node])

    def owed(self, node):
        """The stamps of which a node is owed a notification."""
        if self.flow.nodes[node].kind not in NOTIFIED:
            return set()
        told = {it.stamp for it in self.events[node] if it.notified}
        return {it.stamp for it in self.events[node] if not it.notified} - told

    def phi(self, edge, front):
        """The stamps on an edge whose messages come from what its sender has inside a frontier."""
        node = self.flow.nodes[self.flow.edges[edge].sender]
        if node.kind == "enter":
            return tuple(s + (0,) for s in front)
        if node.kind == "feedback":
            return least(s[:-1] + (s[-1] + 1,) for s in front if s[-1] < self.flow.most[node.loop])
        if node.kind == "leave":
            return least(s[:-1] for s in front)
        if node.kind == "sequence" and front:
            return ((sum(len(it.sent) for it in self.events[node.name] if inside(front, it.stamp)),),)
        if node.kind == "regroup":
            return tuple((s[0] // int(node.words[0]),) for s in front)
        return front

    def complete(self):
        """The largest frontiers inside which nothing is pending or owed, and nothing can still come."""
        if self.known is None:
            done = {name: self.outermost(name) for name in self.flow.nodes}
            again = True
            while again:
                again = False
                for edge in self.flow.edges.values():
                    lower = meet(done[edge.receiver], self.phi(edge.name, done[edge.sender]))
                    again |= lower != done[edge.receiver]
                    done[edge.receiver] = lower
            self.known = done
        return self.known

    def outermost(self, name):
        node = self.flow.nodes[name]
        if node.kind == "input":
            return () if self.injected(name) == len(self.batches[name]) else ((self.injected(name),),)
        return least([*self.owed(name), *(message[0] for edge in node.ins for message in self.pending[edge])])

    # What may come next.

    def next_message(self, edge, at=None):
        messages = self.pending[edge]
        if self.flow.is_numbered(edge):
            messages = [it for it in messages if it[0] == (self.came[edge],)]
        return min((it for it in messages if at in (None, it[0])), default=None)

    def next_notice(self, node, at=None):
        owed, ins = self.owed(node), self.flow.nodes[node].ins
        done = self.complete() if owed else {}
        for stamp in sorted(owed if at is None else owed & {at}):
            is_first = not any(s != stamp and leq(s, stamp) for s in owed)
            is_quiet = not any(leq(it[0], stamp) for edge in ins for it in self.pending[edge])
            if is_first and is_quiet and all(inside(self.phi(edge, done[self.flow.edges[edge].sender]), stamp) for edge in ins):
                return stamp
        return None

    def grown(self):
        """The live nodes at which something is complete and not settled, with what is settled then."""
        if not self.live():
            return {}
        done = self.complete()
        joined = {node: join(self.settled[node], done[node]) for node in self.live()}
        return {node: front for node, front in joined.items() if front != self.settled[node]}

    def live(self):
        return [node for node in self.flow.nodes if node not in self.failed]

    def next_acknowledgement(self, output):
        """The next epoch or number of an output with its recs, if it may acknowledge it."""
        at = (self.acknowledged[output],)
        recs = sorted(it.message[1:3] for it in self.events[output] if it.stamp == at)
        if self.flow.nodes[output].words == ["number"]:
            there = bool(recs)
        else:
            there = any(len(it) > at[0] for it in self.batches.values()) or any(leq(at, it.stamp) for it in self.events[output])
        return recs if there and output not in self.failed and inside(self.settled[output], at) else None

    def first_enabled(self):
        """The step that `auto` takes, if one is enabled."""
        kinds = lambda *wanted: [node for node in self.live() if self.flow.nodes[node].kind in wanted]
        tries = [
            ("persist", lambda: any(it.in_flight for it in self.writes)),
            *((f"deliver {e.name}", lambda e=e: e.receiver not in self.failed and self.next_message(e.name)) for e in self.flow.edges.values()),
            *((f"notify {node}", lambda node=node: self.next_notice(node) is not None) for node in kinds(*NOTIFIED)),
            ("progress", self.grown),
            *((f"ack {node}", lambda node=node: self.next_acknowledgement(node) is not None) for node in kinds("output")),
            *((f"inject {node}", lambda node=node: self.injected(node) < len(self.batches[node])) for node in kinds("input")),
        ]
        return next((step for step, is_enabled in tries if is_enabled()), None)

    # What a step does.

    def take(self, step):
        """Takes a step and gives the lines that were printed for it, or None where it is idle."""
        self.count += 1
        if self.printed and self.printed[0] == f"fault step {self.count}":
            self.faults += 1
            return [self.printed.pop(0)]
        verb, *words = step.split()
        lines = getattr(self, verb)(*words)
        self.idle += lines is None
        return lines

    def tell(self, line):
        if self.printed is None:
            return [line]
        if self.printed[:1] != [line]:
            other = self.printed[0] if self.printed else "nothing"
            raise Differs(f"in step {self.count} `{line}` is due, and `{other}` was printed: are these the texts of that run?")
        return [self.printed.pop(0)]

    def choice(self, word):
        """The lines of a recovery or a collection, and the frontier of each node."""
        lines = []
        for node in self.flow.nodes:
            if not self.printed or self.printed[0].split()[:2] != [word, node]:
                raise Differs(f"in step {self.count} a line `{word} {node}` is due: are these the texts of that run?")
            lines.append(self.printed.pop(0))
        return lines, {line.split()[1]: front_of(line.split()[2:]) for line in lines}

    def happens(self, name, event):
        """One more event of a node, with what it sends."""
        node = self.flow.nodes[name]
        event.serial, self.serial = self.serial, self.serial + 1
        event.sent = self.sends(node, event)
        self.events[name].append(event)
        for edge in node.outs:
            self.pending[edge].update(self.flow.carried(edge, event.sent))
        if event.edge:
            self.came[event.edge] += 1
            self.pending[event.edge] -= Counter([event.message])
        if node.policy == "full":
            self.writes.append(Write(name, None, event.serial))
        self.known = None
        return []

    def inject(self, node):
        number = self.injected(node)
        return self.happens(node, Event((number,))) if node not in self.failed and number < len(self.batches[node]) else None

    def deliver(self, edge, _="at", at=None):
        message = self.next_message(edge, stamp_of(at))
        receiver = self.flow.edges[edge].receiver
        return self.happens(receiver, Event(message[0], edge, message)) if message and receiver not in self.failed else None

    def notify(self, node, _="at", at=None):
        stamp = None if node in self.failed else self.next_notice(node, stamp_of(at))
        return self.happens(node, Event(stamp, notified=True)) if stamp is not None else None

    def progress(self):
        grown = self.grown()
        self.settled |= grown
        self.writes += [Write(node, front, -1) for node, front in grown.items() if self.flow.nodes[node].policy == "eager"]
        return [] if grown else None

    def checkpoint(self, node):
        made = [it.front for it in self.writes if it.node == node and it.front is not None]
        newest = made[-1] if made else (self.flow.first_stamp(self.flow.nodes[node]),)
        if self.flow.nodes[node].policy not in ("lazy", "logged") or node in self.failed or newest == self.settled[node]:
            return None
        self.writes.append(Write(node, self.settled[node], -1))
        return []

    def persist(self):
        oldest = next((it for it in self.writes if it.in_flight), None)
        if not oldest:
            return None
        oldest.in_flight = False
        return []

    def fail(self, *nodes):
        if self.failed >= set(nodes):
            return None
        self.failed |= set(nodes)
        self.writes = [it for it in self.writes if it.node not in nodes or not it.in_flight]
        return []

    def recover(self):
        if not self.failed:
            return None
        lines, cuts = self.choice("cut")
        for node, cut in cuts.items():
            if cut is not None:
                self.events[node] = [it for it in self.events[node] if inside(cut, it.stamp)]
                self.settled[node] = meet(self.settled[node], cut)
        serials = {event.serial for events in self.events.values() for event in events}
        is_kept = lambda it, cut: cut is None or (it.serial in serials if it.front is None else is_within(it.front, cut))
        self.writes = [it for it in self.writes if is_kept(it, cuts[it.node])]
        self.failed = set()
        self.count_again()
        while self.printed and self.printed[0].split()[0] in ("down", "certificate"):
            lines.append(self.printed.pop(0))
        return lines

    def collect(self):
        return self.choice("low")[0] if self.printed and self.printed[0].startswith("low ") else None

    def ack(self, output):
        recs = self.next_acknowledgement(output)
        if recs is None:
            return None
        at, sort = self.acknowledged[output], self.flow.nodes[output].words[0]
        lines = self.tell(" ".join([f"ack {output} {sort} {at}", *(f"{key}:{value}" for key, value in recs)]))
        self.acknowledged[output] += 1
        return lines

    # What a node sends.

    def sends(self, node, event):
        stamp, recs = event.stamp, self.recs(node, event)
        if node.kind == "enter":
            stamp += (0,)
        elif node.kind == "feedback":
            stamp = stamp[:-1] + (stamp[-1] + 1,)
            recs = recs if stamp[-1] <= self.flow.most[node.loop] else []
        elif node.kind == "leave":
            stamp = stamp[:-1]
        elif node.kind == "regroup":
            stamp = (stamp[0] // int(node.words[0]),)
        elif node.kind == "sequence":
            first = sum(len(it.sent) for it in self.events[node.name])
            return [((n,), *rec, event.stamp) for n, rec in enumerate(recs, first) if n <= GREATEST]
        return [(stamp, *rec, event.stamp) for rec in recs]

    def recs(self, node, event):
        """The recs that an event makes a node send, behind its events so far."""
        if node.kind == "input":
            return self.batches[node.name][event.stamp[0]]
        came = lambda test: [it.message[1:3] for it in self.events[node.name] if it.edge and test(it)]
        if event.notified:
            here = came(lambda it: it.stamp == event.stamp)
            if node.kind == "sequence":
                return sorted(here)
            return sums(here, came(lambda it: leq(it.stamp, event.stamp)) if node.kind == "total" else here)
        key, value = event.message[1:3]
        if node.kind in NOTIFIED or node.kind == "output":
            return []
        if node.kind == "select":
            return selected(node.words, key, value)
        if node.kind == "distinct":
            return [] if (key, value) in came(lambda it: it.stamp == event.stamp) else [(key, value)]
        if node.kind == "join":
            others = came(lambda it: it.edge != event.edge and it.stamp == event.stamp)
            return [(key, (value + other) % MODULUS) for k, other in others if k == key]
        if node.kind == "ledger":
            return sums([(key, value)], [*came(lambda it: True), (key, value)])
        if node.kind in ("concat", "enter", "feedback", "leave", "regroup"):
            return [(key, value)]
        raise Differs(f"node {node.name} is a {node.kind}, and bin/replay.py has no such kind yet")


def stamp_of(word):
    return tuple(map(int, word.split("."))) if word else None


def sums(keys, recs):
    """For each key of the first recs the sum of its values among the second."""
    total = defaultdict(int)
    for key, value in recs:
        total[key] += value
    return [(key, total[key] % MODULUS) for key in sorted({key for key, _ in keys})]


def selected(words, key, value):
    """What a select lets through of a rec."""
    of = lambda word: {"key": key, "value": value}[word] if word in ("key", "value") else int(word)
    one, other = of(words[0]), of(words[2])
    holds = {"=": one == other, "!=": one != other, "<": one < other, "<=": one <= other, ">": one > other, ">=": one >= other}[words[1]]
    if not holds:
        return []
    if words[3:4] == ["set"]:
        new = (of(words[5]) + (int(words[7]) if len(words) > 6 else 0)) % MODULUS
        return [(new, value) if words[4] == "key" else (key, new)]
    return [(key, value)]


def taken(state, lines):
    """Takes the steps of a schedule, whose lines come with their numbers; gives of each step the number of its line, itself, and the
    lines that were printed for it, None where it is idle."""
    for number, line in lines:
        verb, *rest = line.split()
        if verb != "auto":
            yield number, line, state.take(line)
            continue
        faults = state.faults
        for _ in range(int(rest[0])):
            step = state.first_enabled()
            if step is None or state.faults > faults:
                break
            yield number, step, state.take(step)


def compare_end(state, last):
    """Compares the end of a run with its last printed line."""
    end = f"done steps {state.count} idle {state.idle}" + (f" faults {state.faults}" if " faults " in last else "")
    if state.printed or end != last:
        raise Differs(f"`{end}` is due, and `{[*state.printed, last][0]}` was printed: are these the texts of that run?")


def acknowledged_in_all(flow, batches):
    """The lines of a run without failures, to its end: all that the flow means of its inputs."""
    run, lines = Replay(flow, batches, None), []
    while (step := run.first_enabled()) is not None:
        lines += run.take(step)
    return lines


def read_batches(flow, lines):
    """The batches of each input, of the lines of an inputs' text that was accepted."""
    batches = {name: [] for name, node in flow.nodes.items() if node.kind == "input"}
    for number, words in lines:
        if words[0] != "batch" or len(words) < 2 or words[1] not in batches:
            raise Differs(f"line {number} of the inputs is no batch of an input of this flow")
        batches[words[1]].append([tuple(map(int, it.split(":"))) for it in words[2:]])
    return batches
