"""The flow's text, as far as workers and controller need it, and what its nodes do with an epoch. A node of your own is a class like
these, with a line in KINDS."""
from pathlib import Path

from nats import Nats

Recs = list[list[int]]  # each a key and a value


class Flow:
    def __init__(self, path: str) -> None:
        lines = [line.split() for line in Path(path).read_text().splitlines()]
        self.words = {words[1]: words[2:] for words in lines if words[:1] == ["node"]}
        self.edges = {words[1]: words[2:] for words in lines if words[:1] == ["edge"]}
        self.kind = {name: words[0] for name, words in self.words.items()}
        self.logs = {name for name, words in self.words.items() if words[-1] == "logged"}
        self.has_records = {name for name, words in self.words.items() if words[-1] in ("lazy", "logged")}

    def ins(self, name: str) -> list[str]:
        return [edge for edge, (_, receiver) in self.edges.items() if receiver == name]

    def receivers(self, name: str) -> dict[str, str]:
        return {edge: receiver for edge, (sender, receiver) in self.edges.items() if sender == name}


class Node:
    def __init__(self, nats: Nats, name: str, words: list[str]) -> None:
        self.nats, self.name, self.words = nats, name, words
        self.state = {}  # what a checkpoint holds, as JSON has it

    def process(self, epoch: int, recs: Recs) -> Recs:
        """What is sent at an epoch, of all that came at it. Done again it has to give the same."""
        return recs


class Input(Node):
    def batch(self, epoch: int) -> Recs | None:
        """What it sends at an epoch; None while that is not there."""
        return self.nats.found("BATCHES_" + self.name, seq=epoch + 1)[1]


class Select(Node):
    def process(self, epoch: int, recs: Recs) -> Recs:
        assert self.words[1:3] == ["value", ">="], "a select of another kind"
        return [rec for rec in recs if rec[1] >= int(self.words[3])]


class Distinct(Node):
    def process(self, epoch: int, recs: Recs) -> Recs:
        return sorted([key, value] for key, value in {tuple(rec) for rec in recs})


class Total(Node):
    def process(self, epoch: int, recs: Recs) -> Recs:
        for key, value in recs:
            self.state[str(key)] = (self.state.get(str(key), 0) + value) % 2**64
        return [[key, self.state[str(key)]] for key in sorted({key for key, _ in recs})]


class Output(Node):
    def process(self, epoch: int, recs: Recs) -> Recs:
        """Acknowledges an epoch by putting it at its place of a stream."""
        self.nats.append("ACKS_" + self.name, epoch, {"epoch": epoch, "recs": sorted(recs)})
        return []


KINDS = {"input": Input, "select": Select, "distinct": Distinct, "total": Total, "output": Output}
