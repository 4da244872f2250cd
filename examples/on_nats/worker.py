"""worker.py FLOW NAME EVERY PORT ..: a node of the dataflow as a process of its own. What it does with an epoch says nodes.py.

A packet is all that is sent on an edge at an epoch. It is sent again until its receiver has done that epoch, and no epoch is done
twice. A worker stops when a controller of a higher generation asks, tells where it is, goes back to its cut, and goes on when all
have. What is to be there when it is lost it puts into the cluster each EVERY epochs.
"""
import json
import sys
import time
from contextlib import suppress

from nats import Nats, Refused
from nodes import KINDS, Flow

WINDOW = 16  # epochs on the way at a time
AGAIN = 1  # seconds without an answer after which what the receiver did not do is sent again
NOTHING = {"low": 0, "at": 0, "records": [[0, 0]]}  # can go back to `low` .. `at`, or, with checkpoints, to these; and their numbers
WHEN = {"stop": ["stopped"], "restore": ["stopped", "ready"], "go": ["ready", "running"], "forget": ["running"]}


class Worker:
    def __init__(self, flow: Flow, name: str, every: int, ports: list[int]) -> None:
        self.flow, self.name, self.every, self.ins, self.receivers = flow, name, every, flow.ins(name), flow.receivers(name)
        self.logs, self.has_records = name in flow.logs, name in flow.has_records
        self.nats = Nats(ports, ["to." + name] + ["edge." + edge for edge in self.ins])
        self.mode, self.generation, self.done, self.taken = "stopped", 0, 0, {}  # then ready: at its cut; then running
        self.is_present = False  # a new process, or one that went back and does not run yet
        while True:  # from here on one that had this name before is refused, and ends
            self.number, kept = self.nats.last("AT_" + name)
            self.kept = kept or NOTHING
            with suppress(Refused):  # what was read was old
                return self.keep()

    def run(self) -> None:
        while True:
            if message := self.nats.next(0 if self.mode == "running" and self.work() else 0.05):
                self.hear(*message)

    def hear(self, subject: str, reply: str, words: dict) -> None:
        if subject == "to." + self.name:
            self.nats.publish(reply, self.answer(words))
        elif words.get("generation") != self.generation or self.mode == "stopped":
            pass  # sent before the last recovery, or not for now: it comes again
        elif subject == self.nats.inbox + ".edge":
            self.taken.update((edge, max(n, words["done"])) for edge, n in self.taken.items() if self.receivers[edge] == words["name"])
        elif words["epoch"] < self.done:
            print("twice", words["epoch"], flush=True)
            self.nats.publish(reply, self.tell())
        else:
            self.came[words["edge"], words["epoch"]], self.reply_to[words["edge"]] = words["recs"], reply

    def answer(self, words: dict) -> dict:
        if words["do"] == "tell":
            return {**self.tell(), "kept": self.kept}
        if words["do"] == "stop" and words["generation"] > self.generation:
            self.generation, self.mode = words["generation"], "stopped"
        if words["generation"] != self.generation or self.mode not in WHEN[words["do"]]:
            return {"refused": f"{self.name} is {self.mode} in generation {self.generation}"}
        return getattr(self, words["do"])(**words)

    def tell(self) -> dict:
        return {"name": self.name, "generation": self.generation, "mode": self.mode, "done": self.done}

    def stop(self, **_: object) -> dict:
        self.keep()  # so who answers is the last one of this name
        return {"present": self.is_present, "kept": self.kept, "done": self.done, "taken": self.taken}

    def restore(self, cut: int | str, **_: object) -> dict:
        if self.mode == "stopped":
            self.came, self.reply_to, self.mode = {}, {}, "ready"
            if cut != "present":
                self.go_back(cut)
        return self.tell()

    def go(self, done: dict[str, int], **_: object) -> dict:
        if self.mode == "ready":
            self.taken = {edge: done[receiver] for edge, receiver in self.receivers.items()}
            assert all(taken <= self.done for taken in self.taken.values()), "a receiver did what was not sent"
            self.sent, self.moved = dict(self.taken), dict.fromkeys(self.taken, (0, 0.0))
            self.mode, self.is_present = "running", True
        return self.tell()

    def forget(self, low: dict[str, int], **_: object) -> dict:  # what lies below is never needed again
        records = [record for record in self.kept["records"] if record[0] >= low[self.name]]
        self.keep(low=low[self.name], records=records)
        self.nats.forget("AT_" + self.name, min([self.number] + [number for _, number in records if number]))
        if self.logs:
            self.nats.forget("LOG_" + self.name, 1 + min(low[receiver] for receiver in self.receivers.values()))
        return self.tell()

    def go_back(self, cut: int) -> None:
        self.is_present = False
        self.keep(at=cut, records=[record for record in self.kept["records"] if record[0] <= cut])
        self.node = KINDS[self.flow.kind[self.name]](self.nats, self.name, self.flow.words[self.name])
        if self.has_records and cut > 0:
            self.node.state = self.nats.wait_for("AT_" + self.name, self.kept["records"][-1][1])["state"]
        self.done, self.made, self.due = cut, {}, {}  # made: what was sent and not every receiver did; due: states to be kept

    def keep(self, state: dict | None = None, **changes: object) -> None:
        """Refused where another process of this name put something meanwhile."""
        self.kept = {**self.kept, **changes, "by": self.nats.inbox, "state": None}
        self.number = self.nats.put("AT_" + self.name, {**self.kept, "state": state}, last=self.number)

    def keep_due(self) -> None:
        """A state is kept once the receivers did all that was sent before it."""
        taken = min(self.taken.values(), default=self.done)
        self.made = {epoch: recs for epoch, recs in self.made.items() if epoch >= taken}
        for epochs in [n for n in self.due if n <= taken]:
            records = self.kept["records"] + [[epochs, self.number + 1]] * self.has_records
            self.keep(at=epochs, records=records, state=json.loads(self.due.pop(epochs)))

    def work(self) -> bool:
        """Sends, and does the next epoch if all of it is there; whether it did one."""
        for edge in self.receivers:
            self.send(edge)
        self.keep_due()
        epoch = self.done
        if epoch >= min(self.taken.values(), default=epoch) + WINDOW:
            return False
        there = [self.came.get((edge, epoch)) for edge in self.ins] or [self.node.batch(epoch)]
        if None in there:
            return False
        self.made[epoch] = self.node.process(epoch, sum(there, []))
        if self.logs:
            self.nats.append("LOG_" + self.name, epoch, self.made[epoch])
        print("done", epoch, f"{time.time():.3f}", flush=True)
        self.done += 1
        if self.done % self.every == 0:
            self.due[self.done] = json.dumps(self.node.state)
        for edge in self.ins:
            del self.came[edge, epoch]
            self.nats.publish(self.reply_to[edge], self.tell())
        return True

    def send(self, edge: str) -> None:
        """What the receiver did not do yet: each epoch once, and all again where nothing moves."""
        taken, (before, since), now = self.taken[edge], self.moved[edge], time.monotonic()
        if taken > before or now > since + AGAIN:
            self.sent[edge] = max(self.sent[edge], taken) if taken > before else taken
            self.moved[edge] = taken, now
        for epoch in range(self.sent[edge], min(self.done, taken + WINDOW)):
            recs = self.made[epoch] if epoch in self.made or not self.logs else self.nats.wait_for("LOG_" + self.name, epoch + 1)
            packet = {"edge": edge, "generation": self.generation, "epoch": epoch, "recs": recs}
            self.nats.publish("edge." + edge, packet, self.nats.inbox + ".edge")
            self.sent[edge] = epoch + 1


if __name__ == "__main__":
    Worker(Flow(sys.argv[1]), sys.argv[2], int(sys.argv[3]), [int(port) for port in sys.argv[4:]]).run()
