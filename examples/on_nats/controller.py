"""controller.py FLOW PORT,PORT.. FOLDER PROGRAM: brings the job back where a worker is lost. PROGRAM has the proved choice; it is called
as `PROGRAM choose FLOW OFFERS` and `PROGRAM verify FLOW OFFERS CERTIFICATE`. FOLDER is for these texts.

It keeps nothing. Killed at any moment, the next one does the same over again, with a higher generation.
"""
import subprocess
import sys
import time
from pathlib import Path

from nats import Nats, Refused
from nodes import Flow

FORGET = 5  # seconds after which what is not needed is given up


class Controller:
    def __init__(self, path: str, ports: list[int], folder: str, program: str) -> None:
        self.nats, self.flow, self.program = Nats(ports, []), Flow(path), program
        self.texts = [path, folder + "/offers", folder + "/certificate"]

    def watch(self) -> None:
        forgot = time.monotonic()
        while True:
            number, plan = self.nats.last("PLAN")
            generation, phase = (plan["generation"], plan["phase"]) if plan else (0, "new")
            told = {node: self.nats.request("to." + node, {"do": "tell"}, 0.5) for node in self.flow.kind}
            # a worker is lost where a new process in its place says so, never because it is silent
            run = [(words["mode"], words["generation"]) == ("running", generation) for words in told.values() if words]
            try:
                if phase != "running" or not all(run):
                    self.recover(number, generation + 1)
                elif len(run) == len(told) and time.monotonic() > forgot + FORGET:
                    self.forget(generation, told)
                    forgot = time.monotonic()
            except Refused as why:  # a worker was lost meanwhile, another controller came, or what was read was old
                print(f"{time.time():.3f} again, for {why}", flush=True)
            time.sleep(0.2)

    def recover(self, number: int, generation: int) -> None:
        began = time.time()
        number = self.plan(number, generation, "stopping")
        print(f"{began:.3f} begins {generation}", flush=True)
        told = {node: self.ask(node, generation, do="stop") for node in self.flow.kind}
        lost = ",".join(node for node, words in told.items() if not words["present"])
        cuts = self.chosen(told)
        number = self.plan(number, generation, "restoring")
        done = {node: self.ask(node, generation, do="restore", cut=cut)["done"] for node, cut in cuts.items()}
        back = time.time()
        for node in self.flow.kind:
            self.ask(node, generation, do="go", done=done)
        self.plan(number, generation, "running")
        print(f"{back:.3f} goes on {generation} after {back - began:.3f} lost {lost} cuts {cuts}", flush=True)

    def plan(self, number: int, generation: int, phase: str) -> int:
        """Refused where another controller put a plan meanwhile."""
        return self.nats.put("PLAN", {"generation": generation, "phase": phase, "by": self.nats.inbox}, last=number)

    def ask(self, node: str, generation: int, **words: object) -> dict:
        """What the worker answers, however long it takes."""
        while not (answer := self.nats.request("to." + node, {"generation": generation, **words}, 1)):
            time.sleep(0.02)
        if "refused" in answer:
            raise Refused(answer["refused"])
        return answer

    def chosen(self, told: dict[str, dict]) -> dict[str, int | str]:
        """The largest consistent choice: for each node `present`, or the number of epochs that it keeps."""
        Path(self.texts[1]).write_text("".join(line + "\n" for node in told for line in self.offers(node, told[node])))
        choice = self.falkirk("choose", *self.texts[:2])
        Path(self.texts[2]).write_text(choice)
        self.falkirk("verify", *self.texts)
        cuts = [line.split() for line in choice.splitlines() if line.startswith("cut ")]
        return {words[1]: words[2] if words[2] == "present" else int(words[3]) for words in cuts}

    def falkirk(self, *words: str) -> str:
        """What the program prints. Where no choice is consistent, or a text is refused, the controller ends."""
        return subprocess.run([self.program, *words], stdout=subprocess.PIPE, text=True, check=True).stdout

    def offers(self, name: str, words: dict) -> list[str]:
        """What a node can be restored to, and what others have of it. Packets are whole epochs, in order, so each frontier is `until N`,
        the epochs below N. A present node did those below `done`, and on each out-edge the receiver did those below `taken`. What is not
        taken the node has and sends again, so it does not count as sent. The greatest epoch stands for all below."""
        ins, outs, kind, sends_again = self.flow.ins(name), self.flow.receivers(name), self.flow.kind[name], name in self.flow.logs
        present, kept, done = words["present"], words["kept"], words["done"]
        lines, end = [f"node {name} {'present' if present else 'failed'}"], words["taken"] if present else dict.fromkeys(outs, kept["at"])
        if name in self.flow.has_records:  # what came, was sent and was notified of inside a checkpoint is all below it
            parts = [f"delivered {edge}" for edge in ins] + ["notified"] * (kind == "total")
            parts += [f"discarded {edge}" for edge in outs if not sends_again]
            lines += [f"record {name} until {n}" + "".join(f" {part} until {n}" for part in parts) for n, _ in kept["records"]]
        else:
            at = self.nats.last("ACKS_" + name)[0] if kind == "output" else min(end.values())
            lines.append(f"range {name} from until {kept['low']} to until {at}")
        if present:
            parts = [f"delivered {edge}" for edge in ins] + [f"notified {name}"] * (kind == "total")
            lines += [f"{part} {done - 1}" if done else part for part in parts]
        for edge, n in end.items():
            if kind == "input":  # of these all that can be read again, and the greatest below
                lines.append(" ".join([f"sent {edge}", *map(str, range(max(kept["low"] - 1, 0), n))]))
            elif present and not sends_again:
                lines.append(f"sent {edge} {n - 1}" if n else f"sent {edge}")
        return lines

    def forget(self, generation: int, told: dict[str, dict]) -> None:
        """If all were lost, all would go back to these cuts: what lies below is never needed again. Who does not hear it has it still."""
        low = self.chosen({node: {**words, "present": False} for node, words in told.items()})
        for node in self.flow.kind:
            self.nats.request("to." + node, {"do": "forget", "generation": generation, "low": low}, 1)


if __name__ == "__main__":
    Controller(sys.argv[1], [int(port) for port in sys.argv[2].split(",")], sys.argv[3], sys.argv[4]).watch()
