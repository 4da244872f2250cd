#!/usr/bin/env python3
"""Drives a session that lasts and kills it on the way, and prints what is acknowledged: each epoch once."""
import os
import subprocess
import sys
import tempfile
import threading

HERE = os.path.dirname(os.path.realpath(__file__))


class Session:
    """A session that is started again where it is killed: each line is answered once."""

    def __init__(self, *words):
        self.words = words
        self.came, self.steps, _ = self.start()

    def start(self):
        """Starts the program: what came to each input, how many steps were done, and the lines of the last of them."""
        told = None
        while told is None:
            self.process = subprocess.Popen(self.words, stdin=subprocess.PIPE, stdout=subprocess.PIPE, text=True)
            told = self.answer()
        words = [line.split() for line in told]
        came = {word[1]: word[2:] for word in words if word[0] == "from"}
        return came, sum(int(word[2]) for word in words if word[0] == "resumed"), told[len(came) + 1 : -1]

    def answer(self):
        """The lines of an answer, or None where the program was killed before the last one."""
        told = []
        for line in self.process.stdout:
            told.append(line.rstrip("\n"))
            if line.endswith("\n") and line.split()[0] in ("done", "refused"):
                return told
            if line.startswith(("fault", "damaged ")):
                sys.exit(f"the folder failed: {line}")
        if self.process.wait() >= 0:
            sys.exit(f"the session ended with status {self.process.returncode}")

    def send(self, line):
        """Sends a line; its answer, or None where the program was killed."""
        try:
            os.write(self.process.stdin.fileno(), f"{line}\n".encode())
        except BrokenPipeError:
            pass
        return self.answer()

    def ask(self, line):
        """Sends a line until it is in; its answer. What a batch that was kept before a kill leads to, a later answer tells."""
        while (told := self.send(line)) is None:
            came, steps = self.came, self.steps
            self.came, self.steps, again = self.start()
            if steps < self.steps:
                return [*again, f"done {self.steps - steps}"]
            if came != self.came:
                return ["done 0"]
        for word, *rest in map(str.split, told):
            if word == "done":
                self.steps += int(rest[0])
            if word in ("fed", "closed"):
                self.came[rest[0]] = [str(int(rest[1]) + 1), "closed"][: 1 + (word == "closed")]
        return told


def main():
    with tempfile.TemporaryDirectory() as folder:
        session = Session(HERE + "/../../bin/falkirk_disk", folder, "live", HERE + "/flow", "auto")
        for number, line in enumerate([f"batch orders 1:{epoch} 2:100" for epoch in range(6)] + ["close orders", "collect"]):
            threading.Timer(0.01 * number, session.process.kill).start()
            for told in session.ask(line):
                if told.startswith("ack "):
                    print(told)


if __name__ == "__main__":
    main()
