#!/usr/bin/env python3
"""Drives a session through its pipes: feeds it, fails a node and recovers it, and prints what is acknowledged and what is refused."""
import os
import subprocess
import sys

HERE = os.path.dirname(os.path.realpath(__file__))
session = subprocess.Popen([HERE + "/../../bin/falkirk", "live", HERE + "/flow", "auto"], stdin=subprocess.PIPE, stdout=subprocess.PIPE, text=True)


def ask(line):
    """Writes a line, reads its answer, and says whether it was done."""
    print(line, file=session.stdin, flush=True)
    for answer in session.stdout:
        word = answer.split()[0]
        if word in ("ack", "refused", "fault", "damaged"):
            print(f"{line}: {answer}", end="")
        if word in ("done", "refused", "fault", "damaged"):
            return word == "done"
    sys.exit(f"{line}: the session ended with status {session.wait()}")


for epoch in range(6):
    ask(f"batch orders 1:{epoch} 2:100")
    if epoch % 3 == 1 and ask("checkpoint sums"):
        ask("collect")
for line in ("fail sums", "batch orders 3:7", "batch orders 3", "recover", "close orders", "batch orders 4:1"):
    ask(line)
session.stdin.close()
sys.exit(session.wait())
