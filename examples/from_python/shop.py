#!/usr/bin/env python3
"""A shop whose orders are summed up in this process: batches come, a checkpoint is taken, a node fails and is recovered. What is
acknowledged or refused is printed."""
import falkirk

FLOW = b"""node orders input
node sums total policy lazy
node shop output epoch
edge to_sums orders sums
edge to_shop sums shop
"""
LINES = """batch orders 1:20 2:150
batch orders 1:5
checkpoint sums
fail sums
batch orders 2:1 3:7
batch orders 3
recover
close orders
batch orders 4:1"""

with falkirk.Session(FLOW) as session:
    for line in LINES.splitlines():
        for told in session.ask(line.encode()).decode().splitlines():
            if told.startswith(("ack ", "refused ")):
                print(f"{line}: {told}")
