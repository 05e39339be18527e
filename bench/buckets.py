#!/usr/bin/env python3
"""How long the built program takes for buckets and metrics over nested objects, for each object that they look at.

The trees are those of the made input, each written once. When they are loaded, the searches go by turns: each is sent and its reply awaited,
ten times in each of thirty turns, and the least time counts; that of a search for nothing but the number of trees is taken away. Then all
segments are merged to one, and the same is measured again, and once more in a session that merges neighbours by itself. The objects that a search looks at are
those of its own count: all offers for the bucket of `nested`, and for `reverse_nested` the products around them too, which the time
for a document counts. On a machine that does other work the figures are high. Run
`./run --prove examples/shop.ndjson` once before: it builds the program.

    python3 bench/buckets.py [TREES [PROGRAM]]       # 100,000 trees
"""
import json
import os
import subprocess
import sys
import tempfile
import time

from made import MAPPING, Draws, product

TOP = os.path.dirname(os.path.dirname(os.path.abspath(__file__)))
ALL = '{"search":{"size":0}}'
OFFERS = '{"search":{"size":0,"aggs":{"offers":{"nested":{"path":"offers"}%s}}}}'
AROUND = OFFERS % ',"aggs":{"products":{"reverse_nested":{}}}'
SEARCHES = {
    "nested alone": OFFERS % "",
    "terms, and reverse_nested in each": OFFERS % ',"aggs":{"colors":{"terms":{"field":"offers.color"},"aggs":{"products":{"reverse_nested":{}}}}}',
    "min, max and sum": OFFERS % ',"aggs":{"a":{"min":{"field":"offers.price"}},"b":{"max":{"field":"offers.price"}},"c":{"sum":{"field":"offers.price"}}}',
    "min, max, sum and value_count": OFFERS
    % ',"aggs":{"a":{"min":{"field":"offers.price"}},"b":{"max":{"field":"offers.price"}},"c":{"sum":{"field":"offers.price"}},"d":{"value_count":{"field":"offers.price"}}}',
}
TURNS = 30
TIMES = 10


def ask(program, line):
    program.stdin.write(line.encode() + b"\n")
    program.stdin.flush()
    return program.stdout.readline()


def least(program, lines):
    """The least time of each of some lines in so many turns, in nanoseconds."""
    times = [[] for _ in lines]
    for _ in range(TURNS):
        for line, own in zip(lines, times):
            for _ in range(TIMES):
                start = time.perf_counter_ns()
                ask(program, line)
                own.append(time.perf_counter_ns() - start)
    return [min(own) for own in times]


def loaded(path, work, count, first):
    """A session with so many trees, of which the lines `first` come first."""
    program = subprocess.Popen([path, "serve", os.path.join(work, "store")], stdin=subprocess.PIPE, stdout=subprocess.PIPE)
    draws = Draws(7)
    for line in [MAPPING, *first]:
        ask(program, line)
    for number in range(count):
        ask(program, '{"index":{"_id":"%d"}}\n%s' % (number, product(number, draws)))
    return program


def measure(program, state):
    segments = len(json.loads(ask(program, '{"segments":{}}'))["segments"])
    base, *others = least(program, [ALL, *SEARCHES.values()])
    print(f"{state}, in {segments} segments: a search for the number of trees takes {base / 1e6:.2f} ms")
    around = json.loads(ask(program, AROUND))["aggregations"]["offers"]["products"]["doc_count"]
    for (name, line), own in zip(SEARCHES.items(), others):
        offers = json.loads(ask(program, line))["aggregations"]["offers"]["doc_count"]
        spent = own - base
        looked = offers + (around if "reverse_nested" in line else 0)
        print(f"  {name}: {spent / 1e6:.2f} ms over {offers:,} offers, {spent / offers:.1f} ns an offer, {spent / looked:.1f} ns a document")


def main():
    count = int(sys.argv[1]) if len(sys.argv) > 1 else 100_000
    path = sys.argv[2] if len(sys.argv) > 2 else os.path.join(TOP, "crates/nestsearch/out/nestsearch")
    with tempfile.TemporaryDirectory() as work:
        program = loaded(path, work, count, [])
        measure(program, "as they were written")
        ask(program, '{"forcemerge":{}}')
        measure(program, "merged to one")
        program.stdin.close()
        program.wait()
        program = loaded(path, work, count, ['{"automerge":{"on":true}}'])
        measure(program, "with automerge")
        program.stdin.close()
        program.wait()


if __name__ == "__main__":
    main()
