#!/usr/bin/env python3
"""How many lines a second the built program answers, beside a Python loop over the same lines.

The loop reads each line as JSON, puts it into a dict and prints it as JSON. Both read the same file and write to one, and
the best of three runs counts. Run `./run --prove examples/shop.ndjson` once before: it builds the program.
"""
import os
import random
import subprocess
import sys
import tempfile
import time

PROGRAM = os.path.join(os.path.dirname(os.path.abspath(__file__)), "..", "crates", "nestsearch", "out", "nestsearch")
LOOP = """
import json, sys
kept = {}
write = sys.stdout.write
for number, line in enumerate(sys.stdin):
    value = json.loads(line)
    kept[number % 50000] = value
    write(json.dumps(value) + "\\n")
"""


MAPPING = '{"mapping":{"properties":{%s:{"type":"text"},"offers":{"type":"nested","properties":{%s:{"type":"keyword"},"price":{"type":"long"}}}}}}\n'
IN_ORDER = '{"name":"item %d","offers":[%s]}', '{"color":"%s","price":%d}'
OUT_OF_ORDER = '{"title":"item %d","offers":[%s]}', '{"tone":"%s","price":%d}'


def index_lines(count, ids, texts=IN_ORDER):
    """A mapping, and action lines with their source lines: products with nested offers, over so many ids."""
    source, offer = texts
    yield MAPPING % (source[1:].split(":")[0], offer[1:].split(":")[0])
    numbers = random.Random(7)
    for _ in range(count):
        product = numbers.randrange(ids)
        offers = ",".join(
            offer % (numbers.choice(["red", "green", "blue"]), numbers.randrange(100))
            for _ in range(numbers.randrange(4))
        )
        yield '{"index":{"_id":"%d"}}\n%s\n' % (product, source % (product, offers))


def search_lines(count):
    """An index of a hundred trees, and then searches for everything."""
    yield from index_lines(100, 50000)
    for _ in range(count):
        yield '{"search":{}}\n'


def best_of_three(command, path):
    """Seconds of the fastest of three runs, as wall time."""
    times = []
    for _ in range(3):
        with open(path, "rb") as lines, tempfile.TemporaryFile() as replies:
            start = time.perf_counter()
            subprocess.run(command, stdin=lines, stdout=replies, check=True)
            times.append(time.perf_counter() - start)
    return min(times)


def compare(name, lines):
    with tempfile.NamedTemporaryFile("w", suffix=".ndjson") as made, tempfile.TemporaryDirectory() as folder:
        count = 0
        for piece in lines:
            made.write(piece)
            count += piece.count("\n")
        made.flush()
        program = best_of_three([PROGRAM, "serve", os.path.join(folder, "store")], made.name)
        loop = best_of_three([sys.executable, "-c", LOOP], made.name)
    print("%s: %d lines, %.0f a second; Python %.0f; ratio %.1f" % (name, count, count / program, count / loop, loop / program))


compare("index", index_lines(200_000, 50_000))
compare("index, names out of byte order", index_lines(200_000, 50_000, OUT_OF_ORDER))
compare("search", search_lines(20_000))
