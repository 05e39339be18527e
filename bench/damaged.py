#!/usr/bin/env python3
"""Serves damaged stores: real ones with 1 to 8 bytes changed, cut, or made of two.

The stores were left by sessions with commits, compacts and merges; one has the first format. Each damaged one is served: the program
has to end with 0, 6 or 7. It ends with 6 exactly where the file isn't empty and doesn't begin with the magic. A store of fewer than
2,048 bytes never opens, and one without an open gate does. With 6 and 7 nothing is said and no byte changed. With 0 each request has
its reply, searches, a merge, a commit, a compact and a trim among them, and the store that is left opens again and finds the same trees.
Run `./run --prove examples/shop.ndjson` once before: it builds the program.

    python3 bench/damaged.py [STORES [PROGRAM [SEED]]]       # 20,000 stores
"""
import json
import os
import random
import subprocess
import sys
import tempfile
from collections import Counter
from itertools import islice

from stored import Trees, is_answer, requests_on

TOP = os.path.dirname(os.path.dirname(os.path.abspath(__file__)))
MAGIC, HEADER, GATES, OPEN = b"NESTSEG1", 2048, (512, 1024), 0xA5
NAMED = [(0, 8), (512, 544), (1024, 1056)]
EVERYTHING = '{"search":{"size":10000}}\n'
REQUESTS = EVERYTHING + """{"segments":{}}
{"search":{"query":{"match":{"name":"item"}},"sort":["offers.price"]}}
{"search":{"query":{"nested":{"path":"offers","query":{"term":{"offers.color":"red"}},"inner_hits":{},"ignore_unmapped":true}}}}
{"search":{"size":0,"aggs":{"o":{"nested":{"path":"offers"},"aggs":{"c":{"terms":{"field":"offers.color"}}}}}}}
{"forcemerge":{}}
{"index":{"_id":"further"}}
{"name":"further"}
{"commit":{}}
{"compact":{"moves":10}}
{"trim":{}}
""" + EVERYTHING
REPLIES = REQUESTS.count("\n") - 1
SEGMENT = ("53454731 01000000 01000000 0100000000000000 0100000031 0000000000000000 090000007b226b223a2261227d 00 0100000000000000 00000000 "
           "0100000061 01000000 00000000 00000000 01000000 00000000 01000000 00000000 01000000 0000000000000000 00000000 00000000")
BODY = b'{"properties":{"k":{"type":"keyword"}}}'


def number(value, size):
    return value.to_bytes(size, "little")


def first_format():
    """A store of the first format, with one tree."""
    segment = bytes.fromhex(SEGMENT)
    record = b"REC1" + number(1, 8) + number(len(BODY), 4) + BODY + number(1, 4) + number(HEADER, 8) + number(len(segment), 8) + number(0, 4)
    place = HEADER + len(segment) + -len(segment) % 64
    header = bytearray(HEADER)
    header[:8], header[512] = MAGIC, OPEN
    header[520:544] = number(1, 8) + number(place, 8) + number(len(record), 8)
    return bytes(header) + segment.ljust(place - HEADER, b"\0") + record


def stores(program, folder, numbers):
    """Stores that sessions left, of some hundred bytes behind the header to some ten thousand."""
    made, path = [first_format()], os.path.join(folder, "store")
    for ids in (1, 2, 5, 10, 30, 100):
        trees = Trees()
        for length in (4 * ids, ids):
            asked = [*islice(requests_on(trees, numbers, ids, 8), length), (*trees.ask("commit", numbers), "commit")]
            status, said = serve(program, path, "".join(line + "\n" for line, _, _ in asked))
            replies = said.split("\n")[:-1]
            if status != 0 or len(replies) != len(asked) or not all(map(is_answer, (wanted for _, wanted, _ in asked), replies)):
                sys.exit("a session of %d ids has wrong replies, and status %d" % (ids, status))
            with open(path, "rb") as file:
                made.append(file.read())
        os.remove(path)
    return made


def changed(store, numbers):
    """The store with 1 to 8 bytes changed, near each other or apart, of those that it names or of all."""
    out = bytearray(store)
    first, last = numbers.choice(NAMED + [(HEADER, len(store))] * 3)
    at = numbers.randrange(first, last)
    apart = numbers.randrange(2)
    for step in range(numbers.randint(1, 8)):
        place = numbers.randrange(first, last) if apart else min(at + step, len(out) - 1)
        out[place] = numbers.choice([numbers.randrange(256), (out[place] + 1) % 256, (out[place] - 1) % 256, 0, 255, OPEN])
    return bytes(out)


def mixed(store, other, numbers):
    """The front of one store and the rest of another, or a piece of the other in it."""
    first = numbers.choice([HEADER, 64 * numbers.randrange(len(store) // 64 + 1), numbers.randrange(len(store) + 1)])
    if numbers.randrange(2):
        return store[:first] + other[first:]
    last = first + numbers.choice([8, 24, 64, 512])
    return store[:first] + other[first:last] + store[last:]


def damaged(made, numbers):
    """A damaged store and what was done to it."""
    store, kind = numbers.choice(made), numbers.randrange(8)
    if kind == 0:
        return store[:numbers.randrange(len(store))], "cut"
    if kind < 3:
        return mixed(store, numbers.choice(made), numbers), "mixed"
    return changed(store, numbers), "changed"


def serve(program, path, text):
    done = subprocess.run([program, "serve", path], input=text.encode(), stdout=subprocess.PIPE, timeout=60)
    return done.returncode, done.stdout.decode("latin-1")


def fault_of(program, path, store):
    """What is wrong with how the program serves this store, or None; and its status."""
    with open(path, "wb") as file:
        file.write(store)
    status, said = serve(program, path, REQUESTS)
    with open(path, "rb") as file:
        after = file.read()
    if status not in (0, 6, 7):
        return "status %d" % status, status
    if (status == 6) != (bool(store) and store[:8] != MAGIC):
        return "status %d, and it begins with %r" % (status, store[:8]), status
    if 8 <= len(store) < HEADER and status == 0:
        return "it opened with %d bytes" % len(store), status
    if len(store) >= HEADER and status == 7 and all(store[gate] != OPEN for gate in GATES):
        return "it didn't open, and has no open gate", status
    if status != 0:
        return "it was refused, and something was said or changed" if said or after != store else None, status
    replies = said.split("\n")[:-1]
    if len(replies) != REPLIES or not all(isinstance(json.loads(reply), dict) for reply in replies):
        return "%d replies to %d requests" % (len(replies), REPLIES), status
    status, again = serve(program, path, EVERYTHING)
    if status != 0 or '"next_seq_no"' in said and again != replies[-1] + "\n":
        return "afterwards it doesn't find what it found: status %d" % status, status
    return None, status


def main():
    count = int(sys.argv[1]) if len(sys.argv) > 1 else 20_000
    program = os.path.abspath(sys.argv[2]) if len(sys.argv) > 2 else os.path.join(TOP, "crates/nestsearch/out/nestsearch")
    numbers = random.Random(int(sys.argv[3]) if len(sys.argv) > 3 else 1)
    if not os.path.exists(program):
        sys.exit("there is no program at %s" % program)
    seen = Counter()
    folder = tempfile.mkdtemp()
    path = os.path.join(folder, "damaged")
    made = stores(program, folder, numbers)
    for number in range(count):
        store, kind = damaged(made, numbers)
        wrong, status = fault_of(program, path, store)
        if wrong:
            with open(path, "wb") as file:
                file.write(store)
            sys.exit("store %d, %s: %s; it is kept as %s" % (number, kind, wrong, path))
        seen[kind, status] += 1
    for name in os.listdir(folder):
        os.remove(os.path.join(folder, name))
    os.rmdir(folder)
    print("%d damaged stores made of %d, of %d to %d bytes; none wrong" % (count, len(made), min(map(len, made)), max(map(len, made))))
    for (kind, status), many in sorted(seen.items()):
        print("%-8s ended with %d: %d" % (kind, status, many))


main()
