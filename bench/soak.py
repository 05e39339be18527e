#!/usr/bin/env python3
"""Random requests without end on one store, and the memory of the program as they go.

Writes over 9,000 ids, commits, compacts, trims, merges, points in time and searches, each compared with the reply of a dict. A session
takes a million requests. For each quarter of it the memory that the program has is printed, and the most that it had, with the bytes of
the store. Then the session ends and the next one opens the store: its time and memory are printed too, and all its trees are looked at.
What is wanted is memory that doesn't grow from quarter to quarter while there are as many trees. Run
`./run --prove examples/shop.ndjson` once before: it builds the program.

    python3 bench/soak.py [MILLIONS [PROGRAM [SEED]]]       # 3 millions
"""
import os
import random
import sys
import tempfile
import threading
import time
from collections import Counter
from itertools import islice

from merges import Session
from stored import EVERYTHING, Trees, is_answer, requests_on

TOP = os.path.dirname(os.path.dirname(os.path.abspath(__file__)))
MILLION = 1_000_000
BATCH = 1000
IDS = 9000
WRITES = 200


def memory(process):
    """The memory of a process, and the most that it had, in megabytes."""
    with open("/proc/%d/status" % process.pid) as status:
        lines = dict(line.split(":", 1) for line in status)
    return "%.1f MB, at most %.1f MB" % tuple(int(lines[name].split()[0]) / 1e3 for name in ("VmRSS", "VmHWM"))


def opened(program, folder, trees):
    """A session that has opened the store, whose trees have to be these."""
    start = time.perf_counter()
    session = Session(program, folder)
    session.ask('{"search":{"size":0}}')
    seconds = time.perf_counter() - start
    print("opened in %.3f s: %s" % (seconds, memory(session.process)), flush=True)
    reply, _ = session.ask(EVERYTHING)
    if not trees.are(reply):
        sys.exit("the store doesn't hold what was committed")
    return session


def answer(session, output, batch, seen):
    """Sends requests while their replies are read, and compares these."""
    sender = threading.Thread(target=session.send, args=("".join(line + "\n" for line, _, _ in batch).encode(),))
    sender.start()
    for line, wanted, command in batch:
        reply = output.readline().decode()
        if not reply or not is_answer(wanted, reply[:-1]):
            sys.exit("the reply to %s is %s, not %s" % (line, reply, wanted))
        seen[command] += 1
    sender.join()


def main():
    millions = float(sys.argv[1]) if len(sys.argv) > 1 else 3
    program = os.path.abspath(sys.argv[2]) if len(sys.argv) > 2 else os.path.join(TOP, "crates/nestsearch/out/nestsearch")
    numbers = random.Random(int(sys.argv[3]) if len(sys.argv) > 3 else 1)
    if not os.path.exists(program):
        sys.exit("there is no program at %s" % program)
    total, seen, trees = int(millions * MILLION), Counter(), Trees()
    with tempfile.TemporaryDirectory() as folder:
        session = opened(program, folder, trees)
        output, requests = open(session.process.stdout.fileno(), "rb", closefd=False), requests_on(trees, numbers, IDS, WRITES)
        start, done = time.perf_counter(), 0
        while done < total:
            count = min(BATCH, total - done)
            answer(session, output, list(islice(requests, count)), seen)
            done += count
            if done % (MILLION // 4) == 0 or done == total:
                print("%d requests, %.0f a second, %d trees: %s; the store has %.1f MB" % (done, done / (time.perf_counter() - start),
                      len(trees.live), memory(session.process), os.path.getsize(os.path.join(folder, "store")) / 1e6), flush=True)
            if done % MILLION == 0 or done == total:
                answer(session, output, [(*trees.ask("commit", numbers), "commit")], seen)
                session.end()
                session = opened(program, folder, trees)
                output, requests = open(session.process.stdout.fileno(), "rb", closefd=False), requests_on(trees, numbers, IDS, WRITES)
        session.end()
    print("requests by kind: " + ", ".join("%d %s" % (count, kind) for kind, count in sorted(seen.items())))


main()
