#!/usr/bin/env python3
"""How many trees a second the built program writes, and in how much memory, beside `sqlite3` and beside its input.

The lines are made from a number, the same on each machine: a mapping, then products with up to three nested offers, each with
up to two nested stocks, and every tenth line or so a delete. `sqlite3` (Python's module) has the sources ready in memory and
inserts them as JSON texts with their ids in one transaction into a file. Each runs three times by turns, and the best counts.
The replies are compared with those of a dict of ids. On a machine that does other work, the processor's time tells more. The
peak of memory is never below that of the small process that starts the program, some 11 megabytes. Run
`./run --prove examples/shop.ndjson` once before: it builds the program.

    python3 bench/writes.py [TREES [PROGRAM]]       # 100,000 trees
"""
import os
import sqlite3
import subprocess
import sys
import tempfile
import time

from made import lines_of, replies_to, writes

TOP = os.path.dirname(os.path.dirname(os.path.abspath(__file__)))


# Runs the program from a process of its own, whose memory is small: the system counts a child's peak from the memory of the
# process that it was started by, which here holds all sources and replies.
MEASURE = """
import os, subprocess, sys, time
program, store, lines, replies = sys.argv[1:]
with open(lines, "rb") as source, open(replies, "wb") as sink:
    start = time.perf_counter()
    child = subprocess.Popen([program, "serve", store], stdin=source, stdout=sink)
    _, status, used = os.wait4(child.pid, 0)
    seconds = time.perf_counter() - start
    child.returncode = os.waitstatus_to_exitcode(status)
print(child.returncode, seconds, used.ru_utime + used.ru_stime, used.ru_maxrss)
"""


def run_program(program, path, folder):
    """Seconds, seconds of the processor, the peak of memory in bytes, and the replies."""
    replies = os.path.join(folder, "replies")
    words = [sys.executable, "-I", "-S", "-c", MEASURE, program, os.path.join(folder, "store"), path, replies]
    measured = subprocess.run(words, stdout=subprocess.PIPE, check=True).stdout.split()
    if int(measured[0]) != 0:
        sys.exit("the program ended with status %d" % int(measured[0]))
    with open(replies) as written:
        return float(measured[1]), float(measured[2]), int(measured[3]) * 1024, written.read()


def run_sqlite(sources, folder):
    """Seconds for the transaction, its end on the disk included, and seconds of the processor."""
    path = os.path.join(folder, "trees.db")
    if os.path.exists(path):
        os.remove(path)
    database = sqlite3.connect(path, isolation_level=None)
    database.execute("create table trees (id text primary key, source text not null)")
    start, start_used = time.perf_counter(), time.process_time()
    database.execute("begin")
    database.executemany("insert into trees values (?, ?)", sources)
    database.execute("commit")
    seconds, used = time.perf_counter() - start, time.process_time() - start_used
    database.close()
    return seconds, used


def print_rates(by, trees, ours, theirs):
    print("by %s: program %.0f trees a second; sqlite3 %.0f; ratio %.2f" % (by, trees / ours, trees / theirs, theirs / ours))


def main():
    count = int(sys.argv[1]) if len(sys.argv) > 1 else 100_000
    program = os.path.abspath(sys.argv[2]) if len(sys.argv) > 2 else os.path.join(TOP, "crates/nestsearch/out/nestsearch")
    if not os.path.exists(program):
        sys.exit("there is no program at %s" % program)
    made = list(writes(count))
    sources = [write for write in made if write[1] is not None]
    text = "".join(line + "\n" for line in lines_of(made))
    expected = "".join(reply + "\n" for reply in replies_to(made))
    ours, ours_used, theirs, theirs_used, peak = [], [], [], [], 0
    with tempfile.TemporaryDirectory() as folder:
        path = os.path.join(folder, "lines")
        with open(path, "w") as lines:
            lines.write(text)
        for _ in range(3):
            seconds, used, memory, replies = run_program(program, path, folder)
            if replies != expected:
                sys.exit("the program's replies are not those of a dict")
            ours.append(seconds)
            ours_used.append(used)
            peak = max(peak, memory)
            seconds, used = run_sqlite(sources, folder)
            theirs.append(seconds)
            theirs_used.append(used)
    print("%d trees and %d deletes, %d bytes" % (len(sources), len(made) - len(sources), len(text)))
    print_rates("time", len(sources), min(ours), min(theirs))
    print_rates("processor time", len(sources), min(ours_used), min(theirs_used))
    print("peak of memory: %d bytes, %.2f times the input" % (peak, peak / len(text)))


main()
