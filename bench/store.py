#!/usr/bin/env python3
"""How fast a commit writes to its file and an opening reads it, in megabytes a second, beside plain loops over the same bytes.

A session takes the made input's writes and seals them; then the commit is sent and its reply awaited. The plain loop writes the bytes
that the file has then to a file beside it, 1,048,576 at a time, and calls `fsync` once. An opening is a session without a line, less
one over a store that holds nothing; its loop reads the file into one piece of memory, from the system's cache, as the opening does.
All go by turns, three times, and the least counts. After the openings each tree has to be there with its source. The aims are a
commit within 1.3 times its loop and an opening within twice. Run `./run --prove examples/shop.ndjson` once before: it builds the program.

    python3 bench/store.py [WRITES [PROGRAM]]       # 100,000 writes
"""
import json
import os
import subprocess
import sys
import tempfile
import time

from made import lines_of, replies_to, writes
from merges import Session, live_after

TOP = os.path.dirname(os.path.dirname(os.path.abspath(__file__)))
TURNS = 3
PIECE = 1 << 20


def committed(program, folder, made, text, replies):
    """The seconds until all is written and sealed, and those of the commit."""
    session = Session(program, folder)
    loading, same = session.load(text, replies)
    if not same:
        sys.exit("the program's replies are not those of a set of ids")
    sealed, sealing = session.ask('{"refresh":{}}')
    reply, seconds = session.ask('{"commit":{}}')
    session.end()
    numbers = sum('"_seq_no"' in reply for reply in replies)
    if sealed != '{"result":"refreshed"}\n' or reply != '{"next_seq_no":%d}\n' % numbers:
        sys.exit("the program answered %s and %s" % (sealed, reply))
    return loading + sealing, seconds


def written(path, data):
    """The seconds of a plain loop of writes and one `fsync`."""
    view = memoryview(data)
    start = time.perf_counter()
    file = os.open(path, os.O_WRONLY | os.O_CREAT | os.O_TRUNC)
    for at in range(0, len(data), PIECE):
        os.write(file, view[at:at + PIECE])
    os.fsync(file)
    seconds = time.perf_counter() - start
    os.close(file)
    os.remove(path)
    return seconds


def opened(program, path):
    """The seconds of a session without a line."""
    start = time.perf_counter()
    status = subprocess.run([program, "serve", path], stdin=subprocess.DEVNULL).returncode
    seconds = time.perf_counter() - start
    if status != 0:
        sys.exit("the program ended with status %d" % status)
    return seconds


def read(path):
    """The seconds of reading a file into one piece of memory."""
    start = time.perf_counter()
    with open(path, "rb", buffering=0) as file:
        into = memoryview(bytearray(os.path.getsize(path)))
        while len(into):
            into = into[file.readinto(into[:PIECE]):]
    return time.perf_counter() - start


def check_trees(program, folder, live):
    """Looks up each tree of a store by its id."""
    session, ids = Session(program, folder), list(live)
    for first in range(0, len(ids), 1000):
        asked = ids[first:first + 1000]
        body = {"search": {"query": {"ids": {"values": asked}}, "size": len(asked)}}
        reply, _ = session.ask(json.dumps(body))
        found = {hit["_id"]: hit["_source"] for hit in json.loads(reply)["hits"]["hits"]}
        if found != {id: json.loads(live[id]) for id in asked}:
            sys.exit("after the opening the trees aren't those that were committed")
    reply, _ = session.ask('{"search":{"size":0}}')
    session.end()
    if json.loads(reply)["hits"]["total"] != len(ids):
        sys.exit("after the opening there are other trees than those that were committed")


def main():
    count = int(sys.argv[1]) if len(sys.argv) > 1 else 100_000
    program = os.path.abspath(sys.argv[2]) if len(sys.argv) > 2 else os.path.join(TOP, "crates/nestsearch/out/nestsearch")
    if not os.path.exists(program):
        sys.exit("there is no program at %s" % program)
    made = list(writes(count))
    text = "".join(line + "\n" for line in lines_of(made))
    replies = list(replies_to(made))
    loads, commits, loops, openings, starts, reads = [], [], [], [], [], []
    with tempfile.TemporaryDirectory() as folder:
        store, empty = os.path.join(folder, "store"), os.path.join(folder, "empty")
        for _ in range(TURNS):
            if os.path.exists(store):
                os.remove(store)
            load, commit = committed(program, folder, made, text, replies)
            loads.append(load)
            commits.append(commit)
            with open(store, "rb") as file:
                data = file.read()
            loops.append(written(os.path.join(folder, "plain"), data))
            openings.append(opened(program, store))
            starts.append(opened(program, empty))
            reads.append(read(store))
        check_trees(program, folder, live_after(made))
    size = len(data) / 1e6
    opening = min(openings) - min(starts)
    print("%d writes, %.2f s without the commit; the file has %.1f MB" % (count, min(loads), size))
    print("commit: %.1f MB a second, a plain loop %.1f; %.2f times its time"
          % (size / min(commits), size / min(loops), min(commits) / min(loops)))
    print("opening: %.1f MB a second, a plain read %.1f; %.2f times its time"
          % (size / opening, size / min(reads), opening / min(reads)))


main()
