#!/usr/bin/env python3
"""Fails each call of the built program on its store and on its streams in turn, and judges what it answers and what it leaves.

A session of four commits, a compact and a trim is run under `strace`, on no file and on a store that another session left. Each call
that it makes on the store, its input or its output fails once with EIO and once with ENOSPC; each read of the store and each write moves
nothing once; and each call that a signal can interrupt is interrupted once (EINTR). A failed call has to come out: one number 35, in
place of the reply to a commit, compact or trim, and all other replies as ever; or status 5 and no reply, where the store was being
opened; or status 3 or 4 for the streams, with the replies to what was read before. An interrupted call on the store has to go unseen.
Then the store is served again: it has to hold the trees of the last commit that was acknowledged, or of one tried since, and to take
another. While a session is open, a second one on its store has to end with status 5. Replies are compared with those of a dict.
Wants `strace`; run `./run --prove examples/shop.ndjson` once before: it builds the program.

    python3 bench/faults.py [PROGRAM]
"""
import os
import random
import re
import shutil
import subprocess
import sys
import tempfile
from collections import Counter

from made import MAPPING, Draws, product
from merges import Session
from stored import EVERYTHING, Trees, is_answer, keeps

TOP = os.path.dirname(os.path.dirname(os.path.abspath(__file__)))
DISK_FAILURE = '{"error":{"number":35,"reason":"disk_failure"}}'
FAILS = ("error=EIO", "error=ENOSPC")
NOTHING, MOVING = ("retval=0",), ("write", "pread64", "pwrite64")
INTERRUPTED = ("error=EINTR",)
INTERRUPTIBLE = ("read", "write", "pread64", "pwrite64", "fsync", "fdatasync", "ftruncate", "openat", "flock")
IDS = 20
# a line that is passed over, which makes the input take several reads
BLANK = " " * 20_000 + "\n"


class Requests:
    """The requests of a session, each with its text, its reply, its command, and the trees that it keeps."""

    def __init__(self, trees, seed, before=""):
        self.trees, self.numbers, self.draws, self.made = trees.copy(), random.Random(seed), Draws(seed), []
        if not trees.mapped:
            self.add("mapping", *self.trees.map())
        for command in ("commit", "commit", "forcemerge", "commit", "compact", "trim", "commit"):
            if command == "commit":
                self.write()
            line, reply = self.trees.ask(command, self.numbers)
            self.add(command, before + line, reply)

    def write(self):
        """Two segments of writes."""
        for _ in range(2):
            for _ in range(5):
                id = str(self.numbers.randrange(IDS))
                if self.numbers.randrange(5):
                    self.add("index", *self.trees.put(id, product(self.trees.next, self.draws)))
                else:
                    self.add("delete", *self.trees.delete(id))
            self.add("refresh", *self.trees.ask("refresh", self.numbers))

    def add(self, command, text, reply):
        self.made.append((text + "\n", reply, command, self.trees.copy() if keeps(command) else None))

    def text(self):
        return "".join(text for text, _, _, _ in self.made).encode()

    def whole(self, count):
        """How many requests end within so many bytes."""
        number = 0
        for text, _, _, _ in self.made:
            count -= len(text.encode())
            if count < 0:
                break
            number += 1
        return number


class Runs:
    """Runs of the program under `strace`, each on a store of its own."""

    def __init__(self, program, folder):
        self.program, self.folder = program, folder
        self.store, self.input, self.output, self.log = (os.path.join(folder, it) for it in ("store", "input", "output", "log"))

    def run(self, given, requests, path, told):
        """The status, the output, and the calls on a path as they were traced."""
        if os.path.exists(self.store):
            os.remove(self.store)
        if given:
            shutil.copy(given, self.store)
        with open(self.input, "wb") as text:
            text.write(requests.text())
        words = ["strace", "-f", "-o", self.log, "-P", path, *told, self.program, "serve", self.store]
        with open(self.input, "rb") as source, open(self.output, "wb") as sink:
            status = subprocess.run(words, stdin=source, stdout=sink).returncode
        with open(self.output) as sink, open(self.log) as log:
            return status, sink.read(), [line.split(None, 1)[1] for line in log if re.match(r"\d+ +\w+\(", line)]

    def calls(self, given, kept, requests, path):
        """How many calls of each name a run without a fault makes on a path."""
        status, said, log = self.run(given, requests, path, [])
        if judged(requests, said, status, [kept], "no fault")[1] or status != 0:
            sys.exit("without a fault the program ended with status %d" % status)
        return Counter(line.split("(")[0] for line in log)

    def look(self, allowed, fault):
        """Serves the store again without faults: what it holds, and that it takes a further commit."""
        replies = self.serve([EVERYTHING, MAPPING, '{"index":{"_id":"further"}}', '{"name":"further"}', '{"commit":{}}'])
        found = [trees for trees in allowed if replies and trees.are(replies[0])]
        if not found:
            sys.exit("%s: the store doesn't hold what was committed: %s" % (fault, replies))
        trees = found[0].copy()
        wanted = [trees.map()[1], trees.put("further", '{"name":"further"}')[1], trees.ask("commit", random)[1]]
        again = self.serve([EVERYTHING])
        if replies[1:] != wanted or not again or not trees.are(again[0]):
            sys.exit("%s: afterwards the store doesn't go on: %s" % (fault, replies[1:]))

    def serve(self, lines):
        """The replies to these lines, or none where the program fails."""
        text = "".join(line + "\n" for line in lines)
        done = subprocess.run([self.program, "serve", self.store], input=text.encode(), stdout=subprocess.PIPE)
        return done.stdout.decode().splitlines() if done.returncode == 0 else []

    def fail(self, given, kept, requests, path, call, how, number):
        """One run with a fault, judged; what came of it."""
        fault = "%s %d on the %s with %s, %s" % (call, number, os.path.basename(path), how, "which was there" if given else "from nothing")
        told = ["--seccomp-bpf", "-e", "trace=" + call, "-e", "inject=%s:%s:when=%d" % (call, how, number)]
        status, said, log = self.run(given, requests, path, told)
        at = [place for place, line in enumerate(log) if "(INJECTED)" in line]
        if len(at) != 1:
            sys.exit("%s: the fault didn't come" % fault)
        allowed, failed = judged(requests, said, status, [kept], fault)
        unseen = status == 0 and failed == 0
        if path == self.store:
            right = unseen if how == "error=EINTR" else status == 5 and not said or status == 0 and failed == 1
        elif path == self.input:
            read = sum(int(line.rsplit("= ", 1)[1]) for line in log[:at[0]])
            right = status == 3 and said.count("\n") == requests.whole(read)
        else:
            right = status == 4 and said.count("\n") == number - 1
        if not right and not (how == "error=EINTR" and unseen):
            sys.exit("%s: status %d, %d replies, %d of them number 35" % (fault, status, said.count("\n"), failed))
        self.look(allowed, fault)
        return "unseen" if unseen else "number 35" if status == 0 else "status %d" % status

    def fail_each(self, given, kept, requests, path):
        """Fails each call on a path in turn, each way that there is."""
        for call, count in sorted(self.calls(given, kept, requests, path).items()):
            if call == "close" or path != self.store and call not in ("read", "write"):
                continue
            for how in FAILS + NOTHING * (call in MOVING) + INTERRUPTED * (call in INTERRUPTIBLE):
                came = Counter(self.fail(given, kept, requests, path, call, how, number + 1) for number in range(count))
                said = ", ".join("%d %s" % (many, it) for it, many in sorted(came.items()))
                print("%-6s %-9s %2d times %-12s %s" % (os.path.basename(path), call, count, how, said), flush=True)


def judged(requests, said, status, kept, fault):
    """The trees that the store may hold after these replies, and how many of them were number 35."""
    replies, failed = said.split("\n")[:-1], 0
    for reply, (_, wanted, command, trees) in zip(replies, requests.made):
        if reply == DISK_FAILURE and command in ("commit", "compact", "trim"):
            failed += 1
            kept = kept + [trees] if trees else kept
        elif not is_answer(wanted, reply):
            sys.exit("%s: the reply is %s, not %s" % (fault, reply, wanted))
        elif trees:
            kept = [trees]
    if len(replies) > len(requests.made) or status == 0 and len(replies) < len(requests.made):
        sys.exit("%s: %d replies to %d requests" % (fault, len(replies), len(requests.made)))
    if len(replies) < len(requests.made) and requests.made[len(replies)][3]:
        kept = kept + [requests.made[len(replies)][3]]
    return kept, failed


def refuse_a_second(program, folder):
    """A second session on the store of one that is open."""
    session = Session(program, folder)
    session.ask(EVERYTHING)
    second = subprocess.run([program, "serve", os.path.join(folder, "store")], input=EVERYTHING.encode(), stdout=subprocess.PIPE)
    session.end()
    if second.returncode != 5 or second.stdout:
        sys.exit("a second session on an open store ended with status %d and said %r" % (second.returncode, second.stdout))


def main():
    program = os.path.abspath(sys.argv[1]) if len(sys.argv) > 1 else os.path.join(TOP, "crates/nestsearch/out/nestsearch")
    if not os.path.exists(program):
        sys.exit("there is no program at %s" % program)
    with tempfile.TemporaryDirectory() as folder:
        runs = Runs(program, folder)
        first = Requests(Trees(), 1)
        print("from nothing:")
        runs.fail_each(None, Trees(), first, runs.store)
        given = os.path.join(folder, "given")
        runs.calls(None, Trees(), first, runs.store)
        shutil.copy(runs.store, given)
        print("on a store that was there:")
        runs.fail_each(given, first.trees, Requests(first.trees, 2), runs.store)
        long = Requests(first.trees, 3, BLANK)
        for path in (runs.input, runs.output):
            runs.fail_each(given, first.trees, long, path)
        refuse_a_second(program, folder)
        print("a second session on an open store was refused")


main()
