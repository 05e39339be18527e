#!/usr/bin/env python3
"""Kills the built program at random moments while it writes, commits, compacts and trims without end on a real file.

After each kill the next session has to open the store and to find exactly the trees of the last commit that was acknowledged, or of
the one whose reply was under way; then it goes on from there. Each reply before the kill is compared with that of a dict. Every
50th session begins without a file. Where the program knows `check`, each store has to pass it too. One session in eight is killed
within 50 milliseconds of its start, so that some kills hit the opening; the others within 10 milliseconds of one of the first 200
replies. What a kill can't show is a loss of power, since the system keeps what was written. Run `./run --prove examples/shop.ndjson`
once before: it builds the program.

    python3 bench/kills.py [KILLS [PROGRAM [SEED]]]       # 1,000 kills
"""
import os
import random
import signal
import subprocess
import sys
import tempfile
import threading
from collections import Counter

from merges import Session
from stored import EVERYTHING, Trees, is_answer, keeps, requests_on

TOP = os.path.dirname(os.path.dirname(os.path.abspath(__file__)))
OPENING_SECONDS = 0.05
REPLIES = 200
REPLY_SECONDS = 0.01
IDS = 300
WRITES = 12
ANEW = 50


def drive(session, trees, numbers, sent):
    """Sends requests until the program is gone, and notes of each its reply, and the trees if it keeps them."""
    requests = requests_on(trees, numbers, IDS, WRITES)
    try:
        while True:
            lines = []
            for _ in range(20):
                line, reply, command = next(requests)
                sent.append((reply, command, trees.copy() if keeps(command) else None))
                lines.append(line + "\n")
            session.send("".join(lines).encode())
    except OSError:
        pass


def first_line(output):
    """The first line that is read, or what there is of it at the end, and what comes behind it in the same piece."""
    said = b""
    while b"\n" not in said:
        piece = os.read(output, 1 << 20)
        if not piece:
            return said, b""
        said += piece
    first, rest = said.split(b"\n", 1)
    return first + b"\n", rest


def rest_until_kill(session, number, seconds):
    """All that is said until the end. So many seconds after the line of this number the program is killed."""
    pieces, lines, killer = [], 0, None
    while piece := os.read(session.process.stdout.fileno(), 1 << 20):
        pieces.append(piece)
        lines += piece.count(b"\n")
        if lines >= number and not killer:
            killer = threading.Timer(seconds, session.process.kill)
            killer.start()
    if killer:
        killer.join()
    return b"".join(pieces)


def judged(replies, sent, last, seen):
    """The trees that the store may hold after these replies: those kept last, and those of a commit without its reply yet."""
    for at, (reply, (wanted, command, kept)) in enumerate(zip(replies, sent)):
        if not is_answer(wanted, reply):
            sys.exit("reply %d is %s, not %s" % (at, reply, wanted))
        seen[command] += 1
        last = kept or last
    if len(replies) < len(sent) and sent[len(replies)][2]:
        return [last, sent[len(replies)][2]]
    return [last]


def run_to_kill(program, folder, allowed, numbers, seen):
    """One session until it is killed; the trees that the next one may find."""
    session = Session(program, folder)
    early = threading.Timer(numbers.uniform(0, OPENING_SECONDS), session.process.kill)
    if numbers.randrange(8) == 0:
        early.start()
    try:
        session.send(EVERYTHING.encode() + b"\n")
    except BrokenPipeError:
        pass
    opening, said = first_line(session.process.stdout.fileno())
    if opening.endswith(b"\n"):
        found = [trees for trees in allowed if trees.are(opening.decode())]
        if not found:
            sys.exit("the store doesn't hold what was committed: %s" % opening[:1000].decode())
        seen["a commit whose reply was under way"] += found[0] is not allowed[0]
        seen["trees looked at"] += len(found[0].live)
        sent = []
        driver = threading.Thread(target=drive, args=(session, found[0].copy(), numbers, sent))
        driver.start()
        said += rest_until_kill(session, numbers.randrange(1, REPLIES), numbers.uniform(0, REPLY_SECONDS))
        driver.join()
        allowed = judged(said.decode().split("\n")[:-1], sent, found[0], seen)
    else:
        seen["before the first reply"] += 1
    session.process.stdin.close()
    if session.process.wait() != -signal.SIGKILL:
        sys.exit("the program ended with status %d" % session.process.returncode)
    return allowed


def checked(program, store):
    """Whether the program knows `check`; if it does, the store has to pass it."""
    status = subprocess.run([program, "check", store], stdin=subprocess.DEVNULL, stdout=subprocess.DEVNULL).returncode
    if status not in (0, 2):
        sys.exit("check ended with status %d" % status)
    return status == 0


def main():
    kills = int(sys.argv[1]) if len(sys.argv) > 1 else 1000
    program = os.path.abspath(sys.argv[2]) if len(sys.argv) > 2 else os.path.join(TOP, "crates/nestsearch/out/nestsearch")
    numbers = random.Random(int(sys.argv[3]) if len(sys.argv) > 3 else 1)
    if not os.path.exists(program):
        sys.exit("there is no program at %s" % program)
    seen, passed = Counter(), 0
    folder = tempfile.mkdtemp()
    store = os.path.join(folder, "store")
    print("the stores are in %s, which stays where something is wrong" % folder, flush=True)
    for number in range(kills):
        if number % ANEW == 0:
            allowed = [Trees()]
            if number:
                os.remove(store)
        allowed = run_to_kill(program, folder, allowed, numbers, seen)
        passed += checked(program, store) if os.path.exists(store) else 0
    session = Session(program, folder)
    reply, _ = session.ask(EVERYTHING)
    session.end()
    if not any(trees.are(reply) for trees in allowed):
        sys.exit("the last store doesn't hold what was committed")
    os.remove(store)
    os.rmdir(folder)
    print("%d kills, 0 lost: %d before the first reply, %d stores passed check" % (kills, seen["before the first reply"], passed))
    replies = sum(count for name, count in seen.items() if " " not in name)
    print("%d replies, with %d commits, %d compacts and %d trims; %d stores held a commit whose reply was under way; %d trees looked at"
          % (replies, seen["commit"], seen["compact"], seen["trim"], seen["a commit whose reply was under way"], seen["trees looked at"]))


main()
