#!/usr/bin/env python3
"""Refuses each allocation of the built program in turn, and judges what it answers.

A preloaded library counts the calls of malloc and realloc and refuses one of them. Then the program may end with status 9 and
no output, or answer one request with out_of_memory and the others as if that request hadn't come; anything else is wrong. It is
run over made lines, whose replies come from the plain machine below, and over the examples. Of these all replies together have to be
the expected ones, and those around a request that hadn't come are what the program answers without it, where nothing is refused.
The made lines have commits; they are run from nothing and on the store that they leave, and each store is served again, where nothing
is refused: it has to hold the trees of the last commit that was answered.
Wants gcc; run `./run --prove examples/shop.ndjson` once before: it builds the program.

    python3 bench/allocations.py [PROGRAM]
"""
import concurrent.futures
import json
import os
import random
import subprocess
import sys
import tempfile
import threading

TOP = os.path.dirname(os.path.dirname(os.path.abspath(__file__)))
EXAMPLES = ("shop", "tickets")
SEARCH = '{"search":{}}\n'
OUT_OF_MEMORY = '{"error":{"reason":"out_of_memory"}}'
LIBRARY = r"""
#define _GNU_SOURCE
#include <dlfcn.h>
#include <stdio.h>
#include <stdlib.h>
static long left = -1, seen;
static void report(void) {
    char *path = getenv("SEEN");
    FILE *file = path ? fopen(path, "w") : 0;
    if (file) { fprintf(file, "%ld\n", seen); fclose(file); }
}
__attribute__((constructor)) static void begin(void) {
    char *number = getenv("REFUSED");
    atexit(report);
    seen = 0;
    left = number ? atol(number) : -1;
}
static int refused(void) { seen++; return left >= 0 && left-- == 0; }
void *malloc(size_t size) {
    static void *(*real)(size_t);
    if (!real) real = dlsym(RTLD_NEXT, "malloc");
    return refused() ? 0 : real(size);
}
void *realloc(void *old, size_t size) {
    static void *(*real)(void *, size_t);
    if (!real) real = dlsym(RTLD_NEXT, "realloc");
    return refused() ? 0 : real(old, size);
}
"""


def compact(value):
    return json.dumps(value, separators=(",", ":"), sort_keys=True)


def refusal(number, reason):
    return compact({"error": {"number": number, "reason": reason}})


MAPPING = '{"mapping":{"properties":{"title":{"type":"text"},"offers":{"type":"nested","properties":' \
    '{"color":{"type":"keyword"},"price":{"type":"long"}}}}}}\n'


class Machine:
    """Whether there is a mapping, the live trees in the order of their numbers, and the next number."""

    def __init__(self):
        self.mapped = False
        self.trees = []
        self.next = 0

    def copy(self):
        other = Machine()
        other.mapped, other.trees, other.next = self.mapped, list(self.trees), self.next
        return other

    def answer(self, request):
        kind, id, source = request
        if kind == "mapping":
            self.mapped = True
            return compact({"result": "mapped"})
        if kind in ("index", "search", "commit") and not self.mapped:
            return refusal(6, "no_mapping")
        if kind == "commit":
            return compact({"next_seq_no": self.next})
        if kind == "index":
            before = len(self.trees)
            self.trees = [tree for tree in self.trees if tree[0] != id]
            result = "updated" if len(self.trees) < before else "created"
            self.trees.append((id, self.next, source))
            self.next += 1
            return compact({"_id": id, "_seq_no": self.next - 1, "result": result})
        if kind == "search":
            hits = [{"_id": i, "_score": 1, "_source": s, "sort": [1, n]} for i, n, s in self.trees[:10]]
            return compact({"hits": {"hits": hits, "total": len(self.trees)}})
        return {
            "no json": refusal(1, "bad_json"),
            "a fraction": refusal(2, "fraction_number"),
            "no request": refusal(4, "bad_request"),
        }[kind]


def text_of(request):
    kind, id, source = request
    action = '{"index":{"_id":%s}}\n' % json.dumps(id)
    return {
        "mapping": lambda: MAPPING,
        "index": lambda: action + json.dumps(source) + "\n",
        "search": lambda: SEARCH,
        "commit": lambda: '{"commit":{}}\n',
        "no json": lambda: '{"search":{"query":\n',
        "a fraction": lambda: action + '{"price":9.5}\n',
        "no request": lambda: '{"find":{"name":"chair"}}\n',
    }[kind]()


def made_requests(count):
    """A mapping, and requests of all kinds, index requests with names in and out of order, short and long texts."""
    numbers = random.Random(5)
    yield "mapping", None, None
    for _ in range(count):
        kind = numbers.choice(["index"] * 5 + ["search"] * 3 + ["commit"] * 2 + ["no json", "a fraction", "no request"])
        offers = [{"price": numbers.randrange(100), "color": "red" * numbers.randrange(9)} for _ in range(numbers.randrange(4))]
        source = {"title": "lamp" * numbers.randrange(40), "offers": offers}
        yield kind, "id%d" % numbers.randrange(12), source if numbers.randrange(2) else dict(sorted(source.items()))


def replies_without(requests, left_out, begun):
    """The replies where one request hasn't come, and the machine as the last commit left it."""
    machine, kept, replies = begun.copy(), begun.copy(), []
    for at, request in enumerate(requests):
        if at == left_out:
            replies.append(OUT_OF_MEMORY)
            continue
        replies.append(machine.answer(request))
        if request[0] == "commit" and machine.mapped:
            kept = machine.copy()
    return replies, kept


class Refusing:
    """The program, of whose allocations one can be refused."""

    def __init__(self, program, folder):
        self.program = program
        self.folder = folder
        self.library = os.path.join(folder, "refuse.so")
        source = os.path.join(folder, "refuse.c")
        with open(source, "w") as file:
            file.write(LIBRARY)
        subprocess.run(["gcc", "-shared", "-fPIC", "-O1", "-o", self.library, source, "-ldl"], check=True)

    def run(self, text, given=b"", **told):
        """The program's status, its replies, and the store that it leaves in place of the given one."""
        store = os.path.join(self.folder, "%d.nest" % threading.get_ident())
        with open(store, "wb") as file:
            file.write(given)
        words = [self.program, "serve", store]
        done = subprocess.run(words, input=text.encode(), stdout=subprocess.PIPE, env={**os.environ, "LD_PRELOAD": self.library, **told})
        with open(store, "rb") as file:
            return done.returncode, done.stdout.decode().splitlines(), file.read()

    def whole(self, text, given=b""):
        """The replies where nothing is refused, the store then, and how many allocations there are."""
        seen = os.path.join(self.folder, "seen")
        status, replies, store = self.run(text, given, SEEN=seen)
        if status != 0:
            sys.exit("with ample memory: status %d" % status)
        with open(seen) as count:
            return replies, store, int(count.read())

    def without(self, text, given, number):
        """The status, the replies and the store where the allocation of this number is refused."""
        return self.run(text, given, REFUSED=str(number))

    def holds(self, store, machine):
        """Whether a store that is served again, where nothing is refused, holds what the machine holds."""
        status, replies, _ = self.run(SEARCH, store)
        return status == 0 and replies == [machine.answer(("search", None, None))]


def judge(refusing, name, texts, whole, replies_without, given=b"", begun=None):
    """Refuses each allocation over these requests; `replies_without` gives the replies where one of them hasn't come. Where `begun` is
    what the given store holds, it gives what the store has to hold besides."""
    text = "".join(texts)
    replies, left, allocations = refusing.whole(text, given)
    if replies != whole:
        sys.exit("%s: with ample memory the replies aren't the expected ones" % name)
    expected = {}
    ended = refused = unharmed = 0
    with concurrent.futures.ThreadPoolExecutor(os.cpu_count()) as pool:
        runs = pool.map(lambda number: refusing.without(text, given, number), range(allocations))
        for number, (status, replies, store) in enumerate(runs):
            at = replies.index(OUT_OF_MEMORY) if OUT_OF_MEMORY in replies else None
            if at not in expected:
                expected[at] = replies_without(at)
            if status == 9 and not replies:
                ended += 1
            elif status == 0 and replies == whole:
                unharmed += 1
            elif status == 0 and at is not None and replies == expected[at][0]:
                refused += 1
            else:
                sys.exit("%s: allocation %d refused: status %d, and wrong replies" % (name, number, status))
            if begun and not refusing.holds(store, begun if status == 9 else expected[at][1]):
                sys.exit("%s: allocation %d refused: the store doesn't hold what was committed" % (name, number))
    print("%s: %d requests, %d allocations, each refused once: %d ended with status 9 before the first request, %d with one "
          "out_of_memory reply, %d without effect" % (name, len(texts), allocations, ended, refused, unharmed), flush=True)
    return left


def judge_made(refusing):
    requests = list(made_requests(60)) + [("commit", None, None)]
    begun, given = Machine(), b""
    for name in ("made lines from nothing", "made lines on their store"):
        whole, kept = replies_without(requests, None, begun)
        texts = [text_of(request) for request in requests]
        given = judge(refusing, name, texts, whole, lambda at: replies_without(requests, at, begun), given, begun)
        begun = kept


def example_requests(name):
    """The requests of an example, each with its source line."""
    with open(os.path.join(TOP, "examples", name + ".ndjson")) as lines:
        for line in lines:
            yield line + next(lines) if line.startswith(('{"index"', '{"create"', '{"update"')) else line


def judge_example(refusing, name):
    texts = list(example_requests(name))
    with open(os.path.join(TOP, "examples", name + ".expected")) as replies:
        whole = replies.read().splitlines()

    def without(at):
        if at is None:
            return whole, None
        replies, _, _ = refusing.whole("".join(texts[:at] + texts[at + 1:]))
        return replies[:at] + [OUT_OF_MEMORY] + replies[at:], None

    judge(refusing, name, texts, whole, without)


def main():
    program = os.path.abspath(sys.argv[1]) if len(sys.argv) > 1 else os.path.join(TOP, "crates/nestsearch/out/nestsearch")
    if not os.path.exists(program):
        sys.exit("there is no program at %s" % program)
    with tempfile.TemporaryDirectory() as folder:
        refusing = Refusing(program, folder)
        judge_made(refusing)
        for name in EXAMPLES:
            judge_example(refusing, name)


if __name__ == "__main__":
    main()
