#!/usr/bin/env python3
"""How much memory a seal takes beside the bytes of the segment that it makes.

The trees of the made input go into the buffer, 256 at a time, as blocks; `refresh` makes a segment of them. A preloaded library counts
the bytes that the program has from malloc and realloc: what the blocks have before the seal, the most while it runs, and what is left.
The segment's bytes are counted by docs/STORE.md. Wants gcc; run `./run --prove examples/shop.ndjson` once before: it builds the program.

    python3 bench/building.py [PROGRAM]
"""
import mmap
import os
import struct
import subprocess
import sys
import tempfile

from made import MAPPING, Draws, product
from merges import Session, segment_bytes

TOP = os.path.dirname(os.path.dirname(os.path.abspath(__file__)))
SEALS = 8
TREES = 256
LIBRARY = r"""
#define _GNU_SOURCE
#include <dlfcn.h>
#include <fcntl.h>
#include <malloc.h>
#include <stdlib.h>
#include <sys/mman.h>
static long none[2], *live = none;
__attribute__((constructor)) static void begin(void) {
    char *path = getenv("COUNTS");
    int file = path ? open(path, O_RDWR) : -1;
    void *shared = file < 0 ? MAP_FAILED : mmap(0, 16, PROT_READ | PROT_WRITE, MAP_SHARED, file, 0);
    if (shared != MAP_FAILED) live = shared;
}
static void *taken(void *at) {
    live[0] += at ? malloc_usable_size(at) : 0;
    if (live[0] > live[1]) live[1] = live[0];
    return at;
}
void *malloc(size_t size) {
    static void *(*real)(size_t);
    if (!real) real = dlsym(RTLD_NEXT, "malloc");
    return taken(real(size));
}
void *realloc(void *old, size_t size) {
    static void *(*real)(void *, size_t);
    if (!real) real = dlsym(RTLD_NEXT, "realloc");
    size_t before = old ? malloc_usable_size(old) : 0;
    void *at = real(old, size);
    if (at || !size) live[0] -= before;
    return taken(at);
}
void free(void *old) {
    static void (*real)(void *);
    if (!real) real = dlsym(RTLD_NEXT, "free");
    live[0] -= old ? malloc_usable_size(old) : 0;
    real(old);
}
"""


class Counts:
    """The bytes that the program has, and the most that it had, as the library counts them."""

    def __init__(self, path):
        with open(path, "wb") as file:
            file.write(bytes(16))
        self.file = open(path, "r+b")
        self.shared = mmap.mmap(self.file.fileno(), 16)

    def take(self):
        """What it has and the most that it had since the last call."""
        found = struct.unpack("qq", self.shared[:16])
        self.shared[8:16] = self.shared[:8]
        return found


def main():
    program = os.path.abspath(sys.argv[1]) if len(sys.argv) > 1 else os.path.join(TOP, "crates/nestsearch/out/nestsearch")
    if not os.path.exists(program):
        sys.exit("there is no program at %s" % program)
    with tempfile.TemporaryDirectory() as folder:
        library = os.path.join(folder, "counting.so")
        subprocess.run(["gcc", "-O1", "-shared", "-fPIC", "-o", library, "-x", "c", "-", "-ldl"], input=LIBRARY.encode(), check=True)
        counts = Counts(os.path.join(folder, "counts"))
        os.environ.update(LD_PRELOAD=library, COUNTS=os.path.join(folder, "counts"))
        session = Session(program, folder)
        for name in ("LD_PRELOAD", "COUNTS"):
            del os.environ[name]
        session.ask(MAPPING)
        draws, number = Draws(7), 0
        print("each beside the bytes of the segment: the buffer's blocks, the most that a seal takes beside these, and what is left of both")
        for _ in range(SEALS):
            empty, _ = counts.take()
            live = {}
            for _ in range(TREES):
                live[str(number)] = product(number, draws)
                session.ask('{"index":{"_id":"%d"}}\n%s' % (number, live[str(number)]))
                number += 1
            full, _ = counts.take()
            reply, _ = session.ask('{"refresh":{}}')
            if reply != '{"result":"refreshed"}\n':
                sys.exit("the program answered " + reply)
            sealed, most = counts.take()
            documents, size = segment_bytes(live)
            print("%d documents, %d bytes: %.2f %.2f %.2f" % (documents, size, (full - empty) / size, (most - full) / size, (sealed - empty) / size))
        session.process.stdin.close()
        if session.process.wait() != 0:
            sys.exit("the program ended with a status other than 0")


main()
