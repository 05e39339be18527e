#!/usr/bin/env python3
"""How much processor time the built program takes for a document of five fields, under mappings of 5, 100 and 1,000.

Each document has five keywords, which are the first fields of each mapping. The sources stand in a file, of which the program
answers each line; the least of three loads counts. Run `./run --prove examples/shop.ndjson` once before: it builds the program.

    python3 bench/wide.py [DOCUMENTS [PROGRAM]]       # 100,000 documents
"""
import json
import os
import subprocess
import sys
import tempfile

TOP = os.path.dirname(os.path.dirname(os.path.abspath(__file__)))
SHOWN = 5


def name(number):
    return "f%03d" % number


def mapping(fields):
    return json.dumps({"mapping": {"properties": {name(it): {"type": "keyword"} for it in range(fields)}}})


def lines(count):
    for number in range(count):
        source = {name(it): "value %d" % ((number + it) % 10) for it in range(SHOWN)}
        yield '{"index":{"_id":"%d"}}\n%s\n' % (number, json.dumps(source))


def spent(program, work, fields, count):
    """The seconds of a processor for so many documents."""
    given = os.path.join(work, "lines")
    with open(given, "w") as out:
        out.write(mapping(fields) + "\n")
        out.writelines(lines(count))
    with open(given) as source:
        session = subprocess.Popen([program, "serve", os.path.join(work, "store")], stdin=source, stdout=subprocess.PIPE)
        replies = session.stdout.read().splitlines()
        _, status, used = os.wait4(session.pid, 0)
    session.returncode = status
    said = [json.loads(it).get("result") for it in replies]
    if status or said != ["mapped"] + ["created"] * count:
        sys.exit("not all lines were taken: status %d, %d replies" % (status, len(replies)))
    return used.ru_utime + used.ru_stime


def main():
    count = int(sys.argv[1]) if len(sys.argv) > 1 else 100_000
    program = sys.argv[2] if len(sys.argv) > 2 else os.path.join(TOP, "crates/nestsearch/out/nestsearch")
    first = None
    with tempfile.TemporaryDirectory() as work:
        for fields in (SHOWN, 100, 1_000):
            each = min(spent(program, work, fields, count) for _ in range(3)) / count
            first = first or each
            print("%5d fields: %5.2f us a document, %.2f times" % (fields, each * 1e6, each / first))


if __name__ == "__main__":
    main()
