#!/usr/bin/env python3
"""What merges cost and what they are worth: loads with and without `automerge`, a merge of all segments to one, and searches
of each class over many segments, over those that `automerge` leaves, and over one.

The lines are the made input's writes, of which two in five are questions and answers, with every tenth line or so a delete. Loads go by
turns, three times, and the best counts; their replies are compared with those of a set of ids. The load without `automerge` leaves a
segment for each 256 trees. A search is sent and its reply awaited, so many times, and the least counts; its reply has to be the
same each time, before and after a merge. The bytes of the one segment are counted by docs/STORE.md, and copying so many is measured
beside. Figures tell beside others of the same run alone. Run `./run --prove examples/shop.ndjson` once before: it builds the program.

    python3 bench/merges.py [WRITES [PROGRAM]]       # 100,000 writes
"""
import json
import math
import os
import subprocess
import sys
import tempfile
import threading
import time
from collections import Counter

from made import lines_of, replies_to, writes

TOP = os.path.dirname(os.path.dirname(os.path.abspath(__file__)))
TURNS = 3
# how often a search is asked, and how long a class may take at most
TIMES = 15
SECONDS = 4
AUTOMERGE = '{"automerge":{"on":true}}\n'
RED = {"term": {"offers.color": "red"}}
CHEAP = {"range": {"offers.price": {"gte": 20, "lt": 50}}}
BY_PRICE = [{"offers.price": {"order": "desc", "nested": {"path": "offers"}}}]


def must(*clauses):
    return {"bool": {"must": list(clauses)}}


def nested(path, query, **more):
    return {"nested": {"path": path, "query": query, **more}}


def search(query, **more):
    return {"search": {"_source": False, "query": query, **more}}


def searches(live):
    """A search of each class, by its name; `live` are the ids that are live."""
    stock = nested("offers.stock", must({"term": {"offers.stock.site": "a"}}, {"range": {"offers.stock.n": {"gte": 5}}}))
    chosen = live[len(live) // 2]
    some = [live[len(live) * part // 5] for part in range(5)]
    offers = {"path": "offers"}
    return {
        "nested_bool": search(nested("offers", must(RED, CHEAP))),
        "nested_rare": search(nested("offers", must(RED, {"term": {"offers.price": 7}}, stock))),
        "nested_two": search(nested("offers", must(RED, stock))),
        "nested_inner": search(nested("offers", must(RED, CHEAP), inner_hits={"size": 3, "sort": ["offers.price"]})),
        "nested_sort": search(nested("offers", RED), sort=[{"offers.price": {"nested": {"path": "offers", "filter": RED}}}]),
        "nested_score": search(nested("offers", {"bool": {"should": [{"term": {"offers.color": {"value": "red", "boost": 3}}}, CHEAP]}},
                                      score_mode="sum")),
        "to_child": search(nested("offers", must(RED, {"to_child": {"path": "", "query": {"match": {"name": "item"}}}}))),
        "has_child": search({"has_child": {"type": "answer", "query": {"match": {"name": "answer"}}, "min_children": 1}}),
        "has_child_score": search({"has_child": {"type": "answer", "query": {"match_all": {}}, "score_mode": "sum"}}),
        "has_parent": search(must({"match": {"name": "answer"}},
                                  {"has_parent": {"parent_type": "question", "query": {"match": {"name": "question"}}}})),
        "match_or": search({"match": {"name": "question " + chosen}}),
        "match_and": search({"match": {"name": {"query": "item " + chosen, "operator": "and"}}}),
        "phrase": search({"match_phrase": {"name": "item " + chosen}}),
        "shop_mixed": search({"bool": {"must": [{"match": {"name": "item"}}], "filter": [nested("offers", must(CHEAP, stock))],
                                       "should": [nested("offers", RED)]}}),
        "agg_terms": search({"match": {"name": "item"}}, size=0, aggs={"o": {"nested": offers, "aggs": {"c": {
            "terms": {"field": "offers.color"}, "aggs": {"up": {"reverse_nested": {}}}}}}}),
        "agg_stats": search({"match_all": {}}, size=0, aggs={"o": {"nested": offers, "aggs": {"f": {"filter": RED, "aggs": {
            "least": {"min": {"field": "offers.price"}}, "sum": {"sum": {"field": "offers.price"}}}}}}}),
        "sort_price": search({"match": {"name": "item"}}, sort=BY_PRICE),
        "deep_after": search({"match_all": {}}, size=20, sort=BY_PRICE, search_after=[50, 0]),
        "deep_from": search({"match_all": {}}, size=20, sort=BY_PRICE, **{"from": 5000}),
        "ids": {"search": {"query": {"ids": {"values": some}}}},
    }


def with_joins(made):
    """The same writes, of which two in five are a question and its answer."""
    for id, source in made:
        number = int(id)
        if source is not None and number % 5 == 3:
            source = '{"name":"question %d","rel":"question"}' % number
        elif source is not None and number % 5 == 4:
            source = '{"name":"answer %d","rel":{"name":"answer","parent":"%d"}}' % (number, number - 1)
        yield id, source


def live_after(made):
    """The id of each tree that is live then, in order of its last write, with its source."""
    live = {}
    for id, source in made:
        live.pop(id, None)
        if source is not None:
            live[id] = source
    return live


def segment_bytes(live):
    """How many documents the trees have together, and how many bytes their segment has, by docs/STORE.md."""
    scopes, rows, words = Counter(), Counter(), Counter()
    values, roots, named = Counter(), 0, 0
    for id, source in live.items():
        tree = json.loads(source)
        offers = tree.get("offers", [])
        stocks = [stock for offer in offers for stock in offer["stock"]]
        scopes.update(root=1, offers=len(offers), stocks=len(stocks))
        join = tree.get("rel")
        parent = 4 + len(join["parent"]) if isinstance(join, dict) else 0
        roots += 4 + len(id) + 8 + 4 + 4 + len(source) + 1 + (4 if join else 0) + parent
        words.update(tree["name"].split())
        named += 1
        for field, given in [("color", [offer["color"] for offer in offers]), ("price", [offer["price"] for offer in offers]),
                             ("n", [stock["n"] for stock in stocks]), ("site", [stock["site"] for stock in stocks])]:
            values[field] += len(given)
            rows.update((field, value) for value in given)
    documents = sum(scopes.values())
    sets = 4 + 4 + sum(1 for count in scopes.values() if count) * 8 * math.ceil(documents / 64)
    terms = 8 + sum(12 + len(word) + 12 * count for word, count in words.items())
    terms += sum(12 + (8 if isinstance(value, int) else len(value)) + 8 * count for (_, value), count in rows.items())
    columns = 8 + sum(8 + 16 * count for count in values.values() if count)
    return documents, 4 + sets + roots + terms + columns + 12 + 4 * named


class Session:
    """A run of the program."""

    def __init__(self, program, folder, store="store"):
        words = [program, "serve", os.path.join(folder, store)]
        self.process = subprocess.Popen(words, stdin=subprocess.PIPE, stdout=subprocess.PIPE, bufsize=0)

    def load(self, text, replies):
        """Sends all lines at once. How long the last reply took, and whether the replies are these."""
        data = text.encode()
        start = time.perf_counter()
        sender = threading.Thread(target=self.send, args=(data,))
        sender.start()
        got, wanted = [], sum(len(reply) + 1 for reply in replies)
        while wanted > 0:
            piece = os.read(self.process.stdout.fileno(), min(wanted, 1 << 20))
            if not piece:
                break
            wanted -= len(piece)
            got.append(piece)
        seconds = time.perf_counter() - start
        sender.join()
        return seconds, b"".join(got).decode() == "".join(reply + "\n" for reply in replies)

    def send(self, data):
        view = memoryview(data)
        while len(view):
            view = view[self.process.stdin.write(view):]

    def ask(self, line):
        """The reply to a line, and how long it took."""
        start = time.perf_counter()
        self.send(line.encode() + b"\n")
        reply = []
        while not reply or not reply[-1].endswith(b"\n"):
            piece = os.read(self.process.stdout.fileno(), 1 << 20)
            if not piece:
                sys.exit("the program ended")
            reply.append(piece)
        return b"".join(reply).decode(), time.perf_counter() - start

    def segments(self):
        return json.loads(self.ask('{"segments":{}}')[0])["segments"]

    def end(self):
        self.process.stdin.close()
        self.process.wait()


def least(session, line):
    """The reply to a search, and the least time that it took."""
    reply, first = session.ask(line)
    times, end = [first], time.perf_counter() + SECONDS
    while len(times) < TIMES and time.perf_counter() < end:
        again, seconds = session.ask(line)
        if again != reply:
            sys.exit("a search has two replies: %s" % line)
        times.append(seconds)
    return reply, min(times)


def loaded(program, folder, store, text, replies, taken):
    """A session with all lines, whose time is noted."""
    session = Session(program, folder, store)
    seconds, same = session.load(text, replies)
    if not same:
        sys.exit("the program's replies are not those of a set of ids")
    taken.append(seconds)
    return session


def copying(count):
    """The least time that copying so many bytes takes."""
    block, times = bytearray(os.urandom(1 << 16) * (count // (1 << 16) + 1))[:count], []
    for _ in range(5):
        start = time.perf_counter()
        bytes(block)
        times.append(time.perf_counter() - start)
    return min(times)


def found_by(session, lines):
    return {name: least(session, line) for name, line in lines.items()}


def print_searches(plain, by_itself, at_once, names):
    print("searches, each beside itself over one segment:")
    print("  %-16s %12s %12s %12s" % ("", *names))
    for name, (reply, one) in at_once.items():
        if plain[name][0] != reply or by_itself[name][0] != reply:
            sys.exit("%s has another reply after a merge" % name)
        print("  %-16s %12.2f %12.2f %9.3f ms" % (name, plain[name][1] / one, by_itself[name][1] / one, one * 1e3))


def main():
    count = int(sys.argv[1]) if len(sys.argv) > 1 else 100_000
    program = os.path.abspath(sys.argv[2]) if len(sys.argv) > 2 else os.path.join(TOP, "crates/nestsearch/out/nestsearch")
    if not os.path.exists(program):
        sys.exit("there is no program at %s" % program)
    made = list(with_joins(writes(count)))
    lines, replies, live = list(lines_of(made)), list(replies_to(made)), live_after(made)
    text = "".join(line + "\n" for line in lines)
    settling = text.replace("\n", "\n" + AUTOMERGE, 1)
    settled = [replies[0], '{"automerge":2}', *replies[1:]]
    asked = {name: json.dumps(line, separators=(",", ":")) for name, line in searches(list(live)).items()}
    plain_times, settled_times = [], []
    with tempfile.TemporaryDirectory() as folder:
        for turn in range(TURNS):
            plain = loaded(program, folder, "plain", text, replies, plain_times)
            by_itself = loaded(program, folder, "by_itself", settling, settled, settled_times)
            if turn + 1 < TURNS:
                plain.end()
                by_itself.end()
        many, few = plain.segments(), by_itself.segments()
        print("%d writes leave %d trees" % (count, len(live)))
        print("load: with automerge %.2f times that without; %d segments in place of %d, where 1 + log2 of the trees is %.1f"
              % (min(settled_times) / min(plain_times), len(few), len(many), 1 + math.log2(max(1, len(live)))))
        before, between = found_by(plain, asked), found_by(by_itself, asked)
        reply, seconds = plain.ask('{"forcemerge":{}}')
        (row,) = plain.segments()
        documents, size = segment_bytes(live)
        if reply != '{"segments":1}\n' or (row["live"], row["dead"], row["objects"]) != (len(live), 0, documents):
            sys.exit("the merge left %s" % json.dumps(row))
        print("forcemerge: %.0f documents a second; %.2f times as long as the load of these trees, %.0f times as long as copying its %d bytes"
              % (documents / seconds, seconds / min(plain_times), seconds / copying(size), size))
        print_searches(before, between, found_by(plain, asked), ("%d segments" % len(many), "%d segments" % len(few), "1 segment"))
        plain.end()
        by_itself.end()


if __name__ == "__main__":
    main()
