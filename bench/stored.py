"""Random requests on a store, beside a dict that says what each of them is answered and what each commit keeps."""
import json
import os
import re

from made import MAPPING, Draws, product

EVERYTHING = '{"search":{"size":10000}}'
COMMANDS = ["commit"] * 12 + ["compact", "trim", "refresh", "forcemerge", "automerge", "pit", "pit", "search", "search", "search"]
MOST_PITS = 20


class Trees:
    """Whether there is a mapping, each live id with the number and the source of its tree, and the next number."""

    def __init__(self):
        self.mapped = False
        self.live = {}
        self.next = 0

    def copy(self):
        other = Trees()
        other.mapped, other.live, other.next = self.mapped, dict(self.live), self.next
        return other

    def map(self):
        self.mapped = True
        return MAPPING, '{"result":"mapped"}'

    def put(self, id, source):
        result = "updated" if id in self.live else "created"
        self.live[id] = self.next, source
        self.next += 1
        return '{"index":{"_id":"%s"}}\n%s' % (id, source), '{"_id":"%s","_seq_no":%d,"result":"%s"}' % (id, self.next - 1, result)

    def delete(self, id):
        line = '{"delete":{"_id":"%s"}}' % id
        if self.live.pop(id, None) is None:
            return line, '{"_id":"%s","result":"not_found"}' % id
        self.next += 1
        return line, '{"_id":"%s","_seq_no":%d,"result":"deleted"}' % (id, self.next - 1)

    def update(self, id, name):
        line = '{"update":{"_id":"%s"}}\n{"doc":{"name":"%s"}}' % (id, name)
        if id not in self.live:
            return line, '{"error":{"number":16,"reason":"document_missing"}}'
        number, source = self.live[id]
        tree = json.loads(source)
        if tree["name"] == name:
            return line, '{"_id":"%s","_seq_no":%d,"result":"noop"}' % (id, number)
        return line, self.put(id, json.dumps({**tree, "name": name}))[1]

    def ask(self, command, numbers):
        """A line of this command and its reply, in which # stands for any number."""
        return {
            "commit": ('{"commit":{}}', '{"next_seq_no":%d}' % self.next),
            "compact": ('{"compact":{"moves":%d}}' % numbers.randint(1, 9), '{"moved":#,"next_seq_no":%d}' % self.next),
            "trim": ('{"trim":{}}', '{"bytes":#}'),
            "refresh": ('{"refresh":{}}', '{"result":"refreshed"}'),
            "forcemerge": ('{"forcemerge":{}}', '{"segments":#}'),
            "automerge": ('{"automerge":{"on":true}}', '{"automerge":2}'),
            "search": ('{"search":{"query":{"match":{"name":"item"}},"size":0}}', '{"hits":{"hits":[],"total":%d}}' % len(self.live)),
        }[command]

    def are(self, reply):
        """Whether this is the reply to a search for everything."""
        if not self.mapped:
            return reply.rstrip("\n") == '{"error":{"number":6,"reason":"no_mapping"}}'
        hits = json.loads(reply).get("hits", {})
        found = {hit["_id"]: (hit["sort"][1], hit["_source"]) for hit in hits.get("hits", [])}
        return hits.get("total") == len(self.live) and found == {
            id: (number, json.loads(source)) for id, (number, source) in self.live.items()}


def write_on(trees, numbers, draws, ids):
    """A random write of one of so many ids, its reply and its command."""
    id, kind = str(numbers.randrange(ids)), numbers.randrange(12)
    if kind < 2:
        return *trees.delete(id), "delete"
    if kind < 4:
        return *trees.update(id, "item %d" % numbers.randrange(5)), "update"
    return *trees.put(id, product(trees.next, draws)), "index"


def requests_on(trees, numbers, ids, writes):
    """Random requests without end, each with its reply and its command: of so many ids, fewer than so many writes on end."""
    draws, pits, opened = Draws(numbers.randrange(2**32)), [], 0
    if not trees.mapped:
        yield *trees.map(), "mapping"
    while True:
        for _ in range(numbers.randrange(writes)):
            yield write_on(trees, numbers, draws, ids)
        command = numbers.choice(COMMANDS)
        if command != "pit":
            yield *trees.ask(command, numbers), command
        elif len(pits) < MOST_PITS:
            opened += 1
            pits.append(opened)
            yield '{"open_pit":{}}', '{"pit":%d,"result":"opened"}' % opened, command
        else:
            closed = pits.pop(0)
            yield '{"close_pit":{"id":%d}}' % closed, '{"pit":%d,"result":"closed"}' % closed, command


def keeps(command):
    """Whether what this command acknowledges outlives the session."""
    return command in ("commit", "compact")


def is_answer(wanted, reply):
    return wanted == reply or "#" in wanted and re.fullmatch(re.escape(wanted).replace("\\#", "[0-9]+"), reply) is not None
