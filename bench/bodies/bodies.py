#!/usr/bin/env python3
"""Writes search bodies of a thousand clauses, one a file, each behind the mapping that it is resolved under.

`python3 bodies.py FOLDER`. A body of clauses with a clause inside has 500 of them.
"""
import json
import os
import sys


def properties():
    found = {}
    for i in range(20):
        found[f"word{i}"] = {"type": "keyword"}
        found[f"count{i}"] = {"type": "long"}
    for i in range(3):
        found[f"text{i}"] = {"type": "text"}
    parts = {"type": "nested", "properties": {"name": {"type": "keyword"}}}
    inside = {"name": {"type": "keyword"}, "size": {"type": "long"}, "parts": parts}
    found["items"] = {"type": "nested", "properties": inside}
    found["rel"] = {"type": "join", "relations": {"question": "answer"}}
    return found


def term(i):
    return {"term": {f"word{i % 20}": f"value-{i}"}}


def term_long(i):
    return {"term": {f"count{i % 20}": i}}


def term_object(i):
    return {"term": {f"word{i % 20}": {"value": f"value-{i}", "boost": 2}}}


def range_of(i):
    return {"range": {f"count{i % 20}": {"gte": i, "lt": i + 10}}}


def match(i):
    return {"match": {f"text{i % 3}": {"query": f"two words {i}", "operator": "and"}}}


def exists(i):
    return {"exists": {"field": f"word{i % 20}"}}


def prefix(i):
    return {"prefix": {f"word{i % 20}": {"value": f"va{i}"}}}


def terms(i):
    return {"terms": {f"word{i % 20}": [f"a{i}", f"b{i}", f"c{i}"]}}


def nested(i):
    return {"nested": {"path": "items", "query": {"term": {"items.name": f"n{i}"}}}}


def nested_inner(i):
    clause = nested(i)
    clause["nested"]["inner_hits"] = {"name": f"in{i}", "size": 2}
    return clause


def has_child(i):
    return {"has_child": {"type": "answer", "query": {"term": {"word3": f"v{i}"}}, "score_mode": "max"}}


LEAVES = [term, term_object, term_long, range_of, match, exists, prefix, terms]


def mixed(i):
    return LEAVES[i % len(LEAVES)](i)


def write(folder, name, clause, count):
    body = {"query": {"bool": {"should": [clause(i) for i in range(count)]}}}
    with open(os.path.join(folder, name), "w") as file:
        for value in ({"properties": properties()}, body):
            file.write(json.dumps(value, separators=(",", ":")) + "\n")


def main():
    folder = sys.argv[1]
    os.makedirs(folder, exist_ok=True)
    for clause in [*LEAVES, mixed]:
        write(folder, clause.__name__, clause, 1000)
    for clause in [nested, nested_inner, has_child]:
        write(folder, clause.__name__, clause, 500)


main()
