"""The blocks of docs/GUIDE.md.

Without a word it writes the guide's lines to crates/scenarios/data/guide.cases, which the gate runs. `--check` says whether they stand
there. `--try PROGRAM` runs the guide's shell blocks, in order and in a folder of their own, with PROGRAM as `nestsearch`, and compares
what they print with the blocks behind them; then it runs the lines of each case and compares the replies. Wants jq.
"""

import os
import re
import shutil
import subprocess
import sys
import tempfile

TOP = os.path.dirname(os.path.dirname(os.path.abspath(__file__)))
GUIDE = os.path.join(TOP, "docs", "GUIDE.md")
CASES = os.path.join(TOP, "crates", "scenarios", "data", "guide.cases")
HEAD = "# The lines of docs/GUIDE.md. `python3 docs/guide.py` writes this file.\n"


def blocks():
    """The fenced blocks and the comments, each with its kind: a fence's word, or `comment`."""
    with open(GUIDE) as given:
        text = given.read()
    for found in re.finditer(r"^<!-- (.*) -->\n|^```(.*)\n((?:(?!```).*\n)*)```\n", text, re.M):
        yield ("comment", found[1]) if found[1] else (found[2], found[3])


def cases():
    """What the gate is to run: the lines, and the settings that stand in comments."""
    text = HEAD
    for kind, body in blocks():
        if kind == "comment":
            text += ("\n" if body.startswith("case ") else "") + body + "\n"
        elif kind == "":
            text += body
    return text


def differs(what, printed, wanted):
    if printed == wanted:
        return 0
    print(f"{what}\nprinted\n{printed}in place of\n{wanted}")
    return 1


def try_shell(program, room):
    os.mkdir(f"{room}/bin")
    os.symlink(program, f"{room}/bin/nestsearch")
    surroundings = {**os.environ, "PATH": f"{room}/bin:{os.environ['PATH']}"}
    bad = ran = 0
    printed = what = None
    for kind, body in blocks():
        if kind == "sh":
            done = subprocess.run(["bash", "-e", "-c", body], cwd=room, env=surroundings, stdout=subprocess.PIPE, text=True)
            bad += done.returncode != 0
            printed, what = done.stdout, body
            ran += 1
        elif kind == "text":
            bad += differs(what, printed, body)
    print(f"{ran} shell blocks")
    return bad


def try_lines(program, room):
    bad = ran = 0
    for case in cases().split("\ncase ")[1:]:
        name, *lines = case.splitlines()
        if "store kept" not in lines and os.path.exists(f"{room}/lines.nest"):
            os.remove(f"{room}/lines.nest")
        given = "".join(line[2:] + "\n" for line in lines if line.startswith("> "))
        wanted = "".join(line[2:] + "\n" for line in lines if line.startswith("< "))
        done = subprocess.run([program, "serve", f"{room}/lines.nest"], input=given, stdout=subprocess.PIPE, text=True)
        bad += done.returncode != 0 or differs(f"case {name}", done.stdout, wanted)
        ran += 1
    print(f"{ran} cases of lines")
    return bad


def main(words):
    if not words:
        with open(CASES, "w") as into:
            into.write(cases())
        return 0
    if words == ["--check"]:
        with open(CASES) as given:
            same = given.read() == cases()
        print("the guide's lines stand in guide.cases" if same else "guide.cases differs: run python3 docs/guide.py")
        return 0 if same else 1
    if len(words) == 2 and words[0] == "--try" and shutil.which(words[1]):
        program = os.path.abspath(shutil.which(words[1]))
        with tempfile.TemporaryDirectory() as room:
            bad = try_shell(program, room) + try_lines(program, room)
        print(f"{bad} differ")
        return 1 if bad else 0
    print("usage: python3 docs/guide.py [--check | --try PROGRAM]", file=sys.stderr)
    return 2


if __name__ == "__main__":
    sys.exit(main(sys.argv[1:]))
