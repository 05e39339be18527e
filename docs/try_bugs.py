#!/usr/bin/env python3
"""Plants the bugs of docs/bugs/CRATE.tsv in the crate, one at a time, and sees that the check refuses each.

They are planted in a copy of the crate and of what it stands on, over what `rt check` kept: run that in the crate once before.
Each takes a quarter of a minute to a minute of one processor. A line says of each whether it was refused, and by what; the exit
status is 1 if one was not.

    python3 docs/try_bugs.py CRATE [BUG ..]             # all of the crate's, or those named
    python3 docs/try_bugs.py --note CRATE [BUG ..]      # writes what refused each into the table besides
    python3 docs/try_bugs.py --places                   # plants none: whether each text of each table stands once

A table has the columns name, file, old, new, refused by: in `file`, a path in the crate, the text `old` becomes `new`. The texts have one
line, and each space of `old` stands for any spaces and ends of lines in the file. Rows of one name are one bug: each changes what
those before it made. The last column is empty where it was not noted what refused the bug.
"""
import os
import re
import shutil
import subprocess
import sys
import tempfile

TOP = os.path.dirname(os.path.dirname(os.path.abspath(__file__)))
TABLES = os.path.join(TOP, "docs", "bugs")


def table_of(crate):
    return os.path.join(TABLES, crate + ".tsv")


def rows_of(crate):
    """The rows of the crate's table: name, file, old, new, refused by. The first is the table's head."""
    with open(table_of(crate), encoding="utf-8") as table:
        rows = [line.rstrip("\n").split("\t") for line in table]
    wrong = [number for number, row in enumerate(rows, 1) if len(row) != 5]
    if wrong:
        sys.exit("%s, line %d: a row has five columns" % (table_of(crate), wrong[0]))
    return rows


def bugs_of(crate):
    """The crate's bugs by their names: for each its changes, a file, old and new."""
    bugs = {}
    for name, file, old, new, _ in rows_of(crate)[1:]:
        bugs.setdefault(name, []).append((file, old, new))
    return bugs


def planted(folder, changes):
    """The texts of the files that the changes make, by their paths in the crate, or why one can't be made."""
    texts = {}
    for file, old, new in changes:
        if file not in texts:
            with open(os.path.join(folder, file), encoding="utf-8") as it:
                texts[file] = it.read()
        whole = texts[file]
        places = list(re.finditer(r"\s+".join(map(re.escape, old.split())), whole))
        if len(places) != 1:
            return None, "the text stands %d times in %s, and not once: %s" % (len(places), file, old)
        texts[file] = whole[: places[0].start()] + new + whole[places[0].end() :]
    return texts, ""


def with_below(crate):
    """The lines of crates.txt for the crate and those that it stands on, by name."""
    lines = {}
    with open(os.path.join(TOP, "crates.txt"), encoding="utf-8") as page:
        for line in page:
            name, colon, below = line.partition(":")
            if colon and not line.startswith("#"):
                lines[name] = below.split()
    found, left = {}, [crate]
    while left:
        name = left.pop()
        if name in lines and name not in found:
            found[name] = lines[name]
            left += lines[name]
    return found


def linked(source, to):
    try:
        os.link(source, to)
    except OSError:
        shutil.copy2(source, to)


def copied(crate, room):
    """Copies the crate, and links what it stands on, which no check writes over."""
    below = with_below(crate)
    if not below:
        sys.exit("crates.txt names no crate " + crate)
    with open(os.path.join(room, "crates.txt"), "w", encoding="utf-8") as page:
        page.writelines("%s: %s\n" % (name, " ".join(uses)) for name, uses in below.items())
    for name in below:
        how = shutil.copy2 if name == crate else linked
        shutil.copytree(os.path.join(TOP, "crates", name), os.path.join(room, "crates", name), copy_function=how)
    return os.path.join(room, "crates", crate)


def written(folder, texts):
    for file, text in texts.items():
        with open(os.path.join(folder, file), "w", encoding="utf-8") as it:
            it.write(text)


def refused(folder, changes):
    """Whether the check refuses the crate with the bug, and what to say."""
    texts, why = planted(folder, changes)
    if texts is None:
        return False, why
    was = {}
    for file in texts:
        with open(os.path.join(folder, file), encoding="utf-8") as it:
            was[file] = it.read()
    written(folder, texts)
    ran = subprocess.run(["rt", "check"], cwd=folder, stdout=subprocess.PIPE, stderr=subprocess.STDOUT, text=True, errors="replace")
    written(folder, was)
    said = ran.stdout.rstrip().split("\n")
    verdict = next((it for it in reversed(said) if it.startswith("logic=")), "")
    if ran.returncode == 0:
        return False, "NOT REFUSED"
    if not verdict.startswith("logic=not-proved"):
        return False, "the bug did not reach the prover: " + said[-1][:200]
    return True, next((it for it in said if ": not proved" in it or ": error: " in it), verdict)[:200]


def note(crate, name, why):
    """Writes into the crate's table what refused a bug."""
    rows = rows_of(crate)
    with open(table_of(crate), "w", encoding="utf-8") as table:
        for row in rows:
            own = row[:4] + [" ".join(why.split())] if row[0] == name and row is not rows[0] else row
            table.write("\t".join(own) + "\n")


def places():
    """Says which bug can't be planted, of all tables, and how many there are."""
    bad = all_of_them = 0
    for file in sorted(os.listdir(TABLES)):
        crate = file[: -len(".tsv")]
        for name, changes in bugs_of(crate).items():
            texts, why = planted(os.path.join(TOP, "crates", crate), changes)
            all_of_them += 1
            if texts is None:
                bad += 1
                print("%s/%s: %s" % (crate, name, why))
    print("%d bugs, %d of them can't be planted" % (all_of_them, bad))
    return 1 if bad else 0


def main():
    words = sys.argv[1:]
    if words == ["--places"]:
        return places()
    is_noted = words[:1] == ["--note"]
    words = words[1:] if is_noted else words
    if not words or not os.path.isfile(table_of(words[0])):
        sys.exit(__doc__)
    crate, names = words[0], words[1:]
    bugs = bugs_of(crate)
    lacking = set(names) - set(bugs)
    if lacking:
        sys.exit("no such bugs of %s: %s" % (crate, " ".join(sorted(lacking))))
    tried = names or list(bugs)
    failed = 0
    with tempfile.TemporaryDirectory(prefix="bugs-") as room:
        folder = copied(crate, room)
        for name in tried:
            is_refused, why = refused(folder, bugs[name])
            failed += not is_refused
            print("%s/%s: %s" % (crate, name, "refused: " + why if is_refused else why), flush=True)
            if is_refused and is_noted:
                note(crate, name, why)
    print("%d refused, %d not" % (len(tried) - failed, failed))
    return 1 if failed else 0


if __name__ == "__main__":
    sys.exit(main())
