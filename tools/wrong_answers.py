#!/usr/bin/env python3
"""Tries wrong answers outside the gate: python3 tools/wrong_answers.py [--out FILE] [LIST [CRATE..]]
or reads what the gate's own edits met: python3 tools/wrong_answers.py [--out FILE] --gate LOG

LIST (tools/wrong_answers.txt where none is named) has records of the form of a must-fail edit, each under a line
    CRATE NAME
and divided by blank lines; lines that begin with # are for the reader. The repository is copied, with what is proved of it, and the prover
tries each edit on the copy: it must refuse it. For each edit the first error is printed, cut short, so that it can be read whether a fact no
longer holds, or only a name or a shape. An error that shows only a name or a shape is marked `SHAPE`. The last line has the figures, and
with --out the whole is written to a file. Exit status 0 where each is refused, and by a fact.

With --gate nothing is tried: LOG is what `rt ci` or `rt must-fail` printed, and the first error of each must-fail edit there is printed in
the same form."""
import glob
import os
import re
import shutil
import subprocess
import sys
import tempfile

root = os.path.dirname(os.path.dirname(os.path.abspath(__file__)))
words = sys.argv[1:]
out = None
if words[:1] == ["--out"]:
    out, words = words[1], words[2:]
gate = words[1] if words[:1] == ["--gate"] else None
path = words[0] if words else os.path.join(root, "tools", "wrong_answers.txt")
only = set(words[1:])

records = []
text = "" if gate else re.sub(r"^#.*\n", "", open(path, encoding="utf-8").read(), flags=re.M)
for record in filter(None, re.split(r"\n\s*\n", text.strip())):
    head, _, body = record.partition("\n")
    crate, name = head.split()
    if not only or crate in only:
        records.append((crate, name, body + "\n"))
assert len({(crate, name) for crate, name, _ in records}) == len(records), "a name stands twice"

SHAPES = re.compile(r"has no `|: record `|not in scope|is no item|has no field|mismatched types|no such|unknown|cannot find|is already declared|expected `.*Proof")
# What rt prints of an edit that is refused: the first error, cut short.
REFUSED = r"must-fail (\S+)/(\S+?)\.edit: refused, as it must be: (?:\./)?(.*)"


def told(error):
    """The first error in a line, and whether it is one of a name or a shape."""
    return error[:240], bool(SHAPES.search(error))


def finish(lines, tried, refused, shapes):
    lines.append(f"{tried} wrong answers, {refused} refused, {shapes} of them by a name or a shape")
    result = "\n".join(lines) + "\n"
    print(result, end="")
    if out:
        with open(out, "w", encoding="utf-8") as file:
            file.write(result)
    sys.exit(0 if refused == tried and not shapes else 1)


if gate:
    lines, shapes = [], 0
    for crate, name, error in sorted(set(re.findall(REFUSED, open(gate, encoding="utf-8", errors="replace").read()))):
        error, shape = told(error)
        shapes += shape
        lines.append(f"{crate}/{name}: {'SHAPE: ' if shape else ''}{error}")
    finish(lines, len(glob.glob(os.path.join(root, "crates", "*", "must-fail", "*.edit"))), len(lines), shapes)

with tempfile.TemporaryDirectory() as copy:
    tree = os.path.join(copy, "tree")
    shutil.copytree(root, tree, ignore=shutil.ignore_patterns(".git", "must-fail", "target"), symlinks=True)
    for crate, name, body in records:
        folder = os.path.join(tree, "crates", crate, "must-fail")
        os.makedirs(folder, exist_ok=True)
        with open(os.path.join(folder, name + ".edit"), "w", encoding="utf-8") as edit:
            edit.write(body)
    crates = sorted({crate for crate, _, _ in records})
    run = subprocess.run(["rt", "must-fail", *crates], cwd=tree, capture_output=True, text=True, check=False)
    said = run.stdout + run.stderr
    met = {(crate, name): error for crate, name, error in re.findall(REFUSED, said)}
    lines, refused, shapes = [], 0, 0
    for crate, name, _ in records:
        if (crate, name) not in met:
            other = re.search(rf"^.*must-fail {re.escape(crate)}/{re.escape(name)}\b.*$", said, re.M)
            lines.append(f"{crate}/{name}: NOT REFUSED: {other.group(0) if other else 'it was not tried'}")
            continue
        refused += 1
        error, shape = told(met[crate, name])
        shapes += shape
        lines.append(f"{crate}/{name}: {'SHAPE: ' if shape else ''}{error}")
    if not refused:
        lines.append(said[-2000:])
finish(lines, len(records), refused, shapes)
