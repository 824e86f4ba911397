#!/usr/bin/env python3
"""Names with more than one meaning: python3 tools/names.py, from anywhere; exit status 1 where it finds one.

A name may be declared once. Declared are: definitions, types and constructors of specs/, public ones of proofs/, and the functions, types,
variants and constants of src/. Beside these
  - a private name of proofs/ may not be one of them, but two private ones may be alike;
  - a field may not be one of them, but two fields may be alike: a field is read through its record;
  - a definition may have the name of the one function whose promise cites it;
  - no name of specs/ and proofs/ may be one that the toolchain's library has in a module that this repository uses, or in its core; of the arithmetic
    tactic's module, only what is used counts.
What stands in two places for one thing is listed in tools/names.txt, with the thing."""
import collections
import glob
import itertools
import os
import re
import subprocess
import sys

root = os.path.dirname(os.path.dirname(os.path.abspath(__file__)))
os.chdir(root)


def of_antt(path):
    """The declarations of a file: name, kind (def, field or private), line."""
    block = None
    for number, line in enumerate(open(path, encoding="utf-8"), 1):
        body = line.split("--")[0].rstrip()
        if not body:
            continue
        indent = len(body) - len(body.lstrip())
        head = re.match(r"\s*(pub )?(record|data) ([^\s:(){}]+)", body)
        if head:
            block = (head.group(2), indent)
            yield head.group(3), "def" if head.group(1) else "private", number
            continue
        if block and indent > block[1]:
            if indent == block[1] + 2:
                names = re.match(r"\s*(?:pub )?([^:(){}=]+?) : ", body)
                for name in names.group(1).split() if names else []:
                    yield name, "def" if block[0] == "data" else "field", number
            continue
        block = None
        one = re.match(r" {0,2}((?:(?:abbrev|unfoldable|pub) )*)([^\s:(){}.,;]+) : ", body)
        if one:
            yield one.group(2), "def" if "pub" in one.group(1) else "private", number


def of_rt(path):
    block = None
    lines = open(path, encoding="utf-8").read().split("\n")
    for number, line in enumerate(lines, 1):
        item = re.match(r'(?:pub )?(?:extern "C" )?(fn|struct|enum|const) (\w+)', line)
        if item:
            block = item.group(1)
            clauses = itertools.takewhile(lambda l: l.strip() != "{", lines[number:])
            own = block == "fn" and any(re.search(rf"ensures .*\b{item.group(2)}\b", l) for l in clauses)
            yield item.group(2), "own" if own else "def", number
        variant = re.match(r"    ([A-Z]\w*)", line)
        if block == "enum" and variant:
            yield variant.group(1), "def", number


ours = collections.defaultdict(list)
for path in sorted(glob.glob("crates/*/specs/**/*.antt", recursive=True) + glob.glob("crates/*/proofs/**/*.antt", recursive=True)):
    for name, kind, number in of_antt(path):
        if kind == "field" and "/proofs/" in path:
            continue
        if path.endswith(("/Answers.antt", "/Invariants.antt")):  # a function's own proof: what it exports is cited by nobody
            kind = "private"
        ours[name].append((kind, f"{path}:{number}"))
for path in sorted(glob.glob("crates/*/src/**/*.rt", recursive=True)):
    for name, kind, number in of_rt(path):
        ours[name].append((kind, f"{path}:{number}"))

same = set()
for line in open("tools/names.txt", encoding="utf-8"):
    line = line.split("#")[0].strip()
    if line:
        names, _, thing = line.partition(":")
        assert thing.strip(), f"tools/names.txt: {line}: what is it?"
        same.update(names.split())

found = 0


def report(name, *places):
    global found
    found += 1
    print(name, *places, sep="\n    ")


for name in sorted(ours):
    kinds = [kind for kind, _ in ours[name]]
    if kinds.count("own") == 1 and sum("/specs/" in place for _, place in ours[name]) == 1:
        kinds.remove("own")
    kinds = ["def" if kind == "own" else kind for kind in kinds]
    declared = kinds.count("def")
    if name not in same and (declared > 1 or declared == 1 and len(kinds) > 1):
        report(name, *(f"{place} ({kind})" for kind, place in ours[name]))
for name in sorted(same):
    if len(ours.get(name, [])) < 2:
        report(name, "tools/names.txt lists it, and it stands in one place or none")

# The library: the modules that are used here, and the core.
library = os.path.join(os.path.dirname(subprocess.run(["rt", "doc"], capture_output=True, text=True, check=True).stdout.strip()), "rattle")
homes = {"mathlib": "antt/port/mathlib/src", "lib": "logic/Lib", "native": "antt/lib/native/src"}
files = {f"{library}/antt/port/mathlib/src/Core/{name}.antt" for name in ("Path", "Bool", "Option", "List", "Logic")}
for path in glob.glob("crates/**/*.antt", recursive=True) + glob.glob("crates/**/*.rt", recursive=True):
    for module in re.findall(r"^(?:ghost )?use ([\w.]+)\.\{", open(path, encoding="utf-8").read(), re.M):
        home, _, rest = module.partition(".")
        if home in homes and rest != "Mathlib.Omega":
            files.add(f"{library}/{homes[home]}/{rest.replace('.', '/')}.antt")
theirs = {}
for path in sorted(filter(os.path.exists, files)):
    for name, kind, number in of_antt(path):
        if kind == "def":
            theirs.setdefault(name, f"{os.path.relpath(path, library)}:{number}")
assert len(theirs) > 300, "the library was not found"
for name in sorted(set(ours) & set(theirs)):
    for kind, place in ours[name]:
        if kind != "field" and "/src/" not in place:
            report(name, f"{place} ({kind})", f"the library's {theirs[name]}")

declared = sum(1 for name in ours if any(kind in ("def", "own") for kind, _ in ours[name]))
print(f"{declared} names declared, {len(same)} of them in two places for one thing; {len(theirs)} names of the library; {found} with two meanings")
sys.exit(1 if found else 0)
