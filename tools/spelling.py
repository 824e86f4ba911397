#!/usr/bin/env python3
"""Brings the names of definitions and lemmas to one spelling: python3 tools/spelling.py, once, from anywhere, over what the port's scripts left.

In specs/, proofs/ and the clauses of src/, a name that begins in lower case and has a capital inside (howMany) is written in snake case (how_many), and the dash of a lemma
(sorted-keep) is an underscore, as in the names that the port's scripts turned. A dash beside the name of a type stays (Each-append). A lemma that would have the name of
a definition, a constructor, a field or a function, gets `_lem`. Names that the toolchain makes for the goals of a function, and those of its library, stay as they are.
The edits in must-fail/ get the same names. With --names the pairs are printed and nothing is written."""
import collections
import glob
import os
import re
import sys

root = os.path.dirname(os.path.dirname(os.path.abspath(__file__)))
os.chdir(root)
crates = [re.split(r"[ :]", line)[0] for line in open("crates.txt", encoding="utf-8") if line.strip() and not line.startswith("#")]

# A name: what stands between these.
PARTS = re.compile(r"([^\s(){}\[\];,.:=λ`\"']+'*)")
CAMEL = re.compile(r"^[a-z][A-Za-z0-9]*[A-Z]")
SIGNATURE = re.compile(r"^(\s*)((?:pub |abbrev |unfoldable |pattern )*)((?:[^\s:(){}=;.,]+ )*[^\s:(){}=;.,]+)(?: \{[^}]*\})? :(?= |$)")
OWN = re.compile(r"^(?:ghost )?use Rattle\.(?:%s)\." % "|".join(crates))
LIBRARY = re.compile(r"^(?:ghost |pub )?use (?:Prim|mathlib|lib|native|borrow|denote|mir|logic|Rattle\.std)\b")


def snake(name):
    name = re.sub(r"([a-z0-9₀-₉])([A-Z])", r"\1_\2", name)
    name = re.sub(r"([A-Z])([A-Z][a-z])", r"\1_\2", name)
    return name.lower()


def respelled(name):
    """The name in the one spelling, before names that fall together are told apart."""
    parts = []
    for part in name.split("-"):
        parts.append(snake(part) if CAMEL.match(part) else part)
    out = parts[0]
    for a, b in zip(parts, parts[1:]):
        out += ("-" if not a or not b or a[:1].isupper() or b[:1].isupper() else "_") + b
    return out


def files(pattern):
    return sorted(p for p in glob.glob(f"crates/*/{pattern}", recursive=True) if os.path.isfile(p) and "/out/" not in p)


def walked(path):
    """A proof that walks a function's code: most of its dashes are in names that the toolchain made."""
    return path.endswith("/Proof.antt")


def statements(text):
    """The use lines of a file, each on one line."""
    return re.findall(r"^\s*((?:ghost |pub )*use [^{\n;]*(?:\{[^}]*\})?)", text, re.M)


def listed(line):
    return re.findall(r"[^\s,{}]+", line[line.index("{"):]) if "{" in line else []


def code_and_comment(line):
    found = re.search(r"(^|\s)--(\s|$)", line)
    return (line, "") if not found else (line[:found.start()], line[found.start():])


def declared(path, text):
    block = None
    for line in text.splitlines():
        body = code_and_comment(line)[0].rstrip()
        if not body.strip():
            continue
        indent = len(body) - len(body.lstrip())
        head = re.match(r"\s*(?:pub )?(record|data) ([^\s:(){}]+)", body)
        if head:
            block = (head.group(1), indent)
            yield head.group(2), head.group(1)
            continue
        if block and indent <= block[1]:
            block = None
        if re.match(r"\s*(let|use|ghost|in|unfolding|elim|module|λ|where|\|)\b", body):
            continue
        found = SIGNATURE.match(body)
        if found:
            for name in found.group(3).split():
                yield name, ("field" if block[0] == "record" else "constructor") if block else "definition"


antt = files("specs/**/*.antt") + files("proofs/**/*.antt")
rt = files("src/**/*.rt")
text = {p: open(p, encoding="utf-8").read() for p in antt + rt}
library = {n for p in antt + rt for line in statements(text[p]) if LIBRARY.match(line) for n in listed(line)}
functions = {n for p in rt for n in re.findall(r"\b(?:fn|const|struct|enum|mod|type) ([A-Za-z_0-9]+)", text[p])}

# What each name of the repository becomes: words first, then lemmas, which give way.
names = collections.defaultdict(set)
for p in antt:
    for name, kind in declared(p, text[p]):
        if not walked(p) or "-" not in name:
            names[name].add(kind)
taken = {respelled(n) for n in names if "-" not in n} | library
new = {}
for name in sorted(names):
    if name in library or name.startswith("◌"):
        continue
    to = respelled(name)
    if to != name and "-" in name and "-" not in to and (to in taken or to in functions):
        to += "_lem"
    if to != name:
        new[name] = to
for name in sorted(names):
    if name.startswith("◌"):
        for part in name.split("◌"):
            if CAMEL.match(part):
                new[part] = snake(part)


def imported(path):
    """Names of lemmas that a file takes from the repository."""
    return {n for line in statements(text[path]) if OWN.match(line) for n in listed(line)}


def turned(path, piece, known):
    """A piece of code of a file with its names in the one spelling."""

    def one(found):
        name = found.group(1)
        if name in library:
            return name
        if "◌" in name:
            return "◌".join(new.get(q, snake(q) if CAMEL.match(q) else q) for q in name.split("◌"))
        if "-" in name:
            if walked(path):
                return new.get(name, name) if name in known else "-".join(snake(q) if CAMEL.match(q) else q for q in name.split("-"))
            if name in new:
                return new[name]
            return respelled(name) if re.search(r"[A-Za-z]", name) else name
        return new.get(name, snake(name) if CAMEL.match(name) else name)

    return PARTS.sub(one, piece)


def in_comment(piece):
    return re.sub(r"`([^`\n]*)`", lambda m: "`" + PARTS.sub(lambda n: new.get(n.group(1), snake(n.group(1)) if CAMEL.match(n.group(1)) else n.group(1)), m.group(1)) + "`", piece)


def turned_antt(path):
    known = imported(path)
    out = []
    for line in text[path].split("\n"):
        code, comment = code_and_comment(line)
        if LIBRARY.match(code.strip()):
            out.append(line)
        elif OWN.match(code.strip()):
            head, brace, tail = code.partition("{")
            out.append(head + brace + PARTS.sub(lambda m: new.get(m.group(1), m.group(1)), tail) + comment)
        else:
            out.append(turned(path, code, known) + in_comment(comment))
    return "\n".join(out)


def words_alone(piece):
    return re.sub(r"(?<![A-Za-z0-9_'\"-])([a-z][A-Za-z0-9]*[A-Z][A-Za-z0-9]*)(?![A-Za-z0-9_-])", lambda m: new.get(m.group(1), snake(m.group(1))), piece)


def turned_rt(path):
    out = []
    for line in text[path].split("\n"):
        clause = re.match(r"\s*(ghost |requires|ensures|//)", line)
        out.append(words_alone(line) if clause else line)
    return "\n".join(out)


if "--names" in sys.argv[1:]:
    for name in sorted(new):
        print(name, new[name])
    raise SystemExit(0)
for p in antt + rt:
    done = turned_antt(p) if p.endswith(".antt") else turned_rt(p)
    if done != text[p]:
        with open(p, "w", encoding="utf-8") as f:
            f.write(done)
for p in files("must-fail/*.edit"):
    was = open(p, encoding="utf-8").read()
    done = "\n".join(line if line.startswith("file:") else words_alone(line) for line in was.split("\n"))
    if done != was:
        with open(p, "w", encoding="utf-8") as f:
            f.write(done)
