#!/usr/bin/env python3
"""Brings the repository's own definitions, lemmas and fields to snake case.

usage: python3 tools/snake.py [--dry]      at the top of the repository

Names that specs/ and proofs/ declare are respelled wherever they stand: in specs/, proofs/, the clauses of src/ and
must-fail edits. Left alone are types and modules, names of Rust code, strings and comments, names that the checker
makes, and names of other libraries.
"""

import collections
import os
import re
import sys

DECLARED = re.compile(r"^(\s*)(?:abbrev |unfoldable |pub |private )*([^\s(){}\[\],;.:«»]+)\s*(?:[({].*)?:(?:\s|$)")
ALIAS = re.compile(r" as ([a-z]\w*)(?=[,}])")
HEAD = re.compile(r"^\s*(?:abbrev |unfoldable |pub )*(?:record|data) ")
TOKEN = re.compile(r"[^\s(){}\[\],;.«»\"`]+")
WORDS = {"let", "in", "use", "mod", "module", "where", "elim", "open", "λ", "|", "→", "∙", "=", "--"}
# names that would fall together with another: the words of the lemma say more
APART = {"no_value": "no_value_above", "bit-and": "bit_and_lem", "bit-or": "bit_or_lem", "get_or-eq_default": "get_or-eq_default"}
MADE = {"Answers.antt", "Invariants.antt", "Proof.antt", "Given.antt", "Choices.antt"}


def files(top, *endings):
    for folder, dirs, names in os.walk(os.path.join(top, "crates")):
        dirs[:] = sorted(d for d in dirs if d != "out")
        for n in sorted(names):
            if n.endswith(endings):
                yield os.path.join(folder, n)


def snake(name):
    return re.sub(r"(?<=[a-z0-9'])([A-Z])", r"_\1", name.replace("-", "_")).lower()


def old(name):
    return re.match(r"[a-z]", name) and re.search(r"[a-z0-9][A-Z]|[a-z0-9']-[a-z0-9]", name)


def declared(top):
    """The own names in an older spelling, and those of them that are fields of records."""
    names, fields = set(), set()
    for path in files(top, ".antt", ".rt"):
        names.update(n for n in ALIAS.findall(open(path, encoding="utf-8").read()) if old(n))
    for path in files(top, ".antt"):
        if os.path.basename(path) in MADE and os.path.basename(os.path.dirname(path)) not in ("specs", "proofs"):
            continue
        head = None
        for line in open(path, encoding="utf-8"):
            deep = len(line) - len(line.lstrip())
            if HEAD.match(line):
                head = deep
            elif line.strip() and head is not None and deep <= head:
                head = None
            m = DECLARED.match(line)
            if m and m.group(2) not in WORDS and old(m.group(2)):
                names.add(m.group(2))
                if head is not None:
                    fields.add(m.group(2))
    return names, fields


def made(top):
    """Names that the checker makes, as answers cite them."""
    found = set()
    for path in files(top, ".antt"):
        text = open(path, encoding="utf-8").read()
        found.update(re.findall(r"\b(?:goal|given)\.([^\s(){}\[\],;.]+)", text))
        for group in re.findall(r"\.(?:Goals|Given)\.\{([^}]*)\}", text):
            found.update(x.strip() for x in group.split(","))
    return found


def respelled(text, table, fields, comment):
    out = []
    for line in text.split("\n"):
        cut = line.find(comment)
        code, rest = (line, "") if cut < 0 else (line[:cut], line[cut:])
        parts = re.split(r'("(?:[^"\\]|\\.)*")', code)
        for i in range(0, len(parts), 2):
            parts[i] = TOKEN.sub(lambda m: spelling(m, table, fields), parts[i])
        out.append("".join(parts) + rest)
    return "\n".join(out)


def spelling(m, names, fields):
    t = m.group(0)
    after_dot = m.string[: m.start()].endswith(".")
    if after_dot and t not in fields:
        return t
    return names.get(t, t)


def main():
    top = os.getcwd()
    names, fields = declared(top)
    both = names & made(top)
    if both:
        print("made by the checker too, left:", " ".join(sorted(both)))
    names -= both
    fields -= both
    taken = collections.defaultdict(set)
    for n in names:
        taken[snake(n)].add(n)
    table = {n: snake(n) for n in names}
    for new, olds in sorted(taken.items()):
        # a lemma beside the definition that it is about
        if len(olds) > 1:
            for lemma in (n for n in olds if "-" in n):
                table[lemma] = new + "_lem"
            print("fall together:", *(f"{n} is {table[n]};" for n in sorted(olds)))
    table |= APART
    seen = collections.defaultdict(set)
    for path in files(top, ".antt", ".rt"):
        for line in open(path, encoding="utf-8"):
            for t in TOKEN.findall(line):
                if t in taken:
                    seen[t].add(os.path.relpath(path, top))
    for t, places in sorted(seen.items()):
        print("stands already:", t, "from", sorted(taken[t]), "in", len(places), sorted(places)[:4])
    if "--dry" in sys.argv:
        return
    count = 0
    for path in files(top, ".antt", ".rt", ".edit"):
        text = open(path, encoding="utf-8").read()
        new = respelled(text, table, fields, "--" if path.endswith(".antt") else "//")
        if new != text:
            open(path, "w", encoding="utf-8").write(new)
            count += 1
    print(len(table), "names respelled in", count, "files")


main()
