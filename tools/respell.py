#!/usr/bin/env python3
"""Brings the names of this repository's own definitions and lemmas, and of what a file imports under another name, to one spelling.

usage: python3 tools/respell.py        at the top of the repository, once, after the language's own script

A definition, lemma, record field or constructor is in snake case; a type, and a statement, which is a type, is in upper camel case.
A name keeps its words. Names that Rattle makes of the source (goals, loops, conditions, clauses) have dashes of their own and stay.
A .rt file is read like the others: no name of Rust has a dash, so only its ghost lines and clauses can change. Of a comment only what
stands between backticks is read.
"""

import os
import re
import sys

NAME = r"[A-Za-zα-ωΑ-Ω][A-Za-z0-9_'α-ωΑ-Ωℓ]*(?:-[A-Za-z0-9_'α-ωΑ-Ωℓ]+)+"
TOKEN = re.compile(r"(?<![\w'\-◌])" + NAME + r"(?![\w'◌])")
DECLARED = re.compile(r"^\s*(?:(?:pub|abbrev|unfoldable|private|opaque|tactic|record|data|ghost)\s+)*(" + NAME + r")\s*(?:[:({]|$)")
ALIAS = re.compile(r" as (" + NAME + r")(?=[,};])")
MADE = re.compile(r"^use Rattle\.\w+\.proofs\.[^{]*\.(?:Goals|Given)(?:\.\{([^}]*)\}| as (\w+))", re.M)


# A name whose plain respelling another thing in its crate has already, and the one that it gets.
APART = {
    "All-digits": "DigitsOnly",
    "Even-exists": "EvenSidesExist",
    "decimals-stand": "decimals_stand_lem",
    "one-meaning": "one_meaning_lem",
    "settling-ends": "settling_ends_lem",
    "standing-pairs": "standing_count",
    "store-number": "store_fault_number",
    "table-layer": "table_fault_layer",
    "table-number": "table_fault_number",
}
# A name that some Rust function has too, in another module: nothing falls together.
BESIDE = {"add_to_post", "bus_limit", "by_post", "drop_even", "drop_over", "few_buses", "few_posts", "pair_file"}
# Names of the library that begin a line in some file, where they look like a declaration.
LIBRARY = {"cond-false", "ltb-true", "lt-ltb", "length-append", "get_or-take"}


def files(root, endings):
    for folder, dirs, names in os.walk(os.path.join(root, "crates")):
        dirs[:] = sorted(d for d in dirs if d not in ("out", ".git"))
        for name in sorted(names):
            if name.endswith(endings):
                yield os.path.join(folder, name)


def read(path):
    with open(path, encoding="utf-8") as f:
        return f.read()


def made_names(text):
    """What a proof file answers or imports of the names that Rattle makes."""
    made, aliases = set(), set()
    for m in MADE.finditer(text):
        if m.group(1):
            made.update(re.findall(NAME, m.group(1)))
        else:
            aliases.add(m.group(2))
    for a in aliases:
        made.update(re.findall(r"(?<![\w'\-])" + a + r"\.(" + NAME + ")", text))
    return made


def respelt(name):
    if name in APART:
        return APART[name]
    parts = name.split("-")
    if name[0].isupper():
        return "".join(p[:1].upper() + p[1:] for p in parts)
    return "_".join(parts)


def code_and_comment(line, mark):
    at = line.find(mark)
    return (line, "") if at < 0 else (line[:at], line[at:])


def main(root):
    names, made_by_file = {}, {}
    for path in files(root, (".antt",)):
        text = read(path)
        made = made_by_file[path] = made_names(text)
        for line in text.split("\n"):
            m = DECLARED.match(code_and_comment(line, "--")[0])
            if m and m.group(1) not in made and m.group(1) not in LIBRARY:
                names.setdefault(m.group(1), path)
    for path in files(root, (".antt", ".rt")):
        for line in read(path).split("\n"):
            if re.match(r"(?:ghost )?use ", line):
                for m in ALIAS.finditer(line):
                    names.setdefault(m.group(1), path)
    new = {n: respelt(n) for n in names}
    everything = "\n".join(read(p) for p in files(root, (".antt", ".rt")))
    taken = set(re.findall(r"[A-Za-zα-ωΑ-Ω][\w'α-ωΑ-Ωℓ]*", everything))
    together = {}
    for n, to in new.items():
        together.setdefault(to, []).append(n)
    bad = {to: ns for to, ns in together.items() if len(ns) > 1 or to in taken and to not in BESIDE}
    for to, ns in sorted(bad.items()):
        print(f"names fall together: {', '.join(ns)} and {to}" if to in taken else f"names fall together: {', '.join(ns)}", file=sys.stderr)
    if "--list" in sys.argv:
        for n, to in sorted(new.items()):
            print(n, to, os.path.relpath(names[n], root))
        return
    for path in files(root, (".antt", ".rt")):
        made = made_by_file.get(path, set())
        mark = "--" if path.endswith(".antt") else "//"

        def word(m):
            n, before = m.group(0), m.string[:m.start()]
            # a step of a function's code, by the name that Rattle makes
            step = path in made_by_file and re.search(r"/proofs/.*/", path) and re.search(r"(?<![\w'])c\.$", before)
            return new[n] if n in new and n not in made and not step else n

        lines = []
        for line in read(path).split("\n"):
            code, comment = code_and_comment(line, mark)
            comment = re.sub(r"`[^`]*`", lambda q: TOKEN.sub(word, q.group(0)), comment)
            lines.append(TOKEN.sub(word, code) + comment)
        text = "\n".join(lines)
        if text != read(path):
            with open(path, "w", encoding="utf-8") as f:
                f.write(text)


main(os.path.abspath("."))
