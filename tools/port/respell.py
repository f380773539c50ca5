#!/usr/bin/env python3
"""Brings the names of this repository's own definitions and lemmas to Rattle's spelling: snake case in place of camel case.

usage: respell.py [--check] [FOLDER]      FOLDER: the top of the repository, '.' if left out

    letterOrDigit -> letter_or_digit, is-formedBy -> is-formed_by, statementOf' -> statement_of'

It goes over the .rt and .antt files below crates/, once, after port.py. Types, modules and constructors that begin with a capital keep
their names, and so do strings, functions of src/ and names that another library declares. A lemma whose name (as port.py wrote it)
would fall together with a definition gets its dash back: the lemma run_end beside the definition runEnd becomes run-end, and the
definition run_end.
--check writes nothing, and lists what would fall together.
"""

import glob
import os
import re
import sys

WORD = r"[^\s`(){}.;,@\"«»\[\]\\]+"
TOKEN = re.compile(r"\"(?:[^\"\\\n]|\\.)*\"|b?'(?:[^'\\\n]|\\.)'|" + WORD + r"|.", re.S)
DECLARED = re.compile(r"(?m)^ *(?:(?:pub|abbrev|unfoldable) )*(" + WORD + r") : ")


def snake(name):
    def part(p):
        if not re.match("[a-z]", p):
            return p
        return re.sub(r"([a-z0-9])([A-Z])", lambda m: m.group(1) + "_" + m.group(2).lower(), p)

    return re.sub(r"[A-Za-z0-9_]+", lambda m: part(m.group(0)), name)


def bare(text):
    return re.sub(r"--[^\n]*|//[^\n]*|\"(?:[^\"\\\n]|\\.)*\"", "", text)


def main(argv):
    check = "--check" in argv
    root = next((a for a in argv if not a.startswith("-")), ".")
    files = [f for f in glob.glob(os.path.join(root, "crates/**/*"), recursive=True) if f.endswith((".antt", ".rt")) and "/out/" not in f]
    texts = {f: open(f, encoding="utf-8").read() for f in files}
    own_crates = {os.path.basename(c) for c in glob.glob(os.path.join(root, "crates/*"))}
    foreign, camel, declared = set(), set(), set()
    for f, t in texts.items():
        b = bare(t)
        for path, names in re.findall(r"use ([^\s{]+)\.\{([^}]*)\}", b):
            top = re.match(r"Rattle\.(\w+)", path)
            if not (top and top.group(1) in own_crates | {"good_decks_stub"}):
                foreign |= {n.strip().split(" as ")[0] for n in names.split(",")}
        camel |= {w for w in re.findall(WORD, b) if "::" not in w and snake(w) != w}
        if f.endswith(".antt"):
            declared |= set(DECLARED.findall(b))
    camel -= foreign
    new = {w: snake(w) for w in camel}
    # a lemma that would fall together with a definition gets its dash back
    back = {s: s.replace("_", "-") for s in new.values() if s in declared}
    for w, s in sorted(new.items()):
        if s in back:
            print(f"together: {w} and {s}: {s} becomes {back[s]}")
    for f, t in texts.items():
        if f.endswith(".rt"):
            params = set(re.findall(r"\b(\w+): ", bare(t)))
            for w in set(re.findall(WORD, bare(t))) & camel:
                if new[w] in params:
                    print(f"look: {f}: {new[w]} is a parameter, a field or a local too")
    if check:
        return 0
    for f, t in texts.items():
        out = []
        for m in TOKEN.finditer(t):
            w = m.group(0)
            if w in new:
                w = new[w]
            elif w in back and f.endswith(".antt") and not re.match(r"\.([A-Z]|ensures|result|new)", t[m.end() :]):
                w = back[w]
            out.append(w)
        u = "".join(out)
        if u != t:
            with open(f, "w", encoding="utf-8") as it:
                it.write(u)
    return 0


if __name__ == "__main__":
    raise SystemExit(main(sys.argv[1:]))
