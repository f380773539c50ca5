#!/usr/bin/env python3
"""Which lemmas of crates/*/proofs differ between two trees.

    tools/design/lemmas.py OLD NEW            names of what is gone, by module
    tools/design/lemmas.py OLD NEW --changed  old and new statement of what is restated

OLD and NEW are roots of two checkouts. A statement is what stands behind the name's
colon, with the parameters of the modules around it in front. What is gone and has its
statement elsewhere is shown with the place.
"""
import collections
import pathlib
import re
import sys

MODULE = re.compile(r"^(\s*)module _ (.*)$")
PUBLIC = re.compile(r"^(\s*)(?:abbrev )?pub ([^\s:]+) : (.*)$")


def indent(line):
    return len(line) - len(line.lstrip())


def statements(root):
    """(crate, module, name) -> statement, for each public name of proofs/."""
    found = {}
    for path in sorted(pathlib.Path(root).glob("crates/*/proofs/*.antt")):
        crate, module = path.parts[-3], path.stem
        lines = path.read_text().split("\n")
        around, i = [], 0
        while i < len(lines):
            line = lines[i]
            opens, public = MODULE.match(line), PUBLIC.match(line)
            if opens:
                text = line.strip()
                while not text.endswith("where") and i + 1 < len(lines):
                    i += 1
                    text += " " + lines[i].strip()
                around = [c for c in around if c[0] < indent(line)]
                around.append((indent(line), text[len("module _ "):-len(" where")]))
            elif public:
                depth, text, j = indent(line), public.group(3), i + 1
                while j < len(lines) and lines[j].startswith(" " * (depth + 1)) and not lines[j].lstrip().startswith("unfolding"):
                    text += " " + lines[j].strip()
                    j += 1
                if depth == 0:
                    around = []
                held = [c[1] for c in around if c[0] < depth]
                found[crate, module, public.group(2)] = re.sub(r"\s+", " ", " ".join(held + [text]))
            i += 1
    return found


def main():
    old, new = statements(sys.argv[1]), statements(sys.argv[2])
    if "--changed" in sys.argv:
        for key in sorted(old):
            if key in new and old[key] != new[key]:
                print("/".join(key[:2]) + " " + key[2])
                print("  old " + old[key])
                print("  new " + new[key])
        return
    places = {text: key for key, text in new.items()}
    gone = collections.defaultdict(list)
    for key in sorted(old):
        if key not in new:
            at = places.get(old[key])
            gone["/".join(key[:2])].append(key[2] + (" (is " + "/".join(at) + ")" if at else ""))
    for module, names in gone.items():
        print(module + ": " + ", ".join(names))
    print(sum(map(len, gone.values())), "gone of", len(old), "; now", len(new))


main()
