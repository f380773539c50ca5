#!/usr/bin/env python3
"""places.py [-v] [CRATES]: counts the places in the source that docs/DESIGN-PASS.md speaks of, a line for each point; -v lists them.
CRATES is the folder with the crates (crates/ here if none is given). It reads only src/*.rt, and proofs/ for the last point."""
import pathlib
import re
import sys

verbose = "-v" in sys.argv
folders = [a for a in sys.argv[1:] if a != "-v"]
top = pathlib.Path(folders[0] if folders else "crates")
sources = sorted(top.glob("*/src/*.rt"))


class Function:
    def __init__(self, crate, name, head, body, comment):
        self.crate, self.name, self.head, self.body, self.comment = crate, name, head, body, comment
        inside = head[head.index("(") + 1:]
        inside = inside[:inside.index("\n    ") if "\n    requires" in inside or "\n    ensures" in inside else len(inside)]
        self.parameters = re.findall(r"(?:mut )?(\w+): ([^,()]+(?:\([^)]*\))?)", head[head.index("("):head.index(")", head.index("("))] if "(" in head else "")
        result = re.search(r"\)\s*->\s*([^\n{]+)", head)
        self.result = result.group(1).strip() if result else ""


def functions():
    for path in sources:
        lines = path.read_text().split("\n")
        i = 0
        while i < len(lines):
            started = re.match(r"( *)(?:pub(?:\(crate\))? )?(?:const )?fn (\w+)", lines[i])
            if not started:
                i += 1
                continue
            indent = started.group(1)
            comment = []
            j = i - 1
            while j >= 0 and (lines[j].strip().startswith("//") or lines[j].strip().startswith("#[")):
                comment.insert(0, lines[j].strip())
                j -= 1
            head = []
            while i < len(lines) and lines[i] != indent + "{" and not re.search(r"\{$", lines[i]):
                head.append(lines[i])
                i += 1
            if i < len(lines) and lines[i] != indent + "{":
                head.append(lines[i])
            body = []
            i += 1
            while i < len(lines) and lines[i] != indent + "}":
                body.append(lines[i])
                i += 1
            yield Function(path.parent.parent.name, started.group(2), "\n".join(head), body, " ".join(comment))


all_functions = list(functions())
text = {path.parent.parent.name + "/" + path.name: path.read_text() for path in sources}


def grep(pattern):
    found = []
    for name, whole in text.items():
        for number, line in enumerate(whole.split("\n"), 1):
            code = line.split("//")[0] if not line.strip().startswith("//") else ""
            if re.search(pattern, code):
                found.append(f"{name}:{number}: {line.strip()}")
    return found


def by_functions(test):
    return [f"{f.crate}::{f.name}" for f in all_functions if test(f)]


OPTION_OR_RESULT = r"^(?:pub )?enum (Number|Pair|Case|Given|Divided|Read|Numbered|Put|Formed|Left|Translated|Related|Condition|Referred|Known|Typed|Cut|Part|Whole|Checked|Found|Order)\b"
CODES = {"word", "does", "set", "kind", "table", "halt", "number", "place", "sign"}

points = [
    ("1a", "own enums of the shape of Option, Result or Ordering", grep(OPTION_OR_RESULT)),
    ("1b", "structs with a flag or a number that says whether the rest counts", grep(r"^pub struct (Taken|Stepped)\b")),
    ("1c", "parameters and fields that are a number for a word, kind, refusal or place", grep(r"^\s*(?:pub )?(word|does|set|kind|table|halt|place): (?:u8|usize)\b")
     + [f"{f.crate}::{f.name}({n}: {t})" for f in all_functions for n, t in f.parameters if "\n" not in f.head.split("(")[1].split(")")[0] and n in CODES and t.strip() in ("u8", "usize")]),
    ("1d", "functions that answer a number for a word, kind or refusal", by_functions(lambda f: f.result in ("u8", "usize") and re.search(r"fault|kind_at|kind_of|slot_kind|set_kind|type_of|fn word\b|number$|fault_of", f.head.split("(")[0]))),
    ("1e", "functions that answer a sentinel, by their comment", by_functions(lambda f: f.result in ("u8", "usize") and re.search(r"(?:\b0|16|255|254|4) (?:where|if|for|behind)|else 0\b|or (?:how many there are|the number of rows)|end where (?:it|there) (?:stands nowhere|is none)|past the (?:operand|field)'s end where", f.comment))),
    ("2", "functions of one name in two crates or more", sorted({f"{n}: " + ", ".join(sorted(c)) for n, c in {n: {f.crate for f in all_functions if f.name == n} for n in {f.name for f in all_functions}}.items() if len(c) > 1})),
    ("3", "loops that are no `for` and no `while let`", grep(r"^\s*(?:'\w+: )?(?:while (?!let )|loop \{)|= (?:'\w+: )?loop \{")),
    ("4", "casts by `as` to another number", grep(r" as (?:u8|u16|u32|u64|usize|i32|i64)\b")),
    ("5a", "functions with eight parameters or more", by_functions(lambda f: len(f.parameters) >= 8)),
    ("5b", "functions that take own, global and shared one by one", by_functions(lambda f: {"own", "global", "shared"} <= {n for n, t in f.parameters})),
    ("5c", "functions that take deck, work and a frame one by one", by_functions(lambda f: {"deck", "work", "f"} <= {n for n, t in f.parameters})),
    ("5d", "functions that take kinds and code one by one", by_functions(lambda f: {"kinds", "code"} <= {n for n, t in f.parameters})),
    ("6", "an array with a length or a place beside it", grep(r"^pub struct (Running|LineReader)\b|^struct Digits\b|let mut (titles|own|global|shared|kinds|code|window|deck|out) = \[|let mut (window|deck) = ")),
    ("7", "functions whose parameter picks which rule is carried out, by number", by_functions(lambda f: any(n in ("table", "does", "sign") and t.strip() == "u8" for n, t in f.parameters))),
]
for key, what, found in points:
    print(f"{key:3} {len(found):4}  {what}")
    if verbose:
        for place in found:
            print(f"            {place}")
answers = [len(p.read_text().split("\n")) for p in top.glob("*/proofs/**/Answers.antt")]
laws = [len(p.read_text().split("\n")) for p in top.glob("*/proofs/*.antt")]
print(f"8   {len(answers):4}  files of answers, {sum(answers)} lines; {sum(laws)} lines of laws")
