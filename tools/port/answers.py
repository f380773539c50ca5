#!/usr/bin/env python3
"""Turns the proofs of a crate's functions from one Proof.antt that answers every need in turn to Invariants.antt and Answers.antt.

usage: answers.py CRATE_FOLDER        run in the repository; it asks `rt check --generated DIR --old-names` for the old and new names

Of an older proof it keeps each answer that said more than `search rules`, under its goal's new name; the rest Rattle finds.
Paths over `.before` become paths from `c`, and an invariant's places become fields of `l`. What it can't turn it says in a line
that begins 'left:', and that file stays as it is.
"""

import glob
import json
import os
import re
import subprocess
import sys
import tempfile

NAME = r"[^\s(){}.;,@\"«»\[\]\\]+"
norm = lambda s: s.replace("_", "-")


def blocks(text):
    """The use lines and comments at the head, and the declarations."""
    lines = text.split("\n")
    uses, heads, decls, now = [], [], [], None
    comment = []
    for l in lines:
        if re.match(r"use ", l):
            uses.append(l)
            now = None
        elif l.startswith("--"):
            if not decls and now is None and not uses:
                heads.append(l)
            else:
                comment.append(l)
                now = None
        elif re.match(r"\S", l) and (re.match(r"(?:(?:pub|abbrev|unfoldable) )*" + NAME + r" : ", l) or re.match(r"(pub )?(data|record|module|ruleset|mod) ", l)):
            now = comment + [l]
            comment = []
            decls.append(now)
        elif now is not None:
            now.append(l)
        elif l.strip():
            comment.append(l)
    return heads, uses, ["\n".join(d).rstrip("\n") for d in decls]


class Left(Exception):
    pass


def clauses_of(root):
    """The names of the clauses of each function, by crate and name: {(crate, name): {"requires": [..], "ensures": [..]}}."""
    out = {}
    for f in glob.glob(root + "/crates/*/src/*.rt"):
        crate = f.split("/crates/")[1].split("/")[0]
        now = None
        for l in open(f, encoding="utf-8"):
            m = re.match(r" *(?:pub )?(?:const )?fn (\w+)", l)
            if m:
                now = out.setdefault((crate, m.group(1)), {"requires": [], "ensures": [], "muts": [], "open": True})
            if now is not None and now["open"]:
                now["muts"] += re.findall(r"(\w+): &(?:'\w+ )?mut ", l)
                if re.search(r"\)(?: ->|$| *\{)", l):
                    now["open"] = False
            m = re.match(r" +(requires|ensures) (?:(\w+) )?\{", l)
            if m and now is not None and m.group(2):
                now[m.group(1)].append(m.group(2))
    return out


def top(s):
    """The factors of a product, as it is written."""
    depth, parts, at = 0, [], 0
    for i, c in enumerate(s):
        depth += c in "([{"
        depth -= c in ")]}"
        if c == "×" and depth == 0:
            parts.append(s[at:i])
            at = i + 1
    return [p.strip() for p in parts + [s[at:]]]


def outer(s):
    """What stands in the bracket that is the whole text, else None."""
    depth = 0
    for i, c in enumerate(s):
        depth += c == "("
        depth -= c == ")"
        if depth == 0 and i < len(s) - 1:
            return None
    return s[1:-1] if s.startswith("(") else None


def factors(s, want):
    """The paths of the factors of an older clause that are clauses of their own now."""
    leaves = [((str(i),), p) for i, p in enumerate(top(s))]
    while len(leaves) < want:
        k = next((k for k in range(len(leaves) - 1, -1, -1) if outer(leaves[k][1]) and len(top(outer(leaves[k][1]))) > 1), None)
        if k is None:
            return None
        path, p = leaves[k]
        leaves[k : k + 1] = [(path + (str(i),), q) for i, q in enumerate(top(outer(p)))]
    return [path for path, _ in leaves] if len(leaves) == want else None


def old_clauses(root):
    """The clauses of each function before the port, by crate, name and kind."""
    commit = open(root + "/docs/PORT.md").read().split("\n")[2]
    out = {}
    files = subprocess.run(["git", "ls-tree", "-r", "--name-only", commit, "crates"], cwd=root, stdout=subprocess.PIPE, text=True).stdout.split("\n")
    for f in files:
        if not f.endswith(".rt"):
            continue
        crate, now = f.split("/")[1], None
        text = subprocess.run(["git", "show", f"{commit}:{f}"], cwd=root, stdout=subprocess.PIPE, text=True).stdout
        for l in text.split("\n"):
            m = re.match(r" *(?:pub )?(?:const )?fn (\w+)", l)
            if m:
                now = out.setdefault((crate, m.group(1)), {})
            m = re.match(r" +(requires|ensures) \{ (?:λ \S+\. )?⌜ (.*) ⌝ \}", l)
            if m and now is not None:
                now.setdefault(m.group(1), []).append(m.group(2))
    for of in out.values():
        for kind, each in of.items():
            # several clauses of a kind were a pair of the first and the others
            whole = each[-1]
            for one in reversed(each[:-1]):
                whole = f"({one}) × ({whole})"
            of[kind] = whole
    return out


def split_tuple(s):
    """The parts of `(a, b)` where that is the whole text, else None."""
    s = s.strip()
    if not (s.startswith("(") and s.endswith(")")):
        return None
    depth, parts, at = 0, [], 1
    for i, c in enumerate(s):
        if c in "([{":
            depth += 1
        elif c in ")]}":
            depth -= 1
            if depth == 0 and i != len(s) - 1:
                return None
        elif c == "," and depth == 1:
            parts.append(s[at:i].strip())
            at = i + 1
    parts.append(s[at:-1].strip())
    return [p for p in parts if p]


class Turn:
    def __init__(self, crate, path, names):
        self.crate, self.path, self.n = crate, path, names
        self.parent, self.step = {}, {}
        for old, par, (a, b), _, _ in names["places"]:
            self.parent[old] = par
            self.step[old] = (norm(a), b)
        self.by_step = {norm(a): b for _, _, (a, b), _, _ in names["places"] if a}
        self.args = {}
        for a, b in names["args"]:
            if a.startswith(".args ."):
                self.args[a[7:]] = b[7:]

        self.arm = {}
        for (old, _, _, _, _), arm in zip(names["places"], names["arms"]):
            if arm:
                for field, step, path in arm[2]:
                    self.arm[(norm(step), tuple(path))] = (arm[0], field, old)
        self.fn_at = {norm(a): fn for _, _, (a, b), fn, _ in names["places"] if a and fn}

    def paths(self, fn, kind):
        """The old paths of a function's clauses, beside their names."""
        names = self.clauses(fn, kind)
        parts = fn.split("::")
        old = OLD.get((parts[0], parts[-1]), {}).get(kind)
        paths = factors(old, len(names)) if old and len(names) > 1 else None
        return list(zip(paths or [(str(i),) for i in range(len(names))], names))

    def named(self, out, at, fn, kind):
        """A path of numbers from `at` on, with the clause's name in front."""
        best = max((p for p, _ in self.paths(fn, kind) if tuple(out[at : at + len(p)]) == p), key=len, default=None)
        if best and len(self.clauses(fn, kind)) > 1:
            out[at : at + len(best)] = [dict(self.paths(fn, kind))[best]]
        return out

    def together(self, path, old):
        """All clauses of a call, or of the function's own `requires`, where a lemma takes them together."""
        fn = None
        if len(old) > 1 and old[-1] == "ensures" and norm(old[-2]) in self.fn_at:
            fn, kind = self.fn_at[norm(old[-2])], "ensures"
        elif old and old[-1] == "requires" and set(old[:-1]) <= {"before"}:
            fn, kind = self.crate + "::" + self.path, "requires"
        if not fn or len(self.clauses(fn, kind)) < 2:
            return path
        tree = {}
        for p, n in self.paths(fn, kind):
            at = tree
            for i in p[:-1]:
                at = at.setdefault(i, {})
            at[p[-1]] = n
        show = lambda it: f"{path}.{it}" if isinstance(it, str) else "(" + ", ".join(show(it[i]) for i in sorted(it)) + ")"
        return show(tree)

    def match_arm(self, place, x):
        """The arm that a place lies in, of the match whose old step is x."""
        at = place
        while at is not None:
            if self.step[at][0] == norm(x):
                return self.step[at][1]
            at = self.up(at)
        return None

    def clauses(self, fn, kind):
        """The names of the clauses of a function by its path, as lent::byte."""
        parts = fn.split("::")
        return CLAUSES.get((parts[0], parts[-1]), {}).get(kind, [])

    def whole(self, clauses, body):
        """An answer of several parts as a record of clauses by name; a let in front stays in front."""
        if len(clauses) < 2:
            return body
        names = [n for _, n in clauses]

        def part(text, path):
            for i in path:
                parts = split_tuple(text)
                if parts is None or int(i) >= len(parts):
                    return None
                text = parts[int(i)]
            return text

        if body.strip() == "search rules":
            return body
        k = 0
        for s in re.finditer(r"\bin\b\s", body):
            # behind the last let that no bracket holds
            if body[: s.end()].count("(") == body[: s.end()].count(")"):
                k = s.end()
        lead, term = body[:k], body[k:].strip()
        found = [part(term, p) for p, _ in clauses]
        if all(found):
            return lead + " record { " + "; ".join(f"{n} = {p}" for n, p in zip(names, found)) + " }"
        m = re.match(r"\s*(c\.[^\s(){}]+\.ensures)\s*$", term)
        if m:
            return lead + " record { " + "; ".join(f"{n} = {m.group(1)}.{n}" for n in names) + " }"
        # one term that is both: name it, and take it apart
        return lead + " let whole = " + term + " in record { " + "; ".join(f"{n} = whole.{'.'.join(p)}" for p, n in clauses) + " }"

    def up(self, place):
        return self.parent.get(place)

    def path_of(self, place, comps):
        """New components for old ones at a place; the place where they end if only `.before`s stand there."""
        while comps and comps[0] == "before":
            comps = comps[1:]
            place = self.up(place) if place else None
        if not comps:
            return place, []
        x = comps[0]
        out = list(comps)
        if x == "args":
            if len(out) > 1 and out[1] in self.args:
                out[1] = self.args[out[1]]
            if len(out) > 1:
                out[1] = out[1].replace("-", "_")
        elif x in ("requires", "ranges", "auto", "type-inv", "utf8", "well-formed"):
            out[0] = x.replace("-", "_")
            if x == "requires" and len(out) > 1 and out[1].isdigit():
                self.named(out, 1, self.crate + "::" + self.path, "requires")
        else:
            # a field of an arm: the longest part of the path that has a name
            for end in range(len(out), 0, -1):
                hit = self.arm.get((norm(x), tuple(out[1:end])))
                if hit and (end > 1 or self.match_arm(place, x)):
                    arm, own = hit[0], hit[1]
                    if end == 1 and norm(x).startswith("match"):
                        arm = self.match_arm(place, x)
                        own = arm + "-own"
                    return place, [arm, own] + out[end:]
            at = place
            new = None
            while at is not None:
                if self.step[at][0] == norm(x):
                    new = self.step[at][1]
                    break
                at = self.up(at)
            if new is None:
                new = self.by_step.get(norm(x))
            if new is None:
                self.doubt.append(x)
                new = x
            out[0] = new
            if len(out) > 2 and out[1] == "ensures" and out[2].isdigit() and norm(x) in self.fn_at:
                self.named(out, 2, self.fn_at[norm(x)], "ensures")
            if len(out) > 1 and out[1] == "type-inv":
                out[1] = "type_inv"
            if len(out) > 2 and out[1] in ("new", "auto") and out[2].isdigit() and norm(x) in self.fn_at:
                names = self.clauses(self.fn_at[norm(x)], "muts")
                if int(out[2]) < len(names):
                    out[2] = names[int(out[2])]
            if len(out) > 1 and out[1] == "given":
                self.doubt.append(x + ".given")
        return place, out

    def term(self, place, text):
        """The text of an answer, its context's paths turned."""
        contexts = {"c": place}
        alias = {}
        out, i = [], 0
        # lets of contexts first
        pat = re.compile(r"(?<![^\s(){};,\[\]])(" + NAME + r")((?:\." + NAME + r")*)")

        def sub(m):
            name, rest = m.group(1), m.group(2)
            comps = rest.split(".")[1:]
            if name in contexts:
                p, new = self.path_of(contexts[name], comps)
                if comps and not new:
                    return "c"
                return self.together(".".join(["c"] + new), comps)
            if name in alias and comps:
                # a let that names a step, or a part of one
                p, old, short = alias[name]
                _, new = self.path_of(p, old + comps)
                if new[: len(short)] == short:
                    return ".".join([name] + new[len(short) :])
                return ".".join(["c"] + new)
            return m.group(0)

        res = []
        pos = 0
        let = re.compile(r"\blet (" + NAME + r") = (" + NAME + r")((?:\." + NAME + r")*) in\b")
        while True:
            m = let.search(text, pos)
            if not m:
                res.append(pat.sub(sub, text[pos:]))
                break
            res.append(pat.sub(sub, text[pos : m.start()]))
            v, name, comps = m.group(1), m.group(2), m.group(3).split(".")[1:]
            if name in contexts and all(x == "before" for x in comps):
                p, _ = self.path_of(contexts[name], comps)
                contexts[v] = p
            else:
                if name in contexts:
                    p, new = self.path_of(contexts[name], comps)
                    alias[v] = (contexts[name], comps, new)
                    res.append(f"let {v} = {'.'.join(['c'] + new)} in")
                else:
                    res.append(pat.sub(sub, m.group(0)))
            pos = m.end()
        return "".join(res)

    def turn(self, text):
        self.doubt = []
        heads, uses, decls = blocks(text)
        uses = [u for u in uses if not re.search(r"\.Tie as tie|\.Statement\.\{", u)]
        m = re.search(r"tie\.close\s*\(\s*tie\.spec\b([^)]*)\)", text)
        if not m:
            raise Left("no tie.close (tie.spec ..)")
        listed = m.group(1).split()
        invariants, answers, helpers = {}, {}, []
        for d in decls:
            t = re.search(r"(?m)^(abbrev )?(" + NAME + r") : tie\.(" + NAME + r")([^\n]*)$", d)
            if t:
                (invariants if re.match("(invariant|decreases)-", t.group(3)) else answers)[t.group(2)] = (t.group(3), d)
            elif "tie.close" not in d:
                helpers.append(d)
        needs = [x for x in listed if x not in invariants]
        if len(needs) != len(self.n["needs"]):
            by = {}
            for k, (old, new) in enumerate(self.n["needs"]):
                by.setdefault(norm(old), k)
            pairs = []
            for a in needs:
                w = norm(answers[a][0][5:]) if a in answers else None
                k = by.get(w)
                if k is None and w:
                    k = by.get(w.replace("overflow-", ""))
                if k is not None:
                    pairs.append((k, a))
                elif a in answers and not self.plain(answers[a][1], a):
                    self.doubt.append(f"need {w}")
        else:
            pairs = list(enumerate(needs))
        inv_text, ans_text = [], []
        loops = self.n["loops"]
        for (names2, variables), changed in zip(loops, self.n["changed"]):
            old, new = names2
            for kind in ("invariant", "decreases"):
                hit = next((d for w, d in invariants.values() if w == f"{kind}-{old}" or norm(w) == norm(f"{kind}-{old}")), None)
                if hit is None:
                    continue
                lines = hit.split("\n")
                k = next(i for i, l in enumerate(lines) if re.match(r"abbrev ", l))
                body = lines[k + 1 :]
                extra = []
                while body and body[0].startswith("unfolding"):
                    extra.append(body.pop(0))
                head, eq, rest = "\n".join(body).partition("=")
                ps = head.split()[1:]
                want = [(v, ch) for v, ch in zip(variables, changed)]
                names3 = [("l.initial." if ch else "l.") + v for v, ch in want] + ["l." + v for v, ch in want if ch]
                if len(ps) != len(names3):
                    self.doubt.append(f"{kind}-{old} takes {len(ps)} of {len(names3)}")
                    if len(ps) > len(names3):
                        ps = ps[: len(names3)]
                table = dict(zip(ps, names3))
                rest = self.places(rest, table)
                inv_text.append("\n".join([f"abbrev pub {kind}-{new} : goal.{kind}-{new}"] + extra + [f"{kind}-{new} l ={rest}"]))
        done = set()
        for k, a in pairs:
            if a not in answers:
                self.doubt.append(f"need {k} is answered by {a}")
                continue
            w, d = answers[a]
            if self.plain(d, a):
                continue
            new = self.n["needs"][k][1]
            place = self.n["asked_at"][k][0]
            lines = d.split("\n")
            i = next(i for i, l in enumerate(lines) if re.match(re.escape(a) + r" : tie\.", l))
            comments, body = lines[:i], lines[i + 1 :]
            extra = []
            while body and body[0].startswith("unfolding"):
                extra.append(body.pop(0))
            head, eq, rest = "\n".join(body).partition("=")
            ps = head.split()[1:]
            if ps and ps[-1] == "κs":
                ps = ps[:-1]
            if not ps or ps[0] != "c":
                self.doubt.append(f"{a} takes {' '.join(ps)}")
            rest = self.term(place, rest)
            own = self.path.split(".")[-1]
            if new.startswith("returns"):
                rest = self.whole(self.paths(self.crate + "::" + own, "ensures"), rest)
            elif "-requires" in new:
                f = new.split("-requires")[0].split("-")[0]
                names = next((self.paths(p, "requires") for p in self.n["params"] if p.split("::")[-1] == f), [])
                rest = self.whole(names, rest)
            # the test of `!x` says what x is
            rest = self.negated(rest)
            rest = re.sub(r"sfits = c\.[^\s{}]*(known_told|type)[^\s{}]*", "sfits = search rules", rest)
            # a let that stands alone on its line went
            rest = re.sub(r"\n[ \t]*(?=\n)", "", rest)
            text2 = "\n".join(comments + [f"pub {new} : goal.{new}"] + extra + [f"{new} {' '.join(ps)} ={rest}"])
            if new in done:
                continue
            done.add(new)
            ans_text.append(text2)
        mod = f"Rattle.{self.crate}.proofs.{self.path}"
        made = {}
        if inv_text:
            made["Invariants.antt"] = "\n".join(uses + [f"use {mod}.Given as goal", ""]) + "\n" + "\n\n".join(inv_text) + "\n"
            words = set(re.findall(NAME, "\n".join(inv_text)))
            need = [h for h in helpers if re.match(r"abbrev (" + NAME + ")", h) and re.match(r"abbrev (" + NAME + ")", h).group(1) in words]
            if need:
                made["Invariants.antt"] = "\n".join(uses + [f"use {mod}.Given as goal", ""]) + "\n" + "\n\n".join(need + inv_text) + "\n"
        if any("(ap not c.if-not-" in a for a in ans_text):
            uses += ["use mathlib.Core.Path.{ap}"] if not re.search(r"[{ ]ap[,}]", "\n".join(uses)) else []
            uses += ["use mathlib.Core.Bool.{not}"] if not re.search(r"[{ ]not[,}]", "\n".join(uses)) else []
        if ans_text:
            words = set(re.findall(NAME, "\n".join(ans_text + helpers)))
            made["Answers.antt"] = "\n".join(heads + uses + [f"use {mod}.Goals as goal", ""]) + "\n" + "\n\n".join(helpers + ans_text) + "\n"
        elif heads and inv_text:
            made["Invariants.antt"] = "\n".join(heads) + "\n" + made["Invariants.antt"]
        return made

    def negated(self, text):
        """The test of `!x` spoke of `not x`, and speaks of x now."""
        test = r"(c\.[^\s()]+\.(?:true|false))"
        lemma = r"(?:not-true|not-false|not_true|not_false) _ "
        text = re.sub(r"\(" + lemma + test + r"\)", lambda m: "\x01" + m.group(1), text)
        text = re.sub(r"\b" + lemma + test, lambda m: "\x01" + m.group(1), text)
        text = re.sub(r"(?<!\x01)(c\.if-not-[^\s()]+\.(?:true|false))", r"(ap not \1)", text)
        return text.replace("\x01", "")

    def places(self, text, table):
        """An invariant's text with its places by name; the labels of a record stay."""
        return re.sub(r"(?<![^\s(){};,\[\]])(" + NAME + r")(?=[\s(){};,\[\].]|$)(?! = )", lambda q: table.get(q.group(1), q.group(1)), text)

    def plain(self, d, a):
        body = d.split("=", 1)[1].strip() if "=" in d else ""
        return body == "search rules" and "unfolding" not in d


def balanced(s, at):
    """The text of the bracket that opens at `at`, with the place behind it."""
    depth, i, text = 0, at, False
    while i < len(s):
        if s[i] in "([{":
            depth += 1
        elif s[i] in ")]}":
            depth -= 1
            if depth == 0:
                return s[at : i + 1], i + 1
        i += 1
    raise Left("brackets")


def turn_cycle(crate, path, by, text, params):
    """The files of a cycle of calls, whose old proof is one `close` over a `spec` for each function."""
    doubts = []
    heads, uses, decls = blocks(text)
    drop = r"\.(Reads|Kinds|Lts-\w+) as |\.Tie\.\{close\}|\.\{statement\}|borrow\.Fn\.(Kinds|PlainCycle)"
    uses = [u for u in uses if not re.search(drop, u)]
    whole = next(d for d in decls if re.search(r"= close ", d))
    inv, ans, helpers = [], [], []
    lets = {}
    for d in decls:
        m = re.match(r"abbrev μ-(\S+) : Measures .*\nμ-\S+ κs a = (.*)", d, re.S)
        if m:
            fn = m.group(1).replace("-", "_")
            names = params[(crate, fn)]
            body = re.sub(r"\ba((?:\.1)*)\.0\b", lambda q: "l." + names[q.group(1).count(".1")], m.group(2))
            inv.append(f"abbrev pub decreases-{fn} : goal.decreases-{fn}\ndecreases-{fn} l = {body.strip()}")
            continue
        m = re.match(r"abbrev (\S+) : (\S+)-lts\.(invariant|decreases)-(\S+)\n", d)
        if m:
            lets[m.group(1)] = d
            fn = m.group(2).replace("-", "_")
            k = next((k for k in by if k == path + ".Lts-" + fn), None)
            n = by[k]
            t = Turn(crate, fn, n)
            t.doubt = doubts
            (old, new), variables = next(x for x in n["loops"] if norm(x[0][0]) == norm(m.group(4)))
            changed = n["changed"][[x[0][0] for x in n["loops"]].index(old)]
            head, eq, rest = d.split("\n", 1)[1].partition("=")
            ps = head.split()[1:]
            names3 = [("l.initial." if ch else "l.") + v for v, ch in zip(variables, changed)] + ["l." + v for v, ch in zip(variables, changed) if ch]
            if len(ps) != len(names3):
                doubts.append(f"{m.group(1)} takes {len(ps)} of {len(names3)}")
            kind = m.group(3)
            inv.append(f"abbrev pub {kind}-{n['stem']}{new} : goal.{kind}-{n['stem']}{new}\n{kind}-{n['stem']}{new} l ={t.places(rest, dict(zip(ps, names3)))}")
            continue
        if d is whole or re.search(r" : ℕ → In \d", d.split("\n")[0]):
            continue
        helpers.append(d)
    at = whole.index("= close ")
    while True:
        m = re.compile(r"\(λ t\. (\S+)-lts\.spec ").search(whole, at)
        if not m:
            break
        fn = m.group(1).replace("-", "_")
        body, at = balanced(whole, m.start())
        n = by[path + ".Lts-" + fn]
        t = Turn(crate, fn, n)
        t.doubt = doubts
        k, i = 0, 0
        for q in re.finditer(r"\n *-- (\S+)\n\s*(?=\()", body):
            term, _ = balanced(body, q.end())
            m2 = re.match(r"\(λ c( κs)?\.(.*)\)$", term, re.S)
            if not m2:
                doubts.append(f"{fn}: {q.group(1)}")
                k += 1
                continue
            old, new = n["needs"][k]
            if norm(old) != norm(q.group(1)) and norm(old) != norm("loop-" + {"loop-holds": "init", "loop-less": "smaller", "loop-again": "preserved"}.get(q.group(1), "?")):
                doubts.append(f"{fn}: {q.group(1)} is {old}?")
            said = m2.group(2).strip()
            place = n["asked_at"][k][0]
            k += 1
            if said in ("search rules", "(omega arith, tt)", "lit< tt", "(lit< tt, lit< tt)"):
                continue
            said = t.term(place, " " + said)
            said = t.negated(said)
            said = re.sub(r"sfits = c\.[^\s{}]*(known_told|type)[^\s{}]*", "sfits = search rules", said)
            if new.startswith("returns"):
                said = t.whole(t.paths(crate + "::" + fn, "ensures"), said)
            name = n["stem"] + new
            ans.append(f"pub {name} : goal.{name}\n{name} t c ={said}")
        if k != len(n["needs"]):
            doubts.append(f"{fn}: {k} of {len(n['needs'])} needs")
    mod = f"Rattle.{crate}.proofs.{path}"
    return {
        "Invariants.antt": "\n".join(heads + uses + [f"use {mod}.Given as goal", ""]) + "\n" + "\n\n".join(inv) + "\n",
        "Answers.antt": "\n".join(uses + [f"use {mod}.Goals as goal", ""]) + "\n" + "\n\n".join(helpers + ans) + "\n",
    }, doubts


def params_of(root):
    out = {}
    for f in glob.glob(root + "/crates/*/src/*.rt"):
        crate = f.split("/crates/")[1].split("/")[0]
        for m in re.finditer(r"fn (\w+)(?:<[^>]*>)?\(([^)]*)\)", open(f, encoding="utf-8").read()):
            out[(crate, m.group(1))] = re.findall(r"(\w+): ", m.group(2))
    return out


def main(argv):
    folder = argv[0].rstrip("/")
    global CLAUSES, OLD
    OLD = old_clauses(os.path.dirname(os.path.dirname(os.path.abspath(folder))))
    CLAUSES = clauses_of(os.path.dirname(os.path.dirname(os.path.abspath(folder))))
    crate = os.path.basename(folder)
    with tempfile.TemporaryDirectory() as out:
        subprocess.run(["rt", "check", "--generated", out, "--old-names"], cwd=folder, stdout=subprocess.DEVNULL, stderr=subprocess.DEVNULL)
        said = os.path.join(out, "names.json")
        if not os.path.isfile(said):
            print(f"left: {folder}: rt check gives no names: see what it says of the crate, and of those below it")
            return 1
        with open(said, encoding="utf-8") as it:
            names = json.load(it)
    by, cycles = {}, {}
    for k, v in names.items():
        m = re.match(r"Rattle-" + crate + r"-proofs\.(\+.*\.Lts-.*)$", k)
        if m:
            cycles[m.group(1)] = v
        m = re.match(r"Rattle-" + crate + r"-proofs\.(.*)\.Lts$", k)
        if m:
            by[m.group(1)] = v
    for f in sorted(glob.glob(folder + "/proofs/**/Proof.antt", recursive=True)):
        where = os.path.dirname(f)
        path = os.path.relpath(where, folder + "/proofs").replace("/", ".")
        if path.startswith("+") and " close " in open(f, encoding="utf-8").read():
            made, doubts = turn_cycle(crate, path, cycles, open(f, encoding="utf-8").read(), params_of(os.path.dirname(os.path.dirname(os.path.abspath(folder)))))
            for d in doubts:
                print(f"look: {f}: {d}")
            for name, text in made.items():
                with open(os.path.join(where, name), "w", encoding="utf-8") as it:
                    it.write(text)
            os.remove(f)
            continue
        if path not in by:
            print(f"left: {f}: no names for {path}")
            continue
        t = Turn(crate, path, by[path])
        try:
            made = t.turn(open(f, encoding="utf-8").read())
        except Left as e:
            print(f"left: {f}: {e}")
            continue
        for d in t.doubt:
            print(f"look: {f}: {d}")
        for name, text in made.items():
            with open(os.path.join(where, name), "w", encoding="utf-8") as it:
                it.write(text)
        os.remove(f)
        if not os.listdir(where):
            os.rmdir(where)


if __name__ == "__main__":
    raise SystemExit(main(sys.argv[1:]) or 0)
