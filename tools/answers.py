#!/usr/bin/env python3
"""Turns a crate's proofs that named every step (Proof.antt) into Invariants.antt and Answers.antt, by the table of names that the toolchain writes.

usage: tools/answers.py OLD NAMES CRATE     in the crate's folder
OLD is the folder of the old proofs, NAMES the names.json of `rt check --generated DIR --old-names`, CRATE the crate's name.
A function that has a file already is passed over. What it can't resolve is left as it stands and named on a line `left:`.
"""
import glob
import json
import os
import re
import sys

sys.path.insert(0, os.path.dirname(os.path.realpath(__file__)))
import rename

DECL = re.compile(r"(?m)^(?:abbrev |pub |unfoldable )*([^\s(){}.;,:]+)(?: \{[^{}\n]*\})* :")
PATH = re.compile(r"(?<![\w'\-.])(c|[A-Za-z_][\w']*)((?:\.[\w'\-·]+)+)(?![\w'])")


# names of steps that tools/rename.py turned as if they were lemmas
STEPS = {new: old for old, new in rename.OWN.items()}


def norm(s):
    s = STEPS.get(s, s)
    s = re.sub(r"(?<=[a-z0-9])[A-Z]", lambda m: "_" + m[0], s).lower()
    return re.sub(r"^overflow[-_]", "", s).replace("-", "_")


def clause_names():
    """The names of the clauses of each function of the repository, where a kind has two or more: 'crate::f' to (requires, ensures)."""
    out = {}
    for f in glob.glob("../*/src/**/*.rt", recursive=True):
        parts = f.split("/")
        crate = parts[1]
        module = [x for x in parts[3:-1]] + ([] if parts[-1] in ("lib.rt", "main.rt") else [parts[-1][:-3]])
        text = open(f, encoding="utf-8").read()
        for m in re.finditer(r"(?m)^(?:pub )?(?:extern \"C\" )?fn (\w+)[\s\S]*?\n\{", text):
            req = re.findall(r"(?m)^    requires(?: (\w+))? \{", m[0])
            ens = re.findall(r"(?m)^    ensures(?: (\w+))? \{", m[0])
            out["::".join([crate, *module, m[1]])] = (req if len(req) > 1 else None, ens if len(ens) > 1 else None)
    return out


CLAUSES = {}


class Fn:
    def __init__(self, table):
        self.places = {p[0]: p for p in table["places"]}
        self.table = table
        self.left = []

    def resolve(self, root_place, path, names):
        """The new path of a list of fields that starts at a place, or the place where it ends."""
        chain, at = [], root_place
        while at is not None:
            chain.append(at)
            at = self.places[at][1]
        i = 0
        while i < len(path) and path[i] == "before":
            i += 1
        rest = path[i:]
        if not rest:
            return chain[min(i, len(chain) - 1)], None
        field = rest[0]
        # the step of that name that is nearest to where the file names it: today's walk may have more or fewer steps
        near = sorted((abs(k - i), k) for k, p in enumerate(chain) if self.places[p][2][0] and norm(self.places[p][2][0]) == norm(field))
        if not near:
            return None, rest
        q = chain[near[0][1]]
        old, new = self.places[q][2]
        return None, self.arm(q, old, rest[1:]) or [new] + self.clause(q, rest[1:])

    def arm(self, place, old, rest):
        """What a match told at a place, under the arm's name."""
        index = [p[0] for p in self.table["places"]].index(place)
        at = self.table["arms"][index]
        if not at:
            return None
        for new, step, path in at[2]:
            if norm(step) == norm(old) and path and rest[: len(path)] == path:
                return [at[0], new] + rest[len(path) :]
        return None

    def clause(self, place, rest):
        callee = self.places[place][3]
        if not callee or not rest or rest[0] != "ensures":
            return rest
        if callee.split("::")[0] in ("core", "std") and "wrapping" in callee:
            return ["ensures", "value"] + rest[1:]
        names = (CLAUSES.get(callee) or (None, None))[1]
        if not names:
            return rest
        # nested pairs: .0 the first, .1.0 the second, .. the last with no .0
        k, i = 0, 1
        while i < len(rest) and rest[i] == "1" and k < len(names) - 1:
            k, i = k + 1, i + 1
        if k < len(names) - 1:
            if i < len(rest) and rest[i] == "0":
                i += 1
            else:
                self.left.append(f"a part of {callee}'s clauses: {'.'.join(rest)}")
                return rest
        return ["ensures", names[k]] + rest[i:]


def split(text):
    """The head (comments and use lines) and the declarations, as (name, signature, lines)."""
    lines = text.split("\n")
    head, decls, cur = [], [], None
    for l in lines:
        m = DECL.match(l)
        if m and not l.startswith(("use ", "--", " ")):
            cur = [m[1], [l]]
            decls.append(cur)
        elif cur is None:
            head.append(l)
        elif l.startswith("--"):
            cur = ["--", [l]]
            decls.append(cur)
        else:
            cur[1].append(l)
    return head, [(n, "\n".join(ls).rstrip()) for n, ls in decls]


def used(head, body):
    toks = set(re.findall(r"[^\s(){}.;,@\"«»:|]+", re.sub(r"--[^\n]*", "", body)))
    out = []
    for l in head:
        if not l.startswith("use "):
            continue
        if re.search(r"\.(Statement\.\{|Tie as )", l):
            continue
        m = re.match(r"use (\S+)\.\{(.*)\}$", l)
        if not m:
            m2 = re.match(r"use \S+ as (\S+)$", l)
            if not m2 or m2[1] in toks or re.search(rf"\b{re.escape(m2[1])}\.", body):
                out.append(l)
            continue
        keep = []
        for item in re.split(r",\s*", m[2]):
            name = item.split(" as ")[-1].strip()
            parts = [p for p in name.split("◌") if p]
            if "◌" in name and parts and all(p in body for p in parts) or name in toks:
                keep.append(item)
        if keep:
            out.append(f"use {m[1]}.{{{', '.join(keep)}}}")
    return out


def turn_paths(fn, text, place, name):
    # aliases: let s = c.before.. in, with no field
    alias = {"c": place}

    while True:
        m = next((m for m in re.finditer(r"let (\w+) = (\w+)((?:\.before)+) in\s*", text) if m[2] in alias), None)
        if not m:
            break
        at, new = fn.resolve(alias[m[2]], m[3].split(".")[1:], None)
        alias[m[1]] = at
        text = text[: m.start()] + text[m.end() :]

    def sub(m):
        if m[1] not in alias:
            return m[0]
        path = m[2][1:].split(".")
        at, new = fn.resolve(alias[m[1]], path, None)
        if new is None:
            fn.left.append(f"{name}: {m[0]}")
            return m[0]
        return "c." + ".".join(new)

    return PATH.sub(sub, text)


def parts(text):
    """The last tuple at the top of a term: where it begins, its items."""
    t = text.rstrip()
    if not t.endswith(")"):
        return None
    deep, i = 0, len(t) - 1
    while i >= 0:
        deep += (t[i] == ")") - (t[i] == "(")
        if deep == 0:
            break
        i -= 1
    inner, items, start, deep = t[i + 1 : -1], [], 0, 0
    for k, ch in enumerate(inner):
        deep += (ch in "({[") - (ch in ")}]")
        if ch == "," and deep == 0:
            items.append(inner[start:k].strip())
            start = k + 1
    if inner[start:].strip():
        items.append(inner[start:].strip())
    before = t[:i].rstrip()
    if before and not before.endswith((" in", "=")):
        return None
    return t[:i], items


def as_record(text, names):
    at = parts(text)
    if not at:
        return None
    head, items = at
    while len(items) < len(names):
        more = parts(items[-1]) if items[-1].startswith("(") else None
        if not more or more[0].strip():
            return None
        items = items[:-1] + more[1]
    items = items[: len(names) - 1] + ([", ".join(items[len(names) - 1 :])] if len(items) == len(names) else ["(" + ", ".join(items[len(names) - 1 :]) + ")"])
    return head + "record { " + "; ".join(f"{n} = {i}" for n, i in zip(names, items)) + " }"


def main(old, names, crate):
    table = json.load(open(names))
    CLAUSES.update(clause_names())
    for folder, _, files in os.walk(old):
        if "Proof.antt" not in files:
            continue
        rel = os.path.relpath(folder, old)
        key = f"Rattle-{crate}-proofs.{rel.replace('/', '.')}.Lts"
        text = open(os.path.join(folder, "Proof.antt"), encoding="utf-8").read()
        to = os.path.join("proofs", rel)
        if any(os.path.exists(os.path.join(to, f)) for f in ("Proof.antt", "Answers.antt", "Invariants.antt")):
            continue
        if key not in table or "tie.spec" not in text:
            print(f"left: {rel}: no table, or a walk by hand")
            continue
        fn = Fn(table[key])
        needs = fn.table["needs"]
        asked = fn.table["asked_at"]
        by = {norm(o): i for i, (o, n) in enumerate(needs)}
        head, decls = split(text)
        path = f"Rattle.{crate}.proofs.{rel.replace('/', '.')}"
        answers, invariants, labels = [], [], []
        order = [n for n, t in decls if re.search(r": tie\.Need-", t.split("\n")[0])]
        same = len(order) == len(needs)
        loops = fn.table["loops"]
        for n, t in decls:
            first = t.split("\n")[0]
            m = re.search(r": tie\.(invariant|decreases)-(\S+)$", first)
            if m:
                number = re.search(r"loop-?(\d*)$", m[2])
                which = [l for l in loops if norm(l[0][0]) == norm(m[2])] or loops[:1]
                (o, new), variables = which[0]
                body = "\n".join(t.split("\n")[1:])
                b = re.match(rf"{re.escape(n)}((?: [^\s=]+)*) =\s?", body)
                args, body = b[1].split(), body[b.end() :]
                def var(x):
                    s = x[0]
                    if s not in args:
                        return s
                    return f"l.initial.{s[:-1]}" if s.endswith("₀") else f"l.{s}"
                body = re.sub(r"(?<![\w.'])[A-Za-z_][\w']*₀?(?![\w'₀])", var, body)
                sep = "\n" if body.startswith("    ") else " "
                invariants.append(f"abbrev pub {m[1]}-{new} : goal.{m[1]}-{new}\n{m[1]}-{new} l ={sep}{body}".replace("= \n", "=\n"))
                continue
            m = re.search(r": tie\.Need-(\S+)", first)
            if m:
                i = by.get(norm(m[1]))
                if i is None:
                    i = by.get(norm(n))
                if i is None and same:
                    i = order.index(n)
                if i is None:
                    print(f"left: {rel}: no goal for {n} ({m[1]})")
                    continue
                new = needs[i][1]
                body = "\n".join(t.split("\n")[1:])
                b = re.search(rf"(?m)^{re.escape(n)} c(?: κs)?( =)", body)
                if not b:
                    print(f"left: {rel}: the form of {n}")
                    continue
                before, after = body[: b.start()], body[b.end() :]
                after = turn_paths(fn, after, asked[i][0], n)
                if needs[i][0] in fn.table["asked"]:
                    whole = as_record(after, fn.table["asked"][needs[i][0]])
                    if whole is None:
                        print(f"left: {rel}: {n} has clauses {fn.table['asked'][needs[i][0]]}")
                    else:
                        after = whole
                if re.fullmatch(r"\s*(search rules|omega arith|refl)", after) and "unfolding" not in before:
                    continue
                answers.append(f"pub {new} : goal.{new}\n{before}{new} c ={after}")
                continue
            if "tie.spec" in t or "tie.close" in t or re.search(r"_spec|-spec", n) and "statement" in first:
                continue
            (answers).append(t)
        comment = [l for l in head if l.startswith("--")]
        os.makedirs(to, exist_ok=True)
        if invariants:
            body = "\n\n".join(invariants)
            with open(os.path.join(to, "Invariants.antt"), "w") as f:
                f.write("\n".join(comment + used(head, body) + [f"use {path}.Given as goal", "", body, ""]))
        real = [a for a in answers if not a.startswith("--")]
        if real:
            body = "\n\n".join(answers)
            with open(os.path.join(to, "Answers.antt"), "w") as f:
                f.write("\n".join((comment if not invariants else [comment[0].split(". ")[0] + "."] if comment else []) + used(head, body) + [f"use {path}.Goals as goal", "", body, ""]))
        for l in fn.left:
            print(f"left: {rel}: {l}")


if __name__ == "__main__":
    main(*sys.argv[1:4])
