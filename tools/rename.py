#!/usr/bin/env python3
"""Brings the definitions and lemmas of this repository to today's spelling: words in snake case, types in camel case.

usage: tools/rename.py        at the top of the repository, once, on the tree that port.py left

A name that specs/ or the lemma files of proofs/ declare is turned wherever it stands as a whole word: in .antt and .rt files, in must-fail edits, and in the code spans of
pages and comments. Names of Rust's functions, fields and types, strings, inputs and outputs are not touched. Names that would fall together with another one are in OWN.
"""
import collections
import glob
import os
import re
import sys

DECLARED = re.compile(r"(?m)^ *(?:(?:pub|abbrev|unfoldable|private|instance|mutual|record|data|where|let) +)*([^\s(){}.;,@\"«»:|]+)(?: \{[^{}\n]*\}| \([^()\n]*\))* :")
FIELD = re.compile(r"[{;|] *(?:pub )?([a-z][^\s(){}.;,@\"«»:|]*) :")
WORD = re.compile(r'[^\s(){}.;,@"«»:|\[\]`]+')
LEMMAS = """add-counts admit-moved all-bits all-text byte-image done-number end_step found_number found-output free-node free-value from-root got_number held_steps
last_line leaf-moved line-text list-end list-number live-record move-answer move-image move-positions one-text open-shaped pieces-image pieces_kept pieces-text
place-number remove-counts split-image"""
OWN = {n: n.replace("-", "_") + "_lem" for n in LEMMAS.split()}
OWN |= {
    "Header-fails": "HeaderFails",
    "Node-at": "NodeAt",
    "Ends-at": "EndsAt",
    "most-nodes": "nodes_most",
    "leaf-passes": "new_leaf_passes",
    "node_ok": "node_accepted",
    "side-ok": "side_accepted",
    "count-is": "count_from",
    "both_ends": "both_ends_listed",
}
# names that an import, a parameter or a `let` gives
LOCAL = {
    "Values-same": "values_same",
    "more-values": "more_values",
    "lookup-answers": "lookup_answers",
    "insert-plan": "insert_plan",
    "remove-plan": "remove_plan",
    "new-leaf": "new_leaf",
    "some-held": "some_held",
    "key-prefix": "key_prefix",
    "same-value": "same_value",
    "remove·stopPlan": "remove_stop_plan",
    "remove·planImage": "remove_plan_image",
    "remove·openedPlan": "remove_opened_plan",
    "commands·widthOf": "commands_width_of",
}

# every name of specs/ as it is spelled today
SPELLED = set()


def read(p):
    with open(p, encoding="utf-8") as f:
        return f.read()


def snake(n):
    if n in OWN:
        return OWN[n]
    if n[0].isupper():
        return n
    return re.sub(r"(?<=[a-z0-9])[A-Z]", lambda m: "_" + m[0].lower(), n).replace("-", "_")


def bare(t):
    return re.sub(r"--[^\n]*", "", t)


def table():
    names = collections.defaultdict(set)
    for f in glob.glob("crates/*/specs/**/*.antt", recursive=True) + glob.glob("crates/*/proofs/*.antt"):
        t = bare(read(f))
        for m in list(DECLARED.finditer(t)) + list(FIELD.finditer(t)):
            names[m[1]].add(f)
    foreign = set()
    for f in glob.glob("crates/**/*.antt", recursive=True) + glob.glob("crates/**/*.rt", recursive=True):
        for m in re.finditer(r"\buse (?!Rattle\.(?!std\b|core\b))([^\s{;]*)\.\{([^}]*)\}", read(f)):
            foreign |= set(re.split(r"[\s,]+", m[2]))
    turned = {n: snake(n) for n in names if snake(n) != n}
    both = sorted(set(turned) & foreign)
    if both:
        print("also imported from a library, and left:", both)
    turned = {n: s for n, s in turned.items() if n not in foreign} | LOCAL
    SPELLED.update(snake(n) for n in names)
    seen = collections.defaultdict(set)
    for n in names:
        seen[snake(n)].add(n)
    for k, v in sorted(seen.items()):
        if len(v) > 1:
            print("fall together:", k, {n: sorted(names[n]) for n in v})
    return turned


def words(t, turned):
    return WORD.sub(lambda m: turned.get(m[0], m[0]), t)


def said(n, turned):
    """A name in prose: of specs/ if it has a dash or a capital inside, so that no name of Rust's turns."""
    if not re.search(r"[a-z][A-Z]|[^-]-[^-]", n):
        return n
    return turned.get(n, snake(n) if snake(n) in SPELLED else n)


def spans(t, turned):
    """The code spans of prose, and words with a capital inside, which no English word has."""
    t = re.sub(r"`[^`\n]+`", lambda m: WORD.sub(lambda w: said(w[0], turned), m[0]), t)
    return WORD.sub(lambda m: said(m[0], turned) if re.search(r"[a-z][A-Z]", m[0]) else m[0], t)


def by_line(t, mark, turned):
    out = []
    for line in t.split("\n"):
        m = re.search(r"(?:^|(?<=\s))" + mark, line)
        at = m.start() if m else len(line)
        out.append(words(line[:at], turned) + spans(line[at:], turned))
    return "\n".join(out)


def clauses(t, turned):
    """In a .rt file names of specs/ stand in `ghost use` items and in the braces of clauses."""
    t = re.sub(r"ghost use [^;]*;", lambda m: words(m[0], turned), t)
    out, i = [], 0
    for m in re.finditer(r"\b(?:requires|ensures)\*?(?: \w+)? \{", t):
        if m.start() < i:
            continue
        deep, j = 1, m.end()
        while deep:
            deep += (t[j] == "{") - (t[j] == "}")
            j += 1
        out += [t[i : m.end()], words(t[m.end() : j], turned)]
        i = j
    t = "".join(out) + t[i:]
    return re.sub(r"//[^\n]*", lambda m: spans(m[0], turned), t)


def edits(t, turned):
    return "\n".join(words(l, turned) if l.startswith(("old:", "new:")) and "specs/" in t.split("file:", 1)[1].split("\n")[0] else spans(l, turned) if l.startswith("#") else l for l in t.split("\n"))


def main():
    turned = table()
    print(len(turned), "names")
    for f in sorted(glob.glob("crates/**/*", recursive=True)) + sorted(glob.glob("docs/*.md")) + ["README.md", "include/logfringe.h"]:
        if not os.path.isfile(f) or "/out/" in f:
            continue
        t = None
        if f.endswith(".antt"):
            t = by_line(read(f), "--", turned)
        elif f.endswith(".rt"):
            t = clauses(read(f), turned)
        elif f.endswith(".edit"):
            t = edits(read(f), turned)
        elif f.endswith((".md", ".h")):
            t = spans(read(f), turned)
        if t is not None and t != read(f):
            with open(f, "w", encoding="utf-8") as o:
                o.write(t)


if __name__ == "__main__":
    sys.exit(main())
