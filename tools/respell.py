#!/usr/bin/env python3
"""Brings the names of specs/ and proofs/ to one spelling: words in snake case, facts and types in upper camel case.

usage: python3 tools/respell.py [FOLDER]     in the repository, or on another folder that has crates/

It looks for the names that specs/ and proofs/ define: functions, lemmas, records and their fields, variables. Each that has a
dash or a capital inside is written anew wherever it stands in .antt files, in the clauses of .rt files and in must-fail edits.
Text in quotes, comments of .rt files, functions of src/ and the names that the check makes for goals stay as they are.
It prints each old name beside the new one. It was run once, behind the kit's own scripts; run again it changes nothing.
"""

import os
import re
import sys

NAME = r"[A-Za-z_][A-Za-z0-9_']*(?:-[A-Za-z0-9_']+)*"
TOKEN = re.compile(r'"(?:[^"\\]|\\.)*"|(?<![A-Za-z0-9_\'-])' + NAME + r"(?![A-Za-z0-9_'])")
# A goal's answer is named by the check: `pub returns : goal.returns`.
ANSWER = re.compile(r"^\s*(?:abbrev )?(?:pub )?(" + NAME + r") : (?:goal|given|need)\.")
HEAD = re.compile(r"^\s*(?:module |abbrev |unfoldable |pub |record |data )*(" + NAME + r")(?: [({]| :)")
BOUND = re.compile(r"(?:let|λ|[({])\s*((?:" + NAME + r"\s+)*" + NAME + r")\s*(?:[:.=])")
ALIAS = re.compile(r" as (" + NAME + r")")
IMPORT = re.compile(r"use (?:Rattle\.std|lib|mathlib|Prim)\b[^{]*\{([^}]*)\}")
# A name that the check makes for a step of the code stands right behind the facts, `c.after-tick`, or a loop's values.
STEP = re.compile(r"(?<![A-Za-z0-9_'.])(?:[cw]|l(?:\.initial|\.fn)?)\.$")
# The spelled name would be that of a function beside it, or the older name says an older word.
CHOSEN = {"boundaryOf": "boundary_for", "playback-means": "PlaybackMeans", "capture-means": "CaptureMeans"}


def texts(root, endings):
    for folder, dirs, files in os.walk(os.path.join(root, "crates")):
        dirs[:] = sorted(d for d in dirs if d != "out")
        for f in sorted(files):
            if f.endswith(endings):
                yield os.path.join(folder, f)


def uncommented(line):
    return re.sub(r"--.*", "", re.sub(r'"(?:[^"\\]|\\.)*"', '""', line))


def snake(name):
    name = name.replace("-", "_")
    return re.sub(r"(?<=[a-z0-9])([A-Z])", lambda m: "_" + m[1].lower(), name)


def camel(name):
    parts = re.split(r"[-_]", name)
    return parts[0] + "".join(p[:1].upper() + p[1:] for p in parts[1:])


def respelled(name):
    if name in CHOSEN:
        return CHOSEN[name]
    name = name.replace("getD", "get_or")
    return camel(name) if name[0].isupper() else snake(name)


def collect(root):
    """The names that specs/ and proofs/ define, and those that the check makes for goals."""
    own, made, others = set(), set(), set()
    for path in texts(root, ".antt"):
        with open(path, encoding="utf-8") as f:
            text = f.read()
        for m in IMPORT.finditer(text):
            others.update(w.split(" as ")[0].strip() for w in m[1].split(","))
        for l in map(uncommented, text.splitlines()):
            if m := ANSWER.match(l):
                made.add(m[1])
                continue
            if m := HEAD.match(l):
                own.add(m[1])
            for m in BOUND.finditer(l):
                own.update(m[1].split())
            if l.lstrip().startswith("use "):
                own.update(m for m in ALIAS.findall(l))
    return own, made | others


def main(argv):
    root = argv[0] if argv else "."
    own, made = collect(root)
    names = {}
    for n in own - made:
        if respelled(n) != n:
            names[n] = respelled(n)
    for a, b in sorted(names.items()):
        print(a, b)

    def turned(text, comments, steps):
        def one(m):
            w = m[0]
            if w.startswith('"') or steps and STEP.search(m.string[: m.start()]):
                return w
            return names.get(w, w)

        out = []
        for line in text.splitlines(keepends=True):
            if not comments and line.lstrip().startswith("//"):
                out.append(line)
            else:
                out.append(TOKEN.sub(one, line))
        return "".join(out)

    for path in texts(root, (".antt", ".rt", ".edit")):
        with open(path, encoding="utf-8") as f:
            old = f.read()
        new = turned(old, path.endswith(".antt"), os.path.basename(path) in ("Answers.antt", "Invariants.antt", "Proof.antt"))
        if new != old:
            with open(path, "w", encoding="utf-8") as f:
                f.write(new)
    return 0


if __name__ == "__main__":
    raise SystemExit(main(sys.argv[1:]))
