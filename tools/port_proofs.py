#!/usr/bin/env python3
"""Turns each Proof.antt of a crate, a proof of the older kit's form, into Invariants.antt and Answers.antt.

usage: python3 tools/port_proofs.py NAMES.json CRATE..      at the top of the repository

NAMES.json is what `rattle check --generated DIR --old-names` writes for the crate. What is answered by `search rules` or `omega arith`
alone gets no answer: the check tries these itself. A proof that is not of the usual form stays, with a line on standard output.
"""

import json
import os
import re
import sys

WORD = r'[^\s(){}.;,@"«»\[\]|]+'
PATH = re.compile(r"(?<![\w.'-])c((?:\.(?:" + WORD + r"))+)")
SIGNATURE = re.compile(r"^(?:(?:abbrev|unfoldable|pub) )*(" + WORD + r")(?: \{[^}]*\})* :(?:\s|$)")
NEED = re.compile(r"tie\.Need-(" + WORD + r")")
PARTS = re.compile(r"^use Rattle\.[\w.+]+\.(?:Statement|Tie|Lts|Reads|Kinds)(?:\.\{.*\}| as \S+)?$")


def norm(name):
    return name.replace("-", "_")


def chunks(text):
    """The text's declarations: lists of lines, each with the comments above it."""
    out, cur = [], []
    lines = text.rstrip("\n").split("\n")
    for i, line in enumerate(lines):
        starts = line and not line[0].isspace()
        if starts and not line.startswith("--"):
            m = SIGNATURE.match(line)
            if m or line.startswith(("use ", "module ", "data ", "record ", "pub record", "pub data", "mutual")):
                lead = []
                while cur and cur[-1].startswith("--"):
                    lead.insert(0, cur.pop())
                if any(l.strip() for l in cur):
                    out.append(cur)
                cur = lead
        cur.append(line)
    if any(l.strip() for l in cur):
        out.append(cur)
    return out


class Proof:
    def __init__(self, names, crate, path):
        self.crate, self.path = crate, path
        key = f"Rattle-{crate}-proofs.{path}.Lts"
        self.n = names[key]
        self.places = {p[0]: i for i, p in enumerate(self.n["places"])}

    def need(self, port_name, own_name, order):
        """The index of a goal: by the name that the old file has for it."""
        olds = [norm(o) for o, _ in self.n["needs"]]
        seen = []
        for name in (port_name, own_name):
            name = norm(name)
            seen += [name] + [name[len(p):] for p in ("overflow_", "nonzero_", "bounds_") if name.startswith(p)]
        for s in seen:
            if s in olds:
                return olds.index(s)
        return None

    def chain(self, place):
        at = self.places.get(place)
        while at is not None:
            yield at
            parent = self.n["places"][at][1]
            at = self.places.get(parent) if parent else None

    def turn_path(self, place, m):
        parts = m[1].split(".")[1:]
        while parts and parts[0] == "before":
            parts.pop(0)
        if not parts:
            return m[0]
        step, rest = parts[0], parts[1:]
        if step in ("args", "requires", "ranges", "well_formed"):
            return ".".join(["c", step] + rest)
        # tools/port_names.py may have taken a step for a lemma of its name
        known = {norm(p[2][0]) for p in self.n["places"]}
        if norm(step) not in known and step.endswith("_lem"):
            step = step[:-4]
        for at in self.chain(place):
            old, new = self.n["places"][at][2]
            if norm(old) != norm(step):
                continue
            for arm in self.n["arms"]:
                if not arm:
                    continue
                for field, oldstep, oldpath in arm[2]:
                    if norm(oldstep) == norm(step) and oldpath and rest[: len(oldpath)] == oldpath:
                        return ".".join(["c", arm[0], field] + rest[len(oldpath):])
            labels = dict(map(tuple, self.n["places"][at][4]))
            if rest and rest[0] in labels:
                rest = [labels[rest[0]]] + rest[1:]
            return ".".join(["c", new] + rest)
        return ".".join(["c", step] + rest)

    def answer(self, lines, index):
        new = self.n["needs"][index][1]
        place = self.n["asked_at"][index][0]
        body = "\n".join(l for l in lines if not l.startswith("--"))
        m = re.match(r"\S+ : (?:.|\n)*?(?=\n(?:unfolding |" + WORD + r" c\b))", body)
        if not m:
            return None
        rest = body[m.end() + 1:]
        unfold = ""
        while rest.startswith("unfolding "):
            line, rest = rest.split("\n", 1)
            unfold += line + "\n"
        m = re.match(r"(\S+) c( κs)? =", rest)
        if not m:
            return None
        term = rest[m.end():]
        term = PATH.sub(lambda p: self.turn_path(place, p), term)
        if term.strip() in ("search rules", "omega arith") and not unfold:
            return ""
        note = "\n".join(l for l in lines if l.startswith("--") and not re.match(r"-- src/\S+:\d+:\d+", l))
        return (note + "\n" if note else "") + f"pub {new} : goal.{new}\n{unfold}{new} c ={term}\n"

    def invariant(self, lines, kind, old_loop):
        loops = [norm(l[0][0]) for l in self.n["loops"]]
        at = loops.index(norm(old_loop))
        (old, new), variables = self.n["loops"][at]
        changed = self.n["changed"][at]
        body = "\n".join(l for l in lines if not l.startswith("--"))
        note = "\n".join(l for l in lines if l.startswith("--"))
        parts = body.split("\n", 1)
        rest = parts[1]
        unfold = ""
        while rest.startswith("unfolding "):
            line, rest = rest.split("\n", 1)
            unfold += line + "\n"
        m = re.match(r"(\S+)((?:\s+" + WORD + r")*)\s*=", rest)
        args = m[2].split()
        if len(args) != len(variables) + sum(changed):
            return None
        table = {}
        for v, a, c in zip(variables, args, changed):
            table[a] = f"l.initial.{v}" if c else f"l.{v}"
        for v, a in zip([v for v, c in zip(variables, changed) if c], args[len(variables):]):
            table[a] = f"l.{v}"
        term = rest[m.end():]
        term = re.sub(r"(?<![\w.'-])" + WORD, lambda t: table.get(t[0], t[0]) if term[t.start() - 1 : t.start()] != "." else t[0], term)
        name = f"{kind}-{new}"
        return (note + "\n" if note else "") + f"abbrev pub {name} : goal.{name}\n{unfold}{name} l ={term}\n"


def turn(names, crate, folder, root):
    path = ".".join(os.path.relpath(folder, root).split(os.sep))
    file = os.path.join(folder, "Proof.antt")
    with open(file, encoding="utf-8") as f:
        text = f.read()
    said = lambda why: print(f"{file}: {why}")
    if f"Rattle-{crate}-proofs.{path}.Lts" not in names:
        return said("left: no names")
    p = Proof(names, crate, path)
    uses, invariants, answers, left = [], [], [], []
    order = 0
    for chunk in chunks(text):
        first = next((l for l in chunk if not l.startswith("--")), "")
        if first.startswith("use "):
            notes = [l for l in chunk if l.startswith("--")]
            joined = [l for l in chunk if not l.startswith("--") and l.strip()]
            if not PARTS.match(" ".join(joined)):
                uses += joined
            if notes and not uses:
                answers += ["\n".join(notes) + "\n"]
            continue
        m = SIGNATURE.match(first)
        if not m:
            left.append(first)
            continue
        body = "\n".join(chunk).rstrip("\n")
        chunk = body.split("\n")
        name = m[1]
        inv = re.search(r": tie\.(invariant|decreases)-(" + WORD + r")", first)
        if inv:
            one = p.invariant(chunk, inv[1], inv[2])
            if one is None:
                return said(f"left: {first}")
            invariants.append(one)
        elif NEED.search(body.split("=")[0]):
            index = p.need(NEED.search(body)[1], name, order)
            if index is None:
                left.append(first)
                continue
            one = p.answer(chunk, index)
            if one is None:
                left.append(first)
                continue
            if one:
                answers.append(one)
        elif re.search(r"→ statement M", first):
            pass
        else:
            answers.append(body.rstrip() + "\n")
    for l in left:
        said(f"by hand: {l}")
    module = f"Rattle.{crate}.proofs.{path}"
    head = "\n".join(uses) + "\n" if uses else ""
    if invariants:
        with open(os.path.join(folder, "Invariants.antt"), "w", encoding="utf-8") as f:
            f.write(head + f"use {module}.Given as goal\n\n" + "\n".join(invariants))
    if any(a.startswith(("pub ", "--")) and "goal." in a or not a.startswith("--") for a in answers):
        with open(os.path.join(folder, "Answers.antt"), "w", encoding="utf-8") as f:
            f.write(head + f"use {module}.Goals as goal\n\n" + "\n".join(answers))
    os.remove(file)


def main(argv):
    with open(argv[0], encoding="utf-8") as f:
        names = json.load(f)
    for crate in argv[1:]:
        root = os.path.join("crates", crate, "proofs")
        for folder, dirs, files in os.walk(root):
            if "Proof.antt" in files:
                turn(names, crate, folder, root)
    return 0


if __name__ == "__main__":
    sys.exit(main(sys.argv[1:]))
