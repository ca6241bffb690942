#!/usr/bin/env python3
"""Prints the lists of docs/DESIGN-PASS.md: each public signature with its clauses, public type, definition and theorem that the design pass changed,
old and new side by side.

usage: python3 tools/design_page.py BEFORE      at the top of the repository; BEFORE is a checkout of the commit at which the pass began

A definition (abbrev, unfoldable, data, record) is compared whole; of a theorem or a law the statement, wherever it lies in its crate.
"""

import glob
import os
import re
import sys

sys.path.insert(0, os.path.dirname(os.path.abspath(__file__)))
from port_page import SIG, WORD, statements  # noqa: E402


def read(path):
    with open(path, encoding="utf-8") as f:
        return f.read()


def squeeze(text):
    return re.sub(r"\s+", " ", text).strip()


def code(root, crate):
    """{name: text} of the public functions, with their clauses, and of the public types and traits."""
    found = {}
    for path in sorted(glob.glob(f"{root}/crates/{crate}/src/**/*.rt", recursive=True)):
        text = re.sub(r"[ \t]*//[^\n]*", "", read(path))
        text = re.sub(r"\n +#\[[^\n]*", "", text)
        owner = ""
        for m in re.finditer(r"^(?P<impl>impl\b[^{]*)\{|^(?P<type>pub (?:struct|enum|trait) (\w+)[^\n]*\{\n.*?^\})|^(?P<unit>pub struct \w+;)|^(?P<in> *)pub (?:extern \"C\" )?fn (?P<fn>\w+)", text, re.M | re.S):
            if m["impl"]:
                owner = squeeze(m["impl"])
                if " for " in owner:
                    found[owner] = owner + " { .. }"
            elif m["type"]:
                found[re.match(r"pub \w+ (\w+)", m["type"])[1]] = squeeze(m["type"])
                owner = ""
            elif m["unit"]:
                found[m["unit"]] = m["unit"]
            else:
                indent = m["in"]
                rest = text[m.start():]
                b = re.search(r"\n" + indent + r"\{\n|\) *(?:-> [^\n{;]+)? \{\n", rest)
                head = squeeze(rest[: b.start() + (1 if b and rest[b.start()] == ")" else 0)]) if b else squeeze(rest.split("\n")[0])
                if b and rest[b.start()] == ")":
                    head = squeeze(rest[: b.end() - 2])
                name = (re.sub(r"^impl(?:<[^>]*>)? ", "", owner) + "::" if indent else "") + m["fn"]
                found[name] = head
    return found


def whole(text):
    """{name: text} of definitions whole and of laws by their statements."""
    said = {}
    lines = text.split("\n")
    known = {}
    for name, statement in statements(text):
        known[name] = statement
    i = 0
    while i < len(lines):
        line = lines[i]
        kind = re.match(r"^\s*(?:pub )?(data|record) (" + WORD + ")", line)
        m = SIG.match(line)
        if (kind or m) and not line.lstrip().startswith("--"):
            name = kind[2] if kind else m[3]
            mods = m[2] if m else "data"
            block = [re.sub(r"\s*--.*", "", line.strip())]
            indent = len(line) - len(line.lstrip())
            i += 1
            while i < len(lines):
                here = lines[i]
                if not here.strip() or here.lstrip().startswith("--") and len(here) - len(here.lstrip()) <= indent:
                    break
                n = SIG.match(here)
                if n and len(here) - len(here.lstrip()) <= indent and n[3] != name:
                    break
                block.append(here.strip())
                i += 1
            if name in known:
                said[name] = squeeze(" ".join(block)) if kind or "abbrev" in mods or "unfoldable" in mods else known[name]
            continue
        i += 1
    for name, statement in known.items():
        said.setdefault(name, statement)
    return said


def logic(root, crate):
    found = {}
    for place in ("specs", "proofs"):
        for path in sorted(glob.glob(f"{root}/crates/{crate}/{place}/*.antt")):
            if path.endswith("/Lib.antt"):
                continue
            for name, said in whole(read(path)).items():
                found[name] = re.sub(r"^module _[^:]*where ", "", said) if False else said
    return found


def cell(text):
    return "`" + text.replace("|", "\\|").replace("`", "'") + "`" if text else ""


def table(rows, title):
    if rows:
        print(f"\n{title}\n\n| name | before | now |\n|---|---|---|")
        for name, old, new in rows:
            print(f"| `{name}` | {cell(old)} | {cell(new)} |")


def main(argv):
    before = argv[0]
    crates = sorted(set(os.listdir("crates")) | set(os.listdir(f"{before}/crates")))
    counts = {}
    for crate in crates:
        sections = []
        for title, pick in (("Public functions and types:", code), ("Definitions and statements:", logic)):
            old, new = pick(before, crate), pick(".", crate)
            changed = [(n, old[n], new[n]) for n in old if n in new and old[n] != new[n]]
            gone = [(n, old[n], "") for n in old if n not in new]
            made = [(n, "", new[n]) for n in new if n not in old]
            if pick is logic:
                made = []
            counts[title] = [a + b for a, b in zip(counts.get(title, [0, 0, 0]), (len(changed), len(gone), len(made)))]
            if changed or gone or made:
                sections.append((title, changed + gone + made))
        if sections:
            print(f"\n### {crate}")
            for title, rows in sections:
                table(rows, title)
    print()
    for title, (a, b, c) in counts.items():
        print(f"{title} {a} changed, {b} gone from their names, {c} new.")
    return 0


if __name__ == "__main__":
    sys.exit(main(sys.argv[1:]))
