#!/usr/bin/env python3
"""Prints the lists of docs/PORT.md: the names that fell together, and the theorems that moved from specs/ to proofs/, whole.

usage: python3 tools/port_page.py BEFORE      at the top of the repository; BEFORE is a folder with LANDED after port.py and tools/port_names.py
"""

import os
import re
import sys

WORD = r'[^\s(){}.;,@"«»]+'
SIG = re.compile(r"^(\s*)((?:(?:abbrev|unfoldable|pub|data|record)\s+)*)(" + WORD + r")((?:\s+\{[^}]*\}|\s+\([^)]*\))*)\s*:(?:\s|$)")


def read(p):
    with open(p, encoding="utf-8") as f:
        return f.read()


def statements(text):
    """(name, statement) of each declaration: the signature, whole, and of data and records all of it."""
    out, lines, i = [], text.split("\n"), 0
    where = []
    while i < len(lines):
        line = lines[i]
        if re.match(r"^\s*(pub )?module ", line):
            where = [line.strip()] if not line[0].isspace() else where[:1] + [line.strip()]
        elif line.strip() and not line[0].isspace() and not line.startswith("--"):
            where = []
        kind = re.match(r"^\s*(?:pub )?(data|record) (" + WORD + ")", line)
        m = SIG.match(line)
        indent = len(line) - len(line.lstrip())
        if (kind or m and not line.lstrip().startswith("--")) and indent > 2 * len(where):
            i += 1
            continue
        if kind or m and not line.lstrip().startswith("--"):
            whole = [line.strip()]
            i += 1
            while i < len(lines) and lines[i].strip() and len(lines[i]) - len(lines[i].lstrip()) > indent:
                whole.append(lines[i].strip())
                i += 1
            if m and not kind:
                # a `where` below a clause is no statement of its own
                head = []
                for w in whole:
                    if head and not w.startswith("→") and not head[-1].rstrip().endswith(("→", "×", "⊎", ":", "≡", "in", "(")):
                        break
                    head.append(w)
                whole = head
            out.append((kind[2] if kind else m[3], " ".join(where + whole) if where else " ".join(whole)))
            continue
        i += 1
    return out


def main(argv):
    before = argv[0]
    for crate in sorted(os.listdir("crates")):
        lib = f"crates/{crate}/proofs/Lib.antt"
        if not os.path.exists(lib):
            continue
        print(f"\n### {crate}\n")
        for file in re.findall(r"mod (\w+)", read(lib)):
            old = f"{before}/crates/{crate}/specs/{file}.antt"
            known = dict(statements(read(old))) if os.path.exists(old) else {}
            print(f"specs/{file}.antt to proofs/{file}.antt:\n\n```")
            for name, said in statements(read(f"crates/{crate}/proofs/{file}.antt")):
                mark = "" if known.get(name) == said else "   -- otherwise in the landed text" if name in known else "   -- new"
                print(said + mark)
            print("```\n")
    return 0


if __name__ == "__main__":
    sys.exit(main(sys.argv[1:]))
