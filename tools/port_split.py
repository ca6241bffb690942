#!/usr/bin/env python3
"""Moves theorems from specs/ to proofs/ in the crates that are named, statements unchanged: what no contract reaches.

usage: python3 tools/port_split.py CRATE..      at the top of the repository

Today an edit of a definition counts only where a proof refuses it: theorems that rest on the definition stand in proofs/ then. What
contracts reach stays in specs/: from the names of the `ghost use` items of every crate through the definitions that they cite, and
what an edit of must-fail/ changes. All else of specs/F.antt goes to proofs/F.antt, and imports follow.
"""

import collections
import os
import re
import sys

WORD = r'[^\s(){}.;,@"«»]+'
TOKEN = re.compile(WORD)
USE = re.compile(r"^use Rattle\.(\w+)\.(specs|proofs)\.(declared\.)?(\w+)((?:\.[\w]+)*?)(?:\.\{([^}]*)\}| as ([^\s;]+))?$")
SIG = re.compile(r"^(\s*)((?:(?:abbrev|unfoldable|pub|data|record)\s+)*)(" + WORD + r")(?:\s+\{[^}]*\}|\s+\([^)]*\))*\s*:(?:\s|$)")

DEFINES = re.compile(r"^(pub )?(abbrev|unfoldable|data|record) ")


def read(p):
    with open(p, encoding="utf-8") as f:
        return f.read()


class File:
    def __init__(self, crate, name, folder="specs"):
        self.crate, self.name = crate, name
        self.path = f"crates/{crate}/{folder}/{name}.antt"
        lines = read(self.path).rstrip("\n").split("\n")
        self.head, self.uses, self.chunks = [], [], []
        i = 0
        while i < len(lines) and lines[i].startswith("--"):
            self.head.append(lines[i])
            i += 1
        cur = []
        for line in lines[i:]:
            if line.startswith("use "):
                self.uses.append(line)
                continue
            if line.strip() and not line[0].isspace() and self.starts(line, cur):
                lead = []
                while cur and (cur[-1].startswith("--") or not cur[-1].strip()):
                    lead.insert(0, cur.pop())
                if any(l.strip() for l in cur):
                    self.chunks.append(cur)
                cur = lead
            cur.append(line)
        if any(l.strip() for l in cur):
            self.chunks.append(cur)
        self.names = {}  # name -> chunk
        self.decl = []
        for k, chunk in enumerate(self.chunks):
            own = set()
            for line in chunk:
                if line.lstrip().startswith("--"):
                    continue
                m = SIG.match(line)
                if m and m[3] not in ("where",):
                    own.add(m[3])
                m = re.match(r"^\s*(?:pub )?(?:data|record|module) (" + WORD + ")", line)
                if m and m[1] != "_":
                    own.add(m[1])
            self.decl.append(own)
            for n in own:
                self.names.setdefault(n, k)

    @staticmethod
    def starts(line, cur):
        if line.startswith("--"):
            return False
        if re.match(r"^(pub |abbrev |unfoldable )*(data|record|module) ", line):
            return True
        m = SIG.match(line)
        return bool(m) and not line.startswith("unfolding ")

    def words(self, k):
        text = "\n".join(re.sub(r"(?<![^\s(){}.;,@\"«»])--.*", "", l) for l in self.chunks[k])
        return set(TOKEN.findall(text))

    def imported(self):
        """Names that the file brings in: (crate, file, name) by the name here, and modules."""
        out, modules = {}, []
        for u in self.uses:
            m = USE.match(u)
            if not m or m[3]:
                continue
            if m[6] is not None:
                for item in m[6].split(","):
                    item = item.strip()
                    if not item:
                        continue
                    a, _, b = item.partition(" as ")
                    out[b or a] = (m[1], m[4], a, m[5])
            else:
                modules.append((m[1], m[4], m[5], m[7]))
        return out, modules


def main(argv):
    crates = sorted(c for c in os.listdir("crates") if os.path.isdir(f"crates/{c}/specs"))
    files = {}
    for c in crates:
        for f in sorted(os.listdir(f"crates/{c}/specs")):
            if f.endswith(".antt") and f != "Lib.antt":
                files[(c, f[:-5])] = File(c, f[:-5])
    keep = collections.defaultdict(set)
    todo = []

    def need(c, f, n):
        it = files.get((c, f))
        if it and n in it.names and it.names[n] not in keep[(c, f)]:
            keep[(c, f)].add(it.names[n])
            todo.append((c, f, it.names[n]))

    for c in sorted(os.listdir("crates")):
        for root, dirs, fs in os.walk(f"crates/{c}/src"):
            for f in fs:
                if not f.endswith(".rt"):
                    continue
                for m in re.finditer(r"ghost use Rattle\.(\w+)\.specs\.(\w+)((?:\.\w+)*?)(?:\.\{([^}]*)\}| as \w+)?;", read(os.path.join(root, f))):
                    if m[4] is None:
                        for n in list(files[(m[1], m[2])].names) if (m[1], m[2]) in files else []:
                            need(m[1], m[2], n)
                        continue
                    for item in m[4].split(","):
                        need(m[1], m[2], item.strip().partition(" as ")[0])
                    for part in m[3].split("."):
                        need(m[1], m[2], part)
    # what edits change
    for c in argv:
        for sub in ("must-fail", "must-fail/more"):
            folder = f"crates/{c}/{sub}"
            for e in sorted(os.listdir(folder)) if os.path.isdir(folder) else []:
                if not e.endswith(".edit"):
                    continue
                file = None
                for line in read(f"{folder}/{e}").split("\n"):
                    if line.startswith("file: "):
                        file = line[6:].strip()
                    elif line.startswith("old: ") and file and file.startswith("specs/"):
                        it = files.get((c, os.path.basename(file)[:-5]))
                        hits = [k for k, ch in enumerate(it.chunks) if line[5:].strip() in "\n".join(ch)] if it else []
                        for k in hits:
                            first = next((l for l in it.chunks[k] if l.strip() and not l.startswith("--")), "")
                            if re.match(r"^(pub )?(abbrev|unfoldable|data|record)|^pub (abbrev|data|record)", first):
                                for n in it.decl[k]:
                                    need(c, it.name, n)
    # a file of definitions alone
    for (c, f), it in files.items():
        if c in argv and all(DEFINES.match(next((l for l in ch if l.strip() and not l.startswith("--")), "")) for ch in it.chunks):
            for own in it.decl:
                for n in own:
                    need(c, f, n)
    while todo:
        c, f, k = todo.pop()
        it = files[(c, f)]
        imports, modules = it.imported()
        for w in it.words(k):
            if w in it.names:
                need(c, f, w)
            if w in imports:
                cc, ff, n, path = imports[w]
                need(cc, ff, n)
                for part in path.split("."):
                    if part:
                        need(cc, ff, part)
        for cc, ff, path, alias in modules:
            name = alias or ff
            if name in it.words(k):
                for n in files[(cc, ff)].names if (cc, ff) in files else []:
                    need(cc, ff, n)
    moved = {}  # (crate, file) -> names that go
    for (c, f), it in files.items():
        if c not in argv:
            continue
        gone = [k for k in range(len(it.chunks)) if k not in keep[(c, f)]]
        if gone:
            stay = set().union(set(), *[it.decl[k] for k in keep[(c, f)]])
            moved[(c, f)] = (set().union(*[it.decl[k] for k in gone]) - stay, gone)

    def turn_uses(uses, crate, folder, self_file=None):
        out = []
        for u in uses:
            m = USE.match(u)
            if not m or m[3] or (m[1], m[4]) not in moved or m[2] == "proofs":
                out.append(u)
                continue
            names, gone = moved[(m[1], m[4])]
            whole = len(gone) == len(files[(m[1], m[4])].chunks)
            base = f"use Rattle.{m[1]}.%s.{m[4]}{m[5]}"
            if m[6] is None or m[5]:
                first = m[5].split(".")[1] if m[5] else None
                to = "proofs" if whole or first in names else "specs"
                out.append(u.replace(f"Rattle.{m[1]}.specs.", f"Rattle.{m[1]}.{to}.", 1))
                continue
            items = [i.strip() for i in m[6].split(",") if i.strip()]
            there = [i for i in items if i.partition(" as ")[0] in names]
            here = [i for i in items if i not in there]
            if here:
                out.append(base % "specs" + ".{" + ", ".join(here) + "}")
            if there:
                out.append(base % "proofs" + ".{" + ", ".join(there) + "}")
        return out

    for (c, f), (names, gone) in moved.items():
        it = files[(c, f)]
        stay = [k for k in range(len(it.chunks)) if k not in gone]
        kept_names = set().union(set(), *[it.decl[k] for k in stay])
        used = set().union(set(), *[it.words(k) for k in gone])
        cited = sorted(n for n in kept_names & used if any(re.match(rf"^(?:(?:abbrev|unfoldable|pub|data|record)\s+)*{re.escape(n)}(?![^\s:({{])", l) for k in stay for l in it.chunks[k]) or any(re.match(rf"^(?:pub )?(?:data|record) {re.escape(n)}(?![^\s:({{])", l) for k in stay for l in it.chunks[k]))
        inner = []  # constructors of kept data types
        for k in stay:
            first = next((l for l in it.chunks[k] if l.strip() and not l.startswith("--")), "")
            m = re.match(r"^(?:pub )?data (" + WORD + ")", first)
            if m:
                ctors = sorted((it.decl[k] - {m[1]}) & used)
                if ctors:
                    inner.append((m[1], ctors))
        extra = []
        if cited:
            extra.append(f"use Rattle.{c}.specs.{f}.{{" + ", ".join(cited) + "}")
        for t, ctors in inner:
            extra.append(f"use Rattle.{c}.specs.{f}.{t}.{{" + ", ".join(ctors) + "}")
        unfolded = set()
        for k in gone:
            for l in it.chunks[k]:
                m = re.match(r"^\s*unfolding (.*)", l)
                if m:
                    unfolded |= set(m[1].split())
        # private names that the moved part cites become public, and what it unfolds unfoldable
        for k in stay:
            new = []
            for l in it.chunks[k]:
                m = re.match(r"^((?:abbrev |unfoldable |pub |data |record )*)(" + WORD + ")(.*)$", l)
                if m and m[2] in cited and SIG.match(l) or m and re.match(r"^(pub )?(data|record) ", l) and m[2] in cited:
                    words = m[1].split()
                    if "pub" not in words:
                        words = (["pub"] + words) if words[:1] in (["data"], ["record"]) else words + ["pub"]
                    if m[2] in unfolded and not {"abbrev", "unfoldable", "data", "record"} & set(words):
                        words = ["unfoldable"] + words
                    l = " ".join(words) + " " + m[2] + m[3]
                new.append(l)
            it.chunks[k] = new
        os.makedirs(f"crates/{c}/proofs", exist_ok=True)
        lib = f"crates/{c}/proofs/Lib.antt"
        text = read(lib) if os.path.exists(lib) else ""
        with open(lib, "w", encoding="utf-8") as o:
            o.write(text + f"pub mod {f}\n")
        with open(f"crates/{c}/proofs/{f}.antt", "w", encoding="utf-8") as o:
            o.write("\n".join((it.head if len(gone) == len(it.chunks) or f.endswith("Laws") else [f"-- Theorems on {f}.antt of specs/."]) + turn_uses(it.uses, c, "proofs") + extra) + "\n" + "\n".join("\n".join(it.chunks[k]) for k in gone) + "\n")
        if stay:
            with open(it.path, "w", encoding="utf-8") as o:
                o.write("\n".join(it.head + [u for u in turn_uses(it.uses, c, "specs") if not u.startswith(f"use Rattle.{c}.proofs.")]) + "\n" + "\n".join("\n".join(it.chunks[k]) for k in stay) + "\n")
        else:
            os.remove(it.path)
            lib = f"crates/{c}/specs/Lib.antt"
            rest = read(lib).replace(f"pub mod {f}\n", "").replace(f"mod {f}\n", "") if f"mod {f}" in read(lib) else read(lib)
            with open(lib, "w", encoding="utf-8") as o:
                o.write(rest)
    # imports of everything else
    for c in sorted(os.listdir("crates")):
        for sub in ("specs", "proofs"):
            for root, dirs, fs in os.walk(f"crates/{c}/{sub}"):
                for f in fs:
                    p = os.path.join(root, f)
                    if not f.endswith(".antt") or f == "Lib.antt":
                        continue
                    text = read(p)
                    lines = text.split("\n")
                    new = []
                    for l in lines:
                        new += turn_uses([l], c, sub) if l.startswith("use ") else [l]
                    if new != lines:
                        with open(p, "w", encoding="utf-8") as o:
                            o.write("\n".join(new))
    for (c, f), (names, gone) in sorted(moved.items()):
        print(f"{c}/{f}: {len(gone)} of {len(files[(c, f)].chunks)} moved")
    return 0


if __name__ == "__main__":
    sys.exit(main(sys.argv[1:]))
