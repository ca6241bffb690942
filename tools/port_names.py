#!/usr/bin/env python3
"""Brings the names that specs/ declares to today's spelling, after /opt/rattle/port/port.py: words in snake case.

usage: python3 tools/port_names.py [--list]      at the top of the repository, once, with everything committed

What turns: each name that a file of specs/ declares (definitions, lemmas, fields, constructors, the names of a `where`) and that
has a capital inside or a dash, wherever it stands as a whole word in specs/, proofs/, in a clause of src/ and in must-fail/; and in
the code spans of the documents. A name of a type or a module keeps its capital. Two names that would fall together: the one with a
dash, a lemma, gets `_lem`. Functions of src/, strings, inputs and outputs stay.
The crates hex and base64 have the names of libraries of today's kit, and get the names hex_digit and base64_digits.
--list prints the table, old and new, and writes nothing.
"""

import collections
import os
import re
import subprocess
import sys

WORD = r'[^\s(){}.;,@"«»]+'
TOKEN = re.compile(WORD)
DECLARED = re.compile(
    r"^\s*(?:(?:abbrev|unfoldable|pub|data|record|field)\s+)*(" + WORD + r")(?:\s+\{[^}]*\}|\s+\([^)]*\))*\s*:(?:\s|$)"
)
INLINE = re.compile(r"(?<![\w-])let (" + WORD + r")(?: :|\s*=)")
BINDERS = re.compile(r"[({]([^(){}:;]+) : ")
CRATES = {"hex": "hex_digit", "base64": "base64_digits"}
DOCS = ["README.md", "CONTRIBUTING.md", "docs"]


def files(*ends):
    for folder, dirs, names in os.walk("crates"):
        dirs[:] = sorted(d for d in dirs if d != "out")
        for name in sorted(names):
            if name.endswith(ends):
                yield os.path.join(folder, name)


def read(path):
    with open(path, encoding="utf-8", newline="") as f:
        return f.read()


def write(path, text):
    with open(path, "w", encoding="utf-8", newline="") as f:
        f.write(text)


def snake(name):
    """The name in snake case; a part with a capital in front keeps it."""
    parts = []
    for part in re.split(r"(?<=[^-])-(?=[^-])", name):
        if re.match(r"[A-Z]", part):
            parts.append(part)
        else:
            parts.append(re.sub(r"(?<=[a-z0-9])([A-Z])", lambda m: "_" + m[1].lower(), part))
    return "_".join(parts)


def code(text):
    """The text without its comments."""
    return "\n".join(re.sub(r"(?<![^\s(){}.;,@\"«»])--.*", "", line) for line in text.split("\n"))


def declared():
    found = set()
    for path in files(".antt"):
        if "/specs/" not in path:
            continue
        for line in read(path).split("\n"):
            if line.lstrip().startswith("--"):
                continue
            m = DECLARED.match(line)
            if m:
                found.add(m[1])
            found.update(INLINE.findall(line))
            found.update(w for ws in BINDERS.findall(line) for w in ws.split())
            found.update(re.findall(r" as (" + WORD + ")", line))
            found.update(w for w in TOKEN.findall(code(line)) if re.fullmatch(r"[a-z][a-z0-9_]*[A-Z]\w*'*", w))
    for path in files(".rt"):
        found.update(re.findall(r" as ([a-z]\w*[A-Z]\w*)", read(path)))
    # names of a type: nothing turns in them but a dash
    return {n for n in found if re.match(r"[^\W\d_]", n) and (re.search(r"[a-z0-9][A-Z]", n) and n[0].islower() or "-" in n)}


def table():
    names = declared()
    words = collections.defaultdict(set)  # new spelling: the words that have it
    for path in files(".antt"):
        for w in TOKEN.findall(code(read(path))):
            words[snake(w) if w in names else w].add(w)
    turned = {}
    for n in sorted(names):
        new = snake(n)
        if len(words[new]) > 1 and "-" in n:
            camel = [w for w in words[new] if w != n and "-" not in w]
            if camel or n != min(w for w in words[new] if "-" in w):
                new += "_lem"
        turned[n] = new
    # what port.py spelled in snake case already, and a definition comes to
    known = {m[1] for path in files(".antt") if "/specs/" in path for m in map(DECLARED.match, read(path).split("\n")) if m}
    for n in sorted(names):
        if "-" not in n and snake(n) in known and snake(n) not in names:
            turned[snake(n)] = snake(n) + "_lem"
    return turned


def renamed_crates(text):
    """Paths into the crates that get another name."""
    for old, new in CRATES.items():
        text = re.sub(rf"\bRattle\.{old}\.", f"Rattle.{new}.", text)
        text = re.sub(rf"(?<![\w:.]){old}::", f"{new}::", text)
    return text


def plain(word):
    """Whether a word may be a name of src/ too."""
    return "-" not in word and word.lower() == word


def turn(text, names, of_src=False):
    """Words that may be names of src/ turn in specs/ and proofs/ alone, and not behind a dot, where a function of src/ is named."""

    def one(m):
        if plain(m[0]) and (of_src or text[m.start() - 1 : m.start()] == "."):
            return m[0]
        return names.get(m[0], m[0])

    return TOKEN.sub(one, text)


def comment(text, names):
    """A comment: code spans, and words with a capital inside, which prose does not have."""
    text = re.sub(r"`[^`\n]*`", lambda m: turn(m[0].replace("`", " ` "), names, True).replace(" ` ", "`"), text)
    return re.sub(r"[A-Za-z0-9_]+", lambda m: names.get(m[0], m[0]) if re.match(r"[a-z]\w*[A-Z]", m[0]) else m[0], text)


def antt(text, names):
    out = []
    for line in text.split("\n"):
        m = re.match(r"(.*?(?<![^\s(){}.;,@\"«»]))(--.*)$", line) or re.match(r"()(\s*--.*)$", line)
        out.append(turn(m[1], names) + comment(m[2], names) if m else turn(line, names))
    return renamed_crates("\n".join(out))


QUIET = re.compile(r"""//[^\n]*|[bc]?"(?:\\.|[^"\\])*"|b?'(?:\\x..|\\.|[^'\\\n])'""")


def rt(text, names):
    """Clauses and ghost items. Code has none of these names: they have a dash or a capital inside."""
    out, last = [], 0
    for m in QUIET.finditer(text):
        out.append(turn(text[last : m.start()], names, True))
        out.append(comment(m[0], names) if m[0].startswith("//") else m[0])
        last = m.end()
    out.append(turn(text[last:], names, True))
    return renamed_crates("".join(out))


def edit(text, names):
    lines = []
    of_src = False
    for line in text.split("\n"):
        if line.startswith("file: "):
            of_src = line[6:].startswith("src/")
        if line.startswith(("old: ", "new: ")):
            line = line[:5] + renamed_crates(turn(line[5:], names, of_src))
        lines.append(line)
    return "\n".join(lines)


def document(text, names):
    text = re.sub(r"`[^`\n]*`", lambda m: comment(m[0], names), text)
    for old, new in CRATES.items():
        text = text.replace(f"crates/{old}/", f"crates/{new}/").replace(f"`{old}::", f"`{new}::").replace(f"`{old}`", f"`{new}`")
    return text


def main(argv):
    names = table()
    if argv == ["--list"]:
        for old, new in sorted(names.items()):
            print(old, new, sep="\t")
        return 0
    for old, new in CRATES.items():
        subprocess.run(["git", "mv", f"crates/{old}", f"crates/{new}"], check=True)
    turns = [((".antt",), antt), ((".rt",), rt), ((".edit",), edit)]
    for ends, one in turns:
        for path in files(*ends):
            text = read(path)
            new = one(text, names)
            if new != text:
                write(path, new)
    crates = read("crates.txt")
    for old, new in CRATES.items():
        crates = "\n".join(re.sub(rf"(?<![\w]){old}(?![\w])", new, line) if not line.startswith("#") else line for line in crates.split("\n"))
    write("crates.txt", crates)
    for top in DOCS:
        paths = [top] if top.endswith(".md") else [os.path.join(top, f) for f in sorted(os.listdir(top)) if f.endswith(".md")]
        for path in paths:
            if os.path.basename(path) == "LANDINGS.md":
                continue
            text = read(path)
            new = document(text, names)
            if new != text:
                write(path, new)
    return 0


if __name__ == "__main__":
    sys.exit(main(sys.argv[1:]))
