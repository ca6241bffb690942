#!/usr/bin/env python3
"""design_places: the places of the design pass (docs/DESIGN-PASS.md) in crates/*/src, by reading the text alone.

    tools/design_places.py POINT [FOLDER]    lists the places of a point, a line each, then their number; FOLDER is a checkout, else this one

The points:
    enums      enums of two cases of which one is a failure, or of which one has no value and the others have one; enums with a case for 'nothing is wrong'
    flags      structs with a bool beside other fields
    none       functions that answer 0, `at` or a length for 'none': a number is answered by an early return, and the name is of a length, a place or a step
    numbers    functions that turn a number into a case of an enum, and constants whose letters or numbers stand for kinds
    twins      functions whose text is the same but for names and numbers, of four lines or more; a group each
    loops      while loops that count an index by a constant step
    equal      matches whose arms are all true or false
    convert    functions that are one cast, or one `if` between two constants
    facts      conjuncts of clauses that stand, but for names, in the `requires` of three functions or more
    together   pairs of parameters of plain types that stand together in three functions or more of a crate
    arrays     arrays with a count beside them, and constant arrays that are parallel
    switches   functions that pick by a flag or a number which step runs
"""
import collections, glob, os, re, sys

FN = re.compile(r"^( *)(?:pub(?:\(crate\))? )?(?:unsafe )?(?:extern \"C\" )?fn (\w+)", re.M)


def sources(root):
    for path in sorted(glob.glob(os.path.join(root, "crates", "*", "src", "**", "*.rt"), recursive=True)):
        text = open(path, encoding="utf8").read()
        yield os.path.relpath(path, os.path.join(root, "crates")).replace("/src/", "/"), re.sub(r"//[^\n]*", "", text)


def functions(text):
    """(name, head, body) of each function with a body."""
    for m in FN.finditer(text):
        at, depth, ensures = m.end(), 0, None
        start = None
        i = m.start()
        # the body is the first '{' that stands alone on its line or ends the line of the head, outside of clauses
        rest = text[m.start():]
        b = re.search(r"\n" + m.group(1) + r"\{\n|\) *(?:-> [^\n{;]+)? \{\n", rest)
        semi = re.search(r";\n", rest)
        if not b or (semi and semi.start() < b.start() and "{" not in rest[: semi.start()]):
            continue
        i = m.start() + b.end() - 1
        depth = 1
        j = i
        while depth and j < len(text):
            if text[j] == "{":
                depth += 1
            elif text[j] == "}":
                depth -= 1
            j += 1
        yield m.group(2), text[m.start(): m.start() + b.start()], text[i: j - 1]


def items(text, word):
    for m in re.finditer(r"^(?:pub(?:\(crate\))? )?" + word + r" (\w+)(?:<[^>]*>)? \{(.*?)^\}", text, re.M | re.S):
        yield m.group(1), [p.strip() for p in re.split(r",\s*\n", m.group(2).strip()) if p.strip()]


FAULTY = r"Fine|WellFormed|Clean|Absent|Accept|Passe[sd]|Nothing|InPlace|To|Text|Kept"


def enums(path, text):
    for name, cases in items(text, "enum"):
        valued = [c for c in cases if "(" in c or "{" in c]
        if any(re.match(r"(?:" + FAULTY + r")\b", c) for c in cases) or (len(cases) == 2 and len(valued) == 1):
            yield f"{path}: {name} {{ {', '.join(c.splitlines()[-1].strip() for c in cases)} }}"


def flags(path, text):
    for name, fields in items(text, "struct"):
        bools = [f for f in fields if re.search(r": bool\b", f)]
        codes = [f for f in fields if re.search(r"\bnumber: (?:u8|usize)", f)]
        none = [f for f in fields if re.search(r"\bsize: usize", f)] if name == "Unit" else []
        if (bools and len(fields) > len(bools)) or codes or none:
            yield f"{path}: {name} {{ {', '.join(f.splitlines()[-1].strip() for f in fields)} }}"


def none(path, text):
    for name, head, body in functions(text):
        if not re.search(r"-> usize", head) or "&mut" in head:
            continue
        if re.search(r"(?:return|else \{|=>)\s*(?:0|at|i|8192)\b\s*[;},\n]", body) and re.search(r"(?:_len|_end|_size|_step|_after|_at|^inside|^counted|block_end|fill_keys)", name):
            if re.search(r"run |blank_run|_run\b", head) and not re.search(r"return 0", body):
                continue
            yield f"{path}: {name}"
    for name, head, body in functions(text):
        if name == "fill_keys":
            yield f"{path}: {name}"


def numbers(path, text):
    for name, head, body in functions(text):
        m = re.search(r"-> (?:\w+::)*([A-Z]\w+)$", head.split("ensures")[0].split("requires")[0].strip())
        if m and re.search(r"\((?:\w+: (?:u8|u32|u64|usize)(?:, )?)+\)", head) and len(re.findall(r"if \w+ == ", body)) >= 1 and re.search(r"\w+::\w+", body):
            if not re.search(r"_step$|_end$|_more$", name):
                yield f"{path}: {name} ({m.group(1)} by a number)"
    for m in re.finditer(r"^const (KINDS|STARTS|NAMES)\b", text, re.M):
        if m.group(1) == "KINDS" and "[u8" in text[m.start(): m.start() + 40]:
            yield f"{path}: {m.group(1)}"


WORD = re.compile(r"[A-Za-z_]\w*|\d+|b?'(?:\\.|[^'])'|b?\"[^\"]*\"|\S")
KEPT = set("let mut while for in if else return match fn usize u8 u32 u64 bool loop as break continue true false".split())


def shape(head, body):
    made, names = [], {}
    for w in WORD.findall(head.split("ensures")[0].split("requires")[0] + body):
        if w in ("pub", "crate"):
            continue
        if re.match(r"[A-Za-z_]", w) and w not in KEPT and not w.startswith("b'") and not w.startswith('b"'):
            made.append("n")
        elif re.match(r"\d|b?['\"]", w):
            made.append("0")
        else:
            made.append(w)
    return " ".join(made)


def twins(root):
    groups = collections.defaultdict(list)
    for path, text in sources(root):
        for name, head, body in functions(text):
            if len([l for l in body.strip().splitlines() if l.strip() not in ("}", "")]) >= 3:
                groups[shape(head, body)].append(f"{path}:{name}")
    for shaped, names in sorted(groups.items(), key=lambda g: g[1]):
        if len(names) > 1:
            yield f"{len(names)}: " + ", ".join(names)


def loops(path, text):
    for name, head, body in functions(text):
        for m in re.finditer(r"\n( *)while ([^\n]*) \{\n(.*?)\n\1\}", body, re.S):
            cond, inner = m.group(2), m.group(3)
            if cond.startswith("let "):
                continue
            for v in set(re.findall(r"\b([a-z_]\w*)\b", cond)):
                if re.search(r"\b" + v + r" (?:\+=|-=) (?:\d+|[A-Z]\w*);", inner) or re.search(r"\b" + v + r" = (?:last|[klje] \+ 1|l \+ 1|e|buffer::place_after\(" + v + r", \d+\));", inner) and re.search(r"let (?:e|last|[jkl]) = (?:" + v + r"|[jkl]) [-+] \d+", inner):
                    yield f"{path}: {name}: while {cond}"
                    break


def equal(path, text):
    for name, head, body in functions(text):
        for m in re.finditer(r"match [^\n{]* \{\n(.*?)\n    \}", body, re.S):
            arms = [a.strip() for a in m.group(1).splitlines() if "=>" in a]
            if len(arms) > 2 and all(re.search(r"=> (?:true|false),$", a) for a in arms):
                yield f"{path}: {name} ({len(arms)} arms)"


def convert(path, text):
    for name, head, body in functions(text):
        b = body.strip()
        if re.fullmatch(r"\w+ as \w+", b):
            yield f"{path}: {name}: {b}"
        elif re.fullmatch(r"if \w+ \{ (?:\d+|\w) \} else \{ (?:\d+|\w) \}", b):
            yield f"{path}: {name}: {b}"
        elif re.fullmatch(r"if (\w+) < (\w+) \{ \1 \} else \{ \2 \}", b) or re.search(r"18446744073709551615", b):
            yield f"{path}: {name}"
        elif re.search(r"\(65 <= b\) & \(b <= 90\) \{ b \+ 32 \}", b):
            yield f"{path}: {name}"


def clauses(text):
    for m in re.finditer(r"requires(?: \w+)? \{ (.*) \}\n", text):
        yield m.group(1)


def facts(root):
    seen = collections.defaultdict(list)
    for path, text in sources(root):
        for name, head, body in functions(text):
            for clause in clauses(head + "\n"):
                for part in re.split(r" × ", clause):
                    part = part.strip("() ")
                    part = re.sub(r"\b(\w+)\.(now|old)\b", r"_.\2", part)
                    seen[part].append(f"{path}:{name}")
    for part, names in sorted(seen.items(), key=lambda s: -len(s[1])):
        if len(names) >= 3:
            yield f"{len(names)}: {part}"


def together(root):
    for crate in sorted(os.listdir(os.path.join(root, "crates"))):
        seen = collections.Counter()
        for path, text in sources(root):
            if not path.startswith(crate + "/"):
                continue
            for name, head, body in functions(text):
                params = re.findall(r"(\w+): (?:&mut |&)?(?:\[[^\]]*\]|\w+)", re.sub(r"\s+", " ", head.split("ensures")[0].split("requires")[0]))
                for i, a in enumerate(params):
                    for b in params[i + 1:]:
                        seen[(a, b)] += 1
        for (a, b), n in sorted(seen.items(), key=lambda s: -s[1]):
            if n >= 3 and a not in ("out", "rt") and b not in ("out", "at", "scratch", "rt") and a != "s":
                yield f"{crate}: {a}, {b}: {n} functions"


def arrays(path, text):
    for name, head, body in functions(text):
        if re.search(r"\w+: &(?:mut )?\[\w+; \d+\]", head) and re.search(r"\b(?:count|n): usize", head):
            yield f"{path}: {name}"
    many = re.findall(r"^const (\w+): \[\w+; \d+\]", text, re.M)
    if len(many) > 1:
        yield f"{path}: {', '.join(many)}"


def switches(path, text):
    for name, head, body in functions(text):
        for m in re.finditer(r"match ([^\n{]*) \{\n(.*?)\n    \}", body, re.S):
            arms = [a.strip() for a in m.group(2).splitlines() if "=>" in a]
            if "byte_at" in m.group(1) and len(arms) > 2 and sum("(" in a.split("=>")[1] for a in arms) > 2:
                yield f"{path}: {name}"


def main():
    if len(sys.argv) < 2 or sys.argv[1] not in globals():
        sys.exit(__doc__)
    root = sys.argv[2] if len(sys.argv) > 2 else os.path.dirname(os.path.dirname(os.path.abspath(__file__)))
    point = globals()[sys.argv[1]]
    found = list(point(root)) if sys.argv[1] in ("twins", "facts", "together") else [p for path, text in sources(root) for p in point(path, text)]
    found = list(dict.fromkeys(found))
    for line in found:
        print(line)
    print(len(found))


main()
