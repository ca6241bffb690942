#!/usr/bin/env python3
"""Tests of hennelaku-read: read.py PROGRAM. One line for each, ok or FAIL; the last line reads 'N passed, M failed'."""
import json
import os
import pathlib
import random
import re
import shutil
import subprocess
import sys
import tempfile
import unicodedata

from checks import check, closing_line, in_terminal, run, same

PROGRAM = pathlib.Path(sys.argv[1]).resolve()
ROOM = pathlib.Path(tempfile.mkdtemp())

# Fields as the relay writes them, and what they say.
GREEK = """\
Downgraded-Mail-From: =?UTF-8?Q?=3C=CE=BB=40=CF=80=2Egr_=3Cl=40x=3E=3E?=
From:
 Internationalized Address
 =?UTF-8?Q?=CE=BB=40=CF=80=2Egr?=
 Removed:;
Downgraded-From: =?UTF-8?B?zpvOuc68zqzOvc65?=
 =?UTF-8?Q?_=3C=CE=BB=40=CF=80=2Egr=3E?=
To: <b@x>
Subject: =?UTF-8?Q?=CE=B2=CE=BF=CF=81=CE=B9=CE=AC=CF=82?=
Date: Mon, 2 Feb 2026 18:00:00 +0200

Downgraded-Body: this is no field
"""
GREEK_FIELDS = "Downgraded-Mail-From: <λ@π.gr <l@x>>\nDowngraded-From: Λιμάνι <λ@π.gr>\n"
GREEK_ROW = ["2026-02-02 18:00 +0200", "Λιμάνι <λ@π.gr>", "<b@x>", "βοριάς"]
JAPANESE = """\
Downgraded-Rcpt-To: =?UTF-8?B?POa4r0B4IDxiQHg+Pg==?=
From: a@x
Subject: =?UTF-8?B?5Y+w6aKo5o6l6L+R?=
Date: Sat, 12 Sep 2026 21:00 GMT

"""
JAPANESE_ROW = ["2026-09-12 21:00 GMT", "a@x", "港@x", "台風接近"]
PLAIN = "From: a@x\nSubject: plain\n\nbody\n"


def file(name, text):
    path = ROOM / name
    path.parent.mkdir(parents=True, exist_ok=True)
    path.write_bytes(text if isinstance(text, bytes) else text.encode())
    return path


def crlf(text):
    return text.replace("\n", "\r\n")


def read(*arguments, data=b"", **options):
    status, out, err = run(PROGRAM, *arguments, data=data, cwd=ROOM, **options)
    return status, out.decode(), err.decode()


def messages():
    file("g.eml", GREEK)
    file("j.eml", JAPANESE)
    file("p.eml", PLAIN)
    same("a message with LF", read("g.eml"), (0, GREEK_FIELDS, ""))
    file("gc.eml", crlf(GREEK))
    same("a message with CRLF", read("gc.eml"), (0, GREEK_FIELDS, ""))
    file("gm.eml", GREEK.replace("\n", "\r\n", 4))
    same("a message with both", read("gm.eml"), (0, GREEK_FIELDS, ""))
    same("no such field", read("p.eml"), (0, "", ""))
    same("an empty file", read(file("none", "").name), (0, "", ""))
    same("a header without a body", read(file("h.eml", GREEK.partition("\n\n")[0] + "\n").name), (0, GREEK_FIELDS, ""))
    same("standard input", read(data=GREEK.encode()), (0, GREEK_FIELDS, ""))
    same("standard input named -", read("-", data=GREEK.encode()), (0, GREEK_FIELDS, ""))
    japanese = "Downgraded-Rcpt-To: <港@x <b@x>>\n"
    named = "".join(f"g.eml: {line}\n" for line in GREEK_FIELDS.splitlines()) + f"j.eml: {japanese}"
    same("two files", read("g.eml", "p.eml", "j.eml"), (0, named, ""))
    same("a file after --", read("--", "j.eml"), (0, japanese, ""))
    status, out, err = read("g.eml", "none.eml", "j.eml")
    same("a missing file, and the rest goes on", (status, out, err), (66, named, "none.eml: No such file or directory\n"))


def mboxes():
    def mbox(texts, end="\n"):
        return "".join(f"From a@x Mon Feb  2 18:00:00 2026\n{t}\n" for t in texts).replace("\n", end)

    quoted = GREEK + "\nFrom here on it is body\nFrom a@x Mon Feb  2 18:00:00 2026\n"
    for name, end in (("LF", "\n"), ("CRLF", "\r\n")):
        file("one", mbox([GREEK], end))
        same(f"an mbox of one, {name}", read("one"), (0, GREEK_FIELDS, ""))
        file("three", mbox([quoted, PLAIN, JAPANESE], end))
        want = "".join(f"three:1: {line}\n" for line in GREEK_FIELDS.splitlines()) + "three:3: Downgraded-Rcpt-To: <港@x <b@x>>\n"
        same(f"an mbox of three, {name}", read("three"), (0, want, ""))
        status, out, _ = read("-t", "three")
        same(f"an mbox as a table, {name}", [row.split("\t")[4] for row in out.splitlines()], ["three:1", "three:2", "three:3"])
    same("From with a blank before its colon is no From line", read(data=b"From : a at 10:30\nDowngraded-A: b\n\n")[1][:12], "Downgraded-A")


def folders():
    file("md/cur/2:2,S", GREEK)
    file("md/new/1", crlf(JAPANESE))
    file("md/tmp/3", GREEK)
    want = "".join(f"md/cur/2:2,S: {line}\n" for line in GREEK_FIELDS.splitlines()) + "md/new/1: Downgraded-Rcpt-To: <港@x <b@x>>\n"
    same("a Maildir", read("md"), (0, want, ""))
    file("plain/b.eml", JAPANESE)
    file("plain/a.eml", JAPANESE)
    file("plain/.hidden", JAPANESE)
    file("plain/below/c.eml", JAPANESE)
    os.mkfifo(ROOM / "plain/fifo")
    want = "".join(f"plain/{n}.eml: Downgraded-Rcpt-To: <港@x <b@x>>\n" for n in "ab")
    same("a folder of messages, with a pipe and a folder in it", read("plain"), (0, want, ""))
    (ROOM / "empty").mkdir()
    same("an empty folder", read("empty"), (0, "", ""))
    file("gone/a.eml", JAPANESE)
    os.symlink("nowhere", ROOM / "gone/b.eml")
    same(
        "a folder with a link to nothing",
        read("gone"),
        (66, "gone/a.eml: Downgraded-Rcpt-To: <港@x <b@x>>\n", "gone/b.eml: No such file or directory\n"),
    )


REASONS = {
    1: "the field is malformed",
    2: "an encoded word is malformed, or of another encoding than Q and B",
    3: "an encoded word has another charset than UTF-8",
    4: "the bytes of an encoded word are not UTF-8",
}


def refusals():
    for number, value in [(1, b"a\rb"), (2, b"=?UTF-8?X?a?="), (3, b"=?ISO-8859-1?Q?a?="), (4, b"=?UTF-8?Q?=C3?=")]:
        text = b"Downgraded-A: b\nDowngraded-X: " + value + b"\nDowngraded-C: d\n\n"
        refusal = f"! Downgraded-X: refused by {number}: {REASONS[number]}\n"
        same(f"refused by {number}", read(data=text), (65, f"Downgraded-A: b\n{refusal}Downgraded-C: d\n", ""))
        status, out, err = read("-t", data=text)
        same(f"refused by {number}, in a table", (status, out, err), (65, "\t\t\t\tstandard input\n", f"standard input: {refusal}"))
        status, out, _ = read("--json", data=text)
        same(
            f"refused by {number}, in JSON",
            (status, json.loads(out)["fields"][1]),
            (65, {"name": "Downgraded-X", "refused": number, "reason": REASONS[number]}),
        )
    same("a missing file is told before a refused field", read("none.eml", "-", data=b"Downgraded-X\n\n")[0], 66)


def tables():
    rows = [GREEK_ROW + ["g.eml"], JAPANESE_ROW + ["j.eml"], ["", "a@x", "", "plain", "p.eml"]]
    status, out, err = read("-t", "g.eml", "j.eml", "p.eml")
    same("a table of cells parted by TABs", (status, [line.split("\t") for line in out.splitlines()], err), (0, rows, ""))
    status, out, err = read("--json", "g.eml", "j.eml", "p.eml")
    keys = ("date", "from", "to", "subject", "file")
    same("an object for each message", [[o[k] for k in keys] for o in map(json.loads, out.splitlines())], rows)
    same(
        "the fields of an object",
        json.loads(out.splitlines()[0])["fields"],
        [dict(zip(("name", "text"), line.split(": ", 1))) for line in GREEK_FIELDS.splitlines()],
    )
    same("the number of a message in an mbox", [json.loads(line)["message"] for line in read("--json", "three")[1].splitlines()], [1, 2, 3])
    foreign = "Subject: =?ISO-8859-1?Q?a?=\n b\nFrom: a\n\n"
    same(
        "a subject of another charset is shown as it stands",
        read("-t", data=foreign.encode()),
        (0, "\ta\t\t=?ISO-8859-1?Q?a?= b\tstandard input\n", ""),
    )
    for text, want in [
        ("2 Feb 2026 18:00:01 +0200 (x)", "2026-02-02 18:00 +0200"),
        ("Mon,  2 FEB 2026 8:05 -0100", "2026-02-02 08:05 -0100"),
        ("yesterday", "yesterday"),
        ("2 Fex 2026 18:00 +0200", "2 Fex 2026 18:00 +0200"),
        ("2 Feb 2026 18:00", "2026-02-02 18:00"),
        ("2" + " " * 300 + "Feb 2026 18:00:", "2026-02-02 18:00"),
    ]:
        same(f"the date {text}", read("-t", data=f"Date: {text}\n\n".encode())[1].split("\t")[0], want)
    quoted = "Downgraded-Mail-From: " + '<"a <\\"é"@x <b@x>>' + "\nFrom: c@x\n\n"
    same("a quoted address before its alternative", read("-t", data=quoted.encode())[1].split("\t")[1], r'"a <\\"é"@x')


# What a mail must not send to a terminal, and characters that it may.
STEERING = [chr(c) for c in [*range(0x20), *range(0x7F, 0xA0), *range(0x2028, 0x202F), *range(0x2066, 0x206A), 0xFEFF, 0xE0041]]
HARMLESS = "aé…‍‌ الميناء नी 🚢👩‍✈️ \u200f"


def steers(text, besides="\n"):
    return [c for c in text if (unicodedata.category(c) in ("Cc", "Zl", "Zp") or c in STEERING) and c not in besides]


def encoded(text):
    return "=?UTF-8?Q?" + "".join(f"={b:02X}" for b in text.encode()) + "?="


def quoting():
    for form in ([], ["-t"], ["--json"]):
        found = []
        for c in STEERING:
            name = "" if c in "\0\r\n" else c
            text = f"Downgraded-From: {encoded('a' + c + 'b')}\nDowngraded-{name}X: b\nSubject: {encoded(c)}\n\n"
            status, out, err = read(*form, data=text.encode())
            found += steers(out, "\n\t" if form == ["-t"] else "\n") + steers(err)
            if form == ["--json"] and json.loads(out)["fields"][0]["text"] != "a" + c + "b":
                found.append(f"U+{ord(c):X} is {out}")
        check(f"nothing steers the terminal {form}", found)
        text = f"Downgraded-From: {encoded(HARMLESS)}\n\n"
        status, out, err = read(*form, data=text.encode())
        check(f"scripts, joiners and emoji stay {form}", None if HARMLESS in out else out)
    same(
        "how they are quoted",
        read(data=f"Downgraded-X: {encoded(chr(27) + '[2J' + chr(0x9b) + chr(0x202e) + chr(92))}\n\n".encode())[1],
        "Downgraded-X: \\x1b[2J\\u{9B}\\u{202E}\\\\\n",
    )
    name = b"\x1b[2J\xff.eml"
    (pathlib.Path(os.fsdecode(os.path.join(os.fsencode(ROOM), name)))).write_text(JAPANESE)
    status, out, err = read("g.eml", name)
    same("the name of a file", out.splitlines()[-1].split(": ")[0], r"\x1b[2J\xff.eml")
    same("the name of a file in JSON", json.loads(read("--json", name)[1])["file"], "\x1b[2J\ufffd.eml")
    status, out, err = read("\x1b[2J.none")
    same("the name of a missing file", err, "\\x1b[2J.none: No such file or directory\n")


def any_bytes():
    """Messages of any bytes: each form keeps to its own."""
    chosen = random.Random(6)
    faults = []
    for _ in range(200):
        lines = [
            b"Downgraded-"
            + chosen.choice([b"X", b"", b"\x1b"])
            + chosen.choice([b": ", b":", b""])
            + chosen.randbytes(chosen.randrange(40)),
            b"Subject: =?UTF-8?B?" + chosen.randbytes(6) + b"?=",
            b"From " + chosen.randbytes(9) + b" 10:10",
            chosen.randbytes(30),
        ]
        text = b"\n".join(chosen.choices(lines, k=chosen.randrange(8))) + chosen.choice([b"", b"\n", b"\r\n\r\nbody"])
        for form in ([], ["-t"], ["--json"]):
            status, out, err = read(*form, data=text)
            if status not in (0, 65) or steers(out, "\n\t" if form == ["-t"] else "\n") or steers(err):
                faults.append((form, text, status, out, err))
            if form == ["-t"] and any(line.count("\t") != 4 for line in out.splitlines()):
                faults.append((form, text, out))
            if form == ["--json"]:
                [json.loads(line) for line in out.splitlines()]
    check("200 messages of any bytes", faults[:1])


def width(text):
    return sum(
        0 if unicodedata.category(c) in ("Mn", "Me") or c == "\u200d" else 2 if unicodedata.east_asian_width(c) in "WF" else 1 for c in text
    )


def terminal(*arguments, columns=100, **options):
    """What a terminal gets."""
    status, got = in_terminal([PROGRAM, *arguments], columns, cwd=ROOM, **options)
    return status, got.decode().replace("\r\n", "\n")


def terminals():
    for columns in (60, 100, 200):
        status, out = terminal("-t", "g.eml", "j.eml", "p.eml", columns=columns)
        rows = out.splitlines()
        starts = {width(row[: row.rindex(name)]) for row, name in zip(rows, ["file", "g.eml", "j.eml", "p.eml"])}
        check(
            f"columns line up in a terminal of {columns}",
            None if status == 0 and len(rows) == 4 and len(starts) == 1 and rows[0].startswith("date  ") else out,
        )
    wide = file("w.eml", f"Subject: {encoded('港' * 200)}\nFrom: {encoded('e' + chr(0x301) * 9 + '🚢' * 60)}\n\n")
    status, out = terminal("-t", "p.eml", wide.name, columns=101)
    rows = out.splitlines()
    starts = {width(row[: row.rindex(name)]) for row, name in zip(rows, ["file", "p.eml", "w.eml"])}
    check("wide characters are cut whole", None if len(starts) == 1 and "..." in rows[2] else out)
    for i in range(300):
        file(f"many/cur/{i}", JAPANESE if i % 100 == 0 else PLAIN)
    status, out = terminal("many", stdout=subprocess.DEVNULL)
    check(
        "progress in a terminal",
        None if status == 0 and re.match(r"\r\d+ of 300 messages\x1b\[K", out) and out.endswith("\r\x1b[K") else out,
    )
    status, out = terminal("many")
    lines = [re.sub(r".*\x1b\[K", "", line).lstrip("\r") for line in out.splitlines()]
    same(
        "progress is out of the way of what is printed",
        [line for line in lines if line],
        [f"many/cur/{i}: Downgraded-Rcpt-To: <港@x <b@x>>" for i in (0, 100, 200)],
    )
    same("no progress elsewhere", read("many")[2], "")


def arguments():
    usage = "usage: hennelaku-read [-t | --json] [FILE | FOLDER | -]...\n"
    for given in (["-x"], ["-t", "--json"], ["-t", "-t"], ["--help", "g.eml"], ["-tx"], ["g.eml", "-t", "--json"][1:]):
        same(f"usage: {' '.join(given)}", read(*given), (64, "", usage))
    status, out, err = read("--help")
    check("--help", None if status == 0 and out.startswith(usage) else out)
    status, out, err = read("--version")
    check("--version", None if re.fullmatch(r"hennelaku-read \d+\.\d+\.\d+\n", out) else out)
    if os.path.exists("/dev/full"):
        with open("/dev/full", "wb") as full:
            done = subprocess.run([PROGRAM, "g.eml"], cwd=ROOM, stdout=full, stderr=subprocess.PIPE)
        same(
            "standard output full",
            (done.returncode, done.stderr),
            (74, b"hennelaku-read: standard output cannot be written: No space left on device\n"),
        )
    long = b"Downgraded-A: b\nX: " + b"a" * (17 << 20)
    status, out, err = read("-", data=long)
    same("a header that is too long", (status, out, err), (66, "", "standard input: a header is too long\n"))


for part in (messages, mboxes, folders, refusals, tables, quoting, any_bytes, terminals, arguments):
    part()
shutil.rmtree(ROOM)
sys.exit(closing_line())
