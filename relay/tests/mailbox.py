#!/usr/bin/env python3
"""Tests of hennelaku-mailbox: mailbox.py PROGRAM LIBRARY. LIBRARY is libhennelaku.so.0, which says what a header becomes. One line for each
test, ok or FAIL; the last line reads 'N passed, M failed'."""
import base64
import ctypes
import email
import email.policy
import os
import pathlib
import re
import resource
import subprocess
import sys
import time

from checks import check, closing_line, run, same

PROGRAM = pathlib.Path(sys.argv[1]).resolve()
SLOW = "sanitized" in PROGRAM.parts


class Answer(ctypes.Structure):
    _fields_ = [("number", ctypes.c_uint32), ("place", ctypes.c_size_t), ("offset", ctypes.c_size_t), ("length", ctypes.c_size_t)]


call = ctypes.CDLL(str(pathlib.Path(sys.argv[2]).resolve())).hennelaku_downgrade_mailbox
call.restype = Answer
call.argtypes = [ctypes.c_char_p, ctypes.c_size_t, ctypes.c_void_p, ctypes.c_size_t]


def library(header):
    """The answer, and the header that goes out; lines end in CRLF."""
    room = 100 * len(header) + 30000
    buffer = ctypes.create_string_buffer(room)
    answer = call(header, len(header), buffer, room)
    return answer, buffer.raw[: answer.length]


def convert(*arguments, data):
    return run(PROGRAM, *arguments, data=data)


HEADER = """\
From: Λιμάνι <λ@π.gr>, b@x
To: g: é@x, c@x;
Subject: βοριάς
 συνέχεια
X-Berth: προβλήτα
Message-ID: <é@x>
Date: Mon, 2 Feb 2026 18:00:00 +0200
""".encode()
BODY = b"\n.\nFrom here\n\nbody \xff\x00 \r\r end"
FROM = b"From a@x Mon Feb  2 18:00:00 2026\n"


def crlf(text):
    return text.replace(b"\n", b"\r\n")


def taken():
    answer, out = library(crlf(HEADER))
    same("the library takes the header", answer.number, 0)
    check("and changes it to ASCII", None if out.isascii() and out != crlf(HEADER) else out)
    for name, end, ending in (("LF", lambda t: t, lambda t: t.replace(b"\r\n", b"\n")), ("CRLF", crlf, lambda t: t)):
        for front_name, front in (("", b""), (", a From line", FROM)):
            head = end(front) + ending(out)
            whole = end(front) + end(HEADER)
            same(f"a message, {name}{front_name}", convert(data=whole + end(b"\n") + BODY), (0, head + end(b"\n") + BODY, b""))
            same(f"an empty body, {name}{front_name}", convert(data=whole + end(b"\n")), (0, head + end(b"\n"), b""))
            same(f"a header without a body, {name}{front_name}", convert(data=whole), (0, head, b""))
            same(
                f"with --surrogate, {name}{front_name}",
                convert("--surrogate", data=whole + end(b"\n") + BODY),
                (0, head + end(b"\n") + BODY, b""),
            )
    first_lf = HEADER.replace(b"\n", b"\r\n").replace(b"\r\n", b"\n", 1)
    same(
        "both line ends: that of the first line",
        convert(data=first_lf + b"\r\n" + BODY),
        (0, out.replace(b"\r\n", b"\n") + b"\r\n" + BODY, b""),
    )
    first_crlf = HEADER.replace(b"\n", b"\r\n", 1)
    same("both line ends: that of the first line, CRLF", convert(data=first_crlf + b"\n" + BODY), (0, out + b"\n" + BODY, b""))


def untouched():
    """A header in ASCII goes out as it came, whatever it is."""
    for name, header in [
        ("well-formed", b"Subject: a\r\nX: b\r\n"),
        ("malformed", b"no colon\n: b\n\x00\n"),
        ("both line ends", b"A: b\r\nC: d\nE: f\r\r\n"),
        ("of 40,000 bytes", b"X: " + b"a" * 40000 + b"\n"),
        ("without an end", b"A: b"),
        ("empty", b""),
    ]:
        for body in (b"", b"\n" + BODY, b"\r\n" + BODY):
            data = header + body if header.endswith(b"\n") or not header else header
            same(f"ASCII, {name}, {len(body)} bytes after it", convert(data=data), (0, data, b""))
    same("nothing at all", convert(data=b""), (0, b"", b""))
    same("a From line alone", convert(data=FROM), (0, FROM, b""))


REFUSED = {
    1: (b"X: \xc3\xa9\n" + b"Y: b\n" * 8000, r"refused by 1: the header has 48007 bytes, and at most 32768 are taken"),
    5: (b"X: \xc3\xa9\nbad line\n", r'refused by 5: a header line is malformed; line 1 and byte 10 of the header, from 0: "bad line"'),
    6: (
        b"X: b\nKeywords: a,\n \xc3\xa9\x1b\nSubject: \xc3\xa9\nFrom: \xc3\xa9 <a@x>\n",
        r'refused by 6: a held header field holds non-ASCII; line 1 and byte 21 of the header, from 0: " \\xc3\\xa9\\x1b"',
    ),
}


def refused():
    for number, (header, reason) in REFUSED.items():
        same(f"the library answers {number}", library(crlf(header))[0].number, number)
        for name, data in (
            ("LF", header + b"\n" + BODY),
            ("CRLF", crlf(header) + b"\r\n" + BODY),
            ("a From line", FROM + header + b"\n" + BODY),
        ):
            status, out, err = convert(data=data)
            check(
                f"refused by {number}, {name}",
                None
                if (status, out) == (65, b"") and re.fullmatch(f"hennelaku-mailbox: {reason}\n", err.decode("ascii"))
                else (status, out, err),
            )
    unended = "X: é".encode()
    status, out, err = convert(data=unended)
    check("a line without an end", None if status == 65 and out == b"" and b"refused by 5" in err else (status, out, err))
    if not SLOW:
        status, out, err = convert(data="X: é\n\n".encode() + b"a" * (64 << 20))
        same("a message of more than 64 MiB", (status, out, err), (65, b"", b"hennelaku-mailbox: the message is too large\n"))


def surrogates():
    for number, (header, reason) in REFUSED.items():
        for name, front, end in (("LF", b"", lambda t: t), ("CRLF", b"", crlf), ("a From line", FROM, lambda t: t)):
            original = end(header) + end(b"\n") + BODY
            status, out, err = convert("--surrogate", data=front + original)
            label = f"surrogate for {number}, {name}"
            check(
                f"{label}: written in ASCII",
                None if status == 0 and out.startswith(front) and out.isascii() and err == b"" else (status, out, err),
            )
            rest = out[len(front) :]
            check(
                f"{label}: line ends",
                None if (rest.count(b"\r\n") == rest.count(b"\n")) == (name == "CRLF") and (b"\r" in rest) == (name == "CRLF") else rest,
            )
            message = email.message_from_bytes(rest, policy=email.policy.default)
            parts = list(message.iter_parts())
            check(
                f"{label}: two parts",
                None if message.get_content_type() == "multipart/mixed" and len(parts) == 2 and not message.defects else rest,
            )
            check(
                f"{label}: one From, Subject and Date",
                [n for n in ("From", "Subject", "Date", "MIME-Version") if len(message.get_all(n, [])) != 1],
            )
            check(f"{label}: the reason", None if re.search(reason, parts[0].get_content()) else parts[0].get_content())
            coded = rest.partition(b"base64")[2].partition(b"--=_")[0]
            same(f"{label}: the original untouched", base64.b64decode(coded), original)
            check(f"{label}: lines of at most 76 in it", [line for line in coded.splitlines() if len(line) > 76])
    status, out, err = convert("--surrogate", data=FROM + REFUSED[6][0] + b"\n" + BODY)
    for field in (b"Subject: \xc3\xa9\r\n", b"From: \xc3\xa9 <a@x>\r\n"):
        check(f"the original's {field[:4].decode()} downgraded", None if library(field)[1].replace(b"\r\n", b"\n") in out else out)
    status, out, err = convert("--surrogate", data="Keywords: é\nFrom: é\n\n".encode())
    check(
        "a From that is no address: one of the server's besides",
        None if re.search(rb"(?m)^Downgraded-From: =\?.*\nFrom: Mail server <postmaster@[A-Za-z0-9.-]+>$", out) else out,
    )


def doubts():
    usage = b"hennelaku-mailbox: usage: hennelaku-mailbox [--surrogate] [-t SECONDS]\n"
    for given in (["-x"], ["file"], ["-t"], ["-t", "0"], ["-t", "3601"], ["-t", "1x"], ["--help", "--surrogate"]):
        same(f"usage: {' '.join(given)}", convert(*given, data=HEADER), (75, b"", usage))
    same("--help", (lambda r: (r[0], r[1][:24]))(convert("--help", data=b"")), (0, b"usage: hennelaku-mailbox"))
    check("--version", None if re.fullmatch(rb"hennelaku-mailbox \d+\.\d+\.\d+\n", convert("--version", data=b"")[1]) else "no version")
    done = subprocess.run(["sh", "-c", 'exec "$0" <&-', PROGRAM], capture_output=True)
    same("standard input closed", (done.returncode, done.stdout), (75, b""))
    done = subprocess.run(["sh", "-c", 'exec "$0" <.', PROGRAM], capture_output=True)
    same("standard input is a folder", (done.returncode, done.stdout, done.stderr), (75, b"", b"hennelaku-mailbox: Is a directory\n"))
    for name, target in (("full", ">/dev/full"), ("closed", ">&-")):
        done = subprocess.run(["sh", "-c", f'exec "$0" {target}', PROGRAM], input=HEADER, stderr=subprocess.PIPE)
        same(f"standard output {name}", done.returncode, 75)
    child = subprocess.Popen([PROGRAM], stdin=subprocess.PIPE, stdout=subprocess.PIPE, stderr=subprocess.PIPE)
    child.stdout.close()
    child.stdin.write(HEADER + b"\n" + b"a" * 1000000)
    child.stdin.close()
    same("nobody reads standard output", child.wait(20), 75)
    if not SLOW:

        def little():
            resource.setrlimit(resource.RLIMIT_AS, (24 << 20, 24 << 20))

        done = subprocess.run([PROGRAM], input=HEADER + b"\n" + b"a" * (30 << 20), capture_output=True, preexec_fn=little)
        same("no memory", (done.returncode, done.stdout, done.stderr), (75, b"", b"hennelaku-mailbox: no memory\n"))


def times():
    child = subprocess.Popen([PROGRAM], stdin=subprocess.PIPE, stdout=subprocess.PIPE)
    child.stdin.write(HEADER + b"\nbody")
    child.stdin.flush()
    os.set_blocking(child.stdout.fileno(), False)
    time.sleep(0.3)
    early = child.stdout.read()
    child.stdin.close()
    child.wait(20)
    check("nothing is written before all is read", early)
    for name, hold in (("input", True), ("output", False)):
        start = time.monotonic()
        child = subprocess.Popen([PROGRAM, "-t", "1"], stdin=subprocess.PIPE, stdout=subprocess.PIPE, stderr=subprocess.PIPE)
        child.stdin.write(HEADER + b"\n" + (b"" if hold else b"a" * 1000000))
        child.stdin.flush() if hold else child.stdin.close()
        status = child.wait(20)
        took = time.monotonic() - start
        check(
            f"an {name} that waits ends by the time limit",
            None
            if status == 75 and took < 10 and child.stderr.read() == b"hennelaku-mailbox: no end within its time\n"
            else (status, took),
        )
        if hold:
            same("and nothing is written", child.stdout.read(), b"")


for part in (taken, untouched, refused, surrogates, doubts, times):
    part()
sys.exit(closing_line())
