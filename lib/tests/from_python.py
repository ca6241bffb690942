"""from_python.py LIBRARY: the shared library as Python's ctypes sees it, by the declarations of examples/example.py. Exit status 0 where
every answer is right."""
import os
import sys

sys.path.insert(0, os.path.join(os.path.dirname(os.path.abspath(__file__)), "..", "..", "examples"))
sys.dont_write_bytecode = True
import example
import stored

PLAIN = b"MAIL FROM:<a@x>\r\nRCPT TO:<b@x>\r\n"


def expect(what, got, want):
    if got != want:
        sys.exit(f"{what}: {got!r}, not {want!r}")


def refusal(library, setting, envelope, header):
    try:
        library.downgrade(setting, envelope, header)
    except example.Refused as refused:
        answer, reply = refused.answer, refused.reply
        return answer.number, answer.input, answer.place, answer.offset, reply.code, reply.enhanced.decode()
    sys.exit(f"{envelope!r} and {header!r} are taken")


library = example.Library(sys.argv[1])
expect("ASCII", library.downgrade(example.SPOOL, PLAIN, b"X: a\r\n"), (PLAIN, b"X: a\r\n"))
expect("an empty header", library.downgrade(example.SPOOL, PLAIN, b""), (PLAIN, b""))
expect("encoded words", library.downgrade(example.SPOOL, PLAIN, "Subject: é\r\n".encode()), (PLAIN, b"Subject: =?UTF-8?Q?=C3=A9?=\r\n"))
expect("3", refusal(library, example.SPOOL, "MAIL FROM:<é@x>\r\n".encode(), b""), (3, 1, 0, 11, 553, "5.6.7"))
expect("5 for a NUL", refusal(library, example.SPOOL, PLAIN, b"A: b\r\nX: \0\r\n"), (5, 2, 1, 9, 554, "5.6.0"))
expect("6", refusal(library, example.SPOOL, PLAIN, "Keywords: é\r\n".encode()), (6, 2, 0, 10, 554, "5.6.9"))
RETIRED = b"MAIL FROM:<a@x> ALT-ADDRESS=b@x\r\n"
expect("4", refusal(library, example.SPOOL, RETIRED, b""), (4, 1, 0, 28, 501, "5.5.4"))
for setting in example.CURRENT, 256, 2**32, 2**64 - 1:
    expect(f"10 by {setting}", refusal(library, setting, RETIRED, b""), (10, 1, 0, 28, 555, "5.5.4"))

stored_mail = stored.Library(sys.argv[1])
expect("a stored message", stored_mail.downgrade_mailbox("X: é\r\nTo: é@x\r\n".encode()), b"X: =?UTF-8?Q?=C3=A9?=\r\nTo:\r\n =?UTF-8?Q?=C3=A9=40x?=\r\n :;\r\n")
expect("an empty header of a stored message", stored_mail.downgrade_mailbox(b""), b"")
for number, header, where in (5, b"A: b\r\nX\r\n", (1, 7)), (6, "A: b\r\nKeywords: é\r\n".encode(), (1, 16)), (1, b"A: b\r\n" * 6000, (1, 0)):
    try:
        stored_mail.downgrade_mailbox(header)
        sys.exit(f"{header[:40]!r} is taken")
    except stored.Refused as refused:
        expect(f"{number} of a stored message", (refused.answer.number, refused.answer.place, refused.answer.offset), (number, *where))
fields = b"X: a\r\nDowngraded-A: =?UTF-8?Q?=C3=A9?=\r\nDowngraded-B\r\nDowngraded-C: =?UTF-8?X?a?=\r\nDowngraded-D: =?a?Q?a?=\r\nDowngraded-E: =?UTF-8?Q?=C3?=\r\nDowngraded-F:\r\n"
expect("Downgraded- fields", [(number, text) for number, _, text in stored_mail.read_downgraded(fields)],
       [(0, "é".encode()), (1, None), (2, None), (3, None), (4, None), (0, b"")])
expect("where they begin", [start for _, start, _ in stored_mail.read_downgraded(fields)], [fields.index(b"Downgraded-" + name) for name in (b"A", b"B", b"C", b"D", b"E", b"F")])
expect("no such field", list(stored_mail.read_downgraded(b"X: a\r\n")), [])
