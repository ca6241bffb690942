#!/usr/bin/env python3
"""Downgrades the header of mailbox.c through Python's ctypes and prints it; then prints the texts of the Downgraded- fields of read.c.

    python3 stored.py [LIBRARY]

LIBRARY is the path of libhennelaku.so.0, where the loader does not find it by itself."""
import ctypes
import sys
from ctypes import POINTER, c_char_p, c_size_t, c_uint32

VERSION = 400  # HENNELAKU_VERSION of the header that the declarations below are taken from
HEADER_ROOM_MAX = 2642040
TEXT, ROOM, NONE = 0, 5, 6  # of enum hennelaku_read_number


class MailboxAnswer(ctypes.Structure):
    """hennelaku_mailbox_answer"""

    _fields_ = [("number", c_uint32), ("place", c_size_t), ("offset", c_size_t), ("length", c_size_t)]


class ReadAnswer(ctypes.Structure):
    """hennelaku_read_answer"""

    _fields_ = [("number", c_uint32), ("start", c_size_t), ("next", c_size_t), ("length", c_size_t)]


class Refused(Exception):
    """A header that cannot be downgraded, with the answer."""

    def __init__(self, answer, text):
        super().__init__(f"refused by {answer.number}, place {answer.place}, offset {answer.offset}: {text}")
        self.answer = answer


class Library:
    """The two calls of libhennelaku for stored mail."""

    def __init__(self, path="libhennelaku.so.0"):
        self.calls = ctypes.CDLL(path)
        self.calls.hennelaku_version.restype = c_uint32
        if self.calls.hennelaku_version() != VERSION:
            raise OSError(f"{path} is version {self.calls.hennelaku_version()}, not {VERSION}")
        buffer = POINTER(ctypes.c_char)
        self.calls.hennelaku_downgrade_mailbox.restype = MailboxAnswer
        self.calls.hennelaku_downgrade_mailbox.argtypes = [c_char_p, c_size_t, buffer, c_size_t]
        self.calls.hennelaku_read_downgraded.restype = ReadAnswer
        self.calls.hennelaku_read_downgraded.argtypes = [c_char_p, c_size_t, c_size_t, buffer, c_size_t]
        self.calls.hennelaku_number_text.restype = c_char_p
        self.calls.hennelaku_number_text.argtypes = [c_uint32]

    def downgrade_mailbox(self, header):
        """The outgoing header, as bytes."""
        buffer = ctypes.create_string_buffer(HEADER_ROOM_MAX)
        answer = self.calls.hennelaku_downgrade_mailbox(header, len(header), buffer, len(buffer))
        if answer.number != 0:
            raise Refused(answer, self.calls.hennelaku_number_text(answer.number).decode())
        return ctypes.string_at(buffer, answer.length)

    def read_downgraded(self, header):
        """Of each Downgraded- field: its number, where it begins, and its text as bytes, None where it is refused."""
        buffer = ctypes.create_string_buffer(len(header) + 1)
        place = 0
        while True:
            answer = self.calls.hennelaku_read_downgraded(header, len(header), place, buffer, len(buffer))
            if answer.number == NONE:
                return
            yield answer.number, answer.start, ctypes.string_at(buffer, answer.length) if answer.number == TEXT else None
            place = answer.next


def main():
    library = Library(*sys.argv[1:])
    header = library.downgrade_mailbox("From: Λιμάνι <λ@example.org>, b@example.net\r\nSubject: é\r\nX-Berth: 3\r\n".encode())
    sys.stdout.buffer.write(header)
    fields = (
        b"Downgraded-Mail-From: =?UTF-8?Q?=3C=C3=A9=40example=2Eorg?=\r\n =?UTF-8?Q?_=3Ce+x=40example=2Eorg=3E=3E?=\r\nSubject: storm\r\n"
        b"Downgraded-X-Berth: =?UTF-8?B?z4DPgc6/zrLOu86uz4TOsQ==?= 3\r\nDowngraded-X-Port: =?ISO-8859-1?Q?=E9?=\r\n"
    )
    for number, start, text in library.read_downgraded(fields):
        sys.stdout.buffer.write(text + b"\n" if number == TEXT else f"refused by {number} at byte {start}\n".encode())


if __name__ == "__main__":
    try:
        main()
    except Refused as refused:
        sys.exit(str(refused))
