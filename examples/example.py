#!/usr/bin/env python3
"""Downgrades the small message of example.c through Python's ctypes, and prints what an ASCII-only server would get.

    python3 example.py [LIBRARY]

LIBRARY is the path of libhennelaku.so.0, where the loader does not find it by itself."""
import ctypes
import sys
from ctypes import POINTER, c_char_p, c_size_t, c_uint32, c_uint64

VERSION = 400  # HENNELAKU_VERSION of the header that the declarations below are taken from
ENVELOPE_ROOM_MAX = 16384
HEADER_ROOM_MAX = 2642040
SPOOL, CURRENT = 0, 1


class Answer(ctypes.Structure):
    """hennelaku_answer"""

    _fields_ = [
        ("number", c_uint32),
        ("input", c_uint32),
        ("place", c_size_t),
        ("offset", c_size_t),
        ("envelope_len", c_size_t),
        ("header_len", c_size_t),
    ]


class Reply(ctypes.Structure):
    """hennelaku_reply"""

    _fields_ = [("code", c_uint32), ("enhanced", c_char_p), ("text", c_char_p)]


class Refused(Exception):
    """A message that cannot be downgraded: the answer, and what a server says of it."""

    def __init__(self, answer, reply):
        super().__init__(f"refused by {answer.number}, place {answer.place}, offset {answer.offset}: {reply.text.decode()}")
        self.answer = answer
        self.reply = reply


class Library:
    """libhennelaku, with buffers that always suffice. Not to be shared between threads."""

    def __init__(self, path="libhennelaku.so.0"):
        self.calls = ctypes.CDLL(path)
        self.calls.hennelaku_version.restype = c_uint32
        if self.calls.hennelaku_version() != VERSION:
            raise OSError(f"{path} is version {self.calls.hennelaku_version()}, not {VERSION}")
        buffer = POINTER(ctypes.c_char)
        self.calls.hennelaku_downgrade.restype = Answer
        self.calls.hennelaku_downgrade.argtypes = [c_uint64] + 2 * [c_char_p, c_size_t] + 2 * [buffer, c_size_t]
        self.calls.hennelaku_smtp_reply.restype = Reply
        self.calls.hennelaku_smtp_reply.argtypes = [c_uint32]
        self.envelope = ctypes.create_string_buffer(ENVELOPE_ROOM_MAX)
        self.header = ctypes.create_string_buffer(HEADER_ROOM_MAX)

    def downgrade(self, setting, envelope, header):
        """The outgoing envelope and header, as bytes."""
        inputs = envelope, len(envelope), header, len(header)
        buffers = self.envelope, len(self.envelope), self.header, len(self.header)
        answer = self.calls.hennelaku_downgrade(setting, *inputs, *buffers)
        if answer.number != 0:
            raise Refused(answer, self.calls.hennelaku_smtp_reply(answer.number))
        return ctypes.string_at(self.envelope, answer.envelope_len), ctypes.string_at(self.header, answer.header_len)


def main():
    library = Library(*sys.argv[1:])
    envelope, header = library.downgrade(
        SPOOL,
        "MAIL FROM:<é@example.org> ALT-ADDRESS=e+2Bx@example.org\r\nRCPT TO:<b@example.net>\r\n".encode(),
        "Subject: é\r\nX-Note: ok\r\n".encode(),
    )
    sys.stdout.buffer.write(envelope + b"\r\n" + header)


if __name__ == "__main__":
    try:
        main()
    except Refused as refused:
        sys.exit(str(refused))
