"""A server of DNS for the tests: it knows some names, and of all others that they are not there."""
import socket
import struct
import threading

A, MX = 1, 15


def packed(name):
    return b"".join(bytes([len(label)]) + label.encode() for label in name.split(".")) + b"\0"


def address(text):
    return A, socket.inet_aton(text)


def exchanger(name):
    return MX, struct.pack("!H", 10) + packed(name)


class NameServer:
    """Answers at port 53 of 127.0.0.1 from records: names, each with its address or its exchanger."""

    def __init__(self, records):
        self.records = {packed(name): record for name, record in records.items()}
        self.asked = []  # names of which the exchanger was asked for
        self.socket = socket.socket(socket.AF_INET, socket.SOCK_DGRAM)
        self.socket.bind(("127.0.0.1", 53))
        threading.Thread(target=self.run, daemon=True).start()

    def run(self):
        while True:
            question, client = self.socket.recvfrom(4096)
            try:
                self.socket.sendto(self.answer(question), client)
            except (struct.error, ValueError, OSError):
                pass

    def answer(self, question):
        name = question[12:question.index(b"\0", 12) + 1].lower()
        kind, _ = struct.unpack_from("!HH", question, 12 + len(name))
        if kind == MX:
            self.asked.append(name)
        known = self.records.get(name)
        found = known is not None and known[0] == kind
        # An answer of an authority; one without records for a name that is there, NXDOMAIN for others.
        head = question[:2] + struct.pack("!HHHHH", 0x8580 | (0 if known else 3), 1, int(found), 0, 0)
        record = b"\xc0\x0c" + struct.pack("!HHIH", kind, 1, 60, len(known[1])) + known[1] if found else b""
        return head + question[12:16 + len(name)] + record
