"""A server of SMTP for the tests: it answers, delays, drops and lies at each step as it is told.

A plan says what it does at a step: `greeting`, `EHLO`, `HELO`, `MAIL`, `RCPT` (or `RCPT 2` for the second one), `DATA`, `content` (while the data
come in), `end` (after the closing dot), `QUIT`. What it does is a list of bytes to send, seconds to wait, and the words below; a step that is not
planned is answered as by an honest server.
"""
import re
import socket
import struct
import threading
import time

CLOSE = "close"      # close the connection
RESET = "reset"      # close it so that the other side's next write fails
SILENCE = "silence"  # say nothing until the other side closes

HONEST = {
    "greeting": b"220 next.example ESMTP\r\n",
    "EHLO": b"250-next.example\r\n250-8BITMIME\r\n250-SIZE 90000000\r\n250 ENHANCEDSTATUSCODES\r\n",
    "HELO": b"250 next.example\r\n",
    "MAIL": b"250 2.1.0 Ok\r\n",
    "RCPT": b"250 2.1.5 Ok\r\n",
    "DATA": b"354 End data with <CR><LF>.<CR><LF>\r\n",
    "end": b"250 2.0.0 Ok: queued as 1234\r\n",
    "QUIT": b"221 2.0.0 Bye\r\n",
}

# A whole reply that starts with 2, whatever follows it.
ACKNOWLEDGED = re.compile(rb"(2\d\d)(-[^\n]*\n\1)*( [^\n]*|\r)?\n")


class Ended(Exception):
    """The connection is over."""


class Server:
    """Listens on a port of its own, or at a place; takes one connection after another, each by the next of its plans."""

    def __init__(self, plans, read_slowly=0, place=("127.0.0.1", 0)):
        self.plans = plans if isinstance(plans, list) else [plans]
        self.read_slowly = read_slowly
        self.commands = []      # of the last connection
        self.asked = []         # RCPT lines of all connections
        self.taken = []         # messages that came in whole: data with dots doubled, without the closing dot
        self.acknowledged = []  # those of them that were answered by 2xx
        self.listening = socket.create_server(place)
        self.port = self.listening.getsockname()[1]
        self.thread = threading.Thread(target=self.run, daemon=True)
        self.thread.start()

    def close(self):
        """Waits until the connections are over, so that all that came in is known."""
        try:
            self.listening.shutdown(socket.SHUT_RDWR)  # wakes an accept, as close does not
        except OSError:
            pass
        self.thread.join(20)
        self.listening.close()

    def run(self):
        for plan in self.plans:
            try:
                connection, _ = self.listening.accept()
            except OSError:
                return
            with connection:
                connection.settimeout(20)
                try:
                    Session(self, connection, plan).run()
                except (Ended, OSError):
                    pass


class Session:
    def __init__(self, server, connection, plan):
        self.server = server
        self.connection = connection
        self.plan = plan
        self.rest = b""
        self.recipients = 0
        server.commands = []

    def act(self, step, fallback=None):
        """Does what is planned for a step; says what was sent."""
        said = b""
        actions = self.plan.get(step)
        if actions is None:
            actions = self.plan.get(fallback, HONEST.get(fallback or step, b""))
        for action in actions if isinstance(actions, (list, tuple)) else [actions]:
            if action == CLOSE:
                raise Ended
            if action == RESET:
                self.connection.setsockopt(socket.SOL_SOCKET, socket.SO_LINGER, struct.pack("ii", 1, 0))
                raise Ended
            if action == SILENCE:
                while self.connection.recv(65536):
                    pass
                raise Ended
            if isinstance(action, bytes):
                self.connection.sendall(action)
                said += action
            else:
                time.sleep(action)
        return said

    def more(self):
        if self.server.read_slowly:
            time.sleep(self.server.read_slowly)
        got = self.connection.recv(65536)
        if not got:
            raise Ended
        self.rest += got

    def line(self):
        while b"\n" not in self.rest:
            self.more()
        line, self.rest = self.rest.split(b"\n", 1)
        return line + b"\n"

    def run(self):
        self.act("greeting")
        while True:
            line = self.line()
            self.server.commands.append(line)
            verb = line.split(b" ")[0].strip().decode("ascii", "replace").upper()
            if verb == "RCPT":
                self.recipients += 1
                self.server.asked.append(line)
                self.act(f"RCPT {self.recipients}", "RCPT")
            elif verb == "DATA":
                if self.act("DATA").startswith(b"3"):
                    self.data()
            elif verb == "QUIT":
                self.act("QUIT")
                return
            elif verb in HONEST:
                self.act(verb)
            else:
                self.connection.sendall(b"500 5.5.2 what?\r\n")

    def data(self):
        content = b""
        if "content" in self.plan:
            content = self.line()
            self.act("content")
        # Commands may follow the closing dot at once, from a client that was told 250 before its data.
        while b"\r\n.\r\n" not in b"\r\n" + content:
            if not self.rest:
                self.more()
            content, self.rest = content + self.rest, b""
        end = (b"\r\n" + content).index(b"\r\n.\r\n")
        content, self.rest = content[:end + 3], content[end + 3:]
        self.server.taken.append(content[:-3])
        # Before it is said: the other side may end as soon as it has read it.
        actions = self.plan.get("end", HONEST["end"])
        said = b"".join(a for a in (actions if isinstance(actions, (list, tuple)) else [actions]) if isinstance(a, bytes))
        if ACKNOWLEDGED.match(said):
            self.server.acknowledged.append(content[:-3])
        self.act("end")
