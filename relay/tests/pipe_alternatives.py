"""Tests of hennelaku-pipe's alternatives: files that are cut, replaced and rewritten under load, tables, spellings of an address, and what an
attacker would put there. No message goes to an address that no file named."""
import os
import pathlib
import subprocess
import threading
import time
import unicodedata

import cdb

NAME = "лоцман@порт.example"
LINES = f"# harbours\n{NAME} lotsman@example.net\nλιμάνι@παράδειγμα.example limani@example.org\n"
END = "# end\n"
ADDRESS = "й-é@höfn-ü.example"
A_LABELS = "xn--hfn--5qa3b.example"


class Room:
    """A folder with a file of alternatives, and a server that keeps every recipient it is asked for."""

    def __init__(self, pipe, name="alternatives"):
        self.pipe = pipe
        self.folder = pathlib.Path(pipe.tempfile.mkdtemp(dir=pipe.ROOM))
        self.file = self.folder / name
        self.server = None

    def listen(self, count):
        self.server = pipe_server(self.pipe, count)
        return self

    def write(self, text):
        """As someone who has all the time in the world: the file is not fresh when it is read."""
        self.file.write_bytes(text if isinstance(text, bytes) else text.encode())
        os.utime(self.file, (1, 1))
        return self

    def deliver(self, recipient=NAME, alternatives=None, seconds="20"):
        port = self.server.port if self.server else 1
        done = subprocess.run([*self.pipe.PROGRAM, "-n", f"127.0.0.1:{port}", "-t", seconds, "-l", self.folder / "log", "-q", "4ABC1", "-a",
                               alternatives or self.file, "-f", "a@example.org", "--", recipient], input=b"X: b\n\nbody\n", capture_output=True, timeout=100)
        return done.returncode, done.stdout.decode("utf-8", "backslashreplace")

    def check(self, name=None):
        done = subprocess.run([*self.pipe.PROGRAM, "--check", name or self.file], capture_output=True, timeout=100)
        return done.returncode, (done.stdout + done.stderr).decode("utf-8", "backslashreplace")


def pipe_server(pipe, count):
    return pipe.Server([{}] * count)


def recipients(server):
    return {line.decode("latin-1").strip() for line in server.asked}


def cuts(pipe):
    @pipe.test("alternatives: cut at every byte")
    def cut():
        whole = (LINES + END).encode()
        room = Room(pipe).listen(len(whole) + 1)
        for length in range(len(whole)):
            room.write(whole[:length])
            status, said = room.deliver()
            if status != 75 or not said.startswith("4.3.5 ") or "# end" not in said:
                yield f"cut at {length}: status {status}, {said!r}"
            if room.check()[0] != 65:
                yield f"cut at {length}: --check says {room.check()}"
        room.write(whole)
        status, said = room.deliver()
        room.server.close()
        if status != 0 or recipients(room.server) != {"RCPT TO:<lotsman@example.net>"}:
            yield f"whole: status {status}, {said!r}, {recipients(room.server)}"

    @pipe.test("alternatives: what follows the closing line")
    def after():
        for more in ("\n", "#", END, f"{NAME} b@x\n", " "):
            status, said = Room(pipe).write(LINES + END + more).deliver()
            if status != 75 or "4.3.5" not in said or "closing line" not in said:
                yield f"{more!r}: status {status}, {said!r}"

    @pipe.test("alternatives: a table cut and zeroed")
    def table():
        whole = cdb.make([(NAME.encode(), b"lotsman@example.net"), ("é@x".encode(), b"e@x")])
        room = Room(pipe, "table.cdb").listen(1)
        name = f"cdb:{room.folder}/table"
        steps = sorted({*range(0, len(whole), 61), *range(2040, len(whole))})
        for length in steps:
            room.write(whole[:length])
            status, said = room.deliver(alternatives=name)
            if status != 75 or "not a whole cdb table" not in said:
                yield f"cut at {length}: status {status}, {said!r}"
        # A table whose slots are lost: that a key is not found says nothing then.
        at = len(whole) - 32
        for zeroed in (bytes(len(whole)), bytes(2048) + whole[2048:], whole[:at] + bytes(32)):
            room.write(zeroed)
            status, said = room.deliver(alternatives=name)
            if status != 75:
                yield f"zeroed: status {status}, {said!r}"
        room.write(whole)
        status, said = room.deliver(alternatives=name)
        room.server.close()
        if status != 0 or recipients(room.server) != {"RCPT TO:<lotsman@example.net>"}:
            yield f"whole: status {status}, {said!r}"


def under_load(pipe, room, change, count, deliveries):
    """Deliveries while the file is changed; says what is wrong, and how many went out."""
    stop = threading.Event()
    changed = [0]

    def change_it():
        while changed[0] < count and not stop.is_set():
            change(changed[0])
            changed[0] += 1

    thread = threading.Thread(target=change_it, daemon=True)
    thread.start()
    statuses = []
    while thread.is_alive() or len(statuses) < deliveries:
        statuses.append(room.deliver())
        if len(statuses) >= deliveries and not thread.is_alive():
            break
    stop.set()
    thread.join()
    room.server.close()
    for status, said in statuses:
        if status not in (0, 75):
            yield f"status {status}: {said}"
    sent = recipients(room.server)
    if not sent <= {"RCPT TO:<old@example.net>", "RCPT TO:<new@example.net>"}:
        yield f"sent to {sent}"
    if not any(status == 0 for status, _ in statuses):
        yield f"nothing was sent: {statuses[-1]}"


def replaced(pipe):
    def file_of(word):
        # Long enough that a write in pieces takes its time.
        return ("".join(f"é{i}@x.example e{i}@x.example\n" for i in range(400)) + f"{NAME} {word}@example.net\n" + END).encode()

    @pipe.test("alternatives: replaced 10,000 times under load")
    def replace():
        room = Room(pipe).write(file_of("old")).listen(100000)
        texts = [file_of("new"), file_of("old")]

        def change(i):
            new = room.folder / f"new.{i % 2}"
            new.write_bytes(texts[i % 2])
            os.replace(new, room.file)

        yield from under_load(pipe, room, change, 10000, 20)

    @pipe.test("alternatives: rewritten in place under load")
    def rewrite():
        room = Room(pipe).write(file_of("old")).listen(100000)
        texts = [file_of("new"), file_of("old")]

        def change(i):
            with open(room.file, "wb", buffering=0) as file:
                text = texts[i % 2]
                for at in range(0, len(text), 5000):
                    file.write(text[at:at + 5000])
                    time.sleep(0.001)
            time.sleep(0.05 if i % 4 == 0 else 0)

        yield from under_load(pipe, room, change, 120, 20)

    @pipe.test("alternatives: a table replaced under load")
    def tables():
        room = Room(pipe, "table.cdb")
        texts = [cdb.make([(NAME.encode(), word)]) for word in (b"new@example.net", b"old@example.net")]
        room.write(texts[1]).listen(100000)
        deliver = room.deliver
        room.deliver = lambda: deliver(alternatives=f"cdb:{room.folder}/table")

        def change(i):
            new = room.folder / f"new.{i % 2}"
            new.write_bytes(texts[i % 2])
            os.replace(new, room.file)

        yield from under_load(pipe, room, change, 10000, 20)

    @pipe.test("alternatives: a table rewritten in place under load")
    def rewritten():
        room = Room(pipe, "table.cdb")
        texts = [cdb.make([(f"é{i}@x".encode(), b"e@x") for i in range(300)] + [(NAME.encode(), word)]) for word in (b"new@example.net", b"old@example.net")]
        room.write(texts[1]).listen(100000)
        deliver = room.deliver
        room.deliver = lambda: deliver(alternatives=f"cdb:{room.folder}/table")

        def change(i):
            text = texts[i % 2]
            with open(room.file, "wb", buffering=0) as file:
                for at in range(0, len(text), 4000):
                    file.write(text[at:at + 4000])
                    time.sleep(0.001)
            time.sleep(0.05 if i % 4 == 0 else 0)

        yield from under_load(pipe, room, change, 120, 20)

    @pipe.test("--install: by rename, with the old file's mode")
    def install():
        room = Room(pipe)
        new = room.folder / "new"
        new.write_text(LINES + END)
        room.write(END)
        os.chmod(room.file, 0o640)
        before = os.stat(room.file)
        done = subprocess.run([*pipe.PROGRAM, "--install", new, room.file], capture_output=True, text=True, timeout=60)
        after = os.stat(room.file)
        if done.returncode != 0 or done.stdout != f"{room.file}: 2 alternatives\n" or room.file.read_text() != LINES + END:
            yield f"{done}"
        if after.st_ino == before.st_ino or after.st_mode != before.st_mode:
            yield "not by rename, or of another mode"
        for bad in (LINES, LINES + END + "x", f"{NAME} x\n" + END, LINES + f"{NAME} b@x\n" + END, ""):
            new.write_text(bad)
            done = subprocess.run([*pipe.PROGRAM, "--install", new, room.file], capture_output=True, text=True, timeout=60)
            if done.returncode != 65 or not done.stderr or room.file.read_text() != LINES + END:
                yield f"{bad!r}: {done}"
        new.write_text(LINES + END)
        done = subprocess.run([*pipe.PROGRAM, "--install", new, room.folder / "none" / "file"], capture_output=True, text=True, timeout=60)
        if done.returncode != 73 or not done.stderr:
            yield f"no folder: {done}"
        (room.folder / "elsewhere").mkdir()
        (room.folder / "elsewhere" / "link").symlink_to(room.file)
        new.write_text(END)
        done = subprocess.run([*pipe.PROGRAM, "--install", new, room.folder / "elsewhere" / "link"], capture_output=True, text=True, timeout=60)
        if done.returncode != 0 or room.file.read_text() != END or not (room.folder / "elsewhere" / "link").is_symlink():
            yield f"through a link: {done}"
        if sorted(p.name for p in room.folder.iterdir()) != ["alternatives", "elsewhere", "new"]:
            yield f"left behind: {sorted(room.folder.iterdir())}"

    @pipe.test("--install: under load, no reader finds half a file")
    def install_load():
        room = Room(pipe).write(file_of("old")).listen(100000)
        files = [room.folder / "a", room.folder / "b"]
        files[0].write_bytes(file_of("new"))
        files[1].write_bytes(file_of("old"))
        yield from under_load(pipe, room, lambda i: subprocess.run([*pipe.PROGRAM, "--install", files[i % 2], room.file], capture_output=True), 40, 20)


def spellings(pipe):
    """One address, as people type it."""
    local, domain = ADDRESS.split("@")
    typed = {"as it is": ADDRESS, "NFD": unicodedata.normalize("NFD", ADDRESS), "capitals in the domain": f"{local}@HÖFN-Ü.Example",
             "A-labels": f"{local}@{A_LABELS}", "A-labels in capitals": f"{local}@{A_LABELS.upper()}",
             "a full-width dot": f"{local}@höfn-ü．example", "an ideographic dot": f"{local}@höfn-ü。example"}
    others = {"another local part": "й-è@höfn-ü.example", "a capital in the local part": "Й-é@höfn-ü.example", "another domain": "й-é@hofn-ü.example",
              "a look-alike": "й-é@höfn-ü.exаmple", "a subdomain": "й-é@x.höfn-ü.example", "a compatibility letter": "й-é@höfn-ü.example".replace("й", "й\u200d")}
    for wrote_name, wrote in typed.items():
        for name, address in typed.items():
            def match(wrote=wrote, address=address):
                room = Room(pipe).write(f"{wrote} e@example.net\n" + END).listen(1)
                status, said = room.deliver(address)
                room.server.close()
                if status != 0 or recipients(room.server) != {"RCPT TO:<e@example.net>"}:
                    yield f"status {status}, {said!r}"
            pipe.test(f"alternatives: written {wrote_name}, typed {name}")(match)
    for name, address in others.items():
        def differs(address=address):
            room = Room(pipe).write(f"{ADDRESS} e@example.net\n" + END).listen(1)
            status, said = room.deliver(address)
            room.server.close()
            if status != 65 or room.server.asked:
                yield f"status {status}, {said!r}, {room.server.asked}"
        pipe.test(f"alternatives: {name} is another address")(differs)

    @pipe.test("alternatives: one address in two spellings that differ")
    def differing():
        for name, address in typed.items():
            if name == "as it is":
                continue
            room = Room(pipe).write(f"{ADDRESS} e@example.net\n# more\n{address} f@example.net\n" + END)
            status, said = room.deliver(ADDRESS)
            if status != 75 or ":3: another alternative for an address above" not in said:
                yield f"{name}: status {status}, {said!r}"
            if room.check() != (65, f"{room.file}:3: another alternative for an address above\n"):
                yield f"{name}: --check says {room.check()}"


def tables(pipe):
    def told(name, pairs, address, status, says="", sent=None):
        def run():
            room = Room(pipe, "table.cdb").listen(1)
            room.write(cdb.make([(k.encode() if isinstance(k, str) else k, v.encode() if isinstance(v, str) else v) for k, v in pairs]))
            got, said = room.deliver(address, alternatives=f"cdb:{room.folder}/table")
            room.server.close()
            if got != status or says not in said or recipients(room.server) != ({f"RCPT TO:<{sent}>"} if sent else set()):
                yield f"status {got}, {said!r}, {room.server.asked}"
        pipe.test(f"table: {name}")(run)

    told("an address", [("é@x", "e@x"), (NAME, "a@example.net")], NAME, 0, sent="a@example.net")
    told("with NUL at the ends", [(NAME + "\0", "a@example.net\0")], NAME, 0, sent="a@example.net")
    told("none", [("é@x", "e@x")], NAME, 65, "has no ALT-ADDRESS; what to do: add a line for this address to cdb:")
    told("empty", [], NAME, 65)
    told("U-labels, typed in A-labels", [(ADDRESS, "e@x")], f"й-é@{A_LABELS}", 0, sent="e@x")
    told("A-labels, typed in U-labels", [(f"й-é@{A_LABELS}", "e@x")], ADDRESS, 0, sent="e@x")
    told("typed in NFD and capitals", [(ADDRESS, "e@x")], unicodedata.normalize("NFD", "й-é@") + "HÖFN-Ü.EXAMPLE", 0, sent="e@x")
    told("two alike", [(NAME, "a@x"), (NAME, "a@x")], NAME, 0, sent="a@x")
    told("two that differ", [(NAME, "a@x"), (NAME, "b@x")], NAME, 75, "two alternatives for one address")
    told("two spellings that differ", [(ADDRESS, "a@x"), (f"й-é@{A_LABELS}", "b@x")], ADDRESS, 75, "two alternatives for one address")
    told("folded by postmap", [("πλοηγόσ@x.example", "a@x")], "πλοηγός@x.example", 75, "postmap -f")
    told("another letter case", [(NAME, "a@x")], "Лоцман@порт.example", 75, "postmap -f")
    for name, value in [("empty", ""), ("no address", "a"), ("a comment", "a@x # night"), ("a line", "a@x>\r\nRCPT TO:<b@x"), ("two", "a@x b@x"), ("two by a comma", "a@x,b@x"),
                        ("not ASCII", "é@x"), ("bytes", b"\xff@x"), ("a NUL inside", "a@x\0b@x"), ("two NULs", "a@x\0\0"), ("a path", "<a@x>"), ("very long", "a" * 60000 + "@x")]:
        told(f"a value: {name}", [(NAME, value)], NAME, 75, "a value is not an ASCII address")

    @pipe.test("table: --check")
    def check():
        room = Room(pipe, "table.cdb")
        for pairs, want in [([(NAME, "a@x"), ("é@x", "e@x")], (0, "2 alternatives")), ([("é", "e@x")], (65, ":1: a key is not an address")),
                            ([(NAME, "a@x"), ("b@x", "e@x")], (65, ":2: a key is an ASCII address")), ([(NAME, "é@x")], (65, ":1: a value is not")),
                            ([("é@X", "e@x")], (65, ":1: a key is not in NFC")), ([("e\u0301@x", "e@x")], (65, ":1: a key is not in NFC")),
                            ([(ADDRESS, "a@x"), (f"й-é@{A_LABELS}", "b@x")], (65, ":1: two alternatives"))]:
            room.write(cdb.make([(k.encode(), v.encode()) for k, v in pairs]))
            got = room.check(f"cdb:{room.folder}/table")
            if got[0] != want[0] or want[1] not in got[1]:
                yield f"{pairs}: {got}"

    @pipe.test("table: none of that name")
    def none():
        status, said = Room(pipe).deliver(alternatives="cdb:/none/table")
        if status != 75 or "cdb:/none/table: No such file or directory" not in said:
            yield f"status {status}, {said!r}"


def processor_time(pipe, room, address):
    """Of one delivery to a port where nobody listens, in seconds."""
    child = subprocess.Popen([*pipe.PROGRAM, "-n", "127.0.0.1:1", "-l", room.folder / "log", "-a", room.file, "-f", "a@example.org", "--", address],
                             stdin=subprocess.PIPE, stdout=subprocess.PIPE)
    child.stdin.write(b"X: b\n\nbody\n")
    child.stdin.close()
    said = child.stdout.read().decode()
    _, _, used = os.wait4(child.pid, 0)
    child.returncode = 0
    return used.ru_utime + used.ru_stime, said


def many(pipe):
    """20,000 alternatives in under 50 ms of processor time more than one takes."""
    forms = {"of one domain": lambda i: f"λιμάνι{i}@παράδειγμα.example", "of one name": lambda i: f"λιμάνι@παράδειγμα{i}.example", "of ASCII domains": lambda i: f"λιμάνι{i}@x{i}.example"}
    for name, form in forms.items():
        @pipe.test(f"alternatives: 20,000 {name}")
        def fast(form=form):
            if "sanitized" in pipe.PROGRAM[0] or len(pipe.PROGRAM) > 1:
                return
            address = form(19999)
            large = Room(pipe).write("".join(f"{form(i)} a{i}@example.net\n" for i in range(20000)) + END)
            small = Room(pipe).write(f"{address} a19999@example.net\n" + END)
            times = []
            for room in (small, large):
                runs = [processor_time(pipe, room, address) for _ in range(5)]
                times.append(min(used for used, _ in runs))
                if not all("Connection refused" in said for _, said in runs):
                    yield f"{runs}"
            if times[1] - times[0] > 0.05:
                yield f"{times[1] - times[0]:.3f} s"


def add(pipe):
    for part in (cuts, replaced, spellings, tables, many):
        part(pipe)
