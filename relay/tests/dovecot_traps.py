"""What a site must not do with Dovecot, each tried with a real one: mail in UTF-8 by LMTP, a filter at reading, a filter past Dovecot's
time limit. `site` is what interop_dovecot runs: its room, the program, Dovecot (`server`) and Postfix (`store`)."""
import os
import pathlib
import re
import subprocess

from checks import check, same
from dovecot import Instance, pop
from pop_programs import by_fetchmail, by_mpop

TESTS = pathlib.Path(__file__).resolve().parent

# POP3 serves INBOX, whose messages are as they came, and each goes through the program when it is read.
READING = """\
protocol pop3 {{
  mail_location = maildir:~/Maildir
  mail_plugin_dir = {modules}
  mail_plugins = filter_at_reading
}}
plugin {{
  filter_at_reading = {program}
}}
"""

ASCII = b"Subject: plain\r\n\r\nbody\r\n"


def by_lmtp(site):
    """Postfix returns mail in UTF-8 to its sender, since Dovecot's LMTP does not offer SMTPUTF8."""
    server = site.server
    site.send("office@example.net", ["eva@lmtp.example"], ASCII)
    site.send("office@example.net", ["eva@lmtp.example"], "Subject: é\r\n\r\nbody\r\n".encode())
    site.wait_until(lambda: server.stored("eva", ".Pop"), 20)
    same("ASCII mail by LMTP arrives", (len(server.stored("eva")), len(server.stored("eva", ".Pop"))), (1, 1))
    returned = site.wait_until(lambda: any(b"SMTPUTF8 is required" in re.sub(rb"\s+", b" ", m) for m in server.stored("office")), 20)
    same("mail in UTF-8 by LMTP is returned to its sender", (returned, len(server.stored("eva"))), (True, 1))


def make_reading(site):
    """A Dovecot with a filter at reading."""
    modules = site.room / "modules"
    modules.mkdir()
    subprocess.run(
        [os.environ.get("CC", "cc"), "-std=gnu99", "-O1", "-fPIC", "-shared", "-DHAVE_CONFIG_H", "-isystem", "/usr/include/dovecot",
         TESTS / "plugin/filter_at_reading.c", "-o", modules / "lib99_filter_at_reading_plugin.so"],
        check=True,
    )
    return Instance(site.room / "reading", site.program, READING.format(modules=modules, program=site.program))


def retrieved(server, user):
    """The size of each message by LIST, and what RETR gives."""
    client = pop(server, user)
    sizes = [int(line.split()[1]) for line in client.list()[1]]
    texts = [b"\n".join(client.retr(number + 1)[1]) + b"\n" for number in range(len(sizes))]
    client.quit()
    return sizes, texts


def at_reading(site, reading, message):
    """The names of the files have the sizes of what came, and what is read is longer: POP3 gives nothing of a short message, the front
    of a long one, and says it is all. Programs that fetch and delete leave no copy of the rest."""
    long = message + b"a line of the body\n" * 5000
    for user in ("hanna", "ida", "jens"):
        for text in (message, long):
            reading.deliver(user, text)
    sizes, texts = retrieved(reading, "hanna")
    whole = [site.converted(message), site.converted(long)]
    same("a filter at reading: LIST has the sizes of what came", sizes, [len(site.crlf(message)), len(site.crlf(long))])
    check(
        "a filter at reading: a short message comes empty, a long one cut, and neither as an error",
        None if texts[0] == b"\n" and len(texts[1]) < len(whole[1]) and whole[1].startswith(texts[1][:-1]) else list(map(len, texts)),
    )
    for name, fetch, user in (("fetchmail", by_fetchmail, "ida"), ("mpop", by_mpop, "jens")):
        got = fetch(reading.port, user, site.room)
        same(
            f"a filter at reading: {name} has nothing whole, and has deleted both",
            (len(got), [g for g in got if g in whole or g.endswith(b"a line of the body\n" * 5000)], reading.stored(user)),
            (2, [], []),
        )
    reading.put("lena", "", "1.host", message)
    same("where names carry no sizes, the same filter gives the message whole", retrieved(reading, "lena")[1], [whole[0]])


class Watched:
    """What the users of a filter past its limit have: late by dovecot-lda; nora and slow by LMTP, in one transaction."""

    def __init__(self, site):
        self.site = site
        self.before = self.in_logs()

    def in_logs(self):
        return [(self.site.server.folder / log).read_text().count("Panic:") for log in ("lda.log", "log")]

    def panics(self):
        """Since the start: of dovecot-lda, of lmtp."""
        return [now - before for now, before in zip(self.in_logs(), self.before)]

    def counts(self):
        """Of each user: messages in INBOX and copies."""
        stored = self.site.server.stored
        return {user: (len(stored(user)), len(stored(user, ".Pop"))) for user in ("late", "nora", "slow")}

    def send(self):
        self.site.send("office@example.net", ["late@example.net"], ASCII)
        self.site.send("office@example.net", ["nora@lmtp.example", "slow@lmtp.example"], ASCII)

    def set_filter(self, command):
        """For late and slow this one; for nora hennelaku-mailbox."""
        self.site.server.set_filter(f'case $USER in late* | slow*) exec {command} ;; esac\nexec {self.site.program} "$@"')


def past_limit(site):
    """A filter past Dovecot's limit ends dovecot-lda and lmtp by a panic. Both messages wait in the queue; but lmtp has not answered for
    nora either, who has hers, and gets it again at each try. With the command's own limit each has a message once."""
    store, watched = site.store, Watched(site)
    watched.set_filter("sleep 30")
    watched.send()
    site.wait_until(lambda: [m["queue_name"] for m in store.queue()] == ["deferred"] * 2, 20)
    site.wait_until(lambda: watched.panics() == [1, 1], 5)
    same("a filter past Dovecot's limit: dovecot-lda and lmtp panic", watched.panics(), [1, 1])
    same("both messages wait in the queue", [m["queue_name"] for m in store.queue()], ["deferred"] * 2)
    same("only the one before it by LMTP has something", watched.counts(), {"late": (0, 0), "nora": (1, 1), "slow": (0, 0)})
    watched.set_filter(f"{site.program} -t 1 <>{site.room}/endless")
    store.flush()
    site.wait_until(lambda: not store.queue(), 20)
    same("with the command's own limit: no panic", watched.panics(), [1, 1])
    same("each arrives, by LMTP twice for the one before it", watched.counts(), {"late": (1, 0), "nora": (2, 2), "slow": (1, 0)})
    watched.send()
    site.wait_until(lambda: not store.queue(), 20)
    same("with the command's own limit: no panic, later neither", watched.panics(), [1, 1])
    same("and each has a new message once", watched.counts(), {"late": (2, 0), "nora": (3, 3), "slow": (2, 0)})
    site.server.set_filter(site.program)
