"""An instance of Dovecot below a folder, on a loopback port of its own, with the settings of examples/dovecot."""
import pathlib
import poplib
import subprocess
import time

from postfix import free_port

PROJECT = pathlib.Path(__file__).resolve().parents[2]
LDA = "/usr/lib/dovecot/dovecot-lda"

# Users have any name and one password, and nothing outside the folder is used. The users late and slow have 3 seconds for a filter.
SETTINGS = """\
base_dir = {folder}/run
state_dir = {folder}/run
log_path = {folder}/log
ssl = no
protocols = pop3 lmtp
listen = 127.0.0.1
disable_plaintext_auth = no
first_valid_uid = 1
passdb {{
  driver = static
  args = password=pass
}}
userdb {{
  driver = passwd-file
  args = username_format=%n {folder}/users
}}
userdb {{
  driver = static
  args = uid=nobody gid=nogroup home={folder}/mail/%n allow_all_users=yes
}}
service pop3-login {{
  inet_listener pop3 {{
    port = {port}
  }}
  inet_listener pop3s {{
    port = 0
  }}
}}
service lmtp {{
  inet_listener lmtp {{
    port = {lmtp_port}
  }}
}}
protocol lmtp {{
  mail_plugins = sieve
}}
protocol lda {{
  log_path = {folder}/lda.log
}}
"""


class Instance:
    def __init__(self, folder, filter_program, settings=""):
        """The program is the one that runs as hennelaku-mailbox; the settings come after those of the example."""
        self.folder = pathlib.Path(folder)
        self.port = free_port()
        self.lmtp_port = free_port()
        for part in ("run", "mail", "filter", "sieve"):
            (self.folder / part).mkdir(parents=True)
        (self.folder / "lda.log").touch()
        (self.folder / "users").write_text(
            "".join(f"{user}::65534:65534::{self.folder}/mail/{user}::userdb_sieve_filter_exec_timeout=3s\n" for user in ("late", "slow"))
        )
        subprocess.run(["chown", "nobody:nogroup", self.folder / "mail", self.folder / "lda.log"], check=True)
        self.set_filter(filter_program)
        example = (PROJECT / "examples/dovecot/local.conf").read_text()
        example = (
            example.replace("/usr/local/lib/dovecot/sieve-filter", f"{self.folder}/filter")
            .replace("/etc/dovecot/sieve", f"{self.folder}/sieve")
            .replace("vmail", "nobody")
        )
        self.conf = self.folder / "dovecot.conf"
        self.conf.write_text(SETTINGS.format(folder=self.folder, port=self.port, lmtp_port=self.lmtp_port) + example + settings)
        (self.folder / "sieve/pop.sieve").write_text((PROJECT / "examples/dovecot/pop.sieve").read_text())
        subprocess.run(["sievec", "-c", self.conf, self.folder / "sieve/pop.sieve"], check=True)

    def set_filter(self, program):
        """A program, or the text of a shell script, as the filter."""
        file = self.folder / "filter/hennelaku-mailbox"
        file.unlink(missing_ok=True)
        if program is None:
            return
        if isinstance(program, pathlib.Path):
            file.symlink_to(program)
        else:
            file.write_text(f"#!/bin/sh\n{program}\n")
            file.chmod(0o755)

    def start(self):
        subprocess.run(["dovecot", "-c", self.conf], check=True)
        end = time.monotonic() + 20
        while not (self.folder / "run/master.pid").exists() and time.monotonic() < end:
            time.sleep(0.05)

    def stop(self):
        """It takes seconds to end: the command that waits for it."""
        return subprocess.Popen(["dovecot", "-c", self.conf, "stop"], stdout=subprocess.DEVNULL, stderr=subprocess.DEVNULL)

    def with_script(self, name, text, place):
        """A configuration like its own, with another script at another place."""
        script = self.folder / "sieve" / f"{name}.sieve"
        script.write_text(text)
        subprocess.run(["sievec", "-c", self.conf, script], check=True)
        conf = self.folder / f"{name}_{place}.conf"
        conf.write_text(self.conf.read_text().replace(f"sieve_after = {self.folder}/sieve/pop.sieve", f"sieve_{place} = {script}"))
        return conf

    def deliver(self, user, message, options=(), conf=None):
        """The exit status of dovecot-lda, as Postfix's pipe(8) runs it."""
        done = subprocess.run(
            [LDA, "-c", conf or self.conf, *options, "-f", "a@example.org", "-d", user],
            input=message,
            capture_output=True,
            user="nobody",
            group="nogroup",
            extra_groups=[],
        )
        return done.returncode

    def put(self, user, folder, name, message):
        """A file of a Maildir, under a name of the test's own."""
        place = self.folder / "mail" / user / "Maildir" / folder
        for part in ("cur", "new", "tmp"):
            (place / part).mkdir(parents=True, exist_ok=True)
        (place / "cur" / f"{name}:2,S").write_bytes(message)
        subprocess.run(["chown", "-R", "nobody:nogroup", self.folder / "mail" / user], check=True)

    def stored(self, user, folder=""):
        """The messages of a folder, in the order of their arrival."""
        return [f.read_bytes() for f in self.files(user, folder)]

    def files(self, user, folder):
        place = self.folder / "mail" / user / "Maildir" / folder
        return sorted((f for part in ("new", "cur") if (place / part).is_dir() for f in (place / part).iterdir()), key=lambda f: f.name)


def pop(server, user):
    """A client of POP3, logged in."""
    client = poplib.POP3("127.0.0.1", server.port, timeout=20)
    client.user(user)
    client.pass_("pass")
    return client
