"""Programs that fetch mail by POP3 as their users set them up: each takes all that a user has, and deletes it on the server."""
import pathlib
import subprocess


def by_fetchmail(port, user, room):
    """What fetchmail hands on."""
    kept = pathlib.Path(room) / f"fetchmail_{user}"
    kept.mkdir()
    kept.chmod(0o777)
    take = kept.with_suffix(".take")
    take.write_text(f'#!/bin/sh\nfile=$(mktemp "{kept}/XXXXXX") && cat >"$file"\n')
    take.chmod(0o755)
    settings = kept.with_suffix(".rc")
    settings.write_text(f"poll 127.0.0.1 service {port} protocol pop3 user {user} password pass mda \"{take}\" norewrite sslproto ''\n")
    settings.chmod(0o600)
    places = ["-i", kept.with_suffix(".ids"), "--pidfile", kept.with_suffix(".pid")]
    subprocess.run(
        ["fetchmail", "--nosyslog", "-f", settings, *places, "--invisible"],
        capture_output=True,
        env={"HOME": str(room), "PATH": "/usr/bin:/bin", "FETCHMAILHOME": str(room)},
    )
    return sorted(f.read_bytes() for f in kept.iterdir())


def by_mpop(port, user, room):
    """What mpop puts into a Maildir."""
    kept = pathlib.Path(room) / f"mpop_{user}"
    for part in ("cur", "new", "tmp"):
        (kept / part).mkdir(parents=True)
    settings = kept.with_suffix(".rc")
    settings.write_text(
        f"account a\nhost 127.0.0.1\nport {port}\nuser {user}\npassword pass\ntls off\nauth user\nkeep off\nreceived_header off\n"
        f"delivery maildir {kept}\nuidls_file {kept.with_suffix('.uidls')}\n"
    )
    settings.chmod(0o600)
    subprocess.run(["mpop", "-C", settings, "-q", "a"], capture_output=True)
    return sorted(f.read_bytes() for f in (kept / "new").iterdir())
