"""What the tests of the commands share: one line for each check, ok or FAIL, and at the end 'N passed, M failed'."""
import fcntl
import os
import pty
import select
import struct
import subprocess
import termios
import time

passed = failed = 0


def check(name, fault):
    """A check has failed where `fault` says something."""
    global passed, failed
    if fault:
        failed += 1
        print(f"FAIL {name}: {str(fault)[:1500]}", flush=True)
    else:
        passed += 1
        print(f"ok {name}", flush=True)


def same(name, got, want):
    check(name, None if got == want else f"{got!r}, not {want!r}")


def run(program, *arguments, data=b"", **options):
    """Status, standard output and standard error of a program."""
    done = subprocess.run(
        [str(program), *map(lambda a: a if isinstance(a, bytes) else str(a), arguments)],
        input=data,
        capture_output=True,
        timeout=60,
        **options,
    )
    return done.returncode, done.stdout, done.stderr


def in_terminal(command, columns, seconds=60, **options):
    """Runs a program in a terminal of its own until it ends, or for so many seconds: its status, and what the terminal gets."""
    ours, its = pty.openpty()
    fcntl.ioctl(its, termios.TIOCSWINSZ, struct.pack("HHHH", 40, columns, 0, 0))
    child = subprocess.Popen(command, **{"stdin": its, "stdout": its, "stderr": its, "start_new_session": True, **options})
    os.close(its)
    end = time.monotonic() + seconds
    got = b""
    while time.monotonic() < end:
        if select.select([ours], [], [], 0.2)[0]:
            try:
                got += os.read(ours, 65536)
            except OSError:  # the other end is closed
                break
    if child.poll() is None and time.monotonic() >= end:
        child.kill()
    os.close(ours)
    return child.wait(), got


def closing_line():
    print(f"{passed} passed, {failed} failed")
    return 0 if failed == 0 else 1
