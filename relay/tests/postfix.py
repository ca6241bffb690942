"""An instance of Postfix below a folder, on a loopback port of its own; and the set-up of examples/postfix in one."""
import json
import os
import pathlib
import shutil
import signal
import socket
import subprocess
import sys
import time

PROJECT = pathlib.Path(__file__).resolve().parents[2]

SERVICES = """\
127.0.0.1:{port} inet n - n - - smtpd
pickup unix n - n 60 1 pickup
cleanup unix n - n - 0 cleanup
qmgr unix n - n 300 1 qmgr
rewrite unix - - n - - trivial-rewrite
bounce unix - - n - 0 bounce
defer unix - - n - 0 bounce
trace unix - - n - 0 bounce
verify unix - - n - 1 verify
flush unix n - n 1000? 0 flush
proxymap unix - - n - - proxymap
showq unix n - n - - showq
smtp unix - - n - - smtp
error unix - - n - - error
retry unix - - n - - error
anvil unix - - n - 1 anvil
tlsmgr unix - - n 1000? 1 tlsmgr
postlog unix-dgram n - n - 1 postlogd
"""

# Nothing of a message is changed on the way, nothing outside the folder is used, and each message has a connection of its own, as servers of the tests
# have it.
SETTINGS = """\
compatibility_level = 3.6
queue_directory = {folder}/queue
data_directory = {folder}/data
maillog_file = {folder}/log
maillog_file_prefixes = {folder}
myhostname = {name}.example
mydestination =
inet_interfaces = 127.0.0.1
inet_protocols = ipv4
mynetworks = 127.0.0.0/8
smtpd_relay_restrictions = permit_mynetworks, reject
local_header_rewrite_clients =
alias_maps =
alias_database =
local_recipient_maps =
notify_classes =
smtpd_client_connection_rate_limit = 0
smtpd_client_event_limit_exceptions = 127.0.0.0/8
disable_dns_lookups = yes
smtp_connection_cache_on_demand = no
"""


def once(settings):
    """Settings with the last value for each name alone. For one that stands twice every program of Postfix warns when it starts: under maillog_file
    postlogd would then wait for room in the queue that only it empties."""
    lines = [line.partition("=") for line in settings.splitlines() if "=" in line and not line.startswith("#")]
    return "".join(f"{name.strip()} = {value.strip()}\n" for name, value in {name.strip(): value for name, _, value in lines}.items())


def free_port():
    with socket.socket() as s:
        s.bind(("127.0.0.1", 0))
        return s.getsockname()[1]


class Instance:
    def __init__(self, folder, name, port, settings, services):
        self.folder = pathlib.Path(folder)
        self.name = name
        self.port = port
        self.stuck = 0  # commands that took too long
        self.etc = self.folder / "etc"
        for part in ("etc", "queue", "data"):
            (self.folder / part).mkdir(parents=True)
        subprocess.run(["chown", "postfix", self.folder / "data"], check=True)
        values = {"folder": self.folder, "name": name, "port": port}
        (self.etc / "main.cf").write_text(once(SETTINGS.format(**values) + settings))
        (self.etc / "master.cf").write_text(SERVICES.format(**values) + services)

    def run(self, *command, check=True, seconds=30):
        """Runs a command of Postfix for this instance. One that takes too long is ended, with what it started."""
        command = [command[0], "-c", str(self.etc), *command[1:]]
        child = subprocess.Popen(command, stdin=subprocess.DEVNULL, stdout=subprocess.PIPE, stderr=subprocess.PIPE, text=True, start_new_session=True)
        try:
            out, errors = child.communicate(timeout=seconds)
        except subprocess.TimeoutExpired:
            os.killpg(child.pid, signal.SIGKILL)
            child.wait()
            # Not read to their end: a `master -t` in a session of its own may hold them.
            child.stdout.close()
            child.stderr.close()
            out = errors = ""
            self.stuck += 1
        done = subprocess.CompletedProcess(command, child.returncode, out, errors)
        if check:
            done.check_returncode()
        return done

    def start(self):
        done = self.run("postfix", "start", check=False)
        if done.returncode != 0:
            raise RuntimeError(f"{self.name} does not start: {done.stderr}")
        self.wait_until(self.is_listening, 20, "listens")

    def stop(self):
        """Stops it, and where it does not stop kills its master."""
        pid = self.folder / "queue/pid/master.pid"
        master = int(pid.read_text()) if pid.exists() else 0
        stuck = self.stuck
        self.run("postfix", "stop", check=False)
        if self.stuck > stuck and master:
            try:
                os.kill(master, signal.SIGKILL)
            except ProcessLookupError:
                pass

    def is_listening(self):
        with socket.socket() as s:
            return s.connect_ex(("127.0.0.1", self.port)) == 0

    def wait_until(self, done, seconds, what):
        end = time.monotonic() + seconds
        while not done():
            if time.monotonic() > end:
                return False
            time.sleep(0.2)
        return True

    def queue(self):
        """The messages in the queue."""
        return [json.loads(line) for line in self.run("postqueue", "-j").stdout.splitlines()]

    def flush(self):
        self.run("postqueue", "-f")


def in_own_network(program):
    """Runs this script again with a network and mounts of its own, in which there is only loopback."""
    if os.environ.get("HENNELAKU_NETWORK") != "own":
        subprocess.run([PROJECT / "relay/packages", "postfix", "postfix-cdb", "iproute2"], check=True)
        os.environ["HENNELAKU_NETWORK"] = "own"
        os.execvp("unshare", ["unshare", "--net", "--mount", "--propagation", "private", sys.executable, "-B", *program])
    subprocess.run(["ip", "link", "set", "lo", "up"], check=True)
    for number in (signal.SIGTERM, signal.SIGINT, signal.SIGALRM):
        signal.signal(number, lambda number, _: sys.exit(f"ended by signal {number}"))


def share_postlog(front):
    """In this script's mounts: postlog(1) as Postfix installs it, set-gid, and this instance's files as /etc/postfix, which postlog asks whether it may
    take them."""
    copy = front.folder / "postlog"
    shutil.copy("/usr/sbin/postlog", copy)
    shutil.chown(copy, "root", "postdrop")
    copy.chmod(0o2755)
    subprocess.run(["mount", "--bind", copy, "/usr/sbin/postlog"], check=True)
    with open(front.etc / "main.cf", "a") as settings:
        settings.write(f"alternate_config_directories = {front.etc}\n")
    for name in ("dynamicmaps.cf", "dynamicmaps.cf.d", "postfix-files", "postfix-files.d", "postfix-script", "post-install"):
        if (pathlib.Path("/etc/postfix") / name).exists() and not (front.etc / name).exists():
            subprocess.run(["cp", "-a", f"/etc/postfix/{name}", front.etc], check=True)
    subprocess.run(["mount", "--bind", front.etc, "/etc/postfix"], check=True)


def example(name, room, build, port):
    """A file of examples/postfix, with this room for /etc/postfix."""
    text = (PROJECT / "examples/postfix" / name).read_text()
    return text.replace("/usr/local/sbin/hennelaku-pipe", f"{build}/hennelaku-pipe").replace("/etc/postfix", str(room)).replace("10026", str(port))


def make_front(room, build, routes, alternatives, settings=""):
    """The set-up of examples/postfix: everything is downgraded, and sent on by the routes, lines of `domain host:port`."""
    port = free_port()
    (room / "transport").write_text("* hennelaku:\n")
    (room / "routes").write_text("".join(f"{domain} FILTER smtp:{hop}\n" for domain, hop in routes.items()))
    (room / "alternatives").write_text(alternatives)
    settings = example("main.cf", room, build, port) + "smtputf8_enable = yes\n" + settings
    front = Instance(room / "front", "front", free_port(), settings, example("master.cf", room, build, port))
    front.reinjection = port
    share_postlog(front)
    return front
