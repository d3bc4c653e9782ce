"""A PostgreSQL server of its own, and connections to it.

The server keeps its data in a temporary folder and listens on a free loopback port. At the end it is
stopped by its own process id, and the folder is removed. The connections speak the simple query
protocol of PostgreSQL, so nothing but python3 is needed beside the server.
"""
import glob
import os
import pwd
import shutil
import signal
import socket
import struct
import subprocess
import sys
import tempfile
import time

OPTIONS = [
    "listen_addresses=127.0.0.1",
    "unix_socket_directories=",
    "max_connections=40",
    "fsync=off",
    "autovacuum=off",
    "deadlock_timeout=100ms",
    # A scan of the whole table would take a predicate lock on the table.
    "enable_seqscan=off",
]
PATIENCE = 60


class Refused(Exception):
    """The server refused a statement: its SQLSTATE and its message."""


class Connection:
    """A connection to a database of the server. `pid` is the process id of its backend."""

    def __init__(self, port):
        self.pid = None
        self.socket = socket.create_connection(("127.0.0.1", port))
        self.socket.setsockopt(socket.IPPROTO_TCP, socket.TCP_NODELAY, 1)
        self.stream = self.socket.makefile("rb")
        words = b"user\0postgres\0database\0postgres\0\0"
        self.socket.sendall(struct.pack("!ii", len(words) + 8, 3 << 16) + words)
        self.answer()

    def query(self, text):
        """Runs a statement. Returns its rows, of texts and None, and its tag, as `UPDATE 1`."""
        words = text.encode() + b"\0"
        self.socket.sendall(struct.pack("!ci", b"Q", len(words) + 4) + words)
        return self.answer()

    def answer(self):
        """Reads messages until the server is ready for the next statement."""
        rows, tag, refusal = [], "", None
        while True:
            head = self.stream.read(5)
            if len(head) < 5:
                raise refusal or ConnectionError("the server has closed the connection")
            kind, length = struct.unpack("!ci", head)
            body = self.stream.read(length - 4)
            if kind == b"D":
                rows.append(fields(body))
            elif kind == b"C":
                tag = body[:-1].decode()
            elif kind == b"K":
                (self.pid,) = struct.unpack("!i", body[:4])
            elif kind == b"E":
                told = {part[:1]: part[1:].decode() for part in body.split(b"\0") if part}
                refusal = Refused(told[b"C"], told[b"M"])
            elif kind == b"Z":
                if refusal:
                    raise refusal
                return rows, tag

    def close(self):
        self.stream.close()
        self.socket.close()


def fields(body):
    """The columns of a DataRow message."""
    (count,), at, found = struct.unpack("!h", body[:2]), 2, []
    for _ in range(count):
        (length,) = struct.unpack("!i", body[at : at + 4])
        at += 4
        found.append(None if length < 0 else body[at : at + length].decode())
        at += max(length, 0)
    return found


def missing(what):
    """Says what is missing, and ends with status 125."""
    print(f"{os.path.basename(sys.argv[0])}: {what}", file=sys.stderr)
    sys.exit(125)


def programs():
    """The folder of PostgreSQL's programs: that on the path, or the newest one of Debian's."""
    found = shutil.which("initdb")
    if found:
        return os.path.dirname(os.path.realpath(found))
    folders = glob.glob("/usr/lib/postgresql/*/bin")
    if not folders:
        missing(
            "there is no initdb, which is needed to start PostgreSQL: install it, for example from "
            "your system's packages"
        )
    return max(folders, key=lambda it: float(it.split("/")[-2]))


def free_port():
    with socket.socket() as it:
        it.bind(("127.0.0.1", 0))
        return it.getsockname()[1]


class Server:
    """A server, from `with` on to its end."""

    def __enter__(self):
        folder, self.owner = programs(), {}
        signal.signal(signal.SIGTERM, lambda *_: sys.exit(143))
        self.folder = tempfile.mkdtemp(prefix="postgres.")
        if os.geteuid() == 0:
            self.give_away()
        data, self.port = os.path.join(self.folder, "data"), free_port()
        with open(os.path.join(self.folder, "log"), "w", encoding="utf-8") as log:
            subprocess.run(
                [f"{folder}/initdb", "-D", data, "-A", "trust", "-U", "postgres", "--no-sync"],
                check=True, cwd=self.folder, stdout=log, stderr=log, **self.owner,
            )
            words = [word for option in OPTIONS for word in ("-c", option)]
            self.process = subprocess.Popen(
                [f"{folder}/postgres", "-D", data, "-p", str(self.port), *words],
                cwd=self.folder, stdout=log, stderr=log, **self.owner,
            )
        self.wait()
        return self

    def give_away(self):
        """PostgreSQL refuses to run as root: the folder and the server belong to `postgres`."""
        try:
            user = pwd.getpwnam("postgres")
        except KeyError:
            os.rmdir(self.folder)
            missing("there is no user postgres, as whom PostgreSQL could run: it refuses to run as root")
        os.chown(self.folder, user.pw_uid, user.pw_gid)
        self.owner = {"user": user.pw_uid, "group": user.pw_gid, "extra_groups": []}

    def wait(self):
        """Waits until the server answers."""
        last = time.monotonic() + PATIENCE
        while True:
            try:
                return self.connect().close()
            except (OSError, Refused):
                if self.process.poll() is not None or time.monotonic() > last:
                    self.__exit__()
                    sys.exit("the server does not answer")
            time.sleep(0.05)

    def connect(self):
        return Connection(self.port)

    def version(self):
        connection = self.connect()
        ((version,),), _ = connection.query("SHOW server_version")
        connection.close()
        return version

    def __exit__(self, *_):
        if self.process.poll() is None:
            self.process.send_signal(signal.SIGINT)
            self.process.wait()
        shutil.rmtree(self.folder)
