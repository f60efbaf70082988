"""A client of ZMTP 3.0 in plain Python sockets (mechanism NULL, socket type DEALER), signed messages, and a controller to talk to.

The scripts beside it import it. Messages are octets that can be made beforehand, so that a load costs its client little.
The program is that of this repository, built where it must be, or the one that the variable IPCLUSTER names.
"""

import datetime
import functools
import hashlib
import hmac
import json
import os
import random
import shutil
import socket
import struct
import subprocess
import tempfile
import time

TOP = os.path.dirname(os.path.dirname(os.path.abspath(__file__)))
HOST = "127.0.0.1"
KEY = b"checks"
HUB, TASK, MUX, ENGINE = range(4)
DELIMITER = b"<IDS|MSG>"
MORE, LONG, COMMAND = 1, 2, 4
GREETING = b"\xff" + bytes(8) + b"\x7f\x03\x00NULL" + bytes(16) + bytes(32)


# ---- frames and messages

def frame(body, flags=0):
    if len(body) < 256:
        return bytes([flags, len(body)]) + body
    return struct.pack(">BQ", flags | LONG, len(body)) + body


def ready(identity=b"", socket_type=b"DEALER"):
    """The command READY, with an identity where there is one."""
    properties = [(b"Socket-Type", socket_type)] + ([(b"Identity", identity)] if identity else [])
    body = b"".join(bytes([len(name)]) + name + struct.pack(">I", len(value)) + value for name, value in properties)
    return frame(b"\x05READY" + body, COMMAND)


def packed(frames):
    """The octets of a message of these frames."""
    return b"".join(frame(it, MORE) for it in frames[:-1]) + frame(frames[-1])


def signed(parts, buffers=(), targets=(), key=KEY):
    """The octets of a message: identity frames, the delimiter, the signature of the four parts, the parts, and buffers."""
    tag = hmac.new(key, b"".join(parts), hashlib.sha256).hexdigest().encode()
    return packed([*targets, DELIMITER, tag, *parts, *buffers])


def text(value):
    return value if isinstance(value, bytes) else json.dumps(value).encode()


def date():
    return datetime.datetime.now(datetime.timezone.utc).isoformat(timespec="microseconds")


def header(msg_id, msg_type):
    return {"msg_id": msg_id, "session": "checks", "username": "checks", "date": date(), "msg_type": msg_type, "version": "5.3"}


def message(msg_id, msg_type, content, metadata=b"{}", parent=b"{}", targets=()):
    """The octets of a signed message; each part is JSON already, or is written as JSON."""
    return signed([text(it) for it in (header(msg_id, msg_type), parent, metadata, content)], targets=targets)


def task(msg_id, code="6*7", metadata=b"{}", targets=()):
    return message(msg_id, "execute_request", {"code": code}, metadata, targets=targets)


class Message:
    """A signed message that came: its frames from the signature on, and its parts as JSON."""

    def __init__(self, frames):
        at = frames.index(DELIMITER)
        self.targets, self.frames, self.buffers = frames[:at], frames[at + 1:], frames[at + 6:]

    header = functools.cached_property(lambda self: json.loads(self.frames[1]))
    parent = functools.cached_property(lambda self: json.loads(self.frames[2]))
    metadata = functools.cached_property(lambda self: json.loads(self.frames[3]))
    content = functools.cached_property(lambda self: json.loads(self.frames[4]))
    msg_type = property(lambda self: self.header["msg_type"])

    def is_signed(self, key=KEY):
        return hmac.new(key, b"".join(self.frames[1:5]), hashlib.sha256).hexdigest().encode() == self.frames[0]


# ---- links

class Ended(Exception):
    """The other side closed the link, or reset it."""


class Refused(Exception):
    """The other side sent ERROR, with this reason, where READY was to come."""


class Reader:
    """Takes octets of a stream behind the greeting in any pieces, and gives commands and messages that are whole."""

    def __init__(self):
        self.rest, self.frames, self.commands = b"", [], []

    def feed(self, octets):
        data = self.rest + octets if self.rest else octets
        at, end, whole = 0, len(data), []
        while end - at >= 2:
            flags = data[at]
            if flags & LONG:
                if end - at < 9:
                    break
                start = at + 9
                stop = start + int.from_bytes(data[at + 1:start], "big")
            else:
                start = at + 2
                stop = start + data[at + 1]
            if stop > end:
                break
            at = stop
            if flags & COMMAND:
                self.commands.append(data[start:stop])
                continue
            self.frames.append(data[start:stop])
            if not flags & MORE:
                whole.append(self.frames)
                self.frames = []
        self.rest = data[at:]
        return whole


def dialled(port, timeout=10, window=None):
    """A TCP connection, with so small a window for what comes where one is given."""
    link = socket.socket()
    if window:
        link.setsockopt(socket.SOL_SOCKET, socket.SO_RCVBUF, window)
    link.settimeout(timeout)
    link.connect((HOST, port))
    link.setsockopt(socket.IPPROTO_TCP, socket.TCP_NODELAY, 1)
    return link


class Link:
    """A link whose handshake was made."""

    def __init__(self, port, identity=b"", socket_type=b"DEALER", timeout=10, window=None):
        self.socket = dialled(port, timeout, window)
        self.reader, self.waiting = Reader(), []
        try:
            self.socket.sendall(GREETING + ready(identity, socket_type))
            self._shake_hands()
        except BaseException:
            self.close()
            raise

    def _octets(self, most=262144):
        try:
            octets = self.socket.recv(most)
        except (ConnectionError, BrokenPipeError) as error:
            raise Ended from error
        if not octets:
            raise Ended
        return octets

    def _shake_hands(self):
        came = b""
        while len(came) < 64:
            came += self._octets()
        if came[:1] != b"\xff" or came[9:11] != b"\x7f\x03" or came[12:16] != b"NULL":
            raise ValueError(f"a greeting of another kind: {came[:64]!r}")
        self.waiting += self.reader.feed(came[64:])
        while not self.reader.commands:
            self.waiting += self.reader.feed(self._octets())
        first = self.reader.commands[0]
        if first.startswith(b"\x05ERROR"):
            raise Refused(first[7:].decode())
        if not first.startswith(b"\x05READY"):
            raise ValueError(f"a command of another kind: {first!r}")

    def fileno(self):
        return self.socket.fileno()

    def send(self, octets):
        try:
            self.socket.sendall(octets)
        except (ConnectionError, BrokenPipeError) as error:
            raise Ended from error

    def arrived(self):
        """The frames of the messages that wait, or those that the next octets end: maybe none."""
        waiting, self.waiting = self.waiting, []
        return waiting or self.reader.feed(self._octets())

    def receive(self, timeout=10):
        """The next message. Raises Ended or TimeoutError where none comes."""
        until = time.monotonic() + timeout
        while not self.waiting:
            left = until - time.monotonic()
            if left <= 0:
                raise TimeoutError
            self.socket.settimeout(left)
            self.waiting = self.reader.feed(self._octets())
        return Message(self.waiting.pop(0))

    def ask(self, msg_id, msg_type, content=b"{}", timeout=10):
        """Sends a request and gives the first message that answers it."""
        self.send(message(msg_id, msg_type, content))
        return self.answer_to(msg_id, timeout)

    def answer_to(self, msg_id, timeout=10):
        until = time.monotonic() + timeout
        while True:
            came = self.receive(max(until - time.monotonic(), 0))
            if came.parent.get("msg_id") == msg_id:
                return came

    def refusal(self, timeout=10):
        """Waits until the other side closes the link: the reason of an ERROR that came before, if one did."""
        try:
            while True:
                self.receive(timeout)
        except Ended:
            reasons = [it[7:] for it in self.reader.commands if it.startswith(b"\x05ERROR")]
            return reasons[-1].decode() if reasons else None

    def close(self):
        self.socket.close()

    def __enter__(self):
        return self

    def __exit__(self, *_):
        self.close()


class Engine(Link):
    """A link of an engine that has joined. Beats are echoed; what a task is answered with is the caller's."""

    def __init__(self, port, uuid, timeout=10):
        super().__init__(port, identity=uuid.encode(), timeout=timeout)
        self.uuid, self.sent = uuid, 0
        self.send(message(f"{uuid}-0", "registration_request", {"uuid": uuid}))
        self.joined = self.answer_to(f"{uuid}-0", timeout).content

    def reply(self, request, content, metadata=b"{}"):
        """The octets of a reply to a request."""
        self.sent += 1
        kind = request.msg_type.replace("_request", "_reply")
        return message(f"{self.uuid}-{self.sent}", kind, content, metadata, request.frames[1])

    def answer(self, request, content=b'{"status": "ok", "result": "42"}'):
        """Answers a beat, or a task with this content."""
        self.send(self.reply(request, request.frames[4] if request.msg_type == "beat_request" else content))


# ---- the program

@functools.cache
def program():
    """The program's path. The repository's own is built where it is missing or old."""
    if os.environ.get("IPCLUSTER"):
        return os.path.abspath(os.environ["IPCLUSTER"])
    with tempfile.TemporaryDirectory() as folder:
        words = ["replay", "--key", "k", os.path.join(folder, "db")]
        subprocess.run([f"{TOP}/ipcluster", *words], stdin=subprocess.DEVNULL, check=True)
    return f"{TOP}/crates/ipcluster/out/ipcluster"


def free_ports():
    """The first of four ports in a row that nobody listens at."""
    while True:
        first, held = random.randrange(10000, 32000), []
        try:
            for port in range(first, first + 4):
                held.append(socket.socket())
                held[-1].bind((HOST, port))
            return first
        except OSError:
            pass
        finally:
            for it in held:
                it.close()


def is_listened_at(port):
    """Whether somebody listens at this port; no link is made for it."""
    with open("/proc/net/tcp", encoding="ascii") as table:
        return any(row.split()[1].endswith(f":{port:04X}") and row.split()[3] == "0A" for row in table.readlines()[1:])


def processor_time(pid):
    """Seconds of user and of system time of all threads of a process, those that have ended too."""
    with open(f"/proc/{pid}/stat", encoding="ascii") as stat:
        fields = stat.read().rpartition(")")[2].split()
    ticks = os.sysconf("SC_CLK_TCK")
    return int(fields[11]) / ticks, int(fields[12]) / ticks


class Controller:
    """A controller of four free ports over a database of its own, or a given one, that is started and ended with `with`.

    `options` are further words of `serve`. What it says on its standard error stream is in `said` once it has ended. `before` is
    called in its process, ahead of the program."""

    before = None

    def __init__(self, *options, database=None, key=KEY, port=None):
        self.folder = None if database else tempfile.mkdtemp()
        self.database = database or os.path.join(self.folder, "db")
        self.port, self.key, self.options = port or free_ports(), key, options
        self.child, self.said = None, ""

    def start(self, wait=60):
        """Starts it, and waits until it listens at all four ports."""
        words = ["serve", HOST, str(self.port), self.database, "--key", self.key.decode(), *self.options]
        self.child = subprocess.Popen([program(), *words], stdin=subprocess.DEVNULL, stderr=subprocess.PIPE, preexec_fn=self.before)
        until = time.monotonic() + wait
        while wait and not all(is_listened_at(self.port + it) for it in range(4)):
            if self.child.poll() is not None:
                self.ended()
                raise RuntimeError(f"serve ended with status {self.child.returncode}: {self.said}")
            if time.monotonic() > until:
                raise RuntimeError(f"serve doesn't listen after {wait} s")
            time.sleep(0.002)
        return self

    pid = property(lambda self: self.child.pid)

    def link(self, channel, identity=b"", **how):
        return Link(self.port + channel, identity, **how)

    def engine(self, uuid, **how):
        return Engine(self.port + ENGINE, uuid, **how)

    def own_engine(self, uuid):
        """A process of the program's own engine."""
        words = ["engine", HOST, str(self.port), uuid, "--key", self.key.decode()]
        return subprocess.Popen([program(), *words], stdin=subprocess.DEVNULL, stderr=subprocess.DEVNULL)

    def client(self, *words, timeout=30):
        """Runs the program's own client: its status, and what it prints."""
        ran = subprocess.run([program(), "client", HOST, str(self.port), *words, "--key", self.key.decode()],
                             capture_output=True, timeout=timeout, check=False)
        return ran.returncode, ran.stdout + ran.stderr

    def engines(self):
        """The uuids of the live engines, by number."""
        with self.link(HUB) as link:
            return link.ask("engines", "connection_request").content["engines"]

    def ended(self, timeout=10):
        """Waits for the end: the status, negative at a signal."""
        self.said = self.child.communicate(timeout=timeout)[1].decode(errors="replace").strip()
        return self.child.returncode

    def kill(self):
        self.child.kill()
        return self.ended()

    def status(self, field):
        """The first number of a field of the process's status."""
        with open(f"/proc/{self.pid}/status", encoding="ascii") as lines:
            return next(int(it.split()[1]) for it in lines if it.startswith(field + ":"))

    def processor_time(self):
        return processor_time(self.pid)

    def switches(self):
        """Context switches of the threads that live: those that they asked for, and the others."""
        counts = [0, 0]
        for thread in os.listdir(f"/proc/{self.pid}/task"):
            try:
                with open(f"/proc/{self.pid}/task/{thread}/status", encoding="ascii") as lines:
                    numbers = [int(it.split()[1]) for it in lines if "ctxt_switches" in it]
            except (FileNotFoundError, ProcessLookupError):
                continue
            counts = [a + b for a, b in zip(counts, numbers)]
        return tuple(counts)

    def __enter__(self):
        return self.start()

    def __exit__(self, *_):
        if self.child and self.child.poll() is None:
            self.kill()
        if self.folder:
            shutil.rmtree(self.folder, ignore_errors=True)


def closed_gate(octets):
    """The place of the first closed gate of a database's octets, and how many batches stand before it."""
    gate, number = 31, 0
    while octets[gate] == 0xA7:
        gate += 10 + int.from_bytes(octets[gate + 2:gate + 6], "big")
        number += 1
    return gate, number


def dumped(database):
    """The text of a database's entries, and the status with which `check` finds it the same."""
    ran = subprocess.run([program(), "dump", database], capture_output=True, check=False)
    same = subprocess.run([program(), "check", database], input=ran.stdout, capture_output=True, check=False)
    return ran.stdout, ran.returncode or same.returncode
