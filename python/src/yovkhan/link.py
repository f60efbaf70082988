"""Links of ZMTP 3.0 (mechanism NULL, socket type DEALER) over a loop that never blocks, in plain sockets."""

from __future__ import annotations

import collections
import heapq
import itertools
import logging
import selectors
import socket
import struct
import threading
import time
from typing import Any, Callable, Deque, List, Optional, Sequence, Set, Tuple

from .wire import LARGE, Octets

log = logging.getLogger("yovkhan")

_LONG, _COMMAND, _MORE = 2, 4, 1
_PIECE = 262_144
GREETING = b"\xff" + bytes(7) + b"\x01\x7f\x03\x00NULL" + bytes(16) + bytes(32)


def ready(identity: bytes) -> bytes:
    """The command READY of a DEALER of this identity."""
    properties = [(b"Socket-Type", b"DEALER"), (b"Identity", identity)]
    body = b"\x05READY" + b"".join(bytes([len(name)]) + name + struct.pack(">I", len(value)) + value for name, value in properties)
    return struct.pack(">BQ", _COMMAND | _LONG, len(body)) + body


class Reader:
    """Cuts the octets of a stream into messages. A large frame is received where it will lie."""

    def __init__(self) -> None:
        self._rest = b""
        self._frames: List[Octets] = []
        self._large: Optional[bytearray] = None
        self._have = 0
        self._more = False
        self.commands: List[bytes] = []

    def room(self) -> Optional[memoryview]:
        """Where the next octets belong, if a large frame isn't whole yet."""
        return None if self._large is None else memoryview(self._large)[self._have:]

    def filled(self, count: int) -> List[List[Octets]]:
        """Says that so many octets were put there: the messages that are whole now."""
        assert self._large is not None
        self._have += count
        if self._have < len(self._large):
            return []
        whole: List[List[Octets]] = []
        frame, self._large = self._large, None
        self._end(frame, self._more, whole)
        return whole

    def _end(self, frame: Octets, more: bool, whole: List[List[Octets]]) -> None:
        self._frames.append(frame)
        if not more:
            whole.append(self._frames)
            self._frames = []

    def feed(self, octets: bytes) -> List[List[Octets]]:
        """Takes octets in any pieces: the messages that are whole now."""
        data = self._rest + octets if self._rest else octets
        at, end = 0, len(data)
        whole: List[List[Octets]] = []
        while end - at >= 2:
            flags = data[at]
            start = at + 2
            size = data[at + 1]
            if flags & _LONG:
                if end - at < 9:
                    break
                start = at + 9
                size = int.from_bytes(data[at + 1:start], "big")
            stop = start + size
            if stop > end:
                if size < LARGE or flags & _COMMAND:
                    break
                self._large, self._have, self._more = bytearray(size), end - start, bool(flags & _MORE)
                self._large[:end - start] = data[start:end]
                at = end
                break
            at = stop
            if flags & _COMMAND:
                self.commands.append(data[start:stop])
            elif size < LARGE:
                self._end(data[start:stop], bool(flags & _MORE), whole)
            else:
                self._end(bytearray(data[start:stop]), bool(flags & _MORE), whole)
        self._rest = data[at:]
        return whole


class Timer:
    """A call that is to come. `cancel` lets it go."""

    __slots__ = ("call", "args")

    def __init__(self, call: Callable[..., Any], args: Tuple[Any, ...]) -> None:
        self.call: Optional[Callable[..., Any]] = call
        self.args = args

    def cancel(self) -> None:
        self.call = None


class Loop:
    """One thread's sockets and timers. `call` may be used from other threads."""

    def __init__(self) -> None:
        self._selector = selectors.DefaultSelector()
        self._calls: Deque[Tuple[Callable[..., Any], Tuple[Any, ...]]] = collections.deque()
        self._timers: List[Tuple[float, int, Timer]] = []
        self._numbers = itertools.count()
        self._mine, self._theirs = socket.socketpair()
        for end in (self._mine, self._theirs):
            end.setblocking(False)
        self._woken = False
        self._stopped = False
        self._first: Set[int] = set()
        self.thread: Optional[int] = None
        self.watch(self._mine, selectors.EVENT_READ, self._drain)

    def watch(self, sock: Any, events: int, ready_for: Callable[[int], None], first: bool = False) -> None:
        """Calls `ready_for` when the socket is ready; before others that are ready where it comes `first`."""
        key = self._selector.register(sock, events, ready_for)
        if first:
            self._first.add(key.fd)

    def change(self, sock: Any, events: int) -> None:
        self._selector.modify(sock, events, self._selector.get_key(sock).data)

    def forget(self, sock: Any) -> None:
        try:
            self._selector.unregister(sock)
        except (KeyError, ValueError):
            pass

    def call(self, call: Callable[..., Any], *args: Any) -> None:
        """Calls it soon, in the loop's thread."""
        self._calls.append((call, args))
        if not self._woken and threading.get_ident() != self.thread:
            self._woken = True
            self.wake()

    @property
    def waker(self) -> int:
        """The descriptor that wakes the loop when something is written to it, as `signal.set_wakeup_fd` takes it."""
        return self._theirs.fileno()

    def wake(self) -> None:
        try:
            self._theirs.send(b"\0")
        except OSError:
            pass

    def later(self, delay: float, call: Callable[..., Any], *args: Any) -> Timer:
        """Calls it after so many seconds. In the loop's thread alone."""
        timer = Timer(call, args)
        heapq.heappush(self._timers, (time.monotonic() + delay, next(self._numbers), timer))
        return timer

    def _drain(self, _events: int) -> None:
        self._woken = False
        try:
            while self._mine.recv(4096):
                pass
        except OSError:
            pass

    def _due(self) -> Optional[float]:
        """Runs what is due: how long there is nothing else to do."""
        while self._calls:
            call, args = self._calls.popleft()
            self._run(call, *args)
        while self._timers and self._timers[0][0] <= time.monotonic():
            timer = heapq.heappop(self._timers)[2]
            if timer.call is not None:
                self._run(timer.call, *timer.args)
        if self._calls:
            return 0
        return max(0.0, self._timers[0][0] - time.monotonic()) if self._timers else None

    @staticmethod
    def _run(call: Callable[..., Any], *args: Any) -> None:
        try:
            call(*args)
        except Exception:  # pylint: disable=broad-except
            log.exception("a call of the link's thread failed")

    def run(self) -> None:
        """Serves until `stop`."""
        self.thread = threading.get_ident()
        while not self._stopped:
            wait = self._due()
            if self._stopped:
                break
            found = self._selector.select(wait)
            if len(found) > 1 and self._first:
                found.sort(key=lambda it: it[0].fd not in self._first)
            for key, events in found:
                if not self._stopped:
                    self._run(key.data, events)
        self._selector.close()
        self._mine.close()
        self._theirs.close()

    def stop(self) -> None:
        """Ends `run`. In the loop's thread alone."""
        self._stopped = True


class Stream:
    """A connected socket that sends pieces of octets in order, and gives whole messages to `take`."""

    def __init__(self, loop: Loop, sock: socket.socket, take: Callable[[List[List[Octets]]], None], end: Callable[[], None]) -> None:
        self._loop, self._socket, self._take, self._ended = loop, sock, take, end
        self.reader = Reader()
        self._greeting, self._answer = 0, b""
        self._out: Deque[memoryview] = collections.deque()
        self._lock = threading.Lock()
        self._writing = False
        self.is_open = True
        loop.watch(sock, selectors.EVENT_READ, self._serve)

    def expect_greeting(self, answer: bytes) -> None:
        """The stream begins with a greeting of 64 octets, which is read over, and answered with these."""
        self._greeting, self._answer = len(GREETING), answer

    def send(self, pieces: Sequence[Octets]) -> bool:
        """Sends octets, behind those that wait. Any thread may call it. Whether the stream was open."""
        with self._lock:
            if not self.is_open:
                return False
            waits = bool(self._out)
            self._out.extend(memoryview(it).cast("B") for it in pieces if len(it))
            if waits:
                return True
            try:
                self._write()
            except OSError:
                self._loop.call(self._end)
                return True
            if self._out:
                self._loop.call(self._ask_to_write)
        return True

    def _write(self) -> None:
        """Writes what the socket takes now. Behind the lock."""
        out = self._out
        while out:
            pieces = list(itertools.islice(out, 64))
            try:
                count = self._socket.sendmsg(pieces)
            except (BlockingIOError, InterruptedError):
                return
            while count and out:
                first = len(out[0])
                if count < first:
                    out[0] = out[0][count:]
                    break
                count -= first
                out.popleft()

    @property
    def waits(self) -> bool:
        """Whether octets wait to be written."""
        return bool(self._out)

    def _ask_to_write(self) -> None:
        if self.is_open and not self._writing:
            self._writing = True
            self._loop.change(self._socket, selectors.EVENT_READ | selectors.EVENT_WRITE)

    def _serve(self, events: int) -> None:
        if events & selectors.EVENT_WRITE:
            self._go_on_writing()
        if events & selectors.EVENT_READ and self.is_open:
            self._read()

    def _go_on_writing(self) -> None:
        with self._lock:
            try:
                self._write()
            except OSError:
                self._loop.call(self._end)
                return
            done = not self._out
        if done and self.is_open:
            self._writing = False
            self._loop.change(self._socket, selectors.EVENT_READ)

    def _read(self) -> None:
        try:
            room = self.reader.room()
            if room is not None:
                count = self._socket.recv_into(room)
                messages = self.reader.filled(count) if count else []
                if not count:
                    self._end()
                    return
            else:
                octets = self._socket.recv(_PIECE)
                if not octets:
                    self._end()
                    return
                messages = self._fed(octets)
        except (BlockingIOError, InterruptedError):
            return
        except OSError:
            self._end()
            return
        if messages or self.reader.commands:
            self._take(messages)

    def _fed(self, octets: bytes) -> List[List[Octets]]:
        skipped = min(self._greeting, len(octets))
        self._greeting -= skipped
        if skipped and not self._greeting:
            self.send([self._answer])
        return self.reader.feed(octets[skipped:]) if len(octets) > skipped else []

    def _end(self) -> None:
        if self.is_open:
            self.close()
            self._ended()

    def close(self) -> None:
        """Closes the socket; `end` isn't called. In the loop's thread alone."""
        with self._lock:
            self.is_open = False
            self._out.clear()
            self._loop.forget(self._socket)
            self._socket.close()


class Link:
    """A link to a port, which is made anew whenever it ended. `up` and `down` say so, and `take` gets the messages."""

    def __init__(self, loop: Loop, address: Tuple[str, int], identity: bytes, *, up: Callable[[], None],
                 take: Callable[[List[List[Octets]]], None], down: Callable[[], None]) -> None:
        self._loop, self._address, self._identity = loop, address, identity
        self._up, self._take, self._down = up, take, down
        self._stream: Optional[Stream] = None
        self._dialling: Optional[socket.socket] = None
        self._guard: Optional[Timer] = None
        self._delay = 0.02
        self._closed = False
        self.is_up = False

    def open(self) -> None:
        """Begins to connect. In the loop's thread alone, as all but `send`."""
        if self._closed:
            return
        try:
            family, kind, protocol, _, address = socket.getaddrinfo(*self._address, type=socket.SOCK_STREAM)[0]
            sock = socket.socket(family, kind, protocol)
            sock.setblocking(False)
            sock.setsockopt(socket.IPPROTO_TCP, socket.TCP_NODELAY, 1)
            sock.setsockopt(socket.SOL_SOCKET, socket.SO_KEEPALIVE, 1)
            self._dialling = sock
            try:
                sock.connect(address)
            except BlockingIOError:
                pass
            self._loop.watch(sock, selectors.EVENT_WRITE, self._connected)
            self._guard = self._loop.later(10, self._give_up, sock)
        except OSError:
            self._retry()

    def _give_up(self, sock: socket.socket) -> None:
        """Ends a connection whose handshake takes too long."""
        if self._dialling is sock:
            self._retry()
        elif not self.is_up and self._stream is not None:
            self._lost()

    def _retry(self) -> None:
        if self._guard is not None:
            self._guard.cancel()
        if self._dialling is not None:
            self._loop.forget(self._dialling)
            self._dialling.close()
            self._dialling = None
        if not self._closed:
            self._loop.later(self._delay, self.open)
            self._delay = min(self._delay * 1.6, 1.0)

    def _connected(self, _events: int) -> None:
        sock = self._dialling
        if sock is None:
            return
        if sock.getsockopt(socket.SOL_SOCKET, socket.SO_ERROR):
            self._retry()
            return
        self._dialling = None
        self._loop.forget(sock)
        self._stream = Stream(self._loop, sock, self._came, self._lost)
        self._stream.expect_greeting(ready(self._identity))
        self._stream.send([GREETING])

    def _came(self, messages: List[List[Octets]]) -> None:
        assert self._stream is not None
        if not self.is_up:
            commands = self._stream.reader.commands
            if not commands:
                return
            if not commands[0].startswith(b"\x05READY"):
                log.warning("the controller refused the handshake: %r", commands[0])
                self._lost()
                return
            if self._guard is not None:
                self._guard.cancel()
            self.is_up, self._delay = True, 0.02
            self._up()
        self._stream.reader.commands.clear()
        if messages:
            self._take(messages)

    def _lost(self) -> None:
        was, self.is_up = self.is_up, False
        if self._stream is not None:
            self._stream.close()
            self._stream = None
        if was:
            self._down()
        self._retry()

    def restart(self) -> None:
        """Ends the connection, so that another is made."""
        if self._stream is not None:
            self._lost()

    def send(self, pieces: Sequence[Octets]) -> bool:
        """Sends the octets of messages. Any thread may call it. Whether the link was up."""
        stream = self._stream
        return stream is not None and self.is_up and stream.send(pieces)

    @property
    def waits(self) -> bool:
        """Whether octets wait to be written."""
        stream = self._stream
        return stream is not None and stream.waits

    def close(self) -> None:
        """Ends the link for good."""
        self._closed = True
        if self._stream is not None:
            self._stream.close()
            self._stream = None
        self.is_up = False
        self._retry()
