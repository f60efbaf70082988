"""An engine: this process has the link, and another one, its worker, runs the functions.

So a function that holds the interpreter for minutes, or crashes, costs no beats, and a signal meets the function alone. Where the worker
ends by itself this process ends at once, and its link with it: the controller then settles what it had."""

from __future__ import annotations

import collections
import json
import os
import selectors
import signal
import socket
import subprocess
import sys
import time
from typing import Any, Deque, Dict, List, Optional, Sequence

from .link import Link, Loop, Stream, log
from .wire import DELIMITER, Headers, Message, Octets, Signer, now, packed, received

SILENCE = 7.0
"""Without a word of the controller for so many seconds, an engine registers again: beats come every 3 s."""
OUTPUT_LIMIT = 1_048_576
"""So many of the last octets are kept of what a request writes to stdout, and to stderr."""
_MESSAGE = 32_900_000
"""So many octets a reply has at most, so that it can be asked for again."""
_REPLIES, _REPLY_OCTETS, _ABORTED = 512, 33_554_432, 10_000


class Output:
    """What the worker writes to one of its streams. It is read before what else is ready: what was written ahead of a reply is here
    when the reply is."""

    def __init__(self, loop: Loop) -> None:
        self._read_end, self.write_end = os.pipe()
        os.set_blocking(self._read_end, False)
        self._kept = bytearray()
        self._loop = loop
        loop.watch(self._read_end, selectors.EVENT_READ, self.drain, first=True)

    def drain(self, _events: int = 0) -> None:
        try:
            while True:
                octets = os.read(self._read_end, 65_536)
                if not octets:
                    self._loop.forget(self._read_end)
                    return
                self._kept += octets
                if len(self._kept) > 2 * OUTPUT_LIMIT:
                    del self._kept[:-OUTPUT_LIMIT]
                if len(octets) < 65_536:
                    return
        except BlockingIOError:
            pass

    def take(self) -> str:
        """The text since the last call."""
        if not self._kept:
            return ""
        text = bytes(self._kept[-OUTPUT_LIMIT:]).decode("utf-8", "replace")
        self._kept.clear()
        return text


class Job:
    """A request in the engine's queue, and the link that it came on, by its number."""

    __slots__ = ("message", "link", "msg_id")

    def __init__(self, message: Message, link: int) -> None:
        self.message, self.link = message, link
        self.msg_id = str(message.header.get("msg_id", ""))


class Kept:
    """A reply that the same request is answered with on a later link."""

    __slots__ = ("link", "metadata", "content", "buffers", "size")

    def __init__(self, link: int, metadata: bytes, content: bytes, buffers: Sequence[Octets]) -> None:
        self.link, self.metadata, self.content, self.buffers = link, metadata, content, buffers
        self.size = len(metadata) + len(content) + sum(len(it) for it in buffers)


class Engine:
    """Serves a controller under a name until it is shut down, signalled, or its worker ends."""

    def __init__(self, host: str, port: int, name: str, key: bytes) -> None:
        if not 0 < len(name.encode()) <= 200:
            raise ValueError("an engine's name has 1 to 200 octets")
        self.name = name
        self.number: Optional[int] = None
        self._signer, self._headers = Signer(key), Headers(name)
        self._stamp = f"{int(time.time() * 1000):x}"
        self._sent = 0
        self._queue: Deque[Job] = collections.deque()
        self._running: Optional[Job] = None
        self._kept: "collections.OrderedDict[str, Kept]" = collections.OrderedDict()
        self._kept_octets = 0
        self._aborted: "collections.OrderedDict[str, None]" = collections.OrderedDict()
        self._link_number = 0
        self._heard = time.monotonic()
        self._warned = False
        self._status = 0
        self._loop = Loop()
        self._out, self._err = Output(self._loop), Output(self._loop)
        self._link = Link(self._loop, (host, port + 3), name.encode(), up=self._up, take=self._take, down=self._down)
        self._where = f"{host}:{port}"

    def run(self) -> int:
        """Serves: 0 after a shutdown or a signal, 1 where the worker ended by itself."""
        self._start_worker()
        for it in (signal.SIGTERM, signal.SIGINT):
            signal.signal(it, lambda *_: self._loop.call(self._leave))
        signal.set_wakeup_fd(self._loop.waker, warn_on_full_buffer=False)
        self._loop.call(self._link.open)
        self._loop.call(self._look)
        self._loop.run()
        signal.set_wakeup_fd(-1)
        if self._process.poll() is None:
            self._process.kill()
        self._process.wait()
        return self._status

    # -- the worker

    def _start_worker(self) -> None:
        mine, theirs = socket.socketpair()
        words = [sys.executable, "-m", "yovkhan.worker", str(theirs.fileno())]
        self._process = subprocess.Popen(words, pass_fds=(theirs.fileno(),), stdin=subprocess.DEVNULL, stdout=self._out.write_end,
                                         stderr=self._err.write_end, start_new_session=True, env=environment())
        theirs.close()
        os.close(self._out.write_end)
        os.close(self._err.write_end)
        mine.setblocking(False)
        self._worker = Stream(self._loop, mine, self._answered, self._worker_ended)
        self._is_ready = False

    def _worker_ended(self) -> None:
        self._process.wait()
        self._err.drain()
        text = self._err.take().strip()
        ended = self._process.returncode
        how = f"signal {-ended}" if ended < 0 else f"status {ended}"
        print(f"yovkhan engine {self.name}: its worker ended by {how}{': ' + text[-2000:] if text else ''}", file=sys.stderr, flush=True)
        self._status = 1
        self._link.close()
        self._loop.stop()

    def _answered(self, messages: List[List[Octets]]) -> None:
        for frames in messages:
            if self._is_ready:
                self._finish(frames)
            else:
                self._is_ready = True
                self._next()

    def _next(self) -> None:
        """Gives the worker the next request, if it is free."""
        while self._running is None and self._queue and self._is_ready:
            job = self._queue.popleft()
            if job.msg_id in self._aborted:
                self._say_aborted(job)
                continue
            self._running = job
            message = job.message
            self._worker.send(packed([message.msg_type.encode(), message.frames[4], *message.buffers]))

    def _finish(self, frames: List[Octets]) -> None:
        job, self._running = self._running, None
        if job is None:
            return
        how, info, content, *buffers = frames
        content = bytes(content)
        if how != b"ok":
            content = content[:-1] + b',"engine_info":' + self._info(job) + b"}"
        metadata = self._metadata(job, bytes(info), _MESSAGE - len(content) - sum(map(len, buffers)))
        if how == b"ok":
            self._keep(job, metadata, content, buffers)
        self._send(job, metadata, content, buffers)
        self._next()

    def _info(self, job: Job) -> bytes:
        method = job.message.msg_type.replace("_request", "")
        return json.dumps({"engine_uuid": self.name, "engine_id": self.number, "method": method}).encode()

    def _metadata(self, job: Job, info: bytes, room: int) -> bytes:
        """What a later reader wants to know of the request, before what the worker says of it. Outputs are cut to the room that the
        rest of the message leaves."""
        header = job.message.header
        known: Dict[str, Any] = {"engine": self.name, "engine_id": self.number, "submitted": header.get("date"),
                                 "stdout": self._out.take(), "stderr": self._err.take()}
        behind = b',"request":' + bytes(job.message.frames[1]) + b"," + info[1:]
        before = json.dumps(known).encode()[:-1]
        if len(before) + len(behind) > room:
            most = max(0, room - len(behind) - 2000) // 12  # a character takes 6 octets at most
            known.update(stdout=known["stdout"][-most:] if most else "", stderr=known["stderr"][-most:] if most else "")
            before = json.dumps(known).encode()[:-1]
        return before + behind

    # -- replies

    def _keep(self, job: Job, metadata: bytes, content: bytes, buffers: Sequence[Octets]) -> None:
        kept = Kept(self._link_number, metadata, content, buffers)
        self._kept[job.msg_id] = kept
        self._kept_octets += kept.size
        while len(self._kept) > _REPLIES or self._kept_octets > _REPLY_OCTETS:
            self._kept_octets -= self._kept.popitem(last=False)[1].size

    def _send(self, job: Job, metadata: bytes, content: bytes, buffers: Sequence[Octets] = ()) -> None:
        """Sends a reply, where the link is still the one that the request came on."""
        if job.link == self._link_number:
            self._reply(job.message, metadata, content, buffers)

    def _reply(self, message: Message, metadata: bytes, content: bytes, buffers: Sequence[Octets] = ()) -> None:
        kind = message.msg_type
        self._say(kind[:-len("_request")] + "_reply", bytes(message.frames[1]), metadata, content, buffers)

    def _say(self, msg_type: str, parent: bytes, metadata: bytes, content: bytes, buffers: Sequence[Octets] = ()) -> None:
        self._sent += 1
        header = self._headers.write(f"{self.name}-{self._stamp}-{self._sent}", msg_type, now())
        tag = self._signer.sign(header, parent, metadata, content)
        self._link.send(packed([DELIMITER, tag, header, parent, metadata, content, *buffers]))

    # -- the link

    def _up(self) -> None:
        self._link_number += 1
        self._heard = time.monotonic()
        self._register()

    def _down(self) -> None:
        self.number = None
        self._queue.clear()

    def _register(self) -> None:
        if self._link.is_up:
            self._say("registration_request", b"{}", b"{}", json.dumps({"uuid": self.name}).encode())

    def _look(self) -> None:
        """Registers again after a silence, and makes the link anew after a long one."""
        silent = time.monotonic() - self._heard
        if self._link.is_up and silent > 3 * SILENCE:
            self._warn()
            self._link.restart()
        elif self._link.is_up and silent > SILENCE:
            self._register()
        self._loop.later(SILENCE / 2, self._look)

    def _warn(self) -> None:
        if self.number is None and not self._warned:
            self._warned = True
            print(f"yovkhan engine {self.name}: no answer from {self._where}: is its key another one?", file=sys.stderr, flush=True)

    def _take(self, messages: List[List[Octets]]) -> None:
        for frames in messages:
            message = received(frames, self._signer)
            if message is None:
                continue
            self._heard = time.monotonic()
            self._serve(message)

    def _serve(self, message: Message) -> None:
        kind = message.msg_type
        if kind == "beat_request":
            self._say("beat_reply", bytes(message.frames[1]), b"{}", bytes(message.frames[4]))
        elif kind == "registration_reply":
            self._registered(message.content)
        elif kind in ("abort_request", "signal_request", "shutdown_request"):
            self._control(kind, message)
        elif kind.endswith("_request"):
            self._begin(Job(message, self._link_number))

    def _registered(self, content: Dict[str, Any]) -> None:
        if content.get("status") == "ok":
            self.number = int(content["id"])
        elif content.get("ename") == "AlreadyJoined":
            self.number = int(content["evalue"])
        elif content.get("ename") == "UuidInUse":
            self._loop.later(1.0, self._register)
        else:
            log.error("the controller doesn't take the engine %s: %s", self.name, content)
            self._loop.later(5.0, self._register)

    def _begin(self, job: Job) -> None:
        kept = self._kept.get(job.msg_id)
        if kept is not None and kept.link < self._link_number:
            self._reply(job.message, kept.metadata, kept.content, kept.buffers)
        elif self._running is not None and self._running.msg_id == job.msg_id and self._running.link < job.link:
            self._running = job
        else:
            self._queue.append(job)
            self._next()

    # -- control

    def _control(self, kind: str, message: Message) -> None:
        content: Dict[str, Any] = {"status": "ok"}
        asked = message.content
        if kind == "abort_request":
            self._abort(asked.get("msg_ids"))
        elif kind == "signal_request":
            content = self._signal(asked.get("sig"))
        info = json.dumps({"engine": self.name, "engine_id": self.number, "completed": now(), "started": now(),
                           "submitted": message.header.get("date"), "status": content["status"]}).encode()
        self._reply(message, info, json.dumps(content).encode())
        if kind == "shutdown_request":
            self._leave()

    def _abort(self, ids: Any) -> None:
        """Drops what waits in the queue, and remembers ids that may still come. None is all that waits."""
        named = [it.msg_id for it in self._queue] if ids is None else [it for it in ids if isinstance(it, str)]
        for it in named:
            if self._running is None or self._running.msg_id != it:
                self._aborted[it] = None
        while len(self._aborted) > _ABORTED:
            self._aborted.popitem(last=False)
        waiting, self._queue = self._queue, collections.deque()
        for job in waiting:
            if job.msg_id in self._aborted:
                self._say_aborted(job)
            else:
                self._queue.append(job)

    def _say_aborted(self, job: Job) -> None:
        info = {"engine": self.name, "engine_id": self.number, "submitted": job.message.header.get("date"), "completed": now(),
                "status": "aborted"}
        self._send(job, json.dumps(info).encode(), b'{"status":"aborted"}')

    def _signal(self, sig: Any) -> Dict[str, Any]:
        try:
            number = signal.Signals[sig] if isinstance(sig, str) else signal.Signals(int(sig))
            self._process.send_signal(number)
        except (KeyError, ValueError, TypeError, OSError) as failure:
            return {"status": "error", "ename": "ValueError", "evalue": f"no signal {sig!r}: {failure}", "traceback": []}
        return {"status": "ok"}

    def _leave(self) -> None:
        """Leaves the controller, and ends once that was written."""
        if self._link.is_up:
            self._say("unregistration_request", b"{}", b"{}", b"{}")
        self._loop.later(0.02, self._end, time.monotonic() + 2)

    def _end(self, until: float) -> None:
        if self._link.waits and time.monotonic() < until:
            self._loop.later(0.02, self._end, until)
            return
        self._worker.close()
        self._link.close()
        self._loop.stop()


def environment() -> Dict[str, str]:
    """The environment of a worker: it finds this package where the engine did."""
    here = os.path.dirname(os.path.dirname(os.path.abspath(__file__)))
    paths = [here, *filter(None, os.environ.get("PYTHONPATH", "").split(os.pathsep))]
    return {**os.environ, "PYTHONPATH": os.pathsep.join(dict.fromkeys(paths))}
