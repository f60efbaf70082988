"""The process of an engine that runs functions and code: one request after the other, over a socket to the engine's own process."""

from __future__ import annotations

import ast
import contextlib
import ctypes
import json
import linecache
import os
import signal
import socket
import struct
import sys
import traceback
import types
from typing import Any, Callable, Dict, List, Optional, Sequence, Tuple

from . import serialize
from .error import RemoteError, UnmetDependency, described, text_of
from .link import Reader
from .wire import FRAME_LIMIT, PAYLOAD_LIMIT, VERSION, Octets, content_of, cut, digest, joined, now, packed, read

OK, ERROR, DECLINED = b"ok", b"error", b"declined"
TEXT_LIMIT = 200_000
"""So many characters at most a reply tells of a message, a line of a traceback, a result's text or the code."""
_LINES = 200
_KEPT_SOURCES = 200
_PACKAGE = os.path.dirname(os.path.abspath(__file__)) + os.sep
Reply = Tuple[bytes, Dict[str, Any], bytes, Sequence[Octets]]


def clean(text: str) -> str:
    """A text that a reply can carry: lone surrogates are replaced, and of a long one the middle is left out."""
    if len(text) > TEXT_LIMIT:
        half = TEXT_LIMIT // 2
        text = f"{text[:half]} .. {text[-half:]}"
    return text.encode("utf-8", "replace").decode()


class Worker:
    """Answers requests in one namespace, which is kept from request to request."""

    def __init__(self) -> None:
        self._main = types.ModuleType("__main__")
        sys.modules["__main__"] = self._main
        self.namespace = self._main.__dict__
        self.count = 0
        self._runs = False
        self._stash: Dict[str, List[Octets]] = {}
        self._sources: List[str] = []
        self._calls: Dict[str, Callable[[Dict[str, Any], Sequence[Octets]], Reply]] = {
            "apply_request": self._apply, "execute_request": self._execute, "clear_request": self._clear,
            "part_request": self._part}
        signal.signal(signal.SIGINT, self._interrupted)

    def _interrupted(self, _signal: int, _frame: Any) -> None:
        if self._runs:
            raise KeyboardInterrupt

    def answer(self, msg_type: str, content: Octets, buffers: Sequence[Octets]) -> List[Octets]:
        """The reply: how it ended, what the engine is to say of it, its content and its buffers."""
        started = now()
        try:
            how, info, made, frames = self._answer(msg_type, read(content), buffers)
        except KeyboardInterrupt as error:  # it came just behind the function
            how, info, made, frames = self._failed(error)
        info.update(started=started, completed=now(), status="ok" if how == OK else "error")
        return [how, json.dumps(info, separators=(",", ":")).encode(), made, *frames]

    def _answer(self, msg_type: str, content: Dict[str, Any], buffers: Sequence[Octets]) -> Reply:
        call = self._calls.get(msg_type)
        if call is None:
            return ERROR, {}, _error("NotSupported", msg_type, []), ()
        try:
            try:
                return call(content, buffers)
            finally:
                self._runs = False
        except UnmetDependency as error:
            how, info, made, frames = self._failed(error)
            return DECLINED, {**info, "dependencies_met": False}, made, frames
        except BaseException as error:  # pylint: disable=broad-except
            return self._failed(error)

    def _failed(self, error: BaseException) -> Reply:
        kind = type(error)
        if isinstance(error, RemoteError):
            return ERROR, {}, _error(error.ename, error.evalue, error.traceback), ()
        lines = described(kind, error, [])
        lines[1:1] = _frames_of(error)
        return ERROR, {}, _error(kind.__name__, text_of(error), lines), ()

    # -- functions

    def _apply(self, content: Dict[str, Any], buffers: Sequence[Octets]) -> Reply:
        frames = [*buffers, *self._stash.pop(str(content.get("stash")), [])]
        function, *arguments = joined(frames, content)
        kind = str(content.get("call", "apply"))
        with serialize.reading_in(self.namespace, evaluates=True), serialize.function_of(function, self.namespace) as f:
            given = serialize.whole(arguments)
            with serialize.reading_in(self.namespace):
                self._runs = True
                value = _called(f, kind, given, bool(content.get("exceptions")))
                self._runs = False
                made = serialize.parted(value)
        info = {"call": kind} if kind != "apply" else {}
        if content.get("parts") and sum(memoryview(it).nbytes for it in made) > PAYLOAD_LIMIT:
            return OK, info, self._in_parts(made), ()
        if len(made) == 1 and len(made[0]) <= FRAME_LIMIT:
            return OK, info, f'{{"status":"ok","v":{VERSION},"digests":["{digest(made[0])}"]}}'.encode(), made
        sent, counts = cut(made, "the result")
        return OK, info, content_of(sent, counts, status="ok"), sent

    # -- what comes and goes in parts

    def _in_parts(self, buffers: Sequence[Octets]) -> bytes:
        """Keeps a result to be asked for in parts."""
        token = os.urandom(12).hex()
        frames: List[Octets] = []
        counts: List[int] = []
        for buffer in buffers:
            view = memoryview(buffer).cast("B")
            pieces = [view[at:at + FRAME_LIMIT] for at in range(0, len(view), FRAME_LIMIT)] or [view]
            frames += pieces
            counts.append(len(pieces))
        self._stash[token] = frames
        content = {"status": "ok", "parts": {"token": token, "count": len(frames)}, "digests": [digest(it) for it in frames],
                   "cut": counts}
        return json.dumps(content).encode()

    def _part(self, content: Dict[str, Any], buffers: Sequence[Octets]) -> Reply:
        if "put" in content:
            self._stash.setdefault(str(content["put"]), []).extend(joined(buffers, content))
            return OK, {}, b'{"status":"ok"}', ()
        token, at = str(content["get"]), int(content["part"])
        frame = self._stash[token][at]
        if at == len(self._stash[token]) - 1:
            del self._stash[token]
        return OK, {}, content_of([frame], [1], status="ok"), [frame]

    # -- code

    def _execute(self, content: Dict[str, Any], _buffers: Sequence[Octets]) -> Reply:
        silent = bool(content.get("silent", False))
        code = str(content.get("code", ""))
        if not silent:
            self.count += 1
        with serialize.reading_in(self.namespace):
            self._runs = True
            result = self._run(code, silent)
            self._runs = False
        info: Dict[str, Any] = {"execution_count": self.count, "execute_input": clean(code)}
        if result is not None:
            info["execute_result"] = {"execution_count": self.count, "data": {"text/plain": clean(result)}, "metadata": {}}
        made = {"status": "ok", "execution_count": self.count, "user_expressions": {}}
        return OK, info, json.dumps(made).encode(), ()

    def _run(self, code: str, silent: bool) -> Optional[str]:
        """Runs code: what the last expression gives as a text, where that is wanted."""
        filename = self._remembered(code)
        tree = ast.parse(code, filename)
        last: Optional[ast.Expression] = None
        if not silent and tree.body and isinstance(tree.body[-1], ast.Expr):
            last = ast.Expression(tree.body.pop().value)  # type: ignore[attr-defined]
        exec(compile(tree, filename, "exec"), self.namespace)  # pylint: disable=exec-used
        if last is None:
            return None
        value = eval(compile(last, filename, "eval"), self.namespace)  # pylint: disable=eval-used
        return None if value is None else repr(value)

    def _remembered(self, code: str) -> str:
        """A file's name for code, under which tracebacks find its lines."""
        filename = f"<execute {len(self._sources) and int(self._sources[-1].split()[1][:-1]) + 1}>"
        linecache.cache[filename] = (len(code), None, code.splitlines(True), filename)
        self._sources.append(filename)
        if len(self._sources) > _KEPT_SOURCES:
            linecache.cache.pop(self._sources.pop(0), None)
        return filename

    def _clear(self, _content: Dict[str, Any], _buffers: Sequence[Octets]) -> Reply:
        self.namespace.clear()
        self.namespace.update(__name__="__main__", __doc__=None, __builtins__=__builtins__)
        return OK, {}, b'{"status":"ok"}', ()


def _called(f: Callable[..., Any], kind: str, given: Any, keeps: bool) -> Any:
    """What a function gives: for (args, kwargs), for each item of sequences, or for parts of sequences."""
    if kind == "map":
        if keeps:
            return [_caught(f, it) for it in zip(*given)]
        return list(map(f, *given))
    args, kwargs = given
    value = f(*args, **kwargs)
    if kind == "part" and not isinstance(value, list) and type(value).__module__.split(".")[0] != "numpy":
        return list(value) if hasattr(value, "__iter__") else [value]
    return value


def _caught(f: Callable[..., Any], args: Sequence[Any]) -> Any:
    try:
        return f(*args)
    except Exception as error:  # pylint: disable=broad-except
        lines = described(type(error), error, [])
        lines[1:1] = _frames_of(error)
        return RemoteError(type(error).__name__, clean(text_of(error)), [clean(it) for it in lines])


def _frames_of(error: BaseException) -> List[str]:
    """The lines of an exception's traceback from the first frame on that isn't this package's, with what it was raised from."""
    lines: List[str] = []
    cause = error.__cause__ or (None if error.__suppress_context__ else error.__context__)
    if cause is not None and cause is not error:
        lines += [line for it in traceback.format_exception(type(cause), cause, cause.__traceback__) for line in it.splitlines()]
        lines += ["", "and then:"]
    frame = error.__traceback__
    while frame is not None and frame.tb_frame.f_code.co_filename.startswith(_PACKAGE):
        frame = frame.tb_next
    if frame is None and isinstance(error, SyntaxError):
        return lines + [line for it in traceback.format_exception_only(type(error), error)[:-1] for line in it.splitlines()]
    return lines + [line for it in traceback.format_tb(frame) for line in it.splitlines()]


def _error(ename: str, evalue: str, lines: Sequence[str]) -> bytes:
    shown = list(lines)
    if len(shown) > _LINES:
        shown[_LINES // 2:-_LINES // 2] = ["  .."]
    left = 5 * TEXT_LIMIT
    for at in range(len(shown) - 1, -1, -1):  # the last lines say most
        shown[at] = clean(shown[at])[:max(left, 0)]
        left -= len(shown[at])
    return json.dumps({"status": "error", "ename": clean(ename), "evalue": clean(evalue), "traceback": shown}).encode()


class Pipe:
    """The socket to the engine's process, which blocks."""

    def __init__(self, sock: socket.socket) -> None:
        self._socket, self._reader = sock, Reader()
        self._whole: List[List[Octets]] = []

    def receive(self) -> Optional[List[Octets]]:
        """The next message; None at the end."""
        while not self._whole:
            room = self._reader.room()
            if room is not None:
                count = self._socket.recv_into(room)
                if not count:
                    return None
                self._whole += self._reader.filled(count)
            else:
                octets = self._socket.recv(262_144)
                if not octets:
                    return None
                self._whole += self._reader.feed(octets)
        return self._whole.pop(0)

    def send(self, frames: Sequence[Octets]) -> None:
        for piece in packed(frames):
            self._socket.sendall(piece)


def _flusher() -> Callable[[], None]:
    """A call that has all that was printed written, also what C code holds back."""
    try:
        flush_c = ctypes.CDLL(None).fflush
    except (OSError, AttributeError):
        flush_c = None

    def flush() -> None:
        for stream in (sys.stdout, sys.stderr):
            try:
                stream.flush()
            except Exception:  # pylint: disable=broad-except
                pass
        if flush_c is not None:
            flush_c(None)

    return flush


def _end_with_parent() -> None:
    """Has the system end this process when the engine's own process has ended."""
    with contextlib.suppress(OSError, AttributeError):
        ctypes.CDLL(None).prctl(1, signal.SIGKILL, 0, 0, 0)


def main(number: int) -> None:
    """Serves the socket of this number until it ends."""
    _end_with_parent()
    pipe = Pipe(socket.socket(fileno=number))
    for stream in (sys.stdout, sys.stderr):
        stream.reconfigure(encoding="utf-8", errors="backslashreplace")  # type: ignore[attr-defined]
    worker, flush = Worker(), _flusher()
    pipe.send([b"ready", struct.pack(">I", os.getpid())])
    while True:
        try:
            frames = pipe.receive()
            if frames is None:
                return
            reply = worker.answer(bytes(frames[0]).decode(), frames[1], frames[2:])
            flush()
            pipe.send(reply)
        except KeyboardInterrupt:
            continue


if __name__ == "__main__":
    main(int(sys.argv[1]))
