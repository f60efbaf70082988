"""The requests of a client, as octets."""

from __future__ import annotations

import itertools
import json
import os
import pickle
from typing import Any, Dict, Iterator, List, NamedTuple, Optional, Sequence, Tuple

from . import serialize
from .channels import MUX
from .error import TooLarge
from .tasks import Task
from .wire import BUFFER_LIMIT, DELIMITER, FRAME_LIMIT, PAYLOAD_LIMIT, VERSION, Headers, Octets, Signer, cut, digest, now, packed


class Function(NamedTuple):
    """A function that was pickled once, for any number of calls."""

    octets: bytes
    digest: str
    name: str
    text: str

    @classmethod
    def of(cls, f: Any) -> "Function":
        octets = serialize.function_parts(f)
        if len(octets) > FRAME_LIMIT:
            raise TooLarge(f"the function takes {len(octets)} octets with what it carries; a function may have {FRAME_LIMIT}")
        name = name_of(f)
        return cls(octets, digest(octets), name, json.dumps(name))


def name_of(f: Any) -> str:
    """What a function is called in messages."""
    if isinstance(f, serialize.Reference):
        return f.name
    return str(getattr(f, "__name__", type(f).__name__))


class Request(NamedTuple):
    """What a request carries, apart from its header and metadata."""

    msg_type: str
    content: bytes
    buffers: Sequence[Octets] = ()


def call(function: Function, arguments: Any, kind: str = "apply", **fields: Any) -> Request:
    """A request to call a function: `apply` with (args, kwargs), or `map` with a list for each parameter. Raises TooLarge."""
    octets = _plain(arguments, kind)
    if octets is not None and len(octets) <= FRAME_LIMIT and not fields:
        content = (f'{{"v":{VERSION},"name":{function.text},"call":"{kind}",'
                   f'"digests":["{function.digest}","{digest(octets)}"]}}')
        return Request("apply_request", content.encode(), (function.octets, octets))
    frames, counts = cut(serialize.parted(arguments), f"what {function.name} is called with")
    if len(frames) + 1 > BUFFER_LIMIT:
        raise TooLarge(f"{function.name} is called with {len(frames)} buffers; a call may have {BUFFER_LIMIT - 1}")
    return Request("apply_request", _content(function, frames, counts, kind, fields), (function.octets, *frames))


def _plain(arguments: Any, kind: str) -> Optional[bytes]:
    """The pickle of arguments that are plain values; None where something else is among them."""
    if kind == "map":
        plain = all(map(serialize.is_plain, arguments))
    else:
        plain = not arguments[1] and all(map(serialize.is_plain, arguments[0]))
    return pickle.dumps(arguments, protocol=5) if plain else None


def _content(function: Function, frames: Sequence[Octets], counts: Sequence[int], kind: str, fields: Dict[str, Any]) -> bytes:
    made = {"v": VERSION, "name": function.name, "call": kind, "digests": [function.digest, *map(digest, frames)], **fields}
    if any(it != 1 for it in counts):
        made["cut"] = [1, *counts]
    return json.dumps(made, separators=(",", ":")).encode()


def call_in_parts(function: Function, arguments: Any) -> Iterator[Request]:
    """A call whose arguments go ahead of it, where they don't go into one message."""
    buffers = serialize.parted(arguments)
    total = sum(memoryview(it).nbytes for it in buffers)
    if total + len(function.octets) <= PAYLOAD_LIMIT:
        yield call(function, arguments)
        return
    token = os.urandom(12).hex()
    frames: List[Octets] = []
    counts: List[int] = [1]
    for buffer in buffers:
        view = memoryview(buffer).cast("B")
        pieces = [view[at:at + FRAME_LIMIT] for at in range(0, len(view), FRAME_LIMIT)] or [view]
        frames += pieces
        counts.append(len(pieces))
    digests = [digest(it) for it in frames]
    for frame, its in zip(frames, digests):
        yield Request("part_request", json.dumps({"v": VERSION, "put": token, "digests": [its]}).encode(), (frame,))
    content = {"v": VERSION, "name": function.name, "call": "apply", "stash": token, "digests": [function.digest, *digests],
               "cut": counts}
    yield Request("apply_request", json.dumps(content).encode(), (function.octets,))


def code(text: str, silent: bool) -> Request:
    """A request to run code."""
    content = {"code": text, "silent": silent, "store_history": not silent, "user_expressions": {}, "allow_stdin": False,
               "stop_on_error": True}
    return Request("execute_request", json.dumps(content).encode())


def control(msg_type: str, **content: Any) -> Request:
    """A request that an engine serves at once, beside the function that it runs."""
    return Request(msg_type, json.dumps(content).encode())


class Maker:
    """Makes requests of one client: their ids, and their octets."""

    def __init__(self, prefix: str, signer: Signer, headers: Headers) -> None:
        self._prefix, self._signer, self._headers = prefix, signer, headers
        self._numbers = itertools.count(1)

    def next_id(self) -> str:
        return f"{self._prefix}-{next(self._numbers)}"

    def octets(self, msg_id: str, request: Request, metadata: bytes, date: str, target: Optional[str]) -> List[Octets]:
        parts = (self._headers.write(msg_id, request.msg_type, date), b"{}", metadata, request.content)
        before = [target.encode()] if target else []
        return packed([*before, DELIMITER, self._signer.sign(*parts), *parts, *request.buffers])

    def task(self, channel: str, request: Request, metadata: bytes, notes: Optional[Dict[str, Any]] = None,
             msg_id: Optional[str] = None) -> Task:
        """A request for any engine."""
        msg_id, date = msg_id or self.next_id(), now()
        return Task(msg_id, channel, self.octets(msg_id, request, metadata, date, None), date, None, notes)

    def direct(self, request: Request, target: str, repeats: bool = False) -> Task:
        """A request for the engine of this name. One that `repeats` can be sent again under another id."""
        msg_id, date = self.next_id(), now()
        made = Task(msg_id, MUX, self.octets(msg_id, request, b"{}", date, target), date, target)
        if repeats:
            made.again = lambda: self._again(request, target)
        return made

    def _again(self, request: Request, target: str) -> Tuple[str, List[Octets]]:
        msg_id = self.next_id()
        return msg_id, self.octets(msg_id, request, b"{}", now(), target)
