"""Signed Jupyter messages: how they are written, signed, read and cut into frames.

A message is a list of frames: identity frames, the delimiter, a signature, header, parent, metadata, content, buffers. The
signature covers the four parts and not the buffers, so the digests of the buffers stand in the content.
"""

from __future__ import annotations

import hashlib
import hmac
import json
import struct
from datetime import datetime, timezone
from typing import Any, Iterable, List, Optional, Sequence, Union

from .error import ChangedBuffer, TooLarge

Octets = Union[bytes, bytearray, memoryview]

DELIMITER = b"<IDS|MSG>"
FRAME_LIMIT = 16_777_216
"""The most octets of a frame that a controller takes."""
PAYLOAD_LIMIT = 32_000_000
"""The most octets of the buffers of one message that this package sends."""
BUFFER_LIMIT = 58
"""The most buffers of a message whose outcome can be asked for again."""
LARGE = 65_536
"""From so many octets on a buffer is sent from where it lies, and isn't copied."""
VERSION = 1
"""The version of the content and buffers that clients and engines of this package exchange."""

_MORE, _LONG = 1, 2


def now() -> str:
    """This moment, as a header has it."""
    return datetime.now(timezone.utc).isoformat()


def moment(text: Any) -> Optional[datetime]:
    """The moment that a text names, with a time zone; None where it names none."""
    if not isinstance(text, str):
        return None
    try:
        read = datetime.fromisoformat(text.replace("Z", "+00:00"))
    except ValueError:
        return None
    return read if read.tzinfo else read.replace(tzinfo=timezone.utc)


def digest(octets: Octets) -> str:
    """The SHA-256 of a buffer, in hexadecimal."""
    return hashlib.sha256(octets).hexdigest()


class Signer:
    """Signs parts with a key (HMAC-SHA256), and tells whether a signature is theirs."""

    def __init__(self, key: bytes) -> None:
        block = (hashlib.sha256(key).digest() if len(key) > 64 else key).ljust(64, b"\0")
        self._inner = hashlib.sha256(bytes(it ^ 0x36 for it in block))
        self._outer = hashlib.sha256(bytes(it ^ 0x5C for it in block))

    def _tag(self, parts: Sequence[Octets]) -> bytes:
        inner, outer = self._inner.copy(), self._outer.copy()
        inner.update(b"".join(parts))
        outer.update(inner.digest())
        return outer.hexdigest().encode()

    def sign(self, header: bytes, parent: bytes, metadata: bytes, content: bytes) -> bytes:
        return self._tag((header, parent, metadata, content))

    def signed(self, frames: Sequence[Octets]) -> bool:
        """Whether the frames from the signature on are signed with the key."""
        return hmac.compare_digest(self._tag(frames[1:5]), bytes(frames[0]))


class Headers:
    """Writes the headers of one sender. Session and username are the same text."""

    def __init__(self, session: str) -> None:
        name = json.dumps(session)
        self._before = '{"msg_id":'
        self._behind = f',"session":{name},"username":{name},"version":"5.3","msg_type":"'

    def write(self, msg_id: str, msg_type: str, date: str) -> bytes:
        return f'{self._before}{json.dumps(msg_id)}{self._behind}{msg_type}","date":"{date}"}}'.encode()


class Message:
    """A signed message that came. Its parts are read when they are asked for."""

    __slots__ = ("frames", "_header", "_parent")

    def __init__(self, frames: Sequence[Octets]) -> None:
        """`frames` begin with the signature."""
        self.frames = frames
        self._header: Optional[dict] = None
        self._parent: Optional[dict] = None

    @property
    def header(self) -> dict:
        if self._header is None:
            self._header = read(self.frames[1])
        return self._header

    @property
    def parent(self) -> dict:
        if self._parent is None:
            self._parent = read(self.frames[2])
        return self._parent

    @property
    def content(self) -> dict:
        return read(self.frames[4])

    @property
    def buffers(self) -> Sequence[Octets]:
        return self.frames[5:]

    @property
    def msg_type(self) -> str:
        return str(self.header.get("msg_type", ""))


def read(part: Octets) -> dict:
    """A part as an object; empty where it is none."""
    try:
        value = json.loads(bytes(part))
    except ValueError:
        return {}
    return value if isinstance(value, dict) else {}


def received(frames: Sequence[Octets], signer: Signer) -> Optional[Message]:
    """The message of these frames; None where they are none, or aren't signed with the key."""
    try:
        behind = frames.index(DELIMITER) + 1
    except ValueError:
        return None
    rest = frames[behind:]
    return Message(rest) if len(rest) >= 5 and signer.signed(rest) else None


def packed(frames: Sequence[Octets]) -> List[Octets]:
    """The octets of a message of these frames, in pieces: small frames joined, large ones as they lie."""
    pieces: List[Octets] = []
    small = bytearray()
    last = len(frames) - 1
    for at, frame in enumerate(frames):
        size = len(frame)
        more = _MORE if at < last else 0
        small += bytes((more, size)) if size < 256 else struct.pack(">BQ", more | _LONG, size)
        if size < LARGE:
            small += frame
        else:
            pieces += [bytes(small), frame]
            small = bytearray()
    if small:
        pieces.append(bytes(small))
    return pieces


def cut(buffers: Iterable[Octets], what: str) -> tuple[List[Octets], List[int]]:
    """The frames of buffers, none above the limit, and how many frames each buffer has. Raises TooLarge past the limits."""
    frames: List[Octets] = []
    counts: List[int] = []
    total = 0
    for buffer in buffers:
        view = memoryview(buffer).cast("B")
        total += len(view)
        if len(view) <= FRAME_LIMIT:
            frames.append(buffer if isinstance(buffer, bytes) else view)
            counts.append(1)
        else:
            pieces = [view[at:at + FRAME_LIMIT] for at in range(0, len(view), FRAME_LIMIT)]
            frames += pieces
            counts.append(len(pieces))
    if total > PAYLOAD_LIMIT or len(frames) > BUFFER_LIMIT:
        raise TooLarge(f"{what} takes {total} octets in {len(frames)} buffers; a message may have {PAYLOAD_LIMIT} octets in "
                       f"{BUFFER_LIMIT}: send it in parts (push and pull do), or by a file that both sides reach")
    return frames, counts


def joined(frames: Sequence[Octets], content: dict) -> List[Octets]:
    """The buffers that these frames are of, by the content that came with them. Raises ChangedBuffer where a digest differs."""
    digests = content.get("digests", [])
    if [digest(it) for it in frames] != digests:
        raise ChangedBuffer("a buffer isn't the one that was signed")
    counts = content.get("cut")
    if counts is None:
        return list(frames)
    buffers: List[Octets] = []
    at = 0
    for count in counts:
        buffers.append(frames[at] if count == 1 else bytearray().join(frames[at:at + count]))
        at += count
    return buffers


def content_of(frames: Sequence[Octets], counts: Sequence[int], **fields: Any) -> bytes:
    """The content that stands beside these frames: further fields, the version, the digests, and how buffers were cut."""
    fields.update(v=VERSION, digests=[digest(it) for it in frames])
    if any(it != 1 for it in counts):
        fields["cut"] = list(counts)
    return json.dumps(fields, separators=(",", ":")).encode()
