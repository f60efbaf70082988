"""Tapes in plain Python: their records, and the signed messages of clients and engines on bare connections.

The scripts beside it import it.
"""

import hashlib
import hmac
import json
import struct

KEY = b"k"
HUB, TASK, MUX, ENGINE = range(4)


# ---- records

def record(kind, rest=b"", moment=0):
    return struct.pack(">BQQ", kind, moment, 0) + rest


def up(conn, channel, identity, form=1):
    """A connection comes up: in form 1 a bare one, in form 0 one that speaks ZMTP."""
    return record(1, struct.pack(">IBB", conn, channel, form) + bytes([len(identity)]) + identity)


def piece(conn, octets):
    """Octets of a stream."""
    return record(2, struct.pack(">II", conn, len(octets)) + octets)


def signed(parts):
    """The frames of a message."""
    tag = hmac.new(KEY, b"".join(parts), hashlib.sha256).hexdigest().encode()
    return [b"<IDS|MSG>", tag, *parts]


def message(conn, parts):
    """A message on a bare connection."""
    frames = signed(parts)
    return record(6, struct.pack(">IB", conn, len(frames)) + b"".join(struct.pack(">I", len(it)) + it for it in frames))


def messages(octets):
    """The connection and the frames of each whole record of a tape that has bare messages alone."""
    at = 0
    while len(octets) - at > 22:
        conn, count = struct.unpack_from(">IB", octets, at + 17)
        frames, at = [], at + 22
        for _ in range(count):
            size = int.from_bytes(octets[at : at + 4], "big")
            frames.append(octets[at + 4 : at + 4 + size])
            at += 4 + size
        if at > len(octets):
            return
        yield conn, frames


# ---- messages

def header(msg_id, msg_type):
    return json.dumps({"msg_id": msg_id, "session": "s", "username": "u", "date": "2026-01-01T00:00:00.000Z",
                       "msg_type": msg_type, "version": "5.3"}).encode()


def submit(conn, msg_id, **metadata):
    return message(conn, [header(msg_id, "execute_request"), b"{}", json.dumps(metadata).encode(), b'{"code":"6*7"}'])


def reply(conn, task, msg_id):
    return message(conn, [header(msg_id, "execute_reply"), header(task, "execute_request"), b"{}", b'{"status":"ok","result":"42"}'])


def question(conn, msg_id, msg_type, **content):
    return message(conn, [header(msg_id, msg_type), b"{}", b"{}", json.dumps(content).encode()])


def engines(n):
    """So many engines on connections from 1 on, and then a client's on the channel of tasks."""
    return b"".join(up(i, ENGINE, b"e%d" % i) + question(i, f"j{i}", "registration_request", uuid=f"e{i}") for i in range(1, n + 1)) + up(n + 1, TASK, b"c")
