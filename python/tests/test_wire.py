"""Signing, framing, pieces of streams, parts of sequences, serializing: what needs no cluster."""

import hashlib
import hmac
import json
import os
import random
import threading

import pytest

import yovkhan
from conftest import until
from yovkhan import error, functions, query, serialize, wire
from yovkhan.link import Link, Loop, Reader
from yovkhan.tasks import ExecuteReply, Metadata, Outcome, failure_of
from yovkhan.worker import clean

numpy = pytest.importorskip("numpy")


def test_signatures():
    signer, parts = wire.Signer(b"key"), (b"{}", b"{}", b"[]", b"1")
    assert signer.sign(*parts).decode() == hmac.new(b"key", b"".join(parts), hashlib.sha256).hexdigest()
    frames = [signer.sign(*parts), *parts, b"buffer"]
    assert wire.received([b"identity", wire.DELIMITER, *frames], signer).buffers == [b"buffer"]
    assert wire.received([wire.DELIMITER, *frames], wire.Signer(b"other")) is None
    assert wire.received(frames, signer) is None and wire.received([wire.DELIMITER, b"x"], signer) is None


def test_headers():
    read = json.loads(wire.Headers('a "name"').write("id", "x_request", wire.now()))
    assert set(read) == {"msg_id", "session", "username", "version", "msg_type", "date"} and read["session"] == 'a "name"'
    assert wire.moment(read["date"]).tzinfo is not None
    assert wire.moment("2026-01-01T00:00:00.123Z").microsecond == 123_000
    assert wire.moment(None) is None and wire.moment("soon") is None


@pytest.mark.parametrize("piece", [1, 7, 1000, 10 ** 7])
def test_streams_are_cut_anyhow(piece):
    draw = random.Random(5)
    messages = [[draw.randbytes(draw.choice([0, 1, 255, 256, 70_000])) for _ in range(draw.randint(1, 5))] for _ in range(20)]
    if piece == 1:
        messages = [[b"", b"a" * 255], [b"b" * 256]]
    octets = b"".join(bytes(it) for message in messages for it in wire.packed(message))
    reader, came, at = Reader(), [], 0
    while at < len(octets):
        room = reader.room()
        if room is not None:
            part = octets[at:at + min(piece, len(room))]
            room[:len(part)] = part
            at += len(part)
            came += reader.filled(len(part))
        else:
            came += reader.feed(octets[at:at + piece])
            at += piece
    assert [[bytes(it) for it in message] for message in came] == messages


def test_commands_are_read_over():
    reader = Reader()
    assert reader.feed(b"\x04\x03\x02ab\x00\x01x") == [[b"x"]] and reader.commands == [b"\x02ab"]


def test_buffers_are_cut_and_joined():
    large = os.urandom(wire.FRAME_LIMIT + 5)
    frames, counts = wire.cut([b"small", large], "it")
    assert counts == [1, 2] and len(frames) == 3
    content = json.loads(wire.content_of(frames, counts, status="ok"))
    assert [bytes(it) for it in wire.joined(frames, content)] == [b"small", large]
    frames[0] = b"other"
    with pytest.raises(error.ChangedBuffer):
        wire.joined(frames, content)
    with pytest.raises(error.TooLarge):
        wire.cut([bytes(33_000_000)], "it")
    with pytest.raises(error.TooLarge):
        wire.cut([b""] * 59, "it")


def test_parts_of_sequences():
    for length in range(12):
        for parts in range(1, 6):
            for dist in "br":
                shares = [functions.share(list(range(length)), it, parts, dist) for it in range(parts)]
                assert functions.joined(shares, dist) == list(range(length))
                whole = functions.joined([numpy.array(it, int) for it in shares], dist)
                assert whole.tolist() == list(range(length))
    assert [len(functions.share(range(10), it, 4)) for it in range(4)] == [3, 3, 2, 2]


def test_serializing():
    array = numpy.arange(100_000.0)
    parts = serialize.parted({"a": array, "b": [1, "x"]})
    assert len(parts) == 2 and memoryview(parts[1]).nbytes == array.nbytes
    came = serialize.whole([bytes(it) for it in parts])
    assert (came["a"] == array).all() and came["b"] == [1, "x"]
    assert serialize.loads(serialize.dumps([1, {2: 3}])) == [1, {2: 3}]
    assert repr(serialize.loads(serialize.dumps(yovkhan.Reference("a")))) == "<Reference: 'a'>"
    with pytest.raises(error.NotPicklable):
        serialize.dumps(it for it in ())
    with pytest.raises(ValueError):
        serialize.use("nothing")


def test_a_check_runs_where_the_function_was_read():
    @yovkhan.require("base64")
    @yovkhan.interactive
    def encode(octets):
        return base64.b64encode(octets)  # noqa: F821

    place = {}
    assert serialize.loads(serialize.dumps(encode), place)(b"foo") == b"Zm9v" and "base64" in place


def test_a_function_of_another_python():
    with pytest.raises(error.NotPicklable, match="cpython-30"):
        serialize._code(b"", "cpython-30")  # pylint: disable=protected-access


def test_queries():
    record = {"a": 1, "b": None, "c": "x"}
    for wanted in ({"a": 1}, {"a": {"$lt": 2, "$gt": 0}}, {"a": {"$lte": 1, "$gte": 1}}, {"b": None}, {"c": {"$in": ["x"]}},
                   {"c": {"$nin": []}}, {"$or": [{"a": 2}, {"c": "x"}]}, {"$and": [{"a": 1}, {"b": {"$ne": 1}}]}, {}):
        assert query.matches(wanted, record)
    for wanted in ({"a": 2}, {"b": {"$lt": 2}}, {"nothing": 1}, {"$or": []}):
        assert not query.matches(wanted, record)
    assert query.of_ids({"msg_id": {"$in": ["a"]}, "a": 1}) == {"msg_id": {"$in": ["a"]}} and query.of_ids({"a": 1}) == {}


def test_records():
    made = Metadata(msg_id="a")
    assert made.msg_id == "a" and made["outputs"] == []
    with pytest.raises(AttributeError):
        made.nothing  # pylint: disable=pointless-statement
    reply = ExecuteReply({"execute_result": {"data": {"text/plain": "5"}}, "stdout": ""}, 3)
    assert repr(reply) == "<ExecuteReply[3]: 5>" and reply["execution_count"] == 3
    assert clean("a\ud800") == "a?"


@pytest.mark.parametrize("ename, kind", [
    ("KnownId", error.DuplicateId), ("Purged", error.DuplicateId), ("ReservedId", error.DuplicateId), ("TableFull", error.TableFull),
    ("BadMetadata", ValueError), ("NoSuchEngine", error.EngineError), ("Other", error.RemoteError)])
def test_refusals(ename, kind):
    outcome = Outcome("submit_refused", {}, {"status": "error", "ename": ename, "evalue": "6162"}, (), None)
    assert isinstance(failure_of(outcome, outcome.content, "id"), kind)


def test_errors_can_be_pickled():
    import pickle

    for made in (error.remote_error("TaskTimeout", "late"), error.CompositeError("several", [("A", "b", [], None)]),
                 error.remote_error("ValueError", "x", ["line"], {"engine_id": 1})):
        came = pickle.loads(pickle.dumps(made))
        assert type(came) is type(made) and str(came) == str(made) and came.ename == made.ename


def test_the_wire_is_libzmqs():
    zmq = pytest.importorskip("zmq")
    came, loop = [], Loop()
    with zmq.Context() as context, context.socket(zmq.ROUTER) as router:
        port = router.bind_to_random_port("tcp://127.0.0.1")
        up = threading.Event()
        link = Link(loop, ("127.0.0.1", port), b"me", up=up.set, take=came.extend, down=lambda: None)
        thread = threading.Thread(target=loop.run)
        thread.start()
        loop.call(link.open)
        assert up.wait(10)
        link.send(wire.packed([b"a", b"b" * 300, b"c" * 70_000]))
        assert router.poll(10_000)
        assert router.recv_multipart() == [b"me", b"a", b"b" * 300, b"c" * 70_000]
        router.send_multipart([b"me", b"x", b"y" * 1_000_000])
        until(lambda: came, 10)
        loop.call(link.close)
        loop.call(loop.stop)
        thread.join(10)
    assert [bytes(it) for it in came[0]] == [b"x", b"y" * 1_000_000]
