"""Engines: outputs, crashes, what goes wrong in a function, what is too large, and the link to the controller."""

import json
import os
import signal
import socket
import subprocess
import sys
import time

import pytest

import yovkhan
from conftest import LIMIT, remote, until
from yovkhan import error
from yovkhan.link import GREETING, Reader, ready
from yovkhan.wire import DELIMITER, Headers, Signer, digest, now, packed, received

numpy = pytest.importorskip("numpy")


def test_outputs(client):
    def speak():
        import ctypes
        import os
        import sys

        print("out")
        print("err", file=sys.stderr)
        os.write(1, b"raw\n")
        libc = ctypes.CDLL(None)
        libc.printf(b"of C\n")
        libc.fflush(None)
        return 1

    result = client[0].apply_async(speak)
    assert result.get(LIMIT) == 1
    assert sorted(result.stdout.split("\n")) == ["", "of C", "out", "raw"] and result.stderr == "err\n"
    quiet = client[0].apply_async(int)
    quiet.get(LIMIT)
    assert quiet.stdout == "" == quiet.stderr


def test_c_code_that_holds_its_output_back(client):
    def speak():
        import ctypes

        ctypes.CDLL(None).printf(b"held back\n")

    result = client[0].apply_async(speak)
    result.get(LIMIT)
    assert result.stdout == "held back\n"


def test_long_outputs_are_cut(client):
    result = client[0].apply_async(lambda: print("x" * 3_000_000 + "end"))
    result.get(LIMIT)
    assert len(result.stdout) == 1_048_576 and result.stdout.endswith("end\n")


def test_outputs_of_a_failure(client):
    def fail():
        print("before")
        raise ValueError

    result = client[0].apply_async(fail)
    result.wait(LIMIT)
    assert result.stdout == "before\n"


def test_results_that_cant_be_sent(client):
    view = client[0]
    for make in (lambda: __import__("threading").Lock(), lambda: (it for it in ())):
        with remote("NotPicklable"):
            view.apply_sync(make)
    with remote("TooLarge"):
        view.apply_sync(lambda: bytes(40_000_000))
    with remote("SystemExit"):
        view.apply_sync(sys.exit)
    assert view.apply_sync(lambda: 1) == 1


def test_large_values(client):
    view = client[0]
    sent = os.urandom(30_000_000)
    assert view.apply_sync(lambda it: it, sent) == sent
    with pytest.raises(error.TooLarge):
        view.apply_async(len, bytes(40_000_000))
    array = numpy.arange(3_900_000.0)
    assert (view.apply_sync(lambda it: it[::-1], array) == array[::-1]).all()
    many = [numpy.full(20_000, it) for it in range(70)]
    assert all((a == b).all() for a, b in zip(view.apply_sync(lambda it: it, many), many))
    assert client.load_balanced_view().apply_sync(lambda it: len(it), sent) == len(sent)


def test_long_texts_dont_break_the_link(client, cluster):
    view = client[0]

    def much():
        import sys

        print("\0" * 2_000_000)
        print("\0" * 2_000_000, file=sys.stderr)
        return bytes(31_900_000)

    result = view.apply_async(much)
    assert len(result.get(LIMIT)) == 31_900_000 and 0 < len(result.stdout) < 1_000_000
    with cluster.make_client() as other:
        assert len(other.get_result(result.msg_ids[0]).get(LIMIT)) == 31_900_000

    def fail(text):
        raise ValueError(text * 20_000_000)

    with remote("ValueError") as raised:
        view.apply_sync(fail, "\0")
    assert 100_000 < len(raised.value.evalue) < 300_000

    def deep(n):
        return deep(n - 1) if n else 1 // 0

    with remote("ZeroDivisionError") as raised:
        view.apply_sync(deep, 500)
    assert len(raised.value.traceback) < 250
    long = view.execute("'x' * 5_000_000", silent=False).get(LIMIT)
    assert len(long.execute_result["data"]["text/plain"]) < 300_000 and client.ids[0] == 0


def test_a_large_push_goes_in_parts(client):
    view, sent = client[0], numpy.random.default_rng(1).integers(0, 255, 100_000_000, dtype="uint8")
    view.push({"large": sent}, block=True)
    assert view.apply_sync(lambda it: it.nbytes, yovkhan.Reference("large")) == 100_000_000
    assert (view["large"] == sent).all()
    with remote("TooLarge"):
        view.apply_sync(lambda it: it, yovkhan.Reference("large"))
    view.clear(block=True)


def test_a_worker_that_crashes(own_cluster):
    cluster = own_cluster(2)
    client = cluster.client
    view = client[:]
    view.scatter("crashes", [False, True], flatten=True, block=True)

    def crash(does):
        import os

        if does:
            os._exit(3)
        return 1

    with pytest.raises(error.CompositeError) as raised:
        view.apply_async(crash, yovkhan.Reference("crashes")).get(LIMIT)
    with pytest.raises(error.EngineError):
        raised.value.raise_exception()
    until(lambda: len(client) == 1)
    with pytest.raises(IndexError):
        client[1]
    with pytest.raises(error.CompositeError, match="there is no engine engine-1|there is no engine engine-0"):
        view.apply_async(int).get(LIMIT)
    gone = client.direct_view(1)
    with pytest.raises(error.EngineError):
        gone.apply_sync(int)
    balanced = client.load_balanced_view()
    lost = balanced.apply_async(crash, True)
    with pytest.raises(error.EngineError) as raised:
        lost.get(LIMIT)
    assert raised.value.ename == "EngineError" and lost.engine_id == raised.value.engine_info["engine_id"] in (0, 1)
    cluster.start_engine("another")
    client.wait_for_engines(1, timeout=LIMIT)


def test_a_lost_engine_and_a_retry(own_cluster):
    cluster = own_cluster(2)
    client = cluster.client
    victim = cluster.engines[client.engines[0]]
    results = client.load_balanced_view().map_async(lambda n: time.sleep(0.02) or n, range(100), retries=3)
    until(lambda: results.progress > 10)
    victim.kill()
    assert results.get(LIMIT) == list(range(100)) and results.engine_id.count(1) > 50


def test_a_function_that_holds_the_interpreter_keeps_its_engine(own_cluster):
    cluster = own_cluster(1)
    client = cluster.client

    def hold(seconds):
        import ctypes

        ctypes.PyDLL(None).sleep(seconds)
        return seconds

    result = client[0].apply_async(hold, 60)
    client.wait(result, timeout=58)
    assert client.ids == [0] and result.get(LIMIT) == 60 and client.ids == [0]


def test_state_is_kept(client):
    view = client[0]
    view.execute("n = 1", block=True)
    view.execute("n += 1", block=True)
    assert view["n"] == 2

    @yovkhan.interactive
    def raise_it():
        global n  # noqa: PLW0603
        n += 1
        return n

    assert view.apply_sync(raise_it) == 3 == view["n"]
    assert view.apply_sync(lambda: __import__("sys").modules["__main__"].n) == 3


class Peer:
    """A bare link to a port of a controller."""

    def __init__(self, port, key, name="peer"):
        self.signer, self.headers, self.reader, self.waiting = Signer(key), Headers(name), Reader(), []
        self.socket = socket.create_connection(("127.0.0.1", port), LIMIT)
        self.socket.sendall(GREETING)
        greeting = b""
        while len(greeting) < 64:
            greeting += self.socket.recv(64 - len(greeting))
        self.socket.sendall(ready(name.encode()))

    def send(self, msg_type, content, *, msg_id=None, parent=b"{}", metadata=b"{}", buffers=(), targets=()):
        parts = (self.headers.write(msg_id or os.urandom(8).hex(), msg_type, now()), parent, metadata, json.dumps(content).encode())
        for it in packed([*targets, DELIMITER, self.signer.sign(*parts), *parts, *buffers]):
            self.socket.sendall(it)

    def receive(self):
        while not self.waiting:
            octets = self.socket.recv(65_536)
            assert octets, "the link ended"
            self.waiting += self.reader.feed(octets)
        return received(self.waiting.pop(0), self.signer)


def test_a_changed_buffer_is_refused_by_an_engine(cluster, client):
    with open(cluster.key_file, "rb") as file:
        peer = Peer(cluster.port + 2, file.read())
    content = {"v": 1, "name": "f", "call": "apply", "digests": [digest(b"one"), digest(b"two")]}
    peer.send("apply_request", content, buffers=[b"one", b"changed"], targets=[client.engines[0].encode()])
    came = peer.receive()
    assert came.content["ename"] == "ChangedBuffer" and came.msg_type == "apply_reply"
    peer.send("other_request", {}, targets=[client.engines[0].encode()])
    assert peer.receive().content["ename"] == "NotSupported"
    peer.socket.close()


def test_a_changed_buffer_is_refused_by_a_client(own_cluster):
    cluster = own_cluster(0)
    with open(cluster.key_file, "rb") as file:
        peer = Peer(cluster.port + 3, file.read(), "false")
    peer.send("registration_request", {"uuid": "false"})
    assert peer.receive().content == {"status": "ok", "id": 0}
    result = cluster.view.apply_async(int)
    asked = peer.receive()
    while asked.msg_type == "beat_request":
        asked = peer.receive()
    peer.send("apply_reply", {"status": "ok", "v": 1, "digests": [digest(b"true")]}, parent=bytes(asked.frames[1]), buffers=[b"false"])
    with pytest.raises(error.ChangedBuffer):
        result.get(LIMIT)
    peer.socket.close()


def engine_words(cluster, name, *further):
    return [sys.executable, "-m", "yovkhan", "engine", cluster.host, str(cluster.port), name, "--key-file", cluster.key_file, *further]


def test_an_engine_leaves_at_a_signal(own_cluster):
    cluster = own_cluster(1)
    client = cluster.client
    cluster.engines["engine-0"].send_signal(signal.SIGTERM)
    until(lambda: not client.ids, 10)
    assert cluster.engines["engine-0"].wait(LIMIT) == 0


def test_the_worker_ends_with_its_engine(own_cluster):
    cluster = own_cluster(1)
    worker = cluster.client[0].apply_sync(os.getpid)
    cluster.engines["engine-0"].kill()
    until(lambda: not os.path.exists(f"/proc/{worker}") or open(f"/proc/{worker}/stat").read().split()[2] == "Z")


def test_a_name_that_is_in_use_waits(own_cluster):
    cluster = own_cluster(1)
    client = cluster.client
    second = subprocess.Popen(engine_words(cluster, "engine-0"))
    try:
        time.sleep(1.5)
        assert client.ids == [0] and second.poll() is None
        cluster.engines["engine-0"].terminate()
        until(lambda: client.ids and client.ids != [0])
    finally:
        second.terminate()
        second.wait(LIMIT)


def test_an_engine_with_a_wrong_key(own_cluster, tmp_path):
    cluster = own_cluster(0)
    path = tmp_path / "key"
    path.write_text("wrong")
    words = [sys.executable, "-m", "yovkhan", "engine", cluster.host, str(cluster.port), "w", "--key-file", str(path)]
    child = subprocess.Popen(words, stderr=subprocess.PIPE, text=True)
    until(lambda: catches(child.pid, signal.SIGTERM))
    time.sleep(1)
    assert cluster.client.ids == [] and child.poll() is None
    child.terminate()
    assert child.wait(LIMIT) == 0
    child.stderr.close()


def catches(pid, sig):
    """Whether a process has a handler for a signal."""
    with open(f"/proc/{pid}/status", encoding="ascii") as status:
        mask = next(it.split()[1] for it in status if it.startswith("SigCgt"))
    return bool(int(mask, 16) & 1 << (sig - 1))
