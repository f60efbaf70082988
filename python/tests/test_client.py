"""The client: engines, waits, results by id, what the controller knows, control of engines."""

import os
import socket
import threading
import time
from concurrent.futures import Future

import pytest

import yovkhan
from conftest import LIMIT, busy, remote, until
from yovkhan import error


def test_ids_and_views(client):
    assert client.ids == sorted(client.ids) and len(client) == 4
    assert [it.targets for it in client] == client.ids
    assert client[0].targets == 0 and client[-1].targets == client.ids[-1]
    assert client[1:3].targets == client.ids[1:3] and client[::2].targets == client.ids[::2]
    assert client[[0, 1]].targets == [0, 1] and client[(0, 1)].targets == [0, 1] and client[range(2)].targets == [0, 1]
    assert client[client.engines[2]].targets == 2
    for key in (None, 1.5, {}):
        with pytest.raises(TypeError):
            client[key]
    for key in (99, -99, "nobody"):
        with pytest.raises(IndexError):
            client[key]


def test_direct_and_balanced_targets(client):
    assert client.direct_view().targets == "all" and client.direct_view(-1).targets == client.ids[-1]
    assert client.load_balanced_view().targets is None and client.load_balanced_view("all").targets is None
    assert client.load_balanced_view(-1).targets == [client.ids[-1]]
    assert client.broadcast_view("all", is_coalescing=True).apply_sync(lambda: 1) == [1] * 4


def test_a_wrong_key_is_told(cluster):
    with pytest.raises(TimeoutError, match="key"):
        yovkhan.Client(cluster.host, cluster.port, key=b"another", timeout=0.5)


def test_no_controller_is_told():
    with pytest.raises(TimeoutError, match="controller"):
        yovkhan.Client("127.0.0.1", 9, key=b"k", timeout=0.3)


def test_a_key_and_a_port_are_needed(monkeypatch):
    monkeypatch.delenv("YOVKHAN_KEY_FILE", raising=False)
    monkeypatch.delenv("YOVKHAN_PORT", raising=False)
    with pytest.raises(ValueError, match="key"):
        yovkhan.Client("127.0.0.1", 9)
    with pytest.raises(ValueError, match="port"):
        yovkhan.Client("127.0.0.1", key="k")


def test_a_closed_client_raises(cluster):
    client = cluster.make_client()
    view = client.load_balanced_view()
    client.close()
    client.close()
    for use in (lambda: client.ids, lambda: view.apply_async(int), lambda: client.queue_status()):
        with pytest.raises(RuntimeError, match="closed"):
            use()


def test_what_waits_ends_with_a_close(cluster):
    client = cluster.make_client()
    result = client.load_balanced_view().apply_async(time.sleep, 0.3)
    client.close()
    with pytest.raises(yovkhan.ConnectionLost):
        result.get(5)


def test_wait_for_engines(client):
    assert client.wait_for_engines(4, timeout=LIMIT) is None
    with pytest.raises(TimeoutError):
        client.wait_for_engines(5, timeout=0.1)
    future = client.wait_for_engines(1, block=False)
    assert isinstance(future, Future) and future.result(LIMIT) is None


def test_wait_for_jobs(client):
    view = client.load_balanced_view()
    assert client.wait() is True
    slow = view.apply_async(time.sleep, 1)
    assert client.wait(slow, timeout=0) is False and client.wait(timeout=0.01) is False
    assert client.wait([slow, slow.msg_ids[0], -1], timeout=LIMIT) is True
    future = Future()
    assert client.wait(future, timeout=0.01) is False
    future.set_result(None)
    assert client.wait([future], timeout=0.01) is True
    with pytest.raises(TypeError):
        client.wait([1.5])


def test_outstanding_and_history(client):
    view = client[0]
    result = view.apply_async(time.sleep, 1)
    assert client.outstanding == {result.msg_ids[0]} == view.outstanding
    assert client.history == result.msg_ids == view.history
    result.get(LIMIT)
    assert not client.outstanding and not view.outstanding


def test_an_owner_takes_the_result(client):
    owned = client[0].apply_async(lambda: 1)
    owned.get(LIMIT)
    assert owned.msg_ids[0] not in client.results and owned.msg_ids[0] not in client.metadata
    again = client.get_result(owned.msg_ids[0], owner=False)
    assert again.get(LIMIT) == 1 and client.results[owned.msg_ids[0]] == 1
    assert client.metadata["nothing"]["engine_id"] is None and "nothing" in client.metadata
    client.purge_local_results("all")
    assert owned.msg_ids[0] not in client.results


def test_results_of_another_client(cluster, client):
    with cluster.make_client() as other:
        result = client[0].apply_async(lambda: time.sleep(1) or 7)
        foreign = other.get_result(result.msg_ids[0], owner=False)
        assert isinstance(foreign, yovkhan.AsyncHubResult) and not foreign.ready()
        assert foreign.get(LIMIT) == result.get(LIMIT) == 7
        local = other.get_result(result.msg_ids[0])
        assert not isinstance(local, yovkhan.AsyncHubResult) and local.get(0) == 7
        several = other.get_result([result, result.msg_ids[0]])
        assert several.get(LIMIT) == [7, 7]
        assert foreign.serial_time == result.serial_time and foreign.wall_time < LIMIT
        until(lambda: other.get_result(result.msg_ids[0]).ready())


def test_an_unknown_id(client):
    with remote("KeyError") as raised:
        client.get_result("nobody-1").get(LIMIT)
    assert raised.value.ids == ["nobody-1"] and raised.value.ename == "KeyError"
    with remote("KeyError"):
        client.result_status(["nobody-1"])
    with remote("KeyError"):
        client.resubmit(["nobody-1"])
    with remote("KeyError"):
        client.purge_hub_results(["nobody-1"])


def test_result_status(client):
    quick = client[1].apply_async(lambda: 3)
    quick.get(LIMIT)
    with busy(client, 0) as slow:
        status = client.result_status([*slow.msg_ids, *quick.msg_ids])
        assert status == {"pending": slow.msg_ids, "completed": quick.msg_ids}
    full = client.result_status(quick.msg_ids[0], status_only=False)
    assert full[quick.msg_ids[0]] == 3


def test_resubmit(client):
    result = client.load_balanced_view().apply_async(lambda: os.urandom(8))
    first = result.get(LIMIT)
    again = client.resubmit(result.msg_ids)
    assert again.get(LIMIT) != [first] and again.msg_ids[0].startswith("resubmit:")
    assert client.history[-1] == again.msg_ids[0]


def test_queue_status(client):
    with busy(client, 0) as result:
        assert client.queue_status(0)["queue"] == 1
        status = client.queue_status(verbose=True)
        assert status[0]["queue"] == result.msg_ids and status["unassigned"] == [] and set(status) == {*client.ids, "unassigned"}
    assert client[0].queue_status()["queue"] == 0
    assert set(client.queue_status([0, 1])) == {0, 1, "unassigned"}
    with pytest.raises(IndexError):
        client.queue_status(99)


def test_purges(own_cluster):
    client = own_cluster(1).client
    results = [client[0].apply_async(lambda: it) for it in range(3)]
    client.wait(results, LIMIT)
    ids = [it.msg_ids[0] for it in results]
    assert client.hub_history() == ids
    client.purge_results(ids[0])
    assert client.hub_history() == ids[1:]
    with remote("KeyError"):
        client.get_result(ids[0]).get(LIMIT)
    with busy(client, 0) as slow:
        with remote("Inflight") as raised:
            client.purge_hub_results(slow)
        assert raised.value.ids == slow.msg_ids
        with pytest.raises(RuntimeError):
            client.purge_local_results(slow)
    with pytest.raises(ValueError):
        client.purge_results()
    client.purge_hub_results(targets=0)
    assert client.hub_history() == []
    client[0].apply_sync(int)
    client.purge_everything()
    assert client.hub_history() == [] and client.history == []


def test_db_query(own_cluster):
    client = own_cluster(2).client
    good = client[0].apply_async(print, "said")
    bad = client[1].apply_async(lambda: 1 / 0)
    client.wait([good, bad], LIMIT)
    records = client.db_query({})
    assert [it["msg_id"] for it in records] == client.hub_history() and "buffers" not in records[0]
    name = client.engines[0]
    found = client.db_query({"engine_uuid": name}, keys="stdout")
    assert found == [{"msg_id": good.msg_ids[0], "stdout": "said\n"}]
    moment = records[0]["completed"]
    assert moment.tzinfo is not None
    assert [it["msg_id"] for it in client.db_query({"completed": {"$lte": moment}, "engine_uuid": {"$ne": None}})] != []
    assert client.db_query({"$or": [{"msg_id": bad.msg_ids[0]}, {"msg_id": "x"}]}, keys=["result_buffers"]) == [
        {"msg_id": bad.msg_ids[0], "result_buffers": []}]
    assert len(client.db_query({"msg_id": {"$in": client.history}})) == 2
    assert client.db_query({"$and": [{"msg_id": {"$nin": client.history}}]}) == []
    with pytest.raises(ValueError):
        client.db_query({"msg_id": {"$like": 1}})


def test_clear(client, all_engines):
    all_engines["a"] = 5
    client.clear(targets=0, block=True)
    with remote("NameError"):
        client[0].get("a")
    assert client[1].get("a") == 5
    client.clear(block=True)
    with remote("NameError"):
        client[1].get("a")


def test_abort_of_direct_requests(client):
    view = client[-1]
    with busy(client, client.ids[-1]) as running:
        second, third, fourth = (view.apply_async(int) for _ in range(3))
        view.abort(second)
        view.abort(third.msg_ids)
        fourth.abort()
        for it in (second, third, fourth):
            with pytest.raises(yovkhan.TaskAborted) as raised:
                it.get(LIMIT)
            assert isinstance(raised.value, yovkhan.RemoteError)
    with pytest.raises(AssertionError):
        running.abort()
    with pytest.raises(TypeError):
        client.abort(5)


def test_abort_of_tasks_that_wait(client):
    view = client.load_balanced_view()
    with busy(client, client.ids):
        tasks = [view.apply_async(int) for _ in range(6)]
        view.abort(tasks[0], block=True)
        view.abort(tasks[1].msg_ids, block=True)
        view.abort(block=True)
    for it in tasks:
        with pytest.raises(yovkhan.TaskAborted):
            it.get(LIMIT)


def test_an_abort_asks_for_what_waits_alone(client, monkeypatch):
    """What an engine has begun goes on; the controller is asked once, about what it hasn't handed out."""
    asked, ask = [], client._ask  # pylint: disable=protected-access

    def listening(msg_type, content, *more, **named):
        asked.append((msg_type, content))
        return ask(msg_type, content, *more, **named)

    with busy(client, client.ids):
        late = [client.load_balanced_view().apply_async(int) for _ in range(6)]
        until(lambda: client.queue_status()["unassigned"] == 2)
        monkeypatch.setattr(client, "_ask", listening)
        client.abort(late, block=True)
    waited = [it[1]["msg_ids"] for it in asked if it[0] == "abort_request"]
    assert len(waited) == 1 and len(waited[0]) == 2 and set(waited[0]) <= {it.msg_ids[0] for it in late}
    client.wait(late, LIMIT)


def test_a_signal_interrupts_a_function(client):
    with busy(client, 0) as result:
        pass
    with remote("KeyboardInterrupt"):
        result.get(LIMIT)
    client.send_signal("SIGINT", targets=0, block=True)
    assert client[0].apply_sync(lambda: 1) == 1
    with remote("ValueError"):
        client.send_signal("SIGNOTHING", targets=0, block=True)


def test_shutdown(own_cluster):
    cluster = own_cluster(2)
    client = cluster.client
    client.shutdown(targets=client.ids[0], block=True)
    until(lambda: len(client) == 1)
    assert cluster.controller.poll() is None
    client.shutdown(hub=True)
    assert cluster.controller.wait(LIMIT) == 0
    for it in cluster.engines.values():
        assert it.wait(LIMIT) == 0


def test_no_engines(own_cluster):
    client = own_cluster(0).client
    assert client.ids == [] and list(client) == []
    for use in (lambda: client[:], lambda: client.direct_view().apply_async(int), lambda: client.clear()):
        with pytest.raises(yovkhan.NoEnginesRegistered):
            use()
    with pytest.raises(IndexError):
        client[0]


def test_two_clients_at_once(cluster):
    def work(found, number):
        with cluster.make_client() as client:
            view = client.load_balanced_view()
            found[number] = view.map_sync(lambda n: n + number, range(100))

    found = {}
    threads = [threading.Thread(target=work, args=(found, it)) for it in range(2)]
    for it in threads:
        it.start()
    for it in threads:
        it.join(LIMIT)
    assert found == {it: list(range(it, it + 100)) for it in range(2)}


def test_a_callback_may_submit_and_not_wait(client):
    view, seen, done = client.load_balanced_view(), [], threading.Event()

    def told(_result):
        try:
            view.apply_async(lambda: 2).add_done_callback(lambda it: (seen.append(it.result()), done.set()))
            view.apply_sync(int)
        except RuntimeError as failure:
            seen.append(failure)

    view.apply_async(int).add_done_callback(told)
    assert done.wait(LIMIT)
    assert isinstance(seen[0], RuntimeError) and seen[1] == 2


def test_a_fork_is_refused(client):
    read_end, write_end = os.pipe()
    child = os.fork()
    if not child:
        try:
            client.ids  # pylint: disable=pointless-statement
        except RuntimeError:
            os.write(write_end, b"refused")
        os._exit(0)
    os.waitpid(child, 0)
    assert os.read(read_end, 10) == b"refused"


def test_a_session_gets_what_settles_later(cluster, client):
    with cluster.make_client(session="me") as first:
        result = first.load_balanced_view().apply_async(lambda: time.sleep(0.3) or 11)
        until(lambda: result.msg_ids[0] in client.hub_history())
    with cluster.make_client(session="me") as second:
        assert second.get_result(result.msg_ids[0]).get(LIMIT) == 11
        assert second.load_balanced_view().apply_sync(int) == 0


def test_connections_that_say_nothing_do_no_harm(cluster, client):
    with socket.create_connection((cluster.host, cluster.port + 1)) as idle:
        idle.sendall(b"\xff")
        assert client.load_balanced_view().apply_sync(lambda: 5) == 5


def test_errors_have_their_places():
    assert issubclass(error.InvalidDependency, error.ImpossibleDependency)
    assert issubclass(error.ImpossibleDependency, error.UnmetDependency)
    assert issubclass(error.CompositeError, error.RemoteError) and issubclass(error.RemoteError, error.KernelError)
    assert issubclass(error.DuplicateId, ValueError) and issubclass(error.TooLarge, ValueError)
    assert issubclass(error.ConnectionLost, TimeoutError)
    assert yovkhan.EngineError is error.EngineError
