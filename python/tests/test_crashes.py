"""What a kill does: of the controller, of an engine, of a client."""

import collections
import os
import signal
import subprocess
import sys
import textwrap
import threading
import time

import pytest

import yovkhan
from conftest import LIMIT, remote, until

LONG = 240


def outcomes_by_id(cluster):
    """How often each id is settled in the database, by its text."""
    from yovkhan.cluster import program

    ran = subprocess.run([*program(), "dump", cluster.database], stdout=subprocess.PIPE, text=True, check=True, timeout=LIMIT)
    counts = collections.Counter()
    for line in ran.stdout.splitlines():
        words = line.split()
        if words[0] == "settle":
            counts[bytes.fromhex(words[1]).decode()] += 1
    return counts


def test_a_map_goes_on_over_five_kills(own_cluster):
    cluster = own_cluster(4)
    client = cluster.client
    events = []
    client.on_event(lambda event, *of_it: events.append(event))
    before = client.incarnation
    result = client.load_balanced_view(retries=3).map_async(lambda n: n ** 2, range(2000))
    for kill in range(5):
        until(lambda: result.progress >= 300 * (kill + 1) or result.ready(), LONG)
        cluster.kill_controller()
        cluster.start_controller()
    assert result.get(LONG) == [n ** 2 for n in range(2000)]
    assert len(set(result.msg_ids)) == 2000 and client.incarnation == before + 5
    for event in ("disconnected", "reconnected", "restarted"):
        assert events.count(event) >= 5 or event == "reconnected" and event in events
    client.wait_for_engines(4, timeout=LIMIT)
    cluster.kill_controller()
    counts = outcomes_by_id(cluster)
    assert set(result.msg_ids) == set(counts) and set(counts.values()) == {1}


def test_what_was_under_way_is_lost_without_retries(own_cluster):
    cluster = own_cluster(1)
    client = cluster.client
    result = client.load_balanced_view().apply_async(time.sleep, 3)
    direct = client[0].apply_async(int)
    until(lambda: client.queue_status(0)["tasks"] == 1)
    cluster.kill_controller()
    cluster.start_controller()
    for it in (result, direct):
        with pytest.raises(yovkhan.EngineError):
            it.get(LIMIT)


def test_a_full_history_begins_anew():
    """A controller ends once its history has 400 entries, of which a task takes four; the cluster starts it again."""
    with yovkhan.Cluster(2, options=("--entries", "400")) as cluster:
        first = cluster.client.incarnation
        view = cluster.client.load_balanced_view(retries=3)
        assert view.map_sync(abs, range(300), chunksize=1) == list(range(300))
        assert cluster.client.incarnation > first


def test_pushes_come_back_after_a_restart(own_cluster):
    cluster = own_cluster(1)
    client = cluster.client
    name = client.engines[0]
    view = client[name]
    view["a"] = 5
    cluster.kill_controller()
    cluster.start_controller()
    view.push({"b": 6}, block=True)
    assert view["a + b"] == 11
    assert client[name]["b"] == 6 and client.number_of(name) == client.ids[0] != 0
    assert client.load_balanced_view(targets=[name]).apply_sync(lambda: 3) == 3


def test_a_function_doesnt_run_twice_on_an_engine(own_cluster, tmp_path):
    cluster = own_cluster(1)
    client = cluster.client
    path = str(tmp_path / "ran")

    def count(path):
        import time

        with open(path, "a", encoding="ascii") as file:
            file.write("x")
        time.sleep(2)
        return 1

    result = client.load_balanced_view(retries=3).apply_async(count, path)
    until(lambda: os.path.exists(path))
    cluster.kill_controller()
    cluster.start_controller()
    assert result.get(LIMIT) == 1
    with open(path, encoding="ascii") as file:
        assert file.read() == "x"


def test_reconnects_are_bounded(own_cluster):
    cluster = own_cluster(1)
    with cluster.make_client(reconnect=0.5) as client:
        view = client.load_balanced_view(retries=2)
        result = view.apply_async(lambda: time.sleep(1) or 5)
        until(lambda: client.queue_status(0)["tasks"] == 1)
        cluster.kill_controller()
        began = time.monotonic()
        with pytest.raises(yovkhan.ConnectionLost):
            result.get(LIMIT)
        assert time.monotonic() - began < 30
        cluster.start_controller()
        assert cluster.client.get_result(result.msg_ids[0]).get(LIMIT) == 5


def test_requests_made_while_the_controller_is_away(own_cluster):
    cluster = own_cluster(1)
    client = cluster.client
    view = client.load_balanced_view()
    cluster.kill_controller()
    waits = view.map_async(lambda n: n, range(20))
    engines = []
    asking = threading.Thread(target=lambda: engines.extend(client.ids))
    asking.start()
    assert not waits.wait(0.3)
    cluster.start_controller()
    assert waits.get(LIMIT) == list(range(20))
    asking.join(LIMIT)
    assert not asking.is_alive()


def script_of(cluster, body, **names):
    given = "\n".join(f"{name} = {value!r}" for name, value in names.items())
    head = f"import time, yovkhan\n{given}\nclient = yovkhan.Client({cluster.host!r}, {cluster.port}, key_file={cluster.key_file!r})\n"
    return head + textwrap.dedent(body)


def test_a_client_that_was_killed(cluster, client, tmp_path):
    name, path = f"job-{time.time()}", str(tmp_path / "ran")
    script = script_of(cluster, """
        def work(n):
            import time
            with open(path, "a") as file:
                file.write("x")
            time.sleep(0.01)
            return n * n

        view = client.load_balanced_view()
        result = view.map_async(yovkhan.interactive(work), range(200), name=name)
        print("sent", flush=True)
        print(sum(result.get()), flush=True)
    """, name=name, path=path)
    first = subprocess.Popen([sys.executable, "-c", script], stdout=subprocess.PIPE, text=True)
    assert first.stdout.readline() == "sent\n"
    until = time.monotonic() + LIMIT
    while not {f"{name}/{it}" for it in range(200)} <= set(client.hub_history()):  # what a killed client had in its socket may be lost
        assert time.monotonic() < until
        time.sleep(0.01)
    first.send_signal(signal.SIGKILL)
    first.wait(LIMIT)
    first.stdout.close()
    assert client.job(name, n=200).get(LIMIT) == [n * n for n in range(200)] == client.job(name).get(LIMIT)
    again = subprocess.run([sys.executable, "-c", script], stdout=subprocess.PIPE, text=True, check=True, timeout=LIMIT)
    assert again.stdout.split() == ["sent", str(sum(n * n for n in range(200)))]
    with open(path, encoding="ascii") as file:
        assert len(file.read()) == 200


def test_a_script_that_is_started_again_after_a_kill_of_all(own_cluster):
    cluster = own_cluster(2)
    first = cluster.view.map_async(lambda n: n + 1, range(50), name="all", retries=3)
    until(lambda: first.progress > 10)
    cluster.kill_controller()
    cluster.start_controller()
    with cluster.make_client() as other:
        other.wait_for_engines(2, timeout=LIMIT)
        second = other.load_balanced_view().map_async(lambda n: n + 1, range(50), name="all", retries=3)
        assert second.get(LIMIT) == list(range(1, 51)) == first.get(LIMIT)


def test_the_same_frames_twice(client):
    view = client.load_balanced_view()
    result = view.apply_async(lambda: os.urandom(4))
    task = result.tasks[0]
    octets = list(task.octets)
    first = result.get(LIMIT)
    from yovkhan.tasks import Task

    again = Task(task.msg_id, "task", octets, task.submitted)
    client._channels["task"].submit([again])  # pylint: disable=protected-access
    until(lambda: again.is_done)
    assert again.settled().value == first


def test_another_request_under_a_known_id(client):
    view = client.load_balanced_view()
    name = f"twice-{time.time()}"
    view.map_sync(lambda n: n, [1], name=name)
    with pytest.raises(yovkhan.DuplicateId, match="known"):
        view.map_sync(lambda n: n, [2], name=name, on_known="raise")
    client.purge_hub_results(f"{name}/0")
    with pytest.raises(yovkhan.DuplicateId, match="purged"):
        view.map_sync(lambda n: n, [1], name=name, on_known="raise")
    with remote("KeyError"):
        client.job(name)


def test_a_link_that_breaks_alone(client):
    view = client.load_balanced_view()
    result = view.map_async(lambda n: time.sleep(0.01) or n, range(200))
    until(lambda: result.progress > 20)
    for name in ("task", "mux"):
        channel = client._channels[name]  # pylint: disable=protected-access
        client._loop.call(channel.link.restart)  # pylint: disable=protected-access
    assert result.get(LIMIT) == list(range(200))
    assert client[:].apply_sync(lambda: 1) == [1] * 4
    client._loop.call(client._hub.link.restart)  # pylint: disable=protected-access
    assert client.queue_status()["unassigned"] == 0
