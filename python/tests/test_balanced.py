"""Load-balanced views: maps, flags, dependencies, declines, retries, timeouts."""

import itertools
import os
import threading
import time

import pytest

import yovkhan
from conftest import LIMIT, busy, remote
from yovkhan import Dependency, error


def slow(n):
    import time

    time.sleep(0.03 * n)
    return n


def test_maps(view):
    assert view.map_sync(lambda n: n ** 2, range(16)) == [n ** 2 for n in range(16)]
    assert view.map_sync(lambda n: n, iter(range(7))) == list(range(7)) and view.map_sync(abs, []) == []
    assert view.map_sync(lambda x, y: x + y, range(10), range(3), chunksize=2) == [0, 2, 4]
    result = view.map_async(lambda n: n, range(10), chunksize=4)
    assert len(result) == 3 and result.get(LIMIT) == list(range(10)) and list(result) == list(range(10))
    for wrong in (0, -1, 1.5):
        with pytest.raises(ValueError):
            view.map(abs, [1], chunksize=wrong)


def test_a_thousand_tasks(view):
    assert view.map_sync(lambda n: n + 1, range(1000)) == list(range(1, 1001))
    assert len(set(view.history)) == 1000


def test_order(view):
    numbers = list(range(12, 0, -1))
    unordered = view.map_async(slow, numbers, ordered=False)
    came = list(unordered)
    assert came != numbers and sorted(came, reverse=True) == numbers
    assert sorted(unordered) == sorted(numbers) and unordered.get() == numbers
    assert list(view.map_async(slow, numbers)) == numbers


def test_imap(view, client):
    results = view.imap(lambda n: n, itertools.count(), max_outstanding=5)
    assert next(results) == 0 and 5 <= len(view.history) <= 6
    assert next(results) == 1 and 6 <= len(view.history) <= 8
    client.wait(timeout=LIMIT)
    assert list(view.imap(lambda x, y: x * y, range(9), range(5))) == [0, 1, 4, 9, 16]
    assert sorted(view.imap(slow, [3, 1, 2], ordered=False, max_outstanding=0)) == [1, 2, 3]
    kept = list(view.imap(lambda n: 1 // n, [1, 0, 1], return_exceptions=True))
    assert kept[::2] == [1, 1] and isinstance(kept[1], yovkhan.RemoteError)
    with remote("ZeroDivisionError"):
        list(view.imap(lambda n: 1 // n, [1, 0, 1]))
    with pytest.raises(ValueError):
        view.imap(abs, [], max_outstanding=-1)


def test_flags_are_checked(client):
    view = client.load_balanced_view(retries=2, timeout=1.5)
    assert view.retries == 2 and view.timeout == 1.5
    for name, wrong in (("timeout", "5"), ("retries", 1.5), ("retries", True)):
        with pytest.raises(TypeError):
            view.set_flags(**{name: wrong})
    for name, wrong in (("timeout", -1), ("retries", -1), ("retries", 1001), ("after", 5), ("follow", [5])):
        with pytest.raises(ValueError):
            view.set_flags(**{name: wrong})
    with pytest.raises(KeyError):
        view.set_flags(nothing=1)
    with view.temp_flags(after=["a"], retries=0):
        assert view.after == {"a"} and view.retries == 0
    assert view.after is None and view.retries == 2
    with pytest.raises(ValueError):
        Dependency("a", success=False, failure=False)


def test_dependency_sets():
    both = Dependency(["a", "b"])
    assert both.check(["a", "b"]) and not both.check(["a"]) and both.unreachable([], ["a"])
    either = Dependency(["a", "b"], all=False, success=False, failure=True)
    assert either.check([], ["b"]) and not either.check(["a", "b"]) and either.unreachable(["a", "b"])
    assert Dependency(either.as_dict()).as_dict() == either.as_dict() == {
        "dependencies": ["a", "b"], "all": False, "success": False, "failure": True}
    assert Dependency().check([]) and not Dependency().unreachable([])


def test_after(view):
    first = view.apply_async(time.sleep, 0.3)
    with view.temp_flags(after=first):
        second = view.apply_async(lambda: 1)
    assert second.get(LIMIT) == 1 and second.started >= first.completed
    assert second.after == first.msg_ids and second.follow == []
    failed = view.apply_async(lambda: 1 / 0)
    with view.temp_flags(after=failed):
        with pytest.raises(yovkhan.ImpossibleDependency) as raised:
            view.apply_sync(lambda: 1)
        assert raised.value.ename == "ImpossibleDependency" and isinstance(raised.value, yovkhan.RemoteError)
    with view.temp_flags(after=Dependency(failed, success=False, failure=True)):
        assert view.apply_sync(lambda: 2) == 2


def test_after_a_direct_request(client, view):
    for _ in range(5):
        direct = client[0].apply_async(lambda: 5)
        with view.temp_flags(after=direct):
            assert view.apply_sync(lambda: 1) == 1


def test_follow(view):
    first = view.apply_async(lambda: 1)
    first.get(LIMIT)
    with view.temp_flags(follow=first):
        results = [view.apply_async(lambda: 1) for _ in range(4)]
    view.wait(results, LIMIT)
    assert {it.engine_id for it in results} == {first.engine_id}


def test_impossible_and_invalid(client, view):
    one, two = (client.load_balanced_view([it]).apply_async(int) for it in (0, 1))
    client.wait([one, two], LIMIT)
    with view.temp_flags(follow=[one, two]):
        with pytest.raises(error.ImpossibleDependency):
            view.apply_sync(lambda: 1)
    with view.temp_flags(after="12345"):
        with pytest.raises(error.InvalidDependency) as raised:
            view.apply_sync(lambda: 1)
    assert raised.value.ename == "InvalidDependency"


def test_targets(client):
    view = client.load_balanced_view([1, 2])
    results = view.map_async(slow, [1] * 6)
    assert set(results.get_dict(LIMIT) if len(results) < 3 else results.engine_id if results.wait() else ()) <= {1, 2}
    by_name = client.load_balanced_view(targets=[client.engines[3]])
    result = by_name.apply_async(int)
    result.get(LIMIT)
    assert result.engine_id == 3 and by_name.targets == [3]


def test_retries(view):
    def fail():
        raise ValueError("failed")

    with view.temp_flags(retries=2):
        with remote("ValueError"):
            view.apply_sync(fail)
    path = f"/tmp/yovkhan-test-{os.getpid()}-{time.time()}"

    def third(path):
        with open(path, "a+", encoding="ascii") as file:
            file.write("x")
            file.seek(0)
            tries = len(file.read())
        if tries < 3:
            raise ValueError(tries)
        return tries

    try:
        assert view.map_sync(third, [path], retries=5) == [3]
    finally:
        os.unlink(path)


def test_timeout(client):
    with busy(client, 0):
        first = client.load_balanced_view([0]).apply_async(int)
        with pytest.raises(error.TaskTimeout) as raised:
            client.load_balanced_view([0], timeout=0.5).apply_async(int).get(LIMIT)
        assert raised.value.ename == "TaskTimeout"
    assert first.get(LIMIT) == 0


def test_a_decline_moves_a_task(client, view):
    wanted = client.engines[2]

    def is_there(name):
        import sys

        return any(name in it for it in sys.modules["__main__"].__dict__.get("names", []))

    client[:].execute("names = []", block=True)
    client[2].push({"names": [wanted]}, block=True)

    @yovkhan.depend(is_there, wanted)
    def where():
        return "here"

    results = [view.apply_async(where) for _ in range(6)]
    assert [it.get(LIMIT) for it in results] == ["here"] * 6
    assert {it.engine_id for it in results} == {2}


def test_all_engines_decline(client, view):
    @yovkhan.depend(lambda: False)
    def never():
        return 1

    with pytest.raises(error.ImpossibleDependency):
        client.load_balanced_view(client.ids).apply_sync(never)
    with view.temp_flags(timeout=1):
        with pytest.raises(error.TaskTimeout):
            view.apply_sync(never)
    with pytest.raises(error.UnmetDependency):
        client[0].apply_sync(never)

    def raises():
        raise yovkhan.UnmetDependency

    with pytest.raises(error.ImpossibleDependency):
        client.load_balanced_view(client.ids).apply_sync(raises)


def test_named_maps(cluster, client, view):
    name = f"squares-{time.time()}"
    first = view.map_async(lambda n: n ** 2, range(30), name=name, chunksize=4)
    assert first.msg_ids == [f"{name}/{it}" for it in range(8)]
    assert first.get(LIMIT) == [n ** 2 for n in range(30)]
    with cluster.make_client() as other:
        job = other.job(name)
        assert isinstance(job, yovkhan.AsyncMapResult) and job.get(LIMIT) == first.get() and list(job) == first.get()
        joined = other.load_balanced_view().map_async(lambda n: n ** 2 + 0, range(30), name=name, chunksize=4)
        assert joined.get(LIMIT) == first.get()
        with pytest.raises(yovkhan.DuplicateId):
            other.load_balanced_view().map_sync(lambda n: n ** 3, range(30), name=name, chunksize=4, on_known="raise")
        with remote("KeyError"):
            other.job("no such job")
    with pytest.raises(ValueError):
        view.map(abs, [1], name="resubmit:x")
    with pytest.raises(ValueError):
        view.map(abs, [1], on_known="wait")


def test_executor(view, client):
    import concurrent.futures

    executor = view.executor
    assert executor is view.executor and executor.view is view
    assert isinstance(executor, concurrent.futures.Executor)
    futures = [executor.submit(slow, it) for it in range(4)]
    assert sorted(it.result(LIMIT) for it in concurrent.futures.as_completed(futures, LIMIT)) == [0, 1, 2, 3]
    assert list(executor.map(lambda x, y: x + y, range(5), range(5))) == [0, 2, 4, 6, 8]
    assert next(executor.map(abs, itertools.count(3))) == 3
    with client.executor() as other:
        late = other.submit(slow, 5)
    assert late.done() and len(client.ids) == 4
    with pytest.raises(RuntimeError):
        other.submit(abs, 1)
    concurrent.futures.wait(futures, LIMIT)


def test_joblib(view, client, cluster, monkeypatch):
    joblib = pytest.importorskip("joblib")
    view.register_joblib_backend("cluster-test")
    with joblib.parallel_backend("cluster-test") as (backend, _):
        assert backend._view is view and backend.effective_n_jobs(-1) == 4
        assert joblib.Parallel(n_jobs=-1)(joblib.delayed(abs)(-it) for it in range(50)) == list(range(50))
        with pytest.raises(yovkhan.RemoteError):
            joblib.Parallel()(joblib.delayed(int)(it) for it in ["1", "x"])
    yovkhan.register_joblib_backend("cluster-env")
    monkeypatch.setenv("YOVKHAN_PORT", str(cluster.port))
    monkeypatch.setenv("YOVKHAN_KEY_FILE", cluster.key_file)
    with joblib.parallel_backend("cluster-env"):
        assert joblib.Parallel()(joblib.delayed(pow)(it, 2) for it in range(10)) == [it ** 2 for it in range(10)]


def test_many_threads_submit(view):
    found = []

    def work(number):
        found.append(view.map_sync(lambda n: n * number, range(20)))

    threads = [threading.Thread(target=work, args=(it,)) for it in range(5)]
    for it in threads:
        it.start()
    for it in threads:
        it.join(LIMIT)
    assert sorted(found) == [[n * it for n in range(20)] for it in range(5)]
