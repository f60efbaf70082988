"""Results: futures, values, metadata, times, outputs."""

import asyncio
import concurrent.futures
import os
import signal
import subprocess
import sys
import textwrap
import threading
import time
from datetime import datetime

import pytest

import yovkhan
from conftest import LIMIT, remote, until
from yovkhan import error
from yovkhan.results import AsyncResult, Progress
from yovkhan.wire import ChangedBuffer, joined


def nap(seconds):
    import time

    time.sleep(seconds)
    return seconds


def test_get(client):
    result = client[0].apply_async(nap, 0.3)
    assert isinstance(result, concurrent.futures.Future) and not result.ready() and result.progress == 0
    with pytest.raises(AssertionError):
        result.successful()
    with pytest.raises(TimeoutError):
        result.get(0)
    assert result.wait(0) is False and "pending" in repr(result)
    assert result.get(-1) == result.get() == result.r == result.result() == 0.3
    assert result.ready() and result.successful() and result.done() and result.exception() is None
    assert result.progress == 1 and "finished" in repr(result) and not result.cancel()


def test_errors_are_raised_each_time(client):
    result = client[0].apply_async(lambda: 1 / 0)
    result.wait(LIMIT)
    for use in (result.get, result.get, result.get_dict, result.result, lambda: result.r):
        with remote("ZeroDivisionError"):
            use()
    assert not result.successful() and result.exception().ename == "ZeroDivisionError" and "failed" in repr(result)
    assert isinstance(result.get(return_exceptions=True), yovkhan.RemoteError)


def test_futures(client):
    results = [client.load_balanced_view().apply_async(nap, 0.02 * it) for it in range(4)]
    assert {it.result() for it in concurrent.futures.as_completed(results, LIMIT)} == {0.02 * it for it in range(4)}
    assert not concurrent.futures.wait(results, LIMIT).not_done
    seen, told = [], threading.Event()
    one = client[0].apply_async(nap, 0.05)
    one.add_done_callback(lambda it: (seen.append(it), told.set()))
    assert told.wait(LIMIT) and seen == [one]
    one.add_done_callback(seen.append)
    assert seen == [one, one]


def test_asyncio(client):
    async def both():
        good, bad = client[0].apply_async(nap, 0.05), client[1].apply_async(lambda: 1 / 0)
        assert await asyncio.wrap_future(good) == 0.05
        with remote("ZeroDivisionError"):
            await asyncio.wrap_future(bad)
        with pytest.raises(asyncio.TimeoutError):
            await asyncio.wait_for(asyncio.wrap_future(client[0].apply_async(nap, 0.3)), 0.01)

    asyncio.run(both())


def test_sequences(client):
    result = client[:].apply_async(nap, 0.05)
    assert list(result) == [0.05] * 4 and len(result) == 4
    assert result[0] == result[-1] == 0.05 and result[1:3] == [0.05, 0.05]
    with pytest.raises(IndexError):
        result[4]
    with pytest.raises(TypeError):
        result[1.5]
    with pytest.raises(TypeError):
        iter(client[0].apply_async(int))
    bad = client[:].map_async(lambda n: 1 / (n - 2), range(5))
    for use in (lambda: list(bad), bad.get, lambda: list(bad)):
        with remote("ZeroDivisionError"):
            use()


def test_dicts(client):
    assert client[:].apply_async(lambda: 5).get_dict(LIMIT) == dict.fromkeys(client.ids, 5)
    assert client[2].apply_async(lambda: [1, 2]).result_dict == {2: [1, 2]}
    twice = client.load_balanced_view([0]).map_async(abs, range(2))
    with pytest.raises(ValueError):
        twice.get_dict(LIMIT)


def test_metadata(client):
    result = client[:].apply_async(nap, 0.2)
    assert result.engine_id == [None] * 4 == result["engine_id"]
    for name in ("_foo", "foo", "__length_hint__"):
        assert not hasattr(result, name)
    with pytest.raises(KeyError):
        result["foo"]
    result.get(LIMIT)
    assert result.engine_id == client.ids and result["engine_uuid"] == list(client.engines.values())
    assert result.status == ["ok"] * 4 and "stdout" in dir(result) and "get" in dir(result)
    one = client[1].apply_async(print, "out")
    assert one.engine_id is None and one.metadata["stdout"] == ""
    one.get(LIMIT)
    known = one.metadata
    for name in ("submitted", "started", "completed", "received"):
        assert isinstance(known[name], datetime) and known[name].tzinfo is not None
    assert known["submitted"] <= known["started"] <= known["completed"] <= known["received"]
    assert known.stdout == one.stdout == "out\n" and known["msg_id"] == one.msg_ids[0] and one.engine_id == 1
    assert set(yovkhan.tasks.FIELDS) <= set(known)
    bad = client[1].apply_async(lambda: 1 / 0)
    bad.wait(LIMIT)
    assert bad.status == "error" and bad.error.ename == "ZeroDivisionError" and bad.engine_id == 1


def test_times(client):
    result = client[:].apply_async(nap, 0.2)
    for name in ("wall_time", "serial_time"):
        with pytest.raises(TimeoutError):
            getattr(result, name)
    assert 0 <= result.elapsed < LIMIT
    result.get(LIMIT)
    assert 0.2 < result.wall_time < LIMIT and 0.8 < result.serial_time < 4 * LIMIT and result.elapsed == result.wall_time
    assert result.timedelta(result.submitted, result.received) == result.wall_time


def test_sent(client):
    result = client[0].apply_async(len, b"x" * 5_000_000)
    result.wait_for_send(LIMIT)
    assert result.sent and result.get(LIMIT) == 5_000_000
    assert result.wait_for_output(LIMIT)


def test_return_exceptions(client):
    view = client[:]
    view.scatter("rank", client.ids, flatten=True, block=True)

    def check(rank):
        if rank == 1:
            raise ValueError(f"{rank} is bad")
        return rank

    result = view.apply_async(check, yovkhan.Reference("rank"))
    with remote("ValueError"):
        result.get(LIMIT)
    came = result.get(return_exceptions=True)
    assert came[:1] == [0] and came[2:] == [2, 3] and isinstance(came[1], yovkhan.RemoteError)
    balanced = client.load_balanced_view().map(check, range(4), return_exceptions=True)
    assert isinstance(list(balanced)[1], yovkhan.RemoteError) and balanced.get()[2:] == [2, 3]
    retried = client.load_balanced_view().map(check, range(6), return_exceptions=True, chunksize=2, retries=1).get(LIMIT)
    assert [isinstance(it, yovkhan.RemoteError) for it in retried] == [True, True, False, False, False, False]


def test_outputs_are_shown(client, capsys):
    result = client[:].execute("print(5555)")
    result.display_outputs()
    said = capsys.readouterr()
    assert said.err == "" and said.out.count("[stdout:") == 4 == said.out.count("5555") and "\n\n" not in said.out
    for how in ("engine", "order"):
        result.display_outputs(how)
        assert capsys.readouterr().out.count("[stdout:") == 4
    with pytest.raises(ValueError):
        result.display_outputs("nothing")
    client[0].execute("print(5555)").display_outputs()
    client[:].execute("a = 5").display_outputs()
    client[0].execute("a = 5").display_outputs()
    assert capsys.readouterr().out == "5555\n"
    with client[:2].execute("import sys; print(1); print(2, file=sys.stderr)").stream_output():
        until(lambda: not client.outstanding)
        time.sleep(0.05)
    said = capsys.readouterr()
    assert said.out.count("[stdout:") == 2 and said.err.count("[stderr:") == 2


def test_interactive_waits(client, capsys):
    result = client.load_balanced_view().map_async(nap, [0.05] * 4)
    assert result.wait_interactive(interval=0.02, timeout=LIMIT) is True
    slow = client[0].apply_async(nap, 0.4)
    assert slow.wait_interactive(interval=0.02, timeout=0.05) is False
    assert client.wait_interactive(interval=0.02, timeout=LIMIT) is True
    client.wait_for_engines(1, interactive=True)
    assert "engines" in capsys.readouterr().err


def test_a_plain_line_of_progress(monkeypatch, capsys):
    monkeypatch.setitem(sys.modules, "tqdm.auto", None)
    line = Progress(3, "work")
    line.show(2)
    line.close()
    assert "work: 2/3 tasks" in capsys.readouterr().err


def test_errors_of_several(client, capsys):
    result = client.get_result([client[:].execute("1/0") for _ in range(3)])
    with pytest.raises(error.CompositeError) as raised:
        result.get(LIMIT)
    failure = raised.value
    assert len(failure.elist) == 12 and "more exceptions" in failure.render_traceback()[-1]
    failure.print_traceback()
    said = capsys.readouterr().out
    assert said.count("ZeroDivisionError") == 8 and said.count("by zero") == 4 and said.count(":execute]: ") == 4
    assert "8 more exceptions" in str(failure)
    with remote("ZeroDivisionError"):
        failure.raise_exception(3)
    with pytest.raises(IndexError):
        failure.raise_exception(99)


def test_an_error_of_one(client, capsys):
    with pytest.raises(yovkhan.RemoteError) as raised:
        client[1].apply_sync(lambda: int("x"))
    failure = raised.value
    assert failure.ename == "ValueError" and str(failure) == f"ValueError({failure.evalue})"
    assert failure.engine_info == {"engine_uuid": client.engines[1], "engine_id": 1, "method": "apply"}
    lines = failure.render_traceback()
    assert lines[0].startswith("ValueError  ") and lines[0].endswith("Traceback (most recent call last)")
    assert lines[-1].startswith("ValueError: invalid literal") and "\n".join(lines).count("ValueError") == 2
    assert "test_results.py" in "\n".join(lines) and "worker.py" not in "\n".join(lines)
    failure.print_traceback()
    assert "invalid literal" in capsys.readouterr().out and failure._render_traceback_()

    def chained():
        try:
            raise KeyError("first")
        except KeyError as first:
            raise RuntimeError("second") from first

    with pytest.raises(yovkhan.RemoteError) as raised:
        client[1].apply_sync(chained)
    text = "\n".join(raised.value.render_traceback())
    assert "KeyError: 'first'" in text and text.endswith("RuntimeError: second")


def test_an_exception_without_a_text(client):
    def fail():
        class Odd(Exception):
            def __str__(self):
                raise ValueError

        raise Odd

    with remote("Odd"):
        client[0].apply_sync(fail)

    def surrogate():
        raise ValueError("\ud800")

    with remote("ValueError"):
        client[0].apply_sync(surrogate)


def test_a_changed_buffer_isnt_read():
    with pytest.raises(ChangedBuffer):
        joined([b"changed"], {"digests": ["0" * 64]})


def test_a_wait_can_be_interrupted(cluster):
    script = textwrap.dedent(f"""
        import time, yovkhan
        client = yovkhan.Client({cluster.host!r}, {cluster.port}, key_file={cluster.key_file!r}, timeout={LIMIT})
        result = client[3].apply_async(time.sleep, 1)
        print("waits", flush=True)
        try:
            result.get()
        except KeyboardInterrupt:
            print("interrupted", flush=True)
        result.get()
        print("went on", flush=True)
    """)
    child = subprocess.Popen([sys.executable, "-c", script], stdout=subprocess.PIPE, text=True)
    assert child.stdout.readline() == "waits\n"
    time.sleep(0.2)
    os.kill(child.pid, signal.SIGINT)
    said = child.communicate(timeout=LIMIT)[0]
    assert said == "interrupted\nwent on\n" and child.returncode == 0


def test_a_result_is_a_future_of_its_own(client):
    assert AsyncResult(client, [], fname="nothing").get(0) == []
