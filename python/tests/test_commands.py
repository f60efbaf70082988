"""The command line, Cluster, and the package as its users run it: in a script, in pytest with -n, in a notebook, in a venv."""

import importlib.util
import os
import signal
import stat
import subprocess
import sys
import textwrap
import time

import pytest

import yovkhan
from conftest import LIMIT, run, until
from yovkhan.__main__ import main
from yovkhan.cluster import program
from yovkhan.top import Top, lines_of

TOP = os.path.dirname(os.path.dirname(os.path.dirname(os.path.abspath(__file__))))
MODULE = [sys.executable, "-m", "yovkhan"]


def address(cluster):
    return [cluster.host, str(cluster.port), "--key-file", cluster.key_file]


def test_a_cluster_leaves_nothing():
    with yovkhan.Cluster(2) as cluster:
        assert stat.S_IMODE(os.stat(cluster.key_file).st_mode) == 0o600
        assert cluster.view.map_sync(lambda n: n ** 2, range(10)) == [n ** 2 for n in range(10)]
        assert cluster[0].apply_sync(lambda: 1) == 1
        folder, processes = cluster.folder, [cluster.controller, *cluster.engines.values()]
    assert not os.path.exists(folder) and all(it.poll() is not None for it in processes)


def test_a_cluster_that_goes_on(tmp_path):
    folder = str(tmp_path / "kept")
    with yovkhan.Cluster(1, folder=folder, options=("--hwm", "2")) as cluster:
        assert cluster.view.map_sync(lambda n: n, range(5), name="kept") == list(range(5))
    with yovkhan.Cluster(0, folder=folder) as cluster:
        assert cluster.client.job("kept").get(LIMIT) == list(range(5)) and cluster.client.incarnation == 2


def test_the_program_is_found(monkeypatch, tmp_path):
    with pytest.raises(FileNotFoundError):
        program("/nothing/here")
    path = tmp_path / "mine"
    path.write_text("#!/bin/sh\n")
    path.chmod(0o755)
    assert program(str(path)) == [str(path)]
    monkeypatch.setenv("IPCLUSTER", str(path))
    assert program() == [str(path)]
    with pytest.raises(RuntimeError, match="status"):
        yovkhan.Cluster(0, program="/bin/false").start()
    monkeypatch.delenv("IPCLUSTER")
    built = tmp_path / "checkout" / "crates" / "ipcluster" / "out" / "ipcluster"
    built.parent.mkdir(parents=True)
    (tmp_path / "checkout" / "ipcluster").write_text("#!/bin/sh\n")
    monkeypatch.chdir(tmp_path / "checkout" / "crates")
    monkeypatch.setattr("yovkhan.cluster.__file__", str(tmp_path / "installed" / "cluster.py"))
    with pytest.raises(FileNotFoundError, match="isn't built"):
        program()
    built.write_text("#!/bin/sh\n")
    built.chmod(0o755)
    assert program() == [str(built)]
    monkeypatch.chdir(tmp_path)
    with pytest.raises(FileNotFoundError, match="isn't found"):
        program()


def test_engines_are_watched(own_cluster):
    cluster = own_cluster(0)
    client = cluster.client
    watch = subprocess.Popen([*MODULE, "engines", "2", *address(cluster), "--name", "w"], stderr=subprocess.PIPE, text=True)
    try:
        client.wait_for_engines(2, timeout=LIMIT)
        assert sorted(client.engines.values()) == ["w-0", "w-1"]
        client["w-1"].apply_async(os._exit, 3)
        until(lambda: len(client) == 1)
        client.wait_for_engines(2, timeout=LIMIT)
        assert sorted(client.engines.values()) == ["w-0", "w-1"] and max(client.ids) == 2
        client.shutdown(targets=client.number_of("w-0"), block=True)
        until(lambda: list(client.engines.values()) == ["w-1"])
        time.sleep(1)
    finally:
        watch.send_signal(signal.SIGTERM)
        said = watch.communicate(timeout=LIMIT)[1]
    assert watch.returncode == 0 and "w-1 ended with status 1" in said and "w-0 was shut down" in said
    until(lambda: not client.ids)


def test_top(own_cluster):
    cluster = own_cluster(2)
    client = cluster.client
    client.wait([client[0].apply_async(int), client[1].apply_async(lambda: 1 / 0)], LIMIT)
    said = run([*MODULE, "top", *address(cluster), "--interval", "0.1", "--rounds", "2"])
    assert said.count("engines 2") == 2 and "ZeroDivisionError" in said and "tasks/s 0.0" in said
    top = Top(client)
    top.look()
    client.load_balanced_view().map_sync(lambda n: n, range(10))
    seen = top.look()
    assert seen.rate > 0 and len(seen.failures) == 1
    shown = lines_of(seen)
    assert shown[0].startswith("engines 2") and any("engine-0" in it for it in shown)


def test_a_cluster_of_the_command_line():
    child = subprocess.Popen([*MODULE, "cluster", "-n", "2"], stdout=subprocess.PIPE, text=True)
    try:
        given = dict(it.split("=") for it in child.stdout.readline().split()[1:])
        script = "import yovkhan; c = yovkhan.Client(); c.wait_for_engines(2, timeout=30); print(c.load_balanced_view().map_sync(abs, [-1, 2]))"
        assert run([sys.executable, "-c", script], env={**os.environ, **given}) == "[1, 2]\n"
    finally:
        child.send_signal(signal.SIGINT)
        assert child.wait(LIMIT) == 0
        child.stdout.close()


def test_words_without_a_reading(capsys, tmp_path, monkeypatch):
    monkeypatch.delenv("YOVKHAN_KEY_FILE", raising=False)
    for words in ([], ["nothing"], ["engine", "h"], ["engine", "h", "x", "n"]):
        with pytest.raises(SystemExit):
            main(words)
    assert main(["engine", "127.0.0.1", "9", "n"]) == 2 and "key" in capsys.readouterr().err
    assert main(["engine", "127.0.0.1", "9", "n", "--key-file", str(tmp_path / "no")]) == 2
    assert main(["engine", "127.0.0.1", "9", "n" * 201, "--key", "k"]) == 2


SCRIPT = """
    import concurrent.futures
    import joblib
    import yovkhan

    factor = 3

    class Item:
        def __init__(self, n):
            self.n = n

    def tripled(item):
        return Item(item.n * factor)

    if __name__ == "__main__":
        with yovkhan.Client() as client:
            view = client.load_balanced_view()
            print([it.n for it in view.map_sync(tripled, [Item(n) for n in range(4)])])
            view.register_joblib_backend()
            with joblib.parallel_backend("ipyparallel"):
                print(joblib.Parallel()(joblib.delayed(pow)(n, 2) for n in range(4)))
            futures = [view.executor.submit(pow, 2, n) for n in range(4)]
            print(sorted(it.result() for it in concurrent.futures.as_completed(futures)))
"""


def environment(cluster):
    return {**os.environ, "YOVKHAN_PORT": str(cluster.port), "YOVKHAN_HOST": cluster.host, "YOVKHAN_KEY_FILE": cluster.key_file}


def test_a_plain_script(cluster, tmp_path):
    pytest.importorskip("joblib")
    path = tmp_path / "script.py"
    path.write_text(textwrap.dedent(SCRIPT))
    assert run([sys.executable, str(path)], env=environment(cluster)) == "[0, 3, 6, 9]\n[0, 1, 4, 9]\n[1, 2, 4, 8]\n"


def test_the_examples(tmp_path):
    folder = os.path.join(TOP, "examples")
    assert run([sys.executable, f"{folder}/squares.py"]) == "[100, 101, 104, 109, 116]\n[1, 5, 9, 13]\n[1, 5, 9, 13]\n"
    assert run([sys.executable, f"{folder}/graph.py"]) == "42\nno rescue was needed\n"
    assert run([sys.executable, f"{folder}/first.py"]) == "1517841\nthe others weren't needed\n"
    kept = str(tmp_path / "kept")
    end = f"the sum is {sum(n ** 2 for n in range(100))}\n"
    first = run([sys.executable, f"{folder}/named.py", kept])
    assert first.startswith("half of it") and end + "from scratch\n" in first and "finds 100 results" in first
    assert run([sys.executable, f"{folder}/named.py", kept]).startswith(end + "from what was kept\n")


def test_the_ten_minutes(tmp_path):
    with open(os.path.join(TOP, "python", "README.md"), encoding="utf-8") as file:
        text = file.read()
    section = text[text.index("## Ten minutes"):text.index("## A cluster on several machines")]
    lines = [it[4:] if it.startswith("    ") else "" for it in section.splitlines()]
    path = tmp_path / "readme.py"
    path.write_text("\n".join(lines) + "\nprint('all of it')\n")
    said = run([sys.executable, str(path)], timeout=3 * LIMIT)
    assert said.endswith("all of it\n") and "-5" not in said


def test_in_pytest_with_workers(cluster, tmp_path):
    pytest.importorskip("xdist")
    pytest.importorskip("joblib")
    (tmp_path / "test_theirs.py").write_text(textwrap.dedent("""
        import joblib
        import pytest
        import yovkhan

        @pytest.mark.parametrize("n", range(4))
        def test_it(n):
            with yovkhan.Client() as client:
                client.load_balanced_view().register_joblib_backend("theirs")
                with joblib.parallel_backend("theirs"):
                    assert joblib.Parallel()(joblib.delayed(pow)(it, n) for it in range(5)) == [it ** n for it in range(5)]
    """))
    said = run([sys.executable, "-m", "pytest", "-q", "-n", "2", "-p", "no:cacheprovider", str(tmp_path)], env=environment(cluster),
               cwd=str(tmp_path))
    assert "4 passed" in said


def test_in_a_notebook(cluster):
    nbclient, nbformat = pytest.importorskip("nbclient"), pytest.importorskip("nbformat")
    pytest.importorskip("ipykernel")
    cells = [
        "import yovkhan\nclient = yovkhan.Client()\nview = client.load_balanced_view()",
        "factor = 5\ndef times(n):\n    return factor * n",
        "print(view.map_sync(times, range(4)))",
        "import joblib\nview.register_joblib_backend()\nwith joblib.parallel_backend('ipyparallel'):\n"
        "    print(joblib.Parallel()(joblib.delayed(pow)(n, 2) for n in range(4)))",
        "import asyncio\nprint(await asyncio.wrap_future(view.apply_async(lambda: 7)))\nclient[:].apply_sync(lambda: 1/0)",
    ]
    book = nbformat.v4.new_notebook(cells=[nbformat.v4.new_code_cell(it) for it in cells],
                                    metadata={"kernelspec": {"name": "python3", "display_name": "p", "language": "python"}})
    before = dict(os.environ)
    os.environ.update(environment(cluster))
    try:
        nbclient.NotebookClient(book, timeout=LIMIT, allow_errors=True).execute()
    finally:
        os.environ.clear()
        os.environ.update(before)

    def said(cell):
        return "".join(it.get("text", "") for it in book.cells[cell].outputs)

    assert said(2) == "[0, 5, 10, 15]\n" and said(3) == "[0, 1, 4, 9]\n" and said(4) == "7\n"
    shown = book.cells[4].outputs[-1]
    assert shown["output_type"] == "error" and "CompositeError" in shown["ename"]
    assert "ZeroDivisionError: division by zero" in "\n".join(shown["traceback"])


def test_it_installs_in_a_venv(tmp_path):
    if importlib.util.find_spec("venv") is None or importlib.util.find_spec("ensurepip") is None:
        pytest.skip("python3-venv isn't installed")
    folder, sources = str(tmp_path / "v"), str(tmp_path / "python")
    run(["cp", "-r", os.path.join(TOP, "python"), sources])
    env = {name: it for name, it in os.environ.items() if name != "PYTHONPATH"}
    run([sys.executable, "-m", "venv", "--system-site-packages", folder], timeout=4 * LIMIT, env=env)
    run([f"{folder}/bin/pip", "install", "--no-build-isolation", "--no-index", sources], timeout=4 * LIMIT, env=env)
    script = "import yovkhan, os; print(os.path.exists(os.path.join(os.path.dirname(yovkhan.__file__), 'py.typed')), yovkhan.__file__)"
    said = run([f"{folder}/bin/python", "-c", script], env=env, cwd=str(tmp_path))
    assert said.startswith(f"True {folder}")
    assert "COMMAND" in run([f"{folder}/bin/yovkhan", "--help"], env=env)


def test_types():
    pytest.importorskip("mypy")
    run([sys.executable, "-m", "mypy", "--cache-dir", os.devnull], cwd=os.path.join(TOP, "python"), timeout=4 * LIMIT)


def test_a_moment_is_enough():
    began = time.monotonic()
    run([sys.executable, "-c", "import yovkhan"])
    assert time.monotonic() - began < LIMIT / 4
