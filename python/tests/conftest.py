"""A cluster of four engines for all tests of a process, and a fresh client for each.

The program is the one that the variable IPCLUSTER names, or the checkout's that is built already."""

import contextlib
import os
import signal
import subprocess
import sys
import time

import pytest

HERE = os.path.dirname(os.path.abspath(__file__))
SOURCES = os.path.join(os.path.dirname(HERE), "src")
sys.path.insert(0, SOURCES)
os.environ["PYTHONPATH"] = os.pathsep.join(filter(None, [SOURCES, os.environ.get("PYTHONPATH", "")]))

import yovkhan  # noqa: E402
from yovkhan import serialize  # noqa: E402

LIMIT = 60
"""Seconds that nothing in the tests takes, even on a loaded machine."""


@pytest.fixture(scope="session")
def cluster():
    with yovkhan.Cluster(4) as made:
        yield made


@pytest.fixture
def client(cluster):
    """A client of the cluster, with four engines in it."""
    with cluster.make_client(timeout=LIMIT) as made:
        made.wait_for_engines(4, timeout=LIMIT)
        yield made
    serialize.use(serialize.DEFAULT)


@pytest.fixture
def view(client):
    return client.load_balanced_view()


@pytest.fixture
def all_engines(client):
    made = client[:]
    made.block = True
    return made


@pytest.fixture
def own_cluster():
    """Makes clusters of a test's own."""
    with contextlib.ExitStack() as stack:
        yield lambda *words, **how: stack.enter_context(yovkhan.Cluster(*words, **how))


def remote(name):
    """What `pytest.raises` is given for an error of an engine with this name."""
    return pytest.raises(yovkhan.RemoteError, match=name)


def until(there, seconds=LIMIT, step=0.02):
    """Waits until this holds."""
    end = time.monotonic() + seconds
    while not there():
        assert time.monotonic() < end, "it takes too long"
        time.sleep(step)


@contextlib.contextmanager
def busy(client, targets):
    """Keeps engines busy meanwhile: the result of what runs there, which a signal ends."""
    result = client.direct_view(targets).apply_async(time.sleep, 10 * LIMIT)
    numbers = [targets] if isinstance(targets, int) else client.ids if targets == "all" else targets
    until(lambda: all(client.queue_status(it)["queue"] for it in numbers))
    try:
        yield result
    finally:
        until(lambda: client.send_signal(signal.SIGINT, targets).wait(LIMIT) and result.wait(0.5))


def run(words, timeout=LIMIT, **how):
    """Runs a command: what it printed. It has to end with status 0."""
    ran = subprocess.run(words, stdout=subprocess.PIPE, stderr=subprocess.STDOUT, text=True, timeout=timeout, check=False, **how)
    assert ran.returncode == 0, ran.stdout
    return ran.stdout
