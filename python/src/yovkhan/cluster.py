"""A cluster on this machine: a controller and engines, which end with it."""

from __future__ import annotations

import os
import random
import secrets
import shutil
import signal
import socket
import subprocess
import sys
import tempfile
import threading
import time
from typing import Any, Dict, List, Optional

from .client import Client
from .engine import environment
from .views import DirectView, LoadBalancedView

HOST = "127.0.0.1"
_LISTENER_FAULT = 11
"""The status of a controller that can't listen at its ports."""
_HISTORY_FULL = 9
"""The status of a controller whose history, since it opened the database, has reached a limit."""


def program(given: Optional[str] = None) -> List[str]:
    """The words that run the controller's program: the path that is given, the variable IPCLUSTER's, or the program of the checkout that
    this package or the current folder stands in. FileNotFoundError where there is none, or where it isn't built yet."""
    for path in (given, os.environ.get("IPCLUSTER")):
        if path:
            if not os.access(path, os.X_OK):
                raise FileNotFoundError(f"there is no program at {path}")
            return [os.path.abspath(path)]
    for top in _checkouts():
        path = os.path.join(top, "crates", "ipcluster", "out", "ipcluster")
        if os.access(path, os.X_OK):
            return [path]
        raise FileNotFoundError(f"the program of {top} isn't built yet: `./ipcluster work 1 2` there builds it")
    raise FileNotFoundError("the controller's program isn't found: name it by program=, or by the variable IPCLUSTER")


def _checkouts() -> List[str]:
    """The checkouts that this package and the current folder stand in."""
    found = []
    for start in (os.path.abspath(__file__), os.path.join(os.getcwd(), "x")):
        top = os.path.dirname(start)
        while top != os.path.dirname(top):
            if os.path.isfile(os.path.join(top, "ipcluster")) and os.path.isdir(os.path.join(top, "crates", "ipcluster")):
                found.append(top)
            top = os.path.dirname(top)
    return found


def free_ports() -> int:
    """The first of four ports in a row at which nobody listens."""
    while True:
        first, held = random.randrange(10_000, 32_000), []
        try:
            for port in range(first, first + 4):
                held.append(socket.socket())
                held[-1].bind((HOST, port))
            return first
        except OSError:
            continue
        finally:
            for it in held:
                it.close()


class Cluster:
    """A controller over a database in a folder, and `n` engines, for a laptop and for tests. Used by `with`, or by `start` and `stop`.

    `folder` keeps the database and the key (mode 0600), so that a cluster started there again goes on where it was; without one it is a
    folder of its own that is removed. `program` is the path of `ipcluster`, else it is found by the variable IPCLUSTER or the checkout.
    `options` are further words of `ipcluster serve`, such as `("--hwm", "2")`. `client` and `view` are a client and a load-balanced
    view of it.

    A controller whose history has reached a limit ends; it is started again over its database, which begins a new count. One that ended
    otherwise isn't: `start_controller` does so."""

    def __init__(self, n: int = 4, *, folder: Optional[str] = None, program: Optional[str] = None,  # pylint: disable=redefined-outer-name
                 options: Any = (), timeout: float = 60) -> None:
        self.n = n
        self._given = program
        self._options = [str(it) for it in options]
        self._own_folder = folder is None
        self._timeout = timeout
        self.folder = folder or ""
        self.host, self.port = HOST, 0
        self.controller: Optional["subprocess.Popen[bytes]"] = None
        self.engines: Dict[str, "subprocess.Popen[bytes]"] = {}
        self._client: Optional[Client] = None
        self._view: Optional[LoadBalancedView] = None
        self._ended = threading.Event()
        self._supervisor: Optional[threading.Thread] = None

    # -- beginning and end

    def start(self) -> "Cluster":
        """Starts all, and waits for the engines."""
        if self._own_folder:
            self.folder = tempfile.mkdtemp(prefix="yovkhan-")
        os.makedirs(self.folder, exist_ok=True)
        self._make_key()
        self._ended.clear()
        try:
            self._start_at_free_ports()
            self._supervisor = threading.Thread(target=self._supervise, name="yovkhan-cluster", daemon=True)
            self._supervisor.start()
            for number in range(self.n):
                self.start_engine(f"engine-{number}")
            self.client.wait_for_engines(self.n, timeout=self._timeout)
        except BaseException:
            self.stop()
            raise
        return self

    def _start_at_free_ports(self) -> None:
        """Starts the controller; anew where somebody else took one of the ports meanwhile."""
        for tries in range(5):
            self.port = free_ports()
            try:
                self.start_controller()
                return
            except RuntimeError:
                taken = self.controller is not None and self.controller.returncode == _LISTENER_FAULT
                if not taken or tries == 4:
                    raise

    def _supervise(self) -> None:
        """Starts a controller again whose history is full, until the cluster ends."""
        while not self._ended.wait(0.1):
            controller = self.controller
            if controller is not None and controller.poll() == _HISTORY_FULL:
                try:
                    self.start_controller()
                except (OSError, RuntimeError, TimeoutError):
                    return

    def stop(self) -> None:
        """Ends all, and removes a folder of its own."""
        self._ended.set()
        if self._supervisor is not None:
            self._supervisor.join()
            self._supervisor = None
        if self._client is not None:
            self._client.close()
            self._client = self._view = None
        processes = [*self.engines.values(), *([self.controller] if self.controller else [])]
        _end(processes)
        self.engines.clear()
        self.controller = None
        if self._own_folder and self.folder:
            shutil.rmtree(self.folder, ignore_errors=True)

    def __enter__(self) -> "Cluster":
        return self.start()

    def __exit__(self, *_: Any) -> None:
        self.stop()

    # -- parts

    @property
    def key_file(self) -> str:
        """The path of the file with the key."""
        return os.path.join(self.folder, "key")

    @property
    def database(self) -> str:
        """The path of the database."""
        return os.path.join(self.folder, "database")

    def _make_key(self) -> None:
        if os.path.exists(self.key_file):
            return
        handle = os.open(self.key_file, os.O_WRONLY | os.O_CREAT | os.O_EXCL, 0o600)
        with os.fdopen(handle, "w", encoding="ascii") as file:
            file.write(secrets.token_hex(32))

    def start_controller(self) -> None:
        """Starts the controller, over the database that there is, and waits until it listens."""
        words = program(self._given)
        with open(os.path.join(self.folder, "controller.log"), "ab") as said:
            self.controller = subprocess.Popen([*words, "serve", HOST, str(self.port), self.database, "--key-file", self.key_file,
                                                *self._options],
                                               stdin=subprocess.DEVNULL, stdout=said, stderr=said, start_new_session=True)
        until = time.monotonic() + self._timeout
        while not all(_listens(self.port + it) for it in range(4)):
            if self.controller.poll() is not None:
                with open(os.path.join(self.folder, "controller.log"), encoding="utf-8", errors="replace") as said_text:
                    raise RuntimeError(f"the controller ended with status {self.controller.returncode}: {said_text.read()[-500:]}")
            if time.monotonic() > until:
                raise TimeoutError(f"the controller doesn't listen after {self._timeout} seconds")
            time.sleep(0.01)

    def start_engine(self, name: str) -> "subprocess.Popen[bytes]":
        """Starts an engine of this name."""
        words = [sys.executable, "-m", "yovkhan", "engine", HOST, str(self.port), name, "--key-file", self.key_file]
        with open(os.path.join(self.folder, f"{name}.log"), "ab") as said:
            self.engines[name] = subprocess.Popen(words, stdin=subprocess.DEVNULL, stdout=said, stderr=said, start_new_session=True,
                                                  env=environment())
        return self.engines[name]

    def kill_controller(self) -> None:
        """Kills the controller, as a crash does. `start_controller` starts it again."""
        assert self.controller is not None
        self.controller.kill()
        self.controller.wait()

    # -- clients

    def make_client(self, **how: Any) -> Client:
        """A further client."""
        return Client(HOST, self.port, key_file=self.key_file, **how)

    @property
    def client(self) -> Client:
        """A client, made when it is first asked for."""
        if self._client is None:
            self._client = self.make_client(timeout=self._timeout)
        return self._client

    @property
    def view(self) -> LoadBalancedView:
        """A load-balanced view of the client."""
        if self._view is None:
            self._view = self.client.load_balanced_view()
        return self._view

    def __getitem__(self, key: Any) -> DirectView:
        return self.client[key]


def _listens(port: int) -> bool:
    with socket.socket() as sock:
        return sock.connect_ex((HOST, port)) == 0


def _end(processes: List["subprocess.Popen[bytes]"]) -> None:
    """Ends processes: by a request first, and after 3 s by force."""
    for it in processes:
        if it.poll() is None:
            it.send_signal(signal.SIGTERM)
    until = time.monotonic() + 3
    for it in processes:
        try:
            it.wait(max(0.05, until - time.monotonic()))
        except subprocess.TimeoutExpired:
            it.kill()
            it.wait()
