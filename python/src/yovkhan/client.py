"""The client of a controller."""

from __future__ import annotations

import atexit

import os
import threading
import time
import uuid
import weakref
from concurrent.futures import Future
from concurrent.futures import TimeoutError as _FutureTimeout
from concurrent.futures import wait as wait_for_futures
from typing import Any, Callable, Dict, Iterator, List, Optional, Sequence, Set, Tuple

from . import error, query, requests
from .caches import MetadataOf, Results
from .channels import MUX, TASK, Channel
from .dependency import ids_of
from .executor import ViewExecutor
from .hub import ASKED_AT_ONCE, Hub
from .link import Loop, log
from .parts import Gathering
from .polling import Poller
from .results import AsyncHubMapResult, AsyncHubResult, AsyncResult, Progress, forever, watched
from .tasks import Outcome, Task
from .views import BroadcastView, DirectView, LoadBalancedView
from .wire import Headers, Message, Signer

FRESH = 0.05
"""For so many seconds the list of engines isn't asked for again."""
RETURNS = 45.0
"""For so many seconds after a restart engines are waited for that were there before."""


def key_of(key: Any = None, key_file: Optional[str] = None) -> bytes:
    """The key that is given as a text, octets or the path of a file, or by the variable YOVKHAN_KEY_FILE."""
    if key is not None:
        return key.encode() if isinstance(key, str) else bytes(key)
    path = key_file or os.environ.get("YOVKHAN_KEY_FILE")
    if not path:
        raise ValueError("a key is needed: key=, key_file=, or the variable YOVKHAN_KEY_FILE")
    with open(path, "rb") as file:
        octets = file.read()
    return octets[:-1] if octets.endswith(b"\n") else octets


class Client:
    """A client of the controller at this host, whose four ports begin with this one. Either may be given by the variables
    YOVKHAN_HOST and YOVKHAN_PORT, and the key by a file (YOVKHAN_KEY_FILE).

    `session` names the client for good: a later one of this name gets the outcomes that settle then. `timeout` is how many seconds a
    first answer may take. `reconnect` is how many seconds the controller may be out of reach before waits end with ConnectionLost;
    None is for ever. `block` is what calls do whose own `block` is None. One thread serves the links; a client isn't for use in a
    forked process."""

    def __init__(self, host: Optional[str] = None, port: Optional[int] = None, *, key: Any = None, key_file: Optional[str] = None,
                 session: Optional[str] = None, timeout: float = 10, reconnect: Optional[float] = None, block: bool = False) -> None:
        host = host or os.environ.get("YOVKHAN_HOST") or "127.0.0.1"
        port = int(port or os.environ.get("YOVKHAN_PORT") or 0)
        if not 0 < port < 65_533:
            raise ValueError("a port is needed, from 1 to 65,532: port=, or the variable YOVKHAN_PORT")
        if session is not None and not 0 < len(session.encode()) <= 200:
            raise ValueError("a session has 1 to 200 octets")
        self.block = block
        self.session = session or uuid.uuid4().hex[:16]
        self._pid = os.getpid()
        self._closed = False
        self._reconnect = reconnect
        self._where = f"{host}:{port}"
        self._start(host, port, key_of(key, key_file), f"{session}.{uuid.uuid4().hex[:8]}" if session else self.session)
        self._keep_records()
        self._run()
        try:
            self._wait_for_links(timeout)
        except BaseException:
            self.close()
            raise

    def _start(self, host: str, port: int, key: bytes, prefix: str) -> None:
        signer, headers, identity = Signer(key), Headers(self.session), self.session.encode()
        self._loop = Loop()
        self.maker = requests.Maker(prefix, signer, headers)
        self._hub = Hub(self._loop, (host, port), identity, signer, headers, prefix, self._hub_up, self._hub_down)
        self._hub.restarted = self._has_restarted
        common = (identity, signer, headers, prefix, self._hub, self._goes_on)
        self._channels = {TASK: Channel(TASK, self._loop, (host, port + 1), *common),
                          MUX: Channel(MUX, self._loop, (host, port + 2), *common)}
        self._poller = Poller(self._loop, self._hub)

    def _keep_records(self) -> None:
        self._lock = threading.RLock()
        self._tasks: Dict[str, Task] = {}
        self._sent_tasks: Set[str] = set()
        self.history: List[str] = []
        self.results = Results(self._tasks)
        self.metadata = MetadataOf(self._tasks)
        self._engines: Dict[int, str] = {}
        self._ever: Dict[int, str] = {}
        self._asked_at = -1.0
        self._listeners: List[Callable[..., None]] = []
        self._was_up = False
        self._down_since: Optional[float] = None
        self._restart_at: Optional[float] = None

    def _run(self) -> None:
        self._thread = threading.Thread(target=self._loop.run, name="yovkhan-links", daemon=True)
        self._thread.start()
        for link in (self._hub.link, *(it.link for it in self._channels.values())):
            self._loop.call(link.open)
        _open_clients.add(self)

    def _wait_for_links(self, timeout: float) -> None:
        until = time.monotonic() + timeout
        try:
            self._ask_engines(timeout)
            served = all(it.opened.wait(max(0.0, until - time.monotonic())) for it in self._channels.values())
        except TimeoutError:
            served = False
        if not served:
            raise TimeoutError(f"no answer from {self._where} within {timeout} seconds: is a controller there (`ipcluster serve`, at "
                               f"this port and the three behind it), and is the key its key? A wrong key is met by silence")

    # -- the end

    def close(self) -> None:
        """Ends the links and the thread. Tasks go on. What is still waited for ends with ConnectionLost."""
        if self._closed:
            return
        self._closed = True
        _open_clients.discard(self)
        if self._pid != os.getpid():
            return
        self._loop.call(self._close)
        if threading.current_thread() is not self._thread:
            self._thread.join(5)

    def _close(self) -> None:
        for it in self._channels.values():
            it.close()
        self._poller.give_up(error.ConnectionLost("the client was closed before the outcome came; the task goes on"))
        self._hub.close()
        self._loop.stop()

    def __enter__(self) -> "Client":
        return self

    def __exit__(self, *_: Any) -> None:
        self.close()

    def __reduce__(self) -> Any:
        raise TypeError("a Client can't be sent")

    def __repr__(self) -> str:
        return f"<Client of {self._where}{' (closed)' if self._closed else ''}>"

    def _must_be_open(self) -> None:
        if self._closed:
            raise RuntimeError("the client is closed")
        if self._pid != os.getpid():
            raise RuntimeError("the client was made before a fork: make one in this process")

    def may_wait(self) -> None:
        """Raises RuntimeError in the links' own thread, which would wait for itself."""
        if threading.current_thread() is self._thread:
            raise RuntimeError("a callback can't wait for what its own thread brings: submit, and add a callback")

    # -- links come and go, in the links' thread

    def _hub_up(self) -> None:
        self._down_since = None
        self._hub.ask("connection_request", {}).add_done_callback(self._engines_came)
        if self._was_up:
            self._tell("reconnected")
        self._was_up = True

    def _hub_down(self) -> None:
        self._tell("disconnected")
        self._down_since = time.monotonic()
        if self._reconnect is not None and not self._closed:
            self._loop.later(self._reconnect, self._give_up, self._down_since)

    def _give_up(self, since: float) -> None:
        if self._down_since != since or self._closed:
            return
        failure = error.ConnectionLost(f"{self._where} was out of reach for {self._reconnect} seconds; tasks go on")
        for it in self._channels.values():
            it.give_up(failure)
        self._poller.give_up(failure)
        self._hub.give_up(failure)

    def _has_restarted(self) -> None:
        self._restart_at = time.monotonic()
        self._tell("restarted")

    def _engines_came(self, answer: "Future[Message]") -> None:
        if answer.exception() is not None:
            return
        with self._lock:
            before = self._engines
            self._engines = {int(number): name for number, name in answer.result().content.get("engines", {}).items()}
            self._ever.update(self._engines)
            self._asked_at = time.monotonic()
        for number in sorted(set(self._engines) - set(before)):
            self._tell("engine_joined", number, self._engines[number])
        for number in sorted(set(before) - set(self._engines)):
            self._tell("engine_left", number, before[number])

    def on_event(self, listener: Callable[..., None]) -> None:
        """Has `listener(event, *of_it)` called, in the links' thread: `disconnected`, `reconnected`, `restarted`, `engine_joined` and
        `engine_left` (with number and name). Engines are seen to come and go where the list of them is asked for."""
        self._listeners.append(listener)

    def _tell(self, event: str, *of_it: Any) -> None:
        for listener in list(self._listeners):
            try:
                listener(event, *of_it)
            except Exception:  # pylint: disable=broad-except
                log.exception("a listener to events failed")

    @property
    def incarnation(self) -> int:
        """How often the controller's database was opened. It rises with each restart."""
        if self._hub.incarnation is None:
            self._ask_engines()
        return self._hub.incarnation or 0

    # -- engines

    def _ask(self, msg_type: str, content: Any, repeats: bool = True, timeout: Optional[float] = None) -> Message:
        self._must_be_open()
        self.may_wait()
        return self._hub.ask(msg_type, content, repeats).result(timeout)

    def _ask_engines(self, timeout: Optional[float] = None) -> None:
        self._must_be_open()
        self.may_wait()
        answer = self._hub.ask("connection_request", {})
        answer.add_done_callback(self._engines_came)
        try:
            answer.result(timeout)
        except _FutureTimeout as late:
            raise TimeoutError("the controller didn't answer") from late

    @property
    def engines(self) -> Dict[int, str]:
        """The names of the live engines, by number. The controller is asked where its last answer is older than 50 ms."""
        self._must_be_open()
        if time.monotonic() - self._asked_at > FRESH and threading.current_thread() is not self._thread:
            self._ask_engines()
        return dict(sorted(self._engines.items()))

    @property
    def ids(self) -> List[int]:
        """The numbers of the live engines, ascending."""
        return list(self.engines)

    def __len__(self) -> int:
        return len(self.ids)

    def __bool__(self) -> bool:
        return True

    def __iter__(self) -> Iterator[DirectView]:
        return iter([self.direct_view(it) for it in self.ids])

    def number_of(self, name: str) -> int:
        """The number of the engine of this name. IndexError where none is there."""
        for look in (lambda: self.engines, self._asked_anew):
            for number, its in look().items():
                if its == name:
                    return number
        raise IndexError(f"there is no engine {name!r}")

    def _asked_anew(self) -> Dict[int, str]:
        """The engines, as the controller has them now."""
        self._asked_at = -1.0
        return self.engines

    def _number(self, key: Any) -> int:
        """The number that is meant by a number, one from the end, or a name."""
        if isinstance(key, str):
            return self.number_of(key)
        if isinstance(key, bool) or not hasattr(key, "__index__"):
            raise TypeError(f"engines are named by numbers and names, not by {key!r}")
        key = key.__index__()
        if key < 0:
            ids = self.ids
            if -key > len(ids):
                raise IndexError(f"there are {len(ids)} engines, and none is {key}")
            return ids[key]
        if key not in self._ever and key not in self._asked_anew():
            raise IndexError(f"there is no engine {key}")
        return key

    def _numbers(self, targets: Any) -> Any:
        """Numbers of engines: one for a number or a name, else a list. NoEnginesRegistered where there are none."""
        if targets is None or targets == "all":
            ids = self.ids
            if not ids:
                raise error.NoEnginesRegistered("the cluster has no engines")
            return ids
        if isinstance(targets, (list, tuple, range, set)):
            if not targets and not self.ids:
                raise error.NoEnginesRegistered("the cluster has no engines")
            return [self._number(it) for it in targets]
        return self._number(targets)

    def names_of(self, targets: Any) -> List[str]:
        """The names of engines, which stay over a restart of the controller."""
        numbers = self._numbers(targets)
        numbers = [numbers] if isinstance(numbers, int) else numbers
        if not numbers:
            raise error.NoEnginesRegistered("no engines are named")
        return [self._ever[it] for it in numbers]

    def balanced_targets(self, targets: Any) -> Optional[List[int]]:
        """The targets of a load-balanced view: None is any engine."""
        if targets is None or targets == "all":
            return None
        numbers = self._numbers(targets)
        return [numbers] if isinstance(numbers, int) else numbers

    def __getitem__(self, key: Any) -> DirectView:
        """A view of these engines, fixed now: a number, a name, a slice or a list."""
        if isinstance(key, slice):
            return self.direct_view(self.ids[key])
        if isinstance(key, (list, tuple, range)):
            return self.direct_view([self._live(it) for it in key])
        if isinstance(key, str) or hasattr(key, "__index__") and not isinstance(key, bool):
            return self.direct_view(self._live(key))
        raise TypeError(f"engines are named by numbers, names, slices and lists, not by {key!r}")

    def _live(self, key: Any) -> int:
        number = self._number(key)
        if number not in self.engines and number not in self._asked_anew():
            raise IndexError(f"there is no engine {key}")
        return number

    # -- views

    def direct_view(self, targets: Any = "all", **flags: Any) -> DirectView:
        """A view of these engines: a number, a name, a list, or `'all'`, which is looked up at each call."""
        flags.setdefault("block", self.block)
        return DirectView(self, targets if targets == "all" else self._numbers(targets), **flags)

    def broadcast_view(self, targets: Any = "all", is_coalescing: bool = False, **flags: Any) -> BroadcastView:
        """As `direct_view`: the controller has no broadcast."""
        flags.setdefault("block", self.block)
        view = BroadcastView(self, targets if targets == "all" else self._numbers(targets), **flags)
        view.is_coalescing = is_coalescing
        return view

    def load_balanced_view(self, targets: Any = None, **flags: Any) -> LoadBalancedView:
        """A view of whichever engine is free, or is among `targets`."""
        flags.setdefault("block", self.block)
        return LoadBalancedView(self, targets, **flags)

    def executor(self, targets: Any = None) -> ViewExecutor:
        """The executor of a new load-balanced view."""
        return self.load_balanced_view(targets).executor

    def wait_for_engines(self, n: int, *, timeout: Optional[float] = -1, block: bool = True, interactive: Optional[bool] = None) -> Any:
        """Waits until there are so many engines; TimeoutError after so many seconds. Not `block` gives a Future."""
        if not block:
            future: "Future[None]" = Future()
            threading.Thread(target=_complete, args=(future, lambda: self.wait_for_engines(n, timeout=timeout)), daemon=True).start()
            return future
        limit = forever(timeout)
        until = None if limit is None else time.monotonic() + limit
        line = Progress(n, "engines", "engines") if interactive else None
        step = 0.05
        try:
            while True:
                count = len(self)
                if line:
                    line.show(min(count, n))
                if count >= n:
                    return None
                if until is not None and time.monotonic() >= until:
                    raise TimeoutError(f"{count} engines came within {timeout} seconds, not {n}")
                time.sleep(step)
                step = min(step * 1.3, 0.5)
        finally:
            if line:
                line.close()

    # -- requests

    def begin(self, tasks: Sequence[Task], kept: Optional[Sequence[Task]] = None) -> None:
        """Sends requests of one port. Those that are `kept` (all, where nothing is said) stand in the history."""
        if not tasks:
            return
        self._must_be_open()
        ids = [it.msg_id for it in (tasks if kept is None else kept)]
        with self._lock:
            self.history += ids
            if tasks[0].channel == TASK:
                self._sent_tasks.update(ids)
            for it in tasks if kept is None else kept:
                self._tasks[it.msg_id] = it
        self._channels[tasks[0].channel].submit(tasks)

    def are_sent(self, tasks: Sequence[Task]) -> bool:
        """Whether these requests were written."""
        return all(self._channels[it.channel].are_sent([it]) for it in tasks if it.channel in self._channels)

    def hand_over(self, tasks: Sequence[Task]) -> None:
        """Takes requests out of the caches: a result that owns them has them."""
        with self._lock:
            for it in tasks:
                self._forget(it.msg_id)

    def _forget(self, msg_id: str) -> None:
        for kept in (self._tasks, self.results, self.metadata):
            kept.pop(msg_id, None)

    def poll(self, tasks: Sequence[Task]) -> None:
        self._poller.add(tasks)

    def poll_now(self, tasks: Sequence[Task]) -> bool:
        return self._poller.hurry(tasks)

    def wait_until_known(self, ids: Set[str]) -> None:
        """Waits, for a while, until the controller knows ids that weren't sent on the port for tasks."""
        left = [it for it in ids if it not in self._sent_tasks]
        tries = 0
        while left and threading.current_thread() is not self._thread:
            try:
                self._ask("result_request", {"msg_ids": left[:4096], "status_only": True})
                return
            except error.RemoteError as failure:
                mine = self._channels[MUX].outstanding()
                left = failure.ids
                tries += 1
                if tries > (200 if mine.intersection(left) else 3):
                    return
            time.sleep(0.03)

    def _goes_on(self, task: Task, outcome: Outcome) -> bool:
        """In the links' thread: whether an outcome isn't the end of its request."""
        if task.parts is not None and "parts" in outcome.content:
            Gathering(task, outcome, self.maker, self._channels[MUX]).begin()
            return True
        if outcome.refused and task.joins and outcome.content.get("ename") == "KnownId":
            self._poller.add([task])
            return True
        return task.again is not None and self._comes_back(task, outcome)

    def _comes_back(self, task: Task, outcome: Outcome) -> bool:
        """Sends a direct request again that a restart of the controller ended, once its engine is back."""
        lost = outcome.content.get("ename") in ("NoSuchEngine", "EngineError") and not outcome.metadata.get("engine")
        if not lost or self._restart_at is None or time.monotonic() - self._restart_at > RETURNS:
            return False
        self._loop.later(0.25, self._look_for_engine, task, outcome)
        return True

    def _look_for_engine(self, task: Task, outcome: Outcome) -> None:
        if self._closed:
            return
        again = task.again
        if again is not None and task.target in self._engines.values():
            msg_id, octets = again()
            self._channels[MUX].submit_again(msg_id, task, octets)
        elif again is None or self._restart_at is None or time.monotonic() - self._restart_at > RETURNS:
            task.settle(outcome)
        else:
            self._hub.ask("connection_request", {}).add_done_callback(self._engines_came)
            self._loop.later(0.5, self._look_for_engine, task, outcome)

    # -- waiting

    @property
    def outstanding(self) -> Set[str]:
        """The ids without outcome here."""
        with self._lock:
            return {msg_id for msg_id, it in self._tasks.items() if not it.is_done}

    def _futures(self, jobs: Any) -> List["Future[Any]"]:
        """Futures of what is meant by ids, numbers of the history, results, futures, or a list of these; None is all outstanding."""
        if jobs is None:
            tasks = [it for it in list(self._tasks.values()) if not it.is_done]
            return [AsyncResult(self, tasks, owner=False, fname="tasks")] if tasks else []
        if isinstance(jobs, Future):
            return [jobs]
        if isinstance(jobs, (str, int)):
            return self._known_futures([self._id(jobs)])
        ids = [self._id(it) for it in jobs if not isinstance(it, Future)]
        return [it for it in jobs if isinstance(it, Future)] + self._known_futures(ids)

    def _known_futures(self, ids: Sequence[str]) -> List["Future[Any]"]:
        known = [self._tasks[it] for it in ids if it in self._tasks and not self._tasks[it].is_done]
        return [AsyncResult(self, known, owner=False, fname="tasks")] if known else []

    def _id(self, job: Any) -> str:
        if isinstance(job, int) and not isinstance(job, bool):
            return self.history[job]
        if isinstance(job, str):
            return job
        raise TypeError(f"jobs are ids, numbers of the history and results, not {job!r}")

    def wait(self, jobs: Any = None, timeout: Optional[float] = -1) -> bool:
        """Waits for jobs: an id, a number of the history, a result, any Future, or a list of these; None is all that is outstanding.
        Whether they ended within so many seconds."""
        futures = self._futures(jobs)
        if not futures:
            return True
        self.may_wait()
        return not wait_for_futures(futures, timeout=forever(timeout)).not_done

    def wait_interactive(self, jobs: Any = None, interval: float = 1.0, timeout: Optional[float] = -1) -> bool:
        """As `wait`, with a line of progress."""
        return watched(self._futures(jobs), "tasks", interval, timeout)

    def spin(self) -> None:
        """Does nothing: a thread of its own serves the links."""

    # -- results

    def get_result(self, ids: Any = None, block: Optional[bool] = None, owner: bool = True) -> AsyncResult:
        """The result of these ids: an id, a number of the history, a result, or a list of these; None is the last one. What isn't known
        here is asked of the controller (an AsyncHubResult)."""
        if ids is None:
            ids = -1
        single = isinstance(ids, (str, int))
        tasks = self._tasks_of([ids] if single or isinstance(ids, AsyncResult) else ids)
        if isinstance(ids, AsyncResult):
            single = ids._single  # pylint: disable=protected-access
        foreign = [it for it in tasks if it.channel == "hub" and not it.is_done]
        kind = AsyncHubResult if foreign else AsyncResult
        result = kind(self, tasks, single=single, fname="get_result", owner=owner)
        if self.block if block is None else block:
            result.wait()
        return result

    def _tasks_of(self, jobs: Sequence[Any]) -> List[Task]:
        tasks: List[Task] = []
        for job in jobs:
            if isinstance(job, AsyncResult):
                tasks += job.tasks
            else:
                tasks.append(self._task_of(self._id(job)))
        return tasks

    def _task_of(self, msg_id: str) -> Task:
        """The request of an id, as one that the hub is asked for where it isn't known here."""
        with self._lock:
            task = self._tasks.get(msg_id)
            if task is None:
                task = self._tasks[msg_id] = Task(msg_id, "hub", [], None)
            return task

    def job(self, name: str, n: Optional[int] = None) -> AsyncHubMapResult:
        """The result of a map that was given this name, in any process and at any time. It is that of the tasks that the controller
        knows now; with `n` of so many, and those that it doesn't know yet are waited for. RemoteError with the name KeyError where it
        knows none."""
        count = self._count_of(name) if n is None else n
        if not count:
            failure = error.RemoteError("KeyError", f"the controller doesn't know {name}/0")
            failure.ids = [f"{name}/0"]
            raise failure
        tasks = [self._task_of(f"{name}/{it}") for it in range(count)]
        for it in tasks:
            it.may_come = n is not None
        return AsyncHubMapResult(self, tasks, fname=name)

    def _count_of(self, name: str) -> int:
        """How many ids of a named map are known."""
        count, step = 0, 512
        while True:
            ids = [f"{name}/{it}" for it in range(count, count + step)]
            try:
                self._ask("result_request", {"msg_ids": ids, "status_only": True})
            except error.RemoteError as failure:
                unknown = set(failure.ids)
                return count + next((at for at, it in enumerate(ids) if it in unknown), step)
            count, step = count + step, min(step * 2, 4096)

    def result_status(self, ids: Any, status_only: bool = True) -> Dict[str, Any]:
        """Which ids are `pending` and `completed`; where not `status_only` also the values or errors by id. RemoteError with the name
        KeyError and `ids` where some are unknown."""
        msg_ids = [self._id(it) if isinstance(it, int) else it for it in ids_of_jobs(ids)]
        content = self._ask("result_request", {"msg_ids": msg_ids, "status_only": True}).content
        status: Dict[str, Any] = {"pending": content["pending"], "completed": content["completed"]}
        if not status_only:
            for task in self._tasks_of(content["completed"]):
                AsyncHubResult(self, [task], owner=False).wait()
                settled = task.settled()
                status[task.msg_id] = settled.value if settled.error is None else settled.error
        return status

    def resubmit(self, ids: Any = None, block: Optional[bool] = None) -> AsyncResult:
        """Runs requests again, under new ids: the result of these. RemoteError with the name KeyError for an unknown id."""
        msg_ids = [self._id(it) if isinstance(it, int) else it for it in ids_of_jobs(-1 if ids is None else ids)]
        content = self._ask("resubmit_request", {"msg_ids": msg_ids}, repeats=False).content
        renamed: Dict[str, str] = content["resubmitted"]
        tasks = [self._task_of(renamed[it]) for it in msg_ids]
        with self._lock:
            self.history += [it.msg_id for it in tasks]
        result = AsyncHubResult(self, tasks, single=isinstance(ids, (str, int)) or ids is None, fname="resubmit")
        if self.block if block is None else block:
            result.wait()
        return result

    # -- what the controller knows

    def queue_status(self, targets: Any = "all", verbose: bool = False) -> Dict[Any, Any]:
        """By engine number how many direct requests (`queue`) and tasks it has, and how many it has `completed`, and `unassigned`;
        `verbose` gives lists of ids. For a single engine its own dict alone."""
        numbers = None if targets in (None, "all") else self._numbers(targets)
        single = isinstance(numbers, int)
        content = self._ask("queue_request", {"targets": [numbers] if single else numbers, "verbose": verbose}).content
        content.pop("status", None)
        status: Dict[Any, Any] = {int(name) if name.isdigit() else name: it for name, it in content.items()}
        return status[numbers] if single else status

    def hub_history(self) -> List[str]:
        """The ids that the controller knows, oldest first. RemoteError ReplyTooLong from some 400,000 of them on."""
        return list(self._ask("history_request", {}).content["history"])

    def purge_hub_results(self, jobs: Any = None, targets: Any = None) -> None:
        """Lets the controller forget what these jobs gave (ids, results or `'all'`), or what these engines completed. Their ids stay
        used. All or nothing: RemoteError Inflight where one hasn't ended."""
        if jobs is None and targets is None:
            raise ValueError("jobs or targets are purged")
        if jobs == "all":
            msg_ids: Any = "all"
        else:
            msg_ids = ids_of_jobs(jobs) if jobs is not None else []
            msg_ids = [self._id(it) if isinstance(it, int) else it for it in msg_ids]
            if targets is not None:
                status = self.queue_status(targets, verbose=True)
                per_engine = [status] if "completed" in status else [it for it in status.values() if isinstance(it, dict)]
                msg_ids += [one for it in per_engine for one in it["completed"]]
            if not msg_ids:
                return
        self._ask("purge_request", {"msg_ids": msg_ids}, repeats=False)

    def purge_local_results(self, jobs: Any = None, targets: Any = None) -> None:
        """Lets the caches here go. RuntimeError where one of the jobs is outstanding."""
        if jobs is None and targets is None:
            raise ValueError("jobs or targets are purged")
        if jobs == "all":
            ids = [*self._tasks, *self.results, *self.metadata]
        else:
            ids = [self._id(it) if isinstance(it, int) else it for it in ids_of_jobs(jobs)] if jobs is not None else []
            if targets is not None:
                names = set(self.names_of(targets))
                ids += [it.msg_id for it in list(self._tasks.values()) if it.is_done and it.metadata["engine_uuid"] in names]
        if self.outstanding.intersection(ids):
            raise RuntimeError("some of the jobs haven't ended")
        with self._lock:
            for it in ids:
                self._forget(it)

    def purge_results(self, jobs: Any = None, targets: Any = None) -> None:
        """Both here and at the controller."""
        self.purge_local_results(jobs=jobs, targets=targets)
        self.purge_hub_results(jobs=jobs, targets=targets)

    def purge_everything(self) -> None:
        """All results here and at the controller, and the history here."""
        self.purge_results("all")
        self.history.clear()

    def db_query(self, query_: Dict[str, Any], keys: Any = None) -> List[Dict[str, Any]]:
        """What is known of requests that match, as dicts, in the order of submission. The query is as in MongoDB: equality, `$lt`,
        `$lte`, `$gt`, `$gte`, `$ne`, `$in`, `$nin`, `$and`, `$or`. `keys` says which fields are wanted; `msg_id` is always there, and
        buffers only where they are asked for. Of a request that hasn't ended, and of one whose outcome the controller made, nobody has
        kept when it was submitted: that of the request before it stands there."""
        wanted = [keys] if isinstance(keys, str) else keys
        query.matches(query_, {"msg_id": ""})
        ids, ended = self._ids_for(query_)
        outcomes = self.outcomes(ended)
        records = query.dated([query.record_of(it, outcomes.get(it)) for it in ids])
        return [query.chosen(it, wanted) for it in records if query.matches(query_, it)]

    def _ids_for(self, query_: Dict[str, Any]) -> Tuple[List[str], List[str]]:
        """The ids that a query may be about, in the order of submission, and those among them that have ended."""
        records = self._ask("db_request", {"query": query.of_ids(query_), "keys": ["msg_id", "state"]}).content["records"]
        return [it["msg_id"] for it in records], [it["msg_id"] for it in records if it["state"] not in ("pending", "running")]

    def outcomes(self, ids: Sequence[str]) -> Dict[str, Outcome]:
        """The outcomes of ids that have ended, as they came."""
        self._must_be_open()
        self.may_wait()
        found: Dict[str, Outcome] = {}
        done = threading.Event()
        self._hub.fetch(ids, found.__setitem__, done.set)
        done.wait()
        return found

    # -- engines' control

    def _control(self, msg_type: str, targets: Any, fname: str, **content: Any) -> AsyncResult:
        request = requests.control(msg_type, **content)
        tasks = [self.maker.direct(request, it, repeats=fname == "clear") for it in self.names_of(targets)]
        self.begin(tasks)
        return AsyncResult(self, tasks, single=isinstance(targets, int), fname=fname)

    def _blocked(self, result: AsyncResult, block: Optional[bool]) -> AsyncResult:
        if self.block if block is None else block:
            result.get()
        return result

    def clear(self, targets: Any = None, block: Optional[bool] = None) -> AsyncResult:
        """Empties the namespaces of engines."""
        return self._blocked(self._control("clear_request", targets, "clear"), block)

    def abort(self, jobs: Any = None, targets: Any = None, block: Optional[bool] = None) -> AsyncResult:
        """Aborts jobs that haven't begun: ids or results; None is all that is outstanding. They end as TaskAborted. TypeError for other
        jobs."""
        if jobs is None:
            msg_ids = list(self.outstanding)
        else:
            listed = [jobs] if isinstance(jobs, (str, AsyncResult)) else jobs
            if not isinstance(listed, (list, tuple, set)) or not all(isinstance(it, (str, AsyncResult)) for it in listed):
                raise TypeError(f"ids and results are aborted, not {jobs!r}")
            msg_ids = ids_of(listed)
        self._abort_waiting(msg_ids)
        return self._blocked(self._control("abort_request", targets, "abort", msg_ids=msg_ids), block)

    def _abort_waiting(self, msg_ids: List[str]) -> None:
        """Aborts what waits in the controller."""
        for start in range(0, len(msg_ids), ASKED_AT_ONCE):
            asked = {"msg_id": {"$in": msg_ids[start:start + ASKED_AT_ONCE]}, "state": "pending"}
            waiting = self._ask("db_request", {"query": asked, "keys": ["msg_id"]}).content["records"]
            if not waiting:
                continue
            try:
                self._ask("abort_request", {"msg_ids": [it["msg_id"] for it in waiting]})
            except error.RemoteError as failure:  # one was purged meanwhile
                log.debug("the controller aborted nothing: %s", failure)

    def send_signal(self, sig: Any, targets: Any = None, block: Optional[bool] = None) -> AsyncResult:
        """Sends a signal, by number or name, to the processes that run functions. SIGINT is a KeyboardInterrupt there."""
        return self._blocked(self._control("signal_request", targets, "send_signal", sig=sig if isinstance(sig, str) else int(sig)), block)

    def shutdown(self, targets: Any = "all", hub: bool = False, block: Optional[bool] = None, restart: bool = False) -> None:
        """Ends engines, and with `hub` the controller, too."""
        if restart:
            raise NotImplementedError("engines are started again by what watches them (`python -m yovkhan engines`)")
        try:
            result = self._control("shutdown_request", targets, "shutdown")
            if hub or (self.block if block is None else block):
                result.wait(10)
        except error.NoEnginesRegistered:
            if not hub:
                raise
        if hub:
            self._ask("shutdown_request", {}, repeats=False, timeout=10)
            self.close()


def ids_of_jobs(jobs: Any) -> List[Any]:
    """The ids, or numbers of the history, that are meant by jobs."""
    if isinstance(jobs, (int, str)):
        return [jobs]
    if isinstance(jobs, AsyncResult):
        return list(jobs.msg_ids)
    return [one for it in jobs for one in ids_of_jobs(it)]


def _complete(future: "Future[None]", call: Callable[[], None]) -> None:
    try:
        future.set_result(call())
    except BaseException as failure:  # pylint: disable=broad-except
        future.set_exception(failure)


_open_clients: "weakref.WeakSet[Client]" = weakref.WeakSet()


@atexit.register
def _close_clients() -> None:
    for client in list(_open_clients):
        client.close()


