"""Results that are to come, as futures."""

from __future__ import annotations

import collections
import contextlib
import sys
import threading
import time
from concurrent.futures import Future
from concurrent.futures import TimeoutError as _FutureTimeout
from datetime import datetime, timezone
from typing import TYPE_CHECKING, Any, Callable, Deque, Dict, Iterator, List, Optional, Sequence

from . import error
from .functions import joined
from .tasks import FIELDS, ExecuteReply, Metadata, Task, watch_all

if TYPE_CHECKING:
    from .client import Client

__all__ = ["AsyncResult", "AsyncMapResult", "AsyncHubResult", "ExecuteReply"]


def forever(timeout: Optional[float]) -> Optional[float]:
    """A timeout, where none and those below 0 are for ever."""
    return None if timeout is None or timeout < 0 else timeout


class AsyncResult(Future):  # type: ignore[type-arg]
    """The result of one call on one engine or several. It is a `concurrent.futures.Future`: `result()`, `exception()`,
    `add_done_callback`, `as_completed` and `asyncio.wrap_future` serve.

    A call on one engine, or of a load-balanced view, has a value; one on a list of engines a list of values, in the order of the
    engines."""

    def __init__(self, client: "Client", tasks: Sequence[Task], *, single: bool = False, fname: str = "unknown", owner: bool = True,
                 return_exceptions: bool = False, ordered: bool = True) -> None:
        super().__init__()
        self.set_running_or_notify_cancel()
        self._client, self._tasks, self._single, self._fname = client, list(tasks), single, fname
        self.owner = owner
        self._return_exceptions = return_exceptions
        self._ordered = ordered
        self._left = len(self._tasks)
        self._counting = threading.Lock()
        self._steps = 0
        self._waiting = 0
        self._arrived: Optional[Deque[int]] = None if ordered else collections.deque()
        self._listeners: List[Callable[[Task], None]] = []
        self._collected: Any = None
        self._failure: Optional[BaseException] = None
        self._is_collected = False
        watch_all(self._tasks, self)
        if not self._tasks:
            self.set_result(None)

    # -- in the links' thread

    def task_is_done(self, task: Task, at: int) -> None:
        """What a task calls once its outcome came."""
        with self._counting:
            self._left -= 1
            last = self._left == 0
        for listener in list(self._listeners):
            listener(task)
        if self._arrived is not None:
            self._arrived.append(at)
        if last:
            if self.owner:
                self._client.hand_over(self._tasks)
            self.set_result(None)
        elif self._steps:
            with self._condition:
                self._condition.notify_all()

    # -- waiting

    @property
    def tasks(self) -> List[Task]:
        """The requests, for calls of this package."""
        return self._tasks

    @property
    def msg_ids(self) -> List[str]:
        """The ids of the requests, one for each."""
        return [it.msg_id for it in self._tasks]

    def ready(self) -> bool:
        """Whether all outcomes are here."""
        return self.done()

    def successful(self) -> bool:
        """Whether no error came. AssertionError before the end."""
        assert self.ready(), "the result isn't there yet"
        return all(it.settled().error is None for it in self._tasks)

    def cancel(self) -> bool:
        """Always False: what was sent can't be taken back. `abort` asks the engines to drop it."""
        return False

    def wait(self, timeout: Optional[float] = -1) -> bool:
        """Waits at most so many seconds, and gives whether it is ready. Below 0 is for ever."""
        return self._wait_until(self.done, forever(timeout), steps=False)

    def _wait_until(self, there: Callable[[], bool], timeout: Optional[float], steps: bool) -> bool:
        """Waits for this, looking whenever the whole, or where `steps` one of the tasks, has ended."""
        if there():
            return True
        self._client.may_wait()
        with self._condition:
            self._waiting += 1
            self._steps += steps
        try:
            self._begin_waiting()
            until = None if timeout is None else time.monotonic() + timeout
            with self._condition:
                while not there():
                    left = None if until is None else until - time.monotonic()
                    if left is not None and left <= 0:
                        return False
                    self._condition.wait(left)
            return True
        finally:
            with self._condition:
                self._waiting -= 1
                self._steps -= steps

    def _begin_waiting(self) -> None:
        """Called whenever a thread begins to wait."""

    def is_watched(self) -> bool:
        """Whether anybody waits, or is to be told of the end."""
        return bool(self._waiting or self._waiters or self._done_callbacks)  # type: ignore[attr-defined]

    # -- values

    def get(self, timeout: Optional[float] = None, return_exceptions: Optional[bool] = None) -> Any:
        """The value. Raises its error, each time, or TimeoutError after so many seconds; below 0 is for ever. With
        `return_exceptions` errors stand in the list, in the places of values."""
        if not self._wait_until(self.done, forever(timeout), steps=False):
            raise TimeoutError(f"{self._fname} hasn't ended within {timeout} seconds")
        if return_exceptions is None:
            return_exceptions = self._return_exceptions
        if return_exceptions:
            return self._gathered(True)
        self._collect()
        if self._failure is not None:
            raise self._failure
        return self._collected

    @property
    def r(self) -> Any:
        """`get()`."""
        return self.get()

    def result(self, timeout: Optional[float] = None) -> Any:
        """As `get`."""
        return self.get(timeout)

    def exception(self, timeout: Optional[float] = None) -> Optional[BaseException]:
        """The error, or None. TimeoutError as of `get`."""
        if not self._wait_until(self.done, forever(timeout), steps=False):
            raise TimeoutError(f"{self._fname} hasn't ended within {timeout} seconds")
        self._collect()
        return self._failure

    def _collect(self) -> None:
        if self._is_collected:
            return
        try:
            self._collected = self._gathered(self._return_exceptions)
        except Exception as failure:  # pylint: disable=broad-except
            self._failure = failure
        self._is_collected = True

    def _gathered(self, return_exceptions: bool) -> Any:
        settled = [it.settled() for it in self._tasks]
        errors = [it.error for it in settled if it.error is not None]
        if self._single:
            if errors and not return_exceptions:
                raise errors[0]
            return self._one(0, settled[0].error or settled[0].value)
        if errors and not return_exceptions:
            raise self._error_of(errors)
        return self._joined([it.error if it.error is not None else it.value for it in settled])

    def _error_of(self, errors: List[BaseException]) -> BaseException:
        remote = [it for it in errors if isinstance(it, error.RemoteError)]
        if len(remote) < len(errors):
            return next(it for it in errors if not isinstance(it, error.RemoteError))
        return error.collected(errors, self._fname) if len(self._tasks) > 1 else errors[0]

    def _one(self, _at: int, value: Any) -> Any:
        return value

    def _joined(self, values: List[Any]) -> Any:
        return values

    def __len__(self) -> int:
        return len(self._tasks)

    def _value_at(self, at: int) -> Any:
        """The value of one request, once it is there."""
        task = self._tasks[at]
        self._wait_until(lambda: task.is_done, None, steps=True)
        settled = task.settled()
        if settled.error is not None:
            if self._return_exceptions:
                return settled.error
            raise settled.error
        return settled.value

    def __iter__(self) -> Iterator[Any]:
        if self._single:
            raise TypeError(f"{type(self).__name__} of a single result can't be iterated over")
        return (self._value_at(it) for it in range(len(self._tasks)))

    def __getitem__(self, key: Any) -> Any:
        if isinstance(key, int):
            if not -len(self) <= key < len(self):
                raise IndexError(f"there are {len(self)} results, and none has the number {key}")
            return self._value_at(key % len(self))
        if isinstance(key, slice):
            return [self._value_at(it) for it in range(*key.indices(len(self)))]
        if isinstance(key, str):
            if key not in FIELDS:
                raise KeyError(key)
            return self._field(key)
        raise TypeError(f"a number, a slice or a name is looked up, not {key!r}")

    def get_dict(self, timeout: Optional[float] = -1) -> Dict[int, Any]:
        """The values by engine number. ValueError where an engine has two."""
        value = self.get(timeout)
        engines = [it.metadata["engine_id"] for it in self._tasks]
        if len(set(engines)) < len(engines):
            raise ValueError("an engine has more than one result: there is no dict of them")
        return dict(zip(engines, [value] if self._single else value))

    @property
    def result_dict(self) -> Dict[int, Any]:
        """`get_dict()`."""
        return self.get_dict()

    # -- metadata

    @property
    def metadata(self) -> Any:
        """What is known of the request: a record, or a list of them where there are several."""
        known = [self._metadata_of(it) for it in self._tasks]
        return known[0] if self._single else known

    def _metadata_of(self, task: Task) -> Metadata:
        if task.is_done:
            task.settled()
        return task.metadata

    def _field(self, name: str) -> Any:
        known = [self._metadata_of(it)[name] for it in self._tasks]
        return known[0] if self._single else known

    def __getattr__(self, name: str) -> Any:
        if name.startswith("_") or name not in FIELDS:
            raise AttributeError(f"{type(self).__name__!r} object has no attribute {name!r}")
        return self._field(name)

    def __dir__(self) -> List[str]:
        return sorted({*super().__dir__(), *FIELDS})

    def __repr__(self) -> str:
        how = "pending" if not self.done() else "finished" if self.successful() else "failed"
        return f"<{type(self).__name__}({self._fname}): {how}>"

    # -- times

    @property
    def progress(self) -> int:
        """How many of the requests have ended."""
        return len(self._tasks) - self._left

    @property
    def elapsed(self) -> float:
        """Seconds since the first request was submitted, to the end or to now."""
        if self.ready():
            return self.wall_time
        starts = [it for it in (task.metadata["submitted"] for task in self._tasks) if it is not None]
        return (datetime.now(timezone.utc) - min(starts)).total_seconds() if starts else 0.0

    @property
    def serial_time(self) -> float:
        """The seconds that the engines took, summed up. TimeoutError before the end."""
        return self._sum_of(lambda it: it["completed"] - it["started"])

    def _sum_of(self, span: Callable[[Metadata], Any]) -> float:
        self._must_be_ready()
        known = [it.metadata for it in self._tasks]
        return sum(span(it).total_seconds() for it in known if it["completed"] and it["started"])

    @property
    def wall_time(self) -> float:
        """Seconds from the first submission to the last receipt. TimeoutError before the end."""
        self._must_be_ready()
        return self.timedelta(self._field("submitted"), self._field("received"))

    def _must_be_ready(self) -> None:
        if not self.ready():
            raise TimeoutError("the result isn't there yet")

    def timedelta(self, start: Any, end: Any, start_key: Callable[..., Any] = min, end_key: Callable[..., Any] = max) -> float:
        """Seconds from the first of the starts to the last of the ends; each is a moment or a list of moments."""
        starts = [it for it in (start if isinstance(start, (list, tuple)) else [start]) if it is not None]
        ends = [it for it in (end if isinstance(end, (list, tuple)) else [end]) if it is not None]
        return (end_key(ends) - start_key(starts)).total_seconds() if starts and ends else 0.0

    # -- what else one does with it

    def abort(self) -> None:
        """Asks the engines to drop what hasn't begun. AssertionError when it is ready."""
        assert not self.ready(), "it has ended already"
        self._client.abort(self)

    @property
    def sent(self) -> bool:
        """Whether the requests were written."""
        return self._client.are_sent(self._tasks)

    def wait_for_send(self, timeout: Optional[float] = -1) -> None:
        """Waits until the requests were written. TimeoutError after so many seconds."""
        until = None if forever(timeout) is None else time.monotonic() + float(timeout or 0)
        while not self.sent:
            if until is not None and time.monotonic() >= until:
                raise TimeoutError(f"{self._fname} wasn't sent within {timeout} seconds")
            time.sleep(0.002)

    def wait_for_output(self, timeout: Optional[float] = -1) -> bool:
        """Outputs come with the outcome: whether that is there within so many seconds."""
        return self.wait(timeout)

    def wait_interactive(self, interval: float = 0.25, timeout: Optional[float] = -1) -> bool:
        """As `wait`, with a line of progress."""
        return watched([self], self._fname, interval, timeout)

    def display_outputs(self, groupby: str = "type") -> None:
        """Prints what was written to stdout and stderr: grouped by `type` of stream, by `engine`, or in the `order` of requests."""
        self.wait()
        known = [self._metadata_of(it) for it in self._tasks]
        if self._single:
            for it in known:
                _print(it["stdout"], sys.stdout)
                _print(it["stderr"], sys.stderr)
                _print_result(it, "")
        elif groupby == "type":
            for it in known:
                _print(it["stdout"], sys.stdout, f"[stdout:{it['engine_id']}] ")
            for it in known:
                _print(it["stderr"], sys.stderr, f"[stderr:{it['engine_id']}] ")
            for it in known:
                _print_result(it, f"[output:{it['engine_id']}] ")
        elif groupby in ("engine", "order"):
            for it in sorted(known, key=lambda it: it["engine_id"]) if groupby == "engine" else known:
                _print(it["stdout"], sys.stdout, f"[stdout:{it['engine_id']}] ")
                _print(it["stderr"], sys.stderr, f"[stderr:{it['engine_id']}] ")
                _print_result(it, f"[output:{it['engine_id']}] ")
        else:
            raise ValueError(f"outputs are grouped by type, engine or order, not by {groupby!r}")

    @contextlib.contextmanager
    def stream_output(self) -> Iterator[None]:
        """Meanwhile prints each request's outputs once its outcome comes."""
        def show(task: Task) -> None:
            known = task.metadata
            before = "" if self._single else f":{known['engine_id']}] "
            _print(known["stdout"], sys.stdout, before and "[stdout" + before)
            _print(known["stderr"], sys.stderr, before and "[stderr" + before)

        there = [it for it in self._tasks if it.is_done]
        self._listeners.append(show)
        for task in there:
            show(task)
        try:
            yield
        finally:
            self._listeners.remove(show)


def _print(text: str, stream: Any, before: str = "") -> None:
    if text and text.strip("\n"):
        stream.write(before + text.strip("\n") + "\n")


def _print_result(known: Metadata, before: str) -> None:
    result = known["execute_result"]
    if result:
        _print(result.get("data", {}).get("text/plain", ""), sys.stdout, before)


class AsyncMapResult(AsyncResult):
    """The result of a map: a list of the values of all items. Iterating over it gives them as they come: in the order of the items,
    or with `ordered=False` in the order in which they came."""

    def __init__(self, client: "Client", tasks: Sequence[Task], *, sizes: Optional[Sequence[int]] = None, dist: str = "b",
                 **how: Any) -> None:
        self._sizes, self._dist = sizes, dist
        super().__init__(client, tasks, **how)

    def _part(self, at: int, value: Any) -> Any:
        """The values of one task."""
        if isinstance(value, BaseException) and self._tasks[at].settled().error is value:
            return [value] * (self._sizes[at] if self._sizes else 1)
        return value

    def _one(self, at: int, value: Any) -> Any:
        return self._joined([value])

    def _joined(self, values: List[Any]) -> Any:
        return joined([self._part(at, it) for at, it in enumerate(values)], self._dist)

    def __iter__(self) -> Iterator[Any]:
        return self._in_order() if self._ordered else self._as_they_come()

    def _in_order(self) -> Iterator[Any]:
        for at in range(len(self._tasks)):
            yield from self._part(at, self._value_at(at))

    def _as_they_come(self) -> Iterator[Any]:
        arrived = collections.deque(self._order_of_arrival()) if self.done() else self._arrived
        assert arrived is not None
        for _ in self._tasks:
            self._wait_until(lambda: bool(arrived), None, steps=True)
            at = arrived.popleft()
            yield from self._part(at, self._value_at(at))

    def _order_of_arrival(self) -> List[int]:
        return sorted(range(len(self._tasks)), key=lambda at: (self._tasks[at].outcome.received or 0.0))  # type: ignore[union-attr]


class AsyncHubResult(AsyncResult):
    """The result of requests of another client, or of an earlier process. The controller is asked for them while somebody waits,
    has asked to be told, or asks whether they are ready: after 0.1 s at first and up to 2 s."""

    def __init__(self, client: "Client", tasks: Sequence[Task], **how: Any) -> None:
        super().__init__(client, tasks, **how)
        client.poll(self._tasks)

    def _begin_waiting(self) -> None:
        self._client.poll_now(self._tasks)

    def ready(self) -> bool:
        """Whether all outcomes are here. The controller is asked where it wasn't for a while."""
        if not self.done() and self._client.poll_now(self._tasks):
            with self._condition:
                self._condition.wait(0.05)
        return self.done()

    def add_done_callback(self, fn: Callable[..., Any]) -> None:
        super().add_done_callback(fn)
        if not self.done():
            self._client.poll_now(self._tasks)


class AsyncHubMapResult(AsyncHubResult, AsyncMapResult):
    """As both: a map whose results are polled for."""

    def _part(self, at: int, value: Any) -> Any:
        task = self._tasks[at]
        if task.settled().error is not None or task.is_map:
            return super()._part(at, value)
        return [value]


def watched(futures: Sequence[Any], what: str, interval: float, timeout: Optional[float]) -> bool:
    """Waits for all of these with a line of progress: whether they are done."""
    until = None if forever(timeout) is None else time.monotonic() + float(timeout or 0)
    line = Progress(sum(len(it) if hasattr(it, "__len__") else 1 for it in futures), what)
    try:
        while True:
            line.show(sum(getattr(it, "progress", int(it.done())) for it in futures))
            waiting = [it for it in futures if not it.done()]
            if not waiting:
                return True
            left = interval if until is None else min(interval, until - time.monotonic())
            if left <= 0:
                return False
            with contextlib.suppress(TimeoutError, _FutureTimeout):
                waiting[0].exception(left)
    finally:
        line.close()


class Progress:
    """A line of progress: tqdm's where it is installed, else a plain one."""

    def __init__(self, total: int, what: str, unit: str = "tasks") -> None:
        self._total, self._what, self._unit, self._shown = total, what, unit, -1
        try:
            from tqdm.auto import tqdm  # pylint: disable=import-outside-toplevel
            self._bar: Any = tqdm(total=total, desc=what, unit=unit)
        except ImportError:
            self._bar = None

    def show(self, count: int) -> None:
        if count == self._shown:
            return
        if self._bar is not None:
            self._bar.update(count - max(self._shown, 0))
        else:
            print(f"\r{self._what}: {count}/{self._total} {self._unit}", end="", file=sys.stderr, flush=True)
        self._shown = count

    def close(self) -> None:
        if self._bar is not None:
            self._bar.close()
        else:
            print(file=sys.stderr)
