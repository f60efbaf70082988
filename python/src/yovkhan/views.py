"""Views: what runs on engines that one names, and what runs wherever an engine is free."""

from __future__ import annotations

import builtins
import collections
import contextlib
import json
import math
import queue
from typing import TYPE_CHECKING, Any, Callable, Deque, Dict, Iterator, List, Optional, Set, Tuple

from . import functions, remotely, requests, serialize
from .channels import TASK
from .dependency import Dependency, ids_of
from .executor import ViewExecutor
from .functions import ParallelFunction, RemoteFunction, listed, share, shortened
from .requests import Function
from .results import AsyncMapResult, AsyncResult
from .tasks import Task

if TYPE_CHECKING:
    from .client import Client

_BATCH = 128
"""So many tasks of a map are sent at once."""


class View:
    """What both kinds of view have in common."""

    _flag_names: Set[str] = {"targets", "block", "track"}

    def __init__(self, client: "Client", targets: Any, block: bool = False, **flags: Any) -> None:
        self.client = client
        self.targets = targets
        self.block = block
        self.track = False
        self.history: List[str] = []
        self._executor: Optional[ViewExecutor] = None
        self.set_flags(**flags)

    def __reduce__(self) -> Any:
        raise TypeError(f"a {type(self).__name__} can't be sent")

    def __repr__(self) -> str:
        return f"<{type(self).__name__} {self.targets}>"

    # -- flags

    def set_flags(self, **flags: Any) -> None:
        """Sets flags, as attributes do. KeyError for an unknown one."""
        for name, value in flags.items():
            if name not in self._flag_names:
                raise KeyError(f"a {type(self).__name__} has no flag {name!r}")
            setattr(self, name, value)

    @contextlib.contextmanager
    def temp_flags(self, **flags: Any) -> Iterator[None]:
        """Meanwhile the flags are these."""
        before = {name: getattr(self, name) for name in self._flag_names}
        try:
            self.set_flags(**flags)
            yield
        finally:
            for name, value in before.items():
                setattr(self, name, value)

    # -- results

    @property
    def outstanding(self) -> Set[str]:
        """The ids of this view without outcome here."""
        return self.client.outstanding.intersection(self.history)

    @property
    def results(self) -> Any:
        """The client's results."""
        return self.client.results

    def _result(self, result: AsyncResult, block: Optional[bool]) -> Any:
        return result.get() if (self.block if block is None else block) else result

    def wait(self, jobs: Any = None, timeout: Optional[float] = -1) -> bool:
        """As the client's; None is what this view submitted."""
        return self.client.wait(list(self.outstanding) if jobs is None else jobs, timeout)

    def get_result(self, indices_or_msg_ids: Any = None, block: Optional[bool] = None, owner: bool = True) -> Any:
        """As the client's; numbers count this view's history."""
        if indices_or_msg_ids is None:
            indices_or_msg_ids = -1
        if isinstance(indices_or_msg_ids, int):
            indices_or_msg_ids = self.history[indices_or_msg_ids]
        elif isinstance(indices_or_msg_ids, slice):
            indices_or_msg_ids = self.history[indices_or_msg_ids]
        return self.client.get_result(indices_or_msg_ids, block=block, owner=owner)

    def abort(self, jobs: Any = None, targets: Any = None, block: Optional[bool] = None) -> Any:
        """As the client's, on this view's engines."""
        jobs = list(self.outstanding) if jobs is None else jobs
        return self.client.abort(jobs, targets=self.targets if targets is None else targets, block=block)

    def queue_status(self, targets: Any = None, verbose: bool = False) -> Dict[Any, Any]:
        return self.client.queue_status(self.targets if targets is None else targets, verbose)

    def purge_results(self, jobs: Any = None, targets: Any = None) -> None:
        self.client.purge_results(jobs=jobs, targets=targets)

    def shutdown(self, targets: Any = None, hub: bool = False, block: Optional[bool] = None) -> Any:
        return self.client.shutdown(targets=self.targets if targets is None else targets, hub=hub, block=block)

    # -- calls

    def apply(self, f: Callable[..., Any], /, *args: Any, **kwargs: Any) -> Any:
        """Calls `f(*args, **kwargs)` on the view's engines: the value where the view blocks, else an AsyncResult."""
        return self._result(self._apply(f, args, kwargs), None)

    def apply_async(self, f: Callable[..., Any], /, *args: Any, **kwargs: Any) -> AsyncResult:
        """As `apply`, and never blocks."""
        return self._apply(f, args, kwargs)

    def apply_sync(self, f: Callable[..., Any], /, *args: Any, **kwargs: Any) -> Any:
        """As `apply`, and always blocks."""
        return self._apply(f, args, kwargs).get()

    def map_async(self, f: Callable[..., Any], *sequences: Any, **how: Any) -> AsyncMapResult:
        """As `map`, and never blocks."""
        how["block"] = False
        return self.map(f, *sequences, **how)

    def map_sync(self, f: Callable[..., Any], *sequences: Any, **how: Any) -> Any:
        """As `map`, and always blocks."""
        how["block"] = True
        return self.map(f, *sequences, **how)

    def _apply(self, f: Any, args: Tuple[Any, ...], kwargs: Dict[str, Any]) -> AsyncResult:
        raise NotImplementedError

    def map(self, f: Callable[..., Any], *sequences: Any, **how: Any) -> Any:
        raise NotImplementedError

    def _spread(self, made: ParallelFunction, seqs: List[Any], is_map: bool) -> AsyncMapResult:
        """Runs a parallel function over sequences of one length."""
        raise NotImplementedError

    # -- what is bound to the view

    def remote(self, block: Optional[bool] = None, **flags: Any) -> Callable[[Callable[..., Any]], RemoteFunction]:
        """A decorator: calls of the function go to this view."""
        return functions.remote(self, block=block, **flags)

    def parallel(self, dist: str = "b", block: Optional[bool] = None, **flags: Any) -> Callable[[Callable[..., Any]], ParallelFunction]:
        """A decorator: calls of the function on sequences are spread over this view's engines."""
        return functions.parallel(self, dist=dist, block=block, **flags)

    @property
    def executor(self) -> ViewExecutor:
        """A `concurrent.futures.Executor` over this view, always the same one."""
        if self._executor is None:
            self._executor = ViewExecutor(self)
        return self._executor


class DirectView(View):
    """A view of engines that are named by number, or of all (`'all'`, looked up at each call). A call on one number has a value, a
    call on a list a list of values."""

    def __init__(self, client: "Client", targets: Any = "all", **flags: Any) -> None:
        super().__init__(client, targets, **flags)

    def __len__(self) -> int:
        return len(self.client) if self.targets == "all" else 1 if isinstance(self.targets, int) else len(self.targets)

    def _send(self, make: Callable[[int, int], List[requests.Request]], targets: Any = None, *, fname: str = "call",
              repeats: bool = False, parts: bool = False) -> AsyncResult:
        """Sends what `make(place, engines)` gives to each of the engines; the last request of each has the result."""
        targets = self.targets if targets is None else targets
        names = self.client.names_of(targets)
        kept: List[Task] = []
        for place, name in enumerate(names):
            made = [self.client.maker.direct(it, name, repeats) for it in make(place, len(names))]
            if parts:
                made[-1].parts = []
            kept.append(made[-1])
            self.client.begin(made, kept=made[-1:])
            self.history.append(made[-1].msg_id)
        return AsyncResult(self.client, kept, single=isinstance(targets, int), fname=fname)

    def _apply(self, f: Any, args: Tuple[Any, ...], kwargs: Dict[str, Any], targets: Any = None) -> AsyncResult:
        function = Function.of(f)
        request = requests.call(function, (args, kwargs))
        return self._send(lambda _place, _of: [request], targets, fname=function.name)

    # -- maps

    def map(self, f: Callable[..., Any], *sequences: Any, block: Optional[bool] = None,  # type: ignore[override]
            track: bool = False, return_exceptions: bool = False) -> Any:
        """Like the built-in map; each engine gets a part, in order. With `return_exceptions` errors stand in the list."""
        seqs = shortened(listed(sequences))
        return self._result(self._map_parts(f, seqs, "map", "b", return_exceptions), block)

    def imap(self, f: Callable[..., Any], *sequences: Any, **how: Any) -> Iterator[Any]:
        """An iterator over the results of a map."""
        return iter(self.map_async(f, *sequences, **how))

    def _map_parts(self, f: Any, seqs: List[Any], kind: str, dist: str, return_exceptions: bool) -> AsyncMapResult:
        function = Function.of(f)
        length = len(seqs[0])
        names = self.client.names_of(self.targets) if length else []
        places = [it for it in range(len(names)) if it < length]
        parts = [[share(it, place, len(names), dist) for it in seqs] for place in places]
        keeps = {"exceptions": True} if return_exceptions and kind == "map" else {}
        if kind == "map":
            made = [requests.call(function, part, "map", **keeps) for part in parts]
        else:
            made = [requests.call(function, (tuple(part), {}), "part") for part in parts]
        tasks = [self.client.maker.direct(it, name) for it, name in zip(made, names)]
        self.client.begin(tasks)
        self.history += [it.msg_id for it in tasks]
        return AsyncMapResult(self.client, tasks, fname=function.name, sizes=[len(it[0]) for it in parts],
                              return_exceptions=return_exceptions, dist=dist)

    def _spread(self, made: ParallelFunction, seqs: List[Any], is_map: bool) -> AsyncMapResult:
        return self._map_parts(made.func, seqs, "map" if is_map else "part", made.dist, made.return_exceptions)

    # -- code

    def execute(self, code: str, silent: bool = True, targets: Any = None, block: Optional[bool] = None) -> AsyncResult:
        """Runs code in the engines' namespaces: an AsyncResult of ExecuteReply, ended where the view blocks. Not silent it counts, and
        what the last expression gives is the `execute_result`."""
        request = requests.code(code, silent)
        result = self._send(lambda _place, _of: [request], targets, fname="execute")
        if self.block if block is None else block:
            result.get()
        return result

    def run(self, filename: str, targets: Any = None, block: Optional[bool] = None) -> AsyncResult:
        """Runs the code of a file, which is read here."""
        with open(filename, encoding="utf-8") as file:
            return self.execute(file.read() + "\n", targets=targets, block=block)

    # -- the engines' namespaces

    def push(self, ns: Dict[str, Any], targets: Any = None, block: Optional[bool] = None, track: Optional[bool] = None) -> Any:
        """Sets names on the engines; `a.b` sets an attribute. What is too large for a message goes in parts."""
        if not isinstance(ns, dict):
            raise TypeError(f"a dict is pushed, not {type(ns).__name__}")
        made = list(requests.call_in_parts(Function.of(remotely.push), ((ns,), {})))
        return self._result(self._send(lambda _place, _of: made, targets, fname="push", repeats=len(made) == 1), block)

    def pull(self, names: Any, targets: Any = None, block: Optional[bool] = None) -> Any:
        """The value of an expression on each engine, or of each of a list. What is too large for a message comes in parts."""
        if not isinstance(names, str) and not (isinstance(names, (list, tuple)) and all(isinstance(it, str) for it in names)):
            raise TypeError(f"a name or a list of names is pulled, not {names!r}")
        request = requests.call(Function.of(remotely.pull), ((names,), {}), parts=True)
        return self._result(self._send(lambda _place, _of: [request], targets, fname="pull", repeats=True, parts=True), block)

    def update(self, ns: Dict[str, Any]) -> Any:
        """As `push`, with the view's flags."""
        return self.push(ns)

    def get(self, key_s: Any) -> Any:
        """As `pull`, and always blocks."""
        return self.pull(key_s, block=True)

    def __getitem__(self, key: str) -> Any:
        return self.get(key)

    def __setitem__(self, key: str, value: Any) -> None:
        self.push({key: value}, block=True)

    def scatter(self, key: str, seq: Any, dist: str = "b", flatten: bool = False, targets: Any = None,
                block: Optional[bool] = None, track: Optional[bool] = None) -> Any:
        """Sets a name to part p of a sequence on engine p. With `flatten` a part of one item is the item."""
        sequence = listed([seq])[0]
        push = Function.of(remotely.push)

        def make(place: int, engines: int) -> List[requests.Request]:
            part = share(sequence, place, engines, dist)
            return list(requests.call_in_parts(push, (({key: part[0] if flatten and len(part) == 1 else part},), {})))

        return self._result(self._send(make, targets, fname="scatter"), block)

    def gather(self, key: str, dist: str = "b", targets: Any = None, block: Optional[bool] = None) -> Any:
        """Joins the parts that `scatter` made: an AsyncMapResult, or the list or array where it blocks."""
        request = requests.call(Function.of(remotely.pull), ((key,), {}), parts=True)
        parts = self._send(lambda _place, _of: [request], targets, fname="gather", repeats=True, parts=True)
        result = AsyncMapResult(self.client, parts.tasks, fname="gather", dist=dist)
        return self._result(result, block)

    def clear(self, targets: Any = None, block: Optional[bool] = None) -> Any:
        """Empties the engines' namespaces."""
        return self.client.clear(self.targets if targets is None else targets, self.block if block is None else block)

    # -- imports

    @contextlib.contextmanager
    def sync_imports(self, local: bool = True, quiet: bool = False) -> Iterator[None]:
        """Imports of the block are done here (unless `local` is false) and on the engines. Prints a line for each unless `quiet`."""
        original = builtins.__import__
        results: List[AsyncResult] = []
        nested = [False]

        def imported(name: str, here: Any = None, there: Any = None, fromlist: Any = (), level: int = 0) -> Any:
            if nested[0] or level:
                return original(name, here, there, fromlist, level)
            nested[0] = True
            try:
                if not quiet:
                    print(f"importing {', '.join(fromlist)} from {name} on engine(s)" if fromlist else f"importing {name} on engine(s)")
                results.append(self._apply(remotely.imports, (name, list(fromlist or ()), None), {}))
                return original(name, here, there, fromlist, level) if local else _Nothing(name)
            finally:
                nested[0] = False

        builtins.__import__ = imported  # type: ignore[assignment]
        try:
            yield
        finally:
            builtins.__import__ = original
        for it in results:
            it.get()

    @property
    def importer(self) -> Any:
        """`sync_imports()`."""
        return self.sync_imports()

    # -- which globals functions of __main__ have

    def use_pickle(self) -> Any:
        """Functions of `__main__` have the engine's namespace as globals, and nothing else, as in ipyparallel."""
        return self._use(serialize.PICKLE)

    def use_cloudpickle(self) -> Any:
        """Functions of `__main__` carry the values that the globals they name have where they are sent from."""
        return self._use(serialize.CLOUDPICKLE)

    def use_dill(self) -> Any:
        """As `use_cloudpickle`, by dill. ImportError where it isn't installed."""
        return self._use(serialize.DILL)

    def _use(self, kind: str) -> Any:
        serialize.use(kind)
        return self._result(self._apply(remotely.use, (kind,), {}), None)


class _Nothing:
    """What an import gives that isn't done here."""

    def __init__(self, name: str) -> None:
        self.__name__ = name

    def __getattr__(self, name: str) -> "_Nothing":
        return _Nothing(f"{self.__name__}.{name}")


class BroadcastView(DirectView):
    """A DirectView under another name: the controller has no broadcast."""

    is_coalescing = False


class LoadBalancedView(View):
    """A view of whichever engine is free. `after` and `follow` name what a task waits for, `targets` the engines that may run it,
    `timeout` the seconds that it may wait in the queue (rounded up to whole ones), `retries` how often it is tried again after an error
    or a lost engine."""

    _flag_names = {"targets", "block", "track", "after", "follow", "timeout", "retries"}

    def __init__(self, client: "Client", targets: Any = None, **flags: Any) -> None:
        self._after: Optional[Dependency] = None
        self._follow: Optional[Dependency] = None
        self._timeout: Optional[float] = None
        self._retries = 0
        super().__init__(client, targets, **flags)

    def __len__(self) -> int:
        return len(self.client) if self.targets is None else len(self.targets)

    # -- flags

    @property
    def after(self) -> Optional[Dependency]:
        """A task runs once these have ended so: None, an id, an AsyncResult, a list of these, or a Dependency."""
        return self._after

    @after.setter
    def after(self, value: Any) -> None:
        self._after = _dependency(value)

    @property
    def follow(self) -> Optional[Dependency]:
        """As `after`, and it runs on the engine where they ended."""
        return self._follow

    @follow.setter
    def follow(self, value: Any) -> None:
        self._follow = _dependency(value)

    @property
    def timeout(self) -> Optional[float]:
        """Seconds that a task may wait in the queue; None or 0 is for ever."""
        return self._timeout

    @timeout.setter
    def timeout(self, value: Optional[float]) -> None:
        if value is not None:
            if isinstance(value, bool) or not isinstance(value, (int, float)):
                raise TypeError(f"a timeout is a number of seconds or None, not {value!r}")
            if value < 0 or math.isnan(value) or value > 1e9:
                raise ValueError(f"a timeout is from 0 to 1,000,000,000 seconds, not {value!r}")
        self._timeout = value

    @property
    def retries(self) -> int:
        """How often a task is tried again after an error or a lost engine."""
        return self._retries

    @retries.setter
    def retries(self, value: int) -> None:
        if isinstance(value, bool) or not isinstance(value, int):
            raise TypeError(f"retries are a whole number, not {value!r}")
        if not 0 <= value <= 1000:
            raise ValueError(f"retries are from 0 to 1,000, not {value!r}")
        self._retries = value

    @property
    def targets(self) -> Optional[List[Any]]:
        """The engines that may run a task; None is any."""
        return self._targets

    @targets.setter
    def targets(self, value: Any) -> None:
        self._targets = self.client.balanced_targets(value)

    def _metadata(self, **flags: Any) -> Tuple[bytes, Dict[str, Any]]:
        """The metadata of tasks as octets, and what their results say of it."""
        after = _dependency(flags["after"]) if "after" in flags else self._after
        follow = _dependency(flags["follow"]) if "follow" in flags else self._follow
        retries = self._retries if flags.get("retries") is None else int(flags["retries"])
        timeout = math.ceil(self._timeout) if self._timeout else 0
        metadata: Dict[str, Any] = {"timeout": timeout, "retries": retries}
        for name, value in (("after", after), ("follow", follow)):
            if value:
                metadata[name] = value.as_dict()
                self.client.wait_until_known(value)
        if self._targets is not None:
            metadata["targets"] = self.client.names_of(self._targets)
        notes = {"after": sorted(after or ()), "follow": sorted(follow or ())}
        return json.dumps(metadata).encode(), notes

    # -- calls

    def _apply(self, f: Any, args: Tuple[Any, ...], kwargs: Dict[str, Any]) -> AsyncResult:
        function = Function.of(f)
        metadata, notes = self._metadata()
        task = self.client.maker.task(TASK, requests.call(function, (args, kwargs)), metadata, notes)
        self.client.begin([task])
        self.history.append(task.msg_id)
        return AsyncResult(self.client, [task], single=True, fname=function.name)

    def map(self, f: Callable[..., Any], *sequences: Any, block: Optional[bool] = None, track: bool = False,  # type: ignore[override]
            chunksize: int = 1, ordered: bool = True, return_exceptions: bool = False, retries: Optional[int] = None,
            name: Optional[str] = None, on_known: str = "join") -> Any:
        """Like the built-in map, by a task for each `chunksize` items. Not `ordered`, iterating gives results as they come.

        `retries` is the flag for this map alone. With a `name` the tasks have the ids `NAME/0`, `NAME/1` and so on, by which
        `client.job(NAME)` finds their results from anywhere; a map whose name is known joins what is there, or with `on_known="raise"`
        is a DuplicateId."""
        made = Map(self, f, shortened(listed(sequences)), chunksize=chunksize, retries=retries, name=name, on_known=on_known,
                   keeps=return_exceptions)
        return self._result(made.result(ordered, return_exceptions), block)

    def imap(self, f: Callable[..., Any], *sequences: Any, ordered: bool = True, max_outstanding: Any = "auto",
             return_exceptions: bool = False, retries: Optional[int] = None) -> Iterator[Any]:
        """An iterator over the results of a map that takes inputs only as results come: at most `max_outstanding` tasks are under way
        (`auto` is as many as there are engines, 0 is no bound). The inputs may be endless."""
        if max_outstanding == "auto":
            max_outstanding = max(1, len(self))
        if not isinstance(max_outstanding, int) or max_outstanding < 0:
            raise ValueError(f"max_outstanding is 'auto' or a whole number, not {max_outstanding!r}")
        return self._imap(f, zip(*sequences), ordered, max_outstanding, return_exceptions, retries)

    def _imap(self, f: Any, items: Iterator[Tuple[Any, ...]], ordered: bool, most: int, return_exceptions: bool,
              retries: Optional[int]) -> Iterator[Any]:
        function = Function.of(f)
        metadata, notes = self._metadata(retries=retries)
        waiting: Deque[AsyncResult] = collections.deque()
        ended = _Ended()

        def begin() -> bool:
            for item in items:
                task = self.client.maker.task(TASK, requests.call(function, (item, {})), metadata, notes)
                self.client.begin([task])
                self.history.append(task.msg_id)
                result = AsyncResult(self.client, [task], single=True, fname=function.name, return_exceptions=return_exceptions)
                waiting.append(result)
                if not ordered:
                    result.add_done_callback(ended.add)
                return True
            return False

        more = True
        while more and (not most or len(waiting) < most):
            more = begin()
        while waiting:
            result = waiting[0] if ordered else ended.next(self.client)
            result.wait()
            waiting.remove(result)
            yield result.get()
            more = more and begin()

    def _spread(self, made: ParallelFunction, seqs: List[Any], is_map: bool) -> AsyncMapResult:
        spread = Map(self, made.func, seqs, chunksize=made.chunksize or 1, keeps=made.return_exceptions, parts=not is_map)
        return spread.result(made.ordered, made.return_exceptions)

    def register_joblib_backend(self, name: str = "ipyparallel", make_default: bool = False) -> None:
        """Makes this view a backend of joblib."""
        from .joblib import register  # pylint: disable=import-outside-toplevel
        register(name, make_default, view=self)


class _Ended:
    """The results that ended, in the order in which they did."""

    def __init__(self) -> None:
        self._queue: "queue.SimpleQueue[Any]" = queue.SimpleQueue()

    def add(self, result: Any) -> None:
        self._queue.put(result)

    def next(self, client: "Client") -> AsyncResult:
        client.may_wait()
        return self._queue.get()


class Map:
    """A map over any engines: its tasks, a chunk of items each."""

    def __init__(self, view: LoadBalancedView, f: Any, seqs: List[Any], *, chunksize: int = 1, retries: Optional[int] = None,
                 name: Optional[str] = None, on_known: str = "join", keeps: bool = False, parts: bool = False) -> None:
        if not isinstance(chunksize, int) or chunksize < 1:
            raise ValueError(f"a chunksize is a whole number from 1, not {chunksize!r}")
        if on_known not in ("join", "raise"):
            raise ValueError(f"on_known is 'join' or 'raise', not {on_known!r}")
        if name is not None and (not name or len(name.encode()) > 240 or name.startswith("resubmit:")):
            raise ValueError(f"a name has 1 to 240 octets and doesn't begin with 'resubmit:', unlike {name!r}")
        self._view, self._seqs, self._chunksize, self._parts = view, seqs, chunksize, parts
        self._name, self._joins = name, name is not None and on_known == "join"
        self._function = Function.of(f)
        self._metadata, self._notes = view._metadata(retries=retries)  # pylint: disable=protected-access
        retried = view.retries if retries is None else retries
        self._keeps = {"exceptions": True} if keeps and not retried and not parts else {}

    def _tasks(self) -> Iterator[Task]:
        maker, notes, length = self._view.client.maker, self._notes, len(self._seqs[0])
        seqs = [list(it) if isinstance(it, range) else it for it in self._seqs]
        for number, start in enumerate(range(0, length, self._chunksize)):
            chunk = [it[start:start + self._chunksize] for it in seqs]
            if self._parts:
                request = requests.call(self._function, (tuple(chunk), {}), "part")
            else:
                request = requests.call(self._function, chunk, "map", **self._keeps)
            msg_id = None if self._name is None else f"{self._name}/{number}"
            task = maker.task(TASK, request, self._metadata, notes, msg_id)
            task.joins = self._joins
            yield task

    def result(self, ordered: bool, return_exceptions: bool) -> AsyncMapResult:
        client, view = self._view.client, self._view
        tasks: List[Task] = []
        batch: List[Task] = []
        for task in self._tasks():
            batch.append(task)
            if len(batch) == _BATCH:
                client.begin(batch)
                tasks += batch
                batch = []
        client.begin(batch)
        tasks += batch
        view.history += [it.msg_id for it in tasks]
        length = len(self._seqs[0])
        sizes = [min(self._chunksize, length - it * self._chunksize) for it in range(len(tasks))]
        return AsyncMapResult(client, tasks, fname=self._function.name, sizes=sizes, ordered=ordered,
                              return_exceptions=return_exceptions)


def _dependency(value: Any) -> Optional[Dependency]:
    if value is None or isinstance(value, Dependency):
        return value
    found = Dependency(value if isinstance(value, dict) else ids_of(value))
    if len(found) > 4096:
        raise ValueError(f"a task may wait for 4,096 ids, not for {len(found)}")
    return found


__all__ = ["View", "DirectView", "BroadcastView", "LoadBalancedView"]
