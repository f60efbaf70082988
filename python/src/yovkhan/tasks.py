"""One request and its outcome, as a client keeps them."""

from __future__ import annotations

import re
import threading
from datetime import datetime, timezone
from typing import Any, Callable, Dict, List, Mapping, Optional, Sequence, Tuple, Union

from . import error, serialize
from .wire import Message, Octets, joined, moment, read

FIELDS = ("msg_id", "submitted", "started", "completed", "received", "engine_id", "engine_uuid", "after", "follow", "status", "stdout",
          "stderr", "execute_input", "execute_result", "error", "outputs", "data")
"""What the metadata of a request has."""

Part = Union[Octets, Dict[str, Any]]


class Metadata(Dict[str, Any]):
    """What is known of a request, by the names of FIELDS, also as attributes. None or empty before the end."""

    def __init__(self, **known: Any) -> None:
        super().__init__(dict.fromkeys(FIELDS))
        self.update(stdout="", stderr="", outputs=[], data={}, after=[], follow=[])
        self.update(known)

    def __getattr__(self, name: str) -> Any:
        try:
            return self[name]
        except KeyError:
            raise AttributeError(name) from None


class ExecuteReply:
    """What a get of `execute` gives: `execution_count`, `stdout`, `stderr`, `execute_result` and the other metadata, as attributes
    and as items."""

    def __init__(self, metadata: Mapping[str, Any], execution_count: Optional[int]) -> None:
        self.metadata = metadata
        self.execution_count = execution_count

    def __getitem__(self, name: str) -> Any:
        return self.execution_count if name == "execution_count" else self.metadata[name]

    def __getattr__(self, name: str) -> Any:
        if name.startswith("__") or name == "metadata":
            raise AttributeError(name)
        try:
            return self.metadata[name]
        except KeyError:
            raise AttributeError(name) from None

    def __repr__(self) -> str:
        result = self.metadata.get("execute_result") or {}
        text = result.get("data", {}).get("text/plain", "")
        if len(text) > 32:
            text = text[:29] + "..."
        return f"<ExecuteReply[{self.execution_count}]: {text}>"


class Outcome:
    """How a request ended: its parts as octets, or read already, and its buffers."""

    __slots__ = ("msg_type", "_metadata", "_content", "buffers", "received", "refused")

    def __init__(self, msg_type: str, metadata: Part, content: Part, buffers: Sequence[Octets], received: Optional[float]) -> None:
        self.msg_type = msg_type
        self._metadata = metadata
        self._content = content
        self.buffers = buffers
        self.received = received
        self.refused = msg_type == "submit_refused"

    @classmethod
    def of_message(cls, message: Message, received: float) -> "Outcome":
        return cls(message.msg_type, message.frames[3], message.frames[4], message.buffers, received)

    @classmethod
    def of_result(cls, result: Dict[str, Any], buffers: Sequence[Octets]) -> "Outcome":
        """Of what a result_reply says of an id."""
        header = result.get("header") or {}
        made = cls(str(header.get("msg_type", "")), result.get("metadata") or {}, result.get("content") or {}, buffers, None)
        if not made.metadata and result.get("engine") is not None:
            made._metadata = {"engine_id": result["engine"]}
        return made

    @property
    def metadata(self) -> Dict[str, Any]:
        return self._metadata if isinstance(self._metadata, dict) else read(self._metadata)

    @property
    def content(self) -> Dict[str, Any]:
        return self._content if isinstance(self._content, dict) else read(self._content)

    def forget(self) -> None:
        """Lets the content and the buffers go, once the value was read."""
        self._content = {}
        self.buffers = ()


class Settled:
    """The value or the error of an outcome."""

    __slots__ = ("value", "error")

    def __init__(self, value: Any, failure: Optional[BaseException]) -> None:
        self.value, self.error = value, failure


_reading = threading.RLock()
_watching = threading.Lock()
Watcher = Tuple[Any, int]


class Task:
    """A request: its octets until the outcome came, and then what came. Its value is unpickled where it is asked for first."""

    __slots__ = ("msg_id", "channel", "octets", "sent", "submitted", "outcome", "_settled", "watchers", "target", "notes", "joins",
                 "again", "parts", "ask_at", "ask_step", "may_come")

    def __init__(self, msg_id: str, channel: str, octets: List[Octets], submitted: Optional[str],
                 target: Optional[str] = None, notes: Optional[Dict[str, Any]] = None) -> None:
        self.msg_id, self.channel, self.octets, self.submitted, self.target = msg_id, channel, octets, submitted, target
        self.notes = notes
        self.sent = False
        self.outcome: Optional[Outcome] = None
        self._settled: Optional[Settled] = None
        self.watchers: List[Watcher] = []
        self.joins = False
        self.may_come = False
        self.again: Optional[Callable[[], Tuple[str, List[Octets]]]] = None
        self.parts: Optional[List[Any]] = None
        self.ask_at = 0.0
        self.ask_step = 0.1

    # -- in the links' thread

    def settle(self, outcome: Outcome) -> bool:
        """Takes the outcome and tells the watchers. False where there is one already."""
        return self._end(outcome, None)

    def fail(self, failure: BaseException) -> bool:
        """Ends the request here, with an error of this side."""
        return self._end(Outcome("", {}, {}, (), None), Settled(None, failure))

    def _end(self, outcome: Outcome, settled: Optional[Settled]) -> bool:
        with _watching:
            if self.outcome is not None:
                return False
            self._settled, self.outcome = settled, outcome
            watchers, self.watchers = self.watchers, []
        self.octets, self.again = [], None
        for watcher, at in watchers:
            watcher.task_is_done(self, at)
        return True

    # -- in any thread

    @property
    def is_done(self) -> bool:
        return self.outcome is not None

    def settled(self) -> Settled:
        """The value or the error, once it is done."""
        if self._settled is None:
            with _reading:
                if self._settled is None:
                    self._settled = self._read()
                    if self.outcome is not None:
                        self.outcome.forget()
        return self._settled

    def _read(self) -> Settled:
        assert self.outcome is not None
        content = self.outcome.content
        if content.get("status") == "ok":
            try:
                return Settled(self._value(content), None)
            except Exception as failure:  # pylint: disable=broad-except
                return Settled(None, failure)
        return Settled(None, failure_of(self.outcome, content, self.msg_id))

    def _value(self, content: Dict[str, Any]) -> Any:
        assert self.outcome is not None
        if self.outcome.buffers:
            return serialize.whole(joined(self.outcome.buffers, content))
        if self.outcome.msg_type == "execute_reply":
            metadata = self.metadata
            if "result" in content and metadata["execute_result"] is None:
                metadata["execute_result"] = {"data": {"text/plain": str(content["result"])}, "metadata": {}}
            return ExecuteReply(metadata, self.outcome.metadata.get("execution_count", content.get("execution_count")))
        return None

    @property
    def is_map(self) -> bool:
        """Whether the outcome is that of a part of a map, so that the value is a list."""
        return self.outcome is not None and self.outcome.metadata.get("call") == "map"

    @property
    def metadata(self) -> Metadata:
        known = Metadata(msg_id=self.msg_id, submitted=moment(self.submitted), engine_uuid=self.target, **(self.notes or {}))
        if self.outcome is None:
            return known
        came = self.outcome.metadata
        known["status"] = came.get("status") or self.outcome.content.get("status") or "error"
        for name in ("started", "completed"):
            known[name] = moment(came.get(name))
        if known["submitted"] is None:
            known["submitted"] = moment(came.get("submitted"))
        received = self.outcome.received
        known["received"] = known["completed"] if received is None else datetime.fromtimestamp(received, timezone.utc)
        known["engine_id"] = came.get("engine_id")
        known["engine_uuid"] = came.get("engine") or self.target
        for name in ("stdout", "stderr", "execute_result", "execute_input", "error"):
            if came.get(name) is not None:
                known[name] = came[name]
        failure = self._settled.error if self._settled else None
        if isinstance(failure, error.RemoteError):
            known["error"] = failure
            known["status"] = "aborted" if isinstance(failure, error.TaskAborted) else "error"
            if known["engine_id"] is None:
                known["engine_id"] = failure.engine_info.get("engine_id")
        return known


_REFUSALS: Dict[str, Callable[[str], BaseException]] = {
    "KnownId": lambda it: error.DuplicateId(f"the controller has known the id {it} with another request"),
    "Purged": lambda it: error.DuplicateId(f"the id {it} was used once, and purged"),
    "ReservedId": lambda it: error.DuplicateId(f"ids like {it} are the controller's own"),
    "TableFull": lambda it: error.TableFull(f"the database has had its {it} ids: start the controller with a new one"),
    "BadMetadata": lambda it: ValueError(f"the controller couldn't read {it} in a request"),
}


def _engine_name(octets: str) -> str:
    try:
        return bytes.fromhex(octets).decode(errors="replace")
    except ValueError:
        return octets


def _lost_engine(ename: str, evalue: str, msg_type: str) -> Optional[Dict[str, Any]]:
    """Which engine was lost, where the controller says so."""
    lost = re.match(r"engine (\d+) was lost", evalue) if ename == "EngineError" else None
    return {"engine_id": int(lost[1]), "method": msg_type.replace("_reply", "")} if lost else None


def failure_of(outcome: Outcome, content: Dict[str, Any], msg_id: str) -> BaseException:
    """The error that an outcome tells of."""
    ename, evalue = str(content.get("ename", "")), str(content.get("evalue", ""))
    if outcome.refused:
        if ename == "NoSuchEngine":
            return error.remote_error("EngineError", f"there is no engine {_engine_name(evalue)}")
        if ename in _REFUSALS:
            return _REFUSALS[ename](evalue)
        return error.remote_error(ename, evalue)
    if content.get("status") in ("aborted", "abort"):
        return error.remote_error("TaskAborted", ename and evalue or f"{msg_id} was aborted")
    info = content.get("engine_info") or _lost_engine(ename, evalue, outcome.msg_type)
    return error.remote_error(ename or "Error", evalue, content.get("traceback") or [], info)


def watch_all(tasks: Sequence[Task], watcher: Any) -> None:
    """Has the watcher told of the end of each of these, now where it has ended."""
    ended = []
    with _watching:
        for at, task in enumerate(tasks):
            if task.outcome is None:
                task.watchers.append((watcher, at))
            else:
                ended.append((task, at))
    for task, at in ended:
        watcher.task_is_done(task, at)
