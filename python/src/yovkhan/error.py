"""The errors that users of the package meet."""

from __future__ import annotations

from typing import Any, Dict, List, Optional, Sequence, Tuple


class KernelError(Exception):
    """What all errors of a cluster have in common."""


class EngineError(KernelError):
    """The engine was lost while it ran the task, or isn't there."""


class NoEnginesRegistered(KernelError):
    """The cluster has no engines, and the call needs some."""


class TaskAborted(KernelError):
    """The task was aborted before it began."""


class TaskTimeout(KernelError):
    """The task waited in the queue past its timeout."""


class UnmetDependency(KernelError):
    """Raised on an engine, it declines the task, and another engine gets it."""


class ImpossibleDependency(UnmetDependency):
    """What the task waits for can't happen any more."""


class InvalidDependency(ImpossibleDependency):
    """The task waits for an id that the controller doesn't know, or for itself."""


class DependencyTimeout(ImpossibleDependency):
    """Kept for users of ipyparallel; nothing raises it."""


class ConnectionLost(TimeoutError):
    """The controller was out of reach for longer than `Client(reconnect=..)` allows. Tasks go on all the same."""


class DuplicateId(ValueError):
    """An id that the controller has known already, with another request behind it."""


class TableFull(KernelError):
    """The database has had as many ids as one may have. Start the controller with a new database."""


class TooLarge(ValueError):
    """An argument or a result that doesn't go into one message."""


class ChangedBuffer(KernelError):
    """A buffer isn't the one that was signed. It wasn't unpickled."""


class NotPicklable(TypeError):
    """A value that can't be sent."""


class RemoteError(KernelError):
    """An exception that was raised elsewhere, mostly on an engine.

    `ename` is the name of its class, `evalue` its text, `traceback` a list of lines, and `engine_info` says which engine
    (`engine_id`, `engine_uuid`) ran what (`method`, which is `apply` or `execute`)."""

    def __init__(self, ename: str, evalue: str, traceback: Any = None, engine_info: Optional[Dict[str, Any]] = None) -> None:
        self.ename = ename
        self.evalue = evalue
        self.traceback: List[str] = [traceback] if isinstance(traceback, str) else list(traceback or [])
        self.engine_info: Dict[str, Any] = dict(engine_info or {})
        self.ids: List[str] = []
        self.args = (ename, evalue)

    def __reduce__(self) -> Tuple[Any, ...]:
        return remote_error, (self.ename, self.evalue, self.traceback, self.engine_info)

    def __repr__(self) -> str:
        return f"<{type(self).__name__}:{self._where()}{self.ename}({self.evalue})>"

    def __str__(self) -> str:
        return f"{self.ename}({self.evalue})"

    def _where(self) -> str:
        engine = self.engine_info.get("engine_id")
        return "" if engine is None else f"[{engine}:{self.engine_info.get('method', 'apply')}] "

    def render_traceback(self) -> List[str]:
        """The lines of the traceback; where none came, the text."""
        return [line for text in self.traceback for line in text.splitlines()] or [str(self)]

    def _render_traceback_(self) -> List[str]:
        """What IPython shows."""
        where = self._where().strip()
        return ([where + ": "] if where else []) + self.render_traceback()

    def print_traceback(self, excid: Optional[int] = None) -> None:
        """Prints the traceback."""
        print("\n".join(self.render_traceback()))


class _EngineError(RemoteError, EngineError):
    pass


class _ImpossibleDependency(RemoteError, ImpossibleDependency):
    pass


class _InvalidDependency(RemoteError, InvalidDependency):
    pass


class _TaskTimeout(RemoteError, TaskTimeout):
    pass


class _TaskAborted(RemoteError, TaskAborted):
    pass


class _UnmetDependency(RemoteError, UnmetDependency):
    pass


_BOTH = {
    "EngineError": _EngineError,
    "ImpossibleDependency": _ImpossibleDependency,
    "InvalidDependency": _InvalidDependency,
    "TaskTimeout": _TaskTimeout,
    "TaskAborted": _TaskAborted,
    "UnmetDependency": _UnmetDependency,
}
for _name, _class in _BOTH.items():
    _class.__name__ = _class.__qualname__ = _name
    _class.__doc__ = globals()[_name].__doc__

Item = Tuple[str, str, List[str], Optional[Dict[str, Any]]]


def remote_error(ename: str, evalue: str, traceback: Any = None, engine_info: Optional[Dict[str, Any]] = None) -> RemoteError:
    """The RemoteError of this name: for a name of the cluster's own errors one that is of their class, too."""
    return _BOTH.get(ename, RemoteError)(ename, evalue, traceback, engine_info)


class CompositeError(RemoteError):
    """Errors of several tasks, or of one function on several engines. `elist` lists each one's ename, evalue, traceback and
    engine_info."""

    tb_limit = 4
    """So many tracebacks are shown."""

    def __init__(self, msg: str, elist: Sequence[Item]) -> None:
        super().__init__("CompositeError", msg, [])
        self.msg = msg
        self.elist: List[Item] = list(elist)
        self.args = (msg, self.elist)

    def __reduce__(self) -> Tuple[Any, ...]:
        return CompositeError, (self.msg, self.elist)

    @staticmethod
    def _where_of(info: Optional[Dict[str, Any]]) -> str:
        if not info:
            return "[Engine Exception]"
        return f"[{info.get('engine_id')}:{info.get('method', 'execute')}]: "

    def __str__(self) -> str:
        lines = [self.msg] + [f"{self._where_of(it[3])}{it[0]}: {it[1]}" for it in self.elist[:self.tb_limit]]
        return "\n".join(lines + self._more())

    def __repr__(self) -> str:
        return f"<CompositeError({len(self.elist)})>"

    def _more(self) -> List[str]:
        more = len(self.elist) - self.tb_limit
        return [f"... {more} more exceptions ..."] if more > 0 else []

    def render_traceback(self, excid: Optional[int] = None) -> List[str]:
        """The tracebacks of the first `tb_limit` errors, or of the one with this number."""
        if excid is not None:
            return self._one(self.elist[excid])
        lines: List[str] = []
        for item in self.elist[:self.tb_limit]:
            lines += self._one(item)
            lines.append("")
        return lines + self._more()

    def _one(self, item: Item) -> List[str]:
        return [self._where_of(item[3])] + ([line for text in item[2] for line in text.splitlines()] or [f"{item[0]}: {item[1]}"])

    def _render_traceback_(self) -> List[str]:
        return self.render_traceback()

    def print_traceback(self, excid: Optional[int] = None) -> None:
        print("\n".join(self.render_traceback(excid)))

    def raise_exception(self, excid: int = 0) -> None:
        """Raises the error with this number. IndexError where there is none."""
        if not -len(self.elist) <= excid < len(self.elist):
            raise IndexError(f"there are {len(self.elist)} exceptions, and none has the number {excid}")
        raise remote_error(*self.elist[excid])


def collected(errors: Sequence[BaseException], name: str = "call") -> BaseException:
    """The error of several: the one where there is one alone, else a CompositeError of all."""
    items: List[Item] = []
    for error in errors:
        if isinstance(error, CompositeError):
            items += error.elist
        elif isinstance(error, RemoteError):
            items.append((error.ename, error.evalue, error.traceback, error.engine_info))
        else:
            items.append((type(error).__name__, str(error), [], None))
    return CompositeError(f"one or more exceptions raised in: {name}", items)


def described(kind: Any, value: BaseException, lines: List[str]) -> List[str]:
    """A traceback's lines between one that names the exception first, and one that says what it was."""
    name = getattr(kind, "__name__", str(kind))
    heading = f"{name}{' ' * max(4, 75 - len(name) - 33)}Traceback (most recent call last)"
    text = text_of(value)
    return [heading, *lines, f"{name}: {text}" if text else f"{name}:"]


def text_of(value: BaseException) -> str:
    """The text of an exception, also of one whose own text can't be had."""
    try:
        return str(value)
    except Exception as error:  # pylint: disable=broad-except
        return f"<no text: {type(error).__name__}>"


__all__ = [name for name, value in list(globals().items()) if isinstance(value, type)
           and value.__module__ == __name__ and not name.startswith("_")]
