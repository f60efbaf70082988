"""What a task waits for, and functions that choose the engines they run on."""

from __future__ import annotations

import importlib
from typing import Any, Callable, Dict, Iterable, List, Optional, Set

from . import serialize
from .error import UnmetDependency


class depend:  # pylint: disable=invalid-name
    """A decorator: before a call the engine calls `check(*args, **kwargs)`. Where that gives False or raises UnmetDependency, the
    engine declines the task and another one gets it. A task that all engines declined waits for a further engine for ever: give
    it a timeout."""

    def __init__(self, _wrapped_f: Callable[..., Any], *args: Any, **kwargs: Any) -> None:
        self.check, self.args, self.kwargs = _wrapped_f, args, kwargs

    def __call__(self, f: Callable[..., Any]) -> "dependent":
        return dependent(f, self.check, *self.args, **self.kwargs)


class dependent:  # pylint: disable=invalid-name
    """A function with a check. Called, it raises UnmetDependency where the check gives False."""

    def __init__(self, _wrapped_f: Callable[..., Any], _wrapped_df: Callable[..., Any], *dargs: Any, **dkwargs: Any) -> None:
        self.f, self.df, self.dargs, self.dkwargs = _wrapped_f, _wrapped_df, dargs, dkwargs
        self.__name__ = getattr(_wrapped_f, "__name__", "f")
        self.__doc__ = getattr(_wrapped_f, "__doc__", None)
        self._namespace: Optional[Dict[str, Any]] = None

    def __getstate__(self) -> Dict[str, Any]:
        return {**self.__dict__, "_namespace": None}

    def __setstate__(self, state: Dict[str, Any]) -> None:
        self.__dict__.update(state, _namespace=serialize.namespace())

    def check_dependency(self) -> None:
        """Raises UnmetDependency where the check says so. It runs in the namespace that the function was read in."""
        with serialize.reading_in(self._namespace):
            if self.df(*self.dargs, **self.dkwargs) is False:
                raise UnmetDependency()

    def __call__(self, *args: Any, **kwargs: Any) -> Any:
        self.check_dependency()
        return self.f(*args, **kwargs)


def _require(*modules: str, objects: Optional[Dict[str, bytes]] = None) -> bool:
    """Puts modules and objects into the namespace of the engine; an ImportError declines."""
    namespace = serialize.namespace()
    for name in modules:
        try:
            importlib.import_module(name)
        except ImportError as error:
            raise UnmetDependency(str(error)) from error
        exec(f"import {name}", namespace)  # pylint: disable=exec-used
    for name, octets in (objects or {}).items():
        namespace[name] = serialize.loads(octets, namespace)
    return True


def require(*objects: Any, **mapping: Any) -> depend:
    """A decorator: the function needs these modules (names or modules), functions and objects in the engine's namespace. An engine
    that can't import one of the modules declines the task."""
    names: List[str] = []
    for it in objects:
        if isinstance(it, str):
            names.append(it)
        elif type(it).__name__ == "module":
            names.append(it.__name__)
        elif hasattr(it, "__name__"):
            mapping[it.__name__] = it
        else:
            raise TypeError(f"a module, its name, a function or a class is required, not {it!r}")
    return depend(_require, *names, objects={name: serialize.dumps(it) for name, it in mapping.items()})


class Dependency(set):
    """A set of ids that a task waits for: `all` of them or any one, ended with `success`, with `failure`, or either.

    Made of an id, an AsyncResult, a list of these, another Dependency, or what `as_dict` gives. ValueError where neither success nor
    failure counts."""

    def __init__(self, dependencies: Any = (), all: bool = True,  # pylint: disable=redefined-builtin
                 success: bool = True, failure: bool = False) -> None:
        if isinstance(dependencies, dict):
            all = bool(dependencies.get("all", True))
            success = bool(dependencies.get("success", True))
            failure = bool(dependencies.get("failure", False))
            dependencies = dependencies.get("dependencies") or ()
        if not (success or failure):
            raise ValueError("a dependency counts successes, failures or both")
        super().__init__(ids_of(dependencies))
        self.all, self.success, self.failure = all, success, failure

    def check(self, completed: Iterable[str], failed: Optional[Iterable[str]] = None) -> bool:
        """Whether it is met, given the ids that succeeded and those that failed."""
        if not self:
            return True
        met = self & self._counted(completed, failed)
        return met == self if self.all else bool(met)

    def _counted(self, completed: Iterable[str], failed: Optional[Iterable[str]]) -> Set[str]:
        against: Set[str] = set()
        if self.success:
            against |= set(completed)
        if self.failure and failed is not None:
            against |= set(failed)
        return against

    def unreachable(self, completed: Iterable[str], failed: Optional[Iterable[str]] = None) -> bool:
        """Whether it can't be met any more."""
        if not self:
            return False
        against: Set[str] = set()
        if not self.success:
            against |= set(completed)
        if failed is not None and not self.failure:
            against |= set(failed)
        missed = self & against
        return bool(missed) if self.all else missed == self

    def as_dict(self) -> Dict[str, Any]:
        """As the metadata of a task has it."""
        return {"dependencies": sorted(self), "all": self.all, "success": self.success, "failure": self.failure}


def ids_of(value: Any) -> List[str]:
    """The ids that are meant: an id, something with `msg_ids`, or a list of these. ValueError for anything else."""
    if value is None:
        return []
    if isinstance(value, str):
        return [value]
    ids = getattr(value, "msg_ids", None)
    if ids is not None:
        return list(ids)
    if isinstance(value, (list, tuple, set, frozenset)):
        return [one for it in value for one in ids_of(it)]
    raise ValueError(f"ids, results, lists of these or a Dependency are waited for, not {value!r}")
