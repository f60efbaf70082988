"""Pickles functions and values, and reads them, also with buffers of their own.

A function of `__main__`, or one that `interactive` made, has the *engine's namespace* as its globals. What else it finds there
depends on the kind in use:

- `default`: a name that the engine's namespace lacks has the client's value, where that is small (64 KiB) and can be pickled;
- `pickle`: such a name is a NameError, as in ipyparallel;
- `cloudpickle`, `dill`: the function carries the client's values of the globals it names, whatever the engine has.

A function or class of a module goes by reference where the module is installed. From other modules (a script's own, a test's) its
value goes along, and is used where the engine can't import the module.
"""

from __future__ import annotations

import builtins
import contextlib
import functools
import importlib
import io
import marshal
import pickle
import site
import sys
import sysconfig
import threading
import types
from typing import Any, Callable, Dict, Iterator, List, Optional, Sequence, Set, Tuple

import cloudpickle

from .error import NotPicklable
from .wire import LARGE, Octets

DEFAULT, PICKLE, CLOUDPICKLE, DILL = "default", "pickle", "cloudpickle", "dill"
CARRIED_LIMIT = 65_536
"""The most octets of a client's global that goes along with a function of `__main__`."""
_OUT_OF_BAND = 50
"""So many arrays of a message at most have buffers of their own."""

_kind = DEFAULT
_TAG = sys.implementation.cache_tag


def use(kind: str) -> None:
    """Sets the kind for this process. Raises ImportError where `dill` isn't installed."""
    global _kind  # pylint: disable=global-statement
    if kind == DILL:
        importlib.import_module("dill")
    elif kind not in (DEFAULT, PICKLE, CLOUDPICKLE):
        raise ValueError(f"no kind of this name: {kind!r}")
    _kind = kind


def kind() -> str:
    """The kind in use."""
    return _kind


# ---- where functions of __main__ live

class _Place(threading.local):
    """The namespace of the values that this thread reads, and whether references are evaluated there."""

    namespace: Optional[Dict[str, Any]] = None
    evaluates = False


_place = _Place()


def namespace() -> Dict[str, Any]:
    """The globals of functions of `__main__` that are read now: on an engine its namespace."""
    return sys.modules["__main__"].__dict__ if _place.namespace is None else _place.namespace


class reading_in:  # pylint: disable=invalid-name
    """What is read meanwhile has this namespace; references are evaluated in it where `evaluates`."""

    __slots__ = ("_given", "_before")

    def __init__(self, namespace: Optional[Dict[str, Any]], evaluates: bool = False) -> None:
        self._given = namespace, evaluates

    def __enter__(self) -> None:
        self._before = _place.namespace, _place.evaluates
        _place.namespace, _place.evaluates = self._given

    def __exit__(self, *_: Any) -> None:
        _place.namespace, _place.evaluates = self._before


class Reference:
    """An expression that is evaluated in the engine's namespace before a call, in the place of an argument or the function."""

    def __init__(self, name: str) -> None:
        if not isinstance(name, str):
            raise TypeError(f"a Reference is made of a text, not of {type(name).__name__}")
        self.name = name

    def __repr__(self) -> str:
        return f"<Reference: {self.name!r}>"

    def __reduce__(self) -> Tuple[Any, ...]:
        return _referred, (self.name,)


def _referred(name: str) -> Any:
    return eval(name, namespace()) if _place.evaluates else Reference(name)  # pylint: disable=eval-used


def interactive(f: Any) -> Any:
    """Makes a function one of `__main__`: on an engine its globals are the engine's namespace."""
    if isinstance(f, types.FunctionType):
        made = types.FunctionType(f.__code__, sys.modules["__main__"].__dict__, f.__name__, f.__defaults__, f.__closure__)
        made.__kwdefaults__ = f.__kwdefaults__
        made.__dict__.update(f.__dict__)
        made.__doc__, made.__qualname__ = f.__doc__, f.__qualname__
        f = made
    f.__module__ = "__main__"
    return f


# ---- functions of __main__

@functools.lru_cache(maxsize=1024)
def _code(octets: bytes, tag: str) -> types.CodeType:
    if tag != _TAG:
        raise NotPicklable(f"a function of {tag} can't be run by {_TAG}: use the same Python on both sides, or an importable module")
    return marshal.loads(octets)


def _bare_function(octets: bytes, tag: str, name: str, free: int) -> types.FunctionType:
    cells = tuple(types.CellType() for _ in range(free)) if free else None
    return types.FunctionType(_code(octets, tag), namespace(), name, None, cells)


def _fill_function(made: types.FunctionType, state: Dict[str, Any]) -> None:
    for cell, values in zip(made.__closure__ or (), state.pop("cells")):
        if values:
            cell.cell_contents = values[0]
    made.__dict__.update(state.pop("dict"))
    for key, value in state.items():
        setattr(made, key, value)


def _contents(cell: Any) -> Tuple[Any, ...]:
    try:
        return (cell.cell_contents,)
    except ValueError:
        return ()


def _state(f: types.FunctionType) -> Dict[str, Any]:
    return {
        "cells": [_contents(it) for it in f.__closure__ or ()],
        "dict": f.__dict__,
        "__defaults__": f.__defaults__,
        "__kwdefaults__": f.__kwdefaults__,
        "__annotations__": f.__annotations__,
        "__qualname__": f.__qualname__,
        "__module__": f.__module__,
        "__doc__": f.__doc__,
    }


def _named(code: types.CodeType) -> Set[str]:
    """The names of globals that a code may look up."""
    names = set(code.co_names)
    for constant in code.co_consts:
        if isinstance(constant, types.CodeType):
            names |= _named(constant)
    return names


# ---- what goes by reference, with the value behind it

@functools.lru_cache(maxsize=4096)
def _is_installed(module: str) -> bool:
    """Whether engines can be expected to have the module: it is built in, or stands among the libraries."""
    found = sys.modules.get(module)
    path = getattr(found, "__file__", None)
    if found is None or path is None:
        return True
    libraries = {sysconfig.get_paths()[it] for it in ("stdlib", "platstdlib", "purelib", "platlib")}
    libraries.update(site.getsitepackages() if hasattr(site, "getsitepackages") else [], [sys.prefix, sys.base_prefix])
    libraries.update(it for it in sys.path if it.rstrip("/").endswith(("site-packages", "dist-packages")))
    return module.split(".")[0] == "yovkhan" or any(path.startswith(it.rstrip("/") + "/") for it in libraries)


def _found(module: str, qualname: str) -> Any:
    value: Any = sys.modules[module]
    for name in qualname.split("."):
        value = getattr(value, name)
    return value


def _resolved(module: str, qualname: str, octets: bytes) -> Any:
    """What a module has by this name; where there is no such module, the value that came along."""
    try:
        importlib.import_module(module)
        return _found(module, qualname)
    except (ImportError, AttributeError):
        return pickle.loads(octets)


class _Pickler(cloudpickle.CloudPickler):
    """A cloudpickler that sends functions of `__main__` without their globals."""

    def __init__(self, file: Any, buffer_callback: Any, by_value: Optional[types.ModuleType] = None) -> None:
        super().__init__(file, protocol=5, buffer_callback=buffer_callback)
        self.functions: List[types.FunctionType] = []
        self._by_value = by_value

    def reducer_override(self, obj: Any) -> Any:
        if isinstance(obj, types.FunctionType) and obj.__module__ == "__main__" and _kind not in (CLOUDPICKLE, DILL):
            self.functions.append(obj)
            code = marshal.dumps(obj.__code__)
            made = (code, _TAG, obj.__name__, len(obj.__code__.co_freevars))
            return _bare_function, made, _state(obj), None, None, _fill_function
        if isinstance(obj, (types.FunctionType, type)) and self._by_value is None:
            reduced = _reduced_with_value(obj)
            if reduced is not None:
                return reduced
        return super().reducer_override(obj)


def _reduced_with_value(obj: Any) -> Optional[Tuple[Any, ...]]:
    module, qualname = getattr(obj, "__module__", None), getattr(obj, "__qualname__", "")
    if not isinstance(module, str) or module == "__main__" or _is_installed(module):
        return None
    try:
        if _found(module, qualname) is not obj:
            return None
    except (AttributeError, KeyError):
        return None
    octets = _value_of(obj, sys.modules[module])
    return None if octets is None else (_resolved, (module, qualname, octets))


_registering = threading.RLock()


def _value_of(obj: Any, module: types.ModuleType) -> Optional[bytes]:
    """The pickle of a module's function or class by value; None where it has none."""
    with _registering:
        was = module.__name__ in cloudpickle.list_registry_pickle_by_value()
        if not was:
            cloudpickle.register_pickle_by_value(module)
        try:
            file = io.BytesIO()
            _Pickler(file, None, by_value=module).dump(obj)
            return file.getvalue()
        except Exception:  # pylint: disable=broad-except
            return None
        finally:
            if not was:
                cloudpickle.unregister_pickle_by_value(module)


# ---- pickles

def _dill_dumps(value: Any) -> bytes:
    dill = importlib.import_module("dill")
    return dill.dumps(value, protocol=4, recurse=True)


def _pickled(value: Any, buffers: Optional[List[pickle.PickleBuffer]]) -> Tuple[bytes, List[types.FunctionType]]:
    def keep(buffer: pickle.PickleBuffer) -> bool:
        """False takes the buffer out of the pickle."""
        assert buffers is not None
        try:
            size = buffer.raw().nbytes
        except BufferError:
            return True
        if size < LARGE or len(buffers) >= _OUT_OF_BAND:
            return True
        buffers.append(buffer)
        return False

    file = io.BytesIO()
    pickler = _Pickler(file, None if buffers is None else keep)
    try:
        if _kind == DILL:
            return _dill_dumps(value), []
        pickler.dump(value)
    except (RecursionError, KeyboardInterrupt):
        raise
    except Exception as error:
        raise NotPicklable(f"{_short(value)} can't be sent: {type(error).__name__}: {error}") from error
    return file.getvalue(), pickler.functions


def _short(value: Any) -> str:
    try:
        text = repr(value)
    except Exception:  # pylint: disable=broad-except
        text = f"a {type(value).__name__}"
    return text if len(text) <= 80 else text[:77] + "..."


def dumps(value: Any) -> bytes:
    """The pickle of a value, whole in one piece. Raises NotPicklable where it has none."""
    return _pickled(value, None)[0]


def loads(octets: Octets, namespace: Optional[Dict[str, Any]] = None) -> Any:
    """The value of a pickle. `namespace` is the globals of functions of `__main__`, and a dependent's check runs there."""
    if namespace is None:
        return pickle.loads(octets)
    with reading_in(namespace, evaluates=_place.evaluates):
        return pickle.loads(octets)


_PLAIN = frozenset((int, float, str, bytes, bool, type(None), complex))


def is_plain(value: Any) -> bool:
    """Whether the plain pickler does: a number, a text, or a list or tuple of these."""
    kind = type(value)
    return kind in _PLAIN or (kind is list or kind is tuple) and _PLAIN.issuperset(map(type, value))


def parted(value: Any) -> List[Octets]:
    """The buffers of a value: its pickle, and behind it its large arrays as they lie."""
    if is_plain(value):
        return [pickle.dumps(value, protocol=5)]
    buffers: List[pickle.PickleBuffer] = []
    first = _pickled(value, buffers)[0]
    return [first, *(it.raw() for it in buffers)]


def whole(buffers: Sequence[Octets]) -> Any:
    """The value of these buffers. Its arrays lie in them, and may be written to."""
    return pickle.loads(buffers[0], buffers=[it if isinstance(it, bytearray) else bytearray(it) for it in buffers[1:]])


def function_parts(f: Any) -> bytes:
    """The pickle of a function with the client's values that it may need: what `function_of` reads."""
    octets, functions = _pickled(f, None)
    carried = _carried(functions) if _kind == DEFAULT and functions else {}
    return pickle.dumps((octets, carried), protocol=5)


def _carried(functions: Sequence[types.FunctionType]) -> Dict[str, bytes]:
    """The pickles of the globals that these functions name, and that functions among them name in turn."""
    carried: Dict[str, bytes] = {}
    looked: Set[str] = set()
    left = list(functions)
    while left:
        f = left.pop()
        for name in _named(f.__code__) - looked:
            looked.add(name)
            if name not in f.__globals__ or name.startswith("__"):
                continue
            try:
                octets, more = _pickled(f.__globals__[name], None)
            except (NotPicklable, RecursionError):
                continue
            if len(octets) <= CARRIED_LIMIT:
                carried[name] = octets
                left += more
    return carried


@contextlib.contextmanager
def function_of(octets: Octets, namespace: Dict[str, Any]) -> Iterator[Callable[..., Any]]:
    """The function, which meanwhile finds the client's values behind those of the namespace."""
    pickled, carried = pickle.loads(octets)
    if not carried:
        yield pickle.loads(pickled)
        return
    before = namespace.get("__builtins__", builtins)
    found: Dict[str, Any] = dict(vars(builtins))
    namespace["__builtins__"] = found
    try:
        for name, value in carried.items():
            if name not in namespace:
                try:
                    found[name] = pickle.loads(value)
                except Exception:  # pylint: disable=broad-except
                    continue  # the function meets a NameError if it looks for it
        yield pickle.loads(pickled)
    finally:
        namespace["__builtins__"] = before
