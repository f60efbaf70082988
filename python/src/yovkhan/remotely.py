"""What views have engines do in their namespaces."""

from __future__ import annotations

from typing import Any, Dict, Sequence

from . import serialize
from .serialize import namespace


def push(values: Dict[str, Any]) -> None:
    """Sets names; `a.b` sets an attribute."""
    there = namespace()
    for name, value in values.items():
        if name.isidentifier():
            there[name] = value
        else:
            there["_pushed_value"] = value
            try:
                exec(f"{name} = _pushed_value", there)  # pylint: disable=exec-used
            finally:
                del there["_pushed_value"]


def pull(names: Any) -> Any:
    """The value of an expression, or a list of those of several."""
    if isinstance(names, (list, tuple)):
        return [eval(it, namespace()) for it in names]  # pylint: disable=eval-used
    return eval(names, namespace())  # pylint: disable=eval-used


def imports(name: str, names: Sequence[str], alias: Any) -> None:
    """Imports a module, or names from it, into the namespace."""
    words = ", ".join(names)
    text = f"from {name} import {words}" if names else f"import {name}" + (f" as {alias}" if alias else "")
    exec(text, namespace())  # pylint: disable=exec-used


def use(kind: str) -> None:
    """Sets which globals functions have that this engine sends."""
    serialize.use(kind)
