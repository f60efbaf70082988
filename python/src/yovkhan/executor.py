"""A `concurrent.futures.Executor` over a view."""

from __future__ import annotations

from concurrent.futures import Executor
from typing import TYPE_CHECKING, Any, Callable, Iterator

if TYPE_CHECKING:
    from .results import AsyncResult
    from .views import View


class ViewExecutor(Executor):
    """Submits to a view. `shutdown`, and leaving `with`, wait for the results and leave the engines."""

    def __init__(self, view: "View") -> None:
        self.view = view
        self._is_shut_down = False

    def submit(self, fn: Callable[..., Any], /, *args: Any, **kwargs: Any) -> "AsyncResult":  # type: ignore[override]
        """As the view's `apply_async`."""
        if self._is_shut_down:
            raise RuntimeError("the executor was shut down")
        return self.view.apply_async(fn, *args, **kwargs)

    def map(self, fn: Callable[..., Any], *iterables: Any, timeout: Any = None, chunksize: int = 1, **how: Any) -> Iterator[Any]:
        """A generator over the view's `imap`; `ordered` and `max_outstanding` are passed on."""
        if self._is_shut_down:
            raise RuntimeError("the executor was shut down")
        return iter(self.view.imap(fn, *iterables, **how))  # type: ignore[attr-defined]

    def shutdown(self, wait: bool = True, *, cancel_futures: bool = False) -> None:
        """Takes no more. Waits for what was submitted, unless `wait` is false; the engines stay."""
        self._is_shut_down = True
        if cancel_futures:
            self.view.abort(block=True)
        if wait:
            self.view.wait()
