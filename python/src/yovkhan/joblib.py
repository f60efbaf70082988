"""A cluster as a backend of joblib."""

from __future__ import annotations

from typing import TYPE_CHECKING, Any, Callable, Optional

from joblib.parallel import AutoBatchingMixin, ParallelBackendBase, register_parallel_backend

if TYPE_CHECKING:
    from .results import AsyncResult
    from .views import LoadBalancedView


class Backend(AutoBatchingMixin, ParallelBackendBase):  # type: ignore[misc]
    """Runs joblib's batches as tasks of a load-balanced view. Without a view it makes `Client()` of the environment (YOVKHAN_HOST,
    YOVKHAN_PORT, YOVKHAN_KEY_FILE), and closes it again."""

    supports_timeout = True
    supports_sharedmem = False
    uses_threads = False

    def __init__(self, view: Optional["LoadBalancedView"] = None, **kwargs: Any) -> None:
        super().__init__(**kwargs)
        self._own_client = None
        if view is None:
            from .client import Client  # pylint: disable=import-outside-toplevel
            self._own_client = Client()
            view = self._own_client.load_balanced_view()
        self._view = view

    def effective_n_jobs(self, n_jobs: int) -> int:
        """As many jobs run at a time as there are engines, or fewer where fewer are asked for."""
        engines = max(1, len(self._view))
        return engines if n_jobs is None or n_jobs < 0 else min(engines, max(1, n_jobs))

    def configure(self, n_jobs: int = 1, parallel: Any = None, **_kwargs: Any) -> int:
        self.parallel = parallel
        return self.effective_n_jobs(n_jobs)

    def apply_async(self, func: Callable[..., Any], callback: Optional[Callable[..., Any]] = None) -> "AsyncResult":
        """Submits a batch; `callback` is told of its end."""
        result = self._view.apply_async(func)
        if callback is not None:
            result.add_done_callback(callback)
        return result

    submit = apply_async

    def abort_everything(self, ensure_ready: bool = True) -> None:
        """Aborts what hasn't begun."""
        if self._view.outstanding:
            self._view.abort(block=False)
        if ensure_ready:
            self.configure(n_jobs=self.parallel.n_jobs, parallel=self.parallel)

    def terminate(self) -> None:
        """Called by joblib behind a call. The engines stay."""
        self.reset_batch_stats()


def register(name: str = "ipyparallel", make_default: bool = False, view: Optional["LoadBalancedView"] = None) -> None:
    """Registers the backend under this name, over a view where one is given."""
    register_parallel_backend(name, lambda **kwargs: Backend(**{"view": view, **kwargs}), make_default=make_default)
