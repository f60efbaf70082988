"""A client and engines for a cluster controller that loses nothing: the views that users of ipyparallel know.

    import yovkhan
    with yovkhan.Cluster(4) as cluster:
        print(cluster.view.map_sync(lambda n: n ** 2, range(10)))
"""

from . import error, serialize
from .client import Client
from .cluster import Cluster
from .dependency import Dependency, depend, dependent, require
from .error import (
    ChangedBuffer, CompositeError, ConnectionLost, DependencyTimeout, DuplicateId, EngineError, ImpossibleDependency,
    InvalidDependency, KernelError, NoEnginesRegistered, NotPicklable, RemoteError, TableFull, TaskAborted, TaskTimeout, TooLarge,
    UnmetDependency)
from .executor import ViewExecutor
from .functions import ParallelFunction, RemoteFunction, parallel, remote
from .results import AsyncHubResult, AsyncMapResult, AsyncResult
from .serialize import Reference, interactive
from .tasks import ExecuteReply
from .views import BroadcastView, DirectView, LoadBalancedView

__version__ = "1.0.0"


def register_joblib_backend(name: str = "ipyparallel", make_default: bool = False) -> None:
    """Makes a cluster a backend of joblib: `joblib.parallel_backend(name)`. Without a view it is `Client()` of the environment."""
    from .joblib import register  # pylint: disable=import-outside-toplevel
    register(name, make_default)


__all__ = [
    "AsyncHubResult", "AsyncMapResult", "AsyncResult", "BroadcastView", "ChangedBuffer", "Client", "Cluster", "CompositeError",
    "ConnectionLost", "Dependency", "DependencyTimeout", "DirectView", "DuplicateId", "EngineError", "ExecuteReply",
    "ImpossibleDependency", "InvalidDependency", "KernelError", "LoadBalancedView", "NoEnginesRegistered", "NotPicklable",
    "ParallelFunction", "Reference", "RemoteError", "RemoteFunction", "TableFull", "TaskAborted", "TaskTimeout", "TooLarge",
    "UnmetDependency", "ViewExecutor", "depend", "dependent", "error", "interactive", "parallel", "register_joblib_backend", "remote",
    "require", "serialize"]
