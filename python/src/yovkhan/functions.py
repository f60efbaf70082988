"""Functions bound to a view, and how sequences are parted and joined."""

from __future__ import annotations

import sys
from typing import TYPE_CHECKING, Any, Callable, Iterable, List, Optional, Sequence

if TYPE_CHECKING:
    from .views import View


# ---- parts of sequences

def share(seq: Sequence[Any], part: int, parts: int, dist: str = "b") -> Any:
    """The part with this number of so many. `b` gives blocks, the first ones an item longer where it doesn't come out even; `r` gives
    every `parts`-th item."""
    if dist == "r":
        return seq[part::parts]
    if dist != "b":
        raise ValueError(f"a distribution is 'b' or 'r', not {dist!r}")
    size, longer = divmod(len(seq), parts)
    start = part * size + min(part, longer)
    return seq[start:start + size + (part < longer)]


def joined(parts: Sequence[Any], dist: str = "b") -> Any:
    """What these are the parts of: an array where all are arrays, else a list."""
    numpy = sys.modules.get("numpy")
    if numpy is not None and parts and all(isinstance(it, numpy.ndarray) for it in parts):
        if dist == "b":
            return numpy.concatenate(parts)
        whole = numpy.empty((sum(len(it) for it in parts), *parts[0].shape[1:]), dtype=parts[0].dtype)
        for at, it in enumerate(parts):
            whole[at::len(parts)] = it
        return whole
    if dist == "b":
        return [one for it in parts for one in it]
    longest = max((len(it) for it in parts), default=0)
    return [it[at] for at in range(longest) for it in parts if at < len(it)]


def listed(sequences: Iterable[Any]) -> List[Any]:
    """The sequences, with iterators made lists."""
    return [it if hasattr(it, "__len__") and hasattr(it, "__getitem__") and not isinstance(it, dict) else list(it) for it in sequences]


# ---- functions bound to a view

class RemoteFunction:
    """A function whose call goes to `view.apply`, by the flags that it was made with."""

    def __init__(self, view: "View", f: Callable[..., Any], block: Optional[bool] = None, **flags: Any) -> None:
        self.view, self.func, self.block, self.flags = view, f, block, flags
        self.__name__ = getattr(f, "__name__", type(f).__name__)
        self.__qualname__ = getattr(f, "__qualname__", self.__name__)
        self.__doc__ = f"{type(self).__name__} wrapping:\n{getattr(f, '__doc__', None) or ''}"

    def __call__(self, *args: Any, **kwargs: Any) -> Any:
        block = self.view.block if self.block is None else self.block
        with self.view.temp_flags(block=block, **self.flags):
            return self.view.apply(self.func, *args, **kwargs)


class ParallelFunction(RemoteFunction):
    """A function over sequences. A call calls it on each part and joins what it gives; `map` calls it on each item."""

    def __init__(self, view: "View", f: Callable[..., Any], dist: str = "b", block: Optional[bool] = None,
                 chunksize: Optional[int] = None, ordered: bool = True, return_exceptions: bool = False, **flags: Any) -> None:
        super().__init__(view, f, block, **flags)
        self.dist, self.chunksize, self.ordered, self.return_exceptions = dist, chunksize, ordered, return_exceptions

    def __call__(self, *sequences: Any, **kwargs: Any) -> Any:
        """The results of `f` on the parts, joined. ValueError where the sequences aren't of one length."""
        seqs = listed(sequences)
        if len({len(it) for it in seqs}) > 1:
            raise ValueError("the sequences aren't of one length")
        return self._run(seqs, False)

    def map(self, *sequences: Any) -> Any:
        """The results of `f` on the items, as the built-in map has them."""
        return self._run(shortened(listed(sequences)), True)

    def _run(self, seqs: List[Any], is_map: bool) -> Any:
        block = self.view.block if self.block is None else self.block
        with self.view.temp_flags(block=False, **self.flags):
            result = self.view._spread(self, seqs, is_map)  # pylint: disable=protected-access
        return result.get() if block else result


def shortened(seqs: List[Any]) -> List[Any]:
    """The sequences, cut to the shortest."""
    if not seqs:
        raise TypeError("a map needs a sequence")
    shortest = min(len(it) for it in seqs)
    return [it if len(it) == shortest else it[:shortest] for it in seqs]


def remote(view: "View", block: Optional[bool] = None, **flags: Any) -> Callable[[Callable[..., Any]], RemoteFunction]:
    """A decorator: calls of the function go to the view."""
    return lambda f: RemoteFunction(view, f, block=block, **flags)


def parallel(view: "View", dist: str = "b", block: Optional[bool] = None, ordered: bool = True,
             **flags: Any) -> Callable[[Callable[..., Any]], ParallelFunction]:
    """A decorator: calls of the function on sequences are spread over the view's engines."""
    return lambda f: ParallelFunction(view, f, dist=dist, block=block, ordered=ordered, **flags)
