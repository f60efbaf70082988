"""What a client keeps of requests that no result has taken, by id."""

from __future__ import annotations

from typing import Any, Dict, Iterator

from .tasks import Metadata, Task


class Results(Dict[str, Any]):
    """The values of ended requests that no result has taken, by id; an error stands in the place of a value. What is set stays."""

    def __init__(self, tasks: Dict[str, Task]) -> None:
        super().__init__()
        self._of = tasks

    def __getitem__(self, msg_id: str) -> Any:
        task = self._of.get(msg_id)
        if task is None or not task.is_done:
            return super().__getitem__(msg_id)
        settled = task.settled()
        return settled.value if settled.error is None else settled.error

    def __contains__(self, msg_id: object) -> bool:
        task = self._of.get(str(msg_id))
        return task is not None and task.is_done or super().__contains__(msg_id)

    def __iter__(self) -> Iterator[str]:
        ended = [name for name, it in list(self._of.items()) if it.is_done]
        return iter(list(dict.fromkeys([*ended, *super().__iter__()])))

    def __len__(self) -> int:
        return sum(1 for _ in self)

    def keys(self) -> Any:
        return list(self)

    def values(self) -> Any:
        return [self[it] for it in self]

    def items(self) -> Any:
        return [(it, self[it]) for it in self]

    def get(self, msg_id: str, default: Any = None) -> Any:  # type: ignore[override]
        return self[msg_id] if msg_id in self else default


class MetadataOf(Dict[str, Metadata]):
    """What is known of requests that no result has taken, by id. A look-up of another id makes an empty record."""

    def __init__(self, tasks: Dict[str, Task]) -> None:
        super().__init__()
        self._of = tasks

    def __getitem__(self, msg_id: str) -> Metadata:
        task = self._of.get(msg_id)
        if task is not None:
            return task.metadata
        if not super().__contains__(msg_id):
            self[msg_id] = Metadata(msg_id=msg_id)
        return super().__getitem__(msg_id)

    def __contains__(self, msg_id: object) -> bool:
        return msg_id in self._of or super().__contains__(msg_id)

    def __iter__(self) -> Iterator[str]:
        return iter(list(dict.fromkeys([*self._of, *super().__iter__()])))

    def __len__(self) -> int:
        return sum(1 for _ in self)
