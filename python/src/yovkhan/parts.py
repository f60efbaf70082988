"""A result that came in parts, since it doesn't go into one message."""

from __future__ import annotations

from typing import Any, Dict, List, Optional

from . import requests
from .channels import Channel
from .tasks import Outcome, Task
from .wire import Octets


class Gathering:
    """Asks an engine for the parts of a result, and settles its request with them. In the links' thread."""

    def __init__(self, task: Task, outcome: Outcome, maker: requests.Maker, channel: Channel) -> None:
        self._task, self._outcome, self._maker, self._channel = task, outcome, maker, channel
        self._content: Dict[str, Any] = outcome.content
        self._frames: List[Optional[Octets]] = [None] * int(self._content["parts"]["count"])
        self._left = len(self._frames)

    def begin(self) -> None:
        token = self._content["parts"]["token"]
        asked = [self._maker.direct(requests.control("part_request", get=token, part=at), str(self._task.target))
                 for at in range(len(self._frames))]
        for at, it in enumerate(asked):
            it.watchers.append((self, at))
        self._channel.submit(asked)

    def is_watched(self) -> bool:
        return True

    def task_is_done(self, part: Task, at: int) -> None:
        """What the request of a part calls at its end."""
        assert part.outcome is not None
        buffers = part.outcome.buffers
        if not buffers:
            self._task.settle(part.outcome)
            return
        self._frames[at] = buffers[0]
        self._left -= 1
        if not self._left:
            content = {"status": "ok", "digests": self._content["digests"], "cut": self._content["cut"]}
            self._task.settle(Outcome(self._outcome.msg_type, self._outcome.metadata, content,
                                      [it for it in self._frames if it is not None], self._outcome.received))
