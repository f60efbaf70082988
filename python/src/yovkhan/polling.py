"""Asks the hub for outcomes that aren't sent here: those of other clients, and of earlier processes."""

from __future__ import annotations

import time
from typing import Dict, List, Sequence

from . import error
from .hub import Hub
from .link import Loop
from .tasks import Outcome, Task

FIRST, LAST = 0.1, 2.0
"""Seconds between two questions about an id: at first, and at most."""


class Poller:
    """Asks for requests while somebody waits for them, or has asked to be told."""

    def __init__(self, loop: Loop, hub: Hub) -> None:
        self._loop, self._hub = loop, hub
        self._tasks: Dict[str, Task] = {}
        self._asked: Dict[str, Task] = {}
        self._ticks = False

    def add(self, tasks: Sequence[Task]) -> None:
        """Any thread may call it, as `hurry`."""
        self._loop.call(self._add, list(tasks))

    def hurry(self, tasks: Sequence[Task]) -> bool:
        """Asks soon for those that weren't asked about for a while. Whether there are any."""
        moment = time.monotonic()
        due = [it for it in tasks if not it.is_done and it.ask_at <= moment]
        if due:
            self._loop.call(self._ask, due)
        return bool(due)

    def outstanding(self) -> List[str]:
        return [it.msg_id for it in list(self._tasks.values())]

    def _add(self, tasks: List[Task]) -> None:
        for it in tasks:
            if not it.is_done:
                self._tasks[it.msg_id] = it
        if not self._ticks and self._tasks:
            self._ticks = True
            self._tick()

    def _tick(self) -> None:
        """Asks for what is watched and due, and comes again while there is something left."""
        moment = time.monotonic()
        left = [it for it in self._tasks.values() if it.msg_id not in self._asked]
        self._ask([it for it in left if it.ask_at <= moment and _is_watched(it)])
        if self._tasks:
            self._loop.later(0.05, self._tick)
        else:
            self._ticks = False

    def _ask(self, tasks: Sequence[Task]) -> None:
        fresh = [it for it in tasks if it.msg_id not in self._asked and it.msg_id in self._tasks]
        if not fresh:
            return
        for it in fresh:
            self._asked[it.msg_id] = it
        self._hub.statuses([it.msg_id for it in fresh], self._told)

    def _told(self, pending: List[str], completed: List[str], unknown: List[str]) -> None:
        moment = time.monotonic()
        coming = [it for it in unknown if self._asked[it].may_come]
        for msg_id in pending + coming:
            task = self._asked.pop(msg_id)
            task.ask_at = moment + task.ask_step
            task.ask_step = min(task.ask_step * 1.5, LAST)
        for msg_id in unknown:
            if msg_id in self._asked:
                self._end(msg_id).fail(_unknown(msg_id))
        if completed:
            self._hub.fetch(completed, self._fetched)

    def _fetched(self, msg_id: str, outcome: Outcome) -> None:
        self._end(msg_id).settle(outcome)

    def _end(self, msg_id: str) -> Task:
        self._asked.pop(msg_id, None)
        return self._tasks.pop(msg_id)

    def give_up(self, failure: BaseException) -> None:
        """Ends all with this error."""
        tasks = list(self._tasks.values())
        self._tasks.clear()
        self._asked.clear()
        for it in tasks:
            it.fail(failure)


def _is_watched(task: Task) -> bool:
    return task.joins or any(watcher.is_watched() for watcher, _ in list(task.watchers))


def _unknown(msg_id: str) -> error.RemoteError:
    failure = error.RemoteError("KeyError", f"the controller doesn't know {msg_id}")
    failure.ids = [msg_id]
    return failure
