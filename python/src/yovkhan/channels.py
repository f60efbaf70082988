"""The requests under way on a port, kept until their outcomes came, over any number of links."""

from __future__ import annotations

import itertools
import os
import threading
import time
from typing import Any, Callable, Dict, List, Sequence, Set, Tuple

from . import error
from .hub import Hub
from .link import Link, Loop, log
from .tasks import Outcome, Task
from .wire import DELIMITER, Headers, Message, Octets, Signer, now, packed, received

TASK, MUX = "task", "mux"


class Channel:
    """The link for tasks, or for direct requests. Requests that wait stay here, by the ids that they were sent under.

    On a new link a request is sent first that the controller refuses: so it knows whose the link is, and its refusal says that it
    does. Then the hub is asked what became of the requests that were sent before; what it doesn't know is sent again, octet for octet,
    with what wasn't sent yet, in the order in which all were made."""

    def __init__(self, name: str, loop: Loop, address: Tuple[str, int], identity: bytes, signer: Signer, headers: Headers, prefix: str,
                 hub: Hub, goes_on: Callable[[Task, Outcome], bool]) -> None:
        """`goes_on` is asked of each outcome whether it isn't the end of its request."""
        self._name, self._signer, self._headers, self._prefix = name, signer, headers, prefix
        self._hub, self._goes_on = hub, goes_on
        self._numbers = itertools.count(1)
        self._lock = threading.RLock()
        self._ready = False
        self._epoch = 0
        self._hello = ""
        self.tasks: Dict[str, Task] = {}
        self.opened = threading.Event()
        self.link = Link(loop, address, identity, up=self._up, take=self._take, down=self._down)

    def submit(self, tasks: Sequence[Task]) -> None:
        """Takes requests, and sends them now where the link is ready. Any thread may call it."""
        with self._lock:
            for task in tasks:
                self.tasks[task.msg_id] = task
            if self._ready:
                self._send(tasks)

    def _send(self, tasks: Sequence[Task]) -> None:
        pieces: List[Octets] = []
        for task in tasks:
            task.sent = True
            pieces += task.octets
        if pieces:
            self.link.send(_gathered(pieces))

    def submit_again(self, msg_id: str, task: Task, octets: List[Octets]) -> None:
        """Sends a request once more, under another id."""
        with self._lock:
            task.octets, task.sent = octets, False
            self.tasks[msg_id] = task
            if self._ready:
                self._send([task])

    # -- links come and go

    def _up(self) -> None:
        self._epoch += 1
        self._hello = f"{self._prefix}-{self._name}{next(self._numbers)}"
        parts = (self._headers.write(self._hello, "hello_request", now()), b"{}", b'{"retries":-1}', b"{}")
        target = [] if self._name == TASK else [os.urandom(16).hex().encode()]
        self.link.send(packed([*target, DELIMITER, self._signer.sign(*parts), *parts]))

    def _down(self) -> None:
        with self._lock:
            self._ready = False
        self.opened.clear()

    def _recover(self) -> None:
        epoch = self._epoch
        with self._lock:
            asked = [msg_id for msg_id, it in self.tasks.items() if it.sent]
        if asked:
            self._hub.statuses(asked, lambda pending, completed, unknown: self._recovered(epoch, completed, unknown))
        else:  # an answer of the hub tells of a restart, before what it ended is heard of
            self._hub.ask("connection_request", {}).add_done_callback(lambda _: self._recovered(epoch, [], []))

    def _recovered(self, epoch: int, completed: List[str], unknown: List[str]) -> None:
        if epoch != self._epoch or not self.link.is_up:
            return
        again = set(unknown)
        with self._lock:
            self._send([it for msg_id, it in self.tasks.items() if not it.sent or msg_id in again])
            self._ready = True
        self.opened.set()
        if completed:
            self._hub.fetch(completed, self._fetched)

    def _fetched(self, msg_id: str, outcome: Outcome) -> None:
        outcome.received = time.time()
        self._settle(msg_id, outcome)

    # -- what comes

    def _take(self, messages: List[List[Octets]]) -> None:
        moment = time.time()
        for frames in messages:
            message = received(frames, self._signer)
            if message is None:
                log.warning("a message came that isn't signed with the key")
                continue
            self._came(message, moment)

    def _came(self, message: Message, moment: float) -> None:
        msg_id = str(message.parent.get("msg_id", ""))
        if msg_id in self.tasks:
            self._settle(msg_id, Outcome.of_message(message, moment))
        elif msg_id == self._hello:
            self._recover()

    def _settle(self, msg_id: str, outcome: Outcome) -> None:
        with self._lock:
            task = self.tasks.get(msg_id)
            if task is None:
                return
            del self.tasks[msg_id]
        if not self._goes_on(task, outcome):
            task.settle(outcome)

    def give_up(self, failure: error.ConnectionLost) -> None:
        """Ends all requests here with this error; their tasks go on."""
        with self._lock:
            tasks = list(self.tasks.values())
            self.tasks.clear()
        for it in tasks:
            it.fail(failure)

    def outstanding(self) -> Set[str]:
        with self._lock:
            return set(self.tasks)

    def are_sent(self, tasks: Sequence[Task]) -> bool:
        with self._lock:
            return all(it.sent or it.is_done for it in tasks) and not (self.link.waits and any(not it.is_done for it in tasks))

    def close(self) -> None:
        self.link.close()
        self.give_up(error.ConnectionLost("the client was closed before the outcome came; the task goes on"))


def _gathered(pieces: List[Any]) -> List[Octets]:
    """The same octets in fewer pieces: small ones joined."""
    if len(pieces) == 1:
        return pieces
    gathered: List[Octets] = []
    small: List[Octets] = []
    for it in pieces:
        if len(it) < 65_536:
            small.append(it)
            continue
        if small:
            gathered.append(b"".join(small))
            small = []
        gathered.append(it)
    if small:
        gathered.append(b"".join(small))
    return gathered
