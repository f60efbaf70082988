"""Questions to the controller's hub port, and their answers."""

from __future__ import annotations

import itertools
import json
import threading
from concurrent.futures import Future
from typing import Any, Callable, Dict, List, Optional, Sequence, Tuple

from . import error
from .link import Link, Loop, log
from .tasks import Outcome
from .wire import DELIMITER, Headers, Message, Octets, Signer, now, packed, received

ASKED_AT_ONCE = 4096
"""So many ids at most are asked about in one question."""
FETCHED_AT_ONCE = 256
"""So many results at most are fetched by one question."""


class _Question:
    __slots__ = ("frames", "repeats", "answer")

    def __init__(self, frames: List[Octets], repeats: bool) -> None:
        self.frames, self.repeats = frames, repeats
        self.answer: "Future[Message]" = Future()


def refusal(message: Message) -> Optional[BaseException]:
    """The error that an answer tells of; None where it is none."""
    content = message.content
    if content.get("status") != "error":
        return None
    ename, evalue = str(content.get("ename")), str(content.get("evalue"))
    ids = [it for it in content.get("ids", []) if isinstance(it, str)]
    if ename == "NoSuchEngine":
        return IndexError(f"there is no engine {evalue}")
    if ename == "BadContent":
        return ValueError(f"the controller couldn't read {evalue} in a question")
    if ename in ("UnknownIds", "Purged"):
        failure = error.RemoteError("KeyError", f"the controller doesn't know {', '.join(ids[:5])}{' ..' if len(ids) > 5 else ''}")
    else:
        failure = error.RemoteError(ename, evalue or ", ".join(ids[:5]))
    failure.ids = ids
    return failure


class Hub:
    """The link to the hub port. Questions that changed nothing are asked again on a new link; the others end with ConnectionLost."""

    def __init__(self, loop: Loop, address: Tuple[str, int], identity: bytes, signer: Signer, headers: Headers, prefix: str,
                 up: Callable[[], None], down: Callable[[], None]) -> None:
        self._signer, self._headers, self._prefix = signer, headers, prefix
        self._tell_up, self._tell_down = up, down
        self._numbers = itertools.count(1)
        self._questions: Dict[str, _Question] = {}
        self._lock = threading.Lock()
        self._loop = loop
        self._closed = False
        self.incarnation: Optional[int] = None
        self.restarted: Callable[[], None] = lambda: None
        self.link = Link(loop, address, identity, up=self._up, take=self._take, down=self._down)

    def ask(self, msg_type: str, content: Any, repeats: bool = True) -> "Future[Message]":
        """Asks: the answer to come. Any thread may call it."""
        msg_id = f"{self._prefix}-h{next(self._numbers)}"
        parts = (self._headers.write(msg_id, msg_type, now()), b"{}", b"{}", json.dumps(content).encode())
        question = _Question(packed([DELIMITER, self._signer.sign(*parts), *parts]), repeats)
        with self._lock:
            if self._closed:
                raise RuntimeError("the client is closed")
            self._questions[msg_id] = question
        self.link.send(question.frames)
        return question.answer

    def _up(self) -> None:
        with self._lock:
            waiting = [it for it in self._questions.values() if it.repeats]
        for it in waiting:
            self.link.send(it.frames)
        self._tell_up()

    def _down(self) -> None:
        with self._lock:
            lost = [msg_id for msg_id, it in self._questions.items() if not it.repeats]
            ended = [self._questions.pop(it) for it in lost]
        for it in ended:
            it.answer.set_exception(error.ConnectionLost("the link broke before the answer came; it may have been served"))
        self._tell_down()

    def _take(self, messages: List[List[Octets]]) -> None:
        for frames in messages:
            message = received(frames, self._signer)
            if message is not None:
                self._answered(message)

    def _answered(self, message: Message) -> None:
        self._look_at(str(message.header.get("msg_id", "")))
        with self._lock:
            question = self._questions.pop(str(message.parent.get("msg_id", "")), None)
        if question is None:
            return
        failure = refusal(message)
        if failure is None:
            question.answer.set_result(message)
        else:
            question.answer.set_exception(failure)

    def _look_at(self, msg_id: str) -> None:
        """Reads the number of the opening in an answer's id."""
        words = msg_id.split("-")
        if len(words) < 3 or words[0] != "hub" or not words[1].isdigit():
            return
        number = int(words[1])
        before, self.incarnation = self.incarnation, number
        if before is not None and number != before:
            self.restarted()

    def give_up(self, failure: BaseException) -> None:
        """Ends all questions with this error."""
        with self._lock:
            ended = list(self._questions.values())
            self._questions.clear()
        for it in ended:
            it.answer.set_exception(failure)

    def close(self) -> None:
        with self._lock:
            self._closed = True
        self.link.close()
        self.give_up(RuntimeError("the client was closed"))

    # -- questions about ids, in the links' thread

    def statuses(self, ids: Sequence[str], done: Callable[[List[str], List[str], List[str]], None]) -> None:
        """Asks which ids are pending, completed and unknown, and calls `done` with the three lists."""
        _Statuses(self, list(ids), done).next()

    def fetch(self, ids: Sequence[str], each: Callable[[str, Outcome], None], done: Callable[[], None] = lambda: None) -> None:
        """Fetches the outcomes of completed ids, and calls `each` with every one, then `done`."""
        _Fetching(self, list(ids), each, done).next()


class _Statuses:
    """A run of questions about more ids than one question names."""

    def __init__(self, hub: Hub, ids: List[str], done: Callable[[List[str], List[str], List[str]], None]) -> None:
        self._hub, self._left, self._done = hub, ids, done
        self._pending: List[str] = []
        self._completed: List[str] = []
        self._unknown: List[str] = []
        self._asked: List[str] = []

    def next(self) -> None:
        if not self._left:
            self._done(self._pending, self._completed, self._unknown)
            return
        self._asked, self._left = self._left[:ASKED_AT_ONCE], self._left[ASKED_AT_ONCE:]
        self._ask()

    def _ask(self) -> None:
        if not self._asked:
            self.next()
            return
        answer = self._hub.ask("result_request", {"msg_ids": self._asked, "status_only": True})
        answer.add_done_callback(self._came)

    def _came(self, answer: "Future[Message]") -> None:
        failure = answer.exception()
        if failure is None:
            content = answer.result().content
            self._pending += content.get("pending", [])
            self._completed += content.get("completed", [])
            self.next()
            return
        ids = set(getattr(failure, "ids", ()))
        if not ids:
            log.debug("a question about ids failed: %s", failure)
            return
        self._unknown += [it for it in self._asked if it in ids]
        self._asked = [it for it in self._asked if it not in ids]
        self._ask()


class _Fetching:
    """A run of questions for results, by fewer at once where an answer would be too long."""

    def __init__(self, hub: Hub, ids: List[str], each: Callable[[str, Outcome], None], done: Callable[[], None]) -> None:
        self._hub, self._left, self._each, self._done = hub, ids, each, done
        self._most = FETCHED_AT_ONCE
        self._asked: List[str] = []

    def next(self) -> None:
        if not self._left:
            self._done()
            return
        self._asked = self._left[:self._most]
        self._hub.ask("result_request", {"msg_ids": self._asked}).add_done_callback(self._came)

    def _came(self, answer: "Future[Message]") -> None:
        failure = answer.exception()
        if failure is None:
            self._left = self._left[len(self._asked):]
            self._share_out(answer.result())
        elif isinstance(failure, error.RemoteError) and failure.ename == "ReplyTooLong":
            self._ask_for_fewer(failure)
        elif getattr(failure, "ids", None):
            gone = set(failure.ids)  # type: ignore[attr-defined]
            self._left = [it for it in self._left if it not in gone]
        else:
            log.debug("a question for results failed: %s", failure)
            return
        self.next()

    def _ask_for_fewer(self, failure: error.RemoteError) -> None:
        """Asks for fewer at once. One that is too long by itself has this error for its outcome."""
        if len(self._asked) > 1:
            self._most = max(1, len(self._asked) // 4)
            return
        content = {"status": "error", "ename": failure.ename, "evalue": "the outcome is too long to be asked for"}
        self._each(self._left.pop(0), Outcome("", {}, content, (), None))

    def _share_out(self, message: Message) -> None:
        content = message.content
        results = content.get("results", {})
        buffers, at = message.buffers, 0
        for msg_id in content.get("completed", []):
            result = results[msg_id]
            count = int(result.get("buffers", 0))
            self._each(msg_id, Outcome.of_result(result, buffers[at:at + count]))
            at += count
