"""A screen that shows what a cluster does, from hub requests alone."""

from __future__ import annotations

import shutil
import sys
import time
from typing import Any, Dict, List, NamedTuple, Optional, Set, TextIO

from . import error
from .client import Client

FAILURES = 5
"""So many of the last failures are shown."""
LOOKED_AT = 256
"""So many newly ended tasks at most are looked at in one round."""


class Seen(NamedTuple):
    """What one round of questions found."""

    engines: Dict[int, str]
    queues: Dict[Any, Any]
    rate: Optional[float]
    failures: List[str]


class Top:
    """Asks the hub, and remembers what is needed to tell rates and failures. A round is three to five questions."""

    def __init__(self, client: Client) -> None:
        self._client = client
        self._completed: Optional[int] = None
        self._at = 0.0
        self._known = 0
        self._open: Set[str] = set()
        self._failures: List[str] = []
        self._has_history = True

    def look(self) -> Seen:
        """One round."""
        engines, queues = self._client.engines, self._client.queue_status()
        completed = sum(it["completed"] for it in queues.values() if isinstance(it, dict))
        at, rate = time.monotonic(), None
        if self._completed is not None:
            rate = max(0.0, (completed - self._completed) / max(1e-9, at - self._at))
        self._completed, self._at = completed, at
        if self._has_history:
            self._look_for_failures()
        return Seen(engines, queues, rate, self._failures[-FAILURES:])

    def _look_for_failures(self) -> None:
        try:
            history = self._client.hub_history()
        except error.RemoteError:
            self._has_history = False  # the history is too long for a message
            return
        fresh = history[self._known:] if self._known else history[-LOOKED_AT:]
        self._known = len(history)
        self._open.update(fresh)
        asked = [it for it in history[-4096:] if it in self._open]
        if not asked:
            return
        try:
            ended = self._client.result_status(asked)["completed"][:LOOKED_AT]
        except error.RemoteError as failure:  # some were purged meanwhile
            self._open.difference_update(failure.ids)
            return
        self._open.difference_update(ended)
        for msg_id, outcome in self._client.outcomes(ended).items():
            content = outcome.content
            if content.get("status") != "ok":
                where = outcome.metadata.get("engine") or "the controller"
                self._failures.append(f"{msg_id} on {where}: {content.get('ename', content.get('status'))}: {content.get('evalue', '')}")
        del self._failures[:-FAILURES]


def lines_of(seen: Seen, width: int = 100) -> List[str]:
    """What is shown of a round."""
    rate = "-" if seen.rate is None else f"{seen.rate:.1f}"
    engines, queues = seen.engines, seen.queues
    running = sum(it["tasks"] + it["queue"] for it in queues.values() if isinstance(it, dict))
    lines = [f"engines {len(engines)}   running {running}   waiting {queues.get('unassigned', 0)}   tasks/s {rate}", "",
             f"{'number':>6}  {'tasks':>6}  {'direct':>6}  {'ended':>9}  name"]
    for number, name in engines.items():
        its = queues.get(number, {"tasks": 0, "queue": 0, "completed": 0})
        lines.append(f"{number:>6}  {its['tasks']:>6}  {its['queue']:>6}  {its['completed']:>9}  {name}")
    if seen.failures:
        lines += ["", "failed last:", *("  " + " ".join(it.split()) for it in seen.failures)]
    return [it[:width] for it in lines]


def plain(seen: Seen) -> str:
    """A round in one line, where there is no terminal."""
    head = lines_of(seen, 200)[0]
    return head + (f"   failed last: {' '.join(seen.failures[-1].split())[:120]}" if seen.failures else "")


def show(client: Client, interval: float, rounds: Optional[int], out: TextIO = sys.stdout) -> None:
    """Shows rounds, so many or without end: on a terminal as a screen, else a line each."""
    top, shown = Top(client), 0
    screen = out.isatty()
    while rounds is None or shown < rounds:
        seen = top.look()
        if screen:
            width, height = shutil.get_terminal_size()
            out.write("\x1b[H\x1b[2J" + "\n".join(lines_of(seen, width)[:height - 1]) + "\n")
        else:
            out.write(time.strftime("%H:%M:%S ") + plain(seen) + "\n")
        out.flush()
        shown += 1
        if rounds is None or shown < rounds:
            time.sleep(interval)
