"""Starts engines on a machine, and starts those again that crashed."""

from __future__ import annotations

import signal
import subprocess
import sys
import time
from typing import Dict, List, Sequence

from .engine import environment

QUICK, LONGEST = 5.0, 30.0
"""An engine that ended within `QUICK` seconds is waited with for longer each time, up to `LONGEST` seconds."""


class Watch:
    """So many engines under names that are kept over crashes."""

    def __init__(self, words: Sequence[str], names: Sequence[str]) -> None:
        """`words` run an engine; a name is put in the place of `{name}`."""
        self._words, self._names = list(words), list(names)
        self._running: Dict[str, "subprocess.Popen[bytes]"] = {}
        self._began: Dict[str, float] = {}
        self._pause: Dict[str, float] = {}
        self._due: Dict[str, float] = dict.fromkeys(names, 0.0)
        self._ends = False

    def run(self) -> int:
        """Serves until a signal, or until all engines were shut down."""
        for it in (signal.SIGTERM, signal.SIGINT):
            signal.signal(it, self._end)
        while not self._ends and (self._running or self._due):
            self._start_due()
            self._look()
            time.sleep(0.1)
        self._stop()
        return 0

    def _end(self, *_: object) -> None:
        self._ends = True

    def _start_due(self) -> None:
        moment = time.monotonic()
        for name in [it for it, at in self._due.items() if at <= moment]:
            del self._due[name]
            words = [it.replace("{name}", name) for it in self._words]
            self._running[name] = subprocess.Popen(words, stdin=subprocess.DEVNULL, env=environment(), start_new_session=True)
            self._began[name] = moment

    def _look(self) -> None:
        for name, it in list(self._running.items()):
            status = it.poll()
            if status is None:
                continue
            del self._running[name]
            if status == 0:
                self._say(f"{name} was shut down")
            else:
                self._start_later(name, status)

    def _start_later(self, name: str, status: int) -> None:
        lived = time.monotonic() - self._began[name]
        pause = min(LONGEST, self._pause.get(name, 0.25) * 2) if lived < QUICK else 0.25
        self._pause[name] = pause
        self._due[name] = time.monotonic() + pause
        self._say(f"{name} ended with status {status}, and is started again")

    @staticmethod
    def _say(text: str) -> None:
        print(f"yovkhan engines: {text}", file=sys.stderr, flush=True)

    def _stop(self) -> None:
        processes: List["subprocess.Popen[bytes]"] = list(self._running.values())
        for it in processes:
            it.terminate()
        until = time.monotonic() + 3
        for it in processes:
            try:
                it.wait(max(0.05, until - time.monotonic()))
            except subprocess.TimeoutExpired:
                it.kill()
                it.wait()
