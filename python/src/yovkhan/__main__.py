"""The command line: `python -m yovkhan`, or `yovkhan`."""

from __future__ import annotations

import argparse
import os
import signal
import socket
import sys
from typing import Any, List, Optional

from .client import Client, key_of
from .error import KernelError


def _parser() -> argparse.ArgumentParser:
    parser = argparse.ArgumentParser(prog="yovkhan", description="Engines of a cluster, and what is seen of it.")
    commands = parser.add_subparsers(dest="command", required=True, metavar="COMMAND")
    engine = commands.add_parser("engine", help="an engine of this name, until it is shut down")
    _address(engine)
    engine.add_argument("name", metavar="NAME", help="1 to 200 octets; no other live engine has it")
    engines = commands.add_parser("engines", help="engines on this machine; one that crashes is started again")
    engines.add_argument("n", metavar="N", type=int)
    _address(engines)
    engines.add_argument("--name", metavar="NAME", help="they are called NAME-0, NAME-1 and so on (the machine's name)")
    top = commands.add_parser("top", help="a screen of engines, queues, rates and failures; lines where it is no terminal")
    _address(top)
    top.add_argument("--interval", metavar="SECONDS", type=float, default=2.0, help="between two looks (2)")
    top.add_argument("--rounds", metavar="N", type=int, help="ends after so many looks")
    cluster = commands.add_parser("cluster", help="a controller and engines on this machine, until Ctrl-C")
    cluster.add_argument("-n", metavar="N", type=int, default=4, help="so many engines (4)")
    cluster.add_argument("--folder", metavar="FOLDER", help="keeps the database and the key here, to go on from later")
    cluster.add_argument("--program", metavar="PATH", help="the controller's program (the variable IPCLUSTER, or the checkout's)")
    return parser


def _address(parser: argparse.ArgumentParser) -> None:
    parser.add_argument("host", metavar="HOST")
    parser.add_argument("port", metavar="PORT", type=int, help="the controller's first port")
    parser.add_argument("--key-file", metavar="FILE", help="a file with the key; else the variable YOVKHAN_KEY_FILE names one")
    parser.add_argument("--key", metavar="KEY", help="the key itself; other users of the machine can see it")


def _engine(given: Any) -> int:
    from .engine import Engine  # pylint: disable=import-outside-toplevel
    return Engine(given.host, given.port, given.name, key_of(given.key, given.key_file)).run()


def _engines(given: Any) -> int:
    from .watch import Watch  # pylint: disable=import-outside-toplevel
    key_of(given.key, given.key_file)
    name = given.name or socket.gethostname().split(".")[0]
    words = [sys.executable, "-m", "yovkhan", "engine", given.host, str(given.port), "{name}"]
    words += ["--key", given.key] if given.key is not None else ["--key-file", os.path.abspath(given.key_file)] if given.key_file else []
    return Watch(words, [f"{name}-{it}" for it in range(given.n)]).run()


def _top(given: Any) -> int:
    from .top import show  # pylint: disable=import-outside-toplevel
    with Client(given.host, given.port, key=given.key, key_file=given.key_file) as client:
        show(client, given.interval, given.rounds)
    return 0


def _cluster(given: Any) -> int:
    from .cluster import Cluster  # pylint: disable=import-outside-toplevel
    signal.signal(signal.SIGTERM, signal.default_int_handler)
    with Cluster(given.n, folder=given.folder, program=given.program) as cluster:
        print(f"export YOVKHAN_HOST={cluster.host} YOVKHAN_PORT={cluster.port} YOVKHAN_KEY_FILE={cluster.key_file}")
        print(f"# {given.n} engines; then `yovkhan.Client()` is a client of this cluster. Ctrl-C ends it", flush=True)
        signal.pause()
    return 0


_COMMANDS = {"engine": _engine, "engines": _engines, "top": _top, "cluster": _cluster}


def main(words: Optional[List[str]] = None) -> int:
    """Runs a command: its status, 2 where it can't be run."""
    given = _parser().parse_args(words)
    try:
        return _COMMANDS[given.command](given)
    except KeyboardInterrupt:
        return 0
    except (OSError, ValueError, RuntimeError, KernelError) as failure:
        print(f"yovkhan: {failure}", file=sys.stderr)
        return 2


if __name__ == "__main__":
    sys.exit(main())
