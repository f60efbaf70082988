#!/usr/bin/python3
"""A map, a call on each engine, and names in their namespaces: examples/squares.py. It needs cloudpickle (python3-cloudpickle)."""
import os
import sys

sys.path.insert(0, os.path.join(os.path.dirname(os.path.abspath(__file__)), "..", "python", "src"))
import yovkhan  # noqa: E402

offset = 100


def square(n):
    return n ** 2 + offset


if __name__ == "__main__":
    with yovkhan.Cluster(4) as cluster:
        print(cluster.view.map_sync(square, range(5)))
        engines = cluster.client[:]
        engines.scatter("part", range(8), block=True)
        print(engines.apply_sync(lambda part: sum(part), yovkhan.Reference("part")))
        engines.execute("total = sum(part)", block=True)
        print(engines["total"])
