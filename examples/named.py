#!/usr/bin/python3
"""Results by name, over a kill of the controller: examples/named.py FOLDER. Run it twice: the second run computes nothing again."""
import os
import sys
import time

sys.path.insert(0, os.path.join(os.path.dirname(os.path.abspath(__file__)), "..", "python", "src"))
import yovkhan  # noqa: E402


def slow_square(n):
    import time

    time.sleep(0.05)
    return n ** 2


def main(folder):
    with yovkhan.Cluster(4, folder=folder) as cluster:
        began = time.monotonic()
        result = cluster.view.map_async(slow_square, range(100), name="squares", retries=3)
        while result.progress < 50:
            time.sleep(0.01)
        if cluster.client.incarnation == 1:
            print("half of it is done: the controller is killed, and started again")
            cluster.kill_controller()
            cluster.start_controller()
        print(f"the sum is {sum(result.get())}")
        print("from scratch" if time.monotonic() - began > 1 else "from what was kept")
        with cluster.make_client() as another:
            print(f"another client finds {len(another.job('squares').get())} results by name")


if __name__ == "__main__":
    main(*sys.argv[1:])
