#!/usr/bin/python3
"""The first answer is enough: examples/first.py. Forty searches share two engines; once one has found it, those that wait are taken back."""
import concurrent.futures
import os
import sys

sys.path.insert(0, os.path.join(os.path.dirname(os.path.abspath(__file__)), "..", "python", "src"))
import yovkhan  # noqa: E402


def search(numbers):
    """A number whose third power ends in 7654321, if there is one."""
    return next((n for n in numbers if pow(n, 3, 10 ** 7) == 7654321), None)


def was_taken_back(result):
    return isinstance(result.exception(), yovkhan.TaskAborted)


if __name__ == "__main__":
    with yovkhan.Cluster(2) as cluster:
        view = cluster.client.load_balanced_view()
        searches = [view.apply_async(search, range(start, start + 250_000)) for start in range(0, 10_000_000, 250_000)]
        ended = concurrent.futures.as_completed(searches)
        print(next(found for found in (it.result() for it in ended) if found))
        cluster.client.abort(searches, block=True)
        taken_back = sum(was_taken_back(it) for it in searches)
        print("the others weren't needed" if taken_back else "all of them had run")
