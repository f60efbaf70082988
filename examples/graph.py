#!/usr/bin/python3
"""A graph of tasks: examples/graph.py. Two tasks make numbers, one that waits for both adds them, and one runs if that failed."""
import os
import sys
import tempfile

sys.path.insert(0, os.path.join(os.path.dirname(os.path.abspath(__file__)), "..", "python", "src"))
import yovkhan  # noqa: E402


def make(path, number):
    with open(path, "w", encoding="ascii") as file:
        file.write(str(number))


def add(*paths):
    numbers = []
    for path in paths:
        with open(path, encoding="ascii") as file:
            numbers.append(int(file.read()))
    return sum(numbers)


if __name__ == "__main__":
    with yovkhan.Cluster(2) as cluster, tempfile.TemporaryDirectory() as folder:
        view = cluster.client.load_balanced_view(retries=2)
        paths = [f"{folder}/{it}" for it in "ab"]
        made = [view.apply_async(make, path, number) for path, number in zip(paths, (30, 12))]
        with view.temp_flags(after=made):
            total = view.apply_async(add, *paths)
        with view.temp_flags(after=yovkhan.Dependency(total, success=False, failure=True)):
            rescue = view.apply_async(print, "the sum failed")
        print(total.get())
        try:
            rescue.get()
        except yovkhan.ImpossibleDependency:
            print("no rescue was needed")
