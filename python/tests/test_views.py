"""Direct views: calls, maps, namespaces, code, imports."""

import builtins
import os
import subprocess
import sys
from collections import namedtuple

import pytest

import yovkhan
from conftest import LIMIT, remote
from yovkhan import AsyncMapResult, AsyncResult, Reference, interactive

numpy = pytest.importorskip("numpy")

point = namedtuple("point", "x y")


class Shape:
    def __init__(self, sides):
        self.sides = sides


def double(n):
    return 2 * n


def test_values(client):
    one = client.ids[-1]
    assert client[one].apply_sync(lambda: 42) == 42
    assert client[[one]].apply_sync(lambda: 42) == [42] and client[-1:].apply_sync(lambda: 42) == [42]
    assert client[:].apply_sync(lambda: 42) == [42] * 4
    blocking = client.direct_view(one, block=True)
    assert blocking.apply(lambda: 1) == 1 and isinstance(client[one].apply(lambda: 1), AsyncResult)


def test_keywords_are_the_functions(client):
    def given(**kwargs):
        return kwargs

    names = {"f": 5, "block": 1, "targets": 2, "self": 3, "args": 4}
    assert client[0].apply_sync(given, **names) == names
    assert client.load_balanced_view().apply_sync(given, **names) == names


def test_len(client):
    assert len(client[0]) == 1 and len(client[:2]) == 2 and len(client.direct_view()) == 4
    assert len(client.load_balanced_view()) == 4 and len(client.load_balanced_view([0])) == 1


def test_flags(client):
    view = client[0]
    with view.temp_flags(block=True, track=True):
        assert view.block and view.track and view.apply(lambda: 3) == 3
    assert not view.block
    view.set_flags(block=True)
    assert view.block
    for use in (lambda: view.set_flags(nothing=1), lambda: view.set_flags(after=None)):
        with pytest.raises(KeyError):
            use()


def test_push_and_pull(client, all_engines):
    data = {"a": 10, "b": 1.05, "c": list(range(10)), "d": {"e": (1, 2), "f": "hi"}}
    one = client[0]
    one.push({"data": data}, block=True)
    assert one.pull("data", block=True) == data == one["data"] == one.get("data")
    all_engines.update({"a": 10, "b": 20})
    assert all_engines.pull(("a", "b")) == [[10, 20]] * 4 and all_engines["a + b"] == [30] * 4
    result = one.push({"x": 1}, block=False)
    assert isinstance(result, AsyncResult) and result.get(LIMIT) is None
    with remote("NameError"):
        one.get("never_set")
    for wrong in (5, [5], None):
        with pytest.raises(TypeError):
            one.pull(wrong)
    with pytest.raises(TypeError):
        one.push([1])


def test_push_and_pull_functions(client):
    def tested(x, by=2.0):
        return by * x

    view = client[0]
    view["tested"] = tested
    view.execute("r = tested(10)", block=True)
    assert view["r"] == 20.0 and view["tested"](1.0) == 2.0
    view.execute("def g(x): return x * x", block=True)
    first, second = view.pull(["tested", "g"], block=True)
    assert (first(10), second(10)) == (20.0, 100)


def test_pushed_functions_see_later_names(client):
    @interactive
    def get_it():
        return unset_before  # noqa: F821

    view = client[0]
    view.clear(block=True)
    view["f"] = get_it
    with remote("NameError"):
        view.execute("b = f()", block=True)
    view.execute("unset_before = 5; b = f()", block=True)
    assert view["b"] == 5


def test_attributes_are_set(client):
    view = client[0]
    view.execute("class A: pass\na = A()\na.b = 128", block=True)
    assert view["a.b"] == 128
    view["a.b"] = 0
    assert view.apply_sync(lambda it: it.b, Reference("a")) == 0


def test_references(client, all_engines):
    all_engines.scatter("n", client.ids, flatten=True)
    assert all_engines["n"] == client.ids
    all_engines.execute("f = lambda x, y=1: x * y * n")
    assert all_engines.apply_sync(Reference("f"), 5) == [5 * it for it in client.ids]
    assert client[1].apply_sync(lambda *a, **k: (a, k), [Reference("n")], (Reference("n"),), k={"a": Reference("n + 1")}) == (
        ([1], (1,)), {"k": {"a": 2}})
    assert all_engines.map_sync(lambda x: x * 2, [Reference("n")] * 4) == [it * 2 for it in client.ids]
    assert all_engines.map_sync(Reference("lambda x, y: x - y"), range(10), range(10)) == [0] * 10
    with remote("NameError"):
        client[0].apply_sync(lambda x: x, Reference("never_set"))
    with pytest.raises(TypeError):
        Reference(5)


def test_scatter_and_gather(client):
    view, items = client[:], list(range(17))
    view.scatter("a", items)
    gathered = view.gather("a")
    assert isinstance(gathered, AsyncMapResult) and gathered.get(LIMIT) == items
    assert view.pull("a", block=True) == [items[:5], items[5:9], items[9:13], items[13:]]
    view.scatter("a", items, dist="r", block=True)
    assert view["a"][0] == items[::4] and view.gather("a", dist="r", block=True) == items
    lazy = client.direct_view("all")
    lazy.scatter("x", range(64), block=True)
    assert lazy.gather("x", block=True) == list(range(64))
    with remote("NameError"):
        view.gather("never_set", block=True)
    with pytest.raises(ValueError):
        view.scatter("a", items, dist="z")


def test_arrays(client):
    view, array = client[:], numpy.arange(65)
    view.scatter("a", array, block=True)
    gathered = view.gather("a", block=True)
    assert isinstance(gathered, numpy.ndarray) and (gathered == array).all()
    for kind in ("int32", "uint8", "float32", "float64"):
        sent = numpy.ones((300, 300), kind)
        came = client[0].apply_sync(lambda it: it, sent)
        assert came.dtype == sent.dtype and (came == sent).all()
        came[0, 0] = 7
    objects = numpy.array([(0, {"b": 10})], dtype=[("i", int), ("o", object)])
    assert client[0].apply_sync(lambda it: it, objects)["o"][0] == {"b": 10}
    fortran = numpy.asfortranarray(numpy.arange(90_000.0).reshape(300, 300))
    assert (client[0].apply_sync(lambda it: it, fortran[::2]) == fortran[::2]).all()


def test_maps(client):
    view = client[:]
    assert view.map_sync(lambda n: n ** 2, range(16)) == [n ** 2 for n in range(16)]
    assert view.map_sync(lambda n: n, []) == []
    assert view.map_sync(lambda n: n, iter(range(101))) == list(range(101))
    assert view.map_sync(lambda x, y: x * y, range(10), range(4)) == [0, 1, 4, 9]
    assert client[0].map_sync(lambda n: -n, range(5)) == [0, -1, -2, -3, -4]
    assert (view.map_sync(lambda n: n, numpy.arange(101)) == numpy.arange(101)).all()
    assert list(view.imap(lambda n: n, range(5))) == list(range(5))
    assert client.direct_view("all", block=True).map(double, range(3)) == [0, 2, 4]
    with pytest.raises(TypeError):
        view.map(double)


def test_map_keeps_exceptions(client):
    def check(n):
        if n == 2:
            raise ValueError("two!")
        return n

    view = client[:2]
    result = view.map(check, range(6), return_exceptions=True)
    came = result.get(LIMIT)
    assert isinstance(came[2], yovkhan.RemoteError) and came[2].ename == "ValueError"
    assert [*came[:2], *came[3:]] == [0, 1, 3, 4, 5] and len(list(result)) == 6
    with remote("ValueError"):
        view.map_sync(check, range(6))
    late = view.map_async(check, range(6))
    assert len(late.get(LIMIT, return_exceptions=True)) == 6


def test_execute(client, all_engines):
    result = all_engines.execute("c = 30; print(c)", block=False)
    assert isinstance(result, AsyncResult) and len(result.get(LIMIT)) == 4
    assert result.stdout == ["30\n"] * 4 and all_engines["c"] == [30] * 4
    assert all_engines.execute("5").execute_result == [None] * 4
    view = client.direct_view(0, block=True)
    loud = view.execute("'x' * 40", silent=False)
    reply = loud.get(LIMIT)
    assert repr(reply) == f"<ExecuteReply[{reply.execution_count}]: {repr('x' * 40)[:29]}...>"
    assert view.execute("5", silent=False).get().execution_count == reply.execution_count + 1
    assert loud.execute_result["data"]["text/plain"] == repr("x" * 40) == reply.execute_result["data"]["text/plain"]
    assert reply.stdout == "" and reply["engine_id"] == 0
    with pytest.raises(AttributeError):
        reply.nothing  # pylint: disable=pointless-statement
    with remote("ZeroDivisionError"):
        view.execute("1/0")
    with remote("SyntaxError"):
        view.execute("1 +")
    view.execute("a = 'é'")
    assert view["a"] == "é"


def test_run(client, tmp_path):
    path = tmp_path / "code.py"
    path.write_text("def g():\n    return 5\n    ")
    client[0].run(str(path), block=True)
    assert client[0].apply_sync(lambda f: f(), Reference("g")) == 5
    with pytest.raises(FileNotFoundError):
        client[0].run(str(tmp_path / "nothing"))


def test_sync_imports(client, capsys):
    view = client[:]
    view.clear(block=True)
    with view.importer:
        import colorsys  # noqa: F401
    with view.sync_imports(quiet=True):
        from fractions import Fraction  # noqa: F401
    assert capsys.readouterr().out == "importing colorsys on engine(s)\n"

    @interactive
    def has():
        return "colorsys" in globals() and Fraction(1, 2) + 1  # noqa: F821

    assert view.apply_sync(has) == [Fraction(3, 2)] * 4
    assert builtins.__import__ is not None and "colorsys" in sys.modules


def test_which_globals_functions_have(client):
    view = client[:]
    main = sys.modules["__main__"]

    @interactive
    def get_it():
        return _given  # noqa: F821

    view["_given"] = "engine"
    main._given = "client"
    try:
        assert view.apply_sync(get_it) == ["engine"] * 4
        view.execute("del _given", block=True)
        assert view.apply_sync(get_it) == ["client"] * 4
        view["_given"] = "engine"
        view.use_cloudpickle().get(LIMIT)
        assert view.apply_sync(get_it) == ["client"] * 4
        view.push({"key": "pushed"}, block=True)
        assert view["key"] == ["pushed"] * 4
        view.execute("del _given", block=True)
        view.use_pickle()
        with remote("NameError"):
            view.apply_sync(get_it)
    finally:
        del main._given


def test_dill(client):
    pytest.importorskip("dill")
    view, main = client[:], sys.modules["__main__"]

    @interactive
    def get_it():
        return _given  # noqa: F821

    view["_given"] = "engine"
    main._given = "client"
    try:
        view.use_dill().get(LIMIT)
        assert view.apply_sync(get_it) == ["client"] * 4
        assert client.load_balanced_view().map_sync(lambda n: n + 1, range(5)) == [1, 2, 3, 4, 5]
        view.push({"key": "pushed"}, block=True)
        assert view["key"] == ["pushed"] * 4
    finally:
        del main._given
        view.use_pickle().get(LIMIT)


def test_the_clients_values_reach_inner_functions(client):
    main = sys.modules["__main__"]

    @interactive
    def summed(n):
        return sum(_factor * it for it in range(n)) + helper(n)  # noqa: F821

    @interactive
    def helper(n):
        return math.sqrt(n) + _factor  # noqa: F821

    main._factor, main.helper, main.math = 3, helper, __import__("math")
    try:
        assert client[0].apply_sync(summed, 4) == 18 + 2 + 3
    finally:
        del main._factor, main.helper, main.math


def test_functions_by_value_and_reference(client):
    def bound(n, *, by: int = 3):
        return n * by + outer

    outer = 10
    assert client[0].apply_sync(bound, 2) == 16
    assert client[0].apply_sync(double, 4) == 8 and client[0].apply_sync(os.path.join, "a", "b") == "a/b"
    assert client[0].apply_sync(lambda: double(5)) == 10
    pulled = client[0].apply_sync(lambda: bound)
    assert pulled(1) == 13 and pulled.__annotations__ == {"by": int}

    @interactive
    def factorial(n):
        return n * again(n - 1) if n else 1

    again = factorial
    assert client[0].apply_sync(lambda f: f(1), factorial) == 1


def test_values_of_own_classes(client):
    assert client[0].apply_sync(lambda p: (p.y, p.x), point(1, 2)) == (2, 1)
    came = client[0].apply_sync(lambda: point(1, 2))
    assert came == point(1, 2) and came.x == 1
    assert client[0].apply_sync(lambda shape: shape, Shape(3)).sides == 3
    assert isinstance(client[0].apply_sync(lambda shape: shape, Shape(3)), Shape)
    assert client[0].apply_sync(lambda f=double: f(4)) == 8


def test_what_cant_be_sent(client):
    with pytest.raises(TypeError):
        client[0].apply_async(lambda it: it, client)
    with pytest.raises(TypeError):
        client[0].apply_async(lambda it: it, client[0])
    with remote("NotPicklable"):
        client[0].apply_sync(lambda: (it for it in ()))
    assert client[0].apply_sync(lambda: 1) == 1


def test_remote_functions(client):
    @yovkhan.remote(client[:], block=True)
    def doc_of():
        """Says nothing."""
        return 5

    assert doc_of() == [5] * 4 and doc_of.__name__ == "doc_of"
    assert "RemoteFunction" in doc_of.__doc__ and "Says nothing." in doc_of.__doc__

    @client[:].parallel(block=True)
    def squares(part):
        return [it ** 2 for it in part]

    assert squares(range(9)) == [it ** 2 for it in range(9)]
    assert "ParallelFunction" in squares.__doc__

    @client[:].parallel(block=True)
    def product(x, y):
        return x * y

    assert product.map(range(9), range(5)) == [it ** 2 for it in range(5)]
    with pytest.raises(ValueError):
        product([1, 2], [1])

    @client.load_balanced_view().parallel(block=False, chunksize=3)
    def tripled(part):
        return [3 * it for it in part]

    assert tripled(range(10)).get(LIMIT) == [3 * it for it in range(10)]

    @client.load_balanced_view().remote(block=True)
    def one():
        return 1

    assert one() == 1
    arrays = client[:].parallel(block=True)(lambda part: part * 2)
    assert (arrays(numpy.arange(10)) == numpy.arange(10) * 2).all()


def test_require(client):
    @yovkhan.require("json", double)
    @interactive
    def uses(n):
        return json.dumps(double(n))  # noqa: F821

    assert client[0].apply_sync(uses, 2) == "4"

    @yovkhan.require("no_such_module")
    def never():
        return 1

    with remote("UnmetDependency"):
        client[0].apply_sync(never)
    with pytest.raises(TypeError):
        yovkhan.require(5)


def test_dumps_and_loads():
    made = yovkhan.serialize.dumps(interactive(lambda: there))  # noqa: F821
    assert isinstance(made, bytes)
    assert yovkhan.serialize.loads(made, {"there": 3})() == 3
    assert subprocess.run([sys.executable, "-c", "import yovkhan"], check=True).returncode == 0
