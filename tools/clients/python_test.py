"""The Python module against the program `route`: `python3 python_test.py MODULE_FOLDER ROUTE COUNT`. The last line says how many nets were
equal and whether numpy was there."""

import os
import pickle
import random
import subprocess
import sys
import tempfile
import threading

sys.path.insert(0, sys.argv[1])
import calzundi  # noqa: E402

ROUTE, COUNT = sys.argv[2], int(sys.argv[3])


def another_meaning():
    """A library that does not say that its lists mean what the module hands over, as one of before 1.12, is not taken."""
    with tempfile.TemporaryDirectory() as folder:
        source, library = os.path.join(folder, "other.c"), os.path.join(folder, "other.so")
        with open(source, "w") as file:
            file.write("int calzundi_check(void) { return 0; }\n")
        subprocess.run(["gcc", "-shared", "-fPIC", source, "-o", library], check=True)
        words = [sys.executable, "-c", "import sys; sys.path.insert(0, sys.argv[1]); import calzundi", sys.argv[1]]
        answer = subprocess.run(words, env={**os.environ, "CALZUNDI_SHARED_LIBRARY": library}, capture_output=True, text=True)
        assert answer.returncode != 0 and "its lists mean something else" in answer.stderr, answer.stderr


another_meaning()
major, minor = calzundi.library_version()
assert f"{major}.{minor}" == calzundi.__version__, calzundi.__version__


def made(seed):
    """An allowed net: macros that do not meet, pins of their own in no interior, loads and weights of all sorts."""
    dice = random.Random(seed)
    span = dice.choice([6, 20, 1000, 1_000_000])
    macros = []
    for _ in range(dice.randrange(9)):
        left, bottom = dice.randint(-span, span - 1), dice.randint(-span, span - 1)
        box = (left, bottom, dice.randint(left + 1, span), dice.randint(bottom + 1, span))
        if not any(box[0] < b[2] and box[2] > b[0] and box[1] < b[3] and box[3] > b[1] for b in macros):
            macros.append(box)
    pins = {}
    for _ in range(dice.randint(1, 14)):
        x, y = dice.randint(-span, span), dice.randint(-span, span)
        if not any(b[0] < x < b[2] and b[1] < y < b[3] for b in macros):
            pins[x, y] = dice.choice([0, dice.randint(0, 1_000_000)])
    if not pins:
        pins[span, span] = 0
    return calzundi.Net([(x, y, load) for (x, y), load in pins.items()], macros, (dice.randint(1, 8), dice.randint(1, 8)))


def printed(net):
    """What `route` prints of a net, by the module alone."""
    tree, (wx, wy) = net.refined_tree(), net.weights
    terminal = net.terminal_tree().total
    lines = [f"pins {len(net.pins)} macros {len(net.macros)} terminal {terminal} refined {tree.total} metal {tree.metal}"]
    for a, b, c, d in tree.edges:
        lines.append(f"{a} {b} {c} {d} {wx * abs(a - c) + wy * abs(b - d)}")
    return "".join(line + "\n" for line in lines)


def consistent(net):
    """What must hold between the module's own answers."""
    tree, slid = net.refined_tree(), net.slid_tree()
    assert calzundi.Net.from_file(net.to_file()) == net
    assert net.check_tree(tree.edges) == (tree.total, tree.metal)
    assert slid.total <= tree.total
    bound, backwards = net.lower_bound(), calzundi.Net(net.pins[::-1], net.macros[::-1], net.weights)
    assert type(bound) is int and (bound > 0) == (len(net.pins) > 1)
    assert bound == backwards.lower_bound() <= slid.total
    assert sum(wire.length for wire in net.wires()) == tree.metal
    if len(net.pins) <= 5:
        assert bound <= net.best_tree().total <= slid.total
    if len(net.pins) <= 16:
        table = net.grid_distances()
        assert len(table) == len(net.pins) and all(row[at] == 0 for at, row in enumerate(table))
    delays = net.delays(net.pins[0][:2], 0.03, 0.0002)
    assert [delay[:2] for delay in delays] == sorted(pin[:2] for pin in net.pins)
    assert net.price([(10**9, 1000)]) == tree.metal
    graph = net.graph()
    assert {pin[:2] for pin in net.pins} <= set(graph.vertices)


def refuses():
    """Refusals, by number, and words that are no whole numbers."""
    for pins, macros, weights, number in [
        ([], [], (1, 1), 11),
        ([(0, 0)] * 129, [], (1, 1), 11),
        ([(0, 0)], [(0, 0, 1, 1)] * 129, (1, 1), 12),
        ([(1_000_001, 0)], [], (1, 1), 13),
        ([(9, 9)], [(3, 0, 3, 5)], (1, 1), 14),
        ([(5, 0), (5, 0)], [], (1, 1), 15),
        ([(9, 9)], [(0, 0, 2, 2), (1, 1, 3, 3)], (1, 1), 16),
        ([(1, 1)], [(0, 0, 2, 2)], (1, 1), 17),
        ([(1, 1)], [], (0, 9), 18),
    ]:
        net = calzundi.Net(pins, macros, weights)
        assert not net.is_allowed
        trees = (net.refined_tree, net.slid_tree, net.best_tree, net.lower_bound)
        for call in (net.check, *trees, net.wires, net.graph, net.to_file, net.grid_distances):
            try:
                call()
                raise AssertionError((number, call))
            except calzundi.Refused as refused:
                assert refused.number == number and str(refused) == f"refused {number}: {calzundi.MEANINGS[number]}"
                assert pickle.loads(pickle.dumps(refused)).number == number
    net = calzundi.Net([(0, 0), (4, 0)])
    for call, number in [
        (lambda: net.check_tree([(0, 0, 4, 0, 1)]), ValueError),
        (lambda: net.check_tree([(0, 0, 0, 0)]), 34),
        (lambda: net.check_tree([]), 35),
        (lambda: net.check_tree([(0, 0, 1_000_001, 0)]), 33),
        (lambda: net.price([]), 31),
        (lambda: net.price([(1, 1)]), 32),
        (lambda: net.price([(9, 1), (9, 1)]), 37),
        (lambda: net.price([(-1, 1)]), ValueError),
        (lambda: net.delays((0, 0), 0.0, 1.0), 38),
        (lambda: net.delays((1, 1), 1.0, 1.0), 39),
        (lambda: net.delays((0, 0), 1e308, 1e308), 40),
        (lambda: calzundi.Net([(x, 0) for x in range(6)]).best_tree(), 41),
        (lambda: calzundi.Net([(x, 0) for x in range(17)]).grid_distances(), 36),
        (lambda: calzundi.Net.from_file(b""), 1),
        (lambda: calzundi.Net.from_file(b"\1" * 512), 2),
        (lambda: calzundi.Net.from_file(b"\0" * 512), 3),
        (lambda: calzundi.Net([(0.5, 0)]), TypeError),
        (lambda: calzundi.Net(["ab"]), TypeError),
        (lambda: calzundi.Net([(2**31, 0)]), ValueError),
        (lambda: calzundi.Net([(1,)]), ValueError),
        (lambda: calzundi.Net([(1, 1)], weights=(1,)), ValueError),
    ]:
        try:
            call()
            raise AssertionError(number)
        except calzundi.Refused as refused:
            assert refused.number == number, (refused, number)
        except (TypeError, ValueError) as error:
            assert type(error) is number, (error, number)


def with_numpy():
    """Arrays of numpy in, and answers that become arrays."""
    try:
        import numpy
    except ImportError:
        return "numpy is missing"
    pins, macros = [(0, 0), (10, 0), (12, 6)], [(4, -2, 6, 3)]
    net = calzundi.Net(pins, macros)
    for kind in (numpy.int8, numpy.int32, numpy.int64, numpy.uint16):
        given = numpy.array(pins, dtype=kind)
        assert calzundi.Net(given, numpy.array(macros, dtype=numpy.int64)) == net
    assert calzundi.Net(numpy.array(pins), numpy.empty((0, 4), dtype=int)).macros == ()
    edges = numpy.array(net.refined_tree().edges)
    assert edges.shape == (4, 4) and net.check_tree(edges).metal == 22
    assert net.price(numpy.array([(100, 1000)], dtype=numpy.uint64)) == 22
    try:
        calzundi.Net(numpy.array([(0.0, 1.5)]))
        raise AssertionError("an array of floats was taken")
    except TypeError:
        return f"numpy {numpy.__version__}"


def in_threads(net):
    """Eight threads at a time get the same answer."""
    right, got = net.refined_tree(), []
    threads = [threading.Thread(target=lambda: got.append(net.refined_tree())) for _ in range(8)]
    for thread in threads:
        thread.start()
    for thread in threads:
        thread.join()
    assert got == [right] * 8


equal = 0
for seed in range(COUNT):
    net = made(seed)
    route = subprocess.run([ROUTE], input=net.to_file(), stdout=subprocess.PIPE, check=True).stdout.decode()
    assert printed(net) == route, (seed, net)
    equal += 1
    if seed % 10 == 0:
        consistent(net)
refuses()
in_threads(made(1))
print(f"python {sys.version.split()[0]}, {with_numpy()}: {equal} nets equal to route")
