"""A tree router whose every answer is proved, from Python.

>>> import calzundi
>>> tree = calzundi.Net([(0, 0), (4, 0), (2, 3)]).refined_tree()
>>> tree.metal
7
>>> tree.edges[0]
Edge(x1=0, y1=0, x2=2, y2=0)

A net is pins, (x, y) or (x, y, load), macros, (left, bottom, right, top), and two weights, what a unit of metal costs along each axis.
Lists, tuples and arrays of numpy with whole numbers are taken alike. All the work is the shared library's, whose every function is proved
to do what the documents say; this module lends the space and sorts the numbers, and is tested. A call that is refused raises `Refused`,
with the number of the refusal and what it means. A number that is not whole is a TypeError, one that does not fit a ValueError.

The library is libcalzundi.so, beside this file, in ../build/python or where CALZUNDI_SHARED_LIBRARY says. Calls keep no state, let other
threads run, and take up to 512 KiB of stack.
"""

from __future__ import annotations

import ctypes
import operator
import os
import pathlib
from typing import Any, Iterable, List, NamedTuple, Sequence, Tuple

__version__ = "0"  # the header's, put in where a package is made

PINS = 128
MACROS = 128
GRID_PINS = 16
BEST_PINS = 5
BEST_MACROS = 16
BEST_WORK = 65536
BOUND_LEFT = 589824
BOUND_ROWS = 147456
LONGEST_FILE = 512 * 10

# What the library's numbers mean, in the header's words.
MEANINGS = {
    1: "the file is not 1 to 10 whole blocks",
    2: "a block's word 126 or 127, its sums, is wrong",
    3: "the layout is not a net file's",
    11: "there is no pin, there are more than 128, or the list isn't whole threes",
    12: "there are more than 128 macros, or the list isn't whole fours",
    13: "a coordinate is not from -1000000 to 1000000, or a load not from 0 to 1000000",
    14: "a macro's left is not below its right, or its bottom not below its top",
    15: "two pins are at one place",
    16: "two macros' interiors meet",
    17: "a pin is in a macro's interior",
    18: "a weight is not from 1 to 8",
    21: "too little space was lent",
    31: "there is no band, the list isn't whole pairs, or a rate is above 1000000",
    32: "no band's limit reaches the metal",
    33: "there are more than 1535 edges, the list isn't whole fours, or a coordinate is not from -1000000 to 1000000",
    34: "an edge has equal ends, or ends that are not clear of each other",
    35: "the edges and the pins are not one tree, or a point with a single edge is no pin",
    36: "there are more than 16 pins or more than 16 macros",
    37: "a band's limit is not above the one before it, or its rate is below",
    38: "a resistance or capacitance is not finite, or not above zero",
    39: "the driver is no pin",
    40: "a delay is not finite",
    41: "there are more than 5 pins or more than 16 macros",
}


class Refused(Exception):
    """The library's answer is a refusal: `number` is what it says, `meaning` what that means."""

    def __init__(self, number: int) -> None:
        self.number = number
        self.meaning = MEANINGS.get(number, "no refusal has this number")
        super().__init__(f"refused {number}: {self.meaning}")

    def __reduce__(self) -> Tuple[Any, Tuple[int]]:
        return Refused, (self.number,)


class Place(NamedTuple):
    """A place of the die. Places are ordered by x, then by y."""

    x: int
    y: int


class Pin(NamedTuple):
    """A place that is to be joined with the others, and its load."""

    x: int
    y: int
    load: int = 0


class Macro(NamedTuple):
    """An upright rectangle whose interior no metal enters."""

    left: int
    bottom: int
    right: int
    top: int


class Edge(NamedTuple):
    """Two places that are joined, the smaller one first; or a wire, its start and its end as drawn."""

    x1: int
    y1: int
    x2: int
    y2: int

    @property
    def length(self) -> int:
        """The plain length."""
        return abs(self.x1 - self.x2) + abs(self.y1 - self.y2)


class Tree(NamedTuple):
    """Edges in order, the sum of their costs, and the metal to lay, the sum of their lengths."""

    edges: List[Edge]
    total: int
    metal: int


class Path(NamedTuple):
    """A kept terminal path: its bridge, and what the whole path costs."""

    bridge: Edge
    cost: int


class TerminalTree(NamedTuple):
    """The kept paths in order and the sum of their costs."""

    paths: List[Path]
    total: int


class Graph(NamedTuple):
    """The spanning graph, both lists in order."""

    vertices: List[Place]
    edges: List[Edge]


class Passed(NamedTuple):
    """What a bought-in tree that passes comes to."""

    cost: int
    metal: int


class PinDelay(NamedTuple):
    """A pin's place and the delay to it."""

    x: int
    y: int
    delay: float


def _library() -> ctypes.CDLL:
    named = os.environ.get("CALZUNDI_SHARED_LIBRARY")
    if named:
        return ctypes.CDLL(named)
    here = pathlib.Path(__file__).resolve().parent
    places = [here, here / "calzundi.libs", here.parent / "build" / "python"]
    for place in places:
        if (place / "libcalzundi.so").exists():
            return ctypes.CDLL(str(place / "libcalzundi.so"))
    raise ImportError("libcalzundi.so is neither beside calzundi.py nor where CALZUNDI_SHARED_LIBRARY says")


_INT, _LONG, _WORD, _SIZE = ctypes.c_int32, ctypes.c_int64, ctypes.c_uint32, ctypes.c_size_t
_RATE, _BYTE, _FLOAT = ctypes.c_uint64, ctypes.c_uint8, ctypes.c_double
_COST = ctypes.c_uint64
_P = ctypes.POINTER
_LISTS = [_P(_INT), _SIZE, _P(_INT), _SIZE, _INT, _INT]
_TREE = [_P(_INT), _SIZE, _P(_SIZE), _P(_LONG), _P(_LONG)]

# A library has a function of this name where its lists mean what is handed over here.
_LISTS_MEANT = "calzundi_lists_since_1_12"

# What each call takes after the two lists and the weights.
_CALLS = {
    "check": [],
    "graph": [_P(_INT), _SIZE, _P(_INT), _SIZE, _P(_SIZE), _P(_SIZE)],
    "terminal_tree": [_P(_LONG), _SIZE, _P(_SIZE), _P(_LONG)],
    "refined_tree": _TREE,
    "slid_tree": _TREE,
    "best_tree": [_P(_WORD), _SIZE] + _TREE,
    "lower_bound": [_P(_WORD), _SIZE, _P(_COST), _SIZE, _P(_COST)],
    "wires": [_P(_INT), _SIZE, _P(_SIZE)],
    "grid_distances": [_P(_LONG), _SIZE, _P(_SIZE)],
    "delay": [_INT, _INT, _FLOAT, _FLOAT, _P(_FLOAT), _SIZE, _P(_SIZE)],
    "price": [_P(_RATE), _SIZE, _P(_RATE)],
    "check_tree": [_P(_INT), _SIZE, _P(_LONG), _P(_LONG)],
    "write_file": [_P(_BYTE), _SIZE, _P(_SIZE)],
}
_READ = [_P(_BYTE), _SIZE, _P(_INT), _SIZE, _P(_INT), _SIZE, _P(_SIZE), _P(_SIZE), _P(_INT), _P(_INT)]


def _bound() -> Any:
    library = _library()
    if not hasattr(library, _LISTS_MEANT):
        raise ImportError(f"{library._name} has no {_LISTS_MEANT}: its lists mean something else, or it is no libcalzundi.so")
    for name, more in _CALLS.items():
        call = getattr(library, "calzundi_" + name)
        call.argtypes, call.restype = _LISTS + more, _INT
    library.calzundi_read_file.argtypes, library.calzundi_read_file.restype = _READ, _INT
    return library


_lib = _bound()


def library_version() -> Tuple[int, int]:
    """The version of the library: its two numbers."""
    _lib.calzundi_version.argtypes, _lib.calzundi_version.restype = [], _WORD
    return divmod(_lib.calzundi_version(), 1000)


def _whole(number: Any, bits: int = 32, signed: bool = True) -> int:
    """A whole number of so many bits: what is none is a TypeError, what does not fit a ValueError. ctypes would cut it off."""
    whole = operator.index(number)
    least, most = (-(1 << (bits - 1)), (1 << (bits - 1)) - 1) if signed else (0, (1 << bits) - 1)
    if not least <= whole <= most:
        raise ValueError(f"{whole} is no whole number of {bits} bits")
    return whole


def _row(kind: str, numbers: Iterable[Any], widths: Sequence[int]) -> List[int]:
    row = [_whole(number) for number in numbers]
    if len(row) not in widths:
        raise ValueError(f"a {kind} has {' or '.join(map(str, widths))} numbers, not {len(row)}")
    return row


def _edges(numbers: Any, count: int) -> List[Edge]:
    return [Edge(*numbers[4 * at : 4 * at + 4]) for at in range(count)]


class Net:
    """Pins that are to be joined, macros that are in the way, and what metal costs along each axis.

    Any net can be made; a call says whether it is allowed. Answers are the same for every order of the lists; only a net file keeps it.
    """

    __slots__ = ("pins", "macros", "weights")

    def __init__(self, pins: Iterable[Any], macros: Iterable[Any] = (), weights: Iterable[Any] = (1, 1)) -> None:
        self.pins: Tuple[Pin, ...] = tuple(Pin(*_row("pin", pin, (2, 3))) for pin in pins)
        self.macros: Tuple[Macro, ...] = tuple(Macro(*_row("macro", one, (4,))) for one in macros)
        x, y = _row("pair of weights", weights, (2,))
        self.weights: Tuple[int, int] = (x, y)

    def __repr__(self) -> str:
        pins = [tuple(pin if pin.load else pin[:2]) for pin in self.pins]
        macros = [tuple(one) for one in self.macros]
        return f"Net({pins}, {macros}, {self.weights})"

    def __eq__(self, other: object) -> bool:
        if not isinstance(other, Net):
            return NotImplemented
        return (self.pins, self.macros, self.weights) == (other.pins, other.macros, other.weights)

    def __hash__(self) -> int:
        return hash((self.pins, self.macros, self.weights))

    def _call(self, name: str, *more: Any) -> None:
        pins = [number for pin in self.pins for number in pin]
        macros = [number for one in self.macros for number in one]
        lists = (_INT * len(pins))(*pins), len(pins), (_INT * len(macros))(*macros), len(macros)
        number = getattr(_lib, "calzundi_" + name)(*lists, *self.weights, *more)
        if number:
            raise Refused(number)

    @property
    def _points(self) -> int:
        return len(self.pins) + 4 * len(self.macros)

    def check(self) -> None:
        """Raises `Refused` where the net is not allowed: 11 to 18, each for the whole net before the next."""
        self._call("check")

    @property
    def is_allowed(self) -> bool:
        """Whether the net is allowed."""
        try:
            self.check()
        except Refused:
            return False
        return True

    def graph(self) -> Graph:
        """The spanning graph."""
        vertices, edges = (_INT * (2 * self._points))(), (_INT * (16 * self._points))()
        v, e = _SIZE(), _SIZE()
        self._call("graph", vertices, len(vertices), edges, len(edges), v, e)
        places = [Place(vertices[2 * at], vertices[2 * at + 1]) for at in range(v.value)]
        return Graph(places, _edges(edges, e.value))

    def terminal_tree(self) -> TerminalTree:
        """The cheapest joining of the pins by paths of the graph."""
        numbers, count, total = (_LONG * (5 * len(self.pins)))(), _SIZE(), _LONG()
        self._call("terminal_tree", numbers, len(numbers), count, total)
        rows = [numbers[5 * at : 5 * at + 5] for at in range(count.value)]
        return TerminalTree([Path(Edge(*row[:4]), row[4]) for row in rows], total.value)

    def _tree(self, name: str, room: int, *work: Any) -> Tree:
        numbers, count, total, metal = (_INT * room)(), _SIZE(), _LONG(), _LONG()
        self._call(name, *work, numbers, len(numbers), count, total, metal)
        return Tree(_edges(numbers, count.value), total.value, metal.value)

    def refined_tree(self) -> Tree:
        """The refined tree: what is laid unless bars slide."""
        return self._tree("refined_tree", 4 * (self._points + len(self.pins)))

    def slid_tree(self) -> Tree:
        """The refined tree with its slanted edges bent, and its bars moved where that saves."""
        return self._tree("slid_tree", 8 * (self._points + len(self.pins)))

    def best_tree(self) -> Tree:
        """A best tree of up to 5 pins and 16 macros: none along the grid costs less."""
        is_small = len(self.pins) <= BEST_PINS and len(self.macros) <= BEST_MACROS
        lines = len(self.pins) + 2 * len(self.macros) if is_small else 0
        work = (_WORD * (BEST_WORK if is_small else 0))()
        return self._tree("best_tree", 4 * lines * lines, work, len(work))

    def lower_bound(self) -> int:
        """A cost that no level and upright metal outside the macros undercuts if it joins all pins: a tree of that cost is a cheapest."""
        left, rows, bound = (_WORD * BOUND_LEFT)(), (_COST * BOUND_ROWS)(), _COST()
        self._call("lower_bound", left, len(left), rows, len(rows), bound)
        return bound.value

    def wires(self) -> List[Edge]:
        """The wires of the refined tree, level and upright, in the order in which they are drawn."""
        numbers, count = (_INT * (8 * (self._points + len(self.pins))))(), _SIZE()
        self._call("wires", numbers, len(numbers), count)
        return _edges(numbers, count.value)

    def grid_distances(self) -> List[List[int]]:
        """What metal in unit steps between every two pins costs at least, pins in the order of places: up to 16 pins and 16 macros."""
        m = len(self.pins)
        # A larger net is refused before anything that is lent is looked at.
        table, count = (_LONG * (m * m if m <= GRID_PINS else 0))(), _SIZE()
        self._call("grid_distances", table, len(table), count)
        return [table[m * row : m * row + m] for row in range(m)]

    def delays(self, driver: Iterable[Any], resistance: float, capacitance: float) -> List[PinDelay]:
        """The Elmore delay of the refined tree from a driver, which is a pin, to each pin, in the order of places."""
        x, y = _row("driver", driver, (2,))
        numbers, count = (_FLOAT * len(self.pins))(), _SIZE()
        self._call("delay", x, y, resistance, capacitance, numbers, len(numbers), count)
        places = sorted(pin[:2] for pin in self.pins)
        return [PinDelay(*place, delay) for place, delay in zip(places, numbers)]

    def price(self, bands: Iterable[Any]) -> int:
        """What a bureau charges for the metal by bands, each (limit, rate), in hundredths of the currency."""
        pairs = [[_whole(number, 64, signed=False) for number in band] for band in bands]
        if any(len(pair) != 2 for pair in pairs):
            raise ValueError("a band has 2 numbers, its limit and its rate")
        flat = [number for pair in pairs for number in pair]
        charge = _RATE()
        self._call("price", (_RATE * len(flat))(*flat), len(flat), charge)
        return charge.value

    def check_tree(self, edges: Iterable[Any]) -> Passed:
        """Whether a tree of another router passes: `Refused` by 33 to 35 where not. An edge is four numbers, from either end."""
        flat = [number for edge in edges for number in _row("tree's edge", edge, (4,))]
        cost, metal = _LONG(), _LONG()
        self._call("check_tree", (_INT * len(flat))(*flat), len(flat), cost, metal)
        return Passed(cost.value, metal.value)

    def to_file(self) -> bytes:
        """The net's file, which keeps the order of both lists."""
        space, given = (_BYTE * LONGEST_FILE)(), _SIZE()
        self._call("write_file", space, len(space), given)
        return bytes(space[: given.value])

    @staticmethod
    def from_file(data: bytes) -> "Net":
        """The net of a file's bytes."""
        pins, macros = (_INT * (3 * PINS))(), (_INT * (4 * MACROS))()
        m, k, x, y = _SIZE(), _SIZE(), _INT(), _INT()
        space = (_BYTE * len(data)).from_buffer_copy(data) if data else (_BYTE * 0)()
        number = _lib.calzundi_read_file(space, len(data), pins, len(pins), macros, len(macros), m, k, x, y)
        if number:
            raise Refused(number)
        rows = [pins[3 * at : 3 * at + 3] for at in range(m.value)]
        boxes = [macros[4 * at : 4 * at + 4] for at in range(k.value)]
        return Net(rows, boxes, (x.value, y.value))
