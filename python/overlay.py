"""The plan overlay: up to six layers of upright rectangles in whole millimetres, edges included, laid over each other.

Its table has every combination of one rectangle a layer that has a common point, each once, in a fixed order. The work is done by a library that is proved to
answer so; this module is its face for Python, and docs/MANUAL.md of the repository says what each answer means on site.

    >>> import overlay
    >>> plan = overlay.Plan([[(0, 0, 1000, 1000), (1000, 0, 2000, 500)], [(500, 500, 1500, 1500)]])
    >>> run = plan.run(100)
    >>> list(run.rows), run.trials, str(run.ground)
    ([(0, 0), (1, 0)], 4, '0.25')
    >>> [len(page.rows) for page in plan.pages(budget=2, rows=10)]
    [1, 1]
    >>> plan.common((1, 0))
    Common(rect=Rect(left=1000, bottom=500, right=1500, top=500), kind='E')

A plan is accepted when it is made, so the calls on it are refused only for what is handed to them beside it; `Refused` says why. Wherever numbers are taken,
they may stand in lists and tuples or in anything with the buffer protocol, such as an array or a numpy array of any shape.

The library is liboverlay.so. It is looked for in the folder that the environment names by OVERLAY_LIB, else in target/staticlib of the repository or below the
prefix of an installed module, then where the system looks. A library of another version is refused when the module is imported.
"""

import ctypes
import ctypes.util
import enum
import os
from array import array
from pathlib import Path
from typing import Iterable, Iterator, List, NamedTuple, Optional, Sequence, Tuple

VERSION = 14
"""The version of the interface that this module is written for."""

MOST_LAYERS = 6
"""The most layers of a plan."""

MOST_SIZE = 512
"""The most rectangles of a layer."""

MOST_COORDINATE = 10_000_000
"""The greatest coordinate in millimetres, either way of 0."""

MOST_MARGIN = 50_000
"""The greatest margin in millimetres."""

MOST_ROWS = 1_000_000
"""The most rows of one table."""

MOST_CLIENTS = 16
"""The most clients of a round."""

MOST_TEXT = 138_343
"""The bytes of the longest plan text."""

WEEK = 10_080
"""The minutes of a week, where the last window ends."""


class Cause(enum.IntEnum):
    """What refuses a call: the first of its checks that fails, by its number in the manual. `text` says it in words."""

    LAYERS = 1
    SIZES = 2
    CELLS = 3
    RECT = 4
    ORDER = 5
    TICKET = 6
    ROWS = 7
    ORDER_LENGTH = 8
    FORM = 9
    COUNT = 10
    ROOM = 11
    TEXT_LENGTH = 12
    INPUT = 13
    BOX = 14
    FEW_LAYERS = 15
    SEGMENTS = 16
    MARGINS = 17
    STALE = 18
    WORK = 19
    RECORD = 20
    STRIP = 21
    ROUND = 22
    PLACES = 23
    HOURS = 24

    @property
    def text(self) -> str:
        """What it means, in words."""
        return _TEXTS[self]


_TEXTS = {
    Cause.LAYERS: "the plan has not 2 to 6 layers",
    Cause.SIZES: "a layer has more than 512 rectangles, or one past the last has some; or more than 512 records are kept",
    Cause.CELLS: "the cells are not four for each rectangle",
    Cause.RECT: "a coordinate is not from -10000000 to 10000000, left is greater than right or bottom greater than top",
    Cause.ORDER: "the order is not the sweep order of the plan",
    Cause.TICKET: "the ticket is none of this plan",
    Cause.ROWS: "there are more rows than the table takes",
    Cause.ORDER_LENGTH: "the order buffer has not one cell for each rectangle",
    Cause.FORM: "the text is not well formed",
    Cause.COUNT: "the text is well formed, but layers or rectangles are miscounted, or a number is out of range or out of order",
    Cause.ROOM: "the cells are too few",
    Cause.TEXT_LENGTH: "the text is longer than the buffer",
    Cause.INPUT: "the input has more than 65536 bytes",
    Cause.BOX: "the box has left greater than right, bottom greater than top or a coordinate out of range",
    Cause.FEW_LAYERS: "the plan has fewer than three layers",
    Cause.SEGMENTS: "the last two layers are not segments without margin: east to west (bottom = top) in the last but one, north to south (left = right) in the last",
    Cause.MARGINS: "a margin is greater than 50000, or a layer past the last has one",
    Cause.STALE: "the ticket is not the newest of its run, or the run record is not one sound cell",
    Cause.WORK: "the work buffer is shorter than two cells for each row",
    Cause.RECORD: "the corners are not four a record, or one is not finite, out of order or beyond ten million",
    Cause.STRIP: "a stop is not finite, the lower one of a strip is greater than the upper one, or a kind is greater than 3",
    Cause.ROUND: "a round has not 1 to 16 clients, or its first client, its budget or its records are wrong",
    Cause.PLACES: "there is not one place for each layer, or a place is not in its layer",
    Cause.HOURS: "there is not one window for each rectangle, or one does not end behind its start within the week of 10080 minutes",
}


class Refused(ValueError):
    """A call was refused, and nothing was changed by it. `cause` says why."""

    def __init__(self, cause: Cause):
        super().__init__(f"{cause.text} ({cause.value})")
        self.cause = cause


def _check(number: int) -> None:
    """Raises what a number says."""
    if number:
        raise Refused(Cause(number))


class Rect(NamedTuple):
    """An upright rectangle in millimetres, its edges included. A segment or a point is one too."""

    left: int
    bottom: int
    right: int
    top: int


class Row(NamedTuple):
    """What the row call tells of a row: the layer of its left guard, from 1, and the area of its common ground in square millimetres."""

    layer: int
    area: int


class Common(NamedTuple):
    """The common ground of a row, margins included, and its kind: G for ground, E for an edge, P for a point."""

    rect: Rect
    kind: str


class Near(NamedTuple):
    """What lies nearest in a layer: its place, and the square of the gap in square millimetres."""

    place: int
    squared_gap: int


class Window(NamedTuple):
    """Minutes of the week: the first that is in it, and the first after it."""

    start: int
    end: int


class Layer(NamedTuple):
    """A layer: its rectangles as they are drawn, and the distance in millimetres that is kept around each of them."""

    rects: Sequence[Rect]
    margin: int = 0


class Total(NamedTuple):
    """A sum of areas, exact: whole square metres and a rest below 1,000,000 square millimetres. Shown in square metres, half a hundredth up."""

    metres: int
    rest: int

    @property
    def square_millimetres(self) -> int:
        """The same in square millimetres."""
        return self.metres * 1_000_000 + self.rest

    def __add__(self, other: "Total") -> "Total":
        return Total(*divmod(self.square_millimetres + other.square_millimetres, 1_000_000))

    def __str__(self) -> str:
        hundredths = (self.rest + 5_000) // 10_000
        return f"{self.metres + hundredths // 100}.{hundredths % 100:02}"


class Stop(enum.IntEnum):
    """Why a page stopped."""

    ENDED = 1
    """All rows have been handed out."""
    FULL = 2
    """It has as many rows as were asked for."""
    SPENT = 3
    """The budget is used up."""


class Rows(Sequence):
    """Rows in the order of the table: of each the place of its rectangle in each layer, from 0, layer 1 first, as a tuple.

    `cells` has the places of all, one row after the other, as unsigned 32-bit cells with the buffer protocol.
    """

    __slots__ = ("layers", "cells")

    def __init__(self, layers: int, cells: array):
        self.layers = layers
        self.cells = cells

    def __len__(self) -> int:
        return len(self.cells) // self.layers

    def __getitem__(self, at):
        if isinstance(at, slice):
            return [self[i] for i in range(*at.indices(len(self)))]
        if not -len(self) <= at < len(self):
            raise IndexError("no such row")
        start = self.layers * (at % len(self))
        return tuple(self.cells[start : start + self.layers])

    def __eq__(self, other) -> bool:
        return isinstance(other, Rows) and (self.layers, self.cells) == (other.layers, other.cells)

    def __repr__(self) -> str:
        return f"Rows({list(self)!r})"


class Page(NamedTuple):
    """What a page brought: why it stopped, its rows, how many trials it did, and the sum of its rows' areas, ground under two rows counted twice."""

    stop: Stop
    rows: Rows
    trials: int
    area: Total


class Run(NamedTuple):
    """What a whole run brought: all rows, the trials of the walk, the sum of the rows' areas, and their ground counted once."""

    rows: Rows
    trials: int
    area: Total
    ground: Total


class CrossingReport(NamedTuple):
    """A whole run over segments, and how many rows have each class, 0 to 16."""

    run: Run
    counts: Tuple[int, ...]


class Served(NamedTuple):
    """What a client got in a round: the client, from 1, its page, and its ticket for what is due next."""

    client: int
    page: Page
    ticket: "Ticket"


def _flat(values) -> Iterator:
    """The numbers of nested sequences, one after the other."""
    if isinstance(values, str):
        raise TypeError("numbers are wanted, not a str")
    for value in values:
        if hasattr(value, "__iter__"):
            yield from _flat(value)
        else:
            yield value


def _cells(code: str, values) -> array:
    """The numbers, whatever holds them, as cells of a type code."""
    try:
        view = memoryview(values)
    except TypeError:
        view = None
    if view is None or view.format != code:
        return array(code, _flat(values.tolist() if isinstance(values, memoryview) else values))
    cells = array(code)
    cells.frombytes(view.tobytes())
    return cells


def _zeros(code: str, length: int) -> array:
    """So many cells, all 0."""
    cells = array(code)
    cells.frombytes(bytes(cells.itemsize * length))
    return cells


_NOTHING = array("Q", [0])


def _at(cells: array) -> ctypes.c_void_p:
    """Where cells lie; never null."""
    return ctypes.c_void_p((cells if cells else _NOTHING).buffer_info()[0])


def _lent(cells: array) -> tuple:
    """Cells as a call takes them: where they lie and how many there are."""
    return _at(cells), len(cells)


_LENGTH, _POINTER, _U32, _U64 = ctypes.c_size_t, ctypes.c_void_p, ctypes.c_uint32, ctypes.c_uint64
_SLICE = (_POINTER, _LENGTH)
_PLAN = (_U32, _POINTER, _POINTER, *_SLICE)

_CALLS = {
    "version": (),
    "plan_cause": _PLAN,
    "make_order": (*_PLAN, *_SLICE),
    "order_cause": (*_PLAN, *_SLICE),
    "row": (*_PLAN, *_SLICE, _POINTER),
    "row_common": (*_PLAN, *_SLICE, _POINTER),
    "nearest": (*_PLAN, _POINTER, _POINTER),
    "apart_pair": (*_PLAN, *_SLICE, _POINTER),
    "row_hours": (*_PLAN, *_SLICE, *_SLICE, _POINTER),
    "fresh_ticket": (*_PLAN, *_SLICE, _POINTER, *_SLICE),
    "fetch_page": (*_PLAN, *_SLICE, _POINTER, *_SLICE, _U32, *_SLICE, _POINTER),
    "timed_page": (*_PLAN, *_SLICE, *_SLICE, _POINTER, *_SLICE, _U32, *_SLICE, _POINTER),
    "round": (*_PLAN, *_SLICE, _U32, _U32, _U64, _POINTER, *_SLICE, *_SLICE, _POINTER, _POINTER),
    "run_all": (*_PLAN, *_SLICE, *_SLICE, *_SLICE, _POINTER),
    "timed_run": (*_PLAN, *_SLICE, *_SLICE, *_SLICE, *_SLICE, _POINTER),
    "row_class": (*_PLAN, *_SLICE, _POINTER),
    "crossing_report": (*_PLAN, *_SLICE, *_SLICE, *_SLICE, _POINTER, _POINTER),
    "read_text": (*_SLICE, *_SLICE, _POINTER, _POINTER, _POINTER),
    "write_text": (*_PLAN, *_SLICE, _POINTER),
    "cover_records": (_POINTER, _POINTER, *_SLICE, *_SLICE, _POINTER),
}


def _library() -> ctypes.CDLL:
    """The library, of this version and with the types of its calls."""
    here, named = Path(__file__).resolve().parent, os.environ.get("OVERLAY_LIB")
    usual = [(here / way).resolve() for way in ("../target/staticlib", "../../../lib")]
    paths = [Path(folder) / "liboverlay.so" for folder in ([named] if named else usual)]
    found = next((str(path) for path in paths if path.exists()), None) or ctypes.util.find_library("overlay")
    if found is None:
        raise ImportError(f"no liboverlay.so in {paths[0].parent}, nor where the system looks: OVERLAY_LIB names its folder")
    library = ctypes.CDLL(found)
    if not hasattr(library, f"overlay_version_{VERSION}"):
        raise ImportError(f"{found} has another version than {VERSION}")
    for name, types in _CALLS.items():
        call = getattr(library, f"overlay_{name}")
        call.argtypes, call.restype = types, _U32
    return library


_OVERLAY = _library()


def version() -> int:
    """The version of the library."""
    return _OVERLAY.overlay_version()


class Ticket:
    """What names the trial that is due next in a run, and how many it has done. Its cells may be stored and used later, with the same plan and record."""

    __slots__ = ("_cells",)

    def __init__(self, cells: Iterable[int]):
        self._cells = _cells("I", cells)
        if len(self._cells) != 12:
            raise ValueError("a ticket has twelve cells")

    @property
    def cells(self) -> Tuple[int, ...]:
        """Its twelve cells."""
        return tuple(self._cells)

    @property
    def ended(self) -> bool:
        """Whether all rows have been handed out."""
        return self._cells[0] == 1

    @property
    def count(self) -> int:
        """How many trials its run has done."""
        return self._cells[10] | self._cells[11] << 32

    def __eq__(self, other) -> bool:
        return isinstance(other, Ticket) and self._cells == other._cells

    def __repr__(self) -> str:
        return f"Ticket({self.cells!r})"


class Record:
    """The record of a run: the count of its newest ticket. A page with an earlier one is refused by 18."""

    __slots__ = ("_cells",)

    def __init__(self, count: int = 0):
        self._cells = array("Q", [count])

    @property
    def count(self) -> int:
        """The count that it holds."""
        return self._cells[0]

    def __repr__(self) -> str:
        return f"Record({self.count})"


def _page(layers: int, table: array, answer: Sequence[int]) -> Page:
    """The page of an answer's cells and a table."""
    stop, rows, trials, metres, rest = answer
    return Page(Stop(stop), Rows(layers, table[: layers * rows]), trials, Total(metres, rest))


def _table(layers: int, rows: int) -> array:
    """The cells of a table for so many rows; more than the most are never taken."""
    return _zeros("I", layers * min(rows, MOST_ROWS))


class _Walked:
    """What a plan and a timed plan share: pages and whole runs."""

    _page_call = _run_call = None

    def _walk(self) -> tuple:
        """The plan, its windows if it has some, and its order, as the calls on its walk take them."""
        raise NotImplementedError

    def begin(self) -> Tuple[Ticket, Record]:
        """The fresh ticket, and the record of a run that begins with it."""
        raise NotImplementedError

    def page(self, ticket: Ticket, record: Record, budget: int, rows: int) -> Page:
        """A page from a ticket on, of at most so many trials, up to 2^32 - 1, and so many rows.

        Ticket and record are left with what is due next, and as they were after a refusal.
        """
        if not 0 <= budget < 1 << 32:
            raise ValueError("a page's budget is from 0 to 2^32 - 1")
        table, answer = _table(self.k, rows), _zeros("Q", 5)
        run = (_at(ticket._cells), *_lent(record._cells))
        _check(self._page_call(*self._walk(), *run, budget, *_lent(table), _at(answer)))
        return _page(self.k, table, answer)

    def pages(self, budget: int = 1_000_000, rows: int = 10_000) -> "Pages":
        """All pages of a run, each of at most so many trials and so many rows, at least 1. Budgets of thousands are faster than small ones."""
        return Pages(self, budget, rows)

    def run(self, rows: int = 100_000) -> Run:
        """All rows, if there are no more than so many, and their ground counted once."""
        return self._run_by(self._run_call, rows)

    def _run_by(self, call, rows: int, *more) -> Run:
        """A whole run by a call."""
        table, answer = _table(self.k, rows), _zeros("Q", 6)
        work = _zeros("i", len(table))
        _check(call(*self._walk(), *_lent(table), *_lent(work), _at(answer), *more))
        count, trials, *sums = answer
        return Run(Rows(self.k, table[: self.k * count]), trials, Total(*sums[:2]), Total(*sums[2:]))


class Pages:
    """The pages of a run, from its fresh ticket to its end. `ticket` and `record` are enough to go on later, by `page` of the same plan."""

    def __init__(self, walked: _Walked, budget: int, rows: int):
        self._walked, self._budget, self._rows = walked, max(budget, 1), max(rows, 1)
        self._ended = False
        self.ticket, self.record = walked.begin()

    def __iter__(self) -> "Pages":
        return self

    def __next__(self) -> Page:
        if self._ended:
            raise StopIteration
        page = self._walked.page(self.ticket, self.record, self._budget, self._rows)
        self._ended = page.stop == Stop.ENDED
        return page


class Plan(_Walked):
    """A plan that is accepted, with its sweep order.

    Each layer is a `Layer`, or its rectangles alone where its margin is 0: rectangles of four numbers, left, bottom, right, top, in any nesting.
    """

    _page_call, _run_call = _OVERLAY.overlay_fetch_page, _OVERLAY.overlay_run_all

    def __init__(self, layers: Iterable):
        layers = [layer if isinstance(layer, Layer) else Layer(layer) for layer in layers]
        if len(layers) > MOST_LAYERS:
            raise Refused(Cause.LAYERS)
        try:
            drawn = [_cells("i", layer.rects) for layer in layers]
        except OverflowError:
            raise Refused(Cause.RECT) from None
        if any(len(cells) % 4 for cells in drawn):
            raise Refused(Cause.CELLS)
        past = [0] * (MOST_LAYERS - len(layers))
        sizes = [len(cells) // 4 for cells in drawn] + past
        self._make(len(layers), sizes, [layer.margin for layer in layers] + past, sum(drawn, array("i")))

    @classmethod
    def from_cells(cls, k: int, sizes, margins, cells) -> "Plan":
        """The plan of k layers with six sizes and margins, those past k 0, and its cells: four for each rectangle, layer 1 first."""
        plan = cls.__new__(cls)
        plan._make(k, sizes, margins, _cells("i", cells))
        return plan

    @classmethod
    def from_text(cls, text: bytes) -> "Plan":
        """The plan of a plan text."""
        text = _cells("B", text)
        cells, k, sizes, margins = _zeros("i", 12288), _zeros("I", 1), _zeros("I", 6), _zeros("I", 6)
        _check(_OVERLAY.overlay_read_text(*_lent(text), *_lent(cells), _at(k), _at(sizes), _at(margins)))
        return cls.from_cells(k[0], sizes, margins, cells[: 4 * sum(sizes)])

    def _make(self, k: int, sizes, margins, cells: array) -> None:
        """Takes what is accepted, and makes its order."""
        try:
            self.k, self._sizes, self._margins = _cells("I", [k])[0], _cells("I", sizes), _cells("I", margins)
        except OverflowError:
            raise Refused(Cause.MARGINS) from None
        if len(self._sizes) != 6 or len(self._margins) != 6:
            raise ValueError("there are six sizes and six margins")
        self._drawn, self._order = cells, array("I")
        _check(_OVERLAY.overlay_plan_cause(*self._plan()))
        self._order = _zeros("I", len(cells) // 4)
        _check(_OVERLAY.overlay_make_order(*self._plan(), *_lent(self._order)))

    def _plan(self) -> tuple:
        """The plan as a call takes it."""
        return self.k, _at(self._sizes), _at(self._margins), *_lent(self._drawn)

    def _walk(self) -> tuple:
        return *self._plan(), *_lent(self._order)

    @property
    def text(self) -> bytes:
        """Its text."""
        text, size = _zeros("B", MOST_TEXT), _zeros("Q", 1)
        _check(_OVERLAY.overlay_write_text(*self._plan(), *_lent(text), _at(size)))
        return text[: size[0]].tobytes()

    @property
    def layers(self) -> List[Layer]:
        """Its layers."""
        cells = iter(self._drawn)
        rects = (Rect(*four) for four in zip(cells, cells, cells, cells))
        layer = lambda i: Layer([next(rects) for _ in range(self._sizes[i])], self._margins[i])
        return [layer(i) for i in range(self.k)]

    def row(self, places: Sequence[int]) -> Optional[Row]:
        """What places name in the table: None where they are no row."""
        answer = _zeros("Q", 2)
        places = _places(places)
        _check(_OVERLAY.overlay_row(*self._plan(), *_lent(places), _at(answer)))
        return Row(*answer) if answer[0] else None

    def common(self, places: Sequence[int]) -> Optional[Common]:
        """The common ground of the row that places name: None where they are no row."""
        answer = _zeros("i", 5)
        places = _places(places)
        _check(_OVERLAY.overlay_row_common(*self._plan(), *_lent(places), _at(answer)))
        return Common(Rect(*answer[:4]), chr(answer[4])) if answer[4] else None

    def nearest(self, around: Sequence[int]) -> List[Optional[Near]]:
        """What lies nearest to a box in each layer, None in one without rectangles. The box is taken as it is, rectangles with their margins."""
        answer = _zeros("Q", 18)
        try:
            box = _cells("i", around)
        except OverflowError:
            raise Refused(Cause.BOX) from None
        if len(box) != 4:
            raise ValueError("a box has left, bottom, right and top")
        _check(_OVERLAY.overlay_nearest(*self._plan(), _at(box), _at(answer)))
        return [Near(*answer[i + 1 : i + 3]) if answer[i] else None for i in range(0, 3 * self.k, 3)]

    def apart_pair(self, places: Sequence[int]) -> Optional[Tuple[int, int]]:
        """The first pair of layers, from 1, whose rectangles at these places do not meet: None where all of them share a point."""
        answer = _zeros("Q", 2)
        places = _places(places)
        _check(_OVERLAY.overlay_apart_pair(*self._plan(), *_lent(places), _at(answer)))
        return tuple(answer) if answer[0] else None

    def begin(self) -> Tuple[Ticket, Record]:
        ticket, record = Ticket([0] * 12), Record()
        _check(_OVERLAY.overlay_fresh_ticket(*self._walk(), _at(ticket._cells), *_lent(record._cells)))
        return ticket, record

    def timed(self, windows) -> "Timed":
        """The plan with a window of the week for each rectangle, two numbers, in the order of the layers and of the places in them."""
        return Timed(self, windows)

    def clients(self, count: int) -> "Clients":
        """So many clients, 1 to 16, that page through the plan in rounds, each in a run of its own."""
        return Clients(self, count)

    def row_class(self, places: Sequence[int]) -> Optional[int]:
        """The class of the row that places name, 0 to 16, for a plan whose last two layers are segments: None where they are no row."""
        told = _zeros("I", 1)
        places = _places(places)
        _check(_OVERLAY.overlay_row_class(*self._plan(), *_lent(places), _at(told)))
        return told[0] if told[0] < 17 else None

    def crossing_report(self, rows: int = 100_000) -> CrossingReport:
        """All rows, if there are no more than so many, and how many of them have each class."""
        counts = _zeros("I", 17)
        run = self._run_by(_OVERLAY.overlay_crossing_report, rows, _at(counts))
        return CrossingReport(run, tuple(counts))


def _places(places: Sequence[int]) -> array:
    """Places as cells. Numbers that no cell holds are places of no layer, as the greatest cell is."""
    return array("I", [place if 0 <= place < 1 << 32 else (1 << 32) - 1 for place in _flat(places)])


class Timed(_Walked):
    """A plan with windows that are accepted. Its rows are those of the plan whose windows share a minute."""

    _page_call, _run_call = _OVERLAY.overlay_timed_page, _OVERLAY.overlay_timed_run

    def __init__(self, plan: Plan, windows):
        try:
            self._hours = _cells("I", windows)
        except OverflowError:
            raise Refused(Cause.HOURS) from None
        self.plan, self.k = plan, plan.k
        self.hours(())

    def _walk(self) -> tuple:
        return *self.plan._plan(), *_lent(self._hours), *_lent(self.plan._order)

    def begin(self) -> Tuple[Ticket, Record]:
        return self.plan.begin()

    def hours(self, places: Sequence[int]) -> Optional[Window]:
        """The minutes that the windows of the row share which places name: None where they are no row, or share no minute."""
        answer = _zeros("I", 2)
        places = _places(places)
        _check(_OVERLAY.overlay_row_hours(*self.plan._plan(), *_lent(self._hours), *_lent(places), _at(answer)))
        return Window(*answer) if answer[1] else None


class Clients:
    """Clients of one plan, each in a run of its own, served in rounds. The one that is served `first` changes from round to round."""

    def __init__(self, plan: Plan, count: int):
        if not 1 <= count <= MOST_CLIENTS:
            raise Refused(Cause.ROUND)
        ticket, record = plan.begin()
        self._plan, self._records = plan, array("Q", [record.count] * count)
        self._tickets = _cells("I", ticket.cells * MOST_CLIENTS)
        self.first = 1

    def round(self, budget: int, rows: int) -> List[Served]:
        """Serves each client a page of at most so many rows, and all of them together at most so many trials, up to 2^32 - 1."""
        if not 0 <= budget < 1 << 64:
            raise Refused(Cause.ROUND)
        clients, part = len(self._records), self._plan.k * min(rows, MOST_ROWS)
        table, coming, answer = _zeros("I", part * clients), _zeros("I", 1), _zeros("Q", 80)
        turn = (clients, self.first, budget, _at(self._tickets), *_lent(self._records))
        _check(_OVERLAY.overlay_round(*self._plan._walk(), *turn, *_lent(table), _at(coming), _at(answer)))
        self.first = coming[0]
        page = lambda i: _page(self._plan.k, table[part * i : part * (i + 1)], answer[5 * i : 5 * i + 5])
        return [Served(i + 1, page(i), Ticket(self._tickets[12 * i : 12 * i + 12])) for i in range(clients)]


def _strip(stops) -> Tuple[int, List[float]]:
    """The kind of a strip, and its stops as a call takes them."""
    low, high = stops
    return (low is not None) + 2 * (high is not None), [low or 0.0, high or 0.0]


def cover_records(corners, across=(None, None), upward=(None, None)) -> List[Rect]:
    """The smallest rectangles in whole millimetres that contain the records which meet both strips, in their order.

    A record is left, bottom, right and top in millimetres; each has to be sound, kept or not. A strip is its lower and its upper stop, None where it has none.

        >>> cover_records([(1000.2, 500.0, 1250.7, 750.4), (20000.25, 100.0, 20300.0, 300.0)], across=(0, 20000))
        [Rect(left=1000, bottom=500, right=1251, top=751)]
    """
    (a, sides), (b, ends) = _strip(across), _strip(upward)
    kinds, stops, corners = array("I", [a, b]), array("d", sides + ends), _cells("d", corners)
    cells, kept = _zeros("i", 4 * MOST_SIZE), _zeros("Q", 1)
    _check(_OVERLAY.overlay_cover_records(_at(kinds), _at(stops), *_lent(corners), *_lent(cells), _at(kept)))
    return [Rect(*cells[i : i + 4]) for i in range(0, 4 * kept[0], 4)]
