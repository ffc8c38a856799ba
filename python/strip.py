"""The rectangle filter for strip scanners, from Python: one module over the shared library, with no other dependency.

    import strip

    table = strip.Table.read("tables/even.table")
    pixels = strip.filter_scan(table, samples, width=640)      # a whole scan: an array of 32-bit numbers, row after row
    for row in strip.filter_rows(table, sensor_rows):          # or row by row, as the rows come in
        ...
    strip.pixel(table, samples, 10, 20, width=640)             # one pixel
    strip.rank_scan(strip.Window.centred(5, 5), 13, samples, width=640)    # the median of 5 by 5
    strip.compare(table, other)                                # None where two tables do the same

Samples are 16-bit numbers. Any object with a buffer goes in: an array.array("H"), a numpy array of dtype uint16 and memory in C order, a
ctypes array; it is lent to the library as it is, with no copy, where it is writable. What is read-only or has another type (bytes, a list, an
array of uint8) is copied first. A whole scan is one buffer of rows; a buffer of two dimensions has its own width. What comes out is an
array.array("i"), which numpy.asarray takes without a copy.

What the library refuses is raised as Refused, with the number of the refusal, the place and the words for it. docs/RULES.md of the product
has the rules behind every number.

The library is the file named by the environment's STRIP_LIBRARY, or build/libstrip.so of the folder that this module came in, or the one that
is installed.
"""
from __future__ import annotations

import array
import ctypes
import ctypes.util
import os
import pathlib
from typing import Any, Callable, Iterable, Iterator, NamedTuple, Optional, Sequence, Tuple, Union

__all__ = ["DEAD", "EMPTY", "Difference", "RankedScan", "Rectangle", "Refused", "Scan", "Table", "Window", "check", "compare", "filter_rows", "filter_scan",
           "pixel", "rank_rows", "rank_scan", "words"]

DEAD = 65535
"""A sample that says: this element of the sensor failed. It counts as the nearest live sample to its left in its row, or as zero."""

EMPTY = -1
"""The level of a place with no sample of the scan under the ranked window."""

Samples = Any
"""16-bit samples: an object with a buffer, or a sequence of numbers."""

_SENTENCES = (
    # sentences
    "",
    "the file does not begin with the header 01 00 06",
    "a field is cut off",
    "b is not from 1 to 12",
    "q1 is not below b, or q2 or q3 is above 8",
    "t is above 31, or w is not from 8 to 32",
    "there are more than 16 rectangles",
    "a field does not begin with 02 00 06",
    "a lead is not from -15 to 15, a trail not from -16 to 14, or a trail is not below its lead",
    "there is no rectangle",
    "the largest or the smallest pixel does not fit w bits",
    "the table is not one that loading accepts",
    "the width is not from 1 to 1024",
    "a store or an output is too short",
    "the numbers of the scan do not agree",
    "the scan is closed, or at a closing step it is not",
    "65535 rows are in",
    "the number of samples does not go with the width",
    "a sample is above 2^b - 1 and not 65535, the mark of a dead one",
    "a column sum, a count or a pixel cannot be: the stores or the scan are not those of the last call",
    "the row or the column is outside the scan",
    "samples handed over together are no whole rows",
    "the rank is 0 or above the number of samples that the window covers",
    "b is above 8, the most that a ranked window takes",
    "the two tables differ in b, t or w",
    "one of the two tables drops bits",
    # end
)


def words(number: int) -> str:
    """What the number of a refusal means; empty for 0 and for a number that no call gives."""
    return _SENTENCES[number] if 0 <= number < len(_SENTENCES) else ""


class Refused(ValueError):
    """The library refused a call, and what it was called on is as it was. `number`: the refusal; `place`: where, 0 unless the rules say otherwise;
    `words`: what the number means. Of several rows handed over together, where those before a refused one count: `row`, which one it is, from 0,
    and `pixels`, what came out before it."""

    def __init__(self, number: int, place: int, row: Optional[int] = None, pixels: Optional[array.array[int]] = None) -> None:
        self.number, self.place, self.words, self.row, self.pixels = number, place, words(number), row, pixels
        super().__init__(f"refused, {number} at {place}{'' if row is None else f' of row {row}'}: {self.words}")


# ---- tables

class Rectangle(NamedTuple):
    """For the pixel at row r, column c it covers rows r + trailrow + 1 to r + leadrow and columns c + trailcol + 1 to c + leadcol."""
    leadrow: int
    leadcol: int
    trailrow: int
    trailcol: int
    weight: int


class Table(NamedTuple):
    """b bits a sample, drops q1, q2 and q3, shift t, pixel word of w bits, and 1 to 16 rectangles. Any numbers may stand here that its fields can
    hold in C; whether it is a table that the library takes, its calls decide (refusal 11)."""
    b: int
    q1: int
    q2: int
    q3: int
    t: int
    w: int
    rectangles: Tuple[Rectangle, ...]

    @classmethod
    def load(cls, data: Union[bytes, bytearray, memoryview]) -> Table:
        """The table of a file's bytes; Refused with 1 to 10 where they are none."""
        lent = _lend_bytes(data)
        answer = _library().strip_table_load(lent, len(lent))
        _asked(answer)
        return cls._of(answer.table)

    @classmethod
    def read(cls, path: Union[str, os.PathLike[str]]) -> Table:
        """The table of the file at a path; Refused with 1 to 10 where it is none."""
        return cls.load(pathlib.Path(path).read_bytes())

    def file(self) -> bytes:
        """The bytes of the table's file; Refused with 11 where loading would not accept it."""
        out = (ctypes.c_uint8 * _FILE_MOST)()
        answer = _library().strip_table_write(self._struct(), out, len(out))
        _asked(answer)
        return bytes(out[:answer.length])

    @property
    def delay(self) -> int:
        """D: how many rows a filtered row comes after the row it belongs to; the largest lead row, or 0."""
        return max([0, *(r.leadrow for r in self.rectangles)])

    @classmethod
    def _of(cls, t: _Table) -> Table:
        rects = tuple(Rectangle(r.leadrow, r.leadcol, r.trailrow, r.trailcol, r.weight) for r in t.rects[:t.count])
        return cls(t.b, t.q1, t.q2, t.q3, t.t, t.w, rects)

    def _struct(self) -> _Table:
        head = [_fitting(n, 0, 255, "a header number") for n in self[:6]]
        if len(self.rectangles) > _RECTS:
            raise Refused(11, 0)
        rects = (_Rect * _RECTS)()
        for k, r in enumerate(self.rectangles):
            rects[k] = _Rect(*(_fitting(e, -128, 127, "an edge") for e in r[:4]), _fitting(r[4], -32768, 32767, "a weight"))
        return _Table(*head, len(self.rectangles), rects)


def check(data: Union[bytes, bytearray, memoryview]) -> int:
    """0 where the bytes are those of a table file that loading accepts, else the number of the refusal."""
    lent = _lend_bytes(data)
    return int(_library().strip_table_check(lent, len(lent)))


# ---- scans

class _Running:
    """What a scan and a ranked scan have in common: a state, stores, and the calls that take both."""

    _prefix: str
    _scan: Any
    width: int

    def row(self, samples: Samples) -> Optional[array.array[int]]:
        """Takes in a row. The row that is due with it, or None while the first is waited for; Refused with 15 to 18."""
        lent = _lend_samples(samples)[0]
        return self._moved("row", lent, len(lent))[1]

    def close(self) -> None:
        """No row follows; Refused with 15 where the scan is closed already."""
        answer = getattr(_library(), self._prefix + "close")(self._scan)
        _asked(answer)
        self._scan = answer.scan

    def rest(self) -> Iterator[array.array[int]]:
        """The rows that are still due after closing; Refused with 15 where the scan is not closed."""
        while True:
            kind, row = self._moved("step")
            if kind == _DONE:
                return
            if row is not None:
                yield row

    def _stores(self) -> Tuple[Any, ...]:
        """The stores, each with its length."""
        raise NotImplementedError

    def _moved(self, call: str, *lent: Any) -> Tuple[int, Optional[array.array[int]]]:
        """A row or a closing step: what kind its answer is, and the row that came out with it."""
        out = _pixels(self.width)
        answer = getattr(_library(), self._prefix + call)(self._scan, *lent, *self._stores(), *_lend_out(out))
        if answer.kind == _REFUSED:
            raise Refused(answer.number, answer.place)
        self._scan = answer.scan
        return answer.kind, out if answer.kind == _ROW else None


class Scan(_Running):
    """A scan row by row: its state and its two stores. A refused call leaves it as it was."""

    _prefix = "strip_scan_"

    def __init__(self, table: Table, width: int) -> None:
        """Starts a scan of rows of `width` samples; Refused with 11 or 12."""
        self._samples = (ctypes.c_uint16 * (_KEPT_ROWS * _room(width)))()
        self._sums = (ctypes.c_uint32 * (len(table.rectangles) * _room(width)))()
        answer = _library().strip_scan_start(table._struct(), _fitting(width, 0, _SIZE_MOST, "a width"), *self._stores())
        _asked(answer)
        self.table, self.width, self._scan = table, width, answer.scan

    def rows(self, samples: Samples) -> array.array[int]:
        """Takes in several rows together, and answers the pixels of the rows that are due with them, row after row; Refused with 15 or 21. At a
        refused row, 16 or 18, those before it are in, and Refused has its `row` and the `pixels` so far."""
        lent = _lend_samples(samples)[0]
        out = _pixels(len(lent))
        answer = self._burst(lent, *_lend_out(out))
        pixels = out[:self.width * answer.filtered]
        if answer.refusal:
            raise Refused(answer.refusal, answer.place, answer.taken, pixels)
        return pixels

    def _stores(self) -> Tuple[Any, ...]:
        return self._samples, len(self._samples), self._sums, len(self._sums)

    def _burst(self, lent: Any, out: Any, n: int) -> Any:
        """Hands several rows over together."""
        answer = _library().strip_scan_rows(self._scan, lent, len(lent), *self._stores(), out, n)
        self._scan = answer.scan
        return answer


def filter_rows(table: Table, rows: Iterable[Samples]) -> Iterator[array.array[int]]:
    """The filtered rows of a scan, as many as it has rows, each as soon as it is due: `table.delay` rows after its own, the last ones when the rows
    have ended. The first row gives the width."""
    return _through(lambda width: Scan(table, width), rows)


def filter_scan(table: Table, samples: Samples, width: Optional[int] = None, out: Any = None) -> Any:
    """The pixels of a whole scan, row after row: an array of as many 32-bit numbers as there are samples. `width`: the samples of a row, which a
    buffer of two dimensions has itself. `out`: a buffer of 32-bit numbers to be filled and handed back instead. Refused with 11, 12 or 21, or at a row, its
    `row`, with 16 or 18."""
    lent, width = _lend_scan(samples, width)
    pixels = _pixels(len(lent)) if out is None else out
    place, n = _lend_out(pixels, len(lent))
    scan = Scan(table, width)
    answer = scan._burst(lent, place, n)
    if answer.refusal:
        raise Refused(answer.refusal, answer.place, answer.taken)
    scan.close()
    for k, row in enumerate(scan.rest(), answer.filtered):
        ctypes.memmove(ctypes.addressof(place) + 4 * k * width, row.buffer_info()[0], 4 * width)
    return pixels


def pixel(table: Table, samples: Samples, row: int, column: int, width: Optional[int] = None) -> int:
    """The pixel at one place of a scan that is lent whole; Refused with 11, 12, 17, 18 or 20. It reads the whole scan: for many pixels use filter_scan."""
    lent, width = _lend_scan(samples, width)
    row, column = (_fitting(n, 0, _SIZE_MOST, "a place") for n in (row, column))
    answer = _library().strip_pixel(table._struct(), width, lent, len(lent), row, column)
    _asked(answer)
    return int(answer.value)


# ---- ranked windows

class Window(NamedTuple):
    """For the place at row r, column c it covers rows r + trailrow + 1 to r + leadrow and columns c + trailcol + 1 to c + leadcol."""
    leadrow: int
    leadcol: int
    trailrow: int
    trailcol: int

    @classmethod
    def centred(cls, rows: int, columns: int) -> Window:
        """The window of so many rows and columns around its place; of an even number the one more lies below, and to the right."""
        return cls(rows // 2, columns // 2, rows // 2 - rows, columns // 2 - columns)


class RankedScan(_Running):
    """A ranked scan row by row: its state and its three stores. A refused call leaves it as it was."""

    _prefix = "strip_rank_"

    def __init__(self, window: Window, rank: int, width: int, b: int = 8) -> None:
        """Starts a ranked scan of rows of `width` samples of b bits; Refused with 3, 23, 8, 22 or 12."""
        self._samples = (ctypes.c_uint16 * (_KEPT_ROWS * _room(width)))()
        self._counts = (ctypes.c_uint16 * (_LEVELS * _room(width)))()
        self._windows = (ctypes.c_uint16 * _LEVELS)()
        edges = _Window(*(_fitting(e, -128, 127, "an edge") for e in window))
        answer = _library().strip_rank_start(_fitting(b, 0, 255, "b"), edges, _fitting(rank, 0, 2**32 - 1, "a rank"),
                                             _fitting(width, 0, _SIZE_MOST, "a width"), *self._stores())
        _asked(answer)
        self.window, self.rank, self.b, self.width, self._scan = window, rank, b, width, answer.scan

    def _stores(self) -> Tuple[Any, ...]:
        return tuple(x for store in (self._samples, self._counts, self._windows) for x in (store, len(store)))


def rank_rows(window: Window, rank: int, rows: Iterable[Samples], b: int = 8) -> Iterator[array.array[int]]:
    """The rows of levels of a ranked scan, each as soon as it is due. The first row gives the width."""
    return _through(lambda width: RankedScan(window, rank, width, b), rows)


def rank_scan(window: Window, rank: int, samples: Samples, width: Optional[int] = None, b: int = 8) -> array.array[int]:
    """The levels of a whole scan, row after row: at each place the sample of this rank, from the darkest on, among those under the window and inside
    the scan; the largest of them where there are fewer, EMPTY where there is none. Refused with 3, 23, 8, 22, 12, 16, 17 or 18."""
    lent, width = _lend_scan(samples, width)
    scan, view, levels = RankedScan(window, rank, width, b), memoryview(lent), _pixels(0)
    for k in range(0, len(lent), width):
        try:
            levels.extend(scan.row(view[k:k + width]) or ())
        except Refused as refused:
            raise Refused(refused.number, refused.place, k // width) from None
    scan.close()
    for row in scan.rest():
        levels.extend(row)
    return levels


# ---- two tables compared

class Difference(NamedTuple):
    """Two tables do not do the same: at this offset from the pixel, -15 to 15, the first with the top row first and left to right, their weights
    differ. `scan`: 31 rows of 31 samples on which their values at the centre, row 15 and column 15, differ too."""
    row: int
    column: int
    scan: array.array[int]


def compare(one: Table, other: Table) -> Optional[Difference]:
    """None where two tables give the same values on every scan, else where they differ; Refused with 11, 24 (b, t or w differ) or 25 (drops)."""
    scan = array.array("H", bytes(2 * _SPOT))
    answer = _library().strip_same(one._struct(), other._struct(), (ctypes.c_uint16 * _SPOT).from_buffer(scan), _SPOT)
    _asked(answer)
    return None if answer.same else Difference(answer.row, answer.col, scan)


# ---- what the library is lent and hands back

_RECTS, _KEPT_ROWS, _WIDTH_MOST, _FILE_MOST, _LEVELS, _SPOT = 16, 32, 1024, 153, 256, 961
_REFUSED, _ROW, _WAITING, _DONE = 0, 1, 2, 3
_SIZE_MOST = 2**64 - 1


class _Rect(ctypes.Structure):
    _fields_ = [("leadrow", ctypes.c_int8), ("leadcol", ctypes.c_int8), ("trailrow", ctypes.c_int8), ("trailcol", ctypes.c_int8), ("weight", ctypes.c_int16)]


class _Table(ctypes.Structure):
    _fields_ = [(name, ctypes.c_uint8) for name in ("b", "q1", "q2", "q3", "t", "w")] + [("count", ctypes.c_size_t), ("rects", _Rect * _RECTS)]


class _Scan(ctypes.Structure):
    _fields_ = [("table", _Table), ("width", ctypes.c_size_t), ("rows", ctypes.c_uint32), ("steps", ctypes.c_uint32), ("closed", ctypes.c_bool)]


class _Window(ctypes.Structure):
    _fields_ = [(name, ctypes.c_int8) for name in ("leadrow", "leadcol", "trailrow", "trailcol")]


class _Rank(ctypes.Structure):
    _fields_ = [("window", _Window), ("b", ctypes.c_uint8), ("rank", ctypes.c_uint32), ("width", ctypes.c_size_t), ("rows", ctypes.c_uint32),
                ("steps", ctypes.c_uint32), ("closed", ctypes.c_bool)]


def _answer(name: str, *fields: Tuple[str, Any], head: Sequence[str] = ("refusal", "place")) -> Any:
    """The struct of an answer: numbers of 32 bits, then these fields."""
    return type(name, (ctypes.Structure,), {"_fields_": [(h, ctypes.c_uint32) for h in head] + list(fields)})


_Loaded = _answer("_Loaded", ("table", _Table))
_Written = _answer("_Written", ("length", ctypes.c_size_t))
_Started = _answer("_Started", ("scan", _Scan))
_Burst = _answer("_Burst", ("taken", ctypes.c_size_t), ("filtered", ctypes.c_size_t), ("scan", _Scan))
_Answer = _answer("_Answer", ("scan", _Scan), head=("kind", "number", "place"))
_Pixel = _answer("_Pixel", ("value", ctypes.c_int32))
_Same = _answer("_Same", ("same", ctypes.c_bool), ("row", ctypes.c_int32), ("col", ctypes.c_int32))
_RankStarted = _answer("_RankStarted", ("scan", _Rank))
_RankAnswer = _answer("_RankAnswer", ("scan", _Rank), head=("kind", "number", "place"))


def _signatures() -> dict[str, Tuple[Any, Sequence[Any]]]:
    """What each call hands back, and what it takes, as include/strip.h has it."""
    size = ctypes.c_size_t
    u8, u16, u32, i32 = ((ctypes.POINTER(t), size) for t in (ctypes.c_uint8, ctypes.c_uint16, ctypes.c_uint32, ctypes.c_int32))
    counts = (*u16, *u16, *u16)
    return {
        "strip_table_check": (ctypes.c_uint32, u8),
        "strip_table_load": (_Loaded, u8),
        "strip_table_write": (_Written, (_Table, *u8)),
        "strip_scan_start": (_Started, (_Table, size, *u16, *u32)),
        "strip_scan_row": (_Answer, (_Scan, *u16, *u16, *u32, *i32)),
        "strip_scan_rows": (_Burst, (_Scan, *u16, *u16, *u32, *i32)),
        "strip_scan_close": (_Started, (_Scan,)),
        "strip_scan_step": (_Answer, (_Scan, *u16, *u32, *i32)),
        "strip_pixel": (_Pixel, (_Table, size, *u16, size, size)),
        "strip_same": (_Same, (_Table, _Table, *u16)),
        "strip_rank_start": (_RankStarted, (ctypes.c_uint8, _Window, ctypes.c_uint32, size, *counts)),
        "strip_rank_row": (_RankAnswer, (_Rank, *u16, *counts, *i32)),
        "strip_rank_close": (_RankStarted, (_Rank,)),
        "strip_rank_step": (_RankAnswer, (_Rank, *counts, *i32)),
    }


_loaded: Optional[ctypes.CDLL] = None


def _library() -> ctypes.CDLL:
    """The shared library, found and declared at the first call."""
    global _loaded
    if _loaded is None:
        built = pathlib.Path(__file__).resolve().parent.parent / "build" / "libstrip.so"
        name = os.environ.get("STRIP_LIBRARY") or (str(built) if built.exists() else ctypes.util.find_library("strip"))
        if not name:
            raise OSError("libstrip.so is not there: run `make lib` or `make install`, or name it in STRIP_LIBRARY")
        library = ctypes.CDLL(name)
        for call, (result, arguments) in _signatures().items():
            function = getattr(library, call)
            function.restype, function.argtypes = result, list(arguments)
        _loaded = library
    return _loaded


def _asked(answer: Any) -> None:
    if answer.refusal:
        raise Refused(answer.refusal, answer.place)


def _fitting(n: int, low: int, high: int, what: str) -> int:
    """A number that its field in C can hold; another one is no refusal of the library, which it cannot reach."""
    if not low <= n <= high:
        raise ValueError(f"{what} is from {low} to {high}, not {n}")
    return n


def _room(width: int) -> int:
    """How many columns the stores are made for: none for a width that starting refuses."""
    return width if 0 < width <= _WIDTH_MOST else 0


def _pixels(n: int) -> array.array[int]:
    return array.array("i", bytes(4 * n))


def _flat(numbers: Any) -> Iterator[int]:
    """The numbers of a sequence, of a sequence of sequences and so on."""
    for x in numbers:
        if hasattr(x, "__iter__"):
            yield from _flat(x)
        else:
            yield x


def _lend_bytes(data: Union[bytes, bytearray, memoryview]) -> Any:
    view = memoryview(data).cast("B")
    return (ctypes.c_uint8 * len(view)).from_buffer_copy(view)


def _lend_samples(data: Samples) -> Tuple[Any, Optional[int]]:
    """The samples for the library, and their width where the buffer has two dimensions: the buffer itself where it is writable and of 16-bit
    numbers, else a copy."""
    try:
        view = memoryview(data)
    except TypeError:
        return _copied(data), None
    width = view.shape[1] if view.ndim == 2 and view.shape else None
    if view.format.lstrip("@=<") != "H" or view.itemsize != 2 or not view.c_contiguous:
        return _copied(data if view.format[0] in "<>=!" else view.tolist()), width
    kind = ctypes.c_uint16 * (view.nbytes // 2)
    return (kind.from_buffer_copy(view) if view.readonly else kind.from_buffer(view)), width


def _copied(numbers: Any) -> Any:
    try:
        copy = array.array("H", _flat(numbers))
    except OverflowError:
        raise ValueError("a sample is from 0 to 65535") from None
    return (ctypes.c_uint16 * len(copy)).from_buffer(copy)


def _lend_scan(samples: Samples, width: Optional[int]) -> Tuple[Any, int]:
    lent, own = _lend_samples(samples)
    width = own if width is None else width
    if width is None:
        raise ValueError("give the width: the samples are no buffer of two dimensions")
    if own is not None and width != own:
        raise ValueError(f"the width is {width}, but the rows of the buffer have {own} samples")
    return lent, _fitting(width, 0, _SIZE_MOST, "a width")


def _lend_out(out: Any, least: int = 0) -> Tuple[Any, int]:
    """A buffer of signed 32-bit numbers that the library writes to, and how many it has."""
    view = memoryview(out)
    if view.format.lstrip("@=<") not in ("i", "l") or view.itemsize != 4 or not view.c_contiguous or view.readonly:
        raise ValueError("the output is a writable buffer of signed 32-bit numbers")
    n = view.nbytes // 4
    if n < least:
        raise ValueError(f"the output has {n} places, and {least} are needed")
    return (ctypes.c_int32 * n).from_buffer(view), n


def _length(row: Samples) -> int:
    return len(_lend_samples(row)[0])


def _through(start: Callable[[int], _Running], rows: Iterable[Samples]) -> Iterator[array.array[int]]:
    """The rows that come out of a scan that is started with the width of its first row."""
    scan = None
    for row in rows:
        scan = scan or start(_length(row))
        out = scan.row(row)
        if out is not None:
            yield out
    if scan is not None:
        scan.close()
        yield from scan.rest()
