"""The services of the proved library: a drive stored as its Lyndon grammar, checked, read back and searched.

    >>> import sirbolta
    >>> table = sirbolta.build(b"abab", chair=40)
    >>> table.locate(b"ab")
    [0, 2]

A text is a drive, as it was recorded or rearranged: at most 2,047 samples of one byte. A pattern is 1 to 2,047 samples. Both are bytes, or any buffer of
single bytes. Samples are compared as signed numbers, a byte of 128 or more meaning itself minus 256.

A drive may be rearranged to steps before its table is built: the first sample is kept, and each later one becomes a step, its difference from the one
before, modulo 256. The table does not say that it holds steps; the caller says so, by `steps=True`, to the functions that search. A pattern of m samples is
then searched by its m - 1 steps, and found at each position of the drive, as it was before it was rearranged, from which the same steps follow. The kept
first sample is never a step. Cuts and tests are those of the m - 1 steps, taken as a pattern. Every other function takes the text as it stands.

    >>> table = sirbolta.build(sirbolta.to_steps(bytes([5, 7, 9, 3, 5])), chair=40)
    >>> table.locate(bytes([0, 2]), steps=True)
    [0, 1, 3]

A profile drive is that of a switch joystick: byte 0 is rest, 1 to 8 are the headings. It is not empty, begins and ends at rest, and has no byte above 8, read
as an unsigned number. A profile table is the table of such a drive, and every function takes it. `build_profile` and `check_profile` refuse all other drives
and tables.

A table is a `Table`, which `build`, `build_profile` and `to_signed` answer, or any buffer with a table's words: single bytes, four a word and the lowest
first, or unsigned words of 32 bits. It is read where it stands; only where its words are not aligned to four bytes, or stand apart, it is copied. A sequence
of whole numbers is taken too, and made into words at each call. Nothing may write to a buffer while a call reads it: the answer may then be wrong, or the
process crash.

A former table is one that was built while samples were compared as unsigned numbers. `to_signed` takes former tables and no others; every other function
raises NotATable for them, unless all samples of the text are below 128 or none is: the two orders then give the same table.

Each service answers from its arguments alone, or raises the refusal whose check is met first, a subclass of `Refusal`. `WorkTooShort` and
`ResultTooShort` are never met: this package lends slices that are long enough. Before the library is called, an argument of another type raises
TypeError; a negative number, a word or chair number with too many bits, or bytes that are no whole number of words raise ValueError. The q of a
census may be any whole number: `OddWindow` says which are refused.

Threads may call at the same time, and the interpreter's lock is free while the library works. A thread has one work slice of 64 KiB for all its calls.
`read`, `locate` and `census` take up to 280 KiB of stack. On a thread that was started with a stack below 512 KiB they raise RuntimeError and call nothing;
on any other so much must be left, which is not looked at: calls nested very deeply in Python can use it up.

The library is the file that the environment variable SIRBOLTA_LIBRARY names, or else `libsirbolta.so` inside this package, or else the one in the
repository's target/lib. One with another interface number, or without a function that is called here, is not loaded: ImportError.
"""

from __future__ import annotations

import ctypes
from array import array
from collections.abc import Iterable, Iterator, Mapping, Sequence, Set
from itertools import islice
from operator import index
from typing import TYPE_CHECKING, Any, NoReturn, SupportsIndex, Union

from ._native import INTERFACE, WORK as _WORK, Reply as _Reply, SearchReply as _SearchReply
from ._native import enough_stack as _enough_stack, library as _library, work as _work
from .refusals import (
    BadWord, NoStep, NotATable, NotAtRest, OddWindow, OffHeading, PatternEmpty, PatternTooLong, RangePastEnd, Refusal, ResultTooShort, TableLength,
    TextTooLong, WorkTooShort, refusal as _refusal,
)

if TYPE_CHECKING:
    from _typeshed import ReadableBuffer as Buffer
else:
    Buffer = object

__all__ = [
    "INTERFACE", "Table", "build", "check", "read", "extract", "count", "count_with_tests", "count_each", "locate", "locate_with_tests", "live_cuts",
    "lyndon_length", "lyndon_array", "to_signed", "to_steps", "from_steps", "build_profile", "check_profile", "census",
    "Refusal", "TextTooLong", "PatternEmpty", "PatternTooLong", "WorkTooShort", "TableLength", "BadWord", "NotATable", "RangePastEnd", "ResultTooShort",
    "NoStep", "OffHeading", "NotAtRest", "OddWindow",
]

Samples = Buffer
Words = Union["Table", Buffer, Sequence[int]]

_SAMPLES = 2_047
_TABLE = 4_608
_CUTS = 11
_RUNS = 16_320  # bytes: 2,040 runs of 8 samples
_Bytes = ctypes.c_uint8 * _SAMPLES
_Numbers = ctypes.c_uint32 * _SAMPLES
_TableWords = ctypes.c_uint32 * _TABLE
_Cuts = ctypes.c_uint32 * _CUTS
_Runs = ctypes.c_uint8 * _RUNS
_AT_ONCE = 100  # tables that `count_each` hands over by one call: some 2 ms for 1,400 samples each, in which no signal is looked at
_LARGEST = 2**64 - 1  # of a start, a length, a position or the q of a census; no text reaches as far, so a larger number is refused alike


class Table:
    """A table: its words as bytes, four a word and the lowest first, which do not change.

    It is made by `build`, `build_profile` or `to_signed`, or from the words of a table; whether they are one, the services say, not this class. It is equal to a
    table of the same words, may be a key or a member of a set, is pickled, and goes as a BLOB into a database of `sqlite3`, from where its bytes come back.

    >>> table = build(b"abab", chair=40)
    >>> Table(bytes(table)) == table
    True
    >>> list(table.words[:2]) == [0, 0xC0000028]
    True
    """

    __slots__ = ("_bytes",)
    _bytes: bytes

    def __new__(cls, words: Words) -> Table:
        table = super().__new__(cls)
        object.__setattr__(table, "_bytes", words._bytes if isinstance(words, Table) else words if type(words) is bytes else _view(words).tobytes())
        _in_words(len(table._bytes))
        return table

    @property
    def words(self) -> memoryview:
        """The words as numbers, not copied."""
        return memoryview(self._bytes).cast("I")

    def check(self) -> int:
        """How many rules it has: `sirbolta.check`."""
        return check(self)

    def read(self) -> tuple[bytes, int]:
        """Its text and its chair number: `sirbolta.read`."""
        return read(self)

    def extract(self, start: int, length: int) -> bytes:
        """A part of its text: `sirbolta.extract`."""
        return extract(self, start, length)

    def count(self, pattern: Samples, *, steps: bool = False) -> int:
        """How often the pattern is found: `sirbolta.count`."""
        return count(self, pattern, steps=steps)

    def count_with_tests(self, pattern: Samples, *, steps: bool = False) -> tuple[int, int]:
        """The same, and how many tests the search made: `sirbolta.count_with_tests`."""
        return count_with_tests(self, pattern, steps=steps)

    def locate(self, pattern: Samples, *, steps: bool = False) -> list[int]:
        """The positions at which the pattern is found: `sirbolta.locate`."""
        return locate(self, pattern, steps=steps)

    def locate_with_tests(self, pattern: Samples, *, steps: bool = False) -> tuple[list[int], int]:
        """The same, and how many tests the search made: `sirbolta.locate_with_tests`."""
        return locate_with_tests(self, pattern, steps=steps)

    def lyndon_length(self, position: int) -> int:
        """The length of the longest Lyndon word that begins at a position of its text: `sirbolta.lyndon_length`."""
        return lyndon_length(self, position)

    def lyndon_array(self) -> list[int]:
        """The length of the longest Lyndon word that begins at each position of its text: `sirbolta.lyndon_array`."""
        return lyndon_array(self)

    def to_signed(self) -> Table:
        """The table of the text and the chair number of this former table: `sirbolta.to_signed`."""
        return to_signed(self)

    def check_profile(self) -> int:
        """How many rules it has, if it is a profile table: `sirbolta.check_profile`."""
        return check_profile(self)

    def census(self, q: int) -> list[tuple[bytes, int]]:
        """The runs of q samples of its text, each with how often it begins there: `sirbolta.census`."""
        return census(self, q)

    def __bytes__(self) -> bytes:
        return self._bytes

    def __eq__(self, other: object) -> bool:
        if not isinstance(other, Table):
            return NotImplemented
        return self._bytes == other._bytes

    def __hash__(self) -> int:
        return hash(self._bytes)

    def __reduce__(self) -> tuple[type[Table], tuple[bytes]]:
        return type(self), (self._bytes,)

    def __conform__(self, protocol: object) -> bytes:
        """What `sqlite3` stores."""
        return self._bytes

    def __setattr__(self, name: str, value: object) -> NoReturn:
        raise AttributeError("a table does not change")

    def __delattr__(self, name: str) -> NoReturn:
        raise AttributeError("a table does not change")

    def __repr__(self) -> str:
        return f"<sirbolta.Table of {len(self._bytes) // 4} words>"


def build(text: Samples, chair: int) -> Table:
    """The table of a text and a chair number from 0 to 65,535. Refusals: TextTooLong.

    >>> build(b"abab", chair=40)
    <sirbolta.Table of 12 words>
    """
    return _built(_library.sirbolta_build, text, chair)


def check(table: Words) -> int:
    """How many rules a table has. Refusals: TableLength, BadWord, NotATable.

    >>> check(build(b"abab", chair=40))
    6
    >>> check([0, 0xC0000000, 257, 0xC0000000])
    Traceback (most recent call last):
    sirbolta.refusals.BadWord: refused 6: word 2 of the table is bad
    """
    return _counted(_reply_to(table, _library.sirbolta_check, _work(), _WORK))


def read(table: Words) -> tuple[bytes, int]:
    """The text and the chair number of a table. Refusals: those of `check`.

    >>> read(build(b"abab", chair=40))
    (b'abab', 40)
    """
    _enough_stack()
    result = _Bytes()
    reply = _reply_to(table, _library.sirbolta_read, _work(), _WORK, result, _SAMPLES)
    return ctypes.string_at(result, _counted(reply)), reply.chair


def extract(table: Words, start: int, length: int) -> bytes:
    """The part of the text that begins at start and has length samples. Refusals: those of `check`, RangePastEnd.

    >>> extract(build(b"abab", chair=40), start=1, length=2)
    b'ba'
    """
    start, length = min(_number(start, "start"), _LARGEST), min(_number(length, "length"), _LARGEST)
    result = _Bytes()
    return ctypes.string_at(result, _counted(_reply_to(table, _library.sirbolta_extract, start, length, _work(), _WORK, result, _SAMPLES)))


def count(table: Words, pattern: Samples, *, steps: bool = False) -> int:
    """How often the pattern begins in the text or, where the table holds steps, is found in the drive, overlapping occurrences included. Refusals: PatternEmpty,
    PatternTooLong, NoStep, those of `check`.

    >>> count(build(b"aaaa", chair=40), b"aa")
    3
    >>> count(build(to_steps(b"abac"), chair=40), b"xy", steps=True)
    1
    """
    return count_with_tests(table, pattern, steps=steps)[0]


def count_with_tests(table: Words, pattern: Samples, *, steps: bool = False) -> tuple[int, int]:
    """How often the pattern is found, as `count` says, and how many tests the search made.

    A test is a pair rule of the table, one with a left and a right half, together with a cut of the pattern that `live_cuts` lists, where the left half has at
    least as many symbols as the pattern has samples before the cut, and the right half at least as many as it has from the cut on. Symbols are the samples and the
    mark, which stands before them. A rule counts once, however often its string stands in the text. A pattern of one sample has no test; one of m samples in a text
    of n has at most n + 2 - m, none where that would be negative. Where the table holds steps, the pattern's m - 1 steps are the pattern here: at most n + 3 - m.

    >>> count_with_tests(build(b"abab", chair=40), b"ab")
    (2, 3)
    """
    samples, form = _samples(pattern), _form(steps)
    reply = _reply_to(table, _library.sirbolta_count, form, samples, len(samples), _work(), _WORK)
    return _counted(reply), reply.tests


def count_each(tables: Iterable[Words], pattern: Samples, *, steps: bool = False) -> list[int]:
    """How often the pattern is found in each table: `count` of each in turn, a hundred by one call of the library; all hold samples, or all hold steps. A table that
    is neither a `Table` nor bytes is copied. It answers counts alone, without the tests. Refusals: that of the first table which is refused; its `table` is the index
    of this table.

    >>> count_each([build(b"aaaa", chair=40), build(b"abab", chair=40)], b"aa")
    [3, 0]
    """
    samples, form, rest = _samples(pattern), _form(steps), iter(tables)
    counts: list[int] = []
    while True:
        words, error = _gathered(rest)
        number = len(words)
        starts, lengths, replies = (ctypes.c_char_p * number)(*words), (ctypes.c_size_t * number)(*[len(each) // 4 for each in words]), (_SearchReply * number)()
        _library.sirbolta_count_each(starts, lengths, number, form, samples, len(samples), _work(), _WORK, replies)
        for reply in replies:
            if reply.number:
                raise _refusal(reply.number, reply.place, len(counts))
            counts.append(reply.count)
        if error is not None:
            try:
                raise error
            finally:
                del error  # else it would keep its traceback, and that this call with its tables
        if number < _AT_ONCE:
            return counts


def locate(table: Words, pattern: Samples, *, steps: bool = False) -> list[int]:
    """The positions at which the pattern begins in the text or, where the table holds steps, is found in the drive, rising, each once. Refusals: those of `count`.

    >>> locate(build(b"aaaa", chair=40), b"aa")
    [0, 1, 2]
    >>> locate(build(to_steps(b"abac"), chair=40), b"yx", steps=True)
    [1]
    """
    return locate_with_tests(table, pattern, steps=steps)[0]


def locate_with_tests(table: Words, pattern: Samples, *, steps: bool = False) -> tuple[list[int], int]:
    """The positions at which the pattern is found, as `locate` lists them, and how many tests the search made, as `count_with_tests` says.

    >>> locate_with_tests(build(b"abab", chair=40), b"ab")
    ([0, 2], 3)
    """
    _enough_stack()
    samples, form, result = _samples(pattern), _form(steps), _Numbers()
    reply = _reply_to(table, _library.sirbolta_locate, form, samples, len(samples), _work(), _WORK, result, _SAMPLES)
    return result[: _counted(reply)], reply.tests


def live_cuts(pattern: Samples) -> list[int]:
    """The live cuts of the pattern that a search tries, rising, each once, at most 11. Refusals: PatternEmpty, PatternTooLong.

    A cut splits the pattern before a sample that is not the first; its tail is the samples from there on. It is live if its tail is not the greater where it first
    differs from any other cut's tail. A live cut is left out if the samples from an earlier cut up to it are a Lyndon word, and its tail begins with that word and is
    longer: where a pattern straddles the join of a rule's two halves, it is never cut there.

    >>> live_cuts(b"aaba")
    [1, 3]
    >>> live_cuts(b"aaaa")
    [1, 3]
    """
    samples, result = _samples(pattern), _Cuts()
    return result[: _counted(_library.sirbolta_live_cuts(samples, len(samples), result, _CUTS))]


def lyndon_length(table: Words, position: int) -> int:
    """The length of the longest Lyndon word that begins at a position of the text. Refusals: those of `check`; RangePastEnd where it has no such position.

    A Lyndon word is not empty, and smaller than each of its proper suffixes but the empty one; samples are compared as signed numbers, and a proper prefix is smaller.

    >>> lyndon_length(build(b"abab", chair=40), position=2)
    2
    """
    return _counted(_reply_to(table, _library.sirbolta_lyndon_length, min(_number(position, "position"), _LARGEST), _work(), _WORK))


def lyndon_array(table: Words) -> list[int]:
    """The length of the longest Lyndon word that begins at each position of the text. Refusals: those of `check`.

    >>> lyndon_array(build(b"abab", chair=40))
    [2, 1, 2, 1]
    """
    result = _Numbers()
    return result[: _counted(_reply_to(table, _library.sirbolta_lyndon_array, _work(), _WORK, result, _SAMPLES))]


def to_signed(table: Words) -> Table:
    """The table of the text and the chair number of a former table. Refusals: those of `check`; NotATable where no text and chair number has this former table.

    >>> former = [0, 0xC0000028, 256, 0xC0000000, 0x40000000, 0x80000001, 2, 0xC0000000, 0x40000002, 0x80000003]
    >>> to_signed(former) == build(bytes([255, 1]), chair=40)
    True
    >>> check(former)
    Traceback (most recent call last):
    sirbolta.refusals.NotATable: refused 7: no text and chair number has this table, in the order by which it is judged
    """
    result = _TableWords()
    return Table(ctypes.string_at(result, 4 * _counted(_reply_to(table, _library.sirbolta_to_signed, _work(), _WORK, result, _TABLE))))


def to_steps(drive: Samples) -> bytes:
    """A drive rearranged to steps: its first sample, then the step to each later one. Refusals: TextTooLong.

    >>> list(to_steps(bytes([5, 7, 9, 3, 5])))
    [5, 2, 2, 250, 2]
    """
    samples, result = _samples(drive), _Bytes()
    return ctypes.string_at(result, _counted(_library.sirbolta_to_steps(samples, len(samples), result, _SAMPLES)))


def from_steps(steps: Samples) -> bytes:
    """The drive that `to_steps` rearranges to these steps. Refusals: TextTooLong.

    >>> list(from_steps(bytes([5, 2, 2, 250, 2])))
    [5, 7, 9, 3, 5]
    """
    samples, result = _samples(steps), _Bytes()
    return ctypes.string_at(result, _counted(_library.sirbolta_from_steps(samples, len(samples), result, _SAMPLES)))


def build_profile(text: Samples, chair: int) -> Table:
    """The table of a profile drive and a chair number from 0 to 65,535, as `build` makes it. Refusals: TextTooLong, OffHeading, NotAtRest.

    >>> build_profile(bytes([0, 1, 2, 1, 0]), chair=40).locate(bytes([1]))
    [1, 3]
    >>> build_profile(bytes([0, 9, 1]), chair=40)
    Traceback (most recent call last):
    sirbolta.refusals.OffHeading: refused 11: byte 1 of the text is above 8, so neither rest nor a heading
    """
    return _built(_library.sirbolta_build_profile, text, chair)


def check_profile(table: Words) -> int:
    """How many rules a profile table has. Refusals: those of `check`; OffHeading and NotAtRest where its text is no profile drive.

    >>> check_profile(build(bytes([0, 1, 2, 1, 0]), chair=40))
    9
    >>> check_profile(build(bytes([0, 1]), chair=40))
    Traceback (most recent call last):
    sirbolta.refusals.NotAtRest: refused 12: the text is empty, or does not begin and end at rest
    """
    return _counted(_reply_to(table, _library.sirbolta_check_profile, _work(), _WORK))


def census(table: Words, q: int) -> list[tuple[bytes, int]]:
    """Every run of q samples, 1 to 8, that stand in the text one after the other, each run once, in the order of signed samples, with how often it begins in the text,
    overlapping ones included. The numbers add up to the text's length - q + 1, or to 0 where it has fewer than q samples. Refusals: OddWindow for any other q,
    those of `check`.

    >>> census(build(b"abab", chair=40), q=2)
    [(b'ab', 2), (b'ba', 1)]
    >>> census(build(bytes([1, 255, 1]), chair=40), q=1)
    [(b'\\xff', 1), (b'\\x01', 2)]
    >>> census(build(b"abab", chair=40), q=9)
    Traceback (most recent call last):
    sirbolta.refusals.OddWindow: refused 13: the runs of a census have 1 to 8 samples
    """
    _enough_stack()
    window, runs, counts = min(max(_whole(q, "q"), 0), _LARGEST), _Runs(), _Numbers()
    number = _counted(_reply_to(table, _library.sirbolta_census, window, _work(), _WORK, runs, _RUNS, counts, _SAMPLES))
    samples = ctypes.string_at(runs, window * number)
    return [(samples[start : start + window], count) for start, count in zip(range(0, len(samples), window), counts)]


def _built(service: Any, text: Samples, chair: int) -> Table:
    """The table that a service builds of a text and a chair number."""
    samples, result = _samples(text), _TableWords()
    reply = service(samples, len(samples), _number(chair, "the chair number", 16), _work(), _WORK, result, _TABLE)
    return Table(ctypes.string_at(result, 4 * _counted(reply)))


def _counted(reply: _Reply | _SearchReply) -> int:
    """The count of a reply, or its refusal raised."""
    if reply.number:
        raise _refusal(reply.number, reply.place)
    return reply.count


def _samples(value: Samples) -> bytes:
    if type(value) is bytes:  # a subclass may say another length than it has
        return value
    try:
        view = memoryview(value)
    except TypeError:
        raise TypeError(f"samples are bytes, not {type(value).__name__}") from None
    with view:
        if view.itemsize != 1:
            raise TypeError("samples are single bytes")
        return view.tobytes()


def _form(steps: bool) -> int:
    """What tables hold, as the library is told it."""
    if not isinstance(steps, bool):
        raise TypeError(f"steps is True or False, not {type(steps).__name__}")
    return int(steps)


def _gathered(tables: Iterator[Words]) -> tuple[list[bytes], Exception | None]:
    """The words of the next tables, and what was raised behind them."""
    words: list[bytes] = []
    try:
        for table in islice(tables, _AT_ONCE):
            words.append(table._bytes if isinstance(table, Table) else Table(table)._bytes)
    except Exception as error:
        return words, error
    return words, None


def _reply_to(table: Words, service: Any, *arguments: Any) -> Any:
    """The reply of a service to a table, whose words are lent where they stand if the library can read them there, and to further arguments."""
    if isinstance(table, Table):
        return service(table._bytes, len(table._bytes) // 4, *arguments)
    if type(table) is bytes:
        return service(table, _in_words(len(table)), *arguments)
    with _view(table) as view:
        aligned = view.c_contiguous and (address := _address(view)) % 4 == 0
        return service(address if aligned else view.tobytes(), view.nbytes // 4, *arguments)


def _in_words(length: int) -> int:
    """How many words so many bytes are."""
    if length % 4:
        raise ValueError(f"a table has four bytes a word, so not {length} bytes")
    return length // 4


def _view(table: Words) -> memoryview:
    """The words of a buffer, or those of a sequence of numbers. Text, what has no order and what can be gone through only once are no table."""
    try:
        view = memoryview(table)  # type: ignore[arg-type]
    except TypeError:
        if isinstance(table, (str, Mapping, Set, Iterator)) or not isinstance(table, Iterable):
            raise TypeError(f"a table is a Table, a buffer or a sequence of 32-bit words, not {type(table).__name__}") from None
        return memoryview(array("I", [_number(word, "a word of a table", 32) for word in table]))
    try:
        if view.itemsize != 1 and not (view.itemsize == 4 and view.format.lstrip("@=<") in ("I", "L")):
            raise TypeError(f"a table's buffer has single bytes or unsigned words of 32 bits, not the format {view.format}")
        _in_words(view.nbytes)
    except Exception:
        view.release()
        raise
    return view


def _address(view: memoryview) -> int:
    """Where a view without gaps begins. It is there as long as the view is kept."""
    buffer = (ctypes.c_void_p * 10)()  # a Py_buffer: ten words, the first of them the address
    ctypes.pythonapi.PyObject_GetBuffer(ctypes.py_object(view), buffer, 0)
    address = buffer[0] or 0
    ctypes.pythonapi.PyBuffer_Release(buffer)
    return address


def _whole(value: SupportsIndex, name: str) -> int:
    """A whole number. True and False are none."""
    if isinstance(value, bool) or not hasattr(value, "__index__"):
        raise TypeError(f"{name} is a whole number, not {type(value).__name__}")
    return index(value)


def _number(value: SupportsIndex, name: str, bits: int | None = None) -> int:
    """A whole number that is not negative, with at most so many bits."""
    number = _whole(value, name)
    if number < 0:
        raise ValueError(f"{name} is negative")
    if bits is not None and number >> bits:
        raise ValueError(f"{name} has more than {bits} bits")
    return number
