"""The C interface of Buckethare for Python, by ctypes alone (Python 3.8 or later).

A Library has a method for each function of buckethare.h, without the prefix bh_, and this module
has the header's constants without BH_. The header says what each function does and answers.

A method returns the answer, and with it what the C function puts into `out`: a number, or a tuple
of named numbers in the header's order. Arrays that a call changes (memory, image, state) are
lent, not copied: array('H'), array('I'), a ctypes array, or anything else with a writable buffer of
unsigned numbers of the right width. Arrays that are only read may be any sequence of numbers.

A number that is negative or too wide for its place raises OverflowError, an array of the wrong kind
TypeError, arrays of one call that overlap ValueError, and a library that isn't found OSError. A
refusal of the library raises nothing: it is the answer."""
from __future__ import annotations

import ctypes
import operator
from array import array
from typing import Any, Dict, List, NamedTuple, Sequence, Tuple, Union

VERSION = '0.16.0'
SONAME = 'libbuckethare.so.0.16'

# ---- the header's constants

DONE, STOPPED, BAD_ARGUMENT = 0, 1, 9
NO_MEMORY, BAD_PIXEL_SIZE, BAD_CONTROL, BAD_PITCH, BAD_WINDOW = 10, 11, 12, 13, 14
BAD_PLACE, BAD_START, PAST_END, BAD_SIZE, NO_CACHE = 15, 16, 17, 18, 19
BAD_FORM, BAD_NAME, BAD_VALUE, TOO_MANY, NO_POINT = 20, 21, 22, 23, 24

CYCLES_READ, CYCLES_WRITE = range(2)
INDIRECT, POSTINCREMENT, PREDECREMENT = range(3)

SETTINGS = 13
SADDR, SPTCH, DADDR, DPTCH, OFFSET, WSTART, WEND = range(7)
DYDX, COLOR0, COLOR1, CONTROL, PSIZE, PMASK, SEED = range(7, 14)

PIXEL_RESULTS = 4
PIXEL_VISITED, PIXEL_V, PIXEL_REQUEST, PIXEL_VALUE = range(4)

FILL_L, FILL_XY, PIXBLT_L_L, PIXBLT_L_XY = range(4)
PIXBLT_XY_L, PIXBLT_XY_XY, PIXBLT_B_L, PIXBLT_B_XY = range(4, 8)

DRAW_RESULTS = 7
DRAW_PLACE, DRAW_VISITED, DRAW_V, DRAW_REQUEST, DRAW_SADDR, DRAW_DADDR, DRAW_DYDX = range(7)

FILL_RESULTS = 4
FILL_SETUP, FILL_TRANSFER, FILL_ADJUSTMENT, FILL_STATES = range(4)

CACHE_NUMBERS = 12
CACHE_SEGMENT, CACHE_FLAGS, CACHE_ORDER = 0, 4, 8
CACHE_FRESH = (0, 0, 0, 0, 0, 0, 0, 0, 0, 1, 2, 3)
HIT, SUBSEGMENT_MISS, SEGMENT_MISS, DISABLED, REFUSED = 0, 1, 2, 3, 19

NAMES = 14
TABLE = 528
AXIS_NAME, AXIS_COUNT, AXIS_VALUES = range(3)
PLAN_RESULTS = 5
PLAN_LINE, PLAN_WORDS, PLAN_DRAW, PLAN_AXES, PLAN_POINTS = range(5)
LINE = 80

# ---- the header's functions

U8, U16, U32, U64 = ctypes.c_uint8, ctypes.c_uint16, ctypes.c_uint32, ctypes.c_uint64
SIZE = ctypes.c_size_t


class Array(NamedTuple):
    """A parameter that is an array: in C a pointer and a length."""
    kind: Any
    is_written: bool


BYTES, TEXT = Array(U8, True), Array(U8, False)
WORDS, READ_WORDS = Array(U16, True), Array(U16, False)
NUMBERS, READ_NUMBERS = Array(U32, True), Array(U32, False)
LONGS, READ_LONGS = Array(U64, True), Array(U64, False)

# What each takes and answers.
FUNCTIONS: Dict[str, Tuple[List[Any], Any]] = {
    'bh_field_read': ([READ_WORDS, U32, U32, U32, NUMBERS], U32),
    'bh_field_write': ([WORDS, U32, U32, U32], U32),
    'bh_field_cycles': ([U32, U32, NUMBERS], U32),
    'bh_move_states': ([U32, U32, U32, U32, U32, NUMBERS], U32),
    'bh_pixt_to_linear': ([WORDS, READ_NUMBERS, U32, U32, U32, NUMBERS], U32),
    'bh_pixt_to_xy': ([WORDS, READ_NUMBERS, U32, U32, U32, NUMBERS], U32),
    'bh_pixt_from_linear': ([READ_WORDS, READ_NUMBERS, U32, U32, NUMBERS], U32),
    'bh_pixt_from_xy': ([READ_WORDS, READ_NUMBERS, U32, U32, NUMBERS], U32),
    'bh_drav': ([WORDS, READ_NUMBERS, U32, U32, U32, NUMBERS], U32),
    'bh_draw': ([WORDS, U32, READ_NUMBERS, U64, U32, U64, LONGS], U32),
    'bh_outcome': ([SIZE, U32, READ_NUMBERS, U64, U32, U64, LONGS], U32),
    'bh_fill_states': ([SIZE, U32, READ_NUMBERS, LONGS], U32),
    'bh_fetch': ([NUMBERS, U32, U16, NUMBERS], U32),
    'bh_fill_image': ([WORDS, U64], U32),
    'bh_changed': ([READ_WORDS, READ_WORDS, LONGS], U32),
    'bh_plan_read': ([TEXT, LONGS, LONGS], U32),
    'bh_experiment': ([READ_LONGS, U64, U64, LONGS], U32),
    'bh_lines': ([READ_LONGS, U64, U64, U64, U64, WORDS, WORDS, BYTES, LONGS], U32),
    'bh_put_heading': ([BYTES, SIZE], SIZE),
    'bh_put_refused': ([BYTES, SIZE, U64, U64], SIZE),
}


class Settings(NamedTuple):
    """The thirteen settings; those that are not given are 0."""
    saddr: int = 0
    sptch: int = 0
    daddr: int = 0
    dptch: int = 0
    offset: int = 0
    wstart: int = 0
    wend: int = 0
    dydx: int = 0
    color0: int = 0
    color1: int = 0
    control: int = 0
    psize: int = 0
    pmask: int = 0


class Cycles(NamedTuple):
    """Memory cycles of a field move."""
    read: int
    write: int


class Pixel(NamedTuple):
    """The results of PIXT and DRAV; `value` is the one that each call names."""
    visited: int
    v: int
    request: int
    value: int


class Drawn(NamedTuple):
    """The results of a drawing."""
    place: int
    visited: int
    v: int
    request: int
    saddr: int
    daddr: int
    dydx: int


class FillTime(NamedTuple):
    """The time of a FILL, in machine states."""
    setup: int
    transfer: int
    adjustment: int
    states: int


class Plan(NamedTuple):
    """The results of reading a plan."""
    line: int
    words: int
    draw: int
    axes: int
    points: int


Buffer = Union['array[int]', bytearray, memoryview, 'ctypes.Array[Any]']
Numbers = Union[Buffer, bytes, Sequence[int]]
UNSIGNED = {U8: 'B', U16: 'H', U32: 'I', U64: 'QL'}


def number(kind: Any, value: int) -> Any:
    """A number as C takes it. (ctypes alone would cut off its high bits.)"""
    value = operator.index(value)
    if not 0 <= value < 256 ** ctypes.sizeof(kind):
        raise OverflowError(f'{value} is no number of {8 * ctypes.sizeof(kind)} bits')
    return kind(value)


def lend(parameter: Array, values: Numbers) -> Tuple[Any, int]:
    """A C array over the elements of a buffer, and its length. What is only read may be copied."""
    kind, width = parameter.kind, ctypes.sizeof(parameter.kind)
    try:
        view = memoryview(values)  # type: ignore[arg-type]
    except TypeError:
        if parameter.is_written:
            raise
        view = memoryview(array(UNSIGNED[kind][0], values))
    if view.itemsize != width or view.format.lstrip('@=<') not in UNSIGNED[kind]:
        raise TypeError(f'needed is an array of unsigned numbers of {8 * width} bits')
    length = view.nbytes // width
    if length == 0:
        return (kind * 1)(), 0  # a pointer may not be null
    if view.readonly and not parameter.is_written:
        return (kind * length).from_buffer_copy(view), length
    return (kind * length).from_buffer(view), length


def keep_apart(passed: Sequence[Any]) -> None:
    """Refuses arrays that overlap."""
    lent = [value for value in passed if isinstance(value, ctypes.Array)]
    places = sorted((ctypes.addressof(each), ctypes.sizeof(each)) for each in lent)
    for (start, size), (following, _) in zip(places, places[1:]):
        if following < start + size:
            raise ValueError('two arrays of one call overlap')


class Library:
    """The shared library, by its path or by the name under which the loader finds it."""

    def __init__(self, path: str = SONAME):
        self._c = ctypes.CDLL(path)
        for name, (parameters, answer) in FUNCTIONS.items():
            function = getattr(self._c, name)
            function.restype = answer
            function.argtypes = c_types(parameters)

    def _call(self, name: str, *values: Any) -> int:
        passed: List[Any] = []
        for parameter, value in zip(FUNCTIONS[name][0], values):
            if isinstance(parameter, Array):
                passed.extend(lend(parameter, value))
            else:
                passed.append(number(parameter, value))
        keep_apart(passed)
        return int(getattr(self._c, name)(*passed))

    # fields

    def field_read(self, memory: Numbers, address: int, size: int,
                   is_signed: bool = False) -> Tuple[int, int]:
        out = array('I', [0])
        answer = self._call('bh_field_read', memory, address, size, bool(is_signed), out)
        return answer, out[0]

    def field_write(self, memory: Buffer, address: int, size: int, value: int) -> int:
        return self._call('bh_field_write', memory, address, size, value)

    def field_cycles(self, address: int, size: int) -> Tuple[int, Cycles]:
        out = array('I', [0] * 2)
        return self._call('bh_field_cycles', address, size, out), Cycles(*out)

    def move_states(self, address: int, size: int, mode: int = INDIRECT, is_signed: bool = False,
                    is_cached: bool = False) -> Tuple[int, int]:
        out = array('I', [0])
        answer = self._call('bh_move_states', address, size, mode, bool(is_signed),
                            bool(is_cached), out)
        return answer, out[0]

    # single pixels

    def _pixel(self, name: str, *values: Any) -> Tuple[int, Pixel]:
        out = array('I', [0] * PIXEL_RESULTS)
        return self._call(name, *values, out), Pixel(*out)

    def pixt_to_linear(self, memory: Buffer, settings: Numbers, value: int, address: int,
                       v: int = 0) -> Tuple[int, Pixel]:
        return self._pixel('bh_pixt_to_linear', memory, settings, value, address, v)

    def pixt_to_xy(self, memory: Buffer, settings: Numbers, value: int, xy: int,
                   v: int = 0) -> Tuple[int, Pixel]:
        return self._pixel('bh_pixt_to_xy', memory, settings, value, xy, v)

    def pixt_from_linear(self, memory: Numbers, settings: Numbers, address: int,
                         v: int = 0) -> Tuple[int, Pixel]:
        return self._pixel('bh_pixt_from_linear', memory, settings, address, v)

    def pixt_from_xy(self, memory: Numbers, settings: Numbers, xy: int,
                     v: int = 0) -> Tuple[int, Pixel]:
        return self._pixel('bh_pixt_from_xy', memory, settings, xy, v)

    def drav(self, memory: Buffer, settings: Numbers, step: int, point: int,
             v: int = 0) -> Tuple[int, Pixel]:
        return self._pixel('bh_drav', memory, settings, step, point, v)

    # drawings

    def draw(self, memory: Buffer, operation: int, settings: Numbers, place: int = 0, v: int = 0,
             budget: int = 2 ** 64 - 1) -> Tuple[int, Drawn]:
        out = array('Q', [0] * DRAW_RESULTS)
        answer = self._call('bh_draw', memory, operation, settings, place, v, budget, out)
        return answer, Drawn(*out)

    def outcome(self, words: int, operation: int, settings: Numbers, place: int = 0, v: int = 0,
                budget: int = 2 ** 64 - 1) -> Tuple[int, Drawn]:
        out = array('Q', [0] * DRAW_RESULTS)
        answer = self._call('bh_outcome', words, operation, settings, place, v, budget, out)
        return answer, Drawn(*out)

    def fill_states(self, words: int, operation: int,
                    settings: Numbers) -> Tuple[int, FillTime]:
        out = array('Q', [0] * FILL_RESULTS)
        return self._call('bh_fill_states', words, operation, settings, out), FillTime(*out)

    # the instruction cache

    def fetch(self, state: Buffer, address: int, control: int = 0) -> Tuple[int, int]:
        """`state` is array('I', CACHE_FRESH) at first."""
        out = array('I', [0])
        return self._call('bh_fetch', state, address, control, out), out[0]

    # images

    def fill_image(self, memory: Buffer, seed: int) -> int:
        return self._call('bh_fill_image', memory, seed)

    def changed(self, before: Numbers, after: Numbers) -> Tuple[int, int]:
        out = array('Q', [0])
        return self._call('bh_changed', before, after, out), out[0]

    # plans

    def plan_read(self, text: bytes) -> Tuple[int, Plan, array[int]]:
        """The answer, the results, and the table of the axes."""
        table, out = array('Q', [0] * TABLE), array('Q', [0] * PLAN_RESULTS)
        answer = self._call('bh_plan_read', text, table, out)
        return answer, Plan(*out), table

    def experiment(self, table: Numbers, axes: int, point: int) -> Tuple[int, Tuple[int, ...]]:
        out = array('Q', [0] * NAMES)
        return self._call('bh_experiment', table, axes, point, out), tuple(out)

    def lines(self, table: Numbers, axes: int, draw: int, first: int, count: int, image: Buffer,
              memory: Buffer) -> Tuple[int, bytes]:
        """The answer, and the lines of these points. They are held at once: BH_LINE bytes each."""
        out, written = bytearray(LINE * number(U64, count).value), array('Q', [0])
        answer = self._call('bh_lines', table, axes, draw, first, count, image, memory, out,
                            written)
        return answer, bytes(out[:written[0]])

    def put_heading(self, out: Buffer, at: int = 0) -> int:
        return self._call('bh_put_heading', out, at)

    def put_refused(self, out: Buffer, at: int, refusal: int, line: int) -> int:
        return self._call('bh_put_refused', out, at, refusal, line)


def c_types(parameters: Sequence[Any]) -> List[Any]:
    """The types that ctypes passes: of an array a pointer and its length."""
    types: List[Any] = []
    for parameter in parameters:
        if isinstance(parameter, Array):
            types += [ctypes.POINTER(parameter.kind), SIZE]
        else:
            types.append(parameter)
    return types
