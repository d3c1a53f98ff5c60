"""The proved frame builder of a sixteen-port cell switch, for Python 3.8 and newer on x86-64 Linux.

The calls are those of the C header frame_builder.h, over the shared library libframe_builder.so. This module needs nothing else.

A switch has 1 to 16 ports, each an input and an output, both numbered from 1. A flow is so many cells per frame from an input to one of the
up to four links of an output. A list has up to 512 flows, and a flow's number is its place there, from 1. A frame is slots x ports numbers,
slot 1 first, and has a side. On the input side a slot has one number per input: that of the flow that it sends a cell of, or 0 where it is
idle. On the output side a slot has one number per output: that of the flow that it takes a cell of, or 0 where it is idle.

    >>> flows = [Flow(1, 1, 2), Flow(1, 2, 2), Flow(4, 1, 1), Flow(4, 2, 1), Flow(4, 4, 2)]
    >>> frame, settled = build(4, 4, flows)
    >>> slot_view(4, 4, frame, 2).tolist()
    [2, 0, 0, 3]
    >>> inspect(4, 4, flows, frame) is None
    True
    >>> count_flow(4, 4, flows, frame, flow=5, start=4, length=2)
    Count(cells=2, lead=4)
    >>> depth_flow(4, 4, flows, flow=5)
    Depth(parts=4, cells=2)
    >>> by_output = turn(4, 4, flows, frame)
    >>> slot_view(4, 4, by_output, 2).tolist()
    [3, 2, 0, 0]
    >>> inspect(4, 4, flows, by_output, side=Side.OUTPUT) is None
    True

SIDES. A frame of build is on the input side, and turn returns a frame by the other side. The functions inspect, turn, count_flow,
count_input and count_output are told the side of the frame that they are given: the argument side is Side.INPUT or Side.OUTPUT, and is
Side.INPUT where it is left out. Any whole number does as well: 0 is the input side, and every other number is the output side. The ports
that a slot has numbers of are those of the frame's side, and the others are those of the other side.

ANSWERS. A call that cannot be answered raises Refused, which has the number and the text of the refusal and its values. It raises the first
refusal of its own order that holds. A refused call leaves everything as it was. Inspect returns a fault, and does not raise it.

ARRAYS. The arguments flows, limits and frame are lists, tuples or buffers:

- A list or a tuple has whole numbers from 0 to 65535. The argument flows has four of them to a flow, one after the other, or it has a Flow
  for each flow, or a tuple of its three or four numbers.
- A buffer is array.array("H"), a ctypes array, a memoryview, a NumPy array, a bytearray or anything else with the buffer protocol. One with
  16-bit numbers is used without a copy where it is contiguous, aligned and can be written. One with single bytes is taken as the memory of
  such numbers, two bytes to a number, the low byte first. The numbers of any other buffer are copied as those of a list are.

What is written, the argument frame of build and the argument into of turn, is a list, or a buffer that is used without a copy.

A number that is not whole raises TypeError. One that is negative, or too large for its place, raises ValueError. None is cut off.

THREADS. A call holds the interpreter's lock, for about a millisecond with the largest frames, so that no other thread changes its arrays.

THE LIBRARY is libframe_builder.so.N, where N is CALLS. It is looked for when the module is imported, in this order:

1. The file that the environment variable FRAME_BUILDER_LIBRARY names, by a path that begins with /. Where it is set, nothing else is tried.
2. In the folder lib, where this module stands in lib/python3/dist-packages: ./install puts them there.
3. Where the loader looks.

ImportError says what was tried where none is found, and refuses a library that has the calls of another major version, or fewer calls.
"""

from __future__ import annotations

import ctypes
import enum
import operator
import os
from array import array
from dataclasses import dataclass
from typing import NamedTuple, Optional

# The first number of the version of the library whose calls this module makes. Those of another take other arguments.
CALLS = 6

# Sizes.
MAX_PORTS = 16
MAX_LINKS = 4
LIMITS = 64
MAX_SLOTS = 1024
MAX_FLOWS = 512
FLOW_NUMBERS = 4
MAX_FLOW_CELLS = 65535
MAX_FRAME_ENTRIES = 16384
MAX_RUN_SLOTS = 1000000

# Sides of a frame.
INPUT_SIDE = 0
OUTPUT_SIDE = 1

# The most stack that a call takes, for threading.stack_size.
STACK_BYTES = 28672

# Answers.
ACCEPTED = 0
CLEAN = 0
REFUSED_PORTS = 1
REFUSED_SLOTS = 2
REFUSED_LIST_LENGTH = 3
REFUSED_FRAME_LENGTH = 4
REFUSED_INPUT_LOAD = 5
REFUSED_OUTPUT_LOAD = 6
REFUSED_LINE_FORM = 7
REFUSED_LINE_PORT = 8
REFUSED_SHEET_LENGTH = 10
REFUSED_SLOT_NUMBER = 11
REFUSED_FLOW_OR_PORT = 12
REFUSED_RUN_LENGTH = 13
REFUSED_ENTRIES = 14
REFUSED_SECOND_LENGTH = 15
REFUSED_TOO_MANY_FLOWS = 21
REFUSED_FLOW_PORT = 22
REFUSED_FLOW_LINK = 23
REFUSED_LINK_LOAD = 24
FAULT_WRONG_ENTRY = 101
FAULT_PORT_TWICE = 102
FAULT_FLOW_COUNT = 103
FAULT_UNBALANCED_BLOCK = 104

_TEXTS = {
    ACCEPTED: "accepted",
    REFUSED_PORTS: "ports are not 1 to 16",
    REFUSED_SLOTS: "slots are not a power of two from 1 to 1,024",
    REFUSED_LIST_LENGTH: "the list length is not a whole number of flows",
    REFUSED_FRAME_LENGTH: "the frame length is not slots x ports",
    REFUSED_INPUT_LOAD: "an input's load is above slots",
    REFUSED_OUTPUT_LOAD: "an output's load is above slots",
    REFUSED_LINE_FORM: "a line of the sheet breaks the form",
    REFUSED_LINE_PORT: "a pair line of the sheet names a port outside 1 to ports",
    REFUSED_SHEET_LENGTH: "the sheet is longer than 32,768 bytes",
    REFUSED_SLOT_NUMBER: "the slot or the start is outside 1 to slots",
    REFUSED_FLOW_OR_PORT: "the flow is not in the list, or the port is outside 1 to ports",
    REFUSED_RUN_LENGTH: "the run is longer than 1,000,000 slots",
    REFUSED_ENTRIES: "an entry of the frame is wrong, or a port is used twice in a slot",
    REFUSED_SECOND_LENGTH: "the second buffer's length differs from the frame's",
    REFUSED_TOO_MANY_FLOWS: "there are more than 512 flows",
    REFUSED_FLOW_PORT: "a flow's input or output is outside 1 to ports",
    REFUSED_FLOW_LINK: "a flow's link is outside 1 to 4",
    REFUSED_LINK_LOAD: "a link's load is above its limit",
    FAULT_WRONG_ENTRY: "an entry of the frame is no flow of its port",
    FAULT_PORT_TWICE: "a port of the other side is used twice in a slot",
    FAULT_FLOW_COUNT: "a flow is in the wrong number of slots",
    FAULT_UNBALANCED_BLOCK: "a block of slots is unbalanced",
}

# What the values of an answer are, in the order in which the library writes them.
_VALUES = {
    REFUSED_INPUT_LOAD: ("port", "cells"),
    REFUSED_OUTPUT_LOAD: ("port", "cells"),
    REFUSED_LINK_LOAD: ("output", "link", "cells"),
    FAULT_WRONG_ENTRY: ("slot", "port"),
    FAULT_PORT_TWICE: ("slot", "port"),
    FAULT_FLOW_COUNT: ("flow",),
    FAULT_UNBALANCED_BLOCK: ("slot", "size"),
}

_MAX_NUMBER = 2**16 - 1
_MAX_SIZE = 2**64 - 1


# ---- what calls take and answer


class Flow(NamedTuple):
    """A reserved flow: so many cells per frame from an input to an output, over one of the output's links.

    >>> Flow(4, 2, 7)
    Flow(input=4, output=2, cells=7, link=1)
    >>> Flow(4, 2, 7, link=3)
    Flow(input=4, output=2, cells=7, link=3)
    """

    input: int
    output: int
    cells: int
    link: int = 1


class Side(enum.IntEnum):
    """The side that a frame is on: whose numbers a slot has, one per input or one per output.

    >>> Side.INPUT.other
    <Side.OUTPUT: 1>
    """

    INPUT = INPUT_SIDE
    OUTPUT = OUTPUT_SIDE

    @property
    def other(self) -> Side:
        """The side that a frame of this side is on once it is turned."""
        return Side.OUTPUT if self is Side.INPUT else Side.INPUT


class Built(NamedTuple):
    """What build answers: the frame, and how many odd counts were settled for it."""

    frame: object
    settled: int


class Count(NamedTuple):
    """What a count answers: the cells of the run, and their lead.

    The lead is slots x the cells of the run - length x the cells of the same flow, input or output in one whole frame. Divided by slots, it
    is how many cells the run has had above its share. It is negative where the run is behind.
    """

    cells: int
    lead: int


class Depth(NamedTuple):
    """What a depth answers: how far from its share a flow, an input or an output can get, and how many cells its buffer has to hold.

    The parts are of 1/slots of a cell. In frames of build in all of which the load is the same, no run of slots is more than so many parts
    above its share, or below it. The cells are for an even source, from which in no run do more cells arrive than the run's share, rounded
    up. A source from which a/slots of a cell more may arrive needs (a + parts + load) // slots cells.
    """

    parts: int
    cells: int


@dataclass(frozen=True)
class Fault:
    """What is wrong with a frame: the first fault that inspect finds.

    It has a number, and a text for it. Where the fault is depends on the number, and what a number does not have is None:

    - 101, FAULT_WRONG_ENTRY: slot, and port, the one of the frame's side at whose place the entry stands
    - 102, FAULT_PORT_TWICE: slot, and port, the one of the other side
    - 103, FAULT_FLOW_COUNT: flow
    - 104, FAULT_UNBALANCED_BLOCK: slot, the first of the block, and size, its slots

    So the port of 101 is an input on the input side and an output on the output side. The port of 102 is an output on the input side and an
    input on the output side.
    """

    number: int
    slot: Optional[int] = None
    port: Optional[int] = None
    flow: Optional[int] = None
    size: Optional[int] = None

    @property
    def text(self) -> str:
        """What the number means."""
        return text(self.number)

    @property
    def places(self) -> dict:
        """Where the fault is, by name, such as {"slot": 2, "port": 4}."""
        return {name: getattr(self, name) for name in _VALUES.get(self.number, ())}

    def __str__(self):
        return f"fault {self.number}: {_with_values(self.text, self.places)}"


class Refused(Exception):
    """Why a call was turned away: a number, a text for it, and what the number carries.

    - 5 and 6, REFUSED_INPUT_LOAD and REFUSED_OUTPUT_LOAD: port, the lowest such, and cells, its load
    - 24, REFUSED_LINK_LOAD: output, the lowest such, link, its lowest such, and cells, the load of that link

    Every other refusal has a number and a text only, and what a refusal does not have is None.

    >>> build(2, 4, [Flow(1, 2, 5)])
    Traceback (most recent call last):
    frame_builder.Refused: refused 5: an input's load is above slots (port 1, cells 5)
    """

    def __init__(self, number, port=None, cells=None, output=None, link=None):
        super().__init__(number)
        self.number = number
        self.port = port
        self.cells = cells
        self.output = output
        self.link = link

    @property
    def text(self) -> str:
        """What the number means."""
        return text(self.number)

    @property
    def values(self) -> dict:
        """What the refusal carries, by name, such as {"port": 3, "cells": 70}."""
        return {name: getattr(self, name) for name in _VALUES.get(self.number, ())}

    def __str__(self):
        return f"refused {self.number}: {_with_values(self.text, self.values)}"


def _with_values(said, values):
    named = ", ".join(f"{name} {value}" for name, value in values.items())
    return f"{said} ({named})" if named else said


def text(number: int) -> str:
    """What the number of an answer means, in the words of the C header; a fixed text for a number that is no answer.

    >>> text(REFUSED_LINK_LOAD)
    "a link's load is above its limit"
    """
    return _TEXTS.get(number, "not a number of the frame builder")


def slots_each(slots: int) -> list:
    """The limits where no link is slower than its output: each takes as many cells as the frame has slots, at most 65535."""
    return [min(_whole(slots, "slots", _MAX_SIZE), _MAX_NUMBER)] * LIMITS


# ---- the library

_SIZE = ctypes.c_size_t
_NUMBERS = ctypes.POINTER(ctypes.c_uint16)
_SHAPE = (_SIZE, _SIZE)
_SLICE = (_NUMBERS, _SIZE)
_FRAME = (_SIZE, *_SHAPE, *_SLICE, *_SLICE)
_COUNTED = (*_FRAME, _SIZE, _SIZE, _SIZE)
_ASKED = (*_SHAPE, *_SLICE, _SIZE)

# Of each call what it is given, and what it is lent to write to.
_SIGNATURES = {
    "admit": ((*_SHAPE, *_SLICE, _NUMBERS), (_SIZE, _SIZE, _SIZE)),
    "build": ((*_SHAPE, *_SLICE, _NUMBERS, *_SLICE), (_SIZE, _SIZE, _SIZE)),
    "inspect": (_FRAME, (_SIZE, _SIZE)),
    "turn": ((*_FRAME, *_SLICE), ()),
    "slot_view": ((*_SHAPE, *_SLICE, _SIZE), (_SIZE, _SIZE)),
    "count_flow": (_COUNTED, (_SIZE, ctypes.c_int64)),
    "count_input": (_COUNTED, (_SIZE, ctypes.c_int64)),
    "count_output": (_COUNTED, (_SIZE, ctypes.c_int64)),
    "depth_flow": (_ASKED, (_SIZE, _SIZE)),
    "depth_input": (_ASKED, (_SIZE, _SIZE)),
    "depth_output": (_ASKED, (_SIZE, _SIZE)),
}

# The version that each call came with, where that is not the first of CALLS.
_SINCE = {}

_SONAME = f"libframe_builder.so.{CALLS}"
_VARIABLE = "FRAME_BUILDER_LIBRARY"
_INSTALLED = "/python3/dist-packages/frame_builder.py"

_ADVICE = f"""What to do, one of these:
  - run `./install --prefix DIR` in a checkout of the frame builder, and set PYTHONPATH=DIR/lib/python3/dist-packages
  - set {_VARIABLE} to the path of an installed {_SONAME}"""


def _ways():
    """The ways to the library, in their order: what each is, and the name that the loader is given."""
    named = os.environ.get(_VARIABLE)
    if named and not os.path.isabs(named):
        raise ImportError(f"frame_builder: {_VARIABLE} is {named}, and has to be a path that begins with /")
    if named:
        return [(_VARIABLE, named)]
    place = os.path.realpath(__file__)
    beside = [("beside this module", place[: -len(_INSTALLED)] + "/" + _SONAME)] if place.endswith(_INSTALLED) else []
    return [*beside, ("where the loader looks", _SONAME)]


def _load():
    """The calls of the library that the first way leads to."""
    tried = []
    for place, (way, name) in enumerate(_ways(), 1):
        try:
            return _calls_of(ctypes.CDLL(name), name)
        except OSError as error:
            tried.append(f"  {place}. {way}: {error}")
    raise ImportError("\n".join(["frame_builder: the library is not found. Tried, in this order:", *tried, _ADVICE]))


def _calls_of(library, name):
    """The calls of a library as functions, if they are those of this module's version."""
    find = ctypes.CDLL(None).dlvsym
    find.argtypes = (ctypes.c_void_p, ctypes.c_char_p, ctypes.c_char_p)
    find.restype = ctypes.c_void_p
    calls = {}
    for call, (given, lent) in _SIGNATURES.items():
        since = _SINCE.get(call, str(CALLS))
        address = find(library._handle, f"frame_builder_{call}".encode(), f"FRAME_BUILDER_{since}".encode())
        if not address:
            raise ImportError(f"frame_builder: {name} has no call {call} of version {since}, which this module makes")
        # The interpreter's lock is held: the proofs are of numbers that nobody changes while a call runs.
        calls[call] = ctypes.PYFUNCTYPE(_SIZE, *given, *map(ctypes.POINTER, lent))(address)
    return calls


_CALLS = _load()


class _Symbol(ctypes.Structure):
    """What dladdr finds: Dl_info of dlfcn.h."""

    _fields_ = [("file", ctypes.c_char_p), ("base", ctypes.c_void_p), ("name", ctypes.c_char_p), ("address", ctypes.c_void_p)]


def version() -> str:
    """The version of the library, by the name of its file: that of libframe_builder.so.N.M.P is "N.M.P".

    Of a library under another name only the first number is known.
    """
    find = ctypes.CDLL(None).dladdr
    find.argtypes = (ctypes.c_void_p, ctypes.POINTER(_Symbol))
    symbol = _Symbol()
    find(ctypes.cast(_CALLS["build"], ctypes.c_void_p), ctypes.byref(symbol))
    name = os.path.basename(os.path.realpath(os.fsdecode(symbol.file or b"")))
    start = "libframe_builder.so."
    return name[len(start) :] if name.startswith(start) else str(CALLS)


# ---- arguments as the library takes them


def _whole(value, name, most):
    """A whole number from 0 to most, which ctypes alone would cut off."""
    try:
        number = operator.index(value)
    except TypeError:
        raise TypeError(f"{name} is {value!r}, and has to be a whole number") from None
    if not 0 <= number <= most:
        raise ValueError(f"{name} is {number}, and has to be 0 to {most}")
    return number


def _size(value, name):
    return _whole(value, name, _MAX_SIZE)


def _shape(ports, slots):
    return _size(ports, "ports"), _size(slots, "slots")


def _slice(numbers):
    """A slice is a pointer and a length."""
    return numbers, len(numbers)


def _frame(side, ports, slots, flows, frame):
    """What a call is given that looks at a frame: the side, the shape, the list and the frame."""
    return _size(side, "side"), *_shape(ports, slots), *_slice(_list(flows)), *_slice(_read(frame, "frame"))


def _numbers_of(values, name):
    """A list of whole numbers as an array of 16-bit numbers."""
    try:
        numbers = array("H", map(operator.index, values))
    except (OverflowError, TypeError):
        for place, value in enumerate(values):
            _whole(value, f"{name}[{place}]", _MAX_NUMBER)
        raise
    return (ctypes.c_uint16 * len(numbers)).from_buffer(numbers)


def _memory(values):
    """The memory of a buffer of 16-bit numbers or of bytes, and None for anything else."""
    try:
        view = memoryview(values)
    except TypeError:
        return None
    return view if view.format.lstrip("@=<") in ("H", "B", "b", "c") else None


def _lent(view, name):
    """A buffer's own memory as 16-bit numbers, or None where it cannot be lent as it is."""
    if view.nbytes % 2:
        raise ValueError(f"{name} has {view.nbytes} bytes, which are no whole number of 16-bit numbers")
    if view.readonly or not view.c_contiguous:
        return None
    numbers = (ctypes.c_uint16 * (view.nbytes // 2)).from_buffer(view)
    # Memory without numbers stands anywhere.
    return None if numbers and ctypes.addressof(numbers) % 2 else numbers


def _values_of(values, name):
    """The values of a list, of a tuple or of a buffer of other numbers than 16-bit ones."""
    try:
        return memoryview(values).tolist()
    except NotImplementedError as error:
        raise TypeError(f"{name} has numbers of a kind that is not known: {error}") from None
    except TypeError:
        pass
    try:
        return list(values)
    except TypeError:
        raise TypeError(f"{name} is {values!r}, and has to be a list, a tuple or a buffer") from None


def _read(values, name):
    """An array argument that is only read: its own memory where that can be lent, else a copy."""
    view = _memory(values)
    if view is None:
        return _numbers_of(_values_of(values, name), name)
    numbers = _lent(view, name)
    if numbers is None:
        numbers = (ctypes.c_uint16 * (view.nbytes // 2)).from_buffer_copy(view.tobytes())
    return numbers


def _flow_numbers(flow, place):
    """The four numbers of a flow that is given as a Flow or a tuple."""
    try:
        flow = Flow(*flow)
    except TypeError:
        raise TypeError(f"flow {place} is {flow!r}, and has to be a Flow, or a tuple of its three or four numbers") from None
    return [_whole(number, f"{name} of flow {place}", _MAX_NUMBER) for name, number in zip(Flow._fields, flow)]


def _list(flows):
    """The argument flows as the library takes it."""
    if _memory(flows) is None:
        flows = _values_of(flows, "flows")
        if flows and hasattr(flows[0], "__len__"):
            flows = [number for place, flow in enumerate(flows, 1) for number in _flow_numbers(flow, place)]
    return _read(flows, "flows")


def _limits(limits, slots):
    """The argument limits as the library takes it, which is told no length."""
    numbers = _read(slots_each(slots) if limits is None else limits, "limits")
    if len(numbers) != LIMITS:
        raise ValueError(f"limits has {len(numbers)} numbers, and has to have {LIMITS}")
    return numbers


def _written(frame, name):
    """An argument that is written: its own memory, or new memory for a list."""
    if isinstance(frame, list):
        return (ctypes.c_uint16 * len(frame))()
    view = _memory(frame)
    numbers = None if view is None else _lent(view, name)
    if numbers is None:
        raise TypeError(f"{name} has to be a list, or a contiguous and aligned buffer of 16-bit numbers or of bytes that can be written")
    return numbers


def _apart(numbers, frame):
    """Numbers that are only read, copied where they share memory with the frame that is written."""
    first, other = ctypes.addressof(numbers), ctypes.addressof(frame)
    shared = first < other + ctypes.sizeof(frame) and other < first + ctypes.sizeof(numbers)
    return type(numbers).from_buffer_copy(numbers) if shared else numbers


def _ask(call, *parts):
    """The number of a call's answer, and what it wrote to the numbers that it was lent. Each part is some of the call's arguments."""
    lent = [kind() for kind in _SIGNATURES[call][1]]
    arguments = [argument for part in parts for argument in part]
    number = _CALLS[call](*arguments, *map(ctypes.byref, lent))
    return (number, *(written.value for written in lent))


def _accepted(number, *values):
    """The values of an answer that is no refusal."""
    if number != ACCEPTED:
        raise Refused(number, **_by_name(number, values))
    return values


def _by_name(number, values):
    return dict(zip(_VALUES.get(number, ()), values))


# ---- the calls


def admit(ports: int, slots: int, flows, limits=None) -> None:
    """Whether build would accept the list with these limits: returns None, or raises Refused.

    A link's limit is how many cells per frame it takes. The argument limits has 64 of them, output by output: those of output 1's links 1
    to 4, then those of output 2's, and so on to output 16. Without it each link takes as many cells as there are slots.

    Refusals, in their order: 1, 2, 3, 21, 22, 23, 5, 6, 24.

    >>> limits = slots_each(8)
    >>> limits[1 * MAX_LINKS + 2] = 4  # output 2, link 3
    >>> admit(2, 8, [Flow(1, 2, 5, link=3)], limits)
    Traceback (most recent call last):
    frame_builder.Refused: refused 24: a link's load is above its limit (output 2, link 3, cells 5)
    >>> admit(2, 8, [Flow(1, 2, 5)], limits)
    """
    _accepted(*_ask("admit", _shape(ports, slots), _slice(_list(flows)), [_limits(limits, slots)]))


def build(ports: int, slots: int, flows, limits=None, frame=None) -> Built:
    """Lays the cells of the flows into a frame: returns Built, the frame and how many odd counts were settled for it.

    The frame is on the input side. Without the argument frame a new array.array("H") is made. A frame that is given, a list or a buffer of
    slots x ports numbers, is filled in place. A refusal leaves it as it was. The limits are those of admit. The odd counts settled say how
    much work the build was.

    Refusals, in their order: 1, 2, 3, 21, 22, 23, 4, 5, 6, 24.

    >>> build(2, 4, [Flow(1, 1, 2), Flow(2, 2, 1)])
    Built(frame=array('H', [1, 0, 0, 2, 1, 0, 0, 0]), settled=4)
    >>> frame = [0] * 4
    >>> build(1, 4, [1, 1, 3, 1], frame=frame).settled
    2
    >>> frame
    [1, 1, 1, 0]
    """
    if frame is None:
        frame = array("H", bytes(2 * _entries(*_shape(ports, slots))))
    settled = _accepted(*_fill(ports, slots, flows, limits, frame))[0]
    return Built(frame, settled)


def _entries(ports, slots):
    """The entries of a frame, and 0 where ports or slots are refused before it is looked at."""
    return ports * slots if ports <= MAX_PORTS and slots <= MAX_SLOTS else 0


def _fill(ports, slots, flows, limits, frame):
    """What Build answers. It fills memory, which an accepted list then has its numbers from."""
    shape, numbers, most = _shape(ports, slots), _list(flows), _limits(limits, slots)
    written = _written(frame, "frame")
    answer = _ask("build", shape, _slice(_apart(numbers, written)), [_apart(most, written)], _slice(written))
    if answer[0] == ACCEPTED and isinstance(frame, list):
        frame[:] = written
    return answer


def inspect(ports: int, slots: int, flows, frame, side: int = Side.INPUT) -> Optional[Fault]:
    """Looks over a frame from anywhere: returns None where it is clean, or its first Fault, and raises Refused where it cannot tell.

    A frame is clean that carries the cells of every flow, each in a slot of its own, and is balanced. The limits are not asked for.

    Refusals, in their order: 1, 2, 3, 21, 22, 23, 4.

    >>> flows = [Flow(1, 2, 1), Flow(2, 2, 1)]
    >>> inspect(2, 2, flows, [1, 0, 0, 2])
    >>> fault = inspect(2, 2, flows, [1, 2, 0, 0])
    >>> fault.number, fault.slot, fault.port
    (102, 1, 2)
    >>> print(fault)
    fault 102: a port of the other side is used twice in a slot (slot 1, port 2)
    >>> inspect(2, 2, flows, [0, 1, 0, 2], side=Side.OUTPUT)
    >>> print(inspect(2, 2, flows, [1, 0, 0, 2], side=Side.OUTPUT))
    fault 101: an entry of the frame is no flow of its port (slot 1, port 1)
    """
    number, *values = _ask("inspect", _frame(side, ports, slots, flows, frame))
    if number >= FAULT_WRONG_ENTRY:
        return Fault(number, **_by_name(number, values))
    _accepted(number)
    return None


def turn(ports: int, slots: int, flows, frame, side: int = Side.INPUT, into=None):
    """Turns a frame: returns the frame by the other side.

    The argument side is the frame's own. So whoever turns a frame back tells the other side. Each flow stands in the same slots as before,
    now at its port of the other side, and every place without a flow is 0. Where a frame turns, the sides agree: inspect and the counts,
    told the other side, answer of the turned frame what they answer of the frame. Turned back, it has its first numbers again. All this is
    proved.

    Without the argument into a new array.array("H") is made. What is given there, a list or a buffer of as many numbers as the frame has,
    is filled in place and returned. It may be the frame itself. A refusal leaves it as it was.

    Refusals, in their order: 1, 2, 3, 21, 22, 23, 4, 15, 14. A frame is refused with 14 where inspect finds 101 or 102 in it.

    >>> flows = [Flow(1, 2, 2), Flow(2, 1, 1)]
    >>> turn(2, 2, flows, [1, 2, 1, 0])
    array('H', [2, 1, 0, 1])
    >>> turn(2, 2, flows, [2, 1, 0, 1], side=Side.OUTPUT, into=[0] * 4)
    [1, 2, 1, 0]
    >>> turn(2, 2, flows, [2, 1, 0, 1])
    Traceback (most recent call last):
    frame_builder.Refused: refused 14: an entry of the frame is wrong, or a port is used twice in a slot
    """
    if _memory(frame) is None:
        frame = _values_of(frame, "frame")
    if into is None:
        into = array("H", bytes(2 * len(_read(frame, "frame"))))
    _accepted(*_fill_turned(ports, slots, flows, frame, side, into))
    return into


def _fill_turned(ports, slots, flows, frame, side, into):
    """What Turn answers. It fills memory, which an accepted list then has its numbers from."""
    told, shape, numbers, entries = _size(side, "side"), _shape(ports, slots), _list(flows), _read(frame, "frame")
    written = _written(into, "into")
    answer = _ask("turn", [told], shape, _slice(_apart(numbers, written)), _slice(_apart(entries, written)), _slice(written))
    if answer[0] == ACCEPTED and isinstance(into, list):
        into[:] = written
    return answer


def slot_view(ports: int, slots: int, frame, slot: int):
    """The slot's part of the frame, one number per port of the frame's side. It is the same part on either side.

    Of a contiguous buffer of 16-bit numbers or of bytes it is a memoryview: the frame's own memory and no copy. Of any other frame it is a
    list.

    Refusals, in their order: 1, 2, 4, 11.

    >>> frame = array("H", [1, 2, 0, 3])
    >>> part = slot_view(2, 2, frame, 2)
    >>> part[0] = 1
    >>> frame
    array('H', [1, 2, 1, 3])
    >>> slot_view(2, 2, [1, 2, 0, 3], 1)
    [1, 2]
    """
    if _memory(frame) is None:
        frame = _values_of(frame, "frame")
    asked = _ask("slot_view", _shape(ports, slots), _slice(_read(frame, "frame")), [_size(slot, "slot")])
    start, size = _accepted(*asked)
    view = _memory(frame)
    if view is None or not view.c_contiguous:
        return _read(frame, "frame")[start : start + size]
    return view.cast("B").cast("H")[start : start + size]


def count_flow(ports: int, slots: int, flows, frame, flow: int, start: int, length: int, side: int = Side.INPUT) -> Count:
    """Counts the cells of a flow in a run of the repeating frame, length slots from slot start on: returns a Count.

    The frame may have any entries. Those that are the flow's number are counted, at whatever port they stand. After the last slot comes
    slot 1 again. The cells of a link are the sum of the cells of its flows, and its lead is the sum of their leads.

    Refusals, in their order: 1, 2, 3, 21, 22, 23, 4, 11, 12, 13.

    >>> count_flow(1, 4, [Flow(1, 1, 3)], [1, 1, 1, 0], flow=1, start=4, length=2)
    Count(cells=1, lead=-2)
    """
    return _count("count_flow", ports, slots, flows, frame, side, _size(flow, "flow"), start, length)


def count_input(ports: int, slots: int, flows, frame, input: int, start: int, length: int, side: int = Side.INPUT) -> Count:
    """Counts the cells of an input in a run of the repeating frame, as count_flow does.

    On the input side the input's own entries that are not 0 are counted. On the output side the entries are counted that are the number of
    a flow from the input, at whatever output they stand. There the cells of the total are the sum of the cells of all inputs, and its lead
    is the sum of their leads.
    """
    return _count("count_input", ports, slots, flows, frame, side, _size(input, "input"), start, length)


def count_output(ports: int, slots: int, flows, frame, output: int, start: int, length: int, side: int = Side.INPUT) -> Count:
    """Counts the cells to an output in a run of the repeating frame, as count_flow does.

    On the input side the entries are counted that are the number of a flow to the output, at whatever input they stand. There the cells of
    the total are the sum of the cells of all outputs, and its lead is the sum of their leads. On the output side the output's own entries
    that are not 0 are counted.

    >>> flows = [Flow(1, 2, 2), Flow(2, 1, 1)]
    >>> count_output(2, 2, flows, [1, 2, 1, 0], output=2, start=1, length=3)
    Count(cells=3, lead=0)
    >>> count_output(2, 2, flows, [2, 1, 0, 1], output=2, start=1, length=3, side=Side.OUTPUT)
    Count(cells=3, lead=0)
    """
    return _count("count_output", ports, slots, flows, frame, side, _size(output, "output"), start, length)


def _count(call, ports, slots, flows, frame, side, whose, start, length):
    run = (whose, _size(start, "start"), _size(length, "length"))
    return Count(*_accepted(*_ask(call, _frame(side, ports, slots, flows, frame), run)))


def depth_flow(ports: int, slots: int, flows, flow: int) -> Depth:
    """How far from its share a flow can get, and how deep a buffer to order for it: returns a Depth, which goes by the flow's cells alone.

    Refusals, in their order: 1, 2, 3, 21, 22, 23, 5, 6, 12.

    >>> depth_flow(2, 1024, [Flow(1, 1, 64), Flow(2, 2, 63)], flow=1)
    Depth(parts=1920, cells=2)
    >>> depth_flow(2, 1024, [Flow(1, 1, 64), Flow(2, 2, 63)], flow=2)
    Depth(parts=3906, cells=4)
    """
    return _depth("depth_flow", ports, slots, flows, _size(flow, "flow"))


def depth_input(ports: int, slots: int, flows, input: int) -> Depth:
    """How far from its share an input can get, and how deep a buffer to order for it, as depth_flow says it of a flow."""
    return _depth("depth_input", ports, slots, flows, _size(input, "input"))


def depth_output(ports: int, slots: int, flows, output: int) -> Depth:
    """How far from its share an output can get, and how deep a buffer to order for it, as depth_flow says it of a flow."""
    return _depth("depth_output", ports, slots, flows, _size(output, "output"))


def _depth(call, ports, slots, flows, whose):
    return Depth(*_accepted(*_ask(call, _shape(ports, slots), _slice(_list(flows)), [whose])))
