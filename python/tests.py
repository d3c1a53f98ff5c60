"""Tests of the Python module, which python/test runs. The last line is 'N passed, M failed'."""

import array
import ctypes
import doctest
import itertools
import os
import pickle
import random
import re
import shutil
import subprocess
import sys
import tempfile
import threading
import unittest

import frame_builder
from frame_builder import Count, Depth, Fault, Flow, Refused, Side, admit, build, count_flow, count_input, count_output
from frame_builder import depth_flow, depth_input, depth_output, inspect, slot_view, turn

TOP = os.path.dirname(os.path.dirname(os.path.abspath(__file__)))
MODULE = os.path.join(TOP, "python", "frame_builder.py")

# The load of SRC Research Report 150's Table 7, and its frame.
TABLE7 = [Flow(1, 1, 2), Flow(1, 2, 2), Flow(4, 1, 1), Flow(4, 2, 1), Flow(4, 4, 2)]
TABLE7_NUMBERS = [number for flow in TABLE7 for number in flow]
TABLE7_FRAME = [1, 0, 0, 5, 2, 0, 0, 3, 1, 0, 0, 4, 2, 0, 0, 5]
TABLE7_BY_OUTPUT = [1, 0, 0, 5, 3, 2, 0, 0, 1, 4, 0, 0, 0, 2, 0, 5]

# Numbers for the output side.
OUTPUTS = (Side.OUTPUT, 1, 2, 256, 2**32, 2**64 - 1, True)


def file_text(*names):
    with open(os.path.join(TOP, *names), encoding="utf-8") as file:
        return file.read()


def limits_with(slots, **places):
    """The slots for each link, but for those of the links that are named as output2_link3 is."""
    limits = frame_builder.slots_each(slots)
    for name, limit in places.items():
        output, link = map(int, re.findall(r"\d+", name))
        limits[(output - 1) * frame_builder.MAX_LINKS + link - 1] = limit
    return limits


class Header(unittest.TestCase):
    """The module says what the C header says."""

    HEADER = file_text("include", "frame_builder.h")

    def test_every_number(self):
        defined = dict(re.findall(r"^#define FRAME_BUILDER_(\w+) (\d+)", self.HEADER, re.MULTILINE))
        named = {name: getattr(frame_builder, name) for name in dir(frame_builder) if name.isupper() and name[0] != "_"}
        named.pop("CALLS")
        self.assertEqual({name: int(number) for name, number in defined.items()}, named)

    def test_every_text(self):
        texts = re.findall(r"case FRAME_BUILDER_(\w+):\s+return \"(.*)\";", self.HEADER)
        self.assertEqual(len(texts), len(frame_builder._TEXTS))
        for name, said in texts:
            self.assertEqual(frame_builder.text(getattr(frame_builder, name)), said, name)

    def test_text_of_no_answer(self):
        (said,) = re.findall(r"default:\s+return \"(.*)\";", self.HEADER)
        for number in (9, 16, 25, 100, 105, -1, 2**64):
            self.assertEqual(frame_builder.text(number), said)

    def test_every_later_version(self):
        since = {}
        for comment in re.split(r"^/\*", self.HEADER, flags=re.MULTILINE):
            calls = re.findall(r"^size_t frame_builder_(\w+)\(", comment, re.MULTILINE)
            since.update((call, version) for version in re.findall(r"since version (\d+\.\d+)", comment) for call in calls)
        self.assertEqual(since, frame_builder._SINCE)

    def test_sides(self):
        self.assertEqual([(side.name, int(side)) for side in Side], [("INPUT", 0), ("OUTPUT", 1)])
        self.assertEqual((Side.INPUT.other, Side.OUTPUT.other), (Side.OUTPUT, Side.INPUT))

    def test_every_call(self):
        declared = re.findall(r"^size_t frame_builder_(\w+)\(", self.HEADER, re.MULTILINE)
        self.assertEqual(sorted(declared), sorted(frame_builder._SIGNATURES))
        for call in declared:
            self.assertTrue(callable(getattr(frame_builder, call)), call)

    def test_version(self):
        (version,) = re.findall(r'^#define FRAME_BUILDER_VERSION "(.*)"', self.HEADER, re.MULTILINE)
        self.assertEqual(frame_builder.version(), version)
        self.assertEqual(str(frame_builder.CALLS), version.split(".")[0])


class Answers(unittest.TestCase):
    """Every call, and every answer that it has."""

    def refused(self, number, call, *arguments, **values):
        with self.assertRaises(Refused) as raised:
            call(*arguments)
        refusal = raised.exception
        self.assertEqual(refusal.number, number)
        self.assertEqual(refusal.text, frame_builder.text(number))
        self.assertEqual(refusal.values, values)
        for name in ("port", "cells", "output", "link"):
            self.assertEqual(getattr(refusal, name), values.get(name), name)
        self.assertTrue(str(refusal).startswith(f"refused {number}: {refusal.text}"), str(refusal))

    def refuses_list(self, call, *rest):
        """The refusals of every call that takes a list: rest is what follows the list."""
        self.refused(1, call, 0, 4, TABLE7, *rest)
        self.refused(1, call, 17, 4, TABLE7, *rest)
        self.refused(1, call, 2**64 - 1, 4, TABLE7, *rest)
        self.refused(2, call, 4, 3, TABLE7, *rest)
        self.refused(2, call, 4, 2048, TABLE7, *rest)
        self.refused(3, call, 4, 4, TABLE7_NUMBERS[:-1], *rest)
        self.refused(21, call, 4, 4, [Flow(1, 1, 0)] * 513, *rest)
        self.refused(22, call, 4, 4, [Flow(1, 5, 0)], *rest)
        self.refused(22, call, 4, 4, [Flow(0, 1, 0)], *rest)
        self.refused(23, call, 4, 4, [Flow(1, 1, 0, link=5)], *rest)
        self.refused(23, call, 4, 4, [Flow(1, 1, 0, link=0)], *rest)

    def refuses_load(self, call):
        self.refused(5, call, 4, 4, [Flow(2, 1, 3), Flow(2, 4, 65535)], port=2, cells=65538)
        self.refused(6, call, 4, 4, [Flow(1, 3, 2), Flow(2, 3, 3)], port=3, cells=5)
        slow = limits_with(4, output3_link2=1)
        self.refused(24, call, 4, 4, [Flow(1, 3, 2, link=2)], slow, output=3, link=2, cells=2)

    def test_admit(self):
        self.assertIsNone(admit(4, 4, TABLE7))
        self.assertIsNone(admit(4, 4, [Flow(1, 1, 0)] * 512))
        self.assertIsNone(admit(4, 4, [Flow(1, 3, 2, link=2)], limits_with(4, output3_link2=2)))
        self.refuses_list(admit)
        self.refuses_load(admit)

    def test_build(self):
        frame, settled = build(4, 4, TABLE7)
        self.assertEqual((frame.typecode, frame.tolist(), settled), ("H", TABLE7_FRAME, 10))
        self.assertEqual(build(1, 1, []).frame.tolist(), [0])
        self.refuses_list(build)
        self.refused(4, build, 4, 4, TABLE7, None, [0] * 15)
        self.refuses_load(build)

    def test_refused_build_keeps_the_frame(self):
        for frame in ([9] * 16, array.array("H", [9] * 16)):
            self.refused(5, build, 4, 4, [Flow(1, 1, 5)], None, frame, port=1, cells=5)
            self.assertEqual(list(frame), [9] * 16)

    def test_inspect(self):
        self.assertIsNone(inspect(4, 4, TABLE7, TABLE7_FRAME))
        for side in Side:
            self.refuses_list(inspect, TABLE7_FRAME, side)
            self.refused(4, inspect, 4, 4, TABLE7, TABLE7_FRAME[1:], side)

    def test_faults(self):
        def damaged(*entries):
            return [dict(entries).get(place, entry) for place, entry in enumerate(TABLE7_FRAME)]

        bunched = [1, 0, 0, 5, 1, 0, 0, 4, 2, 0, 0, 3, 2, 0, 0, 5]
        for frame, fault, places in (
            (damaged((7, 6)), Fault(101, slot=2, port=4), {"slot": 2, "port": 4}),
            (damaged((11, 3)), Fault(102, slot=3, port=1), {"slot": 3, "port": 1}),
            (damaged((15, 0)), Fault(103, flow=5), {"flow": 5}),
            (bunched, Fault(104, slot=1, size=4), {"slot": 1, "size": 4}),
        ):
            found = inspect(4, 4, TABLE7, frame)
            self.assertEqual(found, fault)
            self.assertEqual(found.places, places)
            self.assertEqual(found.text, frame_builder.text(fault.number))
            self.assertTrue(str(found).startswith(f"fault {fault.number}: {found.text} ("), str(found))

    def test_faults_by_output(self):
        def damaged(*entries):
            return [dict(entries).get(place, entry) for place, entry in enumerate(TABLE7_BY_OUTPUT)]

        bunched = [1, 0, 0, 5, 1, 4, 0, 0, 3, 2, 0, 0, 0, 2, 0, 5]
        for side in OUTPUTS:
            self.assertIsNone(inspect(4, 4, TABLE7, TABLE7_BY_OUTPUT, side=side))
            for frame, fault in (
                (TABLE7_FRAME, Fault(101, slot=2, port=1)),
                (damaged((5, 6)), Fault(101, slot=2, port=2)),
                (damaged((8, 3)), Fault(102, slot=3, port=4)),
                (damaged((15, 0)), Fault(103, flow=5)),
                (bunched, Fault(104, slot=1, size=4)),
            ):
                self.assertEqual(inspect(4, 4, TABLE7, frame, side=side), fault)
        self.assertEqual(inspect(4, 4, TABLE7, TABLE7_BY_OUTPUT), Fault(101, slot=2, port=1))

    def test_turn(self):
        for side in (0, Side.INPUT, False):
            self.assertEqual(turn(4, 4, TABLE7, TABLE7_FRAME, side), array.array("H", TABLE7_BY_OUTPUT))
        for side in OUTPUTS:
            self.assertEqual(turn(4, 4, TABLE7, TABLE7_BY_OUTPUT, side), array.array("H", TABLE7_FRAME))
        self.assertEqual(turn(1, 1, [], [0]).tolist(), [0])

    def test_refused_turns(self):
        for side in Side:
            self.refuses_list(turn, TABLE7_FRAME, side)
            self.refused(4, turn, 4, 4, TABLE7, TABLE7_FRAME[1:], side)
            self.refused(4, turn, 4, 4, TABLE7, TABLE7_FRAME[1:], side, [0] * 16)
            self.refused(4, turn, 4, 4, TABLE7, [], side, [])
            for length in (0, 15, 17):
                self.refused(15, turn, 4, 4, TABLE7, [9] * 16, side, [0] * length)
            self.refused(14, turn, 4, 4, TABLE7, [9] * 16, side)
        self.refused(14, turn, 4, 4, TABLE7, TABLE7_BY_OUTPUT, Side.INPUT)
        self.refused(14, turn, 4, 4, TABLE7, TABLE7_FRAME, Side.OUTPUT)
        self.refused(14, turn, 2, 1, [Flow(1, 2, 1), Flow(2, 2, 1)], [1, 2], Side.INPUT)
        self.refused(14, turn, 2, 1, [Flow(1, 1, 1), Flow(1, 2, 1)], [1, 2], Side.OUTPUT)

    def test_refused_turn_keeps_the_buffer(self):
        for into in ([9] * 16, array.array("H", [9] * 16)):
            self.refused(14, turn, 4, 4, TABLE7, TABLE7_FRAME, Side.OUTPUT, into)
            self.assertEqual(list(into), [9] * 16)

    def test_slot_view(self):
        for slot in range(1, 5):
            self.assertEqual(slot_view(4, 4, TABLE7_FRAME, slot), TABLE7_FRAME[4 * slot - 4 : 4 * slot])
        self.refused(1, slot_view, 0, 4, TABLE7_FRAME, 1)
        self.refused(2, slot_view, 4, 5, TABLE7_FRAME, 1)
        self.refused(4, slot_view, 4, 8, TABLE7_FRAME, 1)
        self.refused(11, slot_view, 4, 4, TABLE7_FRAME, 0)
        self.refused(11, slot_view, 4, 4, TABLE7_FRAME, 5)

    def test_counts(self):
        given = (4, 4, TABLE7, TABLE7_FRAME)
        self.assertEqual(count_flow(*given, flow=5, start=4, length=2), Count(2, 4))
        self.assertEqual(count_flow(*given, flow=5, start=2, length=2), Count(0, -4))
        self.assertEqual(count_input(*given, input=4, start=1, length=1000000), Count(1000000, 0))
        self.assertEqual(count_output(*given, output=1, start=3, length=3), Count(2, -1))

    def test_counts_by_output(self):
        given = (4, 4, TABLE7, TABLE7_BY_OUTPUT)
        # Any numbers: flow 1 at every port of two slots, and a number that is no flow at port 4 of slot 4.
        crowded = (4, 4, TABLE7, [1] * 8 + [0] * 7 + [513])
        self.assertEqual(count_input(*crowded, input=4, start=4, length=1), Count(1, 1))
        self.assertEqual(count_output(*crowded, output=1, start=1, length=2), Count(8, 16))
        for side in OUTPUTS:
            self.assertEqual(count_flow(*given, flow=5, start=4, length=2, side=side), Count(2, 4))
            self.assertEqual(count_input(*given, input=4, start=1, length=1000000, side=side), Count(1000000, 0))
            self.assertEqual(count_output(*given, output=1, start=3, length=3, side=side), Count(2, -1))
            self.assertEqual(count_flow(*crowded, flow=1, start=1, length=2, side=side), Count(8, 16))
            self.assertEqual(count_input(*crowded, input=1, start=1, length=2, side=side), Count(8, 16))
            self.assertEqual(count_input(*crowded, input=4, start=4, length=1, side=side), Count(0, 0))
            self.assertEqual(count_output(*crowded, output=4, start=4, length=1, side=side), Count(1, 1))

    def test_refused_counts(self):
        for call, side in itertools.product((count_flow, count_input, count_output), Side):
            self.refuses_list(call, TABLE7_FRAME, 1, 1, 1, side)
            self.refused(4, call, 4, 4, TABLE7, TABLE7_FRAME[1:], 1, 1, 1, side)
            self.refused(11, call, 4, 4, TABLE7, TABLE7_FRAME, 1, 0, 1, side)
            self.refused(11, call, 4, 4, TABLE7, TABLE7_FRAME, 1, 5, 1, side)
            self.refused(12, call, 4, 4, TABLE7, TABLE7_FRAME, 0, 1, 1, side)
            self.refused(12, call, 4, 4, TABLE7, TABLE7_FRAME, 6, 1, 1, side)
            self.refused(13, call, 4, 4, TABLE7, TABLE7_FRAME, 1, 1, 1000001, side)

    def test_depths(self):
        flows = [Flow(1, 1, 512), Flow(2, 2, 100), Flow(2, 1, 241, link=4), Flow(3, 3, 0)]
        self.assertEqual(depth_flow(4, 1024, flows, flow=1), Depth(1024, 2))
        self.assertEqual(depth_flow(4, 1024, flows, flow=4), Depth(0, 0))
        self.assertEqual(depth_input(4, 1024, flows, input=2), Depth(7054, 8))
        self.assertEqual(depth_output(4, 1024, flows, output=1), Depth(5226, 6))

    def test_refused_depths(self):
        for call in (depth_flow, depth_input, depth_output):
            self.refuses_list(call, 9)
            self.refused(5, call, 4, 4, [Flow(2, 1, 3), Flow(2, 4, 65535)], 9, port=2, cells=65538)
            self.refused(6, call, 4, 4, [Flow(1, 3, 2), Flow(2, 3, 3)], 9, port=3, cells=5)
            self.refused(12, call, 4, 4, TABLE7, 0)
            self.refused(12, call, 4, 4, TABLE7, 6)

    def test_refusal_in_another_process(self):
        with self.assertRaises(Refused) as raised:
            admit(4, 4, [Flow(1, 1, 5)])
        copied = pickle.loads(pickle.dumps(raised.exception))
        self.assertEqual((copied.number, copied.values, str(copied)), (5, {"port": 1, "cells": 5}, str(raised.exception)))


def buffers(numbers):
    """The same numbers in every kind of buffer of 16-bit numbers or of their bytes, by the name of the kind."""
    words = array.array("H", numbers)
    yield "array", words
    yield "memoryview", memoryview(array.array("H", numbers))
    yield "ctypes array", (ctypes.c_uint16 * len(numbers))(*numbers)
    yield "bytearray", bytearray(words.tobytes())
    yield "ctypes bytes", (ctypes.c_ubyte * (2 * len(numbers))).from_buffer_copy(words.tobytes())
    yield "rows", memoryview(bytearray(words.tobytes())).cast("H", (len(numbers) // 4, 4))
    try:
        import numpy
    except ImportError:
        return
    yield "NumPy array", numpy.array(numbers, dtype=numpy.uint16)


def other_forms(numbers):
    """The same numbers in forms that are copied, by the name of the form."""
    words = array.array("H", numbers)
    yield "list", list(numbers)
    yield "tuple", tuple(numbers)
    yield "bytes", words.tobytes()
    yield "memory that is only read", memoryview(words).toreadonly()
    yield "every other number", memoryview(array.array("H", [number for each in numbers for number in (each, 9)]))[::2]
    yield "memory that is not aligned", memoryview(bytearray(b"\0" + words.tobytes()))[1:]
    yield "larger numbers", array.array("Q", numbers)
    yield "signed numbers", array.array("h", numbers)
    yield "a generator", (number for number in numbers)


class Arrays(unittest.TestCase):
    """Lists, tuples and buffers in each place for an array."""

    def in_every_form(self, numbers, check):
        """Hands the numbers to a check in every form."""
        for name, form in itertools.chain(buffers(numbers), other_forms(numbers)):
            with self.subTest(name):
                check(form)

    def test_flows(self):
        self.in_every_form(TABLE7_NUMBERS, lambda form: self.assertEqual(build(4, 4, form).frame.tolist(), TABLE7_FRAME))

    def test_flows_as_flows(self):
        for flows in (TABLE7, tuple(TABLE7), iter(TABLE7), [tuple(flow) for flow in TABLE7], [list(flow) for flow in TABLE7]):
            self.assertEqual(build(4, 4, flows).frame.tolist(), TABLE7_FRAME)
        self.assertEqual(build(4, 4, [flow[:3] for flow in TABLE7]).frame.tolist(), TABLE7_FRAME)

    def test_rows_of_larger_numbers(self):
        rows = memoryview(array.array("Q", TABLE7_NUMBERS)).cast("B").cast("Q", (5, 4))
        self.assertEqual(build(4, 4, rows).frame.tolist(), TABLE7_FRAME)

    def test_no_flows(self):
        for flows in ([], (), b"", bytearray(), array.array("H"), memoryview(b""), (ctypes.c_uint16 * 0)()):
            self.assertEqual(build(2, 2, flows), (array.array("H", [0] * 4), 0))

    def test_limits(self):
        def check(form):
            with self.assertRaises(Refused) as raised:
                admit(4, 4, TABLE7, form)
            self.assertEqual(raised.exception.values, {"output": 2, "link": 1, "cells": 3})

        self.in_every_form(limits_with(4, output2_link1=0), check)

    def test_frame_that_is_read(self):
        self.in_every_form(TABLE7_FRAME, lambda form: self.assertIsNone(inspect(4, 4, TABLE7, form)))
        self.in_every_form(TABLE7_FRAME, lambda form: self.assertEqual(count_flow(4, 4, TABLE7, form, 5, 4, 2), Count(2, 4)))

    def test_frame_that_is_turned(self):
        self.in_every_form(TABLE7_FRAME, lambda form: self.assertEqual(turn(4, 4, TABLE7, form).tolist(), TABLE7_BY_OUTPUT))

    def test_frame_that_is_viewed(self):
        for name, form in itertools.chain(buffers(TABLE7_FRAME), other_forms(TABLE7_FRAME)):
            with self.subTest(name):
                self.assertEqual(list(slot_view(4, 4, form, 2)), [2, 0, 0, 3])

    def test_frame_that_is_written(self):
        for name, form in buffers([7] * 16):
            with self.subTest(name):
                built = build(4, 4, TABLE7, frame=form)
                self.assertIs(built.frame, form)
                self.assertEqual(memoryview(form).tobytes(), array.array("H", TABLE7_FRAME).tobytes())

    def test_second_buffer_that_is_written(self):
        for name, form in buffers([7] * 16):
            with self.subTest(name):
                self.assertIs(turn(4, 4, TABLE7, TABLE7_FRAME, into=form), form)
                self.assertEqual(memoryview(form).tobytes(), array.array("H", TABLE7_BY_OUTPUT).tobytes())

    def test_list_that_is_written(self):
        frame = [None] * 16
        self.assertIs(build(4, 4, TABLE7, frame=frame).frame, frame)
        self.assertEqual(frame, TABLE7_FRAME)
        into = [None] * 16
        self.assertIs(turn(4, 4, TABLE7, frame, into=into), into)
        self.assertEqual((frame, into), (TABLE7_FRAME, TABLE7_BY_OUTPUT))

    def test_frame_that_cannot_be_written(self):
        for name, form in other_forms([0] * 16):
            if name != "list":
                with self.subTest(name), self.assertRaisesRegex(TypeError, "^frame has to be a list, or"):
                    build(4, 4, TABLE7, frame=form)
        for name, form in other_forms([0] * 16):
            if name != "list":
                with self.subTest(name), self.assertRaisesRegex(TypeError, "^into has to be a list, or"):
                    turn(4, 4, TABLE7, TABLE7_FRAME, into=form)

    def test_part_of_larger_memory(self):
        memory = array.array("H", [7] * 48)
        build(4, 4, TABLE7, frame=memoryview(memory)[16:32])
        self.assertEqual(memory.tolist(), [7] * 16 + TABLE7_FRAME + [7] * 16)
        turn(4, 4, TABLE7, memoryview(memory)[16:32], into=memoryview(memory)[32:])
        self.assertEqual(memory.tolist(), [7] * 16 + TABLE7_FRAME + TABLE7_BY_OUTPUT)

    def test_frame_that_is_turned_in_place(self):
        for frame in (list(TABLE7_FRAME), array.array("H", TABLE7_FRAME)):
            self.assertIs(turn(4, 4, TABLE7, frame, into=frame), frame)
            self.assertEqual(list(frame), TABLE7_BY_OUTPUT)
            turn(4, 4, TABLE7, frame, Side.OUTPUT, frame)
            self.assertEqual(list(frame), TABLE7_FRAME)
        # A part of the frame, and the list of flows.
        memory = memoryview(array.array("H", TABLE7_FRAME + [7] * 8))
        turn(4, 4, TABLE7, memory[:16], into=memory[8:])
        self.assertEqual(memory.tolist(), TABLE7_FRAME[:8] + TABLE7_BY_OUTPUT)
        flows = array.array("H", [1, 1, 2, 1])
        self.assertEqual(turn(1, 4, flows, [1, 0, 1, 0], into=flows).tolist(), [1, 0, 1, 0])

    def test_view_is_no_copy(self):
        for name, form in buffers(TABLE7_FRAME):
            with self.subTest(name):
                slot_view(4, 4, form, 3)[0] = 1234
                self.assertEqual(memoryview(form).tobytes()[16:18], (1234).to_bytes(2, "little"))
        self.assertTrue(slot_view(4, 4, array.array("H", TABLE7_FRAME).tobytes(), 3).readonly)

    def test_list_that_is_its_frame(self):
        flows = array.array("H", [1, 1, 2, 1])
        self.assertEqual(build(1, 4, flows, frame=flows), (array.array("H", [1, 0, 1, 0]), 2))
        limits = array.array("H", frame_builder.slots_each(64))
        self.assertEqual(build(1, 64, [Flow(1, 1, 64)], limits, limits).frame.tolist(), [1] * 64)

    def test_what_is_written_is_apart(self):
        memory = memoryview(array.array("H", range(12)))
        frame = frame_builder._written(memory[4:8], "frame")
        for begin, end, shared in ((0, 4, False), (1, 5, True), (4, 8, True), (5, 6, True), (7, 11, True), (8, 12, False)):
            numbers = frame_builder._read(memory[begin:end], "flows")
            apart = frame_builder._apart(numbers, frame)
            self.assertEqual((apart is not numbers, list(apart)), (shared, list(range(begin, end))))

    def test_array_is_free_after_a_refusal(self):
        for call in (
            lambda flows, frame: build(4, 8, flows, frame=frame),
            lambda flows, frame: inspect(4, 8, flows, frame),
            lambda flows, frame: turn(4, 8, flows, frame),
            lambda flows, frame: turn(4, 8, flows, [0] * 16, into=frame),
            lambda flows, frame: slot_view(4, 8, frame, 1),
            lambda flows, frame: count_flow(4, 8, flows, frame, 1, 1, 1),
        ):
            flows, frame = array.array("H", TABLE7_NUMBERS), array.array("H", [0] * 16)
            # assertRaises would clear what a kept exception holds on to. An array that is still lent cannot grow.
            try:
                call(flows, frame)
            except Refused as refusal:
                kept = refusal
            self.assertEqual(kept.number, 4)
            flows.append(1)
            frame.append(1)

    def test_wrong_lengths(self):
        for limits in ([4] * 63, [4] * 65, [], bytes(64), array.array("H", [4] * 63)):
            with self.assertRaisesRegex(ValueError, r"limits has \d+ numbers, and has to have 64"):
                admit(4, 4, TABLE7, limits)
        with self.assertRaisesRegex(ValueError, "frame has 31 bytes, which are no whole number of 16-bit numbers"):
            inspect(4, 4, TABLE7, bytes(31))
        with self.assertRaisesRegex(ValueError, "into has 31 bytes, which are no whole number of 16-bit numbers"):
            turn(4, 4, TABLE7, TABLE7_FRAME, into=bytearray(31))
        with self.assertRaisesRegex(ValueError, "flows has 7 bytes"):
            admit(4, 4, bytearray(7))


class Numbers(unittest.TestCase):
    """Numbers that do not fit are never cut off."""

    NOT_WHOLE = ((1.0, TypeError), ("1", TypeError), (None, TypeError))

    def test_sizes(self):
        for bad, error in ((-1, ValueError), (2**64, ValueError), (2**64 + 4, ValueError), *self.NOT_WHOLE):
            for place, name in enumerate(("ports", "slots")):
                arguments = [4, 4]
                arguments[place] = bad
                for call in (admit, build):
                    with self.assertRaisesRegex(error, f"^{name} is "):
                        call(*arguments, TABLE7)
            with self.assertRaisesRegex(error, "^slot is "):
                slot_view(4, 4, TABLE7_FRAME, bad)
            for call, name in ((count_flow, "flow"), (count_input, "input"), (count_output, "output")):
                for place, named in enumerate((name, "start", "length")):
                    run = [1, 1, 1]
                    run[place] = bad
                    with self.assertRaisesRegex(error, f"^{named} is "):
                        call(4, 4, TABLE7, TABLE7_FRAME, *run)
            for call, name in ((depth_flow, "flow"), (depth_input, "input"), (depth_output, "output")):
                with self.assertRaisesRegex(error, f"^{name} is "):
                    call(4, 4, TABLE7, bad)
            for call, *rest in ((inspect,), (turn,), (count_flow, 1, 1, 1), (count_input, 1, 1, 1), (count_output, 1, 1, 1)):
                with self.assertRaisesRegex(error, "^side is "):
                    call(4, 4, TABLE7, TABLE7_FRAME, *rest, side=bad)

    def test_numbers_of_arrays(self):
        for bad, error in ((-1, ValueError), (65536, ValueError), (2**70, ValueError), *self.NOT_WHOLE):
            with self.assertRaisesRegex(error, r"^flows\[2\] is "):
                admit(4, 4, [1, 1, bad, 1])
            with self.assertRaisesRegex(error, "^cells of flow 2 is "):
                admit(4, 4, [Flow(1, 1, 1), Flow(1, 1, bad)])
            with self.assertRaisesRegex(error, r"^limits\[63\] is "):
                admit(4, 4, TABLE7, [4] * 63 + [bad])
            with self.assertRaisesRegex(error, r"^frame\[15\] is "):
                inspect(4, 4, TABLE7, TABLE7_FRAME[:15] + [bad])
            with self.assertRaisesRegex(error, r"^frame\[15\] is "):
                turn(4, 4, TABLE7, TABLE7_FRAME[:15] + [bad])

    def test_numbers_of_buffers(self):
        for typecode, bad in (("h", -1), ("I", 65536), ("q", -65535)):
            with self.assertRaisesRegex(ValueError, rf"^flows\[0\] is {bad}, and has to be 0 to 65535"):
                admit(4, 4, array.array(typecode, [bad, 1, 1, 1]))
        with self.assertRaisesRegex(TypeError, r"^frame\[0\] is 1.0, and has to be a whole number"):
            inspect(4, 4, TABLE7, array.array("d", TABLE7_FRAME))
        with self.assertRaisesRegex(TypeError, "^flows has numbers of a kind that is not known"):
            admit(4, 4, (ctypes.c_uint16.__ctype_be__ * 4)(1, 1, 1, 1))

    def test_no_arrays(self):
        for nothing in (None, 4, 1.5, object()):
            with self.assertRaisesRegex(TypeError, "^flows is .*, and has to be a list, a tuple or a buffer"):
                admit(4, 4, nothing)
            with self.assertRaisesRegex(TypeError, "^frame is .*, and has to be a list, a tuple or a buffer"):
                inspect(4, 4, TABLE7, nothing)
            with self.assertRaisesRegex(TypeError, "^frame is .*, and has to be a list, a tuple or a buffer"):
                turn(4, 4, TABLE7, nothing)
        for flow in ((1, 1), (1, 1, 1, 1, 1), "ab", {}, 3):
            with self.assertRaisesRegex(TypeError, "^flow 2 is .*, and has to be a Flow, or a tuple of its three or four numbers"):
                admit(4, 4, [Flow(1, 1, 1), flow])

    def test_whole_numbers_of_other_types(self):
        class Four:
            def __index__(self):
                return 4

        self.assertEqual(build(Four(), Four(), TABLE7).frame.tolist(), TABLE7_FRAME)
        self.assertEqual(count_flow(4, 4, [True, True, Four(), True], [1] * 16, True, True, Four()), Count(16, 0))

    def test_slots_each(self):
        self.assertEqual(frame_builder.slots_each(1024), [1024] * 64)
        self.assertEqual(frame_builder.slots_each(65536), [65535] * 64)


def read_sheet(text):
    """The ports, the slots and the flows of a reservation sheet that is well formed."""
    numbers = [[int(number) for number in re.findall(r"\d+", line)] for line in text.splitlines()]
    (ports,), (slots,), *flows = numbers
    return ports, slots, [Flow(*flow) for flow in flows]


def print_frame(ports, slots, frame):
    """The frame as the sheet program prints it."""
    lines = [f"(frame (ports {ports}) (slots {slots}))"]
    for slot in range(1, slots + 1):
        entries = [str(entry) for entry in slot_view(ports, slots, frame, slot) if entry]
        lines.append(f"(slot {' '.join([str(slot), *entries])})")
    return "\n".join(lines) + "\n"


def random_case(seed):
    """Ports, slots and flows that fit, over all links, some of them without cells, from a sum of permutations."""
    chance = random.Random(seed)
    ports, slots = chance.randint(1, 16), 2 ** chance.randint(0, 7)
    cells = {}
    for _ in range(chance.randint(0, slots)):
        outputs = chance.sample(range(1, ports + 1), ports)
        for input_, output in enumerate(outputs, 1):
            if chance.random() < 0.9:
                flow = (input_, output, chance.choice((1, 1, 1, 2, 3, 4)))
                cells[flow] = cells.get(flow, 0) + 1
    flows = [Flow(input_, output, count, link) for (input_, output, link), count in cells.items()][:512]
    chance.shuffle(flows)
    return ports, slots, flows


def classes_of(flow, number):
    """What an entry of a flow counts for."""
    return ("flow", number), ("input", flow.input), ("output", flow.output), ("link", flow.output, flow.link), ("total",)


def tally(ports, flows, entries):
    """How many cells each flow, input, output and link and the total has in some whole slots."""
    found = {}
    for entry in filter(None, entries):
        for each in classes_of(flows[entry - 1], entry):
            found[each] = found.get(each, 0) + 1
    return found


def is_balanced(ports, flows, entries):
    """Whether the halves of the block, and of every block within it, differ by at most one cell in everything."""
    if len(entries) == ports:
        return True
    half = len(entries) // 2
    first, second = tally(ports, flows, entries[:half]), tally(ports, flows, entries[half:])
    even = all(abs(first.get(each, 0) - second.get(each, 0)) <= 1 for each in {**first, **second})
    return even and is_balanced(ports, flows, entries[:half]) and is_balanced(ports, flows, entries[half:])


class Frames(unittest.TestCase):
    """Built frames against the examples and against what a frame has to be."""

    def test_examples(self):
        folder, built = os.path.join(TOP, "examples"), []
        for name in sorted(os.listdir(folder)):
            answer = name.replace(".sheet", ".answer")
            if name.endswith(".sheet") and file_text("examples", answer).startswith("(frame "):
                ports, slots, flows = read_sheet(file_text("examples", name))
                self.assertEqual(print_frame(ports, slots, build(ports, slots, flows).frame), file_text("examples", answer), name)
                built.append(name)
        self.assertIn("table7.sheet", built)

    def test_random_builds(self):
        for seed in range(300):
            with self.subTest(seed=seed):
                ports, slots, flows = random_case(seed)
                frame, settled = build(ports, slots, flows)
                entries = frame.tolist()
                self.assertIsNone(inspect(ports, slots, flows, frame))
                self.assertLessEqual(settled, ports * slots * (slots.bit_length() - 1))
                self.assertTrue(is_balanced(ports, flows, entries))
                self.assertEqual(
                    [entries.count(number) for number in range(1, len(flows) + 1)], [flow.cells for flow in flows]
                )
                for slot in range(1, slots + 1):
                    outputs = [flows[entry - 1].output for entry in slot_view(ports, slots, frame, slot) if entry]
                    self.assertEqual(len(outputs), len(set(outputs)))

    def test_random_turns(self):
        for seed in range(300):
            with self.subTest(seed=seed):
                ports, slots, flows = random_case(seed)
                frame = build(ports, slots, flows).frame
                turned = turn(ports, slots, flows, frame)
                for slot in range(1, slots + 1):
                    taken = {flows[entry - 1].output: entry for entry in slot_view(ports, slots, frame, slot) if entry}
                    self.assertEqual(
                        slot_view(ports, slots, turned, slot).tolist(), [taken.get(port, 0) for port in range(1, ports + 1)]
                    )
                self.assertIsNone(inspect(ports, slots, flows, turned, Side.OUTPUT))
                self.assertEqual(turn(ports, slots, flows, turned, Side.OUTPUT), frame)

    def test_random_counts(self):
        for seed in range(100):
            ports, slots, flows = random_case(seed)
            frame = build(ports, slots, flows).frame.tolist()
            turned = turn(ports, slots, flows, frame)
            start, length = seed % slots + 1, seed * 7 % (3 * slots)
            run = [entry for slot in range(start - 1, start - 1 + length) for entry in frame[slot % slots * ports :][:ports]]
            found, whole = tally(ports, flows, run), tally(ports, flows, frame)

            def expected(*each):
                return Count(found.get(each, 0), slots * found.get(each, 0) - length * whole.get(each, 0))

            with self.subTest(seed=seed):
                for given, side in ((frame, Side.INPUT), (turned, Side.OUTPUT)):
                    for port in range(1, ports + 1):
                        self.assertEqual(count_input(ports, slots, flows, given, port, start, length, side), expected("input", port))
                        self.assertEqual(count_output(ports, slots, flows, given, port, start, length, side), expected("output", port))
                    for flow in range(1, len(flows) + 1, 7):
                        self.assertEqual(count_flow(ports, slots, flows, given, flow, start, length, side), expected("flow", flow))
                for flow in range(1, len(flows) + 1, 7):
                    self.assertLessEqual(abs(expected("flow", flow).lead), depth_flow(ports, slots, flows, flow).parts)

    def test_threads(self):
        cases = [random_case(seed) for seed in range(8)]
        alone, together = [build(*case) for case in cases], {}
        threads = [threading.Thread(target=lambda at=at: together.update({at: build(*cases[at])})) for at in range(len(cases))]
        for thread in threads:
            thread.start()
        for thread in threads:
            thread.join()
        self.assertEqual([together[at] for at in range(len(cases))], alone)


class Library(unittest.TestCase):
    """Where the library is looked for, each time by another interpreter."""

    def setUp(self):
        self.room = tempfile.mkdtemp()
        self.addCleanup(shutil.rmtree, self.room)
        self.shared = os.path.realpath(os.environ["FRAME_BUILDER_LIBRARY"])
        self.soname = f"libframe_builder.so.{frame_builder.CALLS}"

    def lay(self, *names):
        """A folder of the room."""
        folder = os.path.join(self.room, *names)
        os.makedirs(folder, exist_ok=True)
        return folder

    def version(self, folder, **settings):
        """What an interpreter prints for the version of the module in a folder, with these variables alone, or its last line of errors."""
        command = [sys.executable, "-c", "import frame_builder; print(frame_builder.version())"]
        kept = {name: value for name, value in os.environ.items() if not name.startswith("FRAME_BUILDER_")}
        done = subprocess.run(command, env={**kept, "PYTHONPATH": folder, **settings}, capture_output=True, text=True, check=False)
        return done.stdout.strip() or done.stderr

    def module_in(self, *names):
        folder = self.lay(*names)
        shutil.copy(MODULE, folder)
        return folder

    def linked(self, source, script):
        """A shared library of a C source and a version script."""
        for name, text in (("library.c", source), ("script", script)):
            with open(os.path.join(self.room, name), "w", encoding="utf-8") as file:
                file.write(text)
        library = os.path.join(self.room, "other.so")
        subprocess.run(
            ["gcc", "-shared", "-fPIC", "-Wl,--version-script=script", "library.c", "-o", library], cwd=self.room, check=True
        )
        return library

    def test_variable(self):
        self.assertEqual(self.version(self.module_in("any"), FRAME_BUILDER_LIBRARY=self.shared), frame_builder.version())

    def test_another_name(self):
        library = shutil.copy(self.shared, os.path.join(self.room, "calls.so"))
        self.assertEqual(self.version(self.module_in("any"), FRAME_BUILDER_LIBRARY=library), str(frame_builder.CALLS))

    def test_installed_place(self):
        module = self.module_in("usr", "lib", "python3", "dist-packages")
        name = os.path.join(self.room, "usr", "lib", self.soname)
        shutil.copy(self.shared, name + ".7.8")
        os.symlink(os.path.basename(name) + ".7.8", name)
        self.assertEqual(self.version(module, FRAME_BUILDER_LIBRARY=""), f"{frame_builder.CALLS}.7.8")

    def test_loader(self):
        folder = self.lay("libraries")
        shutil.copy(self.shared, os.path.join(folder, self.soname))
        self.assertEqual(self.version(self.module_in("any"), LD_LIBRARY_PATH=folder), str(frame_builder.CALLS))

    def test_missing(self):
        said = self.version(self.module_in("usr", "lib", "python3", "dist-packages"))
        beside = os.path.join(os.path.realpath(self.room), "usr", "lib", self.soname)
        self.assertIn("ImportError: frame_builder: the library is not found. Tried, in this order:\n", said)
        self.assertIn(f"  1. beside this module: {beside}: cannot open", said)
        self.assertIn(f"  2. where the loader looks: {self.soname}: cannot open", said)
        self.assertIn("run `./install --prefix DIR` in a checkout", said)

    def test_not_beside_any_other_place(self):
        shutil.copy(self.shared, os.path.join(self.room, self.soname))
        self.assertIn("\n  1. where the loader looks: ", self.version(self.module_in("some", "folder")))

    def test_variable_that_names_nothing(self):
        nothing = os.path.join(self.room, "nothing.so")
        said = self.version(self.module_in("any"), FRAME_BUILDER_LIBRARY=nothing, LD_LIBRARY_PATH=os.path.dirname(self.shared))
        self.assertIn(f"\n  1. FRAME_BUILDER_LIBRARY: {nothing}: cannot open", said)
        self.assertNotIn("2. ", said)

    def test_variable_that_is_relative(self):
        said = self.version(self.module_in("any"), FRAME_BUILDER_LIBRARY="libframe_builder.so")
        self.assertIn("FRAME_BUILDER_LIBRARY is libframe_builder.so, and has to be a path that begins with /", said)

    def test_another_major_version(self):
        calls = "".join(f"int frame_builder_{call}(void) {{ return 0; }}\n" for call in frame_builder._SIGNATURES)
        library = self.linked(calls, f"FRAME_BUILDER_{frame_builder.CALLS - 1} {{ global: *; }};\n")
        said = self.version(self.module_in("any"), FRAME_BUILDER_LIBRARY=library)
        self.assertIn(f"{library} has no call admit of version {frame_builder.CALLS}, which this module makes", said)

    def test_an_older_version(self):
        calls = "".join(f"int frame_builder_{call}(void) {{ return 0; }}\n" for call in frame_builder._SIGNATURES)
        library = self.linked(calls, f"FRAME_BUILDER_{frame_builder.CALLS} {{ global: *; }};\n")
        later = f"{frame_builder.CALLS}.77"
        said = self.version(self.module_since("turn", later), FRAME_BUILDER_LIBRARY=library)
        self.assertIn(f"{library} has no call turn of version {later}, which this module makes", said)

    def test_a_later_version(self):
        calls = "".join(f"int frame_builder_{call}(void) {{ return 0; }}\n" for call in frame_builder._SIGNATURES)
        major, later = frame_builder.CALLS, f"{frame_builder.CALLS}.77"
        versions = f"FRAME_BUILDER_{later} {{ global: frame_builder_turn; }};\nFRAME_BUILDER_{major} {{ global: *; }};\n"
        library = self.linked(calls, versions)
        self.assertEqual(self.version(self.module_since("turn", later), FRAME_BUILDER_LIBRARY=library), str(major))
        said = self.version(self.module_in("other"), FRAME_BUILDER_LIBRARY=library)
        self.assertIn(f"{library} has no call turn of version {major}, which this module makes", said)

    def module_since(self, call, version):
        """A folder with a module that says of a call that it came with a later version."""
        folder = self.module_in("any")
        lines = file_text("python", "frame_builder.py").splitlines(keepends=True)
        (place,) = [place for place, line in enumerate(lines) if line.startswith("_SINCE = {")]
        lines[place] = f"_SINCE = {{{call!r}: {version!r}}}\n"
        with open(os.path.join(folder, "frame_builder.py"), "w", encoding="utf-8") as file:
            file.writelines(lines)
        return folder


def load_tests(loader, tests, pattern):
    """The examples of the module and of README are tests too."""
    tests.addTests(doctest.DocTestSuite(frame_builder))
    tests.addTests(doctest.DocFileSuite(os.path.join(TOP, "README.md"), module_relative=False, encoding="utf-8"))
    return tests


if __name__ == "__main__":
    result = unittest.main(exit=False, verbosity=0).result
    bad = len({test.id().split(" ")[0] for test, _ in result.failures + result.errors})
    print(f"{result.testsRun - bad - len(result.skipped)} passed, {bad} failed", flush=True)
    sys.exit(bad != 0)
