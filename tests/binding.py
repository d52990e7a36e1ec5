"""Tests the Python package: the cases of vector files with every kind of table, every refusal of every service, other values and types, threads and their
stacks, the examples. `binding.py FILE..`."""

import copy
import ctypes
import doctest
import inspect
import io
import mmap
import os
import pickle
import shutil
import sqlite3
import subprocess
import sys
import tempfile
import threading
import unittest
from array import array
from concurrent.futures import ThreadPoolExecutor
from contextlib import contextmanager, nullcontext, redirect_stdout
from pathlib import Path
from unittest.mock import ANY, patch

ROOT = Path(__file__).resolve().parent.parent
MODULE = ROOT / "bindings" / "python"
sys.path.insert(0, str(MODULE))

import sirbolta  # noqa: E402

AGREED = {}

# each service that a table in the signed order is handed to, with arguments for a profile drive
PROFILE = b"\0\1\0\1\0"
SERVICES = [("check",), ("read",), ("extract", 1, 2), ("count", b"\0\1"), ("locate", b"\0\1"), ("lyndon_length", 1), ("lyndon_array",), ("check_profile",)]
SERVICES += [("count_with_tests", b"\0\1"), ("locate_with_tests", b"\0\1"), ("census", 2)]


class Told(bytes):
    """Bytes that say of themselves what is not so."""

    def __len__(self):
        return 8

    def __bytes__(self):
        return b"told"


def former(text, chair) -> list[int]:
    """The words of the table in the former order, in which samples were compared as unsigned numbers: those of the table of the samples with their highest bit
    changed, whose symbols are changed back."""
    changed = sirbolta.build(bytes(sample ^ 128 for sample in text), chair).words
    return [(word - 1 ^ 128) + 1 if 0 < word <= 256 else word for word in changed]


def unaligned(words, offset=1) -> memoryview:
    """The same words as bytes that begin so far behind a multiple of four."""
    return memoryview(b"?" * offset + bytes(array("I", words)))[offset:]


def apart(words) -> memoryview:
    """The same words with a word between any two."""
    return memoryview(array("I", [word for each in words for word in (each, 0)]))[::2]


KINDS = {
    "list": list,
    "Table": sirbolta.Table,
    "bytes": lambda words: bytes(array("I", words)),
    "subclass of bytes": lambda words: Told(array("I", words)),
    "bytearray": lambda words: bytearray(array("I", words)),
    "array": lambda words: array("I", words),
    "ctypes": lambda words: (ctypes.c_uint32 * len(words))(*words),
    "unaligned": unaligned,
    "apart": apart,
}


def run(code: str) -> tuple[str, str, int]:
    """What a program prints that begins with a long drive's table, what it says on standard error, and how it ends."""
    start = "import sirbolta, sys, threading\ntable = sirbolta.build(b'a' * 2047, 40)\n"
    environment = os.environ | {"PYTHONPATH": str(MODULE)}
    ran = subprocess.run([sys.executable, "-B", "-c", start + code], env=environment, capture_output=True, text=True, timeout=20)
    return ran.stdout, ran.stderr, ran.returncode


def entries(value: str, digits: int) -> list[int]:
    """Entries written as LEN/OFF:HEX;OFF:HEX, all 0 but the runs."""
    length, runs = value.split("/")
    result = [0] * int(length)
    for run in filter(None, runs.split(";")):
        offset, text = run.split(":")
        for i in range(0, len(text), digits):
            result[int(offset) + i // digits] = int(text[i : i + digits], 16)
    return result


def front(case: dict, name: str, length: int, digits: int) -> list[int]:
    """So many entries, which a slice of a case has at its front afterwards."""
    return entries(f"{length}/0:" + case["after " + name].removeprefix("front ").removeprefix("-"), digits)


def cases(file: str):
    """The cases that call a service, each a dictionary from a line's first words to the rest."""
    for block in Path(file).read_text().split("\ncase ")[1:]:
        lines = [line.split(" ", 2 if line.split(" ")[0] in ("arg", "lend", "after") else 1) for line in block.split("\n") if " " in line]
        case = {" ".join(line[:-1]): line[-1] for line in lines}
        if case["call"] != "program":
            yield case


def asked(case: dict, kind):
    """What the module answers, as its numbers and the entries written, with the table handed over in one kind. The numbers are the count and, where there is one,
    the chair number or that of tests."""
    table = kind(entries(case.get("arg table", "0/"), 8))
    drive = bytes(entries(case.get("arg drive", "0/"), 2))
    motif = bytes(entries(case.get("arg motif", "0/"), 2))
    steps = {"0": False, "1": True}[case.get("arg steps", "0")]
    match case["call"]:
        case "build":
            words = {None: sirbolta.build, "1": sirbolta.build_profile}[case.get("arg profile")](drive, int(case["arg chair"])).words.tolist()
            return len(words), words
        case "check":
            return {None: sirbolta.check, "1": sirbolta.check_profile}[case.get("arg profile")](table), None
        case "read":
            text, chair = sirbolta.read(table)
            return (len(text), chair), list(text)
        case "part":
            text = sirbolta.extract(table, int(case["arg start"]), int(case["arg length"]))
            return len(text), list(text)
        case "count":
            return sirbolta.count_with_tests(table, motif, steps=steps), None
        case "list":
            places, tests = sirbolta.locate_with_tests(table, motif, steps=steps)
            return (len(places), tests), places
        case "cuts":
            cuts = sirbolta.live_cuts(motif)
            return len(cuts), cuts
        case "longest":
            return sirbolta.lyndon_length(table, int(case["arg position"])), None
        case "longest_all":
            lengths = sirbolta.lyndon_array(table)
            return len(lengths), lengths
        case "convert_order":
            words = sirbolta.to_signed(table).words.tolist()
            return len(words), words
        case "rearrange":
            text = {"0": sirbolta.to_steps, "1": sirbolta.from_steps}[case["arg inverse"]](drive)
            return len(text), list(text)
        case "census":
            pairs = sirbolta.census(table, int(case["arg q"]))
            return len(pairs), pairs
    raise AssertionError(f"an unknown call: {case['call']}")


class Vectors(unittest.TestCase):
    def test_every_case_with_slices_long_enough(self):
        for case in [case for file in FILES for case in cases(file)]:
            want = dict(zip(*[iter(case["want"].split())] * 2))
            if want["no"] in "49":
                continue
            for name in KINDS if "arg table" in case else ["list"]:
                with self.subTest(case, kind=name):
                    self.agrees(case, want, KINDS[name])
            service = case["call"] + " in the profile" * ("arg profile" in case)
            AGREED[service] = AGREED.get(service, 0) + 1
        services = ["build", "build in the profile", "census", "check", "check in the profile", "convert_order", "count", "cuts", "list", "longest", "longest_all"]
        self.assertEqual(sorted(AGREED), [*services, "part", "read", "rearrange"])

    def agrees(self, case, want, kind):
        if want["no"] == "0":
            count = int(want["count"])
            answer, written = asked(case, kind)
            beside = [int(want[name]) for name in ("chair", "tests") if name in want]
            self.assertEqual(answer, (count, *beside) if beside else count)
            if case["call"] == "census":
                q = int(case["arg q"])
                runs, counts = front(case, "result", q * count, 2), front(case, "result2", count, 8)
                self.assertEqual(written, [(bytes(runs[q * i : q * i + q]), counts[i]) for i in range(count)])
            elif written is not None:
                self.assertEqual(written, front(case, "result", count, 2 if case["call"] in ("read", "part", "rearrange") else 8))
        else:
            with self.assertRaises(sirbolta.Refusal) as raised:
                asked(case, kind)
            self.assertEqual((raised.exception.number, raised.exception.place), (int(want["no"]), int(want["place"])))


class Refusals(unittest.TestCase):
    """Each service refused by each number that concerns it, on the profile drive 0, 1, 0, 1, 0 and the samples 0, 1, 0, with one thing changed."""

    NAMES = [
        "TextTooLong", "PatternEmpty", "PatternTooLong", "WorkTooShort", "TableLength", "BadWord", "NotATable", "RangePastEnd", "ResultTooShort", "NoStep",
        "OffHeading", "NotAtRest", "OddWindow",
    ]
    CONCERNED = {
        "build": [1, 4, 9], "check": [4, 5, 6, 7], "read": [4, 5, 6, 7, 9], "extract": [4, 5, 6, 7, 8, 9], "count": [2, 3, 10, 4, 5, 6, 7],
        "locate": [2, 3, 10, 4, 5, 6, 7, 9], "live_cuts": [2, 3, 9], "lyndon_length": [4, 5, 6, 7, 8], "lyndon_array": [4, 5, 6, 7, 9],
        "to_signed": [4, 5, 6, 7, 9], "to_steps": [1, 9], "from_steps": [1, 9], "build_profile": [1, 11, 12, 4, 9], "check_profile": [4, 5, 6, 7, 11, 12],
        "census": [13, 4, 5, 6, 7, 9],
    }
    NEEDED = {
        "build": 12, "read": 5, "extract": 3, "locate": 2, "live_cuts": 1, "lyndon_array": 5, "to_signed": 14, "to_steps": 3, "from_steps": 3, "build_profile": 12,
        "census": 2,
    }
    CHANGED = {
        1: {"samples": bytearray(2048)},
        2: {"samples": bytearray()},
        3: {"samples": bytearray(2048)},
        4: {"_WORK": 16_383},
        5: {"table": sirbolta.Table([])},
        6: {"table": sirbolta.Table([0, 0xC0000000, 257, 0xC0000000])},
        7: {"table": sirbolta.Table([98, 0xC0000000])},
        8: {"start": 5, "length": 1, "position": 5},
        9: {"_SAMPLES": 0, "_TABLE": 0, "_CUTS": 0, "_RUNS": 0},
        10: {"samples": bytearray(1), "steps": True},
        11: {"samples": bytearray(b"\1\xff\x09"), "table": sirbolta.build(b"\1\xff\x09", 40)},
        12: {"samples": bytearray(b"\0\1"), "table": sirbolta.build(b"\0\1", 40)},
        13: {"q": 9},
    }

    def setUp(self):
        self.usual = {"table": sirbolta.build(PROFILE, 40), "samples": bytearray(b"\0\1\0"), "chair": 40, "start": 0, "length": 3, "position": 2, "q": 3}
        self.usual["steps"] = False
        built = sirbolta.Table([0, 0xC0000028, 1, 0xC0000000, 2, 0xC0000000, 0x40000001, 0x80000002, 0x40000000, 0x80000003, 0x40000004, 0x80000001])
        self.answers = {
            "build": built, "check": 7, "read": (PROFILE, 40), "extract": b"\0\1\0", "count": 2, "locate": [0, 2], "live_cuts": [2], "lyndon_length": 2,
            "lyndon_array": [2, 1, 2, 1, 1], "to_signed": self.usual["table"], "to_steps": b"\0\1\xff", "from_steps": b"\0\1\1", "build_profile": built,
            "check_profile": 7, "census": [(b"\0\1\0", 2), (b"\1\0\1", 1)],
        }

    def ask(self, service, given):
        arguments = {"build": ["samples", "chair"], "extract": ["table", "start", "length"], "live_cuts": ["samples"]}
        arguments |= {"build_profile": ["samples", "chair"], "check_profile": ["table"], "census": ["table", "q"]}
        arguments |= {"check": ["table"], "read": ["table"], "count": ["table", "samples"], "locate": ["table", "samples"]}
        arguments |= {"lyndon_length": ["table", "position"], "lyndon_array": ["table"], "to_signed": ["table"], "to_steps": ["samples"], "from_steps": ["samples"]}
        named = {"steps": given["steps"]} if service in ("count", "locate") else {}
        return getattr(sirbolta, service)(*[given[name] for name in arguments[service]], **named)

    def test_every_refusal_of_every_service(self):
        for service, numbers in self.CONCERNED.items():
            for number in numbers:
                with self.subTest(service=service, number=number):
                    refusal = getattr(sirbolta, self.NAMES[number - 1])
                    given = self.usual | self.CHANGED[number]
                    before = pickle.dumps(given)
                    lent = {name: value for name, value in given.items() if name.startswith("_")}
                    with patch.multiple(sirbolta, **lent) if lent else nullcontext(), self.assertRaises(refusal) as raised:
                        self.ask(service, given)
                    place = {6: 2, 9: self.NEEDED.get(service), 11: 1}.get(number, 0)
                    self.assertEqual((raised.exception.number, raised.exception.place), (number, place))
                    self.assertEqual(pickle.dumps(given), before, "an input was written")
                    self.assertEqual({name: self.ask(name, self.usual) for name in self.answers}, self.answers)

    def test_every_service_is_exported(self):
        self.assertLessEqual(set(self.CONCERNED), set(sirbolta.__all__))

    def test_what_does_not_concern_a_service(self):
        for service, number in [("live_cuts", 4), ("to_steps", 4), ("from_steps", 4), ("check", 9), ("count", 9), ("lyndon_length", 9), ("check_profile", 9)]:
            with self.subTest(service=service, number=number), patch.multiple(sirbolta, **self.CHANGED[number]):
                self.assertEqual(self.ask(service, self.usual), self.answers[service])

    def test_either_slice_of_a_census_too_short(self):
        for name, length in [("_RUNS", 5), ("_SAMPLES", 1)]:
            with self.subTest(slice=name), patch.object(sirbolta, name, length), self.assertRaises(sirbolta.ResultTooShort) as raised:
                self.ask("census", self.usual)
            self.assertEqual(raised.exception.place, 2)
        with patch.multiple(sirbolta, _RUNS=6, _SAMPLES=2):
            self.assertEqual(self.ask("census", self.usual), self.answers["census"])

    def test_each_has_a_number_and_a_sentence(self):
        for number, name in enumerate(self.NAMES, 1):
            refusal = getattr(sirbolta, name)
            self.assertIn(name, sirbolta.__all__)
            self.assertEqual((refusal.number, refusal.__doc__), (number, refusal.reason.format(place="N")))
            self.assertRegex(str(refusal(31)), f"^refused {number}: [a-z][^{{}}]+$")
        self.assertEqual(str(sirbolta.ResultTooShort(31)), "refused 9: a result slice is too short: 31 entries, or by a census 31 runs, are needed")

    def test_a_refusal_keeps_its_place(self):
        refusal = pickle.loads(pickle.dumps(sirbolta.BadWord(31)))
        self.assertEqual((refusal.number, refusal.place, str(refusal)), (6, 31, "refused 6: word 31 of the table is bad"))
        refusal = pickle.loads(pickle.dumps(sirbolta.OffHeading(2046)))
        sentence = "refused 11: byte 2046 of the text is above 8, so neither rest nor a heading"
        self.assertEqual((refusal.number, refusal.place, str(refusal)), (11, 2046, sentence))


class Module(unittest.TestCase):
    def setUp(self):
        self.table = sirbolta.build(b"abab", 40)

    def test_values_out_of_range(self):
        for sentence, call in [
            ("the chair number is negative", lambda: sirbolta.build(b"", -1)),
            ("the chair number has more than 16 bits", lambda: sirbolta.build(b"", 65_536)),
            ("the chair number has more than 16 bits", lambda: sirbolta.build(b"", 10**5000)),
            ("the chair number has more than 16 bits", lambda: sirbolta.build_profile(b"", 65_536)),
            ("a word of a table has more than 32 bits", lambda: sirbolta.check([2**32, 0])),
            ("a word of a table is negative", lambda: sirbolta.check([0, -1])),
            ("start is negative", lambda: sirbolta.extract(self.table, -1, 2)),
            ("length is negative", lambda: sirbolta.extract(self.table, 2, -(10**5000))),
            ("position is negative", lambda: sirbolta.lyndon_length(self.table, -1)),
            ("a table has four bytes a word, so not 47 bytes", lambda: sirbolta.check(bytes(self.table)[1:])),
            ("a table has four bytes a word, so not 47 bytes", lambda: sirbolta.count(bytearray(bytes(self.table))[1:], b"ab")),
            ("a table has four bytes a word, so not 47 bytes", lambda: sirbolta.locate(memoryview(bytes(self.table))[1:], b"ab")),
            ("a table has four bytes a word, so not 1 bytes", lambda: sirbolta.Table(b"a")),
            ("a table has four bytes a word, so not 1 bytes", lambda: sirbolta.Table(memoryview(b"abcd")[::4])),
        ]:
            with self.assertRaises(ValueError) as raised:
                call()
            self.assertEqual(str(raised.exception), sentence)

    def test_start_and_length_of_any_size(self):
        for start, length in [(5, 0), (4, 1), (0, 2**64), (2**64, 0), (2**64 - 1, 1), (1, 2**64 - 1), (2**64, 2**64), (10**5000, 0)]:
            with self.subTest(bits=(start.bit_length(), length.bit_length())):
                self.assertRaises(sirbolta.RangePastEnd, sirbolta.extract, self.table, start, length)
        self.assertRaises(sirbolta.TableLength, sirbolta.extract, [], 2**64, 0)
        self.assertEqual(sirbolta.extract(self.table, 4, 0), b"")

    def test_a_position_of_any_size(self):
        for position in [4, 5, 2**32, 2**32 + 1, 2**64 - 1, 2**64, 2**64 + 1, 10**5000]:
            with self.subTest(bits=position.bit_length()):
                self.assertRaises(sirbolta.RangePastEnd, sirbolta.lyndon_length, self.table, position)
        self.assertRaises(sirbolta.RangePastEnd, sirbolta.lyndon_length, sirbolta.build(b"", 40), 0)
        self.assertRaises(sirbolta.TableLength, sirbolta.lyndon_length, [], 2**64)
        self.assertEqual([sirbolta.lyndon_length(self.table, position) for position in range(4)], [2, 1, 2, 1])

    def test_runs_of_any_size(self):
        for q in [0, 9, -1, -8, 255, 256, 257, 2**32 + 1, 2**64 - 1, 2**64, 2**64 + 1, -(2**64) + 1, 10**5000, -(10**5000)]:
            for table in self.table, []:
                with self.subTest(bits=q.bit_length(), negative=q < 0), self.assertRaises(sirbolta.OddWindow) as raised:
                    sirbolta.census(table, q)
                self.assertEqual(raised.exception.place, 0)
        self.assertEqual([len(sirbolta.census(self.table, q)) for q in range(1, 9)], [2, 2, 2, 1, 0, 0, 0, 0])
        self.assertEqual([sirbolta.census(sirbolta.build(b"", 40), q) for q in range(1, 9)], [[]] * 8)

    def test_other_types(self):
        words = self.table.words
        for table in ["", "abab", {}, dict.fromkeys(words), set(), frozenset(words), iter(words), None, 4]:
            sentence = f"a table is a Table, a buffer or a sequence of 32-bit words, not {type(table).__name__}"
            self.wrong_type(sentence, sirbolta.Table, table)
            self.wrong_type(sentence, sirbolta.check, table)
            self.wrong_type(sentence, sirbolta.read, table)
            self.wrong_type(sentence, sirbolta.extract, table, 0, 0)
            self.wrong_type(sentence, sirbolta.count, table, b"ab")
            self.wrong_type(sentence, sirbolta.locate, table, b"ab")
            self.wrong_type(sentence, sirbolta.lyndon_length, table, 0)
            self.wrong_type(sentence, sirbolta.lyndon_array, table)
            self.wrong_type(sentence, sirbolta.to_signed, table)
            self.wrong_type(sentence, sirbolta.check_profile, table)
            self.wrong_type(sentence, sirbolta.census, table, 2)
        for table in [array("i"), array("H"), array("Q"), array("f"), (ctypes.c_uint32.__ctype_be__ * 2)()]:
            sentence = f"a table's buffer has single bytes or unsigned words of 32 bits, not the format {memoryview(table).format}"
            self.wrong_type(sentence, sirbolta.Table, table)
            self.wrong_type(sentence, sirbolta.check, table)
        for samples in ["", "abab", 4, [], [97, 98], None, self.table]:
            sentence = f"samples are bytes, not {type(samples).__name__}"
            self.wrong_type(sentence, sirbolta.build, samples, 40)
            self.wrong_type(sentence, sirbolta.build_profile, samples, 40)
            self.wrong_type(sentence, sirbolta.count, self.table, samples)
            self.wrong_type(sentence, sirbolta.locate, self.table, samples)
            self.wrong_type(sentence, sirbolta.live_cuts, samples)
            self.wrong_type(sentence, sirbolta.to_steps, samples)
            self.wrong_type(sentence, sirbolta.from_steps, samples)
        self.wrong_type("samples are single bytes", sirbolta.build, array("I"), 40)
        self.assertRaises(TypeError, sirbolta.count, self.table, b"ab", True)
        self.assertRaises(TypeError, sirbolta.locate, self.table, b"ab", True)
        for steps in [0, 1, None, "", b"ab", self.table]:
            sentence = f"steps is True or False, not {type(steps).__name__}"
            self.wrong_type(sentence, sirbolta.count, self.table, b"ab", steps=steps)
            self.wrong_type(sentence, sirbolta.locate, self.table, b"ab", steps=steps)
            self.wrong_type(sentence, sirbolta.count_each, [self.table], b"ab", steps=steps)
        for number in [True, False, 1.0, "1", None]:
            kind = type(number).__name__
            self.wrong_type(f"the chair number is a whole number, not {kind}", sirbolta.build, b"abab", number)
            self.wrong_type(f"the chair number is a whole number, not {kind}", sirbolta.build_profile, PROFILE, number)
            self.wrong_type(f"start is a whole number, not {kind}", sirbolta.extract, self.table, number, 0)
            self.wrong_type(f"length is a whole number, not {kind}", sirbolta.extract, self.table, 0, number)
            self.wrong_type(f"position is a whole number, not {kind}", sirbolta.lyndon_length, self.table, number)
            self.wrong_type(f"q is a whole number, not {kind}", sirbolta.census, self.table, number)
            self.wrong_type(f"a word of a table is a whole number, not {kind}", sirbolta.check, [0, number])

    def wrong_type(self, sentence, service, *arguments, **named):
        with self.subTest(service=service.__name__, arguments=arguments, **named):
            with self.assertRaises(TypeError) as raised:
                service(*arguments, **named)
            self.assertEqual(str(raised.exception), sentence)

    def test_samples_of_other_kinds(self):
        self.assertEqual(sirbolta.build(bytearray(b"abab"), 40), self.table)
        self.assertEqual(sirbolta.build(memoryview(b"xabab")[1:], 40), self.table)
        self.assertEqual(sirbolta.build(memoryview(b"a?b?a?b?")[::2], 40), self.table)
        self.assertEqual(sirbolta.locate(self.table, array("b", b"ab")), [0, 2])
        self.assertEqual(sirbolta.build(Told(b"abab"), 40), self.table)
        self.assertEqual((sirbolta.count(self.table, Told(b"ab")), sirbolta.live_cuts(Told(b"aaba"))), (2, [1, 3]))
        self.assertEqual((sirbolta.to_steps(memoryview(b"a?b?")[::2]), sirbolta.from_steps(Told(b"a\1"))), (b"a\1", b"ab"))
        self.assertEqual([sirbolta.build_profile(kind, 40).read()[0] for kind in (Told(PROFILE), bytearray(PROFILE), array("b", PROFILE))], [PROFILE] * 3)

    def test_largest(self):
        text = bytes(i // 8 ^ 128 for i in range(2047))  # -128 to 127
        table = sirbolta.build(text, 65_535)
        self.assertEqual((len(table.words), sirbolta.check(table)), (4608, 2304))
        self.assertEqual(sirbolta.read(table), (text, 65_535))
        self.assertEqual((sirbolta.lyndon_length(table, 0), sirbolta.lyndon_array(table)), (2047, [*range(2047, 7, -1)] + [1] * 7))
        self.assertEqual(sirbolta.locate(sirbolta.build(bytes(2047), 0), b"\0"), list(range(2047)))
        word = b"aa"
        for sample in b"bcdefghij":
            word += bytes([sample]) + word
        cuts = sirbolta.live_cuts(b"z" + word)
        self.assertEqual([1536 - cut for cut in cuts], [1535, 767, 383, 191, 95, 47, 23, 11, 5, 2, 1])
        self.assertEqual(sirbolta.to_steps(text), bytes([128] + [i % 8 == 0 for i in range(1, 2047)]))
        self.assertEqual(sirbolta.from_steps(sirbolta.to_steps(text)), text)
        self.assertEqual(sirbolta.census(table, 8), [(text[i : i + 8], 1) for i in range(2040)])  # it rises, so its runs do

    def test_live_cuts_that_are_left_out(self):
        for pattern, cuts in [(b"aaaa", [1, 3]), (b"bababab", [1, 5]), (b"baabaabaab", [1, 7]), (b"baabaabaa", [1, 7, 8]), (bytes(2047), [1, 2046])]:
            self.assertEqual(sirbolta.live_cuts(pattern), cuts)

    def test_samples_are_compared_as_signed_numbers(self):
        edges = bytes([128, 255, 0, 127])
        self.assertEqual(sirbolta.lyndon_array(sirbolta.build(edges, 40)), [4, 3, 2, 1])
        self.assertEqual(sirbolta.lyndon_array(sirbolta.build(edges[::-1], 40)), [1, 1, 1, 1])
        self.assertEqual((sirbolta.live_cuts(bytes([0, 127, 128])), sirbolta.live_cuts(bytes([0, 255, 1]))), ([2], [1]))

    def test_a_census_of_signed_numbers(self):
        text = bytes(i * i * 40503 >> 7 & 255 for i in range(2047))
        for q in 1, 2, 8:
            runs = [text[i : i + q] for i in range(2048 - q)]
            listed = sorted(set(runs), key=lambda run: list(memoryview(run).cast("b")))
            self.assertEqual(sirbolta.build(text, 40).census(q), [(run, runs.count(run)) for run in listed])
        for sample in 0, 127, 128, 255:
            self.assertEqual([sirbolta.build(bytes([sample]) * 2047, 40).census(q) for q in (1, 8)], [[(bytes([sample]) * q, 2048 - q)] for q in (1, 8)])

    def test_former_tables(self):
        for text in [bytes([255, 1]), bytes([1, 255]), bytes(i * i * 40503 >> 7 & 255 for i in range(2047)), bytes(i // 8 ^ 128 for i in range(2047))]:
            for chair in 0, 40, 65_535:
                table, words = sirbolta.build(text, chair), former(text, chair)
                self.assertEqual((sirbolta.to_signed(words), sirbolta.read(sirbolta.to_signed(words))), (table, (text, chair)))
                self.assertRaises(sirbolta.NotATable, sirbolta.to_signed, table)
                for service, *arguments in SERVICES:
                    self.assertRaises(sirbolta.NotATable, getattr(sirbolta, service), words, *arguments)

    def test_former_tables_that_are_the_same(self):
        for text in [b"", b"a", b"abab", bytes([255]) * 2047, bytes([255, 128] * 3), bytes(i // 16 for i in range(2047)), bytes(255 - i // 16 for i in range(2047))]:
            table = sirbolta.build(text, 40)
            self.assertEqual((sirbolta.Table(former(text, 40)), sirbolta.to_signed(table)), (table, table))

    def test_the_profile(self):
        for text in [b"\0", bytes(2047), PROFILE, bytes([*range(9), 0]), bytes(i * i % 9 for i in range(2044)) + bytes(3)]:
            table = sirbolta.build(text, 40)
            self.assertEqual((sirbolta.build_profile(text, chair=40), table.check_profile()), (table, table.check()))
            for byte in 9, 127, 128, 255:
                for place in {0, len(text) // 2, len(text) - 1}:
                    self.not_in_profile(text[:place] + bytes([byte]) + text[place + 1 :], sirbolta.OffHeading, place)
        for text in b"\1\0\x09", b"\0\1\xff\x09\0", b"\1\x08\x80":
            self.not_in_profile(text, sirbolta.OffHeading, 2)
        for text in b"", b"\1", b"\0\1", b"\1\0", b"\x08\0\x08":
            self.not_in_profile(text, sirbolta.NotAtRest, 0)

    def not_in_profile(self, text, refusal, place):
        for service in lambda: sirbolta.build_profile(text, 40), sirbolta.build(text, 40).check_profile:
            with self.assertRaises(refusal) as raised:
                service()
            self.assertEqual(raised.exception.place, place)

    def test_threads(self):
        texts = [bytes((i * j * j >> 3) % 7 for j in range(2047)) for i in range(1, 33)]
        with ThreadPoolExecutor(8) as pool:
            tables = list(pool.map(lambda text: sirbolta.build(text, 40), texts))
            self.assertEqual(list(pool.map(sirbolta.read, tables)), [(text, 40) for text in texts])
            found = pool.map(sirbolta.locate, tables, [text[-3:] for text in texts])
        self.assertEqual(list(found), [[i for i in range(2045) if text[i : i + 3] == text[-3:]] for text in texts])

    def test_where_the_library_is(self):
        def imported(module, **named):
            environment = {name: value for name, value in os.environ.items() if name != "SIRBOLTA_LIBRARY"} | named | {"PYTHONPATH": str(module)}
            return subprocess.run([sys.executable, "-B", "-c", "import sirbolta"], env=environment, capture_output=True, text=True).stderr

        library = sirbolta._library._name
        self.assertEqual(imported(MODULE), "")
        self.assertIn("ImportError: SIRBOLTA_LIBRARY names no file: nowhere.so", imported(MODULE, SIRBOLTA_LIBRARY="nowhere.so"))
        self.assertIn(f"ImportError: {__file__} is no library that can be loaded: ", imported(MODULE, SIRBOLTA_LIBRARY=__file__))
        with tempfile.TemporaryDirectory() as alone:
            shutil.copytree(MODULE / "sirbolta", Path(alone) / "sirbolta")
            self.assertIn("ImportError: no libsirbolta.so: run bindings/build", imported(alone))
            self.assertEqual(imported(alone, SIRBOLTA_LIBRARY=library), "")
            shutil.copy(library, Path(alone) / "sirbolta" / "libsirbolta.so")
            self.assertEqual(imported(alone), "")

    def test_a_package_in_a_folder_of_the_root(self):
        unnamed = {name: value for name, value in os.environ.items() if name != "SIRBOLTA_LIBRARY"}
        with patch.object(sirbolta._native, "__file__", "/sirbolta-is-not-here/_native.py"), patch.dict(os.environ, unnamed, clear=True):
            self.assertRaisesRegex(ImportError, "^no libsirbolta.so", sirbolta._native.found)


class Searches(unittest.TestCase):
    """Counting and locating with the number of tests, and without: the same search."""

    def setUp(self):
        self.table = sirbolta.build(b"abab", 40)

    def test_tests(self):
        few, equal, none = sirbolta.build(b"abab", 40), sirbolta.build(bytes(2047), 40), sirbolta.build(b"", 40)
        for table, pattern, places, tests in [
            (few, b"ab", [0, 2], 3), (few, b"a", [0, 2], 0), (few, b"ba", [1], 3), (few, b"abab", [0], 1), (few, b"babab", [], 1), (few, b"ababab", [], 0),
            (equal, bytes(1), [*range(2047)], 0), (equal, bytes(2), [*range(2046)], 2047), (equal, bytes(1000), [*range(1048)], 1049), (none, b"ab", [], 0),
        ]:
            with self.subTest(pattern=pattern[:8], samples=len(pattern)):
                self.assertEqual((table.count_with_tests(pattern), table.locate_with_tests(pattern)), ((len(places), tests), (places, tests)))
                self.assertEqual((table.count(pattern), table.locate(pattern)), (len(places), places))

    def test_by_steps(self):
        few, equal, none = sirbolta.build(bytes([5, 2, 2, 250, 2]), 40), sirbolta.build(bytes(2047), 40), sirbolta.build(b"", 40)
        for table, pattern, places, tests in [
            (few, b"\0\2", [0, 1, 3], 0), (few, b"\xff\1", [0, 1, 3], 0), (few, b"\0\5", [], 0), (few, b"\0\2\4", [0], 5), (few, b"\0\5\7", [], 5),
            (few, b"\x09\x0b\x0d\x07\x09", [0], 1), (few, b"\0\5\7\x09\x03\x05", [], 1), (equal, b"aa", [*range(2046)], 0), (equal, b"aaa", [*range(2045)], 2047),
            (equal, b"a" * 2047, [0], 3), (none, b"ab", [], 0),
        ]:
            with self.subTest(pattern=pattern[:8], samples=len(pattern)):
                counted, located = table.count_with_tests(pattern, steps=True), table.locate_with_tests(pattern, steps=True)
                self.assertEqual((counted, located), ((len(places), tests), (places, tests)))
                self.assertEqual((table.count(pattern, steps=True), table.locate(pattern, steps=True)), (len(places), places))
                self.assertEqual(sirbolta.count_each([table, bytes(table)], pattern, steps=True), [len(places)] * 2)

    def test_by_steps_whatever_the_centre(self):
        drive = bytes((i * i * 40503 >> 7) % 3 for i in range(2000))
        places = [i for i in range(1997) if all(drive[i + j] - drive[i + j - 1] == drive[6 + j] - drive[5 + j] for j in (1, 2, 3))]
        for centre in 0, 1, 127, 128, 254, 255:
            moved = bytes((sample + centre) % 256 for sample in drive)
            table = sirbolta.build(sirbolta.to_steps(moved), 40)
            for motif in drive[6:10], moved[6:10]:
                self.assertEqual((table.locate(motif, steps=True), table.count(motif, steps=True)), (places, len(places)))
            self.assertEqual(sirbolta.from_steps(table.read()[0]), moved)

    def test_one_sample_has_no_step(self):
        for table in self.table, bytes(self.table), []:
            for service in sirbolta.count, sirbolta.count_with_tests, sirbolta.locate, sirbolta.locate_with_tests:
                self.assertRaises(sirbolta.NoStep, service, table, b"a", steps=True)
            with self.assertRaises(sirbolta.NoStep) as raised:
                sirbolta.count_each([table], b"a", steps=True)
            self.assertEqual((raised.exception.place, raised.exception.table), (0, 0))


class Tables(unittest.TestCase):
    WORDS = [0, 0xC0000028, 0x62, 0xC0000000, 0x63, 0xC0000000, 0x40000001, 0x80000002, 0x40000000, 0x80000003, 0x40000004, 0x80000003]
    BYTES = b"".join(word.to_bytes(4, "little") for word in WORDS)

    def setUp(self):
        self.table = sirbolta.build(b"abab", 40)

    def test_words_and_bytes(self):
        self.assertEqual((bytes(self.table), self.table.words.tolist()), (self.BYTES, self.WORDS))
        for name, kind in KINDS.items():
            with self.subTest(kind=name):
                self.assertEqual(bytes(sirbolta.Table(kind(self.WORDS))), self.BYTES)
        self.assertEqual(repr(self.table), "<sirbolta.Table of 12 words>")

    def test_each_method_is_the_function(self):
        table = sirbolta.build(PROFILE, 40)
        for service, *arguments in [*SERVICES, ("to_signed",)]:
            self.assertEqual(getattr(table, service)(*arguments), getattr(sirbolta, service)(table, *arguments))
            with self.assertRaises(sirbolta.TableLength):
                getattr(sirbolta.Table(b""), service)(*arguments)

    def test_equal_if_their_words_are(self):
        same, other = sirbolta.Table(bytearray(self.BYTES)), sirbolta.build(b"abab", 41)
        self.assertTrue(same == self.table and hash(same) == hash(self.table) and not same != self.table)
        self.assertTrue(other != self.table and self.table != self.BYTES and self.table == ANY)
        self.assertEqual({self.table: 1, other: 2, same: 3}, {same: 3, other: 2})

    def test_does_not_change(self):
        source = bytearray(self.BYTES)
        table = sirbolta.Table(source)
        source[0] = 1
        self.assertEqual(table, self.table)
        for change in [
            lambda: setattr(table, "_bytes", b""), lambda: setattr(table, "words", ()), lambda: setattr(table, "name", ""), lambda: delattr(table, "_bytes"),
        ]:
            self.assertRaisesRegex(AttributeError, "^a table does not change$", change)
        with self.assertRaises(TypeError):
            table.words[0] = 1
        table.__init__(b"")
        self.assertEqual(table, self.table)

    def test_copied_and_pickled(self):
        for protocol in range(pickle.HIGHEST_PROTOCOL + 1):
            again = pickle.loads(pickle.dumps(self.table, protocol))
            self.assertEqual((again, type(again)), (self.table, sirbolta.Table))
        self.assertEqual([copy.copy(self.table), copy.deepcopy(self.table)], [self.table, self.table])

    def test_in_a_database(self):
        store = sqlite3.connect(":memory:")
        store.execute("create table drives (words blob)")
        store.execute("insert into drives values (?)", (self.table,))
        self.assertEqual(store.execute("select typeof(words), words from drives").fetchall(), [("blob", self.BYTES)])
        self.assertEqual(store.execute("select count(*) from drives where words = ?", (self.table,)).fetchone(), (1,))
        store.close()


class Lending(unittest.TestCase):
    """What the library is handed: words where they stand, and the thread's own work slice."""

    def setUp(self):
        self.table = sirbolta.build(b"abab", 40)

    def handed(self, table):
        """The first argument of a call, its number of words, and the work slice."""
        with patch.object(sirbolta._library, "sirbolta_count", wraps=sirbolta._library.sirbolta_count) as call:
            self.assertEqual(sirbolta.count(table, b"ab"), 2)
        start, length, form, _, _, work, _ = call.call_args.args
        self.assertEqual(form, 0)
        return start, length, work

    def test_words_are_not_copied(self):
        packed = bytes(self.table)
        self.assertIs(self.handed(packed)[0], packed)
        table = sirbolta.Table(packed)
        self.assertIs(self.handed(table)[0], packed)
        words = array("I", self.table.words)
        address, length = words.buffer_info()
        self.assertEqual(self.handed(words)[:2], (address, length))
        self.assertEqual(self.handed(memoryview(words))[:2], (address, length))
        self.assertEqual(self.handed(memoryview(words).toreadonly().cast("B"))[:2], (address, length))
        self.assertEqual(self.handed(memoryview(array("I", [0]) + words)[1:])[1], length)
        self.assertEqual(words, array("I", self.table.words), "an input was written")

    def test_words_that_cannot_be_read_where_they_stand_are_copied(self):
        words = self.table.words
        for table in [unaligned(words, 1), unaligned(words, 2), unaligned(words, 3), apart(words)]:
            start, length, _ = self.handed(table)
            self.assertEqual((start, length), (bytes(self.table), 12))

    def test_a_buffer_is_given_back(self):
        words = bytearray(bytes(self.table))
        self.assertEqual(sirbolta.count(words, b"ab"), 2)
        words += b"longer"

    def test_a_buffer_is_given_back_though_the_error_is_kept(self):
        for service, *arguments in [*SERVICES, ("to_signed",)]:
            for content in [b"\0" * 4, b"\0" * 7]:  # refused, and no whole words
                self.given_back(getattr(sirbolta, service), bytearray(content), *arguments)
        words = bytes(self.table)
        self.given_back(sirbolta.read, mmap.mmap(-1, 4096))
        self.given_back(sirbolta.count, bytearray(words), "ab")
        self.given_back(sirbolta.extract, bytearray(words), 5, 0)
        self.given_back(sirbolta.lyndon_length, bytearray(words), 4)
        self.given_back(sirbolta.check, array("i", [0]))
        self.given_back(sirbolta.Table, bytearray(7))
        self.given_back(sirbolta.build, array("I", [0]), 40)
        self.given_back(sirbolta.to_steps, bytearray(2048))
        self.given_back(sirbolta.from_steps, array("I", [0]))
        self.given_back(sirbolta.build_profile, bytearray(b"\1"), 40)
        self.given_back(sirbolta.check_profile, bytearray(words))
        self.given_back(sirbolta.census, bytearray(words), 9)

    def given_back(self, service, buffer, *arguments):
        try:
            service(buffer, *arguments)
        except (sirbolta.Refusal, TypeError, ValueError) as error:
            kept = error
            buffer.close() if isinstance(buffer, mmap.mmap) else buffer.append(0)
        self.assertIsNotNone(kept.__traceback__)

    def test_count_each(self):
        texts = [b"ab" * (number % 5) for number in range(303)]  # more than three calls take
        tables = [sirbolta.build(text, number) for number, text in enumerate(texts)]
        ways = [lambda table: table, bytes, lambda table: bytearray(bytes(table)), lambda table: list(table.words)]
        mixed = [ways[number % 4](table) for number, table in enumerate(tables)]
        counts = [number % 5 for number in range(303)]
        self.assertEqual((sirbolta.count_each(tables, b"ab"), sirbolta.count_each(iter(mixed), bytearray(b"ab"))), (counts, counts))
        self.assertEqual([sirbolta.count_each(tables[:some], b"ab") for some in (0, 1, 100, 101)], [counts[:some] for some in (0, 1, 100, 101)])

    def test_count_each_raises_what_comes_first(self):
        tables = [sirbolta.build(b"ab", number) for number in range(202)]
        bad = [0, 0xC0000000, 257, 0xC0000000]
        for some in 0, 99, 100, 201:
            for behind in b"", b"abc", None:
                with self.assertRaises(sirbolta.BadWord) as raised:
                    sirbolta.count_each([*tables[:some], bad, behind, *tables[some:]], b"ab")
                self.assertEqual((raised.exception.place, raised.exception.table), (2, some))
                self.assertEqual(str(raised.exception), f"refused 6: word 2 of the table is bad (table {some})")
            self.assertRaises(ValueError, sirbolta.count_each, [*tables[:some], b"abc", bad], b"ab")
            self.assertRaises(KeyError, sirbolta.count_each, self.failing(tables[:some]), b"ab")
            self.assertRaises(sirbolta.TableLength, sirbolta.count_each, self.failing([*tables[:some], b""]), b"ab")
        self.assertRaises(sirbolta.PatternEmpty, sirbolta.count_each, tables, b"")
        for wrong in self.table, None, [1, 2], "ab", [None], [self.table, "ab"]:
            self.assertRaises(TypeError, sirbolta.count_each, wrong, b"ab")
        self.assertRaises(TypeError, sirbolta.count_each, tables, "ab")

    @staticmethod
    def failing(tables):
        yield from tables
        raise KeyError

    def test_one_work_slice_a_thread(self):
        works = [self.handed(self.table)[2] for _ in range(2)]
        with ThreadPoolExecutor(1) as pool:
            works += [pool.submit(sirbolta._work).result() for _ in range(2)]
        self.assertTrue(works[0] is works[1] and works[2] is works[3] and works[0] is not works[2])


class Stacks(unittest.TestCase):
    """`read`, `locate` and `census` on threads with a stack that is large enough, and on one that is not."""

    TEXTS = [b"a" * 2047, b"a" * 2046 + b"b", bytes(i // 8 ^ 128 for i in range(2047))]

    def served(self):
        for text in self.TEXTS:
            table = sirbolta.build(text, 40)
            self.assertEqual(table.read(), (text, 40))
            self.assertEqual(table.locate(text[:1]), [i for i in range(2047) if text[i] == text[0]])
            self.assertRaises(sirbolta.PatternEmpty, table.locate, b"")
            self.assertEqual(sum(count for _, count in table.census(8)), 2040)

    def refused(self):
        table = sirbolta.build(self.TEXTS[0], 40)
        for service, *arguments in [("read",), ("locate", b"a"), ("census", 8)]:
            needed = f"up to {sirbolta._native.NEEDED} KiB of stack are needed, and this thread has 12[0-9] KiB in all"
            self.assertRaisesRegex(RuntimeError, needed, getattr(table, service), *arguments)
        self.assertEqual((table.check(), table.count(b"a"), table.extract(2046, 1)), (2049, 2047, b"a"))
        self.assertEqual((sirbolta.build_profile(bytes(2047), 40).check_profile(), sirbolta.build(bytes(2047), 40).check_profile()), (2049, 2049))
        self.assertEqual((table.lyndon_length(0), table.lyndon_array(), table.to_signed()), (1, [1] * 2047, table))
        self.assertEqual((table.count(b"aa", steps=True), sirbolta.from_steps(sirbolta.to_steps(self.TEXTS[2]))), (0, self.TEXTS[2]))

    def on_threads(self, stack, work):
        usual = threading.stack_size(stack)
        try:
            with ThreadPoolExecutor(4) as pool:
                list(pool.map(lambda _: work(), range(8)))
        finally:
            threading.stack_size(usual)

    def test_128_kib(self):
        self.on_threads(128 << 10, self.refused)

    def test_512_kib(self):
        self.on_threads(512 << 10, self.served)

    def test_32_kib(self):
        code = "threading.stack_size(32 << 10)\nthreading.Thread(target=lambda: print(table.count(b'a'), table.count(b'\\0a', steps=True))).start()"
        self.assertEqual(run(code), ("2047 2046\n", "", 0))

    def test_a_thread_that_is_numbered_otherwise(self):
        code = "usual, threading.get_ident = threading.get_ident, lambda: 4242\nprint(sirbolta._native.stack() > 0)\nthreading.get_ident = usual"
        self.assertEqual(run(code), ("True\n", "", 0))

    def test_a_call_inside_the_first_call_of_a_thread(self):
        table, native = sirbolta.build(b"abab", 40), sirbolta._native
        stack, nested = native.stack, []

        def meanwhile():
            if not nested:
                nested.append(None)
                nested[0] = table.read()
            return stack()

        with patch.object(native, "stack", meanwhile), ThreadPoolExecutor(1) as pool:
            self.assertEqual((pool.submit(table.read).result(), nested), ((b"abab", 40), [(b"abab", 40)]))


class Examples(unittest.TestCase):
    def test_examples_of_the_docstrings(self):
        self.assertEqual(doctest.testmod(sirbolta).failed, 0)
        for name in sirbolta.__all__:
            item = getattr(sirbolta, name)
            if inspect.isfunction(item):
                self.assertIn(">>> ", item.__doc__)

    def test_many_drives(self):
        ran = subprocess.run([sys.executable, "-B", str(MODULE / "many.py")], capture_output=True, text=True)
        self.assertEqual((ran.stdout, ran.stderr), ("19660 finds in 1000 drives\n", ""))

    def test_the_readme_shows_many_py(self):
        code = (MODULE / "many.py").read_text().split('"""\n\n', 1)[1]
        self.assertTrue(f"```python\n{code}```" in (ROOT / "README.md").read_text(), "README.md shows another example")

    def test_the_readme_finds_the_motif_of_chair_forty(self):
        self.assertEqual(shown_and_printed("from_steps"), ["found at [0, 1, 3]"])

    def test_the_readme_builds_in_the_profile(self):
        refused = "refused 11: byte 1 of the text is above 8, so neither rest nor a heading"
        self.assertEqual(shown_and_printed("build_profile"), ["forward-right at [2, 3]", refused])


def shown_and_printed(word):
    """The lines that the one Python example of README.md with this word prints; they stand there too, as comments behind each print."""
    blocks = [block.split("```", 1)[0] for block in (ROOT / "README.md").read_text().split("```python\n")[1:]]
    (code,) = [block for block in blocks if word in block]
    printed = io.StringIO()
    with redirect_stdout(printed):
        exec(code, {"sirbolta": sirbolta})
    lines = printed.getvalue().splitlines()
    shown = [line.split("# ", 1)[1] for line in code.splitlines() if "print(" in line]
    return lines if lines == shown else [f"README.md shows {shown}, and this is printed: {lines}"]


if __name__ == "__main__":
    FILES = sys.argv[1:]
    report = io.StringIO()
    result = unittest.TextTestRunner(stream=report).run(unittest.defaultTestLoader.loadTestsFromModule(sys.modules[__name__]))
    if not result.wasSuccessful() or not AGREED:
        sys.exit(report.getvalue())
    print(f"python package: {sum(AGREED.values())} cases agree, {result.testsRun} tests pass")
