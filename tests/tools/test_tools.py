"""Tests tools/request.py and tools/log.py with document 01's own words and figures.

The plans that log.py is shown are written here a second time, from the rules' lines (document 01's, and docs/RULES.md for
methods 3, 4 and 5), so that its listing and its rounds are held against figures printed there.
"""

import codecs
import contextlib
import io
import os
import random
import signal
import subprocess
import sys
import tempfile
import unittest
from itertools import product
from pathlib import Path
from unittest import mock

TOOLS = Path(__file__).resolve().parents[2] / "tools"
sys.path.insert(0, str(TOOLS))

import log  # noqa: E402
import request  # noqa: E402

PRINTED_TEXT = "method 1\nyards 2\nsource 0\nlane 0 1 -5\n"
PRINTED_WORDS = [0x1000020000100000, 0x00010000FFFFFFFB]

EDGE_1_PLAN = [
    0x1000010000000000,
    0x0000020000000000,
    0x0000000000000000,
    0x000001FFFFFFFFFF,
    0x0000037FFFFFFFFF,
    0x00000A0000000000,
    0x7000000000A00000,
]
EDGE_1_LOG = EDGE_1_PLAN + [0]

SET, COPY, ADD, LESS, EQUAL, BOTH, MOVEIF, OPEN = range(8)
FAR = 2**39 - 1

# How a command line ends that lends no standard output to write to, and what is then said of it.
UNWRITABLE = {">/dev/full": "No space left on device", ">&-": "Bad file descriptor"}


def word(first, second=0, third=0, fourth=0):
    """A header or operation word: fields of 4, 20, 20 and 20 bits."""
    return first << 60 | second << 40 | third << 20 | fourth


def put(d, number):
    """The word that sets cell d to a number."""
    return word(SET, d) | number % 2**40


def opening(n, source, D, P, Y):
    """For each vertex, the words that set its name, its distance and its parent."""
    return [[put(Y + v, v), put(D + v, 0 if v == source else FAR), put(P + v, -1)] for v in range(n)]


def plan_of_method_1(n, m, source):
    """Document 01's plan of method 1."""
    D, P, Y, X = 3 * m, 3 * m + n, 3 * m + 2 * n, 3 * m + 3 * n
    words = [word(1, n, m, source)] + sum(opening(n, source, D, P, Y), []) + [put(X, FAR), put(X + 7, 0)]
    for turn in range(n):
        is_check = turn == n - 1
        for i in range(m):
            words.append(word(COPY, X + 1, X))
            for v in range(n):
                words += [word(EQUAL, X + 5, i, Y + v), word(MOVEIF, X + 1, X + 5, D + v)]
            words += [word(ADD, X + 2, X + 1, 2 * m + i), word(LESS, X + 4, X + 1, X)]
            words += [] if is_check else [put(X + 3, i)]
            for v in range(n):
                words += [word(EQUAL, X + 5, m + i, Y + v), word(LESS, X + 6, X + 2, D + v)]
                words += [word(BOTH, X + 6, X + 6, X + 4), word(BOTH, X + 6, X + 6, X + 5)]
                if is_check:
                    words.append(word(MOVEIF, X + 7, X + 6, X + 6))
                else:
                    words += [word(MOVEIF, D + v, X + 6, X + 2), word(MOVEIF, P + v, X + 6, X + 3)]
    return words + [word(OPEN, 0, X + 7)]


def plan_of_method_2(n, source):
    """Document 01's plan of method 2."""
    D, P, Y, O, R, X = (n * n + k * n for k in range(6))
    words = [word(2, n, 0, source)]
    for v, settings in enumerate(opening(n, source, D, P, Y)):
        words += settings + [put(O + v, 1)]
    words += [put(X, FAR), put(X + 4, 0)]
    for _ in range(n):
        words += [word(COPY, X + 1, X), put(X + 3, -1)]
        for v in range(n):
            words += [word(LESS, X + 5, D + v, X + 1), word(BOTH, X + 5, X + 5, O + v)]
            words += [word(MOVEIF, X + 1, X + 5, D + v), word(MOVEIF, X + 3, X + 5, Y + v)]
        words += [word(COPY, R + j, X) for j in range(n)]
        for v in range(n):
            words += [word(EQUAL, X + 5, X + 3, Y + v), word(MOVEIF, O + v, X + 5, X + 4)]
            words += [word(MOVEIF, R + j, X + 5, v * n + j) for j in range(n)]
        for j in range(n):
            words += [word(ADD, X + 2, X + 1, R + j), word(LESS, X + 5, X + 2, D + j)]
            words += [word(MOVEIF, D + j, X + 5, X + 2), word(MOVEIF, P + j, X + 5, X + 3)]
    return words


def plan_of_method_3(n, m, source):
    """The plan of method 3."""
    D, P, Y, N, Q, X = (3 * m + k * n + 1 for k in range(6))
    S, F, T = X + 9, X + 9 + m, X + 9 + m + n * m
    words = [word(3, n, m, source)]
    for v, settings in enumerate(opening(n, source, D, P, Y)):
        words += settings + [put(N + v, FAR)]
    words += [put(X, FAR), put(X + 8, 0), put(m, -1)]
    for i in range(m):
        words.append(word(LESS, S + i, m + i, m + 1 + i))
        for v in range(n):
            words += [word(EQUAL, F + i * n + v, i, Y + v), word(EQUAL, T + i * n + v, m + 1 + i, Y + v)]
    for turn in range(n):
        is_check = turn == n - 1
        for i in range(m):
            words.append(word(COPY, X + 1, X))
            words += [word(MOVEIF, X + 1, F + i * n + v, D + v) for v in range(n)]
            words += [word(ADD, X + 2, X + 1, 2 * m + 1 + i), word(LESS, X + 4, X + 1, X), word(MOVEIF, X + 6, S + i, X)]
            words += [word(LESS, X + 5, X + 2, X + 6), word(BOTH, X + 5, X + 5, X + 4), word(MOVEIF, X + 6, X + 5, X + 2)]
            words += [] if is_check else [put(X + 3, i), word(MOVEIF, X + 7, X + 5, X + 3)]
            for v in range(n):
                words.append(word(MOVEIF, N + v, T + i * n + v, X + 6))
                words += [] if is_check else [word(MOVEIF, Q + v, T + i * n + v, X + 7)]
        for v in range(n):
            words.append(word(LESS, X + 5, N + v, D + v))
            if is_check:
                words.append(word(MOVEIF, X + 8, X + 5, X + 5))
            else:
                words += [word(MOVEIF, D + v, X + 5, N + v), word(MOVEIF, P + v, X + 5, Q + v)]
    return words + [word(OPEN, 0, X + 8)]


def update_of_method_4(n, D, C, R, X):
    """The words by which each pair of vertices takes the sum of C and R, where it is less."""
    words = []
    for i, j in product(range(n), repeat=2):
        entry = D + i * n + j
        words += [word(ADD, X + 3, C + i, R + j), word(LESS, X + 4, X + 3, entry), word(MOVEIF, entry, X + 4, X + 3)]
    return words


def plan_of_method_4(n, m):
    """The plan of method 4."""
    D, C = 3 * m, 3 * m + n * n
    R, Y, X = C + n, C + 2 * n, C + 3 * n
    update = update_of_method_4(n, D, C, R, X)
    words = [word(4, n, m)] + [put(Y + v, v) for v in range(n)] + [put(X, FAR), put(X + 1, FAR)]
    words += [word(ADD, X + 1, X + 1, X + 1)] * 20 + [put(X + 2, 0), put(X + 5, 0)]
    words += [word(COPY, D + k, X + 1) for k in range(n * n)] + [word(COPY, D + v * (n + 1), X + 2) for v in range(n)]
    for i in range(m):
        for v in range(n):
            words += [word(COPY, C + v, X + 1), word(EQUAL, X + 4, i, Y + v), word(MOVEIF, C + v, X + 4, X + 2)]
            words += [word(COPY, R + v, X + 1), word(EQUAL, X + 4, m + i, Y + v), word(MOVEIF, R + v, X + 4, 2 * m + i)]
        words += update
    for k in range(n):
        for v in range(n):
            words += [word(COPY, C + v, D + v * n + k), word(COPY, R + v, D + k * n + v)]
        words += update
    for v in range(n):
        words += [word(LESS, X + 4, D + v * (n + 1), X + 2), word(ADD, X + 5, X + 5, X + 4)]
    words.append(word(BOTH, X + 5, X + 5, X + 5))
    for k in range(n * n):
        words += [word(LESS, X + 4, X, D + k), word(MOVEIF, D + k, X + 4, X)]
    return words + [word(OPEN, 0, X + 5)]


def plan_of_method_5(n, m, source):
    """The plan of method 5, which has the words of method 1's up to its OPEN."""
    P, Y, X = 3 * m + n, 3 * m + 2 * n, 3 * m + 3 * n
    Z, B, R = X + 8, X + 9, X + 9 + n
    words = [word(5, n, m, source)] + plan_of_method_1(n, m, source)[1:-1]
    words += [word(COPY, B + v, Y + v) for v in range(n)]
    for i in range(m):
        words.append(put(X + 3, i))
        for v in range(n):
            words += [word(EQUAL, X + 5, P + v, X + 3), word(MOVEIF, B + v, X + 5, i)]
    words.append(word(COPY, X + 1, Z))
    for k in range(n - 1):
        words.append(word(COPY, X + 2, X + 1))
        for v in range(n):
            words += [word(EQUAL, X + 5, X + 2, Y + v), word(MOVEIF, R + k, X + 5, P + v)]
            words.append(word(MOVEIF, X + 1, X + 5, B + v))
    return words + [word(OPEN, 0, X + 7)]


def as_bytes(words):
    """The words as files hold them."""
    return b"".join(value.to_bytes(8, "big") for value in words)


def as_hex(words):
    """The words as hexadecimal text, one a line."""
    return "".join(f"{value:016X}\n" for value in words).encode()


@contextlib.contextmanager
def standard_output(file):
    """Within it this file is standard output, for the tools write to its descriptor."""
    kept = os.dup(1)
    os.dup2(file.fileno(), 1)
    try:
        yield
    finally:
        os.dup2(kept, 1)
        os.close(kept)


def run(tool, *arguments):
    """Exit status, standard output and standard error of a tool's main function."""
    errors = io.StringIO()
    with tempfile.TemporaryFile() as output:
        with standard_output(output), contextlib.redirect_stderr(errors):
            status = tool.main([str(argument) for argument in arguments])
        output.seek(0)
        return status, output.read().decode(), errors.getvalue()


def run_command(tool, *arguments, given=b"", ending=""):
    """Exit status, standard output and standard error of a tool's command line, which may end in redirections."""
    line = ["bash", "-c", f'"$0" "$@" {ending}', sys.executable, TOOLS / f"{tool.__name__}.py", *arguments]
    done = subprocess.run(line, input=given, capture_output=True, check=False)
    return done.returncode, done.stdout, done.stderr


class WithFolder(unittest.TestCase):
    """Tests that write files, into a folder that goes away after each."""

    def setUp(self):
        folder = tempfile.TemporaryDirectory()
        self.addCleanup(folder.cleanup)
        self.folder = Path(folder.name)

    def file(self, name, data):
        """The path of a new file with these bytes."""
        path = self.folder / name
        path.write_bytes(data)
        return path


class RequestWords(unittest.TestCase):
    """Texts and the words they stand for."""

    def words(self, text, unchecked=False):
        return request.request_words(text, unchecked)

    def test_printed_request(self):
        self.assertEqual(self.words(PRINTED_TEXT), PRINTED_WORDS)

    def test_comments_blanks_order_and_line_ends(self):
        text = "# a network\r\n\r\n  lane 0 1 -5 # a rebate\r\nsource 0\r\n\tyards   2\r\nmethod 1"
        self.assertEqual(self.words(text), PRINTED_WORDS)

    def test_edge_1_no_lanes(self):
        self.assertEqual(self.words("method 1\nyards 1\nsource 0\n"), EDGE_1_PLAN[:1])

    def test_edge_3_a_lane_to_its_own_yard(self):
        text = "method 1\nyards 1\nsource 0\nlane 0 0 "
        self.assertEqual(self.words(text + "-1"), [0x1000010000100000, 0x00000000FFFFFFFF])
        self.assertEqual(self.words(text + "0"), [0x1000010000100000, 0])

    def test_edge_6_no_lane_anywhere(self):
        expected = [0x2000020000000000] + [0x00000000FFFFFFFF] * 4
        self.assertEqual(self.words("method 2\nyards 2\nsource 0\nrow - -\nrow - -1\n"), expected)

    def test_table_goes_by_rows(self):
        expected = [0x2000020000000001, 0, 7, 0x00000000FFFFFFFF, 100_000_000]
        self.assertEqual(self.words("method 2\nyards 2\nsource 1\nrow 0 7\nrow - 100000000\n"), expected)

    def test_ends_of_the_ranges(self):
        lanes = "lane 31 0 -100000000\n" * 64 + "lane 0 31 100000000\n" * 64
        expected = [word(1, 32, 128, 31)] + [0x1F000000FA0A1F00] * 64 + [0x001F000005F5E100] * 64
        self.assertEqual(self.words("method 1\nyards 32\nsource 31\n" + lanes), expected)

    def test_sorted_lanes_stay_in_their_order(self):
        text = "method 3\nyards 3\nsource 0\nlane 0 1 7\nlane 2 1 -4\nlane 1 1 0\nlane 0 2 9\n"
        expected = [word(3, 3, 4), 0x0001000000000007, 0x02010000FFFFFFFC, 0x0101000000000000, 0x0002000000000009]
        self.assertEqual(self.words(text), expected)

    def test_lanes_in_any_order(self):
        lanes = "lane 0 1 0\nlane 0 0 0\n"
        expected = [0x0001000000000000, 0]
        self.assertEqual(self.words("method 1\nyards 2\nsource 0\n" + lanes), [word(1, 2, 2)] + expected)
        self.assertEqual(self.words("method 3\nyards 2\nsource 0\n" + lanes, True), [word(3, 2, 2)] + expected)

    def test_method_4_with_and_without_a_source(self):
        lanes = "lane 0 1 7\nlane 1 0 -4\n"
        expected = [word(4, 2, 2), 0x0001000000000007, 0x01000000FFFFFFFC]
        for unchecked in (False, True):
            for source in ("", "source 0\n"):
                self.assertEqual(self.words(f"method 4\nyards 2\n{source}{lanes}", unchecked), expected)
                self.assertEqual(self.words(f"{lanes}{source}yards 2\nmethod 4\n", unchecked), expected)
                self.assertEqual(self.words(f"method 4\nyards 32\n{source}", unchecked), [word(4, 32)])
        for source in (1, 2, 2**20 - 1):
            self.assertEqual(self.words(f"method 4\nyards 2\nsource {source}\n", True), [word(4, 2, 0, source)])

    def test_destination_comes_last(self):
        expected = [word(5, 3, 2), 0x0001000000000007, 0x01020000FFFFFFFC, 2]
        lanes = "lane 0 1 7\nlane 1 2 -4\n"
        self.assertEqual(self.words("method 5\nyards 3\nsource 0\n" + lanes + "destination 2\n"), expected)
        self.assertEqual(self.words("destination 2\nmethod 5\nyards 3\nsource 0\n" + lanes), expected)
        self.assertEqual(self.words("method 5\nyards 3\nsource 0\ndestination 2\n" + lanes, True), expected)
        self.assertEqual(self.words("method 5\nyards 32\nsource 31\ndestination 31\n"), [word(5, 32, 0, 31), 31])
        self.assertEqual(self.words("method 5\nyards 1\nsource 0\ndestination 0\n"), [word(5, 1), 0])

    def test_unchecked_destinations(self):
        header = "method 5\nyards 2\nsource 0\n"
        for destination in (2, 2**63, 2**64 - 1):
            self.assertEqual(self.words(f"{header}destination {destination}\n", True), [word(5, 2), destination])
        self.assertEqual(self.words(header + "lane 0 1 5\n", True), [word(5, 2, 1), 0x0001000000000005])
        two = "destination 1\nlane 0 1 5\ndestination 0\n"
        self.assertEqual(self.words(header + two, True), [word(5, 2, 1), 0x0001000000000005, 1, 0])
        in_a_table = "method 2\nyards 1\nsource 0\ndestination 7\nrow 3\n"
        self.assertEqual(self.words(in_a_table, True), [word(2, 1), 3, 7])

    def test_unchecked_makes_refused_requests(self):
        yards_33 = "method 1\nyards 33\nsource 0\n"
        self.assertEqual(self.words(yards_33, True), [word(1, 33)])
        lanes_129 = "method 1\nyards 1\nsource 0\n" + "lane 0 0 0\n" * 129
        self.assertEqual(self.words(lanes_129, True), [word(1, 1, 129)] + [0] * 129)
        price_over = "method 1\nyards 1\nsource 0\nlane 0 0 100000001\n"
        self.assertEqual(self.words(price_over, True), [word(1, 1, 1), 100_000_001])
        all_wrong = "method 15\nyards 0\nsource 1048575\nlane 255 255 -2147483648\n"
        self.assertEqual(self.words(all_wrong, True), [0xF0000000001FFFFF, 0xFFFF000080000000])

    def test_unchecked_takes_the_body_as_it_stands(self):
        lane_in_a_table = "method 2\nyards 2\nsource 0\nrow 0 - -2\nlane 1 0 3\n"
        expected = [word(2, 2, 1), 0, 0xFFFFFFFF, 0xFFFFFFFE, 0x0100000000000003]
        self.assertEqual(self.words(lane_in_a_table, True), expected)
        row_after_a_lane = "method 1\nyards 1\nsource 0\nlane 0 0 3\nrow 4\n"
        self.assertEqual(self.words(row_after_a_lane, True), [word(1, 1, 1), 3, 4])

    def test_round_trip_of_random_networks(self):
        chance = random.Random(1)
        for method in (1, 3, 4, 5) * 20:
            n = chance.randint(1, 32)
            edges = [
                (chance.randrange(n), chance.randrange(n), chance.randint(-100_000_000, 100_000_000))
                for _ in range(chance.randint(0, 128))
            ]
            if method == 3:
                edges.sort(key=lambda edge: edge[1])
            source = 0 if method == 4 else chance.randrange(n)
            lanes = "".join("lane {} {} {}\n".format(*edge) for edge in edges)
            destinations = [chance.randrange(n)] if method == 5 else []
            lasts = "".join(f"destination {vertex}\n" for vertex in destinations)
            header, *body = self.words(f"method {method}\nyards {n}\nsource {source}\n{lasts}{lanes}")
            self.assertEqual(header, word(method, n, len(edges), source))
            body, after = body[: len(edges)], body[len(edges) :]
            read_back = [
                (data[0], data[1], int.from_bytes(data[4:], "big", signed=True)) for data in map(as_bytes, zip(body))
            ]
            self.assertEqual((read_back, after), (edges, destinations))


class RequestMessages(WithFolder):
    """Every complaint of request.py, once."""

    HEADER_1 = "method 1\nyards 2\nsource 0\n"
    HEADER_2 = "method 2\nyards 2\nsource 0\n"
    HEADER_3 = "method 3\nyards 3\nsource 0\n"
    HEADER_4 = "method 4\nyards 3\n"
    HEADER_5 = "method 5\nyards 3\nsource 0\n"

    def complaints(self, text, *options):
        """What request.py says of a bad text, a message a line; it must write nothing and end with status 1."""
        path, output = self.file("text", text.encode()), self.folder / "request"
        status, printed, errors = run(request, path, "-o", output, *options)
        self.assertEqual((status, printed), (1, ""))
        self.assertFalse(output.exists())
        start = f"request.py: {path}: "
        lines = errors.splitlines()
        self.assertEqual([line for line in lines if not line.startswith(start)], [])
        return [line.removeprefix(start) for line in lines]

    def test_each_complaint(self):
        cases = {
            self.HEADER_1 + "x 1\n": "line 4: unknown word `x`, expected one of method, yards, source, destination, lane, row",
            "method 1\nyards\nsource 0\n": "line 2: wrong number of values after `yards` (0), expected `yards NUMBER`",
            self.HEADER_1 + "lane 0 1\n": "line 4: wrong number of values after `lane` (2), "
            "expected `lane FROM-YARD TO-YARD PRICE`",
            "yards 1\nsource 0\n": "after line 2: the text has no `method`, expected a line `method NUMBER`",
            "method 1\nsource 0\n": "after line 2: the text has no `yards`, expected a line `yards NUMBER`",
            "method 1\n\nyards 1\n": "after line 3: the text has no `source`, expected a line `source YARD`",
            self.HEADER_1 + "method 1\n": "line 4: `method` was given on line 1, expected it once",
            self.HEADER_1 + "yards 2\n": "line 4: `yards` was given on line 2, expected it once",
            self.HEADER_1 + "source 0\n": "line 4: `source` was given on line 3, expected it once",
            "method one\nyards 1\nsource 0\n": "line 1: method `one` is no whole number, expected 1 to 5",
            "method 0\nyards 1\nsource 0\n": "line 1: method 0 is out of range, expected 1 to 5",
            "method 1\nyards 0\nsource 0\n": "line 2: yards 0 is out of range, expected 1 to 32",
            "method 1\nyards 33\nsource 0\n": "line 2: yards 33 is out of range, expected 1 to 32",
            "method 1\nyards 2\nsource 2\n": "line 3: source 2 is out of range, expected 0 to 1",
            "method 1\nyards 1\nsource 1\n": "line 3: source 1 is out of range, expected 0",
            self.HEADER_1 + "lane 2 0 0\n": "line 4: from-yard 2 is out of range, expected 0 to 1",
            self.HEADER_1 + "lane 0 -1 0\n": "line 4: to-yard -1 is out of range, expected 0 to 1",
            self.HEADER_1 + "lane 0 1 1e3\n": "line 4: price `1e3` is no whole number, expected -100000000 to 100000000",
            self.HEADER_1 + "lane 0 1 1.5\n": "line 4: price `1.5` is no whole number, expected -100000000 to 100000000",
            self.HEADER_1 + "lane 0 1 100000001\n": "line 4: price 100000001 is out of range, expected -100000000 to 100000000",
            self.HEADER_1 + "lane 0 1 -\n": "line 4: price `-` is no whole number, expected -100000000 to 100000000",
            self.HEADER_1 + "lane 0 1 " + "9" * 5000: f"line 4: price {'9' * 5000} is out of range, "
            "expected -100000000 to 100000000",
            self.HEADER_1 + "lane 0 1 0\n" * 131: "line 132: one lane too many, expected at most 128 lanes",
            self.HEADER_1 + "row 0 0\n": "line 4: `row` in method 1, expected `lane FROM-YARD TO-YARD PRICE`",
            self.HEADER_2 + "lane 0 1 0\n": "line 4: `lane` in method 2, expected `row PRICE PRICE ..`",
            self.HEADER_2 + "row 0\nrow 0 0\n": "line 4: wrong number of prices in the row (1), "
            "expected 2, one for each yard",
            self.HEADER_2 + "row 0 0\n" * 4: "line 6: one row too many, expected 2, one for each yard",
            self.HEADER_2 + "row 0 0\n": "after line 4: too few rows (1), expected 2, one for each yard",
            self.HEADER_2 + "row 0 -2\nrow 0 0\n": "line 4: price -2 is out of range, "
            "expected -1 to 100000000 (-1 or - for no lane)",
            self.HEADER_2 + "row 0 0\nrow 0 x\n": "line 5: price `x` is no whole number, "
            "expected -1 to 100000000 (-1 or - for no lane)",
            self.HEADER_3 + "lane 0 1 100000001\n": "line 4: price 100000001 is out of range, expected -100000000 to 100000000",
            self.HEADER_3 + "lane 0 1 0\n" * 131: "line 132: one lane too many, expected at most 128 lanes",
            self.HEADER_3 + "row 0 0 0\n": "line 4: `row` in method 3, expected `lane FROM-YARD TO-YARD PRICE`",
            "method 6\nyards 1\nsource 0\n": "line 1: method 6 is out of range, expected 1 to 5",
            self.HEADER_4 + "source 1\n": "line 3: source 1 is out of range, "
            "expected 0 (method 4 gives totals from every yard)",
            self.HEADER_4 + "source 3\n": "line 3: source 3 is out of range, "
            "expected 0 (method 4 gives totals from every yard)",
            self.HEADER_4 + "lane 0 1 5\nsource x\n": "line 4: source `x` is no whole number, "
            "expected 0 (method 4 gives totals from every yard)",
            self.HEADER_4 + "source\n": "line 3: wrong number of values after `source` (0), expected `source YARD`",
            self.HEADER_4 + "source 0\nsource 0\n": "line 4: `source` was given on line 3, expected it once",
            "method 4\nlane 0 0 0\n": "after line 2: the text has no `yards`, expected a line `yards NUMBER`",
            self.HEADER_4 + "lane 0 3 0\n": "line 3: to-yard 3 is out of range, expected 0 to 2",
            self.HEADER_4 + "lane 0 1 -100000001\n": "line 3: price -100000001 is out of range, "
            "expected -100000000 to 100000000",
            self.HEADER_4 + "lane 0 1 0\n" * 131: "line 131: one lane too many, expected at most 128 lanes",
            self.HEADER_4 + "row 0 0 0\n": "line 3: `row` in method 4, expected `lane FROM-YARD TO-YARD PRICE`",
            self.HEADER_4 + "destination 1\n": "line 3: `destination` in method 4, expected it in method 5 alone",
            self.HEADER_1 + "destination 1\n": "line 4: `destination` in method 1, expected it in method 5 alone",
            self.HEADER_2 + "row 0 0\nrow 0 0\ndestination 1\n": "line 6: `destination` in method 2, "
            "expected it in method 5 alone",
            self.HEADER_3 + "destination x\n": "line 4: `destination` in method 3, expected it in method 5 alone",
            self.HEADER_5 + "lane 0 1 0\n": "after line 4: the text has no `destination`, "
            "expected a line `destination YARD`",
            self.HEADER_5 + "destination 1\nlane 0 1 0\ndestination 1\n": "line 6: `destination` was given on line 4, "
            "expected it once",
            self.HEADER_5 + "destination\n": "line 4: wrong number of values after `destination` (0), "
            "expected `destination YARD`",
            self.HEADER_5 + "destination 3\n": "line 4: destination 3 is out of range, expected 0 to 2",
            self.HEADER_5 + "destination -\n": "line 4: destination `-` is no whole number, expected 0 to 2",
            self.HEADER_5 + "destination 1\nrow 0 0 0\n": "line 5: `row` in method 5, "
            "expected `lane FROM-YARD TO-YARD PRICE`",
            self.HEADER_5 + "destination 1\nlane 0 3 0\n": "line 5: to-yard 3 is out of range, expected 0 to 2",
            self.HEADER_5 + "destinations 1\n": "line 4: unknown word `destinations`, "
            "expected one of method, yards, source, destination, lane, row",
            self.HEADER_3 + "lane 0 2 0\n\nlane 0 1 0\nlane 0 1 0\n": "line 6: to-yard 1 is below that of the lane before "
            "it (2, line 4), expected lanes sorted by to-yard",
        }
        for text, message in cases.items():
            with self.subTest(message):
                self.assertEqual(self.complaints(text), [message])

    def test_each_complaint_when_unchecked(self):
        cases = {
            "method 16\nyards 1\nsource 0\n": "line 1: method 16 is out of range, expected 0 to 15 (4 bits)",
            "method 1\nyards 1048576\nsource 0\n": "line 2: yards 1048576 is out of range, "
            "expected 0 to 1048575 (20 bits)",
            "method 1\nyards 1\nsource -1\n": "line 3: source -1 is out of range, expected 0 to 1048575 (20 bits)",
            self.HEADER_1 + "lane 256 0 0\n": "line 4: from-yard 256 is out of range, expected 0 to 255 (8 bits)",
            self.HEADER_2 + "row 2147483648\n": "line 4: price 2147483648 is out of range, "
            "expected -2147483648 to 2147483647 (32 bits)",
            self.HEADER_1 + "lane 0 0 1.5\n": "line 4: price `1.5` is no whole number, "
            "expected -2147483648 to 2147483647 (32 bits)",
            self.HEADER_5 + "destination 18446744073709551616\n": "line 4: destination 18446744073709551616 is out of range, "
            "expected 0 to 18446744073709551615 (64 bits)",
            self.HEADER_5 + "destination -1\n": "line 4: destination -1 is out of range, "
            "expected 0 to 18446744073709551615 (64 bits)",
            "yards 1\nsource 0\n": "after line 2: the text has no `method`, expected a line `method NUMBER`",
            "method 6\nyards 1\n": "after line 2: the text has no `source`, expected a line `source YARD`",
            self.HEADER_4 + "source 1048576\n": "line 3: source 1048576 is out of range, "
            "expected 0 to 1048575 (20 bits)",
            self.HEADER_4 + "source 0\nsource 0\n": "line 4: `source` was given on line 3, expected it once",
        }
        for text, message in cases.items():
            with self.subTest(message):
                self.assertEqual(self.complaints(text, "--unchecked"), [message])

    def test_every_bad_line_in_order(self):
        text = "method 1\nlane 0 1 1.5\nyards 2\nlane 2 x y\n\nlane 0 1 5\nsource 7 # far\nlanes 0 0 0\nlane 0\n"
        expected = [
            "line 2: price `1.5` is no whole number, expected -100000000 to 100000000",
            "line 4: from-yard 2 is out of range, expected 0 to 1",
            "line 7: source 7 is out of range, expected 0 to 1",
            "line 8: unknown word `lanes`, expected one of method, yards, source, destination, lane, row",
            "line 9: wrong number of values after `lane` (1), expected `lane FROM-YARD TO-YARD PRICE`",
        ]
        self.assertEqual(self.complaints(text), expected)

    def test_unsorted_lanes(self):
        below = "line {}: to-yard {} is below that of the lane before it ({}, line {}), expected lanes sorted by to-yard".format
        # Each is compared with the one before it, not with the highest so far.
        lanes = "lane 0 0 0\nlane 0 2 0\nlane 0 1 0\nlane 0 1 0\nlane 0 0 0\n"
        self.assertEqual(self.complaints(self.HEADER_3 + lanes), [below(6, 1, 2, 5), below(8, 0, 1, 7)])
        # A lane that is bad in another way is told that first, and compared with no lane while its to-yard is not known.
        lanes = "lane 0 2 0\nlane 0 1 x\nlane 0 9 0\nlane 0 1 0\nlane 0 2\nlane 0 0 0\nlane 1 2 0\nlane 3 1 0\nlane 1 0 0\n"
        expected = [
            "line 5: price `x` is no whole number, expected -100000000 to 100000000",
            "line 6: to-yard 9 is out of range, expected 0 to 2",
            "line 8: wrong number of values after `lane` (2), expected `lane FROM-YARD TO-YARD PRICE`",
            "line 11: from-yard 3 is out of range, expected 0 to 2",
            below(12, 0, 1, 11),
        ]
        self.assertEqual(self.complaints(self.HEADER_3 + lanes), expected)

    def test_every_bad_line_when_unchecked(self):
        text = "method 16\nyards 0\nsource 0\nlane 0 256 0\nrow 0 x -\nrow\n"
        expected = [
            "line 1: method 16 is out of range, expected 0 to 15 (4 bits)",
            "line 4: to-yard 256 is out of range, expected 0 to 255 (8 bits)",
            "line 5: price `x` is no whole number, expected -2147483648 to 2147483647 (32 bits)",
        ]
        self.assertEqual(self.complaints(text, "--unchecked"), expected)

    def test_what_is_missing_comes_last(self):
        lacks = "the text has no `{}`, expected a line `{}`".format
        empty = [lacks("method", "method NUMBER"), lacks("yards", "yards NUMBER"), lacks("source", "source YARD")]
        self.assertEqual(self.complaints(""), [f"after line 0: {message}" for message in empty])
        expected = [
            "line 1: to-yard 32 is out of range, expected 0 to 31",
            "line 2: price -2 is out of range, expected -1 to 100000000 (-1 or - for no lane)",
            f"after line 3: {lacks('method', 'method NUMBER')}",
            f"after line 3: {lacks('yards', 'yards NUMBER')}",
        ]
        self.assertEqual(self.complaints("lane 0 32 0\nrow -2 -1 -\nsource 31\n"), expected)
        expected = [
            "line 4: price `x` is no whole number, expected -1 to 100000000 (-1 or - for no lane)",
            "after line 5: too few rows (2), expected 3, one for each yard",
        ]
        self.assertEqual(self.complaints("method 2\nyards 3\nsource 2\nrow x 0 0\nrow 0 - 0\n"), expected)

    def test_too_many_and_bad_lines(self):
        lanes = "lane 0 1 0\n" * 127 + "lane 0 1 x\n" * 3
        expected = [
            "line 131: price `x` is no whole number, expected -100000000 to 100000000",
            "line 132: one lane too many, expected at most 128 lanes",
            "line 133: price `x` is no whole number, expected -100000000 to 100000000",
        ]
        self.assertEqual(self.complaints(self.HEADER_1 + lanes), expected)
        expected = [
            "line 5: wrong number of prices in the row (3), expected 2, one for each yard",
            "line 6: one row too many, expected 2, one for each yard",
        ]
        self.assertEqual(self.complaints(self.HEADER_2 + "row 0 0\nrow 0 0 0\nrow 0\n"), expected)

    def test_no_echo_of_an_unknown_word(self):
        unknown = "line {}: unknown word `{}`, expected one of method, yards, source, destination, lane, row".format
        expected = [unknown(1, "Method"), unknown(2, "yard"), unknown(3, "src")]
        self.assertEqual(self.complaints("Method 1\nyard 2\nsrc 0\nlane 0 1 0\n"), expected)
        self.assertEqual(self.complaints(self.HEADER_2 + "rows 0 0\nrow 0 0\n"), [unknown(4, "rows")])
        lacks = "after line 3: the text has no `method`, expected a line `method NUMBER`"
        self.assertEqual(self.complaints("yards 2\nsource 0\nfoo\n"), [unknown(3, "foo"), lacks])

    def test_no_echo_of_a_bad_header(self):
        body = "source 5\ndestination 6\nrow 0 0 0\nrow 0\nlane 7 8 0\ndestination 7\n"
        expected = [
            "line 1: method 6 is out of range, expected 1 to 5",
            "line 2: yards `x` is no whole number, expected 1 to 32",
        ]
        self.assertEqual(self.complaints("method 6\nyards x\n" + body), expected)
        expected = [
            "line 2: `method` was given on line 1, expected it once",
            "line 4: `yards` was given on line 3, expected it once",
        ]
        self.assertEqual(self.complaints("method 1\nmethod 2\nyards 2\nyards 9\n" + body), expected)

    def test_no_echo_of_the_other_method(self):
        expected = [f"line {number}: `lane` in method 2, expected `row PRICE PRICE ..`" for number in (4, 5)]
        self.assertEqual(self.complaints(self.HEADER_2 + "lane 0 1 x\nlane 9 9 9\n"), expected)
        expected = [f"line {number}: `row` in method 1, expected `lane FROM-YARD TO-YARD PRICE`" for number in (4, 5, 6)]
        self.assertEqual(self.complaints(self.HEADER_1 + "row x\nrow 0 0\nrow 0 0\n"), expected)
        expected = [f"line {number}: `destination` in method 3, expected it in method 5 alone" for number in (4, 5)]
        self.assertEqual(self.complaints(self.HEADER_3 + "destination 9\ndestination x\n"), expected)

    def test_files_that_cannot_be_used(self):
        missing = self.folder / "missing"
        expected = f"request.py: {missing}: cannot be read: No such file or directory\n"
        self.assertEqual(run(request, missing), (1, "", expected))
        expected = f"request.py: {self.folder}: cannot be read: Is a directory\n"
        self.assertEqual(run(request, self.folder), (1, "", expected))
        self.assertEqual(run(request, ""), (1, "", "request.py: : cannot be read: No such file or directory\n"))
        text = self.file("text", PRINTED_TEXT.encode())
        expected = f"request.py: {self.folder}: cannot be written: Is a directory\n"
        self.assertEqual(run(request, text, "-o", self.folder), (1, "", expected))
        expected = "request.py: /dev/full: cannot be written: No space left on device\n"
        self.assertEqual(run(request, text, "-o", "/dev/full"), (1, "", expected))


class RequestCommand(WithFolder):
    """The ways in and out of request.py."""

    def test_standard_input_to_standard_output(self):
        for names in ([], ["-"]):
            done = run_command(request, *names, given=PRINTED_TEXT.encode())
            self.assertEqual(done, (0, as_bytes(PRINTED_WORDS), b""))

    def test_bad_lines_of_standard_input(self):
        expected = (
            b"request.py: standard input: line 4: price `1.5` is no whole number, expected -100000000 to 100000000\n"
            b"request.py: standard input: line 5: to-yard 2 is out of range, expected 0 to 1\n"
        )
        text = b"method 1\nyards 2\nsource 0\nlane 0 1 1.5\nlane 0 2 1\n"
        for names in ([], ["-"]):
            self.assertEqual(run_command(request, *names, given=text), (1, b"", expected))

    def test_no_standard_input(self):
        expected = b"request.py: standard input: cannot be read: Bad file descriptor\n"
        self.assertEqual(run_command(request, ending="<&-"), (1, b"", expected))

    def test_hexadecimal_to_standard_output(self):
        done = run_command(request, self.file("text", PRINTED_TEXT.encode()), "--hex")
        self.assertEqual(done, (0, b"1000020000100000\n00010000FFFFFFFB\n", b""))

    def test_output_file(self):
        text, output = self.file("text", PRINTED_TEXT.encode()), self.folder / "request"
        self.assertEqual(run(request, text, "-o", output), (0, "", ""))
        self.assertEqual(output.read_bytes(), as_bytes(PRINTED_WORDS))

    def test_standard_output_that_cannot_be_written(self):
        text = self.file("text", PRINTED_TEXT.encode())
        for arguments, (ending, reason) in product(([text], [text, "--hex"], ["--help"]), UNWRITABLE.items()):
            expected = f"request.py: standard output: cannot be written: {reason}\n".encode()
            self.assertEqual(run_command(request, *arguments, ending=ending), (1, b"", expected))


class Listing(WithFolder):
    """What `log.py list` prints."""

    def listing(self, words, *options):
        """The lines that are printed for these words, the same from bytes and from hexadecimal text."""
        from_bytes = run(log, "list", self.file("log", as_bytes(words)), *options)
        from_hex = run(log, "list", "--hex", self.file("log.hex", as_hex(words)), *options)
        self.assertEqual(from_bytes, from_hex)
        status, output, errors = from_bytes
        self.assertEqual((status, errors), (0, ""))
        return output.splitlines()

    def meanings(self, words, *options):
        """The listing of an edge request's header and these words, without the header's line, places and hexadecimal digits."""
        return [line[27:] for line in self.listing(EDGE_1_PLAN[:1] + words, *options)[1:-1]]

    def rounds(self, words, *options):
        """What the listing of a header and these words ends with."""
        return self.listing(EDGE_1_PLAN[:1] + words, *options)[-1]

    def test_edge_1_log(self):
        expected = [
            "      0  1000010000000000  header method=1 yards=1 lanes=0 source=0",
            "      1  0000020000000000  SET [2] <- 0",
            "      2  0000000000000000  SET [0] <- 0",
            "      3  000001FFFFFFFFFF  SET [1] <- -1",
            "      4  0000037FFFFFFFFF  SET [3] <- 549755813887",
            "      5  00000A0000000000  SET [10] <- 0",
            "      6  7000000000A00000  OPEN [10]",
            "      7  0000000000000000  published 0",
            "rounds 2",
        ]
        self.assertEqual(self.listing(EDGE_1_LOG), expected)

    def test_edge_1_plan(self):
        self.assertEqual(plan_of_method_1(1, 0, 0), EDGE_1_PLAN)
        self.assertEqual(self.listing(EDGE_1_PLAN, "--plan"), self.listing(EDGE_1_LOG)[:7] + self.listing(EDGE_1_LOG)[-1:])

    def test_log_of_method_3(self):
        expected = [
            "      0  3000010000000000  header method=3 yards=1 lanes=0 source=0",
            "      1  0000030000000000  SET [3] <- 0",
            "      2  0000010000000000  SET [1] <- 0",
            "      3  000002FFFFFFFFFF  SET [2] <- -1",
            "      4  0000047FFFFFFFFF  SET [4] <- 549755813887",
            "      5  0000067FFFFFFFFF  SET [6] <- 549755813887",
            "      6  00000E0000000000  SET [14] <- 0",
            "      7  000000FFFFFFFFFF  SET [0] <- -1",
            "      8  30000B0000400001  LESS [11] <- [4] < [1]",
            "      9  60000E0000B0000B  MOVEIF [14] <- [11] if [11]",
            "     10  7000000000E00000  OPEN [14]",
            "     11  0000000000000000  published 0",
            "rounds 9",
        ]
        self.assertEqual(self.listing(plan_of_method_3(1, 0, 0) + [0]), expected)

    def test_log_of_method_4(self):
        expected = [
            "      0  4000010000100000  header method=4 yards=1 lanes=1 source=0",
            "      1  0000060000000000  SET [6] <- 0",
            "      2  0000077FFFFFFFFF  SET [7] <- 549755813887",
            "      3  0000087FFFFFFFFF  SET [8] <- 549755813887",
            *(f"{place:7}  2000080000800008  ADD [8] <- [8] + [8]" for place in range(4, 24)),
            "     24  0000090000000000  SET [9] <- 0",
            "     25  00000C0000000000  SET [12] <- 0",
            "     26  1000030000800000  COPY [3] <- [8]",
            "     27  1000030000900000  COPY [3] <- [9]",
            "     28  1000040000800000  COPY [4] <- [8]",
            "     29  40000B0000000006  EQUAL [11] <- [0] = [6]",
            "     30  6000040000B00009  MOVEIF [4] <- [9] if [11]",
            "     31  1000050000800000  COPY [5] <- [8]",
            "     32  40000B0000100006  EQUAL [11] <- [1] = [6]",
            "     33  6000050000B00002  MOVEIF [5] <- [2] if [11]",
            "     34  20000A0000400005  ADD [10] <- [4] + [5]",
            "     35  30000B0000A00003  LESS [11] <- [10] < [3]",
            "     36  6000030000B0000A  MOVEIF [3] <- [10] if [11]",
            "     37  1000040000300000  COPY [4] <- [3]",
            "     38  1000050000300000  COPY [5] <- [3]",
            "     39  20000A0000400005  ADD [10] <- [4] + [5]",
            "     40  30000B0000A00003  LESS [11] <- [10] < [3]",
            "     41  6000030000B0000A  MOVEIF [3] <- [10] if [11]",
            "     42  30000B0000300009  LESS [11] <- [3] < [9]",
            "     43  20000C0000C0000B  ADD [12] <- [12] + [11]",
            "     44  50000C0000C0000C  BOTH [12] <- [12] and [12]",
            "     45  30000B0000700003  LESS [11] <- [7] < [3]",
            "     46  6000030000B00007  MOVEIF [3] <- [7] if [11]",
            "     47  7000000000C00000  OPEN [12]",
            "     48  0000000000000000  published 0",
            "rounds 30",
        ]
        self.assertEqual(self.listing(plan_of_method_4(1, 1) + [0]), expected)

    def test_log_of_method_5(self):
        expected = [
            "      0  5000020000000001  header method=5 yards=2 lanes=0 source=1",
            "      1  0000040000000000  SET [4] <- 0",
            "      2  0000007FFFFFFFFF  SET [0] <- 549755813887",
            "      3  000002FFFFFFFFFF  SET [2] <- -1",
            "      4  0000050000000001  SET [5] <- 1",
            "      5  0000010000000000  SET [1] <- 0",
            "      6  000003FFFFFFFFFF  SET [3] <- -1",
            "      7  0000067FFFFFFFFF  SET [6] <- 549755813887",
            "      8  00000D0000000000  SET [13] <- 0",
            "      9  10000F0000400000  COPY [15] <- [4]",
            "     10  1000100000500000  COPY [16] <- [5]",
            "     11  1000070000E00000  COPY [7] <- [14]",
            "     12  1000080000700000  COPY [8] <- [7]",
            "     13  40000B0000800004  EQUAL [11] <- [8] = [4]",
            "     14  6000110000B00002  MOVEIF [17] <- [2] if [11]",
            "     15  6000070000B0000F  MOVEIF [7] <- [15] if [11]",
            "     16  40000B0000800005  EQUAL [11] <- [8] = [5]",
            "     17  6000110000B00003  MOVEIF [17] <- [3] if [11]",
            "     18  6000070000B00010  MOVEIF [7] <- [16] if [11]",
            "     19  7000000000D00000  OPEN [13]",
            "     20  0000000000000000  published 0",
            "rounds 9",
        ]
        self.assertEqual(self.listing(plan_of_method_5(2, 0, 1) + [0]), expected)

    def test_every_operation(self):
        words = [word(op, 1, 2, 3) for op in (SET, ADD, LESS, EQUAL, BOTH, MOVEIF)]
        words += [word(COPY, 1, 2), word(OPEN, 0, 2), 2**64 - 5]
        expected = [
            "SET [1] <- 2097155",
            "ADD [1] <- [2] + [3]",
            "LESS [1] <- [2] < [3]",
            "EQUAL [1] <- [2] = [3]",
            "BOTH [1] <- [2] and [3]",
            "MOVEIF [1] <- [3] if [2]",
            "COPY [1] <- [2]",
            "OPEN [2]",
            "published -5",
        ]
        self.assertEqual(self.meanings(words), expected)
        self.assertEqual(self.rounds(words), "rounds 6")

    def test_rounds_of_each_op(self):
        for op, rounds in zip(range(8), (1, 0, 0, 6, 6, 1, 1, 1)):
            self.assertEqual(self.rounds([word(op)]), f"rounds {rounds}")

    def test_rounds_are_a_depth(self):
        deep = word(LESS, 3, 0, 0)
        reads = {SET: "", COPY: "a", ADD: "ab", LESS: "ab", EQUAL: "ab", BOTH: "ab", MOVEIF: "abd", OPEN: "a"}
        for (op, read), field in product(reads.items(), "abd"):
            words = [deep, word(op, *(3 * (name == field) for name in "dab"))]
            alone = {LESS: 6, EQUAL: 6, COPY: 0, ADD: 0}.get(op, 1)
            rounds = 6 + alone if field in read else 6
            self.assertEqual(self.rounds(words, "--plan"), f"rounds {rounds}")
        # A written cell takes the depth of the last word that wrote it; OPEN writes none.
        self.assertEqual(self.rounds([deep, word(LESS, 3, 3, 3)]), "rounds 12")
        self.assertEqual(self.rounds([deep, word(SET, 3), word(LESS, 3, 3, 3)]), "rounds 7")
        self.assertEqual(self.rounds([deep, word(OPEN, 0, 3), word(LESS, 4, 0, 0)], "--plan"), "rounds 7")
        self.assertEqual(self.rounds([deep, word(MOVEIF, 4, 5, 3), word(EQUAL, 4, 4, 4)]), "rounds 13")

    def test_published_words_have_no_depth(self):
        words = [word(OPEN), word(LESS, 0, 0, 0), word(BOTH, 1, 0, 0)]
        self.assertEqual(self.rounds(words), "rounds 1")
        self.assertEqual(self.rounds(words, "--plan"), "rounds 7")

    def test_edge_10_least_number_of_set(self):
        self.assertEqual(self.meanings([word(SET, 0, 524_288, 0)]), ["SET [0] <- -549755813888"])

    def test_plan_goes_on_after_open(self):
        words = [word(OPEN), word(OPEN), word(OPEN)]
        self.assertEqual(self.meanings(words, "--plan"), ["OPEN [0]", "OPEN [0]", "OPEN [0]"])
        self.assertEqual(self.meanings(words), ["OPEN [0]", "published 8070450532247928832", "OPEN [0]"])

    def test_header_is_no_operation(self):
        self.assertEqual(self.listing([word(OPEN)] * 2)[-1], "rounds 1")

    def test_no_instruction(self):
        words = [word(LESS, 1, 2, 3), word(9, 1), word(OPEN, 0, 4), 0]
        expected = ["LESS [1] <- [2] < [3]", "no instruction: op 9 is over 7", "OPEN [4]", "published 0"]
        self.assertEqual(self.meanings(words), expected)
        self.assertEqual(self.rounds(words), "rounds 6")

    def test_fields_that_should_be_zero(self):
        words = [word(COPY, 1, 2, 3), word(OPEN, 1, 2, 3)]
        expected = ["COPY [1] <- [2] (b is 3, expected 0)", "OPEN [2] (d is 1, expected 0) (b is 3, expected 0)"]
        self.assertEqual(self.meanings(words), expected)

    def test_header_alone(self):
        self.assertEqual(self.listing(EDGE_1_LOG[:1]), [self.listing(EDGE_1_LOG)[0], "rounds 0"])

    def test_rounds_and_lengths(self):
        figures = [
            (plan_of_method_1(2, 1, 0), 47, 31),  # edge 2, the printed request
            (plan_of_method_1(1, 1, 0), 17, 18),  # edge 3, by the formulas of method 1
            (plan_of_method_2(2, 0), 67, 63),  # edge 6
            (plan_of_method_2(1, 0), 21, 23),  # edge 7
            (plan_of_method_3(1, 0, 0), 11, 9),  # by the formulas of method 3, as the next two
            (plan_of_method_3(2, 1, 0), 54, 45),
            (plan_of_method_3(3, 3, 2), 209, 121),
            (plan_of_method_4(1, 0), 39, 16),  # by the formulas of method 4, as the next three
            (plan_of_method_4(2, 1), 103, 37),
            (plan_of_method_4(3, 3), 300, 58),
            (plan_of_method_4(4, 0), 315, 37),
            (plan_of_method_5(1, 0, 0), 9, 2),  # by the formulas of method 5, as the next four
            (plan_of_method_5(2, 1, 0), 62, 31),
            (plan_of_method_5(3, 3, 2), 298, 100),
            (plan_of_method_5(9, 1, 4), 958, 272),
            (plan_of_method_5(4, 0, 3), 60, 31),
        ]
        for plan, length, rounds in figures:
            lines = self.listing(plan, "--plan")
            self.assertEqual((len(lines) - 1, lines[-1]), (length, f"rounds {rounds}"))

    def test_largest_rounds(self):
        for plan, figures in (
            (plan_of_method_2(32, 0), (44_227, 9_633)),
            (plan_of_method_3(32, 128, 0), (437_221, 38_151)),
            (plan_of_method_4(32, 128), (521_371, 1_136)),
        ):
            self.assertEqual((len(plan), log.rounds_of(plan, is_plan=True)), figures)


class Comparison(WithFolder):
    """What `log.py compare` prints."""

    def comparison(self, first, second, *options):
        """Exit status and lines of a comparison, the same from bytes and from hexadecimal text."""
        from_bytes = run(log, "compare", self.file("A", as_bytes(first)), self.file("B", as_bytes(second)), *options)
        hex_files = self.file("A.hex", as_hex(first)), self.file("B.hex", as_hex(second).lower())
        self.assertEqual(from_bytes, run(log, "compare", "--hex", *hex_files, *options))
        status, output, errors = from_bytes
        self.assertEqual(errors, "")
        return status, output.splitlines()

    def test_equal(self):
        self.assertEqual(self.comparison(EDGE_1_LOG, EDGE_1_LOG), (0, ["equal, 8 words"]))
        self.assertEqual(self.comparison(EDGE_1_LOG[:1], EDGE_1_LOG[:1]), (0, ["equal, 1 words"]))

    def test_header(self):
        expected = [
            "differ at place 0, in the header",
            "A  1000010000000000  header method=1 yards=1 lanes=0 source=0",
            "B  2000010000000000  header method=2 yards=1 lanes=0 source=0",
        ]
        self.assertEqual(self.comparison(EDGE_1_LOG, plan_of_method_2(1, 0)), (1, expected))

    def test_operation(self):
        other = EDGE_1_LOG[:3] + [word(COPY, 1, 2)] + EDGE_1_LOG[4:]
        expected = [
            "differ at place 3, in an operation",
            "A  000001FFFFFFFFFF  SET [1] <- -1",
            "B  1000010000200000  COPY [1] <- [2]",
        ]
        self.assertEqual(self.comparison(EDGE_1_LOG, other), (1, expected))

    def test_edge_3_differs_in_the_published_word(self):
        plan = plan_of_method_1(1, 1, 0)
        expected = [
            "differ at place 17, in a published word",
            "A  0000000000000001  published 1",
            "B  0000000000000000  published 0",
        ]
        self.assertEqual(self.comparison(plan + [1], plan + [0]), (1, expected))

    def test_method_3_differs_in_the_published_word(self):
        plan = plan_of_method_3(1, 1, 0)
        expected = [
            "differ at place 23, in a published word",
            "A  0000000000000001  published 1",
            "B  0000000000000000  published 0",
        ]
        self.assertEqual(self.comparison(plan + [1], plan + [0]), (1, expected))

    def test_method_4_differs_in_the_published_word(self):
        plan = plan_of_method_4(1, 1)
        expected = [
            "differ at place 48, in a published word",
            "A  0000000000000001  published 1",
            "B  0000000000000000  published 0",
        ]
        self.assertEqual(self.comparison(plan + [1], plan + [0]), (1, expected))

    def test_method_5_differs_in_the_published_word(self):
        plan = plan_of_method_5(1, 1, 0)
        expected = [
            "differ at place 22, in a published word",
            "A  0000000000000001  published 1",
            "B  0000000000000000  published 0",
        ]
        self.assertEqual(self.comparison(plan + [1], plan + [0]), (1, expected))

    def test_length(self):
        expected = ["differ at place 7, only in length", "A  ends after 7 words", "B  0000000000000000  published 0"]
        self.assertEqual(self.comparison(EDGE_1_PLAN, EDGE_1_LOG), (1, expected))
        expected = ["differ at place 1, only in length", "A  0000020000000000  SET [2] <- 0", "B  ends after 1 words"]
        self.assertEqual(self.comparison(EDGE_1_LOG, EDGE_1_LOG[:1]), (1, expected))

    def test_plans(self):
        expected = ["differ at place 7, in an operation", "A  0000000000000000  SET [0] <- 0", "B  7000000000000000  OPEN [0]"]
        self.assertEqual(self.comparison(EDGE_1_PLAN + [0], EDGE_1_PLAN + [word(OPEN)], "--plan"), (1, expected))


class LogMessages(WithFolder):
    """Every complaint of log.py, once."""

    def assert_complaint(self, message, *arguments):
        self.assertEqual(run(log, *arguments), (2, "", f"log.py: {message}\n"))

    def test_broken_last_word(self):
        path = self.file("log", as_bytes(EDGE_1_LOG)[:-3])
        message = f"{path}: 61 bytes, expected a multiple of 8"
        self.assert_complaint(message, "list", path)
        self.assert_complaint(message, "compare", self.file("A", as_bytes(EDGE_1_LOG)), path)
        self.assert_complaint(message, "list", "--bytes", path)

    def test_hexadecimal_text_as_bytes(self):
        path, good = self.folder / "log", self.file("A", as_bytes(EDGE_1_LOG))
        message = f"{path}: looks like hexadecimal text: --hex reads it (or --bytes, if it is a log of bytes all the same)"
        text = as_hex(EDGE_1_LOG)
        self.assertEqual(len(text) % 8, 0)
        one_line = text.replace(b"\n", b"")
        windows = codecs.BOM_UTF8 + text.lower().replace(b"\n", b"\r\n")
        for data in (text, text[:-1], text[:-24], text.lower(), one_line, windows, b" \n"):
            path.write_bytes(data)
            self.assert_complaint(message, "list", path)
            self.assert_complaint(message, "compare", path, good)
            self.assert_complaint(message, "compare", good, path)

    def test_bytes_all_the_same(self):
        words = [int.from_bytes(b"00020002", "big"), int.from_bytes(b"0000000A", "big")]
        path = self.file("log", as_bytes(words))
        expected = [
            "      0  3030303230303032  header method=3 yards=12336 lanes=205571 source=12338",
            "      1  3030303030303041  LESS [12336] <- [197379] < [12353]",
            "rounds 6",
        ]
        self.assertEqual(run(log, "list", "--bytes", path), (0, "\n".join(expected) + "\n", ""))
        other = self.file("B", as_bytes(words))
        self.assertEqual(run(log, "compare", path, other, "--bytes"), (0, "equal, 2 words\n", ""))

    def test_no_request_looks_like_text(self):
        for method, n, m in product(range(1, 6), range(1, 33), range(129)):
            source = 0 if method == 4 else n - 1
            self.assertFalse(log.looks_like_text(as_bytes([word(method, n, m, source)])))

    def test_one_form_at_most(self):
        status, _, errors = run_command(log, "list", "--hex", "--bytes", "log")
        self.assertEqual(status, 2)
        self.assertIn(b"not allowed with argument --hex", errors)

    def test_unreadable_hexadecimal(self):
        path = self.file("log", b"1000010000000000\n0000020000000000 00000200000000\n")
        message = f"{path}: line 2: `00000200000000` is no word, expected 16 hexadecimal digits"
        self.assert_complaint(message, "list", "--hex", path)
        good = self.file("A", as_hex(EDGE_1_LOG))
        self.assert_complaint(message, "compare", "--hex", good, path)
        path = self.file("log", b"0x10000100000000\n")
        message = f"{path}: line 1: `0x10000100000000` is no word, expected 16 hexadecimal digits"
        self.assert_complaint(message, "list", "--hex", path)

    def test_bytes_as_hexadecimal(self):
        path = self.file("log", as_bytes(EDGE_1_LOG[:2]))
        quoted = "`" + "".join(f"\\x{value:02x}" for value in path.read_bytes()) + "`"
        self.assert_complaint(f"{path}: line 1: {quoted} is no word, expected 16 hexadecimal digits", "list", "--hex", path)
        path = self.file("log", as_hex(EDGE_1_LOG[:1]) + b"\xff" + b"0" * 40)
        quoted = "`\\xff" + "0" * 19 + "..`"
        self.assert_complaint(f"{path}: line 2: {quoted} is no word, expected 16 hexadecimal digits", "list", "--hex", path)

    def test_no_words(self):
        empty, also_empty = self.file("log", b""), self.file("B", b"")
        message = "{}: empty, expected at least a header word".format
        for options in ([], ["--hex"], ["--bytes"], ["--plan"]):
            self.assert_complaint(message(empty), "list", empty, *options)
            self.assert_complaint(message(empty), "compare", empty, also_empty, *options)
        good = self.file("A", as_bytes(EDGE_1_LOG))
        self.assert_complaint(message(empty), "compare", good, empty)
        self.assert_complaint(message(empty), "compare", empty, good)
        blank = self.file("blank", b"\n \n")
        self.assert_complaint(message(blank), "list", "--hex", blank)

    def test_one_file_twice(self):
        path = self.file("log", as_bytes(EDGE_1_LOG))
        message = "{}: A and B are both this file, expected two files".format
        self.assert_complaint(message(path), "compare", path, path)
        link = self.folder / "link"
        link.symlink_to(path)
        self.assert_complaint(message(link), "compare", path, link)

    def test_files_that_cannot_be_read(self):
        path, good = self.folder / "missing", self.file("A", as_bytes(EDGE_1_LOG))
        message = f"{path}: cannot be read: No such file or directory"
        self.assert_complaint(message, "list", path)
        self.assert_complaint(message, "compare", good, path)
        self.assert_complaint(message, "compare", path, path)
        self.assert_complaint(f"{self.folder}: cannot be read: Is a directory", "compare", good, self.folder)

    def test_no_command_line(self):
        status, _, errors = run_command(log)
        self.assertEqual(status, 2)
        self.assertIn(b"usage: log.py", errors)


class LogCommand(WithFolder):
    """The ways in and out of log.py."""

    def assert_complaint(self, message, *arguments, **options):
        expected = (2, b"", f"log.py: {message}\n".encode())
        self.assertEqual(run_command(log, *arguments, **options), expected)

    def test_list_standard_input(self):
        cases = [
            (as_bytes(EDGE_1_LOG), []),
            (as_bytes(EDGE_1_LOG), ["--bytes"]),
            (as_hex(EDGE_1_LOG), ["--hex"]),
            (as_bytes(EDGE_1_PLAN), ["--plan"]),
        ]
        for data, options in cases:
            status, output, errors = run(log, "list", self.file("log", data), *options)
            self.assertEqual((status, errors), (0, ""))
            self.assertEqual(run_command(log, "list", "-", *options, given=data), (0, output.encode(), b""))

    def test_compare_standard_input(self):
        published = ["0000000000000000  published 0", "0000000000000001  published 1"]
        differ = "differ at place 7, in a published word\nA  {}\nB  {}\n".format
        for form, options in ((as_bytes, []), (as_hex, ["--hex"])):
            path, same, other = self.file("log", form(EDGE_1_LOG)), form(EDGE_1_LOG), form(EDGE_1_PLAN + [1])
            for names, shown in ((("-", path), published[::-1]), ((path, "-"), published)):
                done = run_command(log, "compare", *names, *options, given=same)
                self.assertEqual(done, (0, b"equal, 8 words\n", b""))
                done = run_command(log, "compare", *names, *options, given=other)
                self.assertEqual(done, (1, differ(*shown).encode(), b""))

    def test_one_input_twice(self):
        path = self.file("log", as_bytes(EDGE_1_LOG))
        message = "{}: A and B are both this file, expected two files".format
        self.assert_complaint(message("standard input"), "compare", "-", "-", given=as_bytes(EDGE_1_LOG))
        self.assert_complaint(message("standard input"), "compare", path, "-", ending=f"<'{path}'")
        self.assert_complaint(message(path), "compare", "-", path, ending=f"<'{path}'")

    def test_bad_standard_input(self):
        path = self.file("log", as_bytes(EDGE_1_LOG))
        for names in (["list", "-"], ["compare", "-", path], ["compare", path, "-"]):
            message = "standard input: cannot be read: Bad file descriptor"
            self.assert_complaint(message, *names, ending="<&-")
            message = "standard input: 61 bytes, expected a multiple of 8"
            self.assert_complaint(message, *names, given=as_bytes(EDGE_1_LOG)[:-3])
            self.assert_complaint("standard input: empty, expected at least a header word", *names)
        looks = "looks like hexadecimal text: --hex reads it (or --bytes, if it is a log of bytes all the same)"
        self.assert_complaint(f"standard input: {looks}", "list", "-", given=as_hex(EDGE_1_LOG))
        message = "standard input: line 2: `x` is no word, expected 16 hexadecimal digits"
        self.assert_complaint(message, "list", "--hex", "-", given=as_hex(EDGE_1_LOG[:1]) + b"x\n")

    def test_standard_output_that_cannot_be_written(self):
        path, same = self.file("A", as_bytes(EDGE_1_LOG)), self.file("B", as_bytes(EDGE_1_LOG))
        other, long = self.file("C", as_bytes(EDGE_1_PLAN + [1])), self.file("long", as_bytes(plan_of_method_2(9, 0)))
        # What is asked, and its exit status where it can be answered.
        answered = [
            (["list", path], 0),
            (["list", long], 0),
            (["compare", path, same], 0),
            (["compare", path, other], 1),
            (["--help"], 0),
            (["list", "--help"], 0),
            (["compare", "--help"], 0),
        ]
        for arguments, status in answered:
            done = run_command(log, *arguments)
            self.assertEqual((done[0], done[2]), (status, b""))
            for ending, reason in UNWRITABLE.items():
                self.assert_complaint(f"standard output: cannot be written: {reason}", *arguments, ending=ending)

    def test_nothing_that_can_be_written(self):
        path, other = self.file("A", as_bytes(EDGE_1_LOG)), self.file("B", as_bytes(EDGE_1_PLAN + [1]))
        for unbuffered, ending in product(("", "1"), (">/dev/full 2>&1", ">&- 2>&-")):
            with mock.patch.dict(os.environ, PYTHONUNBUFFERED=unbuffered):
                self.assertEqual(run_command(log, "compare", path, other, ending=ending), (2, b"", b""))

    def test_reader_that_has_ended(self):
        long = self.file("long", as_bytes(plan_of_method_2(12, 0)))
        status, *said = run_command(log, "list", long, ending="| true; exit ${PIPESTATUS[0]}")
        self.assertEqual((status, said), (128 + signal.SIGPIPE, [b"", b""]))

    def test_help_names_standard_input(self):
        self.assertIn(b"The file - is standard input.", run_command(log, "--help")[1])
        for command, count in (("list", 1), ("compare", 2)):
            self.assertEqual(run_command(log, command, "--help")[1].count(b"standard input if -\n"), count)


class Together(WithFolder):
    """A request that one tool writes, read by the other."""

    def test_request_header_is_listed(self):
        text, output = self.file("text", PRINTED_TEXT.encode()), self.folder / "request.hex"
        self.assertEqual(run(request, text, "--hex", "-o", output), (0, "", ""))
        _, listing, _ = run(log, "list", "--hex", output)
        self.assertIn("      0  1000020000100000  header method=1 yards=2 lanes=1 source=0\n", listing)


if __name__ == "__main__":
    unittest.main()
