#!/usr/bin/env python3
"""Turns a readable text into the words of a request, as document 01 packs them ("Request words").

In the code a yard is a vertex, a lane is an edge and a price is a weight, as in the rest of the repository. The text that is
read and the messages keep document 01's own words.
"""

import argparse
import difflib
import re
import signal
import sys
from itertools import chain
from typing import NamedTuple

DESCRIPTION = """\
Turns a readable text into a request: words of eight bytes, most significant
byte first, on standard output."""

TEXT_FORMAT = """\
The text, line by line; what follows a # and blank lines are passed over:

  method 1          1 (Bellman-Ford over lanes), 2 (Dijkstra over a table),
                    3 (Bellman-Ford over lanes sorted by to-yard),
                    4 (Floyd-Warshall over lanes: totals from every yard) or
                    5 (as 1, with the lanes of the route to one yard)
  yards 2           how many yards there are, 1 to 32; they are numbered from 0
  source 0          the yard from which routes start; in method 4 it is 0, and
                    this line may be left out
  destination 1     method 5: the yard whose route is shown
  lane 0 1 -5       methods 1, 3, 4 and 5: from-yard, to-yard and price, at most
                    128 lanes; the first one is lane 0, the next lane 1, and so
                    on; in method 3 no to-yard is below that of the lane before
                    it
  row 0 7           method 2: the prices from one yard to each yard, a row for
  row - 0           each yard, yard 0 first; - (or -1) where there is no lane

Prices go from -100000000 to 100000000 in methods 1, 3, 4 and 5, from 0 to
100000000 in method 2. Every number is whole, in decimal digits, with - before
them if it is negative.

Bad text is answered on standard error: for each bad line a message with the
file, the line and what was expected there, then one for each thing that is
missing. What cannot be told before other lines are mended is left out, such as
too many prices in a row while the number of yards is not known. Nothing is
written, and the exit status is 1, as it is when a file cannot be used.

With --unchecked a number only has to fit its bit field (method 4 bits, yards,
lanes and source 20, a lane's yards 8, a price 32 in two's complement, the
destination 64), and `lane` and `row` lines go out as they stand, in any method,
number and order, and then the `destination` lines, in any method and number;
the header counts the `lane` lines. So requests can be made that are refused."""


class BadText(Exception):
    """A text that makes no request, with all the messages that say why."""

    def __init__(self, messages):
        super().__init__("\n".join(messages))
        self.messages = messages


class BadFile(Exception):
    """A file that cannot be read or written."""


class Complaint(NamedTuple):
    """What is wrong at a line of the text, and what was expected there."""

    number: int
    wrong: str
    expected: object

    def __str__(self):
        return f"line {self.number}: {self.wrong}, expected {self.expected}"


class Range(NamedTuple):
    """The numbers from `low` to `high`, and a remark for the reader of a message."""

    low: int
    high: int
    remark: str = ""

    def __str__(self):
        numbers = f"{self.low} to {self.high}" if self.low < self.high else str(self.low)
        return numbers + self.remark

    def takes(self, value):
        """Whether this text writes a number of the range."""
        return is_short_number(value) and self.low <= int(value) <= self.high


class Limits(NamedTuple):
    """Which numbers the text may give."""

    method: Range
    vertices: Range
    edges: Range
    source: Range
    destination: Range
    vertex: Range
    weight: Range
    entry: Range


class Line(NamedTuple):
    """A line of the text: its number from 1, its first word, and the words after that."""

    number: int
    keyword: str
    values: list

    @property
    def meant(self):
        """The keyword, or the one that an unknown word looks most like, or None if it looks like none."""
        if self.keyword in FORMS:
            return self.keyword
        return next(iter(difflib.get_close_matches(self.keyword.lower(), FORMS, n=1)), None)


# How a line that starts with each keyword goes on; a row has as many prices as the text has yards.
FORMS = {
    "method": "method NUMBER",
    "yards": "yards NUMBER",
    "source": "source YARD",
    "destination": "destination YARD",
    "lane": "lane FROM-YARD TO-YARD PRICE",
    "row": "row PRICE PRICE ..",
}

HEADER = ("method", "yards", "source")

NO_EDGE = -1


def unsigned(width):
    """What fits a field of `width` bits."""
    return Range(0, 2**width - 1, f" ({width} bits)")


def signed(width):
    """What fits a field of `width` bits in two's complement."""
    return Range(-(2 ** (width - 1)), 2 ** (width - 1) - 1, f" ({width} bits)")


BIT_FIELDS = Limits(
    method=unsigned(4),
    vertices=unsigned(20),
    edges=unsigned(20),
    source=unsigned(20),
    destination=unsigned(64),
    vertex=unsigned(8),
    weight=signed(32),
    entry=signed(32),
)

# Document 01's own limits, for as long as the number of vertices is not known.
RULES = Limits(
    method=Range(1, 5),
    vertices=Range(1, 32),
    edges=Range(0, 128),
    source=Range(0, 31),
    destination=Range(0, 31),
    vertex=Range(0, 31),
    weight=Range(-100_000_000, 100_000_000),
    entry=Range(NO_EDGE, 100_000_000, " (-1 or - for no lane)"),
)


# Method 4 has a source in its header, but no other than this one.
SOURCE_OF_METHOD_4 = Range(0, 0, " (method 4 gives totals from every yard)")


def limits_for(method, vertices, unchecked):
    """Which numbers a text of this method with so many vertices may give, or one that does not say either."""
    if unchecked:
        return BIT_FIELDS
    limits = RULES
    if vertices is not None:
        below = Range(0, vertices - 1)
        limits = limits._replace(source=below, destination=below, vertex=below)
    return limits._replace(source=SOURCE_OF_METHOD_4) if method == 4 else limits


def is_number(value):
    """Whether this text writes a whole number."""
    return re.fullmatch("-?[0-9]+", value) is not None


def is_short_number(value):
    """Whether this text writes a whole number that a field could take."""
    # No field takes over 20 digits, and Python reads no more than some thousands.
    return is_number(value) and len(value) <= 20


def lines_of(text):
    """The lines that say something."""
    lines = []
    for number, line in enumerate(text.split("\n"), start=1):
        parts = line.partition("#")[0].split()
        if parts:
            lines.append(Line(number, parts[0], parts[1:]))
    return lines


def having(lines, keyword):
    """The lines that have this keyword."""
    return [line for line in lines if line.keyword == keyword]


def known_number(lines, keyword, allowed):
    """The number that the text gives after this keyword, or None if it gives none, one that is not allowed, or several."""
    given = {" ".join(line.values) for line in having(lines, keyword)}
    value = given.pop() if len(given) == 1 else ""
    return int(value) if allowed.takes(value) else None


def form_complaints(lines):
    """Complains of unknown keywords, and of too many or too few values after one."""
    for number, keyword, values in lines:
        form = FORMS.get(keyword)
        if form is None:
            yield Complaint(number, f"unknown word `{keyword}`", "one of " + ", ".join(FORMS))
        elif keyword != "row" and len(values) != len(form.split()) - 1:
            yield Complaint(number, f"wrong number of values after `{keyword}` ({len(values)})", f"`{form}`")


def given_once(method):
    """The keywords that a text of this method gives once, or one whose method is not known."""
    return (*HEADER, "destination") if method == 5 else HEADER


def needed(lines, method):
    """The keywords that the text has to give; in method 4, checked or not, the source may be left out."""
    is_method_4 = known_number(lines, "method", RULES.method) == 4
    return [keyword for keyword in given_once(method) if not (is_method_4 and keyword == "source")]


def repeat_complaints(lines, method):
    """Complains of a keyword that should be given once and was given before."""
    for keyword in given_once(method):
        given = having(lines, keyword)
        for line in given[1:]:
            yield Complaint(line.number, f"`{keyword}` was given on line {given[0].number}", "it once")


def edge_complaints(lines, allowed):
    """Complains of the first edge that is one too many."""
    for line in having(lines, "lane")[allowed.high : allowed.high + 1]:
        yield Complaint(line.number, "one lane too many", f"at most {allowed.high} lanes")


def method_complaints(lines, method):
    """Complains of lines that are not of this method."""
    own, other = ("row", "lane") if method == 2 else ("lane", "row")
    for line in having(lines, other):
        yield Complaint(line.number, f"`{other}` in method {method}", f"`{FORMS[own]}`")
    if method != 5:
        for line in having(lines, "destination"):
            yield Complaint(line.number, f"`destination` in method {method}", "it in method 5 alone")


def known_head(line, allowed):
    """The vertex that an edge's line leads to, or None if the line has another form or gives none that is allowed."""
    if len(line.values) != 3 or not allowed.takes(line.values[1]):
        return None
    return int(line.values[1])


def order_complaints(lines, allowed):
    """Complains of edges that lead to a lower vertex than the edge before them."""
    edges = having(lines, "lane")
    for before, line in zip(edges, edges[1:]):
        least, head = known_head(before, allowed), known_head(line, allowed)
        if least is not None and head is not None and head < least:
            wrong = f"to-yard {head} is below that of the lane before it ({least}, line {before.number})"
            yield Complaint(line.number, wrong, "lanes sorted by to-yard")


def table_complaints(lines, vertices):
    """Complains of the first row that is one too many, and of too many or too few weights in a row."""
    expected = f"{vertices}, one for each yard"
    rows = having(lines, "row")
    for line in rows[vertices : vertices + 1]:
        yield Complaint(line.number, "one row too many", expected)
    for line in rows:
        if len(line.values) != vertices:
            yield Complaint(line.number, f"wrong number of prices in the row ({len(line.values)})", expected)


def fields_of(line, limits):
    """What messages call each value of a line, and which numbers it may be."""
    if line.keyword == "row":
        return [("price", limits.entry)] * len(line.values)
    fields = {
        "method": [("method", limits.method)],
        "yards": [("yards", limits.vertices)],
        "source": [("source", limits.source)],
        "destination": [("destination", limits.destination)],
        "lane": [("from-yard", limits.vertex), ("to-yard", limits.vertex), ("price", limits.weight)],
    }
    return fields.get(line.keyword, [])


def number_complaints(lines, limits):
    """Complains of values that are no numbers, or none of those allowed."""
    for line in lines:
        for (name, allowed), value in zip(fields_of(line, limits), line.values):
            is_no_edge = line.keyword == "row" and value == "-"
            if not is_no_edge and not allowed.takes(value):
                wrong = f"{value} is out of range" if is_number(value) else f"`{value}` is no whole number"
                yield Complaint(line.number, f"{name} {wrong}", allowed)


def missing(lines, method, vertices):
    """Complains, at the last line, of what the text lacks, unless a bad line looks like an attempt at it."""
    last = lines[-1].number if lines else 0
    meant = [line.meant for line in lines]
    for keyword in needed(lines, method):
        if keyword not in meant:
            yield Complaint(last, f"the text has no `{keyword}`", f"a line `{FORMS[keyword]}`")
    rows = meant.count("row")
    # Edges in method 2 were complained of, and stand where the rows should.
    if method == 2 and vertices is not None and rows < vertices and "lane" not in meant:
        yield Complaint(last, f"too few rows ({rows})", f"{vertices}, one for each yard")


def messages_for(lines, unchecked):
    """All that is wrong with the text: of each bad line what is found first, in the order of the text, then what is missing."""
    limits = limits_for(None, None, unchecked)
    vertices = known_number(lines, "yards", limits.vertices)
    # Unchecked, the body is of any method and goes with any number of vertices.
    method = None if unchecked else known_number(lines, "method", limits.method)
    limits = limits_for(method, vertices, unchecked)
    found = chain(
        form_complaints(lines),
        repeat_complaints(lines, method),
        [] if method is None else method_complaints(lines, method),
        edge_complaints(lines, limits.edges),
        [] if unchecked or vertices is None else table_complaints(lines, vertices),
        number_complaints(lines, limits),
        order_complaints(lines, limits.vertex) if method == 3 else [],
    )
    of_line = {}
    for complaint in found:
        of_line.setdefault(complaint.number, complaint)
    messages = [str(of_line[number]) for number in sorted(of_line)]
    return messages + [f"after {complaint}" for complaint in missing(lines, method, vertices)]


def pack(*fields):
    """The word of these (value, width) fields, the first in the most significant bits; negative values in two's complement."""
    word = 0
    for value, width in fields:
        word = word << width | value % 2**width
    return word


def header_word(lines):
    """The word of the header, which counts the edges; a source that is left out is 0."""
    given = {line.keyword: int(line.values[0]) for line in lines if line.keyword in HEADER}
    edges = len(having(lines, "lane"))
    return pack((given["method"], 4), (given["yards"], 20), (edges, 20), (given.get("source", 0), 20))


def edge_word(line):
    """The word of a `lane` line."""
    tail, head, weight = map(int, line.values)
    return pack((tail, 8), (head, 8), (0, 16), (weight, 32))


def row_words(line):
    """The words of a `row` line, one for each of its weights."""
    weights = [NO_EDGE if value == "-" else int(value) for value in line.values]
    return [pack((0, 32), (weight, 32)) for weight in weights]


def body_words(lines):
    """The words after the header, in the order of the text, but destinations last."""
    words = []
    for line in lines:
        if line.keyword == "lane":
            words.append(edge_word(line))
        elif line.keyword == "row":
            words.extend(row_words(line))
    return words + [int(line.values[0]) for line in having(lines, "destination")]


def request_words(text, unchecked=False):
    """The words of the request that the text describes."""
    lines = lines_of(text)
    messages = messages_for(lines, unchecked)
    if messages:
        raise BadText(messages)
    return [header_word(lines)] + body_words(lines)


def name_of(file):
    """The file as messages name it."""
    return "standard input" if file == "-" else file


def read_text(file):
    """The text of the file, or of standard input."""
    is_input = file == "-"
    try:
        with open(0 if is_input else file, "rb", closefd=not is_input) as origin:
            return origin.read().decode("utf-8-sig", errors="replace")
    except OSError as error:
        raise BadFile(f"{name_of(file)}: cannot be read: {error.strerror}") from error


def write_bytes(data, file):
    """Writes to the file, or to standard output when there is none."""
    try:
        with open(1 if file is None else file, "wb", closefd=file is not None) as sink:
            sink.write(data)
    except OSError as error:
        raise BadFile(f"{'standard output' if file is None else file}: cannot be written: {error.strerror}") from error


def encoded(words, as_text):
    """The words as bytes, eight each, or as text, a line of hexadecimal digits each."""
    if as_text:
        return "".join(f"{word:016X}\n" for word in words).encode("ascii")
    return b"".join(word.to_bytes(8, "big") for word in words)


class Parser(argparse.ArgumentParser):
    """A parser whose help is written as a request is, and complained of where it cannot be."""

    def print_help(self, file=None):
        write_bytes(self.format_help().encode(), None)


def parse_arguments(arguments):
    """The command line's options."""
    parser = Parser(
        prog="request.py",
        description=DESCRIPTION,
        epilog=TEXT_FORMAT,
        formatter_class=argparse.RawDescriptionHelpFormatter,
    )
    parser.add_argument("file", metavar="FILE", nargs="?", default="-", help="the text; standard input if - or left out")
    parser.add_argument("-o", dest="output", metavar="FILE", help="write to this file, not to standard output")
    parser.add_argument("--hex", action="store_true", help="write the words in hexadecimal, one a line")
    parser.add_argument("--unchecked", action="store_true", help="test only that each number fits its bit field")
    return parser.parse_args(arguments)


def main(arguments=None):
    """Writes the request and returns 0, or says all that is wrong and returns 1."""
    try:
        options = parse_arguments(arguments)
        words = request_words(read_text(options.file), options.unchecked)
        write_bytes(encoded(words, options.hex), options.output)
        return 0
    except BadText as error:
        messages = [f"{name_of(options.file)}: {message}" for message in error.messages]
    except BadFile as error:
        messages = [str(error)]
    for message in messages:
        print(f"request.py: {message}", file=sys.stderr)
    return 1


if __name__ == "__main__":
    signal.signal(signal.SIGPIPE, signal.SIG_DFL)
    sys.exit(main())
