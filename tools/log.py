#!/usr/bin/env python3
"""Lists a plan or a log as instructions, and compares two logs (document 01, "Cell words").

A log is the header word and then every word carried out, each OPEN followed by the published cell as one word. A plan is the
same without the published cells.
"""

import argparse
import codecs
import os
import re
import signal
import struct
import sys
from itertools import islice
from typing import NamedTuple

DESCRIPTION = """\
Lists a plan or a log of the cell machine as instructions, or compares two
logs. A file holds words of eight bytes, most significant byte first; with
--hex it is a text of words of 16 hexadecimal digits, with blanks or line ends
between them. The file - is standard input."""

LISTING_FORMAT = """\
`list` prints a line a word: its place (the header's is 0), the word, and what
it says. [k] is cell k.

  header method=1 yards=2 lanes=1 source=0
  SET [d] <- number        the number, written out
  COPY [d] <- [a]
  ADD [d] <- [a] + [b]
  LESS [d] <- [a] < [b]    1 if so, else 0
  EQUAL [d] <- [a] = [b]   1 if so, else 0
  BOTH [d] <- [a] and [b]  1 if neither is 0, else 0
  MOVEIF [d] <- [b] if [a]
  OPEN [a]                 and in a log the word after it:
  published 0              the cell that was opened
  no instruction: op 9 is over 7

A field that should be zero and is not is named at the end of its line. How
many cells there are is not known here, so addresses are not tested. After the
words comes a line `rounds N`, the greatest depth of a word that is carried out.
A word's depth is the greatest of the cells that it reads, plus the rounds of
its op, and the cell that it writes takes it; cells start at depth 0. A word
that is no instruction would end the run, so only those before it count."""

COMPARISON_FORMAT = """\
`compare` prints `equal, N words`, exit status 0, or the first place at which A
and B differ, in the header, an operation, a published word or only in length,
with both words as `list` shows them, exit status 1."""

BAD_INPUT = """\
Bad input is said on standard error with the name of the file, exit status 2: a
file that cannot be read, a last word of fewer than eight bytes, with --hex
anything but words of 16 digits, and for `compare` one file, or standard input,
as both A and B. So is a standard output that cannot be written.

Hexadecimal text without --hex is bad input too, for its bytes would pass for
words: a file of nothing but hexadecimal digits, blanks and line ends is taken
for such text. The log of a request never looks so, since its second byte is 0
(yards are at most 32). The log of a foreign plan could, if it has another
header than a request's: --bytes reads whatever there is as bytes.

A file without words is bad input too: it is what a command that failed leaves
behind. The one log that is empty, that of an empty foreign plan, has nothing
to list or to compare."""

HEADER, OPERATION, PUBLISHED = "the header", "an operation", "a published word"


class BadInput(Exception):
    """A file that does not hold words."""


class BadOutput(Exception):
    """Standard output that cannot be written."""


class Operation(NamedTuple):
    """A row of the table of operations: rounds, the fields whose cells it reads, how it is listed, the fields that are zero."""

    rounds: int
    reads: str
    form: str
    zeros: str = ""


OPERATIONS = (
    Operation(1, "", "SET [{d}] <- {number}"),
    Operation(0, "a", "COPY [{d}] <- [{a}]", zeros="b"),
    Operation(0, "ab", "ADD [{d}] <- [{a}] + [{b}]"),
    Operation(6, "ab", "LESS [{d}] <- [{a}] < [{b}]"),
    Operation(6, "ab", "EQUAL [{d}] <- [{a}] = [{b}]"),
    Operation(1, "ab", "BOTH [{d}] <- [{a}] and [{b}]"),
    Operation(1, "abd", "MOVEIF [{d}] <- [{b}] if [{a}]"),
    Operation(1, "a", "OPEN [{a}]", zeros="db"),
)
OPEN = 7


def op_of(word):
    """The op of an operation word."""
    return word >> 60


def split(word):
    """The four fields of a header or operation word: 4, 20, 20 and 20 bits, the most significant first."""
    field = 2**20 - 1
    return op_of(word), word >> 40 & field, word >> 20 & field, word & field


def signed(value, width):
    """The number that the lowest `width` bits stand for in two's complement."""
    return value - 2**width if value >> (width - 1) else value


def roles(words, is_plan):
    """What each word is: the header, an operation, or the cell that the OPEN before it published."""
    role = HEADER
    for word in words:
        yield role
        opens = role == OPERATION and op_of(word) == OPEN
        role = PUBLISHED if opens and not is_plan else OPERATION


def header_text(word):
    """A header as it is listed."""
    method, vertices, edges, source = split(word)
    return f"header method={method} yards={vertices} lanes={edges} source={source}"


def operation_text(word):
    """An operation as it is listed, with a remark on each field that should be zero and is not."""
    op, d, a, b = split(word)
    if op >= len(OPERATIONS):
        return f"no instruction: op {op} is over 7"
    operation = OPERATIONS[op]
    fields = {"d": d, "a": a, "b": b}
    remarks = [f" ({name} is {fields[name]}, expected 0)" for name in operation.zeros if fields[name]]
    return operation.form.format(number=signed(a << 20 | b, 40), **fields) + "".join(remarks)


def word_text(word, role):
    """A word as it is listed: in hexadecimal, and what it says."""
    if role == HEADER:
        meaning = header_text(word)
    elif role == PUBLISHED:
        meaning = f"published {signed(word, 64)}"
    else:
        meaning = operation_text(word)
    return f"{word:016X}  {meaning}"


def rounds_of(words, is_plan):
    """The greatest depth of a word that is carried out, 0 if there is none; they end before a word that is no instruction."""
    depths, rounds = {}, 0
    for word, role in zip(words, roles(words, is_plan)):
        if role != OPERATION:
            continue
        op, d, a, b = split(word)
        if op >= len(OPERATIONS):
            break
        fields = {"d": d, "a": a, "b": b}
        read = (depths.get(fields[name], 0) for name in OPERATIONS[op].reads)
        depth = max(read, default=0) + OPERATIONS[op].rounds
        if op != OPEN:
            depths[d] = depth
        rounds = max(rounds, depth)
    return rounds


def listing_lines(words, is_plan):
    """A line for each word, and then the rounds."""
    for place, (word, role) in enumerate(zip(words, roles(words, is_plan))):
        yield f"{place:7}  {word_text(word, role)}"
    yield f"rounds {rounds_of(words, is_plan)}"


def first_difference(first, second):
    """The lowest place at which the two differ or one has ended, or None when they are equal."""
    for place, (left, right) in enumerate(zip(first, second)):
        if left != right:
            return place
    return None if len(first) == len(second) else min(len(first), len(second))


def comparison_lines(first, second, place, is_plan):
    """That the two are equal, if they differ at no place, else where and in what they first differ."""
    if place is None:
        yield f"equal, {len(first)} words"
        return
    # Up to this place the two are equal, so the word there has the same role in both.
    role = next(islice(roles(max(first, second, key=len), is_plan), place, None))
    one_ended = place in (len(first), len(second))
    yield f"differ at place {place}, {'only in length' if one_ended else f'in {role}'}"
    for name, words in (("A", first), ("B", second)):
        yield f"{name}  {word_text(words[place], role) if place < len(words) else f'ends after {place} words'}"


def looks_like_text(data):
    """Whether these are hexadecimal digits and blanks alone; the header of a request has a byte 0 and so never looks so."""
    return re.fullmatch(rb"[0-9A-Fa-f\s]+", data.removeprefix(codecs.BOM_UTF8)) is not None


def words_of_bytes(data):
    """The words of a file of eight bytes each."""
    if len(data) % 8:
        raise BadInput(f"{len(data)} bytes, expected a multiple of 8")
    return struct.unpack(f">{len(data) // 8}Q", data)


def shown(text):
    """The text as a message quotes it: its first 20 characters, the bytes in hexadecimal for those that do not print."""
    start = ""
    for sign in text[:20]:
        escaped = (f"\\x{byte:02x}" for byte in sign.encode(errors="surrogateescape"))
        start += sign if sign.isprintable() else "".join(escaped)
    return start if len(text) <= 20 else start + ".."


def words_of_text(text):
    """The words of a text of hexadecimal digits."""
    words = []
    for number, line in enumerate(text.split("\n"), start=1):
        for digits in line.split():
            if not re.fullmatch("[0-9A-Fa-f]{16}", digits):
                raise BadInput(f"line {number}: `{shown(digits)}` is no word, expected 16 hexadecimal digits")
            words.append(int(digits, 16))
    return words


def words_in(data, form):
    """The words of a file in this form, `hex` or `bytes`; with no form told they are bytes that do not look like text."""
    if form == "hex":
        words = words_of_text(data.decode("utf-8-sig", errors="surrogateescape"))
    elif form is None and looks_like_text(data):
        raise BadInput("looks like hexadecimal text: --hex reads it (or --bytes, if it is a log of bytes all the same)")
    else:
        words = words_of_bytes(data)
    if not words:
        raise BadInput("empty, expected at least a header word")
    return words


def name_of(file):
    """The file as messages name it."""
    return "standard input" if file == "-" else file


def opened_by(file):
    """What opens the file: its name, or standard input's descriptor."""
    return 0 if file == "-" else file


def read_words(file, form):
    """The words that the file holds, or standard input; complaints begin with its name."""
    try:
        with open(opened_by(file), "rb", closefd=file != "-") as origin:
            return words_in(origin.read(), form)
    except OSError as error:
        raise BadInput(f"{name_of(file)}: cannot be read: {error.strerror}") from error
    except BadInput as error:
        raise BadInput(f"{name_of(file)}: {error}") from error


def same_file(first, second):
    """Whether the two names are of one file; of a file that is not there, reading it will complain."""
    try:
        return os.path.samefile(opened_by(first), opened_by(second))
    except OSError:
        return False


def read_pair(first, second, form):
    """The words of each of two files, which have to be two: a file always equals itself."""
    if same_file(first, second):
        raise BadInput(f"{name_of(second)}: A and B are both this file, expected two files")
    return read_words(first, form), read_words(second, form)


def write_lines(lines):
    """Writes to standard output."""
    try:
        with open(1, "w", encoding="utf-8", closefd=False) as sink:
            sink.writelines(f"{line}\n" for line in lines)
    except OSError as error:
        raise BadOutput(f"standard output: cannot be written: {error.strerror}") from error


class Parser(argparse.ArgumentParser):
    """A parser whose help is written as a listing is, and complained of where it cannot be."""

    def print_help(self, file=None):
        write_lines(self.format_help().splitlines())


def parse_arguments(arguments):
    """The command line's options."""
    layout = argparse.RawDescriptionHelpFormatter
    common = argparse.ArgumentParser(add_help=False)
    form = common.add_mutually_exclusive_group()
    form.add_argument(
        "--hex", dest="form", action="store_const", const="hex", help="the words are hexadecimal text, not bytes"
    )
    form.add_argument(
        "--bytes", dest="form", action="store_const", const="bytes", help="the words are bytes, even if they look like text"
    )
    common.add_argument("--plan", action="store_true", help="what is read is a plan, not a log: it has no published words")

    parser = Parser(
        prog="log.py",
        description=DESCRIPTION,
        epilog=f"{LISTING_FORMAT}\n\n{COMPARISON_FORMAT}\n\n{BAD_INPUT}",
        formatter_class=layout,
    )
    commands = parser.add_subparsers(dest="command", metavar="list | compare", required=True)
    listing = commands.add_parser(
        "list",
        parents=[common],
        help="list a plan or a log",
        epilog=f"{LISTING_FORMAT}\n\n{BAD_INPUT}",
        formatter_class=layout,
    )
    listing.add_argument("file", metavar="FILE", help="the plan or the log; standard input if -")
    comparison = commands.add_parser(
        "compare",
        parents=[common],
        help="compare two logs",
        epilog=f"{COMPARISON_FORMAT}\n\n{BAD_INPUT}",
        formatter_class=layout,
    )
    comparison.add_argument("first", metavar="A", help="a log; standard input if -")
    comparison.add_argument("second", metavar="B", help="another log; standard input if -")
    return parser.parse_args(arguments)


def complain(error):
    """Says what is wrong on standard error."""
    try:
        print(f"log.py: {error}", file=sys.stderr)
    except OSError:
        # Python would try once more at the end, and take an exit status of its own.
        sys.stderr = None


def main(arguments=None):
    """Does what the command line asks and returns the exit status."""
    try:
        options = parse_arguments(arguments)
        if options.command == "list":
            write_lines(listing_lines(read_words(options.file, options.form), options.plan))
            return 0
        first, second = read_pair(options.first, options.second, options.form)
        place = first_difference(first, second)
        write_lines(comparison_lines(first, second, place, options.plan))
        return 0 if place is None else 1
    except (BadInput, BadOutput) as error:
        complain(error)
        return 2


if __name__ == "__main__":
    signal.signal(signal.SIGPIPE, signal.SIG_DFL)
    sys.exit(main())
