"""Compares the desk's program with the model on words with chosen faults.

Every combination of a lane's faults and of a table word's, in the first, a
middle and the last word of a request whose other words are without a fault.  In
method 5 each of them with destinations that are right and wrong.  What is
printed is also told here, from the combination alone: the first fault in the
order of the rules, with the word's place.

Then requests without lanes from sources that are right and wrong, which in
method 4 is every source but 0.

Then requests just within the desk's bank and log and just beyond, each without
a fault and with one in its last word, which is told where the buffers are
enough.

Then requests of method 5 along a row of lanes through all yards, from each yard
to each, whose routes are told here as well.
"""

import sys
from itertools import product
from pathlib import Path

sys.path.insert(0, str(Path(__file__).resolve().parents[1] / "model"))

import model
from model import Header, Refusal
from program import printed, to_bytes

TO_YARD_1 = 1 << 48
SPARE_BIT = 1 << 32

# The faults of a word in the order in which they are told: number, right, wrong.
# A lane that is not sorted has a to-yard of 0 after a lane to yard 1.
LANE = ((10, 0, 0x8000 << 32), (13, 1 << 56, 2 << 56),
        (14, TO_YARD_1, 2 * TO_YARD_1), (11, 100_000_000, 100_000_001))
ENTRY = ((10, 0, 1 << 63), (11, 0xFFFFFFFF, 0xFFFFFFFE))
SORTED_LANE = (*LANE, (15, 0, -TO_YARD_1))
DESTINATIONS = 0, 1, 2, 3, 1 << 32, 1 << 63, (1 << 64) - 1
ROW_YARDS = 1, 2, 3, 7
SOURCES = 0, 1, 2, 3, 6, 7, 1 << 8, (1 << 20) - 1

# Method, yards, lanes and, if any, the number told of the desk's buffers.
SIZES = ((1, 2, 128, None), (1, 3, 102, None), (1, 3, 103, 7),
         (2, 16, 0, None), (2, 17, 0, 7),
         (3, 2, 128, None), (3, 3, 116, None), (3, 3, 117, 6),
         (3, 4, 93, None), (3, 4, 94, 7), (3, 4, 96, 7), (3, 4, 97, 6),
         (3, 32, 1, None), (3, 32, 15, 7), (3, 32, 16, 6), (3, 32, 128, 6),
         (4, 2, 128, None), (4, 3, 128, None), (4, 4, 109, None),
         (4, 4, 110, 7), (4, 13, 1, None), (4, 13, 2, 7), (4, 14, 1, 7),
         (4, 26, 128, 7), (4, 27, 124, 7), (4, 27, 125, 6), (4, 32, 21, 7),
         (4, 32, 22, 6), (4, 32, 128, 6),
         (5, 2, 128, None), (5, 3, 93, None), (5, 3, 94, 7), (5, 26, 1, None),
         (5, 27, 1, 7), (5, 32, 0, None), (5, 32, 1, 7), (5, 32, 128, 7))


def possible(numbers, place):
    """Whether the word at a place can have all these faults.

    Only a to-yard that is there is below another, and only after a first lane.
    """
    return 15 not in numbers or (14 not in numbers and place > 0)


def faulty_words(fields, place):
    """The word of each combination of faults, and the refusal that is told."""
    for chosen in product((False, True), repeat=len(fields)):
        word = sum(wrong if bad else right
                   for bad, (_, right, wrong) in zip(chosen, fields))
        told = [field[0] for bad, field in zip(chosen, fields) if bad]
        if possible(told, place):
            yield word, Refusal(told[0], place) if told else None


def with_destinations(header, lanes, refusal):
    """A request's lanes with each destination, and its refusal, if any."""
    for destination in DESTINATIONS:
        wrong = Refusal(16) if destination >= header.yards else None
        yield header, [*lanes, destination], refusal or wrong


def faulty_requests():
    """Each request with a combination of faults, and its refusal, if any."""
    for header, fields in ((Header(1, 2, 4, 0), LANE),
                           (Header(2, 2, 0, 0), ENTRY),
                           (Header(3, 2, 4, 0), SORTED_LANE),
                           (Header(4, 2, 4, 0), LANE),
                           (Header(5, 2, 4, 0), LANE)):
        other = 0 if fields is ENTRY else TO_YARD_1
        for place in (0, 2, 3):
            for word, refusal in faulty_words(fields, place):
                words = [other if at + 1 >= place else 0 for at in range(4)]
                words[place] = word
                if header.method == 5:
                    yield from with_destinations(header, words, refusal)
                else:
                    yield header, words, refusal


def sourced_requests():
    """Each request from a chosen source, and its refusal, if any."""
    for method, n, source in product(model.METHODS, ROW_YARDS, SOURCES):
        header = Header(method, n, 0, source)
        wrong = source > 0 if method == 4 else source >= n
        yield (header, [0] * model.words_expected(header),
               Refusal(4) if wrong else None)


def routed_requests():
    """Each request along a row of lanes, and the last line that is printed.

    Lane i leads from yard i to yard i+1, so the lanes before the destination
    are shown, down to the source's; to a yard before the source there is none.
    """
    for n in ROW_YARDS:
        lanes = [v << 56 | (v + 1) << 48 | 5 for v in range(n - 1)]
        for source, destination in product(range(n), repeat=2):
            shown = reversed(range(source, destination))
            yield (Header(5, n, n - 1, source), [*lanes, destination],
                   " ".join(["route", *map(str, shown)]))


def sized_requests():
    """Each request of a chosen size, and its refusal, if any."""
    for *public, number in SIZES:
        header = Header(*public, 0)
        count = model.words_expected(header)
        too_large = Refusal(number) if number else None
        wrong = Refusal(16) if header.method == 5 else Refusal(10, count - 1)
        yield header, [0] * count, too_large
        yield header, [0] * (count - 1) + [SPARE_BIT], too_large or wrong


def last_lines():
    """Each request, and the last line that is told of it here, if any.

    The one line of a refusal is its last.
    """
    for header, words, refusal in (*faulty_requests(), *sourced_requests(),
                                   *sized_requests()):
        yield header, words, refusal and model.refusal_line(refusal)
    yield from routed_requests()


def main(program):
    count = 0
    for header, words, last in last_lines():
        sent = to_bytes((model.join_header(header), *words))
        lines = printed(program, sent)
        told = model.desk_lines(sent)
        if lines != told or (last and lines[-1] != last):
            sys.exit(f"desk: {sent.hex()}\n  model:   {told}\n  program: {lines}")
        count += 1
    print(f"desk: {count} requests with chosen faults, sources, sizes and "
          "routes agree")


if __name__ == "__main__":
    main(*sys.argv[1:])
