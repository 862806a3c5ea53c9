"""Compares both listings of the desk's program with the model.

Networks of every method are drawn, and each is sent without an argument and
with `all`.  Which yards a walk leads to is found here once more, by following
the lanes and without a price: those and no others are listed without an
argument, in method 4 those from each yard.  The other listing has the same
lines in the same order, and besides one for each other yard, which ends in two
dashes, or in method 4 for each other pair, which ends in one.  A refusal is the
same in both.

Then the printed case of an unreached yard is sent with arguments of every kind,
in methods 1 and 4.
"""

import random
import sys
from itertools import product
from pathlib import Path

sys.path.insert(0, str(Path(__file__).resolve().parents[1] / "model"))

import model
import network
from network import Network
from program import printed, to_bytes

NETWORKS = 750
MOST_YARDS = 12
MOST_LANES = 20
SEED = 6

# The printed case of an unreached yard: to yard 2 there is no lane.  By method,
# the lines of both listings.
APART = Network(1, 3, 0, [(0, 1, -5)])
APART_LISTED = {
    1: ["1 3 1 0 46 0", "0 0 -", "1 -5 0"],
    4: ["4 3 1 0 44 0", "0 0 0", "0 1 -5", "1 1 0", "2 2 0"],
}
APART_ALL_LISTED = {
    1: ["1 3 1 0 46 0", "0 0 -", "1 -5 0", "2 - -"],
    4: ["4 3 1 0 44 0", "0 0 0", "0 1 -5", "0 2 -", "1 0 -", "1 1 0", "1 2 -",
        "2 0 -", "2 1 -", "2 2 0"],
}

# Arguments, the first of which is looked at, and whether they list every yard.
ARGUMENTS = (((), False), (("",), False), (("", "all"), False),
             (("all",), True), (("all", "all"), True), (("all", "x"), True),
             (("x", "all"), False), (("al",), False), (("alll",), False),
             (("a",), False), (("ALL",), False), (("All",), False),
             (("all ",), False), ((" all",), False), (("all\n",), False),
             (("aal",), False), (("lla",), False), (("alk",), False),
             (("--all",), False), (("allall",), False),
             (("al\u0142",), False), (("all" * 10_000,), False))


def draw(draws):
    """A network; in more than half of them a yard is unreached."""
    method = draws.choice(list(model.METHODS))
    n = draws.randint(1, MOST_YARDS)
    ends = [(draws.randrange(n), draws.randrange(n))
            for _ in range(draws.randint(0, MOST_LANES))]
    if method == 2:
        lanes = [(*pair, draws.randint(0, 3)) for pair in sorted(set(ends))]
    else:
        lanes = [(*pair, draws.randint(-1, 9)) for pair in ends]
    if method == 3:
        lanes.sort(key=lambda lane: lane[1])
    destination = draws.randrange(n) if method == 5 else None
    source = draws.randrange(model.sources_of(method, n))
    return Network(method, n, source, lanes, destination)


def reached(lanes, source):
    """The yards that a walk from the source leads to."""
    found, left = {source}, [source]
    while left:
        u = left.pop()
        onward = {target for origin, target, _ in lanes if origin == u}
        left += onward - found
        found |= onward
    return found


def reached_and_others(drawn):
    """The yards that a walk leads to and the others, both in their order.

    In method 4 the pairs of yards that a walk joins and the others, by rows.
    """
    yards, lanes = range(drawn.yards), drawn.lanes
    if drawn.method == 4:
        found = {(u, v) for u in yards for v in reached(lanes, u)}
        return sorted(found), sorted(set(product(yards, yards)) - found)
    found = {(v,) for v in reached(lanes, drawn.source)}
    return sorted(found), sorted(set(product(yards)) - found)


def yards_of(drawn, lines):
    """The yard that each of these lines is of, in method 4 the pair."""
    count = 2 if drawn.method == 4 else 1
    return [tuple(map(int, line.split()[:count])) for line in lines]


def is_right(drawn, listed, all_listed):
    """Whether the listings are of the yards that they should be of."""
    if listed[0].startswith("refused"):
        return listed == all_listed
    ending = " -" if drawn.method == 4 else " - -"
    others = [line for line in all_listed if line.endswith(ending)]
    shown = [line for line in listed[1:] if not line.startswith("route")]
    return (listed == [line for line in all_listed if line not in others]
            and (yards_of(drawn, shown), yards_of(drawn, others))
            == reached_and_others(drawn))


def main(program):
    draws = random.Random(SEED)
    some_left_out = 0
    for _ in range(NETWORKS):
        drawn = draw(draws)
        sent = to_bytes(network.request_words(drawn))
        listings = printed(program, sent), printed(program, sent, "all")
        told = model.desk_lines(sent), model.desk_lines(sent, "all")
        if listings != told or not is_right(drawn, *listings):
            sys.exit(f"desk: {sent.hex()}\n  model:   {told}\n"
                     f"  program: {listings}")
        some_left_out += listings[0] != listings[1]
    if not NETWORKS // 4 < some_left_out < NETWORKS * 3 // 4:
        sys.exit("desk: too few or too many listings leave a yard out")
    for method, (arguments, every_yard) in product(APART_LISTED, ARGUMENTS):
        sent = to_bytes(network.request_words(APART._replace(method=method)))
        lines = printed(program, sent, *arguments)
        expected = APART_ALL_LISTED if every_yard else APART_LISTED
        if lines != expected[method]:
            sys.exit(f"desk: arguments {arguments}\n  program: {lines}")
    print(f"desk: both listings of {NETWORKS} networks agree, "
          f"{some_left_out} with yards left out; "
          f"{len(ARGUMENTS)} arguments are taken as they should be")


if __name__ == "__main__":
    main(*sys.argv[1:])
