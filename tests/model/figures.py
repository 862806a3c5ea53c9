"""The expected figures of the larger networks.

Prints a block for each of thirteen cases.  The first line of a block is

    method yards lanes source rounds length verdict checksum

where length counts the log's words and the checksum goes over them in order:
s starts at 0 and becomes (s * 31 + w) mod 1000000007, w being the word read as
an unsigned number, mod 1000000007.  With verdict 0 a line `yard distance
parent` follows for each yard, `-` for an unreached yard's distance and for no
parent, and in method 5 then a line `route` with the numbers of the lanes shown.
In method 4 it is a line `from to distance` for each pair of yards by rows, with
from the row, `-` for the distance of a pair without a walk.  With verdict 1
nothing follows.

The rule of the networks.  Division drops the remainder; neither it nor mod
meets a negative number, and nothing exceeds 62 bits.  A negative price goes
into its word in two's complement: price + 2^32.  Each case has its own draws,
beginning with x = its seed:

    draw(K):  x = (x * 1103515245 + 12345) mod 2147483648
              answer (x / 65536) mod K

Draws are made in the order in which they are written below, and only where
they are written.  All cases have 32 yards, numbered v; those of methods 1 and 4
have 60 lanes, those of method 3 have 128, those of method 5 have 59, numbered i
and built upward from 0.

Case a: method 1, source 0, seed 252.
    h(v)  = (373 * v + 500) mod 1009
    i < 31:   from = 30 - i, to = 31 - i, base = draw(30)
    i >= 31:  from = draw(32), to = draw(32), base = draw(400)
    price = base + h(to) - h(from)

Case b: method 1, source 0, seed 2.  The same h and price.
    i < 31:   from = 30 - i, to = 31 - i, base = 0
    i < 59:   from = draw(32), to = draw(32), base = 1 + draw(400)
    i = 59:   from = 31, to = 0, base = -1

Case c: method 1, source 5, seed 110.
    h(v)  = ((v / 3) * 7) mod 11
    i < 12:   from = i, to = i + 1, but i - 2 where i mod 3 is 2; base = 0
              price = base + h(to) - h(from), which is 0
    i >= 12:  from = draw(32)
              from < 24:   to = draw(24), base = draw(3)
                           price = base + h(to) - h(from)
              from >= 24:  to = draw(32), price = -1 - draw(3)

Case d: method 2, source 0, seed 4.  The table by rows, u the row (from-yard)
and v the column (to-yard), both draws made for every entry:
    e = draw(8), p = draw(1000)
    price = p if e = 0 and (u >= 28 or v < 28), else -1 (no lane)

Case e: method 2, source 31, seed 5.  By rows as in case d:
    g = u - v where u > v, else v - u
    price = g * g + draw(4)

Case f: method 3, source 0, seed 577.  The h and price of case a; to = i / 4.
    i mod 4 = 0:  from = to - 1, but 31 where to is 0; base = draw(30)
    else:         from = draw(32), base = 100 + draw(400)

Case g: method 3, source 0, seed 2.  The same h, price and to.
    i mod 4 = 0:  from = to - 1, but 31 where to is 0; base = 0, but -1 there
    else:         from = draw(32), base = 1 + draw(400)

Case h: method 3, source 5, seed 282.  The h of case c.
    i < 96:   to = i / 4
              i mod 4 = 0:  from = to - 1, but to + 2 where to mod 3 is 0
                            base = 0
                            price = base + h(to) - h(from), which is 0
              else:         from = draw(32)
                            from < 24:   base = draw(3)
                                         price = base + h(to) - h(from)
                            from >= 24:  price = -1 - draw(3)
    i >= 96:  to = 24 + (i - 96) / 8 * 2, from = 24 + draw(8)
              price = -1 - draw(3)

Case i: method 5, source 0, seed 1000, destination 31.  Lanes as in case a.

Case j: method 5, source 0, seed 2, destination 31.  Lanes as in case b, with 58
in place of 59.

Case k: method 5, source 5, seed 940, destination 10.  Lanes as in case c.

Case l: method 4, source 0, seed 1000.  Lanes as in case a.

Case m: method 4, source 0, seed 7.  The h and price of case a.
    i < 30:   from = 30 - i, to = 31 - i, base = 0
    i < 59:   from = 1 + draw(31), to = 1 + draw(31), base = 1 + draw(400)
    i = 59:   from = 31, to = 1, base = -1
"""

from functools import partial

import model
import network

YARDS = 32
LANES = {1: 60, 3: 128, 4: 60, 5: 59}
CHECKSUM_FACTOR = 31
CHECKSUM_MODULUS = 1_000_000_007


class Draws:
    """The draws of one case."""

    def __init__(self, seed):
        self.x = seed

    def below(self, k):
        """The next draw, a number below k."""
        self.x = (self.x * 1103515245 + 12345) % 2147483648
        return self.x // 65536 % k


def raised(height, origin, target, base):
    """A lane whose price is its base and the heights' difference.

    Heights cancel out along a closed walk, so its total is that of its bases.
    """
    return origin, target, base + height(target) - height(origin)


def steep(v):
    """The height of a yard in cases a, b, f, g, i, j, l and m."""
    return (373 * v + 500) % 1009


def stepped(v):
    """The height of a yard in cases c, h and k, the same for every three."""
    return v // 3 * 7 % 11


def lane_of_case_a(draws, i):
    """A chain in falling order, then lanes anywhere; no loss circle."""
    if i < YARDS - 1:
        return raised(steep, 30 - i, 31 - i, draws.below(30))
    origin, target = draws.below(YARDS), draws.below(YARDS)
    return raised(steep, origin, target, draws.below(400))


def lane_of_case_b(draws, i, last):
    """A loss circle of total -1 through every yard, and no other."""
    if i < YARDS - 1:
        return raised(steep, 30 - i, 31 - i, 0)
    if i == last:
        return raised(steep, 31, 0, -1)
    origin, target = draws.below(YARDS), draws.below(YARDS)
    return raised(steep, origin, target, 1 + draws.below(400))


def reached_or_rebate(draws, origin, target):
    """A lane between yards that are reached, or a rebate from another yard."""
    if origin < 24:
        return raised(stepped, origin, target, draws.below(3))
    return origin, target, -1 - draws.below(3)


def lane_of_case_c(draws, i):
    """Circles of price 0, ties, and eight unreached yards full of rebates."""
    if i < 12:
        return raised(stepped, i, i - 2 if i % 3 == 2 else i + 1, 0)
    origin = draws.below(YARDS)
    target = draws.below(24 if origin < 24 else YARDS)
    return reached_or_rebate(draws, origin, target)


def price_of_case_d(draws, u, v):
    """A price for about one entry in eight; four yards are never entered."""
    entry, price = draws.below(8), draws.below(1000)
    return price if entry == 0 and (u >= 28 or v < 28) else -1


def price_of_case_e(draws, u, v):
    """A price for every entry, dear for long lanes, so that walks tie."""
    gap = abs(u - v)
    return gap * gap + draws.below(4)


def lane_of_case_f(draws, i):
    """A circle through all yards, and to each three lanes from anywhere."""
    target = i // 4
    if i % 4 == 0:
        return raised(steep, (target + 31) % YARDS, target, draws.below(30))
    origin = draws.below(YARDS)
    return raised(steep, origin, target, 100 + draws.below(400))


def lane_of_case_g(draws, i):
    """The same circle with a loss of 1, and no other."""
    target = i // 4
    if i % 4 == 0:
        return raised(steep, (target + 31) % YARDS, target, -(target == 0))
    origin = draws.below(YARDS)
    return raised(steep, origin, target, 1 + draws.below(400))


def lane_of_case_h(draws, i):
    """As case c, sorted; to four of the unreached yards there is no lane."""
    if i >= 96:
        return reached_or_rebate(draws, 24 + draws.below(8),
                                 24 + (i - 96) // 8 * 2)
    target = i // 4
    if i % 4 == 0:
        origin = target + 2 if target % 3 == 0 else target - 1
        return raised(stepped, origin, target, 0)
    return reached_or_rebate(draws, draws.below(YARDS), target)


def lane_of_case_m(draws, i):
    """A loss circle of total -1 through every yard but 0, and no other."""
    if i < YARDS - 2:
        return raised(steep, 30 - i, 31 - i, 0)
    if i == 59:
        return raised(steep, 31, 1, -1)
    origin, target = 1 + draws.below(31), 1 + draws.below(31)
    return raised(steep, origin, target, 1 + draws.below(400))


def lane_network(method, source, seed, lane_of, destination=None):
    """A network whose lanes follow a case's rule."""
    draws = Draws(seed)
    lanes = [lane_of(draws, i) for i in range(LANES[method])]
    return network.Network(method, YARDS, source, lanes, destination)


def table_network(source, seed, price_of):
    """A network of method 2 whose table follows a case's rule."""
    draws = Draws(seed)
    table = [(u, v, price_of(draws, u, v))
             for u in range(YARDS) for v in range(YARDS)]
    lanes = [lane for lane in table if lane[2] != -1]
    return network.Network(2, YARDS, source, lanes)


def networks():
    """The networks of the thirteen cases in order."""
    return [lane_network(1, 0, 252, lane_of_case_a),
            lane_network(1, 0, 2, partial(lane_of_case_b, last=59)),
            lane_network(1, 5, 110, lane_of_case_c),
            table_network(0, 4, price_of_case_d),
            table_network(31, 5, price_of_case_e),
            lane_network(3, 0, 577, lane_of_case_f),
            lane_network(3, 0, 2, lane_of_case_g),
            lane_network(3, 5, 282, lane_of_case_h),
            lane_network(5, 0, 1000, lane_of_case_a, 31),
            lane_network(5, 0, 2, partial(lane_of_case_b, last=58), 31),
            lane_network(5, 5, 940, lane_of_case_c, 10),
            lane_network(4, 0, 1000, lane_of_case_a),
            lane_network(4, 0, 7, lane_of_case_m)]


def checksum(log):
    """The checksum over the words of a log."""
    total = 0
    for word in log:
        total = (total * CHECKSUM_FACTOR + word % CHECKSUM_MODULUS) \
            % CHECKSUM_MODULUS
    return total


def block(case):
    """The lines of one case, held against the second computation."""
    header, finished = network.header_of(case), network.run(case)
    if not network.agrees_with_walks(case, finished):
        raise SystemExit("figures: the model and the walks disagree")
    rounds, length, verdict = finished.answer
    figures = *header, rounds, length, verdict, checksum(finished.log)
    lines = [" ".join(map(str, figures))]
    if verdict == 0:
        lines += model.result_lines(header, finished.distances,
                                    finished.parents, finished.route,
                                    with_unreached=True)
    return lines


def main():
    """Print the blocks of all cases."""
    for case in networks():
        print("\n".join(block(case)))


if __name__ == "__main__":
    main()
