"""A model of the rules: requests, cell plans and host logs.

A word is a whole number from 0 to 2^64 - 1, a cell is a signed whole number
from -2^63 to 2^63 - 1.  Request words are a list whose first word is the
header.  Lent buffers (cells, log, results, plan buffer) are lists, changed in
place and never made longer or shorter.
"""

from collections import namedtuple

FAR = (1 << 39) - 1
MOST_YARDS = 32
MOST_LANES = 128
HIGHEST_PRICE = 100_000_000
PLAN_PLACES = 16_777_216
DESK_LOG_WORDS = 8192
DESK_CELLS = 1190
DESK_RESULTS = MOST_YARDS ** 2, MOST_YARDS, MOST_YARDS - 1

SET, COPY, ADD, LESS, EQUAL, BOTH, MOVEIF, OPEN = range(8)
ROUNDS = (1, 0, 0, 6, 6, 1, 1, 1)

HEADER_WIDTHS = (4, 20, 20, 20)
OPERATION_WIDTHS = (4, 20, 20, 20)
LANE_WIDTHS = (8, 8, 16, 32)
TABLE_WIDTHS = (32, 32)
PRICE_BITS = 32
CONSTANT_BITS = 40
HALF_BITS = 20
CELL_BITS = 64

Header = namedtuple("Header", "method yards lanes source")
Lane = namedtuple("Lane", "origin target spare price")
TableEntry = namedtuple("TableEntry", "spare price")
Operation = namedtuple("Operation", "op d a b")
Lent = namedtuple("Lent", "cells log distances parents route")
Refusal = namedtuple("Refusal", "number place", defaults=(None,))
RequestRan = namedtuple("RequestRan", "rounds log_length verdict")
PlanRan = namedtuple("PlanRan", "rounds log_length")
PlanWritten = namedtuple("PlanWritten", "length")
Cells1 = namedtuple("Cells1", "origin target price D P Y X verdict total")
Cells2 = namedtuple("Cells2", "U D P Y O R X verdict total")
Cells3 = namedtuple(
    "Cells3", "origin B target price D P Y N Q X S F T verdict total")
Cells4 = namedtuple("Cells4", "origin target price D C R Y X verdict total")
Cells5 = namedtuple(
    "Cells5", "origin target price D P Y X verdict Z B R total")
Form = namedtuple("Form", "most_lanes word_count strips")
Method = namedtuple(
    "Method", "form word_refusal cells plan length results sources",
    defaults=(lambda n: {"D": n, "P": n}, lambda n: n))


# Words and their fields

def join_fields(values, widths):
    """The word with these fields, the first one most significant."""
    word = 0
    for value, width in zip(values, widths, strict=True):
        if value >> width:
            raise ValueError(f"{value} does not fit {width} bits")
        word = word << width | value
    return word


def split_fields(word, widths):
    """The fields of a word, the first one most significant."""
    fields = []
    for width in reversed(widths):
        fields.append(word & ((1 << width) - 1))
        word >>= width
    return fields[::-1]


def to_unsigned(number, bits):
    """The two's complement pattern of a signed number, wrapping."""
    return number & ((1 << bits) - 1)


def to_signed(pattern, bits):
    """The signed number of a two's complement pattern."""
    return pattern - (1 << bits) if pattern >> (bits - 1) else pattern


def join_header(header):
    """The header word."""
    return join_fields(header, HEADER_WIDTHS)


def split_header(word):
    """The header of a header word."""
    return Header(*split_fields(word, HEADER_WIDTHS))


def join_lane(lane):
    """The lane word of methods 1, 3, 4 and 5."""
    fields = lane._replace(price=to_unsigned(lane.price, PRICE_BITS))
    return join_fields(fields, LANE_WIDTHS)


def split_lane(word):
    """The lane of a lane word of methods 1, 3, 4 and 5."""
    lane = Lane(*split_fields(word, LANE_WIDTHS))
    return lane._replace(price=to_signed(lane.price, PRICE_BITS))


def join_table_entry(entry):
    """The table word of method 2."""
    fields = entry._replace(price=to_unsigned(entry.price, PRICE_BITS))
    return join_fields(fields, TABLE_WIDTHS)


def split_table_entry(word):
    """The table entry of a table word of method 2."""
    entry = TableEntry(*split_fields(word, TABLE_WIDTHS))
    return entry._replace(price=to_signed(entry.price, PRICE_BITS))


def join_operation(operation):
    """The operation word of a plan."""
    return join_fields(operation, OPERATION_WIDTHS)


def split_operation(word):
    """The operation of an operation word."""
    return Operation(*split_fields(word, OPERATION_WIDTHS))


# Places of the cells: `verdict` is the cell that is opened, None without one

def cells_of_method_1(header):
    """Where the cells of method 1 lie, and how many there are."""
    n, m = header.yards, header.lanes
    return Cells1(origin=0, target=m, price=2 * m, D=3 * m, P=3 * m + n,
                  Y=3 * m + 2 * n, X=3 * m + 3 * n,
                  verdict=3 * m + 3 * n + 7, total=3 * m + 3 * n + 8)


def cells_of_method_2(header):
    """Where the cells of method 2 lie, and how many there are."""
    n = header.yards
    table = n * n
    return Cells2(U=0, D=table, P=table + n, Y=table + 2 * n, O=table + 3 * n,
                  R=table + 4 * n, X=table + 5 * n, verdict=None,
                  total=table + 5 * n + 6)


def cells_of_method_3(header):
    """Where the cells of method 3 lie, and how many there are."""
    n, m = header.yards, header.lanes
    X = 3 * m + 5 * n + 1
    F = 4 * m + 5 * n + 10
    return Cells3(origin=0, B=m, target=m + 1, price=2 * m + 1, D=3 * m + 1,
                  P=3 * m + n + 1, Y=3 * m + 2 * n + 1, N=3 * m + 3 * n + 1,
                  Q=3 * m + 4 * n + 1, X=X, S=X + 9, F=F, T=F + n * m,
                  verdict=X + 8, total=F + 2 * n * m)


def cells_of_method_4(header):
    """Where the cells of method 4 lie, and how many there are."""
    n, m = header.yards, header.lanes
    C = 3 * m + n * n
    X = C + 3 * n
    return Cells4(origin=0, target=m, price=2 * m, D=3 * m, C=C, R=C + n,
                  Y=C + 2 * n, X=X, verdict=X + 5, total=X + 6)


def cells_of_method_5(header):
    """Where the cells of method 5 lie, method 1's first, and how many."""
    n, shared = header.yards, cells_of_method_1(header)
    Z = shared.total
    return Cells5(*shared[:-1], Z=Z, B=Z + 1, R=Z + n + 1, total=Z + 2 * n)


# The plans

def set_to(d, number):
    """SET of cell d to a signed number of 40 bits."""
    pattern = to_unsigned(number, CONSTANT_BITS)
    return SET, d, pattern >> HALF_BITS, to_unsigned(pattern, HALF_BITS)


def open_yard(header, cells, v):
    """The SETs of Y+v, D+v and P+v that every method but 4 begins with."""
    return [set_to(cells.Y + v, v),
            set_to(cells.D + v, 0 if v == header.source else FAR),
            set_to(cells.P + v, -1)]


def read_origin(cells, n, i):
    """Bring the from-yard's distance of lane i to X+1."""
    X = cells.X
    operations = [(COPY, X + 1, X, 0)]
    for v in range(n):
        operations += [(EQUAL, X + 5, cells.origin + i, cells.Y + v),
                       (MOVEIF, X + 1, X + 5, cells.D + v)]
    return operations


def try_lane(cells, i):
    """The total by way of lane i to X+2, and to X+4 whether it starts."""
    X = cells.X
    return [(ADD, X + 2, X + 1, cells.price + i),
            (LESS, X + 4, X + 1, X)]


def betters(cells, i, v):
    """To X+6 whether lane i leads to yard v and betters its distance."""
    X = cells.X
    return [(EQUAL, X + 5, cells.target + i, cells.Y + v),
            (LESS, X + 6, X + 2, cells.D + v),
            (BOTH, X + 6, X + 6, X + 4),
            (BOTH, X + 6, X + 6, X + 5)]


def relax_lane(cells, n, i):
    """Lane i in one of the n-1 passes of methods 1 and 5."""
    X = cells.X
    operations = read_origin(cells, n, i) + try_lane(cells, i)
    operations.append(set_to(X + 3, i))
    for v in range(n):
        operations += betters(cells, i, v)
        operations += [(MOVEIF, cells.D + v, X + 6, X + 2),
                       (MOVEIF, cells.P + v, X + 6, X + 3)]
    return operations


def check_lane(cells, n, i):
    """Lane i in the check of methods 1 and 5."""
    X = cells.X
    operations = read_origin(cells, n, i) + try_lane(cells, i)
    for v in range(n):
        operations += betters(cells, i, v)
        operations.append((MOVEIF, X + 7, X + 6, X + 6))
    return operations


def find_distances(header, cells):
    """Opening, passes and check of methods 1 and 5."""
    n, m = header.yards, header.lanes
    for v in range(n):
        yield from open_yard(header, cells, v)
    yield set_to(cells.X, FAR)
    yield set_to(cells.X + 7, 0)
    for _ in range(n - 1):
        for i in range(m):
            yield from relax_lane(cells, n, i)
    for i in range(m):
        yield from check_lane(cells, n, i)


def plan_of_method_1(header):
    """The operations of method 1 in order, as (op, d, a, b)."""
    cells = cells_of_method_1(header)
    yield from find_distances(header, cells)
    yield OPEN, 0, cells.verdict, 0


def choose_yard(cells, n):
    """The nearest yard still open to X+3, its distance to X+1."""
    X = cells.X
    operations = [(COPY, X + 1, X, 0), set_to(X + 3, -1)]
    for v in range(n):
        operations += [(LESS, X + 5, cells.D + v, X + 1),
                       (BOTH, X + 5, X + 5, cells.O + v),
                       (MOVEIF, X + 1, X + 5, cells.D + v),
                       (MOVEIF, X + 3, X + 5, cells.Y + v)]
    return operations


def read_row(cells, n):
    """Close the chosen yard and bring its row of the table to R."""
    X = cells.X
    operations = [(COPY, cells.R + j, X, 0) for j in range(n)]
    for v in range(n):
        operations += [(EQUAL, X + 5, X + 3, cells.Y + v),
                       (MOVEIF, cells.O + v, X + 5, X + 4)]
        operations += [(MOVEIF, cells.R + j, X + 5, cells.U + v * n + j)
                       for j in range(n)]
    return operations


def relax_row(cells, n):
    """Better every yard's distance by way of the chosen yard."""
    X = cells.X
    operations = []
    for j in range(n):
        operations += [(ADD, X + 2, X + 1, cells.R + j),
                       (LESS, X + 5, X + 2, cells.D + j),
                       (MOVEIF, cells.D + j, X + 5, X + 2),
                       (MOVEIF, cells.P + j, X + 5, X + 3)]
    return operations


def plan_of_method_2(header):
    """The operations of method 2 in order, as (op, d, a, b)."""
    n = header.yards
    cells = cells_of_method_2(header)
    for v in range(n):
        yield from open_yard(header, cells, v)
        yield set_to(cells.O + v, 1)
    yield set_to(cells.X, FAR)
    yield set_to(cells.X + 4, 0)
    for _ in range(n):
        yield from choose_yard(cells, n)
        yield from read_row(cells, n)
        yield from relax_row(cells, n)


def mark_lane(cells, n, i):
    """To S+i whether lane i begins a segment, to F and T which yards it joins.

    The cell before the first to-yard is B.
    """
    operations = [(LESS, cells.S + i, cells.target + i - 1, cells.target + i)]
    for v in range(n):
        operations += [
            (EQUAL, cells.F + i * n + v, cells.origin + i, cells.Y + v),
            (EQUAL, cells.T + i * n + v, cells.target + i, cells.Y + v)]
    return operations


def weigh_lane(cells, n, i):
    """The segment's least offer so far to X+6, to X+5 whether lane i's is."""
    X = cells.X
    operations = [(COPY, X + 1, X, 0)]
    operations += [(MOVEIF, X + 1, cells.F + i * n + v, cells.D + v)
                   for v in range(n)]
    return operations + try_lane(cells, i) + [
        (MOVEIF, X + 6, cells.S + i, X),
        (LESS, X + 5, X + 2, X + 6),
        (BOTH, X + 5, X + 5, X + 4),
        (MOVEIF, X + 6, X + 5, X + 2)]


def offer_lane(cells, n, i):
    """Lane i in one of the n-1 passes of method 3."""
    X = cells.X
    operations = weigh_lane(cells, n, i)
    operations += [set_to(X + 3, i), (MOVEIF, X + 7, X + 5, X + 3)]
    for v in range(n):
        operations += [(MOVEIF, cells.N + v, cells.T + i * n + v, X + 6),
                       (MOVEIF, cells.Q + v, cells.T + i * n + v, X + 7)]
    return operations


def offer_checked_lane(cells, n, i):
    """Lane i in the check of method 3."""
    X = cells.X
    return weigh_lane(cells, n, i) + [
        (MOVEIF, cells.N + v, cells.T + i * n + v, X + 6) for v in range(n)]


def gains(cells, v):
    """To X+5 whether the least offer to yard v betters its distance."""
    return LESS, cells.X + 5, cells.N + v, cells.D + v


def plan_of_method_3(header):
    """The operations of method 3 in order, as (op, d, a, b)."""
    n, m = header.yards, header.lanes
    cells = cells_of_method_3(header)
    X = cells.X
    for v in range(n):
        yield from open_yard(header, cells, v)
        yield set_to(cells.N + v, FAR)
    yield set_to(X, FAR)
    yield set_to(X + 8, 0)
    yield set_to(cells.B, -1)
    for i in range(m):
        yield from mark_lane(cells, n, i)
    for _ in range(n - 1):
        for i in range(m):
            yield from offer_lane(cells, n, i)
        for v in range(n):
            yield gains(cells, v)
            yield MOVEIF, cells.D + v, X + 5, cells.N + v
            yield MOVEIF, cells.P + v, X + 5, cells.Q + v
    for i in range(m):
        yield from offer_checked_lane(cells, n, i)
    for v in range(n):
        yield gains(cells, v)
        yield MOVEIF, X + 8, X + 5, X + 5
    yield OPEN, 0, cells.verdict, 0


def lay_table(cells, n):
    """The constants, and the table of the walks of no lanes.

    X+1 is 2^20 times FAR, and stands for no walk.
    """
    X = cells.X
    operations = [set_to(cells.Y + v, v) for v in range(n)]
    operations += [set_to(X, FAR), set_to(X + 1, FAR)]
    operations += [(ADD, X + 1, X + 1, X + 1)] * 20
    operations += [set_to(X + 2, 0), set_to(X + 5, 0)]
    operations += [(COPY, cells.D + i * n + j, X + 1, 0)
                   for i in range(n) for j in range(n)]
    return operations + [(COPY, cells.D + v * (n + 1), X + 2, 0)
                         for v in range(n)]


def update_table(cells, n):
    """Each pair's total is the sum of its row's C and column's R, if less."""
    X = cells.X
    operations = []
    for i in range(n):
        for j in range(n):
            entry = cells.D + i * n + j
            operations += [(ADD, X + 3, cells.C + i, cells.R + j),
                           (LESS, X + 4, X + 3, entry),
                           (MOVEIF, entry, X + 4, X + 3)]
    return operations


def lay_lane(cells, n, i):
    """To C 0 at the from-yard of lane i, to R its price at the to-yard."""
    X = cells.X
    operations = []
    for v in range(n):
        operations += [(COPY, cells.C + v, X + 1, 0),
                       (EQUAL, X + 4, cells.origin + i, cells.Y + v),
                       (MOVEIF, cells.C + v, X + 4, X + 2),
                       (COPY, cells.R + v, X + 1, 0),
                       (EQUAL, X + 4, cells.target + i, cells.Y + v),
                       (MOVEIF, cells.R + v, X + 4, cells.price + i)]
    return operations


def lay_stage(cells, n, k):
    """To C column k of the table, to R row k."""
    operations = []
    for v in range(n):
        operations += [(COPY, cells.C + v, cells.D + v * n + k, 0),
                       (COPY, cells.R + v, cells.D + k * n + v, 0)]
    return operations


def find_circles(cells, n):
    """To X+5 whether a yard's total to itself is negative."""
    X = cells.X
    operations = []
    for v in range(n):
        operations += [(LESS, X + 4, cells.D + v * n + v, X + 2),
                       (ADD, X + 5, X + 5, X + 4)]
    return operations + [(BOTH, X + 5, X + 5, X + 5)]


def mark_pairs(cells, n):
    """FAR to each pair whose total is over FAR, for it has no walk."""
    X = cells.X
    operations = []
    for entry in range(cells.D, cells.D + n * n):
        operations += [(LESS, X + 4, X, entry), (MOVEIF, entry, X + 4, X)]
    return operations


def plan_of_method_4(header):
    """The operations of method 4 in order, as (op, d, a, b)."""
    n, m = header.yards, header.lanes
    cells = cells_of_method_4(header)
    yield from lay_table(cells, n)
    for i in range(m):
        yield from lay_lane(cells, n, i)
        yield from update_table(cells, n)
    for k in range(n):
        yield from lay_stage(cells, n, k)
        yield from update_table(cells, n)
    yield from find_circles(cells, n)
    yield from mark_pairs(cells, n)
    yield OPEN, 0, cells.verdict, 0


def find_yards_before(cells, n, m):
    """To B+v the from-yard of v's parent lane, v itself where there is none."""
    X = cells.X
    operations = [(COPY, cells.B + v, cells.Y + v, 0) for v in range(n)]
    for i in range(m):
        operations.append(set_to(X + 3, i))
        for v in range(n):
            operations += [(EQUAL, X + 5, cells.P + v, X + 3),
                           (MOVEIF, cells.B + v, X + 5, cells.origin + i)]
    return operations


def follow_parents(cells, n):
    """To R the parents met on the way back from the destination."""
    X = cells.X
    operations = [(COPY, X + 1, cells.Z, 0)]
    for k in range(n - 1):
        operations.append((COPY, X + 2, X + 1, 0))
        for v in range(n):
            operations += [(EQUAL, X + 5, X + 2, cells.Y + v),
                           (MOVEIF, cells.R + k, X + 5, cells.P + v),
                           (MOVEIF, X + 1, X + 5, cells.B + v)]
    return operations


def plan_of_method_5(header):
    """The operations of method 5 in order, as (op, d, a, b)."""
    n, m = header.yards, header.lanes
    cells = cells_of_method_5(header)
    yield from find_distances(header, cells)
    yield from find_yards_before(cells, n, m)
    yield from follow_parents(cells, n)
    yield OPEN, 0, cells.verdict, 0


# The words after the header: their tests, and the cells they fill

def lane_refusal(header, inputs, place):
    """The first of refusals 10, 13, 14 and 11 of one lane word, or None."""
    lane = split_lane(inputs[place])
    if lane.spare != 0:
        return Refusal(10, place)
    if lane.origin >= header.yards:
        return Refusal(13, place)
    if lane.target >= header.yards:
        return Refusal(14, place)
    if not -HIGHEST_PRICE <= lane.price <= HIGHEST_PRICE:
        return Refusal(11, place)
    return None


def sorted_lane_refusal(header, inputs, place):
    """The first refusal of a lane word in method 3, 15 the last, or None."""
    refusal = lane_refusal(header, inputs, place)
    if refusal or place == 0:
        return refusal
    before, lane = (split_lane(word) for word in inputs[place - 1:place + 1])
    return Refusal(15, place) if lane.target < before.target else None


def routed_refusal(header, inputs, place):
    """The first refusal of a word in method 5, or None.

    The last word is the destination, and its refusal, 16, has no place.
    """
    if place < header.lanes:
        return lane_refusal(header, inputs, place)
    return Refusal(16) if inputs[place] >= header.yards else None


def table_refusal(_, inputs, place):
    """The first of refusals 10 and 11 of one table word, or None."""
    entry = split_table_entry(inputs[place])
    if entry.spare != 0:
        return Refusal(10, place)
    if not -1 <= entry.price <= HIGHEST_PRICE:
        return Refusal(11, place)
    return None


def lane_strips(cells, inputs):
    """The first cell of each field of the lanes, and what is laid from it."""
    lanes = [split_lane(word) for word in inputs]
    return [(cells.origin, [lane.origin for lane in lanes]),
            (cells.target, [lane.target for lane in lanes]),
            (cells.price, [lane.price for lane in lanes])]


def routed_strips(cells, inputs):
    """The strips of the lanes, and the destination's one cell."""
    *lanes, destination = inputs
    return [*lane_strips(cells, lanes),
            (cells.Z, [to_signed(destination, CELL_BITS)])]


def table_strips(cells, inputs):
    """The first cell of the table, and what is laid from it."""
    prices = [split_table_entry(word).price for word in inputs]
    return [(cells.U, [FAR if price == -1 else price for price in prices])]


# What differs by method: how its network is given, the test of a word after
# the header, the places of the cells, the plan, its length from n and m, how
# many cells from D, P and R on are results, and how many yards may be sources.
# How a network is given: the limit of m, how many words follow the header, and
# where they are laid.

LANES = Form(MOST_LANES, lambda header: header.lanes, lane_strips)
ROUTED_LANES = Form(MOST_LANES, lambda header: header.lanes + 1, routed_strips)
TABLE = Form(0, lambda header: header.yards ** 2, table_strips)
METHODS = {
    1: Method(LANES, lane_refusal, cells_of_method_1, plan_of_method_1,
              lambda n, m: 3 * n + 4 + m * (8 * n * n + 3 * n - 1)),
    2: Method(TABLE, table_refusal, cells_of_method_2, plan_of_method_2,
              lambda n, m: n ** 3 + 11 * n * n + 6 * n + 3),
    3: Method(LANES, sorted_lane_refusal, cells_of_method_3, plan_of_method_3,
              lambda n, m: (3 * n * n + 3 * n + 5
                            + m * (3 * n * n + 10 * n - 1))),
    4: Method(LANES, lane_refusal, cells_of_method_4, plan_of_method_4,
              lambda n, m: (3 * n ** 3 + 5 * n * n + 4 * n + 27
                            + m * (3 * n * n + 6 * n)),
              results=lambda n: {"D": n * n}, sources=lambda n: 1),
    5: Method(ROUTED_LANES, routed_refusal, cells_of_method_5,
              plan_of_method_5,
              lambda n, m: (3 * n * n + 2 * n + 4
                            + m * (8 * n * n + 5 * n)),
              results=lambda n: {"D": n, "P": n, "R": n - 1}),
}


def form_of(method):
    """How a method's network is given, one of the three above."""
    return METHODS[method].form


def words_expected(header):
    """How many words follow the header of a request."""
    return form_of(header.method).word_count(header)


def cells_of(header):
    """Where the cells of the header's method lie."""
    return METHODS[header.method].cells(header)


def plan_length(header):
    """The words of a plan, its header counted."""
    return METHODS[header.method].length(header.yards, header.lanes)


def log_length(header):
    """The words of a request's log: its plan and the published cells."""
    return plan_length(header) + (cells_of(header).verdict is not None)


def sources_of(method, n):
    """How many yards, from 0 on, a header may name as its source."""
    return METHODS[method].sources(n)


def results_of(header):
    """How many cells are results, by where they begin: D, P or R.

    Distances begin at D, parents at P and a route at R.
    """
    return METHODS[header.method].results(header.yards)


def lengths_needed(header):
    """The lengths of the buffers that a request needs."""
    results = results_of(header)
    return Lent(cells_of(header).total, log_length(header),
                *(results.get(region, 0) for region in "DPR"))


def plan_operations(header):
    """The operations of the header's plan, as (op, d, a, b)."""
    return METHODS[header.method].plan(header)


def plan_words(header):
    """The words of the header's plan, the header first."""
    return [join_header(header),
            *(join_operation(operation) for operation in plan_operations(header))]


# Carrying out

def carry_out(cells, op, d, a, b):
    """Do to the cells what one operation says; OPEN changes none."""
    if op == SET:
        cells[d] = to_signed(a << HALF_BITS | b, CONSTANT_BITS)
    elif op == COPY:
        cells[d] = cells[a]
    elif op == ADD:
        total = to_unsigned(cells[a] + cells[b], CELL_BITS)
        cells[d] = to_signed(total, CELL_BITS)
    elif op == LESS:
        cells[d] = int(cells[a] < cells[b])
    elif op == EQUAL:
        cells[d] = int(cells[a] == cells[b])
    elif op == BOTH:
        cells[d] = int(cells[a] != 0 and cells[b] != 0)
    elif op == MOVEIF and cells[a] != 0:
        cells[d] = cells[b]


def cells_read(op, d, a, b):
    """The cells that an operation reads; MOVEIF may leave [d] as it is."""
    if op == SET:
        return ()
    if op in (COPY, OPEN):
        return (a,)
    return (a, b, d) if op == MOVEIF else (a, b)


def word_depth(depths, op, d, a, b):
    """The depth of one operation, which the cell that it writes takes.

    `depths` are those of the cells written so far; any other cell's is 0.
    """
    read = (depths.get(cell, 0) for cell in cells_read(op, d, a, b))
    depth = max(read, default=0) + ROUNDS[op]
    if op != OPEN:
        depths[d] = depth
    return depth


def rounds_of(operations):
    """The greatest depth of any of the operations, 0 if there is none."""
    depths = {}
    return max((word_depth(depths, *operation) for operation in operations),
               default=0)


def carry_out_plan(plan, cells, log):
    """Carry out a plan's words on the cells, write the log, find the rounds.

    The header is logged and not carried out.  Each OPEN is followed in the
    log by the published cell.
    """
    depths = {}
    rounds = 0
    length = 0
    for place, word in enumerate(plan):
        log[length] = word
        length += 1
        if place == 0:
            continue
        op, d, a, b = split_fields(word, OPERATION_WIDTHS)
        carry_out(cells, op, d, a, b)
        rounds = max(rounds, word_depth(depths, op, d, a, b))
        if op == OPEN:
            log[length] = to_unsigned(cells[a], CELL_BITS)
            length += 1
    return PlanRan(rounds, length)


def addresses(operation):
    """The fields of an operation that name cells."""
    op, d, a, b = operation
    if op == SET:
        return (d,)
    if op == COPY:
        return (d, a)
    if op == OPEN:
        return (a,)
    return (d, a, b)


def names_missing_cell(operation, cell_count):
    """Whether an operation names a cell that is not there."""
    return any(address >= cell_count for address in addresses(operation))


def replay(log, cells):
    """Carry out a log on a bank of cells; False if a word ended it early."""
    published = False
    for word in log[1:]:
        if published:
            published = False
            continue
        operation = split_operation(word)
        if operation.op > OPEN or names_missing_cell(operation, len(cells)):
            return False
        carry_out(cells, *operation)
        published = operation.op == OPEN
    return True


# Refusals

def header_refusal(words):
    """The first of refusals 1 to 4, or None."""
    if not words:
        return Refusal(1)
    header = split_header(words[0])
    if header.method not in METHODS:
        return Refusal(1)
    if not 1 <= header.yards <= MOST_YARDS:
        return Refusal(2)
    if header.lanes > form_of(header.method).most_lanes:
        return Refusal(3)
    if header.source >= sources_of(header.method, header.yards):
        return Refusal(4)
    return None


def buffer_refusal(header, word_count, lent):
    """The first of refusals 5 to 8, or None."""
    if word_count != words_expected(header):
        return Refusal(5)
    needed = lengths_needed(header)
    if lent.cells < needed.cells:
        return Refusal(6)
    if lent.log < needed.log:
        return Refusal(7)
    if (lent.distances < needed.distances or lent.parents < needed.parents
            or lent.route < needed.route):
        return Refusal(8)
    return None


def input_refusal(header, inputs):
    """The refusal of the lowest input word that has one, or None."""
    refusal_of = METHODS[header.method].word_refusal
    refusals = (refusal_of(header, inputs, place)
                for place in range(len(inputs)))
    return next(filter(None, refusals), None)


def request_refusal(words, lent):
    """The first refusal of a request before its run, or None.

    `lent` holds the lengths of the lent buffers.
    """
    refusal = header_refusal(words)
    if refusal:
        return refusal
    header, inputs = split_header(words[0]), words[1:]
    return (buffer_refusal(header, len(inputs), lent)
            or input_refusal(header, inputs))


def plan_word_refused(place, word, cell_count):
    """Whether the runner refuses the word at this place of a foreign plan."""
    if place == 0:
        return False
    operation = split_operation(word)
    op, d, _, b = operation
    return (place >= PLAN_PLACES
            or op > OPEN
            or (op == COPY and b != 0)
            or (op == OPEN and (d != 0 or b != 0))
            or names_missing_cell(operation, cell_count))


def foreign_log_length(plan):
    """The words of a foreign plan's log."""
    opened = sum(split_operation(word).op == OPEN for word in plan[1:])
    return len(plan) + opened


def foreign_refusal(plan, cell_count, log_words):
    """The runner's refusal of a foreign plan, or None."""
    for place, word in enumerate(plan):
        if plan_word_refused(place, word, cell_count):
            return Refusal(9, place)
    if log_words < foreign_log_length(plan):
        return Refusal(7)
    return None


# Public calls

def intake(words):
    """The needed cells as the request's words fill them, the rest of them 0."""
    header, inputs = split_header(words[0]), words[1:]
    where = cells_of(header)
    cells = [0] * where.total
    for first, numbers in form_of(header.method).strips(where, inputs):
        cells[first:first + len(numbers)] = numbers
    return cells


def verdict_of(header, cells):
    """The verdict a run left in the cells."""
    opened = cells_of(header).verdict
    return 0 if opened is None else cells[opened]


def run_request(words, cells, log, distances, parents, route):
    """Run a request: RequestRan or a Refusal.

    Verdict 1 is refusal 12, which leaves no results.
    """
    lent = Lent(*map(len, (cells, log, distances, parents, route)))
    refusal = request_refusal(words, lent)
    if refusal:
        return refusal
    header = split_header(words[0])
    where = cells_of(header)
    cells[:where.total] = intake(words)
    ran = carry_out_plan(plan_words(header), cells, log)
    verdict = verdict_of(header, cells)
    if verdict == 0:
        buffers = {"D": distances, "P": parents, "R": route}
        for region, count in results_of(header).items():
            first = getattr(where, region)
            buffers[region][:count] = cells[first:first + count]
    return RequestRan(ran.rounds, ran.log_length, verdict)


def run_foreign(plan, cells, log):
    """Run a foreign plan on the lent cells: PlanRan or a Refusal."""
    return (foreign_refusal(plan, len(cells), len(log))
            or carry_out_plan(plan, cells, log))


def write_plan(words, buffer):
    """Write the plan of a header into a buffer: PlanWritten or a Refusal."""
    refusal = header_refusal(words)
    if refusal:
        return refusal
    header = split_header(words[0])
    length = plan_length(header)
    if len(buffer) < length:
        return Refusal(7)
    buffer[:length] = plan_words(header)
    return PlanWritten(length)


def sizes_needed(words):
    """The lengths of the buffers that a header asks for, or a Refusal."""
    return header_refusal(words) or lengths_needed(split_header(words[0]))


# The desk's program

def yard_lines(distances, parents, with_unreached):
    """A line `yard distance parent` for each yard listed, `-` for none."""
    return [f"{v} {'-' if distance == FAR else distance}"
            f" {'-' if parent == -1 else parent}"
            for v, (distance, parent) in enumerate(zip(distances, parents))
            if with_unreached or distance != FAR]


def pair_lines(n, distances, with_unreached):
    """A line `from to distance` for each pair listed, `-` for none."""
    return [f"{place // n} {place % n} {'-' if distance == FAR else distance}"
            for place, distance in enumerate(distances)
            if with_unreached or distance != FAR]


def route_line(route):
    """`route` and then the lanes shown, without the padding."""
    return " ".join(["route", *(str(lane) for lane in route if lane != -1)])


def result_lines(header, distances, parents, route, with_unreached):
    """The lines of a run's results, by pairs where there are no parents.

    Unreached yards and pairs are listed with `with_unreached` alone.
    """
    n, results = header.yards, results_of(header)
    if "P" not in results:
        return pair_lines(n, distances[:n * n], with_unreached)
    lines = yard_lines(distances[:n], parents[:n], with_unreached)
    if "R" in results:
        lines.append(route_line(route[:n - 1]))
    return lines


def refusal_line(refusal):
    """The one line of a refusal, with its place where there is one."""
    place = "" if refusal.place is None else f" {refusal.place}"
    return f"refused {refusal.number}{place}"


def desk_lines(data, *arguments):
    """The lines the desk's program prints for the bytes it reads.

    Every yard or pair is listed if the first argument is `all`.
    """
    words = [int.from_bytes(data[k:k + 8], "big")
             for k in range(0, len(data) - 7, 8)]
    results = [[0] * length for length in DESK_RESULTS]
    if len(data) % 8:
        answer = header_refusal(words) or Refusal(5)
    else:
        answer = run_request(words, [0] * DESK_CELLS, [0] * DESK_LOG_WORDS,
                             *results)
    if isinstance(answer, RequestRan) and answer.verdict == 1:
        answer = Refusal(12)
    if isinstance(answer, Refusal):
        return [refusal_line(answer)]
    header = split_header(words[0])
    public = " ".join(map(str, header))
    return [f"{public} {answer.rounds} {answer.verdict}",
            *result_lines(header, *results, arguments[:1] == ("all",))]
