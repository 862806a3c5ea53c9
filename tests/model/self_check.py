"""Holds the model against the rules and against the second computation."""

import random
from collections import Counter, namedtuple
from itertools import islice

import chains
import figures
import model
import network
import spelled
import walks
from model import (ADD, BOTH, COPY, EQUAL, FAR, HIGHEST_PRICE, LESS, MOVEIF,
                   OPEN, SET, Header, Lane, Lent, PlanRan, PlanWritten,
                   Refusal, RequestRan, TableEntry)
from network import Network

SEED = 20240117
FIGURES_LOG_WORDS = 500_000
RANDOM_PAIRS = 150
RANDOM_PLANS = 150
RANDOM_DEPTHS = 500
RANDOM_TIES = 60
RANDOM_CHAINS = 30
RANDOM_WALKS = 100
LEAST_OF_A_SHAPE = 10
SURPLUS = 3
LENT = -7
HIGH = (1 << 59) - (1 << 20)
MOST_CELL = (1 << 63) - 1
MOST_WORD = (1 << 64) - 1

PLAN_OF_ONE_YARD = [int(word, 16) for word in (
    "1000010000000000 0000020000000000 0000000000000000 000001FFFFFFFFFF"
    " 0000037FFFFFFFFF 00000A0000000000 7000000000A00000").split()]
PRINTED_REQUEST = bytes.fromhex("100002000010000000010000FFFFFFFB")
PRINTED_LINES = ["1 2 1 0 31 0", "0 0 -", "1 -5 0"]

# The rounds that the rules state, by method.
ROUNDS_STATED = {
    1: lambda n, m: m * (n * n + 9 * n - 9) + n + 16 if m else 2,
    2: lambda n, m: 9 * n * n + 13 * n + 1,
    3: lambda n, m: 9 * n * m + n * n + 8 * n + 7 if m else 8 * n + 1,
    4: lambda n, m: 7 * n + 7 * m + 16 if m else 7 * n + 9,
    5: lambda n, m: (m * (n - 1) * (n + 9)
                     + max(m * n + n + 16, m + n * n + 5 * n + 1)
                     if m else max(2, n * n + 5 * n - 5)),
}


# A run of method 4: its least and its greatest sum, both exact, its tables
# before the stages and after each of them, and the cells that it left.
Watched = namedtuple("Watched", "least greatest tables cells")


class Checks:
    """Counts the checks that hold and stops at the first that does not."""

    def __init__(self):
        self.count = 0

    def holds(self, condition, what):
        """Count one check."""
        if not condition:
            raise SystemExit(f"model: this does not hold: {what}")
        self.count += 1

    def equal(self, found, expected, what):
        """Count one check of two values."""
        self.holds(found == expected, f"{what}: {found}, expected {expected}")


def rounds_by_formula(header):
    """The rounds the rules state for a header."""
    return ROUNDS_STATED[header.method](header.yards, header.lanes)


def answer_to(words):
    """The answer to a request whose buffers are long enough for any small n."""
    return model.run_request(words, [0] * 2000, [0] * 9000,
                             *([0] * length for length in model.DESK_RESULTS))


def refusal_of(answer):
    """The refusal that an answer is, or None."""
    return answer if isinstance(answer, Refusal) else None


def self_lane(price):
    """Row 3's network: one yard, a lane from it to itself."""
    return Network(1, 1, 0, [(0, 0, price)])


# The requests at the edges

def check_edge_plan(checks):
    """Row 1."""
    finished = network.run(Network(1, 1, 0, []))
    checks.equal(model.plan_words(Header(1, 1, 0, 0)), PLAN_OF_ONE_YARD,
                 "row 1, plan")
    checks.equal(finished.log, PLAN_OF_ONE_YARD + [0], "row 1, log")
    checks.equal(finished.answer, RequestRan(2, 8, 0), "row 1, answer")


def check_edge_printed(checks):
    """Row 2."""
    printed = Network(1, 2, 0, [(0, 1, -5)])
    words = [int.from_bytes(PRINTED_REQUEST[k:k + 8], "big") for k in (0, 8)]
    finished = network.run(printed)
    checks.equal(network.request_words(printed), words, "row 2, words")
    checks.equal(finished.answer, RequestRan(31, 48, 0), "row 2, answer")
    checks.equal(finished.distances, [0, -5], "row 2, distances")
    checks.equal(finished.parents, [-1, 0], "row 2, parents")
    checks.equal(model.desk_lines(PRINTED_REQUEST), PRINTED_LINES,
                 "row 2, printed lines")


def check_edge_method_1(checks):
    """Rows 3, 4 and 5."""
    for price, verdict in ((-1, 1), (0, 0)):
        checks.equal(network.run(self_lane(price)).answer,
                     RequestRan(18, 18, verdict), f"row 3, {price}")
    tie = network.run(Network(1, 2, 0, [(0, 1, 4), (0, 1, 4)]))
    checks.equal((tie.answer, tie.distances, tie.parents),
                 (RequestRan(44, 85, 0), [0, 4], [-1, 0]), "row 4")
    apart = network.run(Network(1, 3, 0, [(1, 2, -1), (2, 1, -1)]))
    checks.equal((apart.answer, apart.distances, apart.parents),
                 (RequestRan(73, 174, 0), [0, FAR, FAR], [-1, -1, -1]),
                 "row 5")


def check_edge_method_2(checks):
    """Rows 6 and 7."""
    empty = network.run(Network(2, 2, 0, []))
    checks.equal((empty.answer.rounds, empty.distances, empty.parents),
                 (63, [0, FAR], [-1, -1]), "row 6")
    checks.equal(model.plan_length(Header(2, 1, 0, 0)), 21, "row 7, words")
    checks.equal(network.run(Network(2, 1, 0, [])).answer,
                 RequestRan(23, 21, 0), "row 7, answer")


def check_edge_limits(checks):
    """Rows 8 and 9."""
    checks.equal(network.run(self_lane(100_000_000)).answer,
                 RequestRan(18, 18, 0), "row 8, 100,000,000")
    checks.equal(network.run(self_lane(100_000_001)).answer, Refusal(11, 0),
                 "row 8, 100,000,001")
    for header, number in ((Header(1, 33, 0, 0), 2), (Header(2, 33, 0, 0), 2),
                           (Header(1, 1, 129, 0), 3)):
        checks.equal(answer_to([model.join_header(header)]), Refusal(number),
                     "row 9")


def check_edge_cells(checks):
    """Rows 10 and 11."""
    cells = [0]
    plan = [0, model.join_operation((SET, 0, 524_288, 0))]
    checks.equal(model.run_foreign(plan, cells, [0] * 2), PlanRan(1, 2),
                 "row 10, answer")
    checks.equal(cells, [-549_755_813_888], "row 10, cell")
    cells = [MOST_CELL, 1]
    plan = [0, model.join_operation((ADD, 0, 0, 1))]
    checks.equal(model.run_foreign(plan, cells, [0] * 2), PlanRan(0, 2),
                 "row 11, answer")
    checks.equal(cells, [-MOST_CELL - 1, 1], "row 11, cells")


# Small requests of method 3

def check_passes(checks):
    """Runs of method 3: its ties, and what each pass reads."""
    for lanes, distances, parents in (
            # The lowest lane of equal offers, which is not the first lane.
            ([(0, 1, 5), (0, 1, 4), (0, 1, 4)], [0, 4, FAR], [-1, 1, -1]),
            # Yard 2 is offered 2 by lane 2 a pass earlier than by lane 1.
            ([(0, 1, 1), (1, 2, 1), (0, 2, 2)], [0, 1, 2], [-1, 0, 2]),
            # Yard 1 takes lane 0, and then lane 1, which is a strict gain.
            ([(0, 1, 7), (2, 1, -4), (0, 2, 9)], [0, 5, 9], [-1, 1, 2]),
            # FAR and a rebate is no offer.
            ([(1, 1, -9), (2, 1, -9)], [0, FAR, FAR], [-1, -1, -1]),
            # A circle of price 0 gives the source no parent.
            ([(0, 0, 0), (1, 0, -3), (0, 1, 3)], [0, 3, FAR], [-1, 2, -1])):
        finished = network.run(Network(3, 3, 0, lanes))
        checks.equal((finished.distances, finished.parents),
                     (distances, parents), f"passes of {lanes}")
    before = network.run(Network(1, 3, 0, [(0, 1, 1), (1, 2, 1), (0, 2, 2)]))
    checks.equal(before.parents, [-1, 0, 1], "the same lanes in method 1")
    checks.equal(network.run(Network(3, 1, 0, [])).answer,
                 RequestRan(9, 12, 0), "method 3, one yard and no lane")
    for price, verdict in ((-1, 1), (0, 0), (100_000_000, 0)):
        finished = network.run(Network(3, 1, 0, [(0, 0, price)]))
        checks.equal(finished.answer, RequestRan(25, 24, verdict),
                     f"method 3, a lane of {price} to its own yard")


# Small requests of method 4, and its sums

def check_tables(checks):
    """Runs of method 4 among three yards: the table by rows, FAR for None."""
    for lanes, *table in (
            # No lanes, and lanes of one yard that gain nothing.
            ([], 0, None, None, None, 0, None, None, None, 0),
            ([(1, 1, 3), (2, 2, 0)],
             0, None, None, None, 0, None, None, None, 0),
            # A row is a from-yard.
            ([(0, 1, 5)], 0, 5, None, None, 0, None, None, None, 0),
            ([(2, 0, -5)], 0, None, None, None, 0, None, -5, None, 0),
            # Two lanes, by each of the yards.
            ([(1, 0, 5), (0, 2, 6)], 0, None, 6, 5, 0, 11, None, None, 0),
            ([(1, 2, -5), (0, 1, -5)], 0, -5, -10, None, 0, -5, None, None, 0),
            ([(0, 2, 1), (2, 1, 1)], 0, 2, 1, None, 0, None, None, 1, 0),
            # Parallel lanes, and two lanes that are cheaper than one.
            ([(0, 1, 7), (0, 1, 4), (0, 1, 5)],
             0, 4, None, None, 0, None, None, None, 0),
            ([(0, 1, 4), (0, 2, 9), (2, 1, -6)],
             0, 3, 9, None, 0, None, None, -6, 0),
            # Circles: of a gain, and of price 0.
            ([(0, 1, 1), (1, 2, 1), (2, 0, 1)], 0, 1, 2, 2, 0, 1, 1, 2, 0),
            ([(0, 1, 4), (1, 0, -4)], 0, 4, None, -4, 0, None, None, None, 0),
            ([(0, 1, 4), (1, 2, -2), (2, 0, -2)],
             0, 4, 2, -4, 0, -2, -2, 2, 0),
            # A rebate does not make a walk to its from-yard.
            ([(2, 0, -9), (2, 1, -9)], 0, None, None, None, 0, None, -9, -9, 0),
            # The dearest lanes.
            ([(0, 1, 100_000_000), (1, 2, 100_000_000)],
             0, 100_000_000, 200_000_000, None, 0, 100_000_000, None, None, 0)):
        finished = network.run(Network(4, 3, 0, lanes))
        checks.equal((finished.answer.verdict, finished.distances),
                     (0, network.marked(table, FAR)), f"table of {lanes}")


def check_circles(checks):
    """Loss circles of method 4, wherever they are; one yard."""
    for lanes in ([(0, 0, -1)], [(2, 2, -1)], [(1, 1, 5), (1, 1, -1)],
                  [(0, 1, 4), (1, 0, -5)], [(1, 2, -1), (2, 1, 0)],
                  [(1, 2, 4), (2, 1, -5), (2, 0, 9)],
                  [(0, 1, 1), (1, 2, 1), (2, 0, -3)]):
        finished = network.run(Network(4, 3, 0, lanes), 0, LENT)
        checks.equal((finished.answer.verdict, finished.distances),
                     (1, [LENT] * 9), f"verdict of {lanes}")
    checks.equal(network.run(Network(4, 1, 0, [])).answer,
                 RequestRan(16, 40, 0), "method 4, one yard and no lane")
    for price, verdict in ((-100_000_000, 1), (-1, 1), (0, 0),
                           (100_000_000, 0)):
        finished = network.run(Network(4, 1, 0, [(0, 0, price)]))
        checks.equal((finished.answer, finished.distances),
                     (RequestRan(30, 49, verdict), [0]),
                     f"method 4, a lane of {price} to its own yard")


def watched(case):
    """A run of method 4, word by word."""
    header = network.header_of(case)
    n, m, D = header.yards, header.lanes, network.where_of(case).D
    before = n * n + 2 * n + 24 + m * (3 * n * n + 6 * n)
    stage = 3 * n * n + 2 * n
    stage_ends = range(before, before + n * stage + 1, stage)
    cells, tables = model.intake(network.request_words(case)), []
    least = greatest = 0
    for place, operation in enumerate(model.plan_operations(header)):
        if place in stage_ends:
            tables.append(cells[D:D + n * n])
        op, _, a, b = operation
        if op == ADD:
            total = cells[a] + cells[b]
            least, greatest = min(least, total), max(greatest, total)
        model.carry_out(cells, *operation)
    return Watched(least, greatest, tables, cells)


def check_sums(checks, case):
    """The sums and tables of a run of method 4 are within their bounds."""
    run, n = watched(case), case.yards
    checks.holds(-MOST_CELL - 1 <= run.least and run.greatest <= MOST_CELL,
                 f"every sum is exact, {case}")
    checks.holds(-HIGHEST_PRICE << n <= run.least and run.greatest <= 2 * HIGH,
                 f"bounds of the sums of {case}")
    checks.equal(len(run.tables), n + 1, f"tables of {case}")
    for stages, table in enumerate(run.tables):
        bound = HIGHEST_PRICE << stages
        checks.holds(all(abs(entry) <= bound or 0 <= HIGH - entry <= bound
                         for entry in table),
                     f"bounds after {stages} stages of {case}")
    return run


def hub(n):
    """Lanes of the greatest rebate from yard 0 to each yard and back."""
    return ([(0, v, -HIGHEST_PRICE) for v in range(n)]
            + [(v, 0, -HIGHEST_PRICE) for v in range(1, n)])


def check_hub(checks):
    """The networks whose tables come closest to their bounds.

    Around a hub each stage doubles every entry.  Where a further yard has no
    lane but one to itself, the entries that stand for no walk do the same.
    """
    for n in (1, 2, 3, 5, 32):
        case = Network(4, n, 0, hub(n))
        run, where = check_sums(checks, case), network.where_of(case)
        checks.equal(run.tables[1:], [[-HIGHEST_PRICE << stages] * n ** 2
                                      for stages in range(1, n + 1)],
                     f"tables of the hub of {n} yards")
        checks.equal((run.least, run.greatest, run.cells[where.verdict]),
                     (-HIGHEST_PRICE << n, 2 * HIGH if n > 1 else HIGH, 1),
                     f"sums and verdict of the hub of {n} yards")
    for n in (2, 3, 5, 32):
        last = n - 1
        case = Network(4, n, 0, hub(last) + [(last, last, -HIGHEST_PRICE)])
        run, where = check_sums(checks, case), network.where_of(case)
        checks.equal(run.tables[n][last],
                     HIGH - (HIGHEST_PRICE << last) - HIGHEST_PRICE,
                     f"no walk from the hub to yard {last}")
        checks.equal((run.cells[where.D + last], run.cells[where.verdict]),
                     (FAR, 1), f"mark and verdict, yard {last}")


def check_largest_table(checks):
    """A network of method 4 of the greatest size, without a loss circle."""
    rng = random.Random(SEED)
    heights = [rng.randrange(50_000_000) for _ in range(32)]
    ends = [(rng.randrange(32), rng.randrange(32)) for _ in range(128)]
    case = Network(4, 32, 0, [
        (u, v, heights[v] - heights[u] + rng.choice((0, 0, 1, 50_000_000)))
        for u, v in ends])
    finished = network.run(case)
    checks.equal(finished.answer, RequestRan(1_136, 521_372, 0),
                 "answer of the largest table")
    checks.holds(network.agrees_with_walks(case, finished),
                 "walks of the largest table")
    checks.holds(FAR in finished.distances,
                 "a pair without a walk in the largest table")


# Small requests of method 5

def check_routes(checks):
    """Runs of method 5: the route to each yard from source 0, in their order.

    A row has the lanes, and for each yard what its route shows.
    """
    for lanes, *routes in (
            # No lanes, and a yard that they do not reach.
            ([], [], [], []),
            ([(0, 1, 5)], [], [0], []),
            # Two lanes, the last one first, whichever number it has.
            ([(0, 1, 5), (1, 2, 5)], [], [0], [1, 0]),
            ([(1, 2, -5), (0, 1, -5)], [], [1], [0, 1]),
            # Fewer lanes than two where they are the cheaper ones.
            ([(0, 1, 5), (1, 2, 5), (0, 2, 9)], [], [0], [2]),
            # A tie keeps the lane that came first.
            ([(0, 1, 5), (0, 1, 5), (0, 2, 10), (1, 2, 5)], [], [0], [2]),
            # A parent that a later pass replaces.
            ([(1, 2, 1), (0, 2, 9), (0, 1, 1)], [], [2], [0, 2]),
            # Circles of price 0, at the source and behind it.
            ([(0, 0, 0), (0, 1, 3), (1, 0, -3)], [], [1], []),
            ([(0, 1, 4), (1, 2, -2), (2, 1, 2)], [], [0], [1, 0]),
            # Rebates from an unreached yard.
            ([(2, 1, -9), (2, 0, -9), (0, 1, 3)], [], [2], [])):
        for destination, shown in enumerate(routes):
            case = Network(5, 3, 0, lanes, destination)
            checks.equal(network.run(case).route,
                         shown + [-1] * (2 - len(shown)), f"route of {case}")
    checks.equal(network.run(Network(5, 1, 0, [], 0)).answer,
                 RequestRan(2, 10, 0), "method 5, one yard and no lane")
    for price, verdict in ((-1, 1), (0, 0), (100_000_000, 0)):
        finished = network.run(Network(5, 1, 0, [(0, 0, price)], 0))
        checks.equal((finished.answer, finished.route),
                     (RequestRan(18, 23, verdict), []),
                     f"method 5, a lane of {price} to its own yard")


# Words, lengths and rounds

def check_fields(checks):
    """Splitting undoes joining, at both ends of every signed field."""
    for header in (Header(1, 32, 128, 31), Header(15, *[(1 << 20) - 1] * 3)):
        checks.equal(model.split_header(model.join_header(header)), header,
                     "header fields")
    for price in (-1 << 31, -100_000_000, -1, 0, 100_000_000, (1 << 31) - 1):
        lane = Lane(255, 1, 65_535, price)
        entry = TableEntry((1 << 32) - 1, price)
        checks.equal(model.split_lane(model.join_lane(lane)), lane,
                     "lane fields")
        checks.equal(model.split_table_entry(model.join_table_entry(entry)),
                     entry, "table fields")
    for number in (-1 << 39, -1, 0, 1 << 38, (1 << 39) - 1):
        cells = [0]
        model.carry_out(cells, *model.set_to(0, number))
        checks.equal(cells, [number], "constant of SET")


def check_intake(checks):
    """The cells that a small request of each method starts with."""
    for case, cells in (
            (Network(1, 2, 0, [(0, 1, -5)]), [0, 1, -5, *[0] * 14]),
            (Network(2, 2, 0, [(0, 1, 7)]), [FAR, 7, FAR, FAR, *[0] * 16]),
            (Network(3, 2, 0, [(1, 1, -5)]), [1, 0, 1, -5, *[0] * 24]),
            (Network(4, 2, 0, [(0, 1, -5)]), [0, 1, -5, *[0] * 16]),
            (Network(5, 2, 0, [(0, 1, -5)], 1),
             [0, 1, -5, *[0] * 14, 1, *[0] * 3])):
        checks.equal(model.intake(network.request_words(case)), cells,
                     f"starting cells of {case}")


def check_counted(checks, header):
    """Length, rounds and addresses of one plan, from its words.

    The rounds are told by depths and by the heaviest chain.
    """
    operations = list(model.plan_operations(header))
    total = model.cells_of(header).total
    words = model.plan_words(header)
    checks.equal(len(operations) + 1, model.plan_length(header),
                 f"length of {header}")
    checks.equal(model.rounds_of(operations), rounds_by_formula(header),
                 f"rounds of {header}")
    checks.equal(chains.heaviest_chain(operations), rounds_by_formula(header),
                 f"heaviest chain of {header}")
    checks.equal(model.foreign_refusal(words, total, 2 * len(words)), None,
                 f"plan of {header} as a foreign plan")


def check_lengths(checks):
    """Lengths and rounds by formula, and from the words of plans."""
    for header, *stated in (
            (Header(1, 32, 128, 0), 1_060_836, 1_060_837, 488, 166_832),
            (Header(2, 32, 0, 0), 44_227, 44_227, model.DESK_CELLS, 9_633),
            (Header(3, 32, 128, 0), 437_221, 437_222, 8_874, 38_151),
            (Header(4, 32, 128, 0), 521_371, 521_372, 1_510, 1_136),
            (Header(5, 32, 128, 0), 1_072_196, 1_072_197, 552, 166_832)):
        checks.equal([model.plan_length(header), model.log_length(header),
                      model.cells_of(header).total, rounds_by_formula(header)],
                     stated, f"figures of {header}")
    for method in (1, 4, 5):
        largest = Header(method, 32, 128, 0)
        checks.equal(model.rounds_of(model.plan_operations(largest)),
                     rounds_by_formula(largest), f"rounds of {largest}")
        checks.equal(1 + sum(1 for _ in model.plan_operations(largest)),
                     model.plan_length(largest), f"length of {largest}")
    check_counted(checks, Header(2, 32, 0, 0))
    check_counted(checks, Header(3, 32, 128, 31))
    for n in range(1, 9):
        check_counted(checks, Header(2, n, 0, n - 1))
        for m in range(5):
            check_counted(checks, Header(1, n, m, n - 1))
            check_counted(checks, Header(3, n, m, n - 1))


def check_lengths_method_4(checks):
    """The same of method 4."""
    for n in range(1, 8):
        for m in range(8):
            check_counted(checks, Header(4, n, m, 0))
    check_counted(checks, Header(4, 12, 12, 0))
    check_counted(checks, Header(4, 32, 0, 0))


def check_lengths_method_5(checks):
    """The same of method 5, whose words begin with method 1's."""
    for n in range(1, 13):
        for m in range(13):
            header = Header(5, n, m, n // 2)
            check_counted(checks, header)
            begun = list(model.plan_operations(header._replace(method=1)))[:-1]
            plan = model.plan_operations(header)
            checks.equal(list(islice(plan, len(begun))), begun,
                         f"the beginning of the plan of {header}")


def check_sizes(checks):
    """The five lengths that a header asks for, or its refusal."""
    for header, *stated in ((Header(1, 3, 2, 0), 23, 174, 3, 3, 0),
                            (Header(2, 3, 0, 0), 30, 147, 3, 3, 0),
                            (Header(3, 3, 2, 0), 45, 154, 3, 3, 0),
                            (Header(4, 3, 2, 0), 30, 256, 9, 0, 0),
                            (Header(4, 1, 0, 0), 10, 40, 1, 0, 0),
                            (Header(4, 32, 128, 0),
                             1_510, 521_372, 1_024, 0, 0),
                            (Header(5, 3, 2, 0), 29, 212, 3, 3, 2),
                            (Header(5, 1, 0, 0), 13, 10, 1, 1, 0),
                            (Header(5, 32, 32, 0), 264, 270_405, 32, 32, 31)):
        checks.equal(model.sizes_needed([model.join_header(header)]),
                     Lent(*stated), f"sizes of {header}")
    for header, number in ((Header(0, 1, 0, 0), 1), (Header(6, 1, 0, 0), 1),
                           (Header(4, 33, 0, 0), 2), (Header(5, 33, 0, 0), 2),
                           (Header(4, 1, 129, 0), 3), (Header(5, 1, 129, 0), 3),
                           (Header(4, 2, 0, 1), 4), (Header(5, 1, 0, 1), 4)):
        checks.equal(model.sizes_needed([model.join_header(header)]),
                     Refusal(number), f"sizes of {header}")
    checks.equal(model.sizes_needed([]), Refusal(1), "sizes of no header")


def check_depths(checks):
    """What each operation reads and writes, by depths worked out by hand."""
    for rounds, *operations in (
            (0,),
            (0, (COPY, 0, 0, 0), (ADD, 1, 0, 0)),
            (6, (LESS, 0, 1, 2)),
            # What comes from nowhere deeper is done in the same rounds.
            (6, (LESS, 0, 1, 2), (EQUAL, 3, 1, 2), (SET, 1, 0, 5)),
            # Both operands count, and the written cell where it is one.
            (12, (LESS, 0, 1, 2), (EQUAL, 3, 0, 1)),
            (12, (LESS, 0, 1, 2), (EQUAL, 3, 1, 0)),
            (12, (LESS, 0, 0, 0), (LESS, 0, 0, 0)),
            (7, (LESS, 0, 1, 2), (BOTH, 3, 1, 0)),
            (12, (LESS, 0, 1, 2), (ADD, 3, 1, 0), (COPY, 4, 3, 0),
             (LESS, 5, 4, 4)),
            # A written cell takes the new depth, even where it is a lesser one.
            (7, (LESS, 0, 1, 2), (SET, 0, 0, 0), (LESS, 3, 0, 0)),
            (6, (LESS, 0, 1, 2), (COPY, 0, 1, 0), (EQUAL, 3, 0, 0)),
            # The fields of SET are no addresses.
            (7, (LESS, 1, 2, 2), (SET, 0, 1, 1), (LESS, 3, 0, 0)),
            # MOVEIF reads [d] too, and moves depths where [a] is 0.
            (7, (LESS, 0, 1, 2), (MOVEIF, 0, 1, 2)),
            (7, (LESS, 0, 1, 2), (MOVEIF, 3, 0, 2)),
            (13, (LESS, 0, 1, 2), (MOVEIF, 3, 4, 0), (LESS, 5, 3, 3)),
            # OPEN reads [a] and writes no cell, not even cell 0.
            (7, (LESS, 1, 2, 2), (OPEN, 0, 1, 0)),
            (7, (LESS, 1, 2, 2), (OPEN, 0, 1, 0), (LESS, 3, 0, 0))):
        cells, log = [0] * 6, [0] * 9
        plan = [0, *map(model.join_operation, operations)]
        checks.equal(model.run_foreign(plan, cells, log).rounds, rounds,
                     f"rounds of {operations}")
        checks.equal(chains.heaviest_chain(operations), rounds,
                     f"heaviest chain of {operations}")


def check_spelled_plans(checks):
    """The plans of small headers, spelled out by hand.

    Of method 5 what comes after method 1's words.
    """
    for header, plan, places in (
            (Header(1, 2, 1, 0), spelled.PLAN_1, spelled.PLACES_1),
            (Header(2, 2, 0, 1), spelled.PLAN_2, spelled.PLACES_2),
            (Header(3, 2, 2, 1), spelled.PLAN_3, spelled.PLACES_3),
            (Header(4, 2, 2, 0), spelled.PLAN_4, spelled.PLACES_4)):
        checks.equal(list(model.plan_operations(header)),
                     spelled.operations(plan, places), f"plan of {header}")
    header = Header(5, 3, 2, 1)
    begun = list(model.plan_operations(header._replace(method=1)))[:-1]
    checks.equal(list(model.plan_operations(header)),
                 begun + spelled.operations(spelled.END_5, spelled.PLACES_5),
                 f"plan of {header}")


def check_figures_lanes(checks):
    """The figures' networks have as many lanes as their log allows.

    In method 4 they have as many as in method 1, which leaves some of the log.
    """
    most = {method: max(m for m in range(model.MOST_LANES + 1)
                        if FIGURES_LOG_WORDS >= model.log_length(
                            Header(method, figures.YARDS, m, 0)))
            for method in figures.LANES}
    for method, lanes in figures.LANES.items():
        allowed = most[1] if method == 4 else most[method]
        checks.equal(lanes, allowed, f"lanes of the figures, method {method}")
    checks.holds(most[1] <= most[4], "the log of the figures, method 4")


# Refusals

def refused_unchanged(checks, words, lengths, expected):
    """A request on buffers of these lengths is refused and changes none."""
    buffers = [[LENT] * length for length in lengths]
    checks.equal(model.run_request(words, *buffers), expected, "refusal")
    checks.equal(buffers, [[LENT] * length for length in lengths],
                 f"buffers after {expected}")


def climb(checks, headers, inputs, enough, late_refusals):
    """Repair one fault after another; the refusals come in their order.

    `headers` have faults 1 to 4 and then none, each one fault fewer.
    `inputs` are lists of input words, the first of a wrong number, each later
    one with one fault fewer; `late_refusals` belong to those later ones.
    """
    short, none = inputs[0], Lent(0, 0, 0, 0, 0)
    refused_unchanged(checks, [], none, Refusal(1))
    for number, header in enumerate(headers[:4], start=1):
        refused_unchanged(checks, [model.join_header(header), *short], none,
                          Refusal(number))
    first = model.join_header(headers[4])
    refused_unchanged(checks, [first, *short], none, Refusal(5))
    words = [first, *inputs[1]]
    lengths = Lent(*(max(0, length - 1) for length in enough))
    refused_unchanged(checks, words, lengths, Refusal(6))
    lengths = lengths._replace(cells=enough.cells)
    refused_unchanged(checks, words, lengths, Refusal(7))
    lengths = lengths._replace(log=enough.log)
    refused_unchanged(checks, words, lengths, Refusal(8))
    for missing in ("distances", "parents", "route"):
        length = getattr(enough, missing)
        if length > 0:
            one_short = enough._replace(**{missing: length - 1})
            refused_unchanged(checks, words, one_short, Refusal(8))
    for faulty, refusal in zip(inputs[1:], late_refusals):
        refused_unchanged(checks, [first, *faulty], enough, refusal)
    checks.holds(isinstance(answer_to([first, *inputs[-1]]), RequestRan),
                 "a request without faults runs")


def check_methods(checks):
    """Which methods refusal 1 admits."""
    admitted = [method for method in range(16)
                if model.header_refusal([model.join_header(
                    Header(method, 1, 0, 0))]) is None]
    checks.equal(admitted, [1, 2, 3, 4, 5], "methods")


def check_sources(checks):
    """Which sources 4 refuses: in method 4 every one but 0."""
    for n in (1, 2, 31, 32):
        for source in (*range(n + 2), 64, (1 << 20) - 1):
            for method in model.METHODS:
                wrong = source > 0 if method == 4 else source >= n
                header = model.join_header(Header(method, n, 0, source))
                checks.equal(model.header_refusal([header]),
                             Refusal(4) if wrong else None,
                             f"source {source} of {n} yards, method {method}")


def climb_lanes(checks, method, enough, unsorted, destinations, sources=(2, 1)):
    """The refusals of a method with lanes before a run, in their order.

    `unsorted` is there if the method refuses a second lane whose to-yard is
    below the first one's: that refusal, and a lane that is right.
    `destinations` are there if the method has one: a word that it refuses, and
    one that is right.  `sources` are one that it refuses, and one that is
    right.
    """
    wrong, right = sources
    headers = [Header(15, 33, 129, 33), Header(method, 33, 129, 33),
               Header(method, 2, 129, wrong), Header(method, 2, 2, wrong),
               Header(method, 2, 2, right)]
    dear, right = Lane(0, 1, 0, 100_000_001), Lane(0, 1, 0, 100_000_000)
    second = [Lane(2, 2, 1, -100_000_001), Lane(2, 2, 0, -100_000_001),
              Lane(0, 2, 0, -100_000_001), Lane(0, 0, 0, -100_000_001),
              Lane(0, 0, 0, -100_000_000), *unsorted.values()]
    lanes = [[dear], [dear, second[0]], *([right, lane] for lane in second)]
    inputs = [[model.join_lane(lane) for lane in row] for row in lanes]
    refusals = [Refusal(11, 0), Refusal(10, 1), Refusal(13, 1), Refusal(14, 1),
                Refusal(11, 1), *unsorted]
    if destinations:
        wrong, right = destinations
        inputs = [*([*row, wrong] for row in inputs), [*inputs[-1], right]]
        refusals.append(Refusal(16))
    climb(checks, headers, inputs, enough, refusals)


def check_order_lanes(checks):
    """The refusals of methods 1, 3, 4 and 5, in their order."""
    climb_lanes(checks, 1, Lent(20, 85, 2, 2, 0), {}, ())
    climb_lanes(checks, 3, Lent(36, 86, 2, 2, 0),
                {Refusal(15, 1): Lane(0, 1, 0, -100_000_000)}, ())
    climb_lanes(checks, 4, Lent(22, 128, 4, 0, 0), {}, (), sources=(1, 0))
    for wrong in (2, 1 << 63, MOST_WORD):
        climb_lanes(checks, 5, Lent(24, 105, 2, 2, 1), {}, (wrong, 1))


def check_table_buffers(checks):
    """Method 4 needs n * n distances, and looks at no parents and no route."""
    words = network.request_words(Network(4, 3, 0, [(0, 1, 5)]))
    needed = model.lengths_needed(model.split_header(words[0]))
    for short in (0, 3, 8):
        lengths = needed._replace(distances=short, parents=32, route=31)
        refused_unchanged(checks, words, lengths, Refusal(8))
    for parents, route in ((0, 0), (1, 0), (0, 1), (3, 2), (32, 31)):
        lengths = needed._replace(distances=10, parents=parents, route=route)
        buffers = Lent(*([LENT] * length for length in lengths))
        checks.equal(model.run_request(words, *buffers), RequestRan(44, 211, 0),
                     "method 4 beside buffers that it does not need")
        checks.equal(buffers[2:], ([0, 5, FAR, FAR, 0, FAR, FAR, FAR, 0, LENT],
                                   [LENT] * parents, [LENT] * route),
                     "results of method 4")


def check_destination(checks):
    """Which destinations 16 refuses, and how many words 5 expects."""
    for n in (1, 2, 31, 32):
        right, wrong = range(n), [n, n + 1, 1 << 63, MOST_WORD - n, MOST_WORD]
        wrong += [high + n - 1 for high in (1 << 8, 1 << 20, 1 << 32, 1 << 63)]
        header = model.join_header(Header(5, n, 0, n - 1))
        for word in (*right, *wrong):
            answer = answer_to([header, word])
            checks.equal(refusal_of(answer), Refusal(16) if word >= n else None,
                         f"destination {word} of {n} yards")
    lane = model.join_lane(Lane(0, 1, 0, 5))
    for m in range(3):
        for method, count in ((1, m), (3, m), (4, m), (5, m + 1)):
            header = model.join_header(Header(method, 2, m, 0))
            for words in range(m + 3):
                answer = answer_to([header, *[lane] * min(words, m),
                                    *[1] * max(0, words - m)])
                checks.equal(refusal_of(answer),
                             None if words == count else Refusal(5),
                             f"{words} words, {m} lanes, method {method}")


def check_sorted(checks):
    """15 looks at the lane before alone, and lanes are tested one by one."""
    to = [Lane(0, target, 0, 5) for target in range(3)]
    spare = Lane(0, 0, 1, 5)
    for lanes, refusal in (((to[0], to[2], to[1], to[2]), Refusal(15, 2)),
                           ((to[2], to[1], to[0], to[0]), Refusal(15, 1)),
                           ((to[1], to[1], to[2], to[0]), Refusal(15, 3)),
                           ((to[1], to[0], spare), Refusal(15, 1)),
                           ((to[1], spare, to[0]), Refusal(10, 1)),
                           ((to[0], to[0], to[2], to[2]), None)):
        answer = answer_to([model.join_header(Header(3, 3, len(lanes), 0)),
                            *map(model.join_lane, lanes)])
        checks.equal(refusal_of(answer), refusal, f"order of {lanes}")


def check_order_method_2(checks):
    """The refusals of method 2 before a run, in their order."""
    headers = [Header(0, 0, 1, 0), Header(2, 0, 1, 0), Header(2, 2, 1, 2),
               Header(2, 2, 0, 2), Header(2, 2, 0, 1)]
    tables = [[(0, 5)], [(0, -2), (0, 5), (1, -2), (0, -1)],
              [(0, -1), (0, 5), (1, 100_000_001), (0, -1)],
              [(0, -1), (0, 5), (0, 100_000_001), (0, -1)],
              [(0, -1), (0, 5), (0, 100_000_000), (0, -1)]]
    inputs = [[model.join_table_entry(TableEntry(*entry)) for entry in row]
              for row in tables]
    climb(checks, headers, inputs, Lent(20, 67, 2, 2, 0),
          [Refusal(11, 0), Refusal(10, 2), Refusal(11, 2)])


def check_desk(checks):
    """The desk's lines for requests that do not run, or have no parents."""
    printed = {
        "": "refused 1", "10000200001000": "refused 1",
        "1000020000000000" + "00": "refused 5",
        "1000020000200000" + "0001000000000001" + "00": "refused 5",
        "10002100002000": "refused 1", "1000210000200000" + "00": "refused 2",
        "1000200000100000" + "0000000000000000": "refused 7",
        "1000010000100000" + "0000000005F5E101": "refused 11 0",
        "1000010000100000" + "0101000105F5E101": "refused 10 0",
        "1000010000100000" + "0101000005F5E101": "refused 13 0",
        "1000010000100000" + "0001000005F5E101": "refused 14 0",
        "1000010000100000" + "00000000FFFFFFFF": "refused 12",
    }
    for request, line in printed.items():
        checks.equal(model.desk_lines(bytes.fromhex(request)), [line],
                     f"desk, {request}")
    table = network.request_words(Network(2, 2, 1, [(0, 1, 3)]))
    data = b"".join(word.to_bytes(8, "big") for word in table)
    checks.equal(model.desk_lines(data), ["2 2 0 1 63 0", "1 0 -"],
                 "desk, method 2")


def check_desk_listings(checks):
    """The desk's lines with arguments: `all` first lists every yard."""
    data = bytes.fromhex("1000030000100000" + "00010000FFFFFFFB")
    listed = ["1 3 1 0 46 0", "0 0 -", "1 -5 0"]
    for arguments in ((), ("",), ("al",), ("alll",), ("ALL",), ("all ",),
                      ("x", "all")):
        checks.equal(model.desk_lines(data, *arguments), listed,
                     f"desk, arguments {arguments}")
    for arguments in (("all",), ("all", "x")):
        checks.equal(model.desk_lines(data, *arguments), [*listed, "2 - -"],
                     f"desk, arguments {arguments}")


def check_desk_method_3(checks):
    """The desk's lines for method 3: its bank has too few cells for some."""
    for n, m, line in ((2, 128, "3 2 128 0 2331 0"),
                       (3, 116, "3 3 116 0 3172 0"), (3, 117, "refused 6"),
                       (4, 93, "3 4 93 0 3403 0"), (4, 94, "refused 7"),
                       (4, 96, "refused 7"), (4, 97, "refused 6"),
                       (32, 1, "3 32 1 0 1575 0"), (32, 2, "refused 7"),
                       (32, 15, "refused 7"), (32, 16, "refused 6")):
        data = model.join_header(Header(3, n, m, 0)).to_bytes(8, "big")
        checks.equal(model.desk_lines(data + bytes(8 * m))[0], line,
                     f"desk, method 3, {n} yards and {m} lanes")
    unsorted = "3000020000200000" + "0001000000000000" + "0000000000000000"
    checks.equal(model.desk_lines(bytes.fromhex(unsorted)), ["refused 15 1"],
                 "desk, lanes that are not sorted")


def check_desk_method_4(checks):
    """The desk's lines for method 4: pairs, refusals, what its buffers hold."""
    data = bytes.fromhex("4000020000100000" + "00010000FFFFFFFB")
    listed = ["4 2 1 0 37 0", "0 0 0", "0 1 -5", "1 1 0"]
    for arguments in ((), ("",), ("al",), ("x", "all")):
        checks.equal(model.desk_lines(data, *arguments), listed,
                     f"desk, method 4, arguments {arguments}")
    for arguments in (("all",), ("all", "x")):
        checks.equal(model.desk_lines(data, *arguments),
                     [*listed[:3], "1 0 -", listed[3]],
                     f"desk, method 4, arguments {arguments}")
    checks.equal(model.desk_lines(bytes.fromhex("4000030000000000"), "all"),
                 ["4 3 0 0 30 0", "0 0 0", "0 1 -", "0 2 -", "1 0 -", "1 1 0",
                  "1 2 -", "2 0 -", "2 1 -", "2 2 0"],
                 "desk, method 4, no lanes")
    rebate, apart = "00000000FFFFFFFF", "01020000FFFFFFFF" + "02010000FFFFFFFF"
    printed = {
        "0000010000000000": "refused 1", "6000010000000000": "refused 1",
        "4000210000000001": "refused 2", "4000010008100001": "refused 3",
        "4000020000000001": "refused 4", "4000020000000001" + "00": "refused 4",
        "40000200000FFFFF": "refused 4", "4000020000100000": "refused 5",
        "4000020000000000" + "00": "refused 5",
        "4000010000100000" + rebate * 2: "refused 5",
        "4000010000100000" + "0101000105F5E101": "refused 10 0",
        "4000010000100000" + "0101000005F5E101": "refused 13 0",
        "4000010000100000" + "0001000005F5E101": "refused 14 0",
        "4000010000100000" + "0000000005F5E101": "refused 11 0",
        "4000010000100000" + rebate: "refused 12",
        "4000030000200000" + apart: "refused 12",
    }
    for request, line in printed.items():
        for arguments in ((), ("all",)):
            checks.equal(model.desk_lines(bytes.fromhex(request), *arguments),
                         [line], f"desk, {request}")
    for n, m, line in ((2, 128, "4 2 128 0 926 0"),
                       (3, 128, "4 3 128 0 933 0"),
                       (4, 109, "4 4 109 0 807 0"), (4, 110, "refused 7"),
                       (13, 0, "4 13 0 0 100 0"), (13, 1, "4 13 1 0 114 0"),
                       (13, 2, "refused 7"), (14, 0, "refused 7"),
                       (26, 128, "refused 7"), (27, 124, "refused 7"),
                       (27, 125, "refused 6"), (32, 0, "refused 7"),
                       (32, 21, "refused 7"), (32, 22, "refused 6"),
                       (32, 128, "refused 6")):
        data = model.join_header(Header(4, n, m, 0)).to_bytes(8, "big")
        checks.equal(model.desk_lines(data + bytes(8 * m))[0], line,
                     f"desk, method 4, {n} yards and {m} lanes")


def check_desk_method_5(checks):
    """The desk's lines for method 5: the route, 16, and what its log holds."""
    lanes = "0001000000000007" + "02010000FFFFFFFC" + "0002000000000009"
    yards = ["5 3 3 0 100 0", "0 0 -", "1 5 1", "2 9 2"]
    for destination, line in enumerate(("route", "route 1 2", "route 2")):
        data = bytes.fromhex(f"5000030000300000{lanes}{destination:016X}")
        checks.equal(model.desk_lines(data), [*yards, line],
                     f"desk, the route to yard {destination}")
    apart = bytes.fromhex("5000020000000000" + "0000000000000001")
    checks.equal(model.desk_lines(apart), ["5 2 0 0 9 0", "0 0 -", "route"],
                 "desk, the route to an unreached yard")
    checks.equal(model.desk_lines(apart, "all"),
                 ["5 2 0 0 9 0", "0 0 -", "1 - -", "route"],
                 "desk, the route to an unreached yard, all")
    printed = {
        "5000030000300000" + lanes: "refused 5",
        "5000030000300000" + lanes + "00": "refused 5",
        "5000030000300000" + lanes + "00" * 9: "refused 5",
        "5000030000300000" + lanes + "0000000000000003": "refused 16",
        "5000030000300000" + lanes + "FFFFFFFFFFFFFFFF": "refused 16",
        "5000010000100000" + "0000000005F5E101" + "F" * 16: "refused 11 0",
        "5000010000100000" + "00000000FFFFFFFF" + "F" * 16: "refused 16",
        "5000010000100000" + "00000000FFFFFFFF" + "0" * 16: "refused 12",
    }
    for request, line in printed.items():
        checks.equal(model.desk_lines(bytes.fromhex(request)), [line],
                     f"desk, {request}")
    for n, m, line in ((2, 128, "5 2 128 0 1682 0"),
                       (3, 93, "5 3 93 0 2530 0"), (3, 94, "refused 7"),
                       (26, 1, "5 26 1 0 1683 0"), (27, 1, "refused 7"),
                       (32, 0, "5 32 0 0 1179 0"), (32, 1, "refused 7"),
                       (32, 128, "refused 7")):
        data = model.join_header(Header(5, n, m, 0)).to_bytes(8, "big")
        checks.equal(model.desk_lines(data + bytes(8 * m + 8))[0], line,
                     f"desk, method 5, {n} yards and {m} lanes")


def check_plan_writer(checks):
    """Plan writing and its refusals."""
    refused = ((None, 1), (Header(15, 0, 0, 0), 1), (Header(1, 0, 129, 0), 2),
               (Header(2, 1, 1, 1), 3), (Header(1, 1, 129, 1), 3),
               (Header(3, 1, 129, 1), 3), (Header(4, 1, 129, 1), 3),
               (Header(5, 1, 129, 1), 3), (Header(1, 1, 128, 1), 4),
               (Header(3, 1, 128, 1), 4), (Header(4, 2, 128, 1), 4),
               (Header(5, 1, 128, 1), 4))
    for header, number in refused:
        words = [] if header is None else [model.join_header(header)]
        checks.equal(model.write_plan(words, []), Refusal(number),
                     "plan writer")
    for header in (Header(1, 1, 0, 0), Header(1, 3, 2, 1), Header(2, 2, 0, 1),
                   Header(3, 1, 0, 0), Header(3, 3, 2, 1), Header(4, 1, 0, 0),
                   Header(4, 3, 2, 0), Header(5, 1, 0, 0), Header(5, 3, 2, 1)):
        words, length = [model.join_header(header)], model.plan_length(header)
        buffer = [LENT] * (length - 1)
        checks.equal(model.write_plan(words, buffer), Refusal(7),
                     "plan writer, short buffer")
        checks.equal(buffer, [LENT] * (length - 1), "buffer after refusal 7")
        buffer = [LENT] * (length + SURPLUS)
        checks.equal(model.write_plan(words, buffer), PlanWritten(length),
                     "plan writer, length")
        checks.equal(buffer, model.plan_words(header) + [LENT] * SURPLUS,
                     "plan writer, words")


# Foreign plans and replay

def check_foreign_words(checks):
    """Which words the runner refuses, four cells being lent."""
    refused = [(8, 0, 0, 0), (15, 0, 0, 0), (COPY, 0, 0, 1), (OPEN, 1, 0, 0),
               (OPEN, 0, 0, 1), (SET, 4, 0, 0), (COPY, 4, 0, 0),
               (COPY, 0, 4, 0), (OPEN, 0, 4, 0)]
    refused += [(op, *fields) for op in range(ADD, OPEN)
                for fields in ((4, 0, 0), (0, 4, 0), (0, 0, 4))]
    allowed = [(SET, 3, 1_048_575, 1_048_575), (COPY, 3, 3, 0), (OPEN, 0, 3, 0)]
    allowed += [(op, 3, 3, 3) for op in range(ADD, OPEN)]
    for operations, answer in ((refused, True), (allowed, False)):
        for operation in operations:
            word = model.join_operation(operation)
            checks.equal(model.plan_word_refused(1, word, 4), answer,
                         f"plan word {operation}")
            checks.equal(model.plan_word_refused(0, word, 4), False,
                         f"header like {operation}")
    checks.equal([model.plan_word_refused(place, 0, 1)
                  for place in (16_777_215, 16_777_216, 16_777_217)],
                 [False, True, True], "last place of a plan")


def check_foreign_order(checks):
    """The runner's refusals in order, and the plans without operations."""
    opening = model.join_operation((OPEN, 0, 0, 0))
    wrong = model.join_operation((8, 0, 0, 0))
    header = (1 << 64) - 1
    for plan, expected in (([header, opening, wrong, wrong], Refusal(9, 2)),
                           ([header, opening, opening], Refusal(7))):
        cells, log = [LENT], [LENT] * 4
        checks.equal(model.run_foreign(plan, cells, log), expected, "runner")
        checks.equal((cells, log), ([LENT], [LENT] * 4),
                     f"buffers after {expected}")
    checks.equal(model.run_foreign([wrong, wrong], [], []), Refusal(9, 1),
                 "9 before 7")
    log = [LENT]
    checks.equal(model.run_foreign([], [], log), PlanRan(0, 0), "empty plan")
    checks.equal(log, [LENT], "log of an empty plan")
    checks.equal(model.run_foreign([header], [], log), PlanRan(0, 1),
                 "header alone")
    checks.equal(log, [header], "log of a header alone")


def random_operation(rng, op, cell_count):
    """An operation of this op that the runner takes on so many cells."""
    d, a, b = (rng.randrange(cell_count) for _ in range(3))
    if op == SET and rng.random() < 0.5:
        return op, d, rng.randrange(1 << 20), rng.randrange(1 << 20)
    if op == COPY:
        return op, d, a, 0
    if op == OPEN:
        return op, 0, a, 0
    return op, d, a, b


def without_published(log):
    """The words of a log that are not published cells."""
    kept, published = list(log[:1]), False
    for word in log[1:]:
        if published:
            published = False
            continue
        kept.append(word)
        published = model.split_operation(word).op == OPEN
    return kept


def charge_of(log):
    """The charge of a log, from its own words."""
    operations = without_published(log)[1:]
    return model.rounds_of(map(model.split_operation, operations))


def check_depths_random(checks, rng):
    """Random operations on few cells, so that chains are long, and on many.

    They have some of the ops alone: a SET now and then keeps chains short.
    """
    count = rng.choice((1, 2, 3, 8, 40, 1 << 20))
    length = rng.choice((0, 1, 2, 3, 20, 200))
    ops = rng.sample(range(8), rng.randint(1, 8))
    operations = [random_operation(rng, rng.choice(ops), count)
                  for _ in range(length)]
    checks.equal(model.rounds_of(operations), chains.heaviest_chain(operations),
                 f"rounds of {operations}")


def check_foreign_random(checks, rng):
    """Random foreign plans: log, rounds and replay."""
    count = rng.randrange(1, 6)
    start = [rng.choice((0, 1, -1, MOST_CELL, -MOST_CELL - 1,
                         rng.randrange(-9, 10))) for _ in range(count)]
    operations = [random_operation(rng, rng.randrange(8), count)
                  for _ in range(rng.randrange(1, 30))]
    plan = [rng.getrandbits(64), *map(model.join_operation, operations)]
    cells, log = list(start), [LENT] * 99
    ran = model.run_foreign(plan, cells, log)
    checks.equal(ran.rounds, chains.heaviest_chain(operations),
                 "rounds of a foreign plan")
    checks.equal(log[ran.log_length:], [LENT] * (99 - ran.log_length),
                 "log beyond a foreign plan")
    log = log[:ran.log_length]
    checks.equal(without_published(log), plan, "log without published words")
    checks.equal(charge_of(log), ran.rounds, "charge of a foreign plan's log")
    checks.holds(model.replay(log, start), "replay goes to the end")
    checks.equal(start, cells, "cells of a replayed foreign plan")


def check_replay_ends(checks):
    """Published words are passed over; a bad word ends a replay."""
    opening = model.join_operation((OPEN, 0, 0, 0))
    one = model.join_operation((SET, 0, 0, 1))
    beyond = model.join_operation((SET, 1, 0, 1))
    wrong = model.join_operation((8, 0, 0, 0))
    for log, ended, left in (([wrong, opening, wrong, one], False, 1),
                             ([wrong, opening, one], False, 0),
                             ([0, wrong, one], True, 0),
                             ([0, one, beyond], True, 1)):
        cells = [0]
        checks.equal(model.replay(log, cells), not ended, "end of a replay")
        checks.equal(cells, [left], "cells of a replay")


# Random requests

def random_lanes(rng, n, m, kind):
    """Random lanes of one of four kinds of prices."""
    lowest, highest = ((-4, 9), (0, 2), (-100_000_000, 100_000_000),
                       (-1, 4))[kind]
    return [(rng.randrange(n), rng.randrange(n), rng.randint(lowest, highest))
            for _ in range(m)]


def by_target(lanes):
    """The lanes sorted by to-yard."""
    return sorted(lanes, key=lambda lane: lane[1])


def random_sorted_lanes(rng, n, m, kind):
    """Random lanes sorted by to-yard, often to few of the yards."""
    targets = rng.sample(range(n), rng.randint(1, n))
    return by_target((origin, rng.choice(targets), price) for origin, _, price
                     in random_lanes(rng, n, m, kind))


def random_ties(rng):
    """Yards, source and many lanes whose prices nearly cancel on circles."""
    n = rng.randint(4, 5)
    heights = [rng.randrange(9) for _ in range(n)]
    ends = [(rng.randrange(n), rng.randrange(n)) for _ in range(4 * n)]
    lanes = [(u, v, heights[v] - heights[u] + (rng.randrange(4) == 0))
             for u, v in ends]
    return n, rng.randrange(n), lanes


def random_chain(rng):
    """A network of method 5 whose route passes through every yard.

    The other lanes are too dear for any least walk.
    """
    n = rng.randint(3, 6)
    yards = rng.sample(range(n), n)
    lanes = [(*ends, rng.randint(-9, 9)) for ends in zip(yards, yards[1:])]
    lanes += [(u, v, price + 100) for u, v, price
              in random_lanes(rng, n, rng.randrange(5), 0)]
    rng.shuffle(lanes)
    return Network(5, n, yards[0], lanes, yards[-1])


def random_apart(rng):
    """A network of method 4 with many rebates; no lane leaves yard 0."""
    n = rng.randint(2, 6)
    lanes = [(rng.randrange(1, n), rng.randrange(n), rng.randint(-4, 6))
             for _ in range(rng.randint(1, 10))]
    return Network(4, n, 0, lanes)


def random_table(rng, n, kind):
    """Random lanes of method 2, of one of four kinds of prices."""
    highest = (2, 9, 100, 100_000_000)[kind]
    share = rng.choice((0.2, 0.5, 1.0))
    return [(u, v, rng.randint(0, highest)) for u in range(n) for v in range(n)
            if rng.random() < share]


def random_source(rng, method, n):
    """A random source; method 4 has 0 alone."""
    return rng.randrange(model.sources_of(method, n))


def random_network(rng, method, n, m, source):
    """A random network with this public part."""
    kind = rng.randrange(4)
    if method == 2:
        return Network(method, n, source, random_table(rng, n, kind))
    lanes_of = random_sorted_lanes if method == 3 else random_lanes
    destination = rng.randrange(n) if method == 5 else None
    return Network(method, n, source, lanes_of(rng, n, m, kind), destination)


def several_end_least(lanes, yard, distances):
    """Whether several lanes are the last step of a least walk to the yard."""
    return sum(walks.ends_least_walk(yard, lane, distances)
               for lane in lanes) > 1


def lane_shapes(case):
    """What a run over lanes could get wrong, and if it is there."""
    lanes = case.lanes
    _, loss_circle = network.walk_distances(case)
    return {
        "one yard": case.yards == 1,
        "no lanes": not lanes,
        "parallel lanes": len({lane[:2] for lane in lanes}) < len(lanes),
        "a lane to its own yard": any(u == v for u, v, _ in lanes),
        "a circle of price 0": any((v, u, -price) in lanes
                                   for u, v, price in lanes),
        "a loss circle": loss_circle,
    }


def source_shapes(case):
    """What besides that a run from one source could get wrong."""
    lanes = case.lanes
    distances, loss_circle = network.walk_distances(case)
    return {
        "a rebate from an unreached yard": any(
            distances[u] is None and price < 0 for u, _, price in lanes),
        "a tie": not loss_circle and any(
            several_end_least(lanes, v, distances)
            for v in range(case.yards)),
    }


def table_shapes(case):
    """What besides that a run of method 4 could get wrong.

    Each row is looked at as a network of its own from that row's yard.
    """
    rows = [case._replace(method=1, source=v) for v in range(case.yards)]
    circles = [network.walk_distances(row)[1] for row in rows]
    shapes = [source_shapes(row) for row in rows]
    distances, loss_circle = network.walk_distances(case)
    return {
        "a loss circle that yard 0 reaches": circles[0],
        "a loss circle that yard 0 does not reach": (loss_circle
                                                     and not circles[0]),
        "a pair without a walk": not loss_circle and None in distances,
        "a walk between all pairs": (not loss_circle and case.yards > 1
                                     and None not in distances),
        "a negative total": not loss_circle and any(
            distance is not None and distance < 0 for distance in distances),
        **{name: any(row[name] for row in shapes) for name in shapes[0]},
    }


def sorted_shapes(case):
    """What besides that a run of method 3 could get wrong."""
    targets = Counter(target for _, target, _ in case.lanes)
    return {
        "one segment of several lanes": len(targets) == 1 < len(case.lanes),
        "a yard without lanes to it": len(targets) < case.yards,
        "parents other than method 1's": (
            not network.walk_distances(case)[1]
            and network.run(case).parents
            != network.run(case._replace(method=1)).parents),
    }


def route_shapes(case):
    """What besides that a run of method 5 could get wrong."""
    distances, loss_circle = network.walk_distances(case)
    if loss_circle:
        return {}
    shown = [case.lanes[number] for number
             in network.shown_lanes(network.run(case).route)]
    return {
        "to the source": case.destination == case.source,
        "to the source, on a circle of price 0": any(
            walks.ends_least_walk(case.source, lane, distances)
            for lane in case.lanes) and case.destination == case.source,
        "to an unreached yard": distances[case.destination] is None,
        "over one lane": len(shown) == 1,
        "over some lanes": 1 < len(shown) < case.yards - 1,
        "over n-1 lanes": len(shown) == case.yards - 1 > 1,
        "along a circle of price 0": any((v, u, -price) in case.lanes
                                         for u, v, price in shown),
        "along a tie": any(several_end_least(case.lanes, v, distances)
                           for _, v, _ in shown),
    }


def check_random_run(checks, case):
    """One random request against everything; its log and verdict."""
    header = network.header_of(case)
    finished = network.run(case, SURPLUS, LENT)
    length = model.log_length(header)
    log = finished.log[:length]
    checks.equal(finished.answer[:2], (rounds_by_formula(header), length),
                 f"rounds and log length of {case}")
    checks.holds(network.agrees_with_walks(case, finished),
                 f"walks of {case}")
    checks.equal(without_published(log), model.plan_words(header),
                 f"log of {case}")
    checks.equal(charge_of(log), finished.answer.rounds, f"charge of {case}")
    bank = list(finished.start)
    checks.holds(model.replay(log, bank), f"replay of {case} to the end")
    checks.equal(bank, finished.cells, f"cells left by {case}")
    for name in Lent._fields:
        checks.equal(getattr(finished, name)[-SURPLUS:], [LENT] * SURPLUS,
                     f"{name} beyond the needed part of {case}")
    if finished.answer.verdict == 1:
        results = finished.distances + finished.parents + finished.route
        checks.equal(set(results), {LENT}, f"results of {case}")
    return log, finished.answer.verdict


def check_random_pair(checks, rng, method):
    """Two random requests with the same public part; their verdicts."""
    n = rng.randint(1, 6)
    m, source = rng.randint(0, 10), random_source(rng, method, n)
    pair = [random_network(rng, method, n, m, source) for _ in range(2)]
    (log, verdict), (other_log, other_verdict) = \
        [check_random_run(checks, case) for case in pair]
    checks.equal(log == other_log, verdict == other_verdict,
                 f"logs alike exactly when verdicts agree, {pair}")
    return verdict, other_verdict


def check_random(checks):
    """Random requests of every method and random foreign plans."""
    rng = random.Random(SEED)
    verdicts = {method: [] for method in model.METHODS}
    for _ in range(RANDOM_PAIRS):
        for method, told in verdicts.items():
            told += check_random_pair(checks, rng, method)
    for method in (1, 3, 4, 5):
        checks.holds(min(map(verdicts[method].count, (0, 1))) >= 50,
                     f"both verdicts are common in method {method}")
    for _ in range(RANDOM_PLANS):
        check_foreign_random(checks, rng)
    for _ in range(RANDOM_DEPTHS):
        check_depths_random(checks, rng)


def check_shapes(checks, cases, *shapes_of):
    """Random networks of one method, among which every shape is common."""
    shapes = Counter()
    for case in cases:
        check_random_run(checks, case)
        for shapes_of_case in shapes_of:
            shapes.update(shapes_of_case(case))
    checks.holds(min(shapes.values()) >= LEAST_OF_A_SHAPE,
                 f"every shape is common, {shapes}")


def small_networks(rng, method):
    """Random networks of a method, of up to six yards and ten lanes."""
    for _ in range(RANDOM_PAIRS):
        n = rng.randint(1, 6)
        yield random_network(rng, method, n, rng.randint(0, 10),
                             random_source(rng, method, n))


def check_sorted_shapes(checks):
    """Random networks of method 3."""
    rng = random.Random(SEED)
    cases = [Network(3, n, source, by_target(lanes)) for n, source, lanes
             in (random_ties(rng) for _ in range(RANDOM_TIES))]
    check_shapes(checks, [*cases, *small_networks(rng, 3)], lane_shapes,
                 source_shapes, sorted_shapes)


def check_table_shapes(checks):
    """Random networks of method 4, and the bounds of their sums."""
    rng = random.Random(SEED)
    cases = [Network(4, n, 0, lanes) for n, _, lanes
             in (random_ties(rng) for _ in range(RANDOM_TIES))]
    cases += [random_apart(rng) for _ in range(RANDOM_CHAINS)]
    cases += small_networks(rng, 4)
    check_shapes(checks, cases, lane_shapes, table_shapes)
    for case in cases:
        check_sums(checks, case)


def check_route_shapes(checks):
    """Random networks of method 5, and the same ones in method 1."""
    rng = random.Random(SEED)
    cases = [Network(5, *tied, rng.randrange(tied[0])) for tied
             in (random_ties(rng) for _ in range(RANDOM_TIES))]
    cases += [random_chain(rng) for _ in range(RANDOM_CHAINS)]
    cases += small_networks(rng, 5)
    check_shapes(checks, cases, lane_shapes, source_shapes, route_shapes)
    for case in cases:
        finished = network.run(case)
        other = network.run(case._replace(method=1, destination=None))
        checks.equal(
            (finished.answer.verdict, finished.distances, finished.parents),
            (other.answer.verdict, other.distances, other.parents),
            f"{case} in method 1")


def check_random_walks(checks):
    """The second computation against every walk of small networks."""
    rng = random.Random(SEED)
    for _ in range(RANDOM_WALKS):
        n, m = rng.randint(1, 4), rng.randint(0, 6)
        part = n, random_lanes(rng, n, m, rng.randrange(4)), rng.randrange(n)
        expected = walks.exhaustive(*part)
        distances, _, gains = walks.synchronous(*part)
        checks.equal(walks.bellman_ford(*part), expected, f"walks of {part}")
        checks.equal((distances, gains), expected, f"passes of {part}")


def check_random_tables(checks):
    """The tables of small networks, by every walk, and by runs of method 1."""
    rng = random.Random(SEED)
    for _ in range(RANDOM_WALKS):
        n, m = rng.randint(1, 4), rng.randint(0, 6)
        lanes = random_lanes(rng, n, m, rng.randrange(4))
        finished = network.run(Network(4, n, 0, lanes), 0, LENT)
        rows = [walks.exhaustive(n, lanes, yard) for yard in range(n)]
        loss_circle = any(row[1] for row in rows)
        checks.equal(finished.answer.verdict, int(loss_circle),
                     f"verdict of {lanes}, method 4")
        if loss_circle:
            continue
        for yard, (distances, _) in enumerate(rows):
            row = finished.distances[n * yard:n * yard + n]
            checks.equal(row, network.marked(distances, FAR),
                         f"row {yard} of {lanes}")
            checks.equal(row, network.run(Network(1, n, yard, lanes)).distances,
                         f"row {yard} of {lanes} in method 1")


def check_random_routes(checks):
    """The routes to all yards of small networks, found among every walk."""
    rng = random.Random(SEED)
    for _ in range(RANDOM_WALKS):
        n, m = rng.randint(1, 4), rng.randint(0, 6)
        lanes = random_lanes(rng, n, m, rng.randrange(4))
        source = rng.randrange(n)
        _, loss_circle = walks.exhaustive(n, lanes, source)
        for destination in range(n):
            case = Network(5, n, source, lanes, destination)
            finished = network.run(case, 0, LENT)
            checks.equal(finished.answer.verdict, int(loss_circle),
                         f"verdict of {case}")
            if loss_circle:
                continue
            shown = network.shown_lanes(finished.route)
            least = walks.least_walks(n, lanes, source, destination)
            if destination == source or not least:
                least = {()}
            checks.holds(shown is not None and tuple(shown[::-1]) in least,
                         f"{finished.route} is a least walk of {case}")


def main():
    """Carry out all checks and print how many there were."""
    checks = Checks()
    for check in (check_edge_plan, check_edge_printed, check_edge_method_1,
                  check_edge_method_2, check_edge_limits, check_edge_cells,
                  check_passes, check_tables, check_circles, check_hub,
                  check_largest_table, check_routes, check_fields, check_intake,
                  check_lengths, check_lengths_method_4,
                  check_lengths_method_5, check_sizes, check_depths,
                  check_spelled_plans, check_figures_lanes, check_methods,
                  check_sources, check_order_lanes, check_table_buffers,
                  check_destination, check_sorted, check_order_method_2,
                  check_desk, check_desk_listings, check_desk_method_3,
                  check_desk_method_4, check_desk_method_5, check_plan_writer,
                  check_foreign_words, check_foreign_order, check_replay_ends,
                  check_random, check_sorted_shapes, check_table_shapes,
                  check_route_shapes, check_random_walks, check_random_tables,
                  check_random_routes):
        check(checks)
    print(f"model: {checks.count} checks passed")


if __name__ == "__main__":
    main()
