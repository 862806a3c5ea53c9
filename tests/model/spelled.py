"""Small plans spelled out by hand, one operation a line.

A line is the operation's name, the cell written and the operands, as the rules
read them: `EQUAL X+5 from+0 Y+1` is EQUAL X+5 (from 0, Y+1).  SET has its
number for an operand, OPEN only the cell published.
"""

NAMES = ("SET", "COPY", "ADD", "LESS", "EQUAL", "BOTH", "MOVEIF", "OPEN")

# Method 1, two yards, one lane, source 0: the cells are 17.
PLACES_1 = {"from": 0, "to": 1, "price": 2, "D": 3, "P": 5, "Y": 7, "X": 9}
PLAN_1 = """
SET Y+0 0
SET D+0 0
SET P+0 -1
SET Y+1 1
SET D+1 549755813887
SET P+1 -1
SET X+0 549755813887
SET X+7 0
COPY X+1 X+0
EQUAL X+5 from+0 Y+0
MOVEIF X+1 X+5 D+0
EQUAL X+5 from+0 Y+1
MOVEIF X+1 X+5 D+1
ADD X+2 X+1 price+0
LESS X+4 X+1 X+0
SET X+3 0
EQUAL X+5 to+0 Y+0
LESS X+6 X+2 D+0
BOTH X+6 X+6 X+4
BOTH X+6 X+6 X+5
MOVEIF D+0 X+6 X+2
MOVEIF P+0 X+6 X+3
EQUAL X+5 to+0 Y+1
LESS X+6 X+2 D+1
BOTH X+6 X+6 X+4
BOTH X+6 X+6 X+5
MOVEIF D+1 X+6 X+2
MOVEIF P+1 X+6 X+3
COPY X+1 X+0
EQUAL X+5 from+0 Y+0
MOVEIF X+1 X+5 D+0
EQUAL X+5 from+0 Y+1
MOVEIF X+1 X+5 D+1
ADD X+2 X+1 price+0
LESS X+4 X+1 X+0
EQUAL X+5 to+0 Y+0
LESS X+6 X+2 D+0
BOTH X+6 X+6 X+4
BOTH X+6 X+6 X+5
MOVEIF X+7 X+6 X+6
EQUAL X+5 to+0 Y+1
LESS X+6 X+2 D+1
BOTH X+6 X+6 X+4
BOTH X+6 X+6 X+5
MOVEIF X+7 X+6 X+6
OPEN X+7
"""

# Method 2, two yards, source 1: the cells are 20, the turn comes twice.
PLACES_2 = {"U": 0, "D": 4, "P": 6, "Y": 8, "O": 10, "R": 12, "X": 14}
OPENING_2 = """
SET Y+0 0
SET D+0 549755813887
SET P+0 -1
SET O+0 1
SET Y+1 1
SET D+1 0
SET P+1 -1
SET O+1 1
SET X+0 549755813887
SET X+4 0
"""
TURN_2 = """
COPY X+1 X+0
SET X+3 -1
LESS X+5 D+0 X+1
BOTH X+5 X+5 O+0
MOVEIF X+1 X+5 D+0
MOVEIF X+3 X+5 Y+0
LESS X+5 D+1 X+1
BOTH X+5 X+5 O+1
MOVEIF X+1 X+5 D+1
MOVEIF X+3 X+5 Y+1
COPY R+0 X+0
COPY R+1 X+0
EQUAL X+5 X+3 Y+0
MOVEIF O+0 X+5 X+4
MOVEIF R+0 X+5 U+0
MOVEIF R+1 X+5 U+1
EQUAL X+5 X+3 Y+1
MOVEIF O+1 X+5 X+4
MOVEIF R+0 X+5 U+2
MOVEIF R+1 X+5 U+3
ADD X+2 X+1 R+0
LESS X+5 X+2 D+0
MOVEIF D+0 X+5 X+2
MOVEIF P+0 X+5 X+3
ADD X+2 X+1 R+1
LESS X+5 X+2 D+1
MOVEIF D+1 X+5 X+2
MOVEIF P+1 X+5 X+3
"""
PLAN_2 = OPENING_2 + TURN_2 * 2

# Method 3, two yards, two lanes, source 1: the cells are 36.
PLACES_3 = {"from": 0, "B": 2, "to": 3, "price": 5, "D": 7, "P": 9, "Y": 11,
            "N": 13, "Q": 15, "X": 17, "S": 26, "F": 28, "T": 32}
PLAN_3 = """
SET Y+0 0
SET D+0 549755813887
SET P+0 -1
SET N+0 549755813887
SET Y+1 1
SET D+1 0
SET P+1 -1
SET N+1 549755813887
SET X+0 549755813887
SET X+8 0
SET B+0 -1
LESS S+0 B+0 to+0
EQUAL F+0 from+0 Y+0
EQUAL T+0 to+0 Y+0
EQUAL F+1 from+0 Y+1
EQUAL T+1 to+0 Y+1
LESS S+1 to+0 to+1
EQUAL F+2 from+1 Y+0
EQUAL T+2 to+1 Y+0
EQUAL F+3 from+1 Y+1
EQUAL T+3 to+1 Y+1
COPY X+1 X+0
MOVEIF X+1 F+0 D+0
MOVEIF X+1 F+1 D+1
ADD X+2 X+1 price+0
LESS X+4 X+1 X+0
MOVEIF X+6 S+0 X+0
LESS X+5 X+2 X+6
BOTH X+5 X+5 X+4
MOVEIF X+6 X+5 X+2
SET X+3 0
MOVEIF X+7 X+5 X+3
MOVEIF N+0 T+0 X+6
MOVEIF Q+0 T+0 X+7
MOVEIF N+1 T+1 X+6
MOVEIF Q+1 T+1 X+7
COPY X+1 X+0
MOVEIF X+1 F+2 D+0
MOVEIF X+1 F+3 D+1
ADD X+2 X+1 price+1
LESS X+4 X+1 X+0
MOVEIF X+6 S+1 X+0
LESS X+5 X+2 X+6
BOTH X+5 X+5 X+4
MOVEIF X+6 X+5 X+2
SET X+3 1
MOVEIF X+7 X+5 X+3
MOVEIF N+0 T+2 X+6
MOVEIF Q+0 T+2 X+7
MOVEIF N+1 T+3 X+6
MOVEIF Q+1 T+3 X+7
LESS X+5 N+0 D+0
MOVEIF D+0 X+5 N+0
MOVEIF P+0 X+5 Q+0
LESS X+5 N+1 D+1
MOVEIF D+1 X+5 N+1
MOVEIF P+1 X+5 Q+1
COPY X+1 X+0
MOVEIF X+1 F+0 D+0
MOVEIF X+1 F+1 D+1
ADD X+2 X+1 price+0
LESS X+4 X+1 X+0
MOVEIF X+6 S+0 X+0
LESS X+5 X+2 X+6
BOTH X+5 X+5 X+4
MOVEIF X+6 X+5 X+2
MOVEIF N+0 T+0 X+6
MOVEIF N+1 T+1 X+6
COPY X+1 X+0
MOVEIF X+1 F+2 D+0
MOVEIF X+1 F+3 D+1
ADD X+2 X+1 price+1
LESS X+4 X+1 X+0
MOVEIF X+6 S+1 X+0
LESS X+5 X+2 X+6
BOTH X+5 X+5 X+4
MOVEIF X+6 X+5 X+2
MOVEIF N+0 T+2 X+6
MOVEIF N+1 T+3 X+6
LESS X+5 N+0 D+0
MOVEIF X+8 X+5 X+5
LESS X+5 N+1 D+1
MOVEIF X+8 X+5 X+5
OPEN X+8
"""

# Method 4, two yards, two lanes: the cells are 22, the update comes four times.
PLACES_4 = {"from": 0, "to": 2, "price": 4, "D": 6, "C": 10, "R": 12, "Y": 14,
            "X": 16}
START_4 = """
SET Y+0 0
SET Y+1 1
SET X+0 549755813887
SET X+1 549755813887
""" + 20 * "ADD X+1 X+1 X+1\n" + """
SET X+2 0
SET X+5 0
COPY D+0 X+1
COPY D+1 X+1
COPY D+2 X+1
COPY D+3 X+1
COPY D+0 X+2
COPY D+3 X+2
"""
UPDATE_4 = """
ADD X+3 C+0 R+0
LESS X+4 X+3 D+0
MOVEIF D+0 X+4 X+3
ADD X+3 C+0 R+1
LESS X+4 X+3 D+1
MOVEIF D+1 X+4 X+3
ADD X+3 C+1 R+0
LESS X+4 X+3 D+2
MOVEIF D+2 X+4 X+3
ADD X+3 C+1 R+1
LESS X+4 X+3 D+3
MOVEIF D+3 X+4 X+3
"""
PLAN_4 = START_4 + """
COPY C+0 X+1
EQUAL X+4 from+0 Y+0
MOVEIF C+0 X+4 X+2
COPY R+0 X+1
EQUAL X+4 to+0 Y+0
MOVEIF R+0 X+4 price+0
COPY C+1 X+1
EQUAL X+4 from+0 Y+1
MOVEIF C+1 X+4 X+2
COPY R+1 X+1
EQUAL X+4 to+0 Y+1
MOVEIF R+1 X+4 price+0
""" + UPDATE_4 + """
COPY C+0 X+1
EQUAL X+4 from+1 Y+0
MOVEIF C+0 X+4 X+2
COPY R+0 X+1
EQUAL X+4 to+1 Y+0
MOVEIF R+0 X+4 price+1
COPY C+1 X+1
EQUAL X+4 from+1 Y+1
MOVEIF C+1 X+4 X+2
COPY R+1 X+1
EQUAL X+4 to+1 Y+1
MOVEIF R+1 X+4 price+1
""" + UPDATE_4 + """
COPY C+0 D+0
COPY R+0 D+0
COPY C+1 D+2
COPY R+1 D+1
""" + UPDATE_4 + """
COPY C+0 D+1
COPY R+0 D+2
COPY C+1 D+3
COPY R+1 D+3
""" + UPDATE_4 + """
LESS X+4 D+0 X+2
ADD X+5 X+5 X+4
LESS X+4 D+3 X+2
ADD X+5 X+5 X+4
BOTH X+5 X+5 X+5
LESS X+4 X+0 D+0
MOVEIF D+0 X+4 X+0
LESS X+4 X+0 D+1
MOVEIF D+1 X+4 X+0
LESS X+4 X+0 D+2
MOVEIF D+2 X+4 X+0
LESS X+4 X+0 D+3
MOVEIF D+3 X+4 X+0
OPEN X+5
"""

# Method 5, three yards, two lanes: the cells are 29. What comes after the words
# of method 1.
PLACES_5 = {"from": 0, "to": 2, "price": 4, "D": 6, "P": 9, "Y": 12, "X": 15,
            "Z": 23, "B": 24, "R": 27}
END_5 = """
COPY B+0 Y+0
COPY B+1 Y+1
COPY B+2 Y+2
SET X+3 0
EQUAL X+5 P+0 X+3
MOVEIF B+0 X+5 from+0
EQUAL X+5 P+1 X+3
MOVEIF B+1 X+5 from+0
EQUAL X+5 P+2 X+3
MOVEIF B+2 X+5 from+0
SET X+3 1
EQUAL X+5 P+0 X+3
MOVEIF B+0 X+5 from+1
EQUAL X+5 P+1 X+3
MOVEIF B+1 X+5 from+1
EQUAL X+5 P+2 X+3
MOVEIF B+2 X+5 from+1
COPY X+1 Z+0
COPY X+2 X+1
EQUAL X+5 X+2 Y+0
MOVEIF R+0 X+5 P+0
MOVEIF X+1 X+5 B+0
EQUAL X+5 X+2 Y+1
MOVEIF R+0 X+5 P+1
MOVEIF X+1 X+5 B+1
EQUAL X+5 X+2 Y+2
MOVEIF R+0 X+5 P+2
MOVEIF X+1 X+5 B+2
COPY X+2 X+1
EQUAL X+5 X+2 Y+0
MOVEIF R+1 X+5 P+0
MOVEIF X+1 X+5 B+0
EQUAL X+5 X+2 Y+1
MOVEIF R+1 X+5 P+1
MOVEIF X+1 X+5 B+1
EQUAL X+5 X+2 Y+2
MOVEIF R+1 X+5 P+2
MOVEIF X+1 X+5 B+2
OPEN X+7
"""


def cell(name, places):
    """The number of a cell spelled like X+5."""
    base, offset = name.split("+")
    return places[base] + int(offset)


def operation(line, places):
    """The operation of one line, as (op, d, a, b)."""
    name, first, *rest = line.split()
    op = NAMES.index(name)
    if name == "SET":
        number = int(rest[0]) % (1 << 40)
        return op, cell(first, places), number >> 20, number % (1 << 20)
    if name == "OPEN":
        return op, 0, cell(first, places), 0
    d, a, b = [cell(operand, places) for operand in (first, *rest)] \
        + ([0] if name == "COPY" else [])
    return op, d, a, b


def operations(plan, places):
    """The operations of a plan spelled out."""
    return [operation(line, places) for line in plan.split("\n") if line]
