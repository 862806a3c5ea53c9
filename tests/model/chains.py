"""The rounds of a plan a second time: its heaviest chain, without depths.

A word leans on an earlier one if it reads the cell that the earlier one writes,
and no word between them writes that cell.  In a chain each word leans on the
one before it.  A chain weighs what the rounds of its words come to, and the
rounds of a plan are the weight of its heaviest chain.
"""

from model import ADD, BOTH, COPY, EQUAL, LESS, MOVEIF, OPEN, SET

# By op: the fields of the cells that are read, and the rounds.
TABLE = {SET: ("", 1), COPY: ("a", 0), ADD: ("ab", 0), LESS: ("ab", 6),
         EQUAL: ("ab", 6), BOTH: ("ab", 1), MOVEIF: ("abd", 1),
         OPEN: ("a", 1)}


def leans_on(operations):
    """For each word, the places of those that it leans on."""
    writers = {}
    for place, (op, d, a, b) in enumerate(operations):
        fields = {"d": d, "a": a, "b": b}
        read = {fields[name] for name in TABLE[op][0]}
        yield [writers[cell] for cell in read if cell in writers]
        if op != OPEN:
            writers[d] = place


def heaviest_chain(operations):
    """The weight of the heaviest chain, 0 if there are no words.

    Going from the last word to the first, `after` has what the heaviest chain
    that begins behind a word adds to it.
    """
    leaning = list(leans_on(operations))
    after = [0] * len(operations)
    heaviest = 0
    for place in reversed(range(len(operations))):
        weight = TABLE[operations[place][0]][1] + after[place]
        heaviest = max(heaviest, weight)
        for earlier in leaning[place]:
            after[earlier] = max(after[earlier], weight)
    return heaviest
