#!/usr/bin/env python3
"""Looks at what rt ci says of each must-fail edit, says which show nothing, and counts the others by what refuses them.

An edit can be refused for a reason that shows nothing: it changes the shape of a function, so that a proof file names places of the code that are
gone, or it does not even parse. Such an edit is named, and the exit status is 1. So is one of which nothing is said.

usage: first_errors.py OUTPUT      at the top; OUTPUT has what rt ci printed
"""

import re
import sys
from collections import Counter
from pathlib import Path

# A line on an edit: its crate and name, and what came of it. rt prints the first error that is not about a name alone, and cuts its line short.
LINE = re.compile(r"rt: must-fail (\w+/[\w.-]+\.edit): (.*)")
# Behind "only" stands why a refusal shows little: a proof file names what the edit took away, or the prover came to a limit of its own.
REFUSED = re.compile(r"refused, as it must be(?: \((only .*?)\))?(?:: (.*))?")

# What the first error says where only the code's shape, a name or the syntax is at fault.
SHAPES = [
    r"has no (field|`)",
    r"this pattern needs a function",
    r"expected type `(tie|goal)\.[^`]*`, but this has type `(tie|goal)\.",
    r"is not in scope|is no name",
    r"that can be named from here",
    r"was not admitted",
    r"declarations? that depends? on ",
    r"unexpected|expected (the end|an? (item|expression|pattern|type)\b)|operand is missing|cannot continue|syntax",
    r"too (many|few) arguments",
    # Specs hold definitions alone: what fails there is that one of them makes no sense, and no fact about it.
    r"^(\./)?specs/\S+\.antt:\d+:\d+: error: ",
]

# What an error shows, the most first: a row of a table of facts, which computing decides, is false; a step on sums and orders does not follow, mostly
# with numbers at which it is false; a proof that says what it proves proves something else; and a search, or a rewriting, finds no proof, which alone
# does not show that there is none.
KINDS = [
    ("at a row of facts", r"proofs/(Facts|Runs|Rules|Example|Offered)\.antt:\d+:\d+: error: "),
    ("in arithmetic", r"`omega`|allow values at which"),
    ("where two types differ", r"the two (types|sides)|expected type"),
    ("where a search finds nothing", r""),
]


def told(output):
    """What is said of each edit, by its crate and name."""
    lines = Path(output).read_text(errors="replace").splitlines()
    return dict(found.groups() for found in map(LINE.match, lines) if found)


def complaint(said):
    """What is wrong with an edit of which this is said, or None."""
    if said is None:
        return "it has not been tried"
    refused = REFUSED.fullmatch(said)
    if not refused:
        return said
    only, first = refused.groups()
    if only:
        return f"refused {only}: {first}"
    if not first:
        return "no error says why it was refused"
    if any(re.search(shape, first) for shape in SHAPES):
        return f"refused for its shape, and no fact is broken: {first}"
    return None


def kind(said):
    """The kind of the error that refuses an edit."""
    first = REFUSED.fullmatch(said)[2]
    return next(name for name, pattern in KINDS if re.search(pattern, first))


def counted(kinds):
    """How many there are of each kind, in words."""
    counts = Counter(kinds)
    return ", ".join(f"{counts[name]} {name}" for name, _ in KINDS)


def main(output):
    """Prints each edit that shows nothing, or the counts; the exit status."""
    edits = [f"{edit.parents[1].name}/{edit.name}" for edit in sorted(Path("crates").glob("*/must-fail/*.edit"))]
    said = told(output)
    if not edits:
        print("crates/*/must-fail has no edit", file=sys.stderr)
        return 1
    bad = {edit: complaint(said.get(edit)) for edit in edits if complaint(said.get(edit))}
    for edit, wrong in bad.items():
        print(f"{edit}: {wrong}", file=sys.stderr)
    if bad:
        return 1
    print(f"must-fail: of {len(edits)} edits none is refused for its shape alone")
    print(f"must-fail: by first errors {counted(kind(said[edit]) for edit in edits)}")
    return 0


if __name__ == "__main__":
    sys.exit(main(sys.argv[1]))
