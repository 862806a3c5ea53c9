"""Compares the logs that host_log prints with the model.

Networks of every method are sent, with a loss circle too where a verdict is
published.  The whole log is compared, and told here as well: the plan of the
header, and then the verdict.  Requests that are refused get the line that the
desk's program prints.

Then the commands at the end of docs/AUDIT.md are carried out, as they stand and
with the loss circle that the page names in place of either lane.  They have to
print what the page says.
"""

import re
import subprocess
import sys
import tempfile
from itertools import zip_longest
from pathlib import Path

ROOT = Path(__file__).resolve().parents[2]
for folder in ("model", "desk"):
    sys.path.insert(0, str(ROOT / "tests" / folder))

import model
import network
from network import Network
from program import printed, to_bytes

# As many lanes in each, sorted by to-yard.  The losing ones lead from yard 2 to
# yard 1 and back; yard 0 reaches neither.
LANES = [(2, 1, 7), (1, 3, -4), (2, 3, 9), (0, 3, 1)]
OTHER_LANES = [(3, 0, 100_000_000), (2, 1, 0), (2, 2, 5), (1, 3, -100_000_000)]
LOSING_LANES = [(2, 1, 0), (1, 2, -1), (0, 3, 5), (3, 3, 0)]

# Networks, and what is published of each.  The fifth has a log of 8,174 words,
# nearly as many as the desk's holds.
PUBLISHED = (
    (Network(1, 4, 2, LANES), [0]),
    (Network(1, 4, 2, OTHER_LANES), [0]),
    (Network(1, 4, 2, LOSING_LANES), [1]),
    (Network(1, 4, 0, LOSING_LANES), [0]),
    (Network(1, 3, 1, [(0, 2, 0)] * 101 + [(1, 1, -1)]), [1]),
    (Network(2, 4, 2, [(2, 1, 7), (1, 3, 4)]), []),
    (Network(2, 4, 2, [(0, 0, 100_000_000)]), []),
    (Network(3, 4, 2, LANES), [0]),
    (Network(3, 4, 2, OTHER_LANES), [0]),
    (Network(3, 4, 2, LOSING_LANES), [1]),
    (Network(4, 4, 0, LANES), [0]),
    (Network(4, 4, 0, OTHER_LANES), [0]),
    (Network(4, 4, 0, LOSING_LANES), [1]),
    (Network(5, 4, 2, LANES, 3), [0]),
    (Network(5, 4, 2, OTHER_LANES, 0), [0]),
    (Network(5, 4, 2, LOSING_LANES, 1), [1]),
)

# Requests that are refused, and the line that is told here.  The desk's buffers
# never meet 8, 9 is of foreign plans, and a run that ends in 12 has its log.
REFUSED = (
    (b"", "refused 1"),
    (to_bytes([0x6000010000000000]), "refused 1"),
    (to_bytes([0x1000210000000000]), "refused 2"),
    (to_bytes([0x1000010008100000]), "refused 3"),
    (to_bytes([0x4000020000000001]), "refused 4"),
    (to_bytes([0x1000020000100000, 0x0001000000000000])[:-1], "refused 5"),
    (to_bytes([0x3000030007500000, *[0] * 117]), "refused 6"),
    (to_bytes([0x1000030006700000, *[0] * 103]), "refused 7"),
    (to_bytes([0x2000010000000000, 1 << 32]), "refused 10 0"),
    (to_bytes([0x1000010000200000, 0, 100_000_001]), "refused 11 1"),
    (to_bytes([0x1000010000100000, 1 << 56]), "refused 13 0"),
    (to_bytes([0x1000010000100000, 1 << 48]), "refused 14 0"),
    (to_bytes([0x3000020000200000, 1 << 48, 0]), "refused 15 1"),
    (to_bytes([0x5000020000000000, 2]), "refused 16"),
)


def expect(sent, told, lines):
    """End with the first line that is not the one told."""
    for place, (line, other) in enumerate(zip_longest(told, lines)):
        if line != other:
            sys.exit(f"host_log: {sent.hex()}\n  at place {place}\n"
                     f"  told:    {line}\n  program: {other}")


def compare_logs(program):
    """Every word of the logs, by the model's run and by the header's plan."""
    for chosen, published in PUBLISHED:
        sent = to_bytes(network.request_words(chosen))
        lines = printed(program, sent)
        words = [*model.plan_words(network.header_of(chosen)), *published]
        for told in (words, network.run(chosen).log):
            expect(sent, [f"{word:016x}" for word in told], lines)


def compare_refusals(program):
    """The one line of each refusal."""
    for sent, line in REFUSED:
        lines = printed(program, sent)
        expect(sent, [line], lines)
        expect(sent, model.desk_lines(sent), lines)


def end_of_audit():
    """The three commands that AUDIT ends with, and what it says of them.

    The command that makes the program is left out.  What is said is quoted: the
    line that is printed, a loss circle, and the line that is printed with it.
    """
    page = (ROOT / "docs" / "AUDIT.md").read_text()
    found = re.search(r"\n    .*rt run .*\n((?:    .*\n){3})", page)
    after = " ".join(page[found.end():].split()) if found else ""
    quoted = re.findall("`([^`]*)`", after)
    if len(quoted) != 3:
        sys.exit("host_log: the end of docs/AUDIT.md could not be read")
    return [line.strip() for line in found[1].splitlines()], quoted


def answer_to(commands, program):
    """The exit status of the commands, and the first line that they print.

    They are carried out in a folder that has the tools and the program.
    """
    with tempfile.TemporaryDirectory() as name:
        made = Path(name, "crates", "host_log", "out", "host_log")
        made.parent.mkdir(parents=True)
        made.symlink_to(Path(program).resolve())
        Path(name, "tools").symlink_to(ROOT / "tools")
        ended = subprocess.run(["bash", "-c", "\n".join(commands)], cwd=name,
                               capture_output=True, text=True, check=False)
    return ended.returncode, (ended.stdout or ended.stderr).partition("\n")[0]


def compare_audit(program):
    """The commands as they stand, and with the loss circle in either place."""
    (first, second, compare), (equal, circle, differ) = end_of_audit()
    first_loses, second_loses = (re.sub("lane [-0-9 ]+", circle, command)
                                 for command in (first, second))
    for commands, told in (((first, second, compare), (0, equal)),
                           ((first_loses, second, compare), (1, differ)),
                           ((first, second_loses, compare), (1, differ))):
        answer = answer_to(commands, program)
        if answer != told:
            sys.exit("\n  ".join(["host_log: docs/AUDIT.md", *commands,
                                  f"told:    {told}", f"printed: {answer}"]))


def main(program):
    compare_logs(program)
    compare_refusals(program)
    compare_audit(program)
    print(f"host_log: {len(PUBLISHED)} logs and {len(REFUSED)} refusals agree, "
          "and so does the end of docs/AUDIT.md")


if __name__ == "__main__":
    main(*sys.argv[1:])
