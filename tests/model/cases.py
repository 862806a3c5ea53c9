"""Compares the stored output of the cases program with the model's.

The requests are read from the program's own source, crates/cases/src/main.rt:
each `send` has a name, the words and how many of their bytes are sent, and each
`send_with` an argument besides.  What the desk's program then prints is the
model's to say.
"""

import re
import sys
from pathlib import Path

import model

CRATE = Path(__file__).resolve().parents[2] / "crates" / "cases"
STATEMENT = re.compile(
    r"let mut (?P<array>\w+) = \[(?P<fill>\w+?)u64; (?P<count>\d+)\];"
    r"|(?P<changed>\w+)\[(?P<place>\d+)\] = (?P<word>\w+);"
    r'|send(?:_with\(\s*rt,\s*b"(?P<argument>[^"]*)",|\(\s*rt,)'
    r'\s*b"(?P<name>[^"]*)",'
    r"\s*&(?P<words>\[[^\]]*\]|\w+),\s*(?P<size>\d+),?\s*\);")


def requests(source):
    """The name, the argument and the bytes of each request that is sent."""
    arrays = {}
    for found in STATEMENT.finditer(source):
        if found["array"]:
            fill, count = int(found["fill"], 0), int(found["count"])
            arrays[found["array"]] = [fill] * count
        elif found["changed"]:
            words = arrays[found["changed"]]
            words[int(found["place"])] = int(found["word"], 0)
        else:
            words = arrays.get(found["words"])
            if words is None:
                words = [int(word, 0)
                         for word in re.findall(r"\w+", found["words"])]
            sent = b"".join(word.to_bytes(8, "big") for word in words)
            yield (found["name"], found["argument"] or "",
                   sent[:int(found["size"])])


def main():
    source = (CRATE / "src" / "main.rt").read_text()
    stored = (CRATE / "stdout").read_text().splitlines()
    expected, count = [], 0
    for name, argument, sent in requests(source):
        expected += [name, *model.desk_lines(sent, argument)]
        count += 1
    calls = re.findall(
        r'\bsend(?:_with\(\s*rt,\s*b"[^"]*",|\(\s*rt,)\s*b"', source)
    if count != len(calls):
        sys.exit("cases: a request in main.rt could not be read")
    for place, (said, printed) in enumerate(zip(expected, stored), 1):
        if said != printed:
            sys.exit(f"cases: line {place} differs\n"
                     f"  model:   {said}\n  program: {printed}")
    if len(expected) != len(stored):
        sys.exit(f"cases: {len(expected)} lines in the model, "
                 f"{len(stored)} in the program")
    print(f"cases: {count} requests agree")


if __name__ == "__main__":
    main()
