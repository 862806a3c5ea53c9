#!/usr/bin/env python3
"""Brings the repository's own definitions and lemmas to one spelling: words joined by underscores, types and modules in camel case.

usage: python3 tools/port/spelling.py COMMIT      at the top, right after port.py; COMMIT has the files as they were before it

port.py respells only some of these names, and lets a few fall together that were two (a definition `wordAt` and a lemma `word-at`). So each word of a file
is set beside its word in COMMIT, and takes the name that stands for it: APART's where two names fall together, and else its own in snake case. Names that a
file has from the toolchain's library are left alone, and so are Rust's, strings and what Rattle makes for a function's proof.
"""
import difflib
import glob
import os
import re
import subprocess
import sys

# Lemmas that would be called as the definition that they speak of.
APART = {
    "by-method": "each_method",
    "log-figure": "log_figure_is",
    "results-figure": "results_figure_is",
    "destination-in": "destination_in_is",
    "every-kind": "each_kind_is",
    "first-first": "first_first_is",
    "last-first": "last_first_is",
    "every-vertex": "each_vertex",
    "log-size": "log_size_is",
    "bad-at": "bad_at_is",
    "plan-length": "plan_length_is",
    "plan-log": "plan_log_is",
    "replay-from": "replay_from_is",
    "decode-all": "decode_all_is",
    "log-told": "log_told_is",
    "length-told": "length_told_is",
    "refusal-of": "refusal_of_is",
    "verdict-at": "verdict_at_is",
    "verdict-of": "verdict_of_is",
    "ran-by": "ran_by_is",
    "log-in": "log_in_lent",
    "log-text": "log_text_is",
    "refused-word": "refused_word_is",
    "told-log": "told_log_is",
    "header-meets": "header_meets_each",
    "outline-weight": "outline_weight_is",
    "public-numbers": "public_numbers_are",
    "desk-numbers": "desk_numbers_are",
    "as-run": "as_run_is",
    "all-below": "all_below_is",
    "at-place": "at_place_is",
    "first-of": "first_of_is",
    "is-zero": "is_zero_is",
    "no-edge": "no_edge_is",
    "place-of": "place_of_is",
    "put-back": "put_back_is",
    "row-of": "row_of_is",
    "set-row": "set_row_is",
    "size-of": "size_of_is",
    "word-at": "word_at_is",
    "source-in": "source_in_is",
    "number-of": "number_of_is",
    "left-out": "left_out_is",
    "too-many": "too_many_is",
    "in-range": "in_range_is",
    "sum-bound": "sum_bound_is",
    "same-bytes": "same_bytes_are",
    "cells-left": "cells_left_are",
    "by-number": "by_number_is",
    "strips-of": "strips_of_are",
    "part-of": "part_of_is",
    "figures-of": "figures_of_are",
    "edge-strips": "edge_strips_are",
    "after-word": "after_word_is",
    "depth-from": "depth_from_is",
    "depth-of": "depth_of_is",
    "depth-at": "depth_at_is",
    "rounds-of": "rounds_of_are",
    "first-bad": "first_bad_is",
    "log-length": "log_length_is",
    "copies-the-plan": "copies_the_plan_fails",
    "first-pass-only": "first_pass_only_fails",
    "before-its-first-word": "before_its_first_word_fails",
    "refuses-everything": "refuses_everything_fails",
    "at-intake": "at_intake_fails",
    "beside-the-cells": "beside_the_cells_fails",
    "invented-rounds": "invented_rounds_fails",
    "dearer-lane": "dearer_lane_fails",
    "another-yard": "another_yard_fails",
    "round-and-round": "round_and_round_fails",
    "circle-with-results": "circle_with_results_fails",
    "stops-early": "stops_early_fails",
    "publishes-another": "publishes_another_fails",
    "later-lane": "later_lane_fails",
    "by-columns": "by_columns_fails",
    "circle-passed-over": "circle_passed_over_fails",
    "route-of-nothing": "route_of_nothing_fails",
    "fixed-distances": "fixed_distances_fails",
    "with-the-number": "with_the_number_fails",
}

WORD = re.compile(r"[^\s(){}.;,@\"«»⌜⌝]+")
COMMENT = re.compile(r"(?m)(?:(?<=^)|(?<=[\s(){}.;,@\"«»]))--[^\n]*")
USE = re.compile(r"(?m)^(?:pub )?use ([^\s{;]+?)\.?(?:\{([^}]*)\})?(?: as \w+)?$")
OWN = re.compile(r"[A-Za-z_][\w'′-]*")
CAMEL = re.compile(r"[a-z][a-z0-9_]*[A-Z]")


def snake(word):
    """`wordAt`, `word-at` and `Word-at` in snake case."""
    parts = [re.sub(r"([a-z0-9])([A-Z])", lambda m: m[1] + "_" + m[2].lower(), p) for p in word.replace("′", "'").split("-")]
    name = "_".join(parts)
    return name.lower() if name[:1].islower() else name


def named(word):
    return APART.get(word, snake(word))


def odd(word):
    return bool(OWN.fullmatch(word)) and ("-" in word or bool(CAMEL.match(word)))


def blank(text, pattern):
    return pattern.sub(lambda m: " " * len(m[0]) if "\n" not in m[0] else re.sub(r"[^\n]", " ", m[0]), text)


def module(path):
    """A module's path, however its crate is written."""
    path = re.sub(r"^Rattle·(\w+)·(specs|proofs)\.\2", r"Rattle.\1.\2", path)
    path = re.sub(r"^Rattle·(\w+)", r"Rattle.\1", path)
    return path.replace("the-variants", "TheVariants").replace("′", "'")


def uses(text):
    """The names that a file has from each module of its own repository, and those that it has from the library."""
    own, library = {}, set()
    for m in USE.finditer(blank(text, COMMENT)):
        names = [n.strip() for n in (m[2] or "").split(",") if n.strip()]
        if re.match(r"Rattle[·.](?!std\b)", m[1]):
            own.setdefault(module(m[1]), []).extend(names)
        else:
            library.update(n.split(" ")[-1] for n in names)
    return own, library


def words(text):
    bare = blank(blank(text, COMMENT), USE)
    return [(m[0], m.start()) for m in WORD.finditer(bare)]


def pairs(new, old):
    """Each word of a file beside its word in the older one: the word's place, and both."""
    a, b = words(new), words(old)
    keys = [[snake(w).lower().replace("_", "") for w, _ in x] for x in (a, b)]
    for tag, i, j, k, l in difflib.SequenceMatcher(None, keys[0], keys[1], autojunk=False).get_opcodes():
        if tag in ("equal", "replace") and j - i == l - k:
            for d in range(j - i):
                yield a[i + d][1], a[i + d][0], b[k + d][0]


def turned_use(m, old_own):
    """A use line of the repository's own modules."""
    path, names = m[1], [n.strip() for n in m[2].split(",") if n.strip()]
    before = old_own.get(module(path), [])
    out = []
    for n in names:
        alike = [w for w in before if snake(w.split(" ")[0]) == snake(n.split(" ")[0])]
        out += [named(w) if odd(w) else n for w in alike] or [named(n) if odd(n) else n]
    return m[0].replace("{" + m[2] + "}", "{" + ", ".join(dict.fromkeys(out)) + "}")


def turn_antt(new, old, by_hand):
    own, library = uses(old)
    imported = {n for names in own.values() for n in names}
    out, last = [], 0
    for at, n, o in pairs(new, old):
        mine = odd(o) and o not in library and (not by_hand or o in imported)
        if mine and named(o) != n:
            out += [new[last:at], named(o)]
            last = at + len(n)
    text = "".join(out) + new[last:]
    return USE.sub(lambda m: turned_use(m, own) if m[2] and re.match(r"Rattle\.(?!std\b)", m[1]) else m[0], text)


def in_prose(text, table):
    """Camel words of comments and clauses, and any word between backticks."""
    text = re.sub(r"(?<![\w'.-])([a-z][a-z0-9_]*[A-Z][\w]*)(?![\w-])", lambda m: table.get(m[1], m[1]), text)
    return re.sub(r"`([A-Za-z][\w'-]*)`", lambda m: "`" + table.get(m[1], m[1]) + "`", text)


def main(commit):
    def before(path):
        r = subprocess.run(["git", "show", f"{commit}:{path}"], capture_output=True, text=True)
        return r.stdout if r.returncode == 0 else None

    laws = sorted(p for p in glob.glob("crates/*/specs/**/*.antt", recursive=True) + glob.glob("crates/*/proofs/**/*.antt", recursive=True))
    table = {}
    todo = []
    for p in laws:
        old = before(re.sub(r"\+again_each_expand_row_expand_rows", "+again+each+expand_row+expand_rows", p))
        if old is None:
            continue
        by_hand = p.endswith("/Proof.antt")
        todo.append((p, old, by_hand))
        if not by_hand:
            _, library = uses(old)
            table.update({w: named(w) for w, _ in words(old) if odd(w) and w not in library})
    changed = 0
    for p, old, by_hand in todo:
        new = open(p, encoding="utf-8").read()
        text = turn_antt(new, old, by_hand)
        text = COMMENT.sub(lambda m: in_prose(m[0], table), text)
        changed += text != new
        open(p, "w", encoding="utf-8").write(text)
    camel = {w: n for w, n in table.items() if "-" not in w}
    for p in sorted(glob.glob("crates/*/src/**/*.rt", recursive=True)):
        new = open(p, encoding="utf-8").read()
        parts = re.split(r'("(?:[^"\\\n]|\\.)*")', new)
        text = "".join(s if k % 2 else re.sub(r"(?<![\w'-])[a-z][a-z0-9_]*[A-Z]\w*(?![\w-])", lambda m: camel.get(m[0], m[0]), s) for k, s in enumerate(parts))
        changed += text != new
        open(p, "w", encoding="utf-8").write(text)
    print(f"spelling: {changed} files, {len(table)} names")


if __name__ == "__main__":
    main(sys.argv[1])
