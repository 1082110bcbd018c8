#!/usr/bin/env python3
"""Brings this repository's own definitions and lemmas to snake case: a dash in one of the names below becomes an underscore.

usage: python3 tools/respell.py [FOLDER]    FOLDER: the top of a checkout, here by default

It turns crates/*/src, specs and proofs, and leaves names of the kit and names of goals alone. Text in comments is turned where a name stands
in backticks only, and strings are left. A second run changes nothing.
"""

import pathlib
import re
import sys

NAMES = """
    above-ground activity-inside all-carbon-materials all-classes all-in-range all-inside all-lands all-materials all-sites among-divides among-down
    answer-none applied-in applied-sum as-given at-flooded at-water by-years carbon-heading carbon-limit carbon-name carbon-row chosen-in-range
    class-name class-number climate-letter climate-of climate-written common-positive control-in control-sum crop-known crop-rows direct-limit
    down-from drained-heading drained-limit drained-row each-ahead entry-checks entry-refusal exact-shared few-applied few-control few-treated
    few-trials first-fault first-inside first-law first-place four-and-four front-checks grams-check grams-of ground-number half-gram
    has-carbon-material has-class has-each-site has-marks has-material has-site in-range in-range-applied in-range-at in-ranges in-turn is-of
    kind-checks kinds-pass land-check land-letter land-of law-accepted law-refused leached-limit leaching-letter leaching-of leaching-written
    line-from line-text made-is material-name material-number most-grams nearest-law nitrogen-heading nitrogen-row nitrogen-rows none-some not-burnt
    not-removed number-check outcome-text outside-ahead plot-refusal plot-table quotient-borne range-check range-fault reached-all reached-more
    redeposited-heading redeposited-limit redeposited-row refused-heavy refused-kind residues-exact row-all runoff-limit same-fraction shares-fit
    sheet-front sheet-text site-check site-letters site-of site-written sites-with some-applied sum-rule ten-divides treated-in treated-sum
    trial-fits trials-fit unless-refused volatilised-limit water-letter water-of water-written weight-decides with-direct with-marks
""".split()

ANY = re.compile(r"(?<![\w'.-])(?:%s)(?![\w'-])" % "|".join(sorted(map(re.escape, NAMES), key=len, reverse=True)))
FIELD = re.compile(r"(?<=[\w')»]\.)(?:%s)(?![\w'-])" % "|".join(sorted(map(re.escape, NAMES), key=len, reverse=True)))
QUOTED = re.compile(r"`([^`]*)`")


def snake(m):
    return m.group(0).replace("-", "_")


def turned(text):
    return FIELD.sub(snake, ANY.sub(snake, text))


def line_turned(line):
    """One line, in code; in a comment only what stands in backticks."""
    start = re.match(r"\s*(//|--)", line)
    if start:
        return QUOTED.sub(lambda m: "`" + turned(m.group(1)) + "`", line)
    return "".join(part if part.startswith('"') else turned(part) for part in re.split(r'("(?:[^"\\]|\\.)*")', line))


def main(top):
    changed = 0
    for path in sorted((top / "crates").glob("*/*/**/*")):
        if path.suffix not in (".rt", ".antt") or "out" in path.parts:
            continue
        old = path.read_text(encoding="utf-8")
        new = "".join(map(line_turned, old.splitlines(keepends=True)))
        if new != old:
            path.write_text(new, encoding="utf-8")
            changed += 1
    print(f"respell: {changed} files changed")


if __name__ == "__main__":
    main(pathlib.Path(sys.argv[1] if len(sys.argv) > 1 else "."))
