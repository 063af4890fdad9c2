#!/usr/bin/env python3
"""Respells the repository's own definitions, fields and lemmas: words in snake case.

usage: python3 tools/respell.py      at the top of the repository, once, after the toolchain's own script

A name in camel case or with a dash becomes snake case: in specs/ and proofs/, in src/ outside strings and comments (the
listed names stand only in clauses there), and in the pages, but for docs/PORT.md, which names the old ones. Functions of
src/, types, strings of the code, inputs and outputs keep their names. It stops, and writes nothing, where two names would
fall together.
"""

import pathlib
import re
import sys

# names in camel case: definitions, and variables of definitions
CAMEL = """
afterAdding afterMerging afterRemoving afterSetting allTaken beforeWeight boardIn byteSides faultText fileOf homeFrom
isName keyNumber kindWord layerWord maskSides mergeAnswer nameByte netsOf ofJoin ofLine ofSize ofWord reasonNumber
setAnswer sizesAt sizesOf standsIn summaryOf summaryText takenThen weightIn
""".split()

# the same where the plain snake case is the name of a function of src/, or of a word of the library
OTHER = {
    "allName": "all_name_bytes",
    "beforeFirst": "before_first_key",
    "beforeSecond": "before_second_key",
}

# names with a dash: fields, cases and lemmas; what the checker generates, such as loop-b-preserved, is not among them
DASHED = """
accepted-at accepts-more across-add across-at across-cong across-like across-put added-sizes added-sound after-second
after-space after-third alike-homes alike-reflexive alike-symmetric alike-transitive all-accepted bare-joins bare-prop
begins-written best-exists best-natural best-of-none best-shifted best-unique board-empty bulk-at capped-more count-le
count-more count-zero cut-add cut-neg cut-not cut-same cut-size cut-swap cut-together cut-turned cut-zero decimal-word
digit-last digit-more empty-sound fault-only few-joins first-at first-line first-malformed first-offset first-there
first-wrong form-number gain-is goes-next grown-outside handed-err handed-ok headless-only join-plain joins-only
lacks-append lacks-by lacks-cons lacks-front lacks-left lacks-none lacks-right lacks-tail larger-bound larger-one
light-cells line-length lines-read listed-none lone-tells merge-done merge-exact merge-refused merged-covers
merged-exact merged-is merged-lighter merged-reduces merged-sizes merged-sound merged-weights minus-none minus-some
minus-zero name-lacks name-word named-as named-headless named-join named-key named-line named-outcome named-size
named-stop named-weight named-wrong names-summed never-within no-fault no-headless no-space none-some not-empty
not-long not-nil number-form number-told numbers-summed one-header one-outcome one-summary other-header other-layer
pairs-add pairs-at pairs-cong pairs-mono pairs-more pairs-natural pairs-none pairs-size pairs-zero passed-zero
reading-only reduces-best reduces-not reduces-then remove-done removed-reduces row-bounded same-cut same-fault
same-list same-spelling same-x second-malformed second-offset second-there second-wrong set-done set-heavy set-one
shift-bounded short-mag short-size sizes-bounded sizes-more sizes-natural sizes-row spaced-length stands-next
star-across star-outside star-pairs stop-only summed-named summed-only sums-up third-weight top-attained top-largest
two-tells upto-more weighed-sizes weighed-sound weight-bounded weight-malformed weight-offset weight-there weight-word
weight-wrong whole-summary with-u with-v words-from words-only wrong-here
∑-abs ∑-add ∑-cong ∑-each ∑-mono ∑-more ∑-natural ∑-neg ∑-none ∑-past ∑-single ∑-split ∑-zero
""".split()

# what an identifier of antt cannot hold
EDGE = r"\s(){}\[\].,;«»`"


def snake(name):
    return re.sub(r"([a-z])([A-Z])", lambda m: m[1] + "_" + m[2].lower(), name).replace("-", "_")


NAMES = {n: snake(n) for n in CAMEL + DASHED} | OTHER
OLD = re.compile(rf"(?<![^{EDGE}])(" + "|".join(map(re.escape, sorted(NAMES, key=len, reverse=True))) + rf")(?![^{EDGE}:])")
IDENTIFIER = re.compile(rf"[^{EDGE}]+")


def files(top):
    for pattern in ("crates/*/specs/**/*.antt", "crates/*/proofs/**/*.antt", "crates/*/src/**/*.rt"):
        yield from sorted(top.glob(pattern))


def pages(top):
    yield from (p for p in sorted(top.glob("docs/*.md")) if p.name != "PORT.md")
    yield top / "README.md"


def respelled(path, text):
    """The text with the new names; in src/ outside strings and comments, where a name with a dash cannot stand."""
    if path.suffix != ".rt":
        return OLD.sub(lambda m: NAMES[m[1]], text)
    code = re.compile(r'("(?:[^"\\]|\\.)*"|//[^\n]*)')
    return "".join(part if i % 2 else OLD.sub(lambda m: NAMES[m[1]], part) for i, part in enumerate(code.split(text)))


def main():
    top = pathlib.Path(".")
    if not (top / "crates").is_dir():
        sys.exit("respell: run it at the top of the repository")
    texts = {p: p.read_text(encoding="utf-8") for p in files(top)}
    clash = {}
    for path, text in texts.items():
        here = set(IDENTIFIER.findall(text))
        for old, new in NAMES.items():
            if new in here and old in here:
                clash.setdefault((old, new), path)
    twice = sorted({n for n in NAMES.values() if list(NAMES.values()).count(n) > 1})
    if clash or twice:
        sys.exit("respell: names fall together: " + ", ".join([f"{o} and {n} in {p}" for (o, n), p in clash.items()] + twice))
    for path in [*texts, *pages(top)]:
        if not path.is_file():
            continue
        text = texts.get(path) or path.read_text(encoding="utf-8")
        new = respelled(path, text)
        if new != text:
            path.write_text(new, encoding="utf-8")
            print(path)


main()
