#!/usr/bin/env python3
"""tests/units.txt from the text of 002: each SPN of tests/spns.txt, its resolution and its offset, both in thousandths of 002's unit.

    python3 tests/resolutions.py TEXT-OF-002 > tests/units.txt

A definition is found as tests/spns.py finds it, by its 'Resolution' instead of its 'Data Length'. '0.4 %/bit, 0 offset' is 400 and 0. Four states of two bits, and what has no
number there (Binary, n/a, or nothing at all), are one count: 1000 and 0."""
import re
import sys
from decimal import Decimal

import spns


def pair(words):
    """The resolution and the offset that a 'Resolution' says, in thousandths."""
    step, offset = re.match(r"[\d.]*", words)[0], re.search(r"(-?[\d.]+)[^,]* offset", words)
    if not step or "states" in words:
        step = "1"
    both = Decimal(step) * 1000, Decimal(offset[1] if offset else 0) * 1000
    assert all(number == int(number) for number in both), words
    return tuple(int(number) for number in both)


def definitions(text):
    """Every (SPN, what its 'Resolution' says) of the text, in its order."""
    heading = said = None
    for line in text.splitlines():
        plain = line.replace("SAE J1939-74 Reaffirmed NOV2010", "").strip("#* \t")
        if re.match(r"SPN \d+\s", plain):
            heading = int(plain.split()[1])
        elif re.match(r"\d+(\.\d+)+ ", plain):
            heading = said = None
        elif plain.startswith("Resolution:"):
            said = plain.split(":", 1)[1].strip()
            if heading:
                yield heading, said
            heading = None
        elif plain.startswith("Suspect Parameter Number:") and said is not None:
            yield int(plain.split(":")[1]), said


def main():
    text = open(sys.argv[1], encoding="utf-8").read()
    widths = {spn: width for spn, width in spns.definitions(text) if 1 <= width <= 32}
    units = {}
    for spn, said in definitions(text):
        if spn in widths:
            assert units.setdefault(spn, pair(said)) == pair(said), "SPN %d has two resolutions" % spn
    assert set(units) == set(widths), "no resolution of %s" % (set(widths) - set(units))
    for spn in sorted(units):
        print(spn, *units[spn])


if __name__ == "__main__":
    main()
