#!/usr/bin/env python3
"""tests/spns2004.txt from the text of 000 (Req 10): each SPN it defines with a fixed length of 1 to 32 bits, and that length in bits.

    python3 tests/spns2004.py TEXT-OF-000 > tests/spns2004.txt

A definition is a section of 5.3 with one 'Data Length' in bits and one 'Suspect Parameter Number', of four digits. Appendix C of 000 has none. Blanks, tabs and ends of lines
count for nothing: this copy has them inside of words and lacks them between words. An SPN that is only mentioned in a sentence is no definition."""
import re
import sys


def sections(text):
    """The sections of chapter 5, each from its heading on, without blanks."""
    parts = re.split(r"(?m)^#* ?(?=5(?:\.\d+)+ [A-Z])", text)
    return ["".join(part.split()) for part in parts[1:]]


def definition(section):
    """The (SPN, width) that a section defines, or None."""
    lengths = re.findall(r"DataLength:(\d+)bits?", section)
    numbers = re.findall(r"SuspectParam[a-z]*Number:(\d{4})", section)
    if not lengths and not numbers:
        return None
    assert len(lengths) == len(numbers) == 1, "a section with %d lengths in bits and %d numbers: %s" % (len(lengths), len(numbers), section[:60])
    return int(numbers[0]), int(lengths[0])


def main():
    with open(sys.argv[1], encoding="utf-8") as text:
        found = [definition(section) for section in sections(text.read())]
    widths = {}
    for spn, width in filter(None, found):
        assert spn not in widths, "SPN %d is defined twice" % spn
        widths[spn] = width
    for spn in sorted(widths):
        if 1 <= widths[spn] <= 32:
            print(spn, widths[spn])


if __name__ == "__main__":
    main()
