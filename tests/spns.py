#!/usr/bin/env python3
"""tests/spns.txt from the text of 002: each SPN it defines with a fixed length of 1 to 32 bits, and that length in bits.

    python3 tests/spns.py TEXT-OF-002 > tests/spns.txt

A definition in Appendix C is a heading 'SPN n' in bold and the first 'Data Length' after it. A definition in 5.3 is a
'Data Length' and the first 'Suspect Parameter Number: n' after it. An SPN that is only mentioned in a sentence is neither."""
import re
import sys


def bits(words):
    """'2 bytes', '19 bit', '24 bits (3 bytes)' as a number of bits; None where no fixed length stands there."""
    found = re.fullmatch(r"(\d+) (bit|byte)s?( \(.*\))?", words.strip())
    return found and int(found[1]) * (8 if found[2] == "byte" else 1)


def definitions(text):
    """Every (SPN, width) that the text defines, in its order."""
    heading = length = None
    for line in text.splitlines():
        plain = line.replace("SAE J1939-74 Reaffirmed NOV2010", "").strip("#* \t")
        if re.match(r"SPN \d+\s", plain):
            heading = int(plain.split()[1])
        elif re.match(r"\d+(\.\d+)+ ", plain):
            heading = length = None
        elif plain.startswith("Data Length:"):
            length = bits(plain.split(":", 1)[1])
            if heading and length:
                yield heading, length
            heading = None
        elif plain.startswith("Suspect Parameter Number:") and length:
            yield int(plain.split(":")[1]), length


def main():
    widths = {}
    for spn, width in definitions(open(sys.argv[1], encoding="utf-8").read()):
        assert widths.setdefault(spn, width) == width, "SPN %d has two lengths" % spn
    for spn in sorted(widths):
        if 1 <= widths[spn] <= 32:
            print(spn, widths[spn])


if __name__ == "__main__":
    main()
