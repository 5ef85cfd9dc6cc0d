#!/usr/bin/env python3
"""spnrows.py TEXT: the rows of the dictionary, read out of the text of source document 002 (SAE J1939-74, 2010).

Prints `SPN width line` for each SPN that 002 defines with a fixed length of 1 to 32 bits, once each, rising by SPN. The line is
that of its Data Length, the first where 002 defines it twice. What is defined with another length, or none, goes to standard error.

002 defines an SPN in one of two forms:
  Appendix C   a heading `**SPN n   name**`, often glued to the page header before it; then its text; then `Data Length: ..`
  section 5.3  a heading `5.3.1.1 name`; then its text; then `Data Length: ..`; then `Suspect Parameter Number: n`
So an SPN inside a text, as 521 in those of 3032 and 3033, is no heading and defines nothing, and the Data Length of a whole message
(which has no unit) is none of a parameter: the next heading stands before the next Suspect Parameter Number.
"""
import re
import sys

PARAMETER = re.compile(r'\*\*SPN (\d+)\s')                   # a heading of Appendix C
SECTION = re.compile(r'(?:^#+ |\*\*)5(?:\.\d+)+\s')       # a heading of section 5
LENGTH = re.compile(r'^\s*Data Length:\s*(.*?)\s*$')
NUMBER = re.compile(r'^\s*Suspect Parameter Number:\s*(\d+)\s*$')
FIXED = re.compile(r'^(\d+) (bit|byte)s?(?: \((\d+) (bit|byte)s?\))?$')
BITS = {'bit': 1, 'byte': 8}


def width(length):
    """The bits of a fixed length, as `2 bytes` or `24 bits (3 bytes)`; 0 where it is no such length."""
    m = FIXED.match(length)
    if not m:
        return 0
    bits = int(m[1]) * BITS[m[2]]
    if m[3] and int(m[3]) * BITS[m[4]] != bits:
        sys.exit(f'a length that contradicts itself: {length}')
    return bits


def definitions(lines):
    """(SPN, its Data Length or '', line) of each definition in the text, in the text's order."""
    heading = None          # an Appendix C heading that has had no length yet: its SPN and line
    length = ('', 0)        # the last Data Length since a heading, and its line
    for at, line in enumerate(lines, 1):
        if m := PARAMETER.search(line):
            if heading:
                yield heading[0], '', heading[1]
            heading, length = (int(m[1]), at), ('', at)
        elif SECTION.search(line):
            length = ('', at)
        elif m := LENGTH.match(line):
            length = (m[1], at)
            if heading:
                yield heading[0], m[1], at
                heading = None
        elif m := NUMBER.match(line):
            yield (int(m[1]),) + length
    if heading:
        yield heading[0], '', heading[1]


def rows(path):
    """The rows, as (SPN, width, line)."""
    with open(path, encoding='utf-8') as text:
        return fixed(definitions(text.read().split('\n')))


def fixed(defined):
    """Of definitions those with a fixed length of 1 to 32 bits, as (SPN, width, line), once each and rising."""
    found = {}
    for spn, length, at in defined:
        bits = width(length)
        if not 1 <= bits <= 32:
            print(f'left out: {spn}, line {at}, Data Length: {length}', file=sys.stderr)
        elif found.setdefault(spn, (bits, at))[0] != bits:
            sys.exit(f'{spn} has {found[spn][0]} bits at line {found[spn][1]} and {bits} at line {at}')
    return sorted((spn, bits, at) for spn, (bits, at) in found.items())


if __name__ == '__main__':
    if len(sys.argv) != 2:
        sys.exit(__doc__)
    for row in rows(sys.argv[1]):
        print(*row)
