#!/usr/bin/env python3
"""spnunits.py TEXT: the units of the dictionary's SPNs, read out of the text of source document 002 (SAE J1939-74, 2010), as docs/UNITS.md:

    tools/spnunits.py TEXT > docs/UNITS.md

The SPNs and their widths are those of spnrows.py. A definition's name is its heading; its states stand before its `Data Length: ..`, as `01 - On` or `01 On`; its
`Resolution: ..` and `Data Range: ..` stand after it. Where 002 defines an SPN twice, both must have the same step and offset, and the first is printed.
"""
import re
import sys
from fractions import Fraction

import spnrows

STATE = re.compile(r'^([01]{2}) (?:- )?(.+)$')
STATES = '4 states/2 bit'
STEP = re.compile(r'^([\d.]+) ?(\S.*?)(?: ?\(.*\))?(?:/bit| per bit|/count)$')      # a number, a unit, maybe a remark, and what it is counted by
OFFSET = re.compile(r'^(-?[\d.]+)(?: (.+))? offset$')
LONGEST = 80                # a range that has more letters is cut between words, and ends in '..'

HEAD = """# Units by SPN

Each SPN of the dictionary as 002 (SAE J1939-74, 2010, Appendix C and 5.3) defines it, and what the calls give for it (Req 05). `tools/spnunits.py TEXT > docs/UNITS.md`
wrote this page from 002's text; `tools/unitscheck` compares it with the tables of crates/slots.

A number times the resolution, and the offset added, is the value in thousandths of the unit: SPN 1539 at 0 is -12,500 thousandths of a degree, which is -12.5 deg. Step,
offset and range are 002's words; '..' leaves some out. States, and what 002 gives no step for (3149, 3150, 3151, 3153), are counted one by one. Where 002 defines an SPN
twice (3329, 3330), the first definition is here; the other has the same step and offset.

The four states of two bits are in 002's words. The calls say of any two bits that 0 and 1 are valid, 2 is error and 3 not available, as Req 05 has it, also where 002
says of a command that 2 is reserved and 3 asks for no action. Of a byte, two or four, the top byte decides: up to 250 valid, 251 to 253 reserved, 254 error, 255 not
available. Any other width is always valid.

The dictionary of 2004 (000; Req 10) has twelve of these SPNs, 3146 to 3155, 3329 and 3330, with the widths and steps that they have here: what a number is worth does not
depend on the edition of its key.

| SPN | name | bits | unit | step | offset | range or states | resolution, thousandths | offset, thousandths |
|---|---|---|---|---|---|---|---|---|"""


def plain(words):
    """A text without markup and with single spaces."""
    return ' '.join(words.replace('*', ' ').split())


def value_of(line, name):
    """What stands behind `name:` in a line, or None."""
    line = plain(line)
    return line[len(name) + 1:].strip() if line.startswith(name + ':') else None


def thousandths(number):
    whole = Fraction(number) * 1000
    if whole.denominator != 1:
        sys.exit(f'{number} is no whole number of thousandths')
    return int(whole)


def unit_of(resolution):
    """Unit, step and offset of a `Resolution: ..`, as 002 has them, and both in thousandths."""
    step, _, offset = resolution.partition(', ')
    if step == STATES:
        unit, scale = 'state', 1000
    elif step in ('', 'n/a', 'Binary'):
        unit, scale = 'count', 1000
    else:
        m = STEP.match(step)
        if not m:
            sys.exit(f'no step: {resolution}')
        unit, scale = m[2], thousandths(m[1])
    by = 0
    if offset:
        m = OFFSET.match(offset)
        if not m or (m[2] and m[2] != unit):
            sys.exit(f'no offset in {unit}: {resolution}')
        by, offset = thousandths(m[1]), offset.replace(' offset', '')
    return unit, step or 'none', offset or 'none', scale, by


def heading(lines, at):
    """The line of the heading above line `at` and its words (lines are counted from 1)."""
    while at > 0:
        line = lines[at - 1]
        for form in (spnrows.PARAMETER, spnrows.SECTION):
            if m := form.search(line):
                return at, plain(line[m.end():])
        at -= 1
    sys.exit('a length without a heading')


def below(lines, at, name):
    """What stands behind `name:` in the first such line below line `at`, up to the next Data Length."""
    for line in lines[at:]:
        if (said := value_of(line, name)) is not None:
            return said
        if spnrows.LENGTH.match(line):
            break
    sys.exit(f'no {name} below line {at}')


def range_of(lines, top, at):
    """The states above a Data Length at line `at`, or the range below it."""
    states = [m for line in lines[top:at - 1] if (m := STATE.match(plain(line)))]
    if states:
        if [m[1] for m in states] != ['00', '01', '10', '11']:
            sys.exit(f'not four states above line {at}')
        return ', '.join(f'{m[1]} {m[2]}' for m in states)
    said = below(lines, at, 'Data Range').partition(' Operational Range:')[0]
    return said if len(said) <= LONGEST else said[:LONGEST].rpartition(' ')[0] + ' ..'


def rows(path):
    """The rows, as (SPN, name, width, unit, step, offset, range, resolution, offset in thousandths)."""
    with open(path, encoding='utf-8') as text:
        lines = text.read().split('\n')
    found = []
    for spn, bits, at in spnrows.rows(path):
        top, name = heading(lines, at)
        unit, step, offset, scale, by = unit_of(below(lines, at, 'Resolution'))
        for other in [place for number, _, place in spnrows.definitions(lines) if number == spn]:
            if unit_of(below(lines, other, 'Resolution'))[3:] != (scale, by):
                sys.exit(f'{spn} has one step and offset at line {at} and others at line {other}')
        found.append((spn, name, bits, unit, step, offset, range_of(lines, top, at), scale, by))
    return found


if __name__ == '__main__':
    if len(sys.argv) != 2:
        sys.exit(__doc__)
    print(HEAD)
    for row in rows(sys.argv[1]):
        print('| ' + ' | '.join(map(str, row)) + ' |')
