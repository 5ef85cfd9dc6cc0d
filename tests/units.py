"""Req 05 in the model: of a width which row of J1939-71's table judges its numbers, of a number its state, of an SPN what a number of it is worth. Words in quotes are
02's. Resolutions and offsets are in thousandths, from tests/units.txt, which tests/resolutions.py takes from the text of 002."""
import os
from collections import namedtuple

Meaning = namedtuple("Meaning", "width resolution offset kind")
Scaled = namedtuple("Scaled", "value kind state")

VALID, RESERVED, ERROR, NOT_AVAILABLE = range(4)


def units():
    """SPN to (resolution, offset)."""
    with open(os.path.join(os.path.dirname(os.path.abspath(__file__)), "units.txt")) as rows:
        return {spn: pair for spn, *pair in (map(int, row.split()) for row in rows)}


UNITS = units()


def kind(width):
    """0 where the dictionary hasn't the SPN, and so no width; 1 two bits; 2, 3 and 4 one, two and four bytes; 5 any other width."""
    return {0: 0, 2: 1, 8: 2, 16: 3, 32: 4}.get(width, 5)


def state(width, number):
    """'For one byte 0 to 250 valid, 251 to 253 reserved .. 254 error, 255 not available; for two bits 2 error and 3 not available; others from its table, valid where it
    has no row': of two and four bytes the top byte says it. A number that needs more than its width is as its largest."""
    if width == 2:
        return [VALID, VALID, ERROR, NOT_AVAILABLE][min(number, 3)]
    if width not in (8, 16, 32):
        return VALID
    top = min(number // 2 ** (width - 8), 255)
    if top <= 250:
        return VALID
    return {254: ERROR, 255: NOT_AVAILABLE}.get(top, RESERVED)


def meaning(spn, width):
    """'Width, resolution, offset and kind' of an SPN that the dictionary has with this width, 0 where it hasn't."""
    resolution, offset = UNITS[spn] if width else (0, 0)
    return Meaning(width, resolution, offset, kind(width))


def scaled(spn, width, number):
    """'Scaled whole numbers .. keep their sign where the offset is negative': of a valid number of a known SPN, 0 of any other."""
    known, told = meaning(spn, width), state(width, number)
    worth = number * known.resolution + known.offset if told == VALID else 0
    assert -2**63 <= worth < 2**63
    return Scaled(worth, known.kind, told)
