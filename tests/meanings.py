"""The cases of the program `meanings`: what an SPN means and what a number of it is worth. A case is 8 bytes, the SPN and the number, least significant byte first; its line
has width, resolution, offset, kind, state and value."""
import model
import units
from dice import TOP, line, word


def cases(dice):
    for spn, number in asked(dice):
        width = model.WIDTHS.get(spn, 0)
        known, worth = units.meaning(spn, width), units.scaled(spn, width, number)
        assert worth.kind == known.kind
        yield word(spn) + word(number), [line(*known, worth.state, worth.value)]


def edges(width):
    """Numbers at every line that is drawn for a width, and past it."""
    if width == 2:
        return [0, 1, 2, 3, 4, TOP]
    if width in (8, 16, 32):
        low = 2 ** (width - 8)
        tops = [number for top in range(249, 256) for number in (top * low, top * low + low - 1)]
        return sorted({0, 1, *tops, min(2**width, TOP), TOP})
    return [0, 1, 255, 2**width - 1, 2**width, TOP] if width else [0, 1, 255, TOP]


def any_number(dice, width):
    return dice.one_of([dice.below(2**32), dice.below(2 ** (width or 32)), dice.below(2 ** dice.within(1, 32)), dice.one_of(edges(width))])


def asked(dice):
    beside = {spn + by for spn in model.WIDTHS for by in (-1, 0, 1)}
    far = {0, 1, 521, 2**16 + 1517, 2**19 - 1, 2**19 + 1517, 2**31, 2**32 - 1517, TOP}
    for spn in sorted(beside | far):
        yield from ((spn, number) for number in edges(model.WIDTHS.get(spn, 0)))
    for _ in range(500):
        spn = dice.one_of([dice.one_of(sorted(model.WIDTHS)), dice.one_of(sorted(model.WIDTHS)), dice.below(4096), dice.below(2**32)])
        yield spn, any_number(dice, model.WIDTHS.get(spn, 0))
