"""The cases of judging, packing and reading over plain lists, as the rooms judge and payload take them: tags 8 to 10. The lists may be
shorter or longer than a map needs; what the model is asked then is said in each function."""
import model
from dice import TOP, case, line, words
from model import Answer

MISSING = TOP


def cases(dice):
    for n, transport, spns, starts, widths in judged(dice):
        rows = rows_of(n, spns, starts, widths)
        yield asked(8, n, transport, spns, starts, widths), [line(*model.judge_map(n, transport, rows))]
    for starts, widths, numbers, seed, size in packed(dice):
        answer, after = pack(starts, widths, numbers, pattern(seed, size))
        yield (asked(9, 0, 0, [], starts, widths, numbers, seed, size),
               [line(answer.number, answer.detail, bytes(after).hex())])
    for starts, widths, payload, room in taken(dice):
        answer, after = read(starts, widths, payload, room)
        yield (asked(10, 0, 0, [], starts, widths, room, 0, len(payload)) + bytes(payload),
               [line(answer.number, answer.detail, *after)])


def asked(tag, n, transport, spns, starts, widths, numbers=(), seed=0, size=0):
    """A case with its lists, but for the payload."""
    counts = bytes([n, transport, len(spns), len(starts), len(widths), len(numbers), seed])
    return case(tag, counts + size.to_bytes(2, "little")) + words([*spns, *starts, *widths, *numbers])


def pattern(seed, size):
    """What the program fills a buffer with."""
    return [(seed + 29 * i) % 256 for i in range(size)]


# ---- The model's answers over lists

def rows_of(n, spns, starts, widths):
    """Position p has the p-th of each list, and is missing where a list ends before it, or has the mark for none as its width."""
    whole = min(len(spns), len(starts), len(widths))
    return [None if p > whole or widths[p - 1] == MISSING else (spns[p - 1], starts[p - 1], widths[p - 1]) for p in range(1, n + 1)]


def placed_of(starts, widths):
    """Each start with its width, and the lowest position that can't be of a usable map: past 64, with no width of 1 to 32, or
    with an end above 14,280."""
    placed = [(start, widths[i] if i < len(widths) else 0) for i, start in enumerate(starts)]
    wrong = [p for p, (start, width) in enumerate(placed, 1) if p > 64 or not 1 <= width <= 32 or model.end_of(start, width) > 14280]
    return placed, min(wrong, default=0)


def pack(starts, widths, numbers, buffer):
    """Packing tests 12, 13, 14; of 12 these lists only have the position."""
    placed, wrong = placed_of(starts, widths)
    return (Answer(12, wrong), buffer) if wrong else model.pack_places(placed, numbers, buffer)


def read(starts, widths, payload, room):
    placed, wrong = placed_of(starts, widths)
    return (Answer(12, wrong), room) if wrong else model.read_places(placed, payload, room)


# ---- Maps

KNOWN = sorted(model.WIDTHS)
ODD = [spn for spn in KNOWN if model.odd(model.WIDTHS[spn])]
SMALL = [spn for spn in KNOWN if model.WIDTHS[spn] <= 5]
ODD_WIDTHS = [width for width in range(1, 33) if model.odd(width)]


def how_many(dice):
    """A number of parameters: mostly few, sometimes 64."""
    return dice.one_of([1, 2, dice.within(2, 8), dice.within(2, 8), dice.within(3, 20), dice.within(9, 64), 64])


def some_spns(dice, n):
    """n different SPNs of the dictionary, in any order. Those few that have an odd width come up often, and mostly small ones behind them, which fit into the bits that these skip."""
    spns = dice.some(n, KNOWN)
    for odd in ODD:
        if dice.below(3) == 0:
            together = [odd] + dice.some(dice.one_of([0, 1, 1, 2]), SMALL)
            others = [spn for spn in spns if spn not in together]
            at = dice.below(n)
            spns = (others[:at] + together + others[at:])[:n]
    return spns


def skipped_bits(start, width):
    """The bits that a parameter skips, as (first, end): none but for an odd width."""
    taken = model.taken_bits(start, width)
    free = [p for p in range(start, model.end_of(start, width)) if p not in taken]
    return (free[0], free[-1] + 1) if free else (0, 0)


def starts_for(dice, widths, start=0, gap=None):
    """Rising starts for these widths, no bit shared, an odd width at a multiple of 8: most gaps are none or small, and what fits into the bits that the odd one before it skips
    mostly stands there."""
    gap = gap or (lambda: dice.one_of([0, 0, 0, 1, dice.below(9), dice.below(40)]))
    starts, end, free = [], start, (0, 0)
    for width in widths:
        first, last = free
        if width <= last - first and dice.below(4):
            at = first + dice.below(last - first - width + 1)
            free = (at + width, last)
        else:
            at = end + gap()
            at += -at % 8 if model.odd(width) else 0
            end, free = model.end_of(at, width), skipped_bits(at, width)
        starts.append(at)
    return starts


def size_of(starts, widths):
    return model.length_of(list(zip(starts, widths)))


def any_widths(dice, n):
    """Widths that no dictionary has to have: odd ones often, and small ones behind these."""
    widths = []
    while len(widths) < n:
        widths.append(dice.one_of([1, 2, 8, 16, 19, 24, 32, dice.within(1, 32), dice.within(1, 32)]))
        if model.odd(widths[-1]) and dice.below(3):
            widths += [dice.within(1, 8 - widths[-1] % 8) for _ in range(dice.within(1, 2))]
    return widths[:n]


def usable(dice, n):
    """A usable map of n parameters, with the dictionary's widths or with any."""
    spns = some_spns(dice, n)
    widths = [model.WIDTHS[spn] for spn in spns] if dice.below(2) else any_widths(dice, n)
    starts = starts_for(dice, widths, dice.one_of([0, 0, 0, dice.below(70), dice.below(10000)]))
    transport = 1 if size_of(starts, widths) > 8 else 0
    assert model.judge_map(n, transport, rows_of(n, spns, starts, widths)) == (0, 0)
    return [n, transport, spns, starts, widths]


def spoil(dice, number, told):
    """Earns a judgement at some position, unless another comes first or the map is too small for it."""
    n, transport, spns, starts, widths = told
    p = dice.below(n)
    q = dice.below(p) if p else 0
    if number == 2:
        widths[p] = MISSING
    elif number == 3:
        spns[p], widths[p] = dice.one_of([0, 521, 2848, dice.one_of(KNOWN) + 2**18, 2**19 - 1]), 0
    elif number == 4 and p:
        spns[p], widths[p] = spns[q], widths[q]
    elif number == 5 and p:
        starts[p] = dice.one_of([starts[p - 1], max(starts[p - 1] - 1, 0), starts[q], 0])
    elif number == 6 and p:
        starts[p] = starts[p - 1] + dice.within(1, max(min(widths[p - 1], 32) - 1, 1))
    elif number == 7:
        by = 14281 - model.end_of(starts[p], widths[p]) + dice.one_of([0, 0, 1, 40])
        by += -by % 8 if dice.below(2) else 0   # so that odd widths stay at multiples of 8
        for i in range(p, n):
            starts[i] += max(by, 0)
    elif number == 8:
        told[1] = 1 - transport
    elif number == 9 and 1 <= widths[p] <= 32:
        widths[p] = widths[p] if model.odd(widths[p]) else dice.one_of(ODD_WIDTHS)
        starts[p] = starts[p] // 8 * 8 + dice.within(1, 7)


def judged(dice):
    """n, transport, SPNs, starts and widths to judge."""
    two = lambda spn: model.WIDTHS.get(spn, 0)
    # 01's own: 1517 and 1519 beside each other and sharing a bit; 1519 alone at 62 and 63; 1517 alone at 14,272 and 14,273
    for starts in ((0, 8), (0, 7), (8, 0), (0, 0)):
        yield 2, 0, [1517, 1519], list(starts), [8, 2]
    yield 2, 0, [1519, 1517], [0, 4], [2, 8]
    for spn, start in ((1519, 62), (1519, 63), (1517, 14272), (1517, 14273), (1517, TOP), (1519, 14278), (1519, 14279), (1519, 14280)):
        yield from ((1, transport, [spn], [start], [two(spn)]) for transport in (0, 1))
    # 64 positions, and one more; a map that ends at the last bit there is; without an odd width, which could not be moved by any number of bits
    for n in (63, 64, 65):
        spns = dice.some(n, [spn for spn in KNOWN if spn not in ODD])
        widths = [two(spn) for spn in spns]
        starts = starts_for(dice, widths)
        yield n, 1, spns, starts, widths
        last = 14280 - starts[-1] - widths[-1]
        yield n, 1, spns, [start + last for start in starts], widths
        yield n, 1, spns, [start + last + 1 for start in starts], widths
        for p in (1, n):
            yield n, 1, spns, starts, widths[:p - 1] + [MISSING] + widths[p:]
            yield n, 1, spns[:p - 1] + [TOP] + spns[p:], starts, widths
    yield from judged_odd(dice)
    # usable ones, and spoiled ones: one judgement at a time, then several at once
    for _ in range(300):
        yield usable(dice, how_many(dice))
    for number in range(2, 10):
        for _ in range(100):
            told = usable(dice, how_many(dice))
            spoil(dice, number, told)
            yield told
    for _ in range(400):
        told = usable(dice, how_many(dice))
        for number in dice.some(dice.within(2, 5), range(2, 10)):
            spoil(dice, number, told)
        yield told
    # lists of other lengths than n, and numbers that no message and no dictionary gives
    for _ in range(300):
        n, transport, spns, starts, widths = usable(dice, dice.within(1, 12))
        cut = lambda numbers: numbers[:dice.one_of([n, n, n, n - 1, dice.below(n)])]
        yield dice.one_of([n, n, n - 1, n + 1, 0, 255]), transport, cut(spns), cut(starts), cut(widths)
    for _ in range(300):
        n = dice.within(1, 6)
        starts = sorted(dice.one_of([dice.below(100), dice.below(15000), TOP - dice.below(50)]) for _ in range(n))
        if dice.below(2):   # else an odd width among them would nearly always be judged 9
            starts = sorted({start - start % 8 + dice.one_of([0, 0, 0, dice.below(8)]) for start in starts})
        n = len(starts)
        yield (n, dice.below(2), [dice.one_of([dice.below(5), dice.below(2**32)]) for _ in range(n)], starts,
               [dice.one_of([1, dice.below(9), dice.within(1, 32), 33, dice.within(1, 64)]) for _ in range(n)])
    yield 0, 0, [], [], []
    yield 0, 1, [], [], []
    for spn, start, width in ((TOP, TOP, TOP - 1), (TOP, TOP - 7, TOP - 1), (TOP, 0, TOP - 1), (TOP, 1, TOP - 1), (TOP, TOP, TOP - 7), (TOP, TOP, TOP), (TOP, 0, 1), (0, 0, TOP)):
        yield from ((1, transport, [spn], [start], [width]) for transport in (0, 1))
    yield 2, 0, [TOP, TOP], [0, 1], [1, 1]


# ---- Req 04: odd widths

def fitting(starts, widths):
    """A map of these to judge, its transport flag as its length asks for it."""
    return len(starts), 1 if size_of(starts, widths) > 8 else 0, KNOWN[:len(starts)], list(starts), list(widths)


def judged_odd(dice):
    """Odd widths at every start, others in the bits that they skip, and others that share a bit with them."""
    # 5.3.1.8.2: 11 bits at wire bit 19. It is judged 9 now; at wire bits 17 and 25 it is usable
    for start in (18, 16, 24):
        yield fitting([start], [11])
    assert model.judge_map(1, 0, [(1517, 18, 11)]) == (9, 1)
    # every width at every bit of a byte
    for width in range(1, 33):
        for bit in range(8):
            yield from (fitting([start], [width]) for start in (bit, 8 * dice.below(1700) + bit))
    for width in ODD_WIDTHS:
        yield from beside_odd(dice, width)
        yield from ends_of_odd(width)
    for _ in range(60):   # one behind another: the second in the last byte of the first, at its end, behind it
        first, second = dice.one_of(ODD_WIDTHS), dice.one_of(ODD_WIDTHS)
        start = 8 * dice.below(4)
        end = model.end_of(start, first)
        yield from (fitting([start, at], [first, second]) for at in (end - 8, end - 1, end, end + 1, end + 8))
        yield fitting([start, end, model.end_of(end, second)], [first, second, first])
    yield from order_of_9()


def beside_odd(dice, width):
    """One parameter beside an odd one, in its last byte and around it; then a third, while the second stands in the skipped bits, so that the odd one is not the one before."""
    start = 8 * dice.below(5)
    first, last = skipped_bits(start, width)
    end = model.end_of(start, width)
    for other in (1, last - first, dice.within(2, 8), dice.one_of([16, 24, dice.one_of(ODD_WIDTHS)])):
        for at in range(first - 2, end + 2):
            yield fitting([start, at], [width, other])
    for other in (1, dice.within(2, 8)):
        for at in range(first + 1, end + 2):
            yield fitting([start, first, at], [width, 1, other])
    if last - first > 2:   # two in the skipped bits, and one that meets the odd one, or not
        for at in range(first + 2, end + 1):
            yield fitting([start, first, first + 1, at], [width, 1, 1, dice.within(1, 3)])
    yield fitting([start, first, end], [width, last - first, 8])


def ends_of_odd(width):
    """The end of an odd one at the end of 8 bytes, and of all payloads; a byte further; and not at a multiple of 8 there."""
    for last in (64, 72, 14280, 14288):
        start = last - model.end_of(0, width)
        yield from ((1, transport, [1517], [at], [width]) for transport in (0, 1) for at in (start, start + 1, start - 1))


def order_of_9():
    """Judgement 9 'after 5 and before 6', and with its lowest position."""
    for starts, widths in (([8, 3], [8, 19]), ([0, 9, 9], [1, 19, 1]), ([3, 3], [11, 19]),           # 5 is first, here or at a later position
                           ([0, 3], [8, 19]), ([0, 4, 25], [8, 8, 19]), ([0, 9], [19, 19]),          # 9 before 6, at the same position or a later one
                           ([1, 25], [19, 11]), ([0, 25, 51], [19, 19, 19]), ([5, 40], [31, 19]),    # the lowest
                           ([14265], [19]), ([0, 14279], [19, 9]), ([63], [19])):                    # 9 before 7 and 8
        yield from ((len(starts), transport, KNOWN[:len(starts)], list(starts), list(widths)) for transport in (0, 1))
    yield 2, 0, [1517, 1517], [0, 9], [8, 19]
    yield 2, 0, [1517, 1519], [1, 9], [19, 0]
    yield 2, 0, [1517, 1519], [1, 9], [19, MISSING]


# ---- Payloads

def number_for(dice, width):
    """A number that the width holds."""
    return dice.one_of([0, 1, 2**width - 1, 2 ** (width - 1), dice.below(2**width), dice.below(2**width)])


def last_start(width):
    """The last start of this width that ends in a payload."""
    return 14280 - model.end_of(0, width)


def packed(dice):
    """Starts, widths, numbers, and the seed and size of the buffer."""
    # 01's A and B, and number 4 for 1519
    yield [0, 8], [8, 2], [40, 1], 0, 10
    yield [0, 4], [2, 8], [2, 0xA5], 7, 8
    yield [0, 8], [8, 2], [40, 4], 7, 9
    # 5.3.1.8.1: bits 1, 8, 9, 57 and 64; 5.3.1.8.2: 11 bits at wire bit 19, which is judged 9 by Req 04, so that no usable map has them there. This call knows no judgement,
    # and lays them at the places that Req 04 gives, as it does at wire bit 17
    for bit in (1, 8, 9, 57, 64):
        yield from (([bit - 1], [1], [value], bit, 9) for value in (0, 1))
    for value in (0, 1, 2**10, 2**11 - 1, 2**11, 0x2AA, 0x555):
        yield from (([start], [11], [value], value % 256, 8) for start in (18, 16))
    # Req 04: a number of 19 bits lies as 5.3.2 lays an SPN, 01's two among these, with the skipped bits 1; and with 5 bits there, as 5.3.1.3 has them
    for spn in (1517, 65536, 0, 1, 2**16 - 1, 2**18, 2**19 - 1, 2**19):
        yield [0], [19], [spn], 0, 8
        yield from (([0, 16], [19, 5], [spn, rest], 0, 8) for rest in (0, 1, 21, 31, 32))
        if spn < 2**19:
            assert model.pack_places([(0, 19)], [spn], [0] * 8)[1] == model.spn_bytes(spn, 31) + [255] * 5
            assert model.pack_places([(0, 19), (16, 5)], [spn, 21], [0] * 8)[1] == model.spn_bytes(spn, 21) + [255] * 5
    for width in ODD_WIDTHS:
        yield from packed_odd(dice, width)
    # every width at every bit of a byte, and as far back as it goes, and one further
    for width in range(1, 33):
        for bit in range(8):
            yield [8 * dice.below(6) + bit], [width], [number_for(dice, width)], dice.below(256), dice.within(12, 14)
        yield [last_start(width)], [width], [number_for(dice, width)], dice.below(256), dice.within(1785, 1787)
        yield [last_start(width) + 1], [width], [0], dice.below(256), 9
        if width < 32:
            yield [dice.below(33)], [width], [2**width + dice.below(2)], dice.below(256), 9
    # 64 positions, and one more; none; widths that no parameter has; a start beyond all
    for n in (64, 65):
        widths = any_widths(dice, n)
        starts = starts_for(dice, widths)
        yield starts, widths, [number_for(dice, width) for width in widths], 1, size_of(starts, widths)
    yield [], [], [], 3, 9
    for start, width in ((0, 0), (0, 33), (0, TOP), (TOP, 1), (TOP, TOP), (14279, 1), (14280, 1)):
        yield [start], [width], [0], 5, 1800
        yield [0, start], [1, width], [0, 0], 5, 1800
    for _ in range(500):
        yield from spoiled_pack(dice)


def packed_odd(dice, width):
    """An odd width with each bit of its number alone, with one in the bits that it skips, before it and behind it, and with one that shares its bits: the later one has them."""
    start = 8 * dice.below(4)
    first, last = skipped_bits(start, width)
    end = model.end_of(start, width)
    for i in range(width):
        yield [start], [width], [2**i], dice.below(256), 8
    for other in range(1, last - first + 1):
        for at in range(first, last - other + 1):
            yield [start, at], [width, other], [number_for(dice, width), number_for(dice, other)], dice.below(256), 9
    yield [start, first, end], [width, last - first, 5], [dice.below(2**width), number_for(dice, last - first), dice.below(32)], dice.below(256), 9
    yield [first, start], [last - first, width], [number_for(dice, last - first), dice.below(2**width)], dice.below(256), 8
    for at in range(first + 1, end):
        yield [start, at], [width, 8], [dice.below(2**width), dice.below(256)], dice.below(256), 9
        yield [at, start], [8, width], [dice.below(256), dice.below(2**width)], dice.below(256), 9


def spoiled_pack(dice):
    """A map with its numbers and a buffer that is long enough, and often one thing wrong with it, or two."""
    widths = any_widths(dice, how_many(dice))
    starts = starts_for(dice, widths, dice.one_of([0, 0, 0, 0, 0, dice.below(400)]))
    numbers = [number_for(dice, width) for width in widths]
    size = size_of(starts, widths) + dice.below(4)
    for _ in range(dice.one_of([0, 0, 1, 2])):
        what, p = dice.below(8), dice.below(len(starts))
        if what == 0:
            size = dice.below(size_of(starts, widths))
        elif what == 1:
            numbers = numbers[:dice.below(len(numbers) + 1)]
        elif what == 2:
            numbers = (numbers + [0])[:72]
        elif what == 3 and widths[p] < 32 and p < len(numbers):
            numbers[p] = dice.one_of([2 ** widths[p], TOP])
        elif what == 4:
            widths = widths[:p]
            break
        elif what == 5:
            widths[p] = dice.one_of([0, 33, TOP])
            break
        elif what == 6:
            starts[p] = dice.within(0, 200)
        elif what == 7:
            widths = widths + [dice.below(99)]
            break
    yield starts, widths, numbers, dice.below(256), size


def taken(dice):
    """Starts, widths, a payload, and the room for numbers as it was."""
    yield [0, 8], [8, 2], [0x28, 0xFD] + [255] * 6, [7, 7, 7]
    yield [0, 4], [2, 8], [0x5E, 0xFA] + [255] * 6, [7, 7]
    for bit in (1, 8, 9, 57, 64):
        yield from (([bit - 1], [1], payload, [7]) for payload in (model.with_bit([255] * 8, bit - 1, 0), model.with_bit([0] * 8, bit - 1, 1)))
    for bit in range(17, 37):   # 5.3.1.8.2's 11 bits, at wire bit 19 (judged 9 by Req 04; this call knows no judgement) and at wire bit 17
        yield from (([start], [11], model.with_bit([0] * 8, bit - 1, 1), [7]) for start in (18, 16))
    for spn in (1517, 65536, 2**19 - 1):   # Req 04: 19 bits, as 5.3.2 lays an SPN
        for rest in (0, 10, 31):
            yield [0], [19], model.spn_bytes(spn, rest) + [255] * 5, [7]
            yield [0, 16], [19, 5], model.spn_bytes(spn, rest) + [0] * 5, [7, 7]
            assert model.read_places([(0, 19), (16, 5)], model.spn_bytes(spn, rest) + [0] * 5, [7, 7])[1] == [spn, rest]
    for width in ODD_WIDTHS:
        yield from taken_odd(dice, width)
    for width in range(1, 33):
        for bit in range(8):
            start = 8 * dice.below(6) + bit
            yield [start], [width], dice.bytes(size_of([start], [width])), [dice.below(2**32)]
    for width in (1, 2, 5, 8, 9, 19, 24, 31, 32):
        yield [last_start(width)], [width], dice.bytes(1785), [TOP, 0]
        yield [last_start(width) + 1], [width], dice.bytes(10), [TOP, 0]
    for n in (64, 65):
        widths = any_widths(dice, n)
        starts = starts_for(dice, widths)
        yield starts, widths, dice.bytes(size_of(starts, widths)), list(range(n + 3))
    yield [], [], dice.bytes(8), [1, 2]
    for start, width in ((0, 0), (0, 33), (0, TOP), (TOP, 1), (TOP, TOP), (14280, 1)):
        yield [start], [width], dice.bytes(8), [1, 2]
    for _ in range(500):
        widths = any_widths(dice, how_many(dice))
        starts = starts_for(dice, widths, dice.one_of([0, 0, 0, 0, 0, dice.below(400)]))
        size = size_of(starts, widths) + dice.one_of([0, 0, 0, 0, 0, 0, -1, 1])
        n = len(starts)
        room = dice.one_of([n, n, n, n + 1, n + 5, n - 1, dice.below(n)])
        yield starts, widths, dice.bytes(size), [dice.below(2**32) for _ in range(room)]


def taken_odd(dice, width):
    """An odd width: each bit of its bytes alone, the skipped ones too; then any bytes, with what stands in the skipped bits."""
    start = 8 * dice.below(4)
    first, last = skipped_bits(start, width)
    for p in range(start, model.end_of(start, width)):
        yield [start], [width], model.with_bit([0] * 8, p, 1), [7]
    for other in range(1, last - first + 1):
        at = first + dice.below(last - first - other + 1)
        yield [start, at], [width, other], dice.bytes(8), [7, 7, 7]
