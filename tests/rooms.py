"""The cases of the rooms answers, frame, message and dictionary: tags 0 to 7."""
import model
from dice import TOP, case, line, word
from model import Message


def cases(dice):
    for number, position in judgements():
        yield case(0, bytes([number, position])), [line(number, position)]
    for identifier in identifiers(dice):
        yield case(1, word(identifier)), [line(*model.fields(identifier), model.pgn_of(identifier),
                                               model.destination_of(identifier))]
    for identifier, length, eight in frames(dice):
        number, message = model.decode(identifier, length, eight)
        yield (case(2, word(identifier) + bytes([length]) + bytes(eight)),
               [line(0, *message) if number == 0 else line(number)])
    for pgn in pgns(dice):
        yield case(3, word(pgn)), [line(*model.pgn_bytes(pgn))]
    for spn, rest in spns(dice):
        yield case(4, word(spn) + bytes([rest])), [line(*model.spn_bytes(spn, rest))]
    for three in threes(dice):
        yield case(5, bytes(three)), [line(three[2] % 32, model.spn_of(three), model.three_byte_pgn(three))]
    rising = sorted(model.WIDTHS)
    for spn in asked_widths(dice):
        found = (1, rising.index(spn)) if spn in rising else (0,)
        yield case(6, word(spn)), [line(*found, model.WIDTHS.get(spn, 0))]
    for n, position, first in counted():
        wrong = not 1 <= n <= 64 or not 1 <= position <= n or (first == 1 and position != 1)
        yield case(7, bytes([n, position, first])), [line(1 if wrong else 0)]


def judgements():
    """Every judgement of 01 and Req 04's 9, those that concern a position with the lowest, the highest and one between."""
    for number in range(10):
        for position in ((1, 17, 64, 255) if 2 <= number <= 7 or number == 9 else (0,)):
            yield number, position


def identifier_of(priority, reserved, page, pf, ps, source):
    return int("".join(format(value, "0%db" % width) for value, width in
                       ((priority, 3), (reserved, 1), (page, 1), (pf, 8), (ps, 8), (source, 8))), 2)


def identifiers(dice):
    """01's two and the ends of every field, then around them at random."""
    yield from (0x18FEE300, 0x18ED20F8, 0, 2**29 - 1, 2**29, TOP)
    for bit in range(32):
        yield from (2**bit, TOP - 2**bit)
    for pf in (0, 1, 175, 176, 177, 191, 192, 238, 239, 240, 241, 254, 255):
        for ps in (0, 1, 254, 255):
            yield identifier_of(6, 0, 0, pf, ps, dice.below(256))
    for reserved, page in ((0, 0), (0, 1), (1, 0), (1, 1)):
        for pf in (176, 239, 240):
            yield identifier_of(dice.below(8), reserved, page, pf, dice.below(256), dice.below(256))
    for _ in range(200):
        yield dice.below(2**29)
    for _ in range(20):
        yield dice.within(2**29, TOP)


# A frame is made from these fields by name; each has the values that 01 or 002 draws a line at.

EDGES = {
    "above": [0, 1, 7],
    "priority": list(range(8)),
    "reserved": [0, 1],
    "page": [0, 1],
    "pf": [0, 175, 176, 177, 239, 240, 255],
    "ps": [0, 39, 254, 255],
    "source": [0, 1, 38, 252, 253, 254, 255],
    "length": [0, 1, 2, 3, 4, 5, 6, 7, 8, 9, 16, 255],
    "configured": [0, 1, 45055, 45056, 45057, 45311, 45312, 45313, 45567, 45568, 46080, 48640, 48895, 48896, 48897,
                   49151, 49152, 65535, 45312 + 65536, 48896 + 65536, 45312 + 128 * 65536, 2**24 - 1]
                  + [45056 + 256 * k for k in range(17)],
    "spn": [0, 1, 255, 256, 1517, 1519, 65535, 65536, 262144, 524287],
    "position": [0, 1, 2, 3, 16, 30, 31],
    "proprietary": [0, 1],
    "transport": [0, 1],
    "first": [0, 1],
    "n": [0, 1, 2, 3, 16, 30, 31],
    "start": [0, 1, 2, 8, 9, 57, 64, 65, 249, 250, 251, 252, 253, 254, 255],
}

PLAIN = {"above": 0, "priority": 6, "reserved": 0, "page": 0, "pf": 176, "ps": 39, "source": 38, "length": 8,
         "configured": 45312, "spn": 1517, "position": 1, "proprietary": 1, "transport": 0, "first": 0, "n": 2, "start": 1}

# One way to earn each refusal that can arrive.
FAULTS = [{"above": 1}, {"pf": 177}, {"length": 7}, {"source": 254}, {"configured": 49152}, {"n": 0}, {"start": 251}]


def frame(**said):
    """The frame with these fields, the others plain."""
    f = dict(PLAIN, **said)
    identifier = f["above"] * 2**29 + identifier_of(*(f[name] for name in
                                                      ("priority", "reserved", "page", "pf", "ps", "source")))
    flags = "%d%d%d" % (f["proprietary"], f["transport"], f["first"])
    eight = (model.pgn_bytes(f["configured"]) + model.spn_bytes(f["spn"], f["position"])
             + [int(flags + format(f["n"], "05b"), 2), f["start"]])
    return identifier, f["length"], eight


def frame_with(bit, **said):
    """The frame of SPN 0 with this one of the 64 data bits set, counted from 1 as 002 does."""
    identifier, length, eight = frame(spn=0, **said)
    return identifier, length, model.with_bit(eight, bit - 1, 1)


def frames(dice):
    # 5.3.1.2: the SPN's least significant bit is data bit 25 and its most significant data bit 48
    yield from (frame_with(25), frame_with(48))
    # 5.3.1.8.1: bits 1, 8, 9, 57 and 64 of a payload
    yield from (frame(start=bit) for bit in (1, 8, 9, 57, 64))
    # the last identifier that is one, and the first that is none
    for identifier in (2**29 - 1, 2**29, 2**29 + 1, TOP):
        yield from ((identifier, length, frame()[2]) for length in (8, 7))
    # every line that 01 or 002 draws, alone
    for name, edges in EDGES.items():
        for value in edges:
            yield frame(**{name: value})
    # n, position and first-only against each other
    for n in EDGES["n"]:
        for position in EDGES["position"] + [max(n - 1, 0), n, min(n + 1, 31)]:
            for first in (0, 1):
                yield frame(n=n, position=position, first=first)
    # every set of refusals at once: the first one is given
    for chosen in range(2 ** len(FAULTS)):
        said = {}
        for i, fault in enumerate(FAULTS):
            if chosen // 2**i % 2:
                said.update(fault)
        yield frame(**said)
    # a first-only message that is well-formed, and each data bit turned in it
    for bit in range(64):
        identifier, length, eight = frame(first=1, n=3, spn=1519, start=9)
        yield identifier, length, model.with_bit(eight, bit, 1 - model.get_bit(eight, bit))
    for _ in range(300):
        yield frame(**well_formed(dice))
    for _ in range(500):
        said = well_formed(dice)
        for _ in range(dice.within(1, 2)):
            name = dice.one_of(sorted(EDGES))
            said[name] = dice.one_of(EDGES[name])
        yield frame(**said)
    for _ in range(100):
        yield dice.one_of([0x18B02726, 0x1CB0FF00, dice.below(2**30)]), dice.within(7, 9), [dice.below(256) for _ in range(8)]


def well_formed(dice):
    n = dice.within(1, 31)
    first = dice.below(2)
    said = {"priority": dice.below(8), "ps": dice.below(256), "source": dice.below(254), "n": n, "first": first,
            "position": 1 if first else dice.within(1, n), "configured": 45056 + 256 * dice.within(1, 15),
            "spn": dice.one_of([dice.below(2**19), dice.one_of(sorted(model.WIDTHS))]),
            "proprietary": dice.below(2), "transport": dice.below(2), "start": dice.within(1, 250)}
    number, message = model.decode(*frame(**said))
    assert number == 0 and message == Message(
        said["source"], said["ps"], (said["configured"] - 45056) // 256, n, said["proprietary"], said["transport"],
        said["position"], said["spn"], said["start"] - 1)
    return said


def pgns(dice):
    yield from (0, 255, 256, 44800, 45056, 45312, 48896, 65251, 60672, 65535, 65536, 131071, 262143, 2**24 - 1, 2**24, TOP)
    for _ in range(100):
        yield dice.below(2 ** dice.within(1, 32))


def spns(dice):
    """With the five bits beside them; 01's two with reserved bits 1."""
    yield from ((1517, 31), (65536, 31), (0, 0), (0, 31), (524287, 0), (524287, 31), (524288, 0), (TOP, 0), (TOP, 255),
                (1517, 32), (1519, 255), (65535, 1), (131072, 16), (262144, 8))
    for _ in range(100):
        yield dice.below(2 ** dice.within(1, 32)), dice.below(256)


def threes(dice):
    yield from ([0xED, 0x05, 0x1F], [0x00, 0x00, 0x3F], [0, 0, 0], [255, 255, 255], [255, 255, 31], [0, 0, 32], [0, 0, 224],
                [0, 0xB0, 0], [0, 0xB1, 0], [0xE3, 0xFE, 0])
    for _ in range(100):
        yield [dice.below(256) for _ in range(3)]


def asked_widths(dice):
    """Every SPN of the dictionary and those beside it, and far ones."""
    beside = {spn + by for spn in model.WIDTHS for by in (-1, 0, 1)}
    far = {0, 1, 521, 2848, 2**16 + 1517, 2**18, 2**19 - 1, 2**19, 2**19 + 1517, 2**31, 2**32 - 1517, TOP}
    yield from sorted(beside | far)
    for _ in range(100):
        yield dice.below(4096)


def counted():
    """Answer 7's test at the numbers that the five bits of the wire can't carry: n = 64 and 65."""
    for n in (0, 1, 31, 32, 63, 64, 65, 66, 128, 255):
        for position in sorted({0, 1, 2, 32, n - 1, n, n + 1, 64, 65, 255}):
            if 0 <= position <= 255:
                yield from ((n, position, 0), (n, position, 1))
