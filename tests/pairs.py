"""The cases of the port pairs: tags 1 to 3 of the program `runs`."""
import model
from dice import TOP, case, line, word
from model import Mode
from rooms import identifier_of

ADD, DELETE, RENEW, DECIDE = range(4)
PAIRS = sorted(model.Box().pairs)


class Run:
    """Calls one after another on the filters of one box."""

    def __init__(self):
        self.box = model.Box()
        self.cases = [(case(0, b""), [])]

    def answer(self, call, a, b, x):
        return (self.box.add, self.box.delete, self.box.renew, self.box.decide)[call](a, b, x)

    def call(self, call, a, b, x=0):
        self.cases.append((case(1, bytes([call, a, b]) + word(x)), [line(*self.answer(call, a, b, x))]))

    def everywhere(self, call, x=0):
        """For every two port numbers."""
        lines, refused = [], 0
        for a in range(256):
            for b in range(256):
                answer = self.answer(call, a, b, x)
                if answer.number == 15:
                    refused += 1
                else:
                    lines.append(line(a, b, *answer))
        self.cases.append((case(2, bytes([call, 0, 0]) + word(x)), lines + [line(15, refused)]))

    def write(self, words):
        """Words that no command wrote: a pair has 34, its mode (any but 0 is 1), its count (above 32 is 32), and its list."""
        for place, value in enumerate(words):
            self.cases.append((case(3, place.to_bytes(2, "little") + b"\0" + word(value)), []))
        for i, pair in enumerate(PAIRS):
            mode, count, *pgns = words[34 * i:34 * i + 34]
            self.box.pairs[pair] = Mode(min(mode, 1), pgns[:min(count, 32)])


def cases(dice):
    for make in (sweeps, figure_5, full, forms, modes, around_240):
        yield from make().cases
    for often in (1, 2, 3, 6):
        yield from any_calls(dice, often).cases
    for _ in range(12):
        yield from any_words(dice).cases


def frame_with(pgn, dice=None):
    """An identifier with this PGN; destination, priority and source are any."""
    ps = pgn % 256 if pgn // 256 % 256 >= 240 else (dice.below(256) if dice else 39)
    priority, source = (dice.below(8), dice.below(256)) if dice else (6, 0)
    return identifier_of(priority, pgn // 131072, pgn // 65536 % 2, pgn // 256 % 256, ps, source)


def sweeps():
    """Every two port numbers, in every call."""
    run = Run()
    run.everywhere(DECIDE, 0x18FEE300)
    run.everywhere(ADD, 65251)
    run.everywhere(DECIDE, 0x18FEE300)
    run.everywhere(DECIDE, 0x18FEE400)
    run.everywhere(DELETE, 65251)
    run.everywhere(DELETE, 65251)
    run.everywhere(DECIDE, 0x18FEE300)
    run.everywhere(ADD, 65251)
    run.everywhere(RENEW, 1)
    run.everywhere(DECIDE, 0x18FEE300)
    run.everywhere(ADD, 65251)
    run.everywhere(DECIDE, 0x18FEE300)
    run.everywhere(RENEW, 2)
    run.everywhere(DECIDE, 0x18FEE300)
    run.everywhere(RENEW, 1)
    run.everywhere(DECIDE, 0x18FEE300)
    run.everywhere(RENEW, 0)
    run.everywhere(DECIDE, 0x18FEE300)
    run.everywhere(ADD, 262144)
    run.everywhere(DELETE, 1)
    run.everywhere(DECIDE, 2**29)
    # each pair has a PGN of its own
    for i, pair in enumerate(PAIRS):
        run.call(RENEW, *pair, i % 2)
        run.call(ADD, *pair, 65280 + i)
    for i in range(12):
        run.everywhere(DECIDE, frame_with(65280 + i))
    return run


def figure_5():
    """004's figure 5, with 00FEE3h: what is blocked from 1 to 2 passes from 2 to 1."""
    run = Run()
    run.call(ADD, 1, 2, 0x00FEE3)
    for pair in ((1, 2), (2, 1), (1, 3), (3, 2)):
        run.call(DECIDE, *pair, 0x18FEE300)
        run.call(DECIDE, *pair, 0x18FEE200)
    return run


def full():
    """32 PGNs, and one more; in either mode."""
    run = Run()
    for mode in (0, 1):
        run.call(RENEW, 3, 1, mode)
        for i in range(34):
            run.call(ADD, 3, 1, 65280 + i)
        run.call(ADD, 3, 1, 65281)
        run.call(ADD, 3, 2, 65320)
        run.call(ADD, 3, 1, 1)
        run.call(DELETE, 3, 1, 65312)
        run.call(DELETE, 3, 1, 65290)
        run.call(DELETE, 3, 1, 65290)
        run.call(ADD, 3, 1, 65312)
        run.call(ADD, 3, 1, 65313)
        for i in range(34):
            run.call(DECIDE, 3, 1, frame_with(65280 + i))
            run.call(DECIDE, 1, 3, frame_with(65280 + i))
        run.call(RENEW, 3, 1, 2 + mode)
        run.call(DECIDE, 3, 1, frame_with(65312))
        run.call(RENEW, 3, 1, 1 - mode)
        run.call(DECIDE, 3, 1, frame_with(65312))
    return run


FORMS = [0, 1, 255, 256, 257, 44800, 45056, 45057, 61184, 61185, 61439, 61440, 61441, 65251, 65279, 65280, 65535, 65536, 65537,
         126720, 126721, 130816, 131071, 131072, 131073, 192256, 192257, 196608, 257792, 257793, 258047, 258048, 258049, 262143,
         262144, 262145, 262144 + 65251, 2**24 - 1, 2**24, 2**31, 2**32 - 65536, TOP - 255, TOP - 1, TOP]


def forms():
    """PF 239 and 240, a low byte of 0 and others, and PGNs beyond 262,143: added, deleted, and deleted where they are not."""
    run = Run()
    for pgn in FORMS:
        run.call(DELETE, 4, 2, pgn)
        run.call(ADD, 4, 2, pgn)
        run.call(ADD, 4, 2, pgn)
        for identifier in (frame_with(pgn % 2**18), frame_with(pgn % 2**18 // 256 * 256)):
            run.call(DECIDE, 4, 2, identifier)
        run.call(DELETE, 4, 2, pgn)
        run.call(DELETE, 4, 2, pgn)
    return run


def modes():
    """From each mode to modes 0, 1, 2, 255, with and without a list: a renew empties it, also where the mode stays, and a refused one leaves it. No
    other pair goes with it."""
    run = Run()
    for before in (0, 1):
        for mode in (0, 1, 2, 3, 128, 254, 255):
            for listed in ((), (65251,), (65251, 60928)):
                for pair in ((2, 4), (4, 2)):
                    run.call(RENEW, *pair, before)
                    for pgn in listed:
                        run.call(ADD, *pair, pgn)
                run.call(RENEW, 2, 4, mode)
                for pair in ((2, 4), (4, 2)):
                    run.call(DECIDE, *pair, 0x18FEE300)
                    run.call(DECIDE, *pair, 0x18EE20F8)
                run.call(DELETE, 2, 4, 65251)
    return run


def around_240():
    """Identifiers around PF 239 and 240 and the end of the 29 bits, by the PGN that they have and by those beside it."""
    run = Run()
    for pgn in (61184, 61440, 61441, 65536 + 61184, 131072 + 61440, 261888, 262143):
        for mode in (0, 1):
            run.call(RENEW, 1, 4, mode)
            run.call(ADD, 1, 4, pgn)
            for reserved, page in ((0, 0), (0, 1), (1, 0)):
                for pf, ps in ((238, 0), (239, 0), (239, 1), (239, 255), (240, 0), (240, 1), (240, 255), (241, 0)):
                    run.call(DECIDE, 1, 4, identifier_of(6, reserved, page, pf, ps, 38))
            for identifier in (2**29 - 1, 2**29 - 256, 2**29, 2**29 + frame_with(pgn), 2**31 + frame_with(pgn), TOP):
                run.call(DECIDE, 1, 4, identifier)
    return run


def pool(dice):
    return dice.some(24, range(65280, 65536)) + [256 * pf for pf in dice.some(14, range(240))] + dice.some(8, FORMS)


def any_call(dice, run, pairs, pgns):
    a, b = dice.one_of(pairs)
    what = dice.below(100)
    if what < 45:
        run.call(ADD, a, b, dice.one_of(pgns))
    elif what < 57:
        run.call(DELETE, a, b, dice.one_of(pgns))
    elif what == 57 and dice.below(3) == 0:
        run.call(RENEW, a, b, dice.one_of([0, 0, 1, 1, 2, 255]))
    elif what < 60:
        run.call(RENEW, a, b, dice.one_of([2, 3, 255]))
    else:
        run.call(DECIDE, a, b, dice.one_of([frame_with(dice.one_of(pgns) % 2**18, dice)] * 9 + [dice.below(2**32)]))


def any_calls(dice, often):
    """Calls on all pairs, on a few of them so often that their lists fill up, and now and then on ports that are none."""
    run = Run()
    pgns = pool(dice)
    pairs = PAIRS * 2 + dice.some(often, PAIRS) * (60 // often) + [(a, b) for a in (0, 1, 4, 5, 15, 255) for b in (0, 1, 4, 5, 15, 255)][::3]
    for _ in range(2500):
        any_call(dice, run, pairs, pgns)
    return run


def any_words(dice):
    """Filters whose words no command wrote."""
    run = Run()
    pgns = pool(dice)
    words = []
    for pair in PAIRS:
        words += [dice.one_of([0, 0, 1, 1, 2, 256, TOP]), dice.one_of([0, 1, 2, 31, 32, 33, 34, dice.below(40), 2**16, TOP])]
        words += [dice.one_of([dice.one_of(pgns), dice.one_of(pgns), dice.below(2**18), dice.below(2**32)]) for _ in range(32)]
    run.write(words)
    for _ in range(120):
        any_call(dice, run, PAIRS, pgns)
    for pair in dice.some(4, PAIRS):
        run.call(RENEW, *pair, dice.below(2))
        for _ in range(4):
            any_call(dice, run, [pair], pgns)
    return run
