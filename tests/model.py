#!/usr/bin/env python3
"""A model of document 01 with the requests of document 02 that have landed, written from them and docs/WIRE.md alone and as plainly as possible: a key is the list of its
messages, a payload is handled one bit at a time, a port pair is a mode and a list. It shares nothing with the Rattle code.

    python3 tests/model.py            writes what the programs are run on and what they must write
    python3 tests/model.py --check    says whether those files are what it would write

Words in quotes are 01's, or 02's where a request is named. Answers are in 01's numbers; where 01's detail is a judgement and its position, they stand in the
fields of that name and the detail is 0."""
import os
import sys
from collections import namedtuple

import units

HERE = os.path.dirname(os.path.abspath(__file__))

Answer = namedtuple("Answer", "number detail judgement position", defaults=(0, 0, 0))
Message = namedtuple("Message", "source destination k n proprietary transport position spn start")
Found = namedtuple("Found", "answer position start width")
Parameter = namedtuple("Parameter", "answer spn start width")
Mode = namedtuple("Mode", "mode pgns")


# ---- A frame

def fields(identifier):
    """'Of the 29 identifier bits, from the top: priority 3, reserved 1, data page 1, PF 8, PS 8, source 8.' Bits above
    the 29 are in none of them."""
    text = format(identifier % 2**29, "029b")
    return tuple(int(text[a:b], 2) for a, b in ((0, 3), (3, 4), (4, 5), (5, 13), (13, 21), (21, 29)))


def pgn_of(identifier):
    """'Reserved, data page, PF and PS as one number, with the PS place 0 where PF is below 240.'"""
    priority, reserved, page, pf, ps, source = fields(identifier)
    return int("%d%d%s%s" % (reserved, page, format(pf, "08b"), format(0 if pf < 240 else ps, "08b")), 2)


def destination_of(identifier):
    """'The destination is PS where PF is below 240, otherwise 255.'"""
    priority, reserved, page, pf, ps, source = fields(identifier)
    return ps if pf < 240 else 255


def bits_of(byte, high, low):
    """Bits high to low of a byte, counted from 1 to 8 as 002 does."""
    return int(format(byte, "08b")[8 - high:9 - low], 2)


def three_byte_pgn(three):
    """'Three-byte PGNs go least significant byte first.'"""
    return int.from_bytes(bytes(three), "little")


def pgn_bytes(pgn):
    """The same the other way; 24 bits are sent."""
    return list((pgn % 2**24).to_bytes(3, "little"))


def spn_of(three):
    """'A 19-bit SPN goes low byte, second byte, then its top three bits in bits 8 to 6 of the third.'"""
    return int(format(bits_of(three[2], 8, 6), "03b") + format(three[1], "08b") + format(three[0], "08b"), 2)


def spn_bytes(spn, rest):
    """The same the other way; bits 5 to 1 of the third byte are the low five bits of rest."""
    text = format(spn % 2**19, "019b")
    return [int(text[11:], 2), int(text[3:11], 2), int(text[:3] + format(rest % 32, "05b"), 2)]


# ---- What one message says

CONFIGURABLE = {45056 + 256 * k: k for k in range(1, 16)}


def decode(identifier, length, eight):
    """The first of answers 1 to 8 that applies and no message, or 0 and the well-formed message (docs/WIRE.md has the
    places). Each flag is a single bit, so 6 never arrives."""
    priority, reserved, page, pf, ps, source = fields(identifier)
    if identifier > 2**29 - 1:
        return 1, None
    if pgn_of(identifier) != 45056:
        return 2, None
    if length != 8:
        return 3, None
    if source in (254, 255):
        return 4, None
    b1, b2, b3, b4, b5, b6, b7, b8 = eight
    configured = three_byte_pgn((b1, b2, b3))
    if configured not in CONFIGURABLE:
        return 5, None
    position, n = bits_of(b6, 5, 1), bits_of(b7, 5, 1)
    proprietary, transport, first_only = bits_of(b7, 8, 8), bits_of(b7, 7, 7), bits_of(b7, 6, 6)
    if not 1 <= n <= 64 or not 1 <= position <= n or (first_only == 1 and position != 1):
        return 7, None
    start = b8 - 1
    if not 0 <= start <= 14279 or b8 in (251, 252, 253, 254, 255):
        return 8, None
    return 0, Message(source, destination_of(identifier), CONFIGURABLE[configured],
                      n, proprietary, transport, position, spn_of((b4, b5, b6)), start)


# ---- A set and its judgement

def dictionary(name):
    """'Each SPN in 002 with a fixed length of 1 to 32 bits, once, with its width', from tests/spns.txt; the same of 000 (Req 10) from tests/spns2004.txt."""
    with open(os.path.join(HERE, name)) as rows:
        return {int(spn): int(width) for spn, width in (row.split() for row in rows)}


WIDTHS = dictionary("spns.txt")

# Req 10: 'Keep both dictionaries and give each key an edition .. A fresh key has 2010.'
OLDER, NEWER = 2004, 2010
EDITIONS = {OLDER: dictionary("spns2004.txt"), NEWER: WIDTHS}
FRESH = NEWER


def contradict(a, b):
    """'They differ in n, the proprietary flag or the transport flag, or have one position and differ in SPN or start.'"""
    if (a.n, a.proprietary, a.transport) != (b.n, b.proprietary, b.transport):
        return True
    return a.position == b.position and (a.spn, a.start) != (b.spn, b.start)


def in_conflict(messages):
    return any(contradict(a, b) for a in messages for b in messages)


def odd(width):
    """Req 04: 'a width above 8 that isn't a multiple of 8'."""
    return width > 8 and width % 8 != 0


def end_of(start, width):
    """The payload bit after the last one of a parameter: 'start + width'; Req 04, of an odd width with its 'last, partial byte': 'the end of that byte'."""
    return start + (width // 8 + 1) * 8 if odd(width) else start + width


def taken_bits(start, width):
    """Where the bits of a parameter's number stand, from its lowest on. 'Bit i of the parameter's number stands at payload bit start + i.' Req 04, of an odd width: the 'last,
    partial byte is filled from bit 8 downward', so of the bits up to its end it has the first ones, byte by byte, and the last ones; between them are 'the low bits it
    skips', and these 'are unassigned'."""
    run = list(range(start, end_of(start, width)))
    if not odd(width):
        return run
    return run[:width - width % 8] + run[-(width % 8):]


def length_of(placed):
    """L: 'the larger of 8 and the largest start + width divided by 8, rounded up', for a list of (start, width), with Req 04's 'end for L'."""
    return max([8] + [(end_of(start, width) + 7) // 8 for start, width in placed])


def judge_map(n, transport, rows):
    """The judgement and its position of a map without a conflict: rows[p - 1] is the (SPN, start, width) of position p, with
    width 0 where the dictionary hasn't the SPN, or None where the position is missing. 'The first of these that applies,
    with its lowest position'; 9 is Req 04's, 'tested after 5 and before 6'."""
    spn = lambda p: rows[p - 1][0]
    start = lambda p: rows[p - 1][1]
    width = lambda p: rows[p - 1][2]
    bits = lambda p: set(taken_bits(start(p), width(p)))
    rules = [
        (2, lambda p: rows[p - 1] is None),
        (3, lambda p: width(p) == 0),
        (4, lambda p: any(spn(q) == spn(p) for q in range(1, p))),
        (5, lambda p: p > 1 and not start(p) > start(p - 1)),
        (9, lambda p: odd(width(p)) and start(p) % 8 != 0),
        (6, lambda p: any(bits(q) & bits(p) for q in range(1, p))),
        (7, lambda p: end_of(start(p), width(p)) > 14280),
    ]
    for number, applies in rules:
        for p in range(1, n + 1):
            if applies(p):
                return number, p
    longer = length_of([row[1:] for row in rows[:n]]) > 8
    if (transport == 1) != longer:
        return 8, 0
    return 0, 0


CONFLICT = "in conflict"


def map_of(messages, edition=FRESH):
    """What a key's messages make: CONFLICT, or n, the transport flag and what stands at each position, its width by the key's edition (Req 10)."""
    if in_conflict(messages):
        return CONFLICT
    said = {m.position: (m.spn, m.start, EDITIONS[edition].get(m.spn, 0)) for m in messages}
    n, transport = messages[0].n, messages[0].transport
    return n, transport, [said.get(p) for p in range(1, n + 1)]


def judge(held):
    """The judgement of a key's map: CONFLICT, or n, the transport flag and what stands at each position."""
    return (1, 0) if held == CONFLICT else judge_map(*held)


# ---- Payload bits, for a list of (start, width) in position order

def get_bit(payload, p):
    """'Payload bit p is the bit worth 2^(p mod 8) in byte p / 8 rounded down.'"""
    return payload[p // 8] // 2 ** (p % 8) % 2


def with_bit(payload, p, bit):
    changed = list(payload)
    changed[p // 8] += (bit - get_bit(payload, p)) * 2 ** (p % 8)
    return changed


def pack_places(placed, numbers, buffer):
    """Packing: the answer (13, 14 or 0 with L) and what the buffer holds afterwards."""
    size = length_of(placed)
    if len(numbers) != len(placed) or len(buffer) < size:
        return Answer(13), list(buffer)
    for position, ((start, width), number) in enumerate(zip(placed, numbers), 1):
        if number >= 2**width:
            return Answer(14, position), list(buffer)
    payload = [255] * size
    for (start, width), number in zip(placed, numbers):
        for i, p in enumerate(taken_bits(start, width)):
            payload = with_bit(payload, p, number // 2**i % 2)
    return Answer(0, size), payload + list(buffer[size:])


def read_places(placed, payload, room):
    """Reading: the answer (13, or 0 with n) and what the room for numbers holds afterwards."""
    if len(payload) != length_of(placed) or len(room) < len(placed):
        return Answer(13), list(room)
    numbers = [sum(get_bit(payload, p) * 2**i for i, p in enumerate(taken_bits(start, width)))
               for start, width in placed]
    return Answer(0, len(placed)), numbers + list(room[len(placed):])


# ---- The box

class Box:
    """What one box holds: for each held key its set, and its edition where one was set; for each port pair its mode and list."""

    def __init__(self):
        self.sets = {}
        self.editions = {}
        self.pairs = {(a, b): Mode(0, []) for a in range(1, 5) for b in range(1, 5) if a != b}

    def learn(self, identifier, length, eight):
        number, message = decode(identifier, length, eight)
        return self.take(message) if number == 0 else Answer(number)

    def take(self, message):
        """Answers 9 and 10, and 0, for a well-formed message."""
        key = message[:3]
        if key not in self.sets and len(self.sets) == 16:
            return Answer(9)
        messages = self.sets.setdefault(key, [])
        if message not in messages:
            messages.append(message)
        return Answer(10 if in_conflict(messages) else 0)

    def forget(self, key):
        if key not in self.sets:
            return Answer(11)
        del self.sets[key]
        self.editions.pop(key, None)
        return Answer(0)

    def set_edition(self, key, edition):
        """Req 10: 'a command changes one held key's edition and nothing else of it', refusals '11, then 27 for another edition'."""
        if key not in self.sets:
            return Answer(11)
        if edition not in EDITIONS:
            return Answer(27)
        self.editions[key] = edition
        return Answer(0)

    def edition(self, key):
        """Req 10: 'the edition last set since' the key's last forget; 'a fresh key has 2010', and here one that is not held."""
        return self.editions.get(key, FRESH)

    def map(self, key):
        """The key's map, or None where it is not held."""
        return map_of(self.sets[key], self.edition(key)) if key in self.sets else None

    def count(self, key):
        """'N is 0 for a key in conflict', and here for one that is not held."""
        held = self.map(key)
        return 0 if held in (None, CONFLICT) else held[0]

    def judge(self, key):
        held = self.map(key)
        return Answer(11) if held is None else Answer(0, 0, *judge(held))

    def usable(self, key):
        """Answers 11 and 12, or None and the key's (SPN, start, width) in position order."""
        held = self.map(key)
        if held is None:
            return Answer(11), None
        judged = judge(held)
        if judged != (0, 0):
            return Answer(12, 0, *judged), None
        n, transport, rows = held
        return None, rows

    def pack(self, key, numbers, buffer):
        refused, rows = self.usable(key)
        if refused:
            return refused, list(buffer)
        return pack_places([row[1:] for row in rows], numbers, buffer)

    def read(self, key, payload, room, states):
        """Beside the answer what the two rooms hold afterwards. Req 05: the state of each number, 'no new refusals': 13 where that room too is shorter than n."""
        refused, rows = self.usable(key)
        if refused:
            return refused, list(room), list(states)
        if len(states) < len(rows):
            return Answer(13), list(room), list(states)
        answer, numbers = read_places([row[1:] for row in rows], payload, room)
        if answer.number != 0:
            return answer, numbers, list(states)
        said = [units.state(width, number) for (spn, start, width), number in zip(rows, numbers)]
        return answer, numbers, said + list(states[len(rows):])

    def find(self, key, spn):
        refused, rows = self.usable(key)
        if refused:
            return Found(refused, 0, 0, 0)
        for position, (known, start, width) in enumerate(rows, 1):
            if known == spn:
                return Found(Answer(0), position, start, width)
        return Found(Answer(18), 0, 0, 0)

    def place(self, key, position):
        """The (SPN, start) that a held key's messages say of a position, or None. A key in conflict has no map, so nothing stands anywhere."""
        if in_conflict(self.sets[key]):
            return None
        return next(((m.spn, m.start) for m in self.sets[key] if m.position == position), None)

    def parameter(self, key, position):
        """What stands at a position of a key's map, usable or not: 11, then 18 where nothing does; the width is 0 where the dictionary of its edition hasn't the SPN."""
        if self.map(key) is None:
            return Parameter(Answer(11), 0, 0, 0)
        place = self.place(key, position)
        if place is None:
            return Parameter(Answer(18), 0, 0, 0)
        return Parameter(Answer(0), *place, EDITIONS[self.edition(key)].get(place[0], 0))

    def keys(self):
        """The held keys, 'rising by source, destination, k'."""
        return sorted(self.sets)

    def next_key(self, key=None):
        """The lowest held key above the given one (the lowest of all where none is given), or None."""
        return next((held for held in self.keys() if key is None or held > key), None)

    # ---- Port pairs

    def add(self, a, b, pgn):
        if (a, b) not in self.pairs:
            return Answer(15)
        if not filterable(pgn):
            return Answer(17)
        pgns = self.pairs[a, b].pgns
        if pgn in pgns:
            return Answer(0)
        if len(pgns) == 32:
            return Answer(16)
        pgns.append(pgn)
        return Answer(0)

    def delete(self, a, b, pgn):
        if (a, b) not in self.pairs:
            return Answer(15)
        if not filterable(pgn):
            return Answer(17)
        if pgn not in self.pairs[a, b].pgns:
            return Answer(18)
        self.pairs[a, b].pgns.remove(pgn)
        return Answer(0)

    def renew(self, a, b, mode):
        """Req 07: 'named pair, new mode, empty list', refusals '15, then 19'."""
        if (a, b) not in self.pairs:
            return Answer(15)
        if mode not in (0, 1):
            return Answer(19)
        self.pairs[a, b] = Mode(mode, [])
        return Answer(0)

    def decide(self, a, b, identifier):
        """'15, then 1, otherwise 0 with detail 1 for pass and 0 for block, by the frame's PGN.'"""
        if (a, b) not in self.pairs:
            return Answer(15)
        if identifier > 2**29 - 1:
            return Answer(1)
        listed = pgn_of(identifier) in self.pairs[a, b].pgns
        passes_listed = self.pairs[a, b].mode == 1
        return Answer(0, 1 if listed == passes_listed else 0)


def filterable(pgn):
    """Not answer 17: 'PGN above 262,143, or PF below 240 with a low byte other than 0'."""
    return pgn <= 262143 and (pgn // 256 % 256 >= 240 or pgn % 256 == 0)


# ---- The listing program

def last_line(answers, left):
    """'RECORDS counts the whole records, OTHER answer 2, REFUSED answers 1 and 3 to 9, LEFT the bytes of a cut last record.'"""
    refused = sum(answers.count(number) for number in (1, 3, 4, 5, 6, 7, 8, 9))
    return "RECORDS %d REFUSED %d OTHER %d LEFT %d" % (len(answers), refused, answers.count(2), left)


def listing(log, box=None):
    """What the listing program writes for a log. Its box is a fresh one; another may be given, and learns from the log."""
    box, answers = box or Box(), []
    whole = len(log) // 13
    for at in range(0, 13 * whole, 13):
        record = log[at:at + 13]
        answers.append(box.learn(int.from_bytes(record[:4], "little"), record[4], record[5:]).number)
    lines = ["SRC DST MSG N JUDGED AT"]
    for key in box.keys():
        lines.append("%d %d %d %d %d %d" % (*key, box.count(key), *judge(box.map(key))))
    lines.append(last_line(answers, len(log) - 13 * whole))
    return "".join(line + "\n" for line in lines)


# ---- The files

def main():
    import cases
    check = sys.argv[1:] == ["--check"]
    assert check or not sys.argv[1:], "usage: model.py [--check]"
    wrong = []
    for path, content in cases.files():
        path = os.path.join(os.path.dirname(HERE), "crates", path)
        if check:
            if not os.path.exists(path) or open(path, "rb").read() != content:
                wrong.append(path)
        else:
            os.makedirs(os.path.dirname(path), exist_ok=True)
            with open(path, "wb") as out:
                out.write(content)
    for path in wrong:
        print("not what the model writes:", os.path.relpath(path, os.path.dirname(HERE)))
    sys.exit(1 if wrong else 0)


if __name__ == "__main__":
    main()
