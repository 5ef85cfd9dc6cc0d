"""Req 14 in the model: long messages put together, from 02, docs/WIRE.md and docs/DECISIONS.md alone; and the cases of the program `transports`. Words in quotes are 02's.

A case is 16 bytes, and behind those of tag 3 the 1,785 bytes of the lent buffer. Numbers of several bytes go least significant byte first, and what a tag does not name is 0:

    byte 0          the tag
    bytes 1 to 13   tags 1 and 2: a frame as it stands in a record: identifier (4), length (1), data (8)
    byte 1          tag 5: the place of a head word, 0 to 31
    bytes 2 to 9    tag 5: the word

Tag 0 makes the head words fresh, 3 fills the lent buffer, 5 writes a head word: no line. The others have one line each:

    1   a request: the answer's number and its detail
    2   a packet: number, detail, the PGN beside the answer, and as many bytes of the lent buffer as the detail says
    4   a space, and the whole lent buffer

Bytes are hexadecimal digits; of no bytes there are none, and the line ends in a space. The head words, the sessions' bytes and the buffer start as 0."""
from collections import namedtuple

import model
import rooms
from dice import line
from locates import record
from model import Answer

REQUEST_PGN, PACKET_PGN = 60416, 60160
MOST = 1785
ROWS = 8
Session = namedtuple("Session", "size pgn came")   # what the request said, and the seven bytes of each packet since


# ---- The model

def frame_fault(identifier, length, pgn):
    """'A later call on a frame tests 1, 2 (by the PGN it serves) and 3 first' (01): the first that applies, or 0."""
    if identifier > 2**29 - 1:
        return 1
    if model.pgn_of(identifier) != pgn:
        return 2
    return 3 if length != 8 else 0


def pair_of(identifier):
    """'One session per source and destination'."""
    return model.fields(identifier)[5], model.destination_of(identifier)


def said_by(eight):
    """A request's size and PGN: bytes 2 and 3, and 6 to 8."""
    return eight[1] + 256 * eight[2], model.three_byte_pgn(eight[5:])


def request_fault(eight):
    """'24 another control byte .. 31 size outside 9 to 1,785 or not matching its packet count': size / 7 rounded up."""
    size, pgn = said_by(eight)
    if eight[0] != 16:
        return 24
    return 31 if not 9 <= size <= MOST or eight[3] != -(-size // 7) else 0


class Sessions:
    """The session of each pair that has one."""

    def __init__(self):
        self.held = {}

    def request(self, identifier, length, eight):
        """'tested 24, 31, 30 for a request'; 'a new request to send replaces that pair's own session'."""
        fault = frame_fault(identifier, length, REQUEST_PGN) or request_fault(eight)
        if fault:
            return Answer(fault)
        pair = pair_of(identifier)
        if pair not in self.held and len(self.held) == ROWS:
            return Answer(30)
        self.held[pair] = Session(*said_by(eight), [])
        return Answer(0)

    def packet(self, identifier, length, eight, out):
        """The answer, the PGN beside it, and what the buffer holds afterwards: '28, 29 for a packet'. 'A packet out of sequence drops its session only'; 'the last one's answer 0 carries its size, and the
        session ends'."""
        fault = frame_fault(identifier, length, PACKET_PGN)
        if fault:
            return Answer(fault), 0, out
        pair = pair_of(identifier)
        if pair not in self.held:
            return Answer(28), 0, out
        size, pgn, came = self.held[pair]
        if eight[0] != len(came) + 1:
            del self.held[pair]
            return Answer(29), 0, out
        came.append(bytes(eight[1:]))
        if 7 * len(came) < size:
            return Answer(0), 0, out
        del self.held[pair]
        return Answer(0, size), pgn, b"".join(came)[:size] + out[size:]


class Words:
    """The same on the lent memory, for words that no run of calls makes; on all others it must answer as `Sessions` does, and `Run` holds it to that. It is the one part of the model that knows the layout
    (docs/DECISIONS.md): 8 rows of 4 head words (holder: 0 nobody, else 1 above source * 256 + destination; the number of the packet that comes next; size; PGN in its low three bytes) and of 1,785
    bytes. The lowest row with a holder is that holder's; a new session goes into its pair's row, else into the lowest that nobody holds."""

    def __init__(self):
        self.heads = [0] * (4 * ROWS)
        self.bytes = bytearray(MOST * ROWS)

    def fresh(self):
        self.heads = [0] * (4 * ROWS)

    def row_with(self, holder):
        """The place of the row's first word, or None."""
        return next((4 * i for i in range(ROWS) if self.heads[4 * i] == holder), None)

    def holder_of(self, identifier):
        source, destination = pair_of(identifier)
        return source * 256 + destination + 1

    def request(self, identifier, length, eight):
        fault = frame_fault(identifier, length, REQUEST_PGN) or request_fault(eight)
        if fault:
            return Answer(fault)
        holder = self.holder_of(identifier)
        at = self.row_with(holder)
        if at is None:
            at = self.row_with(0)
        if at is None:
            return Answer(30)
        self.heads[at:at + 4] = [holder, 1, *said_by(eight)]
        return Answer(0)

    def packet(self, identifier, length, eight, out):
        """A packet is in sequence where its number is the word and not 0, and it is the last where it ends at the size or past it: whatever the words are, no byte outside the row is touched."""
        fault = frame_fault(identifier, length, PACKET_PGN)
        if fault:
            return Answer(fault), 0, out
        at = self.row_with(self.holder_of(identifier))
        if at is None:
            return Answer(28), 0, out
        holder, following, size, pgn = self.heads[at:at + 4]
        number = eight[0]
        if number == 0 or number != following:
            self.heads[at] = 0
            return Answer(29), 0, out
        row = at // 4 * MOST
        self.bytes[row + 7 * (number - 1):row + 7 * number] = bytes(eight[1:])
        if size > 7 * number:
            self.heads[at + 1] = number + 1
            return Answer(0), 0, out
        self.heads[at] = 0
        return Answer(0, size), pgn % 2**24, bytes(self.bytes[row:row + size]) + out[size:]


# ---- Frames

def request(pair, size, pgn, **given):
    """The frame with which a pair asks to send so many bytes. `five` is byte 5, which no document looks at."""
    source, destination = pair
    f = {"above": 0, "priority": 7, "reserved": 0, "page": 0, "pf": 236, "length": 8, "control": 16, "packets": (size + 6) // 7 % 256, "five": 255, **given}
    identifier = f["above"] * 2**29 + rooms.identifier_of(f["priority"], f["reserved"], f["page"], f["pf"], destination, source)
    return identifier, f["length"], [f["control"], size % 256, size // 256, f["packets"], f["five"], *model.pgn_bytes(pgn)]


def packet(pair, number, seven, **given):
    """The frame with which a pair brings packet `number`, of which a byte goes over the wire."""
    source, destination = pair
    f = {"above": 0, "priority": 7, "reserved": 0, "page": 0, "pf": 235, "length": 8, **given}
    identifier = f["above"] * 2**29 + rooms.identifier_of(f["priority"], f["reserved"], f["page"], f["pf"], destination, source)
    return identifier, f["length"], [number % 256, *seven]


def seven_of(payload, number, fill=b"\xff"):
    """The seven bytes of a packet, filled up behind the payload's end; of packet 0 there are none."""
    return payload[7 * (number - 1):7 * number].ljust(7, fill) if number > 0 else fill * 7


def packets_of(size):
    return -(-size // 7)


# ---- Cases

class Run:
    """Calls one after another on one lent memory, that of the program. `sessions` is None from a head word that was written on until the next fresh ones."""

    def __init__(self):
        self.cases = []
        self.words = Words()
        self.out = bytes(MOST)
        self.fresh()

    def add(self, tag, given=b"", behind=b"", *lines):
        self.cases.append(((bytes([tag]) + given).ljust(16, b"\0") + behind, list(lines)))

    def fresh(self):
        self.sessions = Sessions()
        self.words.fresh()
        self.add(0)

    def request(self, *frame):
        """The answer's number."""
        answer = self.words.request(*frame)
        assert self.sessions is None or answer == self.sessions.request(*frame)
        self.add(1, record(*frame), b"", line(answer.number, answer.detail))
        return answer.number

    def packet(self, *frame):
        """The answer, and the PGN beside it."""
        answer, pgn, out = self.words.packet(*frame, self.out)
        assert self.sessions is None or (answer, pgn, out) == self.sessions.packet(*frame, self.out)
        assert len(out) == MOST
        self.out = out
        self.add(2, record(*frame), b"", line(answer.number, answer.detail, pgn, out[:answer.detail].hex()))
        return answer, pgn

    def fill(self, out):
        assert len(out) == MOST
        self.out = out
        self.add(3, b"", out)

    def show(self):
        self.add(4, b"", b"", " " + self.out.hex())

    def put(self, place, word):
        self.sessions = None
        self.words.heads[place] = word
        self.add(5, bytes([place]) + word.to_bytes(8, "little"))

    def send(self, pair, payload, pgn, fill=b"\xff"):
        """A whole payload, and nothing in between."""
        assert self.request(*request(pair, len(payload), pgn)) == 0
        last = packets_of(len(payload))
        for number in range(1, last):
            assert self.packet(*packet(pair, number, seven_of(payload, number, fill))) == (Answer(0), 0)
        assert self.packet(*packet(pair, last, seven_of(payload, last, fill))) == (Answer(0, len(payload)), pgn)
        assert self.out[:len(payload)] == payload


def filler(dice, size=MOST):
    return bytes(dice.bytes(size))


def cases(dice):
    run = Run()
    for make in (examples, refused, controls, sizes, numbers, pairs, eight, turned, longest, *[talk] * 12, long_talk, *[strange] * 8):
        run.fresh()
        make(dice, run)
    return run.cases


def examples(dice, run):
    """The payload of examples/long.c; the shortest one; full packets and one byte more or less; what stands behind the payload in the buffer, and what fills the last packet up."""
    run.fill(filler(dice))
    run.show()
    run.send((38, 39), bytes.fromhex("28fdffffffffffffffffff78"), 45568)
    run.show()
    for size in (9, 13, 14, 15, 20, 21, 22, 255, 256, 257):
        run.send((38, 39), filler(dice, size), dice.below(2**24), bytes([dice.below(256)]))
        run.packet(*packet((38, 39), packets_of(size), bytes(7)))   # the session ended
    run.show()


REQUEST_FAULTS = [{"above": 1}, {"pf": 235}, {"length": 7}, {"control": 255}, {"packets": 4}]
PACKET_FAULTS = [{"above": 1}, {"pf": 236}, {"length": 9}]


def together(faults, chosen):
    """The faults whose bits are set, as one."""
    given = {}
    for i, fault in enumerate(faults):
        if chosen // 2**i % 2:
            given.update(fault)
    return given


def refused(dice, run):
    """Every set of refusals, with 30 and without; of a packet, with 28, with 29 and with neither. The buffer stays."""
    run.fill(filler(dice))
    for others in (0, 7, 8):
        run.fresh()
        for source in range(others):
            run.request(*request((source, 39), 12, 45568))
        for chosen in reversed(range(2 ** len(REQUEST_FAULTS))):
            number = run.request(*request((38, 39), 20, 45568, **together(REQUEST_FAULTS, chosen)))
            assert (number == 0) == (chosen == 0 and others < 8)
    for chosen in range(2 ** len(PACKET_FAULTS)):
        for held, number in ((False, 1), (True, 2), (True, 1)):
            run.fresh()
            if held:
                run.request(*request((38, 39), 20, 45568))
            run.packet(*packet((38, 39), number, bytes(7), **together(PACKET_FAULTS, chosen)))
            run.packet(*packet((38, 39), 1, bytes(7)))
    run.show()


def controls(dice, run):
    """Every control byte, of a pair that has a session and of one that has none: only 16 begins one, and no other ends one."""
    payload = filler(dice, 30)
    run.request(*request((38, 39), 30, 45568))
    run.packet(*packet((38, 39), 1, seven_of(payload, 1)))
    for control in range(256):
        if control != 16:
            assert run.request(*request((38, 39), 30, 45568, control=control)) == 24
            assert run.request(*request((39, 38), 30, 45568, control=control)) == 24
    for number in range(2, 6):
        answer, pgn = run.packet(*packet((38, 39), number, seven_of(payload, number)))
    assert answer == Answer(0, 30) and run.out[:30] == payload
    for control in range(256):
        run.request(*request((control, 255), 9, 45568, control=control))
    run.packet(*packet((16, 255), 1, bytes(7)))


def sizes(dice, run):
    """Every line that the size draws, with its own count of packets, one more, one less, none and 255; the same size with another high byte."""
    for size in (*range(0, 40), *range(247, 265), *range(1760, 1800), *range(2030, 2060), 4096, 32768 + 9, 65535, *(dice.within(9, MOST) for _ in range(40))):
        count = packets_of(size)
        for packets in sorted({count % 256, (count + 1) % 256, (count - 1) % 256, size // 7 % 256, 0, 255}):
            number = run.request(*request((38, 39), size, 45568, packets=packets))
            assert (number == 0) == (9 <= size <= MOST and packets == count)


def numbers(dice, run):
    """Every number of a packet, where packet 1, 2, 3 and the last one comes next; and twice the same packet."""
    run.fill(filler(dice))
    for size, came in ((30, 0), (30, 1), (30, 2), (30, 4), (MOST, 2)):
        payload = filler(dice, size)
        for number in range(256):
            run.fresh()
            run.request(*request((38, 39), size, 45568))
            for before in range(1, came + 1):
                run.packet(*packet((38, 39), before, seven_of(payload, before)))
            answer, pgn = run.packet(*packet((38, 39), number, seven_of(payload, number)))
            assert (answer.number == 0) == (number == came + 1) and answer.number in (0, 29)
            run.packet(*packet((38, 39), number, seven_of(payload, number)))   # once more: 29 or 28
    run.show()


def pairs(dice, run):
    """A session is its source's and its destination's: the same source to another, another source, the two exchanged, all together, packet by packet."""
    some = [(38, 39), (39, 38), (38, 40), (40, 39), (38, 255), (255, 38), (0, 0), (254, 254)]
    payloads = {pair: filler(dice, 56 + i) for i, pair in enumerate(some)}
    for pair in some:
        assert run.request(*request(pair, len(payloads[pair]), 45056 + sum(pair))) == 0
    for number in range(1, 10):
        for pair in dice.some(len(some), some):
            if number <= packets_of(len(payloads[pair])):
                answer, pgn = run.packet(*packet(pair, number, seven_of(payloads[pair], number), priority=dice.below(8)))
                if answer.detail:
                    assert pgn == 45056 + sum(pair) and run.out[:answer.detail] == payloads[pair]
    for pair in some:
        assert run.packet(*packet(pair, 1, bytes(7)))[0] == Answer(28)


def eight(dice, run):
    """Eight pairs and a ninth: it gets room where one is done or dropped, and never another's; one of the eight may begin again while all are taken."""
    held = [(source, 39) for source in range(8)]
    payload = filler(dice, 20)
    for pair in held:
        assert run.request(*request(pair, 20, 45568)) == 0
    for pair in held:
        assert run.request(*request((38, 39), 20, 45568)) == 30
        run.packet(*packet(pair, 1, seven_of(payload, 1)))
        assert run.request(*request(pair, 20, 45568)) == 0   # from the start again
        for number in (1, 2):
            assert run.packet(*packet(pair, number, seven_of(payload, number)))[0] == Answer(0)
    for i, pair in enumerate(dice.some(8, held)):
        if i % 2:
            assert run.packet(*packet(pair, 3, seven_of(payload, 3)))[0] == Answer(0, 20)
        else:
            assert run.packet(*packet(pair, 2, seven_of(payload, 2)))[0] == Answer(29)
        assert run.request(*request((38, i), 20, 45568)) == 0
        assert run.request(*request((37, i), 20, 45568)) == 30
    for i in range(8):
        for number in (1, 2, 3):
            answer, pgn = run.packet(*packet((38, i), number, seven_of(payload, number)))
        assert answer == Answer(0, 20)


def with_bit_turned(frame, bit):
    """Bits 0 to 31 are the identifier's, from 32 on the data's."""
    identifier, length, eight = frame
    if bit < 32:
        return identifier ^ 2**bit, length, eight
    return identifier, length, model.with_bit(eight, bit - 32, 1 - model.get_bit(eight, bit - 32))


def turned(dice, run):
    """Every bit of a request and of a packet turned; each length; each frame given to the other call."""
    payload = filler(dice, 20)
    for bit in range(96):
        run.fresh()
        run.request(*with_bit_turned(request((38, 39), 20, 45568), bit))
        run.packet(*packet((38, 39), 1, seven_of(payload, 1)))
        run.fresh()
        run.request(*request((38, 39), 20, 45568))
        run.packet(*with_bit_turned(packet((38, 39), 1, seven_of(payload, 1)), bit))
        for number in (2, 3):
            run.packet(*packet((38, 39), number, seven_of(payload, number)))
    for length in range(256):
        run.fresh()
        run.request(*request((38, 39), 20, 45568, length=length))
        run.request(*request((38, 39), 20, 45568))
        run.packet(*packet((38, 39), 1, bytes(7), length=length))
    for identifier in (2**29 - 1, 2**29, 2**32 - 1, 0):
        run.request(identifier, *request((38, 39), 20, 45568)[1:])
        run.packet(identifier, *packet((38, 39), 1, bytes(7))[1:])
    for pf in (0, 176, 234, 235, 236, 237, 239, 240, 255):
        run.request(*request((38, 39), 20, 45568, pf=pf))
        run.packet(*packet((38, 39), 1, bytes(7), pf=pf))
    run.packet(*request((38, 39), 20, 45568))
    run.request(*packet((38, 39), 1, bytes(7)))


def longest(dice, run):
    """Payloads of 254 and 255 packets; another pair's packets in between; the whole buffer before and after."""
    for size in (1777, 1778, 1779, 1784, MOST):
        run.fill(filler(dice))
        run.send((38, 39), filler(dice, size), dice.below(2**24))
        run.show()
    payload, other = filler(dice, MOST), filler(dice, MOST)
    run.request(*request((38, 39), MOST, 45568))
    run.request(*request((39, 38), MOST, 45824))
    for number in range(1, 256):
        first = run.packet(*packet((38, 39), number, seven_of(payload, number)))
        assert number < 255 or (first == (Answer(0, MOST), 45568) and run.out == payload)
        second = run.packet(*packet((39, 38), number, seven_of(other, number)))
        assert number < 255 or (second == (Answer(0, MOST), 45824) and run.out == other)
    run.packet(*packet((38, 39), 0, bytes(7)))


class Talker:
    """Who sends one payload after another; `whole` while its request was taken and each packet since came once and in order."""

    def __init__(self, pair):
        self.pair, self.payload, self.pgn, self.sent, self.whole = pair, b"", 0, 0, False

    def begin(self, dice, run, sizes):
        self.payload = filler(dice, dice.one_of(sizes))
        self.pgn = dice.one_of([45056 + 256 * dice.within(1, 15), dice.below(2**24)])
        self.sent = 0
        self.whole = run.request(*request(self.pair, len(self.payload), self.pgn, priority=dice.below(8), five=dice.below(256))) == 0

    def send(self, dice, run, number):
        """'A finished payload is what the sender cut up, if all packets came in order'."""
        answer, pgn = run.packet(*packet(self.pair, number, seven_of(self.payload, number), priority=dice.below(8)))
        if number != self.sent + 1:
            self.whole = False
            return
        self.sent = number
        if self.whole and number == packets_of(len(self.payload)):
            assert (answer, pgn) == (Answer(0, len(self.payload)), self.pgn) and run.out[:len(self.payload)] == self.payload
            self.whole = False
        elif self.whole:
            assert (answer, pgn) == (Answer(0), 0)

    def slip(self, dice, run):
        """A packet is lost, comes twice, comes after the next one, or has another number."""
        what = dice.below(5)
        if what == 0:
            self.sent, self.whole = self.sent + 1, False
        elif what == 1:
            self.send(dice, run, self.sent)
        elif what == 2:
            self.send(dice, run, self.sent + 2)
            self.send(dice, run, self.sent + 1)
        else:
            self.send(dice, run, dice.one_of([0, 255, dice.below(256)]))

    def stray(self, dice, run):
        """A frame of its pair that it does not mean."""
        if dice.below(2):
            size = dice.one_of([0, 8, 9, len(self.payload), MOST, MOST + 1, dice.below(65536)])
            number = run.request(*request(self.pair, size, self.pgn, **dice.one_of([{}, *REQUEST_FAULTS, {"control": dice.below(256)}, {"packets": dice.below(256)}, {"page": 1}])))
        else:
            number = run.packet(*packet(self.pair, self.sent + 1, filler(dice, 7), **dice.one_of([{}, *PACKET_FAULTS, {"reserved": 1}])))[0].number
        if number in (0, 29):
            self.whole = False

    def go_on(self, dice, run, sizes):
        if self.sent >= packets_of(len(self.payload)) or (not self.whole and dice.below(4)):
            self.begin(dice, run, sizes)
        else:
            self.send(dice, run, self.sent + 1)


def talking(dice, run, sizes, noise, frames):
    """Twelve pairs of four sources and three destinations, all at once."""
    source, destination = dice.below(256), dice.below(256)
    talkers = [Talker(((source + 64 * (i % 4)) % 256, (destination + 85 * (i // 4)) % 256)) for i in range(12)]
    for _ in range(frames):
        talker = dice.one_of(talkers)
        if dice.below(noise):
            talker.go_on(dice, run, sizes)
        elif dice.below(2):
            talker.slip(dice, run)
        else:
            talker.stray(dice, run)
        if dice.below(100) == 0:
            run.fill(filler(dice))
    run.show()


def talk(dice, run):
    talking(dice, run, [9, 10, 13, 14, 15, 20, 21, 22, dice.within(23, 60)], dice.one_of([8, 20, 60]), 300)


def long_talk(dice, run):
    talking(dice, run, [9, 100, 1778, 1779, MOST], 400, 2500)


def strange(dice, run):
    """Head words that no run makes: numbers, sizes and PGNs past every line, holders that no pair is, one pair in two rows."""
    run.fill(filler(dice))
    some = [(dice.below(256), dice.below(256)) for _ in range(3)]
    following = [0, 1, 2, 3, 254, 255, 256, 257, 2**32 + 1, 2**64 - 1]
    told = [0, 1, 6, 7, 8, 9, 14, 1784, MOST, MOST + 1, 14280, 2**32, 2**32 + 9, 2**64 - 1]
    for _ in range(40):
        source, destination = dice.one_of(some)
        place = 4 * dice.below(ROWS)
        holder = source * 256 + destination + 1
        run.put(place, dice.one_of([0, holder, holder, holder, 65536, 65537, 2**32 + holder, 2**64 - 1]))
        run.put(place + 1, dice.one_of(following))
        run.put(place + 2, dice.one_of(told))
        run.put(place + 3, dice.one_of([0, 45568, 2**24 - 1, 2**24, 2**24 + 45568, 2**64 - 1]))
        for _ in range(4):
            pair = dice.one_of(some)
            if dice.below(4):
                number = dice.one_of([0, 1, 2, 3, 4, 254, 255, awaited(run, place), awaited(run, place)])
                run.packet(*packet(pair, number, filler(dice, 7)))
            else:
                run.request(*request(pair, dice.one_of([8, 9, 20, MOST]), dice.below(2**24)))
    run.show()


def awaited(run, place):
    """The number that the row's word waits for, as far as a byte can carry it."""
    return run.words.heads[place + 1] % 256
