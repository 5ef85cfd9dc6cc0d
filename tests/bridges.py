"""Req 09 in the model: frames and slots at a bridge, and a day that is replayed, from 02, 004 (4.4), docs/TRACE.md and docs/DECISIONS.md alone; and the cases of the program
`bridges`. Words in quotes are 02's, or 01's where it is named.

A case is 16 bytes. Numbers of several bytes go least significant byte first, and what a tag does not name is 0:

    tag                            what it does, and the line that it writes
    0                              fresh counters, queues and filters; no line
    1 port, identifier (4)         a frame at a port: the number, then number and detail of each of the three other ports, rising
    2 port, from, identifier (4)   a slot of a port, with these two as what the lent places hold: number, detail, from, identifier
    3 from, to                     a pair: number, its six counters, and how many of its frames wait
    4 from, to, PGN (3)            add: number
    5 from, to, PGN (3)            delete: number
    6 from, to, mode               renew: number
    7 place, word (8)              writes a word of the counters; no line
    8 place (2), word (8)          writes a word of the queues; no line
    9 k                            the 65 words of queue k, 0 to 3"""
import model
from dice import TOP, line
from model import Answer
from pairs import PAIRS, frame_with, pool
from rooms import identifier_of

PORTS = (1, 2, 3, 4)
MOST = 64
COUNTERS = ("arrived", "filtered", "queued", "sent", "turned", "refused")
HEADER = "FROM TO ARRIVED FILTERED QUEUED SENT TURNED REFUSED WAITING"
RECORD = 14


# ---- The model

def others(port):
    """'A frame is offered to the three other ports', rising."""
    return [to for to in PORTS if to != port]


def priority_of(identifier):
    """The lower the number, the higher the priority."""
    return model.fields(identifier)[0]


class Offer:
    """A frame that a pair was offered, and what became of it: filtered, turned, refused, waiting or sent."""

    def __init__(self, source, identifier, fate):
        self.source, self.identifier, self.fate = source, identifier, fate


class Bridge:
    """All that was ever offered, by pair; of each port what waits there, in order of arrival. No counter is kept: each is how many offers of its pair have some fate."""

    def __init__(self):
        self.box = model.Box()   # its filters
        self.offers = {pair: [] for pair in PAIRS}
        self.queues = {port: [] for port in PORTS}

    def offer(self, port, identifier):
        """15, or 0 with what each of the three other ports answers."""
        if port not in PORTS:
            return Answer(15), []
        return Answer(0), [self.answer_of(port, to, identifier) for to in others(port)]

    def answer_of(self, port, to, identifier):
        """'Filter answers stay as document 01 has them'; '1 (refused), then 26 (turned away) exactly when the filter passes the frame and 64 wait there'."""
        answer = self.box.decide(port, to, identifier)
        if answer.number == 1:
            fate = "refused"
        elif answer.detail == 0:
            fate = "filtered"
        elif len(self.queues[to]) == MOST:
            fate, answer = "turned", Answer(26)
        else:
            fate = "waiting"
        self.offers[port, to].append(Offer(port, identifier, fate))
        if fate == "waiting":
            self.queues[to].append(self.offers[port, to][-1])
        return answer

    def slot(self, port):
        """15, or 0 with how many frames left, and that one. 'Frames of higher priority leave first, equal ones in order of arrival'."""
        if port not in PORTS:
            return Answer(15), None
        for priority in range(8):
            for offer in self.queues[port]:
                if priority_of(offer.identifier) == priority:
                    self.queues[port].remove(offer)
                    offer.fate = "sent"
                    return Answer(0, 1), offer
        return Answer(0), None

    def pair(self, a, b):
        """The six counters of a pair, and how many of its frames wait. 'Arrived equals filtered, sent, waiting, turned away and refused added together'."""
        if (a, b) not in self.offers:
            return Answer(15), [0] * 7
        fates = [offer.fate for offer in self.offers[a, b]]
        of = {fate: fates.count(fate) for fate in ("filtered", "turned", "refused", "waiting", "sent")}
        assert len(fates) == sum(of.values())
        assert of["waiting"] == len([offer for offer in self.queues[b] if offer.source == a])
        return Answer(0), [len(fates), of["filtered"], of["waiting"] + of["sent"], of["sent"], of["turned"], of["refused"], of["waiting"]]


class Words:
    """The same on the lent memory, for words that no run of calls makes; on all others it must answer as `Bridge` does, and `Run` holds it to that. It is the one part of the model that knows the
    layout (docs/DECISIONS.md): six counters a pair, which go from 2^64 - 1 to 0; a queue is a count (above 64 it is 64) and 64 frames in order of arrival, each from * 2^32 + identifier."""

    def __init__(self):
        self.box = model.Box()
        self.counters = [0] * (6 * len(PAIRS))
        self.queues = [0] * ((1 + MOST) * len(PORTS))

    def count(self, pair, counter):
        at = 6 * PAIRS.index(pair) + COUNTERS.index(counter)
        self.counters[at] = (self.counters[at] + 1) % 2**64

    def start_of(self, port):
        """The place of a queue's first word."""
        return (1 + MOST) * (port - 1)

    def waiting(self, port):
        """The words of the frames that wait at a port."""
        at = self.start_of(port)
        return self.queues[at + 1:at + 1 + min(self.queues[at], MOST)]

    def offer(self, port, identifier):
        if port not in PORTS:
            return Answer(15), []
        return Answer(0), [self.answer_of(port, to, identifier) for to in others(port)]

    def answer_of(self, port, to, identifier):
        answer, held = self.box.decide(port, to, identifier), len(self.waiting(to))
        self.count((port, to), "arrived")
        if answer.number == 1:
            self.count((port, to), "refused")
        elif answer.detail == 0:
            self.count((port, to), "filtered")
        elif held == MOST:
            self.count((port, to), "turned")
            return Answer(26)
        else:
            self.count((port, to), "queued")
            self.queues[self.start_of(to) + 1 + held] = port * 2**32 + identifier
            self.queues[self.start_of(to)] = held + 1
        return answer

    def slot(self, port):
        """A frame that left: those behind it move up by one, and the word of the last place stays. Where it came from no port, no pair counts it."""
        if port not in PORTS:
            return Answer(15), None
        held = self.waiting(port)
        if not held:
            return Answer(0), None
        first = min(held, key=lambda word: word // 2**26 % 8)   # the earliest of the lowest
        i = held.index(first)
        left = held[:i] + held[i + 1:]
        at = self.start_of(port)
        self.queues[at:at + 1 + len(left)] = [len(left), *left]
        source, identifier = first // 2**32 % 256, first % 2**32
        if (source, port) in PAIRS:
            self.count((source, port), "sent")
        return Answer(0, 1), Offer(source, identifier, "sent")

    def pair(self, a, b):
        if (a, b) not in PAIRS:
            return Answer(15), [0] * 7
        at = 6 * PAIRS.index((a, b))
        return Answer(0), [*self.counters[at:at + 6], len([word for word in self.waiting(b) if word // 2**32 % 256 == a])]


# ---- A trace (docs/TRACE.md)

def replayed(trace):
    """What ./replay writes of a trace."""
    bridge, counts = Bridge(), dict.fromkeys(("frames", "slots", "commands", "refused", "other"), 0)
    whole = len(trace) // RECORD
    for at in range(0, RECORD * whole, RECORD):
        happens(bridge, counts, trace[at:at + RECORD])
    lines = [HEADER]
    for a, b in PAIRS:
        answer, numbers = bridge.pair(a, b)
        lines.append(line(a, b, *numbers))
    lines.append("EVENTS %d FRAMES %d SLOTS %d COMMANDS %d REFUSED %d OTHER %d LEFT %d" % (whole, *counts.values(), len(trace) - RECORD * whole))
    return "".join(text + "\n" for text in lines)


def happens(bridge, counts, record):
    """One record: 'port, frame, and slots in which one frame may leave a port', and the fitter's settings of that day."""
    first, a, b, pgn = record[0], record[1], record[2], model.three_byte_pgn(record[3:6])
    commands = {65: lambda: bridge.box.add(a, b, pgn), 66: lambda: bridge.box.delete(a, b, pgn), 67: lambda: bridge.box.renew(a, b, record[3])}
    if first in PORTS:
        counts["frames"] += 1
        bridge.offer(first, int.from_bytes(record[1:5], "little"))
    elif first - 128 in PORTS:
        counts["slots"] += 1
        bridge.slot(first - 128)
    elif first in commands:
        counts["commands"] += 1
        counts["refused"] += commands[first]().number != 0
    else:
        counts["other"] += 1


# ---- Cases

class Run:
    """Calls one after another on one lent memory, that of the program. `bridge` is None from a word that was written on until the next fresh ones."""

    def __init__(self):
        self.cases = []
        self.fresh()

    def add_case(self, tag, given=b"", *lines):
        self.cases.append(((bytes([tag]) + given).ljust(16, b"\0"), list(lines)))

    def fresh(self):
        self.bridge, self.words = Bridge(), Words()
        self.add_case(0)

    def both(self, call):
        """What the words answer; where they come from a run, all that was ever offered must say the same."""
        said = call(self.words)
        if self.bridge:
            again = call(self.bridge)
            assert shown(said) == shown(again)
        return said

    def offer(self, port, identifier):
        """The number, or where it is 0 the answers of the three."""
        answer, told = self.both(lambda on: on.offer(port, identifier))
        self.add_case(1, bytes([port]) + identifier.to_bytes(4, "little"), line(answer.number, *[n for a in told or [Answer(0)] * 3 for n in (a.number, a.detail)]))
        return told or answer.number

    def slot(self, port, held=(255, TOP)):
        """What left: from and identifier, or None."""
        answer, left = self.both(lambda on: on.slot(port))
        source, identifier = (left.source, left.identifier) if left else held
        self.add_case(2, bytes([port, held[0]]) + held[1].to_bytes(4, "little"), line(answer.number, answer.detail, source, identifier))
        return (source, identifier) if left else None

    def pair(self, a, b):
        answer, numbers = self.both(lambda on: on.pair(a, b))
        self.add_case(3, bytes([a, b]), line(answer.number, *numbers))
        return numbers

    def pairs(self):
        for a, b in PAIRS:
            self.pair(a, b)

    def add(self, a, b, pgn):
        answer = self.both(lambda on: (on.box.add(a, b, pgn % 2**24), None))[0]   # three bytes are given
        self.add_case(4, bytes([a, b, *model.pgn_bytes(pgn)]), line(answer.number))

    def delete(self, a, b, pgn):
        answer = self.both(lambda on: (on.box.delete(a, b, pgn % 2**24), None))[0]
        self.add_case(5, bytes([a, b, *model.pgn_bytes(pgn)]), line(answer.number))

    def renew(self, a, b, mode):
        answer = self.both(lambda on: (on.box.renew(a, b, mode), None))[0]
        self.add_case(6, bytes([a, b, mode]), line(answer.number))

    def put_counter(self, place, word):
        self.bridge = None
        if place < len(self.words.counters):
            self.words.counters[place] = word
        self.add_case(7, bytes([place]) + word.to_bytes(8, "little"))

    def put_queue(self, place, word):
        self.bridge = None
        if place < len(self.words.queues):
            self.words.queues[place] = word
        self.add_case(8, place.to_bytes(2, "little") + word.to_bytes(8, "little"))

    def show(self):
        for k in range(len(PORTS)):
            self.add_case(9, bytes([k]), line(*self.words.queues[65 * k:65 * k + 65]))

    def drain(self, port):
        """Slots until nothing waits: what left, in this order."""
        left = []
        while frame := self.slot(port):
            left.append(frame)
        return left


def shown(said):
    """What a call said, without the identity of a frame."""
    answer, more = said
    return answer, (more.source, more.identifier) if isinstance(more, Offer) else more


def frame(dice, priority=None, pgn=None):
    """An identifier of this priority and PGN, or of any; source and destination are any."""
    identifier = frame_with(dice.below(2**18) if pgn is None else pgn, dice)
    return identifier if priority is None else identifier % 2**26 + priority * 2**26


def cases(dice):
    run = Run()
    for make in (example, no_ports, refused, order, full, changed, over_one_port, emptied, *[day] * 14, *[strange] * 8, wrapped):
        run.fresh()
        make(dice, run)
        run.pairs()
        run.show()
    return run.cases


def example(dice, run):
    """A frame at each port and slots; then 004's 'higher priority before those with a lower priority' and 'in the same order as received'."""
    run.pairs()
    for port in PORTS:
        run.offer(port, 0x18FEE300 + port)
        run.pairs()
    for port in PORTS:
        assert run.drain(port) == [(other, 0x18FEE300 + other) for other in others(port)]
    for priority in (6, 3, 6, 0, 7, 3):
        run.offer(1, identifier_of(priority, 0, 0, 254, priority, 11))
        run.offer(3, identifier_of(priority, 0, 0, 254, priority, 33))
    assert [(source, priority_of(identifier)) for source, identifier in run.drain(2)] == [(1, 0), (3, 0), (1, 3), (3, 3), (1, 3), (3, 3), (1, 6), (3, 6), (1, 6), (3, 6), (1, 7), (3, 7)]


def no_ports(dice, run):
    """Every port number, in each call; 15 changes nothing."""
    for port in range(256):
        assert (run.offer(port, 0x18FEE300) == 15) == (port not in PORTS)
        run.slot(port, (dice.below(256), dice.below(2**32)))
    for a in (*range(18), 64, 65, 127, 128, 129, 132, 254, 255):
        for b in (*range(18), 64, 65, 127, 128, 129, 132, 254, 255):
            run.pair(a, b)
    run.show()


def refused(dice, run):
    """Identifiers around the end of the 29 bits, through both modes, with room and without: 1 before the filter, the filter before 26."""
    edges = [0, 1, 2**29 - 1, 2**29 - 256, 2**29, 2**29 + 0x18FEE300, 2**30, 2**31 + 0x18FEE300, TOP - 1, TOP]
    for room, mode in ((True, 0), (True, 1), (False, 0), (False, 1)):
        run.fresh()
        for i in range(0 if room else 4 * 22):   # a round of the four ports brings each three frames
            run.offer(PORTS[i % 4], frame(dice))
        for a, b in PAIRS:
            run.renew(a, b, mode)
        for listed in (False, True):
            for identifier in edges:
                run.offer(dice.one_of(PORTS), identifier)
            for a, b in PAIRS:
                run.add(a, b, 65251)
                run.add(a, b, model.pgn_of(2**29 - 1))
        run.pairs()


def order(dice, run):
    """All priorities from all ports into one, in any order: 'higher priority leave first, equal ones in order of arrival'."""
    for size in (2, 3, 5, 8, 16, 21):
        for _ in range(4):
            port = dice.one_of(PORTS)
            came = []
            for _ in range(size):
                source, identifier = dice.one_of(others(port)), frame(dice, dice.one_of([0, 1, 2, 3, 4, 5, 6, 7, 3, 6]))
                run.offer(source, identifier)
                came.append((source, identifier))
            assert run.drain(port) == sorted(came, key=lambda frame: priority_of(frame[1]))   # which keeps the order of equal ones
            for other in others(port):
                run.drain(other)


def full(dice, run):
    """63, 64 and 65 wait; '26 hangs on all pairs into a port', and on no other port."""
    for port in PORTS:
        run.fresh()
        sources = others(port)
        for i in range(MOST):
            told = run.offer(sources[i % dice.one_of([1, 2, 3])], frame(dice))
            assert Answer(0, 1) in told
        for source in sources:
            told = run.offer(source, frame(dice))
            assert told[others(source).index(port)] == Answer(26)
        for source in sources:   # what the filter blocks is filtered, room or not
            run.add(source, port, 65251)
            assert run.offer(source, 0x18FEE300)[others(source).index(port)] == Answer(0, 0)
        run.slot(port)
        assert run.offer(sources[1], frame(dice, 7))[others(sources[1]).index(port)] == Answer(0, 1)
        assert run.offer(sources[2], frame(dice, 0))[others(sources[2]).index(port)] == Answer(26)
        run.pairs()
        run.show()
        run.drain(port)
        run.pairs()


def changed(dice, run):
    """Filters that change while frames wait: what waits stays and leaves, what comes goes by the new ones. Commands that are refused change nothing."""
    pgns = pool(dice)
    for a, b in PAIRS:
        run.offer(a, frame_with(65251))
        run.add(a, b, 65251)
        run.offer(a, frame_with(65251))
        run.renew(a, b, 1)
        run.offer(a, frame_with(65251))
        run.add(a, b, 65251)
        run.add(a, b, 65251)
        run.offer(a, frame_with(65251))
        run.delete(a, b, 65251)
        run.delete(a, b, 65251)
        run.offer(a, frame_with(65251))
        run.renew(a, b, dice.one_of([2, 15, 255]))
        run.offer(a, frame_with(65251))
        run.renew(a, b, 0)
        run.offer(a, frame_with(65251))
        run.add(a, b, 1)
        run.add(b, b, 65251)
        run.add(a, 15, 65251)
        run.delete(0, b, 65251)
        run.renew(a, a, 1)
    run.pairs()
    for port in PORTS:
        run.drain(port)
    for a, b in PAIRS:   # lists of their own, filled up
        run.renew(a, b, dice.below(2))
        for pgn in dice.some(34, pgns):
            run.add(a, b, pgn)
    for _ in range(300):
        run.offer(dice.one_of(PORTS), frame(dice, None, dice.one_of(pgns) % 2**18))
        run.slot(dice.one_of(PORTS))


def over_one_port(dice, run):
    """Three ports that send more than one port may: of each how many went and how many did not."""
    for i in range(400):
        run.offer(dice.one_of([2, 3, 4]), frame(dice, dice.one_of([2, 3, 3, 6, 6, 6])))
        if i % 3:
            run.slot(1, (dice.below(256), dice.below(2**32)))
        if i % 7 == 0:
            run.slot(dice.one_of([2, 3, 4]))
        if i % 50 == 0:
            run.pairs()


def emptied(dice, run):
    """Slots of ports where nothing waits, before, between and after."""
    for port in PORTS:
        run.slot(port, (dice.below(256), dice.below(2**32)))
    for port in PORTS:
        run.offer(port, frame(dice))
        for other in PORTS:
            run.slot(other, (0, 0))
            run.slot(other, (dice.below(256), dice.below(2**32)))
    run.pairs()


def any_identifier(dice, pgns):
    return dice.one_of([frame(dice, None, dice.one_of(pgns) % 2**18)] * 12 + [frame(dice, dice.below(8), dice.one_of(pgns) % 2**18)] * 12 + [dice.below(2**29), dice.below(2**32), 2**29 - 1 + dice.below(3)])


def any_command(dice, run, pgns):
    a, b = dice.one_of(PAIRS * 8 + [(0, 1), (1, 0), (2, 2), (5, 1), (4, 15), (255, 255)])
    what = dice.below(12)
    if what == 0:
        run.renew(a, b, dice.one_of([0, 0, 0, 1, 1, 2, 255]))
    elif what < 8:
        run.add(a, b, dice.one_of(pgns))
    else:
        run.delete(a, b, dice.one_of(pgns))


def day(dice, run):
    """Frames, slots and settings, with more frames than slots, as many, or fewer; some ports busier than others."""
    pgns = dice.some(10, pool(dice))
    slots, commands = dice.one_of([10, 30, 55, 70]), dice.one_of([0, 2, 10])
    busy = PORTS + tuple(dice.one_of(PORTS) for _ in range(dice.below(6))) + (0, 5, 15, 255)[:dice.below(5)]
    for i in range(700):
        what = dice.below(100)
        if what < commands:
            any_command(dice, run, pgns)
        elif what < commands + slots:
            run.slot(dice.one_of(busy), (dice.below(256), dice.below(2**32)))
        else:
            run.offer(dice.one_of(busy), any_identifier(dice, pgns))
        if i % 60 == 0:
            run.pair(*dice.one_of(PAIRS))


def strange(dice, run):
    """Words that no run makes: counts past 64, frames that come from no port, with identifiers that are none and priorities that go by three bits."""
    pgns = dice.some(6, pool(dice))
    for k in range(4):
        run.put_queue(65 * k, dice.one_of([0, 1, 3, 63, 64, 65, 66, 2**32, 2**32 + 2, 2**64 - 1, dice.below(70)]))
        for place in range(1, 65):
            source = dice.one_of([1, 2, 3, 4, 1, 2, 3, 4, k + 1, 0, 5, 15, 255, 256 + dice.within(1, 4), dice.below(2**32)])
            run.put_queue(65 * k + place, source % 2**32 * 2**32 + dice.one_of([frame(dice), frame(dice, dice.below(8)), dice.below(2**32)]))
    for place in dice.some(20, range(72)):
        run.put_counter(place, dice.one_of([2**64 - 1, 2**64 - 2, 2**63, dice.below(2**32)]))
    run.put_counter(72 + dice.below(180), 7)
    run.put_queue(260 + dice.below(60000), 7)
    run.pairs()
    run.show()
    for i in range(160):
        if dice.below(3):
            run.slot(dice.one_of([1, 2, 3, 4, 1, 2, 3, 4, 0, 5]), (dice.below(256), dice.below(2**32)))
        else:
            run.offer(dice.one_of([1, 2, 3, 4, 1, 2, 3, 4, 0, 255]), any_identifier(dice, pgns))
        if i % 40 == 0:
            run.pairs()
            run.show()


def wrapped(dice, run):
    """Each counter goes from 2^64 - 1 to 0, and no other with it."""
    for a, b in PAIRS:
        run.renew(a, b, 0)
    for place in range(72):
        run.put_counter(place, 2**64 - 1)
    for port in PORTS:
        run.offer(port, 0x18FEE300)
        run.pairs()
        run.offer(port, 2**29)
        run.slot(port)
        run.pairs()
    for _ in range(MOST):
        run.offer(1, frame(dice))
    run.add(1, 2, 65251)
    run.offer(1, 0x18FEE300)
