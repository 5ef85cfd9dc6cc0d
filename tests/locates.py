"""Req 03 in the model: what a Parameter Locate is answered with, from 02 and docs/WIRE.md alone; and the cases of the program `locates`. Words in quotes are 02's.

A case is 32 bytes, and behind those of tag 3 the bytes of the log. Numbers of several bytes go least significant byte first, and what a tag does not name is 0:

    byte 0          the tag
    bytes 1 to 13   tags 1 and 3: a frame as it stands in a record: identifier (4), length (1), data (8)
    bytes 1 to 3    tags 2 and 4: a key: source, destination, k
    bytes 4 to 7    tag 4: an edition
    byte 14         tag 3: our own address
    bytes 15, 16    tag 3: the length of the log, 600 at the most
    bytes 17 to 24  tag 3: the byte of the log to start at, any number of 64 bits

Tag 0 makes the table empty, 1 learns from the frame, 2 forgets the key, 4 sets its edition: no line. Tag 3 asks: its line has the answer's number, its detail, and the whole log in
hexadecimal digits (a log of no bytes is a line that ends in a space). The table starts empty. tests/editions.py has the cases of editions."""
import keys
import model
import rooms
from dice import line, word
from keys import EXAMPLE, OTHERS
from lists import KNOWN
from model import Answer

PGN = 44800
GLOBAL = 255
RECORD = 13


# ---- The model

def record(identifier, length, eight):
    return word(identifier) + bytes([length]) + bytes(eight)


def said(message):
    """The record of the Configuration Identification Message that says this message: 'first-only as no, priority 6, destination as the key's'."""
    identifier = rooms.identifier_of(6, 0, 0, 176, message.destination, message.source)
    flags_and_n = "%d%d0%s" % (message.proprietary, message.transport, format(message.n, "05b"))
    return record(identifier, 8, model.pgn_bytes(45056 + 256 * message.k) + model.spn_bytes(message.spn, message.position)
                  + [int(flags_and_n, 2), message.start + 1])


def placed(box, own, spn):
    """The messages that place this SPN: 'one message per usable key of our own address that holds it, in key order'. A usable map has an SPN once."""
    for key in box.keys():
        if key[0] == own and box.judge(key) == Answer(0):
            yield from (message for message in box.sets[key] if message.spn == spn)


def asked_spn(eight):
    """5.3.2: bytes 1 to 3, 'reserved bits' being nobody's."""
    return model.spn_of(eight[:3])


def locate(box, own, identifier, length, eight, log, start):
    """The answer, and what the log holds afterwards: '1, 2 (not 44800), 3, 24 for another command, then 13 where start plus 13 a message exceeds the log; none is then
    written'. 'An SPN nobody sends, or a request to another single address, gives no message.'"""
    if identifier > 2**29 - 1:
        return Answer(1), log
    if model.pgn_of(identifier) != PGN:
        return Answer(2), log
    if length != 8:
        return Answer(3), log
    if eight[7] != 0:
        return Answer(24), log
    ours = model.destination_of(identifier) in (own, GLOBAL)
    messages = list(placed(box, own, asked_spn(eight))) if ours else []
    written = b"".join(said(message) for message in messages)
    if start + len(written) > len(log):
        return Answer(13), log
    heard_again(box, messages, written)
    return Answer(0, len(messages)), log[:start] + written + log[start + len(written):]


def heard_again(box, messages, written):
    """'Reading what we wrote teaches the same placement': each record is heard as its message, and the box that wrote it learns nothing new from it."""
    for i, message in enumerate(messages):
        one = written[RECORD * i:RECORD * (i + 1)]
        assert model.decode(int.from_bytes(one[:4], "little"), one[4], one[5:]) == (0, message)
        assert message in box.sets[message[:3]]


# ---- Cases

def request(spn, destination, **given):
    """The frame that asks for an SPN. `rest` are the five reserved bits of byte 3, `four` the bytes 4 to 7."""
    f = {"above": 0, "priority": 6, "reserved": 0, "page": 0, "pf": 175, "source": 249, "length": 8, "rest": 31, "four": [255] * 4, "command": 0, **given}
    identifier = f["above"] * 2**29 + rooms.identifier_of(f["priority"], f["reserved"], f["page"], f["pf"], destination, f["source"])
    return identifier, f["length"], [*model.spn_bytes(spn, f["rest"]), *f["four"], f["command"]]


class Run:
    """Calls one after another on one table."""

    def __init__(self):
        self.cases = []
        self.empty()

    def empty(self):
        self.box = model.Box()
        self.add(0)

    def add(self, tag, given=b"", behind=b"", *lines):
        self.cases.append(((bytes([tag]) + given).ljust(32, b"\0") + behind, list(lines)))

    def frame(self, *frame):
        self.box.learn(*frame)
        self.add(1, record(*frame))

    def learn(self, *messages):
        for message in messages:
            self.frame(*keys.frame_of(message))

    def hear(self, log):
        """Learns from each record of a log."""
        for at in range(0, len(log), RECORD):
            self.frame(int.from_bytes(log[at:at + 4], "little"), log[at + 4], log[at + 5:at + RECORD])

    def forget(self, *keys):
        for key in keys:
            self.box.forget(key)
            self.add(2, bytes(key))

    def set_edition(self, key, edition):
        self.box.set_edition(key, edition)
        self.add(4, bytes(key) + word(edition))

    def locate(self, own, frame, log, start=0):
        """The answer, and the records that it wrote."""
        answer, after = locate(self.box, own, *frame, log, start)
        given = record(*frame) + bytes([own]) + len(log).to_bytes(2, "little") + start.to_bytes(8, "little")
        assert len(log) <= 600
        self.add(3, given, log, line(answer.number, answer.detail, after.hex()))
        return answer, after[start:start + RECORD * answer.detail]

    def count(self, own, spn):
        return len(list(placed(self.box, own, spn)))


def filler(dice, size):
    return bytes(dice.bytes(size))


def cases(dice):
    for make in (examples, refused, requests, sixteen, rooms_in_the_log, judgements, heard_back, *[any_table] * 24):
        yield from make(dice).cases


A = [EXAMPLE, EXAMPLE._replace(position=2, spn=1519, start=8)]


def examples(dice):
    """01's case A, asked as each address, of each: and its answer, byte by byte."""
    run = Run()
    run.locate(38, request(1517, 38), filler(dice, 20))
    run.learn(A[0])
    run.locate(38, request(1517, 38), filler(dice, 20))
    run.learn(A[1])
    answer, written = run.locate(38, request(1517, 38), bytes(13))
    assert answer == Answer(0, 1) and written.hex() == "2627b0180800b100ed05018201"
    answer, written = run.locate(38, request(1519, GLOBAL), bytes(13))
    assert answer == Answer(0, 1) and written.hex() == "2627b0180800b100ef05028209"
    for own in (38, 39, 0, 37, 249, 253, 254, 255):
        for destination in (own, 38, 39, 0, 37, 254, 255):
            for spn in (1517, 1519):
                run.locate(own, request(spn, destination), filler(dice, 30), dice.below(17))
    for spn in (0, 1, 1516, 1518, 521, 65536 + 1517, 2**18 + 1517, 2**19 - 1):
        run.locate(38, request(spn, 38), filler(dice, 15))
    run.forget((38, 39, 1))
    run.locate(38, request(1517, 38), filler(dice, 20))
    return run


FAULTS = [{"above": 1}, {"pf": 176}, {"length": 7}, {"command": 1}]


def refused(dice):
    """Every set of refusals, with 13 and without, where a message would be written and where none would."""
    run = Run()
    run.learn(*A)
    for chosen in range(2 ** len(FAULTS)):
        given = {}
        for i, fault in enumerate(FAULTS):
            if chosen // 2**i % 2:
                given.update(fault)
        for spn, destination, start in ((1517, 38, 0), (1517, 255, 8), (1518, 38, 0), (1518, 38, 21), (1517, 39, 20), (1517, 39, 21)):
            run.locate(38, request(spn, destination, **given), filler(dice, 20), start)
    return run


def requests(dice):
    """Every line that a request's fields draw, alone; and the bits that count for nothing."""
    run = Run()
    run.learn(*A)
    edges = {"above": [1, 2, 4, 7], "priority": range(8), "reserved": [1], "page": [1], "pf": [0, 47, 143, 174, 176, 177, 191, 207, 239, 240, 255],
             "source": [0, 38, 39, 254, 255], "length": [0, 1, 6, 7, 9, 16, 136, 255], "command": [1, 2, 3, 16, 127, 128, 250, 251, 254, 255], "rest": range(32)}
    for name, values in edges.items():
        for value in values:
            for destination in (38, 255):
                run.locate(38, request(1517, destination, **{name: value}), filler(dice, 20), dice.below(8))
    for identifier in (2**29 - 1, 2**29, 2**32 - 1, 0):
        run.locate(38, (identifier, *request(1517, 38)[1:]), filler(dice, 20))
    for bit in range(32):
        run.locate(38, (request(1517, 38)[0] ^ 2**bit, *request(1517, 38)[1:]), filler(dice, 20), dice.below(8))
    for bit in range(64):
        identifier, length, eight = request(1517, 38)
        run.locate(38, (identifier, length, model.with_bit(eight, bit, 1 - model.get_bit(eight, bit))), filler(dice, 20), dice.below(8))
    for _ in range(20):
        run.locate(38, request(1517, dice.one_of([38, 255]), rest=dice.below(32), four=dice.bytes(4)), filler(dice, 20), dice.below(8))
    return run


def sixteen(dice):
    """Sixteen keys of one address, learned in any order, asked while they come and while they go; then sixteen keys of which some are another's."""
    run = Run()
    held = keys.mixed(dice, [(38, destination, k) for destination in (0, 7, 39, 255) for k in (1, 6, 9, 15)])
    for key in held:
        run.learn(*keys.teachable(dice, key, dice.within(1, 3), having=1517))
        run.locate(38, request(1517, 38), filler(dice, 230), dice.below(23))
    assert run.count(38, 1517) == 16
    run.learn(*keys.teachable(dice, (38, 1, 1), 1, having=1517))
    for size in (207, 208, 209, 600):
        run.locate(38, request(1517, 255), filler(dice, size))
    for key in keys.mixed(dice, held):
        run.forget(key)
        if dice.below(3) == 0:
            run.learn(*keys.teachable(dice, (38, dice.below(256), 3), 2, having=1517))
        run.locate(38, request(1517, 38), filler(dice, 230), dice.below(23))
    run.empty()
    for i in range(16):
        run.learn(*keys.teachable(dice, (37 + i % 3, i, 1 + i % 15), 1 + i % 2, having=1517 if i % 4 else 1519))
    for own in (36, 37, 38, 39, 40, 0, 255):
        for spn in (1517, 1519):
            run.locate(own, request(spn, 255), filler(dice, 208))
    return run


FAR = [2**16, 2**31, 2**32 - 1, 2**32, 2**32 + 1, 2**63 - 1, 2**63, 2**64 - 1]


def rooms_in_the_log(dice):
    """Logs that are exactly long enough, a byte short and longer, for 0, 1, 2 and 16 messages, from each kind of start; starts beyond the log and up to 2^64."""
    run = Run()
    for i in range(16):
        first = EXAMPLE._replace(destination=9 * i, k=15 - i % 15)
        run.learn(first, first._replace(position=2, spn=1519 if i == 4 else 1539 if i in (5, 8) else 1540, start=8))
    for spn, count in ((1518, 0), (1519, 1), (1539, 2), (1517, 16)):
        assert run.count(38, spn) == count
        need = RECORD * count
        for start in (0, 1, 12, 13, 14, 26, 300):
            for size in sorted({0, start - 1, start, start + need - 1, start + need, start + need + 1, start + need + 40}):
                if 0 <= size <= 600:
                    run.locate(38, request(spn, 38), filler(dice, size), start)
        # what would come round to the log's own bytes if it were added in 64 or in 32 bits
        for far in sorted({*FAR, 2**64 - need, 2**64 - need + 1, 2**64 - need + 20, 2**64 - 13, 2**64 - 20, 2**32 - need + 5}):
            for size in (0, need + 7):
                run.locate(38, request(spn, 38), filler(dice, size), far % 2**64)
        run.locate(38, request(spn, 37), filler(dice, 5), 5)
        run.locate(38, request(spn, 37), filler(dice, 5), 6)
    return run


def judgements(dice):
    """Maps that are not usable, each in one way, beside one that is: the SPN stands in both."""
    run = Run()
    good = [EXAMPLE._replace(k=15, proprietary=0), EXAMPLE._replace(k=15, proprietary=0, position=2, spn=1519, start=8)]
    run.learn(*good)
    for number in keys.ARRIVING:
        for _ in range(6):
            key = (38, dice.below(256), dice.within(1, 14))
            told = keys.spoiled(dice, number, keys.teachable(dice, key, dice.within(2, 6), having=1517))
            run.learn(*keys.mixed(dice, told))
            run.locate(38, request(1517, 38), filler(dice, 30), dice.below(5))
            run.locate(38, request(dice.one_of(told).spn, 255), filler(dice, 30), dice.below(5))
            run.forget(key)
    for other in OTHERS:
        run.learn(A[0], A[1])
        run.locate(38, request(1517, 38), filler(dice, 30))
        run.learn(A[0]._replace(**other))
        run.locate(38, request(1517, 38), filler(dice, 30))
        run.forget(A[0][:3])
    return run


def heard_back(dice):
    """What was written is learned by the box that wrote it, which changes nothing, and by an empty one; each is asked again."""
    run = Run()
    for own in (0, 38, 253):
        run.empty()
        run.learn(*(EXAMPLE._replace(source=source, n=1) for source in (1, 252)))
        for n in (1, 1, 2, 5, 9, 14):
            run.learn(*keys.mixed(dice, keys.teachable(dice, (own, dice.below(256), dice.within(1, 15)), n, having=1517)))
        answer, written = run.locate(own, request(1517, own), filler(dice, 210), dice.below(3))
        assert answer.detail > 2
        before = {key: list(told) for key, told in run.box.sets.items()}
        run.hear(written)
        assert run.box.sets == before
        run.locate(own, request(1517, 255), filler(dice, 210))
        run.empty()
        run.hear(written)
        assert len(run.box.keys()) == answer.detail
        run.locate(own, request(1517, 255), filler(dice, 210))
    return run


def any_start(dice, need):
    return dice.one_of([0, 0, dice.below(40), dice.below(40), dice.below(300), 13 * dice.below(20), dice.one_of(FAR), 2**64 - 1 - dice.below(300),
                        dice.below(2**32) * 2**32 + dice.below(2**32), (2**64 - need) % 2**64])


def any_size(dice, start, need):
    end = start + need
    fits = [end, end, end + 1, end - 1, end + dice.below(60), start, start - 1, dice.below(300)]
    return min(max(dice.one_of(fits), 0), 600) if end <= 600 else dice.below(60)


def any_request(dice, own, spns):
    destination = dice.one_of([own, own, own, 255, 255, dice.below(256)])
    frame = request(dice.one_of([dice.one_of(spns)] * 4 + [dice.one_of(KNOWN), dice.below(2**19)]), destination, priority=dice.below(8), source=dice.below(256),
                    rest=dice.one_of([31, dice.below(32)]), four=dice.one_of([[255] * 4, dice.bytes(4)]))
    if dice.below(12) == 0:
        frame = request(dice.one_of(spns), destination, **dice.one_of([*FAULTS, {"page": 1}, {"reserved": 1}, {"command": dice.below(256)}, {"length": dice.below(256)}]))
    return frame


def any_table(dice):
    """Keys of few addresses with few SPNs, some of them not usable, some forgotten; and requests of every kind."""
    run = Run()
    spns = dice.some(3, KNOWN)
    owns = dice.some(2, [0, 38, dice.within(1, 252), 253])
    for _ in range(dice.within(4, 22)):
        key = (dice.one_of([owns[0], owns[0], owns[1]]), dice.one_of([0, 39, dice.below(256), 255]), dice.within(1, 15))
        told = keys.teachable(dice, key, keys.how_many(dice), having=dice.one_of([*spns, spns[0], None]))
        if dice.below(5) == 0:
            told = keys.spoiled(dice, dice.one_of(keys.ARRIVING), told)
        run.learn(*keys.mixed(dice, told))
    for _ in range(24):
        own = dice.one_of([*owns, *owns, owns[0], dice.below(256)])
        frame = any_request(dice, own, spns)
        need = RECORD * run.count(own, asked_spn(frame[2]))
        start = any_start(dice, need)
        run.locate(own, frame, filler(dice, any_size(dice, start, need)), start)
        if dice.below(6) == 0 and run.box.keys():
            run.forget(dice.one_of(run.box.keys()))
        if dice.below(6) == 0:
            key = (owns[0], dice.below(256), dice.within(1, 15))
            run.learn(*keys.teachable(dice, key, dice.within(1, 3), having=spns[0]))
    return run
