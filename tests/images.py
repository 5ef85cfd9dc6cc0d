"""Req 01 in the model: the image of a table, from 02 and docs/IMAGE.md alone, with Req 10's two forms; and the cases of the program `images`. Words in quotes are 02's.

A case is 16 bytes, and behind those of tags 3 to 6 the bytes of a buffer or of an image. Numbers of several bytes go least significant byte first, and what a tag does
not name is 0:

    byte 0          the tag
    bytes 1 to 13   tag 1: a frame as it stands in a record: identifier (4), length (1), data (8)
    bytes 1 to 3    tags 2, 5 and 7: a key: source, destination, k
    bytes 4 to 7    tag 7: an edition
    bytes 1 to 8    tag 6: the number of a row, any number of 64 bits
    bytes 14, 15    tags 3 to 6: how many bytes stand behind, 4,096 at the most

Tag 0 makes the table empty, 1 learns from the frame, 2 forgets the key, 7 sets its edition: no line. The others have one line each; its first number is the answer's:

    3   saves into the bytes behind: number, detail, the size of the table's image, and the whole buffer
    4   loads the bytes behind: number, and of each key that is held then, rising, source, destination, k, n, judgement and position, as the listing has them, and its edition
    5   asks the bytes behind for a key: number, offset, length, edition, the body
    6   asks them for a row: number, source, destination, k, offset, length, edition, the body

A buffer and a body are hexadecimal digits; of no bytes there are none, and the line ends in a space. The table starts empty."""
import functools
from collections import namedtuple

import keys
import model
import rooms
from dice import line, word
from keys import EXAMPLE
from locates import record
from model import Answer, NEWER, OLDER

ROW_BYTES = {1: 7, 2: 8}              # by the form
WRITTEN = 2                           # 'old ones, no longer written'
EDITION_BYTES = {NEWER: 0, OLDER: 1}  # of form 2, 'the edition in the contents row'
ROWS = 16

Part = namedtuple("Part", "key body edition", defaults=(NEWER,))   # of an image
Row = namedtuple("Row", "key offset length edition")               # of its contents
Told = namedtuple("Told", "row messages")                          # what an image says of a key


# ---- The image of a table

def two(number):
    return number.to_bytes(2, "little")


def frame_data(message):
    """The eight data bytes of the Configuration Identification Message that says this message, first-only no (docs/WIRE.md)."""
    flags_and_n = "%d%d0%s" % (message.proprietary, message.transport, format(message.n, "05b"))
    return bytes(model.pgn_bytes(45056 + 256 * message.k) + model.spn_bytes(message.spn, message.position) + [int(flags_and_n, 2), message.start + 1])


def body_of(messages):
    """The body of a usable map: its messages by position, of each the data bytes 4 to 8."""
    return b"".join(frame_data(message)[3:] for message in sorted(messages, key=lambda message: message.position))


def saved_keys(box):
    """'One row per usable key in rising order'."""
    return [key for key in box.keys() if box.judge(key) == Answer(0)]


def row_of(key, offset, length, edition, form=WRITTEN):
    """A row of the contents: key, 'offset and length', and from form 2 on 'the edition'."""
    row = bytes(key) + two(offset % 65536) + two(length % 65536)
    return row + bytes([EDITION_BYTES[edition]]) if form == 2 else row


def joined(parts, form=WRITTEN):
    """'A table of contents first .. with offset and length, then the bodies in that order without gaps', for the parts in order."""
    rows, bodies = b"", b""
    for key, body, edition in parts:
        rows += row_of(key, 2 + ROW_BYTES[form] * len(parts) + len(bodies), len(body), edition, form)
        bodies += body
    return bytes([form, len(parts)]) + rows + bodies


def image_of(box, form=WRITTEN):
    return joined([Part(key, body_of(box.sets[key]), box.edition(key)) for key in saved_keys(box)], form)


def save(box, buffer):
    """The answer, '13 for too little room', and what the buffer holds afterwards."""
    image = image_of(box)
    if len(buffer) < len(image):
        return Answer(13), buffer
    return Answer(0), image + buffer[len(image):]


# ---- An image read

def edition_of(row):
    """The edition that a row's bytes say: 'old ones .. are read as 2010', and so have no byte for it. None where it is none."""
    said = row[7] if len(row) == 8 else EDITION_BYTES[NEWER]
    return next((edition for edition, byte in EDITION_BYTES.items() if byte == said), None)


def cut(image):
    """Each row, field by field, or None where the contents are damaged: 'one row per usable key in rising order with offset and length, then the bodies in that order without
    gaps'."""
    size = ROW_BYTES.get(image[0], 0) if image else 0
    if len(image) < 2 or size == 0 or image[1] > ROWS or len(image) < 2 + size * image[1]:
        return None
    rows, end = [], 2 + size * image[1]
    for at in range(2, end, size):
        said = image[at:at + size]
        row = Row(tuple(said[:3]), int.from_bytes(said[3:5], "little"), int.from_bytes(said[5:7], "little"), edition_of(said))
        if row.offset != end or row.edition is None or (rows and row.key <= rows[-1].key):
            return None
        rows.append(row)
        end += row.length
    return rows if end == len(image) else None


def heard(key, five):
    """The answer's number and the message of the frame that says these five bytes of this key."""
    source, destination, k = key
    return model.decode(rooms.identifier_of(6, 0, 0, 176, destination, source), 8, [*model.pgn_bytes(45056 + 256 * k), *five])


def taught(key, body, edition):
    """The messages of a body, or None where it is damaged: a message for each position in order, first-only no, and together a map that is usable by its edition."""
    messages = []
    for at in range(0, len(body), 5):
        five = body[at:at + 5]
        if len(five) < 5 or model.bits_of(five[3], 6, 6) == 1:
            return None
        number, message = heard(key, five)
        if number != 0 or message.position != len(messages) + 1 or message.n != len(body) // 5:
            return None
        messages.append(message)
    return messages if messages and model.judge(model.map_of(messages, edition)) == (0, 0) else None


@functools.lru_cache(maxsize=8)   # one image is asked several things
def read(image):
    """Of each row what it says and its messages, or None: 'one table has one image, and any other bytes are damaged'; old ones 'are read as 2010'."""
    rows = cut(image)
    told = [Told(row, taught(row.key, image[row.offset:row.offset + row.length], row.edition)) for row in rows or []]
    good = rows is not None and all(messages is not None for row, messages in told)
    assert good == is_an_image(image, rows), image.hex()
    return told if good else None


def is_an_image(image, rows):
    """The same asked the other way round: a table that has heard what the rows say, with their editions, has this image."""
    box = model.Box()
    for row in rows or []:
        for at in range(row.offset, row.offset + row.length - 4, 5):
            number, message = heard(row.key, image[at:at + 5])
            if number == 0:
                box.take(message)
        box.set_edition(row.key, row.edition)
    return rows is not None and image_of(box, image[0]) == image


def newer_form(image):
    """The image that is written of what an undamaged one says."""
    return joined([Part(row.key, image[row.offset:row.offset + row.length], row.edition) for row in cut(image)])


def load(box, image):
    """'21 damaged image .. 23 table not empty, in that order'; 'loading goes into an empty table and counts there as the messages it stands for'. Req 10: 'Saved images carry the
    edition .. and loading sets it; old ones .. are read as 2010.'"""
    told = read(image)
    if told is None:
        return Answer(21)
    if box.keys():
        return Answer(23)
    for row, messages in told:
        for message in messages:
            assert box.take(message) == Answer(0)
        assert box.set_edition(row.key, row.edition) == Answer(0)
    assert image_of(box) == newer_form(image)
    return Answer(0)


NO_ROW = Row((0, 0, 0), 0, 0, 0)


def asked(image, key):
    """Asked for a key: the answer and its row, all 0 on a refusal. '21 damaged image, 22 key or row not in it'."""
    told = read(image)
    if told is None:
        return Answer(21), NO_ROW
    return next(((Answer(0), row) for row, messages in told if row.key == key), (Answer(22), NO_ROW))


def row_asked(image, number):
    """Asked for a row by its number, from 0 on: the answer and the row."""
    told = read(image)
    if told is None:
        return Answer(21), NO_ROW
    if number >= len(told):
        return Answer(22), NO_ROW
    return Answer(0), told[number].row


# ---- Cases

class Run:
    """Calls one after another on one table."""

    def __init__(self):
        self.cases = []
        self.empty()

    def empty(self):
        self.box = model.Box()
        self.add(0)

    def add(self, tag, given=b"", behind=b"", *lines):
        assert len(given) <= 13 and len(behind) <= 4096
        self.cases.append(((bytes([tag]) + given).ljust(14, b"\0") + two(len(behind)) + behind, list(lines)))

    def frame(self, *frame):
        self.box.learn(*frame)
        self.add(1, record(*frame))

    def learn(self, *messages, **said):
        for message in messages:
            self.frame(*keys.frame_of(message, **said))

    def forget(self, *keys):
        for key in keys:
            self.box.forget(key)
            self.add(2, bytes(key))

    def set_edition(self, key, edition):
        self.box.set_edition(key, edition)
        self.add(7, bytes(key) + word(edition))

    def save(self, buffer):
        """The answer, and what the buffer holds afterwards."""
        answer, after = save(self.box, buffer)
        self.add(3, b"", buffer, line(answer.number, answer.detail, len(image_of(self.box)), after.hex()))
        return answer, after

    def image(self, dice, further=0):
        """The table's image, saved with room to spare or without."""
        size = len(image_of(self.box))
        answer, after = self.save(filler(dice, size + further))
        assert answer == Answer(0)
        return after[:size]

    def load(self, image):
        answer = load(self.box, image)
        held = [number for key in self.box.keys() for number in (*key, self.box.count(key), *model.judge(self.box.map(key)), self.box.edition(key))]
        self.add(4, b"", image, line(answer.number, *held))
        return answer.number

    def body(self, image, *keys):
        for key in keys:
            answer, row = asked(image, key)
            self.add(5, bytes(key), image, line(answer.number, row.offset, row.length, row.edition, body_in(image, row).hex()))

    def row(self, image, *numbers):
        for number in numbers:
            answer, row = row_asked(image, number)
            self.add(6, number.to_bytes(8, "little"), image, line(answer.number, *row.key, row.offset, row.length, row.edition, body_in(image, row).hex()))

    def tried(self, image, key, row=0):
        """Bytes that may be an image: loaded into a fresh table, saved again where that went, and asked."""
        self.empty()
        number = self.load(image)
        if number == 0:
            self.save(bytes(len(newer_form(image))))
        self.body(image, key)
        self.row(image, row)
        return number


def body_in(image, row):
    return image[row.offset:row.offset + row.length]


def filler(dice, size):
    return bytes(dice.bytes(size))


def cases(dice):
    for make in (examples, order_of_refusals, numbers_of_rows, unusable, sixteen, goes_on, editions, edition_bytes, read_as_2010, *[any_table] * 24, *[any_bytes] * 8):
        yield from make(dice).cases
    for make in (every_bit, every_length, contents, bodies, uneven):   # damage of both forms
        for form in ROW_BYTES:
            yield from make(dice, form).cases


A = [EXAMPLE, EXAMPLE._replace(position=2, spn=1519, start=8)]
A_IMAGE = bytes.fromhex("02 01 26 27 01 0A 00 0A 00 00 ED 05 01 82 01 EF 05 02 82 09")
A_OLD_FORM = bytes.fromhex("01 01 26 27 01 09 00 0A 00 ED 05 01 82 01 EF 05 02 82 09")   # as Req 01 saved it
EMPTY = bytes([WRITTEN, 0])
SHORT = [EXAMPLE._replace(source=12, k=2, n=1, transport=1, spn=1519, start=63)]
THREE = [EXAMPLE._replace(destination=40, k=15, n=3, proprietary=0, position=p, spn=spn, start=start) for p, spn, start in ((1, 1519, 0), (2, 1517, 4), (3, 3147, 16))]
BEFORE_REQ_04 = THREE[:2] + [THREE[2]._replace(start=12)]   # usable while all bits lay in one run
OF_2004 = [EXAMPLE._replace(source=41, k=4, n=3, position=p, spn=spn, start=start) for p, spn, start in ((1, 3147, 0), (2, 3148, 16), (3, 3153, 24))]   # usable by both editions


def part(messages, edition=NEWER, **other):
    """The key, body and edition of some messages."""
    return Part(tuple(messages[0]._replace(**other)[:3]), body_of(messages), edition)


def examples(dice):
    """01's case A, byte by byte: a table that is empty, lacks a position, is whole, is in conflict, is forgotten."""
    run = Run()
    for size in (0, 1, 2, 3, 20):
        run.save(filler(dice, size))
    run.learn(A[1])
    run.save(filler(dice, 20))
    run.learn(A[0])
    for size in range(25):
        run.save(filler(dice, size))
    assert run.image(dice) == A_IMAGE
    run.load(A_IMAGE)
    run.empty()
    run.load(A_IMAGE)
    run.learn(*A, priority=3)
    run.learn(A[0], first=1)
    run.save(filler(dice, 25))
    run.body(A_IMAGE, (38, 39, 1), (38, 39, 2), (38, 39, 0), (39, 38, 1), (0, 0, 0), (255, 255, 255))
    run.row(A_IMAGE, 0, 1)
    run.learn(A[1]._replace(start=9))
    run.save(filler(dice, 25))
    run.load(A_IMAGE)
    run.forget((38, 39, 1))
    run.save(filler(dice, 25))
    run.load(A_IMAGE)
    run.save(filler(dice, 25))
    run.empty()
    run.load(EMPTY)
    run.load(EMPTY)
    run.load(A_IMAGE)
    run.load(EMPTY)
    # as Req 01 saved them: read, and saved in the new form
    run.empty()
    assert run.load(bytes([1, 0])) == run.load(A_OLD_FORM) == 0
    assert run.image(dice, 1) == A_IMAGE
    run.load(bytes([1, 0]))
    run.load(A_OLD_FORM)
    run.body(A_OLD_FORM, (38, 39, 1), (38, 39, 2))
    run.row(A_OLD_FORM, 0, 1)
    return run


def order_of_refusals(dice):
    """21 before 23, 21 before 22, on tables that hold a key: usable, not usable, in conflict; and a refusal changes nothing."""
    run = Run()
    for told in ([], A, A[:1], [*A, A[0]._replace(start=3)]):
        for image in (A_IMAGE, A_IMAGE[:-1], EMPTY, b"", joined([part(SHORT), part(A)]), A_OLD_FORM, A_OLD_FORM[:-1], bytes([1, 0])):
            run.empty()
            run.learn(*told)
            run.load(image)
            run.save(filler(dice, 50))
            run.body(image, (38, 39, 1), (38, 39, 9))
            run.row(image, 0, 2)
    return run


def every_bit(dice, form):
    """Every bit of small images turned."""
    run = Run()
    for parts in ([], [part(A)], [part(SHORT), part(A)], [part(OF_2004, OLDER)]):
        image = joined(parts, form)
        for bit in range(8 * len(image)):
            turned = bytes(model.with_bit(image, bit, 1 - model.get_bit(image, bit)))
            run.tried(turned, parts[-1].key if parts else (38, 39, 1), len(parts) - 1 if parts else 0)
    return run


def every_length(dice, form):
    """Images cut at every length, and with bytes added: zeros, any, a body once more, the image once more."""
    run = Run()
    image = joined([part(SHORT), part(A), part(THREE)], form)
    at = cut(image)[0].offset
    assert run.tried(image, (38, 39, 1), 2) == 0
    for size in range(len(image)):
        run.tried(image[:size], (12, 39, 2), 0)
    for more in (b"\0", b"\xff", b"\1\0", b"\2\0", bytes(5), bytes(7), bytes(8), filler(dice, 1), filler(dice, 5), filler(dice, 200), image[-15:], image[at:at + 5], image,
                 bytes(4096 - len(image))):
        assert run.tried(image + more, (12, 39, 2), 1) == 21
        run.tried(more + image if len(more) < 300 else more, (12, 39, 2), 1)
    return run


def put(rows, bodies, form, count=None, said=None):
    """Bytes like an image's of this form, for rows as they are; the first byte and the count may be others."""
    written = b"".join(row_of(*row, form) for row in rows)
    return bytes([form if said is None else said, len(rows) if count is None else count]) + written + b"".join(bodies)


def contents(dice, form):
    """One thing wrong with the contents: form, count, order, offsets, lengths, gaps, overlaps, keys."""
    run = Run()
    parts = [part(SHORT), part(A), part(THREE)]
    keys_of, told = [part.key for part in parts], [part.body for part in parts]
    whole = lambda some: joined(some, form)
    laid = lambda rows, bodies=told, **more: put(rows, bodies, form, **more)
    good = cut(whole(parts))
    assert laid(good) == whole(parts)
    wrong = [laid(good, said=said) for said in (0, 1, 2, 3, 4, 128, 129, 130, 255)]
    wrong += [laid(good, count=count) for count in (0, 1, 2, 4, 8, 16, 17, 19, 128, 255)]
    wrong += [laid(good[:2]), laid(good[:2], told[:2]), whole(parts[:2]) + told[2], whole([])[:1], whole(parts[1:]), whole([parts[0], parts[2]])]
    for i, j in ((0, 1), (1, 2), (0, 2)):
        swapped = list(parts)
        swapped[i], swapped[j] = swapped[j], swapped[i]
        rows = list(good)
        rows[i], rows[j] = rows[j], rows[i]
        wrong += [whole(swapped), laid(rows)]                                                        # rows that do not rise, with their bodies and without
        wrong += [laid([row._replace(key=keys_of[x]) for row, x in zip(good, order(i, j))])]         # the keys alone
        by_other_order = [part.body for part in swapped]
        wrong += [laid(good, by_other_order), laid(placed_by(good, swapped), by_other_order)]        # bodies in another order, with offsets that find them
    wrong += [whole([parts[0], parts[0]]), whole([parts[0], parts[1], parts[1]]), whole([part(A), part(A, k=2)]), whole([part(A, k=2), part(A)])]
    for i in range(3):
        for by in (-10, -5, -1, 1, 5, 10, 256, -256):
            wrong += [laid(other(good, i, by, 0)), laid(other(good, i, 0, by))]
        wrong += [laid(other(good, i, -good[i].offset, 0)), laid(other(good, i, 0, -good[i].length)), laid(other(good, i, 65535 - good[i].offset, 0))]
        for size in (1, 3, 5, 7, 8):   # a gap before a body; 3 is what three rows of the two forms differ by
            gap = filler(dice, size)
            shifted = [row._replace(offset=row.offset + (size if j >= i else 0)) for j, row in enumerate(good)]
            wrong += [laid(shifted, told[:i] + [gap] + told[i:])]
    wrong += [laid([good[0], good[1]._replace(offset=good[0].offset), good[2]])]                     # an overlap
    wrong += [laid([good[0]._replace(length=10), good[1]._replace(offset=good[1].offset + 5, length=5), good[2]])]   # a border that lies elsewhere
    wrong += [laid([Row((38, 39, k), good[0].offset, 10, NEWER) for k in (1, 2, 3)], [part(A).body])]   # three keys, one body
    for name, values in {"source": (0, 11, 13, 37, 38, 39, 253, 254, 255), "destination": (0, 38, 39, 40, 253, 254, 255), "k": (0, 1, 2, 15, 16, 17, 128, 255)}.items():
        for value in values:
            wrong += [whole([part(SHORT), part(A, **{name: value})]), whole([part(A, **{name: value})])]
    for image in wrong:
        run.tried(image, dice.one_of(keys_of), dice.below(3))
    return run


def order(i, j):
    """0, 1, 2 with two of them exchanged."""
    return [j if x == i else i if x == j else x for x in range(3)]


def placed_by(rows, swapped):
    """The rows in their order, with offsets of bodies that stand in another."""
    at, offsets = rows[0].offset, {}
    for key, body, edition in swapped:
        offsets[key] = at
        at += len(body)
    return [row._replace(offset=offsets[row.key]) for row in rows]


def other(rows, i, offset, length):
    return [row._replace(offset=row.offset + offset, length=row.length + length) if j == i else row for j, row in enumerate(rows)]


def with_byte(body, at, value):
    return body[:at] + bytes([value]) + body[at + 1:]


def bodies(dice, form):
    """One thing wrong with a body: what no message says, and messages that do not stand as they should."""
    run = Run()
    key, good, edition = part(THREE)
    one, second, third = good[:5], good[5:10], good[10:]
    told = [b"", one, one + second, good + one, second + one + third, one + third + second, third + second + one, one + one + third, one + second + second, good[1:], good[:-1], good + b"\0"]
    for p in range(3):
        five = good[5 * p:5 * p + 5]
        put_in = lambda changed: good[:5 * p] + changed + good[5 * p + 5:]
        told += [put_in(with_byte(five, 3, five[3] | 0x20)), put_in(with_byte(five, 3, five[3] ^ 0x80)), put_in(with_byte(five, 3, five[3] ^ 0x40))]
        told += [put_in(with_byte(five, 3, five[3] // 32 * 32 + n)) for n in (0, 1, 2, 4, 31)]
        told += [put_in(with_byte(five, 2, five[2] // 32 * 32 + position)) for position in (0, 1, 2, 3, 4, 31)]
        told += [put_in(with_byte(five, 2, five[2] % 32 + 32 * top)) for top in (1, 7)]
        told += [put_in(with_byte(five, 4, wire)) for wire in (0, 1, 5, 13, 17, 25, 100, 249, 250, 251, 252, 254, 255)]
        told += [put_in(with_byte(five, at, value)) for at in (0, 1) for value in (0, 255, dice.below(256))]
    flags = lambda change: b"".join(with_byte(good[at:at + 5], 3, change(good[at + 3])) for at in (0, 5, 10))
    told += [flags(lambda b: b | 0x20), flags(lambda b: b ^ 0x80), flags(lambda b: b ^ 0x40), flags(lambda b: b - 3), flags(lambda b: b - 1), flags(lambda b: b + 1)]
    last = SHORT[0]._replace(start=249)   # the last start that a message can say, and the wire's numbers past it
    for wire in range(247, 256):
        assert run.tried(joined([Part(tuple(last[:3]), with_byte(body_of([last]), 4, wire))], form), tuple(last[:3]), 0) == (0 if wire <= 250 else 21)
    for body in told:
        run.tried(joined([Part(key, body)], form), key, 0)
        run.tried(joined([part(SHORT), Part(key, body), part(A, source=40)], form), key, 2)
    return run


def uneven(dice, form):
    """Req 04: 'a saved map no longer usable makes its image damaged', one of 19 bits that does not start at a multiple of 8; and those that do, with another in the bits that they skip."""
    run = Run()
    whole = lambda *parts: joined(parts, form)
    assert run.tried(whole(part(SHORT), part(THREE)), (38, 40, 15), 1) == 0
    for image in (whole(part(BEFORE_REQ_04)), whole(part(SHORT), part(BEFORE_REQ_04)), whole(part(BEFORE_REQ_04), part(A, source=40))):
        assert run.tried(image, (38, 40, 15), 0) == 21
    for wire in range(1, 251):
        alone = EXAMPLE._replace(n=1, spn=3147 if wire % 3 else 3154, start=wire - 1, transport=0 if wire <= 41 else 1)
        edition = dice.one_of([NEWER, OLDER])   # both have these
        assert run.tried(whole(part([alone], edition)), (38, 39, 1), 0) == (0 if wire % 8 == 1 else 21)
    for spn, start in [(3148, start) for start in range(15, 26)] + [(1519, start) for start in range(15, 26)] + [(3154, start) for start in (16, 23, 24, 25)]:
        told = [EXAMPLE._replace(spn=3147), EXAMPLE._replace(position=2, spn=spn, start=start)]
        usable = model.judge(model.map_of(told)) == (0, 0)
        assert run.tried(whole(part(told)), (38, 39, 1), 0) == (0 if usable else 21)
    run.empty()   # a table with such a key saves the others
    run.learn(*BEFORE_REQ_04, *A)
    assert run.image(dice, 3) == A_IMAGE
    return run


def unusable(dice):
    """Tables with maps of each judgement beside usable ones: saved, they leave no trace; laid into an image, they damage it."""
    run = Run()
    for number in keys.ARRIVING:
        for _ in range(4):
            run.empty()
            key = keys.some_key(dice)
            told = keys.spoiled(dice, number, keys.teachable(dice, key, dice.within(2, 6)))
            beside = [keys.teachable(dice, other_key, dice.within(1, 3)) for other_key in {keys.some_key(dice) for _ in range(2)} - {key}]
            run.learn(*keys.mixed(dice, [message for messages in (told, *beside) for message in messages]))
            image = run.image(dice, dice.below(9))
            for row in range(image[1]):
                run.row(image, row)
            run.body(image, key)
            assert run.load(image) == 23
            if run.box.judge(key) != Answer(0):
                parts = sorted(part(messages) for messages in (told, *beside))
                assert run.tried(joined(parts), key, 0) == run.tried(joined(parts, 1), key, 0) == 21
            run.empty()
            assert run.load(image) == 0
            assert run.image(dice, 3) == image
    return run


def sixteen(dice):
    """Sixteen keys and one more; the longest image; seventeen rows; a row more or less."""
    run = Run()
    some = sorted(keys.mixed(dice, [(source, destination, k) for source in (0, 38, 253) for destination in (0, 255) for k in (1, 7, 15)])[:17])
    small = [part([EXAMPLE._replace(source=key[0], destination=key[1], k=key[2], n=1)]) for key in some]
    for count in (15, 16, 17):
        for form in ROW_BYTES:
            assert run.tried(joined(small[:count], form), some[3], 15) == (0 if count <= 16 else 21)
    run.empty()
    for key in keys.mixed(dice, some):
        run.learn(EXAMPLE._replace(source=key[0], destination=key[1], k=key[2], n=1))
    image = run.image(dice, 1)
    assert image[1] == 16
    run.empty()
    run.load(image)
    run.learn(EXAMPLE._replace(source=1, n=1))
    run.save(filler(dice, len(image)))
    run.forget(run.box.keys()[4])
    run.learn(EXAMPLE._replace(source=1, n=1))
    run.save(filler(dice, len(image)))
    # the longest: 31 positions in each
    run.empty()
    wide = [keys.teachable(dice, key, 31) for key in some[:16]]
    for told in keys.mixed(dice, wide):
        run.learn(*keys.mixed(dice, told))
    run.save(filler(dice, 2609))
    image, older = run.image(dice), image_of(run.box, 1)
    assert len(image) == 2610 and len(older) == 2594
    run.load(image)
    run.load(older)
    for whole in (image, older):
        run.body(whole, some[0], some[15], some[16])
        run.row(whole, 0, 15, 16)
        assert run.tried(whole, some[7], 7) == 0
        assert run.tried(whole[:-1], some[7], 7) == 21
        assert run.tried(whole + b"\0", some[7], 7) == 21
        for _ in range(6):
            at = dice.below(len(whole))
            run.tried(with_byte(whole, at, whole[at] ^ 2 ** dice.below(8)), dice.one_of(some), dice.below(17))
    return run


FAR = [2**8, 2**16, 2**31, 2**32 - 1, 2**32, 2**32 + 1, 2**61, 2**63, 2**64 - 1]


def numbers_of_rows(dice):
    """Rows by every number up to one past the last, and far ones, also such as come round to a row when they are multiplied by its length."""
    run = Run()
    parts = [part(SHORT), part(A), part(THREE)]
    image, older = joined(parts), joined(parts, 1)
    of_7 = [pow(7, -1, 2**bits) * by % 2**bits for bits in (16, 32, 64) for by in (0, 7, 1, 2)]
    of_8 = [2**bits // 8 * by + more for bits in (16, 32, 64) for by in (1, 3) for more in (0, 1, 2)]
    for rows, far in ((image, of_8), (A_IMAGE, of_8), (EMPTY, of_8), (image[:-1], of_8), (older, of_7), (A_OLD_FORM, of_7), (bytes([1, 0]), of_7), (older[:-1], of_7), (b"", of_8), (b"\2", of_8)):
        run.row(rows, *range(5), *FAR, *far)
    for key in ((12, 39, 2), (38, 39, 1), (38, 40, 15), (12, 39, 1), (12, 39, 3), (38, 39, 15), (38, 40, 1), (39, 12, 2), (0, 0, 0), (255, 255, 255), (2, 3, 12), (1, 3, 12)):
        for rows in (image, image[:-1], EMPTY, older, older[:-1]):
            run.body(rows, key)
    return run


def goes_on(dice):
    """A loaded table learns, contradicts, forgets and is saved as any other does."""
    run = Run()
    image = joined([part(SHORT), part(A), part(THREE)])
    for other_said in keys.OTHERS:
        run.empty()
        run.load(image)
        run.learn(A[0], priority=dice.below(8))
        assert run.image(dice, 2) == image
        run.learn(A[0]._replace(**other_said))
        run.image(dice, 2)
        assert run.load(image) == 23
        run.forget((38, 39, 1))
        run.image(dice, 2)
        run.learn(*A)
        assert run.image(dice, 2) == image
        run.forget(*run.box.keys())
        assert run.image(dice, 2) == EMPTY
        run.load(joined([part(A)]))
    return run


# ---- Editions (Req 10)

def only_newer(dice, count):
    """SPNs that 2010 has and 2004 hasn't."""
    return dice.some(count, [spn for spn in sorted(model.WIDTHS) if spn not in model.EDITIONS[OLDER]])


def editions(dice):
    """Keys whose edition is set, before their messages are whole and after: 'saved images carry the edition .. and loading sets it'. A map that its edition does not know leaves no trace."""
    run = Run()
    run.learn(*OF_2004)
    newer = run.image(dice)
    run.set_edition(OF_2004[0][:3], OLDER)
    older = run.image(dice, 2)
    assert newer == joined([part(OF_2004)]) and older == joined([part(OF_2004, OLDER)]) and len(newer) == len(older)
    for image in (newer, older):
        assert run.load(image) == 23
        run.body(image, (41, 39, 4), (41, 39, 5))
        run.row(image, 0, 1)
        assert run.tried(image, (41, 39, 4)) == 0
        assert run.image(dice) == image
    for wrong in (2003, 2005, 0, 1, 2011, 2004 + 65536):   # 27: nothing changes
        run.set_edition((41, 39, 4), wrong)
        assert run.image(dice) == older
    run.set_edition((41, 39, 9), NEWER)   # 11
    run.learn(*A)
    assert run.image(dice) == joined([part(A), part(OF_2004, OLDER)])
    run.set_edition((38, 39, 1), OLDER)   # 2004 hasn't 1517
    assert run.image(dice, 1) == older
    run.set_edition((38, 39, 1), NEWER)
    run.set_edition((41, 39, 4), NEWER)
    assert run.image(dice, 1) == joined([part(A), part(OF_2004)])
    # a loaded table: its messages again, a forget, the same key anew
    run.empty()
    run.load(older)
    run.learn(*OF_2004)
    assert run.image(dice) == older
    run.forget((41, 39, 4))
    run.learn(*OF_2004)
    assert run.image(dice) == newer
    # an edition that is set while a position lacks, and in conflict
    run.empty()
    run.learn(OF_2004[0])
    run.set_edition((41, 39, 4), OLDER)
    assert run.image(dice) == EMPTY
    run.learn(*OF_2004)
    assert run.image(dice) == older
    run.learn(OF_2004[2]._replace(start=25))
    run.set_edition((41, 39, 4), NEWER)
    assert run.image(dice) == EMPTY
    run.load(older)
    return run


def edition_bytes(dice):
    """Every value of a row's edition; editions exchanged, and of rows whose maps only one edition knows."""
    run = Run()
    image = joined([part(SHORT), part(A), part(OF_2004, OLDER)])
    for row, key in enumerate(((12, 39, 2), (38, 39, 1), (41, 39, 4))):
        at = 2 + 8 * row + 7
        for said in range(256) if row == 2 else (0, 1, 2, 3, 4, 128, 255):
            turned = with_byte(image, at, said)
            assert run.tried(turned, key, row) == (0 if said == 0 or (said == 1 and row == 2) else 21)
    for spn in only_newer(dice, 6) + [0, 521, 2848]:
        told = [message if message.position != 2 else message._replace(spn=spn) for message in OF_2004]
        told[1:] = [message._replace(start=start) for message, start in zip(told[1:], (24, 48))]
        assert run.tried(joined([part(told, OLDER)]), (41, 39, 4)) == 21
        assert run.tried(joined([part(told, NEWER)]), (41, 39, 4)) == (0 if spn in model.WIDTHS else 21)
    return run


def read_as_2010(dice):
    """Images as Req 01 wrote them, of tables whose keys have either edition: 'old ones, no longer written, are read as 2010'. Rows of one form under the other's number are damaged."""
    run = Run()
    for _ in range(12):
        run.empty()
        for _ in range(dice.within(1, 5)):
            key = keys.some_key(dice)
            run.forget(key)
            old = dice.below(2)
            run.learn(*(keys.teachable_2004 if old else keys.teachable)(dice, key, dice.within(1, 4)))
            run.set_edition(key, OLDER if old and dice.below(3) else NEWER)
        image, older = run.image(dice), image_of(run.box, 1)
        held = run.box.keys()
        for form, other_form in ((image, 1), (older, 2)):
            assert run.tried(with_byte(form, 0, other_form), dice.one_of(held)) == 21
        assert run.tried(older, dice.one_of(held), dice.below(len(held))) == 0
        assert all(run.box.edition(key) == NEWER for key in run.box.keys())
        assert run.tried(image, dice.one_of(held), dice.below(len(held))) == 0
    return run


def damaged(dice, image):
    """The image with some bytes turned, written over, taken out or put in."""
    for _ in range(dice.one_of([1, 1, 1, 2, 3])):
        at, what = dice.below(max(len(image), 1)), dice.below(6)
        if what < 3 and image:
            image = with_byte(image, at, image[at] ^ 2 ** dice.below(8))
        elif what == 3 and image:
            image = with_byte(image, at, dice.below(256))
        elif what == 4:
            image = image[:at] + image[at + dice.one_of([1, 1, 5, 7, 8]):]
        else:
            image = image[:at] + dice.one_of([filler(dice, dice.one_of([1, 1, 5, 7, 8])), image[at:at + 5], image[at:at + 7], image[at:at + 8]]) + image[at:]
    return image


def any_table(dice):
    """Tables that learned in any order, of either edition, some keys not usable, some forgotten: saved, loaded into a fresh one, damaged, and gone on with."""
    run = Run()
    for _ in range(dice.one_of([1, 2, 4, 9, 14, 20])):
        key, old = keys.some_key(dice), dice.below(3) == 0
        told = (keys.teachable_2004 if old else keys.teachable)(dice, key, keys.how_many(dice))
        if dice.below(4) == 0:
            told = keys.spoiled(dice, dice.one_of(keys.ARRIVING), told)
        run.learn(*keys.mixed(dice, told))
        if old or dice.below(9) == 0:
            run.set_edition(key, dice.one_of([OLDER, OLDER, OLDER, NEWER, 2007]))
        if dice.below(9) == 0 and run.box.keys():
            run.forget(dice.one_of(run.box.keys()))
    size = len(image_of(run.box))
    for room in (size - 1, dice.below(size), size + dice.below(40)):
        run.save(filler(dice, room))
    image = run.image(dice)
    held = run.box.keys() or [(1, 2, 3)]
    run.load(image)
    run.body(image, *dice.some(min(4, len(held)), held), keys.some_key(dice))
    run.row(image, dice.below(17), dice.below(4), image[1])
    older = image_of(run.box, 1)
    for whole in (image, image, older):
        for _ in range(3):
            run.tried(damaged(dice, whole), dice.one_of(held), dice.below(image[1] + 1))
    run.tried(older, dice.one_of(held), dice.below(image[1] + 1))
    run.empty()
    assert run.load(image) == 0
    for _ in range(4):
        run.learn(*keys.teachable(dice, dice.one_of([dice.one_of(held), keys.some_key(dice)]), dice.within(1, 4)))
        if dice.below(2) and run.box.keys():
            run.forget(dice.one_of(run.box.keys()))
        if dice.below(2) and run.box.keys():
            run.set_edition(dice.one_of(run.box.keys()), dice.one_of([OLDER, NEWER]))
    run.save(filler(dice, 600))
    return run


def any_bytes(dice):
    """Bytes of any kind, few rows in them."""
    run = Run()
    for _ in range(12):
        image = bytes([dice.one_of([1, 2, 2, 2, 0, 3]), dice.one_of([0, 1, 1, 2, dice.below(256)])]) + filler(dice, dice.below(40))
        run.tried(image[:dice.one_of([len(image), dice.below(len(image) + 1)])], keys.some_key(dice), dice.below(3))
    return run
