"""The cases of the learned table: learning, forgetting, the held keys, what is asked about a key, and listings. Tags 4 to 17 of the
program `runs`. tests/logs.py has more of the listings, tests/editions.py of the editions."""
import meanings
import model
import rooms
from dice import TOP, case, line, word, words
from lists import KNOWN, ODD, number_for, size_of, some_spns, starts_for
from model import Answer, Message
from words import OLD, Words, cell_of

EXAMPLE = Message(38, 39, 1, 2, 1, 0, 1, 1517, 0)

# What a map can be judged that messages taught and that is not usable: 7 never arrives (docs/WIRE.md).
ARRIVING = (1, 2, 3, 4, 5, 6, 8, 9)


def configured(key):
    return 45056 + 256 * key[2]


def frame_of(message, **said):
    """The frame that says this message."""
    m = message._asdict()
    fields = {name: m[name] for name in ("source", "n", "proprietary", "transport", "position", "spn")}
    return rooms.frame(**fields, **{"ps": message.destination, "configured": configured(message), "start": message.start + 1, **said})


class Run:
    """Calls one after another on one table. The words are held to what the sets say, until words are written that no call makes."""

    def __init__(self):
        self.models = [model.Box(), Words()]
        self.cases = [(case(0, b""), [])]

    def says(self, name, *given):
        answers = [getattr(each, name)(*given) for each in self.models]
        assert all(answer == answers[0] for answer in answers), (name, given, answers)
        return answers[0]

    def add(self, tag, given, *lines):
        self.cases.append((case(tag, given), list(lines)))

    # ---- calls that change the table

    def frame(self, identifier, length, eight):
        answer = self.says("learn", identifier, length, eight)
        self.add(4, word(identifier) + bytes([length]) + bytes(eight), line(*answer))
        return answer.number

    def learn(self, *messages, **said):
        for message in messages:
            self.frame(*frame_of(message, **said))

    def forget(self, *keys):
        for key in keys:
            self.add(5, bytes(key), line(*self.says("forget", key)))

    def set_edition(self, key, *editions):
        for edition in editions:
            self.add(16, bytes(key) + word(edition), line(*self.says("set_edition", key, edition)))

    def write(self, place, value):
        self.models = self.models[-1:]
        self.models[0].words[place] = value
        self.add(8, place.to_bytes(2, "little") + value.to_bytes(8, "little"))

    # ---- calls that look

    def keys(self):
        self.add(6, b"", line("keys", *(number for key in self.says("keys") for number in key)))

    def next(self, key):
        self.add(7, bytes(key), line("next", *(self.says("next_key", key) or ())))

    def edition(self, *keys):
        for key in keys:
            self.add(17, bytes(key), line("edition", self.says("edition", key)))

    def dump(self):
        held = self.models[-1].words
        self.add(9, b"", line("words", *(x for place, value in enumerate(held) if value for x in (place, value))))

    def judge(self, *keys):
        for key in keys:
            self.add(10, bytes(key), line(*self.says("judge", key), self.says("count", key)))

    def find(self, key, *spns):
        for spn in spns:
            found = self.says("find", key, spn)
            self.add(11, bytes(key) + word(spn), line(*found.answer, *found[1:]))

    def parameter(self, key, *positions):
        for position in positions:
            there = self.says("parameter", key, position)
            self.add(14, bytes(key) + bytes([position]), line(*there.answer, *there[1:]))

    def pack(self, key, numbers, buffer):
        answer, after = self.says("pack", key, numbers, buffer)
        given = case(12, bytes(key) + bytes([len(numbers)]) + len(buffer).to_bytes(2, "little"))
        self.cases.append((given + words(numbers) + bytes(buffer), [line(*answer, bytes(after).hex())]))
        return answer.number, after

    def read(self, key, payload, room, states):
        answer, numbers, said = self.says("read", key, payload, room, states)
        given = case(13, bytes(key) + bytes([len(room)]) + len(payload).to_bytes(2, "little") + bytes([len(states)]))
        self.cases.append((given + words(room) + bytes(payload) + bytes(states), [line(*answer, *numbers, bytes(said).hex())]))

    def rows(self, key):
        """The key's (SPN, start, width) where its map is usable."""
        return self.models[-1].usable(key)[1]

    def listing(self, chunks, room):
        """A log in chunks, listed into a buffer."""
        texts = [model.listing(b"".join(chunks), each).encode() for each in self.models]
        assert all(text == texts[0] for text in texts), (chunks, texts)
        answer, after = (Answer(0, len(texts[0])), texts[0] + room[len(texts[0]):]) if len(texts[0]) <= len(room) else (Answer(13), room)
        two = lambda number: number.to_bytes(2, "little")
        given = case(15, two(len(chunks)) + two(len(room))) + b"".join(two(len(chunk)) + chunk for chunk in chunks) + room
        self.cases.append((given, [line(*answer), after.decode()]))
        return texts[0]

    def ask(self, dice, key):
        """Everything that can be asked about a key: as it should be, and with lengths, numbers, SPNs and positions that are wrong."""
        self.edition(key)
        self.judge(key)
        self.parameter(key, *sorted({*range(min(self.says("count", key) + 3, 256)), 64, 65, 255}))
        rows = self.rows(key)
        if rows is None:
            self.find(key, 1517)
            self.pack(key, [1, 2], dice.bytes(9))
            self.read(key, dice.bytes(8), [1, 2, 3], [1, 2, 3])
            return
        self.find(key, *(row[0] for row in rows), 0, 1, 521, TOP, dice.one_of(KNOWN))
        numbers = [number_for(dice, width) for spn, start, width in rows]
        size = model.length_of([row[1:] for row in rows])
        for further in (0, 3):
            number, after = self.pack(key, numbers, dice.bytes(size + further))
            assert number == 0
        self.read(key, after[:size], [dice.below(2**32) for _ in rows], dice.bytes(len(rows)))
        self.read(key, dice.bytes(size), [dice.below(2**32) for _ in range(len(rows) + 2)], dice.bytes(len(rows) + 3))
        placed = [row[1:] for row in rows]
        edges = [dice.one_of([number for number in meanings.edges(width) if number < 2**width]) for start, width in placed]
        self.read(key, model.pack_places(placed, edges, [0] * size)[1], [7] * len(rows), [7] * (len(rows) + dice.below(4)))
        self.wrong(dice, key, rows, numbers, size)

    def wrong(self, dice, key, rows, numbers, size):
        for given, room in ((numbers[1:], size), (numbers + [0], size), (numbers, size - 1), (numbers, 0), ([], size)):
            self.pack(key, given, dice.bytes(room))
        n = len(rows)
        for payload, room, states in ((size - 1, n, n), (size + 1, n, n), (size, n - 1, n), (size, n, n - 1), (size, n + 2, n - 1), (size, n - 1, n + 2),
                                      (size, n, 0), (size - 1, n, n - 1), (0, n, n)):
            self.read(key, dice.bytes(payload), [7] * room, [9] * states)
        narrow = [p for p, (spn, start, width) in enumerate(rows) if width < 32]
        for wide in (narrow[:1], narrow[-1:], narrow[1::2]):
            spoiled = list(numbers)
            for p in wide:
                spoiled[p] = dice.one_of([2 ** rows[p][2], TOP])
            self.pack(key, spoiled, dice.bytes(size))
            self.pack(key, spoiled, dice.bytes(size - 1))


def cases(dice):
    for make in (examples, odd_widths, rooms_for_16, conflicts, same_messages, other_keys, orders, usable_maps, judgements, not_held, refused):
        yield from make(dice).cases
    for _ in range(3):
        yield from any_calls(dice).cases
    for make in (strange_rows, *[any_words] * 40):
        yield from make(dice).cases


# ---- Maps that messages can carry

def some_key(dice):
    return dice.one_of([0, 38, dice.below(254), 253]), dice.one_of([0, 39, dice.below(256), 254, 255]), dice.within(1, 15)


def teachable(dice, key, n, bits=249, having=None):
    """The messages of a usable map that the wire can carry: starts up to 249. Where an SPN is named, it stands at one of the positions."""
    def spns():
        drawn = some_spns(dice, n)
        if having is not None and having not in drawn:
            drawn[dice.below(n)] = having
        return drawn
    return laid_out(dice, key, spns, bits)


OF_2004 = sorted(model.EDITIONS[model.OLDER])


def teachable_2004(dice, key, n, bits=249):
    """The same of SPNs that 2004 has, all of them where n is larger: usable by both editions."""
    told = laid_out(dice, key, lambda: dice.some(min(n, len(OF_2004)), OF_2004), bits)
    assert model.judge(model.map_of(told, model.OLDER)) == (0, 0)
    return told


def laid_out(dice, key, draw, bits):
    """The messages of a map with the SPNs that are drawn, drawn again until no start is above `bits`."""
    while True:
        spns = draw()
        widths = [model.WIDTHS[spn] for spn in spns]
        starts = starts_for(dice, widths, dice.one_of([0, 0, dice.below(9), dice.below(60)]), lambda: dice.one_of([0, 0, 0, 1, dice.below(6)]))
        if starts[-1] <= bits:
            transport = 1 if size_of(starts, widths) > 8 else 0
            proprietary = dice.below(2)
            told = [Message(*key, len(spns), proprietary, transport, p, spn, start) for p, (spn, start) in enumerate(zip(spns, starts), 1)]
            assert model.judge(model.map_of(told)) == (0, 0)
            return told


def how_many(dice):
    """Few enough that the starts can be told by the wire."""
    return dice.one_of([1, 2, 3, dice.within(2, 8), dice.within(2, 14)])


def mixed(dice, messages):
    return dice.some(len(messages), messages)


# ---- 01's own

def examples(dice):
    """01's cases A and B by their messages, number 4 for 1519, and every other starred case that the wire can carry."""
    run = Run()
    run.keys()
    run.dump()
    a = [EXAMPLE, EXAMPLE._replace(position=2, spn=1519, start=8)]
    run.learn(*a)
    run.keys()
    run.dump()
    run.judge(a[0][:3])
    run.pack(a[0][:3], [40, 1], [0] * 8)
    run.pack(a[0][:3], [40, 4], [7] * 8)
    run.pack(a[0][:3], [256, 4], [7] * 10)
    run.read(a[0][:3], [0x28, 0xFD] + [255] * 6, [7, 7], [7, 7])
    for first, second in ((250, 0), (251, 1), (253, 2), (254, 3), (255, 2)):
        run.read(a[0][:3], [first, 0xFC + second] + [255] * 6, [7, 7, 7], [7, 7, 7])
    run.find(a[0][:3], 1517, 1519, 1518, 0)
    run.parameter(a[0][:3], 1, 2, 0, 3)
    b = [EXAMPLE._replace(k=2, position=2, start=4), EXAMPLE._replace(k=2, spn=1519)]
    run.learn(*b)
    run.judge(b[0][:3])
    run.pack(b[0][:3], [2, 0xA5], [0] * 9)
    run.read(b[0][:3], [0x5E, 0xFA] + [255] * 6, [7, 7, 7], [7, 7])
    for k, said in enumerate(([(1517, 0), (1519, 7)], [(1519, 62)], [(1519, 63)]), 3):
        for p, (spn, start) in enumerate(said, 1):
            run.learn(EXAMPLE._replace(k=k, n=len(said), position=p, spn=spn, start=start))
        run.judge((38, 39, k))
        run.ask(dice, (38, 39, k))
    run.learn(EXAMPLE._replace(k=6, n=1, transport=1, spn=1519, start=63))
    run.ask(dice, (38, 39, 6))
    # Req 04: a number of 19 bits lies as 5.3.2 lays an SPN, 01's two here; another stands in the bits that it skips; it starts at a multiple of 8
    nineteen = EXAMPLE._replace(k=7, n=1, spn=3147)
    run.learn(nineteen)
    assert run.pack((38, 39, 7), [1517], [0] * 8) == (0, [0xED, 0x05, 0x1F] + [255] * 5)
    assert run.pack((38, 39, 7), [65536], [0] * 9) == (0, [0x00, 0x00, 0x3F] + [255] * 5 + [0])
    run.pack((38, 39, 7), [2**19], [7] * 8)
    run.read((38, 39, 7), [0xED, 0x05, 0x00] + [0] * 5, [7], [7])
    run.learn(nineteen._replace(k=8, n=2), nineteen._replace(k=8, n=2, position=2, spn=3148, start=16))
    assert run.pack((38, 39, 8), [65536, 21], [0] * 8) == (0, [0x00, 0x00, 0x35] + [255] * 5)
    run.ask(dice, (38, 39, 8))
    run.learn(nineteen._replace(k=9, start=12))
    assert run.models[0].judge((38, 39, 9)) == Answer(0, 0, 9, 1)
    run.ask(dice, (38, 39, 9))
    run.keys()
    return run


def odd_widths(dice):
    """Req 04: the SPNs of 19 bits at every bit of a byte; with others in the bits that they skip; with others that share a bit with them, be it the one before or one further back."""
    run = Run()
    key = EXAMPLE[:3]
    maps = [[(spn, start)] for spn in ODD for start in (*range(9), 39, 40, 41, 48, 240, 247, 248, 249)]
    maps += [[(3147, 8), (spn, start)] for spn in (3148, 1519, 3149, 1517, 3154) for start in range(22, 34)]
    maps += [[(3147, 0), (3149, 16), (spn, start)] for spn in (3148, 1519, 1517) for start in range(17, 26)]
    maps += [[(3154, 0), (3149, 16), (3150, 17), (1519, start)] for start in range(18, 25)]
    maps += [[(3147, 0), (3148, 16), (3154, 24), (3152, 40), (1517, 48)], [(1517, 0), (3154, 8), (3147, 32), (3149, 52)], [(3154, 0), (3147, 24), (1519, 41), (1517, 44)]]
    maps += [[(1517, 0), (3147, 4)], [(1517, 8), (3147, 3)], [(3147, 1), (1517, 2)], [(3147, 1), (3154, 9)], [(3147, 0), (3148, 17), (3154, 25)], [(3147, 9), (3147, 33)]]
    for said in maps:
        transport = 1 if model.length_of([(start, model.WIDTHS[spn]) for spn, start in said]) > 8 else 0
        told = [EXAMPLE._replace(n=len(said), transport=transport, position=p, spn=spn, start=start) for p, (spn, start) in enumerate(said, 1)]
        run.learn(*mixed(dice, told))
        run.ask(dice, key)
        run.forget(key)
    return run


def rooms_for_16(dice):
    """Key 16 and key 17; then a forget, then key 17. Also where one of the 16 is in conflict, and one row after another."""
    run = Run()
    keys = mixed(dice, [(source, destination, k) for source in (0, 38, 253) for destination in (0, 255) for k in (1, 7, 15)])[:17]
    messages = [EXAMPLE._replace(source=s, destination=d, k=k, n=1) for s, d, k in keys]
    for message in messages:
        run.learn(message)
        run.keys()
    run.learn(messages[3], messages[16]._replace(spn=1519), messages[5]._replace(spn=1519), messages[16])
    run.judge(*keys)
    run.dump()
    run.forget(keys[16], keys[2])
    run.judge(*keys)
    run.learn(messages[16], messages[2])
    run.keys()
    run.judge(*keys)
    run.dump()
    for gone, come in ((5, 2), (0, 5), (16, 0), (1, 16)):
        run.forget(keys[gone])
        run.learn(messages[come], messages[gone])
        run.judge(*keys)
        run.keys()
    run.forget(*keys)
    run.keys()
    run.dump()
    run.learn(*reversed(messages))
    run.keys()
    return run


OTHERS = [{"n": 3}, {"proprietary": 0}, {"transport": 1}, {"spn": 1519}, {"start": 1}, {"spn": 1519, "start": 1},
          {"n": 3, "position": 2}, {"proprietary": 0, "position": 2, "start": 9}, {"transport": 1, "position": 2, "spn": 1519},
          {"n": 31, "position": 31}, {"n": 3, "proprietary": 0, "transport": 1, "spn": 1519, "start": 1}]


def conflicts(dice):
    """Every way to contradict: with the first message, with a later one, at the same position or another; then a forget."""
    run = Run()
    key = EXAMPLE[:3]
    second = EXAMPLE._replace(position=2, spn=1519, start=8)
    beside = EXAMPLE._replace(k=2, n=1)
    run.learn(beside)
    for other in OTHERS:
        against = EXAMPLE._replace(**other)
        for order in ([EXAMPLE, against], [against, EXAMPLE], [EXAMPLE, second, against], [against, second, EXAMPLE], [second, against, EXAMPLE]):
            for message in order:
                run.learn(message)
                run.judge(key)
            run.learn(EXAMPLE, against, second)
            run.ask(dice, key)
            run.dump()
            run.keys()
            run.judge(beside[:3])
            run.forget(key, key)
            run.judge(key)
        run.learn(EXAMPLE, second)
        run.ask(dice, key)
        run.forget(key)
    return run


def same_messages(dice):
    """Repeats that differ in priority, or in first-only, or in neither: the same message."""
    run = Run()
    key = EXAMPLE[:3]
    second = EXAMPLE._replace(position=2, spn=1519, start=8)
    for priority in range(8):
        for first in (0, 1):
            run.learn(EXAMPLE, priority=priority, first=first)
            run.judge(key)
            run.learn(second, priority=priority)
    run.learn(second, first=1)
    run.dump()
    run.ask(dice, key)
    return run


def other_keys(dice):
    """The same fields, or contradicting ones, from another source, to another destination, or in another message."""
    run = Run()
    beside = [{"source": 39}, {"destination": 38}, {"source": 39, "destination": 38}, {"k": 2}, {"k": 15}, {"source": 0}, {"destination": 255},
              {"destination": 0}, {"destination": 254}]
    run.learn(EXAMPLE)
    for other in beside:
        run.learn(EXAMPLE._replace(**other))
        run.learn(EXAMPLE._replace(**other, position=2, spn=1519, start=8))
    run.judge(EXAMPLE[:3], *(EXAMPLE._replace(**other)[:3] for other in beside))
    for other in beside[::2]:
        run.learn(EXAMPLE._replace(**other, n=1))
    run.judge(EXAMPLE[:3], *(EXAMPLE._replace(**other)[:3] for other in beside))
    run.keys()
    for key in ((38, 39, 1), (38, 39, 0), (38, 38, 255), (0, 0, 0), (255, 255, 255), (39, 38, 1), (39, 38, 2), (37, 255, 15)):
        run.next(key)
    for other in beside[1::2]:
        run.forget(EXAMPLE._replace(**other)[:3])
    run.judge(EXAMPLE[:3], *(EXAMPLE._replace(**other)[:3] for other in beside))
    run.keys()
    return run


def orders(dice):
    """One set in many orders, with repeats, and with another key's messages between: usable, and with a contradiction somewhere."""
    run = Run()
    for n in (3, 6):
        key, other = (38, 39, 1), (39, 38, 1)
        messages = teachable(dice, key, n)
        for contradiction in (None, {"n": n + 1}, {"start": 200}):
            told = messages + ([dice.one_of(messages)._replace(**contradiction)] if contradiction else [])
            for _ in range(8):
                for message in mixed(dice, told + [dice.one_of(told) for _ in range(n)]):
                    run.learn(message)
                    run.learn(message._replace(source=39, destination=38, n=n + 2))
                run.judge(key, other)
                run.find(key, messages[-1].spn)
                run.pack(key, [0] * n, [7] * 40)
                run.forget(key, other)
    return run


def usable_maps(dice):
    """Maps of every size that come over the wire, in any order, with all questions."""
    run = Run()
    for n in [1] * 12 + [2] * 12 + [3, 5, 8, 8, 12, 12, 16, 16, 20, 24, 28, 31, 31]:
        key = some_key(dice)
        run.learn(*mixed(dice, teachable(dice, key, n)))
        run.ask(dice, key)
        run.keys()
        run.forget(key)
    return run


def spoiled(dice, number, messages):
    """The messages with what earns this judgement, unless another comes first or the map is too small for it."""
    told = list(messages)
    p = dice.within(1 if number in (4, 5, 6) and len(told) > 1 else 0, len(told) - 1)
    q = dice.below(p) if p else 0
    if number == 1:
        told.append(told[p]._replace(**dice.one_of(OTHERS[:6])))
    elif number == 2:
        told = told[:p] + told[p + 1:] or [told[0]._replace(n=2)]
    elif number == 3:
        told[p] = told[p]._replace(spn=dice.one_of([0, 521, 2848, 2**18 + 1517, 2**19 - 1]))
    elif number == 4:
        told[p] = told[p]._replace(spn=told[q].spn)
    elif number == 5 and p:
        told[p] = told[p]._replace(start=dice.one_of([told[p - 1].start, max(told[p - 1].start - 1, 0), told[q].start, 0]))
    elif number == 6 and p:
        told[p] = told[p]._replace(start=min(told[p - 1].start + dice.within(1, max(model.WIDTHS.get(told[p - 1].spn, 0) - 1, 1)), 249))
    elif number == 8:
        told = [message._replace(transport=1 - message.transport) for message in told]
    elif number == 9:
        odd = next((i for i, message in enumerate(told) if message.spn in ODD), p)
        spn = told[odd].spn if told[odd].spn in ODD else dice.one_of(ODD)
        told[odd] = told[odd]._replace(spn=spn, start=min(told[odd].start // 8 * 8 + dice.within(1, 7), 249))
    return told


def judgements(dice):
    """Maps spoiled for each judgement that can arrive, then for several at once."""
    run = Run()
    alone = [[number] for number in ARRIVING for _ in range(30)]
    for numbers in alone + [dice.some(dice.within(2, 4), ARRIVING[1:]) for _ in range(100)]:
        key = some_key(dice)
        messages = teachable(dice, key, dice.one_of([1, 2, dice.within(2, 8), dice.within(2, 14)]))
        for number in numbers:
            messages = spoiled(dice, number, messages)
        run.learn(*mixed(dice, messages))
        run.ask(dice, key)
        run.forget(key)
    return run


def not_held(dice):
    """Keys that are not held, also such as no message can name."""
    run = Run()
    run.learn(EXAMPLE._replace(n=1))
    for key in ((38, 39, 2), (39, 39, 1), (38, 38, 1), (38, 39, 0), (38, 39, 16), (38, 39, 255), (254, 39, 1), (255, 39, 1), (0, 0, 0),
                (255, 255, 255)):
        run.ask(dice, key)
        run.forget(key)
        run.next(key)
    run.ask(dice, (38, 39, 1))
    run.dump()
    return run


def refused(dice):
    """Frames that are refused, each alone and in any company: the table holds what it held."""
    run = Run()
    run.learn(EXAMPLE, EXAMPLE._replace(position=2, spn=1519, start=8))
    for chosen in range(2 ** len(rooms.FAULTS)):
        said = {}
        for i, fault in enumerate(rooms.FAULTS):
            if chosen // 2**i % 2:
                said.update(fault)
        run.frame(*rooms.frame(**said))
    for name, edges in rooms.EDGES.items():
        for value in edges:
            said = dict(rooms.well_formed(dice), **{name: value})
            if run.frame(*rooms.frame(**said)) == 9:
                run.forget(dice.one_of(run.says("keys")))
        run.keys()
    run.dump()
    run.judge((38, 39, 1))
    return run


# ---- Calls one after another

def any_calls(dice):
    """Some thousand calls on 40 keys: maps come piece by piece, some spoiled, and are forgotten again."""
    run = Run()
    keys = []
    while len(keys) < 40:
        key = some_key(dice)
        keys += [key] if key not in keys else []
    messages = {key: teachable(dice, key, how_many(dice)) for key in keys}
    for key in keys[::4]:
        messages[key] = spoiled(dice, dice.one_of(ARRIVING), messages[key])
    for turn in range(1500):
        held = run.says("keys")
        key = dice.one_of(keys if dice.below(3) or not held else held)
        what = dice.below(100)
        if what < 34:
            run.learn(*(dice.one_of(messages[key]) for _ in range(dice.within(1, 3))), priority=dice.below(8))
        elif what < 44:
            run.learn(*mixed(dice, messages[key]))
        elif what < 47:
            run.frame(*rooms.frame(**dict(rooms.well_formed(dice), **dice.one_of(rooms.FAULTS))))
        elif what < 48:
            run.learn(dice.one_of(messages[key])._replace(**dice.one_of(OTHERS[:6])))
        elif what < 66:
            run.forget(key)
        elif what < 78:
            run.judge(key)
        elif what < 83:
            run.ask(dice, key)
        elif what < 88:
            run.find(key, dice.one_of(messages[key]).spn)
        elif what < 95:
            run.next(key)
        elif what < 99:
            run.keys()
        else:
            run.dump()
    return run


# ---- Words that no run makes

def row_for(dice, key, rows, state=1, more_of_form=0, old=0):
    """A row's words, for the (SPN, start) of its positions."""
    form = len(rows) + 256 * dice.below(2) + OLD * old + 2 * OLD * more_of_form
    if model.length_of([(start, model.WIDTHS.get(spn, 0)) for spn, start in rows]) > 8:
        form += 512
    source, destination, k = key
    return [state, source * 65536 + destination * 256 + k, form] + [1 + spn + start * 2**32 for spn, start in rows]


def write_row(run, i, row):
    for place, value in enumerate(row[:67]):
        run.write(67 * i + place, value)


def long_map(dice, n, last=None):
    """n parameters beside each other; up to this payload bit where one is named, and then without an odd width, which could not be moved by any number of bits."""
    spns = dice.some(n, [spn for spn in KNOWN if spn not in ODD]) if last else some_spns(dice, n)
    widths = [model.WIDTHS[spn] for spn in spns]
    gap = lambda: dice.one_of([0, 0, 1, dice.below(20)])
    starts = starts_for(dice, widths, gap(), gap)
    by = last - starts[-1] - widths[-1] if last else 0
    return [(spn, start + by) for spn, start in zip(spns, starts)]


def strange_rows(dice):
    """Rows of one kind each: long payloads, 64 positions, judgement 7, states and forms and cells beyond what a message says, a key in two rows,
    a key that no message names, a number that no key has."""
    run = Run()
    rows = [row_for(dice, (1, 2, 3), long_map(dice, 64)),
            row_for(dice, (1, 2, 4), long_map(dice, 64, 14280)),
            row_for(dice, (1, 2, 5), long_map(dice, 64, 14281)),
            row_for(dice, (1, 2, 6), [(1517, 14272)]),
            row_for(dice, (1, 2, 7), [(1517, 14273)]),
            row_for(dice, (1, 2, 8), [(1519, 0), (1517, 2**32 - 1)]),
            row_for(dice, (254, 2, 0), [(1519, 0), (2**32 - 1, 8)]),
            row_for(dice, (255, 255, 255), [(1519, 0), (1517, 8)], more_of_form=2**53 - 1),
            row_for(dice, (1, 2, 3), [(1517, 0)], state=2),
            row_for(dice, (1, 2, 9), [(1517, 0)], state=2**64 - 1),
            [1, 2**24, 1, 1 + 1517],
            [1, 2**64 - 1, 1, 1 + 1517],
            [1, 66060, 0],
            [1, 66061, 512],
            [1, 66062, 65] + [1 + 1517] * 64,
            [1, 66063, 255, 1 + 1517]]
    for i, row in enumerate(rows):
        write_row(run, i, row)
    keys = [(1, 2, k) for k in range(3, 16)] + [(254, 2, 0), (255, 255, 255), (0, 0, 0)]
    for key in keys:
        run.ask(dice, key)
        run.next(key)
    run.keys()
    run.learn(EXAMPLE, EXAMPLE._replace(source=1, destination=2, k=3, n=64 % 32 + 1))
    run.dump()
    for key in keys + [(1, 2, 3)]:
        run.forget(key)
        run.keys()
        run.judge((1, 2, 3))
    run.dump()
    run.learn(*(EXAMPLE._replace(k=k) for k in range(1, 16)))
    run.dump()
    return run


def any_cell(dice):
    spn = dice.one_of([1517, 1519, dice.one_of(ODD), dice.one_of(KNOWN), dice.one_of(KNOWN), dice.below(2**19), dice.below(2**32)])
    start = dice.one_of([dice.below(64), 8 * dice.below(32), dice.below(250), dice.below(14280), dice.within(14240, 14290), dice.below(2**32)])
    return dice.one_of([1 + spn + start * 2**32] * 5 + [0, 0, dice.below(2**32), 2**64 - 1])


def any_words(dice):
    """Tables with rows of every kind at random, and calls on their keys."""
    run = Run()
    keys = [some_key(dice) for _ in range(dice.within(4, 12))]
    for i in range(16):
        key = dice.one_of(keys)
        kind = dice.below(7)
        if kind < 3:
            row = row_for(dice, key, long_map(dice, dice.one_of([1, 2, 3, dice.within(1, 20)]), dice.one_of([None] * 5 + [14280, 14281])),
                          dice.one_of([1, 1, 1, 1, 0, 2, 3, 2**32, 2**64 - 1]), dice.one_of([0, 0, dice.below(2**32)]), dice.one_of([0, 0, 0, 1]))
        elif kind == 3:
            old = dice.below(2)
            m = (teachable_2004 if old else teachable)(dice, key, how_many(dice))
            row = [1, *row_for(dice, key, [])[1:2], m[0].n + 256 * m[0].proprietary + 512 * m[0].transport + OLD * old] + [cell_of(message) for message in m]
        elif kind == 4:
            n = dice.one_of([0, 1, 2, 5, 63, 64, 65, 200, 255])
            row = [1, *row_for(dice, key, [])[1:2], n + 256 * dice.below(8)] + [any_cell(dice) for _ in range(dice.one_of([n, n, dice.below(65)]))]
        elif kind == 5:   # an odd width at the last bits
            row = row_for(dice, key, [(1517, 3), (dice.one_of(ODD), dice.one_of([14248, 14255, 14256, 14257, 14263, 14264, 14272]))][dice.below(2):], old=dice.below(2))
        else:
            row = [dice.one_of([0, 1, 1, dice.below(2**32)]), dice.one_of([dice.below(2**24), 2**24 + dice.below(9), dice.below(2**32) * 2**32]),
                   dice.one_of([dice.below(2**11), dice.below(2**32) * 2**32 + dice.below(2**11)])] + [any_cell(dice) for _ in range(4)]
        write_row(run, i, row)
    run.keys()
    for _ in range(30):
        key = dice.one_of(keys)
        what = dice.below(14)
        if what >= 12:
            run.set_edition(key, dice.one_of([model.OLDER, model.OLDER, model.NEWER, dice.below(2**32)]))
            run.dump()
        elif what < 5:
            run.learn(*learnable(dice, run, key))
        elif what < 6:
            run.forget(key)
        elif what < 8:
            run.judge(key)
        elif what < 10:
            run.ask(dice, key)
        elif what < 11:
            run.next(key)
        else:
            run.keys()
    for key in keys:
        run.judge(key)
    run.dump()
    return run


def learnable(dice, run, key):
    """Messages for a key: any, or such as its row already says."""
    rows = [run.models[-1].rows()[i] for i in run.models[-1].rows_of(key)]
    messages = teachable(dice, key, how_many(dice))[:3]
    form = rows[0][2] if rows else 0
    if 1 <= form % 256 <= 31 and dice.below(4):
        n, proprietary, transport = form % 256, form // 256 % 2, form // 512 % 2
        messages = [m._replace(n=n, proprietary=proprietary, transport=transport, position=min(m.position, n)) for m in messages]
        cell = rows[0][2 + messages[0].position]
        spn, start = (cell - 1) % 2**32, (cell - 1) // 2**32
        if cell and spn < 2**19 and start <= 249 and dice.below(2):
            messages[0] = messages[0]._replace(spn=spn, start=start)
    return messages
