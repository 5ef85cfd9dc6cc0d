"""The cases of the listing: logs of any length, in chunks cut anywhere. Tag 15 of the program `runs`."""
import keys
import rooms
from dice import word
from keys import EXAMPLE, OTHERS, Run, frame_of

A = [EXAMPLE, EXAMPLE._replace(position=2, spn=1519, start=8)]


def record(identifier, length, eight):
    return word(identifier) + bytes([length]) + bytes(eight)


def told(messages):
    return b"".join(record(*frame_of(message)) for message in messages)


def cases(dice):
    for make in (short, rooms_for_16, conflicts, refusals, *[any_log] * 60, *[any_table] * 12):
        yield from make(dice).cases


# ---- Chunks

def cut(dice, log):
    """The log in chunks: whole, a byte at a time, records, nearly records, or any sizes, none among them."""
    kind = dice.below(7)
    sizes = ([4000], [1], [13], [12], [14], [0, 1, 2, 5, 12, 13, 14, 25, 26, 27, 40], [dice.within(1, 300)])[kind]
    chunks = []
    while log:
        size = dice.one_of(sizes)
        chunks.append(log[:size])
        log = log[size:]
    return chunks


def listed(dice, run, log):
    """Listed with room to spare."""
    return run.listing(cut(dice, log), filler(dice, 512))


def filler(dice, size):
    return bytes(dice.within(33, 126) for _ in range(size))


def alone(dice, log):
    """A fresh table, and this log."""
    run = Run()
    listed(dice, run, log)
    return run.cases


# ---- Logs

def short(dice):
    """An empty log, every length up to three records, and every room up to what a listing takes."""
    run = Run()
    run.listing([], filler(dice, 512))
    run.listing([b""], filler(dice, 512))
    log = told(A + A[:1])
    for size in range(len(log) + 1):
        run.cases += alone(dice, log[:size])
    for other in (rooms.frame(pf=177), rooms.frame(length=7), rooms.frame(above=1), rooms.frame(source=254)):
        run.cases += alone(dice, record(*other))
        run.cases += alone(dice, record(*other)[:12])
    run.cases += Run().cases
    text = run.listing([log], filler(dice, 512))
    run.keys()
    for room in (0, 1, len(text) - 1, len(text), len(text) + 1, 511, 512, 513, 4000):
        run.listing([], filler(dice, room))
    # what was learned before stays, and what was left over does not
    run.listing([log[:5]], filler(dice, 512))
    run.listing([log[5:13]], filler(dice, 512))
    run.forget((38, 39, 1))
    run.listing([], filler(dice, 512))
    return run


def rooms_for_16(dice):
    run = Run()
    for count in (15, 16, 17, 20):
        messages = [EXAMPLE._replace(source=253 - i, destination=i * 7 % 256, k=1 + i % 15, n=1) for i in range(count)]
        for order in (messages, messages[::-1], keys.mixed(dice, messages + messages[:5])):
            run.cases += alone(dice, told(order))
    return run


def conflicts(dice):
    run = Run()
    for other in OTHERS:
        for order in ([*A, A[0]._replace(**other)], [A[1]._replace(**other), *A], [*A, A[0]._replace(**other), *A]):
            run.cases += alone(dice, told(order) + b"\0" * dice.below(13))
    return run


def refusals(dice):
    """Every set of refusals, each after case A; and all of them in one log."""
    run = Run()
    log = b""
    for chosen in range(2 ** len(rooms.FAULTS)):
        said = {}
        for i, fault in enumerate(rooms.FAULTS):
            if chosen // 2**i % 2:
                said.update(fault)
        log += record(*rooms.frame(**said))
        if chosen % 8 < 2:
            run.cases += alone(dice, told(A) + record(*rooms.frame(**said)))
    for _ in range(4):
        run.cases += alone(dice, log)
    return run


def any_record(dice, maps):
    what = dice.below(10)
    if what < 6:
        return told([dice.one_of(dice.one_of(maps))])
    if what < 8:
        return record(*rooms.frame(**dict(rooms.well_formed(dice), **dice.one_of(rooms.FAULTS))))
    if what < 9:
        return record(*rooms.frame(**rooms.well_formed(dice)))
    return bytes(dice.bytes(13))


def some_log(dice):
    maps = [keys.teachable(dice, keys.some_key(dice), keys.how_many(dice)) for _ in range(dice.within(1, 20))]
    maps = [keys.spoiled(dice, dice.one_of(keys.ARRIVING), told) if dice.below(3) == 0 else told for told in maps]
    log = b"".join(told(keys.mixed(dice, told_map)) for told_map in maps if dice.below(2))
    log += b"".join(any_record(dice, maps) for _ in range(dice.below(60)))
    return log + bytes(dice.bytes(dice.one_of([0, 0, dice.below(13)])))


def any_log(dice):
    """A log, then another on top of it."""
    run = Run()
    listed(dice, run, some_log(dice))
    listed(dice, run, some_log(dice))
    run.keys()
    run.dump()
    return run


def any_table(dice):
    """A log over words that no run makes."""
    run = keys.any_words(dice)
    listed(dice, run, b"")
    listed(dice, run, some_log(dice))
    run.dump()
    return run
