"""The cases of Req 10, two editions of the dictionary: tags 16 and 17 of the program `runs` among its others, tag 4 of `locates` among its others, and tag 11 of `vectors`. tests/images.py
has those of images. Words in quotes are 02's."""
import keys
import lists
import locates
import logs
import model
from dice import TOP, case, line, word
from keys import ARRIVING, EXAMPLE, OF_2004, OTHERS, Run, how_many, mixed, some_key, spoiled, teachable, teachable_2004
from model import NEWER, OLDER, Answer

A = [EXAMPLE, EXAMPLE._replace(position=2, spn=1519, start=8)]
OLD_A = [EXAMPLE._replace(n=3, position=p, spn=spn, start=start) for p, spn, start in ((1, 3147, 0), (2, 3148, 16), (3, 3153, 24))]   # of SPNs that both editions have
KEY = EXAMPLE[:3]

# Numbers beside the two, and such as come to them when they are cut to fewer bits.
NO_EDITIONS = [0, 1, 2, 4, 10, 255, 2003, 2005, 2006, 2007, 2008, 2009, 2011, 2002, 2012, 4020, 2004 % 256, 2010 % 256, 2004 + 2**16, 2010 + 2**16, 2004 + 2**31, 2010 + 2**24, 2**31, TOP]


# ---- The dictionary of an edition (`vectors`)

def widths(dice):
    """Every SPN of either dictionary and those beside it, by both editions, and far ones."""
    beside = {spn + by for spn in (*model.WIDTHS, *OF_2004) for by in (-1, 0, 1)}
    far = {0, 1, 521, 2848, 2**16 + 3147, 2**18, 2**19 - 1, 2**19 + 3147, 2**31, 2**32 - 3147, TOP}
    for spn in sorted(beside | far) + [dice.below(4096) for _ in range(100)]:
        for edition, known in model.EDITIONS.items():
            yield case(11, word(spn) + word(edition)), [line(known.get(spn, 0))]


# ---- Keys (`runs`)

def cases(dice):
    for make in (examples, no_editions, forgotten, messages_keep_it, in_conflict, other_keys, judgements, unknown_to_2004, set_at_any_time, listed, strange_words):
        yield from make(dice).cases
    for _ in range(2):
        yield from any_calls(dice).cases


def examples(dice):
    """01's case A: 2004 has neither 1517 nor 1519. Then a map that both editions know: one answer by both, and nothing but a bit of its row changes."""
    run = Run()
    run.edition(KEY)
    run.set_edition(KEY, OLDER, NEWER, 2007)
    run.learn(*A)
    run.edition(KEY)
    run.ask(dice, KEY)
    run.dump()
    run.set_edition(KEY, OLDER)
    run.dump()
    assert run.says("judge", KEY) == Answer(0, 0, 3, 1)
    run.ask(dice, KEY)
    run.set_edition(KEY, OLDER)
    run.ask(dice, KEY)
    run.set_edition(KEY, NEWER)
    run.dump()
    run.ask(dice, KEY)
    assert run.pack(KEY, [40, 1], [0] * 8) == (0, [0x28, 0xFD] + [255] * 6)
    run.forget(KEY)
    run.learn(*OLD_A)
    for edition in (OLDER, NEWER, OLDER):
        run.ask(dice, KEY)
        assert run.pack(KEY, [65536, 21, 7], [0] * 8) == (0, [0x00, 0x00, 0x35, 0x07] + [255] * 4)
        run.read(KEY, [0xED, 0x05, 0x1F, 0xFE] + [0] * 4, [9] * 3, [9] * 4)
        run.set_edition(KEY, edition)
        run.dump()
    run.keys()
    return run


def no_editions(dice):
    """'Refusals: 11, then 27 for another edition': numbers that are none, of a key that is not held, held by either edition, in conflict."""
    run = Run()
    others = [(38, 39, 2), (39, 38, 1), (38, 38, 1), (0, 0, 0), (38, 39, 0), (38, 39, 16), (254, 39, 1), (255, 255, 255)]
    for told, edition in (([], NEWER), (OLD_A, NEWER), (OLD_A, OLDER), ([*OLD_A, OLD_A[0]._replace(start=8)], OLDER), (A, OLDER)):
        run.learn(*told)
        run.set_edition(KEY, edition)
        for number in NO_EDITIONS + [dice.below(2**32) for _ in range(4)]:
            run.set_edition(KEY, number)
            run.edition(KEY)
        run.dump()
        run.judge(KEY)
        for key in others:
            run.set_edition(key, OLDER, NEWER, *dice.some(2, NO_EDITIONS))
            run.edition(key)
        run.dump()
        run.forget(KEY)
    return run


def forgotten(dice):
    """A forget brings 2010 back: the key anew, in its row or in another, and another key in the row that it left."""
    run = Run()
    other = [message._replace(source=99) for message in OLD_A]
    for come in (OLD_A, A, other):
        run.learn(*OLD_A)
        run.set_edition(KEY, OLDER)
        run.edition(KEY)
        run.forget(KEY)
        run.dump()
        run.edition(KEY)
        run.set_edition(KEY, OLDER, 2007)
        run.learn(*come)
        run.edition(KEY, other[0][:3])
        run.judge(KEY, other[0][:3])
        run.dump()
        run.forget(KEY, other[0][:3])
    run.learn(*OLD_A, *other)
    run.set_edition(KEY, OLDER)
    run.set_edition(other[0][:3], OLDER)
    run.forget(KEY)
    run.learn(EXAMPLE._replace(k=7, n=1), *OLD_A)
    run.edition(KEY, other[0][:3], (38, 39, 7))
    run.judge(KEY, other[0][:3], (38, 39, 7))
    run.dump()
    return run


def messages_keep_it(dice):
    """Messages never change an edition: those that are still to come, repeats, and frames that are refused."""
    run = Run()
    for edition in (OLDER, NEWER):
        run.learn(OLD_A[1])
        run.set_edition(KEY, edition)
        for message in (OLD_A[0], OLD_A[2], *mixed(dice, OLD_A * 2)):
            run.learn(message, priority=dice.below(8))
            run.edition(KEY)
            run.judge(KEY)
        run.learn(OLD_A[0], first=1)
        for fault in keys.rooms.FAULTS:
            run.frame(*keys.rooms.frame(**fault))
            run.edition(KEY)
        run.ask(dice, KEY)
        run.dump()
        run.forget(KEY)
    return run


def in_conflict(dice):
    """A key in conflict has an edition too: it keeps the one that it had, and another can be set; no edition mends it."""
    run = Run()
    for before in (OLDER, NEWER):
        for other in OTHERS:
            run.learn(A[0], A[1])
            run.set_edition(KEY, before)
            run.learn(A[0]._replace(**other))
            run.edition(KEY)
            run.judge(KEY)
            for after in (OLDER, NEWER, 2007, before):
                run.set_edition(KEY, after)
                run.edition(KEY)
                run.judge(KEY)
            run.ask(dice, KEY)
            run.dump()
            run.forget(KEY)
    return run


def other_keys(dice):
    """Sixteen keys, one edition set after another: 'one held key's edition', and no other's."""
    run = Run()
    held = mixed(dice, [(source, destination, k) for source in (0, 38, 253) for destination in (0, 255) for k in (1, 7, 15)])[:16]
    for key in held:
        run.learn(*teachable_2004(dice, key, dice.within(1, 4)) if dice.below(2) else teachable(dice, key, dice.within(1, 4)))
    for _ in range(30):
        run.set_edition(dice.one_of(held), dice.one_of([OLDER, OLDER, NEWER, 2007]))
        run.edition(*held)
        run.judge(*held)
    run.keys()
    run.dump()
    for key in mixed(dice, held)[:6]:
        run.forget(key)
        run.edition(*held)
    run.learn(*(EXAMPLE._replace(source=s, destination=d, k=k, n=1, spn=3153) for s, d, k in held))
    run.edition(*held)
    run.judge(*held)
    run.dump()
    return run


def judgements(dice):
    """Maps of 2004's SPNs spoiled for each judgement that can arrive, and for several at once, asked by each edition: 'one set of laws proved over the dictionary'."""
    run = Run()
    for numbers in [[number] for number in ARRIVING for _ in range(8)] + [dice.some(dice.within(2, 3), ARRIVING[1:]) for _ in range(24)] + [[]] * 12:
        key = some_key(dice)
        told = teachable_2004(dice, key, dice.one_of([1, 2, 3, dice.within(2, 8), 12]))
        for number in numbers:
            told = spoiled(dice, number, told)
        run.learn(*mixed(dice, told))
        for edition in dice.some(2, [OLDER, NEWER]):
            run.set_edition(key, edition)
            run.ask(dice, key)
        run.forget(key)
    return run


def unknown_to_2004(dice):
    """Maps of 2004's SPNs with one that only 2010 has, at each position; maps of others alone: judgement 3 by 2004, at the lowest such position."""
    run = Run()
    newer = [spn for spn in sorted(model.WIDTHS) if spn not in OF_2004]
    for n in (1, 2, 3, 5, 8):
        for p in range(n):
            key = some_key(dice)
            told = list(keys.laid_out(dice, key, lambda: swapped(dice.some(n, OF_2004), p, dice.one_of(newer)), 249))
            run.learn(*mixed(dice, told))
            for edition in (OLDER, NEWER):
                run.set_edition(key, edition)
                assert run.says("judge", key) == (Answer(0, 0, 3, p + 1) if edition == OLDER else Answer(0))
                run.ask(dice, key)
            run.forget(key)
    for spn in newer[::9]:
        key = some_key(dice)
        run.learn(EXAMPLE._replace(source=key[0], destination=key[1], k=key[2], n=1, spn=spn))
        for edition in (OLDER, NEWER):
            run.set_edition(key, edition)
            run.judge(key)
            run.find(key, spn)
            run.parameter(key, 1)
        run.forget(key)
    return run


def swapped(spns, p, spn):
    return spns[:p] + [spn] + spns[p + 1:]


def set_at_any_time(dice):
    """One set of messages in many orders, the editions set before, between and behind them: 'the messages since the last forget and the edition last set since then'."""
    run = Run()
    for known in (teachable_2004, teachable):
        told = known(dice, KEY, 4)
        for last in (OLDER, NEWER):
            for _ in range(6):
                order = mixed(dice, told)
                run.learn(order[0])
                for message in order:
                    if dice.below(2):
                        run.set_edition(KEY, dice.one_of([OLDER, NEWER, 2007]))
                    run.learn(message)
                run.set_edition(KEY, last)
                run.judge(KEY)
                run.find(KEY, told[-1].spn)
                run.pack(KEY, [0] * 4, [7] * 40)
                run.edition(KEY)
                run.dump()
                run.forget(KEY)
    return run


def listed(dice):
    """The listing judges each key by its edition, and the log that it is fed changes none."""
    run = Run()
    third = [message._replace(k=3) for message in OLD_A]
    log = logs.told([*A, *third, EXAMPLE._replace(k=2)])
    logs.listed(dice, run, log)
    for key, edition in ((KEY, OLDER), ((38, 39, 3), OLDER), ((38, 39, 2), OLDER), (KEY, NEWER)):
        run.set_edition(key, edition)
        logs.listed(dice, run, b"")
        logs.listed(dice, run, log[::1])
        run.edition(KEY, (38, 39, 2), (38, 39, 3))
    run.forget((38, 39, 3))
    logs.listed(dice, run, log)
    return run


def strange_words(dice):
    """Rows that no run makes: a key in two rows, forms with other bits above the edition's, a free row, states that are none, a number that no key has."""
    run = Run()
    for place, value in ((0, 1), (1, 66051), (2, 2**64 - 1), (67, 2), (68, 66051), (69, 3), (134, 0), (135, 66052), (136, 1024), (201, 2**64 - 1), (202, 66053), (203, 1024 + 2**11),
                         (268, 1), (269, 66054), (270, 1024 * 5 + 1), (271, 1 + 3153), (335, 1), (336, 2**24 + 66051), (337, 1)):
        run.write(place, value)
    for key in ((1, 2, 3), (1, 2, 4), (1, 2, 5), (1, 2, 6)):
        run.ask(dice, key)
        for edition in (OLDER, 2007, NEWER, OLDER, NEWER):
            run.set_edition(key, edition)
            run.edition(key)
            run.dump()
            run.judge(key)
        run.forget(key)
        run.edition(key)
        run.set_edition(key, OLDER)
    run.dump()
    return run


def any_calls(dice):
    """Some hundred calls on 24 keys, half of them with maps of 2004's SPNs: editions are set among learning, forgetting and asking."""
    run = Run()
    named = []
    while len(named) < 24:
        key = some_key(dice)
        named += [key] if key not in named else []
    messages = {key: (teachable_2004 if i % 2 else teachable)(dice, key, how_many(dice)) for i, key in enumerate(named)}
    for key in named[::5]:
        messages[key] = spoiled(dice, dice.one_of(ARRIVING), messages[key])
    for turn in range(900):
        held = run.says("keys")
        key = dice.one_of(named if dice.below(3) or not held else held)
        what = dice.below(100)
        if what < 24:
            run.set_edition(key, dice.one_of([OLDER, OLDER, OLDER, NEWER, NEWER, dice.one_of(NO_EDITIONS)]))
        elif what < 40:
            run.learn(*(dice.one_of(messages[key]) for _ in range(dice.within(1, 3))), priority=dice.below(8))
        elif what < 50:
            run.learn(*mixed(dice, messages[key]))
        elif what < 51:
            run.learn(dice.one_of(messages[key])._replace(**dice.one_of(OTHERS[:6])))
        elif what < 61:
            run.forget(key)
        elif what < 73:
            run.judge(key)
        elif what < 80:
            run.edition(key)
        elif what < 88:
            run.ask(dice, key)
        elif what < 94:
            run.find(key, dice.one_of(messages[key]).spn)
        elif what < 98:
            run.keys()
        else:
            run.dump()
    run.edition(*named)
    return run


# ---- A Parameter Locate (`locates`)

def located(dice):
    """A key answers where its map is usable by its own edition; what it says is the same by both."""
    for make in (located_examples, *[located_any] * 6):
        yield from make(dice).cases


def located_examples(dice):
    run = locates.Run()
    run.learn(*A, *(message._replace(k=2) for message in OLD_A))
    for edition in (OLDER, NEWER, 2007, OLDER):
        for key in (KEY, (38, 39, 2), (38, 39, 3)):
            run.set_edition(key, edition)
        for spn in (1517, 1519, 3147, 3148, 3153, 3149):
            answer, written = run.locate(38, locates.request(spn, 38), locates.filler(dice, 30), dice.below(5))
            assert answer.detail == (1 if spn in (3147, 3148, 3153) or (spn in (1517, 1519) and run.box.edition(KEY) == NEWER) else 0)
        run.locate(38, locates.request(1517, 255), locates.filler(dice, 12))
        run.locate(38, locates.request(3147, 255), locates.filler(dice, 12))
    answer, written = run.locate(38, locates.request(3147, 255), locates.filler(dice, 20))
    run.hear(written)   # heard again, it changes no edition
    run.locate(38, locates.request(1517, 38), locates.filler(dice, 20))
    run.forget(KEY)
    run.learn(*A)   # anew, and so 2010
    run.locate(38, locates.request(1517, 38), locates.filler(dice, 20))
    run.learn(A[1]._replace(start=9))
    run.set_edition(KEY, NEWER)
    run.locate(38, locates.request(1517, 38), locates.filler(dice, 20))
    return run


def located_any(dice):
    """Keys of one address with maps of either edition, editions set and forgotten while they are asked for."""
    run = locates.Run()
    for _ in range(dice.within(4, 18)):
        key = (38, dice.below(256), dice.within(1, 15))
        run.learn(*mixed(dice, (teachable_2004 if dice.below(2) else teachable)(dice, key, how_many(dice))))
        run.set_edition(key, dice.one_of([OLDER, OLDER, NEWER, 2007]))
    for _ in range(24):
        spn = dice.one_of([dice.one_of(OF_2004), dice.one_of(OF_2004), dice.one_of(lists.KNOWN)])
        run.locate(38, locates.request(spn, dice.one_of([38, 255])), locates.filler(dice, dice.one_of([208, 208, dice.below(60)])), dice.below(9))
        if run.box.keys():
            run.set_edition(dice.one_of(run.box.keys()), dice.one_of([OLDER, NEWER]))
        if dice.below(8) == 0 and run.box.keys():
            run.forget(dice.one_of(run.box.keys()))
    return run
