"""Checks of a day that is replayed: tools/mktrace and ./replay on right and wrong input, on the samples, on days at random and on a long one. tests/all runs them.

What mktrace must write was worked out by hand from docs/TRACE.md; what ./replay must write is the model's (tests/bridges.py)."""
import signal

import bridges
import hands
import pairs
from bridges import PAIRS, PORTS, RECORD
from dice import Dice
from hands import ROOT, differ, row

DAY = (ROOT / "samples" / "day.trace").read_bytes()
TOLD = (ROOT / "samples" / "day.out").read_text()
NOTHING = ("FROM TO ARRIVED FILTERED QUEUED SENT TURNED REFUSED WAITING\n"
    + "".join(pair + " 0 0 0 0 0 0 0\n" for pair in ("1 2", "1 3", "1 4", "2 1", "2 3", "2 4", "3 1", "3 2", "3 4", "4 1", "4 2", "4 3"))
    + "EVENTS 0 FRAMES 0 SLOTS 0 COMMANDS 0 REFUSED 0 OTHER 0 LEFT 0\n")


def makes(lines, *records):
    """mktrace makes these records of the lines; each is filled up with 0."""
    return row("tools/mktrace", lines, 0, b"".join(bytes.fromhex(record).ljust(RECORD, b"\0") for record in records), "")


def refuses(lines, said):
    return row("tools/mktrace", lines, 1, b"", "mktrace: " + said)


def replays(command, told, said="", status=0, given=DAY):
    name, check = row(command, given, status, told.encode(), said and "replay: " + said)
    return command, check


TABLE = [
    makes("frame 1 18FEE300 8 1 02 ff\n\n# nothing", "01 00E3FE18 08 0102FF0000000000"),
    makes("frame 4 FFFFFFFF 255 1 2 3 4 5 6 7 8   # no identifier", "04 FFFFFFFF FF 0102030405060708"),
    makes("frame 0 0 0\nframe 64 1 0x10", "00", "40 01000000 10"),
    makes("slot 2\nslot 0\nslot 127", "82", "80", "FF"),
    makes("add 1 2 65251\ndelete 4 3 0x3FFFF\nadd 255 0 16777215", "41 01 02 E3FE00", "42 04 03 FFFF03", "41 FF 00 FFFFFF"),
    makes("renew 1 2 1\nrenew 15 0 255", "43 01 02 01", "43 0F 00 FF"),
    makes("slot 3 * 2\nrenew 1 2 0 * 1", "83", "83", "43 01 02 00"),
    row("tools/mktrace", "slot 1\nbytes 01 e3 * 2", 0, b"\x81" + bytes(13) + b"\x01\xe3\x01\xe3", ""),
    row("tools/mktrace", b"\xef\xbb\xbfbytes 0A\r\n", 0, b"\x0a", ""),
    refuses("frame 65 18FEE300 8", "line 1: port 65 is not in 0 to 64"),
    refuses("\nframe -1 18FEE300 8", "line 2: port -1 is not in 0 to 64"),
    refuses("frame 1 18FEE300", "line 1: a frame has a port, an identifier and a length"),
    refuses("frame 1 18FEE3001 8", "line 1: identifier 18FEE3001 is not in hex, with 8 digits at most"),
    refuses("frame 1 18FEE300 256", "line 1: length 256 is not in 0 to 255"),
    refuses("frame 1 18FEE300 8 1 2 3 4 5 6 7 8 9", "line 1: 9 data bytes: a frame has 8"),
    refuses("slot 128", "line 1: port 128 is not in 0 to 127"),
    refuses("slot one", "line 1: port one is no number"),
    refuses("slot", "line 1: a slot has a port, and nothing else"),
    refuses("slot 1 2", "line 1: a slot has a port, and nothing else"),
    refuses("add 1 2", "line 1: add has two ports and a PGN, and nothing else"),
    refuses("delete 1 2 65251 65252", "line 1: delete has two ports and a PGN, and nothing else"),
    refuses("add 1 256 65251", "line 1: port 256 is not in 0 to 255"),
    refuses("add 1 2 16777216", "line 1: PGN 16777216 is not in 0 to 16777215"),
    refuses("renew 1 2", "line 1: renew has two ports and a mode, and nothing else"),
    refuses("renew 1 2 256", "line 1: mode 256 is not in 0 to 255"),
    refuses("slot 1 *", "line 1: behind '*' stands one number, which ends the line"),
    refuses("slot 1 * 2 3", "line 1: behind '*' stands one number, which ends the line"),
    refuses("slot 1 * 0", "line 1: times 0 is not in 1 to 1000000"),
    refuses("bytes 01\nslot 1", "line 2: a record after 1 bytes of a cut one"),
    refuses("bytes 100", "line 1: byte 100 is not in hex, with 2 digits at most"),
    refuses("hello", "line 1: a line starts with frame, slot, add, delete, renew or bytes"),
    row("tools/mktrace no-such-file", "", 1, b"", "mktrace: no-such-file: No such file or directory"),

    replays("./replay", TOLD),
    replays("./replay -", TOLD),
    replays("./replay samples/day.trace", TOLD),
    replays("tools/mktrace samples/day.txt | ./replay", TOLD),
    replays("./replay < /dev/null", NOTHING),
    replays("head -c 13 samples/day.trace | ./replay", NOTHING.replace("LEFT 0", "LEFT 13")),
    replays("./replay <&-", "", "standard input is closed: name a file", 1),
    replays("./replay ''", "", "the name of the trace is empty: name a trace", 1),
    replays("./replay no-such-file", "", "there is no file no-such-file: name a trace", 1),
    replays("./replay samples", "", "samples is a folder: name a trace file in it", 1),
    replays("./replay a b", "", "too many words: ", 1),
    replays("./replay < samples", NOTHING, "reading stopped, and only what came before is replayed: Is a directory", 1),
    replays("./replay > /dev/full", "", "the replay could not be written: No space left on device", 1),
    replays("./replay >&-", "", "the replay could not be written: Bad file descriptor", 1),
    replays("TMPDIR=/no/such/folder ./replay", "", "no temporary file could be made: set TMPDIR to ", 1),
    replays("./replay samples/day.txt", bridges.replayed((ROOT / "samples" / "day.txt").read_bytes()), "this trace looks like text, and a trace is records of 14 bytes: tools/mktrace makes them "),
]


# ---- days at random

def any_record(dice, pgns):
    """A frame, a slot, what a fitter sets, or a first byte that is none of these; bytes that nobody looks at are any."""
    what, rest = dice.below(100), dice.bytes(13)
    port = dice.one_of(PORTS)
    if what < 50:
        identifier = bridges.any_identifier(dice, pgns)
        return bytes([port, *identifier.to_bytes(4, "little"), *rest[4:]])
    if what < 88:
        return bytes([128 + port, *rest])
    if what < 97:
        a, b = dice.one_of(PAIRS * 6 + [(0, 1), (1, 0), (2, 2), (5, 4), (15, 1), (3, 255)])
        kind = dice.one_of([65, 65, 65, 66, 66, 67])
        number = [dice.one_of([0, 0, 1, 2, 255])] if kind == 67 else list((dice.one_of(pgns) % 2**24).to_bytes(3, "little"))
        return bytes([kind, a, b, *number, *rest[2 + len(number):]])
    return bytes([dice.one_of([0, 5, 15, 64, 68, 127, 128, 133, 255, dice.below(256)]), *rest])


def any_day(dice, events):
    pgns = dice.some(8, pairs.pool(dice))
    return b"".join(any_record(dice, pgns) for _ in range(events))


def replay_any(seed):
    """A day at random, its last record cut: ./replay and the model say the same."""
    dice = Dice(seed)
    trace = any_day(dice, 3000) + bytes(dice.bytes(dice.below(RECORD)))
    return differ(hands.run("./replay", trace), (0, bridges.replayed(trace).encode(), ""), "status and what was written")


# ---- mktrace, and back

def line_of(record):
    """The line of a record, by docs/TRACE.md; what no line can say stands as bytes."""
    first, rest = record[0], record[1:]
    frame, slot, pgn = first < 65, first >= 128 and not any(rest), int.from_bytes(rest[2:5], "little")
    if frame:
        return "frame %d %08X %d %s" % (first, int.from_bytes(rest[:4], "little"), rest[4], rest[5:].hex(" "))
    if slot:
        return "slot %d" % (first - 128)
    if first in (65, 66) and not any(rest[5:]):
        return "%s %d %d %d" % ({65: "add", 66: "delete"}[first], rest[0], rest[1], pgn)
    if first == 67 and not any(rest[3:]):
        return "renew %d %d %d" % tuple(rest[:3])
    return "bytes " + record.hex(" ")


def there_and_back(seed):
    """The lines of a day at random make that day again; half the records have 0 in the bytes that nobody looks at."""
    dice = Dice(seed)
    trace = any_day(dice, 400)
    looked_at = {65: 6, 66: 6, 67: 4}
    records = [trace[at:at + RECORD] for at in range(0, len(trace), RECORD)]
    records = [record if dice.below(2) else record[:looked_at.get(record[0], 1 if record[0] >= 128 else RECORD)].ljust(RECORD, b"\0") for record in records]
    lines = "\n".join(line_of(record) for record in records)
    assert all(kind + " " in lines for kind in ("frame", "slot", "add", "delete", "renew", "bytes"))
    return differ(hands.run("tools/mktrace", lines), (0, b"".join(records), ""), "status and what was written")


# ---- a long day

PIECE = 10000   # events


def piece():
    """Events at whose end the bridge is as at its start: every pair renewed, nothing waiting. Their number, and the text that the model makes of them."""
    end = b"".join(bytes([67, a, b, 0]).ljust(RECORD, b"\0") for a, b in PAIRS) + b"".join(bytes([128 + port]).ljust(RECORD, b"\0") for port in PORTS for _ in range(bridges.MOST))
    trace = any_day(Dice(10000000), PIECE - len(end) // RECORD) + end
    assert len(trace) == PIECE * RECORD
    return trace, bridges.replayed(trace)


def times(text, count):
    """The same lines after so many pieces: every number but the ports is so many times as large."""
    lines = text.splitlines()
    rows = [line.split() for line in lines[1:-1]]
    assert all(row[8] == "0" for row in rows)
    last = lines[-1].split()
    return "\n".join([lines[0], *(" ".join(row[:2] + [str(count * int(n)) for n in row[2:]]) for row in rows),
        " ".join(str(count * int(word)) if word.isdigit() else word for word in last)]) + "\n"


def long_day(events):
    """What was wrong with a day of so many events, or '', and a line about it. No more memory is taken than after the first piece."""
    trace, told = piece()
    count = max(1, events // PIECE)
    wrong, said = hands.in_pieces("./replay", trace, trace, count, times(told, count))
    return wrong, f"{count * PIECE} events: {said}"


def shown_in_readme():
    lines = "".join("    " + line + "\n" for line in TOLD.splitlines())
    return "" if lines in (ROOT / "README.md").read_text() else "README.md has not:\n" + lines


CHECKS = TABLE + [
    ("README.md has what ./replay writes of samples/day.trace", shown_in_readme),
    hands.help_of("./replay --help"),
    hands.help_of("tools/mktrace --help"),
    hands.closed_pipe("./replay samples/day.trace", (1, "replay: the replay could not be written: its reader is gone\n")),
    hands.closed_pipe("tools/mktrace samples/day.txt", (-signal.SIGPIPE, "")),
    ("./replay from non-blocking standard input", lambda: hands.not_blocking("./replay", DAY[:70], bridges.replayed(DAY[:70]).encode())),
    ("./replay, and SIGTERM to the script", lambda: hands.stopped(signal.SIGTERM, "script", "./replay")),
    ("./replay, and SIGKILL to the program", lambda: hands.stopped(signal.SIGKILL, "program", "./replay")),
    ("./replay on a fresh copy, a stand-in for rt proves it", lambda: hands.on_a_fresh_copy(hands.PROVES.replace("list", "replay"), "", 0, b"listed\n",
        "replay: proving and building the program first, 2 crates; that takes some minutes\nreplay: answers is proved, 1 left\nreplay: replay is proved, 0 left\n", "replay")),
    *[(f"./replay and the model say the same of day {seed} at random", lambda seed=seed: replay_any(seed)) for seed in range(1, 7)],
    *[(f"tools/mktrace makes day {seed} at random from its lines", lambda seed=seed: there_and_back(seed)) for seed in (1, 2)],
    ("./replay takes no more memory for 1,000,000 events than for 10,000", lambda: long_day(1000000)[0]),
]
