"""Checks of ./hire. tests/all runs them.

What the program under it prints is compared with the model (tests/hired), on the samples and on logs at random. The sheets in samples/*.sheet were written by hand from the
samples' texts, 02 and docs/UNITS.md; a page is taken apart and compared with the model and with 002's steps and offsets."""
import decimal
import os
import pty
import random
import re
import signal
import subprocess

import hands
import hires
import model
import shown
from hands import ROOT, differ, row, run
from shown import SAMPLES, UNITS, message, record, refuses, words

CUT = "hire: the log ends in the middle of a record, 7 bytes of 13, and what came before is shown: take it from the box again"


# ---- logs at random

def any_payload(dice, key):
    """Of a key, mostly: numbers at the lines that part the states are frequent."""
    source, destination, k = key
    data = [dice.choice((0, 1, 250, 251, 253, 254, 255, dice.randrange(256))) for _ in range(8)]
    return record(dice.randrange(8) << 26 | (176 + k) << 16 | destination << 8 | source, 8 if dice.random() < 0.95 else dice.randrange(256), data)


def any_map(dice, key):
    """The messages of a map that is mostly usable and of 8 bytes."""
    spns, told, at = dice.sample(sorted(model.WIDTHS), dice.randint(1, 7)), [], 0
    for spn in spns:
        at += -at % 8 if model.odd(model.WIDTHS[spn]) else 0
        told.append((spn, at))
        at = model.end_of(at, model.WIDTHS[spn]) + dice.choice((0, 0, 0, 1))
    told = [place for place in told if place[1] < 250]
    return [message(*key, len(told), position, spn, start, at > 64) for position, (spn, start) in enumerate(told, 1)]


def any_log(dice, keys, records):
    named = list({(dice.choice((12, 38, 253)), dice.choice((39, 255)), dice.randint(1, 15)) for _ in range(keys)})
    taught = {key: any_map(dice, key) for key in named}
    log = b"".join(one for told in taught.values() for one in dice.sample(told, len(told)))
    for _ in range(records):
        key = dice.choice(named)
        what = dice.random()
        log += any_payload(dice, key) if what < 0.8 else dice.choice(taught[key]) if what < 0.98 else message(*key, 9, 1, 1517, dice.randrange(40))
    return log + bytes(dice.randrange(256) for _ in range(dice.choice((0, 0, 5, 12))))


def at_random(seed):
    """What the program prints of logs at random, two of them longer than what is read at once; and no line of a sheet is too wide."""
    dice = random.Random(seed)
    logs = [any_log(dice, dice.randint(1, 18), dice.randint(0, 200)) for _ in range(12)] + [any_log(dice, 3, 11000), bytes(65521)]
    wrong = ""
    for i, log in enumerate(logs):
        wrong += differ(run("./hire", log), (0, hires.report(log).encode(), ""), f"./hire, log {i}")
        code, out, err = run("./hire --sheet", log)
        wrong += differ((code, len(err.splitlines())), (1 if len(log) % 13 else 0, 1 if len(log) % 13 else 0), f"status and lines of standard error of ./hire --sheet, log {i}")
        wrong += "".join(f"./hire --sheet, log {i}: too wide: {line}\n" for line in out.decode().splitlines() if len(line) > 80)
    return wrong


# ---- a long hire

PIECE = 10000   # records


def piece(dice):
    """Records of which nine of ten are of other PGNs, and the others payloads of samples/hire.log."""
    sample = (SAMPLES / "hire.log").read_bytes()
    payloads = [one for one in (sample[at:at + 13] for at in range(0, len(sample), 13)) if one[2:5] in (b"\xb1\x18\x08", b"\xb2\x18\x08", b"\xb3\x18\x08")]
    others = [record(dice.choice((0x0CF00400, 0x18FEE300, 0x18AF2726, 0x18C02726)) + dice.randrange(256), 8, [dice.randrange(256) for _ in range(8)]) for _ in range(100)]
    return sample, b"".join(dice.choice(payloads if dice.randrange(10) == 0 else others) for _ in range(PIECE))


def grown(one, two, count):
    """The report after so many pieces, from those after one and after two: each further one adds the same to every count and sum, and changes no least and no greatest."""
    for was, now in zip(one, two):
        was, now = was.split(), now.split()
        yield " ".join(a if a == b else str(int(a) + (count - 1) * (int(b) - int(a))) for a, b in zip(was, now))


def long_hire(records):
    """What was wrong with the report on a log of so many records and few more, or '', and a line about it."""
    sample, some = piece(random.Random(10000000))
    count = max(1, records // PIECE)
    one, two = (hires.report(sample + some * n).splitlines() for n in (1, 2))
    wrong, said = hands.in_pieces("./hire", sample + some, some, count, "".join(line + "\n" for line in grown(one, two, count)))
    return wrong, f"{count * PIECE + len(sample) // 13} records: {said}"


# ---- the page

class Page(shown.Page):
    """A page of ./hire has drawings in it."""
    TAGS = shown.Page.TAGS | {"svg", "path", "rect"}
    ATTRIBUTES = shown.Page.ATTRIBUTES + ("viewbox", "preserveaspectratio", "d", "x", "y", "width", "height")


def digits_behind(words):
    """How many decimals 002 writes of a step or an offset."""
    number = re.match(r"-?[0-9,]+(?:\.([0-9]+))?", words)
    return len(number[1] or "") if number else 0


def rounded(value, places):
    return f"{value.quantize(decimal.Decimal(1).scaleb(-places), decimal.ROUND_HALF_UP):f}"


def values(spn, line):
    """Least, greatest and mean as they are shown, from 002's step and offset."""
    if not line.valid:
        return ["-", "-", "-"]
    step, offset = UNITS[str(spn)][4:6]
    places = max(digits_behind(step), digits_behind(offset))
    resolution, start = (decimal.Decimal(number) / 1000 for number in UNITS[str(spn)][7:9])
    mean = decimal.Decimal(line.sum) / line.valid * resolution + start
    return [rounded(line.least * resolution + start, places), rounded(line.greatest * resolution + start, places), rounded(mean, max(places, 2))]


def cells_of(hire, key, position, name):
    """What stands in the row of a position."""
    line = hire.line(key, position)
    return [str(position), str(line.spn), name or UNITS[str(line.spn)][1], *values(line.spn, line), UNITS[str(line.spn)][3], *map(str, line[3:7])]


def wanted(hire, names):
    """The parts of a page: the pressure of each key that has it, and each key."""
    who = lambda address: f"{address} ({names[address]})" if address in names else str(address)
    heading = lambda key: f"{who(key[0])} to {who(key[1])}, message {key[2]}"
    keys = [key for key in hire.box.keys() if hire.once(key)]
    pressures = [cell for key in keys for position, place in enumerate(hire.once(key), 1) if place[0] == 1517 for cell in cells_of(hire, key, position, heading(key))]
    parts = [["Header Lift Cylinder Pressure, SPN 1517", *pressures]] if pressures else []
    for key in keys:
        n, read = len(hire.once(key)), hire.line(key, 1).read
        said = f"{read} payload{'' if read == 1 else 's'} read, {n} parameter{'' if n == 1 else 's'}"
        parts.append([heading(key), said, *(cell for position in range(1, n + 1) for cell in cells_of(hire, key, position, ""))])
    return parts


def page(name, log, options="", names={}):
    """A page has what the model knows of each parameter, no script, and nothing from outside, and says how it prints."""
    decimal.getcontext().prec = 60
    code, out, err = run("./hire --page " + options, log)
    hire = hires.Hire()
    hire.feed(log)
    found = Page(out.decode())
    wrong = found.wrong + differ((code, err), (0, ""), f"status and standard error of {name}")
    return wrong + shown.style(found, name, "tr, .end { break-inside: avoid;") + differ(found.keys, wanted(hire, names), f"the page of {name}")


def pages():
    dice, sample = random.Random(6), (SAMPLES / "hire.log").read_bytes()
    wrong = page("samples/hire.log", sample) + page("an empty log", b"")
    names = {12: "<b>4</b> & 'more'", 38: "\"></h2><script>alert(7)</script>", 39: "&lt;combine&gt;"}
    wrong += shown.with_names(names, lambda option: page("samples/hire.log with names", sample, option, names))
    for i in range(8):
        log = any_log(dice, 6, 80)
        wrong += page(f"log {i}", log[:len(log) - len(log) % 13])
    return wrong


# ---- reports that no small log has

def line(*numbers):
    return " ".join(map(str, numbers)) + "\n"


def sheet(lines, wanted):
    """The formatter alone."""
    return row("tools/hire.py hire --given=here", hires.HEAD + "\n" + lines, 0, wanted.encode(), "")


def wide(name, lines):
    """No line of a sheet has more than 80 columns."""
    def check():
        code, out, err = run("tools/hire.py hire", hires.HEAD + "\n" + lines + "RECORDS 1 REFUSED 0 OTHER 0 LEFT 0\n")
        return differ((code, err), (0, ""), "status and standard error") + "".join(f"too wide: {each}\n" for each in out.decode().splitlines() if len(each) > 80)
    return f"no line of more than 80 columns: {name}", check


def largest(spn):
    """The line of an SPN whose numbers are as large as they can be."""
    width, many = model.WIDTHS[spn], 2**31
    most = max(number for number in (1, 250, 64255, 2**width - 1) if number < 2**width and hires.units.state(width, number) == 0)
    return [spn, many, many, many, many, many, most, most, most * many]


LEGEND = """Least, greatest and mean are of the valid numbers. A mean is rounded to its last
decimal, a half away from 0.
A bar is all that a valid number can be, from the lowest on; '=' is from least
to greatest, 'o' the mean. MISSING is 'not available'.
"""
NO_PRESSURE = "There are no numbers of Header Lift Cylinder Pressure, SPN 1517.\n"
END = "\n1 record: 0 refused, 0 of other PGNs, payloads among them.\n"
LAST = "RECORDS 1 REFUSED 0 OTHER 0 LEFT 0\n"
ABOVE = "  answer 25: more than 2147483648 payloads were read, so there are no numbers\n"
MANY = 2**31


def on_a_terminal(command, given):
    """Where standard error is a terminal, its last line counts the records; standard output is what it is otherwise."""
    def check():
        ours, theirs = pty.openpty()
        child = subprocess.Popen(["sh", "-c", command], stdin=subprocess.PIPE, stdout=subprocess.PIPE, stderr=theirs, cwd=ROOT)
        os.close(theirs)
        out, _ = child.communicate(given, timeout=hands.WAIT)
        said = b""
        try:
            while part := os.read(ours, 4096):
                said += part
        except OSError:      # the terminal is closed
            pass
        os.close(ours)
        wrong = differ((child.returncode, out), (0, hires.report(given).encode()), "status and standard output")
        counts = re.findall(rb"hire: ([0-9]+) records", said)
        return wrong + ("" if counts and said.endswith(b"\n") and [int(n) for n in counts] == sorted(int(n) for n in counts) <= [len(given) // 13] * len(counts) else "standard error: %r\n" % said)
    return f"{command} counts its records on a terminal", check


def shown_in_readme():
    """README.md has the report of samples/hire-cut.log, and what stands first on its sheet."""
    readme, part = (ROOT / "README.md").read_text(), (SAMPLES / "hire-cut.sheet").read_text().split("\n\n")[1]
    return "".join("README.md has not:\n" + text for text in ("".join("    " + line + "\n" for line in lines.splitlines()) for lines in ((SAMPLES / "hire-cut.report").read_text(), part)) if text not in readme)


CHECKS = [
    # the first of these builds the program, where that has not been done: that prints lines of its own
    *[(f"./hire prints of samples/{name}.log what the model does", f"./hire samples/{name}.log >target/hired && tests/hired samples/{name}.log | diff - target/hired") for name in shown.LOGS],
    *[(f"samples/{name}.report is what the model reports", f"tests/hired samples/{name}.log | diff samples/{name}.report -") for name in ("hire", "hire-cut")],
    ("crates/hired is run on samples/hire.log, and writes what the model does", "cmp crates/hired/stdin samples/hire.log && cmp crates/hired/stdout samples/hire.report"),
    ("samples/*.sheet has no line of more than 80 columns", "! grep -hE '.{81}' samples/*.sheet"),
    words("./hire samples/hire.log", "hire.report"),
    words("./hire - < samples/hire-cut.log", "hire-cut.report"),
    words("./hire --sheet samples/hire.log", "hire.sheet"),
    words("./hire samples/hire.log --sheet", "hire.sheet"),
    words("./hire --sheet --addresses samples/addresses.txt samples/hire.log", "hire-named.sheet"),
    words("./hire --sheet samples/hire-cut.log", "hire-cut.sheet", CUT, 1),
    words("./hire --page samples/hire.log", "hire.html"),
    ("README.md shows what ./hire prints of samples/hire-cut.log", shown_in_readme),
    ("./hire on logs at random", lambda: at_random(6)),
    ("./hire takes no more memory for 1,000,000 records than for 10,000", lambda: long_hire(1000000)[0]),
    ("./hire --page has what the model knows, no script, and nothing from outside", pages),

    # a key above the limit, and no pressure: no small log has these
    sheet(line(38, 39, 1, 25) + LAST, "Hire of here: 1 key\nOf 1 key there are no numbers, answer 25: 38 to 39, message 1.\n" + NO_PRESSURE + LEGEND
        + "\n38 to 39, message 1\n" + ABOVE + END),
    sheet(LAST, "Hire of here: 0 keys\n" + NO_PRESSURE + LEGEND + END),
    sheet(line(38, 39, 1, 1, 1517, MANY, MANY, 0, 0, 0, 249, 250, 249 * MANY + 1) + line(41, 39, 1, 25) + line(41, 39, 2, 25) + LAST,
        "Hire of here: 3 keys\nOf 2 keys there are no numbers, answer 25: 41 to 39, message 1; 41 to 39,\nmessage 2.\n" + LEGEND + """
Header Lift Cylinder Pressure, SPN 1517
POS   SPN  KEY                        LEAST  GREATEST      MEAN     UNIT
           RANGE                      VALID  RESERVED     ERROR  MISSING
  1  1517  38 to 39, message 1        12450     12500  12450.00      kPa
           ...................o  2147483648         0         0        0

38 to 39, message 1
  2147483648 payloads read, 1 parameter
POS   SPN  NAME                       LEAST  GREATEST      MEAN     UNIT
           RANGE                      VALID  RESERVED     ERROR  MISSING
  1  1517  Header Lift Cylinder       12450     12500  12450.00      kPa
           Pressure
           ...................o  2147483648         0         0        0

41 to 39, message 1
""" + ABOVE + "\n41 to 39, message 2\n" + ABOVE + END),
    # a half goes away from 0 on both sides: 0.1 * 2499 / 20 - 12.5 is -0.005, and with 2501 it is 0.005; what is rounded to 0 has no sign: 0.1 * 24999 / 200 - 12.5 is -0.0005
    *[sheet(line(38, 39, 1, 1, 1539, valid, valid, 0, 0, 0, 124, 126, total) + LAST, "Hire of here: 1 key\n" + NO_PRESSURE + LEGEND + f"""
38 to 39, message 1
  {valid} payloads read, 1 parameter
POS   SPN  NAME                       LEAST  GREATEST   MEAN     UNIT
           RANGE                      VALID  RESERVED  ERROR  MISSING
  1  1539  Header Lateral Tilt Angle   -0.1       0.1  {mean}      deg
           .........{bar}.........         {valid:3}         0      0        0
""" + END) for valid, total, mean, bar in ((20, 2499, "-0.01", "o="), (20, 2501, " 0.01", "=o"), (20, 2500, " 0.00", "=o"), (200, 24999, " 0.00", "o="))],
    *[wide(f"SPN {spn} at the end of all counts", line(38, 39, 1, 31, *largest(spn))) for spn in (1488, 1517, 1519, 1539, 3042, 3090, 3146, 3147, 3149, 3330)],
    wide("every SPN, at the end of all counts", "".join(line(38, 39, 1 + i // 31, 1 + i % 31, *largest(spn)) for i, spn in enumerate(sorted(model.WIDTHS)))),
    row("tools/hire.py hire", hires.HEAD + "\n38 39 1 1 1517 0 0 0 0 0 0 0 0\n", 1, b"", ""),
    row("tools/hire.py hire", hires.HEAD + "\n38 39 1 1 1517 0 0 0 0 0 0 0\n", 1, b"", "hire: the program printed what is no fact"),
    row("tools/hire.py hire", hires.HEAD + "\n38 39 1 24\n", 1, b"", "hire: the program printed what is no fact"),
    row("tools/hire.py hire", "38 39 1 25\n", 1, b"", "hire: the program printed what is no fact"),

    # wrong words and wrong files
    *[refuses(f"./hire {given}", said) for given, said in (
        ("''", "the name of the log is empty: name a log of 13-byte records"),
        ("no-such-file", "there is no file no-such-file: name a log of 13-byte records"),
        ("samples", "samples is a folder: name a log file in it"),
        ("a b", "too many words: "),
        ("--facts samples/hire.log", "there is no option --facts: ./hire --help says what there is"),
        ("--image samples/shelf.image", "there is no option --image: ./hire --help says what there is"),
        ("--page=x samples/hire.log", "there is no option --page=x: ./hire --help says what there is"),
        ("--sheet --page samples/hire.log", "--sheet is text and --page is HTML: leave out one of the two"),
        ("--addresses samples/addresses.txt samples/hire.log", "names stand on a sheet or a page: add --sheet or --page, or leave out --addresses"),
        ("--sheet --addresses no-such-file samples/hire.log", "no-such-file: No such file or directory: name a file of addresses, or leave out --addresses"),
        ("<&-", "standard input is closed: name a file, as in ./hire samples/hire.log"),
        ("samples/hire.log > /dev/full", "the report could not be written: No space left on device"),
        ("--sheet samples/hire.log >&-", "the words could not be written: standard output is closed: send them somewhere, as in ./hire LOG > FILE"),
        ("--page samples/hire.log > /dev/full", "the words could not be written: No space left on device: write them elsewhere"),
    )],
    row("./hire < samples", "", 1, hires.report(b"").encode(), "hire: reading stopped, and only what came before is reported: Is a directory"),
    row("./hire --sheet < samples", "", 1, ("Hire of standard input: 0 keys\nReading stopped before the end of the log.\n" + NO_PRESSURE + LEGEND
        + "\n0 records: 0 refused, 0 of other PGNs, payloads among them.\n").encode(), "hire: reading stopped, and only what came before is reported: Is a directory"),
    hands.help_of("./hire --help"),
    hands.closed_pipe("./hire samples/hire.log", (1, "hire: the report could not be written: its reader is gone\n")),
    hands.closed_pipe("./hire --sheet samples/hire.log", (1, "hire: the words could not be written: their reader is gone\n")),
    ("./hire from non-blocking standard input", lambda: hands.not_blocking("./hire", hands.TWO, hires.report(hands.TWO).encode())),
    ("./hire, and SIGTERM to the script", lambda: hands.stopped(signal.SIGTERM, "script", "./hire")),
    ("./hire --sheet, and SIGKILL to the program", lambda: hands.stopped(signal.SIGKILL, "program", "./hire --sheet")),
    on_a_terminal("./hire", (SAMPLES / "hire.log").read_bytes() + record(0x0CF00400, 8, range(8)) * 90000),
    ("./hire --sheet on a fresh copy, a stand-in for rt proves it", lambda: hands.on_a_fresh_copy(hands.PROVES.replace("list", "hired"), "", 0,
        ("Hire of standard input: 0 keys\n" + NO_PRESSURE + LEGEND + END).encode(),
        "hire: proving and building the program first, 2 crates; that takes some minutes\nhire: answers is proved, 1 left\nhire: hired is proved, 0 left\n",
        "hire", f"'{hires.HEAD}'; echo '{LAST.strip()}'", "--sheet")),
]
