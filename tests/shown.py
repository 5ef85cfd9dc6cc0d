"""Checks of ./shelf and ./why. tests/all runs them.

What the programs under them print is compared with the model (tests/facts), on the samples and on logs at random. The words that are set from it stand in samples/*.shelf and
samples/*.why, which were written by hand from the samples' texts, 01 and docs/UNITS.md; a page is taken apart and compared with the model."""
import html.parser
import pathlib
import random
import re
import signal
import tempfile

import hands
import images
import model
from hands import ROOT, differ, row, run

SAMPLES = ROOT / "samples"
LOGS = sorted(log.stem for log in SAMPLES.glob("*.log"))


# ---- what the programs print, by the model

def line(word, *numbers):
    return " ".join([word, *map(str, numbers)]) + "\n"


def facts_of_box(box, counts):
    lines = []
    for key in box.keys():
        held = box.map(key)
        lines.append(line("key", *key, *model.judge(held), box.count(key), 0 if held == model.CONFLICT else held[1], box.edition(key)))
        for position in range(1, box.count(key) + 1):
            found = box.parameter(key, position)
            if found.answer.number == 0:
                lines.append(line("at", position, found.spn, found.start, found.width))
    return "".join(lines) + line("end", *counts)


def facts_of_log(log):
    box = model.Box()
    return facts_of_box(box, model.listing(log, box).split()[-7::2])


def facts_of_image(image):
    box = model.Box()
    if images.load(box, image).number != 0:
        return ""
    return facts_of_box(box, (0, 0, 0, 0))


def facts_of_answers(log):
    box, lines, other, whole = model.Box(), [], 0, len(log) // 13
    for number in range(1, whole + 1):
        record = log[13 * (number - 1):13 * number]
        identifier = int.from_bytes(record[:4], "little")
        answer = box.learn(identifier, record[4], record[5:]).number
        other += answer == 2
        if answer not in (0, 2):
            lines.append(line("no", number, answer, model.fields(identifier)[-1], model.destination_of(identifier), model.three_byte_pgn(record[5:8])))
    return "".join(lines) + line("end", whole, other, len(log) - 13 * whole)


# ---- logs at random

def record(identifier, length, data):
    return identifier.to_bytes(4, "little") + bytes([length]) + bytes(data)


def message(source, destination, k, n, position, spn, start, transport=0):
    """The record of a Configuration Identification Message (docs/WIRE.md has the places)."""
    return record(6 << 26 | 176 << 16 | destination << 8 | source, 8,
        [*model.pgn_bytes(45056 + 256 * k), *model.spn_bytes(spn, position), 128 + 64 * transport + n, start + 1])


def any_log(dice, keys, messages):
    """A log whose keys come near every judgement; some frames are refused, and some are of other PGNs."""
    spns = dice.sample(sorted(model.WIDTHS), 6) + [100]
    named = [(dice.choice((12, 38, 41, 253)), dice.choice((39, 40, 255)), dice.randint(1, 15), dice.randint(1, 4)) for _ in range(keys)]
    log = b""
    for _ in range(messages):
        *key, n = dice.choice(named)
        position = dice.randint(1, n)
        one = message(*key, n, position, dice.choice(spns) if dice.random() < 0.1 else spns[position], 16 * position + dice.choice((0, 0, 0, 1, 9)), dice.random() < 0.02)
        if dice.random() < 0.1:
            spoilt = bytearray(one)
            spoilt[dice.randrange(13)] ^= 1 << dice.randrange(8)
            one = bytes(spoilt)
        log += one
    return log + bytes(dice.randrange(256) for _ in range(dice.choice((0, 0, 5, 12))))


def at_random(seed):
    """What the programs print of logs at random, one of them longer than what is read at once."""
    dice = random.Random(seed)
    logs = [any_log(dice, dice.randint(1, 20), dice.randint(0, 60)) for _ in range(12)] + [any_log(dice, 20, 10100), bytes(65520), bytes(65521)]
    wrong = ""
    for i, log in enumerate(logs):
        left = len(log) % 13
        for command, wanted in (("./shelf --facts", facts_of_log(log)), ("./why --facts", facts_of_answers(log))):
            wrong += differ(run(command, log), (0, wanted.encode(), ""), f"{command}, log {i}")
        for command in ("./shelf", "./why"):
            code, out, err = run(command, log)
            wrong += differ((code, len(err.splitlines())), (1 if left else 0, 1 if left else 0), f"status and lines of standard error of {command}, log {i}")
            wrong += "".join(f"{command}, log {i}: too wide: {l}\n" for l in out.decode().splitlines() if len(l) > 85)
    return wrong


# ---- the page

UNITS = {row[0]: row for row in ([cell.strip() for cell in l.split("|")[1:-1]] for l in (ROOT / "docs" / "UNITS.md").read_text().splitlines() if re.match(r"\| \d", l))}


class Page(html.parser.HTMLParser):
    """Takes a page apart: the text of each heading of a key, and behind it that of each cell."""
    TAGS = set("html head meta title style body h1 h2 p section table thead tbody tr th td div".split())
    ATTRIBUTES = ("class", "lang", "charset")

    def __init__(self, text):
        super().__init__()
        self.open, self.keys, self.wrong, self.style = [], [], "", ""
        self.feed(text)
        self.close()
        if self.open:
            self.wrong += f"left open: {self.open}\n"

    def handle_starttag(self, tag, attrs):
        if tag not in self.TAGS or any(name not in self.ATTRIBUTES for name, value in attrs):
            self.wrong += f"{tag} {attrs}\n"
        if tag == "section":
            self.keys.append([])
        if tag in ("h2", "p", "td") and self.keys and "section" in self.open:
            self.keys[-1].append("")
        if tag != "meta":
            self.open.append(tag)

    def handle_endtag(self, tag):
        if not self.open or self.open.pop() != tag:
            self.wrong += f"{tag} is closed and not open\n"

    def handle_data(self, data):
        if "style" in self.open:
            self.style += data
        elif self.open and self.open[-1] in ("h2", "p", "td") and "section" in self.open:
            self.keys[-1][-1] += data


def cells_of(box, key):
    """What stands in the rows of a key's table, by the model."""
    cells, missing = [], []
    for position in range(1, box.count(key) + 2):
        found = box.parameter(key, position)
        if found.answer.number != 0 and position <= box.count(key):
            missing.append(position)
            continue
        if missing:
            cells += ["-".join(map(str, sorted({missing[0], missing[-1]}))), "-", "missing", "-", "-", "-", "-"]
            missing = []
        if position <= box.count(key):
            start = "byte %d, bit %d" % (found.start // 8 + 1, found.start % 8 + 1)
            known = UNITS.get(str(found.spn))
            cells += [str(position), str(found.spn)] + ([known[1], start, known[2], known[3], known[4]] if known else ["not in the dictionary", start, "-", "-", "-"])
    return cells


def style(found, name, breaks):
    """What is wrong with the style of a page: something comes from outside, or it does not say how it prints, and where it breaks."""
    return "".join(f"in the style of {name}: {word}\n" for word in ("url", "import", "expression") if word in found.style) \
        + "".join(f"not in the style of {name}: {words}\n" for words in ("@page { size: A4;", breaks) if words not in found.style)


def page(name, log, options="", names={}):
    """A page has what the model knows of each key, no script, and nothing from outside, and says how it prints."""
    code, out, err = run("./shelf --page " + options, log)
    box = model.Box()
    model.listing(log, box)
    found = Page(out.decode())
    who = lambda address: f"{address} ({names[address]})" if address in names else str(address)
    wrong = found.wrong + differ((code, err), (0, ""), f"status and standard error of {name}")
    wrong += style(found, name, "section, .end { break-inside: avoid;")
    wanted = [[f"{who(source)} to {who(destination)}, message {k}", *cells_of(box, (source, destination, k))] for source, destination, k in box.keys()]
    shown = [[key[0], *key[3:]] for key in found.keys]      # the judgement and the form stand between
    return wrong + differ(shown, wanted, f"the page of {name}")


def with_names(names, check):
    """What a check finds with the option for a file of these names."""
    with tempfile.NamedTemporaryFile("w", encoding="utf-8") as file:
        file.write("".join(f"{address} {name}\n" for address, name in names.items()))
        file.flush()
        return check(f"--addresses={file.name}")


def pages():
    dice, shelf = random.Random(4), (SAMPLES / "shelf.log").read_bytes()
    wrong = page("samples/shelf.log", shelf) + page("an empty log", b"")
    names = {12: "<b>4</b> & 'more'", 38: "\"></h2><script>alert(7)</script>", 39: "&lt;combine&gt;"}
    wrong += with_names(names, lambda option: page("samples/shelf.log with names", shelf, option, names))
    for i in range(6):
        log = any_log(dice, 12, 60)
        wrong += page(f"log {i}", log[:len(log) - len(log) % 13])
    return wrong


# ---- words

def words(command, sample, said="", status=0):
    """What is written stands in a sample."""
    name, check = row(command, "", status, (SAMPLES / sample).read_bytes(), said)
    return f"{command}: samples/{sample}", check


def sets(facts, wanted, name="shelf"):
    """The formatter alone: facts that no log teaches."""
    return row(f"tools/shelf.py {name} --given=here", facts, 0, wanted.encode(), "")


def refuses(command, said, given=""):
    name, check = row(command, given, 1, b"", command.split()[0].lstrip("./") + ": " + said)
    return f"{command}: {said}", check


def with_addresses(text, wanted, said="", given="no 3 9 38 39 45312\nend 3 0 0\n"):
    """A file of addresses, and what ./why's first line is then, or the line that refuses it."""
    def check():
        with tempfile.TemporaryDirectory() as folder:
            path = pathlib.Path(folder, "addresses")
            path.write_bytes(text if isinstance(text, bytes) else text.encode())
            code, out, err = run(f"tools/shelf.py why --addresses={path}", given)
        first = out.decode().split("\n    answer")[0]
        return differ((code, first, err), (1 if said else 0, wanted, said and f"why: {path}, line {said}\n"), "status, first line, standard error")
    shown = text if isinstance(text, str) else repr(text)[2:-1]
    return "a file of addresses: " + " | ".join(ascii(shown)[1:-1].split("\\n")), check


def wide(facts, most):
    """No line of a shelf is wider."""
    def check():
        code, out, err = run("tools/shelf.py shelf", facts)
        return differ((code, err), (0, ""), "status and standard error") + "".join(f"too wide: {l}\n" for l in out.decode().splitlines() if len(l) > most)
    return f"no line of more than {most} columns: {facts.splitlines()[1]} ..", check


def one_key(judged, *places, edition=2010):
    """The facts of a key with that judgement and position, and what stands at its positions."""
    return line("key", 38, 39, 1, *judged, max((p[0] for p in places), default=0), 0, edition) + "".join(line("at", *p) for p in places) + line("end", 1, 0, 0, 0)


TOP = "Shelf of here: 1 key, %d usable\nBytes and bits are counted from 1; bit 1 is the lowest of its byte.\n\n38 to 39, message 1\n"
END = "\n1 record: 0 refused, 0 of other PGNs.\n"
CUT = "the log ends in the middle of a record, 5 bytes of 13, and what came before is shown: take it from the box again"
EVERY = "".join(line("no", n, n, 38, 39, 45312 if n != 5 else 49152) for n in (1, 3, 4, 5, 6, 7, 8, 9, 10))

CHECKS = [
    # the first of these builds the programs, where that has not been done: that prints lines of its own
    *[(f"./shelf --facts and ./why --facts print of samples/{name}.log what the model does",
        f"./shelf --facts samples/{name}.log >target/facts && tests/facts samples/{name}.log | diff - target/facts && ./why --facts samples/{name}.log >target/facts && tests/facts --why samples/{name}.log | diff - target/facts")
        for name in LOGS],
    ("samples/addresses.txt, samples/*.shelf and samples/*.why have no line of more than 80 columns, but for the comment",
        "! grep -v '^#' samples/addresses.txt samples/*.shelf samples/*.why -h | grep -E '.{81}'"),
    words("./shelf samples/two-records.log", "two-records.shelf"),
    words("./shelf samples/shelf.log", "shelf.shelf"),
    words("./shelf samples/seventeen.log", "seventeen.shelf"),
    words("./shelf samples/odd.log", "odd.shelf"),
    words("./shelf samples/empty.log", "empty.shelf"),
    words("./shelf samples/cut.log", "cut.shelf", "shelf: " + CUT + ", or use --image where it is an image", 1),
    words("./shelf samples/editions.log", "editions.shelf"),
    words("./shelf --image samples/editions.image", "editions-image.shelf"),
    words("./shelf --image samples/shelf.image", "shelf-image.shelf"),
    ("./shelf --image samples/shelf-form-1.image: samples/shelf-image.shelf, but for its name",
        "./shelf --image samples/shelf-form-1.image >target/shelf && sed 's/shelf-form-1/shelf/' target/shelf | diff samples/shelf-image.shelf -"),
    words("./shelf samples/shelf.image --image", "shelf-image.shelf"),
    words("./shelf --addresses samples/addresses.txt samples/shelf.log", "shelf-named.shelf"),
    words("./shelf samples/shelf.log --addresses=samples/addresses.txt", "shelf-named.shelf"),
    words("./why samples/two-records.log", "two-records.why"),
    words("./why samples/shelf.log", "shelf.why"),
    words("./why samples/seventeen.log", "seventeen.why"),
    words("./why samples/cut.log", "cut.why", "why: " + CUT, 1),
    words("./why --addresses samples/addresses.txt samples/shelf.log", "shelf-named.why"),
    *[(f"./shelf --facts --image prints of samples/{name}.image what the model does", f"./shelf --facts --image samples/{name}.image >target/facts && tests/facts --image samples/{name}.image | diff - target/facts")
        for name in ("shelf", "shelf-form-1", "editions")],
    ("crates/shelves and crates/reasons are run on samples/shelf.log, and write what the model does", "cmp crates/shelves/stdin samples/shelf.log && cmp crates/reasons/stdin samples/shelf.log && "
        "tests/facts samples/shelf.log | cmp - crates/shelves/stdout && tests/facts --why samples/shelf.log | cmp - crates/reasons/stdout"),
    ("./shelf and ./why on logs at random", lambda: at_random(3)),
    ("./shelf --page has what the model knows, no script, and nothing from outside", pages),

    # facts that no log teaches: judgements 7 and 9, starts past byte 32, many that are missing
    sets(one_key((7, 1), (1, 1517, 14273, 8)), TOP % 0 + """  position 1: start + width above 14,280
  1 parameter, transport no
POS   SPN  NAME                  START             BITS  UNIT  STEP
  1  1517  Header Lift Cylinder  byte 1785, bit 2     8  kPa   50 kPa/bit
           Pressure
""" + END),
    sets(one_key((9, 2), (2, 3147, 3, 19)), TOP % 0 + """  position 2: its start is not a multiple of 8, which a width of 19 bits needs
  2 parameters, transport no
POS   SPN  NAME             START          BITS  UNIT       STEP
  1     -  missing          -                 -  -          -
  2  3147  Parameter Being  byte 1, bit 4    19  parameter  1 parameter(or
           Included                                         object)/count
""" + END),
    sets(one_key((2, 1), (5, 1518, 8, 8)), TOP % 0 + """  position 1 is missing
  5 parameters, transport no
POS   SPN  NAME                          START          BITS  UNIT   STEP
1-4     -  missing                       -                 -  -      -
  5  1518  Header Sensor Identification  byte 2, bit 1     8  count  1 count/bit
""" + END),
    sets(one_key((3, 1), (1, 1517, 0, 0), edition=2004), TOP % 0 + """  position 1: SPN 1517 is not in the dictionary of 2004
  1 parameter, transport no, edition of 2004
POS   SPN  NAME                           START          BITS  UNIT  STEP
  1  1517  not in the dictionary of 2004  byte 1, bit 1     -  -     -
""" + END),
    sets(one_key((1, 0), edition=2004), (TOP % 0).replace("Bytes and bits are counted from 1; bit 1 is the lowest of its byte.\n", "")
        + "  in conflict: its messages contradict each other\n  edition of 2004\n" + END.replace("PGNs.\n", "PGNs.\n./why says which records were refused or contradict others, and why.\n")),
    sets("no 1 7 38 39 45312\nend 1 0 0\n", "record 1, from 38 to 39, message 1\n    answer 7: n outside 1..64, position outside 1..n, or first-only with\n    position not 1\n"
        "1 record: 1 refused (answer 7: 1), 0 contradicting, 0 other\n", "why"),
    sets(EVERY + "end 12 3 0\n", """record 1
    answer 1: identifier above 2^29 - 1
record 3, from 38 to 39
    answer 3: length is not 8
record 4, from 38 to 39, message 1
    answer 4: source 254 or 255
record 5, from 38 to 39, PGN 49152
    answer 5: configured PGN not one of the fifteen
record 6, from 38 to 39, message 1
    answer 6: a flag is neither 5.3.1.5 to 5.3.1.7's yes nor no
record 7, from 38 to 39, message 1
    answer 7: n outside 1..64, position outside 1..n, or first-only with
    position not 1
record 8, from 38 to 39, message 1
    answer 8: start outside 0..14,279, or a pattern that 5.3.1.8 excludes
record 9, from 38 to 39, message 1
    answer 9: key new and 16 keys held
record 10, from 38 to 39, message 1
    answer 10: key in conflict, or put there by this message
12 records: 8 refused (answer 1: 1, 3: 1, 4: 1, 5: 1, 6: 1, 7: 1, 8: 1, 9: 1),
    1 contradicting, 3 other
""", "why"),
    *[wide(one_key((0, 0), *((i, spn, 14000 + i, model.WIDTHS[spn]) for i, spn in enumerate(some, 1))), 100 if {"3147", "3154"} & set(map(str, some)) else 80)
        for some in (sorted(model.WIDTHS)[at:at + 31] for at in range(0, 140, 31))],
    wide(one_key((3, 30), *((i, 524287, 14279, 0) for i in (1, 30, 64))), 80),
    row("tools/shelf.py shelf", "key 38 39 1 0 0 1 0 2010\n", 1, b"", ""),
    row("tools/shelf.py shelf", "key 38 39 1 0 0 1 0\n", 1, b"", "shelf: the program printed what is no fact"),
    row("tools/shelf.py shelf", "at 1 1517 0 8\n", 1, b"", "shelf: the program printed what is no fact"),
    row("tools/shelf.py why", "no 1 4\n", 1, b"", "why: the program printed what is no fact"),

    # a file of addresses
    with_addresses("38 header 7, bay 3\n", "record 3, from 38 (header 7, bay 3) to 39, message 1"),
    with_addresses("\ufeff# who\r\n\r\n  038 \t header\t7 \r\n", "record 3, from 38 (header 7) to 39, message 1"),
    with_addresses("38 \x1b[31mred\x07", "record 3, from 38 (\\x1b[31mred\\x07) to 39, message 1"),
    with_addresses("38 a\u202eb\u200bc\x00", "record 3, from 38 (a\\u202eb\\u200bc\\x00) to 39, message 1"),
    with_addresses("38 Schneidwerk Größe 7\n39 東\n", "record 3, from 38 (Schneidwerk Größe 7) to 39 (東), message 1"),
    with_addresses("39 " + "x" * 60, "record 3, from 38 to 39\n    (" + "x" * 60 + "), message 1"),
    with_addresses("39 " + "x" * 61, "", "1: a name of 61 letters: shorten it to 60"),
    with_addresses("38 header 7\nheader 9\n", "", "2: write an address and a name, as in '38 header 7, bay 3'"),
    with_addresses("38\n", "", "1: write an address and a name, as in '38 header 7, bay 3'"),
    with_addresses("\n256 header 9\n", "", "2: there is no address 256: write one from 0 to 255"),
    with_addresses("99999999999999999999 header 9\n", "", "1: there is no address 999999999999: write one from 0 to 255"),
    with_addresses("38 header 7\n39 combine\n38 header 9\n", "", "3: 38 has a name in line 1 too: leave out one of the two"),
    with_addresses(b"38 header 7\n39 \xff\n", "", "2: this is no text in UTF-8: write the file anew as plain text"),
    *[refuses(f"{script} --addresses {given} samples/shelf.log", said) for script in ("./shelf", "./why") for given, said in (
        ("''", "the name of the file of addresses is empty: name a file, or leave out --addresses"),
        ("no-such-file", "no-such-file: No such file or directory: name a file of addresses, or leave out --addresses"),
        ("samples", "samples: Is a directory: name a file of addresses, or leave out --addresses"),
        ("samples/shelf.log", "samples/shelf.log, line 1: this is no text in UTF-8: write the file anew as plain text"),
    )],

    # wrong words and wrong files
    *[refuses(f"{script} {given}", said) for script in ("./shelf", "./why") for given, said in (
        ("''", "the name of the log is empty: name a log of 13-byte records"),
        ("no-such-file", "there is no file no-such-file: name a log of 13-byte records"),
        ("samples", "samples is a folder: name a log file in it"),
        ("a b", "too many words: "),
        ("--pages samples/shelf.log", f"there is no option --pages: {script} --help says what there is"),
        ("--addresses", "--addresses needs a file behind it"),
        ("<&-", f"standard input is closed: name a file, as in {script} samples/shelf.log"),
        ("samples/shelf.log >&-", f"the words could not be written: standard output is closed: send them somewhere, as in {script} LOG > FILE"),
        ("samples/shelf.log > /dev/full", "the words could not be written: No space left on device: write them elsewhere"),
        ("--facts samples/shelf.log > /dev/full", "the facts could not be written (make room, or set TMPDIR to another folder): No space left on device"),
    )],
    row("TMPDIR=/no/such/folder ./shelf samples/shelf.log", "", 1, b"", "shelf: no temporary file could be made: set TMPDIR to a folder where you may write"),
    refuses("./why --page samples/shelf.log", "only ./shelf has --page and --image: leave it out"),
    refuses("./why --image samples/shelf.image", "only ./shelf has --page and --image: leave it out"),
    *[refuses(f"./shelf --image {given}", said) for given, said in (
        ("''", "the name of the image is empty: name an image that ./save wrote"),
        ("no-such-file", "there is no file no-such-file: name an image that ./save wrote"),
        ("samples", "samples is a folder: name an image file in it"),
        ("samples/shelf.log", "the image is damaged (answer 21), and nothing is shown: save it again, or leave out --image where it is a log"),
        ("< /dev/null", "the image is damaged (answer 21), and nothing is shown: "),
        ("< samples", "reading stopped, and nothing is shown: Is a directory"),
    )],
    row("./shelf < samples", "", 1, b"Shelf of standard input: 0 keys, 0 usable\n\n0 records: 0 refused, 0 of other PGNs.\nReading stopped before the end of the log.\n",
        "shelf: reading stopped, and only what came before is shown: Is a directory"),
    row("./why < samples", "", 1, b"Reading stopped before the end of the log.\n0 records: 0 refused, 0 contradicting, 0 other\n", "why: reading stopped, and only what came before is told: Is a directory"),
    hands.help_of("./shelf --help"),
    hands.help_of("./why --help"),
    hands.closed_pipe("./shelf samples/shelf.log", (1, "shelf: the words could not be written: their reader is gone\n")),
    hands.closed_pipe("./shelf --facts samples/shelf.log", (1, "shelf: the shelf could not be written: its reader is gone\n")),
    hands.closed_pipe("./why samples/shelf.log", (1, "why: the words could not be written: their reader is gone\n")),
    ("./why from non-blocking standard input", lambda: hands.not_blocking("./why", hands.TWO, (SAMPLES / "two-records.why").read_bytes())),
    ("./shelf, and SIGTERM to the script", lambda: hands.stopped(signal.SIGTERM, "script", "./shelf")),
    ("./shelf, and SIGINT to the script", lambda: hands.stopped(signal.SIGINT, "script", "./shelf")),
    ("./why, and SIGKILL to the program", lambda: hands.stopped(signal.SIGKILL, "program", "./why")),
    ("./shelf on a fresh copy, a stand-in for rt proves it", lambda: hands.on_a_fresh_copy(hands.PROVES.replace("list", "shelves"), "", 0, (SAMPLES / "empty.shelf").read_bytes().replace(b"samples/empty.log", b"standard input"),
        "shelf: proving and building the program first, 2 crates; that takes some minutes\nshelf: answers is proved, 1 left\nshelf: shelves is proved, 0 left\n", "shelf", "end 0 0 0 0")),
]
