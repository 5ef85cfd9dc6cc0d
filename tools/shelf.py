#!/usr/bin/env python3
"""shelf.py shelf|why [--page] [--image] [--stopped] [--addresses=FILE] [--given=NAME] < FACTS: sets in words what crates/shelves or crates/reasons printed, for ./shelf and ./why.

It only sets: what is on the shelf, and how a record was answered, are the program's facts (crates/shelves/src/main.rt and crates/reasons/src/main.rt say what each line is).
Names, units and steps are those of docs/UNITS.md, the sentences are 01's. NAME is what the log is called, --image says that it was an image, --stopped that the program could
not read or write everything, and has said so. With --only-addresses it reads FILE and nothing else.
"""
import argparse
import html
import os
import re
import signal
import sys
import unicodedata
from collections import Counter, namedtuple

ROOT = os.path.join(os.path.dirname(os.path.abspath(__file__)), "..")
RECORD = 13         # the bytes of a record
WIDE = 80           # the columns of a terminal, which all lines fit but those of a table that needs more
NAME = 16           # so many columns a name has at least: no name has a longer word, and no line has more than 100
STEP = 17           # and a step at most
LONGEST = 60        # so many letters the name of an address has at most, so that the longest key fits a sheet

# 01's judgements, with the position that they name and what stands there
JUDGEMENTS = {
    0: "usable",
    1: "in conflict: its messages contradict each other",
    2: "position {p} is missing",
    3: "position {p}: SPN {spn} is not in {dictionary}",
    4: "position {p}: SPN {spn} stands at a lower position too",
    5: "position {p}: its start is not above the start one position before",
    6: "position {p}: it shares a bit with an earlier one",
    7: "position {p}: start + width above 14,280",
    8: "transport flag is yes with a payload of 8 bytes, or no with a longer one",
    9: "position {p}: its start is not a multiple of 8, which a width of {width} bits needs",
}
# 01's answers to a frame, as its table has them
ANSWERS = {
    1: "identifier above 2^29 - 1",
    2: "PGN is not the Configuration Identification PGN",
    3: "length is not 8",
    4: "source 254 or 255",
    5: "configured PGN not one of the fifteen",
    6: "a flag is neither 5.3.1.5 to 5.3.1.7's yes nor no",
    7: "n outside 1..64, position outside 1..n, or first-only with position not 1",
    8: "start outside 0..14,279, or a pattern that 5.3.1.8 excludes",
    9: "key new and 16 keys held",
    10: "key in conflict, or put there by this message",
}
CONTRADICTS = 10
MESSAGES = {45056 + 256 * k: k for k in range(1, 16)}      # the fifteen configured PGNs
FRESH = 2010        # the edition of a key that nobody set: only another is told

Key = namedtuple("Key", "source destination k judgement position n transport edition places")
Place = namedtuple("Place", "spn start width")
Unit = namedtuple("Unit", "name unit step bits resolution offset")     # the last two in thousandths of the unit
Row = namedtuple("Row", "position spn name start bits unit step")

HEADS = Row("POS", "SPN", "NAME", "START", "BITS", "UNIT", "STEP")
PAGE_HEADS = Row("Pos.", "SPN", "Name", "Start", "Bits", "Unit", "Step")
TO_THE_LEFT = ("name", "start", "unit", "step")
COUNTING = "Bytes and bits are counted from 1; bit 1 is the lowest of its byte."


class Wrong(Exception):
    """What is wrong, and what to do."""


# ---- what is read

def clean(text):
    """A text in one line, with single blanks; what cannot be printed is spelt out."""
    return "".join(c if c.isprintable() else c.encode("unicode_escape").decode() for c in " ".join(text.split()))


def read_addresses(path):
    """The names of a file of addresses, a line each: the address, and the name behind it."""
    if not path:
        raise Wrong("the name of the file of addresses is empty: name a file, or leave out --addresses")
    try:
        with open(path, "rb") as file:
            given = file.read()
    except OSError as e:
        raise Wrong(f"{clean(path)}: {e.strerror}: name a file of addresses, or leave out --addresses")
    names, lines = {}, {}
    for at, line in enumerate(given.split(b"\n"), 1):
        try:
            name_address(names, lines, at, line.decode("utf-8-sig" if at == 1 else "utf-8").strip())
        except UnicodeDecodeError:
            raise Wrong(f"{clean(path)}, line {at}: this is no text in UTF-8: write the file anew as plain text")
        except Wrong as e:
            raise Wrong(f"{clean(path)}, line {at}: {e}")
    return names


def name_address(names, lines, at, line):
    """One line of a file of addresses."""
    if not line or line.startswith("#"):
        return
    m = re.fullmatch(r"([0-9]+)\s+(.+)", line, re.S)
    if not m:
        raise Wrong("write an address and a name, as in '38 header 7, bay 3'")
    if len(m[1]) > 3 or int(m[1]) > 255:
        raise Wrong(f"there is no address {m[1][:12]}: write one from 0 to 255")
    address, name = int(m[1]), clean(m[2])
    if address in names:
        raise Wrong(f"{address} has a name in line {lines[address]} too: leave out one of the two")
    if len(name) > LONGEST:
        raise Wrong(f"a name of {len(name)} letters: shorten it to {LONGEST}")
    names[address], lines[address] = name, at


def read_units():
    """What docs/UNITS.md has of each SPN."""
    try:
        with open(os.path.join(ROOT, "docs", "UNITS.md"), encoding="utf-8") as page:
            rows = [[cell.strip() for cell in line.strip().strip("|").split("|")] for line in page if re.match(r"\| *[0-9]", line)]
        return {int(spn): Unit(name, unit, step, int(bits), int(resolution), int(offset)) for spn, name, bits, unit, step, _, _, resolution, offset in rows}
    except OSError as e:
        raise Wrong(f"docs/UNITS.md: {e.strerror}: take it from the repository again")
    except ValueError:
        raise Wrong("docs/UNITS.md has a row that is none: take it from the repository again")


def numbers_of(line, word, count):
    """The numbers of a line of facts, or None where it begins with another word."""
    first, *rest = line.split() or [""]
    if first != word or len(rest) != count or not all(number.isascii() and number.isdigit() for number in rest):
        return None
    return [int(number) for number in rest]


def no_fact(line):
    return Wrong(f"the program printed what is no fact, {clean(line)[:40]!r}: build it again, rm -r crates/*/out")


def read_shelf(facts):
    """The keys and the four counts, or None where the facts are not whole."""
    keys = []
    for line in facts:
        if said := numbers_of(line, "key", 8):
            keys.append(Key(*said, {}))
        elif (said := numbers_of(line, "at", 4)) and keys:
            keys[-1].places[said[0]] = Place(*said[1:])
        elif said := numbers_of(line, "end", 4):
            return keys, said
        else:
            raise no_fact(line)
    return None


# ---- words

def counted(n, what):
    return f"{n} {what}{'' if n == 1 else 's'}"


class Words:
    """Says keys and records, with the names of addresses and of SPNs."""

    def __init__(self, names, units):
        self.names, self.units = names, units

    def who(self, address):
        return f"{address} ({self.names[address]})" if address in self.names else str(address)

    def heading(self, key):
        return f"{self.who(key.source)} to {self.who(key.destination)}, message {key.k}"

    def dictionary(self, key):
        return "the dictionary" if key.edition == FRESH else f"the dictionary of {key.edition}"

    def known(self, spn):
        if spn not in self.units:
            raise Wrong(f"docs/UNITS.md has no SPN {spn}: take it from the repository again")
        return self.units[spn]

    def judgement(self, key):
        place = key.places.get(key.position, Place(0, 0, 0))
        return JUDGEMENTS.get(key.judgement, f"judgement {key.judgement}, position {{p}}").format(
            p=key.position, spn=place.spn, width=place.width, dictionary=self.dictionary(key))

    def form(self, key):
        """What the map says of itself, nothing of a key in conflict; and the edition that it is judged by, where one was set."""
        said = [counted(key.n, "parameter"), f"transport {'yes' if key.transport else 'no'}"] if key.n else []
        return ", ".join(said + ([] if key.edition == FRESH else [f"edition of {key.edition}"]))

    def row(self, key, position):
        place = key.places[position]
        start = f"byte {place.start // 8 + 1}, bit {place.start % 8 + 1}"
        if place.width == 0:
            return Row(str(position), str(place.spn), f"not in {self.dictionary(key)}", start, "-", "-", "-")
        known = self.known(place.spn)
        return Row(str(position), str(place.spn), known.name, start, str(place.width), known.unit, known.step)

    def rows(self, key):
        """A row for each position, and one for all that are missing one after another."""
        rows, position = [], 1
        while position <= key.n:
            last = position
            if position in key.places:
                rows.append(self.row(key, position))
            else:
                while last < key.n and last + 1 not in key.places:
                    last += 1
                rows.append(Row(str(position) if last == position else f"{position}-{last}", "-", "missing", "-", "-", "-", "-"))
            position = last + 1
        return rows

    def record(self, number, answer, source, destination, pgn):
        """Which record it is, and what its answer lets be said of it."""
        said = f"record {number}"
        if answer != 1:
            said += f", from {self.who(source)} to {self.who(destination)}"
        if answer == 5:
            said += f", PGN {pgn}"
        elif answer > 3 and pgn in MESSAGES:
            said += f", message {MESSAGES[pgn]}"
        return said


def opening(given, image, keys):
    return f"Shelf of {'image ' if image else ''}{given}: {counted(len(keys), 'key')}, {sum(key.judgement == 0 for key in keys)} usable"


def closing(image, stopped, keys, counts):
    """What the counts say, a sentence each."""
    records, refused, other, left = counts
    if image:
        return ["An image holds usable maps alone, and no records."]
    said = [f"{counted(records, 'record')}: {refused} refused, {other} of other PGNs."]
    if refused or any(key.judgement == 1 for key in keys):
        said.append("./why says which records were refused or contradict others, and why.")
    return said + not_whole(left, stopped)


def not_whole(left, stopped):
    """What a reader has to know where the words are not of a whole log."""
    said = [f"The last record is cut off: {left} of its {RECORD} bytes are there, and do not count."] if left else []
    return said + (["Reading stopped before the end of the log."] if stopped else [])


def cut_off(left, or_else=""):
    return Wrong(f"the log ends in the middle of a record, {left} bytes of {RECORD}, and what came before is shown: take it from the box again{or_else}")


# ---- plain text

def columns(text):
    """How many columns of a terminal a text takes."""
    return len(text) if text.isascii() else sum(0 if unicodedata.combining(c) else 2 if unicodedata.east_asian_width(c) in "WF" else 1 for c in text)


def wrapped(words, width, behind=""):
    """The lines of a text, or of words that are not to be parted, none wider than that; those after the first begin with `behind`. A word that is too wide is cut."""
    if isinstance(words, str):
        if columns(words) <= width:
            return [words]
        words = words.split()
    lines, line, empty = [], "", True
    for word in words:
        while columns(line) + (not empty) + columns(word) > width:
            if empty:
                fits = max([1] + [n for n in range(1, len(word)) if columns(line + word[:n]) <= width])
                line, word = line + word[:fits], word[fits:]
            lines.append(line)
            line, empty = behind, True
        if word:
            line, empty = line + ("" if empty else " ") + word, False
    return lines if empty and lines else lines + [line]


def widths_of(rows, least=NAME, **most):
    """The columns of a table: each as wide as it has to be, or as it may be at most, but names, which have what is left, and no less than `least`."""
    widths = {field: min(max(columns(getattr(row, field)) for row in rows), most.get(field, WIDE)) for field in rows[0]._fields}
    others = sum(2 + width for field, width in widths.items() if field != "name")
    room = max(least, WIDE - others)
    widths["name"] = max(columns(line) for row in rows for line in wrapped(row.name, room))
    return widths


def table_lines(row, widths, to_the_left):
    """The lines of a row: a cell that is too wide goes on below itself."""
    folded = {field: wrapped(getattr(row, field), width) for field, width in widths.items()}
    for at in range(max(map(len, folded.values()))):
        parts = []
        for field, width in widths.items():
            part = folded[field][at] if at < len(folded[field]) else ""
            blank = " " * (width - columns(part))
            parts.append(part + blank if field in to_the_left else blank + part)
        yield "  ".join(parts).rstrip()


def set_text(words, keys, first, last):
    yield from wrapped(first, WIDE)
    if any(key.places for key in keys):
        yield COUNTING
    rows = [words.rows(key) for key in keys]
    widths = widths_of([HEADS] + [row for of_key in rows for row in of_key], step=STEP)
    for key, of_key in zip(keys, rows):
        yield ""
        yield from wrapped(words.heading(key), WIDE, "    ")
        for said in filter(None, (words.judgement(key), words.form(key))):
            yield from ("  " + line for line in wrapped(said, WIDE - 2, "  "))
        for row in [HEADS] + of_key if of_key else []:
            yield from table_lines(row, widths, TO_THE_LEFT)
    yield ""
    for sentence in last:
        yield from wrapped(sentence, WIDE)


# ---- a page

STYLE = """
@page { size: A4; margin: 14mm 12mm; }
body { font: 10pt/1.35 "Liberation Sans", Arial, Helvetica, sans-serif; color: #000; background: #fff; max-width: 186mm; margin: 8mm auto; padding: 0 4mm; }
h1 { font-size: 15pt; line-height: 1.2; margin: 0 0 1mm; overflow-wrap: anywhere; }
h2 { font-size: 11.5pt; line-height: 1.25; margin: 0; overflow-wrap: anywhere; }
p { margin: 0.5mm 0; }
section, .end { break-inside: avoid; page-break-inside: avoid; border-top: 0.4mm solid #000; margin-top: 4mm; padding-top: 1.5mm; }
.judgement { font-weight: bold; }
table { border-collapse: collapse; table-layout: fixed; width: 100%; margin-top: 1mm; font-size: 8.5pt; line-height: 1.25; }
th, td { box-sizing: border-box; text-align: left; vertical-align: top; padding: 0.5mm 2mm 0.5mm 0; border-bottom: 0.2mm solid #888; }
th { border-bottom-color: #000; }
.position, .spn, .bits { text-align: right; }
.position { width: 10mm; }
.spn { width: 11mm; }
.start { width: 24.5mm; }
.bits { width: 8.5mm; }
.unit { width: 16.5mm; }
.step { width: 42mm; }
@media print { body { margin: 0; padding: 0; max-width: none; } }
@media screen and (max-width: 190mm) { table { table-layout: auto; } .position, .spn, .start, .bits, .unit, .step { width: auto; } }
"""


def paragraph(sentence, kind=""):
    return f'<p class="{kind}">{html.escape(sentence)}</p>' if kind else f"<p>{html.escape(sentence)}</p>"


def cells(row, tag, **behind):
    """A row of a table; behind a field's words may stand what is HTML already."""
    return "<tr>" + "".join(f'<{tag} class="{field}">{html.escape(cell)}{behind.get(field, "")}</{tag}>' for field, cell in zip(row._fields, row)) + "</tr>"


def table(heads, rows):
    yield f"<table>\n<thead>{cells(heads, 'th')}</thead>\n<tbody>"
    yield from rows
    yield "</tbody>\n</table>"


def page(first, style, inside, last):
    """A page of HTML: its heading, what is inside, and the sentences at its end."""
    yield f'<!DOCTYPE html>\n<html lang="en">\n<head>\n<meta charset="utf-8">\n<title>{html.escape(first)}</title>\n<style>{style}</style>\n</head>\n<body>'
    yield f"<h1>{html.escape(first)}</h1>"
    yield from inside
    yield '<div class="end">'
    yield from map(paragraph, last)
    yield "</div>\n</body>\n</html>"


def set_keys(words, keys):
    if any(key.places for key in keys):
        yield paragraph(COUNTING)
    for key in keys:
        yield f"<section>\n<h2>{html.escape(words.heading(key))}</h2>"
        yield paragraph(words.judgement(key), "judgement")
        if words.form(key):
            yield paragraph(words.form(key))
        if key.n:
            yield from table(PAGE_HEADS, (cells(row, "td") for row in words.rows(key)))
        yield "</section>"


def set_page(words, keys, first, last):
    return page(first, STYLE, set_keys(words, keys), last)


# ---- the two

def write(lines, left, or_else=""):
    """Prints the lines, and then says where the log was cut off. True: they are of whole facts."""
    for line in lines:
        print(line)
    sys.stdout.flush()
    if left:
        raise cut_off(left, or_else)
    return True


def shelf(asked, names):
    """Sets a shelf. Whether the facts were whole."""
    found = read_shelf(sys.stdin)
    if not found:
        return False
    keys, counts = found
    words = Words(names, read_units())
    lines = (set_page if asked.page else set_text)(words, keys, opening(clean(asked.given), asked.image, keys), closing(asked.image, asked.stopped, keys, counts))
    return write(lines, counts[-1], ", or use --image where it is an image")


def summary(records, other, answers):
    """How many of each, in pieces that stay together."""
    each = [(answer, n) for answer, n in sorted(answers.items()) if answer != CONTRADICTS]
    refused = f"{sum(n for answer, n in each)} refused" + (" (answer " if each else ",")
    which = [f"{answer}: {n}" + ("," if i < len(each) else "),") for i, (answer, n) in enumerate(each, 1)]
    return [f"{counted(records, 'record')}:", refused + "".join(which[:1]), *which[1:], f"{answers[CONTRADICTS]} contradicting,", f"{other} other"]


def why(asked, names):
    """Tells the records. Whether the facts were whole."""
    words, answers = Words(names, {}), Counter()
    for line in sys.stdin:
        if said := numbers_of(line, "no", 5):
            answer = said[1]
            answers[answer] += 1
            told = wrapped(words.record(*said), WIDE, "    ") + ["    " + part for part in wrapped(f"answer {answer}: {ANSWERS.get(answer, 'as 01 has it')}", WIDE - 4)]
            print("\n".join(told))
        elif said := numbers_of(line, "end", 3):
            records, other, left = said
            return write(not_whole(left, asked.stopped) + wrapped(summary(records, other, answers), WIDE, "    "), left)
        else:
            raise no_fact(line)
    return False


# ---- what ./shelf, ./why and ./hire start

def run(asked, setter):
    """0 where everything was there and is said, else 1, and what is wrong or ''."""
    if not sys.stdout:
        return 1, f"the words could not be written: standard output is closed: send them somewhere, as in ./{asked.name} LOG > FILE"
    try:
        names = {} if asked.addresses is None else read_addresses(asked.addresses)
        if asked.only_addresses:
            return 0, ""
        return 0 if setter(asked, names) and not asked.stopped else 1, ""
    except Wrong as e:
        return 1, str(e)
    except BrokenPipeError:
        return 1, "the words could not be written: their reader is gone"
    except OSError as e:
        return 1, f"the words could not be written: {e.strerror}: write them elsewhere"


def main(about, setters):
    """`setters` has for the name of each script what sets the words of its program."""
    parser = argparse.ArgumentParser(usage=argparse.SUPPRESS, description=about, formatter_class=argparse.RawDescriptionHelpFormatter)
    parser.add_argument("name", choices=setters)
    parser.add_argument("--page", action="store_true")
    parser.add_argument("--image", action="store_true")
    parser.add_argument("--stopped", action="store_true")
    parser.add_argument("--addresses")
    parser.add_argument("--only-addresses", action="store_true")
    parser.add_argument("--given", default="standard input")
    asked = parser.parse_args()
    signal.signal(signal.SIGINT, signal.SIG_DFL)
    for stream in filter(None, (sys.stdout, sys.stderr)):
        stream.reconfigure(encoding="utf-8", errors="backslashreplace", newline="\n")
    status, said = run(asked, setters[asked.name])
    if said and sys.stderr:
        print(f"{asked.name}: {said}", file=sys.stderr)
    os._exit(status)    # and what could not be written is not tried again


if __name__ == "__main__":
    main(__doc__, {"shelf": shelf, "why": why})
