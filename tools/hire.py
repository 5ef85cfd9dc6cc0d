#!/usr/bin/env python3
"""hire.py hire [--page] [--stopped] [--addresses=FILE] [--given=NAME] < REPORT: sets what crates/hired printed as the sheet that goes with a hire, for ./hire --sheet and, with
--page, for ./hire --page.

It only sets: what was read and counted are the report's lines (README.md says what each is). Names, units, steps and offsets are those of docs/UNITS.md. NAME is what the log is
called; --stopped says that the program could not read or write everything, and has said so. With --only-addresses it reads FILE and nothing else.
"""
import html
import re
import sys
from collections import namedtuple

sys.dont_write_bytecode = True      # nothing is left beside the tools
import shelf
from shelf import WIDE, counted, wrapped

HEAD = "SRC DST MSG POS SPN READ VALID RESERVED ERROR MISSING LEAST GREATEST SUM"
LAST = r"RECORDS ([0-9]+) REFUSED ([0-9]+) OTHER ([0-9]+) LEFT ([0-9]+)"
TOO_MANY = 25
LIMIT = 2**31
PRESSURE = 1517         # the lift cylinder's: what the counter looks for
BAR = 20                # the columns of a bar, and the least that a name has
MEAN = 2                # decimals of a mean at least

Key = namedtuple("Key", "source destination k lines")       # no lines where the report has 25 for it
Line = namedtuple("Line", "position spn read valid reserved error missing least greatest sum")
Part = namedtuple("Part", "heading said head rows")         # of the sheet: `head` stands above the names of its rows
Row = namedtuple("Row", "position spn name least greatest mean unit valid reserved error missing")
Cells = namedtuple("Cells", "position spn name first second third fourth")      # of a line of text: a row has two

PAGE_HEADS = Row("Pos.", "SPN", "Name", "Least", "Greatest", "Mean", "Unit", "Valid", "Reserved", "Error", "Not available")
VALUES = "Least, greatest and mean are of the valid numbers. A mean is rounded to its last decimal, a half away from 0."
OF_TEXT = "A bar is all that a valid number can be, from the lowest on; '=' is from least to greatest, 'o' the mean. MISSING is 'not available'."
OF_PAGE = "A bar is all that a valid number can be: the block goes from least to greatest, the stroke is the mean."
ABOVE = f"answer {TOO_MANY}: more than {LIMIT} payloads were read, so there are no numbers"
NO_PAYLOAD = "Of a key without payloads none came while its map was usable, or its map is longer than the 8 bytes of a frame."


# ---- what is read

def numbers_in(line):
    """The numbers of a line, or none where it has anything else."""
    said = line.split()
    return [int(word) for word in said] if all(word.isascii() and word.isdigit() for word in said) else []


def read_report(lines):
    """The keys and the four counts, or None where the report is not whole."""
    keys, head = [], next(lines, None)
    if head is not None and head.strip() != HEAD:
        raise shelf.no_fact(head)
    for line in lines:
        said = numbers_in(line)
        if last := re.fullmatch(LAST, line.strip()):
            return keys, [int(count) for count in last.groups()]
        if len(said) == 4 and said[3] == TOO_MANY:
            keys.append(Key(*said[:3], []))
        elif len(said) == 13:
            if not keys or list(keys[-1][:3]) != said[:3]:
                keys.append(Key(*said[:3], []))
            keys[-1].lines.append(Line(*said[3:]))
        else:
            raise shelf.no_fact(line)
    return None


# ---- numbers

def in_unit(thousandths, parts, decimals):
    """So many thousandths, divided into so many parts, as text with these decimals: rounded to the nearest, a half away from 0."""
    divisor = 1000 * parts
    rounded = (2 * abs(thousandths) * 10**decimals + divisor) // (2 * divisor)
    whole, rest = divmod(rounded, 10**decimals)
    return ("-" if thousandths < 0 < rounded else "") + str(whole) + (f".{rest:0{decimals}}" if decimals else "")


def decimals_of(known):
    """As many as every value of the SPN needs."""
    return next(n for n in range(4) if known.resolution * 10**n % 1000 == known.offset * 10**n % 1000 == 0)


def worth(known, number):
    return in_unit(number * known.resolution + known.offset, 1, decimals_of(known))


def mean(known, line):
    return in_unit(line.sum * known.resolution + line.valid * known.offset, line.valid, max(MEAN, decimals_of(known)))


def valid_numbers(bits):
    """How many numbers of a width can be valid: all from 0 on (docs/UNITS.md)."""
    return {2: 2, 8: 251, 16: 251 * 2**8, 32: 251 * 2**24}.get(bits, 2**bits)


def span(line, numbers, cells):
    """A bar of so many cells over all valid numbers: the first cell of what was read and the first behind it, and the cell of the mean."""
    return line.least * cells // numbers, -(-(line.greatest + 1) * cells // numbers), (2 * line.sum + line.valid) * cells // (2 * line.valid * numbers)


# ---- the parts of a sheet

class Words(shelf.Words):
    """Says the lines of a report."""

    def measured(self, line, name):
        known = self.known(line.spn)
        values = (worth(known, line.least), worth(known, line.greatest), mean(known, line)) if line.valid else ("-", "-", "-")
        return Row(str(line.position), str(line.spn), name, *values, known.unit, *map(str, line[3:7]))

    def pressure(self, keys):
        """What the counter looks for, of every key that has it."""
        found = [(line, self.measured(line, self.heading(key))) for key in keys for line in key.lines if line.spn == PRESSURE]
        return [Part(self.named(), "", "Key", found)] if found else []

    def named(self):
        return f"{self.known(PRESSURE).name}, SPN {PRESSURE}"

    def key(self, key):
        said = f"{counted(key.lines[0].read, 'payload')} read, {counted(len(key.lines), 'parameter')}" if key.lines else ABOVE
        return Part(self.heading(key), said, "Name", [(line, self.measured(line, self.known(line.spn).name)) for line in key.lines])

    def parts(self, keys):
        return self.pressure(keys) + [self.key(key) for key in keys]

    def warnings(self, keys, left, stopped):
        """What has to be known before the numbers are."""
        said = shelf.not_whole(left, stopped)
        if many := [self.heading(key) for key in keys if not key.lines]:
            said.append(f"Of {counted(len(many), 'key')} there are no numbers, answer {TOO_MANY}: {'; '.join(many)}.")
        if not any(line.spn == PRESSURE for key in keys for line in key.lines):
            said.append(f"There are no numbers of {self.named()}.")
        return said


def closing(keys, counts):
    records, refused, other, left = counts
    said = [f"{counted(records, 'record')}: {refused} refused, {other} of other PGNs, payloads among them."]
    return said + ([NO_PAYLOAD] if any(key.lines and key.lines[0].read == 0 for key in keys) else [])


# ---- plain text

def bar(line, known):
    if not line.valid:
        return "." * BAR
    first, behind, at = span(line, valid_numbers(known.bits), BAR)
    return "".join("o" if i == at else "=" if first <= i < behind else "." for i in range(BAR))


def two_lines(row, below):
    return [Cells(*row[:7]), Cells("", "", below, *row[7:])]


def heads_of(part):
    return two_lines(Row("POS", "SPN", part.head.upper(), "LEAST", "GREATEST", "MEAN", "UNIT", "VALID", "RESERVED", "ERROR", "MISSING"), "RANGE")


def set_text(words, parts, first, warnings, last):
    for sentence in [first, *warnings, VALUES, OF_TEXT]:
        yield from wrapped(sentence, WIDE)
    tables = [heads_of(part) + [cells for line, row in part.rows for cells in two_lines(row, bar(line, words.known(line.spn)))] for part in parts]
    widths = tables and shelf.widths_of([cells for table in tables for cells in table], BAR)
    for part, table in zip(parts, tables):
        yield ""
        yield from wrapped(part.heading, WIDE, "    ")
        yield from ("  " + line for line in wrapped(part.said, WIDE - 2) if line)
        for cells in table if part.rows else []:
            yield from shelf.table_lines(cells, widths, ("name",))
    yield ""
    for sentence in last:
        yield from wrapped(sentence, WIDE)


# ---- a page

# behind the shelf's own
STYLE = """.long { break-inside: auto; page-break-inside: auto; }
h2 { break-after: avoid; page-break-after: avoid; }
tr, .end { break-inside: avoid; page-break-inside: avoid; }
.warning { font-weight: bold; }
table { font-size: 8pt; }
th, td { text-align: right; padding: 0.6mm 0 0.6mm 1.5mm; }
.name, .unit { text-align: left; }
.name { overflow-wrap: anywhere; }
.position { width: 8mm; padding-left: 0; }
.spn { width: 9.5mm; }
.least, .greatest { width: 16mm; }
.mean { width: 18.5mm; }
.unit { width: 15.5mm; }
.valid, .reserved, .error, .missing { width: 15.4mm; }
td.valid, td.reserved, td.error, td.missing { font-size: 7pt; }
svg { display: block; width: 100%; height: 2.6mm; margin: 0.6mm 0 0.2mm; overflow: visible; }
.all { stroke: #000; stroke-width: 0.2mm; }
.range { fill: #aaa; stroke: #000; stroke-width: 0.2mm; }
.at { stroke: #000; stroke-width: 0.6mm; }
.all, .range, .at { vector-effect: non-scaling-stroke; }
.ends { color: #333; font-size: 7pt; }
@media screen and (max-width: 190mm) { .position, .spn, .least, .greatest, .mean, .unit, .valid, .reserved, .error, .missing { width: auto; } }
"""
WIDTH, HEIGHT = 1000, 60        # of the drawing of a bar
ON_ONE_SHEET = 14               # rows that A4 holds with their heading, whatever their names are: a part that has more goes on over the page


def drawn(line, known):
    """The bar of a parameter, and below it the lowest and the highest valid value."""
    numbers = valid_numbers(known.bits)
    shapes = f'<path class="all" d="M0 {HEIGHT // 2}H{WIDTH}M0 0V{HEIGHT}M{WIDTH} 0V{HEIGHT}"/>'
    if line.valid:
        first, behind, at = span(line, numbers, WIDTH)
        shapes += f'<rect class="range" x="{first}" y="10" width="{behind - first}" height="{HEIGHT - 20}"/><path class="at" d="M{at} 0V{HEIGHT}"/>'
    ends = f"{worth(known, 0)} to {worth(known, numbers - 1)} {known.unit}"
    return f'<svg viewBox="0 0 {WIDTH} {HEIGHT}" preserveAspectRatio="none">{shapes}</svg><div class="ends">{html.escape(ends)}</div>'


def set_parts(words, parts, warnings):
    yield from (shelf.paragraph(sentence, "warning") for sentence in warnings)
    yield from map(shelf.paragraph, (VALUES, OF_PAGE))
    for part in parts:
        yield '<section class="long">' if len(part.rows) > ON_ONE_SHEET else "<section>"
        yield f"<h2>{html.escape(part.heading)}</h2>"
        if part.said:
            yield shelf.paragraph(part.said, "" if part.rows else "warning")
        if part.rows:
            yield from shelf.table(PAGE_HEADS._replace(name=part.head), (shelf.cells(row, "td", name=drawn(line, words.known(line.spn))) for line, row in part.rows))
        yield "</section>"


# ---- the sheet

def hire(asked, names):
    """Sets a report. Whether it was whole."""
    found = read_report(sys.stdin)
    if not found:
        return False
    keys, counts = found
    words = Words(names, shelf.read_units())
    parts, warnings, last = words.parts(keys), words.warnings(keys, counts[-1], asked.stopped), closing(keys, counts)
    first = f"Hire of {shelf.clean(asked.given)}: {counted(len(keys), 'key')}"
    return shelf.write(shelf.page(first, shelf.STYLE + STYLE, set_parts(words, parts, warnings), last) if asked.page else set_text(words, parts, first, warnings, last), counts[-1])


if __name__ == "__main__":
    shelf.main(__doc__, {"hire": hire})
