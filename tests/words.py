"""What the words of a lent table mean: the one part of the model that knows how a table is laid out. It is there for words that no
run of calls makes; on all others it must answer as the sets do, and tests/keys.py holds it to that.

16 rows of 67 words. Of a row: its state (0 free, 1 held, any other: in conflict), its key's number, its form (n, the proprietary flag
times 256, the transport flag times 512, 1024 where its edition is 2004; what is above counts for nothing), and for each position 1 to 64
a cell (0 nothing, else 1 + SPN + start times 2^32). The lowest row that is not free and has a key's number is that key's. A number of
2^24 or more is no key's."""
import model
from model import Answer

ROWS, WIDTH = 16, 67
OLD = 1024   # of a form


def number_of(key):
    source, destination, k = key
    return source * 65536 + destination * 256 + k


def form_of(message):
    return message.n + message.proprietary * 256 + message.transport * 512


def cell_of(message):
    return 1 + message.spn + message.start * 2**32


def place_of(cell):
    """The (SPN, start) of a cell, or None."""
    return ((cell - 1) % 2**32, (cell - 1) // 2**32) if cell else None


def edition_of(row):
    return model.OLDER if row[2] // OLD % 2 else model.NEWER


def as_held(row):
    """The map of a row, whatever its state is: n, the transport flag and what stands at each position, its width by the row's edition."""
    state, number, form, *cells = row
    n, transport = form % 256, form // 512 % 2
    places, widths = [place_of(cell) for cell in cells], model.EDITIONS[edition_of(row)]
    return n, transport, [(*place, widths.get(place[0], 0)) if place else None
                          for place in (places + [None] * n)[:n]]


class Words(model.Box):
    """A box whose table is words."""

    def __init__(self):
        super().__init__()
        self.words = [0] * (ROWS * WIDTH)

    def rows(self):
        return [self.words[at:at + WIDTH] for at in range(0, ROWS * WIDTH, WIDTH)]

    def rows_of(self, key):
        """The rows that are not free and have the key's number."""
        return [i for i, row in enumerate(self.rows()) if row[0] != 0 and row[1] == number_of(key)]

    def take(self, message):
        """A new key takes the lowest free row, and has 2010. A contradiction changes the state of the row and no other word."""
        form, cell = form_of(message), cell_of(message)
        held = self.rows_of(message[:3])
        if not held:
            free = [i for i, row in enumerate(self.rows()) if row[0] == 0]
            if not free:
                return Answer(9)
            at = WIDTH * free[0]
            self.words[at:at + WIDTH] = [1, number_of(message[:3]), form] + [0] * 64
            self.words[at + 2 + message.position] = cell
            return Answer(0)
        at = WIDTH * held[0]
        if self.words[at] != 1:
            return Answer(10)
        if self.words[at + 2] % 1024 != form or self.words[at + 2 + message.position] not in (0, cell):
            self.words[at] = 2
            return Answer(10)
        self.words[at + 2 + message.position] = cell
        return Answer(0)

    def forget(self, key):
        """Every row that holds the key gets the state 0, and keeps its other words."""
        held = self.rows_of(key)
        for i in held:
            self.words[WIDTH * i] = 0
        return Answer(0 if held else 11)

    def set_edition(self, key, edition):
        """One bit of the form of the key's row, and nothing else."""
        held = self.rows_of(key)
        if not held:
            return Answer(11)
        if edition not in model.EDITIONS:
            return Answer(27)
        at = WIDTH * held[0] + 2
        self.words[at] += OLD * ((edition == model.OLDER) - self.words[at] // OLD % 2)
        return Answer(0)

    def edition(self, key):
        held = self.rows_of(key)
        return edition_of(self.rows()[held[0]]) if held else model.NEWER

    def map(self, key):
        held = self.rows_of(key)
        if not held:
            return None
        row = self.rows()[held[0]]
        return as_held(row) if row[0] == 1 else model.CONFLICT

    def place(self, key, position):
        """Each of the 64 positions has its cell, whatever n is."""
        state, number, form, *cells = self.rows()[self.rows_of(key)[0]]
        return place_of(cells[position - 1]) if state == 1 and 1 <= position <= 64 else None

    def keys(self):
        numbers = {row[1] for row in self.rows() if row[0] != 0 and row[1] < 2**24}
        return [(number // 65536, number // 256 % 256, number % 256) for number in sorted(numbers)]
