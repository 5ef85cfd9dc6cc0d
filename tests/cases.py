"""What the programs `vectors`, `runs`, `meanings`, `locates`, `images`, `transports`, `bridges` and `hires` are run on, and what the model says they must write."""
import bridges
import editions
import hires
import images
import keys
import lists
import locates
import logs
import meanings
import pairs
import rooms
import transports
from dice import Dice


def files():
    """Every file, as its path under crates/ and its bytes."""
    yield from written("vectors", [*rooms.cases(Dice(74)), *lists.cases(Dice(2010)), *editions.widths(Dice(27))])
    yield from written("runs", [*pairs.cases(Dice(31)), *keys.cases(Dice(1939)), *editions.cases(Dice(2004)), *logs.cases(Dice(13))])
    yield from written("meanings", [*meanings.cases(Dice(71))])
    yield from written("locates", [*locates.cases(Dice(44800)), *editions.located(Dice(27))])
    yield from written("images", [*images.cases(Dice(21))])
    yield from written("transports", transports.cases(Dice(60416)))
    yield from written("bridges", bridges.cases(Dice(26)))
    yield from written("hires", [*hires.cases(Dice(1517))])


def written(program, cases):
    yield program + "/stdin", b"".join(given for given, lines in cases)
    yield program + "/stdout", "".join(line + "\n" for given, lines in cases for line in lines).encode()
