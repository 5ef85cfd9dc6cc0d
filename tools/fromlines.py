"""What tools/mklog and tools/mktrace share: bytes that are made from readable lines, and what is said of a line that is wrong."""
import argparse
import re
import signal
import sys


class Wrong(Exception):
    """What is wrong with a line."""


def within(name, text, low, high):
    if not re.fullmatch(r"-?[0-9]+|0[xX][0-9A-Fa-f]+", text):
        raise Wrong(f"{name} {text} is no number")
    number = int(text, 0) if text[:2] in ("0x", "0X") else int(text)
    if not low <= number <= high:
        raise Wrong(f"{name} {text} is not in {low} to {high}")
    return number


def in_hex(name, text, digits):
    if not re.fullmatch("[0-9A-Fa-f]{1,%d}" % digits, text):
        raise Wrong(f"{name} {text} is not in hex, with {digits} digits at most")
    return int(text, 16)


def record(identifier, length, data):
    """The 13 bytes of a frame; missing data bytes are 0."""
    return identifier.to_bytes(4, "little") + bytes([length]) + bytes(data).ljust(8, b"\0")


def frame(words, holder):
    """A frame as identifier, length and data bytes; `holder` is what has eight of these."""
    data = [in_hex("byte", byte, 2) for byte in words[2:]]
    if len(data) > 8:
        raise Wrong(f"{len(data)} data bytes: a {holder} has 8")
    return record(in_hex("identifier", words[0], 8), within("length", words[1], 0, 255), data)


def words_of(text):
    """The words of a line, without its comment."""
    return text.split("#")[0].split()


def stands_whole(before, size):
    """A record may stand behind so many bytes only where these are whole records."""
    if before % size:
        raise Wrong(f"a record after {before % size} bytes of a cut one, which stands last")


def main(name, says, made, bytes_of):
    """Writes what `bytes_of` makes of each line, given the bytes before it; `made` is what that is, in one word, and `says` the help."""
    signal.signal(signal.SIGPIPE, signal.SIG_DFL)
    parser = argparse.ArgumentParser(prog=name, usage=argparse.SUPPRESS, description=says, formatter_class=argparse.RawDescriptionHelpFormatter)
    parser.add_argument("text", nargs="?", default="-", metavar="TEXT", help=argparse.SUPPRESS)
    path = parser.parse_args().text
    try:   # 0 and 1 are standard input and output
        with open(0 if path == "-" else path, "rb") as given:
            lines = given.read().decode("utf-8-sig", "replace").split("\n")
    except OSError as e:
        sys.exit(f"{name}: {path}: {e.strerror}: name a file of text lines, or give them on standard input")
    out = bytearray()
    for at, text in enumerate(lines, 1):
        try:
            out += bytes_of(text, len(out))
        except Wrong as e:
            sys.exit(f"{name}: line {at}: {e}; {name} --help says what a line may be")
    try:
        with open(1, "wb") as written:
            written.write(out)
    except OSError as e:
        sys.exit(f"{name}: the {made} could not be written: {e.strerror}")
