"""Numbers for the cases, and how cases are written. Only a seed decides them, on every machine."""

TOP = 2**32 - 1


class Dice:
    def __init__(self, seed):
        self.state = seed

    def below(self, n):
        self.state = (self.state * 6364136223846793005 + 1442695040888963407) % 2**64
        return (self.state >> 32) % n

    def within(self, low, high):
        return low + self.below(high - low + 1)

    def one_of(self, choices):
        return choices[self.below(len(choices))]

    def some(self, count, choices):
        """That many different ones, in any order."""
        left, chosen = list(choices), []
        for _ in range(count):
            chosen.append(left.pop(self.below(len(left))))
        return chosen

    def bytes(self, count):
        return [self.below(256) for _ in range(count)]


def case(tag, given):
    """A tag and 13 bytes."""
    return (bytes([tag]) + given).ljust(14, b"\0")


def line(*numbers):
    return " ".join(str(number) for number in numbers)


def word(number):
    return number.to_bytes(4, "little")


def words(numbers):
    return b"".join(word(number) for number in numbers)
