"""What the test program choices.c must write."""
from typing import List

from device.tests.expected import WORD, numbers

ODD_SIZES = (2, 7, 1, 8, 28)
RARE = (100, 5000, 0x80000000, 77)


class Choices:
    """The data that the program keeps between its choices."""

    def __init__(self):
        self.kept, self.zeroed = [3, 1, 4, 1], [0] * 4

    def chosen(self, which: int, value: int) -> int:
        if which == 5:
            self.zeroed[value & 3] = self.zeroed[value & 3] + value & WORD
            return self.zeroed[value & 3]
        if which == 6:
            self.kept[value & 3] ^= value
            return self.kept[value & 3]
        plain = {0: value + 10, 1: value * 3, 2: ~value, 3: value >> 5, 4: value ^ 0x5A5A5A5A, 7: ODD_SIZES[value % 5],
                 100: 1, 5000: 2, 0x80000000: 3}
        return plain.get(which, which) & WORD


def deep(value: int) -> int:
    return value if value < 2 else deep(value // 2) + deep(value // 3) + 1


FUNCTIONS = (lambda value: value * 2, lambda value: -value, deep)


class Large:
    """A struct of six parts, each a byte, a half-word and a word, then a sum and three fields of bits."""

    def __init__(self):
        self.parts = [[1, 2, 3], [4, 5, 6], [7, 8, 9], [0, 0, 0], [0, 0, 0], [0, 0, 0]]
        self.fields = [1, 2, 3]

    def change(self, value: int) -> None:
        self.parts = self.parts[1:] + self.parts[:1]
        self.parts[5][0] = self.parts[5][0] + value & 0xFF
        self.parts[4][1] = value >> 3 & 0xFFFF
        self.parts[3][2] = value
        self.fields = [value & 31, value >> 5 & 0x7FF, self.fields[2] + 1 & 0xFFFF]

    def sum(self) -> int:
        total = 5
        for tag, half, word in self.parts:
            total = total * 33 + tag + half * 3 + word
        return total + self.fields[0] + self.fields[1] * 64 + self.fields[2] * 65536 & WORD


def choices() -> List[int]:
    row, data, large, found = numbers(123456789), Choices(), Large(), []
    for place in range(32):
        value = next(row)
        found.append(data.chosen(value & 7 if value & 0x100 else RARE[value & 3], value))
        found.append(FUNCTIONS[place % 3](value & 0xFF) & WORD)
        for given in (value, value // 7):
            large.change(given)
            found.append(large.sum())
    return found
