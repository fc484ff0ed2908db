"""What the test programs must write, computed here from the same numbers."""
from typing import Iterator, List

WORD = 0xFFFFFFFF
LONG = (1 << 64) - 1


def signed(value: int, width: int = 32) -> int:
    value &= (1 << width) - 1
    return value - (1 << width) if value >> width - 1 else value


def quotient(left: int, right: int) -> int:
    """Rounded towards 0, as in C."""
    size = abs(left) // abs(right)
    return size if (left < 0) == (right < 0) else -size


def numbers(state: int) -> Iterator[int]:
    while True:
        state ^= state << 13 & WORD
        state ^= state >> 17
        state ^= state << 5 & WORD
        yield state


def plain(left: int, right: int) -> List[int]:
    amount = right & 31
    turned = left << amount | left >> (-right & 31)
    return [left + right, left - right, left * right, left // right, left % right, left << amount, left >> amount, turned,
            (left < right) + 2 * (left == right) + 4 * (left > right)]


def with_signs(left: int, right: int) -> List[int]:
    first, second = signed(left), signed(right)
    whole = quotient(first, second)
    return [whole, first - whole * second, first >> (right & 31), (first < second) + 2 * (first <= second) + 4 * (first >= 0)]


def parts(left: int, right: int) -> List[int]:
    return [left + right & 0xFF, left - right & 0xFFFF, signed(left, 8), signed(right, 16), signed(left, 8) * signed(right, 16),
            (left & right) ^ (left | ~right)]


def arithmetic() -> List[int]:
    row, found = numbers(2463534242), []
    for place in range(24):
        left, right = next(row), next(row) >> (place & 31)
        right = right or 1
        found += plain(left, right) + with_signs(left, right) + parts(left, right)
    return [value & WORD for value in found]


def long_results(left: int, right: int, amount: int) -> List[int]:
    longs = [left + right, left - right, left * right, (left & WORD) * (right & WORD), signed(left) * signed(right), left // right, left % right,
             left << amount, left >> amount, signed(left, 64) >> amount]
    compared = (left < right) + 2 * (left == right) + 4 * (signed(left, 64) < signed(right, 64))
    return [word for value in longs for word in ((value & LONG) >> 32, value & WORD)] + [compared]


def long_arithmetic() -> List[int]:
    row, found = numbers(88172645), []
    for place in range(16):
        left = next(row) << 32 | next(row)
        right = (next(row) << 32 | next(row)) >> place * 4
        found += long_results(left, right or 1, next(row) & 63)
        found += long_results(left, left, place * 32 & 63)
    return found


LONGEST, MARGIN = 40, 8
ROOM = bytes(place * 7 + 1 & 0xFF for place in range(LONGEST + 2 * MARGIN))
SOURCE = bytes(place * 11 + 3 & 0xFF for place in range(LONGEST + 2 * MARGIN))


def sum_of_rooms(rooms: Iterator[bytes]) -> int:
    total = 0
    for room in rooms:
        for byte in room:
            total = total * 31 + byte & WORD
    return total


def with_part(place: int, part: bytes) -> bytes:
    return ROOM[:place] + part + ROOM[place + len(part):]


def filling(length: int) -> bytes:
    return bytes([0 if length % 3 == 2 else length + 0x1E0 & 0xFF]) * length


def copies() -> List[int]:
    found, lengths = [], range(LONGEST + 1)
    for to in range(4):
        for start in range(4):
            found.append(sum_of_rooms(with_part(MARGIN // 2 + to, SOURCE[start:start + length]) for length in lengths))
        found.append(sum_of_rooms(with_part(4 + to, ROOM[6:6 + length]) for length in lengths))
        found.append(sum_of_rooms(with_part(12, ROOM[4 + 2 * to:4 + 2 * to + length]) for length in lengths))
        found.append(sum_of_rooms(with_part(MARGIN // 2 + to, filling(length)) for length in lengths))
    return found
