"""Reads an archive of 32-bit words, as ARCHIVE.md describes it.

As a script: reads hexadecimal words from standard input and prints one line
for each life (serial, entry, exit, status, and `struck` if it is), or the
refusal (`refused`, number, layer, place). Exit code 0 for an archive that
stands, 1 for a refused one, 2 for input that is not words.
"""

import re
import sys
from typing import NamedTuple

MOST_PLACES = 1024
LAST_ENTRY = 2_097_150
LAST_EXIT = 2_097_151
STATUS = ("failed", "withdrawn", "running")
STRUCK = 4


class Life(NamedTuple):
    serial: int
    entry: int
    exit: int
    status: str
    struck: bool


class Refusal(NamedTuple):
    number: int
    layer: str
    place: int


def check_word(words):
    """The check word of the words that stand before it."""
    total = 0
    for word in words:
        turned = total << 5 | total >> 27  # cut to 32 bits below
        total = (turned + word) & 0xFFFFFFFF
    return total


def read_archive(words):
    """The list of lives, or the Refusal for the first fault."""
    # A word is its kind (top 4 bits) and its payload (the other 28).
    kind = [word >> 28 for word in words]
    payload = [word & 0x0FFFFFFF for word in words]

    # 1. Length.
    count = len(words)
    if count < 3 or payload[1] > MOST_PLACES or count != 3 + 4 * payload[1]:
        return Refusal(6, "frame", count)

    # 2. The words before the last.
    if kind[0] != 1 or payload[0] != 1:
        return Refusal(7, "frame", 0)
    if kind[1] != 2:
        return Refusal(7, "frame", 1)
    lives = []
    for at in range(2, count - 1, 4):
        serial, entry, exit_, status = payload[at:at + 4]
        allowed = (
            serial >= 1,
            entry <= LAST_ENTRY,
            entry < exit_ <= LAST_EXIT,
            status in (0, 1, 2, 4, 5, 6),
        )
        for j in range(4):
            if kind[at + j] != 3 + j or not allowed[j]:
                return Refusal(7, "life", at + j)
        lives.append(Life(serial, entry, exit_, STATUS[status % STRUCK],
                          status >= STRUCK))

    # 3. Check.
    if words[-1] != check_word(words[:-1]):
        return Refusal(8, "frame", count - 1)
    return lives


def main():
    texts = sys.stdin.read().split()
    for text in texts:
        if not re.fullmatch("[0-9A-Fa-f]{1,8}", text):
            print(f"not a 32-bit word: {text}", file=sys.stderr)
            return 2

    result = read_archive([int(text, 16) for text in texts])
    if isinstance(result, Refusal):
        print(f"refused {result.number:02} {result.layer} {result.place}")
        return 1
    for life in result:
        mark = " struck" if life.struck else ""
        print(f"{life.serial} {life.entry} {life.exit} {life.status}{mark}")
    return 0


if __name__ == "__main__":
    sys.exit(main())
