#!/usr/bin/env python3
"""Answers a ledger on standard input: a second program, beside the proved one, to compare with.

It is written from the rules alone (docs/RULES.md, docs/ARCHIVE.md, docs/LEDGER.md) and shares nothing with
the proved program. Hours are exact fractions here, a study is a list of lives, and a fit is the max-min rule
itself, tried over all runs of pieces.
"""
import re
import sys
from collections import Counter
from fractions import Fraction
from itertools import groupby
from math import ceil

MOST_PLACES = 1024
MOST_MEMORY = 4096
MOST_ROOM = 8192
LAST_AGE = 2_097_151
LAST_SERIAL = 268_435_455
STATUS_WORDS = [b"FAILED", b"WITHDRAWN", b"RUNNING"]
MOST_UNITS = 1024
MOST_BULK = 2_147_483_648
MOST_PIECES = {b"rates": 1024, b"shares": 64}
SHAPES = [b"falling", b"rising", b"ushaped"]
ROWS = 64
MOST_TRIALS = 1_000_000
# Percentiles in thousandths, for 1 to 10 failures.
PERCENTILES = {
    b"95": [5991, 9488, 12592, 15507, 18307, 21026, 23685, 26296, 28869, 31410],
    b"90": [4605, 7779, 10645, 13362, 15987, 18549, 21064, 23542, 25989, 28412],
}

sys.set_int_max_str_digits(0)


class NotUnderstood(Exception):
    """The line is no command."""


class NotNow(Exception):
    """The state does not allow the line."""


class Refused(Exception):
    """The library's rules refuse the call, by a number and at times a word's layer and place."""

    def __init__(self, number, where=""):
        super().__init__("refused %02d%s" % (number, where))


# ---- the forms of fields

def decimal(field, limit=2**32 - 1):
    if not re.fullmatch(rb"[0-9]+", field) or int(field) > limit:
        raise NotUnderstood
    return int(field)


def hours(field):
    if not re.fullmatch(rb"-?[0-9]+(\.[0-9]+)?", field):
        raise NotUnderstood
    return float(field)


def archive_word(field):
    if not re.fullmatch(rb"[0-9A-Fa-f]{8}", field):
        raise NotUnderstood
    return int(field, 16)


def piece(kind, field):
    """Two numbers with a slash between: failures and exposure, or successes and trials."""
    numbers = field.split(b"/")
    count(numbers, 2)
    above, below = map(decimal, numbers)
    if below == 0 or kind == b"shares" and above > below:
        raise NotUnderstood
    return above, below


def count(fields, wanted):
    if len(fields) != wanted:
        raise NotUnderstood


# ---- lives

def ticks(hours):
    """Four times the hours, exactly, where that is a whole number of ticks of an age."""
    if hours in (float("inf"), float("-inf")):
        raise Refused(2)
    quarters = 4 * Fraction(hours)
    if quarters.denominator != 1 or not 0 <= quarters <= LAST_AGE:
        raise Refused(2)
    return int(quarters)


def check_life(serial, entry, exit, status):
    if status > 2:
        raise Refused(1)
    if not entry < exit <= LAST_AGE:
        raise Refused(3)
    if not 1 <= serial <= LAST_SERIAL:
        raise Refused(4)


def check_word(words):
    check = 0
    for word in words:
        turned = (check << 5 | check >> 27) % 2**32
        check = (turned + word) % 2**32
    return check


class Study:
    """Lives as [serial, entry, exit, status, struck], in order of their places."""

    def __init__(self, memory):
        self.most = min(memory, MOST_PLACES)
        self.lives = []
        self.sealed = False

    def enter(self, serial, entry, exit, status):
        check_life(serial, entry, exit, status)
        if len(self.lives) >= self.most:
            raise Refused(9)
        self.lives.append([serial, entry, exit, status, False])
        return len(self.lives) - 1

    def row(self, serial, from_hours, to_hours, word):
        if word not in STATUS_WORDS:
            raise Refused(1)
        entry, exit = ticks(from_hours), ticks(to_hours)
        return self.enter(serial, entry, exit, STATUS_WORDS.index(word))

    def strike(self, place):
        if place >= len(self.lives) or self.lives[place][4]:
            raise Refused(10)
        self.lives[place][4] = True

    def archive(self, room):
        words = [1 << 28 | 1, 2 << 28 | len(self.lives)]
        for serial, entry, exit, status, struck in self.lives:
            words += [3 << 28 | serial, 4 << 28 | entry, 5 << 28 | exit, 6 << 28 | status + 4 * struck]
        words.append(check_word(words))
        if len(words) > room:
            raise Refused(13)
        return words

    def watches(self):
        return [(entry, exit, status == 0) for _, entry, exit, status, struck in self.lives if not struck]

    def load(self, words):
        if self.lives:
            raise Refused(5)
        lives = decode(words)
        if len(lives) > self.most:
            raise Refused(9)
        self.lives = lives
        return len(lives)


def decode(words):
    """The lives of an archive, or the refusal with the layer and the place of the first bad word."""
    if len(words) < 3:
        raise Refused(6, " frame %d" % len(words))
    lives_named = words[1] % 2**28
    if lives_named > MOST_PLACES or len(words) != 3 + 4 * lives_named:
        raise Refused(6, " frame %d" % len(words))
    lives = []
    for place, word in enumerate(words[:-1]):
        kind, payload = word >> 28, word % 2**28
        if place == 0:
            good = (kind, payload) == (1, 1)
        elif place == 1:
            good = kind == 2
        elif place % 4 == 2:
            good = kind == 3 and payload >= 1
            life = [payload]
        elif place % 4 == 3:
            good = kind == 4 and payload < LAST_AGE
            life.append(payload)
        elif place % 4 == 0:
            good = kind == 5 and life[1] < payload <= LAST_AGE
            life.append(payload)
        else:
            good = kind == 6 and payload in (0, 1, 2, 4, 5, 6)
            lives.append(life + [payload % 4, payload >= 4])
        if not good:
            raise Refused(7, " %s %d" % ("frame" if place < 2 else "life", place))
    if words[-1] != check_word(words[:-1]):
        raise Refused(8, " frame %d" % (len(words) - 1))
    return lives


# ---- fits

def rising_values(pieces):
    """The values of the rising fit.

    The value at i is the greatest, over a <= i, of the least, over b >= i, of the ratio of a to b pooled.
    """
    values = [Fraction(-1)] * len(pieces)
    for a in range(len(pieces)):
        above, below, ratios = 0, 0, []
        for more_above, more_below in pieces[a:]:
            above, below = above + more_above, below + more_below
            ratios.append(Fraction(above, below))
        least = ratios[-1]
        for i in reversed(range(a, len(pieces))):
            least = min(least, ratios[i - a])
            values[i] = max(values[i], least)
    return values


def falling_values(pieces):
    """The values of the falling fit.

    The value at i is the greatest, over b >= i, of the least, over a <= i: the rising rule, read from the end.
    """
    return rising_values(pieces[::-1])[::-1]


def blocks(pieces, values):
    """The longest runs of pieces with equal values, each (first, last, above, below)."""
    made = []
    for _, run in groupby(range(len(pieces)), lambda i: values[i]):
        run = list(run)
        made.append((run[0], run[-1], sum(pieces[i][0] for i in run), sum(pieces[i][1] for i in run)))
    return made


def rising(pieces):
    """The blocks of the rising fit."""
    return blocks(pieces, rising_values(pieces))


def falling(pieces):
    """The blocks of the falling fit."""
    return blocks(pieces, falling_values(pieces))


def pool(kind, pieces, room):
    bulks = [above + below if kind == b"rates" else below for above, below in pieces]
    if not pieces:
        raise Refused(12)
    if len(pieces) > room:
        raise Refused(13)
    if len(pieces) > MOST_PIECES[kind] or sum(bulks) > MOST_BULK:
        raise Refused(17)
    return rising(pieces)


def S(n):
    """About 65,536 times the binary logarithm of n: sixteen of its binary places, by squaring."""
    e = n.bit_length() - 1
    m = n * 2 ** (31 - e)
    bits = 0
    for _ in range(16):
        square = m * m
        bit = square >= 2**63
        bits = 2 * bits + bit
        m = square // (2**32 if bit else 2**31)
    return 65_536 * e + bits


def share_score(successes, trials):
    return sum(part * (S(part) - S(trials)) for part in (successes, trials - successes) if part > 0)


def rate_score(failures, exposure):
    return failures * (S(failures) - S(exposure)) if failures > 0 else 0


class Releases:
    """The release sheet: for each row its successes and trials."""

    def __init__(self):
        self.rows = {row: (0, 0) for row in range(1, ROWS + 1)}

    def note(self, release, successes, trials):
        if release not in self.rows or successes > trials or self.rows[release][1] + trials > MOST_TRIALS:
            raise Refused(16)
        noted = self.rows[release]
        self.rows[release] = noted[0] + successes, noted[1] + trials

    def growth(self, room):
        """The steps (first row, last row, successes, trials) and the score."""
        tried = [row for row in self.rows if self.rows[row][1] > 0]
        blocks = pool(b"shares", [self.rows[row] for row in tried], room)
        steps = [(tried[first], tried[last], successes, trials) for first, last, successes, trials in blocks]
        return steps, sum(share_score(successes, trials) for _, _, successes, trials in steps)


# ---- the bench

class Bench:
    def __init__(self, units, stop, ages):
        self.units, self.stop, self.ages = units, stop, ages
        self.good = (1 <= units <= MOST_UNITS and 1 <= stop <= LAST_AGE and len(ages) <= units
                     and ages == sorted(ages) and all(1 <= age <= stop for age in ages))

    def watches(self):
        """A unit that fails is watched until its failure, any other until the stop; none of a void bench."""
        if not self.good:
            return []
        survivors = self.units - len(self.ages)
        return [(0, age, True) for age in self.ages] + [(0, self.stop, False)] * survivors

    def bound(self, percentiles):
        """percentile / (2 * total time on test), for a million unit-ticks, rounded up."""
        if not self.good or not self.ages:
            raise Refused(12)
        if self.stop != self.ages[-1]:
            raise Refused(14)
        if len(self.ages) > len(percentiles):
            raise Refused(15)
        total = sum(self.ages) + (self.units - len(self.ages)) * self.stop
        bound = Fraction(percentiles[len(self.ages) - 1], 1000) / (2 * total) * 1_000_000
        return ceil(bound)


# ---- curves

def turned_at(j, ages, failures, exposures):
    """The curve with turning gap j: its score, j, and its steps.

    ages[i] is Xi for i from 0 to k, and ages[k + 1] the oldest age; failures[i] is di, exposures[i] is Ti.
    """
    k = len(ages) - 2
    left = [(failures[i], exposures[i]) for i in range(1, j)]
    right = [(failures[i], exposures[i + 1]) for i in range(j, k + 1)]
    before = [(ages[a], ages[b + 1], d, t) for a, b, d, t in falling(left)]
    after = [(ages[j + a], ages[j + b + 1], d, t) for a, b, d, t in rising(right)]
    trough = [(ages[j - 1], ages[j], 0, exposures[j])] if ages[j - 1] < ages[j] else []
    score = sum(rate_score(d, t) for _, _, d, t in before + after)
    return score, j, before + trough + after


def fit(shape, watches, steps_room, work_room):
    """The curve fitted to units, each watched for entry < t <= exit, and failing at its exit or not.

    Gives the steps, the turning gap, the score, the failures counted and set aside, and the total time on test.
    """
    oldest = max((exit for _, exit, _ in watches), default=0)
    at = Counter(exit for _, exit, failed in watches if failed)
    aside = 0 if shape == b"falling" else at.pop(oldest, 0)
    k = len(at)
    if k == 0:
        raise Refused(12)
    if steps_room < k + 1 or work_room < k + 1:
        raise Refused(13)
    ages = [0] + sorted(at) + [oldest]
    failures = [at[age] for age in ages]
    exposures = [0] + [sum(max(0, min(exit, to) - max(entry, start)) for entry, exit, _ in watches)
                       for start, to in zip(ages, ages[1:])]
    turns = {b"falling": [k + 1], b"rising": [1], b"ushaped": range(1, k + 2)}[shape]
    curves = [turned_at(j, ages, failures, exposures) for j in turns]
    score, j, steps = max(curves, key=lambda curve: curve[0])  # the earliest of the greatest
    total = sum(exit - entry for entry, exit, _ in watches)
    return steps, j, score, sum(at.values()), aside, total


# ---- lines

def listed(lines, last):
    """An answer of some lines of numbers, and a last line."""
    return "\n".join(lines + [last])


class Ledger:
    def __init__(self):
        self.study = Study(1024)
        self.rooms = {b"words": 4099, b"blocks": 1024, b"steps": 1025, b"work": 1025}
        self.releases = Releases()
        self.bench = None

    def open_study(self):
        if self.study.sealed:
            raise NotNow
        return self.study

    def command(self, fields):
        """Does a line, and gives its answer. All its fields are read before anything is done."""
        name, rest = fields[0], fields[1:]
        others = {b"note": self.note, b"growth": self.growth, b"pool": self.pool, b"bench": self.new_bench,
                  b"bound": self.bound, b"room": self.room, b"fit": self.fit}
        return others[name](rest) if name in others else self.study_command(name, rest, fields)

    def note(self, fields):
        count(fields, 3)
        release, successes, trials = map(decimal, fields)
        self.releases.note(release, successes, trials)
        return "noted %d" % release

    def growth(self, fields):
        count(fields, 0)
        steps, score = self.releases.growth(self.rooms[b"steps"])
        return listed(["%d %d %d %d" % step for step in steps], "growth %d %d" % (len(steps), score))

    def pool(self, fields):
        if not fields or fields[0] not in MOST_PIECES:
            raise NotUnderstood
        pieces = [piece(fields[0], field) for field in fields[1:]]
        blocks = pool(fields[0], pieces, self.rooms[b"blocks"])
        return listed(["%d %d %d/%d" % block for block in blocks], "blocks %d" % len(blocks))

    def new_bench(self, fields):
        numbers = [decimal(field) for field in fields]
        if len(numbers) < 2:
            raise NotUnderstood
        self.bench = Bench(numbers[0], numbers[1], numbers[2:])
        if not self.bench.good:
            raise Refused(11)
        return "bench"

    def bound(self, fields):
        count(fields, 1)
        if fields[0] not in PERCENTILES:
            raise NotUnderstood
        if self.bench is None:
            raise NotNow
        return "bound %d" % self.bench.bound(PERCENTILES[fields[0]])

    def fit(self, fields):
        count(fields, 2)
        shape, source = fields
        if shape not in SHAPES or source not in (b"study", b"bench"):
            raise NotUnderstood
        if not self.study.sealed if source == b"study" else self.bench is None:
            raise NotNow
        watches = (self.study if source == b"study" else self.bench).watches()
        steps, *numbers = fit(shape, watches, self.rooms[b"steps"], self.rooms[b"work"])
        last = "curve %d %d %d %d %d %d" % (len(steps), *numbers)
        return listed(["%d %d %d %d" % step for step in steps], last)

    def room(self, fields):
        count(fields, 2)
        what, places = fields[0], decimal(fields[1], MOST_ROOM)
        if what not in self.rooms:
            raise NotUnderstood
        self.rooms[what] = places
        return "room %s %d" % (what.decode(), places)

    def study_command(self, name, rest, fields):
        if name == b"memory":
            count(rest, 1)
            places = decimal(rest[0], MOST_MEMORY)
            self.study = Study(places)
            return "open %d" % places
        if name == b"enter":
            count(rest, 4)
            numbers = [decimal(field) for field in rest]
            return "place %d" % self.open_study().enter(*numbers)
        if name == b"strike":
            count(rest, 1)
            place = decimal(rest[0])
            self.open_study().strike(place)
            return "struck %d" % place
        if name == b"load":
            words = [archive_word(field) for field in rest]
            return "loaded %d" % self.open_study().load(words)
        if name == b"seal":
            count(rest, 0)
            self.open_study().sealed = True
            return "sealed %d" % len(self.study.lives)
        if name == b"archive":
            count(rest, 0)
            if not self.study.sealed:
                raise NotNow
            words = ["%08x" % word for word in self.study.archive(self.rooms[b"words"])]
            return "\n".join(" ".join(words[i:i + 8]) for i in range(0, len(words), 8))
        row = rest if name == b"row" else fields
        count(row, 4)
        row = decimal(row[0]), hours(row[1]), hours(row[2]), row[3]
        return "place %d" % self.open_study().row(*row)

    def answer(self, line):
        """The answer to a line, or None where it is passed over."""
        fields = re.findall(rb"[^ \t,]+", line)
        if not fields or line.startswith(b"#"):
            return None
        try:
            return self.command(fields)
        except NotUnderstood:
            return "not understood"
        except NotNow:
            return "not now"
        except Refused as refused:
            return str(refused)


def answers(text):
    """The answers to a ledger, a list of lines."""
    lines = text.split(b"\n")
    if not lines[-1]:
        lines.pop()
    ledger = Ledger()
    given = [ledger.answer(line.removesuffix(b"\r")) for line in lines]
    return [answer for answer in given if answer is not None]


def main():
    for answer in answers(sys.stdin.buffer.read()):
        print(answer)


if __name__ == "__main__":
    main()
