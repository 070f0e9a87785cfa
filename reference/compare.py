#!/usr/bin/env python3
"""Compares the proved program with the second one on many random ledgers.

    python3 reference/compare.py [LEDGERS [SEED]]

It makes ledgers (sound lines, lines with errors, bytes that are no text, sound and damaged archives, lists to
pool, benches, release sheets, curves of studies and benches, long ledgers and long lines), gives each to
crates/ledger/out/ledger (`rt run` in crates/ledger builds it) and to reference/ledger.py, and compares the answers byte for
byte. It says how many it compared and which answers were met, and ends with status 1 where any differ, or where
reference/ledger.py answers a worked case of docs/RULES.md otherwise than is written there.
"""
import pathlib
import random
import subprocess
import sys
from collections import Counter
from fractions import Fraction

import ledger
from failure_ages import failure_ages

PROGRAM = pathlib.Path(__file__).resolve().parent.parent / "crates/ledger/out/ledger"
AGES = [0, 1, 2, 3, 4, 2_097_149, 2_097_150, 2_097_151, 2_097_152, 2**32 - 1, 2**32]
SERIALS = [0, 1, 7, 1001, 268_435_455, 268_435_456, 2**32 - 1, 2**32]
HOURS = """0 -0 0.0 -0.000 0.25 0.5 1 1.75 2 0.1 0.3 -0.25 524287.75 524287.5 524288 524287.7500000000000000001
    0.25000000000000000001 0.2499999999999999999999 0.24999999999999999 524287.7499999999999 524287.75000000003
    00000.2500 1e1 1.5e0 +1 .5 5. - -. inf -inf nan NaN infinity 1_000 0x1 1.2.3 --1""".split()
LONG_HOURS = ["0." + "0" * 400 + "1", "1" + "0" * 400, "0" * 5000 + ".25", "0.25" + "0" * 800 + "1", "9" * 309 + ".5"]
WORDS = "FAILED WITHDRAWN RUNNING".split()
OTHER_WORDS = "failed Failed FAILED. FAILE WITHDRAWNN LOST #".split()
OTHER_LINES = """# comment|#|| , ,\t| # none|hello|seal it|archive all|row|enter|strike|memory|room|room words
    |memory x|load 1|SEAL|row row 1 0 1 FAILED|pool|pool rate 1/2|pool 1/2|Pool rates 1/2|bench|bench 10
    |bench 10 x|bench 10 5 -1|bench 4294967296 5|bound|bound 95 90|bound 80|bound 095|bound 95.0|note
    |note 1 4|note 1 4 10 1|note 1 4 x|note 1 4 4294967296|growth 1|growths|room blocks|room steps x
    |room block 5|room words 5 5|room work|room work 5 5|room works 5|fit|fit falling|fit study|fit study falling
    |fit falling lives|fit u-shaped study|fit Rising bench|fit falling study 1|fit ushaped bench bench
    |fits falling study|fit rising, bench|fit falling sealed""".split("|")
LIMIT = 2_147_483_648
LAST_AGE = ledger.LAST_AGE
SHAPES = "falling rising ushaped".split()
OTHER_PIECES = """1 / 1/ /1 1/2/3 1//2 1/0 0/0 5/4 -1/2 +1/2 1/-2 1.0/2 1/x 0x1/2 007/0008 1/4294967295 1/4294967296
    4294967296/1 4294967295/1 4294967295/4294967295 2147483648/2147483648 0/2147483648 0/2147483649""".split()

# Ledgers of the worked cases of curves, each with its answers from `sealed` or `bench` on.
FIVE = "enter 1001 0 1 0|enter 1002 0 2 0|enter 1003 0 6 0|enter 1004 0 7 0|"
WORKED = [
    (FIVE + "enter 1005 0 8 1|seal|fit ushaped study|fit falling study|fit rising study",
     "sealed 5|0 2 2 9|2 6 0 12|6 7 1 2|7 8 1 1|curve 4 3 -349952 4 0 24"
     "|0 2 2 9|2 7 2 14|7 8 0 1|curve 3 5 -652380 4 0 24"
     "|0 1 0 5|1 6 2 16|6 7 1 2|7 8 1 1|curve 4 1 -458752 4 0 24"),
    (FIVE + "seal|fit falling study|fit ushaped study",
     "sealed 4|0 2 2 7|2 7 2 9|curve 2 5 -521308 4 0 16|0 2 2 7|2 6 0 8|6 7 1 1|curve 3 3 -236892 3 1 16"),
    ("bench 10 38 4 9 11 18 27 38|fit falling bench",
     "bench|0 11 3 101|11 18 1 49|18 27 1 54|27 38 1 55|curve 4 7 -2121444 6 0 259"),
    ("bench 10 50 4 9 11 18 27 38|fit falling bench",
     "bench|0 11 3 101|11 18 1 49|18 27 1 54|27 38 1 55|38 50 0 48|curve 5 7 -2121444 6 0 307"),
    ("enter 1 0 1 0|seal|fit falling study|fit ushaped study", "sealed 1|0 1 1 1|curve 1 2 0 1 0 1|refused 12"),
]


class Maker:
    """Makes one ledger."""

    def __init__(self, rng):
        self.rng = rng

    def archive(self, lives):
        """The words of an archive with random lives."""
        rng = self.rng
        made = []
        for _ in range(lives):
            entry = rng.choice([0, 1, 5, 2_097_150, rng.randrange(2_097_151)])
            exit = rng.choice([entry + 1, 2_097_151, rng.randrange(entry + 1, 2_097_152)])
            serial = rng.choice([1, 268_435_455, rng.randrange(1, 2**28)])
            made.append((serial, entry, exit, rng.choice([0, 1, 2, 4, 5, 6])))
        return self.words(made)

    def words(self, lives):
        """The words of an archive: of each life a serial, an entry, an exit, and a status, 4 more where struck."""
        words = [1 << 28 | 1, 2 << 28 | len(lives)]
        for serial, entry, exit, mark in lives:
            words += [3 << 28 | serial, 4 << 28 | entry, 5 << 28 | exit, 6 << 28 | mark]
        return words + [ledger.check_word(words)]

    def damage(self, words):
        """Changes a word, or the number of words; at times the check word is made to fit again."""
        rng = self.rng
        place = rng.randrange(len(words))
        change = rng.randrange(6)
        if change == 0:
            words[place] ^= 1 << rng.randrange(32)
        elif change == 1:
            words[place] = rng.choice([words[place] + 1, words[place] - 1]) % 2**32
        elif change == 2:
            words[place] = rng.randrange(2**32)
        elif change == 3:
            words[place] = words[place] >> 28 << 28 | rng.choice([0, 3, 7, 8, 1024, 1025, 2_097_151, 2_097_152])
        elif change == 4:
            del words[place]
        else:
            words.insert(place, rng.choice(words))
        if words and rng.random() < 0.6:
            words[-1] = ledger.check_word(words[:-1])
        return words

    def load(self):
        rng = self.rng
        words = self.archive(rng.choice([0, 1, 2, 3, rng.randrange(12)]))
        while words and rng.random() < 0.5:
            words = self.damage(words)
        case = rng.choice(["%08x", "%08X"])
        return "load " + " ".join(case % word for word in words)

    def pieces(self, kind, length):
        """A list of pieces, as pairs of numbers: ties, trends, or bulks that add up to about the limit."""
        rng = self.rng
        most = rng.choice([1, 3, 10, 1000, LIMIT // (3 * max(length, 1)), LIMIT // max(length, 1)])
        pieces = []
        for _ in range(length):
            below = rng.randint(max(1, most - 3), most) if rng.random() < 0.2 else rng.randint(1, most)
            above = rng.randint(0, rng.choice([below, min(below, 3)] + [most] * (kind == "rates")))
            pieces.append((above, below))
        change = rng.randrange(6)
        if change == 0:  # rising, with some ties
            pieces.sort(key=lambda piece: Fraction(*piece))
        elif change == 1:  # falling: one block
            pieces.sort(key=lambda piece: Fraction(*piece), reverse=True)
        elif change == 2 and pieces:  # multiples of a few ratios
            few = [(above % 4, below % 3 + 3) for above, below in pieces[:3]]
            many = [(times * above, times * below) for above, below in few for times in (1, 2, 3, 5)]
            pieces = rng.choices(many, k=length)
        elif change == 3 and pieces:  # the bulks add up to the limit, or one less or more
            bulk = sum(below + above * (kind == "rates") for above, below in pieces)
            left = LIMIT + rng.choice([-1, 0, 0, 1]) - bulk
            place = rng.randrange(length)
            above, below = pieces[place]
            pieces[place] = above, max(below + left, above, 1)
        return pieces

    def pool(self):
        rng = self.rng
        kind = rng.choice(["rates", "shares"])
        length = rng.choice([0, 1, 2, 3, 5, 63, 64, 65, 66, rng.randrange(12), rng.randrange(12), rng.randrange(71)])
        pieces = ["%d/%d" % piece for piece in self.pieces(kind, length)]
        if rng.random() < 0.1:
            pieces.insert(rng.randint(0, length), rng.choice(OTHER_PIECES))
        return " ".join(["pool", kind] + pieces)

    def bench(self):
        """A bench, mostly sound, and the bounds of it."""
        rng = self.rng
        most = rng.choice([5, 40, 2_097_151])
        ages = sorted(rng.randint(1, most) for _ in range(rng.randint(0, 12)))
        stop = ages[-1] if ages and rng.random() < 0.7 else most
        units = rng.choice([len(ages), len(ages) + 1, 12, 1024])
        change = rng.randrange(16)
        if change == 0:
            units = rng.choice([0, 1, 5, 1025, 2**32 - 1])
        elif change == 1:
            stop = rng.choice([0, 1, 2_097_151, 2_097_152, 2**32 - 1])
        elif change == 2:
            rng.shuffle(ages)
        elif change == 3:
            ages.insert(rng.randint(0, len(ages)), rng.choice([0, 1, stop, stop + 1]))
        lines = ["bench " + " ".join(map(str, [units, stop] + ages)), "bound 95", "bound 90"]
        return "\n".join(lines[:rng.randint(1, 3)])

    def lives(self):
        """Lives (serial, entry, exit, mark) for a curve."""
        rng = self.rng
        ages = failure_ages(self.rng)
        change = rng.randrange(6)
        if change < 2:  # all from the beginning
            lives = [(0, age) for age in ages]
        elif change < 4:  # each followed by the next one, so that as many are watched in each tick
            lives = [(before, age) for before, age in zip([0] + ages, ages) if before < age]
            lives *= rng.choice([1, 1, 2, 3])
            if rng.random() < 0.6:
                return [(5, entry, exit, 0) for entry, exit in lives]
        else:
            lives = [(rng.choice([0, 0, age - 1, rng.randrange(age)]), age) for age in ages]
        marks = rng.choice([[0], [0, 0, 0, 1], [0, 1, 2], [0, 0, 0, 4, 5], [0, 0, 0, 1, 2, 4, 5, 6]])
        lives = [(rng.randint(1, 9), entry, exit, rng.choice(marks)) for entry, exit in lives]
        if lives and rng.random() < 0.5:  # one that was watched as long as the oldest, or longer
            oldest = lives[-1][2]
            until = min(LAST_AGE, oldest + rng.choice([0, 1, 1, 2, 5, LAST_AGE]))
            lives.append((9, rng.choice([0, 0, until - 1]), until, rng.choice([1, 2, 0])))
        if rng.random() < 0.1:  # only the oldest fails
            lives = [life[:3] + (1,) for life in lives[:-1]] + lives[-1:]
        if rng.random() < 0.5:
            rng.shuffle(lives)
        return lives

    def fits(self, source, failure_ages):
        """Some fits of a source, with rooms that are at times just large enough or just too small."""
        rng = self.rng
        lines = []
        rooms = rng.sample(["steps", "work"], rng.choice([0, 0, 1, 2]))
        for room in rooms:
            lines.append("room %s %d" % (room, max(0, failure_ages + rng.choice([-1, 0, 0, 1, 1, 2]))))
        for shape in rng.sample(SHAPES, rng.randint(1, 3)):
            lines.append("fit %s %s" % (shape, source))
        if rng.random() < 0.9:
            lines += ["room %s 1025" % room for room in rooms]
        return lines

    def study_curves(self):
        """A study by rows, lives or an archive, and curves of it."""
        rng = self.rng
        lives = self.lives()
        lines = ["memory 1024"] if rng.random() < 0.95 else []
        if rng.random() < 0.3:
            lines.append("load " + " ".join("%08x" % word for word in self.words(lives)))
        else:
            for serial, entry, exit, mark in lives:
                if rng.random() < 0.5:
                    lines.append("enter %d %d %d %d" % (serial, entry, exit, mark % 4))
                else:
                    lines.append("%d,%.2f,%.2f,%s" % (serial, entry / 4, exit / 4, WORDS[mark % 4]))
            lines += ["strike %d" % place for place, life in enumerate(lives) if life[3] >= 4]
        if rng.random() < 0.1:
            lines.append("fit %s study" % rng.choice(SHAPES))
        if rng.random() < 0.95:
            lines.append("seal")
        return "\n".join(lines + self.fits("study", len({life[2] for life in lives if life[3] == 0})))

    def bench_curves(self):
        """A bench, mostly sound, and curves of it."""
        rng = self.rng
        ages = failure_ages(self.rng)
        last = ages[-1] if ages else 1
        stop = rng.choice([last, last, min(LAST_AGE, last + 1), min(LAST_AGE, last + 3), LAST_AGE])
        units = len(ages) + rng.choice([0, 0, 1, 2, 1024 - len(ages)])
        change = rng.randrange(20)
        if change == 0:
            units = rng.choice([0, max(0, len(ages) - 1), 1025])
        elif change == 1:
            stop = rng.choice([0, last - 1, LAST_AGE + 1])
        elif change == 2:
            rng.shuffle(ages)
        line = "bench " + " ".join(map(str, [units, stop] + ages))
        return "\n".join([line] + self.fits("bench", len(set(ages))))

    def notes(self):
        """Some notes, and growth."""
        rng = self.rng
        lines = []
        rows = rng.choice([range(1, 4), range(1, 65)])
        most = rng.choice([1, 3, 10, 1000, 500_000, 1_000_000])
        for _ in range(rng.choice([0, 1, 1, 3, 10, 80])):
            trials = rng.randint(0, most)
            note = [rng.choice(rows), rng.randint(0, trials), trials]
            if rng.random() < 0.1:
                note[rng.randrange(3)] = rng.choice([0, 1, 64, 65, 999_999, 1_000_000, 1_000_001, 2**32 - 1])
            lines.append("note %d %d %d" % tuple(note))
        return "\n".join(lines + ["growth"])

    def hours(self):
        rng = self.rng
        return rng.choice([
            rng.choice(HOURS),
            "%.2f" % (rng.randrange(40) / 4),
            "%s" % (rng.randrange(2_097_160) / 4),
            "%.*f" % (rng.randrange(1, 30), rng.random() * 10 ** rng.randrange(7)),
        ])

    def line(self):
        rng = self.rng
        kind = rng.randrange(38)
        if kind < 6:
            row = [rng.choice(SERIALS + [5] * 20), self.hours(), self.hours(), rng.choice(WORDS * 8 + OTHER_WORDS)]
            blank = rng.choice([" ", ",", "\t", ", ", " ,\t "])
            return rng.choice(["", "row "]) + blank.join(map(str, row))
        if kind < 10:
            numbers = [rng.choice(SERIALS[1:5]), rng.choice(AGES[:7]), rng.choice(AGES[1:8]), rng.randrange(3)]
            if rng.random() < 0.3:
                numbers[rng.randrange(4)] = rng.choice(SERIALS + AGES)
            return "enter " + " ".join(map(str, numbers))
        if kind < 13:
            return "strike %d" % rng.choice([0, 1, 2, 3, rng.randrange(20), 2**32 - 1])
        if kind < 15:
            return self.load()
        if kind == 15:
            return "seal"
        if kind == 16:
            return "archive"
        if kind == 17:
            return "memory %d" % rng.choice([0, 1, 2, 3, 5, 20, 1024, 1025, 4096, 4097])
        if kind == 18:
            return "room words %d" % rng.choice([0, 2, 3, 7, 11, 50, 4099, 8192, 8193])
        if kind == 19:
            places = rng.choice([0, 1, 2, 5, 63, 64, 65, 1024, 1024, 1025, 8192, 8193])
            return "room %s %d" % (rng.choice(["blocks", "steps", "work"]), places)
        if kind < 24:
            return self.pool()
        if kind < 27:
            return self.bench()
        if kind < 29:
            return self.notes()
        if kind < 32:
            return self.study_curves()
        if kind < 35:
            return self.bench_curves()
        if kind == 35:
            return "fit %s %s" % (rng.choice(SHAPES), rng.choice(["study", "bench"]))
        return rng.choice(OTHER_LINES)

    def spoil(self, line):
        """Changes, adds or takes out some bytes."""
        rng = self.rng
        for _ in range(rng.randrange(1, 4)):
            place = rng.randrange(len(line) + 1)
            byte = bytes([rng.choice([rng.randrange(256), 0, 13, 32, 44, 46, 45, 43, 48, 255])])
            line = line[:place] + rng.choice([b"", byte]) + line[place + rng.randrange(2):]
        return line

    def text(self):
        rng = self.rng
        text = b""
        for _ in range(rng.choice([0, 1, 5, 20, 60])):
            line = self.line().encode()
            if rng.random() < 0.12:
                line = self.spoil(line)
            text += line + rng.choice([b"\n", b"\n", b"\r\n"])
        return text.rstrip(b"\r\n") if rng.random() < 0.3 else text


def long_ledgers(rng):
    """Ledgers that are too long to make often."""
    maker = Maker(rng)
    lives = b"".join(b"enter %d 0 %d %d\n" % (i % 9 + 1, i + 1, i % 3) for i in range(1030))
    for memory in (1000, 1023, 1024, 1025, 4096):
        yield b"memory %d\n" % memory + lives + b"strike 1023\nstrike 1024\nseal\narchive\n"
    for count in (1023, 1024, 1025):
        words = " ".join("%08x" % word for word in maker.archive(count)).encode()
        for memory in (1022, 1023, 1024, 4096):
            yield b"memory %d\nload " % memory + words + b"\nenter 1 0 1 0\nseal\narchive\n"
    for hours in LONG_HOURS:
        yield ("1 0 %s FAILED\n1 -%s 9 FAILED\nseal\narchive" % (hours, hours)).encode()
    yield b"1 0 1 FAILED" + b" " * 3_000_000 + b"\n" + b"x" * 3_000_000 + b"\n" + b"\0" * 100_000 + b"\n\xff\xfe"
    yield b"enter " + b"0" * 100_000 + b"1 0 1 0\n" + b"load" + b" 00000000" * 100_000 + b"\nseal\narchive"
    yield bytes(rng.randrange(256) for _ in range(200_000))
    for length in (1023, 1024, 1025):
        for room in (1023, 1024, 1025, 8192):
            pieces = " ".join("%d/%d" % piece for piece in maker.pieces("rates", length))
            yield ("room blocks %d\npool rates %s\npool shares %s" % (room, pieces, "1/2 " * length)).encode()
    for units in (1023, 1024, 1025):
        ages = b" ".join(b"%d" % age for age in sorted(rng.randint(1, 2_097_151) for _ in range(1024)))
        yield b"bench %d 2097151 %s\nbound 95\nbench %d 2097151 2097151\nbound 90\n" % (units, ages, units)
    full = b"".join(b"note %d %d 1000000\nnote %d 0 1\n" % (row, rng.randint(0, 10**6), row) for row in range(66))
    yield full + b"growth\nroom steps 63\ngrowth\nroom steps 64\ngrowth\n"
    yield b"pool rates" + b" 1/1" * 100_000 + b"\nbench 9 9" + b" 9" * 100_000 + b"\nbound 90\n"
    yield from long_curves(rng)


def long_curves(rng):
    """Ledgers with curves of many lives; U-shaped ones of fewer ages, since trying every run takes long."""
    maker = Maker(rng)

    def enter(ages):
        return "".join("enter %d 0 %d 0\n" % (i % 9 + 1, age) for i, age in enumerate(ages))

    def bench(ages, stop):
        return "bench 1024 %d %s\n" % (stop, " ".join(map(str, sorted(ages))))

    def fits(source, shapes=SHAPES):
        return "".join("fit %s %s\n" % (shape, source) for shape in shapes)

    # 1,024 different failure ages. The last is set aside in a rising fit, which then needs a place less.
    ages = rng.sample(range(1, LAST_AGE), 1024)
    one_way = SHAPES[:2]
    yield (enter(ages) + "seal\n" + fits("study", one_way)).encode()
    yield (bench(ages, max(ages)) + fits("bench", one_way)).encode()
    yield (bench(range(1, 1025), 1024) + fits("bench", one_way)).encode()
    small = "".join("room steps %d\nroom work %d\n" % rooms + fits("bench") for rooms in ((1023, 1025), (1025, 1023)))
    edge = "room steps 1024\nroom work 1024\n" + fits("bench", one_way)
    yield (bench(ages, max(ages)) + small + edge).encode()
    # 1,023 different failure ages and a life that outlives them; loaded, with some struck.
    lives = [(5, 0, age, rng.choice([0, 0, 0, 0, 4])) for age in ages[:1023]] + [(5, 0, LAST_AGE, 1)]
    words = " ".join("%08x" % word for word in maker.words(lives))
    yield ("load %s\nseal\n" % words + fits("study", one_way)).encode()
    # 1,024 lives with fewer different failure ages, in all shapes.
    for length in (40, 100, 150):
        few = rng.sample(range(1, LAST_AGE), length)
        many = few + rng.choices(few[:length // 2], k=1023 - length)
        rng.shuffle(many)
        yield (enter(many) + "enter 7 0 %d 1\nseal\n" % LAST_AGE + fits("study")).encode()
        yield (bench(many, LAST_AGE) + fits("bench")).encode()
    # All or half at one age, with the highest exposure that there is; and none.
    for ages in ([LAST_AGE] * 1024, [LAST_AGE - 1] * 1023, [LAST_AGE - 1] * 512 + [LAST_AGE] * 512, [1] * 1023, []):
        yield (bench(ages, LAST_AGE) + fits("bench")).encode()
        yield (enter(ages) + "enter 7 %d %d 0\nseal\n" % (LAST_AGE - 1, LAST_AGE) + fits("study")).encode()


def kind(answer):
    """The kind of an answer: the first word of its last line, or the first two of a refusal and of `not ..`."""
    words = answer.split("\n")[-1].split()
    if words[0] in ("refused", "not"):
        return " ".join(words[:2])
    return "archive" if answer.startswith("10000001") else words[0]


def proved(text):
    """What the proved program prints."""
    done = subprocess.run([PROGRAM], input=text, capture_output=True)
    return done.stdout if done.returncode == 0 else b"status %d\n" % done.returncode


def wrongly_worked():
    """How many worked cases reference/ledger.py answers otherwise than is written."""
    wrong = 0
    for text, wanted in WORKED:
        lines = "\n".join(ledger.answers(text.replace("|", "\n").encode())).split("\n")
        wanted = wanted.split("|")
        if lines[-len(wanted):] != wanted:
            wrong += 1
            print("worked otherwise:", text, lines)
    return wrong


def main():
    ledgers = int(sys.argv[1]) if len(sys.argv) > 1 else 3000
    rng = random.Random(int(sys.argv[2]) if len(sys.argv) > 2 else 1)
    texts = list(long_ledgers(rng)) + [Maker(rng).text() for _ in range(ledgers)]
    texts += [text.replace("|", "\n").encode() for text, _ in WORKED]
    met, lines, differ = Counter(), 0, wrongly_worked()
    for text in texts:
        answers = ledger.answers(text)
        lines += text.count(b"\n")
        met.update(kind(answer) for answer in answers)
        if proved(text) != b"".join(answer.encode() + b"\n" for answer in answers):
            differ += 1
            print("differs:", text[:2000])
    print("%d ledgers of %d lines compared, %d differ" % (len(texts), lines, differ))
    print(", ".join("%s: %d" % answer for answer in sorted(met.items())))
    sys.exit(differ > 0)


if __name__ == "__main__":
    main()
