"""Compares archive.py with the program on random archives.

Use: compare_archives.py [PROGRAM [COUNT [SEED]]]

Each archive is loaded into a new study. The program's answer must be the one
of archive.py. The study is then sealed and its archive written again: after
an accepted load it must be the words loaded, after a refused one the archive
of the empty study. Exit code 1 where anything differs, 2 if the program
cannot be run.
"""

import random
import subprocess
import sys
from collections import Counter
from pathlib import Path

from archive import Life, Refusal, STATUS, check_word, read_archive

PROGRAM = Path(__file__).resolve().parent.parent / "crates/ledger/out/ledger"
COUNT = 10_000
SEED = 1
BATCH = 500  # archives in one run of the program
SHOWN = 10  # differences printed in full

EMPTY = [0x10000001, 0x20000000, 0x20000022]
# Payloads at and beside the limits of the page.
EDGES = (0, 1, 2, 3, 4, 5, 6, 7, 8, 1023, 1024, 1025, 2_097_149, 2_097_150,
         2_097_151, 2_097_152, 0x0FFFFFFE, 0x0FFFFFFF)


def random_life(rng):
    serial = rng.choice((1, 2, 0x0FFFFFFF, rng.randint(1, 0x0FFFFFFF)))
    entry = rng.choice((0, 2_097_150, rng.randint(0, 2_097_150)))
    exit_ = rng.choice((entry + 1, 2_097_151,
                        rng.randint(entry + 1, 2_097_151)))
    return Life(serial, entry, exit_, rng.choice(STATUS), rng.random() < 0.5)


def write_archive(lives):
    words = [0x10000001, 0x20000000 | len(lives)]
    for life in lives:
        status = STATUS.index(life.status) + 4 * life.struck
        words += [0x30000000 | life.serial, 0x40000000 | life.entry,
                  0x50000000 | life.exit, 0x60000000 | status]
    return words + [check_word(words)]


def damage(rng, words):
    """Damages the list of words in place, once."""
    how = rng.choice(("flip", "flip", "change", "payload", "payload", "kind",
                      "remove", "add", "swap", "life out", "life in", "cut"))
    at = rng.randrange(len(words)) if words else 0
    if how == "add":
        new = rng.choice((rng.getrandbits(32), *words[at:at + 1]))
        words.insert(rng.randint(0, len(words)), new)
    elif how == "cut":
        del words[rng.choice((rng.randint(0, 3), at)):]
    elif not words:
        return
    elif how == "flip":
        words[at] ^= 1 << rng.randrange(32)
    elif how == "change":
        words[at] = rng.getrandbits(32)
    elif how == "payload":
        words[at] = words[at] & 0xF0000000 | rng.choice(EDGES)
    elif how == "kind":
        words[at] = words[at] & 0x0FFFFFFF | rng.getrandbits(4) << 28
    elif how == "remove":
        del words[at]
    elif how == "swap":
        other = rng.randrange(len(words))
        words[at], words[other] = words[other], words[at]
    elif how == "life out" and len(words) >= 7:
        del words[2:6]
        if rng.random() < 0.7:
            words[1] = (words[1] - 1) & 0xFFFFFFFF
    elif how == "life in" and len(words) >= 3:
        words[2:2] = write_archive([random_life(rng)])[2:6]
        if rng.random() < 0.7:
            words[1] = (words[1] + 1) & 0xFFFFFFFF


def random_archive(rng):
    """The words, and the lives they must say if they are sound (or None)."""
    many = rng.random() < 0.03
    places = rng.choice((1023, 1024, 1025)) if many else rng.randint(0, 30)
    lives = [random_life(rng) for _ in range(places)]
    words = write_archive(lives)
    if rng.random() < 0.25:
        return words, lives if places <= 1024 else None
    for _ in range(rng.choice((1, 1, 1, 2, 3))):
        damage(rng, words)
    if words and rng.random() < 0.5:
        words[-1] = check_word(words[:-1])
    return words, None


def text(words):
    return " ".join(f"{word:08x}" for word in words)


def expected(words, result):
    """The lines the program must answer, from what archive.py found."""
    if isinstance(result, Refusal):
        answer = f"refused {result.number:02} {result.layer} {result.place}"
        places, kept = 0, EMPTY
    else:
        answer = f"loaded {len(result)}"
        places, kept = len(result), words
    return ([answer, f"sealed {places}"]
            + [text(kept[i:i + 8]) for i in range(0, len(kept), 8)])


def ask(program, batch):
    """The program's answers, one list of lines for each archive."""
    lines = "".join(f"memory 1024\nload {text(words)}".rstrip()
                    + "\nseal\narchive\n" for words in batch)
    run = subprocess.run([str(program)], input=lines, capture_output=True,
                         text=True)
    answers = []
    for line in run.stdout.splitlines():
        if line == "open 1024":
            answers.append([])
        elif answers:
            answers[-1].append(line)
    # A program that stopped early has not answered the rest.
    return answers + [[]] * (len(batch) - len(answers))


def main():
    given = sys.argv[1:]
    program = given[0] if given else PROGRAM
    count = int(given[1]) if len(given) > 1 else COUNT
    seed = int(given[2]) if len(given) > 2 else SEED

    rng = random.Random(seed)
    tally = Counter()
    compared = different = 0

    def differs(words, what):
        nonlocal different
        different += 1
        if different <= SHOWN:
            print(f"differs: {what}\n  words: {text(words)[:400]}")

    while compared < count:
        size = min(BATCH, count - compared)
        made = [random_archive(rng) for _ in range(size)]
        answers = ask(program, [words for words, _ in made])
        if len(answers) != len(made):
            differs([], f"{len(answers)} answers for {len(made)} archives")
        for (words, lives), answer in zip(made, answers):
            compared += 1
            result = read_archive(words)
            if isinstance(result, Refusal):
                tally[result.number] += 1
            else:
                tally["accepted"] += 1
                if write_archive(result) != words:
                    differs(words, "archive.py's lives do not give the words")
            if lives is not None and result != lives:
                differs(words, "archive.py does not read the lives written")
            wanted = expected(words, result)
            if answer != wanted:
                differs(words, f"wanted {wanted[:2]}, answered {answer[:2]}")

    print(f"compared {compared}, accepted {tally['accepted']}, "
          f"refused by 6: {tally[6]}, by 7: {tally[7]}, by 8: {tally[8]}, "
          f"different {different}")
    return 1 if different else 0


if __name__ == "__main__":
    try:
        sys.exit(main())
    except OSError as error:
        print(f"the program cannot be run: {error}", file=sys.stderr)
        sys.exit(2)
