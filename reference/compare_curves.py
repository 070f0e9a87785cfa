#!/usr/bin/env python3
"""Compares the plain C program of the benchmarks with reference/ledger.py on many random bench runs.

    python3 reference/compare_curves.py [BENCHES [SEED]]

It builds benchmarks/curves.c with gcc, and compares steps, turning gap and score of U-shaped fits. It says how
many it compared, and ends with status 1 where any differ.
"""
import ctypes
import pathlib
import random
import subprocess
import sys
import tempfile

import ledger
from failure_ages import failure_ages

SOURCE = pathlib.Path(__file__).resolve().parent.parent / "benchmarks/curves.c"
MOST = 1024
LAST_AGE = ledger.LAST_AGE
NUMBER = ctypes.c_uint32


class Gaps(ctypes.Structure):
    _fields_ = [("count", ctypes.c_size_t), ("oldest", NUMBER), ("ages", NUMBER * MOST),
                ("failures", NUMBER * MOST), ("exposures", NUMBER * (MOST + 1))]


class Step(ctypes.Structure):
    _fields_ = [("start", NUMBER), ("to", NUMBER), ("failures", NUMBER), ("exposure", NUMBER)]


class Curve(ctypes.Structure):
    _fields_ = [("steps", ctypes.c_size_t), ("turning", ctypes.c_size_t), ("score", ctypes.c_int64)]


def build(directory):
    library = pathlib.Path(directory) / "curves.so"
    subprocess.run(["gcc", "-O2", "-std=c11", "-shared", "-fPIC", "-o", library, SOURCE], check=True)
    made = ctypes.CDLL(str(library))
    made.gather.restype = None
    made.fit_ushaped.restype = Curve
    return made


def in_c(library, units, stop, ages):
    """The steps, the turning gap and the score in C, or None without counted failures."""
    gaps, steps = Gaps(), (Step * (MOST + 1))()
    library.gather((NUMBER * len(ages))(*ages), ctypes.c_size_t(len(ages)), NUMBER(units), NUMBER(stop),
                   ctypes.byref(gaps))
    curve = library.fit_ushaped(ctypes.byref(gaps), steps)
    made = [(step.start, step.to, step.failures, step.exposure) for step in steps[:curve.steps]]
    return (made, curve.turning, curve.score) if made else None


def in_reference(units, stop, ages):
    try:
        return ledger.fit(b"ushaped", ledger.Bench(units, stop, ages).watches(), MOST + 1, MOST + 1)[:3]
    except ledger.Refused:
        return None


def bench(rng):
    """Units, stop and ages of a sound bench."""
    ages = failure_ages(rng) if rng.random() < 0.7 else sorted(rng.choices(range(1, 30), k=rng.randint(1, 20)))
    last = ages[-1] if ages else 1
    stop = rng.choice([last, min(last + rng.randint(0, 9), LAST_AGE), LAST_AGE])
    return max(1, len(ages) + rng.choice([0, 0, 1, 2, rng.randint(0, MOST - len(ages))])), stop, ages


def main():
    benches = int(sys.argv[1]) if len(sys.argv) > 1 else 10_000
    rng = random.Random(int(sys.argv[2]) if len(sys.argv) > 2 else 1)
    fitted = differ = 0
    with tempfile.TemporaryDirectory() as directory:
        library = build(directory)
        for _ in range(benches):
            made = bench(rng)
            answer = in_reference(*made)
            fitted += answer is not None
            if in_c(library, *made) != answer:
                differ += 1
                print("differs:", made)
    print("%d benches compared, %d with a curve, %d differ" % (benches, fitted, differ))
    sys.exit(differ > 0)


if __name__ == "__main__":
    main()
