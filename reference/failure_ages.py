"""Failure ages for random curves, for compare.py and compare_curves.py."""

from ledger import LAST_AGE


def failure_ages(rng):
    """Ages for a curve, in order: with ties, evenly spaced, all the same, or near the highest age."""
    length = rng.choice([0, 1, 2, 3, 3, 4, 5, 6, 8, 8, 12, 16, 40 if rng.random() < 0.3 else 7])
    change = rng.randrange(8)
    if change == 0:
        ages = [rng.choice([1, 2, 7, LAST_AGE - 1, LAST_AGE, rng.randint(1, LAST_AGE)])] * length
    elif change == 1:
        every = rng.choice([1, 2, 3, 1000, LAST_AGE // max(length, 1)])
        ages = [(i + 1) * every for i in range(length)]
    elif change in (2, 6):  # the same gaps from both ends
        gaps = [rng.randint(1, 4) for _ in range((length + 1) // 2)]
        gaps = gaps + gaps[::-1][rng.randrange(2):]
        ages = [sum(gaps[:i + 1]) for i in range(len(gaps))]
    elif change == 3:
        ages = [LAST_AGE - rng.choice([0, 1, 2, rng.randrange(40)]) for _ in range(length)]
    elif change == 4:
        ages = rng.sample(range(1, LAST_AGE + 1), length)
    elif change == 5:  # many early, few, many late
        ages = [rng.choice([rng.randint(1, 10), rng.randint(1, 100), rng.randint(90, 100)]) for _ in range(length)]
    else:
        ages = [rng.randint(1, rng.choice([3, 6, 12, 40])) for _ in range(length)]
    return sorted(ages)
