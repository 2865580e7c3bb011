"""Limits of moves and lengths of strips by chance, for random maps (document 02, C-11)."""

LONGEST_STRIP = 65535


def random_limits(rng):
    """The limits that the moves of a map have: three lengths, and None, for no limit, more or less often."""
    lengths = [1, 2, 255, 256, 8120, 65534, LONGEST_STRIP]
    three = [rng.choice([*lengths, rng.randint(1, LONGEST_STRIP)]) for _ in range(3)]
    return [None] * rng.choice([0, 2, 3, 6]) + three


def random_limit(rng, limits):
    """One of the limits, or none if there are none."""
    return rng.choice(limits) if limits else None


def strips_about(limits):
    """Lengths of every kind: 0, 1, the longest, and each limit with the length below and the one above."""
    near = [limit + k for limit in limits if limit is not None for k in (-1, 0, 1)]
    return sorted({0, 1, LONGEST_STRIP, *near} - {LONGEST_STRIP + 1})
