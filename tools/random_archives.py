#!/usr/bin/env python3
"""Random small archives, with what resolving each of them has to come to.

    random_archives.py INPUT EXPECTED

INPUT gets one case a line, of decimal numbers with a space between them:

    KIND N count*N W (c r)*W R row*R pin*N

    KIND      0: needs rows `a i b low high`; 1: pair rows `a i b j`
    N         how many components; then how many releases each has
    W         how many releases are withdrawn; then each, as component and release
    R         how many rows; then the rows
    pin       one for each component: a release, or 255 for none

EXPECTED gets a line for each case, `case K: none` or `case K: count D set a b c`, with K from 0.

The answers come from trying every set by the definitions, so that they share nothing with the program they test.
"""
import itertools
import random
import sys

CASES = 120
NO_PIN = 255
# how likely two choices are to clash, or a choice is to need another component
DENSITIES = [0.0, 0.1, 0.15, 0.2, 0.3]


def clashes(kind, counts, rows):
    """The clashing choices, as a set of (a, i, b, j) in both orders."""
    n = len(counts)
    offered = {(c, r) for c in range(n) for r in range(counts[c])}
    found = set()
    for row in rows:
        if kind == 0:
            a, i, b, low, high = row
            outside = [(b, j) for j in range(counts[b]) if not low <= j <= high] if b < n else []
        else:
            a, i, b, j = row
            outside = [(b, j)]
        for b, j in outside:
            # a row counts only for offered choices of two components
            if a != b and (a, i) in offered and (b, j) in offered:
                found |= {(a, i, b, j), (b, j, a, i)}
    return found


def resolve(kind, counts, withdrawn, rows, pins):
    """The count and the set, or None where no set is lawful."""
    barred = clashes(kind, counts, rows)

    def lawful(s):
        alone = all((c, r) not in withdrawn for c, r in enumerate(s))
        return alone and all((a, s[a], b, s[b]) not in barred for a in range(len(s)) for b in range(a))

    def distance(s):
        return sum(p != NO_PIN and p != r for p, r in zip(pins, s))

    def order(s):
        # fewest moved pins; then, from the lowest component on, the pin before all others and the newer before the older
        return distance(s), [(r != p, -r) for p, r in zip(pins, s)]

    sets = filter(lawful, itertools.product(*map(range, counts)))
    best = min(sets, key=order, default=None)
    return None if best is None else (distance(best), best)


def ignored_rows(rng, kind, counts):
    """Rows that name something not offered, or one component twice; were they to count, they would bar much."""
    n = len(counts)
    if n == 0:
        return []
    strange = [(0, 0, 0), (0, 0, n), (n, 0, 0), (0, 0, 200), (255, 0, 0), (0, counts[0], n - 1)]
    if kind == 0:
        rows = [(*row, 1, 0) for row in strange]
    else:
        rows = [(*row, 0) for row in strange] + [(0, 0, n - 1, counts[-1])]
    return rng.sample(rows, rng.randrange(4))


def random_needs(rng, a, i, b):
    # a range that covers some of the four releases, or now and then an empty one
    low = rng.randrange(4)
    high = low - 1 if low and rng.random() < 0.15 else rng.randrange(low, 4)
    return a, i, b, low, high


def random_rows(rng, kind, counts, pins, density):
    rows = ignored_rows(rng, kind, counts)
    # in half of the cases the pins clash with one another more than other choices do
    quarrel = rng.choice([0.0, 0.5])
    for a, b in itertools.permutations(range(len(counts)), 2):
        for i in range(counts[a]):
            if kind == 0 and rng.random() < density:
                rows.append(random_needs(rng, a, i, b))
            if kind == 1:
                rows += [(a, i, b, j) for j in range(counts[b]) if rng.random() < density / 2]
        if pins[b] < counts[b] and rng.random() < quarrel / 2:
            rows.append((a, pins[a], b, pins[b] + 1, 3) if kind == 0 else (a, pins[a], b, pins[b]))
    rng.shuffle(rows)
    return rows


def random_pin(rng, count, free):
    if rng.random() < free:
        return NO_PIN
    if count == 0 or rng.random() < 0.06:
        # a pin that names no offered release
        return rng.choice([7, 200])
    return rng.randrange(count)


def random_case(rng, k):
    kind = k % 2
    n = rng.choice([0, 1, 2, 3, 3, 4, 4, 4, 5, 5, 5, 5, 5])
    counts = [rng.choice([1, 2, 3, 3, 4, 4]) for _ in range(n)]
    if n and rng.random() < 0.04:
        counts[rng.randrange(n)] = 0
    # half of the cases have nearly every component pinned
    free = rng.choice([0.05, 0.4])
    pins = [random_pin(rng, count, free) for count in counts]
    rows = random_rows(rng, kind, counts, pins, DENSITIES[k // 2 % len(DENSITIES)])
    # now and then every pinned release is withdrawn, so that every pin moves
    every = rng.random() < 0.1
    withdrawn = {
        (c, r)
        for c in range(n)
        for r in range(counts[c])
        if rng.random() < 0.1 or every and r == pins[c]
    }
    return kind, counts, withdrawn, rows, pins


def written(kind, counts, withdrawn, rows, pins):
    numbers = [kind, len(counts), *counts, len(withdrawn), *itertools.chain(*sorted(withdrawn))]
    numbers += [len(rows), *itertools.chain(*rows), *pins]
    return " ".join(map(str, numbers))


def answered(k, answer):
    if answer is None:
        return f"case {k}: none"
    count, chosen = answer
    return " ".join(map(str, [f"case {k}: count {count} set", *chosen]))


def main():
    rng = random.Random(5)
    with open(sys.argv[1], "w") as cases, open(sys.argv[2], "w") as expected:
        for k in range(CASES):
            case = random_case(rng, k)
            print(written(*case), file=cases)
            print(answered(k, resolve(*case)), file=expected)


main()
