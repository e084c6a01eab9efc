#!/usr/bin/env python3
"""A weight table of one's own, built by the extending window method and written to a file:

    python3 examples/own_table.py mine.table

Change BASE and ALPHABET for another one of degree two, such as base 2i: (0, -1, 0, 2) and the nine digits a + b*omega with a and b from -1
to 1. With an alphabet that has a digit without its negative the table adds and doesn't subtract, unless INPUTS is
inputs(ALPHABET, differences=True). The method doesn't end for every choice. docs/TABLES.md says how it goes, and bin/check whether a table is
one to add by.
"""
import functools
import itertools
import os
import sys

sys.path.insert(0, os.path.join(os.path.dirname(os.path.abspath(__file__)), '..', 'python'))
from yoyomyrtle import element, inputs, table

BASE = (0, -3, 0, 1)  # s, t, u, v: omega^2 = s*omega + t = -3, and the base is u + v*omega = omega
ALPHABET = [0, 1, 2, -1, -2]
INPUTS = inputs(ALPHABET)

MOST_WEIGHTS, LONGEST_WORD, MOST_LEAVES = 255, 8, 4000


def plus(x, y):
    return x[0] + y[0], x[1] + y[1]


@functools.lru_cache(maxsize=None)
def serving(x):
    """The weights that serve x, which are those that leave an alphabet digit: x - base * weight."""
    s, t, u, v = BASE
    norm = u * u + s * u * v - t * v * v
    found = []
    for digit in map(element, ALPHABET):
        a, b = x[0] - digit.a, x[1] - digit.b
        # Over the base, a + b*omega is this over the norm; it is an element where both parts are whole.
        a, b = (u + s * v) * a - t * v * b, u * b - v * a
        if a % norm == 0 and b % norm == 0:
            found.append((a // norm, b // norm))
    return found


def weights():
    """Phase 1: weights to serve each input digit plus a weight that may come from below; of several the one nearest to zero."""
    known = [(0, 0)]
    for weight in known:  # and those that join on the way
        for digit in INPUTS:
            able = serving(plus(digit, weight))
            if not able or len(known) > MOST_WEIGHTS:
                sys.exit('phase 1 does not end: no weight serves some value, or the weights are too many')
            if not set(able) & set(known):
                known.append(min(able, key=lambda q: q[0] ** 2 + q[1] ** 2))
    return known


@functools.lru_cache(maxsize=None)
def choice(word):
    """Phase 2: the weights that a word leaves open. They serve its first digit plus each weight that the rest of it leaves open, and are
    as few as come by taking what serves most first; a longer word leaves no other ones open than a shorter."""
    if not word:
        return weights()
    values = [plus(word[0], weight) for weight in choice(word[1:])]
    kept = [] if any(map(any, word)) else [(0, 0)]  # zeros have to stay zeros
    while True:
        values = [x for x in values if not set(kept) & set(serving(x))]
        if not values:
            return kept
        kept.append(max(choice(word[:-1]), key=lambda weight: sum(weight in serving(x) for x in values)))


def leaves(word=()):
    """A word with one weight is a leaf; any other is extended by a digit."""
    for longer in (word + (digit,) for digit in INPUTS):
        if len(choice(longer)) == 1:
            yield longer, choice(longer)[0]
        elif len(longer) < LONGEST_WORD:
            yield from leaves(longer)
        else:
            sys.exit('phase 2 does not end: a word of %d digits leaves several weights open' % LONGEST_WORD)


def build():
    found = list(itertools.islice(leaves(), MOST_LEAVES + 1))
    if len(found) > MOST_LEAVES:
        sys.exit('phase 2 finds more than %d leaves' % MOST_LEAVES)
    return table(BASE, ALPHABET, found, inputs=INPUTS)


def main():
    if len(sys.argv) != 2:
        sys.exit('usage: own_table.py FILE')
    built = build()
    try:
        with open(sys.argv[1], 'wb') as file:
            file.write(built)
    except OSError as trouble:
        sys.exit("can't write %s: %s" % (sys.argv[1], trouble.strerror))


if __name__ == '__main__':
    main()
