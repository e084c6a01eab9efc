"""The stored vectors, for the tests that run them; docs/VECTORS.md has the format."""
import os
import sys

ROOT = os.path.join(os.path.dirname(os.path.abspath(__file__)), '..')
STORED = os.path.join(ROOT, 'crates', 'vectors')

# how many buffers follow a call's byte, and how many bytes follow them
FOLLOWS = {1: (1, 0), 2: (4, 0), 3: (4, 24), 4: (2, 0), 5: (0, 1), 6: (0, 0), 7: (0, 0), 8: (4, 0), 9: (1, 0), 17: (1, 8), 19: (1, 8)}
# the call whose one byte is a degree; behind it come as many parts of two elements, four bytes each
MIDPOINT = 5


def calls(stored):
    """Each call's number with its buffers and the bytes behind them."""
    at = 0
    while at < len(stored):
        call = stored[at]
        at += 1
        buffers, rest = [], FOLLOWS[call][1]
        for _ in range(FOLLOWS[call][0]):
            size = int.from_bytes(stored[at:at + 4], 'little')
            buffers.append(stored[at + 4:at + 4 + size])
            at += 4 + size
        if call == MIDPOINT and at < len(stored):
            rest += 2 * 4 * stored[at]
        at += rest
        yield call, buffers, stored[at - rest:at]
    if at != len(stored):
        sys.exit('the last call is cut short')


def vectors():
    """Each call with the line that is expected of it."""
    with open(os.path.join(STORED, 'stdin'), 'rb') as stored:
        run = list(calls(stored.read()))
    with open(os.path.join(STORED, 'stdout'), 'rb') as stored:
        lines = stored.read().splitlines(keepends=True)
    if len(run) != len(lines):
        sys.exit('%d calls and %d lines' % (len(run), len(lines)))
    return [call + (line,) for call, line in zip(run, lines)]
