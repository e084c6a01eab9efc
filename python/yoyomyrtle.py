"""Weight tables and the digit adder for Python callers, and a writer of table files.

The calls are those of include/yoyomyrtle.h, made through the shared library that `bin/build library` writes to target/. It is loaded at
the first call; YOYOMYRTLE_LIBRARY names one that lies elsewhere. What the library knows is asked of it and not worked out here again.

A table is the bytes of its file. A row is a list of digits (or bytes), each the index of an alphabet digit, lowest place first. A call
that is refused raises Refused, which says whose fault it is, its number and place, and what docs/REFUSALS.md has on the number.

With TERN, 2 2 plus 1 2 is 0 2 1; then place 0 of the first row becomes -2, the digit with index 4:

>>> check(tern())
Checked(depth=1, leaves=9, digits=5, pairs=81)
>>> first, second = row(tern(), [2, 2]), row(tern(), [1, 2])
>>> added = add(tern(), first, second)
>>> print(*digits(tern(), added.sum))
0 2 1
>>> edited = edit(tern(), first, second, added.sum, row=0, place=0, digit=4)
>>> print(*digits(tern(), edited.sum), '-', edited.changed, 'changed')
-1 1 1 - 2 changed

Subtraction takes the second row from the first:

>>> print(*digits(tern(), subtract(tern(), first, second).difference))
1 0 0

Each of the three also tells its reach, the length of the longest word among the leaves that it looked up, 1 to the table's depth. Digits
further below a place than the reach had no part in the digit that the call found there. BIN looks at one digit more below 1 and -1, and
nowhere else:

>>> add(bin(), [1, 0], [1, 0]).reach, add(bin(), [1, 0], [0, 0]).reach
(1, 2)

The ring has degree two with these tables. It may have degree three or four, and a table says which: see `Element` and `table`.
"""
import ctypes
import functools
import operator
import os
import re
import struct
from collections import namedtuple

_ROOT = os.path.dirname(os.path.dirname(os.path.realpath(__file__)))
_ANSWER_WORDS, _STRING_BYTES, _TERN_BYTES, _BIN_BYTES = 8, 9, 165, 187
_FACTS, _FAULT = 0, 1
# What the answer array holds before a call. No fact is so low, and words with nothing to say keep it.
_KEPT = -2**63
_GROUPS = (None, 'author', 'rows', 'editor')
# No table is deeper, so that a sum always has room; the answer says how much of it was used.
_DEEPEST = 8

# Pairs here and the reach below came later and stand last, so that the other fields keep their numbers.
Checked = namedtuple('Checked', 'depth leaves digits pairs')
BadRow = namedtuple('BadRow', 'upper lower digit string')
Forecast = namedtuple('Forecast', 'pairs bytes')
Added = namedtuple('Added', 'places sum reach')
Subtracted = namedtuple('Subtracted', 'places difference reach')
Edited = namedtuple('Edited', 'changed first second sum reach')
Ran = namedtuple('Ran', 'answers first second sum')
Explained = namedtuple('Explained', 'wrong counts todo')
# The powers of omega, as elements are printed.
_OMEGAS = '', 'w', 'w^2', 'w^3'


class Element(tuple):
    """The element a + b*omega, in a ring of degree three a + b*omega + c*omega^2, of degree four with d*omega^3 too. It has as many parts as
    the degree and equals the tuple of them; `a`, `b`, `c` and `d` are its parts by name, those that it has.

    >>> Element(2, 3), Element(1, 2, -3, 1).c
    (Element(a=2, b=3), -3)
    >>> print(Element(2, 3), Element(-1, 1), Element(0, -1), Element(4, 0), Element(0, 0))
    2+3w -1+w -w 4 0
    >>> print(Element(1, 2, -3, 1), Element(0, 0, -1), Element(5, 0, 0, 2))
    1+2w-3w^2+w^3 -w^2 5+2w^3
    """
    __slots__ = ()

    def __new__(cls, a, b, c=None, d=None):
        parts = [a, b, c, d]
        while parts[-1] is None:
            parts.pop()
        if None in parts:
            raise TypeError('an element has 2 to 4 parts, and none of them is left out')
        return super().__new__(cls, parts)

    def __getnewargs__(self):
        return tuple(self)

    a = property(operator.itemgetter(0))
    b = property(operator.itemgetter(1))

    @property
    def c(self):
        return self._above(2)

    @property
    def d(self):
        return self._above(3)

    def _above(self, power):
        if power >= len(self):
            raise AttributeError('an element of %d parts has no %s' % (len(self), 'abcd'[power]))
        return self[power]

    def __repr__(self):
        return 'Element(%s)' % ', '.join('%s=%r' % part for part in zip('abcd', self))

    def __str__(self):
        # A part of 1 or -1 is its sign alone in front of an omega.
        shown = [{1: '+', -1: '-'}.get(part if omega else 0, '%+d' % part) + omega for part, omega in zip(self, _OMEGAS) if part]
        return ''.join(shown).lstrip('+') or '0'


class Refused(Exception):
    """A fault: whose it is ('author', 'rows' or 'editor'), its number and its place.

    >>> try:
    ...     value(tern(), [0, 7])
    ... except Refused as fault:
    ...     print(fault.whose, fault.number, fault.place)
    rows 21 1
    """

    def __init__(self, whose, number, place):
        super().__init__(whose, number, place)
        self.whose, self.number, self.place = whose, number, place

    @property
    def explained(self):
        """What is wrong, what the place counts and what to do, as docs/REFUSALS.md has it; None where the file isn't there."""
        return _explanations().get(self.number)

    def __str__(self):
        fault = 'refused %d place %d (%s)' % (self.number, self.place, self.whose)
        if self.explained is None:
            return fault
        return '%s: %s; the place: %s; what to do: %s' % ((fault,) + self.explained)


@functools.lru_cache(maxsize=None)
def _explanations():
    """The rows of the tables of docs/REFUSALS.md that say what is wrong, by number."""
    try:
        with open(os.path.join(_ROOT, 'docs', 'REFUSALS.md'), encoding='utf-8') as text:
            lines = text.read().splitlines()
    except OSError:
        return {}
    found, heads = {}, []
    for line in lines:
        cells = [cell.strip().replace(r'\|', '|') for cell in re.split(r'(?<!\\)\|', line)[1:-1]]
        # A table's first line names its columns. The file may have tables of another kind.
        if not heads or not cells:
            heads = cells
        row = dict(zip(heads, cells))
        if 'what is wrong' in row:
            for number in re.findall('[0-9]+', row['number']):
                found[int(number)] = Explained(row['what is wrong'], row['what the place counts'], row['what to do'])
    return found


@functools.lru_cache(maxsize=None)
def _library():
    path = os.environ.get('YOYOMYRTLE_LIBRARY') or os.path.join(_ROOT, 'target', 'libyoyomyrtle.so')
    try:
        return ctypes.CDLL(os.path.abspath(path))
    except OSError as trouble:
        raise OSError("the library can't be loaded (%s); `bin/build library` makes it, YOYOMYRTLE_LIBRARY names one elsewhere"
                      % trouble) from None


def _said(name, *arguments):
    """What a function of the library returns; a buffer is passed with its length, a number as the type that it has."""
    passed = []
    for argument in arguments:
        passed.append(argument)
        if isinstance(argument, (bytes, ctypes.Array)):
            passed.append(ctypes.c_size_t(len(argument)))
    function = _library()['yoyomyrtle_' + name]
    function.restype = ctypes.c_uint64
    return function(*passed)


def _facts(name, *arguments):
    """The facts that a call tells, as many as there are, or the exception that its fault is."""
    answer = (ctypes.c_int64 * _ANSWER_WORDS)(*[_KEPT] * _ANSWER_WORDS)
    status = _said(name, *arguments, answer)
    if status == _FAULT:
        raise Refused(_GROUPS[answer[0]], answer[1], answer[2])
    if status != _FACTS:
        raise OSError('%s returned %d: the library is of another version' % (name, status))
    return [word for word in answer[1:] if word != _KEPT]


def _bytes(table):
    # bytes(table) would take a number for a length
    return memoryview(table).tobytes()


def _buffer(row, room=0):
    """A row where the library may write it, with room behind it."""
    try:
        row = bytes(iter(row))
    except ValueError:
        raise ValueError('a row has digits from 0 to 255') from None
    return (ctypes.c_uint8 * (len(row) + room)).from_buffer_copy(row + bytes(room))


def _fits(type_, number, limits):
    number = operator.index(number)
    fitted = type_(number)
    if fitted.value != number:
        raise ValueError('%d is not %s' % (number, limits))
    return fitted


def _size(number):
    return _fits(ctypes.c_uint64, number, 'from 0 to 2^64 - 1')


def _part(number):
    return _fits(ctypes.c_int32, number, 'a signed number of 32 bits')


def check(table):
    """Checks a table file by all its rules. `pairs` is how many pairs of leaves fit: an upper and a lower leaf, which may be the same one, do
    where the upper word without its first digit and the lower word agree as far as both reach.

    >>> check(bin())
    Checked(depth=2, leaves=13, digits=3, pairs=65)

    TERN with weight 0 at input 2:

    >>> weights = {(0,): 0, (1,): 0, (2,): 0, (3,): 1, (4,): 1, (-1,): 0, (-2,): -1, (-3,): -1, (-4,): -1}
    >>> check(table((0, -1, 3, 0), [0, 1, 2, -1, -2], weights))  # doctest: +ELLIPSIS
    Traceback (most recent call last):
        ...
    yoyomyrtle.Refused: refused 14 place 2 (author): ...
    """
    return Checked(*_facts('check', _bytes(table)))


def bad_row(table):
    """What refusal 14 is about: the lowest upper leaf that gives no alphabet digit with a lower leaf that fits it, the lowest such lower leaf,
    the digit that comes out, and a string of input digits, as their indexes, from the top: the upper word's first digit, and then the longer of
    the rest of it and the lower word. In every row that holds the string, conversion gives that digit at the string's top place. None where
    there is nothing to show, which is where `check` accepts the table.

    TERN with weight 0 at input 2, which gives 3 where a 3 stands below it; its input digits 2 and 3 have the indexes 2 and 3:

    >>> weights = {(0,): 0, (1,): 0, (2,): 0, (3,): 1, (4,): 1, (-1,): 0, (-2,): -1, (-3,): -1, (-4,): -1}
    >>> row = bad_row(table((0, -1, 3, 0), [0, 1, 2, -1, -2], weights))
    >>> row
    BadRow(upper=2, lower=3, digit=Element(a=3, b=0), string=b'\\x02\\x03')
    >>> print(*(inputs([0, 1, 2, -1, -2])[index] for index in row.string))
    2 3
    >>> print(bad_row(tern()))
    None
    """
    string = _buffer([], _STRING_BYTES)
    # Where there is nothing to show, the length of the string is the only fact.
    size, *shown = _facts('bad_row', _bytes(table), string)
    if not size:
        return None
    upper, lower, *digit = shown
    return BadRow(upper, lower, Element(*digit), bytes(string[:size]))


def forecast(table, digits):
    """What a table and two rows of so many digits will take, without checking pairs or adding: how many pairs of leaves fit, as `check` tells
    it of a table that it accepts, and how many places the sum will have, each a byte. Rows have at most 256 digits.

    >>> forecast(bin(), 256)
    Forecast(pairs=65, bytes=258)
    >>> len(add(bin(), [1] * 256, [1] * 256).sum)
    258
    >>> forecast(bin(), 257)  # doctest: +ELLIPSIS
    Traceback (most recent call last):
        ...
    yoyomyrtle.Refused: refused 20 place 0 (rows): ...
    """
    return Forecast(*_facts('forecast', _bytes(table), _size(digits)))


def _combined(call, table, first, second):
    """What an addition or a subtraction of two rows answers and writes: how many places, their digits, and the reach."""
    first, second = _buffer(first), _buffer(second)
    written = _buffer([], len(first) + _DEEPEST)
    places, reach = _facts(call, _bytes(table), first, second, written)
    return places, written[:places], reach


def add(table, first, second):
    """Adds two rows; the sum has as many places more as the table is deep. The reach is the longest word looked up at these places.

    >>> add(bin(), [1, 1], [1, 0])
    Added(places=4, sum=[0, 0, 1, 0], reach=2)
    >>> add(bin(), [0, 1], [0, 0])
    Added(places=4, sum=[0, 1, 0, 0], reach=2)
    >>> add(tern(), [], []), add(bin(), [], [])
    (Added(places=1, sum=[0], reach=1), Added(places=2, sum=[0, 0], reach=1))
    """
    return Added(*_combined('add', table, first, second))


def subtract(table, first, second):
    """Subtracts the second row from the first; the difference has as many places more as the table is deep. The reach is the longest word
    looked up at these places.

    >>> subtract(bin(), [1, 1], [1, 2])
    Subtracted(places=4, difference=[0, 0, 1, 0], reach=1)
    >>> subtract(tern(), [], [])
    Subtracted(places=1, difference=[0], reach=1)

    Every difference of two alphabet digits has to be an input digit. With the digits -2 to 3 the sums of two are -4 to 6, and -2 - 3 isn't
    one of them; -2 has the index 5:

    >>> base, alphabet, weights = (0, -1, 4, 0), [0, 1, 2, 3, -1, -2], {(x,): (x + 1) // 4 for x in range(-4, 7)}
    >>> subtract(table(base, alphabet, weights), [], [])  # doctest: +ELLIPSIS
    Traceback (most recent call last):
        ...
    yoyomyrtle.Refused: refused 42 place 5 (author): ...

    With -5 as a further input digit, which needs a weight too:

    >>> weights[-5,] = -1
    >>> further = table(base, alphabet, weights, inputs=inputs(alphabet, differences=True))
    >>> print(*digits(further, subtract(further, row(further, [-2, 1]), row(further, [3, 1])).difference))
    -1 -1 0
    """
    return Subtracted(*_combined('subtract', table, first, second))


def edit(table, first, second, sum, row, place, digit):
    """Stores a digit at a place of row 0 (the first) or 1 (the second) of an addition and renews the sum. The rows and the sum that
    are given stay as they are; the answer has the new ones, how many digits of the sum changed, and the reach: the longest word looked up
    in the new rows from the place below the edited one, if there is one, to as many places above it as the table is deep. Edits of
    different places or rows may come in any order, by a table that the check accepts: the rows and the sum after them are the same.

    >>> edit(tern(), [2, 2], [1, 2], [0, 2, 1], 0, 0, 4)
    Edited(changed=2, first=[4, 2], second=[1, 2], sum=[3, 1, 1], reach=1)
    """
    rows = [_buffer(first), _buffer(second), _buffer(sum)]
    changed, reach = _facts('edit', _bytes(table), *rows, _size(row), _size(place), _size(digit))
    return Edited(changed, *map(list, rows), reach)


def run(table, first, second, edits):
    """Checks the table, adds the rows and makes edits in turn, each a row number, a place and a digit. The answers are how many digits of
    the sum each edit changed; for an edit that was refused, which changes nothing, it is a Refused that isn't raised. A run doesn't tell
    the reach.

    >>> ran = run(tern(), [2, 2], [1, 2], [(0, 0, 4), (0, 2, 0), (1, 1, 0)])
    >>> ran.answers
    [2, Refused('editor', 25, 0), 1]
    >>> ran.first, ran.second, ran.sum
    ([4, 2], [1, 0], [3, 3, 1])
    """
    rows = [_buffer(first), _buffer(second)]
    # The answer of a run doesn't say how long the sum is. Where the check refuses, it is the run's own refusal.
    rows.append(_buffer([], len(rows[0]) + check(table).depth))
    edits = [(_size(row).value, _size(place).value, _size(digit).value) for row, place, digit in edits]
    numbers = ctypes.c_size_t * len(edits)
    columns = [numbers(*(edit[at] for edit in edits)) for at in range(3)]
    whose, refusals, values = numbers(), numbers(), numbers()
    _facts('run', _bytes(table), *rows, *columns, whose, refusals, values)
    answers = [Refused(_GROUPS[group], number, value) if group else value for group, number, value in zip(whose, refusals, values)]
    return Ran(answers, *map(list, rows))


def value(table, row):
    """The value of a row: its digits, each times the base to the power of its place. It has as many parts as the degree of the table's ring.

    >>> value(tern(), [2, 2])
    Element(a=8, b=0)
    """
    return Element(*_facts('value', _bytes(table), _buffer(row)))


def midpoint(x, y):
    """The midpoint of two elements of one ring, which have the same number of parts: half the sum of each two parts, to the even neighbour
    where the sum is odd. Either may be a whole number.

    >>> print(midpoint((1, 2), -4), midpoint((1, 2, 3, 4), (1, 4, 4, 4)))
    -2+w 1+3w+4w^2+4w^3
    >>> [midpoint(n, 0).a for n in (3, 1, -1, -3)]
    [2, 0, 0, -2]
    """
    given = [z if hasattr(z, '__index__') else element(z) for z in (x, y)]
    degree, *other = {len(z) for z in given if isinstance(z, Element)} or {2}
    if other:
        raise ValueError('two elements with another number of parts each: %s and %s' % (*given,))
    # The call takes four parts of each and tells four.
    parts = [part for z in given for part in element(z, 4)]
    return Element(*_facts('midpoint', *map(_part, parts))[:degree])


def _carried(name, size):
    out = (ctypes.c_uint8 * size)()
    if _said(name, out) != _FACTS:
        raise OSError('%s has another length: the library is of another version' % name)
    return bytes(out)


def tern():
    """The carried table TERN: base 3, digits -2 to 2."""
    return _carried('tern', _TERN_BYTES)


def bin():
    """The carried table BIN: base 2, digits -1 to 1."""
    return _carried('bin', _BIN_BYTES)


def alphabet(table):
    """The alphabet of a table, in order of index.

    >>> print(*alphabet(tern()))
    0 1 2 -1 -2
    """
    return [value(table, [index]) for index in range(check(table).digits)]


def row(table, elements):
    """The row that has these elements as its digits.

    >>> row(tern(), [-2, 0, 1])
    [4, 0, 1]
    """
    known = alphabet(table)
    index = {digit: at for at, digit in enumerate(known)}
    try:
        return [index[element(digit, len(known[0]))] for digit in elements]
    except KeyError as missing:
        raise ValueError('the alphabet has no digit %s' % missing.args) from None


def digits(table, row):
    """The digits of a row as elements.

    >>> print(*digits(tern(), [4, 0, 1]))
    -2 0 1
    """
    known = dict(enumerate(alphabet(table)))
    try:
        return [known[index] for index in row]
    except KeyError as missing:
        raise ValueError('the alphabet has no digit with index %s' % missing.args) from None


def element(x, degree=None):
    """A whole number, of whatever type, or 2 to 4 of them as an element: with as many parts as are given, a whole number with two, or with as
    many as the degree, those that aren't given being zero.

    >>> element(3), element((0, 1)), element((0, 1), 3)
    (Element(a=3, b=0), Element(a=0, b=1), Element(a=0, b=1, c=0))
    """
    whole = hasattr(x, '__index__')
    parts = [operator.index(part) for part in ([x] if whole else x)]
    wanted = degree or max(len(parts), 2)
    if not whole and len(parts) < 2 or len(parts) > wanted or wanted > 4:
        raise ValueError('%s is no element of %s parts' % (x, degree or '2 to 4'))
    return Element(*parts, *[0] * (wanted - len(parts)))


def _inputs(alphabet, signs):
    """The digits of an alphabet plus (sign 1) or minus (sign -1) those of the same, in the order that `inputs` tells."""
    known = [element(digit) for digit in alphabet]
    degree = max(map(len, known), default=2)
    known = [element(digit, degree) for digit in known]
    found = {Element(*(p + sign * q for p, q in zip(x, y))) for x in known for y in known for sign in signs}

    def size(x):
        return max(x, tuple(-part for part in x))

    return sorted(found, key=lambda x: (x != size(x), size(x)))


def inputs(alphabet, differences=False):
    """The input digits that an alphabet needs: for addition the sums of two of its digits, for subtraction the differences too. Zero and
    what is above it come first, in order of their parts, a first, then what is below zero in the order of its negatives.

    >>> print(*inputs([0, 1, 2, -1, -2]))
    0 1 2 3 4 -1 -2 -3 -4
    >>> print(*inputs([0, 1, (0, 1)]))
    0 w 2w 1 1+w 2
    >>> print(*inputs([0, 1, 2, -1], differences=True))
    0 1 2 3 4 -1 -2 -3
    """
    return _inputs(alphabet, (1, -1) if differences else (1,))


def _numbers(kind, numbers):
    """Numbers of 16 bits, lowest byte first; kind is 'h' for signed ones and 'H' for offsets and lengths."""
    numbers = list(numbers)
    try:
        return struct.pack('<%d%s' % (len(numbers), kind), *numbers)
    except struct.error as trouble:
        raise ValueError("numbers that can't be written in 16 bits: %s" % trouble) from None


def _records(elements, degree):
    return _numbers('h', (part for x in elements for part in element(x, degree)))


def _leaves(digits, leaves, degree):
    """The sections of leaves and of words."""
    index = {digit: at for at, digit in enumerate(digits)}
    indexed = []
    for word, weight in leaves.items() if hasattr(leaves, 'items') else leaves:
        try:
            indexed.append((bytes(index[element(digit, degree)] for digit in word), weight))
        except (KeyError, ValueError):
            raise ValueError('the word %s has a digit that is no input digit, or is past 256 of them' % (word,)) from None
    records, words = b'', b''
    for word, weight in sorted(indexed, key=lambda leaf: leaf[0]):
        records += _numbers('H', (len(words), len(word))) + _records([weight], degree)
        words += word
    return records, words


def table(base, alphabet, leaves, inputs=None):
    """The bytes of a table file; `check` says whether it is one to add by.

    `base` is s, t, u, v in a ring of degree two: omega^2 = s*omega + t, and the base is u + v*omega. In general it is the 2d numbers of the
    file, which tell the degree d by their count: 4, 6 or 8. First come the parts of omega^d, that of the highest power first, then those of
    the base, the lowest first. An element is a whole number a or 2 to d parts, the lowest first; further ones are zero. `alphabet` lists the
    digits, zero first. `leaves` has a weight for each word, as a mapping or in pairs; a word is a tuple of input digits, that of the place
    itself and then those below it. The order of the leaves and the directory are made here.

    `inputs` lists the input digits, zero first; without it they are the sums of two alphabet digits, as the function `inputs` gives them.
    A list may have further digits, and each of them needs leaves like any other.

    BIN: a 2 carries 1, a 1 carries 1 if the digit below is positive, and the negatives mirror this.

    >>> weights = {(0,): 0, (2,): 1, (-2,): -1}
    >>> for below in (-2, -1, 0, 1, 2):
    ...     weights[1, below] = 1 if below > 0 else 0
    ...     weights[-1, below] = -1 if below < 0 else 0
    >>> table((0, -1, 2, 0), [0, 1, -1], weights) == bin()
    True

    The same digits and weights in the ring of degree three with omega^3 = 5*omega^2 - 3, and the value of a row:

    >>> value(table((5, 0, -3, 2, 0, 0), [0, 1, -1], weights), [1, 1])
    Element(a=3, b=0, c=0)
    """
    base = list(base)
    if len(base) not in (4, 6, 8):
        raise ValueError('a base has 4, 6 or 8 numbers, twice as many as the degree')
    degree = len(base) // 2
    alphabet = list(alphabet)
    digits = [element(digit, degree) for digit in (_inputs(alphabet, (1,)) if inputs is None else inputs)]
    sections = [_numbers('h', base), _records(alphabet, degree), _records(digits, degree), *_leaves(digits, leaves, degree)]
    directory, end = b'', 20
    for section in sections:
        directory += _numbers('H', (end, len(section)))
        end += len(section)
    return directory + b''.join(sections)
