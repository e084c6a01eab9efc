#!/usr/bin/env python3
"""Checks a table, forecasts what a sum will need, adds two rows and edits a digit of the second; digits as elements, lowest place first. Of a
table that refusal 14 is against it shows the bad row:

    python3 examples/add_rows.py mine.table
"""
import os
import sys

sys.path.insert(0, os.path.join(os.path.dirname(os.path.abspath(__file__)), '..', 'python'))
import yoyomyrtle

PLACES = 6


def show(table, first, second, sum):
    # As wide as the widest digit of the alphabet; those of higher degrees have more parts.
    width = max(4, *(len(str(digit)) for digit in yoyomyrtle.alphabet(table)))
    for name, row in ('first', first), ('second', second), ('sum', sum):
        digits = [str(digit).rjust(width) for digit in yoyomyrtle.digits(table, row)]
        print(name.ljust(6), *digits, ' value', yoyomyrtle.value(table, row))
    x, y, z = (yoyomyrtle.value(table, row) for row in (first, second, sum))
    print('the values agree' if all(p + q == r for p, q, r in zip(x, y, z)) else 'the values differ')


def add_and_edit(table):
    facts = yoyomyrtle.check(table)
    print('depth %d, leaves %d, digits %d, pairs %d' % facts)
    print('the sum will have %d digits' % yoyomyrtle.forecast(table, PLACES).bytes)
    first = [(place + 1) % facts.digits for place in range(PLACES)]
    second = [(2 * place + 1) % facts.digits for place in range(PLACES)]
    added = yoyomyrtle.add(table, first, second)
    show(table, first, second, added.sum)
    # The second row (row number 1) gets the next digit of the alphabet at place 2.
    edited = yoyomyrtle.edit(table, first, second, added.sum, row=1, place=2, digit=(second[2] + 1) % facts.digits)
    print('edited: %d sum digits changed' % edited.changed)
    show(table, edited.first, edited.second, edited.sum)


def show_bad_row(table):
    upper, lower, digit, string = yoyomyrtle.bad_row(table)
    print('leaf %d above leaf %d gives %s, which is no alphabet digit' % (upper, lower, digit))
    print('in rows with these input digits, by index, from the top:', *string)


def main():
    if len(sys.argv) != 2:
        sys.exit('usage: add_rows.py FILE')
    try:
        with open(sys.argv[1], 'rb') as file:
            table = file.read()
    except OSError as trouble:
        sys.exit("can't read %s: %s" % (sys.argv[1], trouble.strerror))
    try:
        add_and_edit(table)
    except yoyomyrtle.Refused as refused:
        if refused.number == 14:
            show_bad_row(table)
        sys.exit(str(refused))
    except OSError as trouble:
        sys.exit(str(trouble))


main()
