#!/usr/bin/env python3
"""The benchmark's first tables. Ten lines: what each call takes at 139264 kbit/s, how many such lines one processor could serve, and beside quick C where there is one.
Four more: the verdict in the receiver's manner beside the limits asked of it, which are of a digit of one reading with extraction apart.

    bench/summary.py FOLDER     the folder in which bench/run keeps its tables
"""
import os, sys

RATE = 139.264e6  # digits a second at level 4
RATE_2048 = 2.048e6


def rows(folder, name):
    """The rows of a table, each a list of its cells."""
    with open(os.path.join(folder, name), encoding='utf-8') as table:
        return [[cell.strip() for cell in line.strip().strip('|').split('|')] for line in table if line.startswith('|')]


def heads(found):
    """Where the library's and quick C's nanoseconds stand in a table, by its head."""
    library = next(k for k, cell in enumerate(found[0]) if cell.startswith('library') and 'multiplexed' not in cell)
    quick = [k for k, cell in enumerate(found[0]) if cell.startswith('quick C')]
    return library, quick[0] if quick else None


def line(said, found, first, level, rate):
    library, quick = heads(found)
    row = next(row for row in found if row[0] == first and (level is None or row[1] == level))
    took = float(row[library])
    beside = f'{took / float(row[quick]):.2f}' if quick and row[quick] != '-' else '-'
    return f'| {said} | {took:.3f} | {1e9 / took / rate:,.0f} | {beside} |'


def main():
    folder = sys.argv[1]
    main_table, finder, compare = rows(folder, 'table'), rows(folder, 'finder-table'), rows(folder, 'compare-table')
    print('| at 139264 kbit/s | ns a digit | lines that one processor could serve | times quick C |\n|---|---:|---:|---:|')
    for said, first in (('build a line (`multiplex`)', 'multiplex'), ('read its notes', 'read notes'), ('take it apart (`extract`)', 'extract'),
                        ('find frames, aligned', 'receiver, aligned'), ('find frames, hunting', 'receiver, hunting')):
        print(line(said, main_table, first, '4', RATE))
    print(line('compare two recordings of other data', compare, 'random digits', '4', RATE))
    for said, name, first in (('swap a tributary', 'swap-table', 'one tributary'), ('repair a worn line', 'repair-table', 'a digit in 100'), ('judge a line, five readings', 'judge-table', 'digits sent')):
        print(line(said, rows(folder, name), first, '4', RATE))
    print(line('find frames of 2048 kbit/s, hunting', finder, 'finder, hunting', None, RATE_2048))
    limits(rows(folder, 'verdict-table'))


def limits(found):
    """The dearest level of each kind of line, in nanoseconds and beside the XOR, and what was asked."""
    library, quick = heads(found)
    plain = next(k for k, cell in enumerate(found[0]) if cell.startswith('plain C'))
    print('\n| a verdict, a digit of one reading | ns, the dearest level | times XOR and count, plain C | quick C | asked |\n|---|---:|---:|---:|---|')
    for kind, asked in (('clean', '2 times'), ('1 in 1000 wrong', '1 ns'), ('slips', '15 ns'), ('clean, pattern 15', '-')):
        dearest = max((row for row in found if row[0] == kind), key=lambda row: float(row[library]))
        took = float(dearest[library])
        print(f'| {kind} | {took:.3f} | {took / float(dearest[plain]):.1f} | {took / float(dearest[quick]):.1f} | {asked} |')


main()
