#!/usr/bin/env python3
"""Counts what a search costs, and tells how far it comes with what budget: instructions and peak memory, no times.

usage: bench/solve.py [PROGRAM]

The crossing of bench/program.py over 60 steps, 17,966 rows: `solve` runs on it with budgets of 1, 9 and 41 nodes under
`valgrind --tool=callgrind`, and without it for the peak memory; with the largest budget that its rows allow only without. The `check`
of a certificate of 41 nodes is counted beside it.

The busy ring: that of bench/program.py, 399,730 rows, with 20 units in each of its cells. Of the networks that were thought of a
search takes most memory there, with the largest budget.

First comes what each search found, then what it cost. Wanted are the numbers of the last column; the last line counts those that
are kept, and the status is 0 where all are. The program is the built one (run ./planner first) or the one that is named.
"""
import pathlib
import sys
import tempfile

import measure
import program as programs

MOST_WORK = 8_000_000  # the most that a budget times the rows of a program may be
MOST_KILOBYTES = 200_000
BUDGETS = [(1, 3_470_000_000), (9, 3_940_000_000), (41, 6_080_000_000)]  # with the most instructions that are wanted


def busy_ring():
    """The ring with 20 units in each cell."""
    text = programs.ring()
    for cells in [1, 2]:
        text = text.replace('cells = %d\n' % cells, 'cells = %d\ninitial = %r\n' % (cells, [20] * cells))
    return text


def line_of(what, run):
    return '%s: %s' % (what, run.printed.strip().replace('\n', ', '))


def peak_of(program, folder, net, budget):
    """The row of a plain run of `solve`, whose answer is printed."""
    run = measure.run([program, 'solve', folder / net, str(budget), folder / 'out.plan', folder / 'out.cert'])
    if run.status:
        sys.exit('bench: solve %s %d ended with %d' % (net, budget, run.status))
    print('%s, %d bytes of certificate' % (line_of('solve %s %d' % (net, budget), run), (folder / 'out.cert').stat().st_size))
    return 'peak memory of solve %s %d, kB' % (net, budget), run.kilobytes, MOST_KILOBYTES


def largest_budget(program, folder, net):
    """The largest budget that the rows of a network allow."""
    run = measure.run([program, 'program', folder / net, folder / 'out'])
    return MOST_WORK // int(run.printed.split()[1])


def counted(program, folder):
    """What is counted: its name, its number, and the most that is wanted or None."""
    (folder / 'crossing.toml').write_text(programs.crossing(60))
    (folder / 'ring.toml').write_text(busy_ring())
    for budget, most in BUDGETS:
        yield peak_of(program, folder, 'crossing.toml', budget)
        words = [program, 'solve', folder / 'crossing.toml', str(budget), folder / 'out.plan', folder / 'out.cert']
        yield 'instructions of solve crossing.toml %d' % budget, measure.instructions(words).total, most
    checked = measure.instructions([program, 'check', folder / 'crossing.toml', folder / 'out.cert'])
    yield 'instructions of the check of its certificate', checked.total, None
    for net in ['crossing.toml', 'ring.toml']:
        yield peak_of(program, folder, net, largest_budget(program, folder, net))


def main():
    program = measure.program()
    with tempfile.TemporaryDirectory() as name:
        rows = list(counted(program, pathlib.Path(name)))
    print('%-56s %12s %14s' % ('', 'counted', 'wanted at most'))
    for what, number, most in rows:
        print('%-56s %12d %14s' % (what, number, '-' if most is None else most))
    kept = sum(most is None or number <= most for _, number, most in rows)
    print('%d kept, %d not' % (kept, len(rows) - kept))
    sys.exit(0 if kept == len(rows) else 1)


if __name__ == '__main__':
    main()
