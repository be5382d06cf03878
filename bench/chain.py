#!/usr/bin/env python3
"""Counts what a replay costs on a chain of 64 links and 256 cells: instructions and peak memory, no times.

usage: bench/chain.py [PROGRAM]

The network: links l0 to l63, each `to` the next, of 4 cells and the last of 3, `cap` 10, but 8 on l0 and every seventh,
`store = 40`, `wave = [1, 3]`; 240 rates of 9 come into l0. It runs over 240 steps under `valgrind --tool=callgrind`, and
over 120 steps with 120 rates; the cost of a cell and step is the difference over 120 x 256. The program is the built one (run
./planner first) or the one that is named.
"""
import pathlib
import tempfile

import measure

LINKS, CELLS = 64, 256


def network(steps, rates):
    lines = ['format = 1', 'steps = %d' % steps]
    for k in range(LINKS):
        lines += ['[[link]]', 'name = "l%d"' % k, 'cells = %d' % (4 if k + 1 < LINKS else 3)]
        lines += ['cap = %d' % (8 if k % 7 == 0 else 10), 'store = 40', 'wave = [1, 3]']
        if k + 1 < LINKS:
            lines += ['to = "l%d"' % (k + 1)]
        if k == 0:
            lines += ['rates = [%s]' % ', '.join(['9'] * rates)]
    return '\n'.join(lines) + '\n'


def report(long, short, cells):
    """Prints what the replay over 240 steps costs, and what a cell and step costs by the difference to 120 steps."""
    program = measure.program()
    whole = measure.instructions([program, 'replay', *long])
    half = measure.instructions([program, 'replay', *short])
    print(whole.printed, end='')
    print('instructions of the whole run %d' % whole.total)
    print('instructions of a cell and step %.1f' % ((whole.total - half.total) / (120 * cells)))
    print('peak memory %d kB' % measure.peak_memory([program, 'replay', *long]))


def main():
    with tempfile.TemporaryDirectory() as name:
        folder = pathlib.Path(name)
        long, short = folder / 'long.toml', folder / 'short.toml'
        long.write_text(network(240, 240))
        short.write_text(network(120, 120))
        report([long], [short], CELLS)


if __name__ == '__main__':
    main()
