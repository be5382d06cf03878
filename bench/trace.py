#!/usr/bin/env python3
"""Counts what a table costs beyond the replay that it shows: instructions, and peak memory, no times.

usage: bench/trace.py [PROGRAM]

The network is the chain of bench/chain.py, 64 links and 256 cells over 240 steps, with the plan of no signals: a table of
61,440 lines. `replay` and `trace` run on it under `valgrind --tool=callgrind`, and what is told of a line is the difference over
the lines. It is told how much of it is spent in functions of the libraries `csv` and `itoa`, by their names; what the
compiler inlined counts where it stands, so the functions that take most are listed too. The program is the built one (run
./planner first) or the one that is named.
"""
import pathlib
import re
import tempfile

import chain
import measure

LIBRARIES = ['csv', 'itoa']
LISTED = 10


def report(program, net, plan, table):
    replayed = measure.instructions([program, 'replay', net, plan])
    traced = measure.instructions([program, 'trace', net, plan, table])
    lines = table.read_bytes().count(b'\n') - 1
    functions = {name: (count - replayed.functions[name]) / lines for name, count in traced.functions.items()}
    print(traced.printed, end='')
    print('lines of the table %d' % lines)
    print('bytes of the table %d' % table.stat().st_size)
    print('instructions of the whole run %d' % traced.total)
    print('instructions of a line beyond the replay %.1f' % ((traced.total - replayed.total) / lines))
    for library in LIBRARIES:
        # the name as a word of a path, so that a function that is called trace_csv is none of the library's
        is_of = re.compile('(?<![A-Za-z_])%s(?![a-z])' % library)
        print('  in functions of %s %.1f' % (library, sum(count for name, count in functions.items() if is_of.search(name))))
    print('peak memory %d kB' % measure.peak_memory([program, 'trace', net, plan, table]))
    print('the functions that take most of a line:')
    for name in sorted(functions, key=lambda name: (-functions[name], name))[:LISTED]:
        print('%8.1f  %s' % (functions[name], name))


def main():
    program = measure.program()
    with tempfile.TemporaryDirectory() as name:
        net, plan, table = (pathlib.Path(name) / file for file in ['chain.toml', 'none.plan', 'table.csv'])
        net.write_text(chain.network(240, 240))
        plan.write_text('ctm-plan 1\nend\n')
        report(program, net, plan, table)


if __name__ == '__main__':
    main()
