#!/usr/bin/env python3
"""Counts what a replay costs on a network with signals, gates, merges and diverges: instructions and peak memory, no times.

usage: bench/signals.py [PROGRAM]

The network: 16 arms, each with a signal of two phases. The link `in` of an arm has a queue, 8 cells and a diverge behind
the green of `main`, with 3 units of a parcel to `on` and 1 to `off`; the link `side` has a queue, 2 cells and leads to `on`
behind the green of `cross`, so that each `on` is a merge. `on` has 3 cells and `off` has 1: 16 cells an arm, 256 in all.
All `cap` 20 and `store` 80, but `side` half of it, `wave = [1, 3]`; 8 units a step come into `in` and 3 into `side`. The plan
gives `main` 12 steps and `cross` 6, with 2 steps of clearance, and begins each arm at another place of this cycle. It runs
over 240 steps under `valgrind --tool=callgrind`, and over 120 steps with the front of the plan; the cost of a cell and step is the
difference over 120 x 256. The program is the built one (run ./planner first) or the one that is named.
"""
import pathlib
import tempfile

import chain

ARMS, CELLS, CLEAR = 16, 256, 2
GREENS = {'main': 12, 'cross': 6}


def link(name, cells, cap, keys):
    return ['[[link]]', 'name = "%s"' % name, 'cells = %d' % cells, 'cap = %d' % cap, 'store = %d' % (4 * cap), 'wave = [1, 3]'] + keys


def network(steps):
    lines = ['format = 1', 'steps = %d' % steps]
    for k in range(ARMS):
        demand = 'demand = [{ from = 0, until = %d, rate = %d }]'
        turns = 'turns = [{ link = "on%d", parcel = 3 }, { link = "off%d", parcel = 1 }]' % (k, k)
        lines += link('in%d' % k, 8, 20, [turns, 'signal = "s%d"' % k, 'greens = ["main"]', demand % (steps, 8)])
        lines += link('side%d' % k, 2, 10, ['to = "on%d"' % k, 'signal = "s%d"' % k, 'greens = ["cross"]', demand % (steps, 3)])
        lines += link('on%d' % k, 3, 20, []) + link('off%d' % k, 1, 20, [])
    for k in range(ARMS):
        lines += ['[[signal]]', 'name = "s%d"' % k]
        for name, other in [('main', 'cross'), ('cross', 'main')]:
            lines += ['[[signal.phase]]', 'name = "%s"' % name, 'min = 1', 'max = 20', 'clear = %d' % CLEAR, 'next = ["%s"]' % other]
    return '\n'.join(lines) + '\n'


def plan(steps):
    lines = ['ctm-plan 1']
    for k in range(ARMS):
        lines.append('signal s%d' % k)
        name, green, step = 'main', 1 + k % GREENS['main'], 0
        while step < steps:
            lines.append('%s %d' % (name, min(green, steps - step)))
            step += green + CLEAR
            name = 'cross' if name == 'main' else 'main'
            green = GREENS[name]
    return '\n'.join(lines + ['end']) + '\n'


def written(folder, steps):
    """The network and the plan of a horizon as files."""
    files = [folder / ('%d.toml' % steps), folder / ('%d.plan' % steps)]
    files[0].write_text(network(steps))
    files[1].write_text(plan(steps))
    return files


def main():
    with tempfile.TemporaryDirectory() as name:
        folder = pathlib.Path(name)
        chain.report(written(folder, 240), written(folder, 120), CELLS)


if __name__ == '__main__':
    main()
