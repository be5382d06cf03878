#!/usr/bin/env python3
"""Counts what the program of a network and the point of a plan cost: instructions and peak memory, no times.

usage: bench/program.py [PROGRAM]

The crossing: four arms of five cells and a queue each meet at a signal of two phases, with two steps of clearance. North and
south lead straight on, east and west diverge with 3 units of a parcel straight on and 1 to a side, and four roads of two cells
lead out: 32 cells over 60 steps, 17,966 rows. `program`, `encode` and `point`, on what `encode` wrote, run on it under
`valgrind --tool=callgrind`, and `program` on its first 30 steps too, so that the growth with the horizon is seen. `point` on a text
of no values makes the program and refuses them by their length; what the whole point takes beyond that is its reading, the bounds
and rows that it is tried on, and its plan with the replay and the text.

The ring: 64 links over 240 steps, each a diverge of 2 units of a parcel to each of the next four, with one signal of four
phases that keeps the merges apart, and as many cells as the most rows of a program let it have: of networks that were thought
of, it has most columns. It is built once in a plain run, and its peak memory is told.

The long link: 255 cells and a queue over 240 steps, 490,784 rows, which is refused as too large; what it costs to say so.

Wanted are the numbers of the last column; the last line counts those that are kept, and the status is 0 where all are. The program is
the built one (run ./planner first) or the one that is named.
"""
import pathlib
import sys
import tempfile

import measure

ARM = ['cells = 5', 'cap = 10', 'store = 40', 'wave = [1, 3]']
WAYS_OUT = ['s_out', 'n_out', 'w_out', 'e_out']
LINKS, LONGER = 64, 42  # of the ring: so many links, and so many of them of two cells
CLEAR = 2


def piece(first, until, rate, steps):
    return '{ from = %d, until = %d, rate = %d }' % (first, min(until, steps), rate)


def crossing(steps):
    """The crossing over its first steps: traffic comes in before step 40."""
    def turns(straight, side):
        return 'turns = [{ link = "%s", parcel = 3 }, { link = "%s", parcel = 1 }]' % (straight, side)

    arms = [('north', 'to = "s_out"', 'ns', [(0, 40, 4)]), ('south', 'to = "n_out"', 'ns', [(0, 40, 3)]),
            ('east', turns('w_out', 'n_out'), 'ew', [(0, 40, 3)]), ('west', turns('e_out', 's_out'), 'ew', [(0, 20, 4), (20, 40, 2)])]
    lines = ['format = 1', 'steps = %d' % steps]
    for name, way, green, pieces in arms:
        demand = ', '.join(piece(*each, steps) for each in pieces if each[0] < steps)
        lines += ['[[link]]', 'name = "%s"' % name, *ARM, way, 'signal = "j"', 'greens = ["%s"]' % green, 'demand = [%s]' % demand]
    for name in WAYS_OUT:
        lines += ['[[link]]', 'name = "%s"' % name, 'cells = 2', *ARM[1:]]
    lines += ['[[signal]]', 'name = "j"']
    for name, other in [('ns', 'ew'), ('ew', 'ns')]:
        lines += ['[[signal.phase]]', 'name = "%s"' % name, 'min = 4', 'max = 20', 'clear = %d' % CLEAR, 'next = ["%s"]' % other]
    return '\n'.join(lines) + '\n'


def crossing_plan(steps):
    """Greens of 10 steps in turn."""
    lines, step, phases = ['ctm-plan 1', 'signal j'], 0, ['ns', 'ew']
    while step < steps:
        lines.append('%s %d' % (phases[0], min(10, steps - step)))
        step += 10 + CLEAR
        phases.reverse()
    return '\n'.join(lines + ['end']) + '\n'


def ring():
    lines = ['format = 1', 'steps = 240']
    for k in range(LINKS):
        turns = ', '.join('{ link = "l%d", parcel = 2 }' % ((k + j) % LINKS) for j in range(1, 5))
        lines += ['[[link]]', 'name = "l%d"' % k, 'cells = %d' % (2 if k < LONGER else 1), 'cap = 10', 'store = 40', 'wave = [1, 3]']
        lines += ['turns = [%s]' % turns, 'signal = "s"', 'greens = ["p%d"]' % (k % 4)]
    lines += ['[[signal]]', 'name = "s"']
    for p in range(4):
        lines += ['[[signal.phase]]', 'name = "p%d"' % p, 'min = 1', 'max = 60', 'next = ["p%d"]' % ((p + 1) % 4)]
    return '\n'.join(lines) + '\n'


def long_link():
    return 'format = 1\nsteps = 240\n[[link]]\nname = "a"\ncells = 255\ncap = 1\nstore = 1\nrates = [0]\n'


def counted(program, folder):
    """What is counted: its name, its number, and the most that is wanted or None."""
    for name, text in [('60.toml', crossing(60)), ('30.toml', crossing(30)), ('60.plan', crossing_plan(60)), ('ring.toml', ring()),
                       ('long.toml', long_link())]:
        (folder / name).write_text(text)
    (folder / 'none').write_text('ctm-point 1\nend\n')
    out = folder / 'out'

    def instructions(*words, status=0):
        outputs = [] if words[0] == 'point' else [out]
        run = measure.instructions([program, words[0], *(folder / name for name in words[1:]), *outputs], status)
        print('%s: %s' % (' '.join(words), ', '.join(run.printed.split('\n')[:3]).removesuffix(', ')))
        return run.total

    whole = instructions('program', '60.toml')
    yield 'instructions of the program of the crossing', whole, 35_100_000
    yield 'instructions of the point of a plan of the crossing', instructions('encode', '60.toml', '60.plan'), 15_500_000
    out.rename(folder / '60.point')
    decoded = instructions('point', '60.toml', '60.point')
    yield 'instructions of the plan of that point', decoded, 52_000_000
    yield 'the same beyond a text of no values', decoded - instructions('point', '60.toml', 'none', status=1), 16_800_000
    yield 'permille of the instructions of 60 steps to those of 30', 1000 * whole // instructions('program', '30.toml'), 2100
    yield 'instructions of the refusal of the long link', instructions('program', 'long.toml', status=5), None
    run = measure.run([program, 'program', folder / 'ring.toml', out])
    print('program ring.toml: %s' % run.printed.strip().replace('\n', ', '))
    if run.status:
        sys.exit('bench: the program of the ring ended with %d' % run.status)
    yield 'peak memory of the program of the ring, kB', run.kilobytes, 400_000


def main():
    program = measure.program()
    with tempfile.TemporaryDirectory() as name:
        rows = list(counted(program, pathlib.Path(name)))
    print('%-56s %12s %14s' % ('', 'counted', 'wanted at most'))
    for what, number, most in rows:
        print('%-56s %12d %14s' % (what, number, '-' if most is None else most))
    kept = sum(most is None or number <= most for _, number, most in rows)
    print('%d kept, %d not' % (kept, len(rows) - kept))
    sys.exit(0 if kept == len(rows) else 1)


if __name__ == '__main__':
    main()
