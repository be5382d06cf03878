#!/usr/bin/env python3
"""Counts what the parts of a search cost, each by itself, and compares what they keep: instructions, no times.

usage: bench/parts.py [PROGRAM]

The program is `search_parts`, which does parts of a search as often as it is told on the network of its standard input: the built one
(`rt run` in crates/search_parts builds it) or the one that is named. Its libraries are those of the planner. What a part costs is
what it costs to do it once more, under `valgrind --tool=callgrind`, on the crossing of bench/program.py over 60 steps (17,966 rows):

- a kept change of a price: each price is raised in turn and taken back, each time with the test whether it stays lawful;
- a settled test: an ascent over prices that are settled, which looks at all rows and changes none. It is counted over 30 steps too;
- a move of the box along a path of 1, 8 and 64 splits, down and up again;
- a replay of a plan from step 0, 30 and 59 on, and those of a climb from `short`, by the steps that were replayed.

First come the comparisons, on the crossing, on generated networks (tools/generate.py) and on the examples with signals. Kept values are
compared with values that are worked out anew: after 2,000 changes at random, after ascents, and at the end of a path of 64
splits. Delays of climbs and roundings are compared with replays of the plans that they answer, and where the least delay of a network is
known, or the least that anything found, with that: none is below it, and the better of the two is as far above it as is said here.

Wanted are the numbers of the last column; the last line counts those that are kept, and the status is 0 where all are.
"""
import pathlib
import re
import subprocess
import sys
import tempfile
import tomllib

import measure
import program as programs

sys.path.insert(0, str(measure.TOP / 'tools'))
import compile

EXAMPLES = ['three-steps.toml', 'two-junctions.toml', 'two-phase-intersection.toml', 'turning-movements.toml', 'arterial.toml']
COMPARED = 'changes 2000 sweeps 1 ascents 4 moves 64 replays 30 climb 2000 round 0'.split()
LINE = re.compile(r'(?:changes|sweeps|moves|replays|ascents) \d+:(?: settled \d+,)? right true|(?:climb \d+|round): delay (\d+), replayed (\d+)')
PLAIN_CHANGE, PLAIN_TEST = 86.6, 47.1  # instructions a term that plain Rust takes, of which one and a half times are wanted at most
MOST_ENTER, MOST_REPLAY = 70, 1_830  # instructions a split and a step, on paths of any length and from any step on
OFTEN = 1000  # a path is gone down and up so often, once the box stands at its end
REPLAYS = 100  # so often a plan is replayed from a step on
STEPS = 60
TRIES = 2000
REPLAY, STEP = 'cell_replay::kept::KeptReplay::replay', 'cell_replay::moves::advance'


def networks():
    """The names of the networks that are compared, their texts, the least delay that is known and how far above it an answer may be."""
    yield 'the crossing of four arms', programs.crossing(STEPS), 2521, 0  # the least of all its plans, which were replayed
    for number, least, above in [(0, 1210, 0), (2, 3434, 13), (7, 5898, 0)]:  # the least that any of several searches found
        made = subprocess.run([measure.TOP / 'tools/generate.py', str(number)], stdout=subprocess.PIPE, check=True)
        yield 'generated network %d' % number, made.stdout.decode(), least, above
    for name in EXAMPLES:
        yield name, (measure.TOP / 'examples' / name).read_text(), None, None


def compared(program):
    """For each network whether what its parts say is right; what they say is printed."""
    for name, text, least, above in networks():
        run = subprocess.run([program, *COMPARED], input=text.encode(), stdout=subprocess.PIPE)
        lines = run.stdout.decode().splitlines()
        found = list(map(LINE.fullmatch, lines))
        delays = [(int(line[1]), int(line[2])) for line in found if line and line[1]]
        right = run.returncode == 0 and len(lines) == len(COMPARED) // 2 and all(found)
        right = right and all(delay == replayed for delay, replayed in delays)
        if least is not None:
            right = right and least <= min(delays)[0] <= least + above
        print('%s%s: %s%s' % ('' if right else 'FAILED ', name, '; '.join(lines), '' if least is None else '; least known %d' % least))
        yield right


class Parts:
    """The program over a network."""

    def __init__(self, program, path):
        self.program, self.path = program, path

    def run(self, part, number):
        with open(self.path, 'rb') as given:
            return measure.instructions([self.program, part, str(number)], given=given)

    def more(self, part, more, less):
        """The instructions of a part with the one number beyond those with the other."""
        return self.run(part, more).total - self.run(part, less).total


def size_of(path):
    """The rows of a network's program, and the terms of all of them, by the compiler that was written apart."""
    rows = compile.program_of(tomllib.loads(path.read_text())).rows
    return len(rows), sum(len(row.terms) for row in rows)


def settled(parts):
    """The instructions of an ascent that finds all prices settled: the fourth, since the third settled them."""
    third, fourth = parts.run('ascents', 3), parts.run('ascents', 4)
    ended = [int(re.search(r'settled (\d+)', run.printed)[1]) for run in [third, fourth]]
    if ended[0] == 0 or ended[1] != ended[0] + 1:
        sys.exit('bench: ascents did not end with settled prices: %d of 3, %d of 4' % tuple(ended))
    return fourth.total - third.total


def counted(program, folder):
    """What is counted: its name, its number, and the most that is wanted or None."""
    for steps in [STEPS, STEPS // 2]:
        (folder / ('%d.toml' % steps)).write_text(programs.crossing(steps))
    whole, half = (Parts(program, folder / ('%d.toml' % steps)) for steps in [STEPS, STEPS // 2])
    rows, terms = size_of(whole.path)
    half_terms = size_of(half.path)[1]
    print('%d rows, %d terms, %.2f a row' % (rows, terms, terms / rows))
    change = whole.more('sweeps', 2, 1) / 2
    yield 'instructions of a kept change, with its test', change / rows, None
    yield 'the same for each term of its row', change / terms, 1.5 * PLAIN_CHANGE
    test = settled(whole) / terms
    yield 'instructions of a settled test of all rows, for each term', test, 1.5 * PLAIN_TEST
    yield 'the same over half the steps, in thousandths', 1000 * settled(half) / half_terms / test, 1050
    base = whole.run('moves', 0).total
    paths = {splits: (whole.run('moves', splits).total - base) / (2 * OFTEN * splits) for splits in [1, 8, 64]}
    for splits, each in paths.items():
        yield 'instructions of `enter` on a path of %d splits, for each' % splits, each, MOST_ENTER
    base = whole.run('replays', STEPS).total
    replays = {first: (whole.run('replays', first).total - base) / REPLAYS / (STEPS - first) for first in [0, 30, 59]}
    for first, each in replays.items():
        yield 'instructions of a replay from step %d on, for each step' % first, each, MOST_REPLAY
    climb, start = whole.run('climb', TRIES), whole.run('climb', 0)
    steps = climb.calls[STEP] - start.calls[STEP]
    if not steps:
        sys.exit('bench: %s is not seen in the program' % STEP)
    within = climb.within[REPLAY] - start.within[REPLAY]
    tried = climb.calls[REPLAY] - start.calls[REPLAY]
    print('a climb of at most %d tries: %d plans are replayed, %.1f steps of each' % (TRIES, tried, steps / tried))
    yield 'instructions of the replays of a climb, for each step', within / steps, MOST_REPLAY
    yield 'instructions of a climb beside its replays, for each', (climb.total - start.total - within) / tried, None


def main():
    path = pathlib.Path(sys.argv[1]).resolve() if len(sys.argv) > 1 else measure.TOP / 'crates/search_parts/out/search_parts'
    if not path.exists():
        sys.exit('bench: search_parts is not built; run `rt run` in crates/search_parts first')
    right = list(compared(path))
    with tempfile.TemporaryDirectory() as name:
        rows = list(counted(str(path), pathlib.Path(name)))
    print('%-60s %12s %14s' % ('', 'counted', 'wanted at most'))
    for what, number, most in rows:
        print('%-60s %12.1f %14s' % (what, number, '-' if most is None else '%.1f' % most))
    kept = sum(right) + sum(most is None or number <= most for _, number, most in rows)
    print('%d kept, %d not' % (kept, len(right) + len(rows) - kept))
    sys.exit(0 if kept == len(right) + len(rows) else 1)


if __name__ == '__main__':
    main()
