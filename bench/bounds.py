#!/usr/bin/env python3
"""Tells how far a search comes with what budget: delay, bound, state, seconds and memory; and what a solver says beside it.

usage: bench/bounds.py [PROGRAM]

The networks are the crossing of bench/program.py over 60 steps, generated ones (tools/generate.py), and four examples with signals. Each
is searched with several budgets, as far as its rows allow them; each certificate is judged by `check` and by
tools/check_certificate.py, which was written apart. Where CBC is installed the least value of the linear program without whole numbers
stands beside the network's name. Seconds tell their order alone. The program is the built one (run ./planner first) or the one
that is named.
"""
import pathlib
import re
import shutil
import subprocess
import sys
import tempfile
import time

import measure
import program as programs

TOOLS = measure.TOP / 'tools'
EXAMPLES = ['two-junctions.toml', 'two-phase-intersection.toml', 'turning-movements.toml', 'arterial.toml']
GENERATED = [0, 1, 2, 3, 7, 11, 23, 131]
BUDGETS = [1, 9, 41, 445, 829]
MOST_WORK = 8_000_000  # the most that a budget times the rows of a program may be
SOLVER_SECONDS = 120
LINE = '%-42s %6s %7s %7s %7s %8s %8s %8s'


def networks():
    """The names of the networks with their texts."""
    yield 'the crossing of four arms', programs.crossing(60)
    for number in GENERATED:
        made = subprocess.run([TOOLS / 'generate.py', str(number)], stdout=subprocess.PIPE, check=True)
        yield 'generated network %d' % number, made.stdout.decode()
    for name in EXAMPLES:
        yield name, (measure.TOP / 'examples' / name).read_text()


def relaxed(program, net, folder):
    """What CBC finds for the linear program of a network without whole numbers, rounded up; None where it is not installed or took
    too long."""
    if not shutil.which('cbc'):
        return None
    text = folder / 'net.program'
    subprocess.run([program, 'program', net, text], stdout=subprocess.PIPE, check=True)
    linear = folder / 'net.lp'
    with linear.open('wb') as out:
        subprocess.run([TOOLS / 'program-to-lp', text], stdout=out, check=True)
    solved = subprocess.run(['cbc', linear, 'sec', str(SOLVER_SECONDS), 'initialSolve'], stdout=subprocess.PIPE)
    found = re.search(rb'Optimal - objective value (-?[\d.]+)', solved.stdout)
    return found and -int(-float(found[1]) // 1)


def searched(program, net, budget, folder):
    """The numbers of a search, and whether both judges accept its certificate."""
    words = [program, 'solve', net, str(budget), folder / 'out.plan', folder / 'out.cert']
    started = time.monotonic()
    run = measure.run(words)
    seconds = time.monotonic() - started
    if run.status:
        sys.exit('bench: solve %s %d ended with %d' % (net, budget, run.status))
    delay, bound, nodes, state = (line.split()[1] for line in run.printed.splitlines())
    judged = subprocess.run([program, 'check', net, folder / 'out.cert'], stdout=subprocess.PIPE).stdout.decode()
    again = subprocess.run([TOOLS / 'check_certificate.py', net, folder / 'out.cert'], stdout=subprocess.PIPE).stdout.decode()
    agreed = judged == again == 'accepted\nbound %s\n' % bound
    return (budget, delay, bound, nodes, state, '%.1f' % seconds, run.kilobytes), agreed


def main():
    program = measure.program()
    disagreed = 0
    print(LINE % ('', 'budget', 'delay', 'bound', 'nodes', 'state', 'seconds', 'kB'))
    with tempfile.TemporaryDirectory() as name:
        folder = pathlib.Path(name)
        for title, text in networks():
            net = folder / 'net.toml'
            net.write_text(text)
            rows = int(measure.run([program, 'program', net, folder / 'out']).printed.split()[1])
            least = relaxed(program, net, folder)
            title += '' if least is None else ' (linear: %d)' % least
            for budget in [budget for budget in BUDGETS if budget * rows <= MOST_WORK]:
                row, agreed = searched(program, net, budget, folder)
                disagreed += not agreed
                print(LINE % (title, *row), '' if agreed else 'not accepted alike', flush=True)
    sys.exit(0 if not disagreed else 1)


if __name__ == '__main__':
    main()
