#!/usr/bin/env python3
"""Runs `solve` on random small networks, and compares its plans and bounds with all admissible plans.

usage: tools/fuzz_searches.py SEED COUNT [PROGRAM]   (Python 3.11, for tomllib)

Case k of a seed is always the same: a valid network as in tools/fuzz.py, whose program has few rows and which has few enough
admissible plans to make them all. They are made by the rules of docs/signals.md, written down here: each list of runs that fills
the horizon, for each signal. Each has to be accepted by tools/judge.py, and tools/replay.py gives its delay.

`solve` runs with the budgets of docs/search.md that show most: with 1, 2, 3 and 9 nodes, and with as many as every tree fits,
`2^(B + 1) - 1` where B plan columns have no fixed bit, or as many as the rows allow where that is too many. It has to end with 0 and
to print four lines. The plan that it wrote is one of those that were made, and has the delay that is printed; the bound is neither
below 0 nor above the least delay of all; so many nodes as are printed stand in the certificate, and no more than the budget. The
state is `optimal` where the bound is the delay, and else `open`, which may come only where two more nodes are above the budget, and
never where every tree fits. `check` and tools/check_certificate.py have to accept the certificate with the printed bound. Standard
error has to be empty, and in the case's own folder nothing else may change. The program is the built one (run ./planner first) or
the one that is named.

At the end stands how often each answer came and, from 200 cases on, which never came; the last line counts. The status is 0 where
all passed and none of these is missing. The folder of a case that failed is kept, and named.
"""
import collections
import copy
import itertools
import pathlib
import random
import re
import shutil
import subprocess
import sys
import tempfile
import typing

import check_certificate
import compile
import fuzz
import judge
import replay

MOST_ROWS = 400  # of a random network
MOST_PLANS = 600
MOST_WORK = 8_000_000  # the most that a budget times the rows of a program may be
MOST_NODES = 8191  # the most of a budget that every tree fits, so that certificates stay small enough for Python
SMALL = [1, 2, 3, 9]
LINES = re.compile(r'delay (0|[1-9]\d*)\nbound (0|-?[1-9]\d*)\nnodes ([1-9]\d*)\nstate (optimal|open)\n')


# All plans of a network.

def runs_behind(signal, phase, left):
    """Each list of runs, as lines, that begins with this phase and fills so many steps."""
    for green in range(1, min(phase['max'], left) + 1):
        line, behind = '%s %d' % (phase['name'], green), left - green - phase.get('clear', 0)
        if behind <= 0 and (green >= phase['min'] or green == left):
            yield [line]
        elif behind > 0 and green >= phase['min']:
            for follower in signal['phase']:
                if follower['name'] in phase['next']:
                    yield from ([line, *lines] for lines in runs_behind(signal, follower, behind))


def runs_of(net, signal):
    """Each list of runs that a signal may show over the horizon."""
    start = signal.get('start', signal['phase'][0]['name'])
    return runs_behind(signal, next(phase for phase in signal['phase'] if phase['name'] == start), net['steps'])


def few_plans_of(net):
    """The texts of all admissible plans, or None where they are too many."""
    blocks, count = [], 1
    for signal in net.get('signal', []):
        lists = list(itertools.islice(runs_of(net, signal), MOST_PLANS + 1))
        count *= len(lists)
        if count > MOST_PLANS:
            return None
        blocks.append([['signal %s' % signal['name'], *lines] for lines in lists])
    return ['\n'.join(['ctm-plan 1', *itertools.chain(*chosen), 'end', '']) for chosen in itertools.product(*blocks)]


def delays_of(net, plans):
    """The delay of each plan, by its text."""
    for plan in plans:
        judge.judge_plan(net, plan.encode())
    return {plan: replay.replay(net, plan)[0] for plan in plans}


# Cases.

class Case(typing.NamedTuple):
    network: bytes
    checker: check_certificate.Checker
    delays: dict  # of each admissible plan, by its text

    def unfixed(self):
        """How many plan columns have no fixed bit."""
        return sum(column.low < column.high for column in self.checker.program.columns[:self.checker.program.plan])

    def whole(self):
        """A budget that every tree fits, or the most that is allowed and not too slow here."""
        most = min(MOST_NODES, MOST_WORK // len(self.checker.program.rows))
        return min(2 ** (self.unfixed() + 1) - 1, most)


def case_of(seed, number):
    rng = random.Random('%s/search/%d' % (seed, number))
    while True:
        net = fuzz.random_network(rng)
        if not net.get('signal') and rng.random() < 0.9:
            continue
        if compile.Shape(copy.deepcopy(net)).row_count() > MOST_ROWS:
            continue
        plans = few_plans_of(net)
        if plans is None or (net.get('signal') and len(plans) < 2 and rng.random() < 0.9):
            continue
        network = fuzz.spelled_document(rng, net)
        read = judge.judge_network(network)
        return Case(network, check_certificate.Checker(read), delays_of(read, plans))


# A run.

def run(program, folder, *words):
    return subprocess.run([program, *words], cwd=folder, stdout=subprocess.PIPE, stderr=subprocess.PIPE)


def certificate_faults(program, folder, case, bound, nodes):
    """What the program and the checker written apart say of the certificate otherwise than they have to."""
    certificate = (folder / 'out.cert').read_bytes()
    wanted = 0, 'accepted\nbound %d\n' % bound
    checked = run(program, folder, 'check', 'net.toml', 'out.cert')
    apart = check_certificate.told(case.checker.verdict(certificate))
    return [fault for fault, holds in [
        ('check ended with %d and printed %r' % (checked.returncode, checked.stdout),
         (checked.returncode, checked.stdout.decode()) != wanted or checked.stderr),
        ('tools/check_certificate.py says %r of the certificate' % (apart,), apart != wanted),
        ('the certificate has not %d nodes' % nodes, certificate.count(b'\n') != nodes + 3),
    ] if holds]


def answer_faults(case, budget, plan, delay, bound, nodes, state):
    """What is wrong with the lines and the plan of a search within a budget."""
    least, is_whole = min(case.delays.values()), budget >= 2 ** (case.unfixed() + 1) - 1
    return [fault for fault, holds in [
        ('the plan is not admissible', plan not in case.delays),
        ('the plan has the delay %s, not %d' % (case.delays.get(plan), delay), case.delays.get(plan) != delay),
        ('the bound %d is not from 0 to the least delay %d' % (bound, least), not 0 <= bound <= least),
        ('there are %d nodes' % nodes, nodes > budget),
        ('the state is %s with the bound %d of %d' % (state, bound, delay), (state == 'optimal') != (bound == delay)),
        ('the state is open after %d nodes' % nodes, state == 'open' and (nodes + 2 <= budget or is_whole)),
        ('the state is optimal, and the least delay is %d' % least, state == 'optimal' and delay != least),
    ] if holds]


def solve_faults(program, folder, case, budget):
    """What `solve` did otherwise than it has to, and the word for the tally."""
    done = run(program, folder, 'solve', 'net.toml', str(budget), 'out.plan', 'out.cert')
    found = LINES.fullmatch(done.stdout.decode(errors='replace'))
    if done.returncode or done.stderr or not found:
        return ['it ended with %d and printed %r and %r' % (done.returncode, done.stdout, done.stderr)], 'none'
    if sorted(file.name for file in folder.iterdir()) != ['net.toml', 'out.cert', 'out.plan']:
        return ['other files are there'], 'none'
    delay, bound, nodes, state = *map(int, found.groups()[:3]), found[4]
    faults = answer_faults(case, budget, (folder / 'out.plan').read_text(errors='replace'), delay, bound, nodes, state)
    faults += certificate_faults(program, folder, case, bound, nodes)
    if (folder / 'net.toml').read_bytes() != case.network:
        faults.append('it changed the network')
    kind = 'small' if budget in SMALL else 'whole' if budget >= 2 ** (case.unfixed() + 1) - 1 else 'large'
    return faults, '%s %s%s' % (kind, state, '' if nodes < 2 else ' with splits')


def faults_of(program, folder, case):
    """What the runs of a case did otherwise than they have to, and the words for the tally."""
    (folder / 'net.toml').write_bytes(case.network)
    faults, words = [], []
    for budget in sorted({*SMALL, case.whole()}):
        found, word = solve_faults(program, folder, case, budget)
        faults += ['budget %d: %s' % (budget, fault) for fault in found]
        words.append(word)
    return faults, words


def wanted_words():
    """Each answer that a long run has to hit."""
    words = ['small open', 'small open with splits', 'small optimal']
    return words + ['%s optimal with splits' % kind for kind in ['small', 'large', 'whole']]


def main():
    if len(sys.argv) not in (3, 4) or not sys.argv[2].isdecimal():
        sys.exit('usage: tools/fuzz_searches.py SEED COUNT [PROGRAM]')
    seed, count = sys.argv[1], int(sys.argv[2])
    program = pathlib.Path(sys.argv[3]).resolve() if len(sys.argv) > 3 else fuzz.PROGRAM
    if not program.exists():
        sys.exit('fuzz: the program is not built; run ./planner first')
    folder = pathlib.Path(tempfile.mkdtemp(prefix='fuzz-'))
    tally, failed = collections.Counter(), 0
    for number in range(count):
        here = folder / str(number)
        here.mkdir()
        faults, words = faults_of(program, here, case_of(seed, number))
        tally.update(words)
        if faults:
            failed += 1
            print('case %d, in %s: %s' % (number, here, '; '.join(faults)))
        else:
            shutil.rmtree(here)
    for word in sorted(tally):
        print('%6d  %s' % (tally[word], word))
    missed = [word for word in wanted_words() if not tally[word]] if count >= 200 else []
    for word in missed:
        print(' never  %s' % word)
    if not failed:
        shutil.rmtree(folder)
    print('%d passed, %d failed' % (count - failed, failed) + (', %d answers never came' % len(missed) if missed else ''))
    sys.exit(1 if failed or missed else 0)


if __name__ == '__main__':
    main()
