#!/usr/bin/env python3
"""Runs `check` and `gap` on certificates, lawful and damaged, and compares them with tools/check_certificate.py.

usage: tools/fuzz_certificates.py SEED COUNT [PROGRAM]   (Python 3.11, for tomllib)

First comes a table: the certificates that docs/certificate.md works by hand, with each line changed in each way that the grammar
and the leaves know, cut at each byte, and with bytes behind. Then COUNT cases, of which case k of a seed is always the same: a
small network, of which ten cases in a row have one, and a random tree of splits, first of plan columns and then of any. Each of
its leaves is a good one: fixed where the box leaves one admissible plan, empty where a row cannot be met, else priced, with
prices that are lawful and otherwise random. The bound is the least number that the leaves give, or one beside it. Half of the
certificates are then damaged like those of the table. Some networks and some plans of `gap` are changed as in tools/fuzz.py.

Statuses and printed lines have to be the same, and standard error has to be empty. The program is the built one (run ./planner
first) or the one that is named. At the end stands how often each answer came and, from 2000 cases on, which never came; the last
line counts. The status is 0 where all passed and none of these is missing. The folder of a case that failed is kept, and named.
"""
import collections
import copy
import functools
import pathlib
import random
import shutil
import subprocess
import sys
import tempfile
import typing

import check_certificate
import compile
import fuzz
import judge

OF_A_NETWORK = 10  # cases in a row that have the same network
MOST_ROWS = 250  # of a random network
MOST_NODES = 40  # of a random tree, before its open boxes get leaves

ONE_CELL = b'format = 1\nsteps = 1\n[[link]]\nname = "a"\ncap = 2\nstore = 3\ninitial = [3]\n'
WORKED = pathlib.Path(fuzz.TOP, 'examples/three-steps.toml'), pathlib.Path(fuzz.TOP, 'examples/three-steps-least.cert')
OF_ONE_CELL = [('1', 'priced 1 1024'), ('1', 'priced'), ('0', 'priced 1 1 2 1'), ('1', 'fixed'), ('-5', 'split 1 0\npriced\npriced')]


class Case(typing.NamedTuple):
    """The bytes of a network, of a plan or None, and of a certificate."""
    network: bytes
    plan: bytes | None
    certificate: bytes


def text_of(lines):
    return b''.join(line + b'\n' for line in lines)


# Changes of a line: each becomes some lines. `sizes` are the numbers of columns and of rows of the program.

STRANGE = [b'', b'-', b'+1', b'-0', b'00', b'01', b'-01', b'--1', b'1.0', b'1e3', b'0x1', b'1_0', b'x', b'1x', b'1\r', b'1\t', b'\xd9\xa3',
           b'9' * 9, b'1' + b'0' * 9, b'9' * 15, b'1' + b'0' * 15, b'-' + b'9' * 15, b'-1' + b'0' * 15, b'9' * 19, b'9' * 40,
           b'1099511627776', b'1099511627777', b'-1099511627776', b'-1099511627777', b'18446744073709551617', b'4294967296']
OTHER_LINES = [b'', b' ', b'end', b'End', b'end ', b'end 1', b'fixed', b'fixed 1', b'priced', b'priced 0', b'priced 0 0', b'empty', b'empty 0 1',
               b'split', b'split 0', b'split 0 0', b'split 1 0 0', b'ctm-cert 1', b'ctm-cert 2', b'ctm-cert', b'ctm-cert 1 1', b'bound', b'bound 0',
               b'bound 1 1', b'# why', b'leaf', b'\xff', b'\x00']


def number_changes(word, sizes):
    """Other words in place of a number: those beside it and beside the sizes of the program, and some that are of no form."""
    number = int(word)
    near = [number - 1, number + 1, -number, 0, 1, -1, number * 10, number * 1024]
    near += [size + k for size in sizes for k in (-1, 0, 1)]
    return [b'%d' % k for k in near] + [b'0' + word, b'+' + word, b'-' + word, word + b'0' * 6] + STRANGE


def line_changes(line, sizes):
    """What may stand in place of a line."""
    words = line.split(b' ')
    yield []
    yield [line, line]
    for other in OTHER_LINES:
        yield [other]
        yield [other, line]
    for end in [b' ', b'\r', b'\t', b'\x00', b' 1', b' 1 1', b' 0 1', b' -1', b' x']:
        yield [line + end]
    yield [b' ' + line]
    yield [line.replace(b' ', b'  ', 1)]
    yield [line.replace(b' ', b'\t', 1)]
    yield line.split(b' ', 1)
    yield [line.upper()]
    for kind in [b'split', b'priced', b'empty', b'fixed', b'bound', b'end']:
        yield [b' '.join([kind, *words[1:]])]
    yield [b' '.join([words[0], *reversed(words[1:])])]
    for k, word in enumerate(words):
        yield [b' '.join(words[:k] + words[k + 1:])]
        yield [b' '.join(words[:k] + [word] + words[k:])]
        if judge.GREEN.fullmatch(word.removeprefix(b'-')):
            for other in number_changes(word, sizes):
                yield [b' '.join(words[:k] + [other] + words[k + 1:])]
    if len(words) > 4:
        yield [b' '.join(words[:1] + words[3:5] + words[1:3] + words[5:])]


def text_changes(text):
    """What may stand in place of a whole text."""
    for behind in [b'\n', b' ', b'x', b'\x00', b'\xff', b'end\n', b'fixed\n', b'\r\n', b'end', text]:
        yield text + behind
    yield b'\xef\xbb\xbf' + text
    yield text.replace(b'\n', b'\r\n')
    yield text.replace(b'\n', b'')
    yield b'\n' + text


def table_cases():
    """Each line of the worked certificates changed in each way."""
    network, certificate = (path.read_bytes() for path in WORKED)
    certificates = [(network, certificate)]
    certificates += [(ONE_CELL, ('ctm-cert 1\nbound %s\n%s\nend\n' % pair).encode()) for pair in OF_ONE_CELL]
    for network, text in certificates:
        program = checker_of(network).program
        lines = text.split(b'\n')[:-1]
        texts = [text]
        for k, line in enumerate(lines):
            texts += [text_of(lines[:k] + changed + lines[k + 1:])
                      for changed in line_changes(line, (len(program.columns), len(program.rows)))]
        texts += [text[:place] for place in range(len(text))]
        texts += text_changes(text)
        for text in dict.fromkeys(texts):
            yield Case(network, None, text)


# Random trees whose leaves are good.

def random_price(random, row):
    size = random.choice([1, 1, 2, 1024, 1024, random.randint(1, 5000), 2 ** random.randint(0, 40), 2 ** 40])
    return -size if row.relation == 'eq' and random.random() < 0.5 else size


def random_pairs(random, rows, count):
    return [(number, random_price(random, rows[number])) for number in sorted(random.sample(range(len(rows)), min(count, len(rows))))]


def broken_rows(program, box):
    """The rows that no point of a box meets, each with the sign of the prices that show it."""
    for number, row in enumerate(program.rows):
        ends = [sorted([coefficient * box.lows[column], coefficient * box.highs[column]]) for column, coefficient in row.terms.items()]
        if sum(high for _, high in ends) < row.right:
            yield number, 1
        elif row.relation == 'eq' and sum(low for low, _ in ends) > row.right:
            yield number, -1


def random_leaf(random, checker, box):
    """A leaf that is good in its box, and the number that it gives or None."""
    if not checker.is_unfixed(box) and random.random() < 0.8:
        delay = checker.delay(box)
        if delay is not None:
            return check_certificate.Leaf('fixed', []), delay
    rows = list(broken_rows(checker.program, box))
    if rows and random.random() < 0.95:
        number, sign = random.choice(rows)
        pairs = [(number, sign * abs(random_price(random, checker.program.rows[number])))]
        more = sorted(dict(random_pairs(random, checker.program.rows, random.randint(1, 4)) + pairs).items())
        is_good = random.random() < 0.3 and checker.value(box, more, False) >= 1
        return check_certificate.Leaf('empty', more if is_good else pairs), None
    pairs = random_pairs(random, checker.program.rows, random.choice([0, 0, 1, 1, 2, 3, 8]))
    return check_certificate.Leaf('priced', pairs), checker.number(box, pairs)


def random_split(random, checker, box):
    """A split of a column that has more than one number in the box, mostly of the plan."""
    several = [k for k, (low, high) in enumerate(zip(box.lows, box.highs)) if low < high]
    of_plan = [k for k in several if k < checker.program.plan]
    column = random.choice([of_plan[0], random.choice(of_plan)]) if of_plan and random.random() < 0.85 else random.choice(several)
    low, high = box.lows[column], box.highs[column]
    return check_certificate.Split(column, random.choice([low, high - 1, random.randint(low, high - 1)]))


def random_tree(random, checker):
    """The nodes of a tree, and the least number that its leaves give."""
    most = random.choice([1, 3, 10, MOST_NODES])
    nodes, numbers, boxes = [], [], [checker.root]
    while boxes:
        box = boxes.pop()
        is_open = checker.is_unfixed(box) or random.random() < 0.1
        is_split = is_open and len(nodes) < most and box.lows != box.highs and random.random() < 0.95
        if is_split and random.random() < 0.7 and next(broken_rows(checker.program, box), None):
            is_split = False
        if is_split:
            node = random_split(random, checker, box)
            boxes += [box.right(*node), box.left(*node)]
        else:
            node, number = random_leaf(random, checker, box)
            numbers += [] if number is None else [number]
        nodes.append(node)
    return nodes, min(numbers, default=0)


def line_of(node):
    if isinstance(node, check_certificate.Split):
        return b'split %d %d' % node
    return ' '.join([node.kind, *('%d %d' % pair for pair in node.pairs)]).encode()


def random_certificate(random, checker):
    nodes, least = random_tree(random, checker)
    bound = random.choice([least, least, least, least, least - 1, least + 1, random.randint(-5, 5), least - 2 ** random.randint(0, 49)])
    bound = max(-10 ** 15 + 1, min(10 ** 15 - 1, bound))
    return [b'ctm-cert 1', b'bound %d' % bound, *map(line_of, nodes), b'end']


def other_node(random, checker, line):
    """The line of a node with a fault that the grammar allows."""
    columns, rows = len(checker.program.columns), len(checker.program.rows)
    node = check_certificate.node_in(line)
    if isinstance(node, check_certificate.Split):
        column = random.choice([node.column, random.randrange(columns), columns])
        return b'split %d %d' % (column, random.choice([node.at, node.at + 1, -1, 1, random.randint(0, 40)]))
    pairs = list(node.pairs)
    place, change = random.randint(0, len(pairs)), random.choice(['fixed', 'kind', 'row', 'order', 'price', 'sign', 'value'])
    if change == 'fixed':
        return b'fixed'
    if change == 'row':
        pairs.insert(place, (random.choice([rows, rows + 1, 10 ** 9 - 1]), 1))
    if change == 'order':
        pairs.insert(place, random.choice(pairs) if pairs else (random.randrange(rows), 1))
    if change == 'price':
        pairs[place:] = [(random.randrange(rows), random.choice([1, -1]) * random.choice([2 ** 40, 2 ** 40 + 1, 10 ** 15 - 1]))]
    if change == 'sign':
        pairs[place:] = [(random.randrange(rows), -random.randint(1, 1024))]
    if change == 'value':
        pairs = [(number, price * random.choice([1, 1, 2, 1024, -1])) for number, price in pairs]
    kinds = ['priced', 'empty'] if change == 'kind' or node.kind == 'fixed' else [node.kind]
    return line_of(check_certificate.Leaf(random.choice(kinds), pairs))


def damaged(random, checker, lines):
    """The bytes of a certificate with some change."""
    text = text_of(lines)
    kind = random.random()
    if kind < 0.4:
        k = random.randrange(2, len(lines) - 1)
        return text_of(lines[:k] + [other_node(random, checker, lines[k])] + lines[k + 1:])
    if kind < 0.75:
        k = random.choice([random.randrange(len(lines)), random.randrange(min(6, len(lines)))])
        sizes = len(checker.program.columns), len(checker.program.rows)
        changed = random.choice(list(line_changes(lines[k], sizes)))
        return text_of(lines[:k] + changed + lines[k + 1:])
    place = random.randrange(len(text))
    if kind < 0.8:
        return text[:place]
    if kind < 0.9:
        return text[:place] + bytes([random.choice([random.randrange(256), *b'0123456789 -\n'])]) + text[place + 1:]
    if kind < 0.95 and len(lines) > 4:
        i, j = random.sample(range(2, len(lines)), 2)
        return text_of([lines[j] if k == i else lines[i] if k == j else line for k, line in enumerate(lines)])
    return random.choice(list(text_changes(text)))


# Cases.

@functools.lru_cache(8)
def checker_of(network):
    """What certificates of a network are judged by, or None where it is refused."""
    try:
        return check_certificate.Checker(judge.judge_network(network))
    except (judge.Refused, compile.TooLarge):
        return None


@functools.lru_cache(4)
def network_of(seed, number):
    """A network as tables, and its bytes."""
    rng = random.Random('%s/network/%d' % (seed, number))
    while True:
        net = fuzz.random_network(rng)
        if compile.Shape(copy.deepcopy(net)).row_count() <= MOST_ROWS:
            return net, fuzz.spelled_document(rng, net)


def case_of(seed, number):
    net, network = network_of(seed, number // OF_A_NETWORK)
    rng = random.Random('%s/%d' % (seed, number))
    checker = checker_of(network)
    lines = random_certificate(rng, checker)
    certificate = text_of(lines) if rng.random() < 0.5 else damaged(rng, checker, lines)
    plan = None
    if rng.random() < 0.25:
        lines = fuzz.random_plan(rng, net)
        plan = text_of(line.encode() for line in lines) if rng.random() < 0.8 else fuzz.changed_plan(rng, net, lines)
    if rng.random() < 0.02:
        network = fuzz.spelled_document(rng, fuzz.changed_network(rng, net))
    return Case(network, plan, certificate)


def expected(case):
    """The status, the printed lines, and the word for the tally."""
    checker = checker_of(case.network)
    if checker is None:
        status, printed = check_certificate.answer_of_check(case.network, case.certificate)
    elif case.plan is None:
        status, printed = check_certificate.told(checker.verdict(case.certificate))
    else:
        status, printed = check_certificate.answer_of_gap(case.network, case.plan, case.certificate)
    if status == 1:
        what = printed.split('\n')[2].removeprefix('why ')
    else:
        what = {0: 'accepted', 3: 'network', 4: 'plan', 5: 'too large'}[status]
    return status, printed, '%s %s' % ('check' if case.plan is None else 'gap', what)


def faults_of(program, folder, case):
    """What the program did otherwise than it has to, and the word for the tally."""
    status, printed, word = expected(case)
    names = ['net.toml', 'net.plan', 'net.cert'] if case.plan is not None else ['net.toml', 'net.cert']
    for name, data in zip(['net.toml', 'net.plan', 'net.cert'], case):
        if data is not None:
            (folder / name).write_bytes(data)
    done = subprocess.run([program, 'check' if case.plan is None else 'gap', *names], cwd=folder, stdout=subprocess.PIPE,
                          stderr=subprocess.PIPE)
    faults = ['it %s %r, not %r' % (what, got, wanted)
              for what, got, wanted in [('ended with', done.returncode, status), ('printed', done.stdout, printed.encode()),
                                        ('wrote to standard error', done.stderr, b'')] if got != wanted]
    return faults, word


def wanted_words():
    """Each answer that a long run has to hit."""
    whys = ['form', 'tail', 'column', 'range', 'row', 'order', 'price', 'sign', 'weak', 'notempty', 'notfixed', 'notplan']
    return ['check %s' % what for what in ['accepted', *whys, 'network']] + ['gap %s' % what for what in ['accepted', 'weak', 'form', 'plan']]


def main():
    if len(sys.argv) not in (3, 4) or not sys.argv[2].isdecimal():
        sys.exit('usage: tools/fuzz_certificates.py SEED COUNT [PROGRAM]')
    seed, count = sys.argv[1], int(sys.argv[2])
    program = pathlib.Path(sys.argv[3]).resolve() if len(sys.argv) > 3 else fuzz.PROGRAM
    if not program.exists():
        sys.exit('fuzz: the program is not built; run ./planner first')
    folder = pathlib.Path(tempfile.mkdtemp(prefix='fuzz-'))
    tally, passed, failed = collections.Counter(), 0, 0
    cases = [('row', number, case) for number, case in enumerate(table_cases())]
    for kind, number, case in [*cases, *(('case', number, None) for number in range(count))]:
        here = folder / ('%s-%d' % (kind, number))
        here.mkdir()
        faults, word = faults_of(program, here, case or case_of(seed, number))
        tally[word] += kind == 'case'
        passed, failed = passed + (not faults), failed + bool(faults)
        if faults:
            print('%s %d, in %s: %s' % (kind, number, here, '; '.join(faults)))
        else:
            shutil.rmtree(here)
    for word in sorted(tally):
        print('%6d  %s' % (tally[word], word))
    missed = [word for word in wanted_words() if not tally[word]] if count >= 2000 else []
    for word in missed:
        print(' never  %s' % word)
    if not failed:
        shutil.rmtree(folder)
    print('%d passed, %d failed' % (passed, failed) + (', %d answers never came' % len(missed) if missed else ''))
    sys.exit(1 if failed or missed else 0)


if __name__ == '__main__':
    main()
