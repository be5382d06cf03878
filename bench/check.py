#!/usr/bin/env python3
"""Counts what it costs to check certificates, and tries certificates that were made to cost time or memory.

usage: bench/check.py [PROGRAM]

Certificates are made for the program of a network, as `program` writes it: for the crossing of bench/program.py over 60 steps
(17,966 rows), and over 6 steps (about a tenth). They have a bound that every leaf meets, so that each line is judged:

- chains of 10,000 splits of occupancies, each with a priced leaf beside it: to the right, where the leaves lie between the splits,
  and to the left, where they come behind them all; without pairs, and with one pair in each leaf;
- 51 leaves of 2,000 pairs over all rows, or of half of all rows where these are fewer;
- all chains of plan columns: to the left, and at each of their right sides one to the right;
- 32,768 fixed leaves under one plan, split by occupancies, and fixed leaves under plans that end otherwise.

Each is counted under `valgrind --tool=callgrind`, beyond a certificate of one leaf, and by the bytes of its text; the last rows
are the peak memory of one leaf, and that of others beyond it, which may be MOST_BEYOND at most. Wanted are the numbers of the
last column.

Then come the hostile ones, each with its size, status, printed lines, instructions and peak memory. Those of above 16 MB are run
plainly alone. One passes where it ends with the lines that are wanted, and takes at most BYTE_INSTRUCTIONS for each byte and
BASE_MILLIONS beside, and, however long it is, at most MOST_BEYOND more memory than one leaf. Files are made one at a time and
deleted behind their run. The last line counts what is kept; the status is 0 where all is. The program is the built one (run
./planner first) or the one that is named.
"""
import itertools
import pathlib
import random
import sys
import tempfile
import tomllib
import typing

import measure
import program as programs

sys.path.insert(0, str(measure.TOP / 'tools'))
import compile
import replay

LONGEST = 134_217_728
MANY = 104_857_600
BOUND = -999_999_999_999_999
HEAD, END = 'ctm-cert 1\nbound %d\n' % BOUND, 'end\n'
ACCEPTED = 'accepted\nbound %d\n' % BOUND
STEPS, FEW_STEPS = 60, 6
SPLITS, PAIRS, LEAVES = 10_000, 2_000, 51
CHAIN = 5_000  # splits of a chain whose memory is counted
VALUES = 32  # of each occupancy that fixed leaves are split by

BYTE_INSTRUCTIONS, BASE_MILLIONS = 110, 400
MOST_BEYOND = 24_576  # kilobytes that a certificate may take beyond one leaf, however long it is
MOST_COUNTED = 16_777_216  # bytes of a hostile certificate that is run under valgrind


class Net(typing.NamedTuple):
    """A network with its program: the tables of its file, the path of the file, and the program that it has."""
    net: dict
    path: pathlib.Path
    program: compile.Program

    def wide(self, width=1):
        """The columns of occupancies that have more numbers than `width`, in an order that leaps over steps and cells."""
        columns = [k for k, column in enumerate(self.program.columns) if column.cost == 1 and column.high - column.low >= width]
        random.Random(1).shuffle(columns)
        return columns

    def free(self):
        """The plan columns that have two numbers."""
        return [k for k in range(self.program.plan) if self.program.columns[k].low < self.program.columns[k].high]


def made(program, folder, name, steps):
    """Writes the crossing into a folder and has its program made."""
    path, out = folder / (name + '.toml'), folder / (name + '.program')
    path.write_text(programs.crossing(steps))
    run = measure.run([program, 'program', path, out])
    if run.status:
        sys.exit('bench: program of %s ended with %d' % (name, run.status))
    print('%s: %s' % (path.name, run.printed.strip().replace('\n', ', ')))
    return Net(tomllib.loads(path.read_text()), path, compile.read_program(out.read_text()))


# Lines of trees.

def split(column, at):
    return 'split %d %d\n' % (column, at)


def leaf(kind, pairs=()):
    return ' '.join([kind, *('%d %d' % pair for pair in pairs)]) + '\n'


def steps_of(net, columns, is_rising):
    """The splits of a chain: of each column in turn all that its bounds allow, from below or from above."""
    for k in columns:
        places = range(net.program.columns[k].low, net.program.columns[k].high)
        for at in places if is_rising else reversed(places):
            yield split(k, at)


def chain(splits, leaves, to_the_right):
    """A chain of splits with these leaves, of which there is one more."""
    if to_the_right:
        return ''.join(line for pair in zip(leaves, splits + ['']) for line in reversed(pair))
    return ''.join(splits + leaves)


def one_pair(net, k):
    """A leaf with a price on one row."""
    return leaf('priced', [(k * 7919 % len(net.program.rows), 1 + k % 1024)])


def many_pairs(net, k):
    """A leaf with prices on rows of all kinds."""
    rng, rows = random.Random(k), len(net.program.rows)
    rows = sorted(rng.sample(range(rows), min(PAIRS, rows // 2)))
    return leaf('priced', [(row, rng.randint(1, 1024) * (-1 if net.program.rows[row].relation == 'eq' and rng.random() < 0.5 else 1))
                           for row in rows])


def chains_of_splits(net, leaf_of, to_the_right, count=SPLITS):
    splits = list(itertools.islice(steps_of(net, net.wide(), to_the_right), count))
    return chain(splits, [leaf_of(net, k) for k in range(len(splits) + 1)], to_the_right)


def chains_of_bits(net):
    """A chain to the left over all plan columns, with a chain to the right over the later ones at each right side."""
    columns = net.free()
    splits = [split(k, 0) for k in columns]
    parts = splits + [leaf('priced')]
    for place in reversed(range(len(columns))):
        parts.append(chain(splits[place + 1:], [leaf('priced')] * (len(splits) - place), True))
    return ''.join(parts)


def combs(net, text, columns, values=VALUES):
    """A tree that has the text once in each box of so many values of each of the columns."""
    for k in columns:
        low = net.program.columns[k].low
        text = ''.join(split(k, low + j) + text for j in range(values - 1)) + text
    return text


def bits_of(net, plan):
    """The bits of a plan."""
    words = replay.letters_of(net.net, plan)
    bits = []
    for t in range(net.net['steps']):
        for signal in net.net['signal']:
            word = words[signal['name']]
            green = next(letter for letter in reversed(word[:t + 1]) if letter)
            bits += [int(letter == ('green' if word[t] else 'clear', green)) for letter in compile.letters_of(signal)]
    return bits


def tree_of_plans(net, plans, text):
    """A tree over all plan columns: the text where one of the plans is fixed, else priced leaves."""
    columns, parts = net.free(), []
    stack = [(0, [bits_of(net, plan) for plan in plans])]
    while stack:
        place, rest = stack.pop()
        if not rest:
            parts.append(leaf('priced'))
        elif place == len(columns):
            parts.append(text)
        else:
            parts.append(split(columns[place], 0))
            stack += [(place + 1, [bits for bits in rest if bits[columns[place]] == bit]) for bit in (1, 0)]
    return ''.join(parts)


def ending_plans(net):
    """Plans of the crossing that differ in their last 24 steps at most: all of them."""
    steps, phases = net.net['steps'], {phase['name']: phase for phase in net.net['signal'][0]['phase']}
    plans = []
    stack = [([], 0, 'ns')]
    while stack:
        runs, letters, name = stack.pop()
        if letters >= steps:
            plans.append('\n'.join(['ctm-plan 1', 'signal j', *runs, 'end']) + '\n')
            continue
        phase, rest = phases[name], steps - letters
        greens = [10] if rest > 24 else range(min(phase['min'], rest), min(phase['max'], rest) + 1)
        stack += [(runs + ['%s %d' % (name, green)], letters + green + phase['clear'], phase['next'][0]) for green in greens]
    return plans


def whole_tree(net, kind):
    """A good tree of leaves of a kind without pairs, nearly as long as a certificate may be."""
    wide = net.wide(VALUES)
    plans = [programs.crossing_plan(net.net['steps'])] if kind == 'fixed' else []
    before, behind = tree_of_plans(net, plans, '%s').split('%s') if plans else ('', '')
    last = combs(net, leaf(kind), wide[:3])
    parts, room = [before], LONGEST - len(HEAD + before + last + behind + END)
    for column, unit in [(wide[4], combs(net, last, wide[3:4])), (wide[5], last)]:
        for at in range(net.program.columns[column].low, net.program.columns[column].high):
            if len(split(column, at) + unit) > room:
                break
            parts += [split(column, at), unit]
            room -= len(split(column, at) + unit)
    return ''.join(parts + [last, behind])


# What is counted.

def own_memory(program, folder, net):
    """The most memory, in kilobytes, that a check of a certificate of one leaf takes."""
    path = folder / 'leaf.cert'
    path.write_text(HEAD + leaf('priced') + END)
    return measure.peak_memory([program, 'check', net.path, path])


def counted(program, folder, large, small):
    """What is counted: its name, its number, and the most that is wanted or None."""
    def run(net, text):
        path = folder / 'net.cert'
        path.write_text(HEAD + text + END)
        return [program, 'check', net.path, path]

    def instructions(net, text):
        done = measure.instructions(run(net, text))
        if done.printed != ACCEPTED:
            sys.exit('bench: a certificate was not accepted: %s' % done.printed.strip().replace('\n', ', '))
        return done.total

    alone = {net.path: instructions(net, leaf('priced')) for net in (large, small)}

    def of_a_byte(net, text):
        return (instructions(net, text) - alone[net.path]) / len(text)

    def pairless(net, k):
        return leaf('priced')

    yield 'instructions of the certificate of one leaf', alone[large.path], None
    for what, text_of, most in [
        ('chain to the right, no pairs', lambda net: chains_of_splits(net, pairless, True), 40),
        ('chain to the left, no pairs', lambda net: chains_of_splits(net, pairless, False), 40),
        ('chain to the right, one pair', lambda net: chains_of_splits(net, one_pair, True), 51),
        ('chain to the left, one pair', lambda net: chains_of_splits(net, one_pair, False), 51),
        ('leaves of 2,000 pairs', lambda net: chains_of_splits(net, many_pairs, True, LEAVES - 1), 60),
        ('chains of plan columns', chains_of_bits, 40),
        ('fixed leaves under one plan', lambda net: tree_of_plans(net, [programs.crossing_plan(net.net['steps'])],
                                                                  combs(net, leaf('fixed'), net.wide(VALUES)[:3])), 100),
    ]:
        of_large, of_small = of_a_byte(large, text_of(large)), of_a_byte(small, text_of(small))
        yield 'of a byte: ' + what, of_large, most
        yield '  permille of the smaller program\'s', 1000 * of_large / of_small, 1250
    plans = ending_plans(large)
    text = tree_of_plans(large, plans, leaf('fixed'))
    yield 'of a byte: %d fixed leaves under as many plans' % len(plans), of_a_byte(large, text), None
    own = own_memory(program, folder, large)
    yield 'peak memory of one leaf, kB', own, None
    for what, text in [
        ('a chain of 5,000 splits to the right', chains_of_splits(large, pairless, True, CHAIN)),
        ('a chain of 5,000 splits to the left', chains_of_splits(large, pairless, False, CHAIN)),
        ('a million fixed leaves under one plan', tree_of_plans(large, [programs.crossing_plan(STEPS)],
                                                                combs(large, leaf('fixed'), large.wide(VALUES)[:4]))),
        ('short leaves', whole_tree(large, 'priced')),
    ]:
        done = measure.run(run(large, text))
        if done.printed != ACCEPTED:
            sys.exit('bench: %s ended with %d, %s' % (what, done.status, done.printed))
        yield 'beyond it, kB, of %d kB: %s' % (len(text) // 1024, what), done.kilobytes - own, MOST_BEYOND


# What is hostile: a name, the pieces of the text, and the lines that are wanted.

def rejected(line, why):
    return 'rejected\nline %d\nwhy %s\n' % (line, why)


def filled(head, item, most=LONGEST):
    """As many items behind a head as a certificate may have bytes, or as are named, in pieces of a megabyte and the rest."""
    item = item.encode() if isinstance(item, str) else item
    count = (most - len(head)) // len(item)
    piece = max(1, 1_048_576 // len(item))
    yield head.encode()
    for _ in range(count // piece):
        yield item * piece
    yield item * (count % piece)


def of_text(*texts):
    return (text.encode() for text in texts)


def hostile(net):
    every_byte = bytes(range(256))
    splits = list(steps_of(net, range(len(net.program.columns)), False))
    good = chain([], [leaf('priced')], True)
    yield 'an empty file', of_text(''), rejected(1, 'form')
    yield 'the first line alone', of_text('ctm-cert 1\n'), rejected(2, 'form')
    yield '100,000 splits of one place', of_text(HEAD, split(net.wide()[0], 0) * 100_000), rejected(4, 'range')
    yield '5,000,000 splits of one place', of_text(HEAD, split(net.wide()[0], 0) * 5_000_000), rejected(4, 'range')
    yield 'all splits that the bounds allow', of_text(HEAD, *splits, *[leaf('priced')] * (len(splits) + 1), END), ACCEPTED
    yield 'the same without leaves', of_text(HEAD, *splits), rejected(len(splits) + 3, 'form')
    yield 'the same in rising order', of_text(HEAD, chain(list(steps_of(net, range(len(net.program.columns)), True)),
                                                          [leaf('priced')] * (len(splits) + 1), True), END), ACCEPTED
    for what, head, line in [('a bound', 'ctm-cert 1\nbound 1', 2), ('a column', HEAD + 'split 1', 3), ('a value', HEAD + 'split 1 1', 3),
                             ('a row', HEAD + 'priced 1', 3), ('a price', HEAD + 'priced 1 1', 3)]:
        yield what + ' of a million digits', of_text(head, '0' * 1_000_000, '\n', END), rejected(line, 'form')
        yield what + ' of 128 MB', filled(head, '0'), rejected(line, 'form')
    yield 'a row many times in a line of a megabyte', filled(HEAD + 'priced', ' 0 1', 1_048_576), rejected(3, 'form')
    yield 'a row many times in a whole line of a megabyte', itertools.chain(filled(HEAD + 'priced', ' 0 1', 1_048_576), of_text('\n')), rejected(3, 'order')
    yield 'a row many times in a line of 128 MB', itertools.chain(filled(HEAD + 'priced', ' 0 1', LONGEST - 4), of_text('\n')), rejected(3, 'order')
    yield 'spaces in a line of 128 MB', filled(HEAD + 'priced', ' '), rejected(3, 'form')
    yield 'a word of 128 MB', filled('', 'a'), rejected(1, 'form')
    yield 'a node of 128 MB', filled(HEAD, 'a'), rejected(3, 'form')
    yield 'bytes of every value', filled('', every_byte, 1_048_576), rejected(1, 'form')
    yield 'bytes of every value behind the second line', filled(HEAD, every_byte), rejected(3, 'form')
    for value in [0, 10, 32, 48, 255]:
        yield '128 MB of byte %d' % value, filled('', bytes([value])), rejected(1, 'form')
        yield '128 MB of byte %d behind the second line' % value, filled(HEAD, bytes([value])), rejected(3, 'form')
        yield '128 MB of byte %d behind the end' % value, filled(HEAD + good + END, bytes([value])), rejected(5, 'tail')
    yield 'leaves behind a whole tree', filled(HEAD + good, leaf('priced')), rejected(4, 'form')
    yield 'ends in place of nodes', filled(HEAD, END), rejected(3, 'form')
    for kind in ['priced', 'fixed']:
        tree = whole_tree(net, kind)
        yield 'a good tree of %d MB with %s leaves' % (len(tree) >> 20, kind), of_text(HEAD, tree, END), ACCEPTED
    yield 'a break in the first piece and 100 MB behind it', filled('ctm-cert 2\n', leaf('priced'), MANY), rejected(1, 'form')
    yield 'a row many times in a line of 100 MB without its end', filled(HEAD + 'priced', ' 0 1', MANY), rejected(3, 'form')
    yield '134,217,729 bytes', filled('', ' ', LONGEST + 1), rejected(0, 'long')
    yield 'a break in the first piece, and 134,217,729 bytes', filled('ctm-cert 2\n', ' ', LONGEST + 1), rejected(0, 'long')
    yield 'a whole certificate, and 134,217,729 bytes', filled(HEAD + good + END, ' ', LONGEST + 1), rejected(0, 'long')


def tried(program, folder, net):
    """How many hostile certificates pass, and how many do not."""
    passed = failed = 0
    own = own_memory(program, folder, net)
    path = folder / 'hostile.cert'
    for what, pieces, wanted in hostile(net):
        with open(path, 'wb') as file:
            file.writelines(pieces)
        size = path.stat().st_size
        words = [program, 'check', net.path, path]
        run = measure.run(words)
        millions = None
        if size <= MOST_COUNTED and run.status in (0, 1):
            millions = measure.instructions(words, run.status).total / 1_000_000
        path.unlink()
        good = run.printed == wanted and run.status == (0 if wanted == ACCEPTED else 1)
        good = good and (millions is None or millions <= BASE_MILLIONS + BYTE_INSTRUCTIONS * size / 1_000_000)
        good = good and run.kilobytes <= own + MOST_BEYOND
        passed, failed = passed + good, failed + (not good)
        print('%s%-50s %9d bytes  %d  %-32s %s %7d kB' % (
            '' if good else 'FAILED ', what, size, run.status, run.printed[:100].strip().replace('\n', ', '),
            '       -  ' if millions is None else '%8.1f M' % millions, run.kilobytes))
        if run.printed != wanted:
            print('       wanted: %s' % wanted.strip().replace('\n', ', '))
    return passed, failed


def main():
    program = measure.program()
    with tempfile.TemporaryDirectory() as name:
        folder = pathlib.Path(name)
        large, small = made(program, folder, 'large', STEPS), made(program, folder, 'small', FEW_STEPS)
        rows = []
        print('%-62s %12s %14s' % ('', 'counted', 'wanted at most'))
        for what, number, most in counted(program, folder, large, small):
            rows.append(most is None or number <= most)
            print('%-62s %12s %14s' % (what, '%.1f' % number if isinstance(number, float) else number, '-' if most is None else most), flush=True)
        passed, failed = tried(program, folder, large)
    kept = sum(rows) + passed
    print('%d kept, %d not' % (kept, len(rows) + failed - sum(rows)))
    sys.exit(0 if kept == len(rows) + passed + failed else 1)


if __name__ == '__main__':
    main()
