#!/usr/bin/env python3
"""Compiles a network into its program, or a plan into its point, by the text of docs/program.md, apart from the program.

usage: tools/compile.py NET [PLAN]   (Python 3.11, for tomllib)

It prints the text that `program NET OUT` has to write, or with PLAN that of `encode NET PLAN OUT`. `answer_of_point` says what
`point NET POINT` has to print, from the bytes of both files. Where tools/judge.py refuses
a file, or the network has too many rows, it prints the refusal's line and ends with its status. What a replay holds comes from
tools/replay.py, and all else is written down here a second time, so that a rule that was misunderstood in the program shows as
a difference (tools/fuzz.py). Columns and rows have names that say what they mean (tools/program-to-lp).

`first_fault` and `fault_of` say what is wrong with a point of a program, and `objective_of` what it costs. They know nothing of
networks: they look at the bounds, the rows and the costs that a text tells.
"""
import collections
import re
import sys
import typing

import inputs
import judge
import replay

MOST_ROWS = 400_000
LONGEST_POINT = 16_777_216  # bytes
WHOLE = re.compile(b'0|-?[1-9][0-9]{0,14}')  # a value, as a point's text has it


class Column(typing.NamedTuple):
    low: int
    high: int
    cost: int
    name: str


class Row(typing.NamedTuple):
    """A sum of columns that is equal to its right side (`eq`), or at least that (`ge`)."""
    relation: str
    right: int
    terms: dict  # from numbers of columns to coefficients, none of them 0
    name: str


class Program(typing.NamedTuple):
    plan: int  # so many columns, from the first on, are those of the plan
    columns: list
    rows: list


class TooLarge(Exception):
    """More rows than a program may have."""

    def __init__(self, rows):
        self.line = 'too large %d' % rows
        self.status = 5


class Sum:
    """Columns with coefficients, and a constant."""

    def __init__(self, constant=0):
        self.constant = constant
        self.terms = collections.Counter()

    def add(self, coefficient, column):
        self.terms[column] += coefficient
        return self

    def add_sum(self, factor, other):
        self.constant += factor * other.constant
        for column, coefficient in other.terms.items():
            self.terms[column] += factor * coefficient
        return self


class Shape:
    """What the columns and rows of a network are made from: its cells, and what docs/program.md asks of each."""

    def __init__(self, net):
        self.steps = net['steps']
        self.signals = net.get('signal', [])
        self.cells = replay.cells_of(net)
        self.feeders = [[] for _ in self.cells]  # for each cell those that lead into it, with the units of a parcel
        for i, cell in enumerate(self.cells):
            for k, share in cell['out']:
                self.feeders[k].append((i, share))

    def is_diverge(self, i):
        return len(self.cells[i]['out']) > 1

    def parcel(self, i):
        """The units of a parcel, A; 1 where the move is no diverge."""
        return sum(share for _, share in self.cells[i]['out']) if self.is_diverge(i) else 1

    def wide_branches(self, i):
        """The branches of a diverge that get more than one unit of a parcel: place, cell and units."""
        return [(j, k, share) for j, (k, share) in enumerate(self.cells[i]['out']) if self.is_diverge(i) and share > 1]

    def cap(self, i):
        cell = self.cells[i]
        return min([cell['cap'] // self.parcel(i)] + [self.cells[k]['cap'] // share for k, share in cell['out']])

    def most_units(self, t, i):
        """The greatest value of `n`."""
        cell = self.cells[i]
        if t == 0:
            return cell['units']
        return sum(cell['demand'][:t]) if cell['place'] == 'q' else cell['store']

    def has_room_column(self, i):
        return bool(self.feeders[i]) and self.cells[i]['wave'][1] > 1

    def most_room(self, i):
        p, q = self.cells[i]['wave']
        return p * self.cells[i]['store'] // q

    def terms(self, i):
        """How many terms the move has."""
        return 2 + len(self.cells[i]['out'])

    def row_count(self):
        """The number of rows, by counting and not by making them."""
        count = 0
        for signal in self.signals:
            for phase in signal['phase']:
                clear = phase.get('clear', 0)
                letters = 2 if clear else 1
                count += letters * (self.steps - 1)
                count += sum(max(0, self.steps - k) for k in range(1, phase['min'])) + max(0, self.steps - phase['max'])
                if clear:
                    count += sum(max(0, self.steps - k) for k in range(1, clear)) + max(0, self.steps - clear)
            count += self.steps
        for i in range(len(self.cells)):
            of_a_step = self.has_room_column(i) + self.is_diverge(i) + len(self.wide_branches(i)) + 1 + 2 * self.terms(i)
            count += self.steps * of_a_step + self.steps - 1
        return count


def letters_of(signal):
    """The letters of a signal in the order of their columns: ('green', phase) and ('clear', phase)."""
    letters = []
    for phase in signal['phase']:
        letters.append(('green', phase['name']))
        if phase.get('clear', 0):
            letters.append(('clear', phase['name']))
    return letters


def followers_of(signal, letter):
    """The letters that may follow one."""
    kind, name = letter
    phase = next(phase for phase in signal['phase'] if phase['name'] == name)
    if kind == 'green' and phase.get('clear', 0):
        return {letter, ('clear', name)}
    return {letter} | {('green', other) for other in phase['next']}


class Compiler:
    """The columns of a network, each at the number that its key has, and the rows over them. The key of a column is its kind, its
    step and what it is of: signal and phase, or cell, and then the branch or the term."""

    def __init__(self, net):
        self.shape = Shape(net)
        self.keys, self.columns, self.rows = {}, [], []
        self.add_columns()

    # Columns.

    def column(self, key, low, high, cost, name):
        self.keys[key] = len(self.columns)
        self.columns.append(Column(low, high, cost, name))

    def add_columns(self):
        shape = self.shape
        for t in range(shape.steps):
            for signal in shape.signals:
                for kind, phase in letters_of(signal):
                    name = signal['name']
                    starts = (kind, phase) == ('green', signal.get('start', signal['phase'][0]['name']))
                    low, high = (0, 1) if t else (starts, starts)
                    self.column((kind, t, name, phase), int(low), int(high), 0, '%s_t%d_%s_%s' % (kind, t, name, phase))
        self.plan = len(self.columns)
        for t in range(shape.steps):
            for i in range(len(shape.cells)):
                self.add_cell_columns(t, i)

    def add_cell_columns(self, t, i):
        shape = self.shape
        cell = shape.cells[i]
        of = 't%d_%s_%s' % (t, cell['link'], cell['place'])
        most, parcel = shape.most_units(t, i), shape.parcel(i)
        self.column(('n', t, i), 0 if t else most, most, 1, 'units_' + of)
        if shape.has_room_column(i):
            self.column(('r', t, i), 0, shape.most_room(i), 0, 'room_' + of)
            self.column(('e', t, i), 0, cell['wave'][1] - 1, 0, 'room_rest_' + of)
        if shape.is_diverge(i):
            self.column(('s', t, i), 0, most // parcel, 0, 'parcels_' + of)
            self.column(('g', t, i), 0, parcel - 1, 0, 'parcels_rest_' + of)
        for j, k, share in shape.wide_branches(i):
            self.column(('h', t, i, j), 0, shape.most_room(k) // share, 0, 'branch_room_%s_%d' % (of, j))
            self.column(('f', t, i, j), 0, share - 1, 0, 'branch_rest_%s_%d' % (of, j))
        self.column(('y', t, i), 0, shape.cap(i), -parcel, 'flow_' + of)
        for m in range(shape.terms(i)):
            self.column(('c', t, i, m), 0, 1, 0, 'decides_%s_%d' % (of, m))

    def of(self, *key):
        """A sum of the one column that has this key."""
        return Sum().add(1, self.keys[key])

    # Rows: what stands in the sum as a constant goes to the right side.

    def row(self, relation, total, right, name):
        terms = {column: total.terms[column] for column in sorted(total.terms) if total.terms[column]}
        self.rows.append(Row(relation, right - total.constant, terms, name))

    def add_rows(self):
        for signal in self.shape.signals:
            for t in range(self.shape.steps):
                self.add_rule_rows(signal, t)
        for t in range(self.shape.steps):
            for i in range(len(self.shape.cells)):
                self.add_flow_rows(t, i)

    def bits(self, kind, signal, phase, steps):
        total = Sum()
        for t in steps:
            total.add(1, self.keys[kind, t, signal['name'], phase['name']])
        return total

    def add_rule_rows(self, signal, t):
        name, steps = signal['name'], self.shape.steps
        letters = letters_of(signal)
        total = Sum()
        for kind, phase in letters:
            total.add(1, self.keys[kind, t, name, phase])
        self.row('eq', total, 1, 'one_letter_t%d_%s' % (t, name))
        if t + 1 < steps:
            for letter in letters:
                total = Sum().add(-1, self.keys[letter[0], t, name, letter[1]])
                for kind, phase in followers_of(signal, letter):
                    total.add(1, self.keys[kind, t + 1, name, phase])
                self.row('ge', total, 0, 'after_%s_t%d_%s_%s' % (letter[0], t, name, letter[1]))
        self.add_run_rows('green', signal, t, lambda phase: (phase['min'], phase['max']))
        self.add_run_rows('clear', signal, t, lambda phase: (phase.get('clear', 0), phase.get('clear', 0)))

    def add_run_rows(self, kind, signal, t, bounds):
        """The least and the greatest length of runs of a letter that begin at t, of all phases that have the letter."""
        phases = [phase for phase in signal['phase'] if (kind, phase['name']) in letters_of(signal)]
        for phase in phases:
            for k in range(1, bounds(phase)[0]):
                if t + k < self.shape.steps:
                    total = self.bits(kind, signal, phase, [t + k])
                    total.add_sum(-1, self.bits(kind, signal, phase, [t]))
                    total.add_sum(1, self.bits(kind, signal, phase, [t - 1] if t else []))
                    self.row('ge', total, 0, 'least_%s_t%d_%s_%s_%d' % (kind, t, signal['name'], phase['name'], k))
        for phase in phases:
            most = bounds(phase)[1]
            if t + most < self.shape.steps:
                total = Sum().add_sum(-1, self.bits(kind, signal, phase, range(t, t + most + 1)))
                self.row('ge', total, -most, 'most_%s_t%d_%s_%s' % (kind, t, signal['name'], phase['name']))

    def room(self, t, k):
        """R of a cell: its column where it has one, or else its storage less its units."""
        if self.shape.has_room_column(k):
            return self.of('r', t, k)
        return Sum(self.shape.cells[k]['store']).add_sum(-1, self.of('n', t, k))

    def terms_of(self, t, i):
        """The terms of a move as sums."""
        shape = self.shape
        cell = shape.cells[i]
        cap = shape.cap(i)
        if cell['gate'] is None:
            first = Sum(cap)
        else:
            signal, greens = cell['gate']
            first = Sum()
            for phase in greens:
                first.add(cap, self.keys['green', t, signal, phase])
        terms = [first, self.of('s' if shape.is_diverge(i) else 'n', t, i)]
        for j, (k, _) in enumerate(cell['out']):
            terms.append(self.of('h', t, i, j) if ('h', t, i, j) in self.keys else self.room(t, k))
        return terms

    def most_of(self, t, i, m, term):
        """The most that a term comes to: the cap, or what the bounds of its columns allow."""
        if m == 0:
            return self.shape.cap(i)
        return term.constant + sum(max(coefficient * self.columns[column].low, coefficient * self.columns[column].high)
                                   for column, coefficient in term.terms.items())

    def add_flow_rows(self, t, i):
        shape = self.shape
        cell = shape.cells[i]
        of = 't%d_%s_%s' % (t, cell['link'], cell['place'])
        units, flow = self.of('n', t, i), self.of('y', t, i)
        if shape.has_room_column(i):
            p, q = cell['wave']
            total = Sum().add_sum(q, self.of('r', t, i)).add_sum(1, self.of('e', t, i)).add_sum(p, units)
            self.row('eq', total, p * cell['store'], 'room_' + of)
        if shape.is_diverge(i):
            total = Sum().add_sum(shape.parcel(i), self.of('s', t, i)).add_sum(1, self.of('g', t, i)).add_sum(-1, units)
            self.row('eq', total, 0, 'parcels_' + of)
        for j, k, share in shape.wide_branches(i):
            total = Sum().add_sum(share, self.of('h', t, i, j)).add_sum(1, self.of('f', t, i, j)).add_sum(-1, self.room(t, k))
            self.row('eq', total, 0, 'branch_room_%s_%d' % (of, j))
        switches = [self.keys['c', t, i, m] for m in range(shape.terms(i))]
        total = Sum()
        for switch in switches:
            total.add(1, switch)
        self.row('eq', total, 1, 'one_decides_' + of)
        terms = self.terms_of(t, i)
        for m, term in enumerate(terms):
            total = Sum().add_sum(1, term).add_sum(-1, flow)
            for switch in switches[m + 1:]:
                total.add(-1, switch)
            self.row('ge', total, 0, 'at_most_%s_%d' % (of, m))
        for m, term in enumerate(terms):
            most = self.most_of(t, i, m, term)
            total = Sum().add_sum(1, flow).add_sum(-1, term).add(-most, switches[m])
            self.row('ge', total, -most, 'at_least_%s_%d' % (of, m))
        if t + 1 < shape.steps:
            total = Sum().add_sum(1, self.of('n', t + 1, i)).add_sum(-1, units).add_sum(shape.parcel(i), flow)
            for k, share in shape.feeders[i]:
                total.add_sum(-share, self.of('y', t, k))
            self.row('eq', total, cell['demand'][t], 'next_units_' + of)


def compiler_of(net):
    """The columns of a network, where its program has not too many rows."""
    count = Shape(net).row_count()
    if count > MOST_ROWS:
        raise TooLarge(count)
    return Compiler(net)


def program_of(net):
    """The program of a network that the judge accepts."""
    compiler = compiler_of(net)
    compiler.add_rows()
    return Program(compiler.plan, compiler.columns, compiler.rows)


def point_of(net, plan):
    """The values of an admissible plan, given as its text."""
    compiler = compiler_of(net)
    shape, values = compiler.shape, [0] * len(compiler.columns)

    def put(key, value):
        values[compiler.keys[key]] = value

    words = replay.letters_of(net, plan)
    for name, word in words.items():
        phase = None
        for t, letter in enumerate(word[:shape.steps]):
            phase = letter or phase  # a clearing letter stands behind the green that it clears
            put(('green' if letter else 'clear', t, name, phase), 1)
    rows, _ = replay.rows_of(net, plan)
    for number, (t, _, _, _, sent, _) in enumerate(rows):
        i = number % len(shape.cells)
        units = [row[3] for row in rows[number - i:number - i + len(shape.cells)]]
        gate = shape.cells[i]['gate']
        put_cell(compiler, put, t, i, units, sent, gate is None or words[gate[0]][t] in gate[1])
    return values


def put_cell(compiler, put, t, i, units, sent, is_open):
    """Puts the values of a cell at a step, where the cells hold these units and it sends so many."""
    shape = compiler.shape
    cell, parcel = shape.cells[i], shape.parcel(i)

    def divided_room(k):
        p, q = shape.cells[k]['wave']
        return divmod(p * (shape.cells[k]['store'] - units[k]), q)

    put(('n', t, i), units[i])
    if shape.has_room_column(i):
        put(('r', t, i), divided_room(i)[0])
        put(('e', t, i), divided_room(i)[1])
    if shape.is_diverge(i):
        put(('s', t, i), units[i] // parcel)
        put(('g', t, i), units[i] % parcel)
    for j, k, share in shape.wide_branches(i):
        put(('h', t, i, j), divided_room(k)[0] // share)
        put(('f', t, i, j), divided_room(k)[0] % share)
    put(('y', t, i), sent // parcel)
    amounts = [shape.cap(i) if is_open else 0, units[i] // parcel]
    amounts += [divided_room(k)[0] // share for k, share in cell['out']]
    put(('c', t, i, amounts.index(min(amounts))), 1)


# Texts.

def program_text(program):
    lines = ['ctm-program 1', 'columns %d %d' % (len(program.columns), program.plan)]
    lines += ['%d %d %d' % column[:3] for column in program.columns]
    lines.append('rows %d' % len(program.rows))
    for row in program.rows:
        lines.append(' '.join(['%s %d' % (row.relation, row.right)] + ['%d:%d' % term for term in row.terms.items()]))
    return '\n'.join(lines + ['end']) + '\n'


def point_text(values):
    return '\n'.join(['ctm-point 1', *map(str, values), 'end']) + '\n'


def read_program(text):
    """The program of a text that `program` wrote, with names that are numbers: x0, x1, .. and r0, r1, .."""
    lines = iter(text.split('\n'))
    if next(lines) != 'ctm-program 1':
        raise ValueError('it is no text of a program')
    _, count, plan = next(lines).split(' ')
    columns = [Column(*map(int, next(lines).split(' ')), 'x%d' % k) for k in range(int(count))]
    _, count = next(lines).split(' ')
    rows = []
    for k in range(int(count)):
        relation, right, *terms = next(lines).split(' ')
        pairs = [term.split(':') for term in terms]
        rows.append(Row(relation, int(right), {int(column): int(coefficient) for column, coefficient in pairs}, 'r%d' % k))
    if next(lines) != 'end':
        raise ValueError('the text of the program has no end')
    return Program(int(plan), columns, rows)


def read_point(text):
    """The values of a text that `encode` wrote."""
    lines = text.split('\n')
    if lines[0] != 'ctm-point 1' or lines[-2:] != ['end', '']:
        raise ValueError('it is no text of a point')
    return [int(line) for line in lines[1:-2]]


# Points of a program, by what its text tells.

def total_of(row, values):
    return sum(coefficient * values[column] for column, coefficient in row.terms.items())


def first_fault(program, values):
    """What keeps values from being a point, or None: `length` with how many they are, `column` with the number of the first that is
    out of its bounds, or `row` with that of the first that is not met."""
    if len(values) != len(program.columns):
        return 'length', len(values)
    for number, (column, value) in enumerate(zip(program.columns, values)):
        if not column.low <= value <= column.high:
            return 'column', number
    for number, row in enumerate(program.rows):
        total = total_of(row, values)
        if total < row.right or (row.relation == 'eq' and total > row.right):
            return 'row', number
    return None


def fault_of(program, values):
    """The same as a sentence, or None."""
    fault = first_fault(program, values)
    if fault is None:
        return None
    what, number = fault
    if what == 'length':
        return '%d values for %d columns' % (number, len(program.columns))
    if what == 'column':
        column = program.columns[number]
        return 'column %s is %d, out of %d to %d' % (column.name, values[number], column.low, column.high)
    row = program.rows[number]
    return 'row %s comes to %d, not %s %d' % (row.name, total_of(row, values), row.relation, row.right)


def objective_of(program, values):
    return sum(column.cost * value for column, value in zip(program.columns, values))


# From a point's file to its plan.

def broken_line(data):
    """The number of the first line that breaks the text of a point, from 1; 0 where none does."""
    lines = data.split(b'\n')  # each but the last has its line feed
    if len(lines) == 1 or lines[0] != b'ctm-point 1':
        return 1
    for number, line in enumerate(lines[1:-1], 2):
        if line == b'end':
            return 0 if lines[number:] == [b''] else number + 1
        if not WHOLE.fullmatch(line):
            return number
    return len(lines)


def runs_of(letters):
    """The runs of one signal's letters, (kind, phase) for each step: phase and greens."""
    runs = []
    for t, (kind, phase) in enumerate(letters):
        if kind == 'green' and t and letters[t - 1] == (kind, phase):
            runs[-1][1] += 1
        elif kind == 'green':
            runs.append([phase, 1])
    return runs


def plan_of(compiler, values):
    """The text of the plan whose bits a point begins with."""
    lines = ['ctm-plan 1']
    for signal in compiler.shape.signals:
        lines.append('signal ' + signal['name'])
        letters = [next(letter for letter in letters_of(signal) if values[compiler.keys[letter[0], t, signal['name'], letter[1]]])
                   for t in range(compiler.shape.steps)]
        lines += ['%s %d' % (phase, green) for phase, green in runs_of(letters)]
    return '\n'.join(lines + ['end']) + '\n'


def told_of_point(net, compiler, program, data):
    """The status and the printed text of `point` on the bytes of a point, for a network with its columns and its program."""
    if len(data) > LONGEST_POINT:
        fault = 'long', 0
    elif line := broken_line(data):
        fault = 'form', line
    else:
        values = read_point(data.decode())
        fault = first_fault(program, values)
    if fault:
        return 1, 'rejected\nwhy %s\nat %d\n' % fault
    plan = plan_of(compiler, values)
    return 0, 'point\ndelay %d\n%s' % (replay.replay(net, plan)[0], plan)


# What the program has to say and write, which is compared whole.

def answer_of_program(network):
    """The status, the printed text, and the text of the program or None, of `program` on the bytes of a network."""
    try:
        program = program_of(judge.judge_network(network))
    except (judge.Refused, TooLarge) as refused:
        return refused.status, refused.line + '\n', None
    printed = 'rows %d\ncolumns %d\nplan %d\n' % (len(program.rows), len(program.columns), program.plan)
    return 0, printed, program_text(program)


def answer_of_encode(network, plan):
    """The same of `encode` on the bytes of a network and of a plan: what is too large is refused before the plan is looked at."""
    try:
        net = judge.judge_network(network)
        compiler_of(net)
        judge.judge_plan(net, plan)
        values = point_of(net, plan.decode())
    except (judge.Refused, TooLarge) as refused:
        return refused.status, refused.line + '\n', None
    return 0, 'columns %d\n' % len(values), point_text(values)


def answer_of_point(network, data):
    """The status and the printed text of `point` on the bytes of a network and of a point."""
    try:
        net = judge.judge_network(network)
        return told_of_point(net, compiler_of(net), program_of(net), data)
    except (judge.Refused, TooLarge) as refused:
        return refused.status, refused.line + '\n'


def main():
    if len(sys.argv) not in (2, 3):
        sys.exit('usage: tools/compile.py NET [PLAN]')
    inputs.end_with_reader()
    files = [inputs.bytes_of(name, judge.LONGEST + 1) for name in sys.argv[1:]]
    status, printed, text = answer_of_program(*files) if len(files) == 1 else answer_of_encode(*files)
    print(printed if text is None else text, end='')
    sys.exit(status)


if __name__ == '__main__':
    main()
