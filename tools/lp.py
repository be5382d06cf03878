"""Programs as texts in the LP format, and answers of solvers as points: what tools/program-to-lp and tools/solution-to-point share.

What a solver answers are fractions that may miss a whole number by its tolerance. They are rounded, and what they are then is
told by the whole numbers alone (`compile.fault_of`).
"""
import collections
import re
import sys

import compile
import inputs
import judge

WIDEST = 200  # bytes of a line, below what any of the readers takes
TOLERANCE = 0.001  # a value that is farther from a whole number is none


def program_of(program_file, net_file=None):
    """The program of a text, with the names of a network where one is given."""
    try:
        text = inputs.bytes_of(program_file).decode()
        program = compile.read_program(text)
    except (ValueError, StopIteration, TypeError):
        sys.exit('%s is no text of a program' % program_file)
    if net_file is None:
        return program
    status, printed, own = compile.answer_of_program(inputs.bytes_of(net_file))
    if own is None:
        print(printed, end='', file=sys.stderr)
        sys.exit(status)
    if own != text:
        sys.exit('%s is not the program of %s' % (program_file, net_file))
    return compile.program_of(judge.judge_network(inputs.bytes_of(net_file)))


def names_of(items):
    """The names of columns or of rows. A name that stood before has its number behind it, with a mark that no name has."""
    taken, names = collections.Counter(), []
    for number, item in enumerate(items):
        names.append(item.name if not taken[item.name] else '%s.%d' % (item.name, number))
        taken[item.name] += 1
    return names


def wrapped(words):
    """Words as lines."""
    lines, line = [], ''
    for word in words:
        if len(line) + len(word) + 1 > WIDEST:
            lines.append(line)
            line = ''
        line += ' ' + word
    return lines + [line]


def sum_of(terms, names):
    """A sum as words; one without terms is 0 times the first column."""
    signed = [('+' if coefficient >= 0 else '-', abs(coefficient), names[column]) for column, coefficient in terms]
    return ['%s %d %s' % term for term in signed] or ['+ 0 %s' % names[0]]


def text_of(program):
    columns, rows = names_of(program.columns), names_of(program.rows)
    lines = ['\\ %d columns, of which the first %d are those of the plan; %d rows' % (len(columns), program.plan, len(rows))]
    costs = [(k, column.cost) for k, column in enumerate(program.columns)]
    lines += ['Minimize', *wrapped(['cost:'] + sum_of([term for term in costs if term[1]], columns)), 'Subject To']
    for name, row in zip(rows, program.rows):
        relation = '=' if row.relation == 'eq' else '>='
        lines += wrapped([name + ':'] + sum_of(row.terms.items(), columns) + ['%s %d' % (relation, row.right)])
    is_bit = [(column.low, column.high) == (0, 1) for column in program.columns]
    lines.append('Bounds')
    for column, name, bit in zip(program.columns, columns, is_bit):
        if not bit:
            lines.append(' %d <= %s <= %d' % (column.low, name, column.high))
    for head, bits in [('Generals', False), ('Binaries', True)]:
        chosen = [name for name, bit in zip(columns, is_bit) if bit == bits]
        if chosen:
            lines += [head, *wrapped(chosen)]
    return '\n'.join(lines + ['End']) + '\n'


# Solution files. Each gives values by the names of columns.

def cbc_values(lines):
    """`cbc FILE.lp solve solution OUT`: a line of words, and then `NUMBER NAME VALUE COST` for the columns, of which those that
    are 0 may be left out. `**` stands before what breaks a bound."""
    words = [line.replace('**', ' ').split() for line in lines[1:] if line.strip()]
    return {name: value for _, name, value, *_ in words}


def glpsol_values(lines):
    """`glpsol --lp FILE.lp -o OUT`: behind a table of rows one of columns, `NUMBER NAME * VALUE ..`, with a line feed behind a
    long name."""
    start = next(k for k, line in enumerate(lines) if line.split()[:3] == ['No.', 'Column', 'name'])
    return dict(re.findall(r'([A-Za-z_]\S*)\s+\*\s+(\S+)', '\n'.join(lines[start:])))


def point_of(program, solution):
    """The values of a solution file in the order of the columns, each rounded; one that is not told is 0."""
    lines = solution.split('\n')
    try:
        told = glpsol_values(lines) if lines[0].startswith('Problem:') else cbc_values(lines)
    except (ValueError, StopIteration):
        sys.exit('this is no solution as CBC or GLPK writes one')
    names = names_of(program.columns)
    strange = sorted(told.keys() - set(names))
    if strange:
        sys.exit('the program has no column %s: the solution is of another program, or its names are from a network' % strange[0])
    values = []
    for name in names:
        value = float(told.get(name, 0))
        if abs(value - round(value)) > TOLERANCE:
            sys.exit('column %s is %s, which is no whole number' % (name, told[name]))
        values.append(round(value))
    return values
