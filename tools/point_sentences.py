"""What is wrong with a list of values that is no point of a network's program, by the line of its file.

`remark_of` takes what the program printed (docs/program.md, "From a point to its plan") and says the same in a sentence, with the
names that tools/program-to-lp gives to columns and rows.
"""
import re

import compile
from certificate_sentences import LONG_LINE, line_of, spelled
from named_network import Remark

PRINTED = re.compile(r'rejected\nwhy ([a-z]+)\nat (\d+)\n')


def remark_of(printed, net, name):
    found = PRINTED.fullmatch(printed)
    if not found:
        return Remark(None, 'it was rejected, and is not any more')
    why, number = found[1], int(found[2])
    if why == 'long':
        return Remark(None, 'the file has more than 16,777,216 bytes, which is the most that the file of a point may have')
    if why == 'form':
        return Remark(number, fault_of_form(number, line_of(name, number)))
    program = compile.program_of(net)
    if why == 'length':
        return Remark(None, 'it has %d values, and the network\'s program has %d columns; is this the point of another network?'
                      % (number, len(program.columns)))
    with open(name, encoding='ascii') as file:
        values = compile.read_point(file.read())
    if why == 'column':
        column = program.columns[number]
        return Remark(number + 2, 'the value of column %d, `%s`, is %d, and it may be %d to %d'
                      % (number, column.name, values[number], column.low, column.high))
    row = program.rows[number]
    return Remark(None, 'row %d, `%s`, is not met: it comes to %d, and has to %s %d'
                  % (number, row.name, compile.total_of(row, values), 'be' if row.relation == 'eq' else 'be at least', row.right))


def fault_of_form(number, line):
    if not line:
        return 'the file ends here, before a line `end`'
    if line.endswith(b'\r\n'):
        return 'the line ends with a carriage return before its line feed; those of a point end with a line feed alone'
    if not line.endswith(b'\n') and len(line) < LONG_LINE:
        return 'the line has no line feed at its end, or stands behind `end`'
    if number == 1:
        return 'the line is %s; it has to be `ctm-point 1`' % spelled(line)
    return 'the line is %s; it has to be a whole number of at most 15 digits, or `end` as the last line' % spelled(line)
