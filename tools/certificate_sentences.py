"""What is wrong with a rejected certificate, by the line of its file.

`remark_of` takes what the program printed (docs/certificate-file.md, "What is refused") and says the same in a sentence.
"""
import re

from named_network import Remark, shown

PRINTED = re.compile(r'rejected\nline (\d+)\nwhy ([a-z]+)\n(?:value (-?\d+)\n)?')
LONG_LINE = 200  # bytes of a line that are looked at

WHY = {
    'tail': 'something stands behind `end`, which has to be the last line',
    'column': 'the network\'s program has no such column; is this the certificate of another network?',
    'range': 'the box leaves no room for a split of this column there',
    'row': 'the network\'s program has no row that is named here; is this the certificate of another network?',
    'order': 'a row is not above the one before it: the rows of a leaf rise',
    'price': 'a price is above 2^40 in absolute value',
    'sign': 'a price is below 0, and its row need not be equal',
    'notfixed': 'the leaf is called fixed, and its box leaves a plan column open',
    'notplan': 'the leaf is called fixed, and its bits are those of no admissible plan',
}


def remark_of(printed, name):
    found = PRINTED.fullmatch(printed)
    if not found:
        return Remark(None, 'it was rejected, and is not any more')
    number, why, value = int(found[1]), found[2], found[3]
    if why == 'long':
        return Remark(None, 'the file has more than 134,217,728 bytes, which is the most that a certificate may have')
    line = line_of(name, number)
    if why == 'form':
        return Remark(number, fault_of_form(number, line))
    if why == 'weak':
        return Remark(number, 'the leaf gives %s, which is below the bound that line 2 names' % value)
    if why == 'notempty':
        return Remark(number, 'the leaf is called empty, and its rows come to %s in its box, in 1024ths, where they have to come to 1 at '
                      'least' % value)
    return Remark(number, '%s: %s' % (spelled(line), WHY[why]))


def line_of(name, number):
    """The front of a line, with its line feed where it is short; nothing behind the end of the file."""
    with open(name, 'rb') as file:
        for _ in range(number - 1):
            while (piece := file.readline(65_536)) and not piece.endswith(b'\n'):
                pass
        return file.readline(LONG_LINE)


def spelled(line):
    return shown(line.rstrip(b'\n').decode(errors='backslashreplace'))


def fault_of_form(number, line):
    if not line:
        return 'the file ends here, before its tree is complete and a line `end` follows'
    if line.endswith(b'\r\n'):
        return 'the line ends with a carriage return before its line feed; those of a certificate end with a line feed alone'
    if not line.endswith(b'\n') and len(line) < LONG_LINE:
        return 'the line has no line feed at its end'
    wanted = {1: '`ctm-cert 1`', 2: '`bound B`, with a whole number B'}.get(number)
    if wanted:
        return 'the line is %s; it has to be %s' % (spelled(line), wanted)
    if line == b'end\n':
        return 'the certificate ends before its tree is complete'
    return 'the line is %s, which is no line of a certificate or not one that may stand here' % spelled(line)
