"""Reads the table that `trace` wrote (docs/traffic.md, "The trace")."""
import re

LONGEST = 2 ** 24  # bytes, more than a table of as many cells and steps as there may be
HEADER = 'step,link,cell,units,out,delay'
NUMBER = '(?:0|[1-9][0-9]{0,8})'
ROW = re.compile('({0}),([a-z][a-z0-9_]{{0,23}}),(q|{0}),({0}),({0}),({0})'.format(NUMBER))


class NoTable(Exception):
    """Why a file is no table of a trace."""


def rows_of(path):
    """The rows (step, link, cell, units, out, delay) of a file."""
    try:
        with open(path, 'rb') as file:
            lines = file.read(LONGEST).decode('ascii', 'replace').split('\n')
    except OSError:
        raise NoTable('it is not there or cannot be read') from None
    if lines[0] != HEADER:
        raise NoTable('its first line is not %s' % HEADER)
    if lines[-1] or len(lines) < 3:
        raise NoTable('it has no rows, or its last line has no end')
    rows = []
    for number, line in enumerate(lines[1:-1], 2):
        found = ROW.fullmatch(line)
        if not found or int(found[4]) - int(found[5]) != int(found[6]):
            raise NoTable('line %d is no row of such a table' % number)
        rows.append((int(found[1]), found[2], found[3], int(found[4]), int(found[5]), int(found[6])))
    return rows
