"""What the tools of the desk share (docs/desk.md): files that are read or refused with a sentence, scales, and tables.

A tool ends with status 2 where its words are of another form or a file is not what it has to be. Nothing here is proved, and the
numbers come from tools/replay.py, which is written apart from the program.
"""
import re
import sys
import typing

import inputs
import judge
import network_sentences
import plan_sentences
import trace_table
from inputs import tool_name
from named_network import NamedNetwork, Remark, told

SCALE = re.compile(r'unit is a (tenth of a |hundredth of a |)vehicle, a step ([0-9]+(?:\.[0-9]+)?) seconds?', re.I)
UNITS = {'': 1, 'tenth of a ': 10, 'hundredth of a ': 100}


class Scale(typing.NamedTuple):
    """What a network's comment says of its numbers, each None where it says nothing."""
    seconds: float | None  # of a step
    units: int | None  # of a vehicle


def stop(file, remark):
    """Ends the tool with a sentence about a file."""
    sys.exit(refusal(told(file, remark)))


def refusal(text):
    """Says why a tool ends, and gives its status."""
    print('%s: %s' % (tool_name(), text), file=sys.stderr)
    return 2


def words(usage, least, most=None):
    """The words of the call, or the end of the tool where they are of another form."""
    given = sys.argv[1:]
    if len(given) < least or (most is not None and len(given) > most) or any(word.startswith('-') for word in given):
        print('usage: tools/%s %s   (docs/desk.md says more)' % (tool_name(), usage), file=sys.stderr)
        sys.exit(2)
    inputs.end_with_reader()
    return given


def bytes_of(name):
    """The bytes of a file, at most one more than a network or a plan may have."""
    return inputs.bytes_of(name, judge.LONGEST + 1)


def network_of(name):
    """The accepted network of a file (`NamedNetwork`)."""
    data = bytes_of(name)
    try:
        judge.judge_network(data)
    except (judge.Refused, RecursionError) as refused:
        line = refused.line if isinstance(refused, judge.Refused) else 'network toml'
        stop(name, network_sentences.remark_of(line, data) or Remark(None, line))
    return NamedNetwork(data)


def plan_of(network, name):
    """The text of an admissible plan of a network."""
    data = bytes_of(name)
    try:
        judge.judge_plan(network.net, data)
    except judge.Refused as refused:
        stop(name, plan_sentences.remark_of(refused.line, network.net, data) or Remark(None, refused.line))
    return data.decode()


def rows_of_trace(name):
    """The rows of a table that `trace` wrote."""
    try:
        return trace_table.rows_of(name)
    except trace_table.NoTable as why:
        stop(name, Remark(None, 'no table of a trace: %s' % why))


def scale_of(network):
    """The scale that a comment of a network tells."""
    found = SCALE.search(network.text)
    return Scale(float(found[2]), UNITS[found[1].lower()]) if found else Scale(None, None)


# Text.

def fixed(number, digits=1):
    """A number with so many digits behind the point, or a dash where there is none."""
    return '-' if number is None else '%.*f' % (digits, number)


def table(heads, rows):
    """Rows of texts below their heads, in columns: to the right where all are numbers, else to the left."""
    columns = list(zip(*[heads, *rows]))
    widths = [max(map(len, column)) for column in columns]
    is_number = [all(re.fullmatch(r'-|[0-9.]+( %)?', text) for text in column[1:]) for column in columns]
    lines = []
    for row in [heads, *rows]:
        cells = [text.rjust(width) if right else text.ljust(width) for text, width, right in zip(row, widths, is_number)]
        lines.append('  '.join(cells).rstrip())
    return '\n'.join(lines)
