"""What is wrong with a refused plan, by the line of its file, the signal and its phases.

The program prints the first line at fault (docs/plan-file.md, "Refusals"). `remark_of` takes that, the network and the bytes of the
plan, and says the same in a sentence. The rules themselves are those of tools/judge.py.
"""
import re
import typing

import judge
from named_network import Remark, counted, listed, meant, other_kind, shown

FIRST = b'ctm-plan 1'
MARK = b'\xef\xbb\xbf'


class Run(typing.NamedTuple):
    """A run of the open block: its line, its phase, and the letters of its green and of its clearance that the horizon leaves."""
    line: int
    phase: str
    letters: int


class Front(typing.NamedTuple):
    """What a plan says in the lines before one."""
    signal: dict | None  # the table of the signal whose block is open
    line: int  # of the line that opened the block
    runs: list
    done: int  # the signals whose block has begun

    def letters(self):
        return sum(run.letters for run in self.runs)


def front_of(net, lines, number):
    """What the lines before line `number` say, which have no fault."""
    front = Front(None, 0, [], 0)
    for at, line in enumerate(lines[1:number - 1], 2):
        kind, name, *green = judge.reading_of(line)
        if kind == 'signal':
            front = Front(net['signal'][front.done], at, [], front.done + 1)
        else:
            rest = net['steps'] - front.letters()
            front.runs.append(Run(at, name, min(rest, green[0] + phase_of(front.signal, name).get('clear', 0))))
    return front


def phase_of(signal, name):
    return next(phase for phase in signal['phase'] if phase['name'] == name)


def remark_of(line, net, data):
    """The remark on a printed line `plan ..`; `data` is None where no plan was named."""
    word, *places = line.split()[1:]
    try:
        if word == 'long':
            return Remark(None, 'the file has more than 1,048,576 bytes, which is the most that a plan file may have')
        if word == 'missing':
            return remark_of_missing(net, data, int(places[0]))
        lines = data.split(b'\n')
        if word == 'form':
            return remark_of_form(lines, int(places[0]))
        front = front_of(net, lines, int(places[0]))
        if word == 'signal':
            return remark_of_signal(net, lines, front, int(places[0]))
        return REMARKS[places[1]](net, lines, front, int(places[0]))
    except (LookupError, TypeError, ValueError, StopIteration, UnicodeDecodeError):
        return None


def remark_of_missing(net, data, signal):
    names = [table['name'] for table in net['signal']]
    if data is None:
        return Remark(None, 'the network has %s, %s, so a plan has to be named behind it' % (
            counted(len(names), 'signal'), listed('`%s`' % name for name in names)))
    lines = data.split(b'\n')
    return Remark(lines.index(b'end') + 1, 'the plan ends without a block for signal `%s`' % names[signal])


# Lines of no form.

def spelled(line):
    """A line as it can be shown."""
    return shown(line.decode(errors='backslashreplace'))


def remark_of_form(lines, number):
    line = lines[number - 1] if number <= len(lines) else b''
    if number > 1 and lines[number - 2] == b'end':
        return Remark(number, 'something stands behind `end`, which has to be the last line' if line else
                      'an empty line stands behind `end`, which has to be the last line')
    if lines == [b'']:
        return Remark(None, 'the file is empty: it has to begin with `ctm-plan 1`')
    if number >= len(lines):
        if line.endswith(b'\r'):
            return Remark(number, carriage_return())
        return Remark(number, 'the line has no line feed at its end' if line else 'the file ends here, before a line `end`')
    if number == 1 and line.removeprefix(MARK).removesuffix(b'\r') != FIRST:
        kind = other_kind(b'\n'.join(lines))
        if kind and kind != 'a plan':
            return Remark(1, 'this is %s, and a plan is wanted here' % kind)
        return Remark(1, 'the first line is %s; it has to be `ctm-plan 1`' % spelled(line))
    if line.startswith(MARK):
        return Remark(number, 'the line begins with a byte order mark, three bytes that an editor put there; save the file without it')
    if line.endswith(b'\r'):
        return Remark(number, carriage_return())
    return Remark(number, fault_of_words(line))


def carriage_return():
    return ('the line ends with a carriage return before its line feed, as editors of Windows write lines; those of a plan end with a '
            'line feed alone')


def fault_of_words(line):
    """Why a line before the end is none of a plan."""
    if not line:
        return 'the line is empty; a plan has no empty lines'
    if b'\t' in line:
        return 'the line has a tab; one space stands between two words'
    if line != line.strip() or b'  ' in line:
        return 'the line has a space at its beginning or end, or two spaces in a row; one stands between two words'
    if b'#' in line:
        return 'the line has a `#`; a plan has no comments'
    first, _, second = line.partition(b' ')
    if not second or b' ' in second:
        return 'the line %s has %s; it has to be `signal NAME`, `PHASE GREEN` or `end`' % (
            spelled(line), counted(len(line.split(b' ')), 'word'))
    if not judge.is_name(first.decode('latin-1')):
        return '%s is no name of a phase: names have small letters, digits and underscores' % spelled(first)
    if judge.GREEN.fullmatch(second):
        return 'a run stands before the first line `signal NAME`'
    if first == b'signal':
        return '%s is no name of a signal: names have small letters, digits and underscores' % spelled(second)
    if re.fullmatch(rb'0[0-9]+', second):
        return '%s has a zero in front; the number is written without it' % spelled(second)
    return '%s is no number of steps: a green has 1 to 4 digits and no sign' % spelled(second)


# Lines at fault in their place.

def remark_of_signal(net, lines, front, number):
    name = judge.reading_of(lines[number - 1])[1]
    names = [signal['name'] for signal in net.get('signal', [])]
    if front.done == len(names):
        why = 'all signals of the network have their block already' if names else 'the network has no signals'
    elif name not in names:
        why = 'the network has no such signal%s; wanted is the block of `%s`' % (meant(name, names), names[front.done])
    else:
        why = 'the next signal of the network is `%s`; blocks stand in the order of the network file' % names[front.done]
    return Remark(number, 'a block for `%s` begins, and %s' % (name, why))


def remark_of_short(net, _, front, number):
    missing = net['steps'] - front.letters()
    have = 'its runs with their clearances have %s' % counted(front.letters(), 'step') if front.runs else 'it has no runs'
    return Remark(number, 'the block of signal `%s` from line %d ends here, and %s: %s of the %d' % (
        front.signal['name'], front.line, have, '1 is missing' if missing == 1 else '%d are missing' % missing, net['steps']))


def remark_of_surplus(net, lines, front, number):
    last = front.runs[-1]
    return Remark(number, 'signal `%s` has its %d steps before this run: that of `%s` on line %d, with its clearance, comes to the end '
                  'of the horizon' % (front.signal['name'], net['steps'], last.phase, last.line))


def remark_of_start(net, lines, front, number):
    name, signal = judge.reading_of(lines[number - 1])[1], front.signal
    wanted = signal.get('start', signal['phase'][0]['name'])
    return Remark(number, 'the first run of signal `%s` has to be of `%s`, with which it starts, and is of `%s`%s' % (
        signal['name'], wanted, name, unknown(signal, name)))


def remark_of_order(net, lines, front, number):
    name, signal, before = judge.reading_of(lines[number - 1])[1], front.signal, front.runs[-1]
    allowed = list(dict.fromkeys(phase_of(signal, before.phase)['next']))
    return Remark(number, '`%s` may not follow `%s` of line %d at signal `%s`%s; %s may' % (
        name, before.phase, before.line, signal['name'], unknown(signal, name), listed('`%s`' % phase for phase in allowed)))


def unknown(signal, name):
    names = [phase['name'] for phase in signal['phase']]
    return '' if name in names else ', which has no phase of this name' + meant(name, names)


def remark_of_green(net, lines, front, number):
    _, name, green = judge.reading_of(lines[number - 1])
    phase, rest = phase_of(front.signal, name), net['steps'] - front.letters()
    title = '`%s` of signal `%s`' % (name, front.signal['name'])
    if green == 0:
        why = 'a run has 1 step at least'
    elif green > phase['max']:
        why = 'the greatest is %d' % phase['max']
    elif green > rest:
        why = '%s left of the horizon' % ('1 step is' if rest == 1 else '%d steps are' % rest)
    else:
        why = 'the least is %d, where the horizon does not cut the green; %d steps are left' % (phase['min'], rest)
    return Remark(number, '%s is green for %s, and %s' % (title, counted(green, 'step'), why))


REMARKS = {'short': remark_of_short, 'surplus': remark_of_surplus, 'start': remark_of_start, 'order': remark_of_order,
           'green': remark_of_green}
