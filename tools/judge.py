#!/usr/bin/env python3
"""Says the first refusal of a network file, and of a plan file, apart from the program.

usage: tools/judge.py NET [PLAN]   (Python 3.11, for tomllib)

It prints the line that the program has to print and ends with the status that the program has to end with; of accepted
files it prints `accepted` and ends with 0. The rules are those of docs/network-file.md and docs/plan-file.md, written down
here a second time: a table of keys, twelve rules of joining, and a walk over the lines of a plan. Nothing is shared with
the program or its definitions, so that a rule that was misunderstood there shows as a difference (tools/fuzz.py).

TOML documents are read by Python's tomllib, which reads version 1.0. Forms that only 1.1 has, integers beyond 64 bits,
byte order marks and nests deeper than 80 are outside of what this judge can say.
"""
import re
import sys
import tomllib
import typing

import inputs

LONGEST = 1_048_576
NAME = re.compile(r'[a-z][a-z0-9_]{0,23}')
GREEN = re.compile(rb'0|[1-9][0-9]{0,3}')


class Refused(Exception):
    """The first refusal: the printed line, and the status by its first word."""

    def __init__(self, line):
        self.line = line
        self.status = 3 if line.startswith('network') else 4


class Asked(typing.NamedTuple):
    """A type or a range that values are asked to have: the test, and its words."""
    test: typing.Callable
    words: str

    def __call__(self, value):
        return self.test(value)


# The types that a value may be asked to have. In Python a bool is an int, so types are compared and not tested by isinstance.

is_whole = Asked(lambda value: type(value) is int, 'a whole number')
is_text = Asked(lambda value: type(value) is str, 'a text')
is_table = Asked(lambda value: type(value) is dict, 'a table')


def array_of(kind):
    return Asked(lambda value: type(value) is list and all(kind(item) for item in value), 'an array of %ss' % kind.words.split(' ', 1)[1])


# The ranges of values that have their type.

def between(low, high):
    return Asked(lambda number: low <= number <= high, 'from %d to %d' % (low, high))


def length(low, high):
    return Asked(lambda items: low <= len(items) <= high, 'with %d to %d items' % (low, high))


def numbers(most, high):
    return Asked(lambda items: len(items) <= most and all(0 <= item <= high for item in items),
                 'with at most %d numbers from 0 to %d' % (most, high))


is_wave = Asked(lambda items: len(items) == 2 and 1 <= items[0] <= items[1] <= 100, 'of two numbers p and q, 1 <= p <= q <= 100')
is_name = Asked(lambda text: NAME.fullmatch(text) is not None,
                'that is a name: a letter from a to z, and at most 23 such letters, digits and underscores behind it')
anything = Asked(lambda _: True, 'of any value')


# A key: its name, where it has to stand (always, never, or beside another key), its type, its range. Its number is its
# place in the list, from 1.

KEYS = {
    'top': [
        ('format', True, is_whole, anything),
        ('steps', True, is_whole, between(1, 240)),
        ('link', True, array_of(is_table), length(1, 64)),
        ('signal', False, array_of(is_table), length(0, 16)),
    ],
    'link': [
        ('name', True, is_text, is_name),
        ('cells', False, is_whole, between(1, 256)),
        ('cap', True, is_whole, between(1, 1000)),
        ('store', True, is_whole, between(1, 10_000)),
        ('wave', False, array_of(is_whole), is_wave),
        ('to', False, is_text, anything),
        ('turns', False, array_of(is_table), length(2, 4)),
        ('signal', 'greens', is_text, anything),
        ('greens', 'signal', array_of(is_text), length(1, 16)),
        ('initial', False, array_of(is_whole), numbers(256, 10_000)),
        ('demand', False, array_of(is_table), length(0, 240)),
        ('rates', False, array_of(is_whole), numbers(240, 1000)),
    ],
    'turn': [
        ('link', True, is_text, anything),
        ('parcel', True, is_whole, between(1, 100)),
    ],
    'piece': [
        ('from', True, is_whole, between(0, 240)),
        ('until', True, is_whole, between(0, 240)),
        ('rate', True, is_whole, between(0, 1000)),
    ],
    'signal': [
        ('name', True, is_text, is_name),
        ('start', False, is_text, anything),
        ('phase', True, array_of(is_table), length(2, 8)),
    ],
    'phase': [
        ('name', True, is_text, is_name),
        ('min', True, is_whole, between(1, 60)),
        ('max', True, is_whole, between(1, 60)),
        ('clear', False, is_whole, between(0, 20)),
        ('next', True, array_of(is_text), length(0, 16)),
    ],
}


def tables_of(net):
    """Each table with its kind and its printed place, in the order in which a stage walks over them."""
    def among(owner, key):
        return list(enumerate(owner.get(key, [])))

    yield 'top', 'top', net
    for i, link in among(net, 'link'):
        yield 'link', 'link %d' % i, link
        for j, turn in among(link, 'turns'):
            yield 'turn', 'turn %d %d' % (i, j), turn
        for j, piece in among(link, 'demand'):
            yield 'piece', 'piece %d %d' % (i, j), piece
    for i, signal in among(net, 'signal'):
        yield 'signal', 'signal %d' % i, signal
        for j, phase in among(signal, 'phase'):
            yield 'phase', 'phase %d %d' % (i, j), phase


def judge_keys(net):
    for kind, place, table in tables_of(net):
        for number, (key, needed, has_type, _) in enumerate(KEYS[kind], 1):
            if key in table:
                if not has_type(table[key]):
                    raise Refused('network key %s %d' % (place, number))
            elif needed is True or (needed and needed in table):
                raise Refused('network key %s %d' % (place, number))
        if set(table) - {key for key, _, _, _ in KEYS[kind]}:
            raise Refused('network key %s 0' % place)


def judge_ranges(net):
    for kind, place, table in tables_of(net):
        for number, (key, _, _, in_range) in enumerate(KEYS[kind], 1):
            if key in table and not in_range(table[key]):
                raise Refused('network range %s %d' % (place, number))


def judge_names(net):
    """The first table whose name is taken by one before it: links, signals, and the phases within each signal."""
    taken = {'link': set(), 'signal': set()}
    for kind, place, table in tables_of(net):
        if kind == 'signal':
            taken['phase'] = set()
        if kind in taken:
            if table['name'] in taken[kind]:
                raise Refused('network name %s' % place)
            taken[kind].add(table['name'])


def ways_out(link):
    """The names that a link leads to, `to` and then the branches."""
    return ([link['to']] if 'to' in link else []) + [turn['link'] for turn in link.get('turns', [])]


def pieces_of(link):
    """The pieces of demand (first, until, rate): those of `demand`, and then one for each entry of `rates`."""
    pieces = [(piece['from'], piece['until'], piece['rate']) for piece in link.get('demand', [])]
    return pieces + [(t, t + 1, rate) for t, rate in enumerate(link.get('rates', []))]


def judge_joins(net):
    """The twelve rules of joining: each is asked of all the network, and a later one only where nothing breaks it."""
    links, signals = net['link'], net.get('signal', [])
    names = {link['name'] for link in links}
    phases = {signal['name']: {phase['name'] for phase in signal['phase']} for signal in signals}
    for i, link in enumerate(links):
        places = [(0, link['to'])] if 'to' in link else []
        places += [(j + 1, turn['link']) for j, turn in enumerate(link.get('turns', []))]
        for place, name in places:
            if name not in names:
                raise Refused('network unknownlink %d %d' % (i, place))
    for i, link in enumerate(links):
        if 'signal' in link and link['signal'] not in phases:
            raise Refused('network unknownsignal %d' % i)
    for i, link in enumerate(links):
        for place, green in enumerate(link.get('greens', [])):
            if green not in phases[link['signal']]:
                raise Refused('network unknownphase green %d %d' % (i, place))
    for s, signal in enumerate(signals):
        if 'start' in signal and signal['start'] not in phases[signal['name']]:
            raise Refused('network unknownphase start %d' % s)
    for s, signal in enumerate(signals):
        for h, phase in enumerate(signal['phase']):
            for place, name in enumerate(phase['next']):
                if name not in phases[signal['name']]:
                    raise Refused('network unknownphase next %d %d %d' % (s, h, place))
    for i, link in enumerate(links):
        if 'to' in link and link.get('turns'):
            raise Refused('network outboth %d' % i)
    for i, link in enumerate(links):
        if link['name'] in ways_out(link):
            raise Refused('network itself %d' % i)
    for i, link in enumerate(links):
        branches = [turn['link'] for turn in link.get('turns', [])]
        for place, name in enumerate(branches):
            if name in branches[:place]:
                raise Refused('network twiceturn %d %d' % (i, place))
    for i, link in enumerate(links):
        if pieces_of(link) and any(link['name'] in ways_out(other) for other in links):
            raise Refused('network fed %d' % i)
    for i, link in enumerate(links):
        feeders = [other for other in links if link['name'] in ways_out(other)]
        greens = [green for feeder in feeders for green in set(feeder.get('greens', []))]
        one_signal = len({feeder.get('signal') for feeder in feeders}) == 1 and 'signal' in feeders[0]
        if len(feeders) >= 2 and not (one_signal and len(greens) == len(set(greens))):
            raise Refused('network openmerge %d' % i)
    for i, link in enumerate(links):
        if 'initial' in link:
            if len(link['initial']) != link.get('cells', 1) or max(link['initial']) > link['store']:
                raise Refused('network initial %d' % i)
    count = sum(link.get('cells', 1) + (1 if pieces_of(link) else 0) for link in links)
    if count > 256:
        raise Refused('network cells %d' % count)
    for i, link in enumerate(links):
        judge_demand(i, pieces_of(link), net['steps'])
    for s, signal in enumerate(signals):
        for h, phase in enumerate(signal['phase']):
            if phase['min'] > phase['max'] or not phase['next'] or phase['name'] in phase['next']:
                raise Refused('network phase %d %d' % (s, h))


def judge_demand(i, pieces, steps):
    for place, (first, until, _) in enumerate(pieces):
        if first >= until or until > steps:
            raise Refused('network demand %d range %d' % (i, place))
    for t in range(steps):
        if sum(rate for first, until, rate in pieces if first <= t < until) > 1000:
            raise Refused('network demand %d heavy %d' % (i, t))


def judge_network(data):
    """The network that the bytes of a file spell, as tomllib gives it."""
    if len(data) > LONGEST:
        raise Refused('network long')
    try:
        net = tomllib.loads(data.decode())
    except (UnicodeDecodeError, tomllib.TOMLDecodeError):
        raise Refused('network toml') from None
    if type(net.get('format')) is not int or net['format'] != 1:
        raise Refused('network format')
    judge_keys(net)
    judge_ranges(net)
    judge_names(net)
    judge_joins(net)
    return net


def reading_of(line):
    """What a line of a plan says: ('end',), ('signal', name), ('run', phase, green), or None."""
    if line == b'end':
        return ('end',)
    first, space, second = line.partition(b' ')
    if not space or not is_name(first.decode('latin-1')):
        return None
    if GREEN.fullmatch(second):
        return ('run', first.decode(), int(second))
    if first == b'signal' and is_name(second.decode('latin-1')):
        return ('signal', second.decode())
    return None


class Block:
    """What a plan said of one signal so far: the phase of its last run, and its letters up to the horizon."""

    def __init__(self, signal, steps):
        self.steps = steps
        self.phases = {phase['name']: phase for phase in signal['phase']}
        self.allowed = [signal.get('start', signal['phase'][0]['name'])]
        self.letters = 0
        self.runs = 0

    def fault_of(self, name, green):
        """The fault of the next run, or None; what it says is then taken in."""
        rest = self.steps - self.letters
        if rest <= 0:
            return 'surplus'
        if name not in self.phases or name not in self.allowed:
            return 'order' if self.runs else 'start'
        phase = self.phases[name]
        is_cut = green == rest
        if green == 0 or green > phase['max'] or green > rest or (green < phase['min'] and not is_cut):
            return 'green'
        self.letters += green + phase.get('clear', 0)
        self.allowed = phase['next']
        self.runs += 1
        return None


def judge_plan(net, data):
    """Nothing, where the bytes of a plan file spell an admissible plan of the network."""
    if len(data) > LONGEST:
        raise Refused('plan long')
    signals = net.get('signal', [])
    lines = data.split(b'\n')
    unended = lines.pop()
    done, block = 0, None
    for number, line in enumerate(lines, 1):
        if number == 1:
            if line != b'ctm-plan 1':
                raise Refused('plan form 1')
            continue
        reading = reading_of(line)
        if reading is None or (reading[0] == 'run' and block is None):
            raise Refused('plan form %d' % number)
        if reading[0] == 'run':
            fault = block.fault_of(reading[1], reading[2])
            if fault:
                raise Refused('plan run %d %s' % (number, fault))
            continue
        if block is not None and block.letters < net['steps']:
            raise Refused('plan run %d short' % number)
        if reading[0] == 'signal':
            if done == len(signals) or reading[1] != signals[done]['name']:
                raise Refused('plan signal %d' % number)
            block = Block(signals[done], net['steps'])
            done += 1
            continue
        if done < len(signals):
            raise Refused('plan missing %d' % done)
        if lines[number:] or unended:
            raise Refused('plan form %d' % (number + 1))
        return
    raise Refused('plan form %d' % (len(lines) + 1))


def judge(network, plan=None):
    """The status and the printed line of a replay of these bytes, or None where both are accepted."""
    try:
        net = judge_network(network)
        if plan is not None:
            judge_plan(net, plan)
        elif net.get('signal'):
            raise Refused('plan missing 0')
    except Refused as refused:
        return refused.status, refused.line
    return None


def main():
    if len(sys.argv) not in (2, 3):
        sys.exit('usage: tools/judge.py NET [PLAN]')
    inputs.end_with_reader()
    status, line = judge(*[inputs.bytes_of(name, LONGEST + 1) for name in sys.argv[1:]]) or (0, 'accepted')
    print(line)
    sys.exit(status)


if __name__ == '__main__':
    main()
