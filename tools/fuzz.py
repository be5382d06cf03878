#!/usr/bin/env python3
"""Runs the program on random networks and plans, and compares it with tools/judge.py, tools/replay.py and tools/compile.py.

usage: tools/fuzz.py SEED COUNT [PROGRAM]   (Python 3.11, for tomllib)

Case k of a seed is always the same: a small valid network with an admissible plan, in some spelling, and then mostly one
or two changes of the network, of the plan or of the bytes of one of them; every 500th is a network of 256 cells over 240 steps.
Where the judge accepts both files, `replay` and `trace` have to print what the replay gives, `trace` has to write its table, and
`program` and `encode` have to print and write what tools/compile.py gives, whole texts. The point that was written is tried on
the program that was written: each bound, each row, and the objective, which has to be the delay. `point` has to give the plan
back, and to name the first fault where a value of one column of each kind is changed, where values are missing or too many, and
where the text is damaged, as tools/compile.py does. Else the four have to print the judge's line, or `too large` where a network
has more than 400,000 rows, and no file may be made; `program` and `point` look at no plan: a plan's file is no text of a point. A
case without a plan gets the plan of no signals for `trace` and `encode`, which is judged alike. Statuses are compared too, standard
error has to be empty, and in the case's own folder nothing else may change. The program is the built one (run ./planner first) or
the one that is named.

At the end stands how often each answer came and, from 2000 cases on, which of all refusals never came; the last line
counts. The status is 0 where all cases passed and none of these is missing. The folder of a case that failed is kept, and named.
"""
import collections
import copy
import pathlib
import random
import re
import shutil
import subprocess
import sys
import tempfile
import typing

import compile
import judge
import replay

TOP = pathlib.Path(__file__).resolve().parent.parent
PROGRAM = TOP / 'crates/signal_cli/out/signal_cli'
NO_SIGNALS = b'ctm-plan 1\nend\n'
LARGE_EVERY = 500  # cases


# Valid networks, as tables of a document.

def name_of(random, stem, number):
    return random.choice(['%s%d' % (stem, number), '%s_%d' % (stem, number), (stem + 'abcdefghijklmnopqrstuvw')[:20] + '_%d' % number])


def random_signal(random, number):
    names = [name_of(random, 'p', p) for p in range(random.choice([2, 2, 2, 3, 4, 8]))]
    phases = []
    for name in names:
        low = random.choice([1, 1, 2, 3])
        others = [other for other in names if other != name]
        phase = {'name': name, 'min': low, 'max': low + random.choice([0, 1, 2, 5]),
                 'next': random.sample(others, random.randint(1, len(others)))}
        if random.random() < 0.1:
            phase['next'] = (phase['next'] * 16)[:random.randint(len(phase['next']), 16)]
        if random.random() < 0.6:
            phase['clear'] = random.choice([0, 1, 1, 2, 3])
        phases.append(phase)
    signal = {'name': name_of(random, random.choice(['s', 'l']), number), 'phase': phases}
    if random.random() < 0.4:
        signal['start'] = random.choice(names)
    return signal


def random_link(random, number, steps, signals):
    store = random.choice([1, 2, 5, 9, 20, 40])
    link = {'name': name_of(random, 'l', number), 'cap': random.choice([1, 2, 3, 6, 10]), 'store': store}
    if random.random() < 0.03:
        link['cap'], link['store'] = 1000, 10_000
    if random.random() < 0.6:
        link['cells'] = random.randint(1, 4)
    if random.random() < 0.6:
        q = random.randint(1, 5)
        link['wave'] = [random.randint(1, q), q]
    if signals and random.random() < 0.6:
        signal = random.choice(signals)
        names = [phase['name'] for phase in signal['phase']]
        link['signal'] = signal['name']
        link['greens'] = random.sample(names, random.choice([1, 1, 1, 2]))
        if random.random() < 0.1:
            link['greens'] = link['greens'] * 2
    if random.random() < 0.4:
        link['initial'] = [random.randint(0, store) for _ in range(link.get('cells', 1))]
    if random.random() < 0.4:
        link['demand'] = []
        for _ in range(random.choice([0, 1, 1, 2, 3])):
            first = random.randrange(steps)
            link['demand'].append({'from': first, 'until': random.randint(first + 1, steps), 'rate': random.choice([0, 1, 2, 5, 300])})
    if random.random() < 0.3:
        link['rates'] = [random.choice([0, 1, 2, 4, 9, 100]) for _ in range(random.randint(0, steps))]
    return link


def may_lead(link, target, links):
    """Whether a link may lead into another one beside those that do already."""
    if link is target or judge.pieces_of(target):
        return False
    feeders = [other for other in links if target['name'] in judge.ways_out(other)]
    apart = ('signal' in link and feeder.get('signal') == link['signal'] and not set(feeder['greens']) & set(link['greens'])
             for feeder in feeders)
    return link not in feeders and all(apart)


def random_network(random):
    steps = random.choice([1, 2, 3, 5, 8, 12, 20, 30])
    if random.random() < 0.01:
        steps = 240
    signals = [random_signal(random, s) for s in range(random.choice([0, 1, 1, 1, 2, 3]))]
    links = [random_link(random, k, steps, signals) for k in range(random.choice([1, 2, 3, 4, 5, 6, 8, 10]))]
    for link in links:
        targets = [target for target in links if may_lead(link, target, links)]
        fed = [target for target in targets if any(target['name'] in judge.ways_out(other) for other in links)]
        if not targets or random.random() < 0.15:
            continue
        if len(targets) >= 2 and random.random() < 0.65:
            chosen = random.sample(targets, random.randint(2, min(4, len(targets))))
            link['turns'] = [{'link': target['name'], 'parcel': random.choice([1, 1, 2, 3])} for target in chosen]
        else:
            link['to'] = random.choice(fed or targets)['name']
    net = {'format': 1, 'steps': steps, 'link': links}
    if signals or random.random() < 0.2:
        net['signal'] = signals
    return net


def large_network(random):
    """A network of 256 cells over 240 steps, which has about as many rows as a program may have, and mostly more."""
    while True:
        net = random_network(random)
        link = random.choice(net['link'])
        link.pop('initial', None)
        count = sum(each.get('cells', 1) + (1 if judge.pieces_of(each) else 0) for each in net['link'])
        link['cells'] = link.get('cells', 1) + 256 - count
        net['steps'] = 240
        if compile.Shape(copy.deepcopy(net)).row_count() > random.choice([compile.MOST_ROWS, 9 * compile.MOST_ROWS // 10]):
            return net


# Admissible plans, as lists of lines.

def random_plan(random, net):
    lines = ['ctm-plan 1']
    for signal in net.get('signal', []):
        phases = {phase['name']: phase for phase in signal['phase']}
        lines.append('signal %s' % signal['name'])
        phase, letters = phases[signal.get('start', signal['phase'][0]['name'])], 0
        while letters < net['steps']:
            green = min(random.randint(phase['min'], phase['max']), net['steps'] - letters)
            lines.append('%s %d' % (phase['name'], green))
            letters += green + phase.get('clear', 0)
            phase = phases[random.choice(phase['next'])]
    return lines + ['end']


# Spellings of a document: the same tables by headers or in line, in any order of keys.

def spelled_text(random, text):
    if random.random() < 0.1 and re.fullmatch('[a-z0-9_]*', text):
        return "'%s'" % text
    code = ''.join('\\u%04X' % ord(c) if c in '"\\' or ord(c) < 32 or random.random() < 0.02 else c for c in text)
    return '"%s"' % code


def spelled_number(random, number):
    if random.random() < 0.95 or number < 0:
        return str(number)
    return random.choice(['+%d', '0x%X', '0o%o']) % number if number else '0'


class Literal(str):
    """A value that is written as it stands."""


def spelled(random, value):
    if isinstance(value, Literal):
        return value
    if isinstance(value, bool):
        return 'true' if value else 'false'
    if isinstance(value, int):
        return spelled_number(random, value)
    if isinstance(value, str):
        return spelled_text(random, value)
    if isinstance(value, float):
        return repr(value)
    if isinstance(value, list):
        tail = ',' if value and random.random() < 0.1 else ''
        space = random.choice(['', '', ' ', '\n  '])
        return '[' + space + (',' + (space or ' ')).join(spelled(random, item) for item in value) + tail + ']'
    return '{ ' + ', '.join('%s = %s' % (spelled_key(random, key), spelled(random, value[key])) for key in value) + ' }'


def spelled_key(random, key):
    if not re.fullmatch('[A-Za-z0-9_-]+', key) or random.random() < 0.05:
        return '"%s"' % key
    return key


def has_headers(value):
    return type(value) is list and value and all(type(item) is dict for item in value)


def spelled_table(random, table, path):
    """The lines of a table whose header stands already: its plain keys, then the headers of its tables."""
    keys = list(table)
    if random.random() < 0.5:
        random.shuffle(keys)
    headers = [key for key in keys if has_headers(table[key]) and random.random() < 0.7]
    lines = []
    for key in keys:
        if key not in headers:
            lines.append('%s%s = %s' % (random.choice(['', '', '  ']), spelled_key(random, key), spelled(random, table[key])))
        if random.random() < 0.05:
            lines.append(random.choice(['', '# a comment = [', '\t']))
    for key in headers:
        for item in table[key]:
            lines.append('[[%s]]' % '.'.join(path + [key]))
            lines += spelled_table(random, item, path + [key])
    return lines


def spelled_document(random, net):
    end = random.choice(['\n', '\n', '\n', '\r\n'])
    return (end.join(spelled_table(random, net, [])) + end).encode()


# Changes of a network. Each answers whether it found a place.

def places_of(net):
    """The tables by their kinds."""
    found = collections.defaultdict(list)
    found['top'].append(net)
    for link in net['link']:
        found['link'].append(link)
        found['turn'] += link.get('turns', [])
        found['piece'] += link.get('demand', [])
    for signal in net.get('signal', []):
        found['signal'].append(signal)
        found['phase'] += signal['phase']
    return found


def some_place(random, net, kinds=judge.KEYS):
    """A table of a kind that is chosen first, so that rare kinds come as often as others."""
    found = places_of(net)
    return random.choice(found[random.choice([kind for kind in kinds if found[kind]])])


def some_key(random, net):
    """A key out of all, and a table that may have it."""
    found = places_of(net)
    often = {'turn': 2, 'piece': 2, 'phase': 2}
    kind, key = random.choice([(kind, key) for kind in judge.KEYS if found[kind] for key in judge.KEYS[kind] * often.get(kind, 1)])
    return random.choice(found[kind]), key


def small(number):
    """A number of the network that an earlier change may have made huge, as the length of a list."""
    return max(0, min(number, 300))


def a_key_is_missing(random, net):
    table, (key, needed, _, _) = some_key(random, net)
    return table.pop(key, None) is not None and needed is not False


def a_type_is_wrong(random, net):
    table, (key, _, has_type, _) = some_key(random, net)
    values = [True, False, 1.0, 1, 'a', '', [], [1], ['a'], [1, 'a'], [{}], [{}, 1], {}, {'a': 1}, [[1]], [True], [1, 1.5],
              Literal('1979-05-27'), Literal('07:32:00'), Literal('inf'), '1']
    table[key] = random.choice([value for value in values if isinstance(value, Literal) or not has_type(value)])
    return True


def a_key_is_unknown(random, net):
    table = some_place(random, net)
    key = random.choice(['nam', 'names', 'Name', 'x', '', 'steps_', 'cap', 'min', 'to', 'green', 'rate'])
    table[key] = random.choice([1, 'a', [], {}, True])
    return True


RANGES = [
    ('top', 'steps', 1, 240), ('link', 'cells', 1, 256), ('link', 'cap', 1, 1000), ('link', 'store', 1, 10_000),
    ('turn', 'parcel', 1, 100), ('piece', 'from', 0, 240), ('piece', 'until', 0, 240), ('piece', 'rate', 0, 1000),
    ('phase', 'min', 1, 60), ('phase', 'max', 1, 60), ('phase', 'clear', 0, 20),
]


def a_number_is_out_of_range(random, net):
    kind, key, low, high = random.choice([each for each in RANGES if places_of(net)[each[0]]])
    tables = places_of(net)[kind]
    random.choice(tables)[key] = random.choice([low - 1, high + 1, high + 1, -1, -high, 2 ** 32 + low, 2 ** 63 - 1, -2 ** 63])
    return True


def a_number_stands_at_its_end(random, net):
    kind, key, low, high = random.choice(RANGES)
    tables = places_of(net)[kind]
    if not tables:
        return False
    random.choice(tables)[key] = random.choice([low, high])
    return True


def a_wave_is_out_of_range(random, net):
    link = random.choice(net['link'])
    link['wave'] = random.choice([[], [1], [1, 1, 1], [2, 1], [100, 99], [0, 1], [1, 101], [101, 101], [100, 100], [1, 100], [-1, 1]])
    return True


def a_list_is_too_long(random, net):
    """Lists past their greatest length, or just at it."""
    more = random.choice([0, 1, 1, 1])
    found = places_of(net)
    kind, key = random.choice([('top', 'link'), ('top', 'signal'), ('link', 'turns'), ('link', 'greens'), ('link', 'initial'),
                               ('link', 'demand'), ('link', 'rates'), ('signal', 'phase'), ('phase', 'next')])
    if not found[kind]:
        return False
    table = random.choice(found[kind])
    if key == 'link':
        net['link'] += [{'name': 'more%d' % k, 'cap': 1, 'store': 1} for k in range(64 + more - len(net['link']))]
    elif key == 'signal':
        phases = [{'name': name, 'min': 1, 'max': 2, 'next': [other]} for name, other in [('a', 'b'), ('b', 'a')]]
        net['signal'] = net.get('signal', [])
        net['signal'] += [{'name': 'more%d' % k, 'phase': copy.deepcopy(phases)} for k in range(16 + more - len(net['signal']))]
    elif key == 'turns':
        table['turns'] = [{'link': random.choice(net['link'])['name'], 'parcel': 1} for _ in range(random.choice([0, 1, 4, 5]))]
    elif key == 'greens':
        gated = [link for link in net['link'] if 'greens' in link]
        if not gated:
            return False
        table = random.choice(gated)
        table['greens'] = random.choice([[], (table['greens'] * 17)[:16 + more], (table['greens'] * 17)[:17]])
    elif key == 'initial':
        table['initial'] = random.choice([[0] * (256 + more), [10_000 + more], [0, -1], [0] * small(table.get('cells', 1))])
    elif key == 'demand':
        table['demand'] = [{'from': 0, 'until': 1, 'rate': 1}] * (240 + more)
    elif key == 'rates':
        table['rates'] = random.choice([[1] * (240 + more), [1000 + more], [-1], [0] * small(net['steps'])])
    elif key == 'phase':
        phases = table['phase']
        phases += [{'name': 'more%d' % p, 'min': 1, 'max': 1, 'next': [phases[0]['name']]} for p in range(8 + more - len(phases))]
        if random.random() < 0.4:
            table['phase'] = phases[:random.choice([0, 1, 1, 2])]
    else:
        table['next'] = (table['next'] * 17)[:16 + more]
    return True


def a_count_is_none(random, net):
    net['link'] = []
    return True


def a_name_has_no_shape(random, net):
    table = some_place(random, net, ['link', 'signal', 'phase'])
    table['name'] = random.choice(['a' * 25, 'a' * 24, 'z_9' * 8, 'a' * 26, '', 'A', '1a', '_a', 'a b', 'a-b',
                                   '\u00e9', 'a\n', 'a\u0000', 'end', 'signal', 'z_9'])
    return True


def a_name_stands_twice(random, net):
    kind = random.choice(['link', 'signal', 'phase'])
    if kind == 'phase' and net.get('signal'):
        tables = random.choice(net['signal'])['phase']
    else:
        tables = net.get(kind, [])
    if len(tables) < 2:
        return False
    first, second = random.sample(tables, 2)
    first['name'] = second['name']
    return True


def a_link_is_unknown(random, net):
    link = random.choice([link for link in net['link'] if 'turns' in link] or net['link'])
    if 'turns' not in link or random.random() < 0.2:
        link['to'] = random.choice(['nowhere', '', 'L0', link['name'] + 'x', 'a b'])
        return True
    random.choice(link['turns'])['link'] = random.choice(['nowhere', '', 'l'])
    return True


def a_signal_is_unknown(random, net):
    link = random.choice(net['link'])
    link['signal'] = random.choice(['none', '', link['name']])
    link.setdefault('greens', ['a'])
    return True


def a_phase_is_unknown(random, net):
    signals = net.get('signal', [])
    gated = [link for link in net['link'] if 'greens' in link]
    kind = random.choice(['greens', 'start', 'next'])
    if not signals or (kind == 'greens' and not gated):
        return False
    name = random.choice(['none', '', signals[-1]['name'], signals[-1]['phase'][-1]['name'] + 'x'])
    if kind == 'start':
        random.choice(signals)['start'] = name
    else:
        names = random.choice(gated)['greens'] if kind == 'greens' else random.choice(random.choice(signals)['phase'])['next']
        names.insert(random.randint(0, len(names)), name)
    return True


def both_ways_stand(random, net):
    link = random.choice(net['link'])
    names = [other['name'] for other in net['link']]
    link.setdefault('to', random.choice(names))
    link.setdefault('turns', [{'link': random.choice(names), 'parcel': 1} for _ in range(2)])
    return True


def a_link_leads_to_itself(random, net):
    link = random.choice(net['link'])
    if 'turns' in link:
        random.choice(link['turns'])['link'] = link['name']
    else:
        link['to'] = link['name']
    return True


def a_branch_stands_twice(random, net):
    links = [link for link in net['link'] if 'turns' in link]
    if not links:
        return False
    turns = random.choice(links)['turns']
    first, second = random.sample(turns, 2)
    first['link'] = second['link']
    return True


def a_fed_link_has_demand(random, net):
    fed = [link for link in net['link'] if any(link['name'] in judge.ways_out(other) for other in net['link'])]
    if not fed:
        return False
    link = random.choice(fed)
    if random.random() < 0.5:
        link['rates'] = [random.choice([0, 1])]
    else:
        link['demand'] = [{'from': 0, 'until': 1, 'rate': random.choice([0, 3])}]
    return True


def a_merge_is_open(random, net):
    """A way out is bent to a link that another one leads into, or a gate at a merge is changed."""
    sources = [link for link in net['link'] if 'turns' not in link]
    targets = [link for link in net['link'] if not judge.pieces_of(link)]
    if len(sources) < 2 or not targets:
        return False
    target = random.choice(targets)
    for link in random.sample(sources, 2):
        link['to'] = target['name']
    return True


def greens_at_a_merge_overlap(random, net):
    for link in random.sample(net['link'], len(net['link'])):
        feeders = [other for other in net['link'] if link['name'] in judge.ways_out(other)]
        if len(feeders) >= 2 and all('greens' in feeder for feeder in feeders):
            first, second = random.sample(feeders, 2)
            first['greens'] = first['greens'] + second['greens'][:1]
            return True
    return False


def initial_units_do_not_fit(random, net):
    link = random.choice(net['link'])
    cells = small(link.get('cells', 1))
    link['initial'] = random.choice([[0] * (cells + 1), [0] * (cells - 1), [0] * (cells - 1) + [min(link['store'] + 1, 10_000)],
                                     [link['store']] * cells])
    return True


def there_are_many_cells(random, net):
    """256 cells, or one more, or many more."""
    link, other = random.choice(net['link']), random.choice(net['link'])
    count = sum(each.get('cells', 1) + (1 if judge.pieces_of(each) else 0) for each in net['link'])
    link['cells'] = min(256, random.choice([256, 257, 258]) - count + link.get('cells', 1))
    if random.random() < 0.2:
        other['cells'] = random.choice([255, 256])
    link.pop('initial', None)
    other.pop('initial', None)
    return True


def a_piece_is_out_of_range(random, net):
    link = random.choice(net['link'])
    pieces = link.setdefault('demand', [])
    steps = net['steps']
    first, until = random.choice([(0, 0), (steps, steps), (1, 0), (0, steps + 1), (steps, steps + 1), (240, 240), (steps - 1, steps)])
    pieces.insert(random.randint(0, len(pieces)), {'from': first, 'until': min(until, 240), 'rate': random.choice([0, 1])})
    return True


def rates_pass_the_horizon(random, net):
    random.choice(net['link'])['rates'] = [random.choice([0, 1])] * min(small(net['steps']) + random.choice([0, 1, 2]), 240)
    return True


def a_step_is_heavy(random, net):
    """A thousand units arrive in a step, or one more, or many more."""
    link = random.choice(net['link'])
    link.pop('rates', None)
    pieces = link['demand'] = []
    steps = small(net['steps'])
    start = random.randrange(steps)
    pieces.append({'from': start, 'until': random.randint(start + 1, steps), 'rate': random.choice([600, 1000])})
    pieces.append({'from': random.randint(0, start), 'until': start + 1, 'rate': 1000 - pieces[0]['rate'] + random.choice([0, 1, 1, 400])})
    if random.random() < 0.2:
        link['rates'] = [1] * random.randint(0, steps)
    return True


def a_phase_breaks_its_rules(random, net):
    if not net.get('signal'):
        return False
    phase = random.choice(random.choice(net['signal'])['phase'])
    kind = random.choice(['min', 'next', 'itself'])
    if kind == 'min':
        phase['min'] = min(phase['max'] + random.choice([0, 1, 1, 5]), 60)
    elif kind == 'next':
        phase['next'] = []
    else:
        phase['next'].insert(random.randint(0, len(phase['next'])), phase['name'])
    return True


def the_format_is_another(random, net):
    value = random.choice([None, 0, 2, -1, '1', True, 1.0, [1], {}])
    if value is None:
        del net['format']
    else:
        net['format'] = value
    return True


def links_change_their_order(random, net):
    """Changes no rule, but which place is the first."""
    random.shuffle(net['link'])
    random.shuffle(net.get('signal', []))
    return True


NETWORK_CHANGES = {
    a_key_is_missing: 12, a_type_is_wrong: 32, a_key_is_unknown: 10, a_number_is_out_of_range: 20, a_number_stands_at_its_end: 1,
    a_wave_is_out_of_range: 4, a_list_is_too_long: 18, a_count_is_none: 1, a_name_has_no_shape: 6, a_name_stands_twice: 8,
    a_link_is_unknown: 4, a_signal_is_unknown: 2, a_phase_is_unknown: 9, both_ways_stand: 2, a_link_leads_to_itself: 2,
    a_branch_stands_twice: 5, a_fed_link_has_demand: 2, a_merge_is_open: 4, greens_at_a_merge_overlap: 2,
    initial_units_do_not_fit: 2, there_are_many_cells: 4, a_piece_is_out_of_range: 3, rates_pass_the_horizon: 1,
    a_step_is_heavy: 4, a_phase_breaks_its_rules: 2, the_format_is_another: 1, links_change_their_order: 1,
}


def changed_network(random, net):
    """A network with one change more. A change that finds no place, or no longer the shape that it knows, is tried anew."""
    for _ in range(6):
        change = random.choices(list(NETWORK_CHANGES), list(NETWORK_CHANGES.values()))[0]
        changed = copy.deepcopy(net)
        try:
            if change(random, changed):
                return changed
        except (AttributeError, IndexError, KeyError, TypeError, ValueError):
            pass
    return net


# Changes of the bytes of a network.

def damaged_network(random, data):
    kind = random.choice(['cut', 'byte', 'utf8', 'twice', 'header', 'bracket', 'empty', 'long', 'longest', 'zero'])
    lines = data.split(b'\n')
    if kind == 'cut':
        return data[:random.randrange(len(data))]
    if kind == 'byte':
        place = random.randrange(len(data))
        return data[:place] + random.choice([b'"', b'\x00', b'=', b']', b'}', b'#']) + data[place + 1:]
    if kind == 'utf8':
        place = random.randrange(len(data))
        return data[:place] + random.choice([b'\xff', b'\xc3', b'\xed\xa0\x80', b'\xc0\xaf']) + data[place:]
    if kind == 'twice':
        return b'format = 1\n' + data if random.random() < 0.5 else data + b'steps = 1\nsteps = 2\n'
    if kind == 'header':
        return data + random.choice([b'[link]\n', b'[[link]\n', b'[[steps]]\n', b'[format]\n', b'[more]\n', b'[[link]]\n', b'[[signal]]\n'])
    if kind == 'bracket':
        return data + random.choice([b'x = [\n', b'x = { a = 1\n', b'= 1\n', b'x = 01\n', b'x = 1__0\n', b'x = tru\n', b'x\n'])
    if kind == 'empty':
        return random.choice([b'', b'\n', b'# nothing\n', b'steps = 1\n'])
    if kind == 'long':
        return data + b'#' + b' ' * (judge.LONGEST - len(data))
    if kind == 'longest':
        return data + b'#' + b' ' * (judge.LONGEST - len(data) - 1)
    return data.replace(random.choice([b'1', b'2', b'0']), random.choice([b'0', b'9', b'-1']), 1)


# Changes of a plan: of its lines, or of its bytes.

def run_places(lines):
    return [i for i, line in enumerate(lines) if i and line != 'end' and not line.startswith('signal ')]


def signal_places(lines):
    return [i for i, line in enumerate(lines) if line.startswith('signal ')]


def a_green_beside(random, net, lines, i):
    """A number beside a bound of the run on line i: its minimum, its maximum, or what is left of the horizon."""
    begin = max(j for j in signal_places(lines) if j < i)
    phases = {phase['name']: phase for signal in net['signal'] if signal['name'] == lines[begin].split(' ')[1] for phase in signal['phase']}
    before = [line.split(' ') for line in lines[begin + 1:i]]
    rest = net['steps'] - sum(int(green) + phases[name].get('clear', 0) for name, green in before)
    phase = phases[lines[i].split(' ')[0]]
    return random.choice([0, 0, phase['min'] - 1, phase['max'], phase['max'] + 1, phase['max'] + 1, rest, rest + 1, rest + 1, rest - 1,
                          61, 9999])


PLAN_CHANGES = {
    'green': 4, 'phase': 2, 'first': 1, 'drop': 1, 'last': 2, 'again': 1, 'more': 1, 'block': 1, 'signal': 2, 'swap': 1, 'missing': 1,
    'empty_block': 1, 'line': 1, 'number': 2, 'word': 1, 'header': 1, 'end': 1, 'after': 2, 'bytes': 2, 'long': 1,
}


def changed_plan(random, net, lines):
    """A plan with one change, as bytes."""
    lines = list(lines)
    runs, signals = run_places(lines), signal_places(lines)
    kind = random.choices(list(PLAN_CHANGES), list(PLAN_CHANGES.values()))[0]
    if kind in ('green', 'phase', 'drop', 'again', 'number') and runs:
        i = random.choice(runs)
        name, green = lines[i].split(' ')
        if kind == 'green':
            lines[i] = '%s %d' % (name, max(0, a_green_beside(random, net, lines, i)))
        elif kind == 'phase':
            names = [phase['name'] for signal in net['signal'] for phase in signal['phase']]
            lines[i] = '%s %s' % (random.choice(names + ['none', 'signal', 'signal', 'end']), green)
        elif kind == 'drop':
            del lines[i]
        elif kind == 'again':
            lines.insert(i, lines[i])
        else:
            form = random.choice(['%s +%s', '%s -%s', '%s  %s', ' %s %s', '%s %s ', '%s\t%s', '%s %s\r', '%s%s', '%s %s.0', '%s %s 1',
                                  '_%s %s', '1%s %s', '%sX %s', '%sabcdefghijklmnopqrstuvwxy %s', '%s: %s', '\n%s %s', '%s \n%s'])
            lines[i] = random.choice([form, '%s 0%s', '%s 1000%s']) % (name, green)
    elif kind == 'first' and signals:
        i = random.choice(signals) + 1
        lines[i:i] = [random.choice(lines[i:-1])] if lines[i:-1] else []
    elif kind == 'last' and runs:
        ends = [i for i in runs if i + 1 not in runs]
        del lines[random.choice(ends)]
    elif kind == 'more' and runs:
        ends = [i for i in runs if i + 1 not in runs]
        lines.insert(random.choice(ends) + 1, random.choice([lines[random.choice(runs)], 'none 1', lines[runs[0]].split(' ')[0] + ' 0']))
    elif kind == 'block' and signals:
        lines.insert(random.choice(signals), random.choice([lines[signals[0]], 'signal none']))
    elif kind == 'signal' and signals:
        i = random.choice(signals)
        lines[i] = random.choice(['signal none', 'signal', 'signal ', 'signal A', 'Signal x', lines[i] + ' ', lines[i].replace(' ', '  '),
                                  random.choice([lines[j] for j in signals]), lines[i] + '_x', 'signal 1', 'signal 0', 'signal 12345'])
    elif kind == 'swap' and len(lines) > 3:
        i = random.randrange(1, len(lines) - 2)
        lines[i], lines[i + 1] = lines[i + 1], lines[i]
    elif kind == 'missing' and signals:
        lines = lines[:random.choice(signals)] + ['end']
    elif kind == 'empty_block' and signals:
        i = random.choice(signals)
        while lines[i + 1] != 'end' and not lines[i + 1].startswith('signal '):
            del lines[i + 1]
    elif kind == 'line':
        line = random.choice(['', ' ', '# why', 'end', 'a 1', 'signal a', 'ctm-plan 1', 'end ', 'a', 'a 1 1'])
        lines.insert(random.randint(0, len(lines)), line)
    elif kind == 'word':
        lines[-1] = random.choice(['End', 'end ', 'fin', ' end', 'end\r', ''])
    elif kind == 'header':
        lines[0] = random.choice(['ctm-plan 2', 'ctm-plan  1', 'ctm-plan 1 ', 'CTM-PLAN 1', '', 'ctm-plan 01', 'ctm-plan 1\r'])
        lines = lines if random.random() < 0.8 else lines[1:]
    elif kind == 'end':
        lines.pop()
    data = '\n'.join(lines).encode() + b'\n'
    if kind == 'after':
        return data + random.choice([b'\n', b' ', b'end\n', b'\x00', b'signal x\n', b'x', b'\xff'])
    if kind == 'bytes':
        place = random.randrange(len(data))
        return random.choice([data[:place], data[:-1], data[:-1], b'', data[:place] + bytes([random.randrange(256)]) + data[place + 1:],
                              data[:place] + random.choice([b'\xff', b'\x00', b'\n', b' ']) + data[place:], data.replace(b'\n', b'\r\n'),
                              b'\xef\xbb\xbf' + data])
    if kind == 'long':
        return data + b'\n' * (judge.LONGEST + random.choice([0, 1]) - len(data))
    return data


def plan_changed_again(random, net, data):
    """One change more, where the plan still has a shape in which places are found."""
    try:
        return changed_plan(random, net, data.decode().split('\n')[:-1])
    except (IndexError, KeyError, ValueError):
        return data


# Cases.

def case_of(seed, number):
    """The bytes of a network, and of a plan or None."""
    rng = random.Random('%s/%d' % (seed, number))
    net = large_network(rng) if number % LARGE_EVERY == LARGE_EVERY - 1 else random_network(rng)
    lines = random_plan(rng, net)
    plan = '\n'.join(lines).encode() + b'\n'
    kind = rng.random()
    if number % LARGE_EVERY == LARGE_EVERY - 1:
        return spelled_document(rng, net), plan
    if kind < 0.55:
        for _ in range(rng.choice([1, 1, 1, 2, 3])):
            net = changed_network(rng, net)
    elif kind < 0.85 and (net.get('signal') or kind < 0.57):
        plan = changed_plan(rng, net, lines)
        if len(plan) < 10_000 and rng.random() < 0.25:
            plan = plan_changed_again(rng, net, plan)
    data = spelled_document(rng, net)
    if kind > 0.94:
        data = damaged_network(rng, data)
    if rng.random() < (0.03 if net.get('signal') else 0.4):
        plan = None
    return data, plan


class Run(typing.NamedTuple):
    """A run of the program, and what has to come of it."""
    words: list
    status: int
    printed: str
    made: dict  # what it writes: the name of a file, and its text


def expected(network, plan):
    """The runs, and the words for the tally."""
    refused, told = judge.judge(network, plan), NO_SIGNALS if plan is None else plan
    replays = [['replay', 'net.toml'] + ['net.plan'] * (plan is not None)]
    if refused is not None:
        status, line = refused
        words = [word_of(line)]
        runs = [Run(replays[0], status, line + '\n', {}), Run(['trace', 'net.toml', 'net.plan', 'table.csv'], status, line + '\n', {})]
    else:
        net, text = judge.judge_network(network), None if plan is None else plan.decode()
        kind = 'replay of turns' if any('turns' in link for link in net['link']) else 'replay'
        words = [kind + (' and a signal' if net.get('signal') else '')]
        printed = 'delay %d\nleft %d\n' % replay.replay(net, text)
        table = replay.trace(judge.judge_network(network), told.decode())
        runs = [Run(replays[0], 0, printed, {}), Run(['trace', 'net.toml', 'net.plan', 'table.csv'], 0, printed, {'table.csv': table})]
    for command, answer, names in [('program', compile.answer_of_program(network), ['net.toml']),
                                   ('encode', compile.answer_of_encode(network, told), ['net.toml', 'net.plan'])]:
        status, printed, text = answer
        made = {} if text is None else {command + '.txt': text}
        runs.append(Run([command, *names, command + '.txt'], status, printed, made))
        if status in (0, 5):
            words.append('%s %s' % (command, 'too large' if status else 'made'))
        if command == 'program':
            runs.append(Run(['point', 'net.toml', 'net.plan'], status or 1, printed if status else 'rejected\nwhy form\nat 1\n', {}))
    return runs, words


def word_of(line):
    """A printed line without the numbers of its places: what was refused, and by which key."""
    words = line.split(' ')
    if words[1] in ('key', 'range'):
        return ' '.join(words[:3] + words[-1:])
    return ' '.join(word for word in words if not word.isdigit())


def wanted_words():
    """Each answer that a long run has to hit."""
    words = ['replay', 'replay and a signal', 'replay of turns', 'replay of turns and a signal']
    words += ['program made', 'program too large', 'encode made', 'encode too large']
    words += ['point of a plan', 'point form', 'point length', 'point column', 'point row']
    words += ['network long', 'network toml', 'network format']
    no_range = {('top', 'format'), ('link', 'to'), ('link', 'signal'), ('turn', 'link'), ('signal', 'start')}
    for kind, keys in judge.KEYS.items():
        words.append('network key %s 0' % kind)
        for number, (key, _, _, _) in enumerate(keys, 1):
            if key != 'format':
                words.append('network key %s %d' % (kind, number))
            if (kind, key) not in no_range:
                words.append('network range %s %d' % (kind, number))
    words += ['network name link', 'network name signal', 'network name phase', 'network unknownlink', 'network unknownsignal',
              'network unknownphase green', 'network unknownphase start', 'network unknownphase next', 'network outboth', 'network itself',
              'network twiceturn', 'network fed', 'network openmerge', 'network initial', 'network cells', 'network demand range',
              'network demand heavy', 'network phase', 'plan long', 'plan form', 'plan signal', 'plan missing']
    return words + ['plan run %s' % fault for fault in ('start', 'order', 'green', 'short', 'surplus')]


def faults_of(program, folder, network, plan):
    """What the commands did in the case's folder otherwise than they have to, and the words for the tally."""
    runs, words = expected(network, plan)
    files = {'net.toml': network, 'net.plan': NO_SIGNALS if plan is None else plan}
    folder.mkdir()
    for name, data in files.items():
        (folder / name).write_bytes(data)
    faults = []
    for run in runs:
        files |= {name: text.encode() for name, text in run.made.items()}
        done = subprocess.run([program] + run.words, cwd=folder, stdout=subprocess.PIPE, stderr=subprocess.PIPE)
        behind = {file.name: file.read_bytes() for file in folder.iterdir()}
        for what, got, wanted in [('ended with', done.returncode, run.status), ('printed', done.stdout, run.printed.encode()),
                                  ('wrote to standard error', done.stderr, b'')]:
            if got != wanted:
                faults.append('%s %s %r, not %r' % (run.words[0], what, got, wanted))
        for name in sorted(set(behind) | set(files)):
            if behind.get(name) != files.get(name):
                faults.append('%s did not leave %s as it has to be' % (run.words[0], name))
    if 'encode.txt' in files and not faults:
        compiled = compile.read_program((folder / 'program.txt').read_text())
        values = compile.read_point((folder / 'encode.txt').read_text())
        faults += point_faults(compiled, values, network, files['net.plan'])
        told, named = decoding_faults(program, folder, compiled, values, network, files['net.plan'])
        faults, words = faults + told, words + named
    return faults, words


# Points whose values are changed.

def changed_values(random, compiler, program, values):
    """Lists of values beside the point: for each kind of column one whose value is another, mostly within its bounds, and lists with
    a value too few and one too many."""
    kinds = collections.defaultdict(list)
    for key, number in compiler.keys.items():
        kinds[key[0]].append(number)
    for kind in sorted(kinds):
        free = [k for k in kinds[kind] if program.columns[k].low < program.columns[k].high]
        k = random.choice(free or kinds[kind])
        low, high = program.columns[k].low, program.columns[k].high
        beside = [value for value in (values[k] - 1, values[k] + 1, low, high) if low <= value <= high and value != values[k]]
        value = random.choice(beside) if beside and random.random() < 0.8 else random.choice([low - 1, high + 1, -10 ** 15 + 1])
        yield kind, values[:k] + [value] + values[k + 1:]
    yield 'length', values[:-1]
    yield 'length', values + [random.choice([0, 1])]


def damaged_point(random, text):
    """The bytes of a point whose text is damaged at a line."""
    lines = text.split('\n')[:-1]
    kind = random.choice(['value', 'value', 'head', 'end', 'cut', 'behind', 'line'])
    place = random.randrange(1, len(lines) - 1)
    if kind == 'value':
        lines[place] = random.choice(['+%s', '0%s', '-0%s', ' %s', '%s ', '%s.0', '', '1' + '0' * 15, '-', 'x', '\u0663', '%s\r'])
        lines[place] = lines[place].replace('%s', text.split('\n')[place])
    elif kind == 'head':
        lines[0] = random.choice(['ctm-point 2', 'ctm-point  1', 'ctm-plan 1', '', 'ctm-point 1 '])
    elif kind == 'end':
        lines[-1] = random.choice(['end ', 'End', '', '0'])
    elif kind == 'line':
        lines.insert(place, random.choice(['', 'end', '# why', 'ctm-point 1']))
    data = '\n'.join(lines).encode() + b'\n'
    if kind == 'cut':
        return data[:random.randrange(len(data))]
    return data + random.choice([b'\n', b'x', b'end\n', b'0\n', b'\x00']) if kind == 'behind' else data


def decoding_faults(program, folder, compiled, values, network, plan):
    """What `point` says otherwise than it has to, of the point and of files beside it, and the words for the tally."""
    rng = random.Random(network + plan)
    net = judge.judge_network(network)
    compiler = compile.compiler_of(net)
    text = (folder / 'encode.txt').read_text()
    tried = [('whole', text.encode())]
    tried += [(kind, compile.point_text(changed).encode()) for kind, changed in changed_values(rng, compiler, compiled, values)]
    tried += [('text', damaged_point(rng, text))]
    if len(values) > 20_000:  # a large one is tried whole, and with one change
        tried = [tried[0], rng.choice(tried[1:])]
    faults, words = [], []
    for kind, data in tried:
        (folder / 'changed.txt').write_bytes(data)
        status, printed = compile.told_of_point(net, compiler, compiled, data)
        if kind == 'whole' and printed.split('\n', 2)[2:] != [plan.decode()]:
            faults.append('the point of a plan shows another one by tools/compile.py')
        done = subprocess.run([program, 'point', 'net.toml', 'changed.txt'], cwd=folder, stdout=subprocess.PIPE, stderr=subprocess.PIPE)
        if (done.returncode, done.stdout, done.stderr) != (status, printed.encode(), b''):
            faults.append('point with another %s ended with %d and printed %r, not %r' % (kind, done.returncode, done.stdout, printed))
        words.append('point %s' % (printed.split('\n')[1][4:] if status else 'of a plan'))
    return faults, words


def point_faults(program, values, network, plan):
    """What is wrong with the point that was written as one of the program that was written."""
    fault = compile.fault_of(program, values)
    objective = compile.objective_of(program, values)
    delay, _ = replay.replay(judge.judge_network(network), plan.decode())
    faults = [] if fault is None else ['the point is none: ' + fault]
    return faults + (['its objective is %d, and the delay %d' % (objective, delay)] if objective != delay else [])


def main():
    if len(sys.argv) not in (3, 4) or not sys.argv[2].isdecimal():
        sys.exit('usage: tools/fuzz.py SEED COUNT [PROGRAM]')
    seed, count = sys.argv[1], int(sys.argv[2])
    program = pathlib.Path(sys.argv[3]).resolve() if len(sys.argv) > 3 else PROGRAM
    if not program.exists():
        sys.exit('fuzz: the program is not built; run ./planner first')
    folder = pathlib.Path(tempfile.mkdtemp(prefix='fuzz-'))
    tally, failed = collections.Counter(), 0
    for number in range(count):
        network, plan = case_of(seed, number)
        faults, words = faults_of(program, folder / str(number), network, plan)
        tally.update(words)
        if faults:
            failed += 1
            print('case %d, in %s: %s' % (number, folder / str(number), '; '.join(faults)))
        else:
            shutil.rmtree(folder / str(number))
    for word in sorted(tally):
        print('%6d  %s' % (tally[word], word))
    missed = [word for word in wanted_words() if not tally[word]] if count >= 2000 else []
    for word in missed:
        print(' never  %s' % word)
    if not failed:
        shutil.rmtree(folder)
    print('%d passed, %d failed' % (count - failed, failed) + (', %d answers never came' % len(missed) if missed else ''))
    sys.exit(1 if failed or missed else 0)


if __name__ == '__main__':
    main()
