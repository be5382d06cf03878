"""Reads a file of streets in engineering units: the tables, keys and types that docs/desk.md lists, and nothing of what they come to.

A street of the answer has every key that a street may leave out, taken from the top of the file where it stands there.
"""
import tomllib
import typing

import judge
from named_network import meant, shown


class Refused(Exception):
    """What cannot be carried: the path of its table and key in the file, and a sentence."""

    def __init__(self, path, text):
        super().__init__(text)
        self.path = path
        self.text = text


def is_number(value):
    return type(value) in (int, float) and 0 <= value < float('inf')


def is_table_of_shares(value):
    return type(value) is dict and all(is_number(share) and share > 0 for share in value.values())


number = judge.Asked(is_number, 'a number that is not below 0')
above_zero = judge.Asked(lambda value: is_number(value) and value > 0, 'a number above 0')
lanes = judge.Asked(lambda value: type(value) is int and value > 0, 'a whole number above 0')
text = judge.is_text
texts = judge.array_of(judge.is_text)
table = judge.is_table
percents = judge.Asked(is_table_of_shares, 'a table of percents by the names of streets')
counts = judge.Asked(is_table_of_shares, 'a table of vehicles an hour by the names of streets')
greens = judge.Asked(lambda value: type(value) is list and len(value) == 2 and all(map(is_number, value)) and 0 < value[0] <= value[1],
                     'two numbers of seconds, the least and the greatest green')

# The keys of each table: whether they have to stand, and what their values are.

ROAD = {'speed': above_zero, 'saturation': above_zero, 'jam': above_zero, 'wave': above_zero}
KEYS = {
    'top': {'step': (True, above_zero), 'horizon': (True, above_zero), 'vehicle': (False, lanes), 'street': (True, table),
            'signal': (False, table), **{key: (False, asked) for key, asked in ROAD.items()}},
    'street': {'length': (True, above_zero), 'lanes': (False, lanes), 'to': (False, text), 'turns': (False, percents),
               'counts': (False, counts), 'signal': (False, text), 'greens': (False, texts), 'flow': (False, number),
               'flows': (False, judge.array_of(table)), **{key: (False, asked) for key, asked in ROAD.items()}},
    'flow': {'from': (True, number), 'until': (True, number), 'flow': (True, number)},
    'signal': {'start': (False, text), 'phase': (True, table)},
    'phase': {'green': (True, greens), 'clear': (False, number), 'next': (True, texts)},
}
DEFAULTS = {'vehicle': 100, 'lanes': 1, 'clear': 0}


class Streets(typing.NamedTuple):
    """A file of streets, whose keys all are there and of their types."""
    head: list  # the lines of comment at its head
    top: dict


def title(path):
    """A table of the file as its header names it."""
    return '[%s]' % '.'.join(map(str, path)) if path else 'the top of the file'


def judge_keys(keys, path, values):
    """Refuses the first key of a table that is unknown, missing or of another type; `keys` are those that it may have."""
    for key, value in values.items():
        if key not in keys:
            raise Refused(path + (key,), '%s has no key `%s`%s' % (title(path), key, meant(key, keys)))
        asked = keys[key][1]
        if not asked(value):
            owner = ' of ' + title(path) if path else ''
            raise Refused(path + (key,), '`%s`%s is %s; wanted is %s' % (key, owner, shown(value), asked.words))
    missing = [key for key, (needed, _) in keys.items() if needed and key not in values]
    if missing:
        raise Refused(path, '`%s` is missing in %s' % (missing[0], title(path)))


def judge_names(path, tables):
    for name, values in tables.items():
        if not judge.is_name(name):
            raise Refused(path + (name,), '`%s` is no name; wanted is a text %s' % (name, judge.is_name.words))
        if type(values) is not dict:
            raise Refused(path + (name,), '%s is %s; wanted is a table%s' % (
                title(path + (name,)), shown(values), ', whose header has single brackets' if type(values) is list else ''))


def judge_streets(top):
    if 'street' not in top and ('link' in top or 'format' in top):
        raise Refused((), 'this is a network, and a file of streets is wanted here')
    judge_keys(KEYS['top'], (), top)
    judge_names(('street',), top['street'])
    for name, street in top['street'].items():
        path = ('street', name)
        judge_keys(KEYS['street'], path, street)
        if 'turns' in street and 'counts' in street:
            raise Refused(path + ('counts',), '%s has `turns` and `counts`; one of them is wanted' % title(path))
        for place, piece in enumerate(street.get('flows', [])):
            judge_keys(KEYS['flow'], path + ('flows', place), piece)
        for key in ROAD:
            if key not in street and key not in top:
                raise Refused(path, '%s has no `%s`, and none stands at the top of the file' % (title(path), key))
    judge_names(('signal',), top.get('signal', {}))
    for name, signal in top.get('signal', {}).items():
        path = ('signal', name)
        judge_keys(KEYS['signal'], path, signal)
        judge_names(path + ('phase',), signal['phase'])
        for phase, values in signal['phase'].items():
            judge_keys(KEYS['phase'], path + ('phase', phase), values)


def filled(top):
    """The same with the values of keys that were left out."""
    common = {key: top[key] for key in ROAD if key in top}
    streets = {name: {'lanes': DEFAULTS['lanes'], **common, **with_turns(street)} for name, street in top['street'].items()}
    signals = {name: {**signal, 'phase': {phase: {'clear': DEFAULTS['clear'], **values} for phase, values in signal['phase'].items()}}
               for name, signal in top.get('signal', {}).items()}
    return {'vehicle': DEFAULTS['vehicle'], **top, 'street': streets, 'signal': signals}


def with_turns(street):
    """A street with `turns` in percent in place of `counts`."""
    if 'counts' not in street:
        return street
    whole = sum(street['counts'].values())
    return {**street, 'turns': {target: 100 * count / whole for target, count in street['counts'].items()}}


def read(data):
    """The streets of a file's bytes."""
    source = data.decode()
    top = tomllib.loads(source)
    judge_streets(top)
    head = []
    for line in source.splitlines():
        if not line.startswith('#'):
            break
        head.append(line)
    return Streets(head, filled(top))
