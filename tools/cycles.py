"""Reads a file of cycles, from which tools/plan-from-cycles makes a plan: the tables, keys and types that docs/desk.md lists.

Here the seconds of the file become steps. What the network allows of them is judged by the tool.
"""
import math
import tomllib
import typing

import judge
import streets
from named_network import counted, meant, shown
from streets import Refused, title

real = judge.Asked(lambda value: type(value) in (int, float) and math.isfinite(value), 'a number')
lengths = judge.Asked(streets.is_table_of_shares, 'a table of seconds by the names of phases')
KEYS = {
    'top': {'step': (False, streets.above_zero), 'cycle': (False, streets.above_zero), 'signal': (True, streets.table)},
    'signal': {'cycle': (False, streets.above_zero), 'offset': (False, real), 'greens': (False, lengths), 'splits': (False, streets.percents)},
}
NEAR = 1e-6  # steps by which a number of seconds may be off whole steps


class Cycle(typing.NamedTuple):
    """The cycle of a signal, in steps."""
    greens: dict  # the green of each phase, in their order
    offset: int  # steps from the beginning of the horizon to that of the first green, as the file says it


def read(data, network, seconds):
    """The cycles of a network's signals, by their names; `seconds` of a step are what the network's comment says, or None."""
    top = tomllib.loads(data.decode())
    judge_cycles(top, network)
    step = top.get('step', seconds)
    if seconds not in (None, step):
        raise Refused(('step',), '`step` is %g, and by its comment a step of the network has %g seconds' % (step, seconds))
    if step is None:
        raise Refused((), '`step` is missing, the seconds of a step: the network has no comment that says it')
    return {signal['name']: cycle_of(top, signal, step) for signal in network.net.get('signal', [])}


def judge_cycles(top, network):
    for key, kind in [('link', 'a network'), ('street', 'a file of streets')]:
        if key in top:
            raise Refused((), 'this is %s, and a file of cycles is wanted here' % kind)
    streets.judge_keys(KEYS['top'], (), top)
    names = [signal['name'] for signal in network.net.get('signal', [])]
    for name, signal in top['signal'].items():
        path = ('signal', name)
        if name not in names:
            raise Refused(path, 'the network has no signal `%s`%s' % (name, meant(name, names)))
        if type(signal) is not dict:
            raise Refused(path, '%s is %s; wanted is a table%s' % (
                title(path), shown(signal), ', whose header has single brackets' if type(signal) is list else ''))
        streets.judge_keys(KEYS['signal'], path, signal)
    missing = [name for name in names if name not in top['signal']]
    if missing:
        raise Refused((), '[signal.%s] is missing: the network has this signal' % missing[0])


def whole_steps(path, what, seconds, step):
    """Seconds as steps, which they have to be."""
    steps = round(seconds / step)
    if abs(steps - seconds / step) > NEAR:
        below = math.floor(seconds / step)
        raise Refused(path, '%s is %g seconds, and a step has %g: %g or %g seconds fit' % (
            what, seconds, step, below * step, (below + 1) * step))
    return steps


def cycle_of(top, table, step):
    """The cycle of a signal of the network, whose table in the file is there."""
    path, values = ('signal', table['name']), top['signal'][table['name']]
    phases = {phase['name']: phase for phase in table['phase']}
    if ('greens' in values) == ('splits' in values):
        raise Refused(path, '%s has %s; one of them is wanted' % (
            title(path), '`greens` and `splits`' if 'greens' in values else 'neither `greens` nor `splits`'))
    key = 'greens' if 'greens' in values else 'splits'
    for name in values[key]:
        if name not in phases:
            raise Refused(path + (key, name), 'signal `%s` has no phase `%s`%s' % (table['name'], name, meant(name, phases)))
    seconds = values.get('cycle', top.get('cycle'))
    at = path + ('cycle',) if 'cycle' in values else ('cycle',)
    cycle = None if seconds is None else whole_steps(at, 'the cycle', seconds, step)
    if key == 'splits':
        greens = greens_of_splits(path, values['splits'], cycle, phases)
    else:
        greens = {name: whole_steps(path + (key, name), 'the green of `%s` at signal `%s`' % (name, table['name']), green, step)
                  for name, green in values['greens'].items()}
    length = sum(green + phases[name].get('clear', 0) for name, green in greens.items())
    if cycle is not None and cycle != length:
        raise Refused(path + (key,), 'the greens of signal `%s` and their clearances come to %g seconds, and the cycle has %g' % (
            table['name'], length * step, seconds))
    return Cycle(greens, whole_steps(path + ('offset',), 'the offset of signal `%s`' % table['name'], values.get('offset', 0), step))


def greens_of_splits(path, splits, cycle, phases):
    """The greens of splits, which are shares of a cycle in percent, each of a green and its clearance: where they end is rounded."""
    if cycle is None:
        raise Refused(path, '%s has `splits`, and `cycle` is missing, the seconds that they are shares of' % title(path))
    if abs(sum(splits.values()) - 100) > NEAR:
        raise Refused(path + ('splits',), 'the splits of signal `%s` come to %g percent, and have to come to 100' % (
            path[-1], sum(splits.values())))
    greens, share, begun = {}, 0, 0
    for name, split in splits.items():
        share += split
        ends = round(cycle * share / 100)
        greens[name] = ends - begun - phases[name].get('clear', 0)
        begun = ends
        if greens[name] < 1:
            raise Refused(path + ('splits', name), 'the split of `%s` at signal `%s` has no green beside its clearance of %s' % (
                name, path[-1], counted(phases[name].get('clear', 0), 'step')))
    return greens
