"""What went through the links of a network in a run: units in and out, delay, and the longest wait, from the rows of a trace."""
import collections
import typing

import carried
import judge


class Flow(typing.NamedTuple):
    """What a run did on a link. Units, steps, and units times steps."""
    entered: int  # those that were there at the start or arrived, from the demand and from other links
    left_it: int  # those that went on or out of the network
    delay: int
    waiting: int  # the most that stayed in its cells in one step
    when: int  # the first step of these


def fits(net, rows):
    """Whether rows have the cells of a network, step by step, and begin with what it begins with."""
    cells = [(link['name'], mark) for link in net['link']
             for mark in ['q'] * bool(judge.pieces_of(link)) + [str(place) for place in range(link.get('cells', 1))]]
    initial = [units for link in net['link']
               for units in [0] * bool(judge.pieces_of(link)) + link.get('initial', [0] * link.get('cells', 1))]
    return (len(rows) == net['steps'] * len(cells) and [row[3] for row in rows[:len(cells)]] == initial
            and all(row[:3] == (number // len(cells), *cells[number % len(cells)]) for number, row in enumerate(rows)))


def flows_of(net, rows):
    """For each link by its name its `Flow`; the rows are of a trace of the network, with places as texts."""
    delays, waiting, out = collections.Counter(), collections.defaultdict(collections.Counter), collections.Counter()
    for step, name, _, _, _, delay in rows:
        delays[name] += delay
        waiting[name][step] += delay
    last = {link['name']: str(link.get('cells', 1) - 1) for link in net['link']}
    for _, name, place, _, sent, _ in rows:
        out[name] += sent if place == last[name] else 0
    entered = collections.Counter()
    for link in net['link']:
        entered[link['name']] += sum(link.get('initial', [])) + sum((until - first) * rate for first, until, rate in judge.pieces_of(link))
        shares = [(link['to'], 1)] if 'to' in link else [(turn['link'], turn['parcel']) for turn in link.get('turns', [])]
        for name, share in shares:
            entered[name] += out[link['name']] * share // carried.parcel_of(link)
    return {name: Flow(entered[name], out[name], delays[name], *most(waiting[name])) for name in last}


def most(counts):
    """The greatest count, and the first step that has it."""
    step = max(counts, key=lambda step: (counts[step], -step))
    return counts[step], step


def arrived(net):
    """The units that a network begins with or that arrive in it."""
    return sum(sum(link.get('initial', [])) + sum((until - first) * rate for first, until, rate in judge.pieces_of(link))
               for link in net['link'])
