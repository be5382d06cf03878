#!/usr/bin/env python3
"""Replays a network file by the text of docs/traffic.md, apart from the program, and prints its two lines.

usage: tools/replay.py NET [PLAN] [--trace]   (Python 3.11, for tomllib)

With --trace it prints the table that the program's `trace` writes, in place of the two lines: a header, and one line for
each step and cell. What it computes is for accepted files; as a tool it refuses others with a sentence, as the tools of the desk do.
It serves every key of the model.
"""
import sys

import desk
from named_network import Remark


def cells_of(net):
    """The cells of a network: dictionaries, numbered from 0, and the numbers of each link's first road cell."""
    steps, links = net['steps'], net['link']
    first, number = {}, 0
    for link in links:
        pieces = [(p['from'], p['until'], p['rate']) for p in link.get('demand', [])]
        pieces += [(t, t + 1, rate) for t, rate in enumerate(link.get('rates', []))]
        link['pieces'] = pieces
        number += 1 if pieces else 0
        first[link['name']] = number
        number += link.get('cells', 1)
    cells = []
    for link in links:
        count, road = link.get('cells', 1), first[link['name']]
        wave = link.get('wave', [1, 1])
        if link['pieces']:
            demand = [sum(rate for start, until, rate in link['pieces'] if start <= t < until) for t in range(steps)]
            cells.append({'link': link['name'], 'place': 'q', 'cap': link['cap'], 'gate': None, 'out': [(road, 1)], 'units': 0, 'demand': demand})
        for place in range(count):
            last = place + 1 == count
            if not last:
                out = [(road + place + 1, 1)]
            elif 'to' in link:
                out = [(first[link['to']], 1)]
            else:
                out = [(first[turn['link']], turn['parcel']) for turn in link.get('turns', [])]
            gate = (link['signal'], set(link['greens'])) if last and 'signal' in link else None
            cells.append({'link': link['name'], 'place': place, 'cap': link['cap'], 'gate': gate, 'out': out,
                          'store': link['store'], 'wave': wave, 'units': link.get('initial', [0] * count)[place], 'demand': [0] * steps})
    return cells


def letters_of(net, text):
    """For each signal the phase that is green at each step, or None in its clearance."""
    words, phases = {}, {}
    for signal in net.get('signal', []):
        phases[signal['name']] = {phase['name']: phase for phase in signal['phase']}
    word = None
    for line in text.splitlines()[1:-1]:
        name, value = line.split(' ')
        if name == 'signal':
            signal = value
            word = words[signal] = []
        else:
            word += [name] * int(value) + [None] * phases[signal][name].get('clear', 0)
    return words


def flow_of(cells, cell, is_open):
    """The flow of the move out of a cell, in parcels at a diverge and else in units."""
    parcel = sum(share for _, share in cell['out']) or 1
    cap = min([cell['cap'] // parcel] + [cells[k]['cap'] // share for k, share in cell['out']])
    terms = [cap if is_open else 0, cell['units'] // parcel]
    for k, share in cell['out']:
        target = cells[k]
        p, q = target['wave']
        terms.append(p * (target['store'] - target['units']) // q // share)
    return min(terms)


def rows_of(net, plan):
    """The rows (step, link, cell, units, out, delay) of a replay, and the units that are left at the horizon."""
    cells = cells_of(net)
    words = letters_of(net, plan) if plan is not None else {}
    rows = []
    for t in range(net['steps']):
        flows = []
        for cell in cells:
            is_open = cell['gate'] is None or words[cell['gate'][0]][t] in cell['gate'][1]
            flows.append(flow_of(cells, cell, is_open))
        change = [cell['demand'][t] for cell in cells]
        for i, (cell, flow) in enumerate(zip(cells, flows)):
            sent = flow * (sum(share for _, share in cell['out']) or 1)
            rows.append((t, cell['link'], cell['place'], cell['units'], sent, cell['units'] - sent))
            change[i] -= sent
            for k, share in cell['out']:
                change[k] += share * flow
        for cell, more in zip(cells, change):
            cell['units'] += more
    return rows, sum(cell['units'] for cell in cells)


def replay(net, plan):
    """The delay, and the units that are left."""
    rows, left = rows_of(net, plan)
    return sum(row[-1] for row in rows), left


def trace(net, plan):
    """The table of a replay as text."""
    rows, _ = rows_of(net, plan)
    return 'step,link,cell,units,out,delay\n' + ''.join('%d,%s,%s,%d,%d,%d\n' % row for row in rows)


def main():
    is_trace = '--trace' in sys.argv
    sys.argv = [word for word in sys.argv if word != '--trace']
    name, *plans = desk.words('NET [PLAN] [--trace]', 1, 2)
    network = desk.network_of(name)
    net, plan = network.net, desk.plan_of(network, plans[0]) if plans else None
    if plan is None and net.get('signal'):
        desk.stop(name, Remark(None, 'the network has signals, so a plan has to be named behind it'))
    if is_trace:
        print(trace(net, plan), end='')
    else:
        print('delay %d\nleft %d' % replay(net, plan))


if __name__ == '__main__':
    main()
