"""What a link can carry: its parcels, the room of its cells, and the flow that it keeps up. docs/units.md has the formulas.

All of it is of networks that tools/judge.py accepts.
"""
import math

import replay

SETTLED, COUNTED = 60, 240  # steps that a replay takes to a steady flow at most, and steps over which the flow is counted


def links_by_name(net):
    return {link['name']: link for link in net['link']}


def branches_of(net, link):
    """The branches of a diverge: the link that each leads into, and its units of a parcel."""
    links = links_by_name(net)
    return [(links[turn['link']], turn['parcel']) for turn in link.get('turns', [])]


def parcel_of(link):
    """The units of a parcel; 1 where the link has no branches."""
    return sum(turn['parcel'] for turn in link.get('turns', [])) or 1


def lowest_terms(shares):
    divisor = math.gcd(*shares)
    return [share // divisor for share in shares]


def most_parcels(net, link):
    """The most parcels that leave a link in a step, by capacities alone."""
    return min([link['cap'] // parcel_of(link)] + [target['cap'] // share for target, share in branches_of(net, link)])


def room_at_capacity(link):
    """What a cell of a link can take while it holds as much as it sends in a step at most."""
    p, q = link.get('wave', [1, 1])
    return p * (link['store'] - link['cap']) // q


def sustained_flow(net, link):
    """The units a step that a link carries where more always come, its end is open and what lies behind it never fills, by a replay
    of the link alone; a number with a fraction where they leave by turns."""
    links = links_by_name(net)
    ends = [link['to']] if 'to' in link else [turn['link'] for turn in link.get('turns', [])]
    alone = {key: value for key, value in link.items() if key not in ('signal', 'greens', 'initial', 'demand')}
    steps = SETTLED + link.get('cells', 1) + COUNTED
    alone['rates'] = [link['cap']] * steps
    roads = [{'name': end, 'cap': links[end]['cap'], 'store': 2 * links[end]['cap']} for end in ends]
    rows, _ = replay.rows_of({'steps': steps, 'link': [alone, *roads]}, None)
    last = link.get('cells', 1) - 1
    out = [row[4] for row in rows if row[1] == link['name'] and row[2] == last]
    return sum(out[-COUNTED:]) / COUNTED
