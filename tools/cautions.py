"""What an accepted network has that may not be meant: capacity that is lost, ways that never open, roads that end too early.

None of it is refused, and a plan can be right with it. `remarks_on` gives a remark for each, in the order of the file.
"""
import heapq

import carried
from named_network import Remark, listed


def remarks_on(network):
    """The remarks on an accepted network (`NamedNetwork`)."""
    places = range(len(network.net['link']))
    remarks = [remark for place in places for judge_link in [parcel_remark, wave_remark, closed_remark, end_remark]
               for remark in judge_link(network, place)]
    remarks += [remark for place in range(len(network.net.get('signal', []))) for remark in idle_remarks(network, place)]
    return sorted(remarks, key=lambda remark: remark.line or 0)


def parcel_remark(network, place):
    link, name = network.value('link', place), network.name('link', place)
    branches, parcel, parcels = carried.branches_of(network.net, link), carried.parcel_of(link), carried.most_parcels(network.net, link)
    if not branches or parcels * parcel == link['cap']:
        return
    line = network.line('link', place, 'turns')
    narrow = [(target, share) for target, share in branches if target['cap'] // share == parcels]
    if link['cap'] < parcel:
        yield Remark(line, 'a parcel of %s has %d units, and `cap` is %d: nothing ever leaves it' % (name, parcel, link['cap']))
    elif parcels == 0:
        target, share = narrow[0]
        yield Remark(line, 'the branch to `%s` gets %d units of a parcel, and its `cap` is %d: nothing ever leaves %s' % (
            target['name'], share, target['cap'], name))
    elif link['cap'] // parcel == parcels:
        yield Remark(line, 'parcels of %d units use %d of the `cap` of %d of %s%s' % (
            parcel, parcels * parcel, link['cap'], name, lowest_terms_told(branches)))
    else:
        yield Remark(line, '%s lets %d of the `cap` of %d of %s leave in a step, in parcels of %d' % (
            'the `cap` of `%s`' % narrow[0][0]['name'], parcels * parcel, link['cap'], name, parcel))


def lowest_terms_told(branches):
    """The shares in lowest terms, where they are not."""
    shares = [share for _, share in branches]
    lowest = carried.lowest_terms(shares)
    return '' if lowest == shares else '; in lowest terms its shares are %s' % listed(map(str, lowest))


def wave_remark(network, place):
    link = network.value('link', place)
    room = carried.room_at_capacity(link)
    if room < link['cap']:
        key = 'wave' if 'wave' in link else 'store'
        yield Remark(network.line('link', place, key), 'a cell of %s that holds its `cap` of %d takes %d in a step, so the link never '
                     'carries its capacity' % (network.name('link', place), link['cap'], max(0, room)))


def begins_of(network, signal):
    """For each phase that a signal can come to the first step at which its green may begin."""
    table = network.value('signal', signal)
    phases = {phase['name']: phase for phase in table['phase']}
    begins, waiting = {}, [(0, table.get('start', table['phase'][0]['name']))]
    while waiting:
        step, name = heapq.heappop(waiting)
        if name not in begins and step < network.net['steps']:
            begins[name] = step
            ends = step + phases[name]['min'] + phases[name].get('clear', 0)
            for follower in phases[name]['next']:
                heapq.heappush(waiting, (ends, follower))
    return begins


def closed_remark(network, place):
    link = network.value('link', place)
    if 'signal' not in link:
        return
    names = [signal['name'] for signal in network.net['signal']]
    comes = begins_of(network, names.index(link['signal']))
    if not any(green in comes for green in link['greens']):
        yield Remark(network.line('link', place, 'greens'), 'no phase opens %s: signal `%s` does not come to %s within the horizon' % (
            network.name('link', place), link['signal'], listed('`%s`' % green for green in link['greens'])))


def end_remark(network, place):
    """A link that leads nowhere although it looks as if it should: other links of its signal lead on, or nothing leads into it."""
    links, link = network.net['link'], network.value('link', place)
    leads = [other for other in links if 'to' in other or other.get('turns')]
    if link in leads or not leads:
        return
    beside = [other for other in leads if 'signal' in link and other.get('signal') == link['signal']]
    name, line = network.name('link', place), network.line('link', place)
    if beside:
        yield Remark(line, '%s leads out of the network at signal `%s`, where `%s` leads on: it has neither `to` nor `turns`' % (
            name, link['signal'], beside[0]['name']))
    elif not any(link['name'] in [other.get('to')] + [turn['link'] for turn in other.get('turns', [])] for other in leads):
        yield Remark(line, '%s stands alone: it has neither `to` nor `turns`, and nothing leads into it' % name)


def idle_remarks(network, signal):
    """The phases of a signal that open no link."""
    table = network.value('signal', signal)
    opened = {green for link in network.net['link'] if link.get('signal') == table['name'] for green in link['greens']}
    for place, phase in enumerate(table['phase']):
        if phase['name'] not in opened:
            yield Remark(network.line('signal', signal, 'phase', place), 'no link is open in the green of %s' % (
                network.title('signal', signal, 'phase', place)))
