"""What is wrong with a refused network, by name and by line of its file.

The program prints the first refusal by counted tables and keys (docs/network-file.md, "Refusals"). `remark_of` takes that line
and the bytes of the file, and says the same in a sentence. The rules themselves, with the ranges of keys, are those of tools/judge.py.
"""
import itertools
import re
import tomllib

import judge
from named_network import NamedNetwork, Remark, counted, listed, meant, other_kind, shown


LINES_OF_WORDS = ['a plan', 'a certificate', 'the table of a trace']  # kinds of files that are no TOML
SINGLE = re.compile(r'\s*\[\s*(link|signal|signal\.phase)\s*\]')
UNQUOTED = re.compile(r'\s*[a-z]+\s*=\s*\[?\s*(?!true\b|false\b|inf\b|nan\b)[a-z_]', re.I)  # a key and a word that is no value
OF_STREETS = ['step', 'horizon', 'vehicle', 'street', 'speed', 'saturation', 'jam', 'length', 'lanes', 'flow', 'flows', 'counts', 'green']
MAKERS = {'a file of streets': 'tools/network-from-streets makes a network of it',
          'a file of cycles': 'tools/plan-from-cycles makes a plan of it'}


def remark_of(line, data):
    """The remark on a printed line `network ..` and the bytes of the network file, or None where these do not fit together."""
    word, *places = line.split()[1:]
    if word in ('long', 'toml'):
        return {'long': remark_of_length, 'toml': remark_of_toml}[word](data)
    try:
        network = NamedNetwork(data)
        return REMARKS[word](network, *[int(place) if place.isdecimal() else place for place in places])
    except (UnicodeDecodeError, tomllib.TOMLDecodeError, RecursionError):
        return Remark(None, 'the file has a form of TOML that the reader of these sentences does not know, so no names can be told')
    except (LookupError, TypeError, ValueError):
        return None


def remark_of_length(data):
    return Remark(None, 'the file has more than 1,048,576 bytes, which is the most that a network file may have')


def place_of_byte(data, at):
    """The line of a byte, and its column in characters, both from 1."""
    before = data[:at].split(b'\n')
    return len(before), len(before[-1].decode(errors='replace')) + 1


def remark_of_toml(data, wanted='a network'):
    """Why bytes are no TOML, where a file of some kind is wanted."""
    kind = other_kind(data)
    if kind in LINES_OF_WORDS:
        return Remark(1, 'this is %s, and %s is wanted here' % (kind, wanted))
    try:
        tomllib.loads(data.decode())
    except UnicodeDecodeError as fault:
        line, column = place_of_byte(data, fault.start)
        return Remark(line, 'column %d: the byte 0x%02x is no UTF-8, as the text of a network has to be' % (column, data[fault.start]))
    except tomllib.TOMLDecodeError as fault:
        text = str(fault)
        found = re.fullmatch(r'(.*) \(at line (\d+), column (\d+)\)', text, re.S)
        if found:
            return remark_of_place(data.decode().split('\n'), int(found[2]), found[3], lowered(found[1]))
        last = len(data.rstrip().split(b'\n'))
        return Remark(last, 'no TOML: %s' % lowered(text.replace('(at end of document)', 'at the end of the file')))
    except RecursionError:
        return Remark(None, 'the document has too many nested tables or arrays')
    return Remark(None, 'the library that the program reads TOML by refuses the document; Python\'s accepts it')


def remark_of_place(lines, line, column, why):
    """Why a line is no TOML: what the reader of TOML says, or what is likely meant."""
    singles = [(number, found[1]) for number, text in enumerate(lines, 1) if (found := SINGLE.match(text))]
    if singles and singles[0][0] <= line:
        number, name = singles[0]
        return Remark(number, 'no TOML: `[%s]` stands in single brackets, and %s begins with double ones, `[[%s]]`' % (
            name, {'link': 'each link', 'signal': 'each signal', 'signal.phase': 'each phase'}[name], name))
    hint = '; a text stands between quotes' if line <= len(lines) and UNQUOTED.match(lines[line - 1]) else ''
    return Remark(line, 'column %s: no TOML: %s%s' % (column, why, hint))


def lowered(text):
    return text[:1].lower() + text[1:] if text[1:2].islower() else text


def remark_of_format(network):
    if 'format' in network.net:
        return Remark(network.line('format'), '`format` is %s, and has to be 1' % shown(network.net['format']))
    inner = [path for path in network.lines if path[-1:] == ('format',)]
    if inner:
        return Remark(network.line(*inner[0]), '`format` stands behind a header, and so in %s; it has to stand above all headers'
                      % network.title(*inner[0][:-1]))
    if not network.net:
        return Remark(None, 'the file is empty: it has to begin with `format = 1`')
    kind = other_kind(network.text.encode())
    if kind in MAKERS:
        return Remark(None, 'this is %s, and a network is wanted here; %s' % (kind, MAKERS[kind]))
    return Remark(None, 'the line `format = 1` is missing at the top')


def path_of(kind, place=None, inner=None):
    """The path of a table by the words of a refusal."""
    if kind == 'top':
        return ()
    if kind in ('link', 'signal'):
        return kind, place
    owner, array = {'turn': ('link', 'turns'), 'piece': ('link', 'demand'), 'phase': ('signal', 'phase')}[kind]
    return owner, place, array, inner


def remark_of_key(network, kind, *numbers):
    *places, number = numbers
    path = path_of(kind, *places)
    table, title = network.value(*path), network.title(*path)
    keys = judge.KEYS[kind]
    if number == 0:
        names = [key for key, _, _, _ in keys]
        unknown = [key for key in table if key not in names]
        hint = meant(unknown[0], names)
        if not hint and unknown[0] in OF_STREETS:
            hint = '; a file of streets has it, of which tools/network-from-streets makes a network'
        return Remark(network.line(*path, unknown[0]), '%s has no key `%s`%s' % (title, unknown[0], hint))
    key, needed, has_type, _ = keys[number - 1]
    if key in table:
        hint = '; each has a header in double brackets' if type(table[key]) is dict and key in ('link', 'signal', 'phase') else ''
        return Remark(network.line(*path, key), '`%s`%s is %s; wanted is %s%s' % (
            key, of(path, title), shown(table[key]), has_type.words, hint))
    if not path:
        return Remark(None, '`%s` is missing above all headers' % key)
    beside = '' if needed is True else ', and has `%s`: these two stand together' % needed
    place = network.line(*path) if needed is True else network.line(*path, needed)
    return Remark(place, '%s lacks `%s`%s' % (title, key, beside))


def of(path, title):
    """Whose key it is, where it is not one of the top table."""
    return ' of %s' % title if path else ''


def remark_of_range(network, kind, *numbers):
    *places, number = numbers
    path = path_of(kind, *places)
    key, _, has_type, in_range = judge.KEYS[kind][number - 1]
    value, title = network.value(*path, key), network.title(*path)
    count = ', which has %s' % counted(len(value), 'item') if type(value) is list and len(value) > 4 else ''
    found = 'is %s' % shown(value)
    if key in ('link', 'signal', 'phase', 'turns', 'demand') and type(value) is list:
        found, count = 'has %s' % counted(len(value), 'item'), ''
    return Remark(network.line(*path, key), '`%s`%s %s%s; wanted is %s %s' % (
        key, of(path, title), found, count, has_type.words, in_range.words))


def remark_of_name(network, kind, *places):
    path = path_of(kind, *places)
    name, siblings = network.value(*path)['name'], network.value(*path[:-1])
    first = next(place for place, table in enumerate(siblings) if table['name'] == name)
    owner = ' of %s' % network.name(*path[:2]) if kind == 'phase' else ''
    return Remark(network.line(*path, 'name'), 'there is a %s `%s`%s already, on line %d' % (
        kind, name, owner, network.line(*path[:-1], first, 'name')))


def names_of(network, kind):
    return [table['name'] for table in network.net.get(kind, [])]


def remark_of_unknownlink(network, link, place):
    path = ('link', link, 'to') if place == 0 else ('link', link, 'turns', place - 1, 'link')
    name = network.value(*path)
    return Remark(network.line(*path), '%s leads to `%s`, and no link has this name%s' % (
        network.name('link', link), name, meant(name, names_of(network, 'link'))))


def remark_of_unknownsignal(network, link):
    name = network.value('link', link, 'signal')
    return Remark(network.line('link', link, 'signal'), '%s is gated by `%s`, and no signal has this name%s' % (
        network.name('link', link), name, meant(name, names_of(network, 'signal'))))


def remark_of_unknownphase(network, where, first, *places):
    if where == 'green':
        path, signals = ('link', first, 'greens', *places), names_of(network, 'signal')
        signal = signals.index(network.value('link', first, 'signal'))
        what, owner = '%s is open in the green of' % network.name('link', first), network.name('signal', signal)
    elif where == 'start':
        path, signal = ('signal', first, 'start'), first
        what, owner = '%s starts with' % network.name('signal', first), 'it'
    else:
        path, signal = ('signal', first, 'phase', places[0], 'next', places[1]), first
        what, owner = '%s may be followed by' % network.title('signal', first, 'phase', places[0]), 'the signal'
    name, phases = network.value(*path), [phase['name'] for phase in network.value('signal', signal, 'phase')]
    return Remark(network.line(*path), '%s `%s`, and %s has no such phase; its phases are %s' % (
        what, name, owner, listed('`%s`' % phase for phase in phases)))


def remark_of_outboth(network, link):
    path = ('link', link)
    return Remark(network.line(*path, 'turns'), '%s has `turns`, and `to` on line %d: a link has one of them at most' % (
        network.name(*path), network.line(*path, 'to')))


def remark_of_itself(network, link):
    table = network.value('link', link)
    way = ('to',) if table.get('to') == table['name'] else (
        'turns', next(place for place, turn in enumerate(table['turns']) if turn['link'] == table['name']), 'link')
    return Remark(network.line('link', link, *way), '%s leads to itself' % network.name('link', link))


def remark_of_twiceturn(network, link, place):
    turns = network.value('link', link, 'turns')
    first = next(k for k, turn in enumerate(turns) if turn['link'] == turns[place]['link'])
    return Remark(network.line('link', link, 'turns', place, 'link'), '%s has a branch to `%s` already, on line %d' % (
        network.name('link', link), turns[place]['link'], network.line('link', link, 'turns', first, 'link')))


def feeders_of(network, link):
    """The numbers of the links that lead into a link."""
    name = network.value('link', link)['name']
    return [number for number, other in enumerate(network.net['link']) if name in judge.ways_out(other)]


def way_into(network, feeder, name):
    """The line on which a link says that it leads into another."""
    table = network.value('link', feeder)
    if table.get('to') == name:
        return network.line('link', feeder, 'to')
    return network.line('link', feeder, 'turns', next(place for place, turn in enumerate(table['turns']) if turn['link'] == name))


def feeders_told(network, link):
    """The feeders of a link, each with the line on which it says so."""
    name = network.value('link', link)['name']
    feeders = feeders_of(network, link)
    told = ['`%s` (line %d)' % (network.value('link', feeder)['name'], way_into(network, feeder, name)) for feeder in feeders]
    return listed(told) + (' leads' if len(feeders) == 1 else ' lead')


def remark_of_fed(network, link):
    path = ('link', link)
    key = 'demand' if network.value(*path).get('demand') else 'rates'
    return Remark(network.line(*path, key), '%s has demand, and %s into it: give the demand to a link of its own that leads in, '
                  'or to one of these' % (network.name(*path), feeders_told(network, link)))


def clash_of(network, feeders):
    """Why no signal keeps these links apart."""
    tables = [network.value('link', feeder) for feeder in feeders]
    without = ['`%s`' % table['name'] for table in tables if 'signal' not in table]
    if without:
        return '%s no signal' % (listed(without) + (' has' if len(without) == 1 else ' have'))
    signals = list(dict.fromkeys('`%s`' % table['signal'] for table in tables))
    if len(signals) > 1:
        return 'they have different signals, %s' % listed(signals)
    pairs = [(first['name'], second['name'], green) for first, second in itertools.combinations(tables, 2)
             for green in dict.fromkeys(first['greens']) if green in second['greens']]
    return listed(('`%s` and `%s` are both open in the green of `%s`' % pair for pair in pairs), 3)


def remark_of_openmerge(network, link):
    return Remark(network.line('link', link), '%s into `%s`, and %s; where links merge, one signal has to open them in '
                  'different phases' % (feeders_told(network, link), network.value('link', link)['name'],
                                        clash_of(network, feeders_of(network, link))))


def remark_of_initial(network, link):
    table, path = network.value('link', link), ('link', link, 'initial')
    cells, initial = table.get('cells', 1), table['initial']
    if len(initial) != cells:
        return Remark(network.line(*path), '`initial` of %s has %s, and the link has %s' % (
            network.name('link', link), counted(len(initial), 'number'), counted(cells, 'cell')))
    place = next(k for k, units in enumerate(initial) if units > table['store'])
    return Remark(network.line(*path), '%s begins with %s in cell %d, and `store` is %d' % (
        network.name('link', link), counted(initial[place], 'unit'), place, table['store']))


def remark_of_cells(network, count):
    links = network.net['link']
    queues = sum(1 for link in links if judge.pieces_of(link))
    longest = max(links, key=lambda link: link.get('cells', 1))
    return Remark(None, 'the network has %d cells, of which %s; the most is 256. The longest link is `%s` with %s' % (
        count, '1 is a queue' if queues == 1 else '%d are queues' % queues, longest['name'], counted(longest.get('cells', 1), 'cell')))


def piece_path(network, link, place):
    """Where a piece of demand stands: in `demand`, or behind all these as an entry of `rates`."""
    pieces = len(network.value('link', link).get('demand', []))
    return ('link', link, 'demand', place) if place < pieces else ('link', link, 'rates', place - pieces)


def remark_of_demand(network, link, what, place):
    table, name, steps = network.value('link', link), network.name('link', link), network.net['steps']
    pieces = judge.pieces_of(table)
    if what == 'heavy':
        held = [(number, piece) for number, piece in enumerate(pieces) if piece[0] <= place < piece[1]]
        path = piece_path(network, link, max(held, key=lambda item: item[1][2])[0])
        return Remark(network.line(*path), 'at %s %d units arrive in step %d, and the most is 1000' % (
            name, sum(piece[2] for _, piece in held), place))
    path, (first, until, _) = piece_path(network, link, place), pieces[place]
    if path[2] == 'rates':
        return Remark(network.line(*path), '`rates` of %s has an entry for step %d, and the last step is %d' % (name, first, steps - 1))
    why = 'holds no step' if first >= until else 'ends past the horizon of %s' % counted(steps, 'step')
    return Remark(network.line(*path), '%s is from %d until %d, and %s' % (network.title(*path), first, until, why))


def remark_of_phase(network, signal, place):
    path = ('signal', signal, 'phase', place)
    phase, title = network.value(*path), network.title(*path)
    if phase['min'] > phase['max']:
        return Remark(network.line(*path, 'min'), '%s has a `min` of %d, which is above its `max` of %d' % (
            title, phase['min'], phase['max']))
    why = 'may be followed by itself; a green that goes on is one run' if phase['next'] else 'may be followed by no phase: `next` is empty'
    return Remark(network.line(*path, 'next'), '%s %s' % (title, why))


REMARKS = {
    'format': remark_of_format, 'key': remark_of_key, 'range': remark_of_range, 'name': remark_of_name,
    'unknownlink': remark_of_unknownlink, 'unknownsignal': remark_of_unknownsignal, 'unknownphase': remark_of_unknownphase,
    'outboth': remark_of_outboth, 'itself': remark_of_itself, 'twiceturn': remark_of_twiceturn, 'fed': remark_of_fed,
    'openmerge': remark_of_openmerge, 'initial': remark_of_initial, 'cells': remark_of_cells, 'demand': remark_of_demand,
    'phase': remark_of_phase,
}
