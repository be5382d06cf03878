"""The small refused files that docs/network-file.md and docs/plan-file.md describe in their tables, made from these descriptions.

A row of a table is a description, the line that the program prints, and why. `refused_networks` and `refused_plans` give for each
row the description, the bytes of the files that it describes, and the line. A description that this reader does not understand is
an error, so that each row of the pages is tried.
"""
import pathlib
import re

DOCS = pathlib.Path(__file__).resolve().parent.parent / 'docs'
TICKED = re.compile(r'`([^`]*)`')
ORDINALS = {'first': 0, 'second': 1, 'third': 2}


def blocks_of(page):
    """The indented blocks of a page, without their indent."""
    blocks, block = [], []
    for line in page.splitlines() + ['.']:
        if line.startswith('    ') or (block and not line):
            block.append(line[4:])
        elif block:
            blocks.append('\n'.join(block).rstrip('\n') + '\n')
            block = []
    return blocks


def rows_of(page, word):
    """The description and the printed line of each row of a refusal."""
    return re.findall(r'^\| (.*) \| `(%s [^`]*)` \| .* \|$' % word, page, re.M)


# Networks: changes of the two files at the head of the page.

def refused_networks():
    page = (DOCS / 'network-file.md').read_text()
    small, large = blocks_of(page)[:2]
    for description, line in rows_of(page, 'network'):
        if 'the smallest file' in description:
            files = [changed(small, added(description), 'link', 0)]
        elif 'the file with a signal' in description:
            files = [changed_signal_file(large, description)]
        else:
            files = listed_files(description)
        for file in files:
            yield description, file if isinstance(file, bytes) else file.encode(), line


def added(description):
    """The lines that a description puts into a file, of those that stand behind the word `with`."""
    return TICKED.findall(description)


def changed(text, lines, header, place):
    """A text with lines in its table of a header, in place of those of the same keys or at its end."""
    table = '[[%s]]\n' % header
    top, text = re.fullmatch(r'(.*?)(\[\[.*)', text, re.S).groups()
    head, *tables = re.split('(?m)^(?=%s)' % re.escape(table), text)
    body, rest = re.fullmatch(r'(\[\[.*?\n)((?:\n*\[\[.*)?)', tables[place], re.S).groups()
    for line in lines:
        key = line.split(' = ')[0]
        if re.search('(?m)^%s = ' % key, top):
            top = re.sub('(?m)^%s = .*$' % key, lambda _: line, top)
        elif re.search('(?m)^%s = ' % key, body):
            body = re.sub('(?m)^%s = .*$' % key, lambda _: line, body)
        else:
            body += line + '\n'
    tables[place] = body + rest
    return top + head + ''.join(tables)


def changed_signal_file(text, description):
    found = re.search(r'`([^`]*)` replaced by `([^`]*)`', description)
    if found:
        return once(text, *found.groups())
    if 'without' in description:
        return once(text, added(description)[0] + '\n', '')
    if 'once more' in description:
        return text + '\n' + text[text.index('[[signal]]'):]
    found = re.search('in its (first|second|third) (link|phase)$', description)
    if found:
        return changed(text, added(description), {'link': 'link', 'phase': 'signal.phase'}[found[2]], ORDINALS[found[1]])
    line, = added(description)
    key, value = line.split(' = ')
    like = [other for other in text.splitlines() if other.startswith(key + ' = ') and other.lower() == line.lower()]
    return once(text, (like or [other for other in text.splitlines() if other.startswith(key + ' = ')])[0], line)


def once(text, old, new):
    assert text.count(old) == 1, old
    return text.replace(old, new)


def listed_files(description):
    """Files that a description spells whole."""
    if description == '`format = 1` twice, or a byte 255 in a comment':
        return ['format = 1\nformat = 1\n', b'format = 1 # \xff\n']
    if description == 'nothing, `format = 2` or `format = true`':
        return ['', 'format = 2\n', 'format = true\n']
    if description in ('`format = 1 =`', '`format = 1` alone', '`format = 1`, `steps = 5` and `link = []`'):
        return ['\n'.join(TICKED.findall(description)) + '\n']
    raise ValueError('no file is known for: ' + description)


# Plans: lines behind the first one.

def refused_plans():
    """The network of the plans, and for each row its description, the bytes of its plan, and the line."""
    page = (DOCS / 'plan-file.md').read_text()
    network = next(block for block in blocks_of(page) if block.startswith('format = 1'))
    rows = rows_of(page, 'plan')
    plans = [(description, plan_of(description, place >= len(rows) - 4), line) for place, (description, line) in enumerate(rows)]
    return network.encode(), plans + [('nothing', b'', 'plan form 1')]


def plan_of(description, is_whole):
    """The plan of a description; one that is not whole lacks the line `end`."""
    lines = TICKED.findall(description.replace('an empty line', '``')) if description != 'none' else []
    text = '\n'.join(['ctm-plan 1', *lines] + ([] if is_whole else ['end'])) + '\n'
    return text.removesuffix('\n' if 'without its line feed' in description else '').encode()
