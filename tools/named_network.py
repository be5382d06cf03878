"""A network file as a person sees it: by the names of its tables, and by the lines of the file.

What is wrong with a file, or of note in it, is said as a `Remark`: a line of the file and a sentence about it.
"""
import difflib
import re
import tomllib
import typing

import toml_places

KINDS = [(rb'\Actm-plan ', 'a plan'), (rb'\Actm-cert ', 'a certificate'), (rb'\Astep,link,', 'the table of a trace'),
         (rb'\A *format *=|^ *\[\[ *link *\]\]', 'a network'), (rb'^ *\[? *street *\.', 'a file of streets'),
         (rb'^ *(offset|splits) *=', 'a file of cycles')]
SHOWN = 48  # so many characters of a value are shown
LIKE = 0.7  # how alike two names are, from 0 to 1, where one may be meant for the other


class Remark(typing.NamedTuple):
    line: int | None  # from 1, or None where it is about the whole file
    text: str


def told(file, remark):
    """A remark as it is printed."""
    return '%s:%s %s' % (file, '' if remark.line is None else '%d:' % remark.line, remark.text)


def shown(value):
    """A value as the file spells it, or the front of it."""
    if type(value) is dict:
        return 'a table'
    if type(value) is list and any(type(item) is dict for item in value):
        return 'an array of %d items' % len(value)
    text = '[%s]' % ', '.join(shown(item) for item in value) if type(value) is list else (
        '"%s"' % value.encode('unicode_escape').decode() if type(value) is str else
        str(value).lower() if type(value) is bool else str(value))
    return text if len(text) <= SHOWN else text[:SHOWN] + '..'


def listed(words, most=8):
    """Some of the words, with commas and an `and`."""
    words = list(words)
    if len(words) > most:
        words = words[:most] + ['%d more' % (len(words) - most)]
    return words[0] if len(words) == 1 else '%s and %s' % (', '.join(words[:-1]), words[-1])


def counted(number, word):
    return '%d %s%s' % (number, word, '' if number == 1 else 's')


def meant(name, names):
    """A question behind a name that is not there, where one of the names is like it."""
    near = difflib.get_close_matches(str(name), list(names), 1, LIKE)
    return '; is `%s` meant?' % near[0] if near else ''


def other_kind(data):
    """What a file is that is none of the kind that is wanted, by how it begins or by its headers; or nothing."""
    for front, kind in KINDS:
        if re.search(front, data, re.M):
            return kind
    return ''


class NamedNetwork:
    """A TOML document with the lines of its tables and keys. Paths are those of `toml_places`."""

    def __init__(self, data):
        self.text = data.decode()
        self.net = tomllib.loads(self.text)
        self.lines = toml_places.lines_of(self.text)

    def line(self, *path):
        """The line on which a table, a key or an item begins; of what is not there the line of the table above it."""
        while path not in self.lines:
            path = path[:-1]
        return self.lines[path]

    def value(self, *path):
        value = self.net
        for key in path:
            value = value[key]
        return value

    def name(self, *path):
        """A table of an array by its name, or by its kind and place where it has none that can be shown."""
        table, kind, place = self.value(*path), path[-2], path[-1]
        name = table.get('name') if type(table) is dict else None
        return '%s `%s`' % (kind, name) if type(name) is str and name.isprintable() and name else '%s %d' % (kind, place)

    def title(self, *path):
        """What a table is called in a sentence."""
        if not path:
            return 'the top table'
        if path[-2] in ('link', 'signal'):
            return self.name(*path)
        if path[-2] == 'phase':
            return '%s of %s' % (self.name(*path), self.name(*path[:2]))
        target = self.value(*path).get('link')
        if path[-2] == 'turns':
            which = 'the branch to `%s`' % target if type(target) is str else 'branch %d' % path[-1]
        else:
            which = 'piece %d of the demand' % path[-1]
        return '%s of %s' % (which, self.name(*path[:2]))
