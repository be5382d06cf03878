"""Says on which line of a TOML document each table, each key and each item of an array begins.

Python's tomllib gives the values of a document without their places, so this looks for them a second time. It is for documents
that tomllib has accepted: it judges nothing, and passes over what it does not need to understand.
"""
import bisect
import re
import tomllib

SPACE = re.compile(r'(?:\s|#[^\n]*)*')
STRING = re.compile(r'"""(?:\\.|[^\\])*?"{3,5}|\'\'\'.*?\'{3,5}|"(?:\\.|[^"\\\n])*"|\'[^\'\n]*\'', re.S)
KEY = re.compile(r'[A-Za-z0-9_-]+')
BARE = re.compile(r'[^,\]}\n#]+')


def lines_of(text):
    """From paths to line numbers, from 1. A path is a tuple of keys and of places in arrays, as ('link', 0, 'turns', 1, 'parcel');
    the top table is ()."""
    return Scan(text).lines


def line_in(lines, path):
    """The line of a path, or of the first that stands in it, or else of what it stands in; None where that is the top table."""
    while path:
        inside = [line for other, line in lines.items() if other[:len(path)] == path]
        if inside:
            return min(inside)
        path = path[:-1]
    return None


class Scan:
    """A walk over a document, with the place that it has come to."""

    def __init__(self, text):
        self.text = text
        self.at = 0
        self.feeds = [found.start() for found in re.finditer('\n', text)]
        self.counts = {}  # of each array of tables with headers of its own, how many it has so far
        self.lines = {(): 1}
        table = ()
        while self.skip() < len(text):
            table = self.header() if text[self.at] == '[' else self.pair(table)

    def skip(self):
        """Passes over white space and comments."""
        self.at = SPACE.match(self.text, self.at).end()
        return self.at

    def take(self, pattern):
        found = pattern.match(self.text, self.at)
        self.at = found.end()
        return found[0]

    def begins(self, path):
        self.lines.setdefault(path, bisect.bisect_left(self.feeds, self.at) + 1)

    def keys(self):
        """A key, or several with dots between them."""
        keys = []
        while True:
            self.skip()
            is_quoted = self.text[self.at] in '"\''
            key = self.take(STRING if is_quoted else KEY)
            keys.append(tomllib.loads('key = ' + key)['key'] if is_quoted else key)
            if self.text[self.skip()] != '.':
                return keys
            self.at += 1

    def header(self):
        """`[KEYS]` or `[[KEYS]]`: the path of the table that it begins."""
        is_item = self.text.startswith('[[', self.at)
        start = self.at
        self.at += 2 if is_item else 1
        *parents, last = self.keys()
        end, self.at = self.at + (2 if is_item else 1), start
        path = ()
        for key in parents:
            path = self.latest(path + (key,))
        path += (last,)
        self.begins(path)
        if is_item:
            self.counts[path] = self.counts.get(path, 0) + 1
        path = self.latest(path)
        self.begins(path)
        self.at = end
        return path

    def latest(self, path):
        """Of an array of tables its last table so far."""
        return path + (self.counts[path] - 1,) if path in self.counts else path

    def pair(self, table):
        """A key and its value in a table, whose path is given back."""
        start = self.at
        path = table + tuple(self.keys())
        end, self.at = self.at, start
        self.begins(path)
        self.at = end + 1
        self.value(path)
        return table

    def value(self, path):
        opening = self.text[self.skip()]
        if opening in '[{':
            self.at += 1
            self.items(path, opening == '[')
        else:
            self.take(STRING if opening in '"\'' else BARE)

    def items(self, path, is_array):
        """What stands between the brackets of an array or of a table."""
        place = 0
        while self.text[self.skip()] not in ']}':
            if is_array:
                self.begins(path + (place,))
                self.value(path + (place,))
            else:
                self.pair(path)
            if self.text[self.skip()] == ',':
                self.at += 1
            place += 1
        self.at += 1
