#!/usr/bin/env python3
"""Checks a certificate of a network by docs/certificate.md and docs/certificate-file.md, apart from the program.

usage: tools/check_certificate.py NET [PLAN] CERT   (Python 3.11, for tomllib)

It prints the lines that `check NET CERT` has to print, or with PLAN those of `gap NET PLAN CERT`, and ends with their status.
The program in whole numbers comes from tools/compile.py, refusals of networks and plans from tools/judge.py and delays from
tools/replay.py; how a certificate is read, what its leaves give and what is refused is written down here a second time, so that
a rule that was misunderstood in the program shows as a difference (tools/fuzz_certificates.py). Each node gets a box of its own,
and each value is added up over all rows and columns anew: this is plain, and slow where a certificate is large.
"""
import re
import sys
import typing

import compile
import inputs
import judge
import replay

LONGEST = 134_217_728
MOST_PRICE = 2 ** 40
SCALE = 1024  # so many parts of a price or a value are one unit of delay

NUMBER = re.compile(rb'0|[1-9][0-9]{0,8}')
WHOLE = re.compile(rb'0|-?[1-9][0-9]{0,14}')


class Box(typing.NamedTuple):
    lows: list
    highs: list

    def left(self, column, at):
        return Box(self.lows, self.highs[:column] + [at] + self.highs[column + 1:])

    def right(self, column, at):
        return Box(self.lows[:column] + [at + 1] + self.lows[column + 1:], self.highs)


class Split(typing.NamedTuple):
    column: int
    at: int


class Leaf(typing.NamedTuple):
    kind: str  # `priced`, `empty` or `fixed`
    pairs: list  # of a row and its price


class Reason(typing.NamedTuple):
    """Why a node breaks: the printed word, and the number behind it or None."""
    why: str
    value: int | None = None


class Verdict(typing.NamedTuple):
    """The bound that is accepted, or else the first line that breaks and why."""
    bound: int | None
    line: int = 0
    reason: Reason | None = None


# The text.

def number_in(word):
    return int(word) if NUMBER.fullmatch(word) else None


def whole_in(word):
    return int(word) if WHOLE.fullmatch(word) else None


def bound_in(line):
    """The bound that a line names, or None."""
    words = line.split(b' ')
    return whole_in(words[1]) if len(words) == 2 and words[0] == b'bound' else None


def node_in(line):
    """The node that a line names, or None."""
    name, *words = line.split(b' ')
    if name == b'split' and len(words) == 2:
        column, at = number_in(words[0]), whole_in(words[1])
        return None if column is None or at is None else Split(column, at)
    if name == b'fixed' and not words:
        return Leaf('fixed', [])
    if name in (b'priced', b'empty') and len(words) % 2 == 0:
        pairs = [(number_in(row), whole_in(price)) for row, price in zip(words[::2], words[1::2])]
        if all(row is not None and price for row, price in pairs):
            return Leaf(name.decode(), pairs)
    return None


# Nodes in their boxes.

class Checker:
    """What the nodes of a network's certificates are judged by."""

    def __init__(self, net):
        self.net = net
        self.program = compile.program_of(net)
        self.root = Box([column.low for column in self.program.columns], [column.high for column in self.program.columns])

    def value(self, box, pairs, with_costs):
        """The value of prices over a box, in 1024ths."""
        reduced = [SCALE * column.cost if with_costs else 0 for column in self.program.columns]
        total = 0
        for number, price in pairs:
            row = self.program.rows[number]
            total += price * row.right
            for column, coefficient in row.terms.items():
                reduced[column] -= price * coefficient
        return total + sum(min(cost * low, cost * high) for cost, low, high in zip(reduced, box.lows, box.highs))

    def number(self, box, pairs):
        """The number that a priced leaf gives: its value in units of delay, rounded up."""
        return -(-self.value(box, pairs, True) // SCALE)

    def is_unfixed(self, box):
        """Whether a plan column has more than one number."""
        return box.lows[:self.program.plan] != box.highs[:self.program.plan]

    def delay(self, box):
        """The delay of the admissible plan whose bits the plan columns have, or None where they are no such plan's."""
        text = plan_text(self.net, box.lows[:self.program.plan])
        if text is None:
            return None
        try:
            judge.judge_plan(self.net, text)
        except judge.Refused:
            return None
        return replay.replay(self.net, text.decode())[0]

    def reason(self, bound, box, node):
        """The first reason why a node breaks in its box, or None."""
        if isinstance(node, Split):
            return self.reason_of_split(box, node)
        if node.kind == 'fixed':
            return self.reason_of_fixed(bound, box)
        reason = self.reason_of_pairs(node.pairs)
        if reason is not None:
            return reason
        if node.kind == 'priced':
            number = self.number(box, node.pairs)
            return Reason('weak', number) if number < bound else None
        value = self.value(box, node.pairs, False)
        return Reason('notempty', value) if value < 1 else None

    def reason_of_split(self, box, split):
        if split.column >= len(box.lows):
            return Reason('column')
        if not box.lows[split.column] <= split.at < box.highs[split.column]:
            return Reason('range')
        return None

    def reason_of_pairs(self, pairs):
        before = -1
        for number, price in pairs:
            if number >= len(self.program.rows):
                return Reason('row')
            if number <= before:
                return Reason('order')
            if abs(price) > MOST_PRICE:
                return Reason('price')
            if price < 0 and self.program.rows[number].relation != 'eq':
                return Reason('sign')
            before = number
        return None

    def reason_of_fixed(self, bound, box):
        if self.is_unfixed(box):
            return Reason('notfixed')
        delay = self.delay(box)
        if delay is None:
            return Reason('notplan')
        return Reason('weak', delay) if delay < bound else None

    def verdict(self, data):
        """What becomes of the text of a certificate, line by line."""
        if len(data) > LONGEST:
            return Verdict(None, 0, Reason('long'))
        *lines, behind = data.split(b'\n')
        bound, boxes, is_ended = None, [], False
        for number, line in enumerate(lines, 1):
            if number == 1:
                reason = None if line == b'ctm-cert 1' else Reason('form')
            elif number == 2:
                bound, boxes = bound_in(line), [self.root]
                reason = Reason('form') if bound is None else None
            elif boxes:
                node = node_in(line)
                reason = Reason('form') if node is None else self.reason(bound, boxes[-1], node)
                if reason is None:
                    box = boxes.pop()
                    boxes += [box.right(*node), box.left(*node)] if isinstance(node, Split) else []
            elif not is_ended:
                reason, is_ended = None if line == b'end' else Reason('form'), True
            else:
                reason = Reason('tail')
            if reason is not None:
                return Verdict(None, number, reason)
        if not is_ended:
            return Verdict(None, len(lines) + 1, Reason('form'))
        return Verdict(None, len(lines) + 1, Reason('tail')) if behind else Verdict(bound)


# Plans from the bits of plan columns.

def words_of(net, bits):
    """For each signal its letters, each as `green` or `clear` and a phase, or None where some step of a signal has not one bit."""
    words, rest = {signal['name']: [] for signal in net.get('signal', [])}, list(bits)
    for _ in range(net['steps']):
        for signal in net.get('signal', []):
            letters = compile.letters_of(signal)
            shown, rest = [letter for letter, bit in zip(letters, rest) if bit], rest[len(letters):]
            if len(shown) != 1:
                return None
            words[signal['name']] += shown
    return words


def runs_of(signal, word):
    """The lines of the runs that a word is made of, or None where a clearance has another length."""
    clears = {phase['name']: phase.get('clear', 0) for phase in signal['phase']}
    lines, t = [], 0
    while t < len(word):
        kind, phase = word[t]
        green = next((k for k, letter in enumerate(word[t:]) if letter != ('green', phase)), len(word) - t)
        clear = word[t + green:][:clears[phase]]
        if kind != 'green' or any(letter != ('clear', phase) for letter in clear):
            return None
        lines.append('%s %d' % (phase, green))
        t += green + len(clear)
    return lines


def plan_text(net, bits):
    """The text of a plan with these bits, or None where they are not letters in runs. Whether the plan is admissible is for the
    judge to say."""
    words = words_of(net, bits)
    if words is None:
        return None
    lines = ['ctm-plan 1']
    for signal in net.get('signal', []):
        runs = runs_of(signal, words[signal['name']])
        if runs is None:
            return None
        lines += ['signal %s' % signal['name'], *runs]
    return '\n'.join(lines + ['end', '']).encode()


# What the program has to say.

def told(verdict, plan_delay=None):
    """The status and the printed lines: those of `check`, or those of `gap` where a plan with a delay stands beside."""
    if verdict.bound is None:
        value = '' if verdict.reason.value is None else 'value %d\n' % verdict.reason.value
        return 1, 'rejected\nline %d\nwhy %s\n%s' % (verdict.line, verdict.reason.why, value)
    if plan_delay is None:
        return 0, 'accepted\nbound %d\n' % verdict.bound
    units = plan_delay - max(verdict.bound, 0)
    permille = -(-1000 * units // plan_delay) if plan_delay else 0
    return 0, 'delay %d\nbound %d\ngap %d\npermille %d\n' % (plan_delay, verdict.bound, units, permille)


def answer_of_check(network, certificate):
    """The status and the printed lines of `check` on the bytes of a network and of a certificate."""
    try:
        checker = Checker(judge.judge_network(network))
    except (judge.Refused, compile.TooLarge) as refused:
        return refused.status, refused.line + '\n'
    return told(checker.verdict(certificate))


def answer_of_gap(network, plan, certificate):
    """The same of `gap`: the plan is judged before the certificate is."""
    try:
        net = judge.judge_network(network)
        checker = Checker(net)
        judge.judge_plan(net, plan)
    except (judge.Refused, compile.TooLarge) as refused:
        return refused.status, refused.line + '\n'
    return told(checker.verdict(certificate), replay.replay(net, plan.decode())[0])


def main():
    if len(sys.argv) not in (3, 4):
        sys.exit('usage: tools/check_certificate.py NET [PLAN] CERT')
    inputs.end_with_reader()
    files = [inputs.bytes_of(name) for name in sys.argv[1:]]
    status, printed = answer_of_check(*files) if len(files) == 2 else answer_of_gap(*files)
    print(printed, end='')
    sys.exit(status)


if __name__ == '__main__':
    main()
