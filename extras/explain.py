#!/usr/bin/env python3
"""Says certificates in words. It checks nothing: for that use `predicalc check` or extras/check.py.

    echo 'why b = red' | ./predicalc edit my.sheet | python3 extras/explain.py
    echo 'why b = red' | ./predicalc edit my.sheet | python3 extras/explain.py my.sheet

Reads its input to the end and explains each certificate in it, from a line `certificate 1` to the line `end`. Other
lines, as `ok` or a display, are passed over. With the sheet it names the copies of each rule that the derivation takes,
which are the values of the quantifiers' variables. With --steps it also prints the derivation's lines, each with its copy.

    python3 extras/explain.py my.sheet @rest/3/1/2

tells of which copy a path is, and reads nothing else. The status is 0 where there was a certificate or path, else 1.
"""
import re
import sys
from collections import Counter

import check
from common import many, run, sheet_of, words_of

STARTS = ('certificate', 'claim', 'set', 'use', 'value')


class Said:
    """The parts of a certificate's text, none of them tested."""

    def __init__(self):
        self.claim = ''
        self.sets = [([], [])]      # used entries and shown values: first those without a set, then each set's
        self.rules = []             # the rules that the derivation takes as true, each once
        self.kinds = Counter()      # how many lines there are of each kind
        self.derivation = []        # its lines, as words

    def take(self, line):
        word, _, rest = line.strip().partition(' ')
        rest = ' '.join(rest.split())
        if word == 'claim':
            self.claim = rest
        elif word == 'set':
            self.sets.append(([], []))
        elif word == 'use':
            self.sets[-1][0].append(rest)
        elif word == 'value':
            self.sets[-1][1].append(rest)
        elif word not in STARTS:
            self.derivation.append(line.split())
            self.take_derived(rest)

    def take_derived(self, rest):
        kind, _, rest = rest.partition(' ')
        self.kinds[kind] += 1
        if kind == 'rule' and rest not in self.rules:
            self.rules.append(rest)


def certificates(lines):
    """The certificates among the lines; one that is cut off counts too."""
    said = None
    for line in lines:
        words = line.split()
        if words == ['certificate', '1']:
            said = Said()
        elif said and words == ['end']:
            yield said, True
            said = None
        elif said and words:
            said.take(line)
    if said:
        yield said, False


def listed(entries):
    return ', '.join(entries)


def claimed(said):
    """What is claimed, in a sentence; and the kind of the claim."""
    claim, uses = said.claim, said.sets[0][0]
    given = f'With {listed(uses)} entered' if uses else 'Whatever is entered'
    if claim == 'inconsistent':
        return 'No assignment makes every rule true: the rules contradict one another.', claim
    if claim == 'repairs':
        return f'There are exactly {many(len(said.sets) - 1, "way", "ways")} to keep entries of the sheet.', claim
    if re.match(r'not\s+[^\s=!(]', claim):
        return f'No entries imply {claim[4:]}: in each way to keep entries the cell may have another value.', 'not'
    if re.fullmatch(r'against\s+[^\s=!()]+', claim):
        denies = ', which says the opposite of what was asked,' if claim[8:].strip() == 'ask' else ''
        return f'{given} and all other rules true, rule {claim[8:]}{denies} is false.', 'against'
    return f'{given}, the rules imply {claim}.', 'is'


def rested_on(said, copies):
    """The rules that the derivation takes as true, with the copies of each."""
    if not said.rules:
        return ['It rests on no rule.']
    lines = [f'It rests on {many(len(said.rules), "rule")}:']
    for name in said.rules:
        lines += [f'  {name}'] + ([f'    {copy}' for copy in copies.of_rule(said, name)] if copies else [])
    return lines


def table(values):
    """Cells and values in two columns."""
    pairs = [value.partition(' = ')[::2] if ' = ' in value else value.partition('=')[::2] for value in values]
    width = max((len(cell.strip()) for cell, _ in pairs), default=0)
    return [f'  {cell.strip():{width}}  {value.strip()}' for cell, value in pairs]


def shown(said, kind):
    """The assignments: what they are for, and their tables."""
    if kind == 'inconsistent':
        return []
    if kind in ('is', 'against'):
        uses, values = said.sets[0]
        rules = 'all rules' if kind == 'is' else 'the other rules'
        what = 'shows these entries together with' if uses else 'shows a way to obey'
        return [f'It {what} {rules}:'] + table(values)
    lines = []
    for number, (uses, values) in enumerate(said.sets[1:], 1):
        lines += [f'Way {number} keeps {listed(uses) or "no entry"}, shown together with the rules:'] + table(values)
    return lines + ['It says that there is no further way and that none lies within another.']


def proof(said, copies, with_steps):
    """How long the derivation is, and its lines where they are asked for."""
    steps = said.kinds['step']
    facts = sum(said.kinds.values()) - steps
    lines = [f'The derivation takes {many(facts, "fact")} of the sheet and makes {many(steps, "step")}.']
    return lines + ([told_line(words, copies) for words in said.derivation] if with_steps else [])


def told_line(words, copies):
    """A line of the derivation, with the copy that it is of."""
    copy = copies.told(words[2]) if copies and words[1:2] in (['node'], ['atom']) and len(words) > 2 else ''
    return '  ' + ' '.join(words) + (f'   ; {copy}' if copy else '')


class Copies:
    """Which copies of a sheet's rules paths are of."""

    MOST = 12       # copies of a rule that are told one by one

    def __init__(self, sheet):
        self.sheet = sheet

    def around(self, text):
        """The variables around a path with their values, the outermost first, and the path's node; None of no path."""
        try:
            rule, steps = check.path_of(text)
        except check.Fault:
            return None
        node = self.sheet.node((rule, steps))
        if node and isinstance(node.formula, check.Counter):
            return self.sheet.node((rule, steps[:-1])).values, node
        return node and (node.values, node)

    def told(self, text):
        """The copy that a path is of, in words; empty where there is none."""
        values, node = self.around(text) or ({}, None)
        told = [f'{name} {value}' for name, value in values.items()]
        if node and isinstance(node.formula, check.Counter):
            told.append(f'at least {node.formula.column} of the first {node.formula.row}')
        return ', '.join(told)

    def piece(self, text):
        """The variables of the `forall`s and `&`s at the rule's top that lead to a path, with their values."""
        rule, steps = check.path_of(text)
        node, values = self.sheet.node((rule, ())), {}
        for step in steps:
            if not node or getattr(node.formula, 'word', None) != 'forall' and getattr(node.formula, 'sign', None) != '&':
                break
            node = self.sheet.child(node, step)
            values = node.values if node else values
        return values

    def of_rule(self, said, rule):
        """The copies of a rule that the derivation takes, each once: those of the pieces into which its top falls."""
        found, beginnings = {}, set()
        for words in said.derivation:
            is_at_node = words[1:2] in (['node'], ['atom']) and len(words) > 2
            if is_at_node and re.split('[@/]', words[2])[1:2] == [rule] and self.around(words[2]):
                values = tuple(self.piece(words[2]).items())
                found[values] = True
                beginnings.update(values[:length] for length in range(len(values)))
        copies = [', '.join(f'{name} {value}' for name, value in values) for values in found if values not in beginnings]
        further = len(copies) - self.MOST
        return [copy for copy in copies[:self.MOST] if copy] + ([f'and {many(further, "other")}'] if further > 0 else [])


def explained(said, whole, copies=None, with_steps=False):
    sentence, kind = claimed(said)
    lines = ['It claims: ' + sentence] + rested_on(said, copies) + shown(said, kind) + proof(said, copies, with_steps)
    return lines if whole else lines + ['Its text is cut off: there is no line `end`.']


def told_path(copies, path):
    around = copies.around(path)
    return 'the sheet has no such path' if not around else copies.told(path) or 'the rule itself, which has no copies here'


def main():
    parser = words_of(__doc__)
    parser.add_argument('sheet', metavar='SHEET', nargs='?', help='names the copies of its rules')
    parser.add_argument('paths', metavar='PATH', nargs='*', help='a path as certificates have it, as @rest/3/1/2')
    parser.add_argument('--steps', action='store_true', help="print the derivations' lines, too")
    words = parser.parse_args()
    copies = Copies(sheet_of(words.sheet)) if words.sheet else None
    for path in words.paths:
        print(f'{path}: {told_path(copies, path)}')
    if words.paths:
        return 0 if all(map(copies.around, words.paths)) else 1
    number = 0
    for number, (said, whole) in enumerate(certificates(sys.stdin), 1):
        lines = explained(said, whole, copies, words.steps)
        print('\n'.join(['A certificate, which is not checked here.'] + lines), end='\n\n')
    if not number:
        print('There is no certificate in the input.')
    else:
        print('Nothing was checked. `predicalc check SHEET` and `extras/check.py SHEET` check one certificate each.')
    return 0 if number else 1


if __name__ == '__main__':
    run(main)
