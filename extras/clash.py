#!/usr/bin/env python3
"""Of a sheet that is refused as `13 inconsistent`, finds rules that can't stand together, none of which can be left out.

    python3 extras/clash.py SHEET [--line 'rule five : ..'] [--program ./predicalc] [--budget K]

It has the program load the sheet without its entries, which don't count here, and then again and again with fewer rules: first
those that the certificate of the refusal uses, then one less each time, as long as they contradict one another. So it asks as
often as the certificate uses rules, and once more. A rule without which the search spends its budget stays, and is told.
With --line that rule is one of the sheet's, as where it was typed and refused.

The status is 0 where rules that clash were found, 1 where the rules don't contradict one another, 3 where the sheet is
refused for something else, 4 where a file can't be read or the program isn't there.
"""
import os
import sys
import tempfile

import check
from common import Program, bytes_of, lines_of_table, many, run, sheet_of, words_of

INCONSISTENT = 'sheet refused 13 '


def with_rule(data, rule):
    """The text with the rule before its `begin`, and in the version that takes every rule."""
    lines = check.lines_of(data)
    said = [place for place, line in enumerate(lines) if line.strip() and not line.lstrip().startswith(b';')]
    lines[said[0]] = b'sheet 2'
    return b'\n'.join([*lines[:said[-1]], rule.encode(), *lines[said[-1]:], b''])


def number_of(trial, name, typed):
    """What a rule is told by: its line's number, or that it was typed."""
    text = trial.lines[trial.rules[name] - 1].decode()
    return 'typed' if text == typed else f'line {trial.rules[name]}'


class Trial:
    """A sheet's lines, of which some are left out, and what the program says of them."""

    def __init__(self, data, program):
        self.lines, self.program = check.lines_of(data), program
        self.rules = {}             # the numbers of the lines, by the rules' names
        for number, word, said in check.statements(data):
            if word == 'rule':
                self.rules[said[0]] = number
            elif word in ('enter', 'also'):
                self.lines[number - 1] = b''

    def text(self, rules):
        """The sheet with these rules alone, its lines where they were."""
        out = {number for name, number in self.rules.items() if name not in rules}
        return b'\n'.join(b'' if number in out else line for number, line in enumerate(self.lines, 1)) + b'\n'

    def refusal(self, rules):
        """The first line that is printed for these rules, and the rules that a certificate behind it uses."""
        with tempfile.TemporaryDirectory() as folder:
            path = os.path.join(folder, 'sheet')
            with open(path, 'wb') as file:
                file.write(self.text(rules))
            first, *rest = [line for line in self.program.lines_of_load(path) if ' rule ' in line or 'refused' in line] or ['']
        used = {line.split()[2] for line in rest if line.split()[1:2] == ['rule']}
        return first, [name for name in rules if name in used]

    def smallest(self, rules):
        """Rules of these that contradict one another, where each is needed for it; and those that may not be."""
        unsure, tried = [], 0
        while tried < len(rules):
            told, used = self.refusal(rules[:tried] + rules[tried + 1:])
            if told.startswith(INCONSISTENT):
                tried = sum(name in used for name in rules[:tried])     # one that is unsure may be gone
                rules = used
            else:
                unsure += [rules[tried]] if told else []
                tried += 1
        return rules, [name for name in unsure if name in rules]


def main():
    parser = words_of(__doc__)
    parser.add_argument('sheet', metavar='SHEET')
    parser.add_argument('--line', metavar='RULE', help='a rule that the sheet is to have besides')
    parser.add_argument('--program', default='predicalc', help='the command that runs the program (predicalc)')
    parser.add_argument('--budget', metavar='K', type=int, help='its budget for each search')
    words = parser.parse_args()
    data = bytes_of(words.sheet)
    sheet_of(words.sheet)
    if words.line:
        data = with_rule(data, words.line)
        try:
            check.load(data)
        except check.Refused as refused:
            print(str(refused).replace('sheet refused', 'with the line the sheet is refused'))
            return 3
    trial = Trial(data, Program(words.program, words.budget))
    told, used = trial.refusal(list(trial.rules))
    if not told.startswith(INCONSISTENT):
        print(told or 'The rules don\'t contradict one another.')
        return 3 if told else 1
    rules, unsure = trial.smallest(used)
    print(f'{many(len(rules), "rule")} of {len(trial.rules)} can\'t stand together, and none of them can be left out:'
          if len(rules) > 1 else f'No plan obeys this rule, one of {len(trial.rules)}:')
    rows = [[number_of(trial, name, words.line), trial.lines[trial.rules[name] - 1].decode().strip()] for name in rules]
    print('\n'.join(lines_of_table(rows, '><')))
    for name in unsure:
        print(f'Without {name} the search spent its budget, so it may be dispensable.')
    return 0


if __name__ == '__main__':
    run(main)
