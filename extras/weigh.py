#!/usr/bin/env python3
"""Says what the cells and each rule of a sheet weigh, heaviest first.

    python3 extras/weigh.py SHEET

A sheet that weighs over 4,000,000 is refused as `12 too-large`; what the weight counts is said in docs/FORMATS.md ("What a
sheet weighs"). For each rule are told: its weight; how many copies there are of its innermost part, one for each choice of
values of the quantifiers around it; and in how many ways one copy of an atom is read at most, one for each choice of values
of the cells that it reads. A rule with many copies wants fewer quantifiers, one with many ways shorter sorts of its cells.
The weights are exact. The status is 0, or 1 where the sheet is too heavy.
"""
from math import prod
from typing import NamedTuple

from check import ATOMS, InTable, Quantified, Term
from common import lines_of_table, run, sheet_of, words_of

MOST = 4_000_000


# ---------------------------------------------------------------------------------------------- the ways of an atom
# Which reads are of one cell depends only on which values are equal, of those that are written in the atom, of its
# variables, and of cells that are arguments. So one goes through the choices of what is equal, and not through all values.
# A place is a value that is written, or a number that stands for any further one.

class Ways(NamedTuple):
    """Ways to read the cells up to some item: how many, the places of each sort, and the place of each cell's value, which
    is None where nothing depends on it."""
    count: int
    places: dict
    cells: dict


class Atom:
    """An atom in the scope of variables, whose sorts are given."""

    def __init__(self, sheet, formula, scope):
        self.sheet, self.scope = sheet, scope
        items = formula.items if isinstance(formula, InTable) else [item for _, item in formula.left + formula.right]
        self.cells = [item for item in items if self.is_cell(item)]
        arguments = [pair for item in self.cells for pair in self.arguments_in(item)]
        self.asked = {item.name for item, _ in arguments if self.is_cell(item)}     # families whose values are arguments
        self.variables = {item.name: sort for item, sort in arguments if self.is_variable(item)}
        self.written = {}
        for item, sort in arguments:
            if not self.is_cell(item) and not self.is_variable(item):
                self.written[sort] = tuple(dict.fromkeys((*self.written.get(sort, ()), self.name_of(item))))

    @staticmethod
    def name_of(item):
        return item.name if isinstance(item, Term) else item

    def is_variable(self, item):
        return isinstance(item, Term) and item.name in self.scope

    def is_cell(self, item):
        return isinstance(item, Term) and item.name in self.sheet.families and item.name not in self.scope

    def arguments_in(self, item):
        """The arguments within an item, at any depth, each with its sort."""
        if self.is_cell(item):
            for argument, sort in zip(item.arguments or (), self.sheet.families[item.name][0]):
                yield argument, sort
                yield from self.arguments_in(argument)

    def places(self, sort, ways):
        """Each place that a value of the sort may have, with the ways in which it has it."""
        used = ways.places.get(sort, ())
        for place in used:
            yield place, ways
        left = len(self.sheet.sorts[sort]) - len(used)
        if left:
            further = sort, len(used)
            yield further, Ways(ways.count * left, {**ways.places, sort: (*used, further)}, ways.cells)

    def choices(self, names, ways, chosen):
        """The choices of the variables' places."""
        if not names:
            yield chosen, ways
            return
        for place, after in self.places(self.variables[names[0]], ways):
            yield from self.choices(names[1:], after, {**chosen, names[0]: place})

    def read(self, item, ways, chosen):
        """The place of an item, in each of its ways."""
        if not self.is_cell(item):
            yield chosen[item.name] if self.is_variable(item) else self.name_of(item), ways
            return
        sort = self.sheet.families[item.name][1]
        for places, after in self.read_all(item.arguments or (), ways, chosen):
            cell = item.name, *places
            if cell in after.cells:
                yield after.cells[cell], after
            elif item.name not in self.asked:
                yield None, Ways(after.count * len(self.sheet.sorts[sort]), after.places, {**after.cells, cell: None})
            else:
                for place, last in self.places(sort, after):
                    yield place, last._replace(cells={**last.cells, cell: place})

    def read_all(self, items, ways, chosen):
        if not items:
            yield (), ways
            return
        for place, after in self.read(items[0], ways, chosen):
            for places, last in self.read_all(items[1:], after, chosen):
                yield (place, *places), last

    def weight(self):
        """The weight of all copies, and in how many ways one is read at most."""
        free = prod(len(self.sheet.sorts[sort]) for name, sort in self.scope.items() if name not in self.variables)
        weight = most = 0
        for chosen, before in self.choices(list(self.variables), Ways(1, self.written, {}), {}):
            read = [ways for _, ways in self.read_all(self.cells, before._replace(count=1), chosen)]
            weight += before.count * sum(ways.count * (len(ways.cells) + 1) for ways in read)
            most = max(most, sum(ways.count for ways in read))
        return free * weight, most


# ------------------------------------------------------------------------------------------------- formulas and rules

def weight_of_count(quantified, values):
    """What `atmost` or `atleast` over so many values weighs, with its counters."""
    columns = quantified.number + (quantified.word == 'atmost')
    return 4 + 4 + 3 * (columns - 1) + 7 * (values - 1) + 11 * (values - 1) * (columns - 1)


def weights(sheet, formula, scope):
    """The weights of a formula's parts in all their copies, each with the copies and the ways."""
    copies = prod(len(sheet.sorts[sort]) for sort in scope.values())
    if isinstance(formula, ATOMS):
        weight, ways = Atom(sheet, formula, scope).weight()
        yield weight, copies, ways
    elif isinstance(formula, Quantified):
        values = len(sheet.sorts[formula.sort])
        own = 3 * values + 1 if formula.number is None else weight_of_count(formula, values)
        yield own * copies, copies, 0
        yield from weights(sheet, formula.body, {**scope, formula.variable: formula.sort})
    else:
        own = {'!': 4, '->': 7, '<->': 12}.get(formula.sign, 3 * len(formula.parts) + 1)
        yield own * copies, copies, 0
        for part in formula.parts:
            yield from weights(sheet, part, scope)


def weights_of(sheet):
    """The weight, copies, ways and name of the cells and of each rule."""
    cells = sum(prod(len(sheet.sorts[each]) for each in arguments) * len(sheet.sorts[sort]) ** 2
                for arguments, sort in sheet.families.values())
    yield cells, '', '', 'the cells'
    for name, formula in sheet.rules.items():
        own, copies, ways = zip(*weights(sheet, formula, {}))
        yield 1 + sum(own), max(copies), max(ways), 'rule ' + name


def main():
    parser = words_of(__doc__)
    parser.add_argument('sheet', metavar='SHEET')
    found = sorted(weights_of(sheet_of(parser.parse_args().sheet)), key=lambda each: -each[0])
    total = sum(weight for weight, *_ in found)
    rows = [[f'{weight:,}', f'{weight / total:.0%}' if total else '', f'{copies:,}' if copies else '', f'{ways:,}' if ways else '', name]
            for weight, copies, ways, name in found]
    rows = [['weight', 'share', 'copies', 'ways', '']] + rows + [[f'{total:,}', '', '', '', f'all, of {MOST:,} at most']]
    for line in lines_of_table(rows, '>>>><'):
        print(line)
    return 1 if total > MOST else 0


if __name__ == '__main__':
    run(main)
