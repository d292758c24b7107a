#!/usr/bin/env python3
"""Shows the cells of a sheet as tables, and full plans.

    echo json | predicalc edit SHEET | python3 extras/table.py
    echo 'prove repairs' | predicalc edit SHEET | python3 extras/table.py

Of the display that `json` prints: what is entered, (what is implied besides), `!` behind an entry that clashes, and `.`
where a cell is open. Of what `prove repairs` prints: a full plan for each way to keep entries, with a `*` behind each
entry that is kept. Any other certificate shows its plans likewise.

The values of a family's last argument are the columns, and the others the rows; a table that is too wide so is turned.
Families of one argument over the same values share a table. The status is 0 where there was something to show, else 1.
"""
import json
import sys

from common import lines_of_table, many, parts_of_cell, run, width, words_of
from explain import certificates


# ----------------------------------------------------------------------------------------------------------- tables

def families_of(cells):
    """Pairs of a cell's text and what is shown of it, as families: for each its cells' arguments and what is shown."""
    families = {}
    for cell, shown in cells:
        name, values = parts_of_cell(cell)
        families.setdefault(name, {})[tuple(values)] = shown
    return families


def table_of_family(name, shown, widest):
    """The rows of a family of two arguments or more."""
    columns, rows = list(dict.fromkeys(key[-1] for key in shown)), list(dict.fromkeys(key[:-1] for key in shown))
    table = [[name, *columns]] + [[' '.join(row), *[shown[(*row, column)] for column in columns]] for row in rows]
    turned = [list(column) for column in zip(*table)]
    is_wide = width(lines_of_table(table)[0]) > widest and len(columns) > len(rows)
    return turned if is_wide else table


def tables_of(cells, widest):
    """The tables, each as a list of rows: families that share one stand where the first of them does."""
    tables = {}
    for name, shown in families_of(cells).items():
        keys = tuple(shown)
        if len(keys[0]) > 1:
            tables[name] = table_of_family(name, shown, widest)
        elif keys[0]:
            table = tables.setdefault(keys, [['']] + [[key] for key, in keys])
            for row, text in zip(table, [name, *shown.values()]):
                row.append(text)
        else:
            tables.setdefault((), []).append([name, shown[()]])
    return tables.values()


def told(title, cells, widest):
    print(title, end='\n\n')
    for table in tables_of(cells, widest):
        print('\n'.join(lines_of_table(table)), end='\n\n')


# ------------------------------------------------------------------------------------------- what is shown of a cell

def shown_in_display(cell):
    """Of a cell of the JSON display: its entries, with `!` where they clash, and what is implied besides."""
    entry, conflict = cell['entry'], cell['conflict']
    if not isinstance(entry, list):
        entry, conflict = ([] if entry is None else [entry]), [conflict]
    implied = [each['value'] for each in cell['implied'] if each['value'] not in entry]
    parts = ['/'.join(value + ('' if against is None else '!') for value, against in zip(entry, conflict))]
    parts += [f'({"/".join(implied)})'] if implied else []
    return ' '.join(part for part in parts if part) or '.'


def shown_in_plan(values, uses):
    """The cells of an assignment, with a `*` behind what is used."""
    pairs = [[part.strip() for part in value.split('=')] for value in values]
    return [(cell, value + '*' * (f'{cell} = {value}' in uses)) for cell, value in pairs]


def plans_of(said):
    """The plans of a certificate: a title, the used entries, and the values of each."""
    if not said.sets[1:]:
        uses, values = said.sets[0]
        yield f'A plan that the certificate of `{said.claim}` shows', uses, values
        return
    kept = list(dict.fromkeys(use for uses, _ in said.sets for use in uses))
    for number, (uses, values) in enumerate(said.sets[1:], 1):
        without = [use for use in kept if use not in uses]
        rest = f', without {", ".join(without)}' if without else ''
        yield f'Plan {number} of {len(said.sets) - 1}, with {many(len(uses), "entry", "entries")}{rest}', uses, values


def main():
    parser = words_of(__doc__)
    parser.add_argument('--width', type=int, default=100, help='columns from which on a table is turned (100)')
    widest = parser.parse_args().width
    lines, found = sys.stdin.read().splitlines(), False
    for line in lines:
        if line.startswith('[{"cell":'):
            found = True
            told('Entered, (implied), ! where it clashes, . where it is open',
                 [(cell['cell'], shown_in_display(cell)) for cell in json.loads(line)], widest)
    for said, _ in certificates(lines):
        for title, uses, values in plans_of(said):
            if values:
                found = True
                told(title, shown_in_plan(values, set(uses)), widest)
    if not found:
        print('There is neither the answer of json nor a certificate with a plan in the input.')
    return 0 if found else 1


if __name__ == '__main__':
    run(main)
