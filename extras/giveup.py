#!/usr/bin/env python3
"""Says what has to be given up, so that the entries that are left agree.

    (echo json; echo repairs) | predicalc edit SHEET | python3 extras/giveup.py

`repairs` lists, for each part of the sheet, every set of entries that can be kept together. Where clashes that have nothing
to do with one another stand in one part these are all their combinations. Here each clash stands by itself: what is
given up in a part is one choice of each of its clashes, whatever is chosen of the others.

With the answer of `json` it also tells the entries that the rules alone exclude, which stand in no list. The status is 0
where there was an answer of `repairs`, else 1.
"""
import json
import sys
from math import comb

from common import listed, many, run, words_of

EXCLUDED = 'Against the rules alone, whatever else is entered:'


def parts_of(lines):
    """The parts that `repairs` lists: the first cell of each, and the sets of entries that can be kept."""
    parts = []
    for line in lines:
        if line.startswith('part '):
            parts.append((line[5:], []))
        elif line.startswith('  keep ') and parts:
            kept = line[7:]
            parts[-1][1].append(frozenset() if kept == 'nothing' else frozenset(listed(kept)))
    return parts


def excluded_in(lines):
    """The entries of the JSON displays that the rules alone exclude."""
    for cell in [cell for line in lines if line.startswith('[{"cell":') for cell in json.loads(line)]:
        entry, conflict = cell['entry'], cell['conflict']
        if not isinstance(entry, list):
            entry, conflict = [entry], [conflict]
        for value, against in zip(entry, conflict):
            if against == []:
                yield f'{cell["cell"]} = {value}'


# ---------------------------------------------------------------------------------------------------------- factors
# A family of sets is the product of others over blocks of its items where each of its sets is a union of one of each,
# and each such union is one of its sets. The finest such blocks are found one by one, each grown from an item.

def missing(family, block):
    """A set within the block and one outside, each of a set of the family, whose union isn't one; else None."""
    inside, outside = {each & block for each in family}, {each - block for each in family}
    if len(inside) * len(outside) == len(family):
        return None
    return next((a, b) for a in sorted(inside, key=sorted) for b in sorted(outside, key=sorted) if a | b not in family)


def block_of(family, item):
    """The finest block that has the item. Where a union is missing, the set nearest to it with the same part inside
    differs from it in items of the block alone."""
    block = frozenset([item])
    while True:
        pair = missing(family, block)
        if not pair:
            return block
        inside, outside = pair
        block |= min(((each - block) ^ outside for each in family if each & block == inside), key=len)


def factors(family):
    """The blocks of items, each with the family's sets within it."""
    items = sorted(frozenset().union(*family))
    while items:
        block = block_of(family, items[0])
        yield block, {each & block for each in family}
        items = [item for item in items if item not in block]


# --------------------------------------------------------------------------------------------------------- the text

def told_choice(block, choices):
    """The lines of one choice."""
    sizes = {len(choice) for choice in choices}
    least = min(sizes)
    if len(sizes) == 1 and len(choices) == comb(len(block), least):
        return [f'  {least} of these {len(block)}'] + [f'    {entry}' for entry in sorted(block)]
    ordered = sorted(choices, key=lambda choice: (len(choice), sorted(choice)))
    return [f'  one of these {len(choices)} groups'] + ['    ' + ', '.join(sorted(choice)) for choice in ordered]


def told_part(name, sets):
    """The lines of a part where something has to be given up."""
    entries = frozenset().union(*sets)
    lost = {entries - kept for kept in sets}
    clashing = frozenset().union(*lost)
    lines = [f'The part of {name}: {many(len(sets), "way")}. {many(len(entries - clashing), "entry", "entries")} of '
             f'{len(entries)} can be kept in any case. Besides, give up']
    for block, choices in factors(lost):
        lines += told_choice(block, choices)
    return lines


def main():
    words_of(__doc__).parse_args()
    lines = sys.stdin.read().splitlines()
    parts, excluded = parts_of(lines), list(dict.fromkeys(excluded_in(lines)))
    clashes = [part for part in parts if len(part[1]) > 1]
    if not parts:
        print('There is no answer of repairs in the input, or the sheet has no entry.')
        return 1
    if excluded:
        print('\n'.join([EXCLUDED] + ['  ' + entry for entry in excluded]), end='\n\n')
    for name, sets in clashes:
        print('\n'.join(told_part(name, sets)), end='\n\n')
    if not clashes:
        print('Nothing else has to be given up.' if excluded else 'Nothing has to be given up.')
    return 0


if __name__ == '__main__':
    run(main)
