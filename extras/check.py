#!/usr/bin/env python3
"""A second checker of certificates, written from docs/FORMATS.md alone.

    python3 extras/check.py SHEET < CERTIFICATE

Prints what `predicalc check SHEET` prints: `accepted`, a refusal of the certificate, or a refusal of the sheet. The
status is that of the program too: 0 accepted, 2 words, 3 sheet refused, 4 a file not read, 7 too long, 8 refused.

It shares no code with the program and needs Python 3.8 and its own library alone. Names follow the Unicode of the
Python that runs it, so a character that is newer than that Python is `syntax` here.
"""
import operator
import re
import sys
from functools import lru_cache
from itertools import product
from math import prod
from typing import NamedTuple

MILLION = 1_000_000
LONGEST_SHEET, LONGEST_CERTIFICATE, LONGEST_NAME = 4_194_304, 67_108_864, 4_194_304
COUNT_WORDS = ('atmost', 'atleast')
QUANTIFIERS = ('forall', 'exists', *COUNT_WORDS)
OPENERS = ('(', '!', '->', *QUANTIFIERS)
HOLDS = {'=': operator.eq, '!=': operator.ne, '<': operator.lt, '<=': operator.le, '>': operator.gt, '>=': operator.ge}

NOT_UTF8, SYNTAX, NO_BEGIN, WRONG_VERSION = '1 not-utf8', '2 syntax', '3 no-begin', '4 wrong-version'
UNKNOWN, DUPLICATE, ARITY, SORT = '5 unknown-name', '6 duplicate-name', '7 wrong-arity', '8 wrong-sort'
NOT_A_VALUE, EMPTY, LIMIT, TOO_DEEP = '9 not-a-value', '10 empty-sort', '11 limit', '21 too-deep'


class Fault(Exception):
    """A fault of the line that is read: its number and word, and the word of a passed limit."""


class Refused(Exception):
    """The line that is printed in place of `accepted`."""


def need(condition, what, *limit):
    if not condition:
        raise Fault(what, *limit)


def test(condition, told):
    if not condition:
        raise Refused('refused ' + told)


# ------------------------------------------------------------------------------------------------ lines and tokens

def lines_of(data):
    """The lines of a text, as bytes. A line feed at the end begins no further line."""
    ended = data.split(b'\n')
    last = ended.pop()
    lines = [line[:-1] if line.endswith(b'\r') else line for line in ended]
    return lines + [last] if last else lines


def decoded(line, fault):
    try:
        return line.decode()
    except UnicodeDecodeError:
        raise Fault(fault) from None


def name_end(text, at):
    """Where the longest name that starts here ends; `at` where none starts."""
    end = at
    while end < len(text) and (text[end] if end == at else '_' + text[end]).isidentifier():
        end += 1
    return end


NUMBER_OR_SIGN = re.compile(r'(?P<number>[0-9]+)|<->|<=|>=|!=|->|\.\.|[=<>!&|(),:.+-]')


def placed_tokens(text):
    """The tokens as a kind (`name`, `number`, `sign`), a text and the place where it begins; at each place the longest
    is taken. The kind is None where nothing can be taken, and that is the last one."""
    at = 0
    while at < len(text):
        if text[at] in ' \t':
            at += 1
            continue
        match = NUMBER_OR_SIGN.match(text, at)
        end = match.end() if match else name_end(text, at)
        kind = 'name' if not match else 'number' if match['number'] else 'sign'
        if end == at or kind == 'name' and len(text[at:end].encode()) > LONGEST_NAME:
            yield None, text[at:], at
            return
        yield kind, text[at:end], at
        at = end


def tokens(text):
    """The tokens as pairs of a kind and a text."""
    found = [(kind, token) for kind, token, _ in placed_tokens(text)]
    need(all(kind for kind, _ in found[-1:]), SYNTAX)
    return found


# -------------------------------------------------------------------------------------------------------- grammar

class Term(NamedTuple):
    """A name in a formula. `arguments` is None where it has none, else a list of items: of ints and terms."""
    name: str
    arguments: object


class Quantified(NamedTuple):
    word: str           # one of QUANTIFIERS
    number: object      # of `atmost` and `atleast`, else None
    variable: str
    sort: str
    body: object


class Joined(NamedTuple):
    sign: str           # `!` with one part, `->` and `<->` with two, `&` and `|` with two or more
    parts: tuple


class Compared(NamedTuple):
    sign: str
    left: list          # a side: pairs of 1 or -1 and an item
    right: list


class InTable(NamedTuple):
    table: str
    items: list


ATOMS = (Compared, InTable)


class Reader:
    """Reads one line's tokens by the grammar, and looks no name up."""

    def __init__(self, text, version=2):
        self.tokens, self.at, self.version = tokens(text), 0, version

    def peek(self, ahead=0):
        at = self.at + ahead
        return self.tokens[at] if at < len(self.tokens) else ('end', '')

    def sees(self, *signs):
        kind, text = self.peek()
        return kind == 'sign' and text in signs

    def takes(self, *signs):
        """The sign, where one of these comes next."""
        if not self.sees(*signs):
            return None
        self.at += 1
        return self.tokens[self.at - 1][1]

    def sign(self, *signs):
        taken = self.takes(*signs)
        need(taken, SYNTAX)
        return taken

    def name(self):
        kind, text = self.peek()
        need(kind == 'name' and text not in QUANTIFIERS, SYNTAX)
        self.at += 1
        return text

    def number(self):
        kind, text = self.peek()
        need(kind == 'number' and len(text) <= 18, SYNTAX)
        self.at += 1
        return int(text)

    def integer(self):
        return -self.number() if self.takes('-') else self.number()

    def value(self):
        return self.name() if self.peek()[0] == 'name' else self.integer()

    def bracketed(self, part):
        """( part, part, .. ), at least one."""
        self.sign('(')
        parts = [part()]
        while self.takes(','):
            parts.append(part())
        self.sign(')')
        return parts

    def cell(self):
        name = self.name()
        return name, tuple(self.bracketed(self.value)) if self.sees('(') else ()

    def entry(self, *signs):
        """A cell, a sign of these, and a value."""
        return self.cell(), self.sign(*signs), self.value()

    def end(self):
        need(self.at == len(self.tokens), SYNTAX)

    def formula(self):
        kind, text = self.peek()
        if kind == 'name' and text in QUANTIFIERS:
            return self.quantified()
        left = self.implication()
        return Joined('<->', (left, self.implication())) if self.takes('<->') else left

    def quantified(self):
        word = self.peek()[1]
        self.at += 1
        need(self.version == 2 or word not in COUNT_WORDS, SYNTAX)
        number = self.number() if word in COUNT_WORDS else None
        variable = self.name()
        self.sign(':')
        sort = self.name()
        self.sign('.')
        return Quantified(word, number, variable, sort, self.formula())

    def implication(self):
        left = self.joined('|', lambda: self.joined('&', self.unary))
        return Joined('->', (left, self.implication())) if self.takes('->') else left

    def joined(self, sign, part):
        parts = [part()]
        while self.takes(sign):
            parts.append(part())
        return Joined(sign, tuple(parts)) if len(parts) > 1 else parts[0]

    def unary(self):
        if self.takes('!'):
            return Joined('!', (self.unary(),))
        if self.takes('('):
            body = self.formula()
            self.sign(')')
            return body
        return self.atom()

    def atom(self):
        left = self.side()
        if not self.sees(*HOLDS) and len(left) == 1:
            item = left[0][1]
            need(isinstance(item, Term) and item.arguments, SYNTAX)
            return InTable(*item)
        return Compared(self.sign(*HOLDS), left, self.side())

    def side(self):
        items = [(1, self.item())]
        while self.sees('+', '-'):
            items.append((1 if self.sign('+', '-') == '+' else -1, self.item()))
        return items

    def item(self):
        if self.peek()[0] != 'name':
            return self.integer()
        return Term(self.name(), self.bracketed(self.item) if self.sees('(') else None)


def sort_line(read):
    """A range has bounds and no list, a listed sort a list, which may be empty, and no bounds."""
    name = read.name()
    read.sign('=')
    if read.peek()[0] == 'number' or read.sees('-'):
        low = read.integer()
        read.sign('..')
        return name, (low, read.integer()), None
    values = []
    while read.peek()[0] != 'end':
        values.append(read.name())
    return name, None, values


def cell_line(read):
    name = read.name()
    arguments = read.bracketed(read.name) if read.sees('(') else []
    read.sign(':')
    return name, arguments, read.name()


def rule_line(read):
    name = read.name()
    read.sign(':')
    return name, read.formula()


def entry_line(read):
    cell, _, value = read.entry('=')
    return cell, value


LINES = {'sort': sort_line, 'table': lambda read: (read.name(), read.bracketed(read.name)),
         'row': lambda read: (read.name(), read.bracketed(read.value)), 'cell': cell_line, 'rule': rule_line,
         'enter': entry_line, 'also': entry_line, 'begin': lambda read: ()}


def statement(read, before):
    """A sheet's line by its form alone, as its word and what follows. `before` has the words of the lines before it."""
    need('begin' not in before, SYNTAX)
    word = read.name()
    need(word in LINES and not ('rule' in before and word in ('sort', 'table', 'row', 'cell')), SYNTAX)
    need(word != 'also' or read.version == 2, SYNTAX)
    said = LINES[word](read)
    read.end()
    return word, said


# ------------------------------------------------------------------------------------------------ what a sheet has

class Node(NamedTuple):
    """What stands at a path: a formula or a counter, and the values of the variables around it."""
    formula: object
    values: dict


class Counter(NamedTuple):
    """The node that is true where at least `column` of the first `row` bodies are."""
    row: int
    column: int
    bodies: int
    columns: int


class Sheet:
    """A sheet's names and lines. A value of a range is an int, a listed value its name; a cell is its family's name and
    its arguments' values."""

    def __init__(self):
        self.kinds = {}         # name: 'sort', 'value', 'table' or 'family'
        self.sorts = {}         # name: a range, or the list of its values
        self.sort_of = {}       # a listed value's sort
        self.tables = {}        # name: the sorts of its columns, and its rows
        self.families = {}      # name: the sorts of its arguments, and that of its values
        self.rules = {}         # name: formula, in their order
        self.entries = []       # pairs of a cell and a value, the oldest first
        self.rows = self.cells = 0
        self.nodes, self.clauses = {}, {}       # by path, once asked for

    # Names and values

    def look(self, name, kind):
        need(name in self.kinds, UNKNOWN)
        need(self.kinds[name] == kind, SORT)

    def declare(self, name, kind):
        self.kinds[name] = kind

    def is_new(self, name):
        need(name not in self.kinds, DUPLICATE)

    def is_range(self, sort):
        return isinstance(self.sorts[sort], range)

    def value(self, value, sort):
        """Tests a value, an int or a name, for being of the sort."""
        if isinstance(value, int):
            need(self.is_range(sort), SORT)
            need(value in self.sorts[sort], NOT_A_VALUE)
        else:
            need(value in self.kinds, UNKNOWN)
            need(self.sort_of.get(value) == sort, SORT)

    def list_of_values(self, values, sorts):
        need(len(values) == len(sorts), ARITY)
        for value, sort in zip(values, sorts):
            self.value(value, sort)

    def cell(self, cell):
        """Tests a cell for being one of the sheet; the sort of its values."""
        name, values = cell
        self.look(name, 'family')
        arguments, sort = self.families[name]
        self.list_of_values(values, arguments)
        return sort

    def all_cells(self):
        for name, (arguments, _) in self.families.items():
            for values in product(*[self.sorts[sort] for sort in arguments]):
                yield name, values

    # The lines of a sheet, each with its tests in their order

    def add_sort(self, name, bounds, values):
        self.is_new(name)
        need(len(self.sorts) < 256, LIMIT, 'sorts')
        if bounds:
            need(all(abs(bound) <= MILLION for bound in bounds), LIMIT, 'number')
            values = range(bounds[0], bounds[1] + 1)
        need(len(values), EMPTY)
        need(len(values) <= 256, LIMIT, 'values')
        self.declare(name, 'sort')
        self.sorts[name] = values
        for value in () if bounds else values:
            self.is_new(value)
            self.declare(value, 'value')
            self.sort_of[value] = name

    def add_table(self, name, sorts):
        self.is_new(name)
        need(len(self.tables) < 256, LIMIT, 'tables')
        need(len(sorts) <= 4, LIMIT, 'arity')
        for sort in sorts:
            self.look(sort, 'sort')
        self.declare(name, 'table')
        self.tables[name] = sorts, set()

    def add_row(self, name, values):
        self.look(name, 'table')
        sorts, rows = self.tables[name]
        self.list_of_values(values, sorts)
        if tuple(values) not in rows:
            self.rows += 1
            need(self.rows <= 20_000, LIMIT, 'rows')
            rows.add(tuple(values))

    def add_cell(self, name, arguments, sort):
        self.is_new(name)
        need(len(self.families) < 256, LIMIT, 'families')
        need(len(arguments) <= 4, LIMIT, 'arity')
        for each in [*arguments, sort]:
            self.look(each, 'sort')
        self.cells += prod(len(self.sorts[each]) for each in arguments)
        need(self.cells <= 4096, LIMIT, 'cells')
        self.declare(name, 'family')
        self.families[name] = arguments, sort

    def add_rule(self, name, formula):
        self.formula(formula, {})
        need(len(self.rules) < 1024, LIMIT, 'rules')
        need(name not in self.rules, DUPLICATE)
        self.rules[name] = formula

    def add_enter(self, cell, value):
        self.value(value, self.cell(cell))
        self.entries = [entry for entry in self.entries if entry[0] != cell or entry[1] == value]
        if (cell, value) not in self.entries:
            self.entries.append((cell, value))

    def add_also(self, cell, value):
        self.value(value, self.cell(cell))
        if (cell, value) not in self.entries:
            need(sum(entered == cell for entered, _ in self.entries) < 8, LIMIT, 'entries')
            self.entries.append((cell, value))

    # The tests of a formula; `around` has the sorts of the variables of the quantifiers around it

    def formula(self, f, around):
        if isinstance(f, Quantified):
            self.quantified(f, around)
        elif isinstance(f, Compared):
            self.compared(f, around)
        elif isinstance(f, InTable):
            self.look(f.table, 'table')
            self.arguments(f.items, self.tables[f.table][0], around)
            self.few_cells(f.items)
        else:
            for part in f.parts:
                self.formula(part, around)

    def quantified(self, f, around):
        need(f.word != 'atmost' or f.number <= 255, LIMIT, 'count')
        need(f.word != 'atleast' or 1 <= f.number <= 256, LIMIT, 'count')
        need(len(around) < 16, LIMIT, 'depth')
        need(f.variable not in self.kinds and f.variable not in around, DUPLICATE)
        self.look(f.sort, 'sort')
        self.formula(f.body, {**around, f.variable: f.sort})

    def compared(self, f, around):
        left, right = self.side(f.left, around), self.side(f.right, around)
        self.few_cells([item for _, item in f.left + f.right])
        need(left == right and (left is None or f.sign in ('=', '!=')), SORT)

    def side(self, side, around):
        """The listed sort of a side, or None where it is a whole number."""
        for _, item in side:
            if isinstance(item, int):
                need(abs(item) <= MILLION, LIMIT, 'number')
                sort = None
            else:
                sort = self.term(item, around)
                sort = None if self.is_range(sort) else sort
            need(len(side) == 1 or sort is None, SORT)
        return sort

    def term(self, term, around):
        """The sort of a variable, a listed value or a cell."""
        name, arguments = term
        if name in around and arguments is None:
            return around[name]
        need(name in self.kinds or name in around, UNKNOWN)
        if self.kinds.get(name) == 'value' and arguments is None:
            return self.sort_of[name]
        need(self.kinds.get(name) == 'family', SORT)
        asked, sort = self.families[name]
        self.arguments(arguments or [], asked, around)
        return sort

    def arguments(self, items, asked, around):
        need(len(items) == len(asked), ARITY)
        for item, sort in zip(items, asked):
            if isinstance(item, int):
                self.value(item, sort)
            else:
                need(self.term(item, around) == sort, SORT)

    def few_cells(self, items):
        need(sum(map(self.cells_in, items)) <= 16, LIMIT, 'reads')

    def cells_in(self, item):
        """How many cells an item writes, each place counted."""
        if isinstance(item, int):
            return 0
        return (self.kinds.get(item.name) == 'family') + sum(map(self.cells_in, item.arguments or ()))

    # What makes a formula true; `cells` has the cells' values, and a cell that it lacks is a KeyError

    def item_value(self, item, variables, cells):
        if isinstance(item, int):
            return item
        if item.name in variables:
            return variables[item.name]
        if self.kinds[item.name] == 'value':
            return item.name
        return cells[item.name, tuple([self.item_value(each, variables, cells) for each in item.arguments or ()])]

    def side_value(self, side, variables, cells):
        values = [self.item_value(item, variables, cells) for _, item in side]
        return values[0] if len(values) == 1 else sum(sign * value for (sign, _), value in zip(side, values))

    def atom_holds(self, f, variables, cells):
        if isinstance(f, InTable):
            return tuple([self.item_value(item, variables, cells) for item in f.items]) in self.tables[f.table][1]
        return HOLDS[f.sign](self.side_value(f.left, variables, cells), self.side_value(f.right, variables, cells))

    def holds(self, f, variables, cells):
        if isinstance(f, ATOMS):
            return self.atom_holds(f, variables, cells)
        if isinstance(f, Quantified):
            parts = (self.holds(f.body, {**variables, f.variable: value}, cells) for value in self.sorts[f.sort])
            if f.number is None:
                return all(parts) if f.word == 'forall' else any(parts)
            return sum(parts) <= f.number if f.word == 'atmost' else sum(parts) >= f.number
        parts = (self.holds(part, variables, cells) for part in f.parts)
        if f.sign in '&|':
            return all(parts) if f.sign == '&' else any(parts)
        if f.sign == '!':
            return not next(parts)
        first, second = parts
        return first == second if f.sign == '<->' else second or not first

    # Paths: a rule's name and the numbers of children from its root on

    def node(self, path):
        """The node at a path; None where the sheet has none."""
        if path not in self.nodes:
            rule, steps = path
            found = Node(self.rules[rule], {}) if rule in self.rules else None
            for step in steps:
                found = found and self.child(found, step)
            self.nodes[path] = found
        return self.nodes[path]

    def child(self, node, number):
        f, variables = node
        if isinstance(f, Joined) and number < len(f.parts):
            return Node(f.parts[number], variables)
        if not isinstance(f, Quantified):
            return None
        values, columns = self.sorts[f.sort], columns_of(f)
        if number < len(values):
            return Node(f.body, {**variables, f.variable: values[number]})
        row, column = divmod(number - len(values), columns) if columns else (len(values), 0)
        return Node(Counter(row + 1, column + 1, len(values), columns), {}) if row < len(values) else None

    def clauses_at(self, path):
        """The clauses of the node at a path, from number 1 on; None stands for one that doesn't exist."""
        if path not in self.clauses:
            f = self.node(path).formula
            if isinstance(f, Quantified):
                made = quantified_clauses(f, path, len(self.sorts[f.sort]))
            elif isinstance(f, Counter):
                made = counter_clauses(f, path)
            else:
                made = [] if isinstance(f, ATOMS) else joined_clauses(f, path)
            self.clauses[path] = made
        return self.clauses[path]


# ------------------------------------------------------------------------------------------------- a sheet's text

def sheet_fault(number, fault):
    what, *limit = fault.args
    return Refused(' '.join(['sheet refused', what, f'line {number}', *limit]))


def shallow(text, version):
    """A reader of the line, which has at most 128 of what opens a level."""
    read = Reader(text, version)
    need(sum(token in OPENERS for _, token in read.tokens) <= 128, TOO_DEEP)
    return read


def version_of(read):
    need(read.name() == 'sheet', SYNTAX)
    version = read.number()
    read.end()
    need(version in (1, 2), WRONG_VERSION)
    return version


def statements(data):
    """The lines behind the version, each as its number, its word and what follows; `begin` is the last one."""
    said, before, version = [], set(), None
    for number, raw in enumerate(lines_of(data), 1):
        try:
            text = decoded(raw, NOT_UTF8)
            if text.strip(' \t')[:1] in ('', ';'):
                continue
            read = shallow(text, version or 1)
            if version is None:
                version = version_of(read)
                continue
            said.append((number, *statement(read, before)))
            before.add(said[-1][1])
        except Fault as fault:
            raise sheet_fault(number, fault) from None
    if 'begin' not in before:
        raise Refused(f'sheet refused {NO_BEGIN}')
    return said


def load(data):
    """The sheet of a text."""
    sheet = Sheet()
    for number, word, said in statements(data)[:-1]:
        try:
            getattr(sheet, 'add_' + word)(*said)
        except Fault as fault:
            raise sheet_fault(number, fault) from None
    return sheet


# -------------------------------------------------------------------------------------- axioms, and what they say
# A literal is a pair: is it positive, and what it is of: a path (rule, numbers) or an entry (cell, value).

def below(path, number):
    return path[0], (*path[1], number)


def literals(positive, things):
    return [(positive, thing) for thing in things]


def columns_of(f):
    """How many counters a quantifier has for each value of its sort."""
    return {'atmost': (f.number or 0) + 1, 'atleast': f.number}.get(f.word, 0)


def joint_clauses(is_all, path, children):
    """Of `&` and `forall`, or of `|` and `exists`."""
    own = [(not is_all, path)]
    return [own + [(is_all, child)] for child in children] + [[(is_all, path)] + literals(not is_all, children)]


def joined_clauses(f, p):
    children = [below(p, number) for number in range(len(f.parts))]
    if f.sign in '&|':
        return joint_clauses(f.sign == '&', p, children)
    a, b = children[0], children[-1]
    if f.sign == '!':
        return [[(False, p), (False, a)], [(True, p), (True, a)]]
    if f.sign == '->':
        return [[(False, p), (False, a), (True, b)], [(True, p), (True, a)], [(True, p), (False, b)]]
    return [[(False, p), (False, a), (True, b)], [(False, p), (True, a), (False, b)],
            [(True, p), (True, a), (True, b)], [(True, p), (False, a), (False, b)]]


def quantified_clauses(f, path, bodies):
    if f.number is None:
        return joint_clauses(f.word == 'forall', path, [below(path, number) for number in range(bodies)])
    last = below(path, bodies + bodies * columns_of(f) - 1)
    is_least = f.word == 'atleast'
    return [[(False, path), (is_least, last)], [(True, path), (not is_least, last)]]


def counter_clauses(counter, path):
    """With `s(i,0)` true and `s(0,j)` false for j from 1 on: what is false is left out, and what is true is no clause."""
    row, column, bodies, columns = counter
    node = path[0], path[1][:-1]
    body = (True, below(node, row - 1))

    def at(i, j):
        """The literal of s(i,j), or its truth."""
        return j == 0 if j == 0 or i == 0 else (True, below(node, bodies + (i - 1) * columns + j - 1))

    def no(literal):
        return not literal if isinstance(literal, bool) else (not literal[0], literal[1])

    own, above, before = at(row, column), at(row - 1, column), at(row - 1, column - 1)
    clauses = [no(own), above, body], [no(own), above, before], [own, no(above)], [own, no(before), no(body)]
    return [None if True in clause else [each for each in clause if each is not False] for clause in clauses]


def axiom_some(sheet, cell):
    return literals(True, [(cell, value) for value in sheet.sorts[sheet.cell(cell)]])


def axiom_one(_, cell, first, second):
    return None if first == second else literals(False, [(cell, first), (cell, second)])


def axiom_rule(_, name):
    return [(True, (name, ()))]


def axiom_node(sheet, path, number):
    clauses = sheet.clauses_at(path)
    return clauses[number - 1] if 1 <= number <= len(clauses) else None


def axiom_atom(sheet, path, reads):
    f, variables = sheet.node(path)
    cells = dict(reads)
    if not isinstance(f, ATOMS) or len(cells) < len(reads):
        return None
    try:
        return literals(False, reads) + [(sheet.atom_holds(f, variables, cells), path)]
    except KeyError:
        return None


AXIOMS = {'some': axiom_some, 'one': axiom_one, 'rule': axiom_rule, 'node': axiom_node, 'atom': axiom_atom}


# -------------------------------------------------------------------------------------------- a certificate's text

def number_of(word):
    need(re.fullmatch('[0-9]{1,18}', word), SYNTAX)
    return int(word)


def clause_number(word):
    number = number_of(word)
    need(number <= 4_294_967_295, SYNTAX)
    return number


def path_of(word):
    """@R/K/K.. as R and the numbers."""
    need(word.startswith('@'), SYNTAX)
    name, *steps = word[1:].split('/')
    return whole(Reader.name)(name), tuple([number_of(step) for step in steps])


def whole(form):
    """Reads a whole word by a form of the grammar."""
    def call(word):
        read = Reader(word)
        said = form(read)
        read.end()
        return said
    return call


def entry_of(word):
    cell, _, value = whole(lambda read: read.entry('='))(word)
    return cell, value


@lru_cache(None)
def literal_of(word):
    """Is it positive, is it a path, and what it is of."""
    positive = not word.startswith('~')
    word = word if positive else word[1:]
    is_path = word.startswith('@')
    return positive, is_path, path_of(word) if is_path else entry_of(word)


CELL, VALUE, NAME = whole(Reader.cell), whole(Reader.value), whole(Reader.name)
FORMS = {'some': [CELL], 'one': [CELL, VALUE, VALUE], 'rule': [NAME], 'node': [path_of, clause_number],
         'block': [number_of]}
ON_SETS = ('repairs', 'not')


class Given(NamedTuple):
    """The used entries and values of a certificate or of one of its sets, each with its line; and the line of `set`."""
    start: int
    uses: list
    values: list


class Certificate:
    """Reads a certificate's text for a sheet. A Fault of a line is of the line `number`."""

    def __init__(self, sheet):
        self.sheet, self.known = sheet, set()
        self.number = self.last = 0     # the line that is read; the last one before the derivation
        self.claim, self.target = None, None    # `is`, `not`, `against`, `repairs`, `inconsistent`; a literal or a rule
        self.given = []                 # what is used and shown: one, or one for each set
        self.derivation = []            # the line, the word and what follows
        self.place = self.first_line    # what reads the next line

    def read(self, data):
        lines = lines_of(data)
        for self.number, raw in enumerate(lines, 1):
            text = decoded(raw, SYNTAX)
            words = text.replace('\t', ' ').split(' ')
            words = [word for word in words if word]
            if words:
                self.place(text, words)
        self.number = len(lines) + 1
        need(self.place == self.behind_end, SYNTAX)

    # The lines in their order: each method takes the next line, and says what takes the one behind it

    def first_line(self, _, words):
        need(len(words) == 2 and words[0] == 'certificate' and number_of(words[1]) == 1, SYNTAX)
        self.place = self.claim_line

    def claim_line(self, text, words):
        need(words[0] == 'claim', SYNTAX)
        read = Reader(text)
        read.name()
        self.read_claim(read)
        self.last = self.number
        if self.claim not in (*ON_SETS, 'inconsistent'):
            self.given.append(Given(self.number, [], []))
        self.place = self.derived_line if self.claim == 'inconsistent' else self.given_line

    def read_claim(self, read):
        words = [text for _, text in read.tokens[1:]]
        names = [kind == 'name' for kind, _ in read.tokens[1:]]
        if words in (['inconsistent'], ['repairs']):
            self.claim = words[0]
        elif words[0:1] == ['against'] and names == [True, True]:
            read.name()
            self.claim, self.target = 'against', read.name()
            self.has('path', (self.target, ()))
        else:
            self.claim = 'not' if words[0:1] == ['not'] and names[1:2] == [True] else 'is'
            if self.claim == 'not':
                read.name()
            self.read_target(read, *('=', '!=')[:1 if self.claim == 'not' else 2])

    def read_target(self, read, *signs):
        cell, sign, value = read.entry(*signs)
        read.end()
        self.has('entry', (cell, value))
        self.target = sign == '=', (cell, value)

    def given_line(self, text, words):
        """`set`, `use` or `value`, or the first line of the derivation."""
        if words == ['set'] and self.claim in ON_SETS:
            self.given.append(Given(self.number, [], []))
        elif words[0] in ('use', 'value'):
            need(self.given, SYNTAX)
            given = self.given[-1]
            need(words[0] == 'value' or not given.values, SYNTAX)
            (given.uses if words[0] == 'use' else given.values).append((self.number, self.given_entry(text)))
        else:
            self.derived_line(text, words)
            return
        self.last = self.number

    def given_entry(self, text):
        read = Reader(text)
        read.name()
        cell, _, value = read.entry('=')
        read.end()
        self.has('entry', (cell, value))
        return cell, value

    def derived_line(self, _, words):
        if words == ['end']:
            self.place = self.behind_end
            return
        self.place = self.derived_line
        need(number_of(words[0]) == len(self.derivation) + 1 and len(words) > 1, SYNTAX)
        word, rest = words[1], words[2:]
        read = {'atom': self.read_atom, 'step': self.read_step}.get(word) or self.read_form
        self.derivation.append((self.number, word, read(word, rest)))

    def behind_end(self, _, words):
        raise Fault(SYNTAX)

    # The lines of a derivation: first their syntax, then their names

    def read_form(self, word, rest):
        need(word in FORMS and len(rest) == len(FORMS[word]), SYNTAX)
        said = [form(each) for form, each in zip(FORMS[word], rest)]
        if word == 'block':
            need(1 <= said[0] <= len(self.given) and self.claim in ON_SETS, UNKNOWN)
        elif word == 'one':
            self.has('entry', (said[0], said[1]))
            self.has('entry', (said[0], said[2]))
        else:
            self.has('cell' if word == 'some' else 'path', (said[0], ()) if word == 'rule' else said[0])
        return said

    def read_atom(self, _, rest):
        need(rest, SYNTAX)
        path, reads = path_of(rest[0]), [entry_of(word) for word in rest[1:]]
        self.has('path', path)
        for entry in reads:
            self.has('entry', entry)
        return [path, reads]

    def read_step(self, _, rest):
        need(':' in rest, SYNTAX)
        colon = rest.index(':')
        said = [literal_of(word) for word in rest[:colon]]
        hints = [number_of(word) for word in rest[colon + 1:]]
        for _, is_path, thing in said:
            self.has('path' if is_path else 'entry', thing)
        return [[(positive, thing) for positive, _, thing in said], hints]

    def has(self, kind, thing):
        """Tests a path, a cell or an entry for being the sheet's."""
        if (kind, thing) in self.known:
            return
        if kind == 'path':
            need(self.sheet.node(thing), UNKNOWN)
        else:
            sort = self.sheet.cell(thing if kind == 'cell' else thing[0])
            if kind == 'entry':
                self.sheet.value(thing[1], sort)
        self.known.add((kind, thing))


# ----------------------------------------------------------------------------------------------------------- tests

def test_given(sheet, certificate, given, end):
    """The entries, values and rules of a certificate or of a set. `end` is the last line of what is given."""
    entered = set(sheet.entries)
    for line, entry in given.uses:
        test(entry in entered, f'use-not-entered line {line}')
    cells = list(sheet.all_cells())
    for place, (line, (cell, _)) in enumerate(given.values):
        test(place < len(cells) and cells[place] == cell, f'bad-values line {line}')
    test(len(given.values) == len(cells), f'bad-values line {end + 1}')
    values = dict(entry for _, entry in given.values)
    for line, (cell, value) in given.uses:
        test(values[cell] == value, f'use-not-held line {line}')
    for name, formula in sheet.rules.items():
        if (certificate.claim, certificate.target) != ('against', name):
            test(sheet.holds(formula, {}, values), f'rule-broken {name}')
    if certificate.claim == 'not':
        cell, value = certificate.target[1]
        test(values[cell] != value, f'has-value line {given.start}')


def last_line(given):
    return max([given.start] + [line for line, _ in given.uses + given.values])


def entries_of(given):
    return {entry for _, entry in given.uses}


def test_sets(given):
    """No set lies within another."""
    sets = [entries_of(each) for each in given]
    for place, each in enumerate(sets):
        nested = any(each <= other or other <= each for other in sets[:place])
        test(not nested, f'set-in-set line {given[place].start}')


def clause_of(sheet, certificate, word, said):
    """The clause of an axiom or a block; None where it is no axiom."""
    if word == 'block':
        kept = entries_of(certificate.given[said[0] - 1])
        return literals(True, [entry for entry in sheet.entries if entry not in kept])
    return AXIOMS[word](sheet, *said)


def negated(literal):
    return not literal[0], literal[1]


def is_good(clause, hints, clauses):
    """Is the step good, `clauses` being those of the lines before it?"""
    if any(negated(literal) in clause for literal in clause):
        return not hints
    if not hints or not all(1 <= hint <= len(clauses) for hint in hints):
        return False
    false = set(clause)
    for hint in hints[:-1]:
        left = clauses[hint - 1] - false
        if len(left) != 1:
            return False
        false.add(negated(*left))
    return clauses[hints[-1] - 1] <= false


def derived(sheet, certificate):
    """Tests the derivation; the clause of its last line, None where there is no line."""
    clauses = []
    for line, word, said in certificate.derivation:
        if word == 'step':
            clause = frozenset(said[0])
            test(is_good(clause, said[1], clauses), f'bad-step line {line}')
        else:
            clause = clause_of(sheet, certificate, word, said)
            test(clause is not None, f'bad-axiom line {line}')
        clauses.append(frozenset(clause))
    return clauses[-1] if clauses else None


def allowed(certificate):
    """The literals that the last clause may have."""
    if certificate.claim not in ('is', 'against'):
        return set()
    used = set(literals(False, entries_of(certificate.given[0])))
    return used | {certificate.target} if certificate.claim == 'is' else used


def certificate_of(sheet, data):
    """The certificate that a text is, for a sheet."""
    certificate = Certificate(sheet)
    try:
        certificate.read(data)
    except Fault as fault:
        what = 'syntax' if fault.args[0] == SYNTAX else 'unknown-name'
        raise Refused(f'refused {what} line {certificate.number}') from None
    return certificate


def test_all_given(sheet, certificate):
    """All tests but those of the derivation."""
    for given in certificate.given:
        end = last_line(given) if certificate.claim in ON_SETS else certificate.last
        test_given(sheet, certificate, given, end)
    if certificate.claim in ON_SETS:
        test_sets(certificate.given)


def verdict(sheet, data):
    """The line that tells what the certificate is."""
    certificate = certificate_of(sheet, data)
    test_all_given(sheet, certificate)
    last = derived(sheet, certificate)
    test(last is not None and last <= allowed(certificate), 'wrong-end')
    return 'accepted'


# ------------------------------------------------------------------------------------------------------- the words

def main(words):
    """What is printed, and the status."""
    if words in (['--help'], ['-h']):
        return __doc__.strip(), 0
    if len(words) != 1 or not words[0] or words[0].startswith('-'):
        return 'usage: check.py SHEET < CERTIFICATE', 2
    try:
        with open(words[0], 'rb') as file:
            text = file.read(LONGEST_SHEET + 1)
    except OSError:
        return None, 4
    if len(text) > LONGEST_SHEET:
        return 'refused 19 too-long', 7
    try:
        sheet = load(text)
    except Refused as refused:
        return refused.args[0], 3
    data = sys.stdin.buffer.read(LONGEST_CERTIFICATE + 1)
    if len(data) > LONGEST_CERTIFICATE:
        return 'refused 19 too-long', 7
    try:
        return verdict(sheet, data), 0
    except Refused as refused:
        return refused.args[0], 8


if __name__ == '__main__':
    sys.setrecursionlimit(10_000)
    answer, status = main(sys.argv[1:])
    if answer:
        print(answer)
    sys.exit(status)
