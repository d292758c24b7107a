#!/usr/bin/env python3
"""Says what is wrong with the first line of a sheet that is refused, and marks names that are read wrongly.

    python3 extras/lint.py SHEET
    python3 extras/lint.py SHEET --line 'rule five : ..'

Prints the refusal that the program has for the sheet's text, names and sorts; the line; a caret where reading stopped; and
what mostly stands behind that. Where nothing is refused so, it says that, which is no word on weight and on whether the rules
agree. Then it tells names with characters that can't be seen, with letters of several alphabets, and names that look alike;
and rules that say mostly something else than is meant, as `exists x:s . F -> G`.
With --line it judges that line in place of the sheet, as a command of any kind that is typed once the sheet is loaded.

The status is 0 where there was nothing to tell, else 1; 4 where the file can't be read.
"""
import re
import sys
import unicodedata
from difflib import get_close_matches

import check
from common import bytes_of, run, words_of

SHEET_WORDS = 'sort table row cell rule enter also begin'.split()
COMPARED = tuple(check.HOLDS)
JOINED = ('&', '|', '->', '<->', '!')


# ---------------------------------------------------------------------------------------------------------------- commands

def cleared(read):
    """What `clear` names: a cell, and a value or None."""
    cell = read.cell()
    return cell, read.value() if read.takes('=') else None


def proved(read):
    """The word behind `prove`."""
    check.need(read.peek()[1] == 'repairs', check.SYNTAX)
    return (read.name(),)


def nothing(_):
    return ()


COMMAND_LINES = {
    'enter': check.entry_line, 'also': check.entry_line, 'clear': cleared, 'rule': check.rule_line, 'drop': lambda read: (read.name(),),
    'budget': lambda read: (read.number(),), 'show': nothing, 'grid': nothing, 'json': nothing, 'why': lambda read: read.entry('=', '!='),
    'whynot': lambda read: read.entry('='), 'repairs': nothing, 'prove': proved, 'ask': lambda read: (read.formula(),), 'dump': nothing,
}
FORMS = {
    'sort': 'sort NAME = VALUE VALUE .., or sort NAME = LOW .. HIGH', 'table': 'table NAME(SORT, SORT, ..)',
    'row': 'row NAME(VALUE, VALUE, ..)', 'cell': 'cell NAME : SORT, or cell NAME(SORT, ..) : SORT', 'begin': 'begin',
    'enter': 'enter CELL = VALUE', 'also': 'also CELL = VALUE', 'clear': 'clear CELL, or clear CELL = VALUE', 'rule': 'rule NAME : FORMULA',
    'drop': 'drop NAME', 'budget': 'budget K', 'why': 'why CELL = VALUE, or why CELL != VALUE', 'whynot': 'whynot CELL = VALUE',
    'prove': 'prove repairs', 'ask': 'ask FORMULA', 'show': 'show, for all cells', 'grid': 'grid, for all cells', 'json': 'json',
    'repairs': 'repairs', 'dump': 'dump',
}
# Words that people begin a command with, and what is there for them.
WANTED = {
    'the run ends where the input ends: at a terminal by Ctrl-D': 'quit exit bye q stop end',
    'nothing is undone: clear takes an entry back, and drop a rule': 'undo back reset revert',
    'keep the answer of dump in a file, which predicalc edit FILE reads': 'save load open write export',
    'write enter CELL = VALUE': 'set put add assign let insert change',
    'clear CELL takes an entry back, and drop NAME a rule': 'remove delete del unset erase',
    'write show, or grid': 'list print display view',
    'write why CELL != VALUE, where `not implied` says that nothing is against it': 'can may possible could',
    'this is a word of the shell, before a file: predicalc check FILE': 'check merge posts edit replay',
}


def command(read):
    """A command by its form alone, as its word and what follows."""
    word = read.name()
    check.need(word in COMMAND_LINES, check.SYNTAX)
    said = COMMAND_LINES[word](read)
    read.end()
    return word, said


def test_command(sheet, word, said):
    """The tests of a command's names, and of what it asks of the sheet."""
    if word in ('enter', 'also'):
        getattr(sheet, 'add_' + word)(*said)
    elif word in ('why', 'whynot', 'clear'):
        sort = sheet.cell(said[0])
        if said[-1] is not None:
            sheet.value(said[-1], sort)
        entries = [entry for entry in sheet.entries if entry[0] == said[0] and said[-1] in (None, entry[1])]
        check.need(entries or word != 'clear', '16 no-entry')
    elif word in ('rule', 'ask'):
        sheet.formula(said[-1], {})
        check.need(len(sheet.rules) < 1024, check.LIMIT, 'rules')
        name = said[0] if word == 'rule' else 'ask'
        check.need(name not in sheet.rules, '17 duplicate-rule')
        sheet.rules[name] = said[-1]
    elif word == 'drop':
        check.need(said[0] in sheet.rules, '18 no-rule')
    elif word == 'budget':
        check.need(1 <= said[0] <= 10 ** 12, check.LIMIT, 'budget')


# ------------------------------------------------------------------------------------------ where reading a line stopped

class Stop:
    """The tokens of a line, and where reading stopped among them. `before` has the words of a sheet's lines before it, and is None
    where the line is a command."""

    def __init__(self, text, version, before):
        self.text, self.version, self.lines_before = text, version, before
        self.tokens = list(check.placed_tokens(text))
        self.index = self.stopped()
        self.here = self.token(0)
        self.kind = self.tokens[self.index][0] if self.index < len(self.tokens) else 'end'
        self.words = [token for _, token, _ in self.tokens]
        self.first = self.words[0] if self.words else ''

    def stopped(self):
        """The number of the first token that can't be read on."""
        if self.tokens and self.tokens[-1][0] is None:
            return len(self.tokens) - 1
        read = check.Reader(self.text, self.version)
        try:
            if self.version is None:
                check.version_of(read)
            elif self.lines_before is None:
                command(read)
            else:
                check.statement(read, self.lines_before)
        except check.Fault:
            return self.moved(read.at)
        return len(self.tokens)

    def moved(self, index):
        """The reader may be behind a word that may not stand there: back to the word that is at fault."""
        token = self.tokens[index - 1][1] if 0 < index <= len(self.tokens) else ''
        is_count = token in check.COUNT_WORDS and self.version == 1
        is_line = index == 1 and not self.may_begin(token)
        return index - 1 if is_count or is_line else index

    def may_begin(self, word):
        if self.lines_before is None:
            return word in COMMAND_LINES
        is_late = 'rule' in self.lines_before and word in SHEET_WORDS[:4]
        return word in SHEET_WORDS and not is_late and not (word == 'also' and self.version == 1)

    def token(self, ahead):
        place = self.index + ahead
        return self.tokens[place][1] if 0 <= place < len(self.tokens) else ''

    def back(self, count=1):
        return self.token(-count)

    def kind_back(self):
        return self.tokens[self.index - 1][0] if self.index else None

    def column(self):
        """The place of the caret, in the text."""
        return self.tokens[self.index][2] if self.index < len(self.tokens) else len(self.text.rstrip())

    def touches(self):
        """Does the token begin right where the one before ends?"""
        return self.index > 0 and self.column() == self.tokens[self.index - 1][2] + len(self.back())

    def depth(self):
        """How many parentheses are open."""
        words = self.words[:self.index]
        return words.count('(') - words.count(')')

    def has_comparison(self):
        """Does the atom before have a comparison's sign?"""
        for word in reversed(self.words[:self.index]):
            if word in COMPARED or word in JOINED or word == '.':
                return word in COMPARED
        return False

    def in_arguments(self):
        """Is this between the parentheses of a cell or of a table?"""
        opened = []
        for place, word in enumerate(self.words[:self.index]):
            if word == '(':
                opened.append(place > 0 and self.tokens[place - 1][0] == 'name')
            elif word == ')' and opened:
                opened.pop()
        return bool(opened) and opened[-1]


FOREIGN = {'≠': '!=', '≤': '<=', '≥': '>=', '∧': '&', '∨': '|', '¬': '!', '→': '->', '⇒': '->', '↔': '<->', '⇔': '<->', '∀': 'forall',
           '∃': 'exists', '–': '-', '—': '-', '−': '-', '…': '..', '：': ':', '，': ',', '（': '(', '）': ')', '＝': '='}
NO_NAME = 'a name begins with a letter or `_` and goes on with letters, digits and `_`'
ENTRY_WORDS, FORMULA_WORDS = ('enter', 'also', 'row', 'clear', 'why', 'whynot'), ('rule', 'ask')
ONE_EACH = 'one quantifier for each variable: forall a:s . forall b:t . ..'

# What mostly stands behind a stop: a test of the stop, and what is told. The first ones that fit are told.
CHARACTERS = [
    (lambda s: s.here[0] == '\ufeff', 'the file begins with a byte order mark: save it without'),
    (lambda s: s.here[0] in FOREIGN, lambda s: f'write {FOREIGN[s.here[0]]} for {s.here[0]}'),
    (lambda s: s.here[0].isspace(), lambda s: f'this blank is {name_of(s.here[0])}: type a space'),
    (lambda s: s.here[0] == ';' or s.here[0] == '#' or s.here.startswith('//'),
     'a comment stands on a line of its own, which starts with ;'),
    (lambda s: s.here[0] in '"\'`“”„‘’', f'names have no quotes: {NO_NAME}, as two_words'),
    (lambda s: s.here[0] == '*', 'there is no multiplying: write x + x'),
    (lambda s: s.here[0] in '/%', 'there is no dividing: a table says which pairs of values are meant'),
    (lambda s: s.here[0] in '{}[]', 'for values of a list write x = a | x = b; arguments stand in ( )'),
    (lambda s: True, lambda s: f'{name_of(s.here[0])} may not stand in a line: {NO_NAME}'),
]

COMMANDS = [
    (lambda s: s.here in SHEET_WORDS[:4] and len(s.words) > 1,
     'sorts, tables, rows and cells stand in the sheet alone: change the file, and start anew'),
    (lambda s: s.here in COMMAND_WORDS, lambda s: COMMAND_WORDS[s.here]),
    (lambda s: s.here.lower() in COMMAND_LINES, lambda s: f'write {s.here.lower()} for {s.here}'),
    (lambda s: get_close_matches(s.here.lower(), COMMAND_LINES, 1, 0.7),
     lambda s: f'write {get_close_matches(s.here.lower(), COMMAND_LINES, 1, 0.7)[0]} for {s.here}'),
    (lambda s: '=' in s.words, 'an entry is written enter CELL = VALUE'),
    (lambda s: True, f'a command begins with one of these: {", ".join(COMMAND_LINES)}'),
]
COMMAND_WORDS = {word: told for told, words in WANTED.items() for word in words.split()}

BEGINNINGS = [
    (lambda s: s.version is None, 'the first line that is neither blank nor a comment is `sheet 1` or `sheet 2`'),
    (lambda s: 'begin' in s.lines_before, 'behind `begin` there is nothing but blank lines and comments: commands are typed'),
    (lambda s: s.here in SHEET_WORDS[:4], 'sorts, tables, rows and cells stand before the first rule'),
    (lambda s: s.here in ('also', *check.COUNT_WORDS) and s.version == 1,
     lambda s: f'{s.here} stands in a `sheet 2` alone: write that as the first line'),
    (lambda s: s.here in COMMAND_LINES and s.index == 0, lambda s: f'{s.here} is a command: it is typed, or stands in a file of commands'),
    (lambda s: get_close_matches(s.here.lower(), SHEET_WORDS, 1, 0.7) and s.index == 0,
     lambda s: f'write {get_close_matches(s.here.lower(), SHEET_WORDS, 1, 0.7)[0]} for {s.here}'),
    (lambda s: s.index == 0, f'a line begins with one of these: {", ".join(SHEET_WORDS)}'),
]

DECLARATIONS = [
    (lambda s: s.kind == 'name' and s.kind_back() == 'number' and s.touches(), lambda s: no_name(s.back() + s.here)),
    (lambda s: s.kind == 'number' and re.match('[0-9]+[^0-9 ,.)(:=&|<>!+-]', s.text[s.column():]),
     lambda s: no_name(re.match(r'\w+', s.text[s.column():])[0])),
    (lambda s: s.first == 'sort' and s.here == ',', 'the values of a sort stand side by side, with blanks alone between them'),
    (lambda s: s.first == 'sort' and s.kind == 'number' and s.kind_back() == 'number', 'a range has two bounds: sort n = 1 .. 3'),
    (lambda s: s.first == 'cell' and s.here == ',', 'a line for each cell'),
    (lambda s: s.first == 'cell' and s.here == '=', 'what a cell has is entered by a line of its own: enter CELL = VALUE'),
    (lambda s: s.first in ('cell', 'table') and s.kind == 'number',
     'a sort is named here: declare it before, as sort number = 1 .. 5'),
    (lambda s: s.first in ('enter', 'also') and s.here == ',', 'a line for each entry'),
    (lambda s: s.first in ('enter', 'also') and s.here in COMPARED and s.here != '=',
     'an entry is a value; what a cell has not is said by a rule'),
    (lambda s: s.first not in FORMULA_WORDS and s.here == '-' and s.kind_back() == 'name' and s.touches(),
     lambda s: f'a name has no minus: write {s.back()}_{s.token(1)} for {s.back()}-{s.token(1)}'),
    (lambda s: s.first in ENTRY_WORDS and s.here in ('+', '-'), 'nothing is calculated here'),
    (lambda s: s.first == 'whynot' and s.here == '!=', 'whether some entries exclude a value says why CELL != VALUE'),
    (lambda s: s.first == 'why' and s.words[1:2] == ['not'], 'write whynot in one word'),
    (lambda s: s.first in ENTRY_WORDS and s.index == 2 and s.kind in ('name', 'number'),
     lambda s: f'what a cell has in parentheses stands in them: {s.back()}({s.here})'),
    (lambda s: s.first == 'rule' and (s.index == 2 and s.here != ':' or s.index == 1 and s.here == ':'),
     'a rule has a name and a colon: rule NAME : FORMULA'),
    (lambda s: s.first in FORMULA_WORDS and s.kind == 'end' and s.index < 4 and s.back() in ('ask', ':'),
     lambda s: f'the form is {FORMS[s.first]}'),
]

SIGNS = [
    (lambda s: s.here == '=' == s.back(), 'write = for =='),
    (lambda s: s.here == '=' and s.token(1) == '>', 'write -> for =>, or >= for greater or equal'),
    (lambda s: s.here == '<' and s.back() == '=', 'write <= for =<'),
    (lambda s: s.here == '>' and s.back() == '<', 'write != for <>'),
]

WORDS = {'or': 'write | for or', 'and': 'write & for and', 'not': 'write ! for not', 'then': 'write p -> q for if p then q',
         'implies': 'write -> for implies', 'iff': 'write <-> for iff', 'in': 'for a quantifier write forall x:SORT . .., for values '
         'x = a | x = b', 'mod': 'a table of the values that are meant, as even(x)', 'xor': 'write !(p <-> q) for p xor q',
         'is': 'write = for is'}

FORMULAS = [
    (lambda s: s.here in check.QUANTIFIERS and s.back() in JOINED,
     lambda s: f'a quantifier behind {s.back()} stands in parentheses: {s.back()} ({s.here} ..)'),
    (lambda s: s.here in check.QUANTIFIERS and s.back() in (':', '.', '('), 'this word begins a quantifier, and is no name'),
    (lambda s: 'exactly' in s.words[:s.index + 1], 'write (atmost K x:s . F) & (atleast K x:s . F)'),
    (lambda s: s.back().lower() == 'not' and s.kind in ('name', 'sign'), WORDS['not']),
    (lambda s: s.back().lower() == 'if' and s.kind == 'name', WORDS['then']),
    (lambda s: s.here.lower() in WORDS, lambda s: WORDS[s.here.lower()]),
    (lambda s: s.here == s.back() and s.here in '&|', lambda s: f'write {s.here} once'),
    (lambda s: s.here == '|', 'there are no bars for a size: write x - y = 1 | y - x = 1'),
    (lambda s: s.here == ',' and s.back(2) == ':', ONE_EACH),
    (lambda s: s.here == ',' and s.back(2) in check.QUANTIFIERS, ONE_EACH),
    (lambda s: s.here == '.' and s.kind_back() == 'number', 'numbers are whole: take a smaller unit'),
    (lambda s: s.back(2) in ('forall', 'exists') and s.here != ':', 'a quantifier names a sort: forall x:SORT . F'),
    (lambda s: s.back() in check.COUNT_WORDS, lambda s: f'a number stands behind {s.back()}: {s.back()} 2 x:SORT . F'),
    (lambda s: s.back() in ('forall', 'exists') and s.kind == 'number', lambda s: f'{s.back()} has no number: write atleast'),
    (lambda s: s.back(2) == ':' and s.index > 4, 'a dot stands between the sort and the formula: forall x:SORT . F'),
    (lambda s: s.here in '+-' and s.kind == 'sign' and s.in_arguments(),
     'arguments are not calculated: for f(i + 1) = v write forall j:s . j = i + 1 -> f(j) = v'),
    (lambda s: s.here == ')' and s.back() == '(', 'what has no arguments has no parentheses'),
    (lambda s: s.here == '<->', 'of two <-> one stands in parentheses'),
    (lambda s: s.here in COMPARED, 'a comparison has two sides: for a = b = c write a = b & b = c'),
    (lambda s: s.here == '..', 'for a range of values write 1 <= x & x <= 3'),
    (lambda s: s.kind == 'end' and s.depth() > 0 and (s.has_comparison() or s.back() == ')'), 'a parenthesis is still open'),
    (lambda s: s.here in (')', '', '&', '|', '->', '<->') and s.back() not in (*COMPARED, *JOINED) and not s.has_comparison(),
     'a comparison or a table stands here: for a cell alone write on = yes; parentheses hold formulas, and no sums'),
    (lambda s: s.here == ')' and s.depth() <= 0, 'this parenthesis was never opened'),
    (lambda s: s.kind == 'end', 'the line ends too early'),
    (lambda s: s.back() in (*COMPARED, *JOINED), lambda s: f'something is missing between {s.back()} and {s.here}'),
    (lambda s: s.kind == 'number' and len(s.here) > 18, 'a number has 18 digits at most'),
    (lambda s: s.kind in ('name', 'number') and s.kind_back() in ('name', 'number'),
     lambda s: f'something is missing between {s.back()} and {s.here}: a name has no blanks, as {s.back()}_{s.here}'),
]


def no_name(text):
    return f'{text} is no name: {NO_NAME}, as _{text}'


def name_of(character):
    return f'U+{ord(character):04X} {unicodedata.name(character, "")}'.strip()


def hint(stop):
    """What mostly stands behind a stop; None where nothing is known."""
    if stop.kind is None:
        tables = [CHARACTERS]
    elif stop.lines_before is None and stop.index == 0:
        tables = [COMMANDS]
    elif stop.version and stop.first in FORMS and stop.first not in FORMULA_WORDS and stop.index > 0:
        tables = [DECLARATIONS, SIGNS]
    elif stop.version is None or stop.index == 0 or stop.here in check.COUNT_WORDS and stop.version == 1:
        tables = [BEGINNINGS]
    else:
        tables = [DECLARATIONS, SIGNS, FORMULAS]
    for fits, told in [each for table in tables for each in table]:
        if fits(stop):
            return told(stop) if callable(told) else told
    return f'the form is {FORMS[stop.first]}' if stop.first in FORMS else None


# --------------------------------------------------------------------------------------------------- names that are wrong

def names_in(text):
    """The names of a line behind its first word; none where it doesn't split into tokens."""
    tokens = list(check.placed_tokens(text))
    return [token for kind, token, _ in tokens[1:] if kind == 'name'] if not tokens or tokens[-1][0] else []


def variables_in(text):
    return re.findall(r'(?:forall|exists|atmost\s+\d+|atleast\s+\d+)\s+(\w+)\s*:', text)


def hints_of_unknown(kinds, lines, number):
    """For each name that nothing has: names like it, and where it is declared later."""
    text = lines[number - 1]
    known, variable = {*kinds, *variables_in(text), *check.QUANTIFIERS}, text.split()[0] in FORMULA_WORDS
    names = [name for name in dict.fromkeys(names_in(text)) if name not in known]
    declared = names[:1] if text.split()[0] in ('sort', 'table', 'cell', 'rule') else []
    for name in [name for name in names if name not in declared]:
        later = [place for place, line in enumerate(lines[number:], number + 1)
                 if line.split()[:1] and line.split()[0] in SHEET_WORDS[:4] and name in names_in(line)]
        near = [other for other in kinds if looks(other) == looks(name)] or get_close_matches(name, kinds, 3)
        if later:
            yield f'{name} is declared on line {later[0]}: a name is declared before its use'
        elif name == '_':
            yield 'for any value write exists y:SORT . t(x, y)'
        elif name in ('max', 'min', 'abs', 'sum', 'count'):
            yield f'there is no {name}: the cases, joined by |, a sum spelled out, or atmost and atleast'
        elif re.search(rf'\b{name}-\w', text):
            yield f'nothing is named {name}: a name has no minus, as {name}_1'
        elif near:
            yield f'nothing is named {name}; there is {", ".join(near)}'
        else:
            yield f'nothing is named {name}' + variable * f'; for a variable write forall {name}:SORT . around it'


def hints_of_kind(sheet, kinds, text):
    """What each name of the line is, with the sorts that belong to it; and what is mostly wrong with a line of these."""
    variables = re.findall(r'(\w+)\s*:\s*(\w+)\s*\.', text)
    told = [(name, kind_told(sheet, kinds, name)) for name in dict.fromkeys(names_in(text)) if name in kinds]
    yield from [each for _, each in told if each]
    yield from [f'{variable} is a variable of {sort}' for variable, sort in variables]
    is_listed = any(kinds[name] == 'value' for name, _ in told)
    if text.split()[0] in ('cell', 'table'):
        yield 'sorts are named here, in parentheses and behind the colon'
    elif is_listed and re.search(r'<(?!-)|(?<!-)>|\+', text):
        yield 'whole numbers alone are added, and compared by <: take a range in place of the list, or a table'
    elif text.split()[0] in FORMULA_WORDS and has_cell_alone(kinds, formula_in(text)):
        yield 'a cell alone is no formula: write CELL = VALUE'


def formula_in(text):
    _, said = command(check.Reader(text))
    return said[-1]


def has_cell_alone(kinds, formula):
    """Does a cell stand where a formula should?"""
    if isinstance(formula, check.InTable):
        return kinds.get(formula.table) == 'family'
    if isinstance(formula, check.Quantified):
        return has_cell_alone(kinds, formula.body)
    return isinstance(formula, check.Joined) and any(has_cell_alone(kinds, part) for part in formula.parts)


def kind_told(sheet, kinds, name):
    """What the name is; nothing for a listed sort."""
    if kinds[name] == 'family':
        asked, sort = sheet.families[name]
        return f'{name}({", ".join(asked)}) : {sort}' if asked else f'{name} : {sort}'
    if kinds[name] == 'table':
        return f'{name}({", ".join(sheet.tables[name][0])}) is a table'
    if kinds[name] == 'value':
        return f'{name} is a value of {sheet.sort_of[name]}'
    return f'{name} is the sort {sheet.sorts[name][0]} .. {sheet.sorts[name][-1]}' if sheet.is_range(name) else ''


def ranges_in(sheet, kinds, text):
    """The ranges of the sorts that belong to the names of the line."""
    named = [sort for name in names_in(text) for sort in sorts_of(sheet, name)]
    for sort in dict.fromkeys(sort for sort in named if sheet.is_range(sort)):
        yield kind_told(sheet, kinds, sort)


def sorts_of(sheet, name):
    if name in sheet.families:
        return [*sheet.families[name][0], sheet.families[name][1]]
    return sheet.tables[name][0] if name in sheet.tables else []


def hints_of_duplicate(kinds, lines, text):
    """The names that the line declares although they are taken."""
    said = names_in(text)
    own = said if text.split()[0] == 'sort' else said[:1] if text.split()[0] in ('table', 'cell') else variables_in(text)
    for name in dict.fromkeys(own):
        if name in kinds:
            yield f'{name} is a {kinds[name].replace("family", "cell")} already'
        elif own.count(name) > 1:
            yield f'{name} stands twice'
    if text.split()[0] == 'rule' and not any(name in kinds or own.count(name) > 1 for name in own):
        yield f'a rule {said[0]} stands on line {line_of_rule(lines, said[0])} already'


def line_of_rule(lines, name):
    """The number of the first line that declares the rule; that behind the last one where none does, for a rule that is typed."""
    return next((place for place, line in enumerate(lines, 1) if re.match(rf'\s*rule\s+{name}\s*:', line)), len(lines) + 1)


ALIKE = dict(zip('аеорсухіјѕһԁԛԝАВЕКМНОРСТУХІЈЅονΑΒΕΖΗΙΚΜΝΟΡΤΥΧ0O1lI', 'aeopcyxijshdqwABEKMHOPCTYXIJSovABEZHIKMNOPTYXoollI'))
ALIKE.update({'O': 'o', '0': 'o', '1': 'l', 'I': 'l', 'О': 'o', 'Ο': 'o', 'І': 'l', 'Ι': 'l'})
INVISIBLE = re.compile('[\u00ad\u034f\u061c\u115f\u1160\u17b4\u17b5\u180b-\u180f\u200b-\u200f\u202a-\u202e\u2060-\u206f\u3164'
                       '\ufe00-\ufe0f\ufeff\uffa0\U000e0000-\U000e0fff]')


def looks(name):
    """Names that look alike have one such text."""
    return ''.join(ALIKE.get(c, c) for c in unicodedata.normalize('NFKC', INVISIBLE.sub('', name)))


def alphabets(name):
    return sorted({unicodedata.name(c, '').split(' ')[0] for c in name if c.isalpha()} & {'LATIN', 'CYRILLIC', 'GREEK'})


def shown(name):
    """A name with the codes of its characters that aren't ASCII."""
    codes = [f'U+{ord(c):04X}' for c in name if ord(c) > 127]
    return f'{name} ({" ".join(codes)})' if codes else name


def marks_of_rules(sheet, lines):
    """The rules with a quantifier that takes a whole `->` where mostly its left side alone is meant."""
    for name, formula in sheet.rules.items():
        for each in taken_whole(formula):
            yield (f'line {line_of_rule(lines, name)}: {each.word} {each.variable} reaches over ->, so what stands before -> needn\'t '
                   f'be so; mostly meant is ({each.word} {each.variable}:{each.sort} . ..) -> .., or & in place of ->')


def taken_whole(formula):
    """The quantifiers of some values whose body is an implication."""
    if isinstance(formula, check.Quantified):
        if formula.word in ('exists', 'atleast') and isinstance(formula.body, check.Joined) and formula.body.sign == '->':
            yield formula
        yield from taken_whole(formula.body)
    elif isinstance(formula, check.Joined):
        for part in formula.parts:
            yield from taken_whole(part)


def marks(lines):
    """What is to be told of the names, each where it stands first."""
    first, seen = {}, {}
    for number, line in enumerate(lines, 1):
        if line.strip() and not line.lstrip().startswith(';'):
            for name in names_in(line):
                first.setdefault(name, number)
    for name, number in first.items():
        if INVISIBLE.search(name):
            yield f'line {number}: {shown(name)} has a character that can\'t be seen'
        if len(alphabets(name)) > 1:
            yield f'line {number}: {shown(name)} has letters of several alphabets: {", ".join(alphabets(name)).lower()}'
        other = seen.setdefault(looks(name), name)
        if other != name:
            yield f'line {number}: {shown(name)} looks like {shown(other)} of line {first[other]}'


# -------------------------------------------------------------------------------------------------------------- the sheet

def first_fault(data):
    """The sheet as far as it was read, the names that were declared before its first faulty line, each with its kind, and the
    refusal, if any."""
    sheet, kinds = check.Sheet(), {}
    try:
        for number, word, said in check.statements(data)[:-1]:
            kinds = dict(sheet.kinds)
            try:
                getattr(sheet, 'add_' + word)(*said)
            except check.Fault as fault:
                raise check.sheet_fault(number, fault) from None
    except check.Refused as refused:
        return sheet, kinds, str(refused)
    return sheet, kinds, None


def stop_of(lines, number):
    """Where reading this line stopped."""
    said = [line.split() for line in lines[:number - 1] if line.strip() and not line.lstrip().startswith(';')]
    version = int(said[0][1]) if said else None
    return Stop(lines[number - 1], version, {words[0] for words in said[1:]})


def hints_of(refusal, sheet, kinds, lines, number, text):
    """What is told below a line that is refused for its names, sorts or limits."""
    if refusal.startswith('1 '):
        yield 'save the file as UTF-8, without a byte order mark'
    elif refusal.startswith('4 '):
        yield 'write sheet 2, which takes all that there is'
    elif refusal.startswith('5 '):
        yield from hints_of_unknown(kinds, lines, number)
    elif refusal.startswith('6 '):
        yield from hints_of_duplicate(kinds, lines, text)
    elif refusal.startswith(('7 ', '8 ')):
        yield from hints_of_kind(sheet, kinds, text)
    elif refusal.startswith('9 '):
        yield from ranges_in(sheet, kinds, text)
    elif refusal.startswith('10 '):
        yield 'a sort has a value at least; of a range the low bound comes first: sort n = 1 .. 5'
    elif refusal.startswith('11 '):
        yield 'docs/FORMATS.md, "Limits", says how many there may be'
    elif refusal.startswith('17 '):
        yield 'drop the rule first, or take another name'
    elif refusal.startswith('18 '):
        near = get_close_matches(text.split()[1], sheet.rules, 3)
        yield f'there is {", ".join(near)}' if near else 'dump shows which rules there are'


def told_line(sheet, kinds, lines, number, refusal, stop):
    """The line, the caret and the hints. The refusal begins with its number."""
    text = lines[number - 1]
    yield text
    if refusal.startswith('2 '):
        stop = stop or stop_of(lines, number)
        yield re.sub(r'[^\t]', ' ', text[:stop.column()]) + '^'
        if hint(stop):
            yield hint(stop)
    else:
        yield from hints_of(refusal, sheet, kinds, lines, number, text)


def told_of_text(data, lines):
    """What is told where a sheet has no `begin`."""
    if not any(line.strip() for line in lines):
        return 'there is nothing in it: a sheet begins with `sheet 2` and ends with `begin`'
    if b'\r' in data and b'\n' not in data:
        return 'its lines end in carriage returns: save it with line feeds'
    return 'its last line is `begin`'


def told_of_sheet(data, lines, sheet, kinds, refusal):
    """The refusal of a sheet, and what stands behind it; else that there is none."""
    yield refusal or 'No fault of text, names or sorts.'
    if refusal == f'sheet refused {check.NO_BEGIN}':
        yield '  ' + told_of_text(data, lines)
    place = re.search(r' line (\d+)', refusal or '')
    if place:
        told = told_line(sheet, kinds, lines, int(place[1]), refusal[len('sheet refused '):], None)
        yield from ['  ' + each for each in told]


def refusal_of_command(sheet, line):
    """The refusal of a line that is typed, if any, from its number on."""
    try:
        if line.strip(' \t')[:1] not in ('', ';'):
            read = check.shallow(line, 2)
            if read.peek()[1] == 'ask':
                check.shallow('! (' + line, 2)      # the rule that is asked has these two more
            test_command(sheet, *command(read))
    except check.Fault as fault:
        return ' '.join(fault.args)
    return None


def told_of_command(sheet, lines, line):
    kinds = dict(sheet.kinds)
    refusal = refusal_of_command(sheet, line)
    yield f'refused {refusal}' if refusal else 'No fault of text, names or sorts.'
    if refusal:
        stop = Stop(line, 2, None) if refusal.startswith('2 ') else None
        yield from ['  ' + each for each in told_line(sheet, kinds, [*lines, line], len(lines) + 1, refusal, stop)]


def main():
    parser = words_of(__doc__)
    parser.add_argument('sheet', metavar='SHEET')
    parser.add_argument('--line', metavar='TEXT', help='a command to be judged, typed behind the sheet')
    words = parser.parse_args()
    data = bytes_of(words.sheet)
    lines = [line.decode('utf-8', 'replace') for line in check.lines_of(data)]
    sheet, kinds, refusal = first_fault(data)
    is_typed = words.line is not None and refusal is None
    told = [*(told_of_command(sheet, lines, words.line) if is_typed else told_of_sheet(data, lines, sheet, kinds, refusal))]
    marked = [*marks([*lines, words.line] if is_typed else lines), *(marks_of_rules(sheet, lines) if refusal is None else ())]
    print('\n'.join(told + marked))
    return 1 if 'refused' in told[0] or marked else 0


if __name__ == '__main__':
    run(main)
