#!/usr/bin/env python3
"""Writes what a certificate claims as files that other checkers of proofs read.

    python3 extras/lrat.py SHEET CERTIFICATE BASE

    BASE.cnf    clauses in DIMACS's form: the sheet's axioms, made from the sheet alone; then the clauses of the
                certificate's sets, or its used entries and what is against its claim. The claim holds exactly where no
                assignment meets them all, and what the certificate shows beside its derivation stands
    BASE.lrat   the certificate's derivation as a proof of that, in the form LRAT: steps by unit propagation, no deletions
    BASE.map    what each variable stands for, as `7 walk = sunday` and `12 @with_walk/0`

The tests of entries, assignments and sets are made here, as docs/FORMATS.md has them; where one fails, or the derivation
isn't a proof, the refusal of `predicalc check` is printed and nothing is written. With --models the assignments that are
shown can be judged by others too: for the K-th one BASE.K.cnf has the axioms and entries that it has to meet, and
BASE.K.model its truth values.

The status is that of `predicalc check`: 0 written, 2 words, 3 sheet refused, 4 a file not read, 8 certificate refused.
"""
from itertools import combinations

from check import (ATOMS, ON_SETS, Counter, Node, Quantified, Refused, below, certificate_of, entries_of, literals, negated,
                   test, test_all_given)
from common import bytes_of, many, run, sheet_of, text_of_entry, words_of


# ---------------------------------------------------------------------------------------------------- the sheet's axioms

class Ground:
    """The clauses of a sheet's axioms, as lists of numbers. A variable stands for an entry or for a path, and each axiom has
    the number of its clause."""

    def __init__(self, sheet):
        self.sheet = sheet
        self.variables, self.clauses, self.numbers = {}, [], {}
        self.cells = list(sheet.all_cells())
        for cell in self.cells:
            self.add_cell(cell, sheet.sorts[sheet.cell(cell)])
        for name, formula in sheet.rules.items():
            root = name, ()
            self.add(('rule', name), [(True, root)])
            self.add_node(root, Node(formula, {}))

    def variable(self, thing):
        return self.variables.setdefault(thing, len(self.variables) + 1)

    def number(self, literal):
        return self.variable(literal[1]) if literal[0] else -self.variable(literal[1])

    def add(self, axiom, clause):
        self.clauses.append([self.number(literal) for literal in clause])
        self.numbers[axiom] = len(self.clauses)

    def add_cell(self, cell, values):
        self.add(('some', cell), literals(True, [(cell, value) for value in values]))
        for pair in combinations(values, 2):
            self.add(('one', cell, frozenset(pair)), literals(False, [(cell, value) for value in pair]))

    def add_node(self, path, node):
        """The axioms of a node and of all that is below it."""
        self.sheet.nodes[path] = node
        formula, variables = node
        if isinstance(formula, ATOMS):
            for reads, holds in self.leaves(formula, variables, {}):
                self.add(('atom', path, frozenset(reads.items())), literals(False, reads.items()) + [(holds, path)])
            return
        for number, clause in enumerate(self.sheet.clauses_at(path), 1):
            if clause is not None:
                self.add(('node', path, number), clause)
        del self.sheet.clauses[path]
        number, child = 0, self.sheet.child(node, 0)
        while child:
            self.add_node(below(path, number), child)
            number += 1
            child = self.sheet.child(node, number)

    def leaves(self, atom, variables, cells):
        """The ways to read an atom's cells, from left to right, each with the atom's truth."""
        try:
            holds = self.sheet.atom_holds(atom, variables, cells)
        except KeyError as missing:
            cell = missing.args[0]
            for value in self.sheet.sorts[self.sheet.cell(cell)]:
                yield from self.leaves(atom, variables, {**cells, cell: value})
        else:
            yield cells, holds

    # What a line of a derivation is for the sheet

    def axiom(self, word, said):
        """The number of an axiom's clause; None where it is none."""
        if word == 'atom':
            return self.atom(*said)
        if word == 'one':
            said = said[0], frozenset(said[1:])
        return self.numbers.get((word, *said))

    def atom(self, path, reads):
        """The clause of the reads that decide; a certificate may have more of them."""
        formula, variables = self.sheet.node(path)
        cells = Asked(reads)
        if not isinstance(formula, ATOMS) or len(cells) < len(reads):
            return None
        try:
            self.sheet.atom_holds(formula, variables, cells)
        except KeyError:
            return None
        return self.numbers['atom', path, frozenset(cells.asked.items())]

    def model(self, cells):
        """The variables that are true where the cells have these values."""
        truths = {}
        true = {self.variables[entry] for entry in cells.items()}
        return true | {number for path, number in self.variables.items()
                       if not isinstance(path[0], tuple) and self.holds(path, cells, truths)}

    def holds(self, path, cells, truths):
        """The truth of a node, by those of the nodes below it."""
        if path not in truths:
            truths[path] = self.truth(path, cells, truths)
        return truths[path]

    def truth(self, path, cells, truths):
        formula, variables = self.sheet.node(path)
        if isinstance(formula, ATOMS):
            return self.sheet.atom_holds(formula, variables, cells)
        if isinstance(formula, Counter):
            above = path[0], path[1][:-1]
            return sum(self.holds(below(above, row), cells, truths) for row in range(formula.row)) >= formula.column
        count = len(self.sheet.sorts[formula.sort] if isinstance(formula, Quantified) else formula.parts)
        parts = [self.holds(below(path, number), cells, truths) for number in range(count)]
        if isinstance(formula, Quantified):
            return {'forall': all(parts), 'exists': any(parts), 'atmost': sum(parts) <= (formula.number or 0),
                    'atleast': sum(parts) >= (formula.number or 0)}[formula.word]
        return {'&': all(parts), '|': any(parts), '!': not parts[0], '->': not parts[0] or parts[-1],
                '<->': parts[0] == parts[-1]}[formula.sign]


class Asked(dict):
    """Cells and values, with those that were asked for."""

    def __init__(self, pairs):
        super().__init__(pairs)
        self.asked = {}

    def __getitem__(self, cell):
        self.asked[cell] = super().__getitem__(cell)
        return self.asked[cell]


# ------------------------------------------------------------------------------------------------- the claim and its proof

class Problem:
    """The clauses that can't all be met where the claim holds, and the proof of that."""

    def __init__(self, ground, certificate):
        self.ground, self.certificate = ground, certificate
        self.clauses, self.variables = list(ground.clauses), len(ground.variables)
        self.false = []             # the clause that makes a variable false, where a set's clause is empty
        self.blocks = self.add_blocks() if certificate.claim in ON_SETS else []
        self.units = self.add_all([literal] for literal in dict.fromkeys(self.against()))
        self.derived, self.proof = {}, []
        self.derive()

    def add_all(self, clauses):
        """Adds clauses of literals; their numbers."""
        first = len(self.clauses) + 1
        self.clauses += [[self.ground.number(literal) for literal in clause] for clause in clauses]
        return list(range(first, len(self.clauses) + 1))

    def add_blocks(self):
        """Adds the sets' clauses. As some checkers take an empty clause for none, that of a set of all entries is written as a
        variable that is false."""
        kept = [entries_of(given) for given in self.certificate.given]
        numbers = self.add_all(literals(True, [entry for entry in self.ground.sheet.entries if entry not in entries])
                               for entries in kept)
        empty = [number for number in numbers if not self.clauses[number - 1]]
        if empty:
            self.variables += 1
            for number in empty:
                self.clauses[number - 1] = [self.variables]
            self.clauses.append([-self.variables])
            self.false = [len(self.clauses)]
        return numbers

    def against(self):
        """The literals that are against the claim: its used entries, and what denies its target."""
        certificate = self.certificate
        if certificate.claim in ('is', 'against'):
            yield from [(True, entry) for _, entry in certificate.given[0].uses]
        if certificate.claim == 'is':
            yield negated(certificate.target)

    def clause(self, number):
        return self.clauses[number - 1] if number <= len(self.clauses) else self.derived[number]

    def derive(self):
        """Makes the proof: a step for each of the certificate's, and a last one to the empty clause."""
        numbers = []                # of each line; None for a step with a literal and its negation, which says nothing
        for line, word, said in self.certificate.derivation:
            if word == 'step':
                test(said[1] == [] or all(1 <= hint <= len(numbers) for hint in said[1]), f'bad-step line {line}')
                numbers.append(self.step(said[0], [numbers[hint - 1] for hint in said[1]], f'bad-step line {line}'))
            elif word == 'block':
                numbers.append(self.blocks[said[0] - 1])
            else:
                numbers.append(self.ground.axiom(word, said))
                test(numbers[-1], f'bad-axiom line {line}')
        is_done = bool(self.proof) and self.proof[-1][:2] == (numbers[-1], [])
        if not is_done:
            self.step([], [*self.units, *numbers[-1:]], 'wrong-end')

    def step(self, clause, hints, told):
        """Adds a step with those hints that propagate, up to the conflict; its number."""
        clause = list(dict.fromkeys(self.ground.number(literal) for literal in clause))
        if any(-literal in clause for literal in clause):
            test(not hints, told)
            return None
        false, used = set(clause), []
        for hint in self.false + [hint for hint in hints if hint]:
            left = [literal for literal in self.clause(hint) if literal not in false]
            test(len(left) <= 1, told)
            if not left or -left[0] not in false:       # else it is true already, and the hint says nothing
                used.append(hint)
                false.update([-literal for literal in left])
            if not left:
                number = len(self.clauses) + len(self.proof) + 1
                self.derived[number] = clause
                self.proof.append((number, clause, used))
                return number
        raise Refused('refused ' + told)


# --------------------------------------------------------------------------------------------------------------- the files

def ended(numbers):
    return ' '.join(map(str, [*numbers, 0])) + '\n'


def dimacs(variables, clauses):
    return f'p cnf {variables} {len(clauses)}\n' + ''.join(map(ended, clauses))


def text_of_thing(thing):
    """An entry, or a path as a certificate writes it."""
    return text_of_entry(thing) if isinstance(thing[0], tuple) else '@' + '/'.join(map(str, [thing[0], *thing[1]]))


def texts_of(problem):
    """The ends of the files' names and their texts."""
    yield 'cnf', dimacs(problem.variables, problem.clauses)
    yield 'lrat', ''.join(ended([number, *clause, 0, *hints]) for number, clause, hints in problem.proof)
    yield 'map', ''.join(f'{number} {text_of_thing(thing)}\n' for thing, number in problem.ground.variables.items())


def texts_of_models(problem):
    """The same of the assignments: without the rule that the claim is against, and with the used entries."""
    ground, certificate = problem.ground, problem.certificate
    without = ground.numbers['rule', certificate.target] if certificate.claim == 'against' else 0
    axioms = [clause for number, clause in enumerate(ground.clauses, 1) if number != without]
    for number, given in enumerate(certificate.given, 1):
        true = ground.model(dict(entry for _, entry in given.values))
        values = [variable if variable in true else -variable for variable in ground.variables.values()]
        uses = [[ground.variables[entry]] for _, entry in given.uses]
        yield f'{number}.cnf', dimacs(len(values), axioms + uses)
        yield f'{number}.model', 's SATISFIABLE\nv ' + ended(values)


# ------------------------------------------------------------------------------------- the check of what was written

def fault_of_proof(cnf, lrat):
    """What is wrong with a proof, by the texts alone; None where it is one. Each hint but the last has to give a new unit, and
    the last one a conflict."""
    head, *lines = cnf.splitlines()
    clauses = [numbers[:-1] for numbers in map(numbers_of, lines)]
    variables, count = map(int, head.split()[2:])
    if len(clauses) != count or any(not 1 <= abs(literal) <= variables for clause in clauses for literal in clause):
        return 'the clauses are not as many as is said, or of other variables'
    known, last, clause = dict(enumerate(clauses, 1)), count, None
    for line, text in enumerate(lrat.splitlines(), 1):
        number, *rest = numbers_of(text)[:-1]
        middle = rest.index(0)
        clause, hints = rest[:middle], rest[middle + 1:]
        if number <= last or not is_strict_step(clause, hints, known):
            return f'line {line} is no good step'
        known[number], last = clause, number
    return None if clause == [] else 'the last step has a clause that is not empty'


def numbers_of(text):
    return list(map(int, text.split()))


def is_strict_step(clause, hints, known):
    false = set(clause)
    if any(-literal in false for literal in clause) or not hints:
        return False
    for place, hint in enumerate(hints, 1):
        left = [literal for literal in known.get(hint, [0, 0]) if literal not in false]
        if place == len(hints):
            return not left
        if len(left) != 1 or -left[0] in false:
            return False
        false.add(-left[0])


def fault_of_model(cnf, model):
    """What is wrong with a model, by the texts alone."""
    true = set(numbers_of(model.splitlines()[1][2:])[:-1])
    for line, text in enumerate(cnf.splitlines()[1:], 2):
        if not true.intersection(numbers_of(text)[:-1]):
            return f'line {line} of the clauses is not met'
    return None


def faults_of_files(base, ends):
    """The faults of the files with these ends of their names."""
    for cnf, other, fault_of in [('cnf', 'lrat', fault_of_proof)] + [
            (end, end[:-3] + 'model', fault_of_model) for end in ends if end.endswith('.cnf')]:
        fault = fault_of(*[bytes_of(f'{base}.{end}').decode() for end in (cnf, other)])
        if fault:
            yield f'{base}.{other}: {fault}'


def written(problem, base, models):
    """Writes the files; the ends of their names."""
    ends = []
    for texts in [texts_of(problem)] + ([texts_of_models(problem)] if models else []):
        for end, text in texts:
            with open(f'{base}.{end}', 'w', encoding='utf-8') as file:
                file.write(text)
            ends.append(end)
    return ends


def main():
    parser = words_of(__doc__)
    for name in ('sheet', 'certificate', 'base'):
        parser.add_argument(name, metavar=name.upper())
    parser.add_argument('--models', action='store_true', help='write the assignments that are shown, too')
    parser.add_argument('--check', action='store_true', help='check what was written, each hint having to propagate')
    words = parser.parse_args()
    sheet = sheet_of(words.sheet)
    try:
        certificate = certificate_of(sheet, bytes_of(words.certificate))
        test_all_given(sheet, certificate)
        ground = Ground(sheet)
        problem = Problem(ground, certificate)
    except Refused as refused:
        print(refused)
        return 8
    print(f'The sheet: {many(len(ground.variables), "variable")}, {many(len(ground.clauses), "clause")}, '
          f'{many(sum(map(len, ground.clauses)), "literal")}')
    print(f'The claim: {many(len(problem.clauses) - len(ground.clauses), "clause")} more, '
          f'{many(len(problem.proof), "step")}, {many(len(certificate.given), "assignment")}')
    ends = written(problem, words.base, words.models)
    faults = list(faults_of_files(words.base, ends)) if words.check else []
    print('\n'.join(faults or [f'Written{" and checked" if words.check else ""}: ' + ' '.join(f'{words.base}.{end}' for end in ends)]))
    return 8 if faults else 0


if __name__ == '__main__':
    run(main)
