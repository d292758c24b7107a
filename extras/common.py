"""What the programs of this folder share. It does nothing by itself, and what it reads of a sheet is check.py's reading."""
import argparse
import re
import shlex
import signal
import subprocess
import sys
import unicodedata

import check

CELL = re.compile(r'([^(]+)(?:\((.*)\))?')
BETWEEN = re.compile(r', (?![^()]*\))')     # a comma that stands in no parentheses


def words_of(text):
    """A parser of the program's words, whose help is the text."""
    return argparse.ArgumentParser(description=text, formatter_class=argparse.RawDescriptionHelpFormatter)


def run(main):
    """Runs the program that this is the main function of. A reader of what is printed may go at any time."""
    if hasattr(signal, 'SIGPIPE'):
        signal.signal(signal.SIGPIPE, signal.SIG_DFL)
    sys.setrecursionlimit(10_000)
    for stream in (sys.stdin, sys.stdout):
        stream.reconfigure(encoding='utf-8', errors='replace')
    sys.exit(main())


def bytes_of(path):
    try:
        with open(path, 'rb') as file:
            return file.read()
    except OSError as fault:
        print(f'{path}: {fault.strerror}', file=sys.stderr)
        sys.exit(4)


def sheet_of(path):
    """The sheet of a file. Where it is refused, this is told and the program ends."""
    try:
        return check.load(bytes_of(path))
    except check.Refused as refused:
        print(refused)
        sys.exit(3)


# ------------------------------------------------------------------------------------------------- names and texts

def text_of_cell(cell):
    name, values = cell
    return f'{name}({", ".join(map(str, values))})' if values else name


def text_of_entry(entry):
    return f'{text_of_cell(entry[0])} = {entry[1]}'


def parts_of_cell(text):
    """The family of a cell's text, and the list of its arguments."""
    name, values = CELL.fullmatch(text).groups()
    return name, values.split(', ') if values else []


def listed(text):
    """The entries of a list, as texts."""
    return BETWEEN.split(text)


def many(number, one, more=None):
    return f'{number:,} {one if number == 1 else more or one + "s"}'


# ---------------------------------------------------------------------------------------------------------- columns

def width(text):
    """How many columns a terminal shows the text in."""
    return sum(0 if unicodedata.category(c) in ('Mn', 'Me', 'Cf') else 2 if unicodedata.east_asian_width(c) in 'WF' else 1
               for c in text)


def filled(text, columns, side='<'):
    """The text with blanks behind it, or before it where the side is `>`."""
    blanks = ' ' * (columns - width(text))
    return blanks + text if side == '>' else text + blanks


def widths(rows):
    return [max(map(width, column)) for column in zip(*rows)]


def lines_of_table(rows, sides=''):
    """The lines of a table, its columns two spaces apart, each to the left but where its side is `>`."""
    wide, sides = widths(rows), sides or '<' * len(rows[0])
    return ['  '.join(map(filled, row, wide, sides)).rstrip() for row in rows]


# ------------------------------------------------------------------------------------------------------ the program

class Program:
    """The program, as a command of one or more words."""

    def __init__(self, command, budget=None):
        self.words = shlex.split(command)
        self.options = ['--budget', str(budget)] if budget else []

    def lines_of_load(self, path):
        """What is printed where the file is loaded, line by line."""
        try:
            with subprocess.Popen([*self.words, 'edit', path, *self.options], stdin=subprocess.DEVNULL,
                                  stdout=subprocess.PIPE) as process:
                for line in process.stdout:
                    yield line.decode().rstrip('\n')
        except FileNotFoundError:
            print(f'{self.words[0]}: no such program; say --program', file=sys.stderr)
            sys.exit(4)
