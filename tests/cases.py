"""Reads the files of cases, as docs/cases.md says they are written."""
import os
import re

FOLDER = os.path.normpath(os.path.join(os.path.dirname(os.path.abspath(__file__)), '..'))
DATA = os.path.join(FOLDER, 'crates/command_tests/data')
HEADS = ('text ', 'case ', 'table ')
LATER = ('then ', 'next ', 'damaged ')


def files():
    """The files of cases, in the order in which they are run."""
    with open(os.path.join(FOLDER, 'crates/command_tests/args'), encoding='utf-8') as names:
        return [os.path.join(DATA, name) for name in names.read().split()]


def is_piece(line):
    return line[:1] in tuple('|~*^+') or line.startswith('after ') or line == '...'


def leading_pieces(lines):
    pieces = []
    for line in lines:
        if not is_piece(line):
            break
        pieces.append(line)
    return pieces


def blocks(lines):
    """The blocks of a file: the kind, the name, and the first and the end line number of the rest."""
    heads = [at for at, line in enumerate(lines) if line.startswith(HEADS)]
    for at, end in zip(heads, heads[1:] + [len(lines)]):
        kind, name = lines[at].split(' ', 1)
        yield kind, name, at + 1, end


def steps(lines, first, end):
    """The first and the end line number of each step of a case."""
    begins = [first] + [at for at in range(first + 1, end) if lines[at].startswith(LATER)]
    return list(zip(begins, begins[1:] + [end]))


def escaped(text):
    names = {b'n': b'\n', b'r': b'\r', b't': b'\t', b'\\': b'\\'}

    def byte(found):
        name = found.group(1)
        return bytes([int(name[1:], 16)]) if name[:1] == b'x' else names[name]

    return re.sub(rb'\\(x[0-9a-f]{2}|.)', byte, text.encode())


class File:
    """The lines of a file of cases."""

    def __init__(self, path):
        with open(path, encoding='utf-8') as it:
            self.lines = it.read().split('\n')
        self.texts = {name: leading_pieces(self.lines[first:end])
                      for kind, name, first, end in blocks(self.lines) if kind == 'text'}

    def bytes_of(self, pieces):
        return b''.join(self.piece(piece) for piece in pieces)

    def piece(self, piece):
        kind, text = piece[0], piece[1:]
        if kind == '|':
            return text.encode() + b'\n'
        if kind == '~':
            return escaped(text)
        if kind == '+':
            return self.bytes_of(self.texts[text])
        count, text = text.split(' ', 1)
        end = b'\n' if kind == '*' else b''
        before, is_numbered, after = (escaped(part) if part != '{}' else part for part in text.partition('{}'))
        number = (lambda k: b'%d' % k) if is_numbered else (lambda k: b'')
        return b''.join(before + number(k) + after + end for k in range(int(count)))


def said(lines, word):
    return next((line[len(word):] for line in lines if line.startswith(word)), None)


def section(lines, word):
    return leading_pieces(lines[lines.index(word) + 1:]) if word in lines else []


def sections(lines, word):
    return [leading_pieces(lines[at + 1:]) for at, line in enumerate(lines) if line == word]


def words_in(line):
    return next((line[5 if word != 'words ' else 6:] for word in ('words ', 'then ', 'next ') if line.startswith(word)),
                None)


def is_said(file, pieces, text):
    """Whether these pieces say the text: `...` is any lines, and `{LOW..HIGH}` a number of this range."""
    pattern, ranges, is_first = b'', [], True
    parts = [[]]
    for piece in pieces:
        if piece == '...':
            parts.append([])
        else:
            parts[-1].append(piece)
    for part in parts:
        words = re.split(rb'\{(\d+)\.\.(\d+)\}', file.bytes_of(part))
        pattern += b'' if is_first else rb'(?:.*\n)?'
        is_first = False
        for at in range(0, len(words), 3):
            pattern += re.escape(words[at])
            if at + 2 < len(words):
                pattern += rb'(\d+)'
                ranges.append((int(words[at + 1]), int(words[at + 2])))
    found = re.fullmatch(pattern, text, re.DOTALL)
    return bool(found) and all(low <= int(number) <= high for number, (low, high) in zip(found.groups(), ranges))


def are_bounds_right(text, status):
    cost, is_solved = 0, True
    for line in text.split(b'\n'):
        found = re.fullmatch(rb'(cost|bound) (\d+)', line)
        if found and found.group(1) == b'cost':
            cost = int(found.group(2))
        elif found:
            if int(found.group(2)) > cost:
                return False
            is_solved &= int(found.group(2)) == cost
    return status == (0 if is_solved else 3)
