"""What a crate's texts say, without comments and layout, and what of them the crates above it can see.

What can be seen of a file of src/ are its types, constants, traits and impls, and of its functions those that are public or a
trait's, each with its clauses and without its body. An import counts where something that can be seen uses its name. Where it is
not plain whether something can be seen, it counts: a private struct does, since a public one may have it as a field.
"""
import hashlib
import os
import re

import crate_list

GAP = r'(?P<gap>\s+|//[^\n]*|/\*.*?\*/)'
LITERAL = r"""(?:b?"(?:\\.|[^"\\])*"|b?r(?P<mark>\#*)".*?"(?P=mark)|b?'(?:\\(?:x..|u\{[^}]*\}|.)|[^'\\])')"""
RUST = re.compile(GAP + '|' + LITERAL + r"|\w[\w']*|.", re.S)
# In definitions and proofs `--` begins a comment where a blank is in front of it; a text keeps its blanks.
ANTT = re.compile(r'(?P<gap>\s+|(?<!\S)--[^\n]*)|"(?:\\.|[^"\\])*"|[()\[\]{},;]|[^\s()\[\]{},;"]+')
USE = re.compile(r'^((?:(?:pub|unfoldable) +)*use [^{\n]*)(\{[^}]*\})?', re.M)
CLAUSES = ('requires', 'ensures')
# What may follow the body of a function, so that a block before anything else is no body.
AFTER = ('}', '#', 'pub', 'fn', 'const', 'unsafe', 'impl', 'trait', 'struct', 'enum', 'type', 'use', 'ghost', 'mod', 'static',
         'macro_rules', '')


def tokens_of(text, form):
    return [found[0] for found in form.finditer(text) if found['gap'] is None]


def antt_tokens(text):
    """The tokens of a file of specs/ or proofs/ and its imports, without what the layout adds: a comma before a closing bracket, and
    a bar before the first of several cases."""
    imports = {(front.strip(), name.strip()) for front, names in USE.findall(text) for name in names.strip('{}, \n').split(',')}
    tokens = tokens_of(USE.sub('', text), ANTT)
    nexts, lasts = [*tokens[1:], ''], ['', *tokens]
    kept = [token for token, after, before in zip(tokens, nexts, lasts)
            if not (token in (',', ';') and after in (')', ']', '}') or token == '|' and before == '[')]
    return kept, sorted(imports)


def end_of(tokens, at):
    """The place after the block, list or group that begins here."""
    ends = {'{': '}', '[': ']', '(': ')'}
    depth = 0
    for place in range(at, len(tokens)):
        depth += (tokens[place] == tokens[at]) - (tokens[place] == ends[tokens[at]])
        if depth == 0:
            return place + 1
    return len(tokens)


def without_attributes(tokens):
    """The tokens without attributes other than `derive`, which adds impls."""
    kept, at = [], 0
    while at < len(tokens):
        opens = at + 1 + (tokens[at + 1:at + 2] == ['!'])
        if tokens[at] == '#' and tokens[opens:opens + 1] == ['['] and tokens[opens + 1] != 'derive':
            at = end_of(tokens, opens)
        else:
            kept.append(tokens[at])
            at += 1
    return kept


def parts_of_function(tokens, at):
    """Where the body of the function begins whose name is here, and where it ends; the same place twice where it has none."""
    while at < len(tokens) and tokens[at] != ';':
        if tokens[at] in ('(', '['):
            at = end_of(tokens, at)
        elif tokens[at] == '{':
            end = end_of(tokens, at)
            is_clause = any(word in CLAUSES for word in tokens[at - 3:at]) and tokens[at - 1] != '}'
            if not is_clause:
                return (at, end) if (tokens[end:end + 1] or [''])[0] in AFTER else (end, end)
            at = end
        else:
            at += 1
    return at, at


def imports_of(tokens, front=()):
    """Each path that an import brings in, as a tuple of tokens, with the name under which it is used."""
    if '{' in tokens:
        at = tokens.index('{')
        depth, begin = 0, at + 1
        for place in range(at, end_of(tokens, at)):
            depth += (tokens[place] == '{') - (tokens[place] == '}')
            if depth == 1 and tokens[place] == ',' or depth == 0:
                if tokens[begin:place]:
                    yield from imports_of(tokens[begin:place], (*front, *tokens[:at]))
                begin = place + 1
    else:
        # (an operator is several tokens after the last point or colon)
        ends = [place for place, token in enumerate(tokens) if token in ('.', ':', 'as')]
        yield (*front, *tokens), tuple(tokens[ends[-1] + 1 if ends else 0:])


def visible_tokens(text):
    """What of a file of src/ a crate above can see."""
    tokens = without_attributes(tokens_of(text, RUST))
    kept, imports, blocks, at, header = [], set(), [], 0, 0
    while at < len(tokens):
        token, before = tokens[at], tokens[at - 1] if at else ''
        if token == 'fn' and re.match(r'\w', tokens[at + 1]):
            body, end = parts_of_function(tokens, at + 1)
            if before == 'pub' or tokens[max(0, at - 2):at] == ['pub', 'const'] or any(blocks):
                kept += tokens[at:body]
            elif kept[-4:] == ['pub', '(', 'crate', ')']:
                del kept[-4:]
            at = header = end
            continue
        if token == 'use' and before != 'pub' and header in (at, at - 1):
            end = tokens.index(';', at)
            imports.update(imports_of(tokens[at + 1:end]))
            del kept[len(kept) - (before == 'ghost'):]
            at = header = end + 1
            continue
        if token == '{':
            opened = tokens[header:at]
            blocks.append('trait' in opened or 'impl' in opened and 'for' in opened)
        elif token == '}':
            blocks.pop()
        kept.append(token)
        at += 1
        if token in ('{', '}', ';'):
            header = at
    words = set(kept)
    used = sorted(path for path, name in imports if all(token in words or token in ('◌', '*', 'self') for token in name))
    return kept, used


def files_of(crate, parts):
    """The files of these parts of a crate, with their paths."""
    for part in parts:
        for at, folders, files in os.walk(os.path.join(crate_list.FOLDER, 'crates', crate, part)):
            folders.sort()
            for name in sorted(files):
                path = os.path.relpath(os.path.join(at, name), crate_list.FOLDER)
                yield path, crate_list.text_of(path)


def own_text(crate):
    """A sum of all that the crate's sources, definitions and proofs say."""
    whole = hashlib.sha256()
    for path, text in files_of(crate, ('src', 'specs', 'proofs')):
        said = tokens_of(text, RUST) if path.endswith('.rt') else antt_tokens(text)
        whole.update(repr((path, said)).encode())
    return whole.hexdigest()


def visible_text(crate):
    """A sum of what the crates above can see of a crate: its definitions, and of its sources what they can name."""
    whole = hashlib.sha256()
    for path, text in files_of(crate, ('src', 'specs')):
        seen = visible_tokens(text) if path.endswith('.rt') else antt_tokens(text)
        whole.update(repr((path, seen)).encode())
    return whole.hexdigest()
