"""What the tree says of its crates: crates.txt their layers and what they stand on, docs/proving.md the seconds of their proofs."""
import os
import re

FOLDER = os.path.normpath(os.path.join(os.path.dirname(os.path.abspath(__file__)), '..'))


def text_of(path):
    with open(os.path.join(FOLDER, path), encoding='utf-8') as it:
        return it.read()


def layers():
    """The layers of crates.txt, lowest first: each one's name, and its crates."""
    found = []
    for line in text_of('crates.txt').splitlines():
        if line.startswith('#'):
            found.append((line[1:].split(': ')[-1].strip(), []))
        elif line.strip():
            found[-1][1].append(line.split(':')[0])
    return [(name, crates) for name, crates in found if crates]


def lines():
    """For each crate its line of crates.txt, lowest first."""
    listed = [line.strip() for line in text_of('crates.txt').splitlines() if line.strip() and not line.startswith('#')]
    return {line.split(':')[0]: line for line in listed}


def with_those_below(crates):
    """The lines of these crates and of all crates that they stand on, lowest first."""
    listed = lines()
    wanted = set(crates)
    for name in reversed(listed):
        if name in wanted:
            wanted.update(below for below in listed[name].split(':')[1].split() if below in listed)
    return {name: line for name, line in listed.items() if name in wanted}


def proof_seconds():
    """For each crate that is in the table of docs/proving.md the seconds of its proof, with those of its tests."""
    rows = re.findall(r'^\| (\w+) \| (\d+) \| (\d+|-) \| [\d-]+ \|$', text_of('docs/proving.md'), re.M)
    return {name: int(proof) + (0 if tests == '-' else int(tests)) for name, proof, tests in rows}
