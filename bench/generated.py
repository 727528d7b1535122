#!/usr/bin/env python3
"""Makes files whose report is known by how they are made, and compares the program's with it.

usage: bench/generated.py [COUNT [SEED [PROGRAM]]]

Each file is written together with the places of its nodes. Its values, cycles and broken rules are
computed by plain searches over these; a file without a tree is a good one in which a token or a byte is put
where none such can stand. Ends with status 1 where a report differs.
"""
import os
import random
import subprocess
import sys
import tempfile
from typing import Any, NamedTuple

sys.dont_write_bytecode = True

from generated_text import Text, reached

LIMIT = 2**127 - 1
BLANKS = [' ', '  ', '\t', ' \t', '\r ']
NAMES = ['A', 'B', 'C', 'D', 'x', 'y', 'z9', '_a', 'Const', 'packages', 'initial']
KINDS = ['plain', 'plain', 'names', 'cycles', 'wide', 'spoilt']
rng = random.Random()


class Node(NamedTuple):
    """A node of an expression: `of` is the number, the name, the inner node or the two operands."""
    start: int
    end: int
    kind: str
    of: Any

    def parts(self):
        return {'sum': self.of, 'paren': (self.of,)}.get(self.kind, ())


class Constant(NamedTuple):
    name: str
    start: int
    end: int
    value: Node


def number(wide):
    if wide and rng.random() < .3:
        return rng.choice([LIMIT, LIMIT + 1, LIMIT - 1, LIMIT * 3])
    return rng.choice([0, 1, 2, 7, 10, 499, rng.randrange(10**rng.randrange(1, 30))])


def write_item(text, names, depth, wide):
    drawn = rng.random()
    if drawn < .15 and depth < 6:
        start = text.put('(')
        text.blank()
        inner = write_sum(text, names, depth + 1, wide)
        text.blank()
        return Node(start, text.put(')') + 1, 'paren', inner)
    if drawn < .55 and names:
        name = rng.choice(names)
        start = text.put(name)
        return Node(start, text.at, 'name', name)
    value = number(wide)
    start = text.put(str(value))
    return Node(start, text.at, 'int', value)


def write_sum(text, names, depth, wide):
    left = write_item(text, names, depth, wide)
    while rng.random() < .4:
        text.blank()
        text.put('+')
        text.blank()
        if rng.random() < .1:
            text.put('\n')
        right = write_item(text, names, depth, wide)
        left = Node(left.start, right.end, 'sum', (left, right))
    return left


def make(kind):
    """A good file: the package's name, the text and the constants. In a plain one no name waits for itself."""
    text = Text(rng, BLANKS)
    text.put(rng.choice(['', '\n', ' ', '\r\n']))
    text.put('package')
    text.blank(needed=True)
    package = rng.choice(['p', 'q1', '_x', 'main2'])
    text.put(package)
    text.blank()
    text.put(rng.choice(['\n', '\r\n', '\n\n']))
    names = rng.sample(NAMES, rng.randrange(9))
    rank = {name: i for i, name in enumerate(rng.sample(names, len(names)))}
    if kind == 'names' and names and rng.random() < .5:
        names += rng.choices(names, k=rng.randrange(1, 4))
    pool = names + (['Undeclared', 'U2'] if kind == 'names' else [])
    constants = []
    for name in names:
        if constants:
            text.put(rng.choice(['\n', '\n\n', '\r\n']))
        text.blank()
        text.put('const')
        text.blank(needed=True)
        start = text.put(name)
        end = text.at
        text.blank()
        text.put('=')
        text.blank()
        seen = pool if kind in ('cycles', 'names') else [m for m in names if rank[m] < rank[name]]
        constants.append(Constant(name, start, end, write_sum(text, seen, 0, kind == 'wide')))
        text.blank()
    if rng.random() < .8:
        text.put('\n')
    return package, str(text), constants


def nodes(node):
    yield node
    for part in node.parts():
        yield from nodes(part)


def value_of(node, headers):
    if node.kind == 'name':
        return headers.get(node.of)
    values = [value_of(part, headers) for part in node.parts()]
    if None in values:
        return None
    value = sum(values) if values else node.of
    return value if value <= LIMIT else None


def known_headers(constants):
    headers, more = {}, True
    while more:
        found = {c.name: value_of(c.value, headers) for c in constants if c.name not in headers}
        more = {name: value for name, value in found.items() if value is not None}
        headers |= more
    return headers


def is_wide(node, headers):
    parts = [value_of(part, headers) for part in node.parts()]
    return node.kind in ('int', 'sum') and None not in parts and value_of(node, headers) is None


def broken_rules(constants, headers):
    waits = {c.name: {n.of for n in nodes(c.value) if n.kind == 'name' and n.of not in headers} for c in constants}
    cyclic = [(c.start, 'C1') for c in constants if c.name in reached(waits, c.name)]
    return sorted(cyclic + [(n.start, 'L2') for c in constants for n in nodes(c.value) if is_wide(n, headers)])


def line_col(text, at):
    return f'{text.count(chr(10), 0, at) + 1}:{at - text.rfind(chr(10), 0, at)}'


def report(package, text, constants):
    """The status and the text of the report of a good file."""
    def place(at):
        return 'a.go:' + line_col(text, at)

    def refused(broken):
        lines = [f'package\tm\t{package}\trefused'] + [f'broken\t{place(at)}\t{rule}' for at, rule in broken]
        return (3 if any(rule == 'L2' for _, rule in broken) else 1), head + lines

    head = ['module\tm\t1.21']
    where = {c.name: c.start for c in constants}
    all_nodes = [n for c in constants for n in nodes(c.value)]
    uses = [n for n in all_nodes if n.kind == 'name']
    names = [c.name for c in constants]
    broken_names = [(c.start, 'P4') for c in constants if names.count(c.name) > 1]
    broken_names += [(n.start, 'P7') for n in uses if n.of not in where]
    if broken_names:
        return refused(sorted(broken_names))
    headers = known_headers(constants)
    broken = broken_rules(constants, headers)
    if broken:
        return refused(broken)
    return 0, head + [f'package\tm\t{package}\taccepted'] + [
        f'def\t{place(c.start)}\t{c.name}\tconst\tuntyped int\t{headers[c.name]}' for c in constants] + [
        f'use\t{place(n.start)}\t{n.of}\t{place(where[n.of])}' for n in uses] + [
        f'expr\t{place(n.start)}\t{line_col(text, n.end)}\tconst\tuntyped int\t{value_of(n, headers)}' for n in all_nodes]


def spoil(text, constants):
    """A text in which a token or a byte stands where none such can, its offset and the rule."""
    constant = rng.choice(constants)
    node = rng.choice(list(nodes(constant.value)))
    how = rng.choice(['operand', 'operator', 'byte', 'keyword', 'name'])
    if how == 'operand':  # behind an operand no operand can stand
        return text[:node.end] + rng.choice([' 1', ' x', ' const', ' =']) + text[node.end:], node.end + 1, 'S3'
    if how == 'operator':  # before an operand none of these can
        word = rng.choice([')', '=', 'const', 'package'])
        return f'{text[:node.start]} {word} {text[node.start:]}', node.start + 1, 'S3'
    if how == 'byte':  # no token starts there
        byte = rng.choice(['"', "'", '#', '$', '?', '\0'])
        return text[:node.end] + byte + text[node.end:], node.end, 'S1' if byte == '\0' else 'S2'
    if how == 'keyword':
        return text[:constant.start] + 'if' + text[constant.end:], constant.start, 'S3'
    return text[:constant.start] + rng.choice(['+ ', '= ', '1 ']) + text[constant.start:], constant.start, 'S3'


def case():
    kind = rng.choice(KINDS)
    package, text, constants = make(kind)
    if kind == 'spoilt' and constants:
        text, at, rule = spoil(text, constants)
        return text, 1, ['refused', f'broken\ta.go:{line_col(text, at)}\t{rule}']
    return text, *report(package, text, constants)


def main():
    here = os.path.dirname(os.path.abspath(__file__))
    words = dict(enumerate(sys.argv[1:]))
    count = int(words.get(0, 2000))
    rng.seed(int(words.get(1, 1)))
    program = words.get(2, here + '/../crates/gocheck/out/gocheck')
    differ = 0
    with tempfile.TemporaryDirectory() as root:
        with open(root + '/go.mod', 'w') as file:
            file.write('module m\n\ngo 1.21\n')
        for _ in range(count):
            text, status, lines = case()
            with open(root + '/a.go', 'w', newline='') as file:
                file.write(text)
            run = subprocess.run([program, root], capture_output=True, text=True)
            wanted = ''.join(line + '\n' for line in lines)
            if (run.returncode, run.stdout) != (status, wanted):
                differ += 1
                print(repr(text), status, wanted, run.returncode, run.stdout, sep='\n')
    print(f'{count} files, {differ} differ')
    sys.exit(differ > 0)


if __name__ == '__main__':
    main()
