#!/usr/bin/env python3
"""Makes modules of untyped constants, and compares the program's reports on them with what is wanted.

usage: bench/generated_constants.py [--check] [--seed SEED] [COUNT [PROGRAM]]

Each module has two packages, of which one may import the other: constants of each kind by operators and literals, each of
which rests on those that were planned before it, in groups by iota with lists that are omitted and with several names,
and types and variables whose lengths are such expressions. In half of the modules some operands are of another kind than
is needed, or are none. What a package breaks is told by the rules, and so is which is skipped. With --check this is
compared with the program's verdicts; and so are the whole reports of modules that are accepted with go/types, and the
places of what the first package breaks with its errors, but where limits, forms that are not checked, or unequal sides
are told, on which it does not speak or speaks otherwise. Without it the modules are printed with what is wanted. Needs
Debian's golang-1.19-go. Ends with `COUNT modules, N accepted, M differ`, and status 1 where some do.
"""
import argparse
import os
import subprocess
import sys
import tempfile

sys.dont_write_bytecode = True
import modules
from generated_expressions import EXPRESSION_KINDS, TYPE, Maker, rng
from generated_plan import line_col
from generated_text import Text

BLANKS = [' ', '  ', '\t']
RANKS = {'C': 4, 'R': 6, 'U': 8, 'L': 9}


class ByteText(Text):
    """A text of bytes, each a character."""

    def put(self, piece):
        return super().put(piece.encode().decode('latin-1'))


class Constant:
    """A name with the kind that it has, or None, and its value."""

    def __init__(self, name, package):
        self.name, self.package, self.kind, self.value = name, package, None, None


class Spec:
    """Names, and the expressions of a list, which another spec may have too; the first that has them writes them."""

    def __init__(self, names, values, iota, copied):
        self.names, self.values, self.iota, self.copied = names, values, iota, copied
        self.at, self.name_places = 0, []

    def is_even(self):
        return len(self.names) == len(self.values)

    def evaluate(self):
        """Gives each name its kind and value, where it has one."""
        for constant, node in zip(self.names, self.values if self.is_even() else []):
            constant.kind, constant.value = node.evaluate(self.iota, []) or (None, None)

    def write(self, text):
        self.at = text.at
        for i, constant in enumerate(self.names):
            text.put(', ' if i else '')
            self.name_places.append(text.put(constant.name))
        if not self.copied:
            text.put(' = ')
            for i, node in enumerate(self.values):
                text.put(', ' if i else '')
                node.write(text)
        text.put('\n')

    def broken(self):
        """What it breaks, each rule with its place and that of go/types, and whether go/types speaks of the same."""
        found = []
        for node in self.values:
            node.needs_value(self.iota, found)
        if not self.is_even() and all(is_constant(node.evaluate(self.iota, [])) for node in self.values):
            found.append((self.at, 'R37', None))
        if self.copied:
            found = [(self.at, rule, self.at if place is not None else None) for _, rule, place in found]
        return found if self.is_even() else [(at, rule, None) for at, rule, _ in found]


class Group:
    """A declaration of constants: one spec, or several in parentheses."""

    def __init__(self, specs):
        self.specs = specs

    def write(self, text):
        is_single = len(self.specs) == 1 and rng.random() < .7
        text.put('const ' if is_single else 'const (\n')
        for spec in self.specs:
            text.put('' if is_single else '\t')
            spec.write(text)
        text.put('' if is_single else ')\n')

    def nodes(self):
        return [node for spec in self.specs if not spec.copied for node in spec.values]

    def broken(self):
        return [entry for spec in self.specs for entry in spec.broken()]


class Lengths:
    """A type or a variable with lengths."""

    def __init__(self, front, lengths):
        self.front, self.lengths = front, lengths

    def write(self, text):
        text.put(self.front)
        for node in self.lengths:
            text.put('[')
            node.write(text)
            text.put(']')
        text.put('int\n')

    def nodes(self):
        return list(self.lengths)

    def broken(self):
        """From the innermost array on, as long as each is one; go/types tells of those around it too."""
        found, is_type = [], True
        for node in reversed(self.lengths):
            length = node.evaluate(None, found)
            if length and not is_length(*length):
                found.append((node.start, 'C12' if is_type else None, node.start))
            is_type = is_type and bool(length) and is_length(*length)
        return found


def is_constant(found):
    return found not in (None, TYPE)


def is_length(kind, value):
    return kind in ('int', 'rune') and 0 <= value < 2**63


class Package:
    def __init__(self, name, path, imported, fault_rate):
        self.name, self.path, self.imported = name, path, imported
        self.maker = Maker(name, imported, fault_rate)
        units = []
        for number in range(rng.randrange(2, 7)):
            units.append(self.lengths(number) if rng.random() < .2 else self.group())
        rng.shuffle(units)
        cut = rng.randrange(len(units) + 1) if rng.random() < .4 else len(units)
        self.files = [(f'{path}a.go', units[:cut]), (f'{path}b.go', units[cut:])][:1 + (cut < len(units))]
        self.texts = {}

    def group(self):
        specs, values = [], None
        for iota in range(rng.choice([1, 1, 2, 3, 4, 6])):
            copied = values is not None and rng.random() < .5
            if not copied:
                kinds = [rng.choice(EXPRESSION_KINDS) for _ in range(rng.choice([1, 1, 1, 2, 3]))]
                values = [self.maker.expression(kind, 3, iota) for kind in kinds]
            many = len(values) if rng.random() < .97 else rng.randrange(1, 4)
            names = [Constant(self.maker.new_name(), self.name) for _ in range(many)]
            specs.append(Spec(names, values, iota, copied))
            specs[-1].evaluate()
            self.maker.known += [c for c in names if c.name != '_' and c.kind]
        return Group(specs)

    def lengths(self, number):
        """Lengths are integers that are mostly not negative."""
        front = rng.choice([f'type T{number} ', f'var v{number} ', f'type A{number} = '])
        return Lengths(front, [self.maker.length() for _ in range(rng.choice([1, 1, 2]))])

    def imports(self):
        """Whether it imports the other package."""
        return any(self.maker.uses_import(unit) for _, units in self.files for unit in units)

    def write(self):
        for path, units in self.files:
            text = ByteText(rng, BLANKS)
            text.put(f'package {self.name}\n\n')
            if any(map(self.maker.uses_import, units)):
                text.put(f'import "m/{self.imported.name}"\n\n')
            for unit in units:
                unit.write(text)
            self.texts[path] = str(text)

    def broken(self):
        """What it breaks, in order, and the places of go/types, or None where these are others."""
        lines, places, comparable = set(), set(), True
        for number, (path, units) in enumerate(self.files):
            for at, rule, place in [entry for unit in units for entry in unit.broken()]:
                if rule:
                    key = number, at, 0 if rule == 'U0' else RANKS[rule[0]], int(rule[1:])
                    lines.add((*key, f'broken\t{path}:{line_col(self.texts[path], at)}\t{rule}'))
                comparable = comparable and place is not None
                places.add(f'{path}:{line_col(self.texts[path], place or 0)}')
        return [line[-1] for line in sorted(lines)], places if comparable else None


def make_module():
    fault_rate = rng.choice([0, 0, .02, .1])
    first = Package('q', 'q/', None, fault_rate if rng.random() < .3 else 0) if rng.random() < .6 else None
    last = Package('p', '', first, fault_rate)
    packages = [package for package in (first, last) if package]
    for package in packages:
        package.write()
    return packages if last.imports() else packages[::-1]


def wanted_of(packages):
    """The lines of verdicts and of broken rules; and of the first package that is refused, where go/types stops, its
    places, or None where these are others."""
    lines, verdict, first = [], '', set()
    for package in packages:
        skipped = package.imports() and verdict == 'refused'
        broken, places = ([], set()) if skipped else package.broken()
        first = first if first or first is None or not broken else places
        verdict = 'skipped' if skipped else 'refused' if broken else 'accepted'
        lines.append(f'package\tm{"/" + package.name if package.path else ""}\t{package.name}\t{verdict}')
        lines += broken
    return lines, first


def run(words):
    return subprocess.run(words, capture_output=True, text=True)


def differs(packages, program, other, folder):
    """What differs on a module, as text."""
    root = tempfile.mkdtemp(dir=folder)
    for path, text in [('go.mod', 'module m\n\ngo 1.21\n')] + [entry for p in packages for entry in p.texts.items()]:
        os.makedirs(os.path.dirname(f'{root}/{path}'), exist_ok=True)
        with open(f'{root}/{path}', 'w', newline='', encoding='latin-1') as file:
            file.write(text)
    wanted, places = wanted_of(packages)
    own, go = run([program, root]), run([other, root])
    verdicts = [line for line in own.stdout.splitlines() if line.startswith(('package\t', 'broken\t'))]
    rules = {line.split('\t')[2][0] for line in wanted if line.startswith('broken\t')}
    status = 3 if rules & set('UL') else 1 if rules else 0
    if (verdicts, own.returncode) != (wanted, status):
        return f'status {own.returncode}, {own.stdout}\nand not {status}, {wanted}'
    if not rules and own.stdout != go.stdout:
        return f'{own.stdout}\nGo: {go.stdout}{go.stderr}'
    told = {line.split('\t')[0] for line in go.stderr.splitlines() if '\t' in line}
    if rules and places is not None and told != places:
        return f'{wanted}\nGo: {go.stderr}'
    return ''


def shown(packages):
    texts = [f'-- {path} --\n{text}' for package in packages for path, text in package.texts.items()]
    return '\n'.join(texts).encode('latin-1').decode()


def main():
    parser = argparse.ArgumentParser(usage=__doc__.split('usage: ')[1].splitlines()[0])
    parser.add_argument('--check', action='store_true')
    parser.add_argument('--seed', type=int, default=1)
    parser.add_argument('count', nargs='?', type=int, default=500)
    parser.add_argument('program', nargs='?', default=modules.HERE + '/../crates/gocheck/out/gocheck')
    words = parser.parse_args()
    rng.seed(words.seed)
    differ = accepted = 0
    with tempfile.TemporaryDirectory() as folder:
        if words.check:
            modules.build(folder + '/modules', folder)
        for _ in range(words.count):
            packages = make_module()
            wanted, _ = wanted_of(packages)
            accepted += not any(line.startswith('broken\t') for line in wanted)
            texts = shown(packages)
            if not words.check:
                print(texts, *wanted, '', sep='\n')
            elif difference := differs(packages, os.path.abspath(words.program), folder + '/modules', folder):
                differ += 1
                print(texts, difference, '', sep='\n')
    print(f'{words.count} modules, {accepted} accepted, {differ} differ')
    sys.exit(differ > 0)


if __name__ == '__main__':
    main()
