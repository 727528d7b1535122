#!/usr/bin/env python3
"""Makes modules of types whose report is known by how they are made, and compares the program's with it.

usage: bench/generated_types.py [COUNT [SEED [PROGRAM [OTHER]]]]

Each module has packages of constants, defined types, aliases and variables that use each other in any order, over
several files: by value, in right sides of aliases and by embedding those that were planned before them, and in all other
places any. Half of the modules get faults in one package, all of one phase: rings of every kind, and what types break.
What such a package breaks stands at marks in its text; those that import it are skipped. Where OTHER is bench/modules_go,
built, its reports on the modules that are accepted are compared whole. Ends with status 1 where a report differs.
"""
import os
import random
import re
import subprocess
import sys
import tempfile

rng = random.Random()
BASIC = ['int', 'string', 'bool', 'uint8', 'error', 'float64', 'rune']
KEYS = ['int', 'string', 'bool', '*int']


class Package:
    """Its declarations as texts; what others may use of it: defined types, those that are structs, interfaces, aliases."""

    def __init__(self, name, imports):
        self.name, self.imports, self.used = name, imports, set()
        self.lines, self.types, self.values, self.interfaces, self.constants = [], [], [], [], []

    def of_others(self, kind):
        """Types of a kind of the packages that it imports."""
        return [(f'{p.name}.{t}', p) for p in self.imports for t in getattr(p, kind)]

    def pick(self, kind):
        """A type of a kind, of its own so far or of another package, or a basic one."""
        own = [(t, None) for t in getattr(self, kind)]
        name, package = rng.choice(own + self.of_others(kind) + [(rng.choice(BASIC), None)])
        if package:
            self.used.add(package)
        return name


def type_of(p, names, deep=0):
    """A type that may use any type of the package behind a pointer, a slice and the like, and those before by value."""
    form = rng.randrange(12 if deep < 3 else 3)
    inner = lambda: type_of(p, names, deep + 1)
    if form < 2:
        return p.pick('values')
    if form < 5:
        return rng.choice(['*', '[]', 'chan ', '<-chan ', 'chan<- ', '*']) + reference(p, names)
    if form == 5:
        return f'[{length(p)}]{inner()}'
    if form == 6:
        return f'map[{rng.choice(KEYS)}]{reference(p, names)}'
    if form == 7:
        return 'func' + signature(p, names, deep)
    if form == 8:
        return struct(p, names, deep)
    if form == 9:
        return interface(p, names, deep)
    if form == 10:
        return '(' + inner() + ')'
    return 'chan (' + inner() + ')'


def reference(p, names):
    return rng.choice(names) if rng.random() < .6 else p.pick('types')


def length(p):
    size = str(rng.randrange(5))
    return rng.choice([size, size + ' + 1', *p.constants, *(c + ' + 2' for c in p.constants)])


def signature(p, names, deep):
    params = [f'p{i} {type_of(p, names, deep + 1)}' for i in range(rng.randrange(3))]
    if rng.random() < .2:
        params.append(f'rest ...{reference(p, names)}')
    results = rng.choice(['', type_of(p, names, deep + 1), f'(r {p.pick("types")}, err error)'])
    return '(' + ', '.join(params) + ') ' + results


def struct(p, names, deep):
    fields = [f'f{i} {type_of(p, names, deep + 1)}' + rng.choice(['', '', f' "t{i}"', f' `u{i}`'])
              for i in range(rng.randrange(4))]
    if deep == 0 and p.interfaces and rng.random() < .3:
        fields.append(rng.choice(p.interfaces))
    return 'struct { ' + '; '.join(fields) + ' }'


def interface(p, names, deep):
    elems = [f'M{i}{signature(p, names, deep + 1)}' for i in range(rng.randrange(3))]
    return 'interface { ' + '; '.join(elems) + ' }'


def fill(p):
    """Plans the declarations of a package."""
    names = [f'T{i}' for i in range(rng.randrange(1, 9))]
    p.constants = [f'N{i}' for i in range(rng.randrange(3))]
    p.lines += [f'const {c} = {rng.randrange(9)}' for c in p.constants]
    for i, name in enumerate(names):
        if rng.random() < .2:
            own = f'X{i}() {p.pick("types")}'
            embedded = [*rng.sample(p.interfaces, min(len(p.interfaces), rng.randrange(2))), *rng.choice([[], ['error']])]
            p.lines.append(f'type {name} interface {{ ' + '; '.join([own, *embedded]) + ' }')
            p.interfaces.append(name)
        else:
            p.lines.append(f'type {name} ' + type_of(p, names))
        p.types.append(name)
        p.values.append(name)
    for i in range(rng.randrange(3)):
        p.lines.append(f'type A{i} = ' + type_of(p, names))
        p.values.append(f'A{i}')
        p.types.append(f'A{i}')
    p.lines += [f'var v{i}, w{i} {p.pick("values")}' for i in range(rng.randrange(3))]
    rng.shuffle(p.lines)


def ring(many, line):
    return [line.format(i=i, j=(i + 1) % many) for i in range(many)]


def by_value(many):
    links = ['struct{{ a R{j} }}', '[2]R{j}', 'struct{{ p *R{i}; b [1]struct{{ c R{j} }} }}']
    return [f'type /*!C3*/R{i} ' + rng.choice(links).format(i=i, j=(i + 1) % many) for i in range(many)]


# The faults of each phase behind imports: declarations, with a mark at each place at which a rule is broken.
FAULTS = {
    'names': [
        lambda n: ['type F1 struct{ /*!P5*/a, b int; /*!P5*/a string }'],
        lambda n: ['type F2 func(/*!P4*/a int) (/*!P4*/a int)'],
        lambda n: ['type F3 interface{ /*!P5*/m(); /*!P5*/m() }'],
        lambda n: ['type F4 *F5', 'type /*!P4*/F6 int', 'type /*!P4*/F6 int', 'type F5 int'],
        lambda n: ['var f7 [/*!P7*/Z]int'],
    ],
    'declarations': [
        lambda n: ring(n, 'type /*!C4*/R{i} R{j}'),
        lambda n: ring(n, 'type /*!C4*/S{i} = S{j}') + ['type /*!C4*/U S0', 'type U2 *S0'],
        lambda n: ring(n, 'type /*!C5*/V{i} interface{{ m(); V{j} }}') + ['type W interface{ V0 }'],
    ],
    'values': [
        by_value,
        lambda n: ring(n, 'type /*!C1*/A_{i} = []A_{j}'),
        lambda n: ring(n, 'const /*!C1*/C{i} = C{j}') + ['type D [C0]int', 'var d D'],
        lambda n: ['var e int', 'type E [/*!C12*/e]int', 'type E2 [/*!C12*/9223372036854775807 + 1]E', 'var e2 E2'],
        lambda n: ['const G = 1', 'type G2 []/*!C13*/G', 'var g /*!C13*/G', 'type G3 = map[string]/*!C13*/g2', 'var g2 int'],
        lambda n: ['type P *int', 'type Q = *P', 'type H struct{ /*!C9*/P; a int; /*!C9*/Q }', 'type H2 struct{ /*!C9*/*error }'],
        lambda n: ['type K interface{ int }', 'type K2 interface{ K; m() }', 'var k /*!C15*/K', 'type K3 []/*!C15*/K2',
                   'type K4 func(a /*!C15*/K) (/*!C15*/K)', 'type K5 K'],
        lambda n: ['type L interface{ m(int) }', 'type L2 interface{ m(string) }', 'type L3 /*!C19*/interface{ L; L2 }',
                   'type L4 interface{ L; m(int) }', 'var l /*!C19*/interface{ L3 }'],
        lambda n: ['const /*!R37*/O, O2 = 1'],
        lambda n: ['const Z1 = /*!R1*/[]int', 'const Z2 = 1 + /*!R1*/Z3', 'type Z3 int'],
    ],
}


def plan():
    """Packages in import order, of which each may import those before it; and the one with faults, if any."""
    packages = []
    for name in ['a', 'b', 'c'][:rng.randrange(1, 4)]:
        packages.append(Package(name, [p for p in packages if rng.random() < .6]))
        fill(packages[-1])
    if rng.random() < .5:
        return packages, None
    faulty, phase = rng.choice(packages), rng.choice(list(FAULTS))
    for fault in rng.sample(FAULTS[phase], rng.randrange(1, 3)):
        faulty.lines += fault(rng.randrange(1, 6))
    rng.shuffle(faulty.lines)
    return packages, faulty


def texts_of(p):
    """The files of a package, with marks. Imports stand in the file that uses them."""
    many = rng.randrange(1, 4)
    for number in range(many):
        lines = p.lines[number::many]
        body = '\n'.join(lines) + '\n'
        imports = [f'import "m/{q.name}"\n' for q in p.imports if re.search(rf'\b{q.name}\.', body)]
        yield f'{p.name}/{number}.go', f'package {p.name}\n\n' + ''.join(imports) + '\n' + body


def without_marks(path, text):
    """The text, and the lines of what it breaks."""
    broken = []
    while mark := re.search(r'/\*!(\w+)\*/', text):
        line, col = text.count('\n', 0, mark.start()) + 1, mark.start() - text.rfind('\n', 0, mark.start())
        broken.append(f'broken\t{path}:{line}:{col}\t{mark[1]}')
        text = text[:mark.start()] + text[mark.end():]
    return text, broken


def write(root, packages):
    """Writes the module; gives what each package breaks."""
    broken = {}
    for path, text in [('go.mod', 'module m\n\ngo 1.21\n')]:
        with open(f'{root}/{path}', 'w') as file:
            file.write(text)
    for p in packages:
        os.makedirs(f'{root}/{p.name}')
        broken[p.name] = []
        for path, text in texts_of(p):
            text, found = without_marks(path, text)
            broken[p.name] += found
            with open(f'{root}/{path}', 'w') as file:
                file.write(text)
    return broken


def wanted(packages, broken):
    """What stands in the report of each package by its name: its verdict, and what it breaks."""
    verdicts, refused = {}, set()
    for p in packages:
        imported = {q.name for q in p.imports if any(re.search(rf'\b{q.name}\.', line) for line in p.lines)}
        verdict = 'skipped' if imported & refused else 'refused' if broken[p.name] else 'accepted'
        if verdict != 'accepted':
            refused.add(p.name)
        verdicts[p.name] = verdict, broken[p.name] if verdict == 'refused' else []
    return verdicts


def found(text):
    verdicts, last = {}, None
    for line in text.splitlines():
        fields = line.split('\t')
        if fields[0] == 'package':
            last = fields[2]
            verdicts[last] = fields[3], []
        elif fields[0] == 'broken' and last:
            verdicts[last][1].append(line)
    return verdicts


def main():
    here = os.path.dirname(os.path.abspath(__file__))
    words = dict(enumerate(sys.argv[1:]))
    rng.seed(int(words.get(1, 1)))
    program, differ, refused, accepted = words.get(2, here + '/../crates/gocheck/out/gocheck'), 0, 0, 0
    count = int(words.get(0, 2000))
    for number in range(count):
        with tempfile.TemporaryDirectory() as root:
            packages, faulty = plan()
            verdicts = wanted(packages, write(root, packages))
            done = subprocess.run([program, root], capture_output=True, text=True)
            right = found(done.stdout) == verdicts and done.returncode == (1 if faulty else 0)
            if right and not faulty and 3 in words:
                other = subprocess.run([words[3], root], capture_output=True, text=True)
                right = other.stdout == done.stdout
                verdicts = other.stdout + other.stderr
            refused, accepted, differ = refused + bool(faulty), accepted + (not faulty), differ + (not right)
            if not right:
                print(number, verdicts, done.returncode, done.stdout, done.stderr, sep='\n')
                subprocess.run(['tail', '-n', '+1', *sorted(subprocess.run(['find', root, '-name', '*.go'], capture_output=True, text=True).stdout.split())])
    print(f'{count} modules, {accepted} accepted, {refused} refused, {differ} reports differ')
    sys.exit(differ > 0)


if __name__ == '__main__':
    main()
