#!/usr/bin/env python3
"""Times the program on declarations of types that lead to each other in long chains and rings, or past the limits.

usage: bench/rings.py [PROGRAM]    (crates/gocheck/out/gocheck if left out)

Each module has one package, and its verdict is known by how it is made: accepted, or one rule at so many places. Prints for
each the status, the rules that were told with how often, the seconds (user and system) and the peak memory in MiB. Needs
Debian's time. Ends with status 1 where a verdict is another.
"""
import collections, os, sys, tempfile

sys.dont_write_bytecode = True
import modules


def chain(many, line):
    return [line.format(i=i, j=i + 1) for i in range(many)]


def ring(many, line):
    return [line.format(i=i, j=(i + 1) % many) for i in range(many)]


def fields(many):
    return ['type T struct {', *['\t_ int'] * many, '}']


# What a module is, its lines, and the rules that it breaks with how often.
CASES = [
    ('10,000 types in a chain, the last first', [*chain(10000, 'type T{i} T{j}'), 'type T10000 int'], {}),
    ('10,000 types in a chain, the first first', ['type T10000 int', *reversed(chain(10000, 'type T{i} T{j}'))], {}),
    ('10,000 structs in a chain', [*chain(10000, 'type T{i} struct{{ a T{j} }}'), 'type T10000 int'], {}),
    ('10,000 aliases in a chain, the first first', ['type T10000 int', *reversed(chain(10000, 'type T{i} = T{j}'))], {}),
    ('a ring of 1,000 by value', ring(1000, 'type T{i} struct{{ a T{j} }}'), {'C3': 1000}),
    ('a ring of 1,000 by arrays', ring(1000, 'type T{i} [2]T{j}'), {'C3': 1000}),
    ('a ring of 1,000 by pointers', ring(1000, 'type T{i} struct{{ a *T{j} }}'), {}),
    ('a ring of 1,000 right sides', ring(1000, 'type T{i} T{j}'), {'C4': 1000}),
    ('a ring of 1,000 aliases', ring(1000, 'type T{i} = T{j}'), {'C4': 1000}),
    ('a ring of 1,000 aliases of slices', ring(1000, 'type T{i} = []T{j}'), {'C1': 1000}),
    ('a ring of 1,000 by embedding', ring(1000, 'type T{i} interface{{ T{j} }}'), {'C5': 1000}),
    ('a ring of 1,000 embedded pointers', ring(1000, 'type T{i} struct{{ *T{j} }}'), {}),
    ('a ring of 1,000 constants, which are lengths',
     [*ring(1000, 'const N{i} = N{j}'), *chain(1000, 'type T{i} [N{i}]int')], {'C1': 1000}),
    ('65,535 fields', fields(65535), {}),
    ('65,536 fields', fields(65536), {'L5': 1}),
    ('255 pointers', ['type T ' + '*' * 255 + 'int'], {}),
    ('256 pointers', ['type T ' + '*' * 256 + 'int'], {'L4': 1}),
    ('a ladder of 1,000 interfaces',
     [*chain(1000, 'type T{i} interface{{ T{j}; T{j} }}'), 'type T1000 interface{ m() }'], {}),
    ('1,000 constraints, each the type of a variable',
     [*chain(1000, 'type T{i} interface{{ T{j} }}'), 'type T1000 interface{ int }', *chain(1000, 'var v{i} T{i}')],
     {'C15': 1000}),
    ('1,000 interfaces that get a method twice with one type',
     [*chain(1000, 'type T{i} interface{{ m(int) }}'), 'type U interface {', *chain(1000, '\tT{i}'), '}'], {}),
    ('an interface that gets 1,000 methods twice with two types',
     ['type A interface {', *chain(1000, '\tm{i}()'), '}', 'type B interface {', *chain(1000, '\tm{i}(int)'), '}',
      'type C interface { A; B }'], {'C19': 1}),
]


def told(text):
    rules = collections.Counter()
    for line in text.decode().splitlines():
        if line.startswith('broken\t'):
            rules[line.split('\t')[2]] += 1
    return dict(rules)


def check(program, what, lines, wanted, folder):
    root = folder + '/module'
    os.makedirs(root, exist_ok=True)
    for name, text in (('go.mod', 'module m\n\ngo 1.21\n'), ('a.go', '\n'.join(['package p', '', *lines]) + '\n')):
        with open(f'{root}/{name}', 'w') as file:
            file.write(text)
    status, seconds, memory = modules.measure([program, root], folder + '/report', 1)
    rules = told(modules.read(folder + '/report'))
    limits = any(rule.startswith('L') for rule in wanted)
    right = rules == wanted and status == (3 if limits else 1 if wanted else 0)
    print(f'{what}: status {status}, {rules or "accepted"}, {seconds:.3f} s, {memory:.0f} MiB'
          f'{"" if right else ", AND NOT " + str(wanted)}', flush=True)
    return right


def main():
    program = modules.program_named()
    with tempfile.TemporaryDirectory() as folder:
        right = [check(program, what, lines, wanted, folder) for what, lines, wanted in CASES]
    sys.exit(not all(right))


if __name__ == '__main__':
    main()
