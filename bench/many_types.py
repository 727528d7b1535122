#!/usr/bin/env python3
"""Times the program on modules of types, and beside it a program over go/parser and go/types.

usage: bench/many_types.py [PROGRAM]    (crates/gocheck/out/gocheck if left out)

Needs Debian's golang-1.19-go and time. 1,000 packages have ten types each, of every form, that use those before them and
those of the package before; one package has 20,000 types, each of which uses the one before. Prints what bench/modules.py
does. Ends with status 1 where the reports differ.
"""
import os, sys, tempfile

sys.dont_write_bytecode = True
import modules

# The types of a package; `{q}` stands for the last type of the package before.
TYPES = '''type T0 struct {{
	a *{q}
	b [N]int
	c, d string "tag"
}}

const N = 3

type T1 struct {{
	T0
	next *T1
}}
type T2 interface {{
	M(x T0, y *T1) string
	N() T2
}}
type T3 map[string]T1
type T4 func(a T0, b ...T1) (T2, error)
type T5 chan<- T4
type T6 [N + 1]T1
type T7 = *T6
type T8 struct {{
	T1
	*T6
}}
type T9 struct {{
	x T8
	y T7
	z []T9
}}

var v T9
'''


def package(number):
    before = f'import "m/p{number - 1:04}"\n\n' if number else ''
    return f'package p{number:04}\n\n' + before + TYPES.format(q=f'p{number - 1:04}.T9' if number else 'int')


def write_packages(root, packages):
    write(root, 'go.mod', 'module m\n\ngo 1.21\n')
    for number in range(packages):
        write(f'{root}/p{number:04}', 'p.go', package(number))


def write_chain(root, types):
    write(root, 'go.mod', 'module m\n\ngo 1.21\n')
    lines = [f'type T{i} struct {{ a T{i - 1}; b *T{i - 1}; c []T{i} }}' for i in range(1, types)]
    write(root, 'p.go', '\n'.join(['package p', '', 'type T0 int', *lines]) + '\n')


def write(folder, name, text):
    os.makedirs(folder, exist_ok=True)
    with open(f'{folder}/{name}', 'w') as file:
        file.write(text)


def main():
    program = modules.program_named()
    with tempfile.TemporaryDirectory() as folder:
        other = folder + '/modules'
        modules.build(other, folder)
        write_packages(folder + '/packages', 1000)
        write_chain(folder + '/chain', 20000)
        agree = [modules.compare(program, other, what, f'{folder}/{root}', 3, folder)
                 for what, root in ((' 1000 packages', 'packages'), ('20000 types', 'chain'))]
    sys.exit(not all(agree))


if __name__ == '__main__':
    main()
