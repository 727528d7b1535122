#!/usr/bin/env python3
"""Times the program on modules of many untyped constants, and beside it a program over go/parser and go/types.

usage: bench/constants.py [PROGRAM]    (crates/gocheck/out/gocheck if left out)

Needs Debian's golang-1.19-go and time. Each module has one file, and is measured whole and at a quarter of its size:
50,000 constants by all operators, of which most use the one before; 1,000 groups of 100 constants by iota, most of whose
lists are omitted; 16 MiB of strings, every other one of which is made of two. Prints what bench/modules.py does. Ends
with status 1 where the reports differ.
"""
import os, sys, tempfile

sys.dont_write_bytecode = True
import modules

SIZE = 16_777_216
# By the integer before, c, the truth value before, b, and the number of the constant, i.
INTEGERS = ['{c} + {i}', '{c} * 3 % 1000003', '{c} << 5 & 0xFFFFF', '-{c} ^ 0x55', '({c} | 1) / -7', '{c} &^ 6 - {i}',
            "'a' + {c} % 26", '^{c} >> 1', '+{c} & 0xFFFF', '({c} - {i}) % 997']
TRUTHS = ['{c} < {i}', '{c} == {c} && !{b}', '{b} || {c} >= 7', '{b} != ({c} <= {i})', '"s" + "t" > "s" && {b}']


def mixed(many):
    """Integers and truth values in turn."""
    lines = ['const c0 = 1', 'const b0 = true']
    for i in range(1, many // 2):
        lines.append(f'const c{i} = ' + INTEGERS[i % len(INTEGERS)].format(c=f'c{i - 1}', i=i))
        lines.append(f'const b{i} = ' + TRUTHS[i % len(TRUTHS)].format(c=f'c{i}', b=f'b{i - 1}', i=i))
    return '\n'.join(lines)


def groups(many):
    """Groups of 100 constants: in each the list is written four times, and omitted else."""
    lists = ['1 << (iota % 100)', 'iota*iota - 7', "'a' + iota", 'iota % 3 == 0']
    lines = []
    for group in range(many):
        lines.append('const (')
        for i in range(100):
            name = f'\tg{group}_{i}'
            lines.append(f'{name} = {lists[i // 25]}' if i % 25 == 0 else name)
        lines.append(')')
    return '\n'.join(lines)


def strings(size):
    """Literals of 1,000 bytes, and every other constant the one before with 500 bytes more."""
    lines, left = [], size - 100
    while left > 0:
        i = len(lines)
        text = f'{i:08}' * 125
        lines.append(f'const s{i} = s{i - 1} + "{text[:500]}"' if i % 2 else f'const s{i} = "{text}"')
        left -= len(lines[-1]) + 1
    return '\n'.join(lines[:-1])


CASES = [('constants', mixed, 50000), ('groups', groups, 1000), ('bytes of strings', strings, SIZE)]


def main():
    program = modules.program_named()
    with tempfile.TemporaryDirectory() as folder:
        other = folder + '/modules'
        modules.build(other, folder)
        agree = []
        for what, make, most in CASES:
            for size in (most // 4, most):
                root = folder + '/root'
                os.makedirs(root, exist_ok=True)
                for name, text in (('go.mod', 'module m\n\ngo 1.21\n'), ('p.go', f'package p\n\n{make(size)}\n')):
                    with open(f'{root}/{name}', 'w') as file:
                        file.write(text)
                agree.append(modules.compare(program, other, f'{size:8} {what}', root, 1, folder))
    sys.exit(not all(agree))


if __name__ == '__main__':
    main()
