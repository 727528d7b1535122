#!/usr/bin/env python3
"""Times the program on files of the greatest size.

usage: bench/large.py [PROGRAM]    (crates/gocheck/out/gocheck if left out)

Prints for each file its status, the seconds and the peak memory in MiB.
"""
import os, subprocess, sys, tempfile

SIZE = 16_777_216


def short_constants():
    """Short constants, most of which refer to the one before."""
    lines, size, before = ['package p\n'], 10, None
    while True:
        name = f'c{len(lines):x}'
        line = f'const {name}={before}+1\n' if before and len(lines) % 7 else f'const {name}=1\n'
        size += len(line)
        if size > SIZE:
            return ''.join(lines)
        lines.append(line)
        before = name


def dense_sums():
    """Sums of ten literals: nearly every node of the file has an outcome, so that tables by numbers are dense."""
    lines, size = ['package p\n'], 10
    while True:
        line = f'const c{len(lines):x}=' + '+'.join('1' * 10) + '\n'
        size += len(line)
        if size > SIZE:
            return ''.join(lines)
        lines.append(line)


def open_parentheses():
    """Parentheses that are opened and never closed."""
    front = 'package p\nconst X = '
    return front + '(' * (SIZE - len(front))


def measure(program, root):
    with open(os.devnull, 'wb') as out:
        child = subprocess.Popen([program, root], stdout=out, stderr=out)
        _, status, usage = os.wait4(child.pid, 0)
    return os.waitstatus_to_exitcode(status), usage.ru_utime + usage.ru_stime, usage.ru_maxrss / 1024


def main():
    here = os.path.dirname(os.path.abspath(__file__))
    program = sys.argv[1] if len(sys.argv) > 1 else here + '/../crates/gocheck/out/gocheck'
    with tempfile.TemporaryDirectory() as root:
        with open(root + '/go.mod', 'w') as file:
            file.write('module m\n\ngo 1.21\n')
        for make in (short_constants, dense_sums, open_parentheses):
            with open(root + '/a.go', 'w', newline='') as file:
                file.write(make())
            status, seconds, memory = measure(program, root)
            print(f'{make.__name__}: status {status}, {seconds:.1f} s, {memory:.0f} MiB')


main()
