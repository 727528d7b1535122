#!/usr/bin/env python3
"""Times the program on modules of many packages, and beside it a program over go/parser and go/types.

usage: bench/modules.py [PROGRAM]    (crates/gocheck/out/gocheck if left out)

Needs Debian's golang-1.19-go and time. Each package has ten constants and imports the one before. Prints for each module
its packages, the bytes of the report, the seconds of both programs (user and system, the least of several runs) and
their peak memory in MiB. Ends with status 1 where the reports differ.
"""
import os, subprocess, sys, tempfile

HERE = os.path.dirname(os.path.abspath(__file__))
GO = '/usr/lib/go-1.19/bin/go'
TIME = '/usr/bin/time'
CONSTANTS = 10


def source(number):
    """The text of a package: its first constant rests on the last of the package before."""
    lines = [f'package p{number:04}', '']
    if number:
        lines += [f'import "m/p{number - 1:04}"', '']
    lines.append(f'const C0 = p{number - 1:04}.C{CONSTANTS - 1} + 1' if number else 'const C0 = 1')
    lines += [f'const C{i} = C{i - 1} + 1' for i in range(1, CONSTANTS)]
    return '\n'.join(lines) + '\n'


def write_module(root, packages):
    os.makedirs(root, exist_ok=True)
    with open(root + '/go.mod', 'w') as file:
        file.write('module m\n\ngo 1.21\n')
    for number in range(packages):
        folder = f'{root}/p{number:04}'
        os.makedirs(folder, exist_ok=True)
        with open(folder + '/p.go', 'w') as file:
            file.write(source(number))


def run(words, path):
    """Runs a program under time, since the peak memory of a child of this script would begin at the script's own."""
    with open(path, 'wb') as out:
        child = subprocess.Popen([TIME, '-q', '-f', '%M', '-o', path + '.peak', *words], stdout=out)
        _, status, usage = os.wait4(child.pid, 0)
    peak = int(read(path + '.peak'))
    return os.waitstatus_to_exitcode(status), usage.ru_utime + usage.ru_stime, peak / 1024


def measure(words, path, times):
    runs = [run(words, path) for _ in range(times)]
    return runs[0][0], min(r[1] for r in runs), max(r[2] for r in runs)


def read(path):
    with open(path, 'rb') as file:
        return file.read()


def program_named():
    """The program that the first word names, or the one that is built here."""
    return os.path.abspath(sys.argv[1] if len(sys.argv) > 1 else HERE + '/../crates/gocheck/out/gocheck')


def build(other, folder):
    """Builds the program over go/types."""
    sources = [f'{HERE}/modules_go/{name}.go' for name in ('main', 'types', 'constants')]
    env = {**os.environ, 'GO111MODULE': 'off', 'GOCACHE': folder + '/cache'}
    subprocess.run([GO, 'build', '-o', other, *sources], check=True, env=env)


def compare(program, other, what, root, times, folder):
    """Runs both on a module, and says whether they agree."""
    status, own, memory = measure([program, root], folder + '/own', times)
    go_status, go, go_memory = measure([other, root], folder + '/go', times)
    text = read(folder + '/own')
    agree = (status, go_status) == (0, 0) and text == read(folder + '/go')
    print(f'{what}, {len(text):9} bytes: status {status}, {own:.3f} s, Go {go:.3f} s, '
          f'{own / max(go, .001):.2f} times, {memory:.0f} MiB, Go {go_memory:.0f} MiB, '
          f'{"the same report" if agree else "THE REPORTS DIFFER"}', flush=True)
    return agree


def main():
    program = program_named()
    with tempfile.TemporaryDirectory() as folder:
        other = folder + '/modules'
        build(other, folder)
        agree = []
        for packages, times in ((100, 5), (1000, 3), (2000, 3)):
            root = f'{folder}/{packages}'
            write_module(root, packages)
            agree.append(compare(program, other, f'{packages:5} packages', root, times, folder))
    sys.exit(not all(agree))


if __name__ == '__main__':
    main()
