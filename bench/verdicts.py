#!/usr/bin/env python3
"""Runs the program on every file of Go's source tree, and compares what it refuses with Go's parser.

usage: bench/verdicts.py [PROGRAM [FOLDER]]    (crates/gocheck/out/gocheck, Debian's Go 1.19)

Each file is put as a.go into a module of its own. A file counts as refused where rule S1, S2, S3 or L6 is in the
list. Prints the paths on which both differ, with the rule and place, or Go's error, and how many files ended how.
Ends with status 1 where a run ended otherwise than with a report.
"""
import collections, os, subprocess, sys, tempfile
from concurrent.futures import ThreadPoolExecutor

GO = '/usr/lib/go-1.19/bin/go'
REFUSED = {'S1', 'S2', 'S3', 'L6'}


def own(program, path):
    with tempfile.TemporaryDirectory() as root:
        with open(path, 'rb') as file, open(root + '/a.go', 'wb') as copy:
            copy.write(file.read())
        with open(root + '/go.mod', 'w') as file:
            file.write('module m\n\ngo 1.21\n')
        done = subprocess.run([program, root], capture_output=True, timeout=60)
    broken = [line.split('\t')[1:] for line in done.stdout.decode().splitlines() if line.startswith('broken\t')]
    return done.returncode, [(place, rule) for place, rule in broken if rule in REFUSED]


def main():
    here = os.path.dirname(os.path.abspath(__file__))
    program = os.path.abspath(sys.argv[1] if len(sys.argv) > 1 else here + '/../crates/gocheck/out/gocheck')
    folder = sys.argv[2] if len(sys.argv) > 2 else '/usr/share/go-1.19'
    paths = sorted(os.path.join(at, name) for at, _, names in os.walk(folder) for name in names
                   if name.endswith('.go') and os.path.isfile(os.path.join(at, name)))
    with tempfile.TemporaryDirectory() as root:
        env = {**os.environ, 'GO111MODULE': 'off', 'GOCACHE': root + '/cache'}
        subprocess.run([GO, 'build', '-o', root + '/parse', here + '/parse/main.go'], check=True, env=env)
        go = subprocess.run([root + '/parse'], input='\n'.join(paths), capture_output=True, text=True, check=True)
    theirs = go.stdout.splitlines()
    with ThreadPoolExecutor(os.cpu_count()) as pool:
        ours = list(pool.map(lambda path: own(program, path), paths))
    ends, differ = collections.Counter(), 0
    for path, (status, refused), other in zip(paths, ours, theirs, strict=True):
        ends[status] += 1
        if bool(refused) != (other != 'ok'):
            differ += 1
            print(f'{os.path.relpath(path, folder)}: own {refused or "accepted"}, Go {other}')
    print(f'{len(paths)} files, {differ} differ; by status: {dict(sorted(ends.items()))}')
    return set(ends) - {0, 1, 3}


sys.exit(1 if main() else 0)
