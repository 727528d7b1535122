#!/usr/bin/env python3
"""Times scanner, parser and the rules on the form of a file, and beside them Go's own parser.

usage: bench/parse.py [PROGRAM]    (crates/gocheck/out/gocheck if left out)

Needs Debian's golang-1.19-go and golang-1.19-src. Prints for each file its bytes, the status, the seconds of
both programs (user and system, the least of several runs), their quotient, and the peak memory of both in MiB.
"""
import os, subprocess, sys, tempfile

GO = '/usr/lib/go-1.19/bin/go'
SOURCE = '/usr/share/go-1.19/src/'
REAL = ['cmd/compile/internal/ssa/rewriteAMD64.go', 'net/http/h2_bundle.go', 'reflect/value.go',
        'cmd/compile/internal/ssagen/ssa.go', 'runtime/proc.go', 'unicode/tables.go',
        'syscall/zerrors_linux_amd64.go', 'go/parser/parser.go', 'crypto/tls/handshake_messages.go']
SIZE = 16_777_216
BODY = 'package p; func f() { '
LARGE = {'blocks': (BODY, '{', ''), 'function literals': (BODY, 'func(){', ''), 'parentheses': (BODY, '(', ''),
         'blanks': ('', ' ', ''), 'semicolons': (BODY, ';', '}')}

FUNCTION = '''
// f%(n)d walks over what it is given, and counts.
func f%(n)d(xs []item%(n)d, limit int) (count int, err error) {
	seen := map[string]*item%(n)d{"first": {name: "a", size: 0x1F}, "second": nil}
	for i, x := range xs {
		if x.size > limit && !x.done || i == len(xs)-1 {
			return count, fmt.Errorf("item %%d of %%q: %%v", i, x.name, seen[x.name])
		} else if y, ok := seen[x.name]; ok {
			y.size, y.done = x.size<<2+count*3, !y.done
			continue
		}
		switch x.name[0] {
		case 'a', 'b':
			count += x.size &^ 7
		default:
			defer func(at int) { count -= at }(i)
		}
		seen[x.name] = &xs[i]
	}
	return
}

type item%(n)d struct {
	name string `json:"name"`
	size int
	done bool
}
'''


def generated(size):
    pieces, length = ['package p\n\nimport "fmt"\n'], 24
    while length < size:
        piece = FUNCTION % {'n': len(pieces)}
        pieces.append(piece)
        length += len(piece)
    return ''.join(pieces)


def run(words):
    with open(os.devnull, 'wb') as out:
        child = subprocess.Popen(words, stdout=out, stderr=out)
        _, status, usage = os.wait4(child.pid, 0)
    return os.waitstatus_to_exitcode(status), usage.ru_utime + usage.ru_stime, usage.ru_maxrss / 1024


def measure(words, times):
    runs = [run(words) for _ in range(times)]
    return runs[0][0], min(r[1] for r in runs), max(r[2] for r in runs)


def main():
    here = os.path.dirname(os.path.abspath(__file__))
    program = os.path.abspath(sys.argv[1] if len(sys.argv) > 1 else here + '/../crates/gocheck/out/gocheck')
    with tempfile.TemporaryDirectory() as root:
        other = root + '/parse'
        subprocess.run([GO, 'build', '-o', other, here + '/parse/main.go'], check=True,
                       env={**os.environ, 'GO111MODULE': 'off', 'GOCACHE': root + '/cache'})

        with open(root + '/go.mod', 'w') as file:
            file.write('module m\n\ngo 1.21\n')

        def line(name, text, times):
            with open(root + '/a.go', 'wb') as file:
                file.write(text)
            status, own, memory = measure([program, root], times)
            go_status, go, go_memory = measure([other, root + '/a.go'], times)
            print(f'{name:45} {len(text):9} bytes: status {status}, {own:.3f} s, Go {go:.3f} s, '
                  f'{own / max(go, .001):.2f} times, {memory:.0f} MiB, Go {go_memory:.0f} MiB', flush=True)

        for name in REAL:
            with open(SOURCE + name, 'rb') as file:
                line(name, file.read(), 10)
        for size in (1, 2, 4):
            line(f'generated, {size} MiB', generated(size * 1_048_576).encode(), 5)
        for name, (front, unit, back) in LARGE.items():
            times = (SIZE - len(front) - len(back)) // len(unit)
            line(name, (front + unit * times + back).encode(), 1)


main()
