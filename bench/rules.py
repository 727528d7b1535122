#!/usr/bin/env python3
"""Holds the tables of rules, docs/RULES.md, against the repository.

usage: bench/rules.py --check

Of each row of the tables:
- The definitions, the constant and the functions stand in the named files. The number's definition and the constant
  have the family and the number of the code, and one name, the constant's in capitals.
- Each function names the constant, or a call of it does, as `told_with` says.
- Each edit is one of a function's crate, and changes the function's file, the constant's, or one that the function's
  file imports from. No two crates have an edit of one name.
- crates/go_rows/data/rules.txt has a row `CODE: ` for it, in the order of the tables, which runs the program, and one
  row `CODE not: ` or more; but for the rules that no program meets yet, whose table has no programs.
Each definition and each constant of a rule is in the tables, but of those that are not told yet, and so is each code in what a row of go_rows/data wants.
Prints what is wrong, and exits with 1 where something is.
"""
import collections, pathlib, re, sys

ROOT = pathlib.Path(__file__).resolve().parent.parent
CRATES = ROOT / 'crates'
HEAD = ['Code', 'Phase', 'Place', 'Broken where', 'Definition', 'Number', 'Constant', 'Function', 'Edit', 'Program']
# Of rules that no program meets yet.
JUDGED = [column for column in HEAD if column not in ('Phase', 'Program')]
CODE = r'[SMPCRINUL]\d+'
NUMBER = re.compile(r'^ *(\w+) = record \{ family = ([A-Z]); number = (\d+) \}', re.M)
CONSTANT = re.compile(r'^ *pub const (\w+): Rule = Rule \{\s*family: Family::([A-Z]),\s*number: (\d+),\s*\};', re.M)
WORD = re.compile(r'\b[A-Z]+(?:_[A-Z]+)+\b')
FUNCTION = re.compile(r'^( *)(?:pub(?:\(crate\))? )?fn (\w+)(.*?)^\1\}$', re.M | re.S)
# The programs that are told in words: the code and the words, and the sections of the row.
IN_WORDS = {
    ('S1', 'a byte FF'): {'a.go, quoted': '"package p\\n"\n"\\n"\n"const \\xFF = 1\\n"\n'},
    ('U3', '`//go:build x` on the line before the package clause'): {'a.go': '//go:build x\npackage p\n'},
    ('L6', '`const X = !1` with 997 times `!`'): {
        'a.go, quoted': '"package p\\n"\n"\\n"\n"const X = "\n"!" * 997\n"1\\n"\n'
    },
    ('L3', '`const X = ""` with 1,048,577 times `a` between the quotes'): {
        'a.go, quoted': '"package p\\n"\n"\\n"\n"const X = \\""\n"a" * 1048577\n"\\"\\n"\n'
    },
    ('L3', '`const X = "" + "a"` with 1,048,576 times `a` in the first string'): {
        'a.go, quoted': '"package p\\n"\n"\\n"\n"const X = \\""\n"a" * 1048576\n"\\" + \\"a\\"\\n"\n'
    },
    ('M1', 'no go.mod'): {'no go.mod': '', 'a.go': 'package p\n'},
    ('U6', 'a file `a b.go`'): {'a b.go': 'package p\n'},
    ('L1', 'a file of 16,777,217 bytes'): {'a.go, quoted': '"package p"\n" " * 16777208\n'},
    ('P2', '`import "m"` in the package m'): {'a.go': 'package p\n\nimport "m"\n'},
    ('P3', '`package p` and `package q` in two files of a folder'): {'a.go': 'package p\n', 'b.go': 'package q\n'},
    ('L4', '`type T` with 256 times `[]` before `int`'): {
        'a.go, quoted': '"package p\\n"\n"\\n"\n"type T "\n"[]" * 256\n"int\\n"\n'
    },
    ('L5', 'a struct with 65,536 times `_ int`'): {
        'a.go, quoted': '"package p\\n"\n"\\n"\n"type T struct {\\n"\n"_ int\\n" * 65536\n"}\\n"\n'
    },
}
wrong = []


def say(text):
    wrong.append(text)


def text_of(path):
    return path.read_text() if path.is_file() else ''


def rows_of(table, head):
    """The rows of the tables with these columns, each by its columns."""
    rows, inside = [], False
    for line in table.splitlines():
        cells = [cell.strip() for cell in line.strip('|').split(' | ')] if line.startswith('|') else []
        if cells == head:
            inside = True
        elif not cells:
            inside = False
        elif inside and not set(line) <= set('|-'):
            if len(cells) != len(head) or not all(cells) or not re.fullmatch(CODE, cells[0]):
                say('not a row of a rule: ' + line)
            else:
                rows.append(dict(zip(head, cells)))
    return rows


def named(row, column, least=1):
    """The pairs `NAME` in `FILE` of a cell."""
    pairs = re.findall(r'`([^`]+)` in `([^`]+)`', row[column])
    if len(pairs) < least:
        say(f'{row["Code"]}: {column} names nothing: {row[column]}')
    return pairs


def in_file(row, column, pattern):
    """Each name of a cell stands in its file as the pattern says."""
    for name, path in named(row, column):
        if not re.search(pattern % re.escape(name), text_of(CRATES / path), re.M):
            say(f'{row["Code"]}: {column} {name} is not in {path}')


def numbered(row, column, pattern):
    """The one pair of a cell, whose name has the code of the row in its file."""
    for name, path in named(row, column):
        codes = [f + n for found, f, n in pattern.findall(text_of(CRATES / path)) if found == name]
        if codes != [row['Code']]:
            say(f'{row["Code"]}: {column} {name} in {path} has the codes {codes}')
        return name, path


def check_row(row):
    in_file(row, 'Definition', r'^ *(?:abbrev )?(?:pub )?(?:abbrev |record |data )?%s\b[^=]*:')
    in_file(row, 'Function', r'^ *(?:pub(?:\(crate\))? )?fn %s\b')
    number, constant = numbered(row, 'Number', NUMBER), numbered(row, 'Constant', CONSTANT)
    if number and constant and number[0].upper() != constant[0]:
        say(f'{row["Code"]}: the constant {constant[0]} is not named as the definition {number[0]}')
    check_told(row)
    check_edits(row)
    return number, constant


def crate_of(path):
    return path.split('/')[0]


def told_by_calls(name, body, constants):
    """Where a body calls the function: the constants of the first statement from there on that names some."""
    statements, told = body.split(';'), set()
    for i, statement in enumerate(statements):
        if re.search(rf'\b{name}\(', statement):
            each = (constants.intersection(WORD.findall(later)) for later in statements[i:])
            told |= next(filter(None, each), set())
    return told


def told_with(name, path, constants):
    """The constants that a function names; where it names none, those of the functions of its crate that it calls; else
    those that tell what calls of it in its crate find; where there are none, those of its file, and of a crate without
    rules those of the files that import from it."""
    crate, own, calls, bodies = crate_of(path), '', set(), {}
    for file in sorted((CRATES / crate / 'src').rglob('*.rt')):
        for _, function, body in FUNCTION.findall(file.read_text()):
            bodies[function] = constants.intersection(WORD.findall(body))
            own += body if function == name and file == CRATES / path else ''
            calls |= told_by_calls(name, body, constants)
    called = set().union(*(bodies[word] for word in re.findall(r'\b(\w+)\(', own) if word in bodies))
    files = [text_of(CRATES / path)]
    if not (CRATES / crate / 'src/rules.rt').is_file():
        texts = (file.read_text() for file in CRATES.glob('*/src/**/*.rt'))
        files = [text for text in texts if f'use {crate}::' in text]
    named_in = lambda text: constants.intersection(WORD.findall(text))
    return named_in(own) or called or calls or named_in('\n'.join(files))


def check_told(row):
    """Each function tells with the constant of the row."""
    constants = {name for path in CRATES.glob('*/src/**/*.rt') for name, _, _ in CONSTANT.findall(path.read_text())}
    for name, path in named(row, 'Function'):
        for constant, _ in named(row, 'Constant'):
            if constant not in told_with(name, path, constants):
                say(f'{row["Code"]}: {name} in {path} does not tell with {constant}')


def check_edits(row):
    """Each edit changes a file of a function, of the constant, or one that a function's file imports from."""
    edits = re.findall(r'`([^`]+)`', row['Edit'])
    if not edits:
        say(f'{row["Code"]}: no edit ({row["Definition"]})')
    functions = {path for _, path in named(row, 'Function')}
    constants = {path for _, path in named(row, 'Constant')}
    crates = {crate_of(path) for path in functions}
    for edit in edits:
        near = []
        for crate in sorted(crates):
            for file in re.findall(r'^file: (.*)$', text_of(CRATES / crate / f'must-fail/{edit}.edit'), re.M):
                used = 'crate::' + re.sub(r'^src/|\.rt$', '', file).replace('/', '::')
                near.append(f'{crate}/{file}' in functions | constants)
                near += [re.search(rf'\b{used}\b', text_of(CRATES / path)) for path in functions]
        if not near:
            say(f'{row["Code"]}: no edit {edit} in {sorted(crates)}')
        elif not any(near):
            say(f'{row["Code"]}: the edit {edit} changes no file of the functions')


def check_names_of_edits():
    """No two crates have an edit of one name."""
    crates = collections.defaultdict(list)
    for path in sorted(CRATES.glob('*/must-fail/*.edit')):
        crates[path.stem].append(path.parts[-3])
    for edit, several in crates.items():
        if len(several) > 1:
            say(f'{edit}: an edit of {several}')


def check_all_told(pairs, folder, suffix, pattern):
    """Each definition or constant of a rule is in the tables."""
    for path in sorted(CRATES.glob(f'*/{folder}/**/*{suffix}')):
        for name, family, number in pattern.findall(path.read_text()):
            if (name, str(path.relative_to(CRATES))) not in pairs:
                say(f'{family}{number}: {name} of {path.relative_to(CRATES)} is not in the tables')


def sections_of(row):
    """What the sections of a row of rules.txt hold, without marks, but for what is wanted."""
    parts = re.split(r'^-- (.*) --\n', row, flags=re.M)[1:]
    given = {head: re.sub(r'/\*![^*]*\*/', '', text) for head, text in zip(parts[::2], parts[1::2])}
    return {head: text for head, text in given.items() if not head.startswith('report')}


def sections_wanted(row):
    """The same, as the column Program says; None where it cannot be read."""
    code, cell = row['Code'], row['Program']
    programs = re.findall('`([^`]+)`', cell)
    if (code, cell) in IN_WORDS:
        return IN_WORDS[code, cell]
    if programs and cell == 'go.mod: ' + ', then '.join(f'`{line}`' for line in programs):
        return {'go.mod': ''.join(line + '\n' for line in programs), 'a.go': 'package p\n'}
    if len(programs) != 1 or cell != f'`{programs[0]}`':
        return None
    before = '' if programs[0].startswith('package ') else 'package p\n\n'
    beside = {'q/q.go': 'package q\n'} if '"m/q"' in programs[0] else {}
    return {'a.go': f'{before}{programs[0]}\n', **beside}


def check_programs(rows):
    """Of each code rules.txt has as many rows as the tables, which run the programs in their order."""
    texts = re.split('^=== ', text_of(CRATES / 'go_rows/data/rules.txt'), flags=re.M)[1:]
    for code in dict.fromkeys(row['Code'] for row in rows):
        of_code = [row for row in rows if row['Code'] == code]
        runs = [sections_of(text) for text in texts if text.startswith(f'{code}: ')]
        if len(runs) != len(of_code):
            say(f'{code}: rules.txt has {len(runs)} rows `{code}: `, the tables have {len(of_code)}')
        if not any(text.startswith(f'{code} not: ') for text in texts):
            say(f'{code}: rules.txt has no row `{code} not: `')
        for row, run in zip(of_code, runs):
            if run != sections_wanted(row):
                say(f'{code}: the row of rules.txt runs {run}, and not {row["Program"]}')


def check_codes_told(codes):
    """Each code that a row wants is in the tables."""
    data = CRATES / 'go_rows/data'
    told = {}
    for path in sorted(data.glob('*.txt')):
        for line in path.read_text(errors='replace').splitlines():
            found = re.findall(rf'^broken\t[^\t]*\t({CODE})$', line) + re.findall(rf'^({CODE}) \d+$', line)
            for mark in re.findall(r'/\*!([^*]*)\*/', line):
                found += [word for word in mark.split() if re.fullmatch(CODE, word)]
            for code in found:
                told.setdefault(code, path.name)
    for code in sorted(set(told) - set(codes)):
        say(f'{code}: told by a row of {told[code]}, and not in the tables')


def main():
    if sys.argv[1:] != ['--check']:
        sys.exit(__doc__)
    tables = text_of(ROOT / 'docs/RULES.md')
    rows = rows_of(tables, HEAD)
    checked = [check_row(row) for row in rows + rows_of(tables, JUDGED)]
    check_all_told({number for number, _ in checked}, 'specs', '.antt', NUMBER)
    check_all_told({constant for _, constant in checked}, 'src', '.rt', CONSTANT)
    codes = list(dict.fromkeys(row['Code'] for row in rows))
    check_names_of_edits()
    check_programs(rows)
    check_codes_told(codes)
    for text in wrong:
        print(text)
    print(f'{len(codes)} rules, {len(wrong)} wrong')
    sys.exit(1 if wrong or not codes else 0)


if __name__ == '__main__':
    main()
