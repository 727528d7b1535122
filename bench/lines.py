#!/usr/bin/env python3
"""Writes the grammar's right sides as lines of steps, each below its production, and the weight of each production.

usage: bench/lines.py [--check]

Reads the productions of crates/go_tree: their names in src/production.rt, their right sides in
specs/Grammar, and the tokens that each begins with (Tables/First). Sets of tokens that have a name in
crates/go_parse_x/src/start_sets.rt are written by it. Writes in
crates/go_parse_x: src/file_lines.rt, src/declaration_lines.rt, src/type_lines.rt, src/expression_lines.rt,
src/statement_lines.rt, src/lines.rt, and the table `weight` in specs/Machine/Weights.antt. With --check it writes
nothing, and ends with status 1 where a file is not as it would write it.

Nothing here is trusted: that each line stands for its production, that the sets beside its steps are
right, and that the weights fall, is proved.
"""
import re
import sys
from collections import Counter
from functools import lru_cache
from pathlib import Path
from textwrap import wrap

CRATES = Path(__file__).resolve().parent.parent / 'crates'
GRAMMAR = CRATES / 'go_tree' / 'specs' / 'Grammar'
PARSER = CRATES / 'go_parse_x'
READ = ['Words', 'File', 'Declarations', 'Types', 'Expressions', 'Statements', 'Trees/Sentence', 'Tables/TokenKinds',
        'Tables/TokenLists', 'Tables/First']
WEIGHTS = 'specs/Machine/Weights.antt'
SECTIONS = ['file', 'declaration', 'type', 'expression', 'statement']
STRENGTH = {'•': 30, '∷': 30, 'or': 20}
WORD = re.compile(r'\s*(\[\]|[()•∷=]|[A-Za-z_][\w.]*)\s*')
WIDTH = 100


# Terms of the grammar's language: a name, and then the terms that it stands before.

def words_of(text):
    words, at = [], 0
    while at < len(text):
        word = WORD.match(text, at)
        if not word:
            return []
        words.append(word.group(1))
        at = word.end()
    return words


def read_term(words, strength=0):
    """Takes a term from the front of the words; both operators group to the right."""
    left = read_application(words)
    while words and STRENGTH.get(words[0], -1) >= strength:
        operator = words.pop(0)
        left = (operator, left, read_term(words, STRENGTH[operator]))
    return left


def read_application(words):
    parts = []
    while words and words[0] not in STRENGTH and words[0] != ')':
        word = words.pop(0)
        if word == '(':
            parts.append(read_term(words))
            words.pop(0)
        else:
            parts.append((word.split('.')[-1],))
    return parts[0] + tuple(parts[1:])


def equations_in(text):
    """The equations of a file, each on one line."""
    for line in re.sub(r'\n    +', ' ', text).split('\n'):
        words = words_of(line)
        if '=' in words and words[0] not in ('use', 'abbrev', 'pub'):
            middle = words.index('=')
            left, right = words[:middle], words[middle + 1:]
            yield read_term(left), read_term(right)


def read_equations():
    equations = {}
    for name in READ:
        for left, right in equations_in((GRAMMAR / f'{name}.antt').read_text()):
            equations.setdefault(left[0], []).append((left[1:], right))
    return equations


EQUATIONS = read_equations()


def is_variable(pattern):
    return len(pattern) == 1 and (pattern[0][0].islower() or pattern[0] == '_')


def matches(pattern, value, values):
    if is_variable(pattern):
        values[pattern[0]] = value
        return True
    if pattern[0] != value[0] or len(pattern) != len(value):
        return False
    return all(matches(p, v, values) for p, v in zip(pattern[1:], value[1:]))


def apply(name, arguments):
    for patterns, right in EQUATIONS[name]:
        values = {}
        if all(matches(p, v, values) for p, v in zip(patterns, arguments)):
            return value_of(right, values)
    raise ValueError(f'{name}: no equation')


def value_of(term, values):
    if term[0] in values:
        return values[term[0]]
    arguments = [value_of(part, values) for part in term[1:]]
    if term[0] in EQUATIONS:
        return apply(term[0], arguments)
    return (term[0], *arguments)


# Productions.

def variants(text, name):
    body = re.search(rf'pub enum {name} {{(.*?)\n}}', text, re.S).group(1)
    return re.findall(r'^    (\w+)(?:\((\w+)\))?,', body, re.M)


def read_productions():
    """The productions, and the type of what the name of each is followed by."""
    text = (CRATES / 'go_tree' / 'src' / 'production.rt').read_text()
    productions = {}
    for name, of in variants(text, 'Production'):
        arguments = [((part,),) for part, _ in variants(text, of)] if of else [()]
        productions.update({(name, *argument): of for argument in arguments})
    return productions


PRODUCTIONS = read_productions()


@lru_cache(None)
def right_side(production):
    return apply('production', [production])


def section_of(production):
    """The section with a line for the production."""
    for section in SECTIONS:
        for (pattern,), _ in EQUATIONS[f'{section}_line']:
            if not is_variable(pattern) and matches(pattern, production, {}):
                return section
    raise ValueError(f'{production[0]}: no line')


def parts_of(side):
    """The right sides that one is made of."""
    return {'Seq': side[1:], 'Or': side[1:], 'Many': side[1:], 'When': side[2:]}.get(side[0], ())


def is_empty(side):
    empty = [is_empty(part) for part in parts_of(side)]
    if side[0] == 'Do':
        return side[1][0] != 'Pass'
    if side[0] == 'Call':
        return apply('can_be_empty', [side[1]])[0] == 'true'
    return all(empty) if side[0] == 'Seq' else side[0] in ('Nothing', 'Many') or any(empty)


def list_of(term):
    """The names in a list."""
    names = []
    while term[0] == '∷':
        names.append(term[1][0])
        term = term[2]
    return names


KINDS = list_of(apply('all_kinds', []))


@lru_cache(None)
def starts_of(side):
    """The kinds of the tokens that a right side begins with."""
    if side[0] == 'Do':
        return frozenset([side[1][1][0]] if side[1][0] == 'Pass' else [])
    if side[0] == 'Call':
        return frozenset(list_of(apply('firsts', [side[1]])))
    parts = [starts_of(part) for part in parts_of(side)]
    if side[0] == 'Seq' and not is_empty(side[1]):
        return parts[0]
    if side[0] == 'When':
        ahead = side[1]
        seen = frozenset(list_of(ahead[1]) if ahead[0] == 'OneOf' else [ahead[1][0]])
        other = frozenset(KINDS) - seen if ahead[0] == 'OneOf' else frozenset(KINDS)
        return parts[0] & seen | parts[1] & other
    return frozenset().union(*parts)


def read_start_sets():
    """The sets of kinds that have a name."""
    sets = {}
    text = (PARSER / 'src' / 'start_sets.rt').read_text()
    for name, right in re.findall(r'^pub const (\w+): u128 =(.*?);', text, re.M | re.S):
        kinds = ' '.join(re.findall(r'kinds!\[(.*?)\]', right, re.S)).split()
        others = re.sub(r'kinds!\[.*?\]', '', right, flags=re.S).replace('|', ' ').split()
        sets[name] = frozenset(kinds).union(*(sets[other] for other in others))
    return {kinds: name for name, kinds in sets.items()}


START_SETS = read_start_sets()


def set_word(kinds):
    if kinds in START_SETS:
        return START_SETS[kinds]
    return f'[{" ".join(kind for kind in KINDS if kind in kinds)}]'


@lru_cache(None)
def weight(production):
    return 1 + weigh(right_side(production))


def weigh(side):
    if side[0] == 'Call':
        return weight(side[1])
    parts = parts_of(side)
    if side[0] == 'Seq' and not is_empty(parts[0]):
        parts = parts[:1]
    return 1 + sum(map(weigh, parts))


# Steps.

def asked_of(ahead):
    known = {('OneOf', ('∷', ('LeftBrace',), ('[]',))): 'Brace',
             ('OneOf', ('∷', ('LeftBracket',), ('[]',))): 'Bracket',
             ('OneOf', apply('result_starts', [])): 'Result',
             ('Both', ('Dot',), ('Ident',)): 'Qualifier',
             ('Both', ('Arrow',), ('KwChan',)): 'Receive'}
    return known[ahead]


def plain(term):
    return ' '.join([term[0], *map(plain, term[1:])])


def steps_of(side):
    if side[0] in ('Do', 'Call', 'Nothing'):
        return [plain(side).removeprefix('Do ')]
    parts = [steps_of(part) for part in parts_of(side)]
    numbers = [str(len(parts[0]))] if len(parts) == 2 else []
    asked = [asked_of(side[1])] if side[0] == 'When' else []
    kinds = [set_word(starts_of(side[1]))] if side[0] in ('Or', 'Many') else []
    return [' '.join([side[0], *asked, *numbers, *kinds]), *sum(parts, [])]


# Productions as they are written (docs/GRAMMAR.md).

def read_token_texts():
    """How a production writes a token of each kind."""
    body = re.search(r'pub enum TokenKind {(.*?)\n}', (CRATES / 'go_tree' / 'src' / 'token.rt').read_text(), re.S).group(1)
    known = {'Ident': 'ident', 'Int': 'int', 'Float': 'float', 'Rune': 'rune', 'Text': 'string', 'End': 'end'}
    texts = dict(re.findall(r'/// `(\S+)`[^\n]*\n    (\w+),', body))
    return {**{name: f'"{text}"' for text, name in texts.items()}, **known, 'InsertedSemicolon': '";"'}


TOKEN_TEXTS = read_token_texts()


def is_pass(side):
    return side[0] == 'Do' and side[1][0] == 'Pass'


def called(production):
    return production[0] + ''.join(f'({part[0]})' for part in production[1:])


def alternatives_of(side):
    """What a choice is between, each once; a look at the tokens ahead is a choice like any other."""
    if side[0] not in ('Or', 'When'):
        return [written(side)]
    return list(dict.fromkeys(sum(map(alternatives_of, parts_of(side)), [])))


def written(side, in_sequence=False):
    """The right side without what makes nodes."""
    if side[0] in ('Do', 'Nothing'):
        return TOKEN_TEXTS[side[1][1][0]] if is_pass(side) else ''
    if side[0] == 'Call':
        return called(side[1])
    if side[0] == 'Seq':
        parts = [part for part in side[1:] if written(part)]
        return ' '.join(written(part, in_sequence or len(parts) > 1) for part in parts)
    if side[0] == 'Many':
        return f'{{ {written(side[1])} }}'
    choices = alternatives_of(side)
    some = ' | '.join(filter(None, choices))
    if '' in choices:
        return some and f'[ {some} ]'
    return f'( {some} )' if in_sequence and len(choices) > 1 else some


NO_BREAK = '\x1f'


def production_text(production):
    words = f'{called(production)} = {written(right_side(production))} .'.replace('=  .', '= .')
    bound = re.sub(r'(?<= [\[({]) | (?=[\])}.]( |$))', NO_BREAK, words)
    lines = wrap(bound, WIDTH, initial_indent='/// ', subsequent_indent='///     ', break_long_words=False,
                 break_on_hyphens=False)
    return '\n'.join(lines).replace(NO_BREAK, ' ')


# Files.

def constant_of(production):
    return re.sub(r'(?<=[a-z])(?=[A-Z])| ', '_', plain(production)).upper()


def rows_of(steps, width=WIDTH):
    rows, row = [], '   '
    for step in steps:
        if len(row) + len(step) + 2 > width:
            rows.append(row)
            row = '   '
        row += f' {step},'
    return [*rows, row]


def line_text(production):
    rows = '\n'.join(rows_of(steps_of(right_side(production))))
    return f'{production_text(production)}\npub const {constant_of(production)}: &[Step] = line![\n{rows}\n];\n'


IMPORTS = [('crate::line::', ['Asked', 'Step']), ('crate::line_words::', ['line']),
           ('crate::start_sets::', sorted(START_SETS.values(), key=lambda name: name.replace('_', ' '))),
           ('go_tree::', ['Clauses', 'Form', 'Items', 'NodeKind', 'Production', 'TokenKind'])]


def names_in(steps):
    """The types that the steps are written with."""
    words = {step.split()[0] for step in steps}
    names = {'Step', 'line', *(PRODUCTIONS[p] for p in PRODUCTIONS if f'Call {plain(p)}' in steps)}
    kinds = {'Pass': 'TokenKind', 'Close': 'NodeKind', 'Call': 'Production', 'When': 'Asked'}
    sets = {step.split()[-1] for step in steps} & set(START_SETS.values())
    return names | sets | {kinds[word] for word in words & kinds.keys()}


def import_lines(names):
    for path, known in IMPORTS:
        used = [name for name in known if name in names]
        if used:
            line = f'use {path}{{{", ".join(used)}}};' if len(used) > 1 else f'use {path}{used[0]};'
            yield line if len(line) <= WIDTH else '\n'.join([f'use {path}{{', *rows_of(used, WIDTH - 1), '};'])


HEAD = '''
//
// Above each line its production: what a look ahead allows is taken, and where a type may be read as an expression it
// has to be written as a type is (docs/GRAMMAR.md, "How each choice is settled"). ";" is also the inserted one.'''


def section_text(section):
    own = [p for p in PRODUCTIONS if section_of(p) == section]
    steps = sum((steps_of(right_side(p)) for p in own), [])
    imports = '\n'.join(import_lines(names_in(steps)))
    title = f'// Lines of the productions of `{section}_line`. Written by bench/lines.py.{HEAD}'
    return '\n'.join([title, imports, '', '\n'.join(map(line_text, own))])


def arm_of(production):
    of = ''.join(f'({PRODUCTIONS[production]}::{part[0]})' for part in production[1:])
    return f'        Production::{production[0]}{of} => {section_of(production)}_lines::{constant_of(production)},'


def arms_text():
    modules = ', '.join(sorted(f'{section}_lines' for section in SECTIONS))
    return LINES.replace('MODULES', modules).replace('ARMS', '\n'.join(map(arm_of, PRODUCTIONS)))


LINES = """\
// The line of each production. Written by bench/lines.py.
ghost use Rattle.std.specs.Prelude.{◌≡◌, true};
ghost use Rattle.go_tree.specs.Grammar.Trees.Sentence.{production};
ghost use Rattle.go_parse_x.specs.Tables.Leads.{all_led};
ghost use Rattle.go_parse_x.specs.Tables.Lines.{side_at};

use crate::line::Step;
use crate::{MODULES};
use go_tree::{Clauses, Form, Items, Production};

/// The steps of a production's right side.
pub fn line_of(n: Production) -> &'static [Step]
    ensures side { side_at result.now 0 ≡ production n }
    ensures led { all_led result.now ≡ true }
{
    match n {
ARMS
    }
}
"""


def weight_patterns():
    """Patterns of productions with their weights; those that differ by an argument alone are one."""
    by_name = {}
    for production in PRODUCTIONS:
        by_name.setdefault(production[0], []).append(production)
    for name, own in by_name.items():
        if len(own) > 1 and len({weight(production) for production in own}) == 1:
            yield f'(p.{name} _)', weight(own[0])
        else:
            for production in own:
                yield f'(p.{plain(production)})' if production[1:] else f'p.{name}', weight(production)


def weights_text():
    text = (PARSER / WEIGHTS).read_text()
    patterns = list(weight_patterns())
    common = Counter(value for _, value in patterns).most_common(1)[0][0]
    rows = [f'weight {pattern} = {value}\n' for pattern, value in patterns if value != common]
    table = ''.join([*rows, f'weight _ = {common}\n'])
    head = 'abbrev pub weight : Production → ℕ\n'
    return re.sub(rf'{head}(weight .*\n)*', lambda _: head + table, text)


def main():
    texts = {f'src/{section}_lines.rt': section_text(section) for section in SECTIONS}
    texts['src/lines.rt'] = arms_text()
    texts[WEIGHTS] = weights_text()
    differs = False
    for name, text in texts.items():
        path = PARSER / name
        if '--check' not in sys.argv[1:]:
            path.write_text(text)
        elif not path.exists() or path.read_text() != text:
            print(f'{path}: not as the grammar has it')
            differs = True
    return 1 if differs else 0


if __name__ == '__main__':
    sys.exit(main())
