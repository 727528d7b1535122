"""Untyped constant expressions for bench/generated_constants.py: how they are made, written and judged by the rules."""
import random

LEAST, GREATEST = -2**127, 2**127 - 1
MOST_BYTES = 1_048_576
EXPRESSION_KINDS = ['int', 'int', 'int', 'rune', 'bool', 'string']
NAMES = ['a', 'b', 'Big', 'Size', 'Name', 'x1', 'é', '_low', 'len', 'Max']
COMPARISONS = ['==', '!=', '<', '<=', '>', '>=']
STRENGTHS = {'||': 1, '&&': 2, **dict.fromkeys(COMPARISONS, 3), **dict.fromkeys('+-|^', 4),
             **dict.fromkeys(['*', '/', '%', '<<', '>>', '&', '&^'], 5)}
NUMBERS = ('int', 'rune')
# What stands for a type has this in the place of a kind and a value.
TYPE = 'type', None
rng = random.Random()


class Node:
    """An expression: what it is, its text or operator, its operands, and of a leaf its kind and value."""

    def __init__(self, form, text='', parts=(), kind=None, value=None):
        self.form, self.text, self.parts, self.kind, self.value = form, text, list(parts), kind, value
        self.start, self.package = 0, None

    def strength(self):
        """That of its operator; what is no binary operation stands anywhere."""
        return STRENGTHS[self.text] if self.form == 'binary' else 6

    def write(self, text):
        self.start = text.at
        if self.form == 'paren':
            text.put('(')
            self.parts[0].write(text)
            text.put(')')
        elif self.form == 'unary':
            text.put(self.text)
            text.put(' ' if self.parts[0].form == 'unary' and self.parts[0].text == self.text else '')
            self.parts[0].write(text)
        elif self.form == 'binary':
            self.parts[0].write(text)
            text.put(rng.choice([' ', '  ', '\t']))
            text.put(self.text)
            text.put(rng.choice([' ', ' ', '\n\t']))
            self.parts[1].write(text)
        else:
            text.put(self.text)

    def evaluate(self, iota, broken):
        """Its kind and value, or None; what it breaks, with its place and that of go/types, is added to the list.
        Beside an operand that has none, go/types alone tells of a type."""
        found = [part.evaluate(iota, broken) for part in self.parts]
        types = [part.start for part, of in zip(self.parts, found) if self.form in ('unary', 'binary') and of == TYPE]
        if None in found:
            broken += [(at, None, at) for at in types]
        elif types:
            broken += [(at, 'R1', at) for at in types]
        else:
            result = self.own(iota, found)
            if not isinstance(result, str):
                return result
            broken.append(self.told(result, found))
        return None

    def own(self, iota, found):
        """Its kind and value, the rule that it breaks, or None where neither is said here."""
        if self.form == 'binary':
            return binary(self.text, *found)
        if self.form == 'unary':
            return unary(self.text, *found[0])
        if self.form == 'paren':
            return found[0]
        if self.form == 'iota':
            return ('int', iota) if iota is not None else 'R1'
        if self.form == 'nil':
            return 'U0'
        if self.form == 'type':
            return TYPE
        if self.form == 'name':
            constant = self.value
            return (constant.kind, constant.value) if constant.kind else None
        return limited(self.kind, self.value)

    def told(self, rule, found):
        """A rule that it breaks, at its place and at that of go/types, None where this does not speak of it."""
        parts = self.parts
        if rule == 'R7':
            return parts[1].start, rule, parts[1].start
        if rule == 'R3':
            return self.start, rule, parts[0].start
        if rule == 'R9':
            return self.start, rule, parts[found[0][0] in NUMBERS].start
        return self.start, rule, None if rule[0] in 'UL' else self.start

    def needs_value(self, iota, broken):
        """What it breaks where it stands for the value of a constant."""
        found = self.evaluate(iota, broken)
        if found == TYPE:
            broken.append((self.start, 'R1', self.start))


def limited(kind, value):
    if kind in NUMBERS:
        return (kind, value) if LEAST <= value <= GREATEST else 'L2'
    if kind == 'string':
        return (kind, value) if len(value) <= MOST_BYTES else 'L3'
    return kind, value


def unary(op, kind, value):
    if kind != 'bool' if op == '!' else kind not in NUMBERS:
        return 'R3'
    return limited(kind, {'!': lambda: not value, '+': lambda: value, '-': lambda: -value, '^': lambda: ~value}[op]())


def binary(op, left, right):
    (kind, a), (other, b) = left, right
    if op in ('<<', '>>'):
        return shift(op, kind, a, other, b)
    if kind != other and not (kind in NUMBERS and other in NUMBERS):
        return 'R4'
    both = 'rune' if 'rune' in (kind, other) else kind
    if op in COMPARISONS:
        return compared(op, both, a, b)
    if not is_defined(op, both):
        return 'R5'
    if op in '/%' and b == 0:
        return 'R7'
    return limited(both, OPERATIONS[op](a, b))


def is_defined(op, kind):
    if op in ('&&', '||'):
        return kind == 'bool'
    return kind in NUMBERS or (kind == 'string' and op == '+')


def quotient(a, b):
    """Truncated towards zero."""
    return abs(a) // abs(b) * (1 if (a < 0) == (b < 0) else -1)


OPERATIONS = {'+': lambda a, b: a + b, '-': lambda a, b: a - b, '*': lambda a, b: a * b, '/': quotient,
              '%': lambda a, b: a - b * quotient(a, b), '&': lambda a, b: a & b, '|': lambda a, b: a | b,
              '^': lambda a, b: a ^ b, '&^': lambda a, b: a & ~b, '&&': lambda a, b: a and b, '||': lambda a, b: a or b}


def compared(op, kind, a, b):
    if kind == 'bool' and op not in ('==', '!='):
        return 'R6'
    return 'bool', {'==': a == b, '!=': a != b, '<': a < b, '<=': a <= b, '>': a > b, '>=': a >= b}[op]


def shift(op, kind, a, other, count):
    if kind not in NUMBERS or other not in NUMBERS or not 0 <= count < 2**64:
        return 'R9'
    return limited(kind, a << count if op == '<<' else a >> count)


class Maker:
    """Makes expressions of a package, over the constants that are known so far."""

    def __init__(self, package, imported, fault_rate):
        self.package, self.imported, self.fault_rate = package, imported, fault_rate
        self.known, self.taken = [], set()

    def new_name(self):
        if rng.random() < .08:
            return '_'
        name = rng.choice(NAMES)
        while name in self.taken:
            name += rng.choice('0123456789ABC')
        self.taken.add(name)
        return name

    def expression(self, kind, depth, iota):
        """One of a kind, or sometimes of another."""
        if rng.random() < self.fault_rate:
            fault = rng.choice(['int', 'rune', 'bool', 'string', 'type', 'nil'])
            if fault in ('type', 'nil'):
                return Node(fault, {'type': rng.choice(['int', 'string', 'error']), 'nil': 'nil'}[fault])
            kind = fault
        if depth == 0 or rng.random() < .25:
            return self.leaf(kind, iota)
        if rng.random() < .15:
            return Node('paren', parts=[self.expression(kind, depth - 1, iota)])
        return self.operation(kind, depth - 1, iota)

    def operation(self, kind, depth, iota):
        inner = lambda kind: self.expression(kind, depth, iota)
        if kind == 'string':
            return self.joined('+', inner('string'), inner('string'))
        if kind == 'bool':
            drawn = rng.random()
            if drawn < .2:
                return self.signed('!', inner('bool'))
            if drawn < .5:
                return self.joined(rng.choice(['&&', '||']), inner('bool'), inner('bool'))
            of = rng.choice(['int', 'int', 'rune', 'string', 'bool'])
            return self.joined(rng.choice(COMPARISONS[:2] if of == 'bool' else COMPARISONS), inner(of), inner(of))
        if rng.random() < .2:
            return self.signed(rng.choice('+-^'), inner(kind))
        if rng.random() < .2:
            return self.joined(rng.choice(['<<', '>>']), inner(kind), self.count(iota))
        op = rng.choice(['+', '-', '*', '/', '%', '&', '|', '^', '&^'])
        kinds = [kind, rng.choice(NUMBERS) if kind == 'rune' else kind]
        rng.shuffle(kinds)
        right = self.divisor(kinds[1]) if op in '/%' and rng.random() < .9 else inner(kinds[1])
        return self.joined(op, inner(kinds[0]), right)

    def joined(self, op, left, right):
        """An operation, with parentheses where the strengths of operands ask for them."""
        strength = STRENGTHS[op]
        left = left if left.strength() >= strength else Node('paren', parts=[left])
        right = right if right.strength() > strength else Node('paren', parts=[right])
        return Node('binary', op, [left, right])

    def signed(self, op, operand):
        return Node('unary', op, [operand if operand.strength() == 6 else Node('paren', parts=[operand])])

    def divisor(self, kind):
        return integer(rng.choice([1, 2, 3, 7, 10, 1000])) if kind == 'int' else rune(rng.choice('\nabz'))

    def count(self, iota):
        """A count of a shift, mostly a small one."""
        drawn = rng.random()
        if drawn < .3 and iota is not None:
            return Node('iota', 'iota')
        return integer(rng.choice([0, 1, 2, 5, 10, 31, 64, 100, 127, 600] if drawn > .9 else [0, 1, 2, 3, 7]))

    def length(self):
        """One that is mostly a small number."""
        if rng.random() < .5:
            return integer(rng.randrange(100))
        left = self.expression(rng.choice(NUMBERS), 1, None)
        return self.joined(rng.choice(['+', '*', '&', '%', '<<']), left, integer(rng.randrange(1, 9)))

    def leaf(self, kind, iota):
        drawn = rng.random()
        if kind == 'int' and iota is not None and drawn < .3:
            return Node('iota', 'iota')
        if drawn < .6 and (name := self.name(kind)):
            return name
        if kind == 'int':
            return integer(rng.choice([0, 1, 2, 3, 7, 8, 10, 255, rng.randrange(10**rng.randrange(1, 30))]))
        if kind == 'rune':
            return rune(rng.choice("aZ0 \n'\\\x00é世\U0010FFFF"))
        if kind == 'bool':
            truth = rng.random() < .5
            return Node('truth', 'true' if truth else 'false', kind='bool', value=truth)
        return string()

    def name(self, kind):
        """The name of a constant of that kind, or None."""
        others = self.imported.maker.known if self.imported else []
        found = [c for c in self.known + [c for c in others if c.name[0].isupper()] if c.kind == kind]
        if not found:
            return None
        constant = rng.choice(found)
        is_own = constant.package == self.package
        return Node('name', constant.name if is_own else f'{constant.package}.{constant.name}', value=constant)

    def uses_import(self, unit):
        """Whether some expression of a declaration that is written has a name of the other package."""
        nodes = unit.nodes()
        while nodes:
            node = nodes.pop()
            if node.form == 'name' and node.value.package != self.package:
                return True
            nodes += node.parts
        return False


def integer(value):
    text = rng.choice([str, str, hex, bin, oct, lambda v: f'{v:_}'])(value)
    return Node('int', text, kind='int', value=value)


def rune(character):
    code = ord(character)
    forms = [f'\\U{code:08x}'] + [f'\\u{code:04X}'] * (code < 2**16) + [f'\\x{code:02x}', f'\\{code:03o}'] * (code < 256)
    plain = {'\n': '\\n', "'": "\\'", '\\': '\\\\', '\x00': '\\000'}.get(character, character)
    return Node('rune', f"'{rng.choice(forms + [plain] * 4)}'", kind='rune', value=code)


def string():
    """A string in either form; its value is the bytes that it has."""
    pieces = ['a', 'bc', 'é', '"', '\\', '\n', ' ', '世', '~']
    value = ''.join(rng.choice(pieces) for _ in range(rng.choice([0, 1, 2, 5, 40])))
    if rng.random() < .3:
        return Node('string', f'`{value}`', kind='string', value=value.encode())
    escapes = {'\\': '\\\\', '"': '\\"', '\n': '\\n', 'é': rng.choice(['é', '\\u00e9', '\\xc3\\xa9'])}
    escaped = ''.join(escapes.get(character, character) for character in value)
    return Node('string', f'"{escaped}"', kind='string', value=value.encode())
