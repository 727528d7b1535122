"""Plans of modules for bench/generated_modules.py: packages, imports, constants, and how their files are written."""
import random

from generated_text import Text

LIMIT = 2**127 - 1
BLANKS = [' ', '  ', '\t', ' \t']
PACKAGES = ['a', 'b', 'cc', 'd', 'e1', 'f', 'units', 'size']
CONSTANTS = ['A', 'Bc', 'Const', 'D', 'Top', 'Sum', 'M1', 'x', 'y', '_z', 'len', 'true', 'low', 'imag']
rng = random.Random()


def line_col(text, at):
    return f'{text.count(chr(10), 0, at) + 1}:{at - text.rfind(chr(10), 0, at)}'


class Node:
    """A node of an expression: `of` is the number or the constant, which is one of the package or not."""

    def __init__(self, start, kind, of=None, own=False):
        self.start, self.end, self.kind, self.of, self.own = start, start, kind, of, own
        self.parts, self.value = [], None

    def walk(self):
        yield self
        for part in self.parts:
            yield from part.walk()


class Constant:
    def __init__(self, name, rules=()):
        self.name, self.rules, self.value, self.at, self.file = name, list(rules), None, 0, None

    @property
    def declared(self):
        return self.at

    def is_exported(self):
        return self.name[0].isupper()


class Import:
    """Its form is plain, named, dot or blank; the rules are told at its spec or at its string."""

    def __init__(self, form, package, name='', path=None, rules=(), string_rules=()):
        self.form, self.package, self.name, self.path = form, package, name, path or package.path
        self.rules, self.string_rules, self.at, self.string, self.file = list(rules), list(string_rules), 0, 0, None

    @property
    def declared(self):
        return self.at

    def declared_name(self):
        """The name that it declares in its file, or none."""
        return {'plain': self.package and self.package.name, 'named': self.name}.get(self.form)

    def write(self, file):
        text = file.text
        self.at = self.string = text.at
        if self.form != 'plain':
            text.put(self.name)
            text.blank()
            self.string = text.at
        text.put(f'"{self.path}"')
        file.marks += [(self.at, rule) for rule in self.rules] + [(self.string, rule) for rule in self.string_rules]


class Spec:
    """Constants, and for each value a list of terms."""

    def __init__(self, constants, values):
        self.constants, self.values, self.at, self.nodes = constants, values, 0, []

    def write(self, file):
        text = file.text
        self.at = text.at
        for i, constant in enumerate(self.constants):
            if i:
                text.put(',')
                text.blank()
            constant.at, constant.file = text.put(constant.name), file
            file.marks += [(constant.at, rule) for rule in constant.rules]
        text.blank()
        text.put('=')
        for i, terms in enumerate(self.values):
            text.put(',' if i else '')
            text.blank()
            self.nodes.append(write_sum(file, terms))


def write_sum(file, terms):
    if len(terms) == 1:
        return write_item(file, terms)
    front = rng.randrange(1, len(terms))
    node = Node(file.text.at, 'sum')
    left = write_sum(file, terms[:front])
    file.text.blank()
    file.text.put('+')
    file.text.blank()
    node.parts = [left, write_item(file, terms[front:])]
    node.end = file.text.at
    return node


def write_item(file, terms):
    if len(terms) == 1 and rng.random() < .85:
        return write_term(file, *terms[0])
    node = Node(file.text.put('('), 'paren')
    node.parts = [write_sum(file, terms)]
    file.text.put(')')
    node.end = file.text.at
    return node


def write_term(file, kind, *of):
    """A number, a constant, one of another package behind an import, a selector of a constant of the package, or a
    text with a rule at one of its bytes."""
    text = file.text
    if kind == 'int':
        node = Node(text.put(str(of[0])), 'int', of[0])
    elif kind == 'raw':
        node = Node(text.put(of[0]), 'raw')
        file.marks.append((node.start + of[2], of[1]))
    elif kind == 'selector':
        node = Node(text.at, 'selector')
        node.parts = [write_term(file, 'own', *of)]
        text.put('.f')
    else:
        constant, by = of if kind == 'member' else (of[0], None)
        node = Node(text.at, 'constant', constant, kind == 'own')
        if by:
            file.uses.append((text.put(by.declared_name()), by.declared_name(), by))
            text.put('.')
        file.uses.append((text.put(constant.name), constant.name, constant))
    node.end = text.at
    return node


class File:
    def __init__(self, package, path):
        self.package, self.path, self.imports, self.specs, self.clause = package, path, [], [], package.name
        self.rules, self.clause_rules, self.tail, self.tail_marks = [], [], '', []
        self.text, self.marks, self.uses = Text(rng, BLANKS), [], []

    def constants(self):
        return [constant for spec in self.specs for constant in spec.constants]

    def broken(self, phase):
        return [(self, at, rule) for at, rule in self.marks if phase_of(rule, self) == phase]

    def write(self):
        text = self.text
        self.marks += [(0, rule) for rule in self.rules]
        text.put(rng.choice(['', '\n', '// a\n', '/* a */ ']))
        text.put('package ')
        at = text.put(self.clause)
        self.marks += [(at, rule) for rule in self.clause_rules]
        text.put('\n')
        self.write_group('import', self.imports)
        self.write_group('const', self.specs)
        at = text.put(self.tail)
        self.marks += [(at + delta, rule) for delta, rule in self.tail_marks]

    def write_group(self, word, specs):
        """The specs one after another: each alone, or several in parentheses."""
        while specs:
            size = rng.choice([1, 1, 2, 3])
            group, specs = specs[:size], specs[size:]
            self.text.put('\n' + word + ' ')
            grouped = len(group) > 1 or rng.random() < .2
            self.text.put('(\n' if grouped else '')
            for spec in group:
                spec.file = self
                self.text.blank()
                spec.write(self)
                self.text.put('\n')
            self.text.put(')\n' if grouped else '')


EARLY = {'S': 2, 'P1': 3, 'P2': 3, 'P3': 3, 'U7': 3, 'U2': 2, 'U6': 2, 'U8': 4}


def phase_of(rule, file):
    """Rule U0 stands in the first phase behind the constants, and among their values in the last."""
    if rule == 'U0':
        return 2 if file.tail else 5
    return EARLY.get(rule) or EARLY.get(rule[0]) or 4


class Package:
    def __init__(self, path, name, stub):
        self.path, self.name, self.stub, self.files = path, name, stub, []

    def specs(self):
        return [spec for file in self.files for spec in file.specs]

    def constants(self):
        return [constant for file in self.files for constant in file.constants()]

    def imports(self):
        return {i.package for file in self.files for i in file.imports if i.package}


class Module:
    def __init__(self, path):
        self.path, self.packages, self.go_mod_broken = path, [], []
        self.go_mod = f'module {path}\n\ngo 1.21{rng.choice(["", ".0", ".13"])}\n'

    def reached(self):
        seen, todo = set(), [p for p in self.packages if not p.stub]
        while todo:
            package = todo.pop()
            if package not in seen:
                seen.add(package)
                todo += package.imports()
        return seen

    def in_import_order(self):
        """Of the packages whose imports stand before, the one with the least path is next; a cycle is left out."""
        left, order = self.reached(), []
        while ready := [p for p in left if p.imports() <= set(order)]:
            order.append(min(ready, key=lambda p: p.path))
            left.remove(order[-1])
        return order + sorted(left, key=lambda p: p.path)


def plan():
    """A module whose packages break no rule. Each imports some of those before it."""
    module = Module(rng.choice(['m', 'ex.org/m-1']))
    names = rng.sample(PACKAGES, rng.randrange(1, 7))
    at_root = rng.choice(names + [None])
    taken = set()
    for name in names:
        stub = name != at_root and rng.random() < .3
        folder = '' if name == at_root else rng.choice(['', 'in/', 'std/'] if not stub else ['', 'std/']) + name
        path = folder if stub else '/'.join(filter(None, [module.path, folder]))
        package = Package(path, rng.choice([name, name, rng.choice(PACKAGES)]), stub)
        add_files(package, folder)
        add_constants(package, module.packages, taken)
        module.packages.append(package)
    if rng.random() < .2:
        module.packages.append(unasked_stub())
    return module


def add_files(package, folder):
    names = sorted(rng.sample(['a.go', 'b.go', 'c-1.go', 'z.go'], rng.choice([1, 1, 2, 3])))
    package.files = [File(package, '/'.join(filter(None, [folder, name]))) for name in names]


def unasked_stub():
    """A stub that nothing imports: what its names break is not told."""
    package = Package('std/unasked', 'unasked', True)
    add_files(package, package.path)
    for file in package.files:
        file.specs.append(Spec([Constant('X')], [[('raw', 'undeclared', 'P7', 0)]]))
    return package


def add_imports(file, before):
    """Some of the packages before it, each in some form; what each brings into the file."""
    for package in rng.sample(before, min(len(before), rng.choice([0, 1, 2, 2, 3]))):
        exported = [c for c in package.constants() if c.is_exported()]
        form = rng.choice(['plain', 'plain', 'named', 'dot', 'blank']) if exported else 'blank'
        taken = {i.declared_name() for i in file.imports}
        if form == 'plain' and package.name in taken:
            form = 'named'
        name = {'dot': '.', 'blank': '_', 'named': f'q{len(file.imports)}'}.get(form, '')
        file.imports.append(Import(form, package, name))


def terms_by(by):
    """What an import brings into its file."""
    exported = [c for c in by.package.constants() if c.is_exported()]
    return {'dot': [('other', c) for c in exported], 'blank': []}.get(by.form, [('member', c, by) for c in exported])


def add_constants(package, before, taken):
    """Constants, each of which rests on earlier ones, in the files in any order. Each import is used in its file."""
    own = []
    for file in package.files:
        add_imports(file, [p for p in before if p.stub or not package.stub])
        needed = [rng.choice(terms_by(i)) for i in file.imports if i.form != 'blank']
        pool = [term for i in file.imports for term in terms_by(i)]
        for _ in range(max(rng.randrange(5), 1 if needed else 0)):
            terms = [random_term(pool, own) for _ in range(rng.choice([1, 1, 2, 3]))]
            terms += needed
            rng.shuffle(terms)
            needed = []
            constant = Constant(new_name(taken))
            file.specs.append(Spec([constant], [terms]))
            own += [('own', constant)] if constant.name != '_' else []
    for file in package.files:
        rng.shuffle(file.specs)
        file.specs = joined(file.specs)


def joined(specs):
    """Some of the specs as one with several names and values."""
    result = []
    for spec in specs:
        if result and rng.random() < .25:
            result[-1].constants += spec.constants
            result[-1].values += spec.values
        else:
            result.append(spec)
    return result


def random_term(pool, own):
    drawn = rng.random()
    if drawn < .4 and own:
        return rng.choice(own)
    if drawn < .6 and pool:
        return rng.choice(pool)
    return 'int', rng.choice([0, 1, 2, 7, 10, 499, rng.randrange(10**rng.randrange(1, 25))])


def new_name(taken):
    """A name that no other constant has, or the blank identifier."""
    if rng.random() < .05:
        return '_'
    name = rng.choice(CONSTANTS)
    while name in taken:
        name += str(rng.randrange(10))
    taken.add(name)
    return name
