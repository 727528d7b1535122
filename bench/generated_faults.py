"""The faults of the modules of bench/generated_modules.py: each breaks a rule in a plan that breaks none."""
from generated_plan import LIMIT, Constant, Import, Spec, rng

# A text in place of a value, its rule, and at which of its bytes that is told.
TERMS = [('undeclared', 'P7', 0), ('Undeclared.Name', 'P7', 0), ('_', 'P12', 0), ('_.Name', 'P12', 0),
         ('complex', 'U8', 0), ('complex128', 'U8', 0), ('cap', 'U0', 0), ('print', 'U0', 0), ('nil', 'U0', 0),
         ('append', 'U0', 0)]

# What stands behind all else in a file, and what it breaks.
TAILS = [('\nvar v = 1\n', [(5, 'U0')]), ('\nconst W\n', [(7, 'U0'), (7, 'S8')]),
         ('\nconst W = )\n', [(11, 'S3')]), ('\nconst W = 1.5\n', [(11, 'U2')]), ('\nconst W = #\n', [(11, 'S2')]),
         ('\nfunc f(a, b ...int)\n', [(1, 'U0'), (8, 'S5')]), ('\nconst W int = 1 - f()\n', [(9, 'U0'), (19, 'U0')]),
         ('\nconst (\n\tV = f()\n\tW\n)\n', [(14, 'U0')])]

GO_MODS = [(None, [('1:1', 'M1')]), ('module m\n', [('1:1', 'M3')]), ('go 1.21\n', [('1:1', 'M2')]),
           ('module m\n\ngo 1.20\n', [('3:1', 'U1')]), ('module m\nmodule n\ngo 1.21\n', [('1:1', 'M2'), ('2:1', 'M2')])]


def add_term(file, term):
    """Puts a term somewhere into the values of a file."""
    values = [terms for spec in file.specs for terms in spec.values]
    if not values:
        file.specs.append(Spec([Constant('_')], [[term]]))
    else:
        terms = rng.choice(values)
        terms.insert(rng.randrange(len(terms) + 1), term)


def bad_term(module, package, file):
    add_term(file, ('raw', *rng.choice(TERMS)))


def selector(module, package, file):
    constant = rng.choice([c for c in package.constants() if c.name != '_'])
    add_term(rng.choice(package.files), ('selector', constant))


def misplaced_package(module, package, file):
    add_term(file, ('raw', named_import(file).declared_name(), 'P13', 0))


def missing_member(module, package, file):
    name = named_import(file).declared_name()
    add_term(file, ('raw', name + rng.choice(['.none', '.None', '._']), 'P14', len(name) + 1))


def named_import(file):
    return rng.choice([i for i in file.imports if i.declared_name()])


def repeated_name(module, package, file):
    constant = rng.choice([c for c in package.constants() if c.name != '_'])
    constant.rules.append('P4')
    file.specs.append(Spec([Constant(constant.name, ['P4'])], [[('int', 1)]]))


def reserved_name(module, package, file):
    file.specs.append(Spec([Constant('init', ['P8'])], [[('int', 1)]]))


def package_main(module, package, file):
    package.name = 'main'
    for other in package.files:
        other.clause = 'main'
        other.clause_rules.append('P9')


def unused_import(module, package, file):
    other = rng.choice([p for p in before(module, package) if p not in file_imports(file)])
    form, name = rng.choice([('named', 'unused'), ('dot', '.')])
    file.imports.append(Import(form, other, name, rules=['P10']))


def before(module, package):
    """The packages that it can import without a cycle."""
    return [p for p in module.packages[:module.packages.index(package)] if p.stub or not package.stub]


def file_imports(file):
    return {i.package for i in file.imports}


def conflicting_import(module, package, file):
    name = named_import(file).declared_name()
    for other in package.files:
        for i in other.imports:
            i.rules += ['P6'] if i.declared_name() == name else []
    rng.choice(package.files).specs.append(Spec([Constant(name)], [[('int', 1)]]))


def unequal_sides(module, package, file):
    spec = rng.choice(file.specs)
    if rng.random() < .5:
        spec.constants.append(Constant('_'))
    else:
        spec.values.append([('int', 1)])


def wide_value(module, package, file):
    add_term(file, ('int', LIMIT + rng.randrange(2)))
    add_term(rng.choice(package.files), ('int', LIMIT))


def cycle(module, package, file):
    """Some constants of the package get one more that they rest on."""
    names = [c for c in package.constants() if c.name != '_']
    for _ in range(rng.choice([1, 1, 2, 3])):
        add_term(rng.choice(package.files), ('own', rng.choice(names)))


def missing_package(module, package, file):
    path, rules = rng.choice([(module.path + '/none', ['P1']), ('std/none', ['P1']),
                              ('unsafe', ['P1', 'U7']), ('./a', ['P1', 'U7'])])
    file.imports.append(Import('blank', None, '_', path=path, string_rules=rules))


def import_cycle(module, package, file):
    """An import of the package by one that it imports or by itself: each import on a cycle is told."""
    other = rng.choice([package, *package.imports()])
    assert other.stub == package.stub
    rng.choice(other.files).imports.append(Import('blank', package, '_'))
    for p in module.packages:
        for i in [i for f in p.files for i in f.imports]:
            i.string_rules += ['P2'] if leads(i.package, p) else []


def leads(package, to):
    seen, todo = set(), [package]
    while todo:
        p = todo.pop()
        if p is to:
            return True
        todo += [] if p in seen else p.imports()
        seen.add(p)
    return False


def mixed_package(module, package, file):
    assert len(package.files) > 1
    file.clause = 'mixed'
    for other in package.files:
        other.clause_rules.append('P3')


def bad_form(module, package, file):
    file.tail, file.tail_marks = rng.choice(TAILS)


def special_path(module, package, file):
    file.path = file.path.replace('.go', rng.choice([',', ' ', '=']) + '.go')
    file.rules.append('U6')


def bad_go_mod(module, package, file):
    module.go_mod, module.go_mod_broken = rng.choice(GO_MODS)


NAMES_AND_VALUES = [bad_term, selector, misplaced_package, missing_member, repeated_name, reserved_name, package_main,
                    unused_import, conflicting_import, unequal_sides, wide_value, cycle]
LOADING = [missing_package, import_cycle, mixed_package, bad_form, special_path, bad_go_mod]


def plant(module):
    """Puts one fault into a package that is reached, and gives its name."""
    while True:
        fault = rng.choice(NAMES_AND_VALUES * 2 + LOADING)
        packages = sorted(module.reached(), key=lambda p: p.path)
        package = rng.choice(packages if packages else module.packages)
        try:
            fault(module, package, rng.choice(package.files))
            return fault.__name__
        except (IndexError, AssertionError):
            pass  # The plan has nothing that the fault can be put into: another one.
