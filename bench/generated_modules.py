#!/usr/bin/env python3
"""Makes modules whose report is known by how they are made, and compares the program's with it.

usage: bench/generated_modules.py [COUNT [SEED [PROGRAM [OTHER]]]]

Each module is planned first: packages and stubs, what they import, and constants that rest on others. Most plans
get one fault, with its rule. Then the files are written together with the places of all that the plan has, and
the report is made from the plan: values, cycles and the packages that are skipped by plain searches. Where OTHER is
bench/modules_go, built, its reports on the modules that are accepted are compared too. Ends with status 1 where a
report differs.
"""
import os
import subprocess
import sys
import tempfile

sys.dont_write_bytecode = True

from generated_faults import plant
from generated_plan import LIMIT, line_col, plan, rng
from generated_text import reached


def is_known(node):
    return node.value is not None


def evaluate(node):
    """Gives a node its value, and those below it, over the values that constants have."""
    for part in node.parts:
        evaluate(part)
    if node.kind in ('sum', 'paren'):
        values = [part.value for part in node.parts]
        value = None if None in values else sum(values)
    else:
        value = node.of.value if node.kind == 'constant' else node.of
    node.value = value if value is not None and value <= LIMIT else None


def are_bound(spec):
    return len(spec.constants) == len(spec.nodes)


def evaluate_package(package):
    """Gives the constants of a package their values: over and over, until no more get one."""
    more = True
    while more:
        more = False
        for spec in package.specs():
            for node in spec.nodes:
                evaluate(node)
            if are_bound(spec):
                for constant, node in zip(spec.constants, spec.nodes):
                    more = more or (constant.value is None and is_known(node))
                    constant.value = node.value


def own_constants(spec, place):
    """The constants of the package without values that the one at that place of a spec rests on."""
    nodes = spec.nodes[place:place + 1] if are_bound(spec) else spec.nodes
    below = [node for root in nodes for node in root.walk()]
    return {node.of for node in below if node.kind == 'constant' and node.own and node.of.value is None}


def cyclic(package):
    rests_on = {c: own_constants(spec, i) for spec in package.specs() for i, c in enumerate(spec.constants)}

    return {constant for constant in rests_on if constant in reached(rests_on, constant)}


# What a node without a value breaks where its parts have values.
VALUE_RULES = {'int': 'L2', 'sum': 'L2', 'selector': 'U0'}


def broken_values(package):
    on_cycles = cyclic(package)
    for file in package.files:
        for spec in file.specs:
            if not are_bound(spec) and all(map(is_known, spec.nodes)):
                yield file, spec.at, 'R37'
            yield from [(file, c.at, 'C1') for c in spec.constants if c in on_cycles]
            for node in [node for root in spec.nodes for node in root.walk()]:
                if all(map(is_known, node.parts)) and not is_known(node) and node.kind in VALUE_RULES:
                    yield file, node.start, VALUE_RULES[node.kind]


RANKS = {'M': 1, 'S': 2, 'P': 3, 'C': 4, 'R': 6, 'U': 8, 'L': 9}


def in_order(broken):
    """The lines of broken rules: by files, by offsets, and at one place by rules."""
    def key(entry):
        file, at, rule = entry
        return (file.package.stub, file.path, at, 0 if rule == 'U0' else RANKS[rule[0]], int(rule[1:]))
    return [f'broken\t{place(file, at)}\t{rule}' for file, at, rule in sorted(set(broken), key=key)]


def place(file, at):
    return ('stub:' if file.package.stub else '') + f'{file.path}:{line_col(str(file.text), at)}'


def lines_of(package):
    defs, uses, exprs = [], [], []
    for file in package.files:
        written = [i for i in file.imports if i.form in ('named', 'blank')]
        defs += [f'def\t{place(file, i.at)}\t{i.name}\tpackage\t{i.package.path}' for i in written]
        defs += [f'def\t{place(file, c.at)}\t{c.name}\tconst\tuntyped int\t{c.value}' for c in file.constants()]
        uses += [f'use\t{place(file, at)}\t{name}\t{place(to.file, to.declared)}' for at, name, to in file.uses]
        for node in [node for spec in file.specs for root in spec.nodes for node in root.walk()]:
            end = line_col(str(file.text), node.end)
            exprs.append(f'expr\t{place(file, node.start)}\t{end}\tconst\tuntyped int\t{node.value}')
    return defs + uses + exprs


def report(module):
    """The lines of a module's report."""
    if module.go_mod_broken:
        return ['refused'] + [f'broken\tgo.mod:{at}\t{rule}' for at, rule in module.go_mod_broken]
    packages = module.in_import_order()
    for phase, asked in ((2, module.packages), (3, packages)):
        broken = [entry for p in asked for file in p.files for entry in file.broken(phase)]
        if broken:
            return ['refused'] + in_order(broken)
    lines, accepted = [f'module\t{module.path}\t1.21'], set()
    for package in packages:
        verdict, more = verdict_of(package, accepted)
        lines += [f'package\t{package.path}\t{package.name}\t{verdict}'] + more
    return lines


def verdict_of(package, accepted):
    if not package.imports() <= accepted:
        return 'skipped', []
    names = [entry for file in package.files for entry in file.broken(4)]
    evaluate_package(package)
    broken = names or [entry for file in package.files for entry in file.broken(5)] + list(broken_values(package))
    if broken:
        return 'refused', in_order(broken)
    accepted.add(package)
    return 'accepted', lines_of(package)


def status_of(lines):
    rules = [line.split('\t')[2] for line in lines if line.startswith('broken\t')]
    refused = lines[0] == 'refused' or any(line.endswith('\trefused') for line in lines)
    return 3 if any(rule[0] in 'UL' for rule in rules) else 1 if refused else 0


def write(folder, path, text):
    path = os.path.join(folder, path)
    os.makedirs(os.path.dirname(path), exist_ok=True)
    with open(path, 'w', newline='') as file:
        file.write(text)


def case():
    """A module, the name of its fault, and the status and the lines of its report."""
    module = plan()
    fault = plant(module) if rng.random() < .75 else 'none'
    for package in module.packages:
        for file in package.files:
            file.write()
    lines = report(module)
    return module, fault, status_of(lines), lines


def run(programs, module):
    """The output of each program on the module."""
    with tempfile.TemporaryDirectory() as folder:
        if module.go_mod is not None:
            write(folder, 'r/go.mod', module.go_mod)
        for root in ('/r', '/s'):
            os.makedirs(folder + root, exist_ok=True)
        for package in module.packages:
            for file in package.files:
                write(folder, ('s/' if package.stub else 'r/') + file.path, str(file.text))
        words = {True: [folder + '/r', folder + '/s'], False: [folder + '/r', '--stubs', folder + '/s']}
        return [subprocess.run([program, *words[is_other]], capture_output=True, text=True)
                for program, is_other in programs]


def main():
    here = os.path.dirname(os.path.abspath(__file__))
    words = dict(enumerate(sys.argv[1:]))
    count = int(words.get(0, 500))
    rng.seed(int(words.get(1, 1)))
    program = words.get(2, here + '/../crates/gocheck/out/gocheck')
    other = [(words[3], True)] if 3 in words else []
    differ, faults = 0, {}
    for _ in range(count):
        module, fault, status, lines = case()
        faults[fault] = faults.get(fault, 0) + 1
        wanted = ''.join(line + '\n' for line in lines)
        for done in run([(program, False)] + (other if status == 0 else []), module):
            if (done.returncode, done.stdout) != (status, wanted):
                differ += 1
                texts = [(p.stub, f.path, str(f.text)) for p in module.packages for f in p.files]
                print(fault, module.go_mod, texts, status, wanted, done.returncode, done.stdout, sep='\n')
    print(f'{count} modules, {differ} reports differ; faults: {dict(sorted(faults.items()))}')
    sys.exit(differ > 0)


if __name__ == '__main__':
    main()
