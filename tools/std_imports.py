#!/usr/bin/env python3
"""Rewrites the imports of specs/ and proofs/ from below std to the std modules that pass the same names on.

Run at the top of a checkout: tools/std_imports.py KIT [CRATE ..]; KIT is the kit's folder. Prints
each name that stays, since no module of std has it, and in how many files it stays.
"""
import collections
import glob
import os
import re
import sys

BELOW = ('mathlib', 'lib', 'native', 'Prim', 'borrow')
USE = re.compile(r'use ([^\s{]+?)(?:\.\{([^}]*)\}| as (\S+))?$')
PASSED = re.compile(r'^(?:\w+ )?pub use ([^\s{]+?)(?:\.\{([^}]*)\}| as (\S+))?$', re.M)
# where a name stands in several modules of std, the first of these is taken
ORDER = ['specs.Prelude', 'proofs.Common', 'proofs.lemmas', 'proofs.Math', 'specs', 'proofs']


def pairs(names):
    """The names of a `{..}` as (name there, name here)."""
    for part in names.split(','):
        there, _, here = part.strip().partition(' as ')
        if there:
            yield there, here or there


class Kit:
    def __init__(self, folder):
        self.folder = folder
        self.texts = {}
        self.exports = collections.defaultdict(set)
        self.whole = collections.defaultdict(set)
        for side in ('specs', 'proofs'):
            self.walk(f'Rattle.std.{side}', f'Rattle.std.{side}', set())

    def text(self, module):
        """The source of a module, '' where the kit has none."""
        if module not in self.texts:
            root, *rest = module.split('.')
            top = {'Rattle': '', 'mathlib': 'antt/port/mathlib/src', 'native': 'antt/lib/native/src'}.get(root, 'logic/' + root.capitalize())
            stem = os.path.join(self.folder, 'rattle', top, *rest)
            paths = [p for p in (stem + '.antt', stem + '/Lib.antt') if os.path.isfile(p)]
            self.texts[module] = open(paths[0], encoding='utf-8').read() if paths else ''
        return self.texts[module]

    def origin(self, module, name):
        """The module that defines a name, and its name there."""
        for source, names, _ in PASSED.findall(self.text(module)):
            for there, here in pairs(names):
                if here == name:
                    return self.origin(source, there)
        return module, name

    def walk(self, module, seen_as, above):
        """Notes what std has of the libraries below it, in `module` and the modules in it."""
        if module in above:
            return
        if module.split('.')[0] in BELOW:
            self.whole[module].add(seen_as)
            return
        inner = [(module + '.' + m, m) for m in re.findall(r'^pub mod (\w+)', self.text(module), re.M)]
        for source, names, other in PASSED.findall(self.text(module)):
            if not names:
                inner.append((source, other or source.split('.')[-1]))
            for there, here in pairs(names):
                self.exports[self.origin(source, there)].add((seen_as, here))
        for m, last in inner:
            self.walk(m, f'{seen_as}.{last}', above | {module})

    def place(self, module, name):
        """The module of std that has the name, and its name there, or None."""
        origin = self.origin(module, name)
        found = set(self.exports[origin])
        for source, there in ((module, name), origin):
            found |= {(seen_as, there) for seen_as in self.whole[source]}
        return min(found, key=lambda p: (p[1] != name, rank(p[0]), len(p[0]), p[0]), default=None)


def rank(module):
    return next((i for i, start in enumerate(ORDER) if f'{module}.'.startswith(f'Rattle.std.{start}.')), len(ORDER))


def rewritten(kit, text, left):
    lines = text.split('\n')
    uses = [i for i, line in enumerate(lines) if line.startswith('use ')]
    if not any(lines[i].split()[1].split('.')[0] in BELOW for i in uses):
        return text
    std, rest = {}, []
    for line in (lines[i] for i in uses):
        module, names, _ = USE.match(line).groups()
        root = module.split('.')[0]
        kept = []
        for there, here in pairs(names or ''):
            to, new = module, there
            if root in BELOW:
                to, new = kit.place(module, there) or (module, there)
            item = new if new == here else f'{new} as {here}'
            if rank(to) == len(ORDER):
                kept.append(item)
            elif item not in std.setdefault(to, []):
                std[to].append(item)
        if root in BELOW:
            left.update(f'{module}.{item}' for item in kept or ([] if names else ['(the module)']))
        if kept:
            rest.append('use %s.{%s}' % (module, ', '.join(kept)))
        elif names is None:
            rest.append(line)
    new = ['use %s.{%s}' % (m, ', '.join(std[m])) for m in sorted(std, key=lambda m: (rank(m), m))] + rest
    return '\n'.join(lines[:uses[0]] + new + [line for i, line in enumerate(lines) if i > uses[0] and i not in uses])


def main():
    kit = Kit(sys.argv[1])
    left = collections.Counter()
    for crate in sys.argv[2:] or ['*']:
        for path in sorted(glob.glob(f'crates/{crate}/specs/**/*.antt', recursive=True) + glob.glob(f'crates/{crate}/proofs/**/*.antt', recursive=True)):
            text = open(path, encoding='utf-8').read()
            new = rewritten(kit, text, left)
            if new != text:
                open(path, 'w', encoding='utf-8').write(new)
    for name, n in sorted(left.items()):
        print(f'{name}: {n}')


main()
