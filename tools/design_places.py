#!/usr/bin/env python3
"""Lists the places in src/ that docs/DESIGN-PASS.md counts, point by point.

Run at the top of a checkout: tools/design_places.py [POINT ..]; with --counts only the numbers.
Each row of a list is a place: file, what stands there.
"""
import glob
import re
import sys

FN = re.compile(r'(?:pub(?:\([a-z]+\))? )?(?:extern "C" )?fn (\w+)')


def sources():
    for path in sorted(glob.glob('crates/*/src/**/*.rt', recursive=True)):
        yield path, open(path, encoding='utf-8').read()


def code(text):
    """The text without comments and ghost lines."""
    text = re.sub(r'//[^\n]*', '', text)
    # a `;` inside an array's type or value is no end of an item
    for _ in range(3):
        text = re.sub(r'(\[[^\[\];]*);(?=[^\[\]]*\])', r'\1 of', text)
    return re.sub(r'^ghost use [^\n]*', '', text, flags=re.M)


def closed(text, at, left, right):
    """The place after the bracket that closes the one at `at`."""
    depth = 0
    for i in range(at, len(text)):
        if text[i] == left:
            depth += 1
        elif text[i] == right:
            depth -= 1
            if depth == 0:
                return i + 1
    return len(text)


def blocks(text, word):
    for m in re.finditer(r'\b%s (\w+)[^{;]*\{' % word, text):
        end = closed(text, m.end() - 1, '{', '}')
        yield m.group(1), text[m.end():end - 1]


def functions(text):
    """Name, parameters, clauses and body of each function with a body."""
    for m in re.finditer(r'(?:^|\n)[ \t]*(?:#\[[^\n]*\n[ \t]*)*' + FN.pattern + r'(?:<[^(]*>)?\(', text):
        end = closed(text, m.end() - 1, '(', ')')
        rest = text[end:]
        k = 0
        head = ''
        while True:
            brace = rest.find('{', k)
            semi = rest.find(';', k)
            if brace < 0 or 0 <= semi < brace:
                break
            before = rest[k:brace]
            stop = closed(rest, brace, '{', '}')
            if re.search(r'(requires|ensures|ghost)\*?[^{}]*$', before):
                head += before + rest[brace:stop]
                k = stop
                continue
            yield m.group(1), text[m.end():end - 1], head, rest[brace:stop]
            break


def numbers_for_kinds():
    for path, text in sources():
        text = code(text)
        for m in re.finditer(r'^pub const ([A-Z0-9]+): u32 = (\d+);', text, re.M):
            if 'question' in path:
                yield path, 'question ' + m.group(1)
        for name, params, head, body in functions(text):
            for p in re.finditer(r'\b(k|state|before(?=: usize)|duty|mark|question): (?:u8|u32|u64|usize)\b', params):
                if p.group(1) == 'k' and not re.search(r'k < 2', head):
                    continue
                yield path, f'{name}({p.group(1)})'
        for name, body in blocks(text, 'struct'):
            for p in re.finditer(r'\b(state|duty|mark|question|edition): (?:u8|u32|u64|usize)\b', body):
                yield path, f'struct {name}.{p.group(1)}'
        for name, params, head, body in functions(text):
            if re.search(r'return question::|\{ 0 \} else \{ question', body):
                yield path, f'{name}, 0 or a question'


def point1():
    for path, text in sources():
        text = code(text)
        for name, body in blocks(text, 'enum'):
            flat = re.sub(r'\{[^{}]*\}|\([^()]*\)', '{}', body)
            cases = [c.strip() for c in flat.split(',') if c.strip()]
            held = [bool(re.match(r'\w+\s*[({]', c)) for c in cases]
            if any(held) and not all(held):
                yield path, 'enum ' + name
        for name, body in blocks(text, 'struct'):
            fields = re.findall(r'(\w+): ([^,\n]+)', body)
            for f, t in fields:
                if re.search(r'\bbool\b|\bAnswer\b', t) and len(fields) > 1:
                    yield path, f'struct {name}.{f}'
    yield from numbers_for_kinds()


def shape(body):
    body = re.sub(r'"[^"]*"', 'S', body)
    return tuple(re.findall(r"b'.'|\w+|[^\s\w]", body))


KEPT = {'if', 'else', 'while', 'for', 'in', 'return', 'match', 'loop', 'let', 'mut', 'true', 'false', 'fn', 'impl', 'as', 'self'}


def shape_of(body):
    out = []
    for t in shape(body):
        if re.match(r'\d', t):
            out.append('0')
        elif re.match(r'\w', t) and t not in KEPT:
            out.append('x')
        else:
            out.append(t)
    return tuple(out)


def point2():
    groups = {}
    for path, text in sources():
        for name, params, head, body in functions(code(text)):
            s = shape_of(body)
            if len(s) >= 14:
                groups.setdefault(s, []).append(f'{path} {name}')
    for s, names in groups.items():
        if len(names) > 1:
            yield names[0].split()[0], ' ~ '.join(names)


def point3():
    for path, text in sources():
        for name, params, head, body in functions(code(text)):
            for m in re.finditer(r'\bwhile\b|\bloop \{|\bfor \w+ in 0\.\.[\w.]+\.len\(\)', body):
                yield path, f'{name}: {m.group(0)}'


def point4():
    for path, text in sources():
        for name, params, head, body in functions(code(text)):
            flat = ' '.join(body.split())
            if re.match(r'\{ if (\w+) <=? (\w+) \{ (return )?(\1|\2);? \}', flat):
                yield path, f'{name}: order'
            elif re.match(r'\{ if \w+ < \w+ \{ \w+ - \w+ \} else \{ 0 \} \}$', flat) or re.match(r'\{ if \w+ == 0 \{ 0 \} else \{ \w+ - 1 \} \}$', flat):
                yield path, f'{name}: saturating difference'
            elif re.match(r'\{ \w+ as \w+ \}$', flat):
                yield path, f'{name}: conversion'
            elif re.match(r'\{ if !?\w+ \{ 1 \} else \{ 0 \} \}$', flat) or re.match(r'\{ \w+ != 0 \}$', flat):
                yield path, f'{name}: conversion'
            elif re.match(r'\{ if \w+ \{ (return )?[^{}]*;? \} (else \{ )?(0|\w+)( \})? \}$', flat):
                yield path, f'{name}: choice'
            elif re.search(r'let (\w+) = (\w+)\.\w+; let \w+ = \2\.\w+; writeln!', flat):
                yield path, f'{name}: printing'
            for m in re.finditer(r'(\w+)\[(\w+)( \+ \w+)?\] = (\w+)\[(\w+)( \+ \w+)?\];', flat):
                if m.group(2) in (m.group(5), ) or m.group(5):
                    yield path, f'{name}: copying {m.group(0)}'


def clause_facts(head):
    """The facts of the requires, each without its brackets and without the words for when a value is read."""
    for m in re.finditer(r'requires\*?\s*(?:\w+\s*)?\{([^{}]*)\}', head):
        for fact in m.group(1).split('×'):
            fact = fact.strip()
            while fact.startswith('(') and fact.endswith(')'):
                fact = fact[1:-1].strip()
            fact = re.sub(r'\.(?:now|old|entry)\b', '', fact)
            yield re.sub(r'\b(?:self\.|her\.)?(?:w|ward)(?:\.numbers)?\b(?!\.)', 'w', fact)


def point5():
    facts, relations = {}, {}
    for path, text in sources():
        for name, params, head, body in functions(code(text)):
            wanted = ' '.join(re.findall(r'requires\*?[^{}]*\{.*?\}(?=\s*(?:requires|ensures|$|\n|\{))', head, re.S))
            for fact in set(re.findall(r'(?<![.\w])([A-Z][A-Za-z]+)(?= )', wanted)) - {'IfOk', 'Is'}:
                facts.setdefault(fact, []).append(f'{path}: {name}')
            own = set(re.findall(r'(\w+):', params)) | {'self'}
            for fact in set(clause_facts(head)):
                if re.search('[≤<≡]', fact) and len(own & set(re.findall(r'\w+', fact))) > 1:
                    relations.setdefault(fact, []).append(f'{path}: {name}')
    for fact, names in sorted(facts.items()):
        if len(names) > 2:
            yield f'{fact}', f'in the requires of {len(names)} functions'
    for fact, names in sorted(relations.items()):
        if len(names) > 2:
            yield f'{fact}', f'said of two parameters in the requires of {len(names)} functions'
    for path, text in sources():
        for name, params, head, body in functions(code(text)):
            count = len(re.findall(r'\b\w+: ', params)) + ('self' in params.split(',')[0])
            if count > 6:
                yield path, f'{name}: {count} parameters'


def point6():
    for path, text in sources():
        text = code(text)
        for name, body in blocks(text, 'struct'):
            arrays = re.findall(r'(\w+): \[[^\[\]]+ of (\w+)\]', body)
            counts = re.findall(r'\b(count|over|used|held): usize', body)
            if arrays and counts:
                yield path, f'struct {name}: {arrays[0][0]} with {counts[0]}'
            sizes = [s for _, s in arrays]
            if any(sizes.count(s) > 1 for s in sizes):
                yield path, f'struct {name}: parallel arrays {", ".join(a for a, s in arrays if sizes.count(s) > 1)}'


def point7():
    for path, text in sources():
        for name, params, head, body in functions(code(text)):
            if re.search(r'match search \{', body):
                yield path, f'{name}: match search'


def point8():
    for path in sorted(glob.glob('crates/*/proofs/**/*.antt', recursive=True)):
        text = open(path, encoding='utf-8').read()
        n = len(re.findall(r'^use (?:mathlib|lib|native|Prim|denote|borrow|mir)\.', text, re.M))
        if n:
            yield path, f'{n} imports from below std'


POINTS = {1: point1, 2: point2, 3: point3, 4: point4, 5: point5, 6: point6, 7: point7, 8: point8}


def main():
    words = sys.argv[1:]
    only = [int(w) for w in words if w.isdigit()] or sorted(POINTS)
    for p in only:
        rows = list(POINTS[p]())
        print(f'point {p}: {len(rows)}')
        if '--counts' not in words:
            for path, what in rows:
                print(f'  {path.replace("crates/", "").replace("/src", "")}: {what}')


main()
