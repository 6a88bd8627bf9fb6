#!/usr/bin/env python3
"""Prints the last part of docs/DESIGN-PASS.md: each promise that differs between two checkouts, old and new.

    tools/design_list.py OLD NEW KIT        OLD and NEW are tops of checkouts, KIT the folder of the page that `rt doc` names
"""
import glob
import json
import os
import re
import subprocess
import sys

FN = re.compile(r'\b(pub(?:\([a-z]+\))? )?(?:extern "C" )?(?:const )?fn (\w+)(<(?:[^<>()]|\([^()]*\)|->|<[^<>]*>)*>)?\(')


def closed(text, at, left='{', right='}'):
    """The place after the bracket that closes the one at `at`."""
    depth = 0
    for i in range(at, len(text)):
        if text[i] == left:
            depth += 1
        elif text[i] == right:
            depth -= 1
            if depth == 0:
                return i + 1
    return len(text)


def files(top):
    for path in sorted(glob.glob(top + '/crates/*/src/**/*.rt', recursive=True)):
        rel = os.path.relpath(path, top + '/crates')
        yield rel.split('/')[0], rel.split('/src/')[1][:-3], re.sub(r'//[^\n]*', '', open(path, encoding='utf-8').read())


def owners(text):
    """What each impl and trait of a file is of, with its extent."""
    for m in re.finditer(r'\b(impl|trait)\b([^{;]*)\{', text):
        if re.search(r'\bfn\b', m.group(2)):
            continue
        head = re.sub(r'^\s*<(?:[^<>]|<[^<>]*>)*>', '', m.group(2))
        name = re.sub(r'<[^<>]*>', '', head).strip()
        if m.group(1) == 'trait':
            name = re.match(r'\w+', head.strip()).group(0)
        elif ' for ' in name:
            name = name.split(' for ')[1].strip() + '/' + name.split(' for ')[0].strip()
        yield m.end(), closed(text, m.end() - 1), name


def contract(text, at):
    """The result type and the clauses that stand from `at` on."""
    clauses, result, first = [], '', True
    while True:
        brace, end = text.find('{', at), text.find(';', at)
        part = text[at:brace]
        if ';' in re.sub(r'\[[^\[\]]*\]', '[]', part):
            return (' '.join(text[at:end].split()) if first else result), clauses
        clause = re.search(r'(requires|ensures)(?:\*?)(?:\s+(\w+))?\s*$', part)
        if first:
            result = ' '.join((part[:clause.start()] if clause else part).split())
            first = False
        if not clause:
            return result, clauses
        at = closed(text, brace)
        clauses.append((clause.group(1), clause.group(2) or '', ' '.join(text[brace + 1:at - 1].split())))


def functions(top):
    found = {}
    for crate, module, text in files(top):
        spans = list(owners(text))
        for m in FN.finditer(text):
            end = closed(text, m.end() - 1, '(', ')')
            result, clauses = contract(text, end)
            own = [name for a, b, name in spans if a <= m.start() < b]
            found.setdefault((crate, m.group(2)), []).append({
                'crate': crate, 'module': module, 'name': m.group(2), 'own': own[-1] if own else '', 'pub': (m.group(1) or '').strip(),
                'signature': f"{m.group(3) or ''}({' '.join(text[m.end():end - 1].split()).rstrip(',').strip()}) {result}".strip(), 'clauses': clauses,
            })
    return found


def title(f):
    inner = f['module'].replace('/', '::') + '::' if f['module'] not in ('lib', 'main') else ''
    return f"{f['crate']}::{inner}{f['own'] + '::' if f['own'] else ''}{f['name']}"


def over_body(clauses):
    """Clauses over a ward's numbers as they stand over its body."""
    out = []
    for kind, _, text in clauses:
        parts = [c.strip() for c in re.split(r' × (?![^(]*\))', re.sub(r'\bw\.now\b(?!\.numbers)', 'w.now.numbers.now', text))]
        left = [c for c in parts if c != 'Accepted w.now.numbers.now']
        text = ' × '.join(left)
        if len(left) == 1 and len(parts) > 1 and text.startswith('(') and closed(text, 0, '(', ')') == len(text):
            text = text[1:-1]
        if text:
            out.append((kind, text))
    return out


def over_nurse(clauses):
    """Clauses over a ward's numbers and a nurse's index as they stand over a nurse of the ward."""
    out = []
    for kind, text in over_body(clauses):
        left = [c for c in re.split(r' × (?![^(]*\))', text) if not re.fullmatch(r'\(?i < nurses w\.now\.numbers\.now\)?', c.strip())]
        text = re.sub(r'\bi\b', 'her.now.index', re.sub(r'\bw\.now\b', 'her.now.ward', ' × '.join(left)))
        if text:
            out.append((kind, text))
    return out


def pairs(old, new):
    used, same, alone, hers, changed, gone = set(), 0, [], [], [], []
    for key, fs in sorted(old.items()):
        for f in fs:
            offered = new.get(key, [])
            best = ([g for g in offered if (g['module'], g['own']) == (f['module'], f['own'])]
                    or [g for g in offered if g['module'] == f['module']] or offered)
            best = [g for g in best if id(g) not in used] or best
            if not best:
                gone.append(f)
                continue
            g = best[0]
            used.add(id(g))
            if (f['signature'], f['clauses'], f['own']) == (g['signature'], g['clauses'], g['own']):
                same += 1
            elif (re.sub(r'\bw: &\[u64\]', 'w: &Body', f['signature']) == g['signature']
                  and over_body(f['clauses']) == [(k, t) for k, _, t in g['clauses']]):
                alone.append(f)
            elif (re.sub(r'\bw: &\[u64\], i: usize\b', 'her: &WardNurse', f['signature']) == g['signature']
                  and over_nurse(f['clauses']) == [(k, t) for k, _, t in g['clauses']]):
                hers.append(f)
            else:
                changed.append((f, g))
    return same, alone, hers, changed, gone, [g for gs in new.values() for g in gs if id(g) not in used]


def clause(c):
    return f"{c[0]}{' ' + c[1] if c[1] else ''} {{ {c[2]} }}"


def facts(top):
    """The ghost fields and models of the structs."""
    out = {}
    for crate, _, text in files(top):
        for m in re.finditer(r'\bstruct (\w+)[^{;(]*\{', text):
            body = text[m.end():closed(text, m.end() - 1)]
            for g in re.finditer(r'ghost (\w+): (\{)', body):
                out[f'`{crate}::{m.group(1)}`, `{g.group(1)}`'] = ' '.join(body[g.start(2):closed(body, g.start(2))].split())
        for m in re.finditer(r'impl Model for (\w+)[^{]*\{', text):
            body = text[m.end():closed(text, m.end() - 1) - 1]
            out[f'`{crate}::{m.group(1)}`, a model'] = ' '.join(re.sub(r'ghost use [^\n]*', '', body).split())
    return out


def main():
    before, now, kit = sys.argv[1:4]
    same, alone, hers, changed, gone, new = pairs(functions(before), functions(now))
    run = subprocess.run(['python3', kit + '/port/contracts.py', before, now, '--json'], capture_output=True, text=True, check=True)
    defs = json.loads(run.stdout)['definitions']
    print(f"Functions: {same} are as they were, {len(alone) + len(hers)} changed in one of two ways alone, {len(changed)} changed otherwise, {len(gone)} went, "
          f"{len(new)} are new. Definitions and theorems of specs/: {defs['old']} then and {defs['new']} now, {defs['same']} word for word "
          f"the same, {len(defs['changed'])} changed, {len(defs['gone'])} gone.\n")
    print('**Changed in this alone**: `w: &[u64]` with `Accepted w.now` required is `w: &Body`, and the clauses say `w.now.numbers.now` for `w.now`.\n')
    print(', '.join(f'`{title(f)}`' for f in alone) + '.\n')
    print('**And in this alone**: besides, `w, i: usize` with `i < nurses` required is `her: &WardNurse`, and the clauses say `her.now.ward.numbers.now` '
          'and `her.now.index`.\n')
    print(', '.join(f'`{title(f)}`' for f in hers) + '.\n')
    print('**Functions whose signature or clauses changed**\n')
    for f, g in changed:
        a, b = title(f), title(g)
        print(f'- `{a}`' + ('' if g['pub'] else ' (private)') + (f', now `{b}`' if a != b else ''))
        if f['signature'] != g['signature']:
            print('      - ' + f['signature'] + '\n      + ' + g['signature'])
        old, own = [clause(c) for c in f['clauses']], [clause(c) for c in g['clauses']]
        for c in old:
            if c not in own:
                print('      - ' + c)
        for c in own:
            if c not in old:
                print('      + ' + c)
    print('\n**New functions**\n')
    for g in new:
        print(f'- `{title(g)}`' + ('' if g['pub'] else ' (private)') + '\n      + ' + g['signature'])
        for c in g['clauses']:
            print('      + ' + clause(c))
    print('\n**Facts in types**: ghost fields and models that are new; before, the same facts stood in clauses.\n')
    old = facts(before)
    for k, v in facts(now).items():
        if old.get(k) != v:
            print(f'- {k}: {v}')
    print('\n**Definitions and theorems of specs/, changed**\n')
    for row in defs['changed']:
        print('- ' + ' '.join(str(x) for x in row[:-2]))
        for sign, x in (('-', row[-2]), ('+', row[-1])):
            print(f'      {sign} ' + (' '.join(x) if isinstance(x, list) else str(x)))


main()
