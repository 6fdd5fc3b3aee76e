#!/usr/bin/env python3
"""Counts the places of docs/DESIGN-PASS.md in src/ (and, for the last point, in proofs/).

    tools/design_counts.py [--list] [FOLDER]

FOLDER is the top of a checkout (default: this one). --list names each place. Comments are not read.
"""
import os
import re
import sys

args = [a for a in sys.argv[1:] if a != '--list']
listed = '--list' in sys.argv
top = args[0] if args else os.path.join(os.path.dirname(os.path.abspath(__file__)), '..')


def files(kind, ending):
    for crate in sorted(os.listdir(os.path.join(top, 'crates'))):
        for folder, folders, names in os.walk(os.path.join(top, 'crates', crate, kind)):
            folders.sort()
            for name in sorted(names):
                if name.endswith(ending):
                    path = os.path.join(folder, name)
                    yield os.path.relpath(path, top), open(path, encoding='utf-8').read()


def bare(text):
    # without comments, line by line
    return [re.sub(r'//.*', '', line) for line in text.split('\n')]


sources = [(path, bare(text)) for path, text in files('src', '.rt')]


def lines(pattern):
    found = []
    for path, text in sources:
        for number, line in enumerate(text, 1):
            if 'ghost use' not in line and re.search(pattern, line):
                found.append('%s:%d: %s' % (path, number, line.strip()))
    return found


def functions():
    # path, line, name, parameters, what stands up to the body
    for path, text in sources:
        whole = '\n'.join(text)
        for m in re.finditer(r'\bfn (\w+)\s*(<[^(]*>)?\(', whole):
            at, depth = m.end(), 1
            while depth:
                depth += {'(': 1, ')': -1}.get(whole[at], 0)
                at += 1
            inside = whole[m.end():at - 1]
            parts, depth, part = [], 0, ''
            for c in inside:
                depth += (c in '([<') - (c in ')]>')
                if c == ',' and depth == 0:
                    parts.append(part)
                    part = ''
                else:
                    part += c
            parts.append(part)
            rest = whole[at:]
            stop = re.search(r'\n\s*\{\n|\{\n|;\n', rest)
            yield path, whole.count('\n', 0, m.start()) + 1, m.group(1), [p.strip() for p in parts if p.strip()], rest[:stop.start()] if stop else rest


def many(least):
    return ['%s:%d: %s (%d)' % (p, n, f, len(ps)) for p, n, f, ps, _ in functions() if len(ps) >= least]


def clauses(pattern):
    found = []
    for p, n, f, _, head in functions():
        for m in re.finditer(r'requires\*? [^\n]*', head):
            if re.search(pattern, m.group(0)):
                found.append('%s:%d: %s: %s' % (p, n, f, m.group(0)[:70]))
    return found


def numbered():
    # functions that differ in a digit or a size of their names, in one crate
    groups = {}
    for p, n, f, _, _ in functions():
        crate = p.split('/')[1]
        stem = re.sub(r'(8|16|32|64)$', '', f)
        groups.setdefault((crate, stem), set()).add(f)
    return ['%s: %s' % (c, ' '.join(sorted(fs))) for (c, _), fs in sorted(groups.items()) if len(fs) > 1]


answers = [(path, text) for path, text in files('proofs', '.antt') if path.endswith(('/Answers.antt', '/Invariants.antt', '/Proof.antt'))]
long_answers = ['%s:%d' % (path, n) for path, text in answers for n, line in enumerate(text.split('\n'), 1) if len(line) > 300]

points = [
    ('1 a kind, an ending or a refusal as a number: a parameter or a field', lines(r'\b(kind|step|case|number|ended|op|name|rule): &?(mut )?(u8|u32)\b')),
    ('1 a kind as a constant', lines(r'^\s*(pub )?const [A-Z0-9_]+: (u8|u32)\b')),
    ('1 a function that gives a refusal as a number', ['%s:%d: %s' % (p, n, f) for p, n, f, _, h in functions() if 'number' in f and re.match(r'\s*-> u32', h)]),
    ('2 names that differ in a size', numbered()),
    ('3 a loop that is no `for`', lines(r'(^|:)\s*(while|loop)\b')),
    ('3 an index counted by hand', lines(r'^\s*\w+ (= \w+ \+ 1|\+= 1);')),
    ('4 a conversion or an equality by hand: its definition', ['%s:%d: %s' % (p, n, f) for p, n, f, _, _ in functions() if f in ('wide', 'wide16', 'narrow', 'same', 'join16', 'join32', 'within', 'apart', 'same_outcome', 'same_results', 'number_of')]),
    ('5 a clause that asks a fact which a type could hold', clauses(r'\b(Tied|Square|Listed|InLine|Journalled|good_journal|Handed|Mask|Sized|Narrow|Sizes)\b')),
    ('5 a function of eight parameters or more', many(8)),
    ('6 a buffer\'s length, head or count beside it: a parameter', ['%s:%d: %s' % (p, n, f) for p, n, f, ps, _ in functions() if any(re.match(r'(held|head|count|len|words|added_len|removed_len|adds|cuts|steps_len): usize', q) for q in ps)]),
    ('7 a bool that says which step to run', lines(r'\bblocked: bool')),
    ('8 lines of answers and invariants', [''] * sum(text.count('\n') for _, text in answers)),
    ('8 an answer\'s line of more than 300 columns', long_answers),
]

for name, found in points:
    print('%5d  %s' % (len(found), name))
    if listed and not name.startswith('8 lines'):
        for place in found:
            print('         ' + place)
