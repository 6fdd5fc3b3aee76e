#!/usr/bin/env python3
"""Writes the public functions, types and definitions that the design pass changed, old and new side by side, in Markdown.

    tools/design_side_by_side.py OLD NEW     OLD and NEW are tops of checkouts

A function is found again by crate and name, or by the table MOVED; what is in neither is in GONE, with what states its promise now.
"""
import os
import re
import sys

OLD, NEW = sys.argv[1], sys.argv[2]

MOVED = {}
GONE = {}
exec(open(os.path.join(os.path.dirname(os.path.abspath(__file__)), 'design_moves.txt'), encoding='utf-8').read())


def walk(top, kind, ending):
    for crate in sorted(os.listdir(os.path.join(top, 'crates'))):
        for folder, folders, names in os.walk(os.path.join(top, 'crates', crate, kind)):
            folders.sort()
            for name in sorted(names):
                if name.endswith(ending):
                    yield crate, open(os.path.join(folder, name), encoding='utf-8').read()


def closing(text, at, a, b):
    depth = 0
    while True:
        depth += (text[at] == a) - (text[at] == b)
        at += 1
        if depth == 0:
            return at


def functions(top):
    found = {}
    for crate, text in walk(top, 'src', '.rt'):
        bare = re.sub(r'//[^\n]*', lambda m: ' ' * len(m.group(0)), text)
        blocks = []
        for m in re.finditer(r'^(impl|pub trait|trait)\b[^\n{]*\{', bare, re.M):
            said = re.sub(r'^(impl|pub trait|trait)\s*(<[^>]*>)?', '', m.group(0)).split(' where ')[0]
            said = said.split(' for ')[-1]
            blocks.append((m.start(), closing(bare, m.end() - 1, '{', '}'), re.search(r'\w+', said).group(0)))
        for m in re.finditer(r'^[ \t]*pub (?:extern "C" )?fn (\w+)', bare, re.M):
            at = bare.index('(', m.end())
            at = closing(bare, at, '(', ')')
            while True:
                rest = re.compile(r'\s*(?:->[^{\n]*)?\s*').match(bare, at)
                if re.compile(r'\s*->').match(bare, at):
                    at = rest.end()
                    continue
                clause = re.compile(r'\s*(requires|ensures|ghost)\b[^{]*').match(bare, at)
                if clause:
                    at = closing(bare, clause.end(), '{', '}')
                    continue
                break
            owner = [n for s, e, n in blocks if s < m.start() < e]
            key = (crate, (owner[0] + '::' if owner else '') + m.group(1))
            head = '\n'.join(line.rstrip() for line in bare[m.start():at].split('\n') if line.strip())
            found[key] = re.sub(r'^    ', '', head, flags=re.M) if owner else head
    return found


def types(top):
    found = {}
    for crate, text in walk(top, 'src', '.rt'):
        bare = re.sub(r'//[^\n]*', '', text)
        for m in re.finditer(r'((?:#\[derive[^\n]*\]\n)?)pub (struct|enum|trait) (\w+)', bare):
            at = m.end()
            stop = min(x for x in (bare.find('{', at), bare.find(';', at)) if x >= 0)
            end = closing(bare, stop, '{', '}') if bare[stop] == '{' else stop + 1
            body = bare[m.start():end]
            if m.group(2) == 'trait':
                body = body[:body.index('{') + 1] + ' .. }'
            found[(crate, m.group(3))] = '\n'.join(line for line in body.split('\n') if line.strip())
    return found


def definitions(top):
    found = {}
    for crate, text in walk(top, 'specs', '.antt'):
        for part in re.split(r'\n\s*\n', text):
            lines = [line for line in part.split('\n') if line and not line.startswith(('--', 'use ', 'pub mod', 'mod '))]
            m = re.search(r'\bpub (?:record |data )?(\S+)', ' '.join(lines))
            if lines and m:
                found[(crate, m.group(1))] = '\n'.join(lines)
    return found


def theorems(top):
    # those of specs/, and those of proofs/ that the pages named at OLD
    named = set()
    for page in ['README.md'] + [os.path.join('docs', f) for f in sorted(os.listdir(os.path.join(OLD, 'docs'))) if f not in ('PORT.md', 'DESIGN-PASS.md')]:
        named |= set(re.findall(r'`([a-z][\w\']*)`', open(os.path.join(OLD, page), encoding='utf-8').read()))
    defined = {name for _, name in definitions(OLD)}
    found = {}
    for crate, text in walk(top, 'proofs', '.antt'):
        for m in re.finditer(r'^ *pub ([\w\']+) :', text, re.M):
            if m.group(1) in named and m.group(1) not in defined:
                rest = text[m.start():].split('\n')
                said = [rest[0]]
                for line in rest[1:]:
                    if not re.match(r' *(→|×|\(|\.\.)', line) or line.strip().startswith('unfolding'):
                        break
                    said.append(line)
                found[(crate, m.group(1))] = '\n'.join(said)
    return found


def block(text):
    return '```\n' + text + '\n```\n'


def shown(title, old, new, moved, gone):
    print('## ' + title + '\n')
    for key in sorted(old):
        other = moved.get(key, key)
        if other in new:
            if new[other] != old[key] or other != key:
                print('### %s `%s`%s\n' % (key[0], key[1], '' if other == key else ' is %s `%s`' % other))
                print('Old:\n\n' + block(old[key]) + '\nNew:\n\n' + block(new[other]))
        else:
            print('### %s `%s` is gone\n' % key)
            print(gone.get(key, '**?**') + '\n\n' + block(old[key]))
    fresh = sorted(k for k in new if k not in old and k not in moved.values())
    if fresh:
        print('### New\n')
        for key in fresh:
            print('%s `%s`:\n\n%s' % (key[0], key[1], block(new[key])))


if len(sys.argv) > 3 and sys.argv[3] == '--missing':
    for what, f in (('fn', functions), ('type', types), ('def', definitions), ('thm', theorems)):
        old, new = f(OLD), f(NEW)
        for key in sorted(old):
            if (MOVED.get(key, key) if what in ('fn', 'type') else key) not in new and key not in GONE:
                print(what, key)
        if what in ('fn', 'type'):
            print('   new:', ', '.join('%s %s' % k for k in sorted(new) if k not in old))
    sys.exit()

shown('Public functions', functions(OLD), functions(NEW), MOVED, GONE)
shown('Types and their invariants', types(OLD), types(NEW), MOVED, GONE)
shown('Definitions of specs/', definitions(OLD), definitions(NEW), {}, GONE)
shown('Theorems that the pages name', theorems(OLD), theorems(NEW), {}, GONE)
