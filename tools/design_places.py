#!/usr/bin/env python3
"""Counts places in crates/*/src that docs/DESIGN-PASS.md speaks of, point by point.

    tools/design_places.py           the counts
    tools/design_places.py --list    each place too

A place is found by its text, so that a count can be taken again; whether it is one that a newer form would make plainer is for
the page to say."""
import collections
import glob
import re
import sys

FUNCTION = re.compile(r'^( *)(?:pub )?(?:extern "C" )?fn (\w+)', re.M)


def sources():
    for path in sorted(glob.glob('crates/*/src/**/*.rt', recursive=True)):
        text = open(path, encoding='utf-8').read()
        yield path[len('crates/'):].replace('/src/', '/'), re.sub(r'//[^\n]*', '', text)


def functions():
    """(file, name, signature, clauses, body) of each function."""
    for path, text in sources():
        for m in FUNCTION.finditer(text):
            indent = m.group(1)
            brace = re.compile(r'^(?:.*\) ?(?:-> [^{\n]*)?)?\{$|^%s\{$' % indent, re.M)
            opened = re.compile(r'(?:^%s\{\n|[^\n{]\{\n)' % indent, re.M).search(text, m.start())
            closed = re.compile(r'^%s\}' % indent, re.M).search(text, m.start())
            if not opened or not closed:
                continue
            head, body = text[m.start():opened.start() + 1], text[opened.end():closed.start()]
            parts = re.split(r'^\s*(?:requires|ensures)\b', head, maxsplit=1, flags=re.M)
            clauses = re.findall(r'^\s*((?:requires|ensures)\b.*?)(?=^\s*(?:requires|ensures)\b|\Z)', head, re.M | re.S)
            yield path, m.group(2), parts[0], [' '.join(c.split()) for c in clauses], body


def structs():
    for path, text in sources():
        for m in re.finditer(r'((?:^#\[[^\n]*\n)*)^(?:pub )?struct (\w+)[^{;(]*\{(.*?)^\}', text, re.M | re.S):
            yield path, m.group(1), m.group(2), re.findall(r'(?:pub )?(\w+): ([^,\n]+),', m.group(3))


def own_options():
    for path, text in sources():
        for m in re.finditer(r'^(?:pub )?enum (\w+)[^{]*\{(.*?)^\}', text, re.M | re.S):
            variants = re.findall(r'^    (\w+)( ?[({])?', m.group(2), re.M)
            if len(variants) == 2 and any(data for _, data in variants):
                yield f'{path}: enum {m.group(1)}'


FLAG = {'failed', 'ok', 'right', 'written', 'accepted', 'whole', 'differs', 'number'}


def flags_beside_values():
    for path, attributes, name, fields in structs():
        if 'repr(C)' not in attributes and len(fields) > 1 and any(f in FLAG for f, _ in fields):
            yield f'{path}: struct {name}'


def bare_numbers():
    for path, name, signature, _, body in functions():
        if re.search(r'-> u32', signature) and re.search(r'(?:return|^\s*|\{) *(?:[1-9]|[12]\d)\b;?\s*(?:\}|$)', body, re.M):
            yield f'{path}: {name}'


def maybe_places():
    """A place or length of which 0 says that there is none."""
    for path, name, _, _, body in functions():
        for m in re.finditer(r'if (\w+) == 0 \{', body):
            if re.search(r'let %s = (?:value_of|word_place)\(' % m.group(1), body):
                yield f'{path}: {name}'


def twins():
    seen = collections.defaultdict(list)
    for path, name, signature, _, body in functions():
        tokens = re.findall(r'\w+|[^\w\s]', signature.split('fn', 1)[1] + body)
        if len(tokens) < 25:
            continue
        names = {}
        shape = []
        for t in tokens:
            if re.match(r'[A-Za-z_]', t) and t not in ('if', 'else', 'let', 'mut', 'while', 'for', 'return', 'match', 'fn', 'as'):
                t = names.setdefault(t, f'n{len(names)}')
            elif re.match(r'\d', t):
                t = '0'
            shape.append(t)
        seen[' '.join(shape)].append(f'{path}: {name}')
    for places in seen.values():
        if len(places) > 1:
            yield from places


def counted_loops():
    for path, name, _, _, body in functions():
        for m in re.finditer(r'^\s*(while [^\n]*)\{$', body, re.M):
            yield f'{path}: {name}: {m.group(1).strip()}'


def by_hand():
    """Equality, order, copying and conversion written by hand."""
    for path, name, _, _, body in functions():
        if re.fullmatch(r'same_\w+|copy|greater|larger|smaller|less|least|most|(?:read|put)_(?:u16|u32|four)|four_msb|magnitude', name):
            yield f'{path}: {name}'


def repeated_clauses():
    count = collections.defaultdict(list)
    for path, name, _, clauses, _ in functions():
        for c in set(re.sub(r'^(requires|ensures) \w+ \{', r'\1 {', c) for c in clauses if c.startswith('requires')):
            count[path.split('/')[0], c].append(f'{path}: {name}: {c}')
    for places in count.values():
        if len(places) > 2:
            yield from places


def many_parameters():
    for path, name, signature, _, _ in functions():
        if len(re.findall(r'\w+: ', signature)) > 6:
            yield f'{path}: {name}'


def lengths_beside():
    for path, name, signature, _, _ in functions():
        if re.search(r': &(?:mut )?\[u\d+\],\s*(?:n|count|len|taken|at|known|width|\w+_len): (?:usize|u32|u64)', signature):
            yield f'{path}: {name}'


def switches():
    for path, name, _, _, body in functions():
        for m in re.finditer(r'match (?:\w+\.)?(?:kind|number|width|bits|step)\b', body):
            yield f'{path}: {name}'


def proof_files():
    for path in sorted(glob.glob('crates/*/proofs/**/*.antt', recursive=True)):
        if path.endswith(('/Answers.antt', '/Invariants.antt')):
            yield path


POINTS = [
    ('1 enums of two variants, one at least with a value', own_options),
    ('1 a flag or a refusal number beside values, in a struct that is not the C interface', flags_beside_values),
    ('1 functions whose u32 is a refusal number or a kind', bare_numbers),
    ('1 places of which 0 says that there is none', maybe_places),
    ('2 functions alike but for names and numbers', twins),
    ('3 while loops', counted_loops),
    ('4 equality, order, copying, conversion by hand', by_hand),
    ('5 requires that three functions or more of a crate have', repeated_clauses),
    ('5 functions of more than six parameters', many_parameters),
    ('6 a slice with a length or a place beside it', lengths_beside),
    ('7 a switch on a kind, a number or a width', switches),
    ('8 proof files of functions', proof_files),
]

for title, find in POINTS:
    places = list(find())
    print(f'{len(places):5}  {title}')
    if '--list' in sys.argv:
        for place in places:
            print(f'         {place}')
