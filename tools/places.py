#!/usr/bin/env python3
"""Counts, in crates/*/src, the places that older forms leave: places.py POINT [FOLDER], where FOLDER is a checkout (default: this one).

    types       enums of the shape of Option or Result, and structs with a flag beside a value
    numbers     functions that answer a number or a flag for "none" or "refused", and matches on numbers that stand for kinds
    twins       functions whose bodies are the same text once names, numbers and texts are taken out of it
    loops       loops by `while`
    hand        conversions, comparisons, copies and printing written by hand
    facts       facts that the `requires` of three or more functions state
    parameters  groups of three or more parameters that three or more functions take; each function counts for one group
    buffers     arrays of numbers that are filled in part, and structs packed into numbers
    all         the number of each
"""
import collections
import itertools
import pathlib
import re
import sys

WORDS = 'if else let mut match while for in return true false Some None Ok Err self Self'.split()


def sources(root):
    for path in sorted(root.glob('crates/*/src/**/*.rt')):
        yield str(path.relative_to(root / 'crates')).replace('/src', ''), path.read_text()


def functions(root):
    """(file, name, parameters, clauses, body), of each function."""
    for file, text in sources(root):
        lines = text.split('\n')
        i = 0
        while i < len(lines):
            found = re.match(r'(\s*)(?:pub(?:\([a-z]+\))? )?(?:const )?(?:extern "C" )?fn (\w+)', lines[i])
            if not found:
                i += 1
                continue
            indent, start = found.group(1), i
            while not lines[i].rstrip().endswith(('{', '{}')) or re.search(r'\b(requires|ensures)\b', lines[i]):
                i += 1
            head = '\n'.join(lines[start:i + 1])
            body = []
            if not lines[i].rstrip().endswith('{}'):
                i += 1
                while lines[i] != indent + '}':
                    body.append(lines[i].strip())
                    i += 1
            signature = re.split(r'\n\s*(?:ghost|requires|ensures)\b', head)[0]
            inner = re.search(r'\((.*)\)', signature, re.S)
            parameters = []
            for part in re.split(r',(?![^<(\[]*[>)\]])', inner.group(1) if inner else ''):
                name = part.split(':')[0].replace('mut ', '').replace('&', '').strip()
                if name:
                    parameters.append(name)
            yield file, found.group(2), parameters, head, [l for l in body if l and not l.startswith('//')], signature
            i += 1


def types(root):
    for file, text in sources(root):
        for kind, name, body in re.findall(r'^(?:pub )?(enum|struct) (\w+)[^{;]*\{\n(.*?)^\}', text, re.M | re.S):
            parts = [l.strip().rstrip(',') for l in body.split('\n') if l.strip() and not l.strip().startswith('//')]
            if kind == 'enum':
                bare = [p for p in parts if '(' not in p]
                if len(bare) < len(parts) and bare and all(p.count('(') <= 1 for p in parts):
                    yield f'{file} enum {name}: {", ".join(parts)}'
            elif len(parts) > 1 and any(p.endswith(': bool') for p in parts) and not name in ('Hart', 'Trap'):
                yield f'{file} struct {name}: {", ".join(parts)}'


def numbers(root):
    for file, name, _, head, body, signature in functions(root):
        text = '\n'.join(body)
        if re.search(r'\bkind\b.*-> (bool|u64)|match kind \{', signature + text) and re.search(r'match kind \{|kind [<%=]', text):
            yield f'{file}:{name} kinds by number'
        elif re.search(r'-> (u64|usize)$', signature.split('{')[0].strip()) and re.search(r'^(0x19|20|25|NONE|count|end)$|=> (20|NONE),', text, re.M):
            yield f'{file}:{name} a number for none'
        elif re.search(r'-> bool', signature) and '&mut' in signature:
            yield f'{file}:{name} a flag for done or refused'
        elif 'extern' in signature and 'return -1' in text:
            yield f'{file}:{name} -1 for refused'


def twins(root):
    groups = collections.defaultdict(list)
    for file, name, _, _, body, _ in functions(root):
        text = re.sub(r'b?"[^"]*"', 'T', '\n'.join(body))
        shape = re.sub(r'\b0x[0-9A-Fa-f_]+\b|\b\d[\d_]*\b', '0', text)
        shape = re.sub(r'\b(?!(?:' + '|'.join(WORDS) + r')\b)[A-Za-z_]\w*\b', 'n', shape)
        if len(shape) > 12:
            groups[shape].append(f'{file}:{name}')
    for shape, places in sorted(groups.items(), key=lambda g: -len(g[1]) * len(g[0])):
        if len(places) > 1:
            yield f'{len(shape.splitlines())} lines: {", ".join(places)}'


def loops(root):
    for file, text in sources(root):
        for line in text.split('\n'):
            if re.match(r'\s*(?:\'\w+: )?while ', line):
                yield f'{file} {line.strip()}'


def hand(root):
    for file, name, parameters, _, body, signature in functions(root):
        text = '\n'.join(body)
        arms = re.findall(r'^(?:\w+::)+\w+(?:\(\w+\))? => (?:-?[\w.]+|rt\.write_all\(b".*"\)|\w+\(rt, .*\)),$', text, re.M)
        short = len(body) <= 4
        if re.search(r'^(same|equal)_', name):
            yield f'{file}:{name} a comparison'
        elif len(arms) > 1 and not re.search(r'\bx: Xlen|\(x\b', signature) and '?' not in text and len(body) <= len(arms) + 2:
            yield f'{file}:{name} a match from one value to another'
        elif short and re.fullmatch(r'if \w+ \{ (1|Mode::S) \} else \{ (0|Mode::U) \}|\w+ as u64|\(\w+ == 32\) \| \(\w+ == 64\)', text):
            yield f'{file}:{name} a conversion'
        elif len(re.findall(r'^(\w+): \w+\.\1,$', text, re.M)) > 3 or len(re.findall(r'^let (\w+) = \w+\.\1;$', text, re.M)) > 1:
            yield f'{file}:{name} a copy field by field'
        elif short and re.search(r'rt\.write_all\((text|t|label|name)\)', text):
            yield f'{file}:{name} printing'


def facts(root):
    where = collections.defaultdict(list)
    for file, name, _, head, _, _ in functions(root):
        for clause in re.findall(r'^\s*requires(?: \w+)? \{ (.*) \}$', head, re.M):
            for fact in clause.split(' × '):
                fact = fact.strip()
                if fact.startswith('(') and fact.endswith(')'):
                    fact = fact[1:-1]
                fact = re.sub(r'\b\w+\.(now|old)\b', 'P', fact)
                fact = re.sub(r'\b(h|self)(\.now)?\.xlen\b|\bxlen\b', 'x', fact)
                where[fact].append(f'{file}:{name}')
    for fact, places in sorted(where.items(), key=lambda w: -len(w[1])):
        if len(places) > 2:
            yield f'{len(places)} {fact}: {" ".join(places)}'


def parameters(root):
    """The group that the most functions share comes first; its functions then count for no other."""
    left = {f'{file}:{name}': frozenset(set(names) - {'rt', 'self'}) for file, name, names, _, _, _ in functions(root)}
    while True:
        groups = collections.Counter()
        for names in left.values():
            for size in range(3, 7):
                groups.update(itertools.combinations(sorted(names), size))
        found = [g for g in groups if groups[g] > 2]
        if not found:
            return
        best = max(found, key=lambda g: (groups[g] * len(g), g))
        places = [place for place, names in left.items() if set(best) <= names]
        yield f'{len(places)} {", ".join(best)}: {" ".join(places)}'
        for place in places:
            del left[place]


def buffers(root):
    """A file with such places counts once."""
    for file, text in sources(root):
        lines = [l.strip() for l in text.split('\n') if re.search(r'&mut \[u64; \d+\]|words\[(?:at|5 \* )|\d => 0x\w{4}_\w{4}_\w{4}_\w{4},', l)]
        if lines:
            yield f'{file}: {len(lines)} lines, as {lines[0]}'


POINTS = [types, numbers, twins, loops, hand, facts, parameters, buffers]


def main():
    if len(sys.argv) < 2 or sys.argv[1] not in [p.__name__ for p in POINTS] + ['all']:
        sys.exit(__doc__)
    root = pathlib.Path(sys.argv[2] if len(sys.argv) > 2 else pathlib.Path(__file__).parent.parent)
    for point in POINTS:
        if sys.argv[1] in (point.__name__, 'all'):
            places = list(point(root))
            if sys.argv[1] != 'all':
                print('\n'.join(places))
            print(f'{point.__name__}: {len(places)}')


main()
