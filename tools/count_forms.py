#!/usr/bin/env python3
"""tools/count_forms.py [-l] [FOLDER]: how often the older forms of docs/DESIGN-PASS.md stand in crates/*/src, by point; -l prints each place."""
import pathlib
import re
import sys
from collections import defaultdict

show = '-l' in sys.argv
top = pathlib.Path(next((a for a in sys.argv[1:] if a != '-l'), '.'))
files = sorted(top.glob('crates/*/src/*.rt'))
places = defaultdict(list)


def bare(text):
    """The text without comments, strings and ghost lines, line by line."""
    out, inside = [], False
    for line in text.split('\n'):
        line = re.sub(r'b?"(\\.|[^"\\])*"', '""', line)
        line = re.sub(r'//.*', '', line)
        if inside or re.match(r'\s*ghost use ', line):
            inside = not line.rstrip().endswith(';')
            line = ''
        out.append(line)
    return out


def functions(lines):
    """(first line, parameters, result, clauses, body) of each function."""
    text = '\n'.join(lines)
    for m in re.finditer(r'^ *(?:pub(?:\(crate\))? )?(?:const )?(?:extern "" )?fn (\w+)(?:<[^(]*>)?\(', text, re.M):
        at, depth = m.end(), 1
        while depth:
            depth += {'(': 1, ')': -1}.get(text[at], 0)
            at += 1
        rest = text[at:]
        line = rest.split('\n', 1)[0]
        if line.rstrip().endswith('{'):
            open_at = at + line.rindex('{')
        else:
            start = re.search(r'\n *\{\n', rest)
            if not start or re.search(r'[;}] *;?\n *(\n|fn|\})', rest[:start.start()]) or line.rstrip().endswith(';'):
                continue
            open_at = at + start.end() - 2
        end, depth = open_at + 1, 1
        while depth:
            depth += {'{': 1, '}': -1}.get(text[end], 0)
            end += 1
        yield (text[:m.start()].count('\n') + 1, m.group(1), text[m.end():at - 1], text[at:open_at], text[open_at:end])


def shape(body):
    tokens = re.findall(r'\w+|[^\w\s]', body)
    keep = {'for', 'in', 'if', 'else', 'while', 'return', 'let', 'mut', 'match', 'true', 'false', 'as'}
    return ' '.join(t if t in keep or not re.match(r'\w', t) else '_' for t in tokens)


shapes, clauses, lists = defaultdict(list), defaultdict(list), defaultdict(list)
for f in files:
    lines = bare(f.read_text())
    name = str(f.relative_to(top))
    note = lambda point, n, what: places[point].append(f'{name}:{n}: {what.strip()}')
    for n, line in enumerate(lines, 1):
        if re.search(r'^\s*(pub )?\w+: bool,$', line):
            note('1 flags in types', n, line)
        if re.search(r'^\s*(pub )?number: u8,$', line):
            note('1 refusals as numbers', n, line)
        if re.search(r'^pub const \w+: u8 = \d+;', line):
            note('1 kinds as numbers', n, line)
        if re.search(r'\bwhile\b|\bloop \{', line):
            note('3 while loops', n, line)
        if re.search(r'\bfor \w+ in [^{]*\.\.', line):
            note('3 loops over numbers', n, line)
        if re.search(r'\.0 (<|<=|==|!=) [\w.]+\.0\b', line):
            note('4 comparisons of the number inside', n, line)
    for n, fn, params, sign, body in functions(lines):
        if re.search(r'-> u8\b', sign) and not re.search(r'_at$|_of$|digit', fn):
            note('1 answers as numbers', n, fn)
        if re.search(r'&mut \[u8\]', params) and re.search(r'-> usize\b', sign):
            note('6 a length beside its buffer', n, fn)
        if re.search(r'\b\w+: bool\b', params):
            note('7 functions that take a switch', n, fn)
        key = shape(body)
        if len(key.split()) >= 16:
            shapes[key].append(f'{name}:{n}: {fn}')
        for c in re.findall(r'requires(?: \w+)? \{ (.*?) \}\n', sign + '\n'):
            clauses[(f.parent.parent.name, c)].append(f'{name}:{n}: {fn}: {c}')
        names = tuple(p.strip() for p in params.split(',') if ':' in p)
        for k in range(3, len(names) + 1):
            for i in range(len(names) - k + 1):
                lists[(f.parent.parent.name, names[i:i + k])].append(f'{name}:{n}: {fn}')
for key, found in shapes.items():
    if len(found) > 1:
        places['2 functions of one shape'] += found
for key, found in clauses.items():
    if len(found) > 2:
        places['5 a clause in three functions'] += found
seen = set()
for (crate, names), found in sorted(lists.items(), key=lambda x: (-len(x[0][1]), x[0])):
    fresh = [x for x in found if x not in seen]
    if len(found) > 2 and fresh:
        places['5 parameters that travel together'] += [f'{x}: {", ".join(names)}' for x in fresh]
        seen.update(found)
for point in sorted(places):
    print(f'{len(places[point]):4} {point}')
    if show:
        for p in places[point]:
            print('       ' + p)
