#!/usr/bin/env python3
"""Lists places in crates/*/src that are written as an older Rattle wanted them.

    python3 tools/places.py [--list] [FOLDER]

Each rule is a way to find candidates by their text; docs/DESIGN-PASS.md tells what became of each.
"""
import collections
import glob
import os
import re
import sys

args = [a for a in sys.argv[1:] if a != '--list']
listing = '--list' in sys.argv
top = args[0] if args else '.'
files = sorted(glob.glob(os.path.join(top, 'crates/*/src/**/*.rt'), recursive=True))
texts = {f: open(f).read() for f in files}


def short(f):
    return os.path.relpath(f, top)


def code(text):
    """The text without comments and contract clauses."""
    text = re.sub(r"b?'(\\.|[^'\\\n])'", '0', text)
    text = re.sub(r'"(\\.|[^"\\])*"', lambda m: '"' + '\n' * m.group(0).count('\n') + '"', text)
    text = re.sub(r'//[^\n]*', '', text)
    return re.sub(r'\n\s*(requires|ensures|ghost)\b[^\n]*(\n {8,}[^\n]*)*(?=\n)', lambda m: '\n' * m.group(0).count('\n'), text)


codes = {f: code(t) for f, t in texts.items()}


def lines(pattern, only=None):
    found = []
    for f in files:
        if only and not re.search(only, f):
            continue
        for n, line in enumerate(codes[f].split('\n'), 1):
            if re.search(pattern, line):
                found.append((short(f), n, line.strip()))
    return found


def commented(pattern):
    return [(short(f), n, line.strip()) for f in files for n, line in enumerate(texts[f].split('\n'), 1) if re.search(pattern, line)]


def functions():
    for f in files:
        text = codes[f]
        for m in re.finditer(r'\bfn\s+(\w+)\s*(?:<[^{(]*?>)?\s*\(', text):
            i = m.end() - 1
            depth = 0
            while True:
                depth += {'(': 1, ')': -1}.get(text[i], 0)
                i += 1
                if depth == 0:
                    break
            params = text[m.end():i - 1]
            j = text.find('{', i)
            k = text.find(';', i)
            if j < 0 or 0 <= k < j:
                continue
            depth, e = 0, j
            while True:
                depth += {'{': 1, '}': -1}.get(text[e], 0)
                e += 1
                if depth == 0:
                    break
            yield short(f), text.count('\n', 0, m.start()) + 1, m.group(1), params, text[i:j], text[j:e]


def two_cases():
    """Enums of two cases of which one carries a value, or a struct with a flag beside a value."""
    found = []
    for f in files:
        for m in re.finditer(r'\benum (\w+)[^{]*\{([^}]*(?:\{[^}]*\}[^}]*)*)\}', codes[f]):
            cases = re.findall(r'^    (\w+)\s*(\(|\{|,)', m.group(2), re.M)
            if len(cases) == 2 and any(c[1] != ',' for c in cases):
                found.append((short(f), codes[f].count('\n', 0, m.start()) + 1, 'enum ' + m.group(1)))
        for m in re.finditer(r'\bstruct (\w+)[^{;]*\{([^}]*)\}', codes[f]):
            fields = re.findall(r'(\w+): ([^,]+),', m.group(2))
            kinds = [t.strip() for _, t in fields]
            if kinds.count('bool') == 1 and len(kinds) > 1:
                found.append((short(f), codes[f].count('\n', 0, m.start()) + 1, 'struct ' + m.group(1)))
    return found


def numbers():
    """Functions that take or answer a number that stands for a kind, a table or a refusal."""
    names = r'\b(tag|code|kind|table|mark|fault|change|first|word|operator|tested|bits)\b'
    found = []
    for f, n, name, params, result, _ in functions():
        if re.search(names + r': (u8|usize)', params) or (re.search(r'-> (u8|Option<u8>)', result) and re.search(r'^(tag|number|\w*_byte|head_bits|table)$', name)):
            found.append((f, n, 'fn ' + name))
    return found + lines(r'^\s+(Empty|Outside|TooLong)\(u8\)') + lines(r'^\s+(pub )?(table|number|code|kind): (u8|Option<u8>),')


def alike():
    """Functions that are the same once names, types and numbers are blanked."""
    words = {'fn', 'let', 'mut', 'if', 'else', 'match', 'for', 'in', 'while', 'return', 'ref', 'as', 'true', 'false', 'loop', 'break'}
    groups = collections.defaultdict(list)
    for f, n, name, params, result, body in functions():
        if f.startswith('crates/tests') or len(body) < 40:
            continue
        seen = {}
        tokens = re.findall(r'[A-Za-z_]\w*|0x[0-9a-f]+|\d+|\S', params + result + body)
        shape = []
        for t in tokens:
            if t in words:
                shape.append(t)
            elif re.match(r'[A-Za-z_]', t):
                shape.append('$%d' % seen.setdefault(t, len(seen)))
            elif t[0].isdigit():
                shape.append('#')
            elif t != ',':
                shape.append(t)
        groups[' '.join(shape)].append((f, n, 'fn ' + name))
    return [p for g in groups.values() if len(g) > 1 for p in g]


def loops():
    """Loops over a range of numbers or by a test, and numbers counted up or down by hand."""
    return lines(r'^\s*(for \w+ in [^{]*\.\.|while\b|loop\b)') + lines(r'[+-]= 1;')


def by_hand():
    """Equality, copying, conversion and printing by hand."""
    found = lines(r'^\s*(kind|name|first): \w+\.(kind|name|first),') + lines(r'% 256|/ 256|% 4\b|/ 65536|256 \*')
    for f, n, name, params, result, body in functions():
        arms = re.findall(r'=>\s*([^,{]+?),', body)
        flat = body.count('match') == 1 and arms and all(re.match(r'^(true|false|\d+|0x\w+|"[^"]*"|(Some|Ok|Err)\([\w:]*\)|None)$', a.strip()) for a in arms)
        if flat and not re.search(r'\bimpl\b', body):
            found.append((f, n, 'fn ' + name))
    return found


def together(least=3):
    """Functions that take three or more of the tables, their pools and their marks."""
    found = []
    for f, n, name, params, _, _ in functions():
        taken = re.findall(r'\b(exprs|stmts|decls|pools|marks|marks_exprs|marks_stmts|marks_decls):', params)
        if len(taken) >= least:
            found.append((f, n, 'fn ' + name))
    return found


def buffers():
    """Arrays with a count beside them, and arrays or slices that go in parallel."""
    found = []
    for f in files:
        for m in re.finditer(r'\bstruct (\w+)[^{;]*\{([^}]*)\}', codes[f]):
            if re.search(r': \[\w+; ', m.group(2)):
                found.append((short(f), codes[f].count('\n', 0, m.start()) + 1, 'struct ' + m.group(1)))
    return found + lines(r'^\s*(One|Two|Three|Four|Five)\(u8')


def steps():
    """Enums that say which step comes next."""
    return lines(r'enum (\w*Step|Turn|Order|Meeting|Making|Decided|Spelling)\b')


rules = [('1', 'two cases, or a flag beside a value', two_cases), ('1', 'numbers for kinds', numbers), ('1', 'NOWHERE for none', lambda: commented(r'NOWHERE if|or NOWHERE')),
         ('2', 'functions alike', alike), ('3', 'loops by numbers', loops), ('4', 'by hand', by_hand), ('5', 'parameters together', together), ('6', 'buffers', buffers), ('7', 'steps', steps)]
for point, what, rule in rules:
    found = rule()
    print('%s  %-36s %d' % (point, what, len(found)))
    if listing:
        for f, n, line in found:
            print('       %s:%d  %s' % (f, n, line[:110]))
