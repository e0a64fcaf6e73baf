#!/usr/bin/env python3
"""Counts the places in src/ that docs/DESIGN-PASS.md speaks of: tools/places.py [-l] [FOLDER]; -l lists them."""
import glob, re, sys
show = '-l' in sys.argv
root = ([a for a in sys.argv[1:] if a != '-l'] or ['.'])[0]
files = {p: open(p).read().split('\n') for p in sorted(glob.glob(root + '/crates/*/src/**/*.rt', recursive=True))}

# The code of a file: its lines without comments and without clauses.
def code(lines):
    return [(k + 1, l) for k, l in enumerate(lines) if not re.match(r'\s*(//|ghost use|requires|ensures)', l)]

def lines(pattern, within=lambda p: True):
    return [(p, k, l.strip()) for p in files if within(p) for k, l in code(files[p]) if re.search(pattern, l)]

# Signatures, with those that go over several lines put on one.
def signatures(pattern):
    found = []
    for p, ls in files.items():
        text = '\n'.join(ls)
        for m in re.finditer(r'^[ \t]*(?:pub )?(?:extern "C" )?fn \w+[^{;]*?\)(?: -> [^\n{]+)?(?=\n|\s*\{)', text, re.M):
            head = re.sub(r'\s+', ' ', m.group(0)).strip()
            if re.search(pattern, head):
                found.append((p, text.count('\n', 0, m.start()) + 1, head))
    return found

def twins():
    bodies = {}
    for p, ls in files.items():
        text = '\n'.join(ls)
        for m in re.finditer(r'^( *)(?:pub )?fn (\w+)(.*?)^\1\}', text, re.M | re.S):
            body = re.sub(r'^\s*(//.*|requires.*|ensures.*)\n', '', m.group(0), flags=re.M)
            body = re.sub(r'\b(u8|u16|u32|u64|usize|i16|i32|i64)\b', 'T', body)
            body = re.sub(r'fn \w+', 'fn F', body)
            body = re.sub(r'b?"[^"\n]*"|\b\d+\b', 'C', body)
            names = {}
            body = re.sub(r'\b[a-z_]\w*\b(?!::|\()', lambda x: names.setdefault(x.group(0), f'v{len(names)}'), body)
            bodies.setdefault(re.sub(r'\s+', ' ', body), []).append((p, text.count('\n', 0, m.start()) + 1, m.group(2)))
    return [x for same in bodies.values() if len(same) > 1 for x in same]

def repeated_facts():
    count = {}
    for p, ls in files.items():
        for k, l in enumerate(ls):
            m = re.match(r'\s*requires (?:\w+ )?\{ (.*) \}$', l)
            if m:
                count.setdefault(m.group(1), []).append((p, k + 1, m.group(1)))
    return [x for same in count.values() if len(same) > 2 for x in same]

points = [
    ('1 enums of the shape of Option or Result', lines(r'^\s+(Refused|Nothing|Absent|Failed)\((u32)?\),|^\s+Refused\(')),
    ('1 fields that refuse by a number or say whether a value counts', lines(r'^\s+(pub )?(refusal|fault|wrong|known|there|found|some): (u32|bool),$')),
    ('1 functions that give a number of a refusal, fault, kind or token', signatures(r'fn \w*(refusal|fault|kind|token|ending|lean_start|lean_card|check_pair|known_after|place)\w*[(<].*-> u32')),
    ('1 parameters that are a flag with a value beside it', signatures(r'lent: bool')),
    ('1 constants that number kinds, tokens or faults', lines(r'^\s*pub const [A-Z_]+: u32 = \d+;', lambda p: 'csv' in p)),
    ('2 functions alike but for types, constants and names', twins()),
    ('3 loops that count an index by hand', lines(r'^\s*(while|loop)\b')),
    ('4 conversions by hand', signatures(r'fn (wide|index|narrow)\(\w+: (u8|u16|u32)\) -> ')),
    ('4 equality, order, copying or printing by hand', signatures(r'fn (is_same|equal|equals|eq|cmp|compare|copy|clone)\(')),
    ('5 facts required by three functions or more', repeated_facts()),
    ('6 a buffer with a length beside it', lines(r'^\s+(pub )?(bytes|boats|lengths|shares): \[\w+; .*\],$')),
    ('6 parallel lists', signatures(r'sizes: &(mut )?\[u8\],? cells: &(mut )?\[u8\]')),
    ('7 a switch on which step to run', lines(r'\bfn\(|\bdyn\b')),
]
for name, found in points:
    print(f'{len(found):5} {name}')
    if show:
        for p, k, l in found:
            print(f'        {p[len(root):].lstrip("/")}:{k}: {l[:110]}')
