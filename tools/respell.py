#!/usr/bin/env python3
"""Brings the repository's own definitions and lemmas to today's spelling, after port.py: words in snake case, types and facts in camel case.

Use, once, at the top of the checkout: python3 tools/respell.py
A name is our own where an .antt file of crates/ declares it. Names that a file imports from the library keep their spelling there, and so do
strings, functions of src/ and words of plain English. The crate csv becomes csv_bytes, since the library has a crate of the old name.
"""
import collections
import glob
import os
import re
import sys

CRATES = {'csv': 'csv_bytes'}
# a name that is no word of snake or camel case, and what it becomes
SPECIAL = {'leQ': 'le_q', 'ltQ': 'lt_q', 'fleet-P': 'fleet_p', 'getD-shown': 'get_or_shown', 'goodO-of': 'good_o_of'}
DECLARED = re.compile(r'^\s*((?:abbrev|unfoldable|unfold|opaque|private|instance|pub|infix\w* \d+)\s+)*((?:record|data)\s+)?([^\s(){}:]+)\s*(?:[({].*)?:(?!=)')
TOKEN = re.compile(r"[A-Za-z_Α-Ωα-ωκ0-9'ℕℤℚ₀-₉]+(?:-[A-Za-z_Α-Ωα-ωκ0-9'ℕℤℚ₀-₉]+)*")
IMPORT = re.compile(r'^\s*(?:pub )?(?:ghost )?use ([^\s;{]+?)(?:\.\{([^}]*)\})?(?: as (\S+?))?;?\s*$')


def antt_files():
    return sorted(glob.glob('crates/*/specs/**/*.antt', recursive=True) + glob.glob('crates/*/proofs/**/*.antt', recursive=True))


def own_names():
    """The names that our files declare, and whether each is a type or a fact; answers of generated goals are left out."""
    names = collections.defaultdict(set)
    for path in antt_files():
        for line in open(path):
            found = DECLARED.match(line)
            if found and found.group(3) not in ('use', 'pub', 'mod') and not re.search(r':.*\b[tT]ie\.', line):
                is_type = bool(found.group(2)) or bool(re.search(r'Type 0\s*$', line))
                names[found.group(3)].add(is_type)
    return names


def respelled(name, is_type):
    if name in SPECIAL:
        return SPECIAL[name]
    if '-' not in name or not TOKEN.fullmatch(name):
        return name
    parts = name.split('-')
    if all(p.upper() == p for p in parts) and parts[0][0].isalpha():
        return '_'.join(parts)
    if name[0].isupper() and is_type:
        return ''.join(p[0].upper() + p[1:] for p in parts)
    return '_'.join(parts)


def main():
    names = own_names()
    # names that start like a type of ours keep that type's capital letters
    turned = {n: respelled(n, True in k) for n, k in names.items()}
    turned = {n: t for n, t in turned.items() if n != t}
    back = collections.defaultdict(set)
    for n, t in turned.items():
        back[t].add(n)
    for t, ns in sorted(back.items()):
        if len(ns) > 1 or t in names:
            print('falls together:', t, sorted(ns), 'declared too' if t in names else '')

    def tokens(text, kept):
        def turn(found):
            word, start = found.group(0), found.start()
            if word in turned and word not in kept:
                before = text[max(0, start - 60):start]
                qualifier = re.search(r"([A-Za-z0-9_-]+)\.$", before)
                if qualifier and qualifier.group(1) in ('tie', 'lts', 'goal', 'Tie', 'Lts'):
                    return word
                return turned[word]
            return word
        return TOKEN.sub(turn, text)

    def in_comment(text):
        def turn(found):
            return '`' + turned.get(found.group(1), found.group(1)) + '`'
        text = re.sub(r'`([^`\s]+)`', turn, text)
        def upper(found):
            word = found.group(0)
            return turned[word] if word in turned and word[0].isupper() and word != 'Frank-Wolfe' else word
        return TOKEN.sub(upper, text)

    def crate_paths(text):
        for old, new in CRATES.items():
            text = re.sub(r'\bRattle\.%s\.' % old, 'Rattle.%s.' % new, text)
            text = re.sub(r'\b%s::' % old, '%s::' % new, text)
        return text

    def lines_of(path, mark):
        text = open(path).read()
        kept = set()
        for line in text.split('\n'):
            found = IMPORT.match(line)
            if found and found.group(2) and not found.group(1).startswith('Rattle.'):
                kept |= {w.strip().split(' ')[0] for w in found.group(2).split(',')}
            elif found and found.group(2) and re.match(r'Rattle\.(std|core|io|os|libc)', found.group(1)):
                kept |= {w.strip().split(' ')[0] for w in found.group(2).split(',')}
        out = []
        words_before = set(TOKEN.findall(text))
        for line in text.split('\n'):
            code, comment = line, ''
            at = line.find(mark + ' ')
            if at >= 0 and line[:at].count('"') % 2 == 0:
                code, comment = line[:at], line[at:]
            pieces = re.split(r'(b?"(?:[^"\\]|\\.)*")', code)
            pieces = [p if i % 2 else tokens(p, kept) for i, p in enumerate(pieces)]
            out.append(crate_paths(''.join(pieces) + in_comment(comment)))
        new = '\n'.join(out)
        for w in sorted(words_before):
            if w in turned and w not in kept and turned[w] in words_before:
                print('meets another:', path, w, turned[w])
        if new != text:
            open(path, 'w').write(new)

    for path in antt_files():
        lines_of(path, '--')
    for path in sorted(glob.glob('crates/*/src/*.rt')):
        lines_of(path, '//')
    for path in sorted(glob.glob('crates/*/must-fail/*.edit') + glob.glob('crates/*/edits/*.edit')):
        text = open(path).read()
        out = []
        for line in text.split('\n'):
            if line.startswith(('old: ', 'new: ')):
                pieces = re.split(r'(b?"(?:[^"\\]|\\.)*")', line)
                line = ''.join(p if i % 2 else tokens(p, set()) for i, p in enumerate(pieces))
            out.append(crate_paths(line) if line.startswith(('old: ', 'new: ')) else line)
        new = '\n'.join(out)
        if new != text:
            open(path, 'w').write(new)
    for path in sorted(glob.glob('docs/*.md')) + ['README.md', 'CONTRIBUTING.md']:
        text = open(path).read()
        new = re.sub(r'`([^`\n]+)`', lambda f: '`' + tokens(f.group(1), set()) + '`', text)
        if new != text:
            open(path, 'w').write(new)

    text = open('crates.txt').read()
    for old, new in CRATES.items():
        text = re.sub(r'(?m)(?<![\w])%s(?![\w])' % old, new, re.sub(r'(?m)^%s:' % old, new + ':', text))
        if os.path.isdir('crates/' + old):
            os.rename('crates/' + old, 'crates/' + new)
    open('crates.txt', 'w').write(text)
    return 0


if __name__ == '__main__':
    sys.exit(main())
