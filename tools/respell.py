#!/usr/bin/env python3
"""Brings the repository's own ghost names to the spelling that Rattle's guides ask for, once, after port.py.

    tools/respell.py [FOLDER]

Words in snake case: busCount becomes bus_count, acPf-from-parts becomes ac_pf-from-parts. Types and modules keep their
capitals. A dash stays only in the name of a lemma: a definition, a constructor or a field gets an underscore. A lemma that
would have its function's name ends in _lem. A capital that stands alone in a name is a word, as in behind_g. Functions, fields
and other names of src/ keep theirs, and so do strings and comments that name no definition.
"""
import collections
import glob
import re
import sys

root = sys.argv[1] if len(sys.argv) > 1 else '.'
antt = sorted(glob.glob(root + '/crates/*/specs/**/*.antt', recursive=True) + glob.glob(root + '/crates/*/proofs/**/*.antt', recursive=True))
rt = sorted(glob.glob(root + '/crates/*/src/*.rt'))
token = re.compile(r"[^\s(){}\[\],;.\"=:λ→×⌜⌝`/]+")
signature = re.compile(r"^( *)((?:unfoldable |abbrev |pattern |pub |data |record )*)([^\s:(){}.,]+)((?: [({][^:]*:.*[)}])*) :( .*|)$")


def is_camel(word):
    return bool(re.match(r'[a-z]', word) and re.search(r'[A-Z]', word))


def snake(word):
    return re.sub(r'[A-Z]', lambda m: '_' + m.group(0).lower(), word)


texts = {f: open(f, encoding='utf8').read() for f in antt + rt}
defined = collections.defaultdict(list)  # name -> (file, marks, is a field or constructor)
for f in antt:
    block = None  # the indent of a record or data whose fields are being read
    for line in texts[f].split('\n'):
        if line.strip().startswith('--') or not line.strip():
            continue
        indent = len(line) - len(line.lstrip())
        if block is not None and indent <= block:
            block = None
        m = signature.match(line)
        if m:
            marks = m.group(2).split()
            defined[m.group(3)].append((f, marks, block is not None))
            if 'data' in marks or 'record' in marks:
                block = indent

source = set()
for f in rt:
    code = re.sub(r'//.*|"[^"\n]*"|ghost use [^;]*;', '', texts[f])
    source |= set(re.findall(r"[A-Za-z_][A-Za-z_0-9]*", code))

words = set()
for f in antt:
    words |= set(token.findall(texts[f]))

new = {}
functions = set()  # the new names of what was in camel case
for w in words:
    parts = w.split('-')
    if any(is_camel(p) for p in parts):
        new[w] = '-'.join(snake(p) if is_camel(p) else p for p in parts)
        if '-' not in w and w in defined:
            functions.add(new[w])

for name, places in defined.items():
    if is_camel(name.split('-')[0]) and '-' not in name:
        continue
    now = new.get(name, name)
    if '-' in now and re.search(r'(^|-)[A-Z](-|$)', now):
        now = '-'.join(p.lower() if re.fullmatch('[A-Z]', p) else p for p in now.split('-'))
    plain = now.replace('-', '_')
    is_lemma = all(not field and not {'abbrev', 'unfoldable', 'data', 'record'} & set(marks) for f, marks, field in places)
    outside = any('/Proof.antt' not in f for f, marks, field in places)
    if is_lemma and outside and plain in functions:
        now = plain + '_lem'
    elif '-' in now and re.match(r'[a-z]', now) and any(field or {'abbrev', 'unfoldable'} & set(marks) for f, marks, field in places if '/Proof.antt' not in f):
        now = plain
    if now != name:
        new[name] = now

# a field of a struct, which the older Rattle wrote with a dash
for w in words:
    if re.search(r'[a-z]-[a-z]', w) and w not in defined and w.replace('-', '_') in source:
        new[w] = w.replace('-', '_')

taken = collections.defaultdict(set)
for a, b in new.items():
    taken[b].add(a)
for b, olds in sorted(taken.items()):
    olds |= {b} if b in defined and b not in new else set()
    if len(olds) > 1:
        print('falls together:', b, sorted(olds))

for f in antt:
    text = texts[f]
    out = token.sub(lambda m: new.get(m.group(0), m.group(0)), text)
    if out != text:
        open(f, 'w', encoding='utf8').write(out)
ghost = {a: b for a, b in new.items() if re.search(r'[a-z]-[a-z]|[a-z][A-Z]', a)}
for f in rt:
    lines = []
    for line in texts[f].split('\n'):
        parts = re.split(r'("[^"]*")', line)
        parts[::2] = [token.sub(lambda m: ghost.get(m.group(0), m.group(0)), p) for p in parts[::2]]
        lines.append(''.join(parts))
    out = '\n'.join(lines).replace('«', '').replace('»', '') if 'ghost' in texts[f] else '\n'.join(lines)
    if out != texts[f]:
        open(f, 'w', encoding='utf8').write(out)
print('respelled:', len(new), 'names')
if len(sys.argv) > 2:
    for a, b in sorted(new.items()):
        print(a, b)
