#!/usr/bin/env python3
"""Counts, over src/ and proofs/, the places that docs/DESIGN-PASS.md speaks of. The argument is the folder of a checkout, this one if there is none; with
--list each place is printed too."""
import glob, os, re, sys

LISTED = '--list' in sys.argv
FOLDER = ([x for x in sys.argv[1:] if not x.startswith('--')] or [os.path.join(os.path.dirname(os.path.abspath(__file__)), '..')])[0]
SOURCES = sorted(glob.glob(os.path.join(FOLDER, 'crates/*/src/*.rt')))


def text(path):
    return open(path).read()


def place(path, source, at):
    return '%s:%d' % (os.path.relpath(path, FOLDER), source.count('\n', 0, at) + 1)


def found(pattern, flags=re.M):
    """Where a pattern stands, and what it names."""
    out = []
    for p in SOURCES:
        s = text(p)
        out += [(place(p, s, m.start()), m.group(m.lastindex or 0).strip()) for m in re.finditer(pattern, s, flags)]
    return out


def functions():
    """Each function: its place, name, parameters and body."""
    for p in SOURCES:
        s = text(p)
        for m in re.finditer(r'^( *)(?:pub )?(?:final )?(?:extern "C" )?fn (\w+)(?:<[^>(]*>)?\(([^)]*)\)[^{;]*', s, re.M):
            body = re.compile(r'^%s\{\n(.*?)^%s\}' % (m.group(1), m.group(1)), re.M | re.S).search(s, m.end() - 1 if s[m.end() - 1] == '\n' else m.end())
            yield place(p, s, m.start()), m.group(2), [x for x in m.group(3).split(',') if x.strip()], body.group(1) if body else ''


def twins():
    """Functions whose bodies are one text but for names, numbers and literals, of at least three lines."""
    seen = {}
    for where, name, _, body in functions():
        shape = re.sub(r'\b[A-Za-z_]\w*\b', lambda m: m.group(0) if m.group(0) in WORDS else 'x', re.sub(r'//.*', '', body))
        shape = re.sub(r'[0-9][0-9_.xa-fA-F]*|b?\'[^\']*\'|b?"[^"]*"', '0', shape)
        shape = re.sub(r'\s+', ' ', shape).strip()
        if len(body.strip().split('\n')) >= 3:
            seen.setdefault(shape, []).append((where, name))
    return [(v[0][0], ', '.join(n for _, n in v)) for v in seen.values() if len(v) > 1]


WORDS = {'if', 'else', 'match', 'for', 'in', 'while', 'loop', 'return', 'let', 'mut', 'true', 'false', 'self', 'as'}


def parallel():
    """Structs with two or more arrays of one length."""
    out = []
    for p in SOURCES:
        s = text(p)
        for m in re.finditer(r'struct (\w+)(?:<[^>]*>)? \{(.*?)\n\}', s, re.S):
            sizes = re.findall(r': \[[^;\]]*; (\w+)\]', m.group(2))
            if any(sizes.count(n) > 1 for n in sizes):
                out.append((place(p, s, m.start()), m.group(1)))
    return out


COUNTS = [
    ('1 enums (those of the shape of Option or Result are told in the page)', lambda: found(r'^(?:pub )?enum (\w+)')),
    ('1 a flag in a struct', lambda: found(r'^    (?:pub )?(\w+): bool,$')),
    ('1 functions that answer a code', lambda: found(r'^ *(?:pub )?fn (next|agreement|number|tell|sum_up)\b.*')),
    ('2 functions that are one text but for names and numbers', twins),
    ('3 while', lambda: found(r'^ *(while .*) \{$')),
    ('3 loop', lambda: found(r'^ *(loop) \{$')),
    ('3 counted by hand', lambda: found(r'^ *(\w+ (?:\+=|-=) 1;|\w+ = \w+ [+-] 1;)$')),
    ('3 for over a range', lambda: found(r'^ *(for .* in .*\.\..*) \{$')),
    ('4 comparison, conversion and printing by a function', lambda: found(
        r'^ *(?:pub )?fn (is_angle|is_move|is_real|is_number|real_in|number_in|negated|solved|same|equal|letter|letter_of|flag_kind|number|place|row_refusal|bus_refusal|fault_refusal|refused|zero_value|i_value|sum|difference|negation|product|quotient|divided|scaled)\(')),
    ('5 functions of seven parameters or more', lambda: [(w, '%s (%d)' % (n, len(ps))) for w, n, ps, _ in functions() if len(ps) > 6]),
    ('5 functions that take a text and two places of it', lambda: [(w, n) for w, n, ps, _ in functions() if len(ps) > 2 and re.search(r'a: usize.*e: usize', ','.join(ps), re.S)]),
    ('6 structs of parallel arrays', parallel),
    ('7 a function pointer, dyn or a table of functions', lambda: found(r'(\bdyn \w+|: fn\()')),
]


def main():
    for what, count in COUNTS:
        places = count()
        print('%4d  %s' % (len(places), what))
        if LISTED:
            for where, name in places:
                print('        %s %s' % (where, name))
    answers = lines = 0
    for p in glob.glob(os.path.join(FOLDER, 'crates/*/proofs/**/*.antt'), recursive=True):
        s = text(p)
        lines += s.count('\n')
        answers += len(re.findall(r' : goal\.', s)) if p.endswith('Answers.antt') else 0
    print('%4d  8 answers' % answers)
    print('%4d  8 lines of proofs' % lines)


if __name__ == '__main__':
    main()
