#!/usr/bin/env python3
"""Prints, for docs/DESIGN-PASS.md, what a commit's public functions, definitions and laws say beside what they say now: each that is there in both and differs,
each that is gone, each that is new. The argument is the commit."""
import re, subprocess, sys

COMMIT = sys.argv[1]


def git(*words):
    return subprocess.run(['git', *words], capture_output=True, text=True, check=True).stdout


def files(commit, pattern):
    names = git('ls-tree', '-r', '--name-only', commit).split('\n') if commit else git('ls-files').split('\n')
    for name in names:
        if re.fullmatch(pattern, name):
            yield name, git('show', '%s:%s' % (commit, name)) if commit else open(name).read()


def functions(commit):
    """Each public function by its crate, type and name: its signature and clauses on lines of their own."""
    out = {}
    for name, text in files(commit, r'crates/\w+/src/.*\.rt'):
        crate, owner, lines, head = name.split('/')[1], '', text.split('\n'), None
        for line in lines:
            m = re.match(r'impl(?:<[^>]*>)? ([\w]+)', line)
            if m and ' for ' not in line:
                owner = m.group(1) + '::'
            if line == '}':
                owner = ''
            m = re.match(r' *pub (?:extern "C" )?fn (\w+)', line)
            if m and head is None:
                head, key = [], '%s::%s%s' % (crate, owner, m.group(1))
            if head is not None:
                if line.strip() == '{' or line.rstrip().endswith('{') and not re.match(r' *(ensures|requires)\b', line):
                    head.append(line.strip().rstrip('{').strip())
                    out[key] = re.sub(r'\( ', '(', re.sub(r',? \)', ')', re.sub(r'\s+', ' ', ' '.join(head)))).replace(' ensures', '\n    ensures').replace(' requires', '\n    requires').strip()
                    head = None
                else:
                    head.append(line.strip())
    return out


def definitions(commit):
    """Each public definition and law of specs/, and of the proofs that pages name: the whole of a definition, the statement of a law."""
    out = {}
    for name, text in files(commit, r'crates/\w+/(specs/.*|proofs/\w+)\.antt'):
        crate = name.split('/')[1]
        lines = text.split('\n')
        for i, line in enumerate(lines):
            m = re.match(r'( *)((?:abbrev |unfoldable )?)pub (?:record |data )?([^\s:({]+)', line)
            if not m or m.group(3) == 'mod':
                continue
            whole = bool(m.group(2)) or 'record ' in line or 'data ' in line
            got, j = [line.strip()], i + 1
            while j < len(lines) and lines[j].strip() and not lines[j].strip().startswith('--'):
                starts = re.match(re.escape(m.group(1)) + re.escape(m.group(3)) + r'(\s|$)', lines[j])
                if not whole and (starts or lines[j].strip().startswith('unfolding ')):
                    break
                got.append(lines[j].strip())
                j += 1
            out['%s %s' % (crate, m.group(3))] = ' '.join(x for x in got if not x.startswith('unfolding '))
    return out


def section(title, old, new):
    changed = [k for k in old if k in new and old[k] != new[k]]
    gone = [k for k in old if k not in new]
    fresh = [k for k in new if k not in old]
    print('### %s: %d changed, %d gone, %d new\n' % (title, len(changed), len(gone), len(fresh)))
    print('```')
    for k in sorted(changed):
        print('%s\n  - %s\n  + %s' % (k, old[k].replace('\n', '\n  - '), new[k].replace('\n', '\n  + ')))
    print('```\n')
    print('Gone: ' + ', '.join('`%s`' % k for k in sorted(gone)) + '.\n')
    print('New: ' + ', '.join('`%s`' % k for k in sorted(fresh)) + '.\n')


section('Public functions', functions(COMMIT), functions(''))
section('Definitions, and the statements of laws', definitions(COMMIT), definitions(''))
