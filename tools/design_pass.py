#!/usr/bin/env python3
"""Counts the places of docs/DESIGN-PASS.md in crates/*/src: python3 tools/design_pass.py [--list] [FOLDER]

FOLDER is a checkout (this one, if none is given); with --list each place is printed, as crate: line or name."""
import collections
import glob
import os
import re
import sys

args = [a for a in sys.argv[1:] if a != '--list']
listed = '--list' in sys.argv
top = args[0] if args else os.path.join(os.path.dirname(os.path.abspath(__file__)), '..')
sources = {p.split('/crates/')[1].split('/')[0]: open(p).read() for p in sorted(glob.glob(top + '/crates/*/src/*.rt'))}


def lines(pattern):
    return [(c, l.strip()) for c, s in sources.items() for l in s.split('\n') if re.search(pattern, l) and not l.strip().startswith('//')]


def enums():
    """Enums with a variant that stands for a refusal or for nothing found, and those of two variants that share a field."""
    out = []
    for c, s in sources.items():
        for name, body in re.findall(r'enum (\w+) \{(.*?)\n\}', s, re.S):
            if re.search(r'^    (Refused|Nowhere|Passed|Wrong)\b', body, re.M) or re.search(r'^    Flipped\(', body, re.M):
                out.append((c, 'enum ' + name))
    return out


def functions():
    """Each function: its room, its name, its parameters, and the lines of its contract."""
    for c, s in sources.items():
        for m in re.finditer(r'\bfn (\w+)(?:<[^>]*>)?\(([^{}]*?)\)((?: -> [^\n]*?)?(?:\n\s+(?:requires|ensures)[^\n]*)*)(?:\n\s*| )\{', s):
            yield c, m.group(1), m.group(2), m.group(3)


def facts():
    """What three or more functions require."""
    who = collections.defaultdict(set)
    for c, f, _, contract in functions():
        for l in contract.split('\n'):
            if l.strip().startswith('requires') and '{' in l:
                for part in l[l.index('{') + 1:l.rindex('}')].split(' × '):
                    part = re.sub(r'\b(\w+)((?:\.\w+)*)\.(now|old|0)\b', r'_.\3', part.strip().strip('()'))
                    who[part].add(c + '::' + f)
    return [('', '%s: %s' % (fact, ', '.join(sorted(fs)))) for fact, fs in sorted(who.items()) if len(fs) >= 3]


def together():
    """Lent bytes, and how many of them are written; a file, and a count of its head."""
    out = []
    for c, f, params, _ in functions():
        if 'out: &mut [u8]' in params and 'at: ByteCount' in params:
            out.append((c, f + ': out, at'))
        if re.search(r'(ours|theirs|file): &\[u8\]', params) and re.search(r'(requirements: RequirementCount|runs: RunCount)', params):
            out.append((c, f + ': a file, its counts'))
    return out


HAND = r'^\s*(pub )?fn (least|wide|wide32|index_of|row_number|low_bit|one_if|pick|byte_of|copy_rows|signed)\('
POINTS = [
    ('1 own enums of the shape of Option or Result', enums),
    ('1 numbers for kinds: parameters', lambda: lines(r'\bkind: u(16|32)\b')),
    ('1 numbers for kinds: arms and tests', lambda: lines(r'^\s*(\d+(\.\.=(\d+|u16::MAX))?) => |\w\[0\] == \d|row\[\w\]\[0\] == \d|rows\[at\]\[0\] == \d')),
    ('1 numbers for kinds: rows written with them', lambda: lines(r'\[\d+, [a-z][^\]]*\]')),
    ('1 numbers for kinds: constants', lambda: lines(r'pub const \w+: u32 = \d;')),
    ('3 loops that count an index by hand', lambda: lines(r'^\s*while ')),
    ('4 conversions, minima and copies by hand', lambda: lines(HAND)),
    ('4 casts by `as`', lambda: lines(r' as (u8|u16|u32|u64|usize|i32)\b')),
    ('4 answers made for C by hand', lambda: lines(r'pub fn of_\w+\(')),
    ('5 facts that three or more functions require', facts),
    ('5, 6 parameters that travel together', together),
    ('6 arrays with a count beside them', lambda: lines(r'let count = .* / (Table::ROW_BYTES|ROW_BYTES|Form::WORD_BYTES);|\[\.\.(count|many)\]')),
    ('7 a switch on which step to run', lambda: lines(r'match (kind|operation) \{')),
]
for title, find in POINTS:
    found = find()
    print('%4d  %s' % (len(found), title))
    if listed:
        for c, place in found:
            print('        %s: %s' % (c, place) if c else '        ' + place)
answers = glob.glob(top + '/crates/*/proofs/**/Answers.antt', recursive=True)
invariants = glob.glob(top + '/crates/*/proofs/**/Invariants.antt', recursive=True)
proofs = glob.glob(top + '/crates/*/proofs/**/*.antt', recursive=True)
print('%4d  8 files of answers; %d of invariants; %d lines of proofs; %d functions' % (len(answers), len(invariants), sum(open(p).read().count('\n') for p in proofs), sum(1 for _ in functions())))
