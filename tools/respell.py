#!/usr/bin/env python3
"""Bring the repository's own definitions and lemmas to snake case, as the library spells them.

    python3 tools/respell.py

Run once at the top, after the scripts of the toolchain. A name that a specs/ or proofs/ file declares, and that has a capital after a small letter
or a dash, is written in snake case wherever it stands as a whole word: in specs/, proofs/, clauses and must-fail edits, and between backticks in the
pages. Goals and steps that the toolchain names stay. Where a lemma and a definition would fall together, the lemma ends in _lem.
"""
import glob
import re

antt = sorted(glob.glob('crates/*/specs/**/*.antt', recursive=True) + glob.glob('crates/*/proofs/**/*.antt', recursive=True))
texts = {f: open(f, encoding='utf-8').read() for f in antt}

WORD = re.compile(r"[^\s(){}\[\].,;⌜⌝`]+")
DECLARED = re.compile(r"^[ \t]*(?:(?:abbrev|unfoldable|pub) )*([a-z][A-Za-z0-9_'-]*) :(?!:)( .*)?$", re.M)

# names that would fall together with another's
CHOSEN = {'fromAll': 'follows_from_all', 'in-range': 'in_range_lem', 'label-at': 'label_at_lem', 'number-of': 'number_of_lem', 'put-in': 'put_in_lem'}
IN_FILE = {('crates/refuted/proofs/Writing.antt', 'in_order'): 'in_order_lem', ('crates/promises/proofs/Plain.antt', 'held_by'): 'held_by_lem'}


def snake(name):
    return re.sub(r'([a-z0-9])([A-Z])', lambda m: m.group(1) + '_' + m.group(2).lower(), name).replace('-', '_')


own = set()
made = {}
for f in antt:
    made[f] = set()
    for m in DECLARED.finditer(texts[f]):
        if re.match(r'\s*tie\.', m.group(2) or '') or m.group(1) in ('invariant-loop', 'decreases-loop'):
            made[f].add(m.group(1))
        else:
            own.add(m.group(1))

names = {name: snake(name) for name in sorted(own) if snake(name) != name}
names.update({old: new for old, new in CHOSEN.items() if old in names})
for old, new in list(names.items()):
    if '-' in old and any(new == other and camel != old for camel, other in names.items()):
        names[old] = new + '_lem'
assert len(set(names.values())) == len(names), [n for n in names if list(names.values()).count(names[n]) > 1]


crates = {line.split(':')[0].split()[0] for line in open('crates.txt', encoding='utf-8') if ':' in line and not line.startswith('#')}


# what a file has from elsewhere keeps its name
def brought(text):
    found = set()
    for m in re.finditer(r'^[ \t]*(?:pub )?(?:ghost )?use ([^\s{]+)\.\{([^}]*)\}', text, re.M):
        parts = m.group(1).split('.')
        if not (parts[0] == 'Rattle' and len(parts) > 1 and parts[1] in crates):
            found.update(WORD.findall(m.group(2)))
    return found


def respell(text, path):
    stay = made.get(path, set()) | brought(text)

    def one(m):
        word = m.group(0)
        if word in stay:
            return word
        return IN_FILE.get((path, word)) or names.get(word, word)
    return WORD.sub(one, text)


def write(path, text):
    with open(path, encoding='utf-8') as f:
        old = f.read()
    if old != text:
        with open(path, 'w', encoding='utf-8') as f:
            f.write(text)


for f in antt:
    write(f, respell(texts[f], f))
for f in sorted(glob.glob('crates/*/src/**/*.rt', recursive=True)):
    text = open(f, encoding='utf-8').read()
    write(f, respell(text, f))
for f in sorted(glob.glob('crates/*/must-fail/*.edit')):
    write(f, respell(open(f, encoding='utf-8').read(), f))
for f in ['README.md'] + sorted(glob.glob('docs/*.md')):
    text = open(f, encoding='utf-8').read()
    write(f, re.sub(r'`[^`\n]+`', lambda m: respell(m.group(0), f), text))
print(len(names), 'names')
