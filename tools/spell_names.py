#!/usr/bin/env python3
"""Spells this repository's own definitions and lemmas as the library spells its: in snake case, types and modules in camel case.

usage: tools/spell_names.py            at the top of the repository, once, after port.py

A name is turned part by part, the parts being what its dashes join: fifoBytes to fifo_bytes, readAt-keeps to read_at-keeps. A part that begins with a
capital is a type's, a module's or a variant's, and stays. Names of Rust code (src/), strings and exported C names have no such capital, and stay.
A lemma that would then have the name of the definition that it is about gets an ending (CLASHES).
"""
import os
import re
import sys

# where a lemma, of the same letters as a definition, already stands in snake case: the file, or what imports it, and its new name
CLASHES = [
    ('goes_on', 'goes_on-seen', ['line/specs/Seen.antt', 'device/specs/Rounds.antt']),
    ('in_frame', 'in_frame-allows', ['device/specs/Allows.antt']),
    ('in_frame', 'in_frame-cases', ['model/specs/Laws/Cases.antt']),
    ('pass_on', 'pass_on-cases', ['model/specs/Laws/Cases.antt']),
    ('has_left', 'has_left-whole', ['model/specs/ShutsOut/Unsettled.antt']),
    ('no_byte', 'no_byte-shaped', ['theorems/specs/TwoRuns/Shapes.antt']),
    ('of_number', 'of_number-number', ['model/specs/Refuses/Exactly.antt']),
    ('on_call', 'on_call-ind', ['trace/specs/Lines.antt']),
    ('read_as', 'read_as-told', ['session/specs/Lines.antt']),
    ('runs_of', 'runs_of-carried', ['device/specs/Carries.antt']),
    ('written_count', 'written_count-is', ['theorems/specs/Orders/OneNumbering.antt']),
]
WORD = re.compile(r"(?<![\w'₀-₉\"\\])[a-z][\w'₀-₉-]*")
STRING = re.compile(r'"(?:[^"\\\n]|\\.)*"')


def spelled(name):
    parts = name.split('-')
    return '-'.join(re.sub(r"(?<=[a-z0-9'])[A-Z]+", lambda m: '_' + m[0].lower(), p) if p[:1].islower() else p for p in parts)


def outside_strings(line, change):
    out, at = [], 0
    for s in STRING.finditer(line):
        out += [change(line[at:s.start()]), s[0]]
        at = s.end()
    return ''.join(out) + change(line[at:])


def files(root, endings):
    for folder, dirs, names in os.walk(root):
        dirs[:] = sorted(d for d in dirs if d not in ('out', '.git', 'target'))
        for n in sorted(names):
            if n.endswith(endings):
                yield os.path.join(folder, n)


def main():
    if not os.path.isdir('crates'):
        sys.exit('spell_names: no crates/ here')
    texts = {p: open(p, encoding='utf-8').read() for p in files('crates', ('.antt', '.rt', '.edit'))}
    own = {w for p, t in texts.items() for w in WORD.findall(t) if spelled(w) != w}
    for old, new, where in CLASHES:
        word = re.compile(rf"(?<![\w'.-]){re.escape(old)}(?![\w'-])")
        for p in where:
            p = 'crates/' + p
            if p in texts:
                texts[p] = '\n'.join(l if l.lstrip().startswith('--') else word.sub(new, l) for l in texts[p].split('\n'))
    turn = lambda text: WORD.sub(lambda m: spelled(m[0]) if m[0] in own else m[0], text)
    for p, t in texts.items():
        t = '\n'.join(outside_strings(l, turn) if p.endswith('.rt') else turn(l) for l in t.split('\n'))
        if t != open(p, encoding='utf-8').read():
            open(p, 'w', encoding='utf-8').write(t)
    # pages and tests that name definitions, some of which port.py turned
    known = {spelled(w) for t in texts.values() for w in WORD.findall(t)}
    turn = lambda text: WORD.sub(lambda m: spelled(m[0]) if spelled(m[0]) in known else m[0], text)
    pages = ['README.md', *files('docs', ('.md',)), *files('rust', ('.md',)), *files('compare', ('.md',))]
    pages += [os.path.join('tests', n) for n in sorted(os.listdir('tests')) if os.path.isfile(os.path.join('tests', n))]
    for p in pages:
        old = open(p, encoding='utf-8').read()
        new = turn(old)
        if new != old:
            open(p, 'w', encoding='utf-8').write(new)
            print('turned', p)
    print(f'spell_names: {len(own)} names')


main()
