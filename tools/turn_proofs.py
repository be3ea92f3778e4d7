#!/usr/bin/env python3
"""Turns a crate's proofs by hand of the older Rattle, proofs/F/Proof.antt, into proofs/F/Invariants.antt and Answers.antt.

usage: tools/turn_proofs.py CRATE NAMES     in the top folder; NAMES is names.json of `rt check --generated DIR --old-names` in the crate

A need of the old proof becomes the goal of today's name, and a step that it cites gets today's name. What today's check finds by itself (a need whose
whole answer was a search or tt) is left out. The old file goes: git keeps it.
"""
import json
import os
import re
import sys

W = r"[\w'₀-₉+:-]+"


def key(n):
    return re.sub(r"[-_]", "", n).lower()


def blocks(text):
    """Top-level declarations: (comments, lines)."""
    out, now = [], []
    for line in text.split('\n'):
        if line.strip() == '':
            if now:
                out.append(now)
                now = []
        else:
            now.append(line)
    if now:
        out.append(now)
    # a block may hold several declarations only through use lines; clauses with blank lines do not occur
    return out


def as_record(rhs, fields):
    """A tuple that ends a term, as a record of these fields."""
    end = rhs.rstrip()
    if not end.endswith(')'):
        return rhs
    depth, at, commas, opened = 0, 0, {}, []
    pairs = {')': '(', ']': '[', '}': '{'}
    for i, ch in enumerate(end):
        if ch in '([{':
            opened.append(i)
            commas[i] = []
        elif ch in ')]}':
            start = opened.pop()
            if i == len(end) - 1:
                cut = [start, *[k for k in commas[start] if end[k + 1:i].strip()], i]
                parts = [end[a + 1:b] for a, b in zip(cut, cut[1:])]
                parts[-1] = parts[-1].rstrip().rstrip(',')
                if len(parts) != len(fields):
                    return rhs
                return end[:start] + 'record {' + ';'.join(f' {f} = {p.strip()}' for f, p in zip(fields, parts)) + ' }'
        elif ch == ',' and opened:
            commas[opened[-1]].append(i)
    return rhs


def short(body):
    return re.sub(r'\s+', ' ', body).strip()


def main(crate, names):
    names = json.load(open(names))
    root = f'crates/{crate}/proofs'
    for folder, _, fs in sorted(os.walk(root)):
        if 'Proof.antt' not in fs:
            continue
        rel = os.path.relpath(folder, root)
        path = rel.replace('/', '.')
        of = names.get(f'Rattle-{crate}-proofs.{path}.Lts')
        if not of:
            print('left: no names for', folder)
            continue
        turn(crate, folder, path, of)


def turn(crate, folder, path, of):
    text = open(f'{folder}/Proof.antt').read()
    needs = {key(a): b for a, b in of['needs']}
    steps = {}
    for place in of['places']:
        a, b = place[2]
        if a:
            steps.setdefault(key(a), b)
    loops = {key(a): (a, b, vs) for (a, b), vs in of['loops']}
    changed = of['changed']
    head, uses, invs, answers, helpers = [], [], [], [], []
    for lines in blocks(text):
        while lines and lines[0].startswith(('use ', '--')) and any(l.startswith('use ') for l in lines):
            l = lines.pop(0)
            (uses if l.startswith('use ') else head).append(l)
        if not lines:
            continue
        comments = []
        while lines and lines[0].startswith('--'):
            comments.append(lines.pop(0))
        if not lines:
            head += comments
            continue
        body = '\n'.join(lines)
        if 'tie.close' in body or re.search(r': \{M : Type 1\} → statement', body):
            continue
        m = re.match(r"(?:abbrev )?(?:pub )?(" + W + r")(?: \{[^}]*\})? : (.*)", lines[0])
        name = m[1] if m else None
        sig = m[2] if m else ''
        t = re.match(r"tie\.(invariant|decreases)-(" + W + r")$", sig.strip())
        n = re.match(r"tie\.Need-(" + W + r")", sig.strip())
        if t:
            invs.append((comments, name, t[1], t[2], lines))
        elif n:
            answers.append((comments, name, n[1], lines))
        else:
            helpers.append((comments, lines))
    uses = [u for u in uses if not re.search(r"Statement\.\{statement\}|\.Tie as tie$|Lts\.\{|borrow\.Author\.Rules\.\{rules\}", u)] + \
        [u for u in uses if 'Rules.{rules}' in u and 'rules' in ''.join('\n'.join(a[3]) for a in answers)]

    places = {p[0]: (p[1], p[2][0], p[2][1], arm) for p, arm in zip(of['places'], of['arms'] + [None] * len(of['places']))}
    clause_of = {p[0]: c['fields'] for p, c in zip(of['places'], of['clauses']) if c and c.get('fields')}
    pre_fields = of['pre'].get('fields') if isinstance(of.get('pre'), dict) else of.get('pre')
    at = {new: place[0] for (old, new), place in zip(of['needs'], of['asked_at'][-len(of['needs']):])} if of['needs'] else {}

    def steps_of(s, need):
        # a name given to a place on the way, as let past = c.before.before in
        names = {'c': 0}
        for m in re.finditer(r"\blet (" + W + r")(?: : [^=]*)? = (" + W + r")((?:\.before(?![\w'-]))+)(?= in\b)", s):
            if m[2] in names:
                names[m[1]] = names[m[2]] + m[3].count('.before')

        def chain(m):
            place, rest = at.get(need), m[3]
            for _ in range(names[m[1]] + m[2].count('.before')):
                place = places[place][0] if place in places else None
            fields = re.findall(r"\.(" + W + r")", rest)
            if not fields:
                return 'c'
            if fields[0] == 'pre':
                fields[0] = 'requires'
            if fields[0] == 'requires' and of.get('pre') and len(fields) > 1 and fields[1].isdigit():
                return 'c.requires.' + '.'.join([pre_fields[int(fields[1])] if pre_fields and int(fields[1]) < len(pre_fields) else fields[1], *fields[2:]])
            if len(fields) > 2 and fields[1] == 'ensures' and fields[2].isdigit():
                q = place if place in places and key(places[place][1]) == key(fields[0]) else \
                    next((p for p in places if key(places[p][1]) == key(fields[0]) and clause_of.get(p)), place)
                named = clause_of.get(q)
                if named and int(fields[2]) < len(named):
                    fields[2] = named[int(fields[2])]
            if place in places:
                up, old, new, arm = places[place]
                if arm:
                    for field, step, way in arm[2]:
                        if key(step) == key(fields[0]) and [key(w) for w in fields[1:1 + len(way)]] == [key(w) for w in way] and (way or field.endswith('-own')):
                            if way or fields[1:]:
                                return ''.join(['c.', arm[0], '.', field, *['.' + f for f in fields[1 + len(way):]]])
                if key(old) == key(fields[0]) and old:
                    return 'c.' + new + ''.join('.' + f for f in fields[1:])
            b = steps.get(key(fields[0]))
            return 'c.' + (b or fields[0]) + ''.join('.' + f for f in fields[1:])
        def done(t):
            # clauses of a call whose facts have a name, as let put = c.append.ensures in
            named = {places[p][2]: fs for p, fs in clause_of.items()}
            for m in re.finditer(r"\blet (" + W + r") = c\.(" + W + r")\.ensures in\b", t):
                fs = named.get(m[2])
                if fs:
                    t = re.sub(r"(?<![\w'.-])" + re.escape(m[1]) + r"\.(\d)(?!\d)", lambda k: f'{m[1]}.{fs[int(k[1])]}' if int(k[1]) < len(fs) else k[0], t)
            return t
        heads = '|'.join(sorted((re.escape(n) for n in names), key=len, reverse=True))
        return done(re.sub(r"(?<![\w'.-])(" + heads + r")(?![\w'-])((?:\.before(?![\w'-]))*)((?:\." + W + r")*)",
                      lambda m: m[0] if m[1] != 'c' and not m[2] and not m[3] else chain(m), s))

    inv_names = {}
    for c, name, kind, loop, lines in invs:
        k = key(loop)
        if k not in loops:
            print('left: a loop', loop, 'in', folder)
            continue
        inv_names[name] = f'{kind}-{loops[k][1]}'
    if invs:
        out = list(head[:0])
        out.append(f'-- What each loop of `{path.replace(".", "::")}` keeps, and what gets less.')
        out += uses
        out.append(f'use Rattle.{crate}.proofs.{path}.Given as goal')
        keys = list(loops)
        for c, name, kind, loop, lines in invs:
            a, b, vs = loops[key(loop)]
            ch = changed[keys.index(key(loop))] if keys.index(key(loop)) < len(changed) else []
            body = '\n'.join(lines[1:])
            unf = ''
            if body.lstrip().startswith('unfolding'):
                unf, body = body.split('\n', 1)
            mm = re.match(r"\s*" + re.escape(name) + r"((?: [^ =]+)*) =", body)
            params = mm[1].split() if mm else []
            rhs = body[mm.end():] if mm else body
            now = [v for v, x in zip(vs, ch) if x]
            sub = {}
            for i, p in enumerate(params):
                if p == '_':
                    continue
                if i < len(vs):
                    sub[p] = ('l.initial.' if ch and ch[i] else 'l.') + vs[i]
                elif i - len(vs) < len(now):
                    sub[p] = 'l.' + now[i - len(vs)]
            rhs = re.sub(r"(?<![\w'.₀-₉-])(" + W + r")(?![\w'₀-₉-])", lambda m: sub.get(m[1], m[1]), rhs)
            rhs = re.sub(r"(?<![\w'.₀-₉-])(" + W + r")(?=\.)", lambda m: sub.get(m[1], m[1]), rhs)
            new = f'{kind}-{b}'
            out += [''] + c + [f'abbrev pub {new} : goal.{new}'] + ([unf] if unf else []) + [f'{new} l ={rhs}']
        open(f'{folder}/Invariants.antt', 'w').write('\n'.join(out) + '\n')
    out = []
    kept = []
    for c, name, need, lines in answers:
        new = needs.get(key(need)) or needs.get(key(re.sub(r"^(overflow|nonzero|slice-bounds)-", "", need)))
        if not new:
            print('left: a need', need, 'in', folder, '; has', sorted(needs.values()))
            continue
        body = '\n'.join(lines[1:])
        # the signature may go over several lines
        while lines and not re.match(r"\s*(unfolding |" + re.escape(name) + r"( |$))", body):
            body = body.split('\n', 1)[1] if '\n' in body else ''
            if not body:
                break
        unf = ''
        while body.lstrip().startswith('unfolding') or (unf and not re.match(r"\s*" + re.escape(name) + r"( |$)", body)):
            u, body = body.split('\n', 1)
            unf += ('\n' if unf else '') + u
        mm = re.match(r"\s*" + re.escape(name) + r"((?: [^ =]+)*) =", body)
        rhs = body[mm.end():] if mm else body
        if not unf and short(rhs) in ('tt', 'search rules', 'omega arith'):
            continue
        rhs = steps_of(rhs, new)
        fields = next((of['asked'][old] for old, now in of['needs'] if now == new and old in of['asked']), None)
        if fields:
            rhs = as_record(rhs, fields)
        kept.append((c, new, unf, rhs))
    if kept or helpers and kept:
        out = [h for h in head] + uses
        if any('rules' in k[3] for k in kept) and not any('rules' in u for u in uses):
            out.append('use Rattle.std.proofs.Common.{rules}')
        out.append(f'use Rattle.{crate}.proofs.{path}.Goals as goal')
        for c, lines in helpers:
            out += [''] + c + lines
        for c, new, unf, rhs in kept:
            out += [''] + c + [f'pub {new} : goal.{new}'] + ([unf] if unf else []) + [f'{new} c ={rhs}']
        open(f'{folder}/Answers.antt', 'w').write('\n'.join(out) + '\n')
    os.remove(f'{folder}/Proof.antt')


main(*sys.argv[1:])
