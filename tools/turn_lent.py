#!/usr/bin/env python3
"""In clauses, writes `lent a b ..` of references as `arrays a.now b.now ..` of what they refer to: a `&` and a `&mut` are of two types today.

usage: tools/turn_lent.py FILE..     .now of a `&`; of a `&mut` .old before and .new after
"""
import re
import sys

FN = re.compile(r"^(?:pub )?(?:unsafe )?(?:extern \"C\" )?fn \w+[^(]*\(.*?^\{", re.M | re.S)
LENT = re.compile(r"\blent((?:\s+\w+(?:\.entry|\.exit)?){7})")
for path in sys.argv[1:]:
    text = open(path, encoding='utf-8').read()

    def turn(fn):
        body = fn[0]
        muts = {m[1] for m in re.finditer(r"(\w+): &(?:'\w+ )?mut ", body)}

        def one(m):
            out = []
            for word in m[1].split():
                name, _, when = word.partition('.')
                out.append(name + ('.now' if name not in muts else '.new' if when == 'exit' else '.old'))
            return 'arrays ' + ' '.join(out)
        return LENT.sub(one, body)
    new = FN.sub(turn, text)
    if new != text:
        new = new.replace('Wholes.{lent}', 'Wholes.{arrays}')
        open(path, 'w', encoding='utf-8').write(new)
        print(path)
