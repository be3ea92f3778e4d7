#!/usr/bin/env python3
"""Gives a field in a crate's proofs the name that a check says is nearest, where the two differ in dashes alone.

usage: tools/mend_names.py LOG CRATE     in the top folder; LOG is what `rt check` printed in the crate
"""
import re
import sys

log, crate = sys.argv[1:]
said = re.compile(r"(?:\./)?(proofs/[^:]+):(\d+):\d+: error: .*has no field `([^`]+)`\.? \(nearest: ([^)]*)\)")
n = 0
for line in open(log, encoding='utf-8'):
    m = said.match(line)
    if not m:
        continue
    path, at, old, near = f'crates/{crate}/{m[1]}', int(m[2]), m[3], [w.strip().lstrip('.') for w in m[4].split(',')]
    new = next((w for w in near if re.sub('[-_]', '', w) == re.sub('[-_]', '', old)), None)
    if not new:
        continue
    text = open(path, encoding='utf-8').read()
    turned = re.sub(rf"\.{re.escape(old)}(?![\w'-])", '.' + new, text)
    if turned != text:
        open(path, 'w', encoding='utf-8').write(turned)
        n += 1
print(f'mended {n} files')
sys.exit(0 if n else 1)
