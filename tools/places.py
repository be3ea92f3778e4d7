#!/usr/bin/env python3
"""Places of docs/DESIGN-PASS.md's points, by shapes of text, in src/ of every crate, of the tree or of a commit: tools/places.py [COMMIT] [POINT].

It finds what may be a place; which are, the page says one by one.
"""
import re
import subprocess
import sys

words = sys.argv[1:]
point = words.pop() if words and words[-1].isdigit() and len(words[-1]) == 1 else None
commit = words[0] if words else None


def run(*command):
    return subprocess.run(command, capture_output=True, text=True, check=True).stdout


def files(pattern):
    listed = run('git', 'ls-tree', '-r', '--name-only', commit) if commit else run('git', 'ls-files', '-co', '--exclude-standard')
    for path in listed.split('\n'):
        if re.fullmatch(pattern, path):
            yield path, run('git', 'show', f'{commit}:{path}') if commit else open(path, encoding='utf-8').read()


SRC, PROOFS = r'crates/\w+/src/.*\.rt', r'crates/\w+/proofs/.*\.antt'
# point: [(what, files, shape)]
SHAPES = {
    '1': [('an enum with a variant that holds nothing beside one that holds something', SRC, r'enum \w+ \{(?=[^}]*^    \w+,$)(?=[^}]*^    \w+\()[^}]*\}'),
          ('a flag beside a value', SRC, r'^    (?:pub )?(?:ready|set|placed|on|on_the_line|holds|long|whole|more|failed): bool,'),
          ('a number for a refusal or for none', SRC, r'^    (?:pub )?number: u32,|return 16;|return 256;|if start == end \{|Unknown,$')],
    '2': [('five structs of a call in one crate, or one in each: core or UART, reply, report', SRC, r'struct \w+ \{\n    pub (?:core|uart): \w+,\n    pub reply: [^}]*\}'),
          ('a function that lends seven arrays and puts back those that changed', SRC, r'^        let mut run_len = self\.run_len;'),
          ('a refusal or an answer made in each crate', SRC, r'^(?:pub )?fn (?:refuse|answer|done|undated)\('),
          ('a conversion in plain numbers for each kind of reply', SRC, r'^pub fn \w+_(?:reply|answer)\('),
          ('the same name of a call or a register in a match', SRC, r'^        Name::\w+ => (?:same|put)\(')],
    '3': [('an index counted by hand', SRC, r'^ +\w+ (?:\+= 1|= \w+ \+ 1|-= 1);$')],
    '4': [('a test by arms or branches of true and false', SRC, r'=> (?:true|false),?$|\{ true \} else|else \{ false \}|return (?:true|false);'),
          ('the smaller, the larger or a difference by a branch', SRC, r'if (\w+) < (\w+) \{ (?:\1|\2) \} else|if \w+ (?:==|<) \w+ \{ [\w -]+ \} else \{ [\w -]+ \}|else \{ 0 \}'),
          ('a function that only converts', SRC, r'^ *(?:pub )?fn (?:wide|low_byte|\w+_of|plain_\w+|number_of|source_number|mode_number)\(')],
    '5': [('a function with the seven arrays as parameters', SRC, r'fn \w+(?:<[^>]*>)?\([^)]*run_at: &[^)]*run_len: &[^)]*rx: &[^)]*\)'),
          ('a function with an output and a place in it', SRC, r'fn \w+(?:<[^>]*>)?\([^)]*out: &mut \[u8\][^)]*\bat: usize[^)]*\)|fn \w+\([^)]*\bat: usize,\s+out: &mut \[u8\][^)]*\)'),
          ('a clause that says that the state is within the limits', SRC, r'requires (?:good )?\{ (?:Good \w+(?:\.\w+)?|(?:Ok|Valid) core)')],
    '6': [('parallel arrays', SRC, r'\b(?:starts|firsts|run_at|gone_at)(?:\.\w+)?: (?:&|\[)[^,;]*'),
          ('an array or a slice with a length beside it', SRC, r'\[Notice; 8\],\n|bytes: &\[u8\],\s+count: usize|count: usize,\s+bytes')],
    '7': [('a switch on which step to run', SRC, r'\b(?:fifo|yes|test|looks): bool')],
    '8': [('answers of goals', PROOFS, r'^pub [\w-]+ : goal\.')],
}
for number, shapes in SHAPES.items():
    if point in (None, number):
        for what, where, shape in shapes:
            found = [(path, text.count('\n', 0, m.start()) + 1, m[0].strip().split('\n')[0]) for path, text in files(where)
                     for m in re.finditer(shape, text, re.M)]
            print(f'{number}. {what}: {len(found)}')
            if point:
                for path, line, text in found:
                    print(f'   {path}:{line}: {text[:100]}')
