#!/usr/bin/env python3
"""Lays statements side by side: theorems, lemmas, definitions and samples of specs/ and proofs/ at two commits.

usage: tools/theorems.py OLD NEW [x]     at the top of the checkout; '.' is the working tree; with x each that changed, went or is new
A declaration is known by its crate and its name; its text has the variables of its block before a turnstile.
"""
import os
import re
import subprocess
import sys



def indent(l):
    return len(l) - len(l.lstrip(' '))


def parse(lines, base, scope, where, crate, out):
    i = 0
    while i < len(lines):
        l = lines[i]
        if not l.strip() or l.lstrip().startswith('--') or indent(l) != base:
            i += 1; continue
        j = i + 1
        while j < len(lines) and (not lines[j].strip() or indent(lines[j]) > base or lines[j].strip()[0] in ')}]'):
            j += 1
        block = lines[i:j]
        s = l.strip()
        if re.match(r'(use |pub use |mod |pub mod |infix)', s): i = j; continue
        text = ' '.join(' '.join(x for x in block if not x.lstrip().startswith('--')).split())
        if re.match(r'(pub )?module ', s):
            k = 0
            while 'where' not in block[k]: k += 1
            head = ' '.join(' '.join(block[:k + 1]).split())
            body = block[k + 1:]
            nb = min([indent(x) for x in body if x.strip() and not x.lstrip().startswith('--')] or [0])
            parse(body, nb, scope + re.sub(r'^(pub )?module \S+', '', head).replace(' where', '') , where, crate, out)
        else:
            m = re.match(r"((?:abbrev |unfoldable |unfolding |pub |total )*)(record |data )?([^\s:(){}]+)", text)
            if m:
                name = m.group(3)
                rest = re.sub(r'^(abbrev |unfoldable |pub |total )+', '', text)
                if m.group(2) or re.match(re.escape(name) + r"[^=]*? : ", rest):
                    out.setdefault((crate, name), []).append((where, (scope.strip() + ' ⊢ ' if scope.strip() else '') + rest))
        i = j

def tree(rev):
    out = {}
    if rev == '.':
        names = [n for n in subprocess.run(['git', 'ls-files', '-co', '--exclude-standard'], capture_output=True, text=True).stdout.split() if os.path.exists(n)]
        get = lambda n: open(n, encoding='utf-8').read()
    else:
        names = subprocess.run(['git', 'ls-tree', '-r', '--name-only', rev], capture_output=True, text=True).stdout.split()
        get = lambda n: subprocess.run(['git', 'show', f'{rev}:{n}'], capture_output=True, text=True).stdout
    for n in names:
        m = re.match(r'crates/([a-z0-9_]+)/(proofs|specs)/(.*)\.antt$', n)
        if m and not n.endswith(('Answers.antt', 'Invariants.antt', 'Lib.antt')):
            parse(get(n).split('\n'), 0, '', m.group(2) + '/' + m.group(3), m.group(1), out)
    return out

if __name__ == '__main__':
    a = tree(sys.argv[1]); b = tree(sys.argv[2])
    same = 0; changed = []; gone = []; new = []
    for k, v in a.items():
        ra = list(v); rb = list(b.get(k, []))
        for x in list(ra):
            for y in list(rb):
                if x[1] == y[1]: ra.remove(x); rb.remove(y); same += 1; break
        for x, y in zip(ra, rb): changed.append((k, x, y))
        gone += [(k, x) for x in ra[len(rb):]]
        new += [(k, y) for y in rb[len(ra):]]
    for k, v in b.items():
        if k not in a: new += [(k, x) for x in v]
    print(f'same {same}, changed {len(changed)}, gone {len(gone)}, new {len(new)}')
    if len(sys.argv) > 3:
        for k, x, y in changed: print(f'changed: {k[0]} {x[0]} {k[1]}\n    - {x[1]}\n    + {y[1]}')
        for k, x in gone: print(f'gone: {k[0]} {x[0]} {k[1]}\n    - {x[1]}')
        for k, x in new: print(f'new: {k[0]} {x[0]} {k[1]}\n    + {x[1]}')
