#!/usr/bin/env python3
"""Lists the functions of crates/*/src that differ from another one only in names of types, crates and functions, in sizes or in constants.

usage: tools/twins.py [COMMIT]      (without one, the work tree)

Comments, attributes and clauses are left out. Of what remains, every name that begins with a capital letter becomes T, every path prefix and every
part so3 or sgal3 of a name goes, numbers become N and the function's own name F. Functions of fewer than four lines are left out: a trait's
methods that hand on a call look alike and are no twins.
"""
import re
import subprocess
import sys


def sources(commit):
    if commit:
        names = subprocess.run(['git', 'ls-tree', '-r', '--name-only', commit, 'crates'], capture_output=True, text=True, check=True).stdout.split()
        for name in names:
            if re.fullmatch(r'crates/\w+/src/\w+\.rt', name):
                yield name, subprocess.run(['git', 'show', f'{commit}:{name}'], capture_output=True, text=True, check=True).stdout
    else:
        names = subprocess.run(['git', 'ls-files', 'crates'], capture_output=True, text=True, check=True).stdout.split()
        for name in names:
            if re.fullmatch(r'crates/\w+/src/\w+\.rt', name):
                yield name, open(name).read()


CLAUSE = re.compile(r'\s*(//|#\[|ghost |ensures |requires )')


def functions(text):
    lines = [(';' if l.endswith(';') else '') if CLAUSE.match(l) else l for l in text.split('\n')]
    lines = [l for l in lines if l]
    i = 0
    while i < len(lines):
        m = re.match(r'(\s*)(?:pub(?:\(crate\))? )?(?:extern "C" )?fn (\w+)', lines[i])
        if not m:
            i += 1
            continue
        # a declaration ends at its semicolon, a function at the brace that closes its body
        end = i
        while not lines[end].endswith((';', '{')):
            end += 1
        while lines[end].endswith('{') or not (lines[end].startswith(m.group(1) + '}') or lines[end] == ';' or end == i):
            end += 1
        yield m.group(2), lines[i:end + 1]
        i = end + 1


def shape(name, lines):
    text = ' '.join(l.strip() for l in lines)
    text = re.sub(r'\b%s\b' % name, 'F', text)
    text = re.sub(r'\b(\w+)::', '', text)
    text = re.sub(r'(so3|sgal3)_?', '', text)
    text = re.sub(r'\b[A-Z]\w*', 'T', text)
    text = re.sub(r'\b[0-9][0-9a-fA-Fx_.e-]*', 'N', text)
    return re.sub(r'\s+', '', text)


def main():
    commit = sys.argv[1] if len(sys.argv) > 1 else None
    groups = {}
    for path, text in sources(commit):
        crate = path.split('/')[1]
        for name, lines in functions(text):
            if len(lines) >= 4:
                groups.setdefault(shape(name, lines), []).append(f'{crate}::{name}')
    twins = [g for g in groups.values() if len(g) > 1]
    for g in sorted(twins, key=len, reverse=True):
        print(len(g), ' '.join(g))
    print(f'{sum(map(len, twins))} functions in {len(twins)} groups')


main()
