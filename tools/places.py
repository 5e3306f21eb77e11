#!/usr/bin/env python3
"""Counts the places of docs/DESIGN-PASS.md in crates/*/src, by point and crate, and lists them.

    python3 tools/places.py [TREE]

TREE is the top of a tree, by default this one: a worktree of an older commit is counted so. What it finds are candidates, by the
shape of the text: the page says of each that is left why it stays."""
import collections
import glob
import os
import re
import sys

os.chdir(sys.argv[1] if len(sys.argv) > 1 else os.path.join(os.path.dirname(os.path.abspath(__file__)), ".."))

files = sorted(glob.glob('crates/*/src/**/*.rt', recursive=True))
text = {f: re.sub(r'//[^\n]*', '', open(f, encoding='utf-8').read()) for f in files}
crate = lambda f: f.split('/')[1]
def show(title, rows):
    by = collections.Counter(c for c, _ in rows)
    print(f'\n{title}: {len(rows)}')
    for c in sorted(by):
        print(f'  {c} {by[c]}: ' + ', '.join(n for d, n in rows if d == c))

enums = [(crate(f), m.group(1), re.findall(r'^\s{4}(\w+)', m.group(2), re.M)) for f in files for m in re.finditer(r'enum (\w+) \{(.*?)\n\}', text[f], re.S)]
empty = re.compile(r'None|Unknown|Nobody|Never|Nothing|NoAnswer|NoNotice|Unseen|NotBuilt|Refused')
show('1a enums of the shape of Option or Result', [(c, n) for c, n, v in enums if len(v) <= 3 and any(empty.fullmatch(x) for x in v)])
structs = [(crate(f), m.group(1), m.group(2)) for f in files for m in re.finditer(r'struct (\w+) \{(.*?)\n\}', text[f], re.S)]
show('1b structs with a flag or a number beside the value', [(c, n) for c, n, b in structs if re.search(r'\b(refusal|over|sends|live|number): (u8|u64|bool)', b)])
fns = []
for f in files:
    for m in re.finditer(r'^( *)(?:#\[[^\n]*\n\s*)?(?:pub )?(?:extern "C" )?fn (\w+)(?:<[^\n]*?>)?\((.*?)\)(?: -> ([^\n{]+?))?[ ]*(?=\n|\{)(.*?)^\1\}', text[f], re.S | re.M):
        fns.append((crate(f), m.group(2), re.sub(r'\s+', ' ', m.group(3)), (m.group(4) or '').strip(), m.group(5)))
show('1c functions that answer a number for a refusal or a kind', [(c, n) for c, n, a, r, b in fns if r in ('u8', 'u64') and re.search(r'refus|_number$|^number|zero_or_14', n)])
def shape(args, ret, body):
    s = re.sub(r'(requires|ensures)[^{]*\{.*?\}\n', '', args + '->' + ret + body, flags=re.S)
    s = re.sub(r'\b(u8|u16|u32|u64|usize)\b', 'T', s)
    s = re.sub(r'\b\d[\d_]*\b', 'K', s)
    s = re.sub(r'\b[A-Z]\w*::[A-Z]\w*|\b[A-Z][A-Z_]+\b', 'V', s)
    s = re.sub(r'\.\w+|\b\w+::\w+\(|\b[a-z]\w*\(', lambda m: '.m' if m.group(0)[0] == '.' else 'f(', s)
    names = {}
    s = re.sub(r'\b[a-z]\w*\b', lambda m: m.group(0) if m.group(0) in ('let', 'mut', 'if', 'else', 'return', 'while', 'match', 'as', 'f', 'm') else names.setdefault(m.group(0), f'x{len(names)}'), s)
    return re.sub(r'\s+', '', s)
groups = collections.defaultdict(list)
for c, n, a, r, b in fns:
    if b.count('\n') >= 4:
        groups[shape(a, r, b)].append((c, n))
twins = [g for g in groups.values() if len(g) > 1]
print(f'\n2 functions of one shape (candidates for twins): {sum(map(len, twins))} in {len(twins)} groups')
for g in sorted(twins, key=len, reverse=True):
    print('  ' + ', '.join(f'{c}::{n}' for c, n in g))
show('3 index loops', [(crate(f), m.group(1)) for f in files for m in re.finditer(r'^\s*while ([^\n{]+) \{', text[f], re.M)])
show('4a structs rebuilt field by field or copied by a let for want of Copy', [(crate(f), m.group(1)) for f in files for m in re.finditer(r'^\s*let (\w+) = \w+\.\1;', text[f], re.M)])
show('4b conversions to and from numbers', [(c, n) for c, n, a, r, b in fns if re.search(r'(_number|_code|_of|_from|^of_\w+|^to_\w+)$', n) and a.count(',') == 0])
show('4c truth values returned one by one', [(crate(f), m.group(1)) for f in files for m in re.finditer(r'^\s*return (true|false);', text[f], re.M)])
for what, pat in (('p, core and now', r'(?=.*p: Parameters)(?=.*core: Core)(?=.*now: Micros)'), ('a ring in two parts (Head and links)', r'(?=.*: Head)(?=.*links: &)'), ('links alone or beside a station', r'links: &'), ('bytes and applications', r'bytes: &\[u8\], applications: u8'), ('eight parameters or more', r'(?:[^,]*,){7}')):
    show(f'5a functions that take {what}', [(c, n) for c, n, a, r, b in fns if re.search(pat, a)])
show('5b requires that stand in three contracts or more', [(crate(f), m.group(1)) for f in files for m in re.finditer(r'requires(?: \w+)? \{ (now\.0 < 2 \^ 48|Fits newest[^}]*|s < 126|a < 126) \}', text[f])])
show('6 buffers with a length beside them, parallel arrays', [(c, n) for c, n, b in structs if re.search(r': \[\w+; \d+\]', b)])
show('7 the same body round another call (a closure or an iterator)', [(c, n) for c, n, a, r, b in fns if re.match(r'set_', n) and 'match settings' in b] + [(c, n) for c, n, a, r, b in fns if re.search(r'entries \* 256', b)])
count = lambda paths: sum(len(open(path, encoding='utf-8').read().splitlines()) for path in paths)
for what, name in (('walks by hand', 'Proof'), ('answers', 'Answers'), ('invariants', 'Invariants')):
    paths = glob.glob(f'crates/*/proofs/**/{name}.antt', recursive=True)
    print(f'\n8 {what}: {len(paths)} files, {count(paths)} lines')
print(f"\n8 lemmas: {count(glob.glob('crates/*/proofs/*.antt'))} lines in proofs/*.antt")
