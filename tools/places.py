#!/usr/bin/env python3
# SPDX-License-Identifier: Apache-2.0 AND BSD-3-Clause
"""Counts, in src/, the places that docs/DESIGN-PASS.md speaks of, point by point.

    python3 tools/places.py [COMMIT] [--list POINT]

Without a commit the working tree is read. --list prints the places of a point (1, 1n, 2, 3, 4, 5, 5c, 6, 7, 8).
Test crates count as the others. What a line `// kept: ..` or a comment beside the place says is not read here."""
import collections
import re
import subprocess
import sys

args = [a for a in sys.argv[1:]]
show = None
if '--list' in args:
    i = args.index('--list')
    show = args[i + 1]
    del args[i:i + 2]
commit = args[0] if args else None


def run(*command):
    return subprocess.run(command, capture_output=True, text=True, check=True).stdout


if commit:
    names = run('git', 'ls-tree', '-r', '--name-only', commit).split('\n')
else:
    names = run('git', 'ls-files').split('\n')


def text(name):
    if commit:
        return run('git', 'show', f'{commit}:{name}')
    with open(name) as f:
        return f.read()


sources = {n: text(n) for n in names if re.match(r'crates/\w+/src/.*\.rt$', n)}
places = collections.defaultdict(list)


def line_of(s, at):
    return s.count('\n', 0, at) + 1


def strip(s):
    """The source without comments and clauses, its lines kept."""
    s = re.sub(r'//[^\n]*', '', s)
    out, depth, i = [], 0, 0
    for m in re.finditer(r'\b(ensures|requires)\b[^{;]*\{', s):
        if m.start() < i:
            continue
        out.append(s[i:m.start()])
        j, depth = m.end(), 1
        while depth and j < len(s):
            depth += {'{': 1, '}': -1}.get(s[j], 0)
            j += 1
        out.append('\n' * s.count('\n', m.start(), j))
        i = j
    out.append(s[i:])
    return ''.join(out)


def functions(s):
    """Name, parameters, result, body and start of each function."""
    for m in re.finditer(r'\bfn (\w+)(<[^>]*>)?\(', s):
        j, depth = m.end(), 1
        while depth and j < len(s):
            depth += {'(': 1, ')': -1}.get(s[j], 0)
            j += 1
        params = s[m.end():j - 1]
        k = s.find('{', j)
        if k < 0 or ';' in s[j:k]:
            continue
        result = s[j:k].strip()
        e, depth = k + 1, 1
        while depth and e < len(s):
            depth += {'{': 1, '}': -1}.get(s[e], 0)
            e += 1
        yield m.group(1), [p for p in re.split(r',(?![^<(\[]*[>)\]])', params) if p.strip()], result, s[k + 1:e - 1], m.start()


NONE = r'(None|Nothing|NoneLeft|Unmapped|Outside|Missing|NoRecord|NoQueue|Unknown|Nowhere|Bad|Empty|Settled|NoHead)'
skeletons = collections.defaultdict(list)
params_of = collections.defaultdict(list)
for name, raw in sorted(sources.items()):
    s = strip(raw)
    # 1: enums of two shapes, of which one is empty, a number or a reason
    for m in re.finditer(r'\benum (\w+) \{(.*?)\n\}', s, re.S):
        variants = [v for v in re.findall(r'^    (\w+)(\([^)]*\)| \{[^}]*\})?,?', m.group(2), re.M)]
        empty = [v for v in variants if re.fullmatch(NONE, v[0]) and not v[1]]
        refused = [v for v in variants if v[0] in ('Refused', 'Bad') and v[1] == '(u64)']
        halves = len(variants) == 2 and all(v[1] for v in variants)
        if (len(variants) == 2 and empty) or (refused and len(variants) <= 3) or halves:
            places['1'].append((name, line_of(s, m.start()), f'enum {m.group(1)}'))
    # 1n: numbers for kinds and refusals
    for m in re.finditer(r'\b(?:Refused|Unserved|Bad)\((?:\d+|u64)\)|\brefuse\([^()]*(?:\([^()]*\))?[^()]*, \d+\)|\b(?:why|number|reason): u64\b'
                         r'|^\s*(?:return )?(?:\d|1\d);?\s*$|\bconst (?:ACK|NACK|ERROR|\w*REFUS\w*|PAST_USABLE|FAILED_DISCARD): u\d+', s, re.M):
        places['1n'].append((name, line_of(s, m.start()), m.group(0).strip()))
    for m in re.finditer(r'_refusal\([^)]*\)\s*->\s*u64', s):
        places['1n'].append((name, line_of(s, m.start()), m.group(0)[:60]))
    # 3: loops that keep an index by hand
    for m in re.finditer(r'^\s*while (?!let)[^\n]*\{|\bloop \{', s, re.M):
        places['3'].append((name, line_of(s, m.start()), m.group(0).strip()))
    # 4: a function or a match that only says which variant it is; arms that name fields to drop them
    for m in re.finditer(r'match [^{]*\{((?:[^{}]|\{[^{}]*\})*)\}', s):
        arms = re.findall(r'=>\s*([^,]*),', m.group(1))
        if len(arms) > 1 and all(a.strip() in ('true', 'false') for a in arms):
            places['4'].append((name, line_of(s, m.start()), 'a match for matches!'))
    for m in re.finditer(r'\w+: _\b', s):
        places['4'].append((name, line_of(s, m.start()), 'a field named to be dropped'))
    for m in re.finditer(r'\bfn (smaller|saturating_\w+|wide|copy|from|put_two|bit)\(', s):
        places['4'].append((name, line_of(s, m.start()), f'fn {m.group(1)}'))
    for f, params, result, body, at in functions(s):
        # 2: the same body but for names, numbers and texts
        skeleton = re.sub(r'b?"(?:[^"\\]|\\.)*"', 'S', body)
        skeleton = re.sub(r'\b\d[\w]*\b', 'N', skeleton)
        skeleton = re.sub(r'\b[A-Za-z_]\w*\b', lambda w: w.group(0) if w.group(0) in ('if', 'else', 'return', 'let', 'mut', 'match', 'while', 'for', 'in', 'as') else 'I', skeleton)
        skeleton = re.sub(r'\s+', ' ', skeleton).strip()
        if len(skeleton) > 60:
            skeletons[skeleton].append((name, line_of(s, at), f))
        # 5: parameters
        if len(params) >= 7:
            places['5'].append((name, line_of(s, at), f'fn {f}, {len(params)} parameters'))
        # 6: a buffer with a length beside it
        if re.search(r'let mut \w+ = \[0', body) and re.search(r'\bfilled\b|\blength\b|\bfirst_bytes\(', body):
            places['6'].append((name, line_of(s, at), f'fn {f}'))
    # 5c: a fact that contracts repeat
    for m in re.finditer(r'requires[^{]*\{[^}]*shaped_of', raw):
        places['5c'].append((name, line_of(raw, m.start()), 'requires shaped_of'))
    # 7: a step by its number
    for m in re.finditer(r'match \w+ \{\s*0 =>', s):
        places['7'].append((name, line_of(s, m.start()), m.group(0)[:30]))
for group in skeletons.values():
    if len(group) > 1:
        for n, l, f in group:
            places['2'].append((n, l, f'fn {f}, as {", ".join(g[2] for g in group if g[2] != f) or "another"}'))
answers = [n for n in names if re.match(r'crates/\w+/proofs/.*(Answers|Invariants)\.antt$', n)]
lines = sum(text(n).count('\n') for n in names if re.match(r'crates/\w+/proofs/.*\.antt$', n)) if show is None or show == '8' else 0
titles = {
    '1': 'own enums of the shape of Option or Result', '1n': 'numbers for kinds and refusals', '2': 'functions with one body but for names, numbers and texts',
    '3': 'while and loop', '4': 'matches that say a variant, dropped fields by name, copies of std', '5': 'functions of seven parameters and more',
    '5c': 'contracts that repeat the shape', '6': 'buffers with a length beside them', '7': 'a step chosen by its number'}
if show and show != '8':
    for n, l, what in places[show]:
        print(f'{n}:{l}: {what}')
else:
    for key, title in titles.items():
        print(f'{key:3} {len(places[key]):4}  {title}')
    print(f'8   {len(answers):4}  files of answers and invariants; {lines} lines of proofs')
