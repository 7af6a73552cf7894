#!/usr/bin/env python3
"""Counts the places that docs/DESIGN-PASS.md speaks of, in crates/*/src/*.rt: tools/places.py [ROOT] [--point N] [--list]

ROOT is a repository's top, by default the folder that this is run in. Without --list a table: a row for each kind of place, with how many each
crate has. With --list each place as file:line and its text. It reads text alone: what it counts are candidates, which are judged by hand.
"""
import difflib, glob, os, re, sys
from collections import Counter, defaultdict

KINDS = {
    '1a': "enum of two variants, one with a value (an Option or Result of its own)",
    '1b': "use of such an enum's variants",
    '1c': "`let V(x) = e else { return e }` or a match that hands a refusal on (a `?`)",
    '1d': "number that says none or wrong: comment '0 if/where there is none', constants UNSOUND, WRONG",
    '1e': "u32 constant of a family of three or more (kinds, statuses, step and call numbers)",
    '1f': "parameter or field `kind|status|tag|...: u32` (a code)",
    '2': "function whose body is nearly another's (token likeness 0.8 or more)",
    '3a': "`while` loop",
    '3b': "`loop` loop",
    '3c': "`i += 1;` (an index counted by hand)",
    '4a': "ladder of two or more `if .. { return true|false; }` in a function that gives bool",
    '4b': "function whose body is one match from an enum to numbers or enums, or one cast",
    '4c': "`as` cast",
    '4d': "struct or enum without a derive of PartialEq or Debug",
    '5a': "function whose `requires` has a fact that three or more functions' `requires` have",
    '5b': "function with three or more parameters that stand together, in this order, in three or more functions",
    '5c': "public function over a lent table (a first parameter of &[u32] or &mut [u32] named t, table or words)",
    '6a': "slice parameter with a length or an end beside it (n, count, len, from, to: u32|usize)",
    '6b': "search by hand: a loop that returns the index or compares in it",
    '7a': "parameter `chain: Chain`, `mode: Mode`, or a bool that says which way (a switch)",
    '7b': "match over such a parameter",
}

def source(path):
    return open(path, encoding='utf-8').read()

def strip_comments(s):
    return re.sub(r'//[^\n]*', lambda m: ' ' * len(m.group()), s)

class Fn: pass

def functions(path):
    s = strip_comments(source(path))
    out = []
    for m in re.finditer(r'^[ \t]*(pub(?:\([a-z]+\))? )?(?:const )?(?:unsafe )?(?:extern "C" )?fn (\w+)(<[^>]*>)?\(', s, re.M):
        i = m.end(); d = 1
        while d: d += {'(': 1, ')': -1}.get(s[i], 0); i += 1
        f = Fn(); f.path = path; f.name = m.group(2); f.pub = bool(m.group(1)); f.line = s.count('\n', 0, m.start(2)) + 1
        f.params = [p.strip() for p in re.split(r',(?![^\[<(]*[\])>])', s[m.end():i-1]) if p.strip()]
        # the contract goes to the '{' that begins a line
        same_line = re.compile(r'[ \t]*(?:->[^\n{;]*)?(\{)[ \t]*$', re.M).match(s, i)
        b = re.compile(r'^[ \t]*\{', re.M).search(s, i)
        if same_line: b = re.compile(r'\{').search(s, same_line.start(1))
        f.contract = s[i:b.start()] if b else ''
        if b:
            j = b.end(); d = 1
            while d and j < len(s): d += {'{': 1, '}': -1}.get(s[j], 0); j += 1
            f.body = s[b.end():j-1]; f.body_at = b.end()
        else: f.body = ''; f.body_at = i
        f.ret = re.match(r'\s*->\s*([^\n{]+)', f.contract)
        f.ret = f.ret.group(1).strip() if f.ret else ''
        f.requires = re.findall(r'requires\s*(?:\w+\s*)?\{(.*)\}', f.contract)
        out.append(f)
    return out

def conjuncts(text):
    text = re.sub(r'\b(t|table|words|list|self)\.(old|now)', 'T', text)
    parts = re.split(r'\s×\s', text)
    return [re.sub(r'\s+', ' ', p.strip().strip('()').strip()) for p in parts]

def head(fact):
    """the fact without the names of its arguments"""
    w = fact.split(' ')
    return w[0] if re.match(r'[A-Z]', w[0]) else re.sub(r'\b[a-z]\b', '_', fact)

def main():
    args = [a for a in sys.argv[1:] if not a.startswith('--')]
    point = sys.argv[sys.argv.index('--point') + 1] if '--point' in sys.argv else None
    args = [a for a in args if a != point]
    root = args[0] if args else '.'
    files = sorted(glob.glob(os.path.join(root, 'crates/*/src/**/*.rt'), recursive=True))
    if not files: sys.exit('no crates/*/src/*.rt below ' + root)
    found = defaultdict(list)     # kind -> [(crate, file, line, text)]
    def crate(p): return os.path.relpath(p, os.path.join(root, 'crates')).split(os.sep)[0]
    def add(kind, p, line, text): found[kind].append((crate(p), p, line, text.strip()[:110]))
    fns = [f for p in files for f in functions(p)]
    enums = {}
    for p in files:
        raw = source(p); s = strip_comments(raw)
        for m in re.finditer(r'((?:#\[[^\]]*\]\s*)*)(?:pub )?enum (\w+)[^{]*\{([^}]*)\}', s):
            variants = [v.strip() for v in re.sub(r'\([^)]*\)', lambda q: q.group().replace(',', ';'), m.group(3)).split(',') if v.strip()]
            line = s.count('\n', 0, m.start(2)) + 1
            if len(variants) == 2 and any('(' in v for v in variants):
                enums[m.group(2)] = [re.match(r'\w+', v).group() for v in variants]
                add('1a', p, line, f'enum {m.group(2)} {{ {", ".join(variants)} }}')
        for m in re.finditer(r'((?:#\[derive\([^)]*\)\]\s*)?)(?:pub )?(struct|enum) (\w+)', s):
            if 'PartialEq' not in m.group(1) or 'Debug' not in m.group(1):
                add('4d', p, s.count('\n', 0, m.start(2)) + 1, f'{m.group(2)} {m.group(3)}')
    for p in files:
        raw = source(p); s = strip_comments(raw); lines = s.split('\n')
        for n, l in enumerate(lines, 1):
            for e in enums:
                for _ in re.findall(rf'\b{e}::\w+', l): add('1b', p, n, l)
            if re.search(r'\blet \w+::\w+\(.*\) = .* else \{', l): add('1c', p, n, l)
            if re.search(r'^\s*while\b', l): add('3a', p, n, l)
            if re.search(r'(^|=\s*|\breturn )\s*loop \{', l): add('3b', p, n, l)
            if re.search(r'\b\w+ \+= 1;', l): add('3c', p, n, l)
            for _ in re.findall(r'\bas (?:u8|u16|u32|u64|usize|i32|i64)\b', l): add('4c', p, n, l)
            if re.search(r'\b(UNSOUND|WRONG)\b', l) and 'use ' not in l: add('1d', p, n, l)
            if re.search(r'^\s*(pub )?(kind|status|tag|code|number|mode|call): u32,', l): add('1f', p, n, l)
            if re.search(r'^\s*match (self|chain|mode|step|by|delay)\b', l): add('7b', p, n, l)
        for n, l in enumerate(raw.split('\n'), 1):
            if re.search(r'//.*\b0 (if|where)\b.*\b(none|empty|no )', l): add('1d', p, n, l)
        # families of constants: runs of u32 constants, blank lines apart, of three or more with small values
        run = []
        consts = [(m.group(1), s.count('\n', 0, m.start()) + 1) for m in re.finditer(r'^(?:pub )?const (\w+): u32 = \d+;', s, re.M)]
        for name, line in consts + [(None, 10**9)]:
            if run and line - run[-1][1] > 2:
                if len(run) >= 3:
                    for a, b in run: add('1e', p, b, a)
                run = []
            if name: run.append((name, line))
    for f in fns:
        if re.search(r'\bkind|status\b', ' '.join(f.params)):
            for q in f.params:
                if re.match(r'(kind|status|idle|tag|code): u32', q): add('1f', f.path, f.line, f'{f.name}: {q}')
        if f.ret == 'bool' and len(re.findall(r'\{\s*return (?:true|false);\s*\}', f.body)) >= 2: add('4a', f.path, f.line, f.name)
        b = re.sub(r'\s+', ' ', f.body.strip())
        if re.fullmatch(r'match [\w.]+ \{(?: (?:\w+::)?\w+(?:\([^)]*\))? => [\w:]+,?)+ \}', b) or re.fullmatch(r'\w+ as \w+', b): add('4b', f.path, f.line, f.name)
        first = f.params[0] if f.params else ''
        if f.pub and re.match(r'(t|table|words): &(mut )?\[u32\]', first): add('5c', f.path, f.line, f.name)
        names = [re.split(r':\s*', q, maxsplit=1) for q in f.params]
        if any(len(q) == 2 and '[u32]' in q[1] or len(q) == 2 and '[u8]' in q[1] for q in names) and any(len(q) == 2 and q[0] in ('n', 'count', 'len', 'length', 'from', 'to', 'end', 'position', 'at') and q[1] in ('u32', 'usize') for q in names):
            add('6a', f.path, f.line, f'{f.name}({", ".join(f.params)})')
        if re.search(r'\b(while|loop|for)\b', f.body) and re.search(r'return (i|j|k|m|n|at|Some\(\w+\));', f.body): add('6b', f.path, f.line, f.name)
        for q in f.params:
            if re.match(r'(chain: Chain|mode: Mode)', q) or (re.match(r'\w+: bool', q)): add('7a', f.path, f.line, f'{f.name}: {q}')
    # 5a
    where = defaultdict(set)
    for k, f in enumerate(fns):
        for r in f.requires:
            for c in conjuncts(r): where[head(c)].add(k)
    common = {h for h, ks in where.items() if len(ks) >= 3}
    for k, f in enumerate(fns):
        hs = [h for h in common if k in where[h]]
        if hs: add('5a', f.path, f.line, f'{f.name}: {"; ".join(sorted(hs))}')
    # 5b
    groups = defaultdict(set)
    for k, f in enumerate(fns):
        for a in range(len(f.params) - 2):
            groups[tuple(f.params[a:a+3])].add(k)
    big = {g: ks for g, ks in groups.items() if len(ks) >= 3}
    for k, f in enumerate(fns):
        gs = [g for g, ks in big.items() if k in ks]
        if gs: add('5b', f.path, f.line, f'{f.name}: {" | ".join(", ".join(g) for g in gs[:2])}')
    # 2
    toks = [re.findall(r'\w+|[^\w\s]', f.body) for f in fns]
    for a in range(len(fns)):
        if len(toks[a]) < 25: continue
        best = (0, None)
        for c in range(len(fns)):
            if a == c or not (0.7 < len(toks[a]) / max(1, len(toks[c])) < 1.43): continue
            m = difflib.SequenceMatcher(None, toks[a], toks[c], autojunk=False)
            if m.quick_ratio() < 0.8: continue
            r = m.ratio()
            if r > best[0]: best = (r, c)
        if best[0] >= 0.8: add('2', fns[a].path, fns[a].line, f'{fns[a].name} ~ {crate(fns[best[1]].path)}::{fns[best[1]].name} {best[0]:.2f}')
    crates = sorted({crate(p) for p in files})
    if '--list' in sys.argv:
        for k in KINDS:
            if point and not k.startswith(point): continue
            print(f'== {k} {KINDS[k]}: {len(found[k])}')
            for c, p, line, text in found[k]: print(f'  {os.path.relpath(p, root)}:{line}: {text}')
        return
    print(f'{len(files)} files, {len(fns)} functions, {sum(1 for f in fns if f.requires)} with a requires')
    for k in KINDS:
        if point and not k.startswith(point): continue
        n = Counter(c for c, *_ in found[k])
        print(f'{k:3} {len(found[k]):4}  {KINDS[k]}')
        print('          ' + ', '.join(f'{c} {n[c]}' for c in crates if n[c]))
main()
