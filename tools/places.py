#!/usr/bin/env python3
"""Counts the places of docs/DESIGN-PASS.md in src/: tools/places.py [COMMIT] [--list POINT]

Without COMMIT it reads the files as they stand. A place is a line of code that one of the patterns below finds; the page says what the patterns can't see."""
import re, subprocess, sys

def files(commit):
    if commit:
        names = subprocess.run(['git', 'ls-tree', '-r', '--name-only', commit], capture_output=True, text=True, check=True).stdout.split('\n')
        for n in sorted(names):
            if re.fullmatch(r'crates/[^/]+/src/.*\.rt', n):
                yield n, subprocess.run(['git', 'show', f'{commit}:{n}'], capture_output=True, text=True, check=True).stdout
    else:
        import glob
        for n in sorted(glob.glob('crates/*/src/**/*.rt', recursive=True)):
            yield n, open(n).read()

def blocks(text, head):
    """(line number, header match, body) of each braced block whose first line matches head."""
    for m in re.finditer(head, text, re.M):
        depth, i = 0, text.index('{', m.end() - 1) if '{' not in m.group(0) else m.end() - 1
        j = i
        while True:
            depth += {'{': 1, '}': -1}.get(text[j], 0)
            j += 1
            if depth == 0:
                break
        yield text.count('\n', 0, m.start()) + 1, m, text[i:j]

def counted_loops(text):
    """A while whose test compares a name that its body moves by one."""
    for n, m, body in blocks(text, r'^ *while ([^\n]*) \{$'):
        if any(re.search(r'^ *%s [+-]= 1;$' % re.escape(v), body, re.M) for v in re.findall(r'[a-z_]+', m.group(1))):
            yield n, m.group(0).strip()

def shapes(text):
    """Enums of the shape of Option or Result; structs in which a flag or a number says whether the other fields count."""
    for n, m, body in blocks(text, r'^(pub )?enum (\w+)(<[^>]*>)? \{$'):
        variants = re.findall(r'^    (\w+)(\([^)]*\))?,$', body, re.M)
        if len(variants) == 2 and sum(bool(v[1]) for v in variants) == 1:
            yield n, m.group(0)
    for n, m, body in blocks(text, r'^(pub )?struct (\w+)(<[^>]*>)? \{$'):
        for f in re.findall(r'^    (?:pub(?:\(crate\))? )?(\w+): (?:bool|u32|usize),$', body, re.M):
            if f in ('number', 'wrong', 'kind', 'there', 'ready', 'whole', 'fits', 'status', 'awaits', 'asks'):
                yield n, m.group(0) + ' ' + f

def codes(text):
    """Numbers that stand for kinds or refusals: constants of u32 in rows, and functions that give one."""
    for m in re.finditer(r'^(?:pub(?:\(crate\))? )?const (\w+): u32 = (\d{1,2});$', text, re.M):
        yield text.count('\n', 0, m.start()) + 1, m.group(0)
    for m in re.finditer(r'^(?:pub(?:\(crate\))? )?fn (\w*(?:number|why_not|refusal|trouble|strike|restore)\w*)(?:<[^>]*>)?\([^{]*?\) -> u32', text, re.M):
        yield text.count('\n', 0, m.start()) + 1, m.group(1)

def sentinels(text):
    """Results that stand for none by a number: the comment above the function says so."""
    for m in re.finditer(r'((?:^//[^\n]*\n)+)(?:pub(?:\(crate\))? )?fn (\w+)', text, re.M):
        if re.search(r', or (k|n|0|none)\b|or the number of|; 0 (words )?(at 0 )?where|0 where (it is neither|there is|it is not)|the end where there is none|\bor 0\b', m.group(1)):
            yield text.count('\n', 0, m.start(2)) + 1, m.group(2)

def by_hand(text):
    """The lesser, the greater, a difference, a digit, the bytes of a word, told by hand where std has a method."""
    for m in re.finditer(r'if (\w+) < (\w+) \{ (\w+|0|\1 - \2|\2 - \1) \} else \{ (\w+|\1 - \2|\2 - \1) \}', text):
        if {m.group(3), m.group(4)} <= {m.group(1), m.group(2), '0', f'{m.group(1)} - {m.group(2)}', f'{m.group(2)} - {m.group(1)}'}:
            yield text.count('\n', 0, m.start()) + 1, m.group(0)
    for m in re.finditer(r'is_within\(48, 57|wrapping_add_u32|/ 256 % 256|0x8000_0000 \* 2', text):
        yield text.count('\n', 0, m.start()) + 1, m.group(0)
    for m in re.finditer(r'\b(less|apart|larger|smaller|least|lesser|clear_words|clear_bytes)\(', text):
        yield text.count('\n', 0, m.start()) + 1, m.group(0)

def twin_texts(all_files):
    """Functions whose bodies are the same but for names, types and numbers."""
    seen = {}
    for name, text in all_files:
        for n, m, body in blocks(text, r'^(?:pub(?:\(crate\))? )?fn (\w+)(?:<[^>]*>)?\([^{]*?\n\{$|^(?:pub(?:\(crate\))? )?fn (\w+)\([^{]*?\{$'):
            code = re.sub(r'//[^\n]*', '', body)
            key = re.sub(r'\b[a-z_]\w*\b', 'x', re.sub(r'\b[A-Z]\w*\b', 'X', re.sub(r'\b\d[\w]*\b', '0', code)))
            key = re.sub(r'\s+', ' ', key)
            if key.count(';') + key.count('if x') >= 2:
                seen.setdefault(key, []).append((name, n, m.group(1) or m.group(2)))
    for group in seen.values():
        if len(group) > 1:
            for g in group[1:]:
                yield g[0], g[1], g[2] + ' as ' + group[0][2] + ' of ' + group[0][0]

def facts(all_files):
    """Requires that stand word for word in three functions or more."""
    seen = {}
    for name, text in all_files:
        for m in re.finditer(r'^ *requires (?:\w+ )?\{ ([^\n]*) \}$', text, re.M):
            for part in re.split(r' × ', m.group(1)):
                seen.setdefault(part.strip('() '), []).append((name, text.count('\n', 0, m.start()) + 1))
    for fact, places in sorted(seen.items(), key=lambda x: -len(x[1])):
        if len(places) >= 3:
            for p in places:
                yield p[0], p[1], fact

def lengths(text):
    """Arrays of the greatest length, with the number of those in use beside them."""
    for m in re.finditer(r'\[(usize|u16|u32); (16|MOST_COLUMNS)\]', text):
        if not re.match(r'[^\n]*= \[', text[m.start():]):
            yield text.count('\n', 0, m.start()) + 1, m.group(0)

def steps(text):
    for m in re.finditer(r'^ *(?:\} else )?if [a-z_.]+ == (?:\w+::)*[A-Z][A-Z_]+ \{$', text, re.M):
        yield text.count('\n', 0, m.start()) + 1, m.group(0).strip()

def main():
    args = [a for a in sys.argv[1:]]
    show = None
    if '--list' in args:
        i = args.index('--list')
        show = args[i + 1]
        del args[i:i + 2]
    fs = list(files(args[0] if args else None))
    each = lambda f: [(n, *p) for n, t in fs for p in f(t)]
    rows = [
        ('1 shapes', each(shapes)), ('1 codes', each(codes)), ('1 none by a number', each(sentinels)), ('2 twins', list(twin_texts(fs))), ('3 loops', each(counted_loops)),
        ('4 by hand', each(by_hand)), ('5 facts', list(facts(fs))), ('6 lengths', each(lengths)), ('7 steps', each(steps)),
    ]
    for title, places in rows:
        print(f'{title}: {len(places)}')
        if show and title.startswith(show):
            for p in places:
                print('   ', f'{p[0]}:{p[1]}', *p[2:])

main()
