#!/usr/bin/env python3
"""Lists what changed between two commits, old and new side by side: public signatures with their clauses, public types, definitions and the statements of theorems.
usage: tools/sides.py OLD [NEW]   (commits; NEW is what stands in the tree where it is left out)"""
import re, subprocess, sys, os

def files(commit):
    if commit is None:
        names = subprocess.run(['git', 'ls-files', 'crates'], capture_output=True, text=True, check=True).stdout.split('\n')
        return {n: open(n, encoding='utf-8').read() for n in names if wanted(n)}
    names = subprocess.run(['git', 'ls-tree', '-r', '--name-only', commit, 'crates'], capture_output=True, text=True, check=True).stdout.split('\n')
    return {n: subprocess.run(['git', 'show', f'{commit}:{n}'], capture_output=True, text=True, check=True).stdout for n in names if wanted(n)}

def wanted(n):
    return re.match(r'crates/[^/]+/(src/.*\.rt|specs/.*\.antt|proofs/[^/]+\.antt)$', n) is not None

def squeeze(s):
    return re.sub(r'\s+', ' ', s).strip()

def tight(s):
    return re.sub(r',? ?\)', ')', re.sub(r'\( ', '(', s))

def bare(text, mark):
    return '\n'.join(l for l in text.split('\n') if not l.lstrip().startswith(mark))

def rust(text):
    text = bare(text, '//')
    found = {}
    owner = None
    for m in re.finditer(r'^(impl[^\n{]*)\{|^\}|^( *)pub (?:extern "C" )?fn (\w+)|^pub (struct|enum) (\w+)|^pub (const) (\w+)|^pub (type) (\w+)', text, re.M):
        if m.group(1):
            owner = squeeze(m.group(1)[4:]); continue
        if m.group(0) == '}':
            owner = None; continue
        if m.group(3):
            i, deep = m.end(), 0
            while i < len(text):
                c = text[i]
                if c in '([': deep += 1
                elif c in ')]': deep -= 1
                elif c == '{' and deep == 0:
                    before = text[m.start():i].rstrip()
                    word = re.search(r'(requires|ensures)( \w+)?$', before)
                    if word:
                        d = 0
                        while True:
                            d += (text[i] == '{') - (text[i] == '}')
                            if d == 0: break
                            i += 1
                    else:
                        break
                i += 1
            name = (f'{owner}::' if owner and m.group(2) else '') + m.group(3)
            found['fn ' + name] = tight(squeeze(text[m.start():i]))
        elif m.group(5):
            i = text.find('{', m.end())
            end = text.find(';', m.end())
            if end != -1 and (i == -1 or end < i):
                found[f'{m.group(4)} {m.group(5)}'] = squeeze(text[m.start():end]); continue
            d, j = 0, i
            while True:
                d += (text[j] == '{') - (text[j] == '}')
                j += 1
                if d == 0: break
            found[f'{m.group(4)} {m.group(5)}'] = squeeze(text[m.start():j])
        else:
            end = text.find(';', m.end())
            found[f'{m.group(6) or m.group(8)} {m.group(7) or m.group(9)}'] = squeeze(text[m.start():end])
    return found

def antt(text, statements):
    text = bare(text, '--')
    found, modules = {}, []
    lines = text.split('\n')
    i = 0
    while i < len(lines):
        l = lines[i]
        m = re.match(r'^( *)((?:abbrev |unfoldable |pattern )*)(pub )(?!mod |use )(record |data )?([^\s:({]+)', l)
        deep = len(l) - len(l.lstrip())
        if l.strip() and not l.lstrip().startswith('unfolding'):
            modules = [(at, line) for at, line in modules if at < deep]
        if l.lstrip().startswith('module _'):
            j = i
            while not re.search(r'\bwhere$', lines[j]) and j + 1 < len(lines): j += 1
            modules.append((deep, squeeze('\n'.join(lines[i:j + 1]))))
            i = j + 1; continue
        if not m or (deep > 0 and not modules):
            i += 1; continue
        j = i + 1
        indent = len(m.group(1))
        whole = m.group(4) or m.group(2)
        block = [l]
        name = m.group(5)
        while j < len(lines):
            n = lines[j]
            deeper = n.strip() == '' or len(n) - len(n.lstrip()) > indent
            same = len(n) - len(n.lstrip()) == indent and n.strip() and not re.match(r'^ *((abbrev|unfoldable|pattern|pub|record|data|module|use|ruleset|mutual)\b|[^\s:=]+ :)', n)
            if deeper: block.append(n); j += 1; continue
            if same and whole: block.append(n); j += 1; continue
            break
        said = squeeze('\n'.join(block))
        if not whole:
            said = re.split(r' unfolding [^:]*$| unfolding ', said)[0]
        found[name] = ''.join(line + ' | ' for _, line in modules) + said
        i = j if whole else i + 1
    return found

def main():
    old, new = files(sys.argv[1]), files(sys.argv[2] if len(sys.argv) > 2 else None)
    def gather(tree):
        out = {}
        for n, t in tree.items():
            crate, part = n.split('/')[1], n.split('/')[2]
            items = rust(t) if part == 'src' else antt(t, part == 'proofs')
            for k, v in items.items():
                out.setdefault((crate, 'src' if part == 'src' else 'specs', k), []).append(v)
        return out
    a, b = gather(old), gather(new)
    crates = []
    for line in open('crates.txt', encoding='utf-8'):
        if ':' in line and not line.startswith('#'): crates.append(line.split(':')[0].split()[0])
    for crate in crates:
        rows = []
        for key in sorted(set(k for k in list(a) + list(b) if k[0] == crate), key=lambda k: (k[1] != 'src', k[2])):
            o, n = a.get(key, []), b.get(key, [])
            if sorted(o) == sorted(n): continue
            gone = [x for x in o if x not in n]
            came = [x for x in n if x not in o]
            if not gone and key[1] != 'src':
                continue
            rows.append('\n'.join([f'@ {key[2]}'] + [f'- {x}' for x in gone] + [f'+ {x}' for x in came]))
        if rows:
            print(f'### {crate}\n\n```diff\n' + '\n'.join(rows) + '\n```\n')

main()
