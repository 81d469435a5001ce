#!/usr/bin/env python3
"""Moves modules of laws from a crate's specs/ to its proofs/, and definitions from one module to another.

    tools/laws_home.py move CRATE MODULE...        specs/MODULE becomes proofs/MODULE, in every import, Lib and document
    tools/laws_home.py mend CRATE...               after a merge: imports that still look for moved modules in specs/
    tools/laws_home.py name CRATE FROM TO NAME...  imports take NAME from specs/TO where they took it from FROM
    tools/laws_home.py rename CRATE OLD NEW        the module OLD of specs/ or proofs/ is called NEW
    tools/laws_home.py count CRATE...              lines of definitions and of laws, by crate

`move` refuses where a module that stays, or a contract of the crate, imports one that goes: specs/ can't cite proofs/ of its own crate.
Crates above may cite both. `name` rewrites imports only: put the definition into its new place first, by hand. `mend` and `name` may run again.
"""
import os, re, subprocess, sys

ROOT = os.path.join(os.path.dirname(os.path.abspath(__file__)), '..')
DOCS = ['README.md', 'CONTRIBUTING.md'] + ['docs/' + f for f in sorted(os.listdir(os.path.join(ROOT, 'docs'))) if f.endswith('.md')]
END = r'(?![\w-])'


def path(*parts): return os.path.join(ROOT, *parts)


def text_of(file): return open(file, encoding='utf-8').read()


def put(file, text): open(file, 'w', encoding='utf-8').write(text)


def fail(line):
    sys.stderr.write('laws_home: %s\n' % line)
    sys.exit(1)


def sources():
    """Every file that may name a module: definitions, proofs, code, edits, and the programs that write such text."""
    for top in ('crates', 'tools'):
        for folder, dirs, files in os.walk(path(top)):
            if 'out' in dirs: dirs.remove('out')
            for f in files:
                if f.endswith(('.antt', '.rt', '.edit', '.py')) and f != 'laws_home.py': yield os.path.join(folder, f)


def change(file, rules):
    old = new = text_of(file)
    for a, b in rules: new = re.sub(a, b, new)
    if new != old: put(file, new)
    return new != old


def lib(crate, part): return path('crates', crate, part, 'Lib.antt')


def lib_lines(crate, part):
    f = lib(crate, part)
    return text_of(f).splitlines() if os.path.exists(f) else []


def named(crate, part, module): return r'Rattle\.%s\.%s\.%s%s' % (crate, part, module, END)


def git_mv(a, b):
    os.makedirs(os.path.dirname(b), exist_ok=True)
    subprocess.run(['git', '-C', ROOT, 'mv', os.path.relpath(a, ROOT), os.path.relpath(b, ROOT)], check=True)


def move(crate, modules):
    listed = [l.split()[-1] for l in lib_lines(crate, 'specs') if l.startswith('pub mod')]
    for m in modules:
        if m not in listed: fail('%s/specs has no module %s' % (crate, m))
        have = os.listdir(path('crates', crate, 'proofs')) if os.path.isdir(path('crates', crate, 'proofs')) else []
        for f in have:
            if f.split('.')[0].lower() == m.lower(): fail('%s/proofs has %s already' % (crate, f))
    goes = re.compile('|'.join(named(crate, 'specs', m) for m in modules))
    stays = [path('crates', crate, 'specs', m + '.antt') for m in listed if m not in modules]
    for folder, dirs, files in os.walk(path('crates', crate, 'src')): stays += [os.path.join(folder, f) for f in files if f.endswith('.rt')]
    bad = ['%s imports %s' % (os.path.relpath(f, path('crates', crate)), x.split('.')[-1]) for f in stays for x in sorted(set(goes.findall(text_of(f))))]
    if bad: fail('stays behind, and would cite what goes: ' + '; '.join(bad))

    for m in modules: git_mv(path('crates', crate, 'specs', m + '.antt'), path('crates', crate, 'proofs', m + '.antt'))
    rules = [(named(crate, 'specs', m), 'Rattle.%s.proofs.%s' % (crate, m)) for m in modules]
    changed = sum(change(f, rules) for f in list(sources()))

    specs = lib_lines(crate, 'specs')
    put(lib(crate, 'specs'), ''.join(l + '\n' for l in specs if l.split()[-1:] not in [[m] for m in modules]))
    ordered = [m for m in listed if m in modules]
    put(lib(crate, 'proofs'), ''.join('pub mod %s\n' % m for m in ordered) + ''.join(l + '\n' for l in lib_lines(crate, 'proofs')))

    docs = [(r'%s/specs/%s%s' % (crate, m, END), '%s/proofs/%s' % (crate, m)) for m in modules]
    told = sum(change(path(f), docs) for f in DOCS)
    edits = [(r'\bspecs/%s\.antt' % m, 'proofs/%s.antt' % m) for m in modules]
    folder = path('crates', crate, 'must-fail')
    if os.path.isdir(folder):
        for f in sorted(os.listdir(folder)):
            if change(os.path.join(folder, f), edits): sys.stderr.write('laws_home: must-fail/%s edits a law now: aim it at a definition\n' % f)
    print('%s: %d modules moved, %d files and %d documents changed' % (crate, len(modules), changed, told))


def mend(crates):
    rules = []
    for c in crates:
        here = path('crates', c, 'proofs')
        for f in sorted(os.listdir(here)) if os.path.isdir(here) else []:
            m = f[:-5]
            if not f.endswith('.antt') or m == 'Lib' or os.path.exists(path('crates', c, 'specs', f)): continue
            rules.append((named(c, 'specs', m), 'Rattle.%s.proofs.%s' % (c, m)))
    print('%d files changed' % sum(change(f, rules) for f in list(sources())))


IMPORT = re.compile(r'^(?P<lead>(?:ghost )?use )(?P<path>[^\s{]+)\.\{(?P<names>[^}]*)\}(?P<end>;?)$', re.M)


def name(crate, source, target, names):
    changed = 0
    for f in list(sources()):
        old = text = text_of(f)
        for part in ('specs', 'proofs'):
            a, b = 'Rattle.%s.%s.%s' % (crate, part, source), 'Rattle.%s.specs.%s' % (crate, target)
            take = []

            def less(m):
                if m.group('path') != a: return m.group(0)
                have = [x.strip() for x in m.group('names').split(',')]
                mine = [x for x in have if x.split(' as ')[0] in names]
                rest = [x for x in have if x not in mine]
                if not mine: return m.group(0)
                take.extend(mine)
                if rest: return '%s%s.{%s}%s' % (m.group('lead'), a, ', '.join(rest), m.group('end'))
                return '%s%s.{%s}%s' % (m.group('lead'), a, '', m.group('end'))

            text = IMPORT.sub(less, text)
            if not take: continue
            here = os.path.abspath(f) == os.path.abspath(path('crates', crate, 'specs', target + '.antt'))
            done = [here]

            def more(m):
                if m.group('path') != b or done[0]: return m.group(0)
                done[0] = True
                have = [x.strip() for x in m.group('names').split(',')]
                return '%s%s.{%s}%s' % (m.group('lead'), b, ', '.join(have + [x for x in take if x not in have]), m.group('end'))

            text = IMPORT.sub(more, text)
            empty = re.compile(r'^((?:ghost )?use )%s\.\{\}(;?)\n' % re.escape(a), re.M)
            if done[0]: text = empty.sub('', text)
            elif empty.search(text): text = empty.sub(lambda m: '%s%s.{%s}%s\n' % (m.group(1), b, ', '.join(take), m.group(2)), text, count=1)
            else:
                at = re.compile(r'^((?:ghost )?use )%s\.\{[^}]*\}(;?)\n' % re.escape(a), re.M).search(text)
                text = text[:at.start()] + '%s%s.{%s}%s\n' % (at.group(1), b, ', '.join(take), at.group(2)) + text[at.start():]
        if text != old:
            put(f, text)
            changed += 1
    print('%s: %d files take %s from %s' % (crate, changed, ', '.join(names), target))


def rename(crate, old, new):
    part = next((p for p in ('specs', 'proofs') if os.path.exists(path('crates', crate, p, old + '.antt'))), None)
    if not part: fail('%s has no module %s' % (crate, old))
    for f in os.listdir(path('crates', crate, part)):
        if f.split('.')[0].lower() == new.lower(): fail('%s/%s has %s already' % (crate, part, f))
    git_mv(path('crates', crate, part, old + '.antt'), path('crates', crate, part, new + '.antt'))
    changed = sum(change(f, [(named(crate, part, old), 'Rattle.%s.%s.%s' % (crate, part, new))]) for f in list(sources()))
    change(lib(crate, part), [(r'(?m)^pub mod %s$' % old, 'pub mod %s' % new)])
    told = sum(change(path(f), [(r'%s/%s/%s%s' % (crate, part, old, END), '%s/%s/%s' % (crate, part, new))]) for f in DOCS)
    print('%s: %s is %s now, %d files and %d documents changed' % (crate, old, new, changed, told))


def lines(folder, skip=()):
    """Lines without comments, imports and blank lines."""
    n = 0
    for at, dirs, files in os.walk(folder):
        for f in files:
            if f.endswith('.antt') and f != 'Lib.antt' and f[:-5] not in skip:
                n += sum(1 for l in text_of(os.path.join(at, f)).splitlines() if l.strip() and not l.strip().startswith(('--', 'use ')))
    return n


def count(crates):
    print('| Crate | specs | proofs, modules | proofs, answers |\n|---|---|---|---|')
    for c in crates:
        all_proofs = lines(path('crates', c, 'proofs'))
        top = sum(
            1 for f in (os.listdir(path('crates', c, 'proofs')) if os.path.isdir(path('crates', c, 'proofs')) else []) if f.endswith('.antt') and f != 'Lib.antt'
            for l in text_of(path('crates', c, 'proofs', f)).splitlines() if l.strip() and not l.strip().startswith(('--', 'use '))
        )
        print('| `%s` | %d | %d | %d |' % (c, lines(path('crates', c, 'specs')), top, all_proofs - top))


def main(words):
    if len(words) > 2 and words[0] == 'move': move(words[1], words[2:])
    elif len(words) > 1 and words[0] == 'mend': mend(words[1:])
    elif len(words) > 4 and words[0] == 'name': name(words[1], words[2], words[3], words[4:])
    elif len(words) == 4 and words[0] == 'rename': rename(*words[1:])
    elif len(words) > 1 and words[0] == 'count': count(words[1:])
    else: fail(__doc__.strip())


main(sys.argv[1:])
