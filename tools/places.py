#!/usr/bin/env python3
"""Counts the places of docs/DESIGN-PASS.md's points in crates/*/src and crates/*/proofs.

    python3 tools/places.py            the counts of each point
    python3 tools/places.py 3          the places of a point, one a line
    python3 tools/places.py --at DIR   the same of another checkout
"""
import os
import re
import sys
from collections import defaultdict

KEYWORDS = set('as bool break const continue crate else enum extern false fn for ghost if impl in let loop match mod move mut pub ref return '
               'self Self static struct super trait true type u8 u16 u32 u64 usize i32 unsafe use where while'.split())
NUMBERS = ('u8', 'u16', 'u32', 'u64', 'usize')


class Function:
    def __init__(self, path, line, name, head, clauses, body):
        self.path, self.line, self.name, self.head, self.clauses, self.body = path, line, name, head, clauses, body
        inside = head[head.index('(') + 1:head.rindex(')')] if '(' in head else ''
        self.parameters = [p.strip() for p in split_top(inside, ',') if p.strip()]


def split_top(text, mark):
    parts, depth, now = [], 0, ''
    for c in text:
        if c in '([{<':
            depth += 1
        elif c in ')]}>':
            depth -= 1
        if c == mark and depth == 0:
            parts.append(now)
            now = ''
        else:
            now += c
    return parts + [now]


def plain(text):
    """The text without comments, each a run of blanks of its length."""
    return re.sub(r'//[^\n]*', lambda m: ' ' * len(m.group()), text)


def closing(text, at):
    depth = 0
    for i in range(at, len(text)):
        if text[i] == '{':
            depth += 1
        elif text[i] == '}':
            depth -= 1
            if depth == 0:
                return i
    return len(text)


def functions(path, text):
    found = []
    for m in re.finditer(r'\bfn (\w+)', text):
        at = text.find('(', m.end())
        depth = 0
        i = at
        while i < len(text):
            depth += text[i] == '('
            depth -= text[i] == ')'
            if depth == 0:
                break
            i += 1
        # Up to the body or the `;`, with clauses in braces between.
        j = i + 1
        clauses = []
        head_end = None
        while j < len(text):
            c = re.match(r'\s*(requires|ensures)(\s+\w+)?\s*\{', text[j:])
            if c:
                head_end = head_end or j
                start = j + c.end() - 1
                end = closing(text, start)
                clauses.append((c.group(1), text[start + 1:end]))
                j = end + 1
                continue
            if text[j] in '{;':
                break
            j += 1
        body = text[j:closing(text, j) + 1] if j < len(text) and text[j] == '{' else ''
        found.append(Function(path, text.count('\n', 0, m.start()) + 1, m.group(1), text[m.start():i + 1], clauses, body))
    return found


def read(top):
    files = []
    for folder, _, names in sorted(os.walk(os.path.join(top, 'crates'))):
        if '/src' in folder and '/out' not in folder:
            for name in sorted(names):
                if name.endswith('.rt'):
                    path = os.path.join(folder, name)
                    text = plain(open(path).read())
                    files.append((os.path.relpath(path, top), text, functions(os.path.relpath(path, top), text)))
    return files


def lines(files, pattern):
    for path, text, _ in files:
        for m in re.finditer(pattern, text, re.M):
            yield '%s:%d: %s' % (path, text.count('\n', 0, m.start()) + 1, ' '.join(m.group().split()))


def one(files):
    """1: numbers for kinds, flags beside a value, own Options and Results."""
    yield 'types that hold only numbers for kinds', list(lines(files, r'^(pub )?struct \w+ \{\}'))
    yield 'numbers in such types', list(lines(files, r'^    (pub )?const [A-Z_0-9]+: (usize|u32)\b'))
    yield 'fields that say whether or why', list(lines(files, r'^    (pub )?(why|is|there|wrong|wants): (usize|u32|bool),'))
    yield 'tests of such a field', list(lines(files, r'\b\w+\.(why|wrong|wants) (!=|==) 0|![a-z]+\.is\b'))
    yield 'own enums of the shape of Option or Result', [
        '%s:%d: %s' % (p, t.count('\n', 0, m.start()) + 1, m.group(1))
        for p, t, _ in files for m in re.finditer(r'^(?:pub )?enum (\w+) \{([^}]*)\}', t, re.M)
        if re.search(r'^\s*(Refused|Short|Cut|Sound|Nothing)\b', m.group(2), re.M)]
    yield 'parameters and fields that take a kind by its number', list(
        lines(files, r'\b(kind|tag|shape|class|sort|op|form|from|side|mark|close|what|wants|wrong): (usize|u32)\b'))


def body_of(f):
    """The body, with locals and parameters by their order, and types and numbers by a mark."""
    names = {}
    local = set(re.findall(r'\b(?:let(?: mut)?|for) \(?([a-z_]\w*)', f.body)) | {p.split(':')[0].strip().lstrip('&').replace('mut ', '') for p in f.parameters}
    out = []
    for w in re.findall(r'[A-Za-z_]\w*|\d[\w]*|\S', f.body):
        if w in local:
            w = names.setdefault(w, 'v%d' % len(names))
        elif w in NUMBERS:
            w = 'T'
        elif w[0].isdigit():
            w = 'N'
        elif w == f.name:
            w = 'F'
        elif re.fullmatch(r'[A-Z][A-Z_0-9]*', w):
            w = 'C'
        out.append(w)
    return ' '.join(out)


def two(files):
    """2: twins: functions whose bodies differ only in names of locals, in number types, numbers and constants."""
    groups = defaultdict(list)
    for _, _, fs in files:
        for f in fs:
            if len(f.body) > 24 and f.name != 'main':
                groups[body_of(f)].append('%s:%d: %s' % (f.path, f.line, f.name))
    yield 'functions that have a twin', [x for g in groups.values() if len(g) > 1 for x in ['  '.join(g)] for _ in g]
    pairs = defaultdict(list)
    for _, _, fs in files:
        for f in fs:
            m = re.fullmatch(r'(.*?)_?(words|bytes|word|byte)', f.name) or re.fullmatch(r'(?:take|check)_(\w+)', f.name)
            if m and m.group(1):
                pairs[m.group(1)].append('%s:%d: %s' % (f.path, f.line, f.name))
    yield 'functions of one name but for a type or a side', ['  '.join(g) for g in pairs.values() if len({x.split(': ')[1] for x in g}) > 1 for _ in g]


def three(files):
    """3: loops that count by hand."""
    yield 'loops by while', list(lines(files, r'^\s*while .*\{'))
    yield 'of these, with an index or a count that the loop moves', [
        '%s:%d: %s' % (p, t.count('\n', 0, m.start()) + 1, m.group(1).strip())
        for p, t, _ in files for m in re.finditer(r'^\s*(while [^\n]*)\{', t, re.M)
        if re.search(r'\b\w+ (\+|-)= ', t[m.end():closing(t, m.end() - 1)])]


def four(files):
    """4: equality, copies, conversions and printing by hand."""
    yield 'functions that only convert a number', [
        '%s:%d: %s' % (f.path, f.line, f.name) for _, _, fs in files for f in fs if re.fullmatch(r'\{\s*\(?\w+( % \w+\))?\)? as \w+\s*\}', f.body)]
    yield 'the lesser or the larger of two by hand', [
        '%s:%d: %s' % (f.path, f.line, f.name) for _, _, fs in files for f in fs
        if re.fullmatch(r'\{\s*if (\w+) < (\w+) \{\s*(return )?(\1|\2);?\s*\}\s*(else \{)?\s*(\1|\2)\s*\}?\s*\}', f.body)]
    yield 'values copied field by field', [
        '%s:%d: %s' % (p, t.count('\n', 0, m.start()) + 1, ' '.join(m.group().split())[:90])
        for p, t, _ in files for m in re.finditer(r'\b[A-Z]\w+ \{[^{}]*\}', t) if len(re.findall(r'\b(\w+): \w+\.\1\b', m.group())) > 1]
    yield 'bytes compared one by one', [
        '%s:%d: %s' % (f.path, f.line, f.name) for _, _, fs in files for f in fs if re.search(r'while[^{]*\{\s*if [^{]*(!=)[^{]*\{\s*return false;', f.body)]
    yield 'ladders: an if that returns true or false', list(lines(files, r'if [^\n{]*\{\s*return (true|false);\s*\}'))


def five(files):
    """5: facts that stand in three contracts or more, parameters that travel together."""
    facts = defaultdict(list)
    for _, _, fs in files:
        for f in fs:
            for kind, text in f.clauses:
                for fact in re.split(r'×|\n', text):
                    fact = ' '.join(fact.split()).strip()
                    while fact.startswith('(') and fact.endswith(')'):
                        fact = fact[1:-1].strip()
                    if fact and kind == 'requires':
                        facts[fact].append('%s:%d: %s' % (f.path, f.line, f.name))
    yield 'conditions that stand in three contracts or more', ['%s: %s' % (x, fact) for fact, xs in facts.items() if len(xs) > 2 for x in xs]
    yield 'functions with seven parameters or more', ['%s:%d: %s, %d' % (f.path, f.line, f.name, len(f.parameters)) for _, _, fs in files for f in fs if len(f.parameters) > 6]
    yield 'a buffer and a place in it as two parameters', [
        '%s:%d: %s' % (f.path, f.line, f.name) for _, _, fs in files for f in fs if re.search(r'out: &mut \[u8; \d+\],\s*at: usize', f.head)]


def six(files):
    """6: buffers with a length beside, lists in one text, rooms of fixed size."""
    yield 'parameters that are arrays of a fixed size', list(lines(files, r'\b\w+: &(mut )?\[u(8|16|32|64); \w[\w:]*\]'))
    yield 'functions that only make such an array', list(lines(files, r'fn \w+\(\) -> \[u(8|16|64); \w+\]'))
    yield 'lists in one text with marks between', list(lines(files, r'b"[^"\n]*\|[^"\n]*\|"'))


def seven(files):
    """7: switches on which step to run."""
    def ladder(f):
        named = re.findall(r'\bif (?:\w+\.)*(\w+) == [\w:]+', f.body)
        return any(named.count(n) > 2 for n in named)
    yield 'functions that compare one value with three or more', ['%s:%d: %s' % (f.path, f.line, f.name) for _, _, fs in files for f in fs if ladder(f)]
    yield 'tables of functions', list(lines(files, r'\[fn\(|: fn\('))


def eight(files, top):
    """8: proofs: answers and invariants that are written down."""
    answers, invariants, total = [], [], 0
    for folder, _, names in sorted(os.walk(os.path.join(top, 'crates'))):
        if '/proofs' in folder and '/out' not in folder:
            for name in sorted(names):
                if name.endswith('.antt'):
                    text = open(os.path.join(folder, name)).read()
                    total += text.count('\n')
                    found = re.findall(r'^(?:abbrev )?pub [\w+-]+ : goal\.([\w+-]+)', text, re.M)
                    where = os.path.relpath(os.path.join(folder, name), top)
                    (answers if name == 'Answers.antt' else invariants).extend('%s: %s' % (where, x) for x in found)
    yield 'answers', answers
    yield 'invariants and measures', invariants
    yield 'lines of proofs', [''] * total


def main():
    argv = sys.argv[1:]
    top = os.path.join(os.path.dirname(os.path.abspath(__file__)), '..')
    if '--at' in argv:
        top = argv[argv.index('--at') + 1]
        del argv[argv.index('--at'):argv.index('--at') + 2]
    files = read(top)
    points = [one, two, three, four, five, six, seven]
    for point in points + [lambda x: eight(x, top)]:
        number = points.index(point) + 1 if point in points else 8
        if argv and argv[0] != str(number):
            continue
        for what, places in point(files):
            print('%d. %s: %d' % (number, what, len(places)))
            if argv:
                print('\n'.join('    ' + x for x in places if x))


main()
