#!/usr/bin/env python3
"""Counts the places at which the source could read as today's Rattle allows.

    python3 tools/places.py [ROOT] [-v]

ROOT is a checkout (this one where none is given). For each of eight kinds of
place it prints how many candidates a rule finds, and with -v each of them as
file:line: text. The rules go by text: docs/DESIGN-PASS.md says which
candidates are places, and what became of them.
"""
import difflib
import os
import re
import sys
from collections import defaultdict

args = [a for a in sys.argv[1:] if not a.startswith('-')]
VERBOSE = '-v' in sys.argv
ROOT = args[0] if args else os.path.dirname(os.path.dirname(os.path.abspath(__file__)))


def sources(end, folder):
    for crate in sorted(os.listdir(os.path.join(ROOT, 'crates'))):
        base = os.path.join(ROOT, 'crates', crate, folder)
        for here, dirs, files in sorted(os.walk(base)):
            for name in sorted(files):
                if name.endswith(end):
                    path = os.path.join(here, name)
                    yield crate, os.path.relpath(path, ROOT), open(path, encoding='utf-8').read()


def without_comments(text):
    return re.sub(r'//[^\n]*', lambda m: ' ' * len(m.group()), text)


FILES = [(c, p, without_comments(t)) for c, p, t in sources('.rt', 'src')]
TESTS = {c for c, _, _ in FILES if c.endswith('_cases')}


def is_test(crate, path):
    return crate in TESTS or path.endswith('tests.rt')


def block(text, at):
    """From the brace at `at` to behind the one that closes it."""
    depth = 0
    for i in range(at, len(text)):
        if text[i] == '{':
            depth += 1
        elif text[i] == '}':
            depth -= 1
            if depth == 0:
                return text[at:i + 1]
    return text[at:]


def line_of(text, at):
    return text.count('\n', 0, at) + 1


class Function:
    def __init__(self, crate, path, text, match):
        self.crate, self.path, self.line = crate, path, line_of(text, match.start())
        self.name = match.group(1)
        rest = text[match.end():]
        depth, i = 1, 0
        while depth:                     # to the parenthesis that ends the parameters
            depth += {'(': 1, ')': -1}.get(rest[i], 0)
            i += 1
        self.parameters = rest[:i - 1]
        rest = rest[i:]
        self.clauses = []
        clause = re.compile(r'\s*(requires|ensures)(?:\s+([a-z_]+))?\s*(\{)')
        head = re.match(r'[^{;]*?(?=\n\s*(?:requires|ensures)\b|\{|;)', rest)
        self.result = head.group() if head else ''
        at = head.end() if head else 0
        while True:
            m = clause.match(rest, at)
            if not m:
                break
            body = block(rest, m.start(3))
            self.clauses.append((m.group(1), body[1:-1].strip()))
            at = m.start(3) + len(body)
        m = re.match(r'\s*\{', rest[at:])
        self.body = block(rest, at + m.end() - 1) if m else ''

    def where(self):
        return '%s:%d: %s' % (self.path, self.line, self.name)


def functions():
    for crate, path, text in FILES:
        for match in re.finditer(r'\bfn\s+([a-z_0-9]+)\s*(?:<(?:[^<>()]|<[^<>]*>|\([^()]*\)|->)*>)?\(', text):
            yield Function(crate, path, text, match)


FUNCTIONS = [f for f in functions() if not is_test(f.crate, f.path)]
CODE = [(c, p, t) for c, p, t in FILES if not is_test(c, p)]


def found(pattern, flags=re.M):
    for crate, path, text in CODE:
        for m in re.finditer(pattern, text, flags):
            shown = ' '.join(m.group().split())
            yield '%s:%d: %s' % (path, line_of(text, m.start()), shown[:110])


def types():
    for crate, path, text in CODE:
        for m in re.finditer(r'\b(struct|enum)\s+([A-Z]\w*)[^{;(]*\{', text):
            body = block(text, m.end() - 1)[1:-1]
            yield m.group(1), m.group(2), '%s:%d' % (path, line_of(text, m.start())), body


def variants(body):
    depth, part, out = 0, '', []
    for ch in body:
        depth += {'(': 1, '{': 1, '[': 1, '<': 1, ')': -1, '}': -1, ']': -1, '>': -1}.get(ch, 0)
        if ch == ',' and depth == 0:
            out.append(part.strip())
            part = ''
        else:
            part += ch
    out.append(part.strip())
    return [v for v in out if v and not v.startswith('ghost ')]


def point_1():
    for kind, name, where, body in types():
        parts = variants(body)
        if kind == 'enum' and len(parts) == 2 and any('(' in p or '{' in p for p in parts):
            yield '%s: enum %s { %s }' % (where, name, ', '.join(' '.join(p.split()) for p in parts))
        if kind == 'struct' and len(parts) > 1 and any(re.search(r':\s*bool$', p) for p in parts):
            yield '%s: struct %s has a flag' % (where, name)
        if kind == 'struct' and any(re.search(r':\s*u8$', p) for p in parts):
            yield '%s: struct %s has a small number' % (where, name)


KEYWORDS = set('let mut match if else for while loop in return fn true false Some None Ok Err self as'.split())


def shape(f):
    tokens = re.findall(r"b'[^']*'|b?\"[^\"]*\"|[A-Za-z_]\w*|\d[\d_]*|[^\sA-Za-z_0-9]", f.body)
    out = []
    for t in tokens:
        if re.match(r'[A-Za-z_]', t) and t not in KEYWORDS and not t.startswith(("b'", 'b"')):
            out.append('name')
        elif re.match(r'\d', t) or t.startswith(("b'", 'b"', '"')):
            out.append('constant')
        else:
            out.append(t)
    return out


def point_2():
    fs = [(f, shape(f)) for f in FUNCTIONS if f.body]
    fs = [(f, s) for f, s in fs if len(s) >= 14]
    parent = list(range(len(fs)))

    def root(i):
        while parent[i] != i:
            i = parent[i]
        return i

    for i in range(len(fs)):
        for j in range(i):
            a, b = fs[i][1], fs[j][1]
            if abs(len(a) - len(b)) > 0.12 * max(len(a), len(b)):
                continue
            m = difflib.SequenceMatcher(None, a, b, autojunk=False)
            if m.quick_ratio() > 0.93 and m.ratio() > 0.93:
                parent[root(i)] = root(j)
    groups = defaultdict(list)
    for i, (f, _) in enumerate(fs):
        groups[root(i)].append(f)
    for group in groups.values():
        if len(group) > 1:
            yield ' ~ '.join(f.where() for f in group)


def point_3():
    yield from found(r'\bwhile\b(?! let)[^{]*\{')
    yield from found(r'\bfor \w+ in [^{\n]*\.\.[^{\n]*\{')


def point_4():
    for f in FUNCTIONS:
        body = ' '.join(f.body.split())
        if re.fullmatch(r'\{ match \w+(?:\.\w+\(\))*(?:\.\w+)* \{ [^{}]* => (true|false), [^{}]* => (true|false),? \} \}', body):
            yield f.where() + ': a test of one case'
        elif re.search(r'if ([\w.]+(?: - 1)?) < ([\w.]+)\.len\(\) \{ \2\[\1\]', body):
            yield f.where() + ': the element, or another value'
        elif len(re.findall(r'if same(?:_name)?\(', body)) > 1:
            yield f.where() + ': a chain of comparisons'
        elif re.fullmatch(r'\{ a == b \}', body):
            yield f.where() + ': equality under another name'
        elif "&'static str" in f.result:
            yield f.where() + ': the text of a value'
        elif re.search(r'(^|_)of_|_named$|^class_of$|^classify$|^fit$', f.name) and 'match' in body:
            yield f.where() + ': a conversion'
        if f.name in ('place', 'spot') and len(re.findall(r'=> \*?place,', body)) > 1:
            yield f.where() + ': arms that say the same'


def plain(clause):
    return re.sub(r'\.(now|old|new|entry|exit)\b', '', ' '.join(clause.split()))


def point_5():
    facts = defaultdict(list)
    for f in FUNCTIONS:
        for kind, text in f.clauses:
            for part in re.split(r'\s×\s', plain(text)):
                part = part.strip('() ')
                if 'result' in part or len(part) < 8:
                    continue
                facts[(f.crate, part)].append(f)
    for (crate, fact), fs in sorted(facts.items(), key=lambda e: e[0]):
        if len({x.where() for x in fs}) > 2:
            yield '%s: %d contracts say: %s' % (crate, len(fs), fact)
    groups = defaultdict(set)
    for f in FUNCTIONS:
        names = [' '.join(p.split()) for p in variants(f.parameters)]
        names = sorted(n for n in names if ':' in n)
        for i in range(len(names)):
            for j in range(i + 1, len(names)):
                for k in range(j + 1, len(names)):
                    groups[(f.crate, names[i], names[j], names[k])].add(f.where())
    best = {}
    for key, fs in groups.items():
        if len(fs) > 2:
            best.setdefault((key[0], frozenset(fs)), set()).update(key[1:])
    for (crate, fs), names in sorted(best.items(), key=lambda e: (e[0][0], -len(e[0][1]))):
        yield '%s: %d functions take: %s' % (crate, len(fs), '; '.join(sorted(names)))


def point_6():
    for kind, name, where, body in types():
        for part in variants(body):
            part = ' '.join(part.split())
            if re.search(r'\[[^\]]+; \w+\]', part) or re.search(r'\busize\b', part):
                yield '%s: %s: %s' % (where, name, part)


def point_7():
    units = {}
    for kind, name, where, body in types():
        parts = variants(body)
        if kind == 'enum' and parts and not any('(' in p or '{' in p for p in parts):
            units[name] = where
    for f in FUNCTIONS:
        for p in variants(f.parameters):
            m = re.match(r'(\w+|self)(?::\s*(\w+))?$', ' '.join(p.split()))
            if not m:
                continue
            kind = m.group(2)
            if kind in units and re.search(r'\b%s\b' % m.group(1), f.body) and re.search(r'\b(for|while)\b', f.body):
                yield f.where() + ': a loop led by ' + kind
    yield from found(r'\bdyn [A-Z]\w*|: fn\(')


def point_8():
    for crate, path, text in sources('.antt', 'proofs'):
        for m in re.finditer(r'^(?:pub )?(\S+) : goal\.', text, re.M):
            yield '%s:%d: %s' % (path, line_of(text, m.start()), m.group(1))


NAMES = [
    'enums like Option or Result, flags with a value, numbers for kinds',
    'twins',
    'loops that count an index by hand',
    'equality, conversion and printing by hand',
    'facts and parameters that repeat',
    'lengths and indices beside what they are of',
    'switches on which step to run',
    'answers in proofs',
]


def main():
    for n, name in enumerate(NAMES, 1):
        places = list(globals()['point_%d' % n]())
        print('%d. %s: %d' % (n, name, len(places)))
        if VERBOSE:
            for place in places:
                print('    ' + place)


if __name__ == '__main__':
    main()
