"""Brings this repository's own definitions and lemmas to the spelling of today's Rattle: words in snake case, types and facts in
upper camel case. It was run once, after the kit's port.py, and is kept so that the renaming can be made again on an older commit:

    python3 tools/snake_names.py [ROOT] [--say]

What it does, in this order: it collects the names that the files of specs/ and proofs/ declare; finds the new spelling of each; finds
the names that would fall together in one file, and gives that of such a pair which had a dash, mostly a lemma, the ending `_lem`; then
respells each file of crates/, what stands between back quotes in comments and pages, and the names at which the edits of tests/across
are refused. A name that a file takes from a library, and what stands behind the name of such a module, keeps its spelling. Functions
of src/, exported names, strings and data are not touched. With --say it only tells which names fall together.
"""
import collections
import glob
import os
import re
import sys

ROOT = sys.argv[1] if len(sys.argv) > 1 and not sys.argv[1].startswith('-') else '.'
TOKEN = re.compile(r"[A-Za-z\u0370-\u03ff\u2100-\u214f\U0001d400-\U0001d7ff\u03ba][\w'\u2080-\u2089\u2070-\u207f-]*")
DECLARED = re.compile(r"^(\s*)((?:abbrev |unfoldable |pub |opaque )*)([^\s(){}:;,.◌]+)\s+:(?:\s|$)")
TYPED = re.compile(r"^(\s*)(?:pub )?(?:data|record|ruleset) ([^\s(){}:;,.]+)")
USE = re.compile(r"^\s*(?:pub )?(?:ghost )?use ([^;\n]+)", re.M)
# Names that would fall together with another in some file, and are told apart by more than the ending.
BY_HAND = {'few-rows': 'rows_within'}
# Names in snake case already that a respelled definition meets: the files, the name, and what stands for it there.
MOVED = [
    ('crates/laws/proofs/*.antt', 'is_open', 'stands_open'),
    ('crates/demands/proofs/*.antt', 'is_open', 'stands_open'),
    ('crates/demands/proofs/Refusals.antt', 'no_of', 'no_told'),
    ('crates/tarnsatchel/proofs/HeadNumbers.antt', 'no_record', 'names_no_record'),
    ('crates/laws/proofs/*.antt', 'all_hold', 'all_hold_lem'),
    ('crates/laws/proofs/*.antt', 'at_each', 'at_each_lem'),
    ('crates/laws/proofs/TreeRefusals.antt', 'of_tree', 'of_tree_lem'),
    ('crates/text/proofs/WrittenTexts.antt', 'bytes_back', 'bytes_back_lem'),
    ('crates/*/proofs/**/*.antt', 'rows_in', 'rows_in_lem'),
]


def files(*ends):
    found = []
    for end in ends:
        found += glob.glob(os.path.join(ROOT, end), recursive=True)
    return sorted(f for f in found if '/out/' not in f)


def snake(name):
    out = []
    for part in name.split('-'):
        if part[:1].isupper():
            out.append(part)
        else:
            out.append(re.sub(r'(?<=[a-z0-9\u2080-\u2089\'])([A-Z])', lambda m: '_' + m.group(1).lower(), part))
    return '_'.join(out)


def read(f):
    with open(f, encoding='utf8') as opened:
        return opened.read()


ANTT = files('crates/*/specs/**/*.antt', 'crates/*/proofs/**/*.antt')
RT = files('crates/*/src/**/*.rt')
OWN = set()
for f in ANTT:
    crate, rest = re.match(r'.*?crates/([^/]+)/(.*)\.antt$', f).groups()
    OWN.add('Rattle.' + crate + '.' + rest.replace('/', '.'))

declared = collections.defaultdict(set)
for f in ANTT:
    for line in read(f).split('\n'):
        for pattern, group in ((DECLARED, 3), (TYPED, 2)):
            m = pattern.match(line)
            if m and TOKEN.fullmatch(m.group(group)):
                declared[m.group(group)].add(f)

renamed = {n: snake(n) for n in declared if snake(n) != n}
renamed.update({n: t for n, t in BY_HAND.items() if n in declared})


def kept(text):
    """The names that a file takes from elsewhere, and the names of modules that are not this repository's."""
    names, modules = set(), set()
    for m in USE.finditer(text):
        said = m.group(1)
        path = re.match(r'\s*([^\s{]+?)\.?(?:\{|\s|$)', said).group(1)
        listed = re.search(r'\{([^}]*)\}', said)
        alias = re.search(r'\bas\s+(\S+)\s*$', re.sub(r'\{.*\}', '', said))
        if path in OWN:
            continue
        if listed:
            for part in listed.group(1).split(','):
                words = part.split()
                if words:
                    names.add(words[0])
                    names.add(words[-1])
        else:
            modules.add(alias.group(1) if alias else path.split('.')[-1])
    return names, modules


def comment_at(line):
    """Where the comment of a line begins."""
    m = re.search(r'(^|\s)--(\s|$)', line)
    return m.start() if m else len(line)


def spell(text, keep, modules, table, seen=None):
    def one(m):
        name = m.group(0)
        if name not in table or name in keep:
            if seen is not None:
                seen.setdefault(name, set()).add(name)
            return name
        before = text[:m.start()]
        behind = re.search(r"([\w'-]+)\.$", before)
        if behind and behind.group(1) in modules:
            return name
        if seen is not None:
            seen.setdefault(table[name], set()).add(name)
        return table[name]
    return TOKEN.sub(one, text)


def quoted(text, table):
    return re.sub(r'`[^`\n]+`', lambda m: spell(m.group(0), set(), set(), table), text)


MOVES = collections.defaultdict(dict)
for where, old, new in MOVED:
    for f in files(where):
        MOVES[f][old] = new


def turn(f, table, seen=None):
    text = read(f)
    keep, modules = kept(text)
    table = {**table, **MOVES[f]}
    out = []
    rust = f.endswith('.rt')
    inside = 0
    for line in text.split('\n'):
        if rust:
            comment = line.find('//')
            head, tail = (line, '') if comment < 0 else (line[:comment], line[comment:])
            if re.match(r'\s*ghost use ', head) or re.match(r'\s*(requires|ensures|ghost|invariant)\b', head) or inside:
                inside += head.count('{') - head.count('}')
                inside = max(inside, 0)
                head = spell(head, keep, modules, table, seen)
            elif seen is not None:
                for m in TOKEN.finditer(head):
                    seen.setdefault(m.group(0), set()).add(m.group(0))
            out.append(head + quoted(tail, table))
        else:
            at = comment_at(line)
            head, tail = line[:at], line[at:]
            head = spell(head, keep, modules, table, seen)
            out.append(head + quoted(tail, table))
    return text, '\n'.join(out)


def fallen(table):
    """The names that fall together in a file."""
    found = collections.defaultdict(set)
    for f in ANTT:
        # The proof of a function, and what names such proofs by the function: there a module and a definition have one name.
        if f.endswith('/Proof.antt') or f.endswith(('tarnsatchel/proofs/Asking.antt', 'tarnsatchel/proofs/Writing.antt')):
            continue
        seen = {}
        turn(f, table, seen)
        for name, olds in seen.items():
            if len(olds) > 1:
                found[(name, tuple(sorted(olds)))].add(f)
    return found


together = fallen(renamed)
for (name, olds), where in sorted(together.items()):
    for old in olds:
        if '-' in old and old not in BY_HAND:
            renamed[old] = name + '_lem'
still = fallen(renamed)
if '--say' in sys.argv:
    for (name, olds), where in sorted(together.items()):
        print('together', name, olds, [os.path.relpath(f, ROOT) for f in sorted(where)][:4])
    for (name, olds), where in sorted(still.items()):
        print('STILL', name, olds, [os.path.relpath(f, ROOT) for f in sorted(where)])
    sys.exit()
if still:
    sys.exit('names fall together: ' + ', '.join(name for name, _ in still))

changed = 0
for f in ANTT + RT:
    old, new = turn(f, renamed)
    if new != old:
        changed += 1
        with open(f, 'w', encoding='utf8') as opened:
            opened.write(new)
for f in files('README.md', 'docs/*.md', 'examples/*.md', 'tests/**/*.md'):
    old = read(f)
    new = quoted(old, renamed)
    if new != old:
        changed += 1
        with open(f, 'w', encoding='utf8') as opened:
            opened.write(new)
for f in files('tests/across/*.edit'):
    old = read(f)
    new = re.sub(r'^at: (.*)$', lambda m: 'at: ' + spell(m.group(1), set(), set(), renamed), old, flags=re.M)
    if new != old:
        changed += 1
        with open(f, 'w', encoding='utf8') as opened:
            opened.write(new)
print(len(renamed), 'names in', changed, 'files')
