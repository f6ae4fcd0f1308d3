"""Brings the repository's own definitions and lemmas to snake case, and its own facts to upper camel case.

Run once, at the top of the repository, after the scripts of the new Rattle. It goes by whole names: a name is respelled where a file of specs/ or
proofs/ declares it, and then wherever it stands as a word in .antt, .rt and .edit files, and between backticks in the pages. Names that the
library declares keep their spelling, and so do the names of a function's goals and steps.
"""
import collections
import os
import re
import sys

ROOT = os.path.abspath(sys.argv[1] if len(sys.argv) > 1 else '.')
DRY = '--dry' in sys.argv
STOP = r"\s(){};.,«»`"
TOKEN = re.compile(r"[^%s]+" % STOP)


def files(*ends):
    for folder, names, found in os.walk(ROOT):
        names[:] = [n for n in names if n not in ('.git', 'target', 'out', 'tools')]
        for name in found:
            if name.endswith(ends):
                yield os.path.join(folder, name)


def read(path):
    with open(path, encoding='utf-8') as f:
        return f.read()


def own_word(path):
    """The word that stands in a path of this repository."""
    return re.match(r"Rattle\.(\w+)\.", path)


DECLARED = re.compile(r"^\s*(?:(?:abbrev|unfoldable|pub|data|record|ruleset)\s+)*((?:[^%s:=])+)\s*:(?:\s|$)" % STOP)
LEAD = re.compile(r"^\s*(?:(?:abbrev|unfoldable|pub|data|record|ruleset)\s+)+([^%s:=]+)" % STOP)


def snake(name):
    name = re.sub(r"(?<=[a-z0-9'])([A-Z])", r"_\1", name)
    name = re.sub(r"-(?=[a-z0-9_A-Z])", "_", name)
    return name.lower()


def camel(name):
    return ''.join(p[:1].upper() + p[1:] for p in re.split(r"[-_]", name))


def is_type(lines, at, name):
    """Whether the declaration of `name` that begins on line `at` ends in `Type 0`."""
    joined = lines[at]
    for line in lines[at + 1:at + 8]:
        if not line.strip() or line.strip().startswith(('--', 'unfolding ', name + ' ')):
            break
        joined += ' ' + line.strip()
    return not re.match(r"\s*(?:pub )?(?:data|record)\b", joined) and bool(re.search(r"(:|→)\s*Type 0\s*$", joined))


crates = set(os.listdir(os.path.join(ROOT, 'crates')))
library = set()
declared = collections.defaultdict(set)
types = collections.defaultdict(set)
goals = set()
for path in files('.antt', '.rt'):
    text = read(path)
    for m in re.finditer(r"use\s+([\w.]+)\.\{([^}]*)\}", text):
        head = own_word(m.group(1) + '.')
        if not (head and head.group(1) in crates):
            for word in m.group(2).split(','):
                library.update(TOKEN.findall(word))
    if not path.endswith('.antt'):
        continue
    lines = text.split('\n')
    for at, line in enumerate(lines):
        m = DECLARED.match(line)
        if m and re.search(r"\btie\.(Need|invariant|decreases|After|At)", line):
            goals.add(m.group(1))
            continue
        for rule in (DECLARED, LEAD):
            m = rule.match(line)
            if m and m.group(1) not in ('use', 'mod', 'module', 'open', 'let', 'in', '_'):
                declared[m.group(1)].add(path)
                if is_type(lines, at, m.group(1)):
                    types[m.group(1)].add(path)

KEEP = {'invariant-loop', 'decreases-loop'}
made = {}
for name in declared:
    if name in library or name in goals or name in KEEP or not re.match(r"^[a-z]", name) or "◌" in name:
        continue
    if re.search(r"-spec$", name):
        made[name] = snake(name[:-5]) + '_spec'
    elif name in types:
        if re.search(r"[-A-Z]", name) or types[name] == declared[name]:
            made[name] = camel(name)
    elif re.search(r"[A-Z]|-[a-z0-9]", name):
        made[name] = snake(name)
made = {a: b for a, b in made.items() if a != b}

# A lemma that would have its function's name gets `_lem`.
LEMMAS = {'held_fits', 'held_in', 'in_order', 'list_at', 'no_line', 'one_more'}
made.update({name: name + '_lem' for name in LEMMAS})
made.pop('of', None)
taken = set(declared) | library | {b for a, b in made.items() if '-' not in a}
for name in [a for a in made if '-' in a]:
    if made[name] in taken:
        made[name] += '_lem'

for path in files('.antt'):
    for word in TOKEN.findall(re.sub(r"--.*", "", read(path))):
        if re.match(r"^[a-z][a-z0-9]*[A-Z]", word) and word not in made and word not in library and word not in goals and snake(word) not in taken:
            made[word] = snake(word)

back = collections.defaultdict(set)
for a, b in made.items():
    back[b].add(a)
everything = (set(declared) | library) - LEMMAS
for b, names in sorted(back.items()):
    if len(names) > 1 or b in everything:
        print('falls together:', b, sorted(names), '(there already)' if b in everything else '', sorted({os.path.relpath(p, ROOT) for n in list(names) + [b] for p in declared.get(n, ())})[:6])

if '--list' in sys.argv:
    for a, b in sorted(made.items()):
        print(a, b)
if DRY:
    sys.exit(0)


def respell(text, keep=()):
    out, at = [], 0
    for m in TOKEN.finditer(text):
        word = m.group(0)
        out.append(text[at:m.start()])
        at = m.end()
        before = text[m.start() - 1] if m.start() else ''
        core = word
        if core in made and core not in keep and not (before == '.' and '-' in core and core not in FIELDS):
            core = made[core]
        out.append(core)
    out.append(text[at:])
    return ''.join(out)


FIELDS = set()
for path in files('.antt'):
    text = read(path)
    for m in re.finditer(r"(?m)^(\s*)(?:pub )?record .*where\n((?:\1\s+.*\n|\s*--.*\n)+)", text):
        for line in m.group(2).split('\n'):
            f = re.match(r"\s+(?:pub )?([^%s:]+)\s*:" % STOP, line)
            if f:
                FIELDS.add(f.group(1))

for path in files('.antt', '.rt', '.edit'):
    old = read(path)
    new = respell(old, () if path.endswith('.antt') else LEMMAS)
    if new != old:
        with open(path, 'w', encoding='utf-8') as f:
            f.write(new)
for path in files('.md'):
    old = read(path)
    new = re.sub(r"`[^`\n]+`", lambda m: respell(m.group(0), LEMMAS), old)
    if new != old:
        with open(path, 'w', encoding='utf-8') as f:
            f.write(new)
print('respelled:', len(made))
