"""Turns proofs that walk the code (Proof.antt over `Tie`) into invariants and answers, by the names that `rt check --generated DIR --old-names` lists.

usage: answers.py CRATE_FOLDER NAMES_JSON [FUNCTION ..]

What it cannot turn by itself it prints, a line each, beginning with the function's name. The file that it turned is removed.
"""
import json
import os
import re
import sys

W = r"[^\s(){}.;,«»]+"


def norm(name):
    return re.sub(r"-+", "-", name.replace('_', '-').replace("'", ''))


def strip_old(name):
    """An old name of a goal, without the words that the first scripts put before it."""
    n = norm(name)
    n = re.sub(r"^(overflow|nonzero)-", "", n)
    return n


class Function:
    def __init__(self, crate, folder, name, table):
        self.crate, self.folder, self.name, self.table = crate, folder, name, table
        self.path = os.path.join(folder, 'Proof.antt')
        self.said = []
        t = table
        self.place_new = {}
        self.parent = {}
        self.step = {}
        self.fields = {}
        self.place_of_new = {}
        self.renamed = {}
        self.args = {}
        for entry in t['args']:
            if isinstance(entry, (list, tuple)) and len(entry) == 2:
                a, b = entry
                self.args[a] = b
        self.arm = {}
        self.places_used = set()
        stems = {re.sub(r"-\d+$", "", n) for n in t['places_by_name'] if re.match(r"(?i)in[-_]", n)}
        for (old, up, (so, sn), callee, extra), new, clauses, arms in zip(t['places'], t['places_by_name'], t['clauses'], t['arms']):
            bare = re.sub(r"-\d+$", "", new)
            if re.match(r"(?i)in[-_]", new) and bare in t['places_by_name']:
                new = bare
            self.place_new[norm(old)] = new
            if arms:
                for field, step, route in arms[2]:
                    if route:
                        self.arm[(norm(step), tuple(route))] = (arms[0], field)
            self.parent[norm(old)] = norm(up) if up else None
            if so:
                self.step.setdefault(norm(so), sn)
                self.step[(norm(old), norm(so))] = sn
            if clauses:
                self.fields[(norm(old), norm(so))] = clauses['fields']
                self.fields.setdefault(norm(so), clauses['fields'])
            for a, b in extra:
                self.renamed[(norm(old), norm(so), a)] = b
        self.goals = {}
        for (old, new), (po, pn) in zip(t['needs'], t['asked_at']):
            self.goals[norm(old)] = (new, norm(po), pn)
        self.goal_by_stripped = {}
        for old, v in self.goals.items():
            self.goal_by_stripped.setdefault(strip_old(old), v)
        self.loops = {norm(l[0][0]): (l[0][1], l[1], ch) for l, ch in zip(t['loops'], t['changed'])}

    def say(self, text):
        self.said.append('%s: %s' % (self.name, text))

    def goal_of(self, old):
        n = norm(old)
        if n in self.goals:
            return self.goals[n]
        # the first scripts put a loop's later names for its older ones
        for key in (strip_old(n),):
            if key in self.goal_by_stripped:
                return self.goal_by_stripped[key]
        for v in self.goals.values():
            if norm(v[0]) == n:
                return v
        return None

    def place_at(self, place, depth):
        for _ in range(depth):
            place = self.parent.get(place) if place else None
        return place

    def paths(self, text, place, goal, var='c'):
        """The paths of the context `var`, which stands at `place`, by the names of steps."""
        # a let that names an earlier place is read as that place
        for _ in range(9):
            m = re.search(r"\n?[ \t]*let (%s) = %s((?:\.before)*) in(?![\w'-])" % (W, re.escape(var)), text)
            if not m:
                break
            rest = re.sub(r"(?<![\w.'-])%s(?=\.|[\s)])" % re.escape(m.group(1)), lambda q: var + m.group(2), text[m.end():])
            text = text[:m.start()] + rest
        pat = re.compile(r"(?<![\w.'-])%s((?:\.before)*)((?:\.%s)*)(?![\w'])" % (re.escape(var), W))

        def turn(m):
            depth = m.group(1).count('.before')
            rest = re.findall(r"\.(%s)" % W, m.group(2))
            here = self.place_at(place, depth)
            if here is None and rest and rest[0].replace('-', '_') in ('args', 'ranges', 'requires', 'pre', 'well_formed', 'lifetimes'):
                here = 'Start'
            if here is None:
                self.say('no place for %s' % m.group(0))
                return m.group(0)
            if not rest:
                if depth == 0:
                    return var
                new = self.place_new.get(here, here)
                self.places_used.add(new)
                return ('(goal.at.%s %s).%s' % (goal, var, new)) if goal else '(?%s %s)' % (new, var)
            first = rest[0].replace('well-formed', 'well_formed')
            n = norm(first)
            if n not in self.step and norm(re.sub(r"_lem$", "", first)).lower() in self.step:
                n = norm(re.sub(r"_lem$", "", first)).lower()
            if first in ('args', 'ranges', 'requires', 'pre', 'well_formed', 'lifetimes'):
                out = ['requires' if first == 'pre' else first]
                if len(rest) > 1:
                    for a, b in self.args.items():
                        if a == '.%s .%s' % (first, rest[1]):
                            rest[1] = b.split('.')[-1]
            elif any((n, tuple(rest[1:k])) in self.arm for k in range(2, len(rest) + 1)):
                k = max(k for k in range(2, len(rest) + 1) if (n, tuple(rest[1:k])) in self.arm)
                out = list(self.arm[(n, tuple(rest[1:k]))])
                rest = rest[k - 1:]
            else:
                new = self.step.get((here, n)) or self.step.get(n)
                if new is None:
                    self.say('no step %s at %s' % (first, here))
                    new = first
                out = [new]
                if len(rest) > 1 and (here, n, rest[1]) in self.renamed:
                    rest[1] = self.renamed[(here, n, rest[1])]
                f = self.fields.get((here, n)) or self.fields.get(n)
                if f and len(rest) > 1 and rest[1] == 'ensures':
                    if len(rest) > 2 and rest[2].isdigit() and int(rest[2]) < len(f):
                        rest[2] = f[int(rest[2])]
                    elif len(rest) == 2 and len(f) > 1:
                        self.say('whole ensures of %s: %s' % (new, f))
            return '.'.join([var] + out + rest[1:])

        text = pat.sub(turn, text)
        for a, b in self.args.items():
            if a.startswith('.args .'):
                text = re.sub(r"\.%s(?![\w'-])" % re.escape(a[7:]), '.' + b.split('.')[-1], text)
        return text

    def types(self, text):
        def turn(m):
            n = norm(m.group(1))
            if n in self.place_new:
                self.places_used.add(self.place_new[n])
                return self.place_new[n]
            return m.group(0)
        text = re.sub(r"tie\.((?:After|Then|Else|In|At|Joined|Start)%s)(?:\s+invariant-loop\d*\s+decreases-loop\d*)*" % r"[^\s(){}.;,«»]*", turn, text)
        return text

    def run(self):
        text = open(self.path, encoding='utf-8').read()
        if 'tie.spec' not in text:
            print('%s: a walk by hand, left' % self.name)
            return
        lines = text.split('\n')
        head, uses, blocks = [], [], []
        i = 0
        while i < len(lines):
            line = lines[i]
            if line.startswith('use '):
                uses.append(line)
            elif not uses and (line.startswith('--') or not line.strip()) and not blocks:
                head.append(line)
            else:
                break_at = i
                break
            i += 1
        rest = lines[i:]
        # blocks: a run of lines with no blank line at top level
        block = []
        for line in rest:
            if not line.strip() and block:
                blocks.append(block)
                block = []
            elif line.strip():
                block.append(line)
        if block:
            blocks.append(block)
        # a module's block goes on over blank lines
        joined = []
        for b in blocks:
            if joined and b[0].startswith(' '):
                joined[-1] += [''] + b
            else:
                joined.append(b)
        invariants, answers = [], []
        known = {}
        last = None
        for b in joined:
            comment = [l for l in b if l.startswith('--')] if b[0].startswith('--') else []
            k = 0
            while k < len(b) and b[k].startswith('--'):
                k += 1
            comment, body = b[:k], b[k:]
            if not body:
                answers.append(comment)
                continue
            m = re.match(r"(?:abbrev )?(?:pub )?(?:abbrev )?(%s)\s*:(.*)$" % W, body[0])
            sig = body[0]
            if m and re.search(r"tie\.(invariant|decreases)-", sig):
                kind, loop = re.search(r"tie\.(invariant|decreases)-(%s)" % W, sig).groups()
                found = self.loops.get(norm(loop))
                if not found:
                    self.say('no loop %s' % loop)
                    continue
                new, variables, changed = found
                clause = '\n'.join(body[1:])
                mm = re.match(r"(%s)((?:\s+(?!=)%s)*)\s*=" % (W, W), clause)
                if not mm:
                    self.say('no clause of %s' % sig)
                    continue
                params = mm.group(2).split()
                moved = [v for v, c in zip(variables, changed) if c]
                want = ['l.initial.' + v if c else 'l.' + v for v, c in zip(variables, changed)] + ['l.' + v for v in moved]
                if len(params) != len(want):
                    self.say('loop %s has %s for %s' % (new, params, want))
                table = {p: w for p, w in zip(params, want)}
                rest_text = clause[mm.end():]
                token = re.compile(r"(?<![\w.'₀₁₂-])(%s)" % W)
                rest_text = token.sub(lambda q: table.get(q.group(1), q.group(1)), rest_text)
                name = '%s-%s' % (kind, new)
                invariants.append(comment + ['abbrev pub %s : goal.%s' % (name, name), '%s l =%s' % (name, rest_text)])
                continue
            if m and 'tie.Need-' in sig:
                old = re.search(r"tie\.Need-(%s)" % W, sig).group(1)
                if norm(old) == 'same-length':
                    continue
                found = self.goal_of(old)
                if not found:
                    self.say('no goal %s' % old)
                    answers.append(['-- LOST ' + old] + comment + body)
                    continue
                new, place, pn = found
                known[m.group(1)] = new
                extra = body[1:]
                un = [l for l in extra if l.startswith('unfolding')]
                clause = '\n'.join(l for l in extra if not l.startswith('unfolding'))
                mm = re.match(r"%s((?:\s+(?!=)%s)*)\s*=" % (W, W), clause)
                if not mm:
                    self.say('no clause of goal %s' % old)
                    answers.append(['-- LOST ' + old] + comment + body)
                    continue
                params = mm.group(1).split()
                var = params[0] if params else 'c'
                value = clause[mm.end():]
                value = self.paths(value, place, new, var)
                fields = self.table['asked'].get(old) or next((f for o, f in self.table['asked'].items() if norm(o) == norm(old)), None)
                if fields and len(fields) > 1:
                    value = self.split(value, fields, new)
                answers.append(comment + ['pub %s : goal.%s' % (new, new)] + un + ['%s %s =%s' % (new, var, value)])
                continue
            if '_spec' in sig and 'statement' in sig:
                last = body
                continue
            # a helper
            whole = '\n'.join(body)
            ctx = re.search(r"\((%s) : tie\.((?:After|Then|Else|In|At|Joined|Start)[^\s(){}.;,«»]*)" % W, whole)
            if ctx:
                place = norm(ctx.group(2))
                if place not in self.place_new:
                    self.say('helper of a place that is gone: %s' % ctx.group(2))
                sigline = body[0]
                cut = next((j for j, l in enumerate(body) if j and re.match(r"%s(\s|$)" % re.escape(m.group(1) if m else '\0'), l)), 1)
                whole = self.paths('\n'.join(body), place, None, ctx.group(1))
                # the signature keeps its context
                whole = self.types(whole)
            answers.append(comment + whole.split('\n'))
        if last:
            self.inline('\n'.join(last), known)
        self.write(head, uses, invariants, answers)

    def split(self, value, fields, goal):
        """An answer of several clauses."""
        body = value.strip()
        # lets in front
        m = re.match(r"((?:\s*let\s.*?\sin\s)*)(.*)$", value, re.S)
        front, last = '', value
        depth, k = 0, 0
        # find the last ' in' at depth 0 that follows a let
        stack, cut = 0, 0
        tokens = list(re.finditer(r"[()\[\]]|(?<![\w.'-])(?:let|in)(?![\w'-])", value))
        level, lets = 0, 0
        for t in tokens:
            w = t.group(0)
            if w in '([':
                level += 1
            elif w in ')]':
                level -= 1
            elif level == 0 and w == 'let':
                lets += 1
            elif level == 0 and w == 'in':
                cut = t.end()
        front, last = value[:cut], value[cut:]
        last = last.strip()
        if last.startswith('(') and last.endswith(')'):
            parts, level, at = [], 0, 1
            inner = last[1:-1]
            cur = ''
            for ch in inner:
                if ch in '([{':
                    level += 1
                elif ch in ')]}':
                    level -= 1
                if ch == ',' and level == 0:
                    parts.append(cur)
                    cur = ''
                else:
                    cur += ch
            if cur.strip():
                parts.append(cur)
            if len(parts) == len(fields):
                return front + ' record { ' + '; '.join('%s = %s' % (f, p.strip()) for f, p in zip(fields, parts)) + ' }'
        if re.match(r"search rules$", last):
            return value
        return front + ' let said = ' + last + ' in record { ' + '; '.join('%s = said.%d' % (f, k) for k, f in enumerate(fields)) + ' }'

    def inline(self, text, known):
        body = text[text.index('='):]
        i = body.find('tie.spec')
        if i < 0:
            self.say('no tie.spec: ' + body[:80].replace('\n', ' '))
            return
        rest = body[i + 8:]
        items, level, cur = [], 0, ''
        for ch in rest:
            if ch == '(':
                level += 1
            elif ch == ')':
                level -= 1
                if level < 0:
                    break
            if ch.isspace() and level == 0:
                if cur:
                    items.append(cur)
                    cur = ''
                continue
            cur += ch
        if cur:
            items.append(cur)
        needs = [n for n in items if not re.match(r"(invariant|decreases)", n)]
        order = [g[1] for g in self.table['needs']]
        for k, item in enumerate(needs):
            if re.match(r"\(λ c( κs)?\.\s*search rules\)$", item) or re.match(r"\(search rules\)$", item) or item in known:
                continue
            if item == 'same_length' or item == 'same-length':
                continue
            before = next((known[x] for x in reversed(needs[:k]) if x in known), None)
            after = next((known[x] for x in needs[k + 1:] if x in known), None)
            self.say('inline answer between %s and %s: %s' % (before, after, item.replace('\n', ' ')))

    def write(self, head, uses, invariants, answers):
        def fits(uses, body):
            words = set(re.findall(W, body))
            for w in list(words):
                words.update(re.findall(r"[^\s(){}.;,«»]+", w))
            out = []
            for u in uses:
                if re.search(r"\.(Tie|Statement)\b", u):
                    continue
                m = re.match(r"use ([^{]+)\.\{(.*)\}$", u)
                if not m:
                    out.append(u)
                    continue
                names = [n.strip() for n in m.group(2).split(',')]
                keep = [n for n in names if n in words or ('◌' in n and all(p in body for p in n.replace('if◌then◌else◌', 'if then').split('◌') if p)) or ' as ' in n]
                if keep:
                    out.append('use %s.{%s}' % (m.group(1), ', '.join(keep)))
            return out
        head = [l for l in head if l.strip()]
        path = '.'.join(self.name.split('::')) if '::' in self.name else self.name
        if invariants:
            body = '\n\n'.join('\n'.join(b) for b in invariants)
            u = fits(uses, body)
            out = '\n'.join(u + ['use Rattle.%s.proofs.%s.Given as goal' % (self.crate, path)]) + '\n\n' + body + '\n'
            open(os.path.join(self.folder, 'Invariants.antt'), 'w', encoding='utf-8').write(out)
        answers = [b for b in answers if b]
        if answers:
            body = '\n\n'.join('\n'.join(b) for b in answers)
            u = fits(uses, body)
            if self.places_used:
                u.append('use Rattle.%s.proofs.%s.Goals.{%s}' % (self.crate, path, ', '.join(sorted(self.places_used))))
            out = '\n'.join(head + u + ['use Rattle.%s.proofs.%s.Goals as goal' % (self.crate, path)]) + '\n\n' + body + '\n'
            open(os.path.join(self.folder, 'Answers.antt'), 'w', encoding='utf-8').write(out)
        os.remove(self.path)
        for line in self.said:
            print(line)
        if 'tie.' in '\n'.join('\n'.join(b) for b in answers):
            print('%s: tie. left' % self.name)
        if '(?' in '\n'.join('\n'.join(b) for b in answers):
            print('%s: a context to be named, (?Place c)' % self.name)


def main():
    folder, listed, only = sys.argv[1], sys.argv[2], sys.argv[3:]
    crate = os.path.basename(os.path.abspath(folder))
    table = json.load(open(listed, encoding='utf-8'))
    for key, entry in table.items():
        m = re.match(r"Rattle-%s-proofs\.(.*)\.Lts$" % crate, key)
        if not m:
            continue
        name = m.group(1)
        where = os.path.join(folder, 'proofs', *name.split('.'))
        if only and name not in only or not os.path.exists(os.path.join(where, 'Proof.antt')):
            continue
        Function(crate, where, name, entry).run()


main()
