"""Names what a call leaves behind its references by the callee's parameters, in answers: `c.f.new.1.1.0` is `c.f.new.third`.

usage: last_values.py CRATE_FOLDER NAMES_JSON
"""
import json
import os
import re
import sys

folder, listed = sys.argv[1:3]
crate = os.path.basename(os.path.abspath(folder))
for key, e in json.load(open(listed, encoding='utf-8')).items():
    m = re.match(r"Rattle-%s-proofs\.(.*)\.Lts$" % crate, key)
    if not m or 'places' not in e:
        continue
    where = os.path.join(folder, 'proofs', *m.group(1).split('.'))
    callee = {p[2][1]: p[3] for p in e['places'] if p[3]}
    for name in ('Answers.antt', 'Invariants.antt'):
        path = os.path.join(where, name)
        if not os.path.exists(path):
            continue
        old = open(path, encoding='utf-8').read()

        def turn(m):
            step, chain = m.group(1), m.group(2)
            params = e['params'].get(callee.get(step) or '', [])
            k = chain.count('.1')
            if k < len(params):
                return 'c.%s.new.%s' % (step, params[k])
            return m.group(0)

        new = re.sub(r"(?<![\w.'-])c\.([^\s(){}.;,]+)\.new((?:\.1)*\.0)(?![\w'])", turn, old)
        new = new.replace('.type-inv', '.type_inv')
        # a bound variable keeps its name
        for _ in range(20):
            q = re.search(r"λ l\.(\w+)\.", new)
            if not q:
                break
            level, j = 0, q.end()
            while j < len(new) and level >= 0:
                level += new[j] in '([{'
                level -= new[j] in ')]}'
                j += 1
            body = re.sub(r"(?<![\w.'-])l\.%s(?![\w'-])" % q.group(1), q.group(1), new[q.end():j])
            new = new[:q.start()] + 'λ %s.' % q.group(1) + body + new[j:]
        if new != old:
            open(path, 'w', encoding='utf-8').write(new)
            print(path)
