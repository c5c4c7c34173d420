#!/usr/bin/env python3
# Turns the proof files of an older Rattle, proofs/F/Proof.antt, into Invariants.antt and Answers.antt of today's form.
#
#   cd crates/NAME; rt check --generated DIR --old-names
#   python3 ../../tools/convert_proofs.py DIR/names.json OLD [--only F ..] [--invariants] [--goals F=G,G ..] [--log FILE] [--stdout]
#
# OLD is the crate's folder with the old files, as OLD/proofs/F/Proof.antt. Answers that were only `search rules` are left out. What it can't
# turn it says in a line of its own. --invariants writes no answers. --goals answers these goals of F alone, and --log those that a check, whose
# output FILE has, left open in each function. --stdout prints the files in place of writing them. The fewest answers: once with --invariants,
# then a check, and then with --log.
import glob
import json
import os
import re
import subprocess
import sys

WORD = re.compile(r'--[^\n]*|"[^"\n]*"|[ \t\n]+|[(){}\[\];,]|[^\s(){}\[\];,]+')
SUBSCRIPT_ZERO = '\u2080'
# fields of the steps that Rattle itself names
FIELDS = {'well-formed': 'well_formed', 'type-inv': 'type_inv'}
COMMON_FROM = ('Prim.Native.Nat', 'mathlib.Core.', 'native.Mathlib.', 'lib.Dec', 'lib.ListN', 'lib.Seq', 'lib.Pow', 'borrow.Author.')


def norm(name):
    return name.strip('«»').replace('_', '-').replace("'", '’')


def quoted(name):
    return '«' + name + '»' if name in ('data', 'open', 'record', 'ruleset', 'module', 'use', 'in', 'let') else name


def tokens(text):
    out = []
    for t in WORD.findall(text):
        # 'h.' after a λ, and '.f' after a bracket, are words with a dot at an end
        if len(t) > 1 and t.endswith('.') and not t.startswith('--') and not t.startswith('"'):
            out += [t[:-1], '.']
        else:
            out.append(t)
    return out


def blank(t):
    return t.isspace() or t.startswith('--')


def common_names():
    doc = subprocess.run(['rt', 'doc'], capture_output=True, text=True, stdin=subprocess.DEVNULL).stdout.strip()
    path = os.path.join(os.path.dirname(doc), 'rattle/std/proofs/Common.antt')
    names = set()
    if os.path.exists(path):
        for m in re.finditer(r'\{([^}]*)\}', open(path).read()):
            names |= {n.strip() for n in m.group(1).split(',')}
    return names


# ---- contracts of the repository's functions: their parameters and the names of their `ensures`

def contracts(top):
    found = {}
    for path in glob.glob(top + '/crates/*/src/**/*.rt', recursive=True):
        crate = path[len(top) + 1:].split('/')[1]
        text = open(path).read()
        for m in re.finditer(r'\bfn\s+(\w+)[^(]*\(', text):
            depth, i = 1, m.end()
            while depth and i < len(text):
                depth += {'(': 1, ')': -1}.get(text[i], 0)
                i += 1
            params = [p.split(':')[0].replace('mut ', '').strip().lstrip('&') for p in split_top(text[m.end():i - 1]) if p.strip()]
            rest = text[i:]
            end = re.search(r'\n\s*(\{|fn |pub |\})|;\n', rest)
            head = rest[:end.start()] if end else rest[:2000]
            clauses = re.findall(r'\n\s*ensures\*?\s*(\w*)\s*\{', head)
            found.setdefault((crate, m.group(1)), (params, clauses))
    return found


def split_top(text, sep=','):
    parts, depth, last = [], 0, 0
    for i, ch in enumerate(text):
        if ch in '([{<':
            depth += 1
        elif ch in ')]}>':
            depth -= 1
        elif ch == sep and depth == 0:
            parts.append(text[last:i])
            last = i + 1
    return parts + [text[last:]]


# ---- one old file, cut into its parts

class Part:
    def __init__(self, kind, text, comment=''):
        self.kind, self.text, self.comment = kind, text, comment


def cut(text):
    lines = text.rstrip('\n').split('\n')
    head, uses, parts = [], [], []
    i = 0
    while i < len(lines) and lines[i].startswith('--'):
        head.append(lines[i])
        i += 1
    while i < len(lines) and (lines[i].startswith('use ') or not lines[i].strip()):
        if lines[i].startswith('use '):
            uses.append(lines[i])
        i += 1
    block, comment = [], []
    blocks = []
    for line in lines[i:] + ['']:
        if not line.strip():
            if block:
                blocks.append(block)
                block = []
            continue
        block.append(line)
    # a module goes on over blank lines while its lines are indented
    merged = []
    for b in blocks:
        if merged and all(l.startswith(' ') or l.startswith('--') for l in b) and any(l.startswith('module ') for l in merged[-1]) \
                and any(l.startswith(' ') for l in b):
            merged[-1] += [''] + b
        else:
            merged.append(b)
    pending = ''
    for b in merged:
        c = []
        while b and b[0].startswith('--'):
            c.append(b.pop(0))
        if not b:
            if pending or c:
                parts.append(Part('comment', '\n'.join(c)))
            continue
        parts.append(Part('code', '\n'.join(b), '\n'.join(c)))
    return head, uses, parts


def sig_of(text):
    """the name, the type's text and the clauses' text of a definition"""
    m = re.match(r'(abbrev pub |abbrev |pub |unfoldable pub |unfoldable )?(\S+)\s*:(?=\s)', text)
    if not m:
        return None
    name = m.group(2)
    rest = text[m.end():]
    k = re.search(r'\n(unfolding [^\n]*\n)?' + re.escape(name) + r'(?=[\s=])', rest)
    if not k:
        return None
    unf = (k.group(1) or '').strip()
    return (m.group(1) or '', name, rest[:k.start()].strip(), unf, rest[k.end(1) if k.group(1) else k.start() + 1:])


class Function:
    def __init__(self, crate, name, table, old, sources):
        self.crate, self.name, self.table, self.sources = crate, name, table, sources
        self.said = []
        self.old = old
        self.places = {}
        self.steps = {}
        self.callee = {}
        self.renames = {}
        by_name = table['places_by_name']
        self.order = []
        for i, (place, parent, step, callee, renames) in enumerate(table['places']):
            self.places[norm(place)] = by_name[i] if i < len(by_name) else place
            self.order.append((norm(place), norm(parent) if parent else None, step, callee))
            if step[0]:
                self.steps.setdefault(norm(step[0]), [])
                if step[1] not in self.steps[norm(step[0])]:
                    self.steps[norm(step[0])].append(step[1])
                if callee:
                    self.callee[step[1]] = callee
                for a, b in renames:
                    self.renames[(step[1], a)] = b
        # what stands in an arm now: (old step, its fields) to the arm's field; what is told of a variable; arguments under other names
        self.in_arm, self.arguments = {}, {}
        for arm in table.get('arms') or []:
            if arm:
                for field, step, fields in arm[2]:
                    if not field.endswith('-own') or not fields:
                        self.in_arm.setdefault((norm(step), tuple(fields)), [arm[0], field] if fields else [field])
        for typed in table.get('typed') or []:
            for variable, step in typed:
                self.in_arm.setdefault((norm(step), ('given',)), ['type_inv', variable])
        for a, b in table.get('args') or []:
            self.arguments[tuple(a.replace('.', '').split())] = b.replace('.', '').split()
        # the steps that Rattle itself adds share an arm's name, which is the last one's
        self.places = {a: (re.sub(r'-\d+$', '', b) if b.startswith('In-') and re.sub(r'-\d+$', '', b) in by_name else b) for a, b in self.places.items()}
        self.goals, self.place_of_goal = {}, {}
        asked_at = table.get('asked_at') or []
        for i, (a, b) in enumerate(table['needs']):
            self.goals[norm(a)] = b
            self.place_of_goal[b] = asked_at[i][1] if i < len(asked_at) else None
        self.news = {norm(b): b for a, b in table['needs']}
        self.settled = set(table.get('settled') or [])
        self.goal_names = [b for a, b in table['needs']]
        self.imports = set()
        self.helpers = {}
        self.placefuns = {}
        # helpers that are a path from their place, and helpers' texts, and their copies at other places
        self.accessors = {}
        self.texts = {}
        self.comments = {}
        self.copies = {}
        self.before_this = []
        self.made = []

    def say(self, line):
        if line not in self.said:
            self.said.append(line)

    # -- names

    def goal(self, name, need):
        need = need[len('Need-'):]
        tries = [name, need]
        for a, b in (('overflow-', ''), ('nonzero-', ''), ('slice-bounds-', 'part-'), ('overflow_', '')):
            if need.startswith(a):
                tries.append(b + need[len(a):])
        for t in tries:
            if norm(t) in self.goals and (norm(t) == norm(need) or t != name or True):
                return self.goals[norm(t)]
        for t in tries:
            if norm(t) in self.news:
                return self.news[norm(t)]
        return None

    def place(self, old):
        p = self.places.get(norm(old))
        if p is None:
            self.say('no place ' + old)
            return old
        return p

    def step(self, old, rest):
        """the new name of a step and of the fields that follow it"""
        for k in (2, 1):
            if tuple([old] + rest[:k - 1]) in self.arguments:
                return self.arguments[tuple([old] + rest[:k - 1])] + rest[k - 1:], None
        found = self.steps.get(norm(old)) or self.steps.get(re.sub('-call$', '', norm(old)))
        if not found:
            return [quoted(FIELDS.get(old, old))] + [FIELDS.get(f, f) for f in rest], None
        new = found[0]
        if len(found) > 1:
            k = rest[0][4:] if rest and rest[0].startswith('keys') else None
            at = [step[1] for (p, _, step, _) in self.order if k and p == norm('At-' + old.strip('«»') + '-keys' + k)]
            if at:
                new = at[0]
            else:
                self.say('step %s is one of %s' % (old, ', '.join(found)))
        for k in range(len(rest), 0, -1):
            arm = self.in_arm.get((norm(old), tuple(rest[:k])))
            if arm:
                return arm + rest[k:], None
        if rest[:1] == ['rest']:
            at = [step[1] for (p, _, step, _) in self.order if p == norm('At-' + old.strip('«»') + '-rest')]
            if at:
                return [at[0], at[0] + '-own'] + rest, None
        # what is told of a variant is the equation of its arm
        if norm(old).startswith('enum-told') and rest[:2] == ['given', '1']:
            for place, parent, step, _ in self.order:
                if step[1] == new:
                    arm = [q[2][1] for q in self.order if q[0] == parent and q[2][1].startswith('in-')]
                    if arm:
                        return [arm[0], 'is'] + rest[2:], None
        wrap = None
        fields = [FIELDS.get(f, f) for f in rest]
        if fields and re.match(r'keys\d', fields[0]):
            if new.startswith('in_default'):
                return [new, new + '-own'] + fields, None
            else:
                fields[0] = 'is'
        if fields and fields[0] in ('taken', 'left'):
            self.say('%s.%s was the test as a Bool, and is what the test says' % (new, fields[0]))
            fields[0] = {'taken': 'true', 'left': 'false'}[fields[0]]
        elif fields and (new, fields[0]) in self.renames:
            raw = self.renames[(new, fields[0])]
            inner = re.match(r'if-not-(\w+)$', new)
            if inner and raw.endswith('-raw') and any(c.split('::')[-1] == inner.group(1) for c in self.callee.values()):
                wrap = 'ap not'
            else:
                fields[0] = raw
        if fields and fields[0] in ('new', 'ensures'):
            fields = self.tuple_fields(new, fields)
        return [new] + fields, wrap

    def contract(self, step):
        callee = self.callee.get(step)
        if not callee:
            return None
        crate, last = callee.split('::')[0], callee.split('::')[-1]
        return self.sources.get((crate, last))

    def tuple_fields(self, step, fields):
        c = self.contract(step)
        if not c:
            if len(fields) > 1 and fields[1] in ('0', '1'):
                self.say('the parts of %s.%s' % (step, '.'.join(fields)))
            return fields
        params, clauses = c
        if fields[0] == 'new':
            k = 1
            while k < len(fields) and fields[k] == '1':
                k += 1
            if k < len(fields) and fields[k] == '0' and k - 1 < len(params):
                return ['new', quoted(params[k - 1])] + fields[k + 1:]
            self.say('the parts of %s.%s' % (step, '.'.join(fields)))
            return fields
        n = len(clauses)
        if n < 2 or not all(clauses):
            return fields
        k = 1
        while k < len(fields) and fields[k] == '1' and k < n:
            k += 1
        if k == n:
            return ['ensures', clauses[n - 1]] + fields[k:]
        if k < len(fields) and fields[k] == '0':
            return ['ensures', clauses[k - 1]] + fields[k + 1:]
        # the clauses from k on, as a tuple
        return ['ensures', '*' + ' '.join(clauses[k - 1:])] + fields[k:]

    # -- expressions

    def path(self, comps, env):
        """a path from a place: (text) or None where it is no such path"""
        root = env[comps[0]]
        rest = [c for c in comps[1:]]
        i = 0
        while i < len(rest) and rest[i] == 'before':
            i += 1
        rest = rest[i:]
        if not rest:
            return None
        if norm(rest[0]) in ('before2', 'before3') and norm(rest[0]) not in self.steps:
            self.say('step ' + rest[0])
        names, wrap = self.step(rest[0], rest[1:])
        for i, n in enumerate(names):
            if n.startswith('*'):
                base = '.'.join([root] + names[:i])
                parts = [base + '.' + c for c in n[1:].split()]
                out = parts[-1]
                for p in reversed(parts[:-1]):
                    out = '(' + p + ', ' + out + ')' if not out.startswith('(') else '(' + p + ', ' + out + ')'
                return out
        text = '.'.join([root] + names)
        if wrap:
            return '(' + wrap + ' ' + text + ')'
        return text

    def convert(self, text, env, here, goal=None):
        """the text of an expression; env: the names of places and the root that each stands for; here: the place (new name) of that root"""
        toks = tokens(text)
        out = []
        env = dict(env)
        i = 0

        def skip(j):
            while j < len(toks) and blank(toks[j]):
                j += 1
            return j

        def placed(j):
            """a place at token j, as `c.before`, `f c.before` or `(f c.before)`: (root, the token after it)"""
            if j >= len(toks):
                return None
            t = toks[j]
            if t == '(':
                r = placed(skip(j + 1))
                if r:
                    k = skip(r[1])
                    if k < len(toks) and toks[k] == ')':
                        return r[0], k + 1
                return None
            comps = t.split('.')
            if comps[0] in env and all(c == 'before' for c in comps[1:]):
                return env[comps[0]], j + 1
            if t in self.placefuns:
                r = placed(skip(j + 1))
                if r:
                    return r
            return None

        def previous():
            for t in reversed(out):
                if not blank(t):
                    return t
            return ''

        def passed(root):
            b = self.bare(root, previous(), here, goal)
            if isinstance(b, tuple):
                k = max(n for n, t in enumerate(out) if not blank(t))
                out[k] = b[0]
                b = b[1]
            out.append(b)

        while i < len(toks):
            t = toks[i]
            if blank(t) or t in '(){}[];,':
                if t == '(' and toks[skip(i + 1)] in self.accessors:
                    r = placed(skip(skip(i + 1) + 1))
                    k = skip(r[1]) if r else len(toks)
                    if r and k < len(toks) and toks[k] == ')':
                        more = toks[k + 1][1:].split('.') if k + 1 < len(toks) and toks[k + 1].startswith('.') and len(toks[k + 1]) > 1 else []
                        out.append(self.path([r[0]] + self.accessors[toks[skip(i + 1)]] + more, {r[0]: r[0]}))
                        i = k + (2 if more else 1)
                        continue
                if t == '(':
                    r = placed(i)
                    if r and toks[skip(i + 1)] in self.placefuns:
                        k = r[1]
                        if k < len(toks) and toks[k].startswith('.'):
                            comps = [r[0]] + toks[k][1:].split('.')
                            p = self.path(comps, {r[0]: r[0]})
                            if p:
                                out.append(p)
                                i = k + 1
                                continue
                        passed(r[0])
                        i = k
                        continue
                out.append(t)
                i += 1
                continue
            if t == 'let':
                j = skip(i + 1)
                k = skip(j + 1)
                if k < len(toks) and toks[k] == '=':
                    v = skip(k + 1)
                    r = placed(v)
                    if r:
                        e = skip(r[1])
                        if e < len(toks) and toks[e] == 'in':
                            env[toks[j]] = r[0]
                            i = skip(e + 1)
                            continue
            if t in self.placefuns:
                r = placed(i)
                if r:
                    passed(r[0])
                    i = r[1]
                    continue
            if t in self.accessors:
                r = placed(skip(i + 1))
                if r:
                    out.append(self.path([r[0]] + self.accessors[t], {r[0]: r[0]}))
                    i = r[1]
                    continue
            comps = t.split('.')
            if comps[0] in env and comps[0] != '':
                p = self.path(comps, env) if len(comps) > 1 else None
                if p:
                    out.append(p)
                else:
                    passed(env[comps[0]])
                i += 1
                continue
            if t == 'tie' or t.startswith('tie.'):
                out.append(self.tie(t))
                # what follows it, the loops' invariants, goes
                j = i + 1
                while True:
                    k = skip(j)
                    if k < len(toks) and re.match(r'(invariant|decreases)-loop', toks[k]):
                        j = k + 1
                    else:
                        break
                i = j
                continue
            out.append(t)
            i += 1
        return ''.join(out)

    def bare(self, root, helper, here, goal):
        """a place passed on whole, to a helper of that name"""
        want = self.helpers.get(helper)
        if want is None or want == here:
            return root
        if goal:
            return '(goal.at.%s %s).%s' % (goal, root, want)
        # a goal that is asked where this helper is stated
        at = [g for g in self.goal_names if self.place_of_goal.get(g) == here and g in self.answering]
        if at:
            return '(goal.at.%s %s).%s' % (at[0], root, want)
        if helper in self.texts:
            name = self.copy(helper, here)
            return (name, root)
        self.made.append((helper, here))
        return root

    def copy(self, helper, here):
        """the name of a copy of a helper that is stated at a later place"""
        if (helper, here) not in self.copies:
            n = 2 + len([h for h, _ in self.copies if h == helper])
            name = '%s-%d' % (helper, n)
            self.copies[(helper, here)] = name
            text = self.helper(self.texts[helper], name, here)
            comment = self.comments.get(helper)
            self.before_this.append((comment + '\n' if comment else '') + text)
        return self.copies[(helper, here)]

    def tie(self, t):
        name = t[4:]
        p = self.place(name)
        self.imports.add(p)
        return p

    # -- the branches of a join

    def elims(self, text):
        while True:
            m = re.search(r'⊎_elim\s*', text)
            if not m:
                return text
            args, i = [], m.end()
            while len(args) < 3:
                while i < len(text) and text[i].isspace():
                    i += 1
                start = i
                if i < len(text) and text[i] == '(':
                    depth = 0
                    while True:
                        depth += {'(': 1, ')': -1}.get(text[i], 0)
                        i += 1
                        if not depth:
                            break
                else:
                    while i < len(text) and not text[i].isspace() and text[i] not in '()':
                        i += 1
                if i == start:
                    break
                args.append(text[start:i])
            if len(args) < 3 or '.branch' not in args[2]:
                text = text[:m.start()] + '⊎_ELIM' + text[m.start() + len('⊎_elim'):]
                continue
            step = args[2].split('.')[-2]
            tail = step[3:] if step.startswith('if-') else step
            arms = []
            for word, arg in zip(('then-', 'else-'), args[:2]):
                b = re.match(r'\(λ\s+\(?(\w+)[^.]*?\)?\.\s*(.*)\)$', arg, re.S)
                if not b:
                    self.say('an arm of ' + step)
                    arms.append(word + tail + ' w ↦ ' + arg + ' w')
                    self.imports.add(word + tail)
                    continue
                arms.append(word + tail + ' ' + b.group(1) + ' ↦ ' + self.branch(b.group(2), b.group(1), step, word))
                self.imports.add(word + tail)
            text = text[:m.start()] + 'elim ' + args[2] + ' [ ' + ' | '.join(arms) + ' ]' + text[i:]

    def branch(self, text, w, step, word):
        old = [a for a, news in self.steps.items() if step in news]
        n = re.sub(r'\D', '', old[0]) if old else ''
        first = norm(('Then' if word == 'then-' else 'Else') + n)
        chain, at = [step], first
        for place, parent, s, _ in self.order:
            if parent == at:
                chain.append(s[1])
                at = place

        def turn(m):
            k = int(m.group(1))
            rest = m.group(2)
            if k < len(chain):
                rest = {'.taken': '.true', '.left': '.false'}.get(rest, rest)
                return w + '.' + chain[k] + rest
            self.say('%s.%d of a branch of %s: which variable, %s.X-is' % (w, k, step, w))
            return w + '.' + str(k)
        return re.sub(r'\b' + re.escape(w) + r'\.(\d+)((?:\.[\w-]+)?)', turn, text)

    # -- a loop's invariant or measure

    def loop(self, kind, old, body):
        m = re.match(r'\S+\s*(.*?)=(?=\s)(.*)$', body, re.S)
        params, rhs = m.group(1).split(), m.group(2).strip()
        loops = self.table['loops']
        k = 0
        for i, (names, _) in enumerate(loops):
            if norm(names[0]) == norm(old):
                k = i
        names, variables = loops[k]
        changed = self.table['changed'][k]
        want = ['l.initial.' + v if c else 'l.' + v for v, c in zip(variables, changed)] + ['l.' + v for v, c in zip(variables, changed) if c]
        if len(want) != len(params):
            self.say('%s-%s has %d parameters, and there are %d: %s' % (kind, old, len(params), len(want), ' '.join(want)))
        env = dict(zip(params, want))
        out = []
        for t in tokens(rhs):
            comps = t.split('.')
            if comps[0] in env:
                t = '.'.join([env[comps[0]]] + comps[1:])
            out.append(t)
        name = kind + '-' + names[1]
        return 'abbrev pub %s : goal.%s\n%s l = %s' % (name, name, name, ''.join(out))

    # -- the clauses that a return answers

    def clauses(self, old, body):
        asked = (self.table.get('asked') or {}).get(old)
        if not asked:
            return body
        lets, last = split_lets(body)
        parts = tuple_of(last)
        if parts and len(parts) == len(asked):
            fields = parts
        elif parts and len(parts) == 2 and len(asked) > 2:
            fields = [parts[0]]
            rest = parts[1]
            while len(fields) < len(asked) - 1:
                more = tuple_of(rest.strip())
                if not more or len(more) != 2:
                    break
                fields.append(more[0])
                rest = more[1]
            fields.append(rest)
            if len(fields) != len(asked):
                self.say('the clauses of ' + old)
                return body
        else:
            all_ = 'both' if len(asked) == 2 else 'all'
            projections = ['.1' * i + '.0' for i in range(len(asked) - 1)] + ['.1' * (len(asked) - 1)]
            fields = [all_ + p for p in projections]
            lets = lets.rstrip() + '\n    let %s = %s in' % (all_, last.strip())
        record = 'record {\n' + ''.join('      %s = %s;\n' % (a, f.strip()) for a, f in zip(asked, fields)) + '    }'
        if lets.strip():
            return '\n    ' + lets.strip() + '\n    ' + record
        return ' ' + record

    # -- the whole

    def run(self, only=None):
        head, uses, parts = cut(self.old)
        # helpers: their place
        for p in parts:
            if p.kind != 'code':
                continue
            self.learn(p.text, p.comment)
        # the goals that get an answer: `goal.at` has these alone
        self.answering = set()
        for p in parts:
            s = sig_of(p.text) if p.kind == 'code' else None
            if s and s[2].startswith('tie.Need-') and not (re.search(r'=\s+search rules$', s[4].strip()) and not s[3]):
                g = self.goal(s[1], s[2].split()[0][4:])
                if only is None or g in only:
                    self.answering.add(g)
        invariants, answers, answered = [], [], set()
        for p in parts:
            if p.kind != 'code':
                continue
            text = p.text
            if re.match(r'pub \S+_spec\s*:', text):
                continue
            s = sig_of(text)
            if s and re.match(r'tie\.(invariant|decreases)-loop', s[2]):
                kind, old = re.match(r'tie\.(invariant|decreases)-(\S+)', s[2]).groups()
                invariants.append((p.comment + '\n' if p.comment else '') + self.loop(kind, old, s[4]))
                continue
            if s and s[2].startswith('tie.Need-'):
                need = s[2].split()[0][4:]
                g = self.goal(s[1], need)
                body = s[4][len(s[1]):]
                m = re.match(r'\s*(.*?)=(?=\s)(.*)$', body, re.S)
                args, rhs = m.group(1).split(), m.group(2).strip()
                if rhs == 'search rules' and not s[3]:
                    continue
                if g is None:
                    self.say('no goal %s (%s)' % (s[1], need))
                    g = '?' + s[1]
                if norm(g) in {norm(x) for x in self.settled}:
                    continue
                if only is not None and g not in only and not any(o.startswith(g + '-clause-') for o in only):
                    continue
                c = args[0]
                if 'κs' in args and re.search(r'(?<!\S)κs\b', rhs):
                    self.say('%s uses κs' % g)
                args = [a for a in args if a != 'κs']
                here = self.place_of_goal.get(g)
                rhs = self.clauses(self.old_of(g), rhs)
                self.made = []
                self.before_this = []
                new = self.convert(rhs, {c: c}, here, g)
                answers += self.before_this
                new = self.elims(new).replace('⊎_ELIM', '⊎_elim')
                if new.startswith('\n'):
                    new = new.rstrip()
                elif '\n' in new or len(new) > 110:
                    new = '\n    ' + new.strip()
                else:
                    new = ' ' + new.strip()
                unf = s[3] + '\n' if s[3] else ''
                comment = p.comment + '\n' if p.comment else ''
                answers.append('%spub %s : goal.%s\n%s%s %s =%s' % (comment, g, g, unf, g, ' '.join(args), new))
                answered.add(g)
                continue
            # a helper
            if s and s[1] in self.accessors:
                continue
            self.made = []
            self.before_this = []
            new = self.helper(text)
            answers += self.before_this
            new = self.elims(new).replace('⊎_ELIM', '⊎_elim')
            for h, place in self.made:
                self.say('%s is used at %s and is stated at %s: state a copy of it there, or give it what it reads' % (h, place, self.helpers[h]))
            comment = p.comment + '\n' if p.comment else ''
            answers.append(comment + new)
        return self.files(head, uses, invariants, answers, answered)

    def old_place(self, new):
        for a, b in self.places.items():
            if b == new:
                return a
        return new

    def old_of(self, g):
        for a, b in self.table['needs']:
            if b == g:
                return a
        return g

    def learn(self, text, comment=''):
        m = re.match(r'module _\s*\((\S+) : tie\.(\S+?)(?: invariant-loop decreases-loop)?\) where', text)
        if m:
            inner = re.findall(r'^  (?:abbrev )?([^\s:()]+)\s*:\s*(.*?)(?=\n  \S)', text, re.M | re.S)
            for name, type_ in inner:
                self.helpers[name] = self.place(m.group(2))
                if re.match(r'tie\.\S+$', type_.strip()):
                    self.placefuns[name] = self.place(m.group(2))
            return
        s = sig_of(text)
        if s:
            m = re.search(r'^\s*(?:\((\S+) : )?tie\.(\S+?)(?: invariant-loop decreases-loop)?(?:\)| →)', s[2])
            if m and not m.group(2).startswith('Need-'):
                self.helpers[s[1]] = self.place(m.group(2))
                self.texts[s[1]] = text
                self.comments[s[1]] = comment
                b = re.match(re.escape(s[1]) + r'\s+(\S+)\s*=\s*(\S+)$', s[4].strip())
                if b and s[2].strip().startswith('tie.') and b.group(2).split('.')[0] == b.group(1) and '.' in b.group(2):
                    self.accessors[s[1]] = b.group(2).split('.')[1:]

    def helper(self, text, rename=None, there=None):
        m = re.match(r'module _\s*\((\S+) : tie\.(\S+?)(?: invariant-loop decreases-loop)?\) where\n', text)
        if m:
            c, here = m.group(1), self.place(m.group(2))
            self.imports.add(here)
            body = text[m.end():]
            blocks = re.split(r'\n(?:\s*\n)+', body)
            env = {c: c}
            kept = []
            for b in blocks:
                k = re.match(r'\s*(?:abbrev )?(\S+)\s*:\s*tie\.\S+[^\n]*\n\s*\1\s*=\s*(\S+)$', b.strip('\n'))
                if k and k.group(2).split('.')[0] in env:
                    env[k.group(1)] = c
                    continue
                kept.append(b)
            names = [n for n in self.placefuns if n in env]
            saved = {n: self.placefuns.pop(n) for n in names}
            inner = {n: self.helpers[n] for n in list(self.helpers) if re.search(r'^  (?:abbrev )?' + re.escape(n) + r'\s*:', body, re.M)}
            out = []
            for b in kept:
                hidden = {n: self.helpers.pop(n) for n in inner}
                out.append(self.convert(b, env, here))
                self.helpers.update(hidden)
            self.placefuns.update(saved)
            return 'module _ (%s : %s) where\n' % (c, here) + '\n\n'.join(out)
        s = sig_of(text)
        if not s:
            return text
        prefix, name, type_, unf, clauses = s
        binder = re.search(r'\((\S+) : tie\.', type_)
        here = there or self.helpers.get(name)
        env = {binder.group(1): binder.group(1)} if binder else {}
        if there:
            type_ = re.sub(r'tie\.(\S+?)(?=[\s)])', lambda m: 'tie.' + self.old_place(there), type_, count=1)
            clauses = re.sub(r'^' + re.escape(name) + r'(?=\s)', rename, clauses)
            name = rename
        new_type = self.convert(type_, env, here)
        out = '%s%s :%s%s\n' % (prefix, name, ' ' if '\n' not in new_type else '\n    ', new_type.strip())
        if unf:
            out += unf + '\n'
        if here is None:
            return text
        m = re.match(re.escape(name) + r'\s+(.*?)=(?=\s)(.*)$', clauses, re.S)
        if not m:
            self.say('the clauses of ' + name)
            return out + clauses
        args = m.group(1).split()
        env = {args[0]: args[0]}
        body = self.convert(m.group(2), env, here)
        return out + name + ' ' + ' '.join(args) + ' =' + body.rstrip()

    def files(self, head, uses, invariants, answers, answered):
        text = re.sub(r'\s*\n--\s*', ' ', '\n'.join(head))
        text = re.sub(r'^--\s*', '', text)
        text = re.sub(r'\s*Assumes nothing\.', '', text).strip()
        sentences = re.split(r'(?<=\.)\s+(?=[A-Z`])', text)
        about = [x for x in sentences if re.search(r'\binvariant|\bmeasure', x)]
        rest = [x for x in sentences if x not in about] or about
        inv_body, ans_body = '\n\n'.join(invariants), '\n\n'.join(answers)
        # helpers that the invariants cite go with them
        shared = []
        kept = []
        for a in answers:
            m = re.match(r'(?:--[^\n]*\n)*(?:abbrev |pub |record |unfoldable |data )*([^\s-]\S*)', a)
            name = m.group(1) if m else ''
            if name and invariants and re.search(r'(?<![\w.\-])' + re.escape(name) + r'(?![\w\-])', inv_body) and 'goal.' not in a.split('\n')[0]:
                shared.append((name, a))
            else:
                kept.append(a)
        out = {}
        base = 'Rattle.%s.proofs.%s' % (self.crate, self.name)
        if invariants:
            body = '\n\n'.join([public(a) for _, a in shared] + invariants)
            first = ' '.join(about) if about else ''
            out['Invariants.antt'] = (wrap_comment(first) if first else '') + self.use_lines(uses, body) + 'use %s.Given as goal\n\n' % base + body + '\n'
        # helpers that no answer cites go
        while True:
            less = [a for a in kept if is_answer(a) or any(b is not a and cites(b, n) for n in declares(a) for b in kept)]
            if len(less) == len(kept):
                break
            kept = less
        # the first copy of a helper that is gone takes its name
        names = {n for a in kept if not is_answer(a) for n in declares(a)}
        for helper in sorted({h for h, _ in self.copies}):
            mine = sorted(n for (h, _), n in self.copies.items() if h == helper and n in names)
            if mine and helper not in names:
                kept = [re.sub(r'(?<![\w.\-])' + re.escape(mine[0]) + r'(?![\w\-!])', helper, a) for a in kept]
        ans_body = '\n\n'.join(kept)
        if any(is_answer(a) for a in kept):
            lines = self.use_lines(uses, ans_body)
            given = [n for n, _ in shared if cites(ans_body, n)]
            if given:
                lines += 'use %s.Invariants.{%s}\n' % (base, ', '.join(given))
            names = sorted(n for n in self.imports if re.search(r'(?<![\w.\-])' + re.escape(n) + r'(?![\w\-])', ans_body))
            more = 'use %s.Goals as goal\n' % base + ('use %s.Goals.{%s}\n' % (base, ', '.join(names)) if names else '')
            first = ' '.join(rest)
            out['Answers.antt'] = (wrap_comment(first) if first else '') + lines + more + '\n' + ans_body + '\n'
        return out

    def use_lines(self, uses, body):
        words = set()
        for t in tokens(body):
            if t.startswith('--'):
                continue
            words.add(t)
            words.add(t.split('.')[0])
        common, lines = [], []
        if '(ap not ' in body:
            common += ['ap', 'not']
        known = common_names()
        for u in uses:
            m = re.match(r'use (\S+?)\.\{(.*)\}\s*$', u)
            if not m:
                m2 = re.match(r'use \S+ as (\S+)$', u)
                if m2 and (m2.group(1) == 'tie'):
                    continue
                if m2 and m2.group(1) in words:
                    lines.append(u)
                continue
            module, names = m.group(1), [n.strip() for n in m.group(2).split(',')]
            if module.endswith('.Statement') and names == ['statement']:
                continue
            keep = []
            for n in names:
                local = n.split(' as ')[-1]
                if local == '[]':
                    used = '[]' in body
                elif local.startswith('◌') and local.endswith('◌') and len(local) > 2:
                    used = local.strip('◌') in words
                elif '◌' in local:
                    used = any(x and x in words for x in local.split('◌'))
                else:
                    used = local in words
                if used or local in words:
                    keep.append(n)
            if not keep:
                continue
            if module.startswith(COMMON_FROM):
                common += [n for n in keep if n in known and n not in common]
                keep = [n for n in keep if n not in known]
            if keep:
                lines.append('use %s.{%s}' % (module, ', '.join(keep)))
        out = []
        if common:
            out.append('use Rattle.std.proofs.Common.{%s}' % ', '.join(common))
        return ''.join(l + '\n' for l in out + lines)


def public(text):
    """a definition with `pub`, and so each field of a record"""
    lines, at = text.split('\n'), 0
    while lines[at].startswith('--'):
        at += 1
    m = re.match(r'(abbrev |unfoldable )?(pub )?(.*)$', lines[at])
    lines[at] = (m.group(1) or '') + 'pub ' + m.group(3)
    if m.group(3).startswith('record '):
        lines[at + 1:] = [re.sub(r'^  (?=[^\s:(]+\s*:)', '  pub ', l) for l in lines[at + 1:]]
    return '\n'.join(lines)


def cites(text, name):
    return re.search(r'(?<![\w.\-])' + re.escape(name) + r'(?![\w\-!])', text) is not None


def is_answer(text):
    return re.search(r'^pub \S+ : goal\.', text, re.M) is not None


def declares(text):
    if re.search(r'^module ', text, re.M):
        return re.findall(r'^  (?:abbrev )?([^\s:()]+)\s*:', text, re.M)
    return re.findall(r'^(?:abbrev |pub |unfoldable |record |data )*([^\s:()-][^\s:()]*)\s*(?=[:(])', text, re.M)


def opened(path):
    """the goals that a check left open, by function"""
    found = {}
    for line in open(path):
        m = re.match(r'fn (\S+): .*Answers\.antt; (.*)$', line)
        if m:
            folder = re.search(r'\./proofs/(\S+)/Answers\.antt', line)
            found[folder.group(1)] = re.findall(r'`([^`]+)`', m.group(2).split('did not prove', 1)[-1].split(';')[0])
    return found


def split_lets(body):
    """the lets at the head of a term, and the term"""
    toks = tokens(body)
    depth, i, last = 0, 0, 0
    stack = 0
    pos = 0
    n = 0
    while n < len(toks):
        t = toks[n]
        if t in ('(', '[', '{'):
            stack += 1
        elif t in (')', ']', '}'):
            stack -= 1
        elif stack == 0 and t == 'let':
            depth += 1
        elif stack == 0 and t == 'in':
            depth -= 1
            if depth == 0:
                last = pos + len(t)
        elif stack == 0 and depth == 0 and not blank(t):
            break
        pos += len(t)
        n += 1
        if stack and depth == 0:
            break
    return body[:last], body[last:]


def tuple_of(text):
    t = text.strip()
    if not t.startswith('('):
        return None
    depth, parts, last = 0, [], 1
    for i, ch in enumerate(t):
        if ch in '([{':
            depth += 1
        elif ch in ')]}':
            depth -= 1
            if depth == 0:
                if i != len(t) - 1:
                    return None
                parts.append(t[last:i])
        elif ch == ',' and depth == 1:
            parts.append(t[last:i])
            last = i + 1
    parts = [p for p in parts if p.strip()]
    return parts if len(parts) > 1 else None


def wrap_comment(text):
    lines, line = [], '--'
    for w in text.split():
        if len(line) + 1 + len(w) > 140:
            lines.append(line)
            line = '--'
        line += ' ' + w
    lines.append(line)
    return '\n'.join(lines) + '\n'


def main():
    args = sys.argv[1:]
    names, old = args[0], args[1].rstrip('/')
    only, goals, show, bare = [], {}, False, False
    i = 2
    mode = None
    for a in args[2:]:
        if a == '--stdout':
            show = True
        elif a == '--invariants':
            bare = True
        elif a in ('--only', '--goals', '--log'):
            mode = a
        elif mode == '--log':
            goals.update(opened(a))
        elif mode == '--only':
            only.append(a)
        elif mode == '--goals':
            f, g = a.split('=')
            goals[f] = g.split(',')
    table = json.load(open(names))
    here = os.getcwd()
    crate = os.path.basename(here)
    sources = contracts(os.path.dirname(os.path.dirname(here)))
    for path in sorted(glob.glob(old + '/proofs/**/Proof.antt', recursive=True)):
        folder = os.path.dirname(path)[len(old + '/proofs/'):]
        if only and folder not in only:
            continue
        if goals and not only and folder not in goals:
            continue
        key = 'Rattle-%s-proofs.%s.Lts' % (crate, folder.replace('/', '.'))
        if key not in table:
            print('%s: no function of that name in %s' % (folder, names))
            continue
        f = Function(crate, folder.replace('/', '.'), table[key], open(path).read(), sources)
        there = 'proofs/%s/Answers.antt' % folder
        wanted = goals.get(folder)
        if os.path.exists(there) and wanted is not None and not show:
            # a file from an earlier run gets the further goals; one that was edited since is left, and they are printed
            text = open(there).read()
            before = re.findall(r'^pub \S+ : goal\.(\S+)', text, re.M)
            again = Function(crate, folder.replace('/', '.'), table[key], open(path).read(), sources).run(before)
            if again.get('Answers.antt') == text:
                wanted = before + wanted
            else:
                print('==== further, for ' + there)
                print(f.run(wanted).get('Answers.antt'))
                continue
        out = f.run([] if bare else wanted)
        if bare:
            out.pop('Answers.antt', None)
        for line in f.said:
            print('%s: %s' % (folder, line))
        for name, text in out.items():
            target = 'proofs/%s/%s' % (folder, name)
            if show:
                print('==== ' + target)
                print(text)
            else:
                os.makedirs(os.path.dirname(target), exist_ok=True)
                open(target, 'w').write(text)
        if not show and os.path.exists('proofs/%s/Proof.antt' % folder):
            os.remove('proofs/%s/Proof.antt' % folder)


main()
