#!/usr/bin/env python3
"""Brings this repository's own definitions and lemmas to today's spelling: words in snake case, types in camel case.

Run once, at the top, right after the kit's port.py. It leaves what std or the logic names, what the check generates
(the goals of a proof and the steps that a goal tells of), functions and clauses of src/ that are Rust's, and comments.
In clauses it then names the members of a bound through its parameter, as `O.before` for `before`.
With --list it only says what it would rename, and which names would fall together.
"""
import collections
import glob
import re
import sys

ANTT = sorted(glob.glob('crates/*/specs/**/*.antt', recursive=True) + glob.glob('crates/*/proofs/**/*.antt', recursive=True))
RT = sorted(glob.glob('crates/*/src/**/*.rt', recursive=True))
TOKEN = re.compile(r"[^\s(){}\[\],;.·«»\"]+")
NAME = re.compile(r"^[A-Za-z][A-Za-z0-9_'-]*$")
# the ways that a goal came, as the check names them
CASE = re.compile(r"^(then|else)-|^in-([A-Z]|default$)")
# definitions that would get the name of a function or a module beside which they stand
TWINS = {
    'both-sheets': 'sheet_pair', 'least-loaded': 'least_loaded_seat', 'number-line': 'line_of_numbers', 'pair_line': 'line_of_pairs',
    'plan-lines': 'lines_of_plan', 'task-lines': 'lines_of_tasks', 'stop-before': 'next_stop',
}
CLAUSE = re.compile(r"\s*(ghost|requires|ensures)\b")
FOREIGN = re.compile(r"\s*(?:ghost )?(?:pub )?use (?:Rattle\.std|mathlib|native|lib|Prim|denote|seplogic)[\w.]*\.\{(.*)\}")


def old(name):
    """Whether a name has an older spelling: a dash, or a type with an underscore."""
    return name in TWINS or bool(NAME.match(name)) and ('-' in name.strip('-') or (name[0].isupper() and '_' in name and not name.isupper()))


def new(name):
    if name in TWINS:
        return TWINS[name]
    if name[0].isupper():
        parts = re.split(r"[-_]", name)
        return ''.join(p[:1].upper() + p[1:] for p in parts)
    return name.replace('-', '_')


def code_of(path, line):
    return line.split('--')[0] if path.endswith('.antt') else line.split('//')[0]


def text_of(path):
    with open(path) as f:
        return f.read()


foreign, made, own = set(), set(), collections.Counter()
for path in ANTT + RT:
    for line in text_of(path).split('\n'):
        m = FOREIGN.match(line)
        if m:
            for x in m.group(1).split(','):
                foreign.update(y.strip() for y in x.strip().split(' as '))
        m = re.match(r"\s*(?:abbrev )?(?:pub )?([A-Za-z][\w'-]*) : [a-z]\w*\.([\w'-]+)\s*$", line)
        if m and m.group(1) == m.group(2):
            made.add(m.group(1))
for path in ANTT:
    for line in text_of(path).split('\n'):
        m = re.match(r"\s*(?:abbrev |unfoldable |opaque |inductive )*(?:pub )?(?:record |data )?([A-Za-z][\w'-]*)(?: [({].*)? :", code_of(path, line))
        if m and old(m.group(1)):
            own[m.group(1)] += 1
for name in list(own):
    if name in made or name in foreign:
        del own[name]


def turned(path, line):
    """The line with its names respelled."""
    if FOREIGN.match(line) or (path.endswith('.rt') and not CLAUSE.match(line)):
        return line
    code = code_of(path, line)
    out, at = [], 0
    for m in TOKEN.finditer(code):
        name = m.group(0)
        dotted = m.start() > 0 and code[m.start() - 1] == '.'
        # `c.x-y` and `g.x-y` are what the check tells of a goal
        told = dotted and re.search(r"(^|[\s(,;\[])[cgwl](\.[\w'-]+)*\.$", code[:m.start()])
        if old(name) and name not in foreign and name not in made and not told and (name in own or name in TWINS or (not dotted and path.endswith('.antt') and not CASE.match(name))):
            out.append(code[at:m.start()] + new(name))
            at = m.end()
    return ''.join(out) + code[at:] + line[len(code):]


def bounded(text):
    """The text of a .rt file, in whose clauses a member of a bound is named through its parameter: `O.before` for `before`."""
    lines, out, impl, fn = text.split('\n'), [], '', ''
    for at, line in enumerate(lines):
        if re.match(r"\s*(pub )?impl\b", line):
            impl, fn = line, ''
        elif line.startswith('}'):
            impl, fn = '', ''
        if re.match(r"\s*(pub(\(crate\))? )?(const )?fn\b", line):
            fn, end = line, at
            while ')' not in fn and end + 1 < len(lines):
                end += 1
                fn += lines[end]
        if re.match(r"\s*(ensures|requires)\b", line):
            for trait, members in (('PriorityOrder', ['before']), ('ArrivalRule', ['curve', 'left'])):
                bounds = {p for p in re.findall(r"\b(\w+): " + trait + r"\b", impl + ' ' + fn) if len(p) <= 2}
                if len(bounds) == 1:
                    for member in members:
                        line = re.sub(r"(?<![\w.'])" + member + r"(?![\w'])(?!\s*\})", bounds.copy().pop() + '.' + member, line)
        line = re.sub(r"\b([AB])\.ArrivalRule\.(curve|left)\b", r"\1.\2", line)
        out.append(line)
    return '\n'.join(out)


if __name__ == '__main__':
    listing = '--list' in sys.argv
    seen, renamed = collections.defaultdict(set), collections.defaultdict(set)
    for path in ANTT + RT:
        before = text_of(path)
        after = '\n'.join(turned(path, line) for line in before.split('\n'))
        if path.endswith('.rt') and not listing:
            after = bounded(after)
        if listing:
            for l, r in zip(before.split('\n'), after.split('\n')):
                a = [m.group(0) for m in TOKEN.finditer(code_of(path, l))]
                b = [m.group(0) for m in TOKEN.finditer(code_of(path, r))]
                for x, y in zip(a, b):
                    if x == y:
                        seen[x].add(path)
                    else:
                        renamed[y].add((x, path))
        elif after != before:
            with open(path, 'w') as f:
                f.write(after)
    if listing:
        for y in sorted(renamed):
            olds = {x for x, _ in renamed[y]}
            both = {p for _, p in renamed[y]} & seen.get(y, set())
            if len(olds) > 1 or both:
                print('together:', y, sorted(olds), sorted(both)[:4])
        print(len(renamed), 'renamed')
        for y in sorted(renamed):
            print('  ', sorted({x for x, _ in renamed[y]}), '->', y)
