#!/usr/bin/env python3
"""Counts the places of older forms in crates/*/src, point by point (docs/DESIGN-PASS.md); with --list each place.

    python3 tools/forms.py [--list] [POINT..]      at the top of the repository; a POINT is a row's name, as 1a
"""
import collections, glob, re, sys

args = [a for a in sys.argv[1:] if a != '--list']
listing = '--list' in sys.argv
files = sorted(glob.glob('crates/*/src/**/*.rt', recursive=True))
text = {f: open(f).read() for f in files}
rows = collections.OrderedDict()
words = {}


def row(name, what):
    rows[name] = []
    words[name] = what
    return rows[name]


def lines(name, what, pattern, skip=None):
    found = row(name, what)
    for f in files:
        for n, line in enumerate(text[f].split('\n'), 1):
            if line.lstrip().startswith(('//', 'ghost use', 'use ')):
                continue
            if re.search(pattern, line) and not (skip and re.search(skip, line)):
                found.append('%s:%d: %s' % (f, n, line.strip()))


# ---- 1
nothing = 'Nothing|Nowhere|Neither|Idle|Refused|Missing|Absent'
found = row('1a', 'enums with a case for nothing or for a refusal')
for f in files:
    for m in re.finditer(r'enum (\w+)[^{]*\{(.*?)\n\}', text[f], re.S):
        if re.search(r'\b(%s)\b' % nothing, m.group(2)):
            found.append('%s: enum %s' % (f, m.group(1)))
lines('1b', 'fields that say whether, or under which number, beside what they speak of',
      r'^\s+(pub(\([a-z]+\))? )?(refused|failed|fits|passed|accepted|is_\w+|has_\w+|handed_on|moved|verdict|end|behind|form|state): (u8|u32|bool),')
lines('1c', 'functions that answer a refusal, a verdict or a state as a number',
      r'fn \w*(refus|check|answered|settle|judge|verdict|state_of|behind_of|end_of)\w*\(.*-> (u8|u32)\b|^\) -> (u8|u32)\b|fn fenuschia_\w+\(.*-> u32')
lines('1d', 'constants that name a state', r'^(pub(\([a-z]+\))? )?const [A-Z_]+: u8 = [0-9]+;')
lines('1e', 'tests of a number that says whether something is refused',
      r'if [a-z_.]*(refus|header|first|number|unread|unbounded|oversold|unfit)[a-z_.]* [!=]= 0')
lines('1f', 'refusals and verdicts returned as numerals', r'^\s+return ([1-9]|1[0-9]|2[0-6]);|refused: ([1-9][0-9]?),|verdict: [0-9],')

# ---- 2
found = row('2a', 'functions of one name in several crates, or numbered ones')
by = collections.defaultdict(list)
for f in files:
    crate = f.split('/')[1]
    for m in re.finditer(r'^\s*(?:pub(?:\([a-z]+\))? )?(?:extern "C" )?fn (\w+)', text[f], re.M):
        by[m.group(1)].append(f)
for name, where in sorted(by.items()):
    if name in ('main', 'fmt', 'from', 'run'):
        continue
    if len(set(w.split('/')[1] for w in where)) > 1:
        found += ['%s: fn %s' % (w, name) for w in where]
    elif re.match(r'^(read|write)[1248]$|_[ab]$', name):
        found += ['%s: fn %s' % (w, name) for w in where]
lines('2b', 'casts as functions, one for each pair of types', r'fn u\d+_as_')

# ---- 3
lines('3a', 'loops that count an index or a rest by hand', r'^\s*while ')
lines('3b', 'loops without a head', r'^\s*loop \{')

# ---- 4
lines('4a', 'conversions called by name', r'\bu(8|16|32)_as_(u16|u32|u64|usize)\(', r'fn u\d+_as_')
lines('4b', 'widening by `as` of a field or variable', r'\b(?!0x)[a-z_][a-z_.0-9\[\]]* as (u16|u32|u64|usize|i64)\b')
lines('4c', 'smaller, larger and difference by hand', r'\b(smaller|larger|excess|least)\(', r'^\s*(pub )?fn ')
lines('4d', 'functions that compute them', r'fn (smaller|larger|excess|least|difference|lent|used)\(')

# ---- 5
found = row('5a', 'functions with seven parameters or more')
for f in files:
    for m in re.finditer(r'fn (\w+)(<[^>]*>)?\(([^)]*)\)', text[f]):
        n = len([p for p in m.group(3).split(',') if p.strip()])
        if n >= 7:
            found.append('%s: fn %s (%d)' % (f, m.group(1), n))
found = row('5b', 'facts that stand in three contracts or more')
facts = collections.defaultdict(list)
for f in files:
    for m in re.finditer(r'^\s*requires (?:\w+ )?\{ (.*) \}$', text[f], re.M):
        for fact in m.group(1).split(' × '):
            fact = fact.strip()
            while fact.startswith('(') and fact.endswith(')'):
                fact = fact[1:-1]
            facts[re.sub(r'\s+', ' ', fact)].append(f)
for fact, where in sorted(facts.items(), key=lambda p: -len(p[1])):
    if len(where) >= 3:
        found += ['%s: %s' % (w, fact) for w in where]

# ---- 6
lines('6a', 'arrays in a struct', r'^\s+(pub(\([a-z]+\))? )?\w+: \[.*\],')
lines('6b', 'lengths and places beside them', r'^\s+(pub(\([a-z]+\))? )?(len|length|count|written|at|to|from): (u16|usize),')

# ---- 7
lines('7', 'switches on which step is due', r'if read == 0|if read <= |if before\.count < read|(form|state|end) == [A-Z1-9]|form == [0-9]')

# ---- 8
found = row('8', 'answers in proofs/ of the code crates')
for f in sorted(glob.glob('crates/*/proofs/**/Answers.antt', recursive=True)):
    if f.startswith('crates/model/'):
        continue
    found += ['%s: %s' % (f, n) for n in re.findall(r'^pub ([\w\-\']+) :', open(f).read(), re.M)]

for name in rows:
    if args and name not in args:
        continue
    print('%-3s %4d  %s' % (name, len(rows[name]), words.get(name) or ''))
    if listing:
        for place in rows[name]:
            print('        ' + place)
