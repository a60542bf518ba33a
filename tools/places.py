"""Counts in src/ the places that docs/DESIGN-PASS.md speaks of: `python3 tools/places.py [TOP] [POINT]`.

Without POINT (1 to 8) a line for each count; with it also each place. It goes by text alone, so that the same command can be run on
any commit (`git worktree add DIR COMMIT`, then give DIR as TOP). What it counts is said beside each count.
"""
import collections
import glob
import os
import re
import sys

top = sys.argv[1] if len(sys.argv) > 1 else '.'
only = sys.argv[2] if len(sys.argv) > 2 else None


def read(kind):
    out = []
    for path in sorted(glob.glob(os.path.join(top, 'crates/*', kind), recursive=True)):
        with open(path, encoding='utf-8') as f:
            out.append((os.path.relpath(path, top), f.read()))
    return out


SOURCES = read('src/**/*.rt')
PROOFS = read('proofs/**/*.antt')


def code(text):
    """The text with comments and clauses blanked, so that only code is counted."""
    text = re.sub(r'//[^\n]*', '', text)
    text = re.sub(r'^\s*ghost use [^\n]*', '', text, flags=re.M)
    lines, skip = [], False
    for line in text.split('\n'):
        if re.match(r'\s*(requires|ensures)\b', line):
            skip = not line.rstrip().endswith('}')
            lines.append('')
            continue
        if skip:
            skip = not line.rstrip().endswith('}')
            lines.append('')
            continue
        lines.append(line)
    return '\n'.join(lines)


CODE = [(path, code(text)) for path, text in SOURCES]


def found(pattern, texts=CODE, flags=re.M):
    places = []
    for path, text in texts:
        for m in re.finditer(pattern, text, flags):
            line = text.count('\n', 0, m.start()) + 1
            places.append((f'{path}:{line}', ' '.join(m.group(0).split())[:90]))
    return places


def show(point, what, places):
    print(f'{point}  {len(places):4}  {what}')
    if only == point:
        for place, text in places:
            print(f'          {place}  {text}')


# 1
enums = found(r'^\s*(?:pub )?enum \w+(?:<[^>]*>)? \{[^}]*\}')
shaped = []
for place, text in enums:
    whole = re.search(r'enum (\w+)', text).group(1)
    body = next(m.group(1) for p, t in CODE for m in [re.search(r'enum ' + whole + r'(?:<[^>]*>)? \{([^}]*)\}', t)] if m)
    variants = [v for v in re.split(r',\s*\n', body) if v.strip()]
    bare = [v for v in variants if '(' not in v and '{' not in v]
    if len(variants) == 2 and len(bare) < 2 or re.search(r'Refusal\)|Denial\)', body):
        shaped.append((place, whole))
show('1', 'enums of the shape of Option or Result', shaped)
show('1', 'arms that only hand a refusal on', found(r'(?:Refused|Denied|Err)\((\w+)\) => (?:return )?(?:\w+::)*(?:Refused|Denied|Err)\(\1\)'))
show('1', 'refusals by number', found(r'\b(?:refused|bare|known|listed)\(\s*(?:\w+,\s*)?\d+\b|^\s*number: \d+'))
show('1', 'types of states, edges and actions by number',
     found(r'\b(?:kind|follow)\w* (?:==|!=|<|>=) \d+|^\s*\d+(?: \| \d+)* => (?!printing|onto)|\bequal\(kind, \d+\)|number_at\([^;{]*\) [!=]= \d+'))
# 2
shapes = collections.defaultdict(list)
for path, text in CODE:
    for m in re.finditer(r'^(?:pub )?(?:extern "C" )?fn (\w+)[^{;]*\{(.*?)^\}', text, re.M | re.S):
        line = text.count('\n', 0, m.start()) + 1
        body = m.group(2)
        names = {}
        flat = re.sub(r'\b[A-Za-z_]\w*(?:::\w+)*\b|\d+', lambda k: names.setdefault(k.group(0), f'v{len(names)}'), ' '.join(body.split()))
        if len(flat) > 40:
            shapes[flat].append((f'{path}:{line}', m.group(1)))
twins = [(p[0][0], ', '.join(f'{b} ({a})' for a, b in p)) for p in shapes.values() if len(p) > 1]
print(f"2  {sum(t[1].count('(') for t in twins):4}  functions that another one equals but for names, types and numbers, in {len(twins)} groups")
if only == '2':
    for place, text in twins:
        print('          ' + text)
show('2', 'functions with one name in several crates', sorted(
    (', '.join(where), name) for name, where in
    (lambda d: [(n, w) for n, w in d.items() if len({x.split('/')[1] for x in w}) > 1])(
        (lambda d: [d.setdefault(m.group(1), []).append(f'{path}') for path, text in CODE
                    for m in re.finditer(r'^(?:pub )?fn (\w+)', text, re.M)] and d)({}))))
# 3
loops = []
for path, text in CODE:
    for m in re.finditer(r'^( *)while ([^\n]*)\{\n(.*?)^\1\}', text, re.M | re.S):
        counted = re.findall(r'(\w+) [-+]= 1;', m.group(3))
        if any(re.search(r'\b' + v + r'\b', m.group(2)) for v in counted):
            loops.append((f"{path}:{text.count(chr(10), 0, m.start()) + 1}", 'while ' + m.group(2)))
show('3', 'loops that count an index by hand', loops)
show('3', 'other `while` loops', [p for p in found(r'^ *while [^\n]*') if p[0] not in {q[0] for q in loops}])
show('3', '`for` loops and iterator chains', found(r'^ *for \w+|^ *for \(|\.(?:all|any|fold|map|filter|position|sum|zip)\('))
# 4
show('4', 'casts by `as`', found(r' as [iu](?:8|16|32|64|128|size)\b'))
show('4', 'functions that compare, convert, clear or choose by hand', found(
    r'^(?:pub )?fn (?:wide|equal|at_most|between|smaller|lower|upper|signed|signed_of|unsigned_of|size_of|number_of|is_number|word_of|clear|dirty|unset|size|truth|bit)\b'))
show('4', 'texts and numbers printed piece by piece', found(r'\b(?:printing|onto|errors)::(?:text|size|number)\('))
show('4', 'derives', found(r'#\[derive\('))
show('4', 'impl From, TryFrom, Display', found(r'^impl[^\n]*\b(?:From<|TryFrom<|Display)'))
# 5
facts = collections.defaultdict(set)
for path, text in SOURCES:
    where = ''
    for n, line in enumerate(text.split('\n'), 1):
        f = re.match(r'\s*(?:pub )?(?:extern "C" )?fn (\w+)', line)
        if f:
            where = f.group(1)
        r = re.match(r'\s*requires(?: \w+)? \{ (.*) \}', line)
        if r:
            for fact in re.split(r' × ', r.group(1)):
                facts[re.sub(r'^\((.*)\)$', r'\1', fact.strip()).replace('.old', '.now')].add((f'{path}:{n}', where))
often = [(sorted(w)[0][0], f'{len(w)} times: {fact}') for fact, w in facts.items() if len(w) > 2]
show('5', 'facts in the clauses of three or more functions', sorted(often))
wide = []
for path, text in CODE:
    for m in re.finditer(r'^(?:pub )?(?:extern "C" )?fn (\w+)(?:<[^(]*>)?\(([^)]*)\)', text, re.M):
        params = [x for x in m.group(2).split(',') if x.strip()]
        if len(params) > 6:
            wide.append((f"{path}:{text.count(chr(10), 0, m.start()) + 1}", f'{m.group(1)}: {len(params)}'))
show('5', 'functions of more than six parameters', wide)
# 6
COUNT = r'(?:n|m|k|c|o|ra|se|ru|mo|de|ac|\w*counts?|length|edge_count|room\w*)'
show('6', 'a slice with a count of its records right beside it', found(r'\b(?!words\b)\w+: &(?:mut )?\[i32\],\s*' + COUNT + r': usize'))
show('6', 'words with a place beside them', found(r'\bwords: &\[i32\],\s*\w+: usize'))
show('6', 'fixed arrays', found(r'= \[[^\];]*; \w+\]|\[\w+; \w+\] \{'))
show('6', 'texts as bytes', found(r'\bb"'))
show('6', 'places of words by number', found(r'\b(?:8|3|2) \* \w+(?: \+ \d+)?|\b[a-z_]+\[\d+\]'))
# 7
show('7', 'a switch on which step to run', found(r'\bmatch (?:which|about|due)\b'))
show('7', 'closures', found(r'\|[\w, &()]*\| '))
# 8
names = {p for p, _ in PROOFS if p.endswith('/Answers.antt')}
print(f"8  {len(names):4}  files of answers, {sum(t.count(chr(10)) for p, t in PROOFS if p in names)} lines")
rest = {p for p, _ in PROOFS if not p.endswith(('/Answers.antt', '/Invariants.antt', '/Lib.antt'))}
print(f"8  {len(rest):4}  files of lemmas, {sum(t.count(chr(10)) for p, t in PROOFS if p in rest)} lines")
everything = '\n'.join(t for _, t in PROOFS + read('specs/**/*.antt') + SOURCES)
uncited = [(p, m.group(1)) for p, t in PROOFS if p in rest for m in re.finditer(r'^ *pub ([\w\-\'⁰-₟]+)[ :{]', t, re.M)
           if len(re.findall(r'(?<![\w\-])' + re.escape(m.group(1)) + r'(?![\w\-])', everything)) <= len(re.findall(r'(?<![\w\-])' + re.escape(m.group(1)) + r'(?![\w\-])', t)) and
           len(re.findall(r'^ *(?:pub )?' + re.escape(m.group(1)) + r' ', t, re.M)) >= len(re.findall(r'(?<![\w\-])' + re.escape(m.group(1)) + r'(?![\w\-])', t))]
show('8', 'lemmas of proofs/ that nothing cites', uncited)
lines = collections.Counter(' '.join(l.split()) for p, t in PROOFS if p in names for l in t.split('\n') if len(l.strip()) > 90)
show('8', 'long lines of answers that stand twice or more', [(f'{n} times', l[:80]) for l, n in lines.items() if n > 1])
