#!/usr/bin/env python3
# places.py [FOLDER]: counts, in the sources below FOLDER/crates, the places that docs/DESIGN-PASS.md speaks of; with --list, names them.
import collections, glob, os, re, sys

args = [a for a in sys.argv[1:] if a != '--list']
root = args[0] if args else '.'
listing = '--list' in sys.argv


class Function:
    def __init__(self, crate, file, name, head, body):
        self.crate, self.file, self.name, self.head, self.body = crate, file, name, head, body

    def place(self):
        return f'{self.file}: {self.name}'


def functions(path):
    crate = path.split('/crates/')[1].split('/')[0]
    lines = open(path).read().split('\n')
    i = 0
    while i < len(lines):
        m = re.match(r'^(\s*)(?:pub(?:\(crate\))? )?(?:extern "C" )?fn (\w+)', lines[i])
        if not m:
            i += 1
            continue
        j = i
        while not (lines[j].rstrip() == m.group(1) + '}' or (lines[j].rstrip().endswith(';') and '{' not in lines[j] and j == i)):
            j += 1
            if j >= len(lines):
                break
        text = lines[i:j + 1]
        opens = next((n for n, l in enumerate(text) if l.rstrip() == m.group(1) + '{' or l.rstrip().endswith(' {') and 'requires' not in l and 'ensures' not in l), 0)
        yield Function(crate, os.path.relpath(path, root), m.group(2), '\n'.join(text[:opens + 1]), '\n'.join(text[opens + 1:]))
        i = j + 1


sources = sorted(glob.glob(os.path.join(root, 'crates/*/src/**/*.rt'), recursive=True))
sources = [s for s in sources if '/out/' not in s]
all_functions = [f for s in sources for f in functions(os.path.abspath(s) if root == '.' else s)]


def say(point, what, places):
    print(f'{point} {what}: {len(places)}')
    if listing:
        for p in places:
            print(f'    {p}')


def matches(pattern, unless=None):
    found = []
    for s in sources:
        for n, l in enumerate(open(s), 1):
            if re.search(pattern, l) and not (unless and re.search(unless, l)):
                found.append(f'{os.path.relpath(s, root)}:{n}: {l.strip()}')
    return found


# 1
say('1', 'enums', matches(r'^(pub )?enum '))
say('1', 'none told by a number', matches(r'0: (there is none|it has none|none)|\b0 is none|; 0: '))
say('1', 'kinds as numbers', matches(r'\bkind: usize|match kind \{|match r\.kind'))
say('1', 'refusals as numbers in a function that C does not call', matches(r'return 1[234];'))

# 2
names = collections.defaultdict(set)
for f in all_functions:
    names[f.crate].add((os.path.basename(f.file), f.name))
twins = [f.place() for f in all_functions if f.crate.startswith('wide_') and (os.path.basename(f.file), f.name) in names.get(f.crate[5:], set())]
say('2', 'functions that stand a second time in a crate wide_NAME', twins)
shapes = collections.defaultdict(list)
for f in all_functions:
    if f.crate.startswith('wide_') or f.crate in ('show_store_c', 'show_store'):
        continue
    body = [l.strip() for l in f.body.split('\n') if l.strip() and not l.strip().startswith('//')]
    if len(body) < 5:
        continue
    shape = re.sub(r'\b\d+\b', '#', re.sub(r'[A-Za-z_][\w:]*', lambda m: m.group(0) if m.group(0) in
                   ('while', 'for', 'in', 'if', 'else', 'let', 'mut', 'match', 'return', 'true', 'false', 'as') else '@', ' '.join(body)))
    shapes[shape].append(f.place())
alike = [' = '.join(v) for v in shapes.values() if len(v) > 1]
say('2', 'groups of functions of one shape', alike)

# 3
counted, walked = [], []
for f in all_functions:
    for m in re.finditer(r'^(\s*)while (.*) \{\n(.*?)^\1\}', f.body, flags=re.M | re.S):
        by_one = re.search(r'^\s*(\w+) (?:\+= 1|= \1 \+ 1);$', m.group(3), flags=re.M)
        (counted if by_one else walked).append(f'{f.place()}: while {m.group(2)}')
say('3', 'loops that count an index by hand', counted)
say('3', 'other while loops', walked)
say('3', 'for loops', matches(r'^\s*for '))

# 4
say('4', 'impls of comparison, copying, conversion, printing', matches(r'^impl.* (PartialEq|Eq|PartialOrd|Ord|Clone|Copy|From<.*>|Display|Debug) for'))
hand = []
for f in all_functions:
    arms = [l.strip() for l in f.body.split('\n') if '=>' in l]
    if len(arms) >= 3 and all(re.match(r'^[\w:]*(\(.*\))? => (\d+|\w+),$', a) for a in arms) and all('::' in a.split('=>')[0] for a in arms):
        hand.append(f.place())
say('4', 'conversions written as a match on an enum', hand)

# 5
clauses = collections.defaultdict(set)
for f in all_functions:
    for m in re.finditer(r'^\s*requires \w* ?\{ (.*) \}$', f.head, flags=re.M):
        clauses[re.sub(r'\.(now|old|new)\b', '', m.group(1))].add(f.place())
many = sorted((c for c in clauses if len(clauses[c]) >= 3), key=lambda c: -len(clauses[c]))
say('5', 'clauses that stand in three functions or more', [f'{len(clauses[c])} x {c}' for c in many])
pair = [f.place() for f in all_functions if re.search(r'\w+: &(mut )?\[(Word|W|u16)\],\s*k: usize', f.head)]
say('5', 'functions that take an image and its number of cards side by side', pair)

# 6
say('6', 'buffers with a length or a place beside them', matches(r'^\s*pub (count|at|len): usize,'))
par = [f.place() for f in all_functions if re.search(r'\w+: &\[\w+\],\s*\w+: &\[\w+\]', f.head)]
say('6', 'slices side by side', par)

# 7
switch = [f.place() for f in all_functions if re.search(r'match \w+ \{(\s*(\d+|\w+::\w+) => \w+::\w+::\w+.*\n?){3,}', f.body)]
say('7', 'switches on which step to run', switch)
say('7', 'tables of functions', matches(r'\[fn\(|: fn\('))

# 8
answers = [a for a in glob.glob(os.path.join(root, 'crates/*/proofs/**/Answers.antt'), recursive=True)]
lines = sum(len(open(a).readlines()) for a in answers)
print(f'8 files of answers: {len(answers)}, with {lines} lines')
