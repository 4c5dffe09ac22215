#!/usr/bin/env python3
"""Lists the places of older forms in crates/*/src: tools/places.py [POINT ..], from the root of the repository.

1 flags, numbers for kinds   2 twins   3 loops   4 conversions and printing by hand
5 clauses and parameters that recur   6 buffers beside a length, tables by hand   7 switches   8 sizes of proofs
"""
import collections
import glob
import re
import sys

FUNCTION = re.compile(r'^(\s*)(pub(\(crate\))? )?(unsafe )?(extern "C" )?fn (\w+)')
WORDS = {'u8', 'u16', 'u32', 'u64', 'usize', 'f32', 'f64'}


class Function:
    def __init__(self, file, line, name, signature, clauses, body, owner):
        self.file, self.line, self.name = file, line, name
        self.signature, self.clauses, self.body, self.owner = signature, clauses, body, owner

    def where(self):
        return f'{self.file}:{self.line} {self.name}'


def functions(file):
    lines = open(file).read().split('\n')
    owner = ''
    i = 0
    while i < len(lines):
        head = re.match(r'^(impl|pub trait|trait)\b.*', lines[i])
        if head:
            owner = lines[i]
        m = FUNCTION.match(lines[i])
        if not m:
            i += 1
            continue
        indent, start = m.group(1), i
        signature, clauses = [], []
        while True:
            text = lines[i].strip()
            if re.match(r'(requires|ensures)\b', text):
                clauses.append(text.rstrip(';'))
            else:
                signature.append(text)
            if lines[i].rstrip().endswith(';') or lines[i] == indent + '{' or (lines[i].endswith('{') and not re.match(r'(requires|ensures)\b', text)):
                break
            i += 1
        body = []
        if lines[i].endswith('{'):
            i += 1
            while lines[i] != indent + '}':
                body.append(lines[i].strip())
                i += 1
        yield Function(file, start + 1, m.group(6), ' '.join(signature).rstrip('{; '), clauses, body, owner if indent else '')
        i += 1


def everything():
    for file in sorted(glob.glob('crates/*/src/*.rt')):
        yield from functions(file)


def grep(pattern, files='crates/*/src/*.rt'):
    for file in sorted(glob.glob(files)):
        for n, line in enumerate(open(file).read().split('\n'), 1):
            if re.search(pattern, line) and not re.match(r'\s*(//|ghost|ensures|requires)', line):
                yield f'{file}:{n} {line.strip()}'


def flags(all_functions):
    """Answers with a flag, tests of a refusal's number, and fields and constants that number kinds or flags."""
    for f in all_functions:
        if re.search(r'-> \(bool,', f.signature):
            yield f.where() + ' answers with a flag beside a value'
    yield from grep(r'\.code\(\) ==|const OUT_OF_MEMORY|fn code\(|fn at_place|fn place\(&self\) -> u8')
    yield from grep(r'^    (pub )?(function|multi_step|steps|supersampling|whole|limit|letter|kind): (u8|u32|usize),')


def normal(body):
    text = ' '.join(body)
    text = re.sub(r'\b\d[\d_.xa-f]*\b', 'N', text)
    text = re.sub(r'\b(' + '|'.join(WORDS) + r')\b', 'T', text)
    text = re.sub(r'\b[A-Z]\w*(<[^<>]*(<[^<>]*>)?[^<>]*>)?', 'X', text)
    text = re.sub(r'\b(tent|span|pair|limited|floats)\b\(\)', 'family()', text)
    return re.sub(r'\s+', ' ', text)


def twins(all_functions):
    """Functions whose bodies are alike but for types, constants and the names of types."""
    groups = collections.defaultdict(list)
    for f in all_functions:
        text = normal(f.body)
        if len(re.findall(r'\w+', text)) >= 3:
            groups[text].append(f)
    for group in groups.values():
        if len(group) > 1:
            yield f'{len(group)} alike: ' + '; '.join(f.where() for f in group)
    structs = collections.defaultdict(list)
    for file in sorted(glob.glob('crates/*/src/*.rt')):
        for m in re.finditer(r'struct (\w+)[^{;]*\{\n((?:    [^}].*\n)+)\}', open(file).read()):
            fields = frozenset(re.findall(r'^    (?:pub(?:\(crate\))? )?(\w+): [\w&]', m.group(2), re.M))
            structs[fields].append(f'{file} {m.group(1)}')
    for fields, names in structs.items():
        if len(names) > 1 and len(fields) > 2:
            yield f'{len(names)} structs of the fields {", ".join(sorted(fields))}: ' + '; '.join(names)


def loops(all_functions):
    """Loops that count by hand, and loops over a range of numbers."""
    yield from grep(r'^\s*(while\b|loop\b)|^\s*for \w+ in [^{]*\.\.')


def by_hand(all_functions):
    """Traits that a derive could write, and functions that convert or print."""
    yield from grep(r'^impl.*\b(PartialEq|Eq|PartialOrd|Ord|Clone|Copy|Default|Debug)\b.* for ')
    for f in all_functions:
        if re.match(r'(print|tell)_', f.name):
            yield f.where() + ' prints'
        elif not f.owner and re.match(r'[^()]*\((\w+: [^,()]+|high: u8, low: u8|[\w: ,]*usize,?) ?,? ?\) -> (?!Result|Option|io::|bool)', f.signature) and re.match(r'(word|digit|decode|\w+_of|\w+_from)$', f.name):
            yield f.where() + ' converts'
    yield from grep(r'fn at_place|fn place\(&self\) -> u8|^trait Made|^impl Made|fn decode')


def recurring(all_functions):
    """Clauses of three or more functions, and groups of parameters of three or more."""
    clauses = collections.defaultdict(list)
    for f in all_functions:
        for c in f.clauses:
            if c.startswith('requires'):
                fact = re.sub(r'^requires\w*( \w+)? ', '', c)
                clauses[fact].append(f)
    for fact, fs in clauses.items():
        if len(fs) >= 3:
            yield f'{len(fs)} functions ask {fact}: ' + ', '.join(sorted({f.name for f in fs}))
    params = []
    for f in all_functions:
        inside = re.search(r'\((.*)\)', f.signature)
        names = re.findall(r'(\w+): ', re.sub(r'<[^()]*?>', '', inside.group(1))) if inside else []
        params.append((f, [n for n in names if n != 'self']))
    groups = [('src', 'src_stride'), ('dst', 'dst_stride'), ('work', 'first', 'second'), ('x', 'y', 'width', 'height'),
              ('channels', 'width', 'height', 'stride'), ('src', 'start', 'step', 'n'), ('n', 'm', 'x'), ('n', 'm'),
              ('source', 'target'), ('rt', 'heap', 'sheet'), ('dst_channels', 'dst_size', 'src_channels', 'src_size'),
              ('family', 'options'), ('family', 'settings', 'stage'), ('from', 'source', 'into', 'sheet')]
    for group in groups:
        fs = [f for f, names in params if set(group) <= set(names)]
        if len(fs) >= 3:
            yield f'{len(fs)} functions take {", ".join(group)}: ' + ', '.join(sorted({f.name for f in fs}))


def buffers(all_functions):
    """Arrays with a count beside, places in a list by number, and long tables in a match."""
    yield from grep(r'\(usize, \[\w+; \d+\]\)|at\(numbers, \d+\)|shape_at\(numbers, \d+\)')
    for f in all_functions:
        arms = [l for l in f.body if re.match(r'\d+ => Some\(', l)]
        if len(arms) > 5:
            yield f'{f.where()} is a table of {len(arms)} arms'


def switches(all_functions):
    """Choices of the step to run by a kind, a strategy, a route or a flag."""
    yield from grep(r'match \(?(stage\.kind|self\.kind|self\.strategy|choose_strategy|route|kind|options\.channels|channels|window)\b|if flipped'
                    r'|\bif fours\b|self\.first\.knows\(options|family\.can_do_4_rows\(\)')


def proofs(all_functions):
    for name in sorted(glob.glob('crates/*/proofs')):
        files = glob.glob(name + '/**/*.antt', recursive=True)
        lines = sum(len(open(f).read().split('\n')) - 1 for f in files)
        answers = sum(len(re.findall(r'^pub [\w-]+ : goal\.', open(f).read(), re.M)) for f in files)
        yield f'{name}: {len(files)} files, {lines} lines, {answers} answers'


POINTS = [flags, twins, loops, by_hand, recurring, buffers, switches, proofs]


def main():
    wanted = [int(n) for n in sys.argv[1:]] or range(1, 9)
    all_functions = list(everything())
    for n in wanted:
        places = list(POINTS[n - 1](all_functions))
        print(f'{n}: {len(places)} places')
        for place in places:
            print('  ' + place)


main()
