#!/usr/bin/env python3
"""Places in crates/*/src that an older Rattle would have written so (docs/DESIGN-PASS.md): `tools/places.py` prints how many there are of each
point, `tools/places.py -v` each of them, `tools/places.py -v 3` those of the third point. It goes by text: it finds what to look at, and a place that is
kept for a reason is found too."""
import collections, glob, re, subprocess, sys

FILES = sorted(glob.glob('crates/*/src/**/*.rt', recursive=True))


def lines_that(pattern):
    rule = re.compile(pattern)
    for path in FILES:
        for number, line in enumerate(open(path), 1):
            if rule.search(line):
                yield f'{path}:{number}: {line.strip()}'


def block(text, start):
    depth = 0
    for end in range(start, len(text)):
        depth += {'{': 1, '}': -1}.get(text[end], 0)
        if depth == 0:
            return text[start + 1:end]
    return ''


def facts(clause):
    """The facts of a clause, without whether they are of a value before, now or after."""
    depth, last = 0, 0
    for i, char in enumerate(clause + '×'):
        depth += {'(': 1, ')': -1}.get(char, 0)
        if char == '×' and depth == 0:
            fact = re.sub(r'\.(old|now|new)\b', '', ' '.join(clause[last:i].split()))
            yield fact[1:-1] if re.fullmatch(r'\([^()]*(\([^()]*\)[^()]*)*\)', fact) else fact
            last = i + 1


def shared_facts():
    for crate in sorted(glob.glob('crates/*')):
        found, runs = collections.defaultdict(set), collections.defaultdict(set)
        for path in glob.glob(crate + '/src/**/*.rt', recursive=True):
            text = open(path).read()
            for m in re.finditer(r'\bfn (\w+)[^(]*\(([^{]*?)\)(?: -> [^{\n]+)?\n?', text):
                names = [p.strip().split(':')[0] for p in m.group(2).split(',') if ':' in p]
                for a in range(len(names)):
                    for b in range(a + 3, len(names) + 1):
                        runs[tuple(names[a:b])].add(m.group(1))
            for m in re.finditer(r'\brequires[^{]*\{', text):
                name = re.findall(r'\bfn (\w+)', text[:m.start()])[-1]
                for fact in facts(block(text, m.end() - 1)):
                    found[fact].add(name)
        for fact, names in sorted(found.items()):
            if len(names) >= 3:
                yield f'{crate}: {len(names)} functions ask {fact}'
        runs = {run: names for run, names in runs.items() if len(names) >= 3}
        for run, names in sorted(runs.items()):
            if not any(set(run) < set(other) and len(runs[other]) >= len(names) for other in runs):
                yield f'{crate}: {len(names)} functions take {" ".join(run)}'


def twins():
    """Functions of one shape: the same words once names, types, numbers and comments are left out."""
    shapes = collections.defaultdict(list)
    for path in FILES:
        text = re.sub(r'//.*', '', open(path).read())
        for m in re.finditer(r'\bfn (\w+)', text):
            opening = re.compile(r'\n *(?=\{\n)|[^\n{]* (?=\{\n)').search(text, m.end())
            start = opening.end() if opening else m.end()
            body = block(text, start)
            if body.count('\n') >= 5:
                shape = re.sub(r'\b\d[\d_]*\b', '0', re.sub(r'\b[A-Za-z_]\w*\b', lambda w: w.group() if w.group() in KEPT else 'x', body))
                shapes[' '.join(shape.split())].append(f'{path}: {m.group(1)}')
    for places in shapes.values():
        if len(places) > 1:
            yield ' ~ '.join(places)


KEPT = {'if', 'else', 'match', 'while', 'for', 'in', 'return', 'let', 'mut', 'true', 'false', 'len', 'as'}

POINTS = [
    ('enums of the shape of Option or Result', lambda: lines_that(r'^\s+(Absent|None|Refused\(\w+\)|Found(\(\w+\)| \{ \w+: \w+ \})|Unlisted|NoRoom|NoTrack),$')),
    ('flags in a struct', lambda: lines_that(r'^\s+(pub(\(crate\))? )?(is_|has_|goes_)\w+: bool,')),
    ('numbers for kinds, asked one by one', lambda: lines_that(r'if (tag|kind|word|k|byte|limited) == |^\s+\d+ => ')),
    ('twins by shape', twins),
    ('loops that are no for', lambda: lines_that(r'^\s*while ')),
    ('a kind told by hand', lambda: lines_that(r'=> (false|true),$')),
    ('numbers compared, cut and turned by hand', lambda: lines_that(r'(?<!fn )\b(smaller|larger|less|f32_min|f32_max|choose|bit|same|one_more)\(')),
    ('facts asked, or parameters taken, by three functions or more', shared_facts),
    ('arrays with a length beside', lambda: lines_that(r'let (mut )?\w+(: \[[^]]*\])? = (\[.*; |\w+::buffer\(\))')),
    ('switches on a step', lambda: lines_that(r'\b(letter_at|Pass::\w+|ItemCheck::\w+|Share::\w+|Batch::\w+)\b(?!.*=>)')),
]
NUMBERS = [1, 1, 1, 2, 3, 4, 4, 5, 6, 7]


def main():
    shown = [int(a) for a in sys.argv[1:] if a.isdigit()]
    for number, (name, places) in zip(NUMBERS, POINTS):
        if shown and number not in shown:
            continue
        found = list(places())
        print(f'{number}. {name}: {len(found)}')
        if '-v' in sys.argv:
            print(''.join(f'    {place}\n' for place in found), end='')
    if not shown or 8 in shown:
        answers = glob.glob('crates/*/proofs/**/Answers.antt', recursive=True)
        print(f'8. files of answers: {len(answers)}, their lines: {sum(len(open(p).readlines()) for p in answers)}')


main()
