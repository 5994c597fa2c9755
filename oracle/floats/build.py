"""Builds the program that holds the ported float routines against the Rust they were ported from:

    python3 oracle/floats/build.py SOURCES [LIBRARY]

SOURCES is the folder of the Rust sources, that of taffy 0.15.1; LIBRARY is the folder of libtorrivask.a (default crates/torrivask/out, where `rt lib` in that crate writes it). Both count from the repository's root.

No text of the Rust stands in this repository. The items named in CUTS are cut out of the sources as they stand, into
target/oracle-floats/cut.rs, and rust.rs takes that file in when the program is compiled to target/oracle-floats/compare.
"""
import os
import re
import subprocess
import sys

HERE = os.path.dirname(os.path.abspath(__file__))
ROOT = os.path.dirname(os.path.dirname(HERE))
OUT = os.path.join(ROOT, 'target', 'oracle-floats')

# The file, the block of it in which the item stands (None: the whole file), the impl that is put around what is cut
# (None: nothing), and the items.
CUTS = [
    ('src/util/sys.rs', 'mod std', None, ['fn f32_max', 'fn f32_min']),
    ('src/style/alignment.rs', None, None, ['enum AlignContentKeyword']),
    ('src/style/available_space.rs', None, None, ['enum AvailableSpace']),
    ('src/style/available_space.rs', 'impl AvailableSpace', 'impl AvailableSpace', ['fn is_definite', 'fn compute_free_space']),
    ('src/compute/grid/track_sizing.rs', None, None, [
        'fn flush_planned_base_size_increases',
        'fn flush_planned_growth_limit_increases',
        'fn compute_alignment_gutter_adjustment',
        'fn distribute_space_up_to_limits',
        'fn find_size_of_fr',
        'fn maximise_tracks',
        'fn stretch_auto_tracks',
    ]),
]

# What stands between an item's name and the start of its line.
BEFORE = r'^[ \t]*(?:pub(?:\([a-z]+\))? )?(?:const )?'

# Comments, strings and characters, whose braces do not count. A lifetime is no character: it has no closing quote.
NO_CODE = re.compile(r'//[^\n]*|/\*.*?\*/|"(?:\\.|[^"\\])*"|\'(?:\\[^\n]*?|[^\\\'\n])\'', re.DOTALL)


class NotCut(Exception):
    pass


def blanked(text):
    """The text with what is no code made blank, so that every place keeps its number."""
    return NO_CODE.sub(lambda found: re.sub(r'[^\n]', ' ', found.group()), text)


def body_end(code, start, name):
    """The place behind the brace that closes the first one after `start`."""
    depth = 0
    for at in range(start, len(code)):
        if code[at] == '{':
            depth += 1
        elif code[at] == '}':
            depth -= 1
            if depth == 0:
                return at + 1
    raise NotCut(f'{name}: no closing brace')


def cut(text, name):
    """The one item of that name, from its documentation and attributes to its closing brace."""
    code = blanked(text)
    found = list(re.finditer(BEFORE + re.escape(name) + r'(?=[ \t]*[({<])', code, re.MULTILINE))
    if len(found) != 1:
        raise NotCut(f'{name}: found {len(found)} times, not once')
    lines = text[:found[0].start()].split('\n')[:-1]
    first = len(lines)
    while first > 0 and re.match(r'[ \t]*(///|#\[)', lines[first - 1]):
        first -= 1
    start = len(''.join(line + '\n' for line in lines[:first]))
    return text[start:body_end(code, found[0].end(), name)] + '\n'


def cut_all(sources):
    """Everything in CUTS as one text, with the file that each part is from."""
    parts = ['// Cut out of the Rust sources by oracle/floats/build.py, unchanged. Not a part of the repository.\n']
    for file, block, around, names in CUTS:
        with open(os.path.join(sources, file), encoding='utf-8') as opened:
            text = opened.read()
        if block:
            text = cut(text, block)
        items = '\n'.join(cut(text, name) for name in names)
        parts.append(f'\n// {file}\n' + (f'{around} {{\n{items}}}\n' if around else items))
    return ''.join(parts)


def main():
    if len(sys.argv) < 2:
        sys.exit(__doc__)
    sources = os.path.join(ROOT, sys.argv[1])
    library = os.path.join(ROOT, sys.argv[2] if len(sys.argv) > 2 else 'crates/torrivask/out')
    cut_file, program = os.path.join(OUT, 'cut.rs'), os.path.join(OUT, 'compare')
    os.makedirs(OUT, exist_ok=True)
    # No program of an earlier build is left to be run in place of one that cannot be built.
    if os.path.exists(program):
        os.remove(program)
    try:
        text = cut_all(sources)
    except (OSError, NotCut) as fault:
        sys.exit(f'build.py: {fault}')
    with open(cut_file, 'w', encoding='utf-8') as opened:
        opened.write(text)
    rustc = ['rustc', '--edition', '2021', '-O', '-C', 'overflow-checks=on', '-L', f'native={library}']
    face = os.path.join(ROOT, 'examples', 'rust', 'torrivask.rs')
    for words in [
        ['--crate-type', 'rlib', '--out-dir', OUT, face],
        ['--extern', f'torrivask={OUT}/libtorrivask.rlib', '-o', program, os.path.join(HERE, 'main.rs')],
    ]:
        done = subprocess.run(rustc + words, env={**os.environ, 'CUT_RUST': cut_file})
        if done.returncode != 0:
            sys.exit(done.returncode)
    print(f'{sum(len(names) for *_, names in CUTS)} items cut, each found once; built {os.path.relpath(program, ROOT)}')


main()
