"""Boards as CSS Grid in headless Chromium: one page for many boards, and the sizes of their tracks.

A dot is a CSS pixel. Chromium works in 64ths of one and writes sizes in six digits, so sizes stay below 100,000. All items of a board of
columns stand in row 1, and those of a board of rows, which has a min-content height, in column 1.
An item's three contributions to columns are boxes: `min-width` is the minimum contribution, since an auto width leaves nothing else to take it
from; its content is a line of inline blocks, the widest of which is the min-content contribution and all of which are the max-content one.
Where min-content is 0, the content is a canvas of `max-width: 100%`, which by CSS may shrink to nothing.
"""
import json
import os
import re
import shutil
import subprocess
import sys
import tempfile

from board import css_track

HEAD = """<!doctype html><meta charset="utf-8"><style>
* { margin: 0; padding: 0; border: 0 }
body { font-size: 0; line-height: 0 }
.board { display: grid; align-items: start }
.board > * { grid-row: 1; grid-column: 1 }
b { display: inline-block; height: 1px }
canvas { max-width: 100% }
</style>
"""
SCRIPT = """<pre id="sizes"></pre><script>
const sizes = [...document.querySelectorAll('.board')].map(board => {
  const style = getComputedStyle(board)
  return board.classList.contains('rows') ? style.gridTemplateRows : style.gridTemplateColumns
})
document.getElementById('sizes').textContent = JSON.stringify(sizes)
</script>
"""


def boxes(item):
    """What stands in an item: as wide as its max-content contribution on one line, and no box wider than its min-content one."""
    if item.min_content == 0:
        return f'<canvas width="{item.max_content}" height="1"></canvas>' if item.max_content else ''
    count, rest = divmod(item.max_content, item.min_content)
    widths = [item.min_content] * count + [rest] * (rest > 0)
    return ''.join(f'<b style="width:{width}px"></b>' for width in widths)


def html(board):
    return columns(board) if board.space is not None else rows(board)


def rows(board):
    align = 'stretch' if board.stretch else 'start'
    gap = f'row-gap:{board.gutter}px;' if board.gutter is not None else ''
    tracks = ' '.join(map(css_track, board.tracks))
    items = ''.join(f'<div style="grid-row:{item.start + 1}/span {item.span};height:{item.max_content}px"></div>' for item in board.items)
    return f'<div class="board rows" style="height:min-content;align-content:{align};{gap}grid-template-rows:{tracks}">{items}</div>\n'


def columns(board):
    align = 'stretch' if board.stretch else 'start'
    gap = f'column-gap:{board.gutter}px;' if board.gutter is not None else ''
    tracks = ' '.join(map(css_track, board.tracks))
    items = ''.join(
        f'<div style="grid-column:{item.start + 1}/span {item.span};min-width:{item.minimum}px">{boxes(item)}</div>' for item in board.items
    )
    return f'<div class="board" style="width:{board.space}px;justify-content:{align};{gap}grid-template-columns:{tracks}">{items}</div>\n'


def chromium():
    return shutil.which('chromium')


def version():
    said = subprocess.run([chromium(), '--version'], capture_output=True, text=True).stdout
    return ' '.join(said.split()[:2])


def laid_out(page):
    """The sizes that the page's script wrote, as a browser leaves them in the document."""
    with tempfile.TemporaryDirectory() as folder:
        name = os.path.join(folder, 'boards.html')
        with open(name, 'w') as file:
            file.write(page)
        profile = f'--user-data-dir={folder}/profile'
        command = [chromium(), '--headless', '--no-sandbox', '--disable-gpu', profile, '--dump-dom', f'file://{name}']
        text = subprocess.run(command, capture_output=True, text=True).stdout
    written = re.search(r'<pre id="sizes">(.+?)</pre>', text)
    if not written:
        sys.exit('chromium ran and gave no sizes')
    return json.loads(written[1])


def numbers(sizes):
    return [float(re.fullmatch(r'([0-9.]+)px', size)[1]) for size in sizes.split()]


def browser_sizes(boards, at_once=400):
    """The size of every track of every board, gutters not among them."""
    found = []
    for k in range(0, len(boards), at_once):
        found += map(numbers, laid_out(HEAD + ''.join(map(html, boards[k:k + at_once])) + SCRIPT))
    return found
