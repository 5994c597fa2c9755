"""The sizes that the proved reader prints for a board."""
import os
import subprocess
import tempfile

from board import ROOT, sheet

READER = os.path.join(ROOT, 'crates', 'reader', 'out', 'reader')
RUN = os.path.join(ROOT, 'tools', 'run')  # on any processor


def printed(board, folder):
    name = os.path.join(folder, 'board.sheet')
    with open(name, 'wb') as file:
        file.write(sheet(board))
    return subprocess.run([RUN, 'reader', name], capture_output=True, text=True, check=True).stdout


def bases(board, folder):
    """The base of every track, gutters left out; a refusal is a fault of whoever made the board."""
    text = printed(board, folder)
    rows = [line.split() for line in text.splitlines()]
    assert rows[0][0] == 'tracks', text
    found = [int(base) for _, base, _ in rows[1:]]
    return found if board.gutter is None else found[::2]


def reader_sizes(boards):
    with tempfile.TemporaryDirectory() as folder:
        return [bases(board, folder) for board in boards]
