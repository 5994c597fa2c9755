"""A board that both sides can lay out: as the lines of tools/sheet, as a sheet's bytes, and as the words of CSS.

A board of columns has a definite space, and the inner size is the same number. A board of rows has a space of None: it lies along the block
axis under min-content, without an inner size, and its items have a height, which is all three contributions. A track is a minimum and a
maximum, each a kind and its number (0 where the kind has none; an fr factor in thousandths). An item is start, span and its three
contributions. A gutter, where there is one, stands between any two tracks: CSS has a gap for it, a sheet a fixed track.
"""
import collections
import importlib.machinery
import importlib.util
import os
import sys

sys.dont_write_bytecode = True
ROOT = os.path.join(os.path.dirname(os.path.abspath(__file__)), '..', '..')

Board = collections.namedtuple('Board', 'space stretch gutter tracks items')
Track = collections.namedtuple('Track', 'minimum maximum')
Item = collections.namedtuple('Item', 'start span minimum min_content max_content')

FIXED, AUTO, MIN, MAX, FIT, FR = 'fixed', 'auto', 'min-content', 'max-content', 'fit-content', 'fr'


def tool(name):
    """A program of tools/ as a module: its lines and bytes are said there, once."""
    loader = importlib.machinery.SourceFileLoader(name, os.path.join(ROOT, 'tools', name))
    module = importlib.util.module_from_spec(importlib.util.spec_from_loader(name, loader))
    loader.exec_module(module)
    return module


SHEET = tool('sheet')


def with_gutters_listed(board):
    """The same board as a sheet has it: gutters are tracks, and spans count them."""
    if board.gutter is None:
        return board
    gutter = Track((FIXED, board.gutter), (FIXED, board.gutter))
    tracks = [track for each in board.tracks for track in (gutter, each)][1:]
    items = [item._replace(start=2 * item.start, span=2 * item.span - 1) for item in board.items]
    return board._replace(gutter=None, tracks=tracks, items=items)


def factor(thousandths):
    return f'{thousandths / 1000:g}fr'


def lines(board):
    """The lines of tools/sheet."""
    board = with_gutters_listed(board)
    words = {FIXED: str, FIT: 'fit-content:{}'.format, FR: factor}

    def word(end):
        return words[end[0]](end[1]) if end[0] in words else end[0]

    space = 'min-content' if board.space is None else f'definite {board.space} inner {board.space}'
    found = [f'space {space}' + ' stretch' * board.stretch + ' block' * (board.space is None)]
    found += [f'track {word(track.minimum)} {word(track.maximum)}' for track in board.tracks]
    return found + ['item ' + ' '.join(map(str, item)) for item in board.items]


def sheet(board):
    return SHEET.bytes_of(*SHEET.records_of(lines(board)))


def css_track(track):
    """A track in CSS. fit-content() has no minimum of its own there: it is auto."""
    words = {FIXED: '{}px'.format, FR: factor}
    if track.maximum[0] == FIT:
        assert track.minimum[0] == AUTO, 'CSS cannot write it'
        return f'fit-content({track.maximum[1]}px)'
    low, high = (words[kind](number) if kind in words else kind for kind, number in track)
    return f'minmax({low},{high})'
