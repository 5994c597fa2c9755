"""The smallest board found for each rule that the browser takes otherwise: the lines of its sheet, and both answers.

    python3 oracle/browser/smallest.py 3000 3      looks among so many scaled and small boards of this seed, of columns and of rows

From boards that differ it goes down step by step: a track or an item less, a plainer kind, a smaller number, as long as that one rule is
behind the difference. A rule of rounding shows in a part of a dot; any other must make a whole dot at least. On the way the browser's
sizes are those of the known rules; the board that is left is laid out by the browser, and must show the rule there too.
"""
import sys

sys.dont_write_bytecode = True
from board import AUTO, FIT, FR, Track, lines
from boards import UNIT, boards
from command import ask, show
from page import browser_sizes
from reader import reader_sizes
from rules import DIFFERENT, sizes
from why import ALL, NEAR, apart, rules_behind

ROUNDING = ('odd dots', 'odd dots by factor', 'fr rounded down')
STARTS = 10


def weight(board):
    """What is smaller: records first, then what they span, then what is not plainly auto or 1fr, then dots."""
    ends = [end for track in board.tracks for end in track]
    records, spans = len(board.tracks) + len(board.items), sum(item.span for item in board.items)
    dots = (board.space or 0) + sum(number for kind, number in ends if kind != FR) + sum(sum(item[2:]) for item in board.items)
    extras = sum((kind != AUTO) + (kind == FR and number != 1000) for kind, number in ends) + board.stretch + (board.gutter is not None)
    return records, spans, extras, dots, lines(board)


def without_track(board, t):
    tracks = board.tracks[:t] + board.tracks[t + 1:]
    items = []
    for item in board.items:
        inside = item.start <= t < item.start + item.span
        if not (inside and item.span == 1):
            items.append(item._replace(start=item.start - (item.start > t), span=item.span - inside))
    return board._replace(tracks=tracks, items=items)


def without_gutters(board):
    """Without them, and without their dots."""
    dots = board.gutter * (len(board.tracks) - 1)
    return board._replace(gutter=None, space=None if board.space is None else max(0, board.space - dots))


def less(number):
    return [smaller for smaller in {0, 1, number // 2, number - 2, number - 1} if 0 <= smaller < number]


def smaller_end(end):
    kind, number = end
    if kind != AUTO:
        yield AUTO, 0
    for smaller in () if kind == FR else less(number):
        yield kind, smaller
    if kind == FR and number != 1000:
        yield kind, 1000


def smaller_tracks(track):
    for end in smaller_end(track.minimum):
        yield track._replace(minimum=end)
    for end in smaller_end(track.maximum):
        yield track._replace(maximum=end)


def smaller_items(item):
    for contribution in item._fields[2:]:
        for number in less(getattr(item, contribution)):
            yield item._replace(**{contribution: number})
    for number in less(item.max_content):
        yield item._replace(**dict.fromkeys(item._fields[2:], number))
    if item.span > 1:
        yield item._replace(span=item.span - 1)
        yield item._replace(start=item.start + 1, span=item.span - 1)


def in_units(board):
    """A scaled board with its unit for a dot."""
    def size(end):
        return end if end[0] == FR else (end[0], end[1] // UNIT)
    return board._replace(
        space=board.space and board.space // UNIT, gutter=board.gutter and board.gutter // UNIT,
        tracks=[Track(size(track.minimum), size(track.maximum)) for track in board.tracks],
        items=[item._replace(**{name: getattr(item, name) // UNIT for name in item._fields[2:]}) for item in board.items],
    )


def candidates(board):
    """Boards one step smaller."""
    if max([board.space or 0] + [item.max_content for item in board.items]) >= UNIT:
        yield in_units(board)
    for t in range(len(board.tracks) * (len(board.tracks) > 1)):
        yield without_track(board, t)
    for i, item in enumerate(board.items):
        rest = board.items[:i], board.items[i + 1:]
        yield board._replace(items=rest[0] + rest[1])
        for smaller in smaller_items(item):
            yield board._replace(items=rest[0] + [smaller] + rest[1])
    for t, track in enumerate(board.tracks):
        for smaller in smaller_tracks(track):
            yield board._replace(tracks=board.tracks[:t] + [smaller] + board.tracks[t + 1:])
    for space in less(board.space or 0):
        yield board._replace(space=space)
    yield board._replace(stretch=False)
    if board.gutter is not None:
        yield without_gutters(board)


def can_be_laid_out(board):
    """Whether the sheet is accepted and CSS can write it: in rows an item has one number."""
    rising = all(item.minimum <= item.min_content <= item.max_content for item in board.items)
    level = board.space is not None or all(item.minimum == item.max_content for item in board.items)
    return rising and level and all(track.maximum[0] != FIT or track.minimum[0] == AUTO for track in board.tracks)


def shows(rule, board, browser):
    far = apart(sizes(board), browser)
    return (far >= 1 or rule in ROUNDING and far >= NEAR) and rules_behind(board, browser) == {rule}


def shows_as_known(rule, board):
    """As `shows`, with the browser's sizes as the known rules have them."""
    return shows(rule, board, sizes(board, ALL))


def shrunk(rule, board):
    """The smallest board that steps lead to, each to the lightest candidate that still shows the rule."""
    while True:
        lighter = (smaller for smaller in candidates(board) if can_be_laid_out(smaller) and weight(smaller) < weight(board))
        left = [smaller for smaller in lighter if shows_as_known(rule, smaller)]
        if not left:
            return board
        board = min(left, key=weight)


def main():
    count, seed = ask('smallest')
    every = [board for rows in (False, True) for scaled in (True, False) for _, board in boards(count, seed, scaled, rows)]
    for rule, other in DIFFERENT.items():
        print(f'{rule}: {other}')
        starts = sorted((board for board in every if shows_as_known(rule, board)), key=weight)[:STARTS]
        if not starts:
            print('    none of these boards shows it by itself')
            continue
        board = min((shrunk(rule, start) for start in starts), key=weight)
        (browser,), (reader,) = browser_sizes([board]), reader_sizes([board])
        show(board, browser, reader)
        if not shows(rule, board, browser):
            sys.exit('    which is not what the known rules say')


main()
