"""Random boards that CSS can write, from a seed.

Scaled boards have numbers that are multiples of 2,520 = 8 * 9 * 5 * 7, so that equal shares, also shares of shares, come out whole: what
differs then differs by a rule and not by rounding. Small boards have numbers up to 40, where hardly a share is whole. The factors of a
board are of one group, by whose ratios 2,520 nearly always divides, so that shares by factor come out whole too; small boards also have
uneven groups. Boards come in sorts by their tracks. In the last two sorts every item spans two tracks or more: in one no track is fixed
or fr, which is where limits are decided; in the other every second track is fr. Boards of rows come in the same sorts.
"""
import random

from board import AUTO, FIT, FIXED, FR, MAX, MIN, Board, Item, Track

UNIT = 2520
MOST_TRACKS, MOST_ITEMS = 6, 8
MOST_SPACE = 39  # in units: below 100,000 dots, see page.py
FACTORS = (
    (1000,), (1000, 2000), (1000, 3000), (1000, 1500), (500, 1500), (250, 500), (100, 200), (0, 250), (0, 1000), (0, 1000, 2000), (0,),
)
UNEVEN = ((333, 334, 2500), (1, 7, 100_000), (0, 1, 999))
MINIMA = {'fixed and auto': (FIXED, AUTO), 'long spans': (AUTO, MIN, MAX)}
MAXIMA = {
    'fixed and auto': (FIXED, AUTO),
    'contents': (AUTO, MIN, MAX),
    'fit-content': (FIT, FIT, FIXED, AUTO, MIN, MAX),
    'fr': (FR, FR, FIXED, AUTO, MIN, MAX),
    'all': (FIXED, AUTO, MIN, MAX, FIT, FR),
    'long spans': (AUTO, MIN, MAX, FIT),
    'items across fr': (FR, FR, FR, FR, FR, FIXED, AUTO, MIN, MAX, FIT),
}
SORTS = tuple(MAXIMA)
LONG = SORTS[-2:]


class Maker:
    def __init__(self, seed, scaled):
        self.random, self.scaled = random.Random(f'{seed} {scaled}'), scaled

    def number(self, units):
        """A number of at most so many units; in small boards a unit is four dots."""
        return UNIT * self.random.randint(0, units) if self.scaled else self.random.randint(0, 4 * units)

    def track(self, sort, factors):
        low, high = self.random.choice(MINIMA.get(sort, (FIXED, AUTO, MIN, MAX))), self.random.choice(MAXIMA[sort])
        if high == FIT:
            low = AUTO  # CSS has no other
        least = self.number(8) if low == FIXED else 0
        most = self.random.choice(factors) if high == FR else self.number(10) if high in (FIXED, FIT) else 0
        return Track((low, least), (high, most))

    def item(self, sort, tracks, rows):
        """An item, in rows with one number for its three contributions. Where items may be short, every second one crosses no fr track or
        stands in one alone."""
        start = self.random.randrange(len(tracks) - (sort in LONG))
        most = len(tracks) - start
        if sort not in LONG and self.random.random() < 0.5:
            most = next((max(1, t - start) for t in range(start, len(tracks)) if tracks[t].maximum[0] == FR), most)
        row = sorted(self.number(10) for _ in range(3))
        if rows:
            row = row[2:] * 3
        elif self.random.random() < 0.3:
            row[0] = 0
        return Item(start, self.random.randint(2 if sort in LONG else 1, most), *row)

    def board(self, rows):
        sort, factors = self.random.choice(SORTS), self.random.choice(FACTORS if self.scaled else FACTORS + UNEVEN)
        tracks = [self.track(sort, factors) for _ in range(self.random.randint(2 if sort in LONG else 1, MOST_TRACKS))]
        items = [self.item(sort, tracks, rows) for _ in range(self.random.randint(0, MOST_ITEMS))]
        gutter = self.number(2) if self.random.random() < 0.2 else None
        space = None if rows else self.number(self.random.choice((12, MOST_SPACE)))
        return sort, Board(space, self.random.random() < 0.5, gutter, tracks, items)


def boards(count, seed, scaled, rows):
    """So many boards of columns, or of rows, each with its sort."""
    maker = Maker(seed, scaled)
    return [maker.board(rows) for _ in range(count)]
