"""The build paper's sizing, step by step and exact, with some of its rules as switches: of columns under a definite space, and of rows under
min-content without an inner size, whose items have one number for all three contributions.

`sizes(board, otherwise)` takes the rules that `otherwise` names in their other reading; with none it must give the reader's sizes.
DIFFERENT has the rules that the browser is known to take otherwise, SHARED some that it takes as the paper does; both say what the
other reading is.
"""
from fractions import Fraction

from board import AUTO, FIT, FIXED, FR, MAX, MIN, with_gutters_listed

DIFFERENT = {
    'odd dots': 'a share is a fraction, and there are no odd dots',
    'odd dots by factor': 'a share by factor is a fraction, and no dots are over',
    'fr rounded down': 'an fr track keeps its fraction',
    'limit of none': 'a limit of none becomes base plus increase for every track that an item affects, also where the increase is 0',
    'fit-content room of bases': 'the room of a fit-content base that has no limit yet is not cut to the argument',
    'fit-content beyond limits': 'what remains of a base share goes to fit-content tracks too',
    'rows at min-content': 'rows without a height grow to their limits in step 5, as under max-content',
    'no factor left': 'the search of an item gives no fr where no factor above 0 is left in it',
    'rows laid out once': 'rows without a height are laid out again in the height that they came to, as in a definite space',
}
SHARED = {
    'fr rows open': 'fr rows without a height stay shut under min-content, as fr columns do',
    'fit-content limit in shares': 'a fit-content limit has room beyond its argument',
    'infinitely growable': 'no limit is infinitely growable in (f)',
    'largest increase': 'the increases that items give a track add up',
    'one last batch': 'the items across fr tracks come batch by batch in rising span',
    'only fr tracks': 'an item across fr tracks raises its other tracks too, as other items do',
    'no limits in the last batch': 'an item across fr tracks raises the limits of its other tracks, as other items do',
    'affected factors': 'the factors of all fr tracks under an item count, and what falls to those not affected goes nowhere',
    'factors below one': 'where the factors under an item add up to less than 1, that part of the extra goes by factor, the rest equally',
}
INTRINSIC_MINIMA, INTRINSIC_MAXIMA = (AUTO, MIN, MAX), (AUTO, MIN, MAX, FIT)


class Sizing:
    def __init__(self, board, otherwise):
        self.board, self.otherwise = board, otherwise
        self.minimum = [track.minimum[0] for track in board.tracks]
        self.maximum = [track.maximum[0] for track in board.tracks]
        self.argument = [track.maximum[1] for track in board.tracks]
        self.all = range(len(board.tracks))
        self.items = [item for item in board.items if any(self.minimum[t] != FIXED or self.maximum[t] != FIXED for t in spanned(item))]

    def run(self):
        self.start()
        self.one_track()
        within = [item for item in self.items if not self.crosses_fr(item)]
        for span in sorted({item.span for item in within if item.span > 1}):
            batch = [item for item in within if item.span == span]
            self.raise_bases(batch)
            self.raise_limits(batch)
        for batch in self.last_batches([item for item in self.items if self.crosses_fr(item)]):
            self.raise_bases(batch)
            if 'no limits in the last batch' in self.otherwise:
                self.raise_limits(batch)
        self.limit = [base if limit is None else limit for base, limit in zip(self.base, self.limit)]
        self.maximise()
        self.flexible()
        self.stretch()
        return self.base

    def fill(self, dots, rooms):
        """The gains, and what is left. A room of None is without limit."""
        gains, fractions = [0] * len(rooms), 'odd dots' in self.otherwise
        while dots:
            rests = [None if room is None else room - gain for room, gain in zip(rooms, gains)]
            open_tracks = [t for t, rest in enumerate(rests) if rest != 0]
            if not open_tracks:
                break
            share = Fraction(dots, len(open_tracks)) if fractions else dots // len(open_tracks)
            if share == 0:
                for t in open_tracks[:int(dots)]:
                    gains[t] += 1
                return gains, 0
            step = min([share] + [rests[t] for t in open_tracks if rests[t] is not None])
            for t in open_tracks:
                gains[t] += step
            dots -= step * len(open_tracks)
        return gains, dots

    def add(self, increase, given):
        return increase + given if 'largest increase' in self.otherwise else max(increase, given)

    # steps 1 and 2

    def start(self):
        self.base = [number if kind == FIXED else 0 for kind, number in (track.minimum for track in self.board.tracks)]
        self.limit = [self.argument[t] if self.maximum[t] == FIXED else None for t in self.all]
        self.limits_up_to_bases()

    def limits_up_to_bases(self):
        self.limit = [None if limit is None else max(limit, base) for base, limit in zip(self.base, self.limit)]

    def one_track(self):
        for item in self.items:
            t = item.start
            if item.span > 1 or self.maximum[t] == FR:
                continue
            for_base = {FIXED: 0, AUTO: item.minimum, MIN: item.min_content, MAX: item.max_content}[self.minimum[t]]
            self.base[t] = max(self.base[t], for_base)
            if self.maximum[t] in INTRINSIC_MAXIMA:
                for_limit = item.min_content if self.maximum[t] == MIN else item.max_content
                if self.maximum[t] == FIT:
                    for_limit = min(for_limit, self.argument[t])
                self.limit[t] = max(self.limit[t] or 0, for_limit)
        self.limits_up_to_bases()

    # step 3

    def crosses_fr(self, item):
        return any(self.maximum[t] == FR for t in spanned(item))

    def last_batches(self, items):
        """The one last batch."""
        if 'one last batch' in self.otherwise:
            return [[item for item in items if item.span == span] for span in sorted({item.span for item in items})]
        return [items]

    def raise_bases(self, items):
        """The letters on bases; (c) is for another constraint."""
        self.bases(items, INTRINSIC_MINIMA, 'minimum', (AUTO, MIN, MAX))
        self.bases(items, (MIN, MAX), 'min_content', (AUTO, MIN, MAX))
        self.bases(items, (MAX,), 'max_content', (AUTO, MAX))
        self.limits_up_to_bases()

    def raise_limits(self, items):
        growable = self.limits(items, INTRINSIC_MAXIMA, 'min_content', set())
        self.limits(items, (AUTO, MAX, FIT), 'max_content', growable)

    def bases(self, items, minima, contribution, beyond):
        if 'fit-content beyond limits' in self.otherwise:
            beyond += (FIT,)
        increase = [0 for _ in self.all]
        for item in items:
            affected = [t for t in spanned(item) if self.minimum[t] in minima]
            extra = max(0, getattr(item, contribution) - sum(self.base[t] for t in spanned(item)))
            if self.crosses_fr(item) and 'only fr tracks' not in self.otherwise:
                affected = [t for t in affected if self.maximum[t] == FR]
                given = self.by_factor(extra, affected, item)
            else:
                given = self.by_room(extra, affected, beyond)
            for t, more in zip(affected, given):
                increase[t] = self.add(increase[t], more)
        self.base = [base + more for base, more in zip(self.base, increase)]

    def by_room(self, extra, affected, beyond):
        """What each affected track gets up to its limit and, of what remains, beyond it."""
        gains, left = self.fill(extra, [self.room(t) for t in affected])
        given = dict(zip(affected, gains))
        takers = [t for t in affected if self.maximum[t] in beyond] or affected
        for t, more in zip(takers, self.fill(left, [None] * len(takers))[0]):
            given[t] += more
        return given.values()

    def by_factor(self, extra, affected, item):
        """What each affected fr track gets: its part, and the dots over go to the first with a factor. Without factors it is the fill."""
        factors = [self.argument[t] for t in affected]
        if sum(factors) == 0:
            return self.fill(extra, [None] * len(affected))[0]
        parts = self.parts(extra, factors, item)
        if 'odd dots by factor' in self.otherwise:
            return parts
        gains, takers = [part // 1 for part in parts], [k for k, factor in enumerate(factors) if factor > 0]
        for k in takers[:int(sum(parts) - sum(gains))]:
            gains[k] += 1
        return gains

    def parts(self, extra, factors, item):
        """The parts of the extra by factor, before they are rounded."""
        under = sum(self.argument[t] for t in spanned(item) if self.maximum[t] == FR)
        total = under if 'affected factors' in self.otherwise else sum(factors)
        parts = [Fraction(extra * factor, total) for factor in factors]
        if under < 1000 and 'factors below one' in self.otherwise:
            parts = [(under * part + (1000 - under) * Fraction(extra, len(parts))) / 1000 for part in parts]
        return parts

    def room(self, t):
        """How far a base may grow: up to its limit, for fit-content at most to the argument."""
        most = self.limit[t]
        if self.maximum[t] == FIT and (most is not None or 'fit-content room of bases' not in self.otherwise):
            most = self.argument[t] if most is None else min(most, self.argument[t])
        return None if most is None else max(0, most - self.base[t])

    def limits(self, items, maxima, contribution, growable):
        """A letter on limits. Answers the tracks that the next one may grow."""
        size = [base if limit is None else limit for base, limit in zip(self.base, self.limit)]
        increase = {}
        for item in items:
            affected = [t for t in spanned(item) if self.maximum[t] in maxima]
            extra = max(0, getattr(item, contribution) - sum(size[t] for t in spanned(item)))
            first, left = self.fill(extra, [self.limit_room(t, size[t]) if self.limit[t] is None or t in growable else 0 for t in affected])
            second, _ = self.fill(left, [self.limit_room(t, size[t] + given) for t, given in zip(affected, first)])
            for t, one, two in zip(affected, first, second):
                increase[t] = self.add(increase.get(t, 0), one + two)
        if 'limit of none' not in self.otherwise:
            increase = {t: more for t, more in increase.items() if more > 0}
        growable = {t for t in increase if self.limit[t] is None and 'infinitely growable' not in self.otherwise}
        for t, more in increase.items():
            self.limit[t] = size[t] + more
        return growable

    def limit_room(self, t, size):
        if self.maximum[t] != FIT or 'fit-content limit in shares' in self.otherwise:
            return None
        return max(0, self.argument[t] - size)

    # steps 5 to 7

    def free(self):
        """None in rows, which have no definite space."""
        return None if self.board.space is None else max(0, self.board.space - sum(self.base))

    def maximise(self):
        if self.free() is None:
            if 'rows at min-content' in self.otherwise:
                self.base = list(self.limit)
            return
        gains, _ = self.fill(self.free(), [self.room(t) for t in self.all])
        self.base = [base + gain for base, gain in zip(self.base, gains)]

    def flexible(self):
        factor = {t: Fraction(self.argument[t], 1000) for t in self.all if self.maximum[t] == FR}
        if self.free() == 0 or (self.free() is None and 'fr rows open' in self.otherwise):
            return
        if self.free() is not None:
            fr = self.search(self.board.space, self.all, factor)
        else:
            across = [item for item in self.items if self.crosses_fr(item)]
            fr = max([Fraction(0)] + [Fraction(self.base[t]) / max(Fraction(1), factor[t]) for t in factor]
                     + [self.search(item.max_content, spanned(item), factor) for item in across])
        for t in factor:
            share = factor[t] * fr
            self.base[t] = max(self.base[t], share if 'fr rounded down' in self.otherwise else share // 1)

    def search(self, space, tracks, factor):
        """fr in so much space, over these tracks."""
        held = set(tracks) - set(factor)
        while True:
            rest = [t for t in tracks if t not in held]
            factors = sum(factor[t] for t in rest)
            if factors == 0 and 'no factor left' in self.otherwise:
                return Fraction(0)
            fr = max(0, space - sum(self.base[t] for t in held)) / max(Fraction(1), factors)
            below = {t for t in rest if factor[t] * fr < self.base[t]}
            if not below:
                return fr
            held |= below

    def stretch(self):
        if self.free() is None:
            return
        autos = [t for t in self.all if self.maximum[t] == AUTO and self.board.stretch]
        for t, gain in zip(autos, self.fill(self.free(), [None] * len(autos))[0]):
            self.base[t] += gain


def spanned(item):
    return range(item.start, item.start + item.span)


def sizes(board, otherwise=frozenset()):
    """The sizes of a board's tracks, gutters not among them."""
    listed = with_gutters_listed(board)
    found = Sizing(listed, otherwise).run()
    if board.space is None and 'rows laid out once' in otherwise:
        # The browser cuts each row to a 64th of a dot before it adds them up.
        found = Sizing(listed._replace(space=sum(Fraction(size * 64 // 1, 64) for size in found)), otherwise).run()
    return found if board.gutter is None else found[::2]
