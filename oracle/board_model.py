"""What a board is, worked out from the paper alone: a sheet's bytes to a refusal or a finished board.

A sheet is read front to back, and its refusal held to a second derivation, which gathers every fault and takes the one that
comes first. A board is worked out step by step as the paper tells it; every fill in it is held to the level that the dots
reach, every share by factor to the exact parts, every fr search to a second way of finding fr, and the finished board to what
must hold of it.

11 is retired: an item may cross fr tracks with any span. The space ends with an axis byte, 0 inline or 1 block. Where the paper leaves a
choice, it is read so:

- The growth limit answered is the one after step 4: steps 5 to 7 change sizes and leave it.
- 7 looks at every number that is given, also at those of items that are not measured. Items not measured take no further part.
- A measured item is one that spans a track that is not fixed at both ends; 9 and 10 look at its three contributions.
- 'Limited' reads the spanned maxima as the sheet writes them, not as raised to a larger minimum.
- A letter of a batch works on the sizes before it; its increases, each the largest that one item gave, are added at its end.
- After (d) every track's limit below its base becomes its base.
- The last batch takes the measured items that cross an fr track, be it one track of many or the only one. No other batch takes them.
- In it a letter affects those tracks of its kinds that are fr too. Extra is what the contribution leaves beyond all the spanned
  sizes, also those of tracks that are not fr.
- Extra goes by factor there: the sum is that of the affected tracks' factors, however few of the spanned ones they are. No growth
  limit has a say and nothing is shared twice. Where those factors are all 0, the fill has no limits either.
- 'Limited' never cuts a contribution in it, since an fr maximum is neither fixed nor fit-content.
- 'Both these shares' are the two shares of growth limits. In the second a fit-content track's present size is its size and what
  the first share gave it, so that the room of both together is what the larger of argument and size leaves.
- A track is infinitely growable in (f) of the batch in whose (e) its limit came, and not in later batches.
- Steps 2, 3 and 5 read the constraint as it is given, steps 6 and 7 the expansion space: a given inner size makes that definite under
  any constraint and in both axes. Only without one does the axis have a say, and only under min-content: in the block axis the fr tracks
  grow as under max-content. Nothing else asks for the axis.
- Rounds are those of step 5's fill: 0 where there is nothing to fill, under min-content and under max-content.
- 'Each item on an fr track' means each that crosses one, of any span; it is always measured. Its search holds the other tracks that
  it spans at their bases of that moment, and looks at no track outside.
- Fractions are exact until the size of an fr track is rounded down.
- Free is the inner size minus the sizes after step 7, and none without an inner size.
"""
import collections
from fractions import Fraction

from case_text import Front, Refused

MOST_TRACKS, MOST_ITEMS = 256, 1_024
SIZE_LIMIT, SPACE_LIMIT, FACTOR_LIMIT = 65_535, 16_777_215, 100_000
LARGEST = 4_294_967_295
LONGEST = 2 + 12 + 2 + 10 * MOST_TRACKS + 2 + 19 * MOST_ITEMS
BOARD, REFUSAL = 0, 1

DEFINITE, UNDER_MIN, UNDER_MAX = 1, 2, 3
INLINE, BLOCK = 0, 1
FIXED, AUTO, MIN, MAX, FIT, FR = 1, 2, 3, 4, 5, 6
INTRINSIC_MINIMA, INTRINSIC_MAXIMA = (AUTO, MIN, MAX), (AUTO, MIN, MAX, FIT)

# What a tag may be, and whether it carries a number.
CONSTRAINTS = {DEFINITE: True, UNDER_MIN: False, UNDER_MAX: False}
GIVEN = {0: False, 1: True}
MINIMA = {FIXED: True, AUTO: False, MIN: False, MAX: False}
MAXIMA = {FIXED: True, AUTO: False, MIN: False, MAX: False, FIT: True, FR: True}
# What a byte may be that stands alone: stretch, and the axis.
STRETCHES, AXES = (0, 1), (INLINE, BLOCK)

Sheet = collections.namedtuple('Sheet', 'constraint inner stretch axis tracks items')
Track = collections.namedtuple('Track', 'minimum maximum')
Item = collections.namedtuple('Item', 'start span row')


# ---- the sheet, front to back


class Bytes(Front):
    """A sheet, section by section."""

    def records(self, allowed, size, record):
        """A section: its count, then so many records."""
        self.whole(2)
        count = self.number(2)
        if count not in allowed:
            raise Refused(3, self.at - 2)
        found = []
        for _ in range(count):
            self.whole(size)
            found.append(record())
        return found

    def tagged(self, listed):
        tag = self.number(1)
        if tag not in listed:
            raise Refused(4, self.at - 1)
        number = self.number(4)
        if number and not listed[tag]:
            raise Refused(5, self.at - 4)
        return tag, number

    def marked(self, listed):
        mark = self.number(1)
        if mark not in listed:
            raise Refused(4, self.at - 1)
        return mark

    def space(self):
        return self.tagged(CONSTRAINTS), self.tagged(GIVEN), self.marked(STRETCHES), self.marked(AXES)

    def track(self):
        return Track(self.tagged(MINIMA), self.tagged(MAXIMA))

    def item(self):
        return Item(self.number(2), self.number(2), tuple(self.tagged(GIVEN) for _ in range(3)))


ONE, TRACK_COUNTS, ITEM_COUNTS = range(1, 2), range(MOST_TRACKS + 1), range(MOST_ITEMS + 1)


def sheet_in(data):
    """The sheet, or its refusal by 1 to 5."""
    b = Bytes(data)
    (constraint, inner, stretch, axis), = b.records(ONE, 12, b.space)
    tracks = b.records(TRACK_COUNTS, 10, b.track)
    items = b.records(ITEM_COUNTS, 19, b.item)
    if b.at < len(data):
        raise Refused(2, b.at)
    return Sheet(constraint, inner, stretch, axis, tracks, items)


def byte_faults(data):
    """Every fault of the bytes, each as the byte at which it shows, its number and its place: of what is not wholly there that
    byte is the first."""
    faults, at = [], 0
    for allowed, head, tags, tail in ((ONE, 0, (CONSTRAINTS, GIVEN), 2), (TRACK_COUNTS, 0, (MINIMA, MAXIMA), 0), (ITEM_COUNTS, 4, (GIVEN,) * 3, 0)):
        if at + 2 > len(data):
            return faults + [(at, 1, len(data))]
        count = data[at] + 256 * data[at + 1]
        if count not in allowed:
            return faults + [(at, 3, at)]
        at += 2
        size = head + 5 * len(tags) + tail
        for _ in range(count):
            if at + size > len(data):
                return faults + [(at, 1, len(data))]
            for k, listed in enumerate(tags):
                tag = at + head + 5 * k
                if data[tag] not in listed:
                    faults.append((tag, 4, tag))
                elif not listed[data[tag]] and data[tag + 1:tag + 5] != bytes(4):
                    faults.append((tag + 1, 5, tag + 1))
            at += size
            faults += [(mark, 4, mark) for mark in range(at - tail, at) if data[mark] > 1]
    if at < len(data):
        faults.append((at, 2, at))
    return faults


# ---- what is refused of a sheet that is whole


def spanned(item):
    return range(item.start, item.start + item.span)


def is_measured(sheet, item):
    return any(sheet.tracks[t].minimum[0] != FIXED or sheet.tracks[t].maximum[0] != FIXED for t in spanned(item))


def is_over(kind, number):
    return number > (FACTOR_LIMIT if kind == FR else SIZE_LIMIT)


def over(sheet):
    """The records with a number over its limit."""
    if sheet.constraint[1] > SPACE_LIMIT or sheet.inner[1] > SPACE_LIMIT:
        yield 0
    for t, track in enumerate(sheet.tracks):
        if is_over(*track.minimum) or is_over(*track.maximum):
            yield 1 + t
    for i, item in enumerate(sheet.items):
        if any(number > SIZE_LIMIT for _, number in item.row):
            yield 1 + len(sheet.tracks) + i


def items_that(sheet, is_so):
    return (1 + len(sheet.tracks) + i for i, item in enumerate(sheet.items) if is_so(item))


def refuse(sheet, places):
    """6 to 10: by number, then the lowest record."""

    def first(number, records):
        for record in records:
            raise Refused(number, record)

    def lacks(item):
        return is_measured(sheet, item) and any(tag == 0 for tag, _ in item.row)

    def falls(item):
        a, b, c = (number for _, number in item.row)
        return is_measured(sheet, item) and (a > b or b > c)

    if places < len(sheet.tracks):
        raise Refused(6, 0)
    first(7, over(sheet))
    first(8, items_that(sheet, lambda item: item.span == 0 or item.start + item.span > len(sheet.tracks)))
    first(9, items_that(sheet, lacks))
    first(10, items_that(sheet, falls))


def record_faults(sheet, places):
    """6 to 10 again, all of them, from each record by itself."""
    n = len(sheet.tracks)
    faults = [(6, 0)] if places < n else []
    if max(sheet.constraint[1], sheet.inner[1]) >= 2 ** 24:
        faults.append((7, 0))
    for t, (low, high) in enumerate(sheet.tracks, 1):
        if low[1] >= 2 ** 16 or (high[0] == FR and high[1] > 100_000) or (high[0] != FR and high[1] >= 2 ** 16):
            faults.append((7, t))
    for i, (start, span, row) in enumerate(sheet.items, n + 1):
        if max(number for _, number in row) >= 2 ** 16:
            faults.append((7, i))
        if not 1 <= span <= n - start:
            faults.append((8, i))
            continue
        kinds = [(sheet.tracks[t].minimum[0], sheet.tracks[t].maximum[0]) for t in range(start, start + span)]
        if kinds.count((FIXED, FIXED)) < span:
            if not row[0][0] * row[1][0] * row[2][0]:
                faults.append((9, i))
            elif sorted(row, key=lambda given: given[1]) != list(row):
                faults.append((10, i))
    return faults


# ---- the fill


def fill(dots, rooms):
    """The gains, the leftover and the rounds of a fill into tracks that are all affected; a room of None is without limit."""
    gains, left, rounds = [0] * len(rooms), dots, 0
    while True:
        rests = [None if room is None else room - gain for room, gain in zip(rooms, gains)]
        open_tracks = [t for t, rest in enumerate(rests) if rest != 0]
        if left == 0 or not open_tracks:
            break
        rounds += 1
        q = left // len(open_tracks)
        if q == 0:
            for t in open_tracks[:left]:
                gains[t] += 1
            left = 0
            break
        step = min([q] + [rests[t] for t in open_tracks if rests[t] is not None])
        for t in open_tracks:
            gains[t] += step
        left -= step * len(open_tracks)
    assert (gains, left) == fill_to_a_level(dots, rooms), (dots, rooms)
    return gains, left, rounds


def fill_to_a_level(dots, rooms):
    """The same gains and leftover: every track up to the highest level that the dots reach, then one dot each from the front."""
    most = [dots if room is None else min(room, dots) for room in rooms]
    low, high = 0, dots
    while low < high:
        middle = (low + high + 1) // 2
        low, high = (middle, high) if sum(min(m, middle) for m in most) <= dots else (low, middle - 1)
    gains = [min(m, low) for m in most]
    left = dots - sum(gains)
    for t, m in enumerate(most):
        if left and m > low:
            gains[t] += 1
            left -= 1
    return gains, left


# ---- the share by factor


def share_by_factor(dots, factors):
    """The gains of affected fr tracks with these factors, and how many odd dots there were: each gets its part of the dots, rounded
    down, and the dots over go one each to the first with a factor above 0. Where no factor is, the plain fill without limits."""
    total = sum(factors)
    if total == 0:
        gains, left, _ = fill(dots, [None] * len(factors))
        assert left == 0 or not factors, (dots, factors)
        return gains, 0
    gains = [dots * factor // total for factor in factors]
    over = left = dots - sum(gains)
    for k, factor in enumerate(factors):
        if left and factor:
            gains[k] += 1
            left -= 1
    takers = [k for k, factor in enumerate(factors) if factor]
    assert sum(gains) == dots and over < len(takers), (dots, factors)
    assert all(gains[k] == 0 for k, factor in enumerate(factors) if factor == 0), (dots, factors)
    assert gains == share_by_parts(dots, factors, takers), (dots, factors)
    return gains, over


def share_by_parts(dots, factors, takers):
    """The same gains from the exact parts: what rounding cuts off them adds up to the dots over."""
    parts = [Fraction(dots) * Fraction(factor, sum(factors)) for factor in factors]
    cut = sum(part % 1 for part in parts)
    assert cut.denominator == 1
    odd = takers[:int(cut)]
    return [int(part) + (k in odd) for k, part in enumerate(parts)]


# ---- the fr search


def fr_search(space, flexible, others):
    """fr for tracks of these factors and bases, beside others of which only the sizes count. Exact."""
    held = set()
    while True:
        rest = [k for k in range(len(flexible)) if k not in held]
        room = max(0, space - sum(others) - sum(flexible[k][1] for k in held))
        fr = Fraction(room) / max(1, sum(flexible[k][0] for k in rest))
        new = {k for k in rest if flexible[k][0] * fr < flexible[k][1]}
        if not new:
            break
        held |= new
    if space >= sum(others) + sum(base for _, base in flexible):
        assert fr == fr_by_order(space, flexible, others), (space, flexible, others)
    return fr


def fr_by_order(space, flexible, others):
    """The same fr where the bases leave room: tracks are held in the order in which a falling fr drops below their bases, as few as
    will do."""
    order = sorted(flexible, key=lambda track: (track[1] > 0, Fraction(track[1]) / track[0] if track[0] else LARGEST), reverse=True)
    for count in range(len(order) + 1):
        held, rest = order[:count], order[count:]
        fr = Fraction(space - sum(others) - sum(base for _, base in held)) / max(1, sum(factor for factor, _ in rest))
        if all(factor * fr >= base for factor, base in rest):
            return fr


# ---- sizing


class Sizing:
    def __init__(self, sheet):
        self.sheet = sheet
        self.constraint, self.space = sheet.constraint
        self.minimum = [track.minimum[0] for track in sheet.tracks]
        self.maximum = [track.maximum[0] for track in sheet.tracks]
        self.argument = [track.maximum[1] for track in sheet.tracks]
        self.all = range(len(sheet.tracks))
        # the measured items, those that cross an fr track apart
        items = [item for item in sheet.items if is_measured(sheet, item)]
        self.across_fr = [item for item in items if self.of_fr(item)]
        self.items = [item for item in items if not self.of_fr(item)]
        self.inner = sheet.inner[1] if sheet.inner[0] else None
        self.rounds = 0
        self.marks = set()

    def of_fr(self, item):
        """The fr tracks that an item crosses."""
        return [t for t in spanned(item) if self.maximum[t] == FR]

    def run(self):
        self.start()
        self.one_track()
        for batch in self.batches():
            self.batch(batch)
        self.last_batch()
        self.missing_limits()
        self.maximise()
        self.flexible()
        self.stretch()
        self.check_finished()
        return self

    # contributions

    def min_content(self, item):
        return item.row[1][1]

    def max_content(self, item):
        return item.row[2][1]

    def limited(self, item, contribution):
        if all(self.maximum[t] in (FIXED, FIT) for t in spanned(item)):
            contribution = min(contribution, sum(self.argument[t] for t in spanned(item)))
        return max(contribution, item.row[0][1])

    def limited_max_content(self, item):
        return self.limited(item, self.max_content(item))

    def for_auto(self, item):
        """An item's contribution to an auto minimum."""
        return item.row[0][1] if self.constraint == DEFINITE else self.limited(item, self.min_content(item))

    # steps 1 to 4

    def start(self):
        self.base = [number if kind == FIXED else 0 for kind, number in (track.minimum for track in self.sheet.tracks)]
        self.limit = [self.argument[t] if self.maximum[t] == FIXED else None for t in self.all]
        self.limits_up_to_bases()

    def limits_up_to_bases(self):
        self.limit = [None if limit is None else max(limit, base) for base, limit in zip(self.base, self.limit)]

    def one_track(self):
        for t in self.all:
            here = [item for item in self.items if item.span == 1 and item.start == t]
            if not here:
                continue
            for_base = {AUTO: self.for_auto, MIN: self.min_content, MAX: self.max_content}.get(self.minimum[t])
            if for_base:
                self.base[t] = max(self.base[t], max(map(for_base, here)))
            if self.maximum[t] == MIN:
                self.limit[t] = max(map(self.min_content, here))
            elif self.maximum[t] in (AUTO, MAX, FIT):
                self.limit[t] = max(map(self.max_content, here))
            if self.maximum[t] == FIT:
                self.limit[t] = min(self.limit[t], self.argument[t])
        self.limits_up_to_bases()

    def batches(self):
        for span in sorted({item.span for item in self.items if item.span > 1}):
            yield [item for item in self.items if item.span == span]

    def batch(self, items):
        self.bases(items, INTRINSIC_MINIMA, self.for_auto, (AUTO, MIN, MAX))
        self.bases(items, (MIN, MAX), self.min_content, (AUTO, MIN, MAX))
        if self.constraint == UNDER_MAX:
            self.bases(items, (AUTO, MAX), self.limited_max_content, (AUTO, MAX))
        self.bases(items, (MAX,), self.max_content, (AUTO, MAX))
        self.limits_up_to_bases()
        came = self.limits(items, INTRINSIC_MAXIMA, self.min_content, set())
        self.limits(items, (AUTO, MAX, FIT), self.max_content, came)

    def last_batch(self):
        """The items that cross an fr track, whatever their span. Its (e) and (f) change nothing."""
        if len({item.span for item in self.across_fr}) > 1:
            self.marks.add('several spans in the last batch')
        self.fr_bases(INTRINSIC_MINIMA, self.for_auto)
        self.fr_bases((MIN, MAX), self.min_content)
        if self.constraint == UNDER_MAX:
            self.fr_bases((AUTO, MAX), self.limited_max_content)
        self.fr_bases((MAX,), self.max_content)
        self.limits_up_to_bases()

    def fr_bases(self, minima, contribution):
        """A letter of the last batch: it raises fr tracks alone."""
        gain = [0 for _ in self.all]
        for item in self.across_fr:
            affected = [t for t in self.of_fr(item) if self.minimum[t] in minima]
            extra = max(0, contribution(item) - sum(self.base[t] for t in spanned(item)))
            factors = [self.argument[t] for t in affected]
            given, over = share_by_factor(extra, factors)
            for t, more in zip(affected, given):
                gain[t] = max(gain[t], more)
            if extra and len(affected) > 1:
                self.marks.add('shared by factor' if any(factors) else 'factors all 0')
                if any(factors) and 0 in factors:
                    self.marks.add('a factor of 0 beside another')
                if over:
                    self.marks.add('odd dots by factor')
            if extra and affected and len(affected) < item.span:
                self.marks.add('fr beside tracks that are not affected')
        self.base = [base + more for base, more in zip(self.base, gain)]

    def bases(self, items, minima, contribution, beyond):
        """A letter on bases. What no room takes goes to tracks with a maximum among `beyond`."""
        gain = [0 for _ in self.all]
        for item in items:
            affected = [t for t in spanned(item) if self.minimum[t] in minima]
            extra = max(0, contribution(item) - sum(self.base[t] for t in spanned(item)))
            first, left, _ = fill(extra, [self.room(t) for t in affected])
            given = dict(zip(affected, first))
            takers = [t for t in affected if self.maximum[t] in beyond] or affected
            for t, more in zip(takers, fill(left, [None] * len(takers))[0]):
                given[t] += more
            if affected and left:
                self.marks.add('bases beyond their limits')
            for t in affected:
                gain[t] = max(gain[t], given[t])
        self.base = [base + more for base, more in zip(self.base, gain)]

    def room(self, t):
        """How far a base may grow: up to the limit, for fit-content at most up to the argument."""
        most = self.limit[t]
        if self.maximum[t] == FIT:
            most = self.argument[t] if most is None else min(most, self.argument[t])
        return None if most is None else max(0, most - self.base[t])

    def limits(self, items, maxima, contribution, growable):
        """A letter on limits. Answers the tracks whose limit came from none."""
        size = [base if limit is None else limit for base, limit in zip(self.base, self.limit)]
        gain = [0 for _ in self.all]
        for item in items:
            affected = [t for t in spanned(item) if self.maximum[t] in maxima]
            extra = max(0, contribution(item) - sum(size[t] for t in spanned(item)))

            def up_to_argument(t, given):
                return max(self.argument[t], size[t] + given) - size[t] - given if self.maximum[t] == FIT else None

            rooms = [up_to_argument(t, 0) if self.limit[t] is None or t in growable else 0 for t in affected]
            first, left, _ = fill(extra, rooms)
            second, unplaced, _ = fill(left, [up_to_argument(t, given) for t, given in zip(affected, first)])
            for t, a, b in zip(affected, first, second):
                gain[t] = max(gain[t], a + b)
                if self.maximum[t] == FIT and a:
                    self.marks.add('fit-content in the first share')
                if self.maximum[t] == FIT and b:
                    self.marks.add('fit-content in the second share')
                if self.limit[t] is not None and a:
                    self.marks.add('infinitely growable')
            if affected and unplaced:
                self.marks.add('limits all held by fit-content')
        came = {t for t in self.all if self.limit[t] is None and gain[t] > 0}
        if any(gain[t] and t not in came for t in self.all):
            self.marks.add('limit raised')
        if came:
            self.marks.add('limit from none')
        self.limit = [size[t] + gain[t] if gain[t] else self.limit[t] for t in self.all]
        return came

    def missing_limits(self):
        self.check_bases()
        self.limit = [base if limit is None else limit for base, limit in zip(self.base, self.limit)]

    # steps 5 to 7

    def maximise(self):
        if self.constraint == UNDER_MAX:
            self.base = list(self.limit)
        elif self.constraint == DEFINITE:
            gains, _, self.rounds = fill(max(0, self.space - sum(self.base)), [self.room(t) for t in self.all])
            self.base = [base + gain for base, gain in zip(self.base, gains)]

    def free(self):
        return None if self.inner is None else self.inner - sum(self.base)

    def flexible(self):
        before = list(self.base)
        factor = {t: Fraction(self.argument[t], 1_000) for t in self.all if self.maximum[t] == FR}
        if self.inner is not None:
            if self.free() <= 0:
                return
            others = [self.base[t] for t in self.all if t not in factor]
            fr = fr_search(self.inner, [(factor[t], self.base[t]) for t in factor], others)
        elif self.constraint == UNDER_MIN and self.sheet.axis == INLINE:
            return
        else:
            fr = max([Fraction(0)] + [self.base[t] / max(Fraction(1), factor[t]) for t in factor])
            decides = None
            for item in self.across_fr:
                others = [self.base[t] for t in spanned(item) if t not in factor]
                by_item = fr_search(self.max_content(item), [(factor[t], self.base[t]) for t in self.of_fr(item)], others)
                if by_item > fr:
                    fr, decides = by_item, item
            if decides:
                self.marks.add('fr of an item' if decides.span == 1 else 'fr of an item across several tracks')
        for t in factor:
            self.base[t] = max(self.base[t], factor[t] * fr // 1)
        if self.constraint == UNDER_MIN and self.inner is None and self.base != before:
            self.marks.add('fr grown under min-content in the block axis')

    def stretch(self):
        if self.sheet.stretch and self.inner is not None and self.free() > 0:
            autos = [t for t in self.all if self.maximum[t] == AUTO]
            for t, gain in zip(autos, fill(self.free(), [None] * len(autos))[0]):
                self.base[t] += gain
                self.marks.add('stretched')

    # what must hold

    def check_bases(self):
        """After step 3 the tracks under an item hold what their minima ask of it; of one across fr the minima of the fr tracks alone
        ask, and a track's base is no more than the sheet or an item on it says."""
        for item in self.items + self.across_fr:
            kinds = {self.minimum[t] for t in self.of_fr(item) or spanned(item)}
            held = sum(self.base[t] for t in spanned(item))
            assert held >= self.for_auto(item) or kinds == {FIXED}
            assert held >= self.min_content(item) or not kinds & {MIN, MAX}
            assert held >= self.max_content(item) or MAX not in kinds
            # (c) is a letter of the batches: an item in one track that is not fr never comes to it
            if self.constraint == UNDER_MAX and (item.span > 1 or item in self.across_fr):
                assert held >= self.limited_max_content(item) or not kinds & {AUTO, MAX}
        for t, (base, limit) in enumerate(zip(self.base, self.limit)):
            assert (limit is None) if self.maximum[t] == FR else (limit is None or limit >= base)
            here = [self.max_content(item) for item in self.items + self.across_fr if t in spanned(item)]
            assert base <= max([self.sheet.tracks[t].minimum[1]] + here)
            assert base <= SIZE_LIMIT

    def check_finished(self):
        for t, track in enumerate(self.sheet.tracks):
            assert track.minimum[0] != FIXED or self.base[t] >= track.minimum[1]
            assert isinstance(self.base[t], int) and self.base[t] <= LARGEST and self.limit[t] <= SIZE_LIMIT
        assert self.free() is None or -2 ** 31 <= self.free() < 2 ** 31


def board_of(data, places):
    """What the call answers, what it leaves of the places, and what the board shows."""
    try:
        sheet = sheet_in(data)
        refuse(sheet, len(places))
    except Refused as refused:
        return (REFUSAL, refused.number, refused.place, None), places, {f'refused {refused.number}'}
    sized = Sizing(sheet).run()
    left = [list(place) for place in zip(sized.base, sized.limit)] + places[len(sheet.tracks):]
    return (BOARD, len(sheet.tracks), sized.rounds, sized.free()), left, sized.marks


def printed(told, places):
    """What the reader prints."""
    kind, first, second, free = told
    if kind == REFUSAL:
        return f'refused {first} at {second}\n'
    lines = [f'tracks {first} free {"none" if free is None else free} rounds {second}']
    lines += [f'{t} {base} {limit}' for t, (base, limit) in enumerate(places[:first])]
    return '\n'.join(lines) + '\n'
