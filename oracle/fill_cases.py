"""Writes the cases of the fill to standard output, worked out from the paper alone:

    python3 oracle/fill_cases.py > crates/fill_vectors/data/cases.txt

Each case is worked out by the paper's rounds. Its gains and leftover are then held to a second derivation, which deals the
dots one at a time (or, for many dots, finds the level that they reach), its rounds to a count from the sorted rooms alone,
and all of it to what the fill promises. The same run gives the same bytes: the random cases have fixed seeds.

A case in the file:

    # NAME
    DOTS
    N a1 .. aN        affected, 0 or 1
    N l1 .. lN        limited, 0 or 1
    N r1 .. rN        rooms
    N g1 .. gN        gains before
    KIND A B          0 LEFTOVER ROUNDS for a fill, 1 NUMBER PLACE for a refusal
    N h1 .. hN        gains after
"""
import random
import sys

MOST_TRACKS = 256
SPACE_LIMIT = 16_777_215
LARGEST = 4_294_967_295
DEAL_AT_MOST = 3_000
MOST_ENTRIES = 300
FILL, REFUSAL = 0, 1


# ---- the paper


def refusal(dots, affected, limited, rooms, gains):
    """The number and place of the refusal, or None: 12, then 7 for the dots, then 7 for the lowest room that counts."""
    lengths = {len(affected), len(limited), len(rooms), len(gains)}
    if len(lengths) > 1 or max(lengths) > MOST_TRACKS:
        return 12, 0
    if dots > SPACE_LIMIT:
        return 7, 0
    for track, room in enumerate(rooms):
        if limited[track] and room > SPACE_LIMIT:
            return 7, 1 + track
    return None


def fill_by_rounds(dots, affected, limited, rooms):
    """The gains, the leftover and the rounds, round by round as the paper tells it."""
    tracks = range(len(affected))
    gains = [0 for _ in tracks]
    rounds = 0

    def rest(track):
        return rooms[track] - gains[track] if limited[track] else None

    while True:
        open_tracks = [t for t in tracks if affected[t] and rest(t) != 0]
        if dots == 0 or not open_tracks:
            return gains, dots, rounds
        rounds += 1
        q = dots // len(open_tracks)
        if q == 0:
            for t in open_tracks[:dots]:
                gains[t] += 1
            return gains, 0, rounds
        share = min([q] + [rest(t) for t in open_tracks if rest(t) is not None])
        for t in open_tracks:
            gains[t] += share
        dots -= share * len(open_tracks)


# ---- the second derivation


def capacities(affected, limited, rooms, dots):
    """What each track can take at most: no track can take more than all the dots."""
    return [(min(r, dots) if l else dots) if a else 0 for a, l, r in zip(affected, limited, rooms)]


def fill_by_dealing(dots, most):
    """One dot at a time, to the track with the smallest gain that has room, the earliest among equals."""
    gains = [0] * len(most)
    while dots > 0:
        takers = [t for t in range(len(most)) if gains[t] < most[t]]
        if not takers:
            break
        gains[min(takers, key=lambda t: (gains[t], t))] += 1
        dots -= 1
    return gains, dots


def fill_by_level(dots, most):
    """The highest level to which the dots fill every track, found by halving; what is left tops the first tracks up by one."""
    low, high = 0, dots
    while low < high:
        middle = (low + high + 1) // 2
        if sum(min(m, middle) for m in most) <= dots:
            low = middle
        else:
            high = middle - 1
    gains = [min(m, low) for m in most]
    left = dots - sum(gains)
    for track, m in enumerate(most):
        if left > 0 and m > low:
            gains[track] += 1
            left -= 1
    return gains, left


def rounds_by_steps(dots, affected, limited, rooms):
    """The rounds, counted from the sorted rooms: one for each distinct room that is reached, then at most two more."""
    unlimited = sum(1 for a, l in zip(affected, limited) if a and not l)
    heights = sorted(r for a, l, r in zip(affected, limited, rooms) if a and l and r > 0)
    rounds, level = 0, 0
    for height in sorted(set(heights)):
        width = unlimited + sum(1 for h in heights if h >= height)
        step = (height - level) * width
        if step > dots:
            return rounds + (dots >= width) + (dots % width > 0)
        rounds, level, dots = rounds + 1, height, dots - step
    if unlimited:
        return rounds + (dots >= unlimited) + (dots % unlimited > 0)
    return rounds


# ---- a case, with what holds of it


def check_fill(name, dots, affected, limited, rooms, gains, left, rounds):
    most = capacities(affected, limited, rooms, dots)
    assert fill_by_level(dots, most) == (gains, left), name
    if dots <= DEAL_AT_MOST:
        assert fill_by_dealing(dots, most) == (gains, left), name
    assert rounds_by_steps(dots, affected, limited, rooms) == rounds, name
    assert sum(gains) + left == dots, name
    full = True
    for a, l, r, g in zip(affected, limited, rooms, gains):
        assert a or g == 0, name
        assert not (a and l) or g <= r, name
        full = full and (not a or (l and g == r))
    assert left == 0 or full, name
    for track, g in enumerate(gains):
        if affected[track]:
            quotient = dots // sum(affected)
            assert g >= (min(rooms[track], quotient) if limited[track] else quotient), name
            if not limited[track] or g < rooms[track]:
                assert all(h <= g + (other < track) for other, h in enumerate(gains)), name
    with_room = sum(1 for a, l, r in zip(affected, limited, rooms) if a and (not l or r > 0))
    assert rounds <= with_room + 1, name


class Cases:
    def __init__(self):
        self.names = set()
        self.lines = []

    def add(self, name, dots, affected, limited, rooms, before=None, want=None):
        """Works a case out and keeps it. Gains before the call are 91, 92 .. where none are given; `want` is the paper's
        own answer, where it has one: the gains, the leftover and the rounds."""
        if before is None:
            before = [91 + t % 9 for t in range(len(affected))]
        assert name not in self.names and '\n' not in name, name
        self.names.add(name)
        refused = refusal(dots, affected, limited, rooms, before)
        if refused:
            assert want is None, name
            kind, first, second, after = REFUSAL, refused[0], refused[1], before
        else:
            after, first, second = fill_by_rounds(dots, affected, limited, rooms)
            check_fill(name, dots, affected, limited, rooms, after, first, second)
            assert want is None or want == (after, first, second), name
            kind = FILL
        assert 0 <= dots <= LARGEST and all(0 <= x <= LARGEST for x in rooms + before), name
        assert all(len(x) <= MOST_ENTRIES for x in (affected, limited, rooms, before)), name
        self.lines += ['# ' + name, str(dots)]
        for numbers in (affected, limited, rooms, before):
            self.lines.append(listed(numbers))
        self.lines.append(f'{kind} {first} {second}')
        self.lines.append(listed(after))

    def rooms(self, name, dots, rooms, before=None, want=None):
        """A case whose tracks are all affected. None among the rooms is a track without limit."""
        self.add(name, dots, [1] * len(rooms), *split(rooms), before, want)


def listed(numbers):
    return ' '.join(str(int(n)) for n in [len(numbers)] + list(numbers))


def split(rooms):
    """The limited marks and the rooms. Where a track has no limit its room is 0, which is not read."""
    return [int(r is not None) for r in rooms], [0 if r is None else r for r in rooms]


# ---- the cases


def paper(c):
    c.rooms('W1', 7, [10, 10, 10], want=([3, 2, 2], 0, 2))
    c.rooms('W2', 10, [1, 5, None], want=([1, 5, 4], 0, 3))
    c.rooms('W3', 9, [2, 3], want=([2, 3], 4, 2))
    c.rooms('W4, with room', 0, [10, 10, 10], want=([0, 0, 0], 0, 0))
    c.rooms('W4, without limits', 0, [None, None], want=([0, 0], 0, 0))
    c.add('W5', 5, [0, 0, 0], [1, 1, 0], [4, 0, 0], want=([0, 0, 0], 5, 0))
    c.rooms('W6', 3, [0, 4], want=([0, 3], 0, 1))


def few_tracks(c):
    c.rooms('no tracks, no dots', 0, [], want=([], 0, 0))
    c.rooms('no tracks, 5 dots', 5, [], want=([], 5, 0))
    c.rooms('no tracks, the most dots', SPACE_LIMIT, [])
    for dots in (0, 1, 3, 4, 5):
        c.rooms(f'1 track of room 4, {dots} dots', dots, [4])
    for dots in (0, 1, 7):
        c.rooms(f'1 track without limit, {dots} dots', dots, [None])
    c.rooms('1 track of room 0, 3 dots', 3, [0])
    c.add('1 unaffected track, 3 dots', 3, [0], [1], [4])
    c.add('1 unaffected track without limit, 3 dots', 3, [0], [0], [4])


def most_tracks(c):
    for n in (255, 256):
        c.rooms(f'{n} tracks of room 3, 500 dots', 500, [3] * n)
        c.rooms(f'{n} tracks without limit, 1 dot more than tracks', n + 1, [None] * n)
        c.rooms(f'{n} tracks, the last alone has room', 9, [0] * (n - 1) + [4])
        c.add(f'{n} tracks, the last alone is affected', 9, [0] * (n - 1) + [1], [1] * n, [4] * n)
    c.rooms('256 tracks of the most room, the most dots', SPACE_LIMIT, [SPACE_LIMIT] * 256)
    c.rooms('256 tracks, 256 dots', 256, [2] * 256)
    c.rooms('256 tracks, 255 dots', 255, [2] * 256)


def lengths(c):
    for n in (257, 258, 300):
        c.rooms(f'all lists {n}', 5, [3] * n)
    for n in (0, 1, 3, 256):
        for which, word in enumerate(('affected', 'limited', 'rooms', 'gains')):
            for by, how in ((-1, 'shorter'), (1, 'longer')):
                if n + by < 0:
                    continue
                lists = [[1] * n, [1] * n, [3] * n, [70 + t % 9 for t in range(n)]]
                lists[which] = lists[which][:n - 1] if by < 0 else lists[which] + [1]
                c.add(f'{n} tracks, {word} {how} by one', 5, *lists)
    c.add('gains alone are empty', 5, [1, 1], [1, 1], [3, 3], [])
    c.add('gains alone are given', 5, [], [], [], [5, 6])
    c.add('two lists of 2, two of 3', 5, [1, 1], [1, 1], [3, 3, 3], [7, 8, 9])
    c.add('all lists differ', 5, [1], [1, 1], [3, 3, 3], [7, 8, 9, 10])
    c.add('three lists of 256, gains of 300', 5, [1] * 256, [0] * 256, [0] * 256, [8] * 300)


def most_dots(c):
    for dots in (SPACE_LIMIT - 1, SPACE_LIMIT, SPACE_LIMIT + 1, SPACE_LIMIT + 2, LARGEST - 1, LARGEST):
        c.rooms(f'{dots} dots, rooms 5 and 6', dots, [5, 6])
        c.rooms(f'{dots} dots, one without limit', dots, [5, None, 6])
        c.rooms(f'{dots} dots, no tracks at all', dots, [])
    c.add(f'{SPACE_LIMIT + 1} dots, none affected', SPACE_LIMIT + 1, [0, 0], [1, 1], [3, 3])
    c.rooms('the most dots, three without limit', SPACE_LIMIT, [None] * 3)
    c.rooms('the most dots, rooms of the most and one less', SPACE_LIMIT, [SPACE_LIMIT, SPACE_LIMIT - 1])


def most_room(c):
    places = (('first', 0), ('middle', 1), ('last', 2))
    for room, word in ((SPACE_LIMIT, 'the most'), (SPACE_LIMIT + 1, 'one too many'), (LARGEST, 'the largest number')):
        for place, at in places:
            rooms = [4, 4, 4]
            rooms[at] = room
            c.add(f'room {word}, {place} track, affected', 11, [1, 1, 1], [1, 1, 1], rooms)
            affected = [1, 1, 1]
            affected[at] = 0
            c.add(f'room {word}, {place} track, unaffected', 11, affected, [1, 1, 1], rooms)
            limited = [1, 1, 1]
            limited[at] = 0
            c.add(f'room {word}, {place} track, no limit', 11, [1, 1, 1], limited, rooms)
            c.add(f'room {word}, {place} track, no limit, unaffected', 11, affected, limited, rooms)
    over = SPACE_LIMIT + 1
    c.rooms('two rooms too large, the first and the last', 5, [over, 4, over])
    c.rooms('two rooms too large, the last the larger', 5, [4, over, LARGEST])
    c.add('two rooms too large, the lower unaffected', 5, [1, 0, 1], [1, 1, 1], [4, over, over])
    c.add('two rooms too large, the lower without limit', 5, [1, 1, 1], [1, 0, 1], [4, over, over])
    c.add('rooms too large, none has a limit', 5, [1, 1, 0], [0, 0, 0], [LARGEST, over, over])
    c.rooms('all rooms too large', 5, [over] * 4)
    c.rooms('room too large, 0 dots', 0, [4, over])
    for at in (0, 127, 254, 255):
        rooms = [2] * 256
        rooms[at] = over
        c.rooms(f'256 tracks, room of track {at} too large', 5, rooms)
    c.add('256 tracks, the last room too large, unaffected', 5, [1] * 255 + [0], [1] * 256, [2] * 255 + [over])


def which_refusal(c):
    over = SPACE_LIMIT + 1
    c.add('12 before the 7 of the dots', over, [1, 1], [1], [3, 3])
    c.add('12 before the 7 of a room', 5, [1, 1], [1, 1], [over, 3], [8])
    c.add('12 before both', LARGEST, [1], [1, 1], [over, over])
    c.rooms('257 tracks before the 7 of the dots', over, [3] * 257)
    c.rooms('257 tracks before the 7 of a room', 5, [over] + [3] * 256)
    c.rooms('the 7 of the dots before that of track 0', over, [over, 3])
    c.rooms('the 7 of the dots before that of track 2', LARGEST, [3, 3, over])
    c.rooms('the most dots, room of track 1 too large', SPACE_LIMIT, [3, over])


def nothing_open(c):
    c.rooms('all rooms 0, no dots', 0, [0, 0, 0])
    c.rooms('all rooms 0, 1 dot', 1, [0, 0, 0])
    c.rooms('all rooms 0, the most dots', SPACE_LIMIT, [0] * 5)
    c.add('all unaffected, with room', 8, [0] * 4, [1] * 4, [5] * 4)
    c.add('all unaffected, without limits', 8, [0] * 4, [0] * 4, [0] * 4)
    c.add('all unaffected, 256 tracks', 8, [0] * 256, [1] * 256, [5] * 256)
    c.add('affected have no room, unaffected have', 8, [1, 0, 1, 0], [1, 1, 1, 0], [0, 5, 0, 0])


def no_limits(c):
    for n, dots, word in (
        (5, 0, 'no dots'),
        (5, 1, 'one dot'),
        (5, 3, 'fewer dots'),
        (5, 4, 'one dot fewer'),
        (5, 5, 'as many dots'),
        (5, 6, 'one dot more'),
        (5, 9, 'one dot short of twice'),
        (5, 10, 'twice as many'),
        (5, 37, 'no multiple'),
        (5, 1_000, 'a large multiple'),
        (5, 1_003, 'no large multiple'),
        (256, 100, 'fewer dots'),
        (256, 512, 'twice as many'),
        (256, 1_000, 'no multiple'),
    ):
        c.rooms(f'{n} without limit, {word}', dots, [None] * n)


def one_without_limit(c):
    for at, place in ((0, 'first'), (2, 'middle'), (4, 'last')):
        for dots in (4, 5, 12, 40):
            rooms = [1, 2, 3, 4, 5]
            rooms[at] = None
            c.rooms(f'the {place} alone without limit, {dots} dots', dots, rooms)
    c.rooms('the one without limit takes all but 0', 9, [0, None, 0])
    c.add('the one without limit is unaffected', 9, [1, 0, 1], [1, 0, 1], [2, 0, 3])


def about_the_sum(c):
    for word, rooms in (
        ('rising', [1, 3, 5, 7]),
        ('falling', [7, 5, 3, 1]),
        ('equal', [4, 4, 4, 4]),
        ('far apart', [1, 1_000, 1_000_000]),
        ('with a 0', [0, 3, 0, 2]),
        ('two kinds', [6, 2, 6, 2, 6]),
    ):
        for by, how in ((-1, 'one dot fewer'), (0, 'as many dots'), (1, 'one dot more')):
            c.rooms(f'rooms {word}, {how} than they hold', sum(rooms) + by, rooms)
    c.rooms('rooms rising, few dots', 3, [1, 3, 5, 7])
    c.rooms('rooms falling, few dots', 3, [7, 5, 3, 1])
    c.rooms('rooms equal, few dots', 3, [4, 4, 4, 4])
    c.rooms('the share is the least room', 12, [3, 9, 9, 9])
    c.rooms('the share is one under the least room', 11, [3, 9, 9, 9])
    c.rooms('the share is one over the least room', 16, [3, 9, 9, 9])


def odd_dots(c):
    c.add('odd dots skip the unaffected', 5, [0, 1, 0, 1, 1], [1] * 5, [9] * 5)
    c.add('odd dots skip the closed from the start', 5, [1] * 5, [1] * 5, [0, 9, 0, 9, 9])
    c.rooms('odd dots skip those that closed on the way', 11, [1, 9, 1, 9, 9])
    c.add('odd dots skip the closed and the unaffected', 12, [1, 0, 1, 1, 0, 1], [1] * 6, [1, 9, 9, 9, 9, 9])
    c.rooms('odd dots close the first track', 5, [2, 9, 9])
    c.rooms('odd dots close all that they reach', 8, [2, 2, 2, 2, 9])
    c.rooms('one odd dot, to the last track', 7, [2, 2, 3])
    c.rooms('fewer dots than tracks at once', 2, [9, 9, 9, 9])
    c.rooms('fewer dots than tracks of room 1', 3, [1, 1, 1, 1])
    c.add('one dot, the first two unaffected', 1, [0, 0, 1, 1], [1, 1, 1, 0], [9, 9, 9, 0])


def many_rounds(c):
    for k in (5, 40, 256):
        rooms = list(range(1, k + 1))
        c.rooms(f'rooms 1 to {k}, one dot fewer', sum(rooms) - 1, rooms)
        c.rooms(f'rooms 1 to {k}, as many dots', sum(rooms), rooms)
        c.rooms(f'rooms {k} to 1, one dot more', sum(rooms) + 1, rooms[::-1])
    c.rooms('rooms 1 to 255 and none, many dots', 40_000, list(range(1, 256)) + [None])
    c.rooms('rooms 1 to 255 and none, 3 odd dots', 32_896, [None] + list(range(1, 256)))
    c.rooms('each room twice the one before', 2_000, [2 ** i for i in range(12)])
    c.rooms('rooms 1 to 20, stopped half way', 150, list(range(1, 21)))


def gains_before(c):
    for before, word in ((0, '0'), (1, '1'), (LARGEST, 'the largest number')):
        three = [before] * 3
        c.add(f'gains before {word}, filled', 5, [1, 0, 1], [1, 1, 0], [2, 9, 0], three)
        c.add(f'gains before {word}, all unaffected', 5, [0, 0, 0], [1, 1, 0], [2, 9, 0], three)
        c.add(f'gains before {word}, no dots', 0, [1, 1, 1], [1, 1, 0], [2, 9, 0], three)
        c.add(f'gains before {word}, refused 7 for dots', SPACE_LIMIT + 1, [1, 0, 1], [1, 1, 0], [2, 9, 0], three)
        c.add(f'gains before {word}, refused 7 for a room', 5, [1, 0, 1], [1, 1, 0], [2, SPACE_LIMIT + 1, 0], three)
        c.add(f'gains before {word}, refused 12', 5, [1, 0, 1], [1, 1], [2, 9, 0], three)
    c.rooms('gains before all different', 7, [3, 3, 3, 3], [LARGEST, 0, 12_345, SPACE_LIMIT + 1])
    c.rooms('256 gains before the largest number', 300, [None] * 256, [LARGEST] * 256)


def random_case(c, seed, least, most, dots_word):
    """Tracks of every kind. The dots run from none to beyond what the rooms hold, or are near to what they hold."""
    r = random.Random(seed)
    n = r.randint(least, most)
    affected = [int(r.random() < 0.8) for _ in range(n)]
    often = r.choice((0.5, 0.9, 1))
    limited = [int(r.random() < often) for _ in range(n)]
    high = r.choice((2, 5, 20, 300, 70_000))
    rooms = [r.choice((0, r.randint(0, high), high)) if l else r.choice((0, 5, LARGEST)) for l in limited]
    before = [r.choice((0, 7, r.randint(0, 9_999), LARGEST)) for _ in range(n)]
    holds = sum(room for a, l, room in zip(affected, limited, rooms) if a and l)
    if dots_word == 'any':
        dots = r.randint(0, 2 * holds + n)
    elif dots_word == 'few':
        dots = r.randint(0, n + 2)
    elif dots_word == 'near':
        dots = max(0, holds + r.randint(-2, 2))
    else:
        dots = r.randint(SPACE_LIMIT - 5, SPACE_LIMIT)
    c.add(f'random {seed}, {n} tracks, {dots_word} dots', min(dots, SPACE_LIMIT), affected, limited, rooms, before)


def random_refusal(c, seed):
    """A case in which several refusals may hold at once."""
    r = random.Random(seed)
    n = r.randint(1, 7)
    lists = [n if r.random() < 0.85 else r.randint(0, 8) for _ in range(4)]
    number = lambda: r.choice((0, 3, SPACE_LIMIT, SPACE_LIMIT + 1, LARGEST))
    c.add(
        f'random {seed}, refusals',
        number(),
        [r.randint(0, 1) for _ in range(lists[0])],
        [r.randint(0, 1) for _ in range(lists[1])],
        [number() for _ in range(lists[2])],
        [r.randint(0, 99) for _ in range(lists[3])],
    )


def random_cases(c):
    words = ('any', 'few', 'near', 'most')
    for seed in range(1, 81):
        random_case(c, seed, 1, 8, words[seed % 4])
    for seed in range(81, 101):
        random_case(c, seed, 9, 60, words[seed % 4])
    for seed in range(101, 109):
        random_case(c, seed, 256, 256, words[seed % 4])
    for seed in range(201, 231):
        random_refusal(c, seed)


def main():
    c = Cases()
    for group in (
        paper,
        few_tracks,
        most_tracks,
        lengths,
        most_dots,
        most_room,
        which_refusal,
        nothing_open,
        no_limits,
        one_without_limit,
        about_the_sum,
        odd_dots,
        many_rounds,
        gains_before,
        random_cases,
    ):
        group(c)
    sys.stdout.write('\n'.join(c.lines) + '\n')
    print(f'{len(c.names)} cases', file=sys.stderr)


main()
