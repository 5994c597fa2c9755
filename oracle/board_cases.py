"""Writes the cases of the board to standard output, each worked out by board_model.py:

    python3 oracle/board_cases.py > crates/board_vectors/data/cases.txt

and, with the word `examples`, the sheets of examples/ with what the reader prints of each, and the words, sheets and text of the reader's own run:

    python3 oracle/board_cases.py examples

The same run gives the same bytes: the random cases have fixed seeds.

A case in the file:

    # NAME
    N bytes           the sheet, in hex
    N places          the lent places, before: base and limit each
    KIND A B          0 TRACKS ROUNDS for a board, 1 NUMBER PLACE for a refusal
    GIVEN SHORT DOTS  the free space: whether there is one, whether it is below 0, and how many dots from 0; for a refusal 0 0 0
    N places          the places, after

4x before a place or a group of bytes says that it stands there four times. The name of the first case ends with how many
cases there are of each kind.
"""
import collections
import os
import random
import sys

sys.dont_write_bytecode = True
from board_model import (
    AUTO, BLOCK, BOARD, DEFINITE, FIT, FIXED, FR, INLINE, LARGEST, LONGEST, MAX, MIN, MOST_ITEMS, MOST_TRACKS, REFUSAL, SPACE_LIMIT, UNDER_MAX, UNDER_MIN,
    Item, Track, board_of, byte_faults, fill, printed, record_faults, sheet_in,
)
from case_text import runs


# ---- bytes of a sheet


def u16(n):
    return n.to_bytes(2, 'little')


def tagged(pair):
    return bytes([pair[0]]) + pair[1].to_bytes(4, 'little')


def sheet_bytes(constraint, inner, stretch, axis, tracks, items):
    return (
        u16(1) + tagged(constraint) + tagged(inner) + bytes([stretch, axis])
        + u16(len(tracks)) + b''.join(tagged(track.minimum) + tagged(track.maximum) for track in tracks)
        + u16(len(items)) + b''.join(u16(item.start) + u16(item.span) + b''.join(map(tagged, item.row)) for item in items)
    )


def fixed(n):
    return FIXED, n


def fit(n):
    return FIT, n


def fr(thousandths):
    return FR, thousandths


auto, min_content, max_content = (AUTO, 0), (MIN, 0), (MAX, 0)
under_min, under_max = (UNDER_MIN, 0), (UNDER_MAX, 0)


def definite(n):
    return DEFINITE, n


def item(start, span, *row):
    """An item; None among its contributions is an absent one."""
    return Item(start, span, tuple((0, 0) if n is None else (1, n) for n in row))


def given(n):
    return (0, 0) if n is None else (1, n)


def sheet(tracks, items=(), constraint=definite(100), inner=100, stretch=0, axis=INLINE):
    """The bytes of a sheet whose tracks are pairs of a minimum and a maximum."""
    return sheet_bytes(constraint, given(inner), stretch, axis, [Track(*track) for track in tracks], list(items))


# ---- text


def listed_places(places):
    return ' '.join([str(len(places))] + runs([f'{base} {limit}' for base, limit in places]))


def listed_free(free):
    return '0 0 0' if free is None else f'1 {int(free < 0)} {abs(free)}'


def listed_bytes(data):
    """The bytes in groups: counts, records, and in a sheet of few records their parts."""
    found, at = [], 0
    for parts in ((5, 5, 1, 1), (5, 5), (2, 2, 5, 5, 5)):
        count = int.from_bytes(data[at:at + 2], 'little')
        found.append(data[at:at + 2])
        at += 2
        for _ in range(min(count, 2_000)):
            for part in parts if count <= 4 else (sum(parts),):
                found.append(data[at:at + part])
                at += part
    found += [data[k:k + 1] for k in range(at, len(data))]
    return ' '.join([str(len(data))] + runs([group.hex().upper() for group in found if group]))


# ---- a case


def lent_places(count):
    """What is lent: nothing that a small board would leave there."""
    return [[9_001 + 10 * min(t, 2), 9_002 + 10 * min(t, 2)] for t in range(count)]


class Cases:
    def __init__(self):
        self.names = set()
        self.cases = []
        self.kinds = collections.Counter()
        self.group = ''

    def add(self, name, data, places=None, want=None, **shown):
        """Works a case out and keeps it. One place more than tracks is lent where nothing else is asked. `want` is the refusal that the
        case is to show, as number and place; the words after it are parts of the board that it is to show."""
        name = f'{self.group}, {name}' if self.group else name
        assert name not in self.names and '\n' not in name, name
        self.names.add(name)
        before = lent_places(tracks_said(data) + 1 if places is None else places)
        told, after, marks = board_of(data, before)
        self.hold(name, data, before, told, after)
        assert not want or told[:3] == (REFUSAL,) + want, (name, told)
        if told[0] == BOARD:
            free = told[3]
            marks |= {'boards', 'free none' if free is None else 'free 0 or more' if free >= 0 else 'free below 0'}
            board = {'free': free, 'rounds': told[2]}
            board |= {'bases': [base for base, _ in after[:told[1]]], 'limits': [limit for _, limit in after[:told[1]]]}
            assert all(board[part] == value for part, value in shown.items()), (name, board)
        else:
            assert not shown, (name, told)
        self.kinds.update(marks)
        answer = ' '.join(map(str, told[:3]))
        self.cases.append((name, listed_bytes(data), listed_places(before), answer, listed_free(told[3]), listed_places(after)))

    def hold(self, name, data, before, told, after):
        """The refusal is the first of all faults, and a refusal leaves the places."""
        faults = byte_faults(data)
        if faults:
            assert told[:3] == (REFUSAL,) + min(faults)[1:], (name, told, faults)
            return
        faults = record_faults(sheet_in(data), len(before))
        assert told[0] == (REFUSAL if faults else BOARD), (name, told, faults)
        if faults:
            assert told[1:3] == min(faults) and after == before, (name, told, faults)
        else:
            assert sheet_bytes(*sheet_in(data)) == data, name
            assert after[told[1]:] == before[told[1]:] and len(after) == len(before), name
        self.hold_axes(name, data, before, told, after)

    def hold_axes(self, name, data, before, told, after):
        """The other axis gives the same answer, but for the sizes of fr tracks under min-content without inner size: those are no smaller in
        the block axis, and all else is the same."""
        other, other_after, _ = board_of(with_bytes(data, (AXIS_AT, 1 - data[AXIS_AT])), before)
        read = sheet_in(data)
        if read.constraint != under_min or read.inner[0]:
            assert (other, other_after) == (told, after), name
            return
        assert other == told, name
        inline, block = (after, other_after) if read.axis == INLINE else (other_after, after)
        for t, (one, two) in enumerate(zip(inline, block)):
            is_fr = t < len(read.tracks) and read.tracks[t].maximum[0] == FR
            assert one[1] == two[1] and (one[0] <= two[0] if is_fr else one[0] == two[0]), name

    def heading(self):
        """How many cases there are of each kind."""
        refused = [f'{number}: {self.kinds[f"refused {number}"]}' for number in range(1, 11)]
        shown = [f'{kind} {n}' for kind, n in sorted(self.kinds.items()) if kind != 'boards' and not kind.startswith('refused')]
        return f'{len(self.cases)} cases; boards {self.kinds["boards"]}; refused {", ".join(refused)}; of the boards {", ".join(shown)}'

    def text(self):
        (name, *first), *rest = self.cases
        cases = [(f'{name}; {self.heading()}', *first)] + rest
        return ''.join('\n'.join(('# ' + name, *lines)) + '\n' for name, *lines in cases)


def tracks_said(data):
    """The number of tracks that the bytes give, 2 where they end before it."""
    return min(300, int.from_bytes(data[TRACKS_AT:TRACKS_AT + 2], 'little')) if len(data) >= TRACKS_AT + 2 else 2


# ---- the cases

W12 = bytes.fromhex('0100 0164000000 0164000000 00 00 0100 0200000000 0100000000 0100 0000 0100 011E000000 011E000000 011E000000')
# Where its axis byte and the counts of its tracks and of its items stand, and where it ends: places behind the space are told from these.
AXIS_AT = 2 + 11
TRACKS_AT = AXIS_AT + 1
ITEMS_AT = TRACKS_AT + 2 + 10
W12_END = ITEMS_AT + 2 + 19
AUTOS = [(auto, auto)] * 2


def paper(c):
    assert sheet([(auto, fixed(0))], [item(0, 1, 30, 30, 30)]) == W12 and len(W12) == 47
    c.add('W7', sheet([(fixed(0), fr(1_000)), (fixed(0), fr(2_000))]), bases=[33, 66], free=1, rounds=0)
    c.add('W8', sheet([(fixed(60), fr(1_000)), (fixed(0), fr(1_000))]), bases=[60, 40], free=0)
    c.add('W9', sheet([(fixed(0), fr(500))]), bases=[50], free=50)
    across = [item(0, 2, 11, 11, 20)]
    c.add('W10', sheet(AUTOS, across), bases=[11, 9], free=80)
    c.add('W11', sheet(AUTOS, across, stretch=1), bases=[51, 49], free=0)
    c.add('W12', W12, bases=[30], limits=[30], free=70, rounds=0)
    for name, dots, rooms, answer in (
        ('W1', 7, [10, 10, 10], ([3, 2, 2], 0, 2)),
        ('W2', 10, [1, 5, None], ([1, 5, 4], 0, 3)),
        ('W3', 9, [2, 3], ([2, 3], 4, 2)),
        ('W4', 0, [10, None], ([0, 0], 0, 0)),
        ('W5', 5, [], ([], 5, 0)),
        ('W6', 3, [0, 4], ([0, 3], 0, 1)),
    ):
        assert fill(dots, rooms) == answer, name
    # the fills of step 5 with the rooms of W1 to W3, W2's track without limit as one of the most room
    c.add('rooms of W1', sheet([(fixed(0), fixed(10))] * 3, constraint=definite(7), inner=7), bases=[3, 2, 2], rounds=2)
    c.add('rooms of W2', sheet([(fixed(0), fixed(n)) for n in (1, 5, 65_535)], constraint=definite(10), inner=10), bases=[1, 5, 4], rounds=3)
    c.add('rooms of W3', sheet([(fixed(0), fixed(n)) for n in (2, 3)], constraint=definite(9), inner=9), bases=[2, 3], rounds=2, free=4)


def with_bytes(data, *edits):
    data = bytearray(data)
    for at, value in edits:
        data[at] = value
    return bytes(data)


def refused_by_bytes(c):
    """1 to 5; the cases of reading have many more."""
    c.group = '1'
    for length in list(range(4)) + list(range(6, W12_END, 3)):
        c.add(f'W12 cut to {length} bytes', W12[:length], places=1 + length % 2, want=(1, length))
    two = sheet(AUTOS, [item(0, 1, 1, 2, 3), item(1, 1, 1, 2, 3)])
    for length in (TRACKS_AT + behind for behind in (2, 11, 12, 21, 22, 23, 24, 42, 43, 61)):
        c.add(f'two tracks and items cut to {length} bytes', two[:length], want=(1, length))
    most = sheet([(auto, auto)] * 256, [item(0, 256, 1, 2, 3)] * 1_024)
    assert len(most) == LONGEST == 22_034
    c.add('the longest sheet without its last byte', most[:-1], want=(1, LONGEST - 1))
    c.add('the longest sheet without its last item', most[:-19], want=(1, LONGEST - 19))
    c.group = '2'
    for over in (b'\0', b'\1', b'\xff', b'\0\0', W12):
        c.add(f'W12, then {len(over)} bytes, the first {over[0]}', W12 + over, want=(2, W12_END))
    c.add('the longest sheet and a byte', most + b'\0', want=(2, LONGEST))
    c.add('a board without tracks and a byte', sheet([]) + b'\7', want=(2, TRACKS_AT + 4))
    c.group = '3'
    for count in (0, 2, 3, 256, 257, 65_535):
        c.add(f'space count {count}', u16(count) + W12[2:], want=(3, 0))
    for count in (257, 258, 512, 65_535):
        c.add(f'track count {count}', W12[:TRACKS_AT] + u16(count) + W12[TRACKS_AT + 2:], places=300, want=(3, TRACKS_AT))
    for count in (1_025, 1_026, 2_048, 65_535):
        c.add(f'item count {count}', W12[:ITEMS_AT] + u16(count) + W12[ITEMS_AT + 2:], want=(3, ITEMS_AT))
    c.add('257 tracks, whole', sheet([(auto, auto)] * 257), places=300, want=(3, TRACKS_AT))
    c.add('1,025 items, whole', sheet(AUTOS, [item(0, 1, 1, 2, 3)] * 1_025), want=(3, TRACKS_AT + 22))
    c.group = '4'
    tags = ((2, 1, 3), (7, 0, 1), (12, 0, 1), (AXIS_AT, 0, 1), (TRACKS_AT + 2, 1, 4), (TRACKS_AT + 7, 1, 6),
            (ITEMS_AT + 6, 0, 1), (ITEMS_AT + 11, 0, 1), (ITEMS_AT + 16, 0, 1))
    for at, least, largest in tags:
        for tag in ({least - 1, largest + 1, 255} - {-1}):
            c.add(f'byte {at} is {tag}', with_bytes(W12, (at, tag)), want=(4, at))
    c.group = '5'
    bare = ((2, 2), (2, 3), (7, 0), *((TRACKS_AT + 2, tag) for tag in (2, 3, 4)), *((TRACKS_AT + 7, tag) for tag in (2, 3, 4)),
            (ITEMS_AT + 6, 0), (ITEMS_AT + 11, 0), (ITEMS_AT + 16, 0))
    for at, tag in bare:
        number = at + 1
        for k in (0, 3):
            clean = with_bytes(W12, (at, tag), *((number + j, 0) for j in range(4)))
            c.add(f'tag {tag} at {at}, byte {number + k} is 1', with_bytes(clean, (number + k, 1)), want=(5, number))
    c.group = 'the first byte at fault'
    c.add('3 before 4', with_bytes(W12, (0, 2), (2, 9)), want=(3, 0))
    c.add('4 before 5', with_bytes(W12, (2, 9), (7, 0)), want=(4, 2))
    c.add('5 before 4', with_bytes(W12, (7, 0), (12, 9)), want=(5, 8))
    c.add('4 before 2', with_bytes(W12, (ITEMS_AT + 16, 9)) + b'\0', want=(4, ITEMS_AT + 16))
    c.add('1 before a look inside', with_bytes(W12, (ITEMS_AT + 6, 9))[:W12_END - 1], want=(1, W12_END - 1))
    c.add('4 before 1 of a later record', with_bytes(two, (TRACKS_AT + 28, 9))[:TRACKS_AT + 47], want=(4, TRACKS_AT + 28))
    c.add('4 before 1 of the next section', with_bytes(W12, (12, 7))[:TRACKS_AT + 1], want=(4, 12))
    c.add('4 of stretch before 4 of the axis', with_bytes(W12, (12, 2), (AXIS_AT, 2)), want=(4, 12))
    c.add('4 of the axis before 3 of the next section', with_bytes(W12, (AXIS_AT, 2), (TRACKS_AT + 1, 255)), want=(4, AXIS_AT))
    c.add('5 before 4 of the axis', with_bytes(W12, (7, 0), (AXIS_AT, 255)), want=(5, 8))
    c.add('1 of the space before 4 of stretch', with_bytes(W12, (12, 2))[:AXIS_AT], want=(1, AXIS_AT))
    c.add('5 before 3 of the next section', with_bytes(W12, (TRACKS_AT + 3, 1), (ITEMS_AT + 1, 255)), want=(5, TRACKS_AT + 3))


def refused_by_places(c):
    c.group = '6'
    for tracks in (1, 2, 3, 5, 255, 256):
        data = sheet([(auto, auto)] * tracks, [item(tracks - 1, 1, 4, 5, 6)])
        for places in sorted({0, 1, tracks - 1} - {tracks}):
            c.add(f'{tracks} tracks into {places} places', data, places, want=(6, 0))
        for places in (tracks, tracks + 1, tracks + 7):
            c.add(f'{tracks} tracks into {places} places', data, places)
    c.add('no tracks into no places', sheet([]), 0, bases=[], free=100)
    c.add('no tracks into 5 places', sheet([]), 5, bases=[])
    last = ITEMS_AT + 16
    for number, data in ((1, W12[:40]), (2, W12 + b'\0'), (3, with_bytes(W12, (ITEMS_AT, 255), (ITEMS_AT + 1, 255))),
                         (4, with_bytes(W12, (last, 2))), (5, with_bytes(W12, (last, 0)))):
        c.add(f'{number} before it', data, 0)
    bad = sheet([(fixed(65_536), auto), (auto, fr(1_000))], [item(0, 9, 3, None, 1)])
    c.add('before 7 to 10', bad, 1, want=(6, 0))


def refused_by_limits(c):
    """7, on both sides of each limit."""
    c.group = '7'
    one = [item(0, 1, 1, 2, 3)]
    for n, far in ((SPACE_LIMIT - 1, 0), (SPACE_LIMIT, 0), (SPACE_LIMIT + 1, 1), (LARGEST, 1)):
        want = (7, 0) if far else None
        c.add(f'definite space {n}', sheet(AUTOS, one, constraint=definite(n)), want=want)
        c.add(f'inner size {n}', sheet(AUTOS, one, inner=n), want=want)
        c.add(f'inner size {n}, stretched', sheet(AUTOS, one, inner=n, stretch=1), want=want)
        c.add(f'both {n}', sheet(AUTOS, one, constraint=definite(n), inner=n, stretch=1), want=want)
        c.add(f'inner size {n} under max-content', sheet([(auto, fr(1_000)), (auto, auto)], one, under_max, n), want=want)
    for n, far in ((65_534, 0), (65_535, 0), (65_536, 1), (100_000, 1), (SPACE_LIMIT + 1, 1), (LARGEST, 1)):
        for t in (0, 2):
            for word, bad in (('minimum', (fixed(n), auto)), ('maximum', (auto, fixed(n))), ('fit-content', (auto, fit(n)))):
                if t and n == 65_534:
                    continue
                tracks = [(auto, auto)] * 3
                tracks[t] = bad
                c.add(f'{word} {n} of track {t}', sheet(tracks, one), want=(7, 1 + t) if far else None)
        for k, word in enumerate(('minimum', 'min-content', 'max-content')):
            row = [n if j >= k else 0 for j in range(3)]
            c.add(f'{word} contribution {n}', sheet(AUTOS, [item(0, 1, *row)], inner=None), want=(7, 3) if far else None)
            if far:
                c.add(f'{word} contribution {n}, second item', sheet(AUTOS, one + [item(1, 1, *row)]), want=(7, 4))
                c.add(f'{word} contribution {n}, not measured', sheet([(fixed(1), fixed(2))], [item(0, 1, *row)]), want=(7, 2))
                alone = [None, None, None]
                alone[k] = n
                c.add(f'{word} contribution {n} alone, not measured', sheet([(fixed(1), fixed(2))], [item(0, 1, *alone)]), want=(7, 2))
    for n, far in ((99_999, 0), (100_000, 0), (100_001, 1), (LARGEST, 1)):
        for constraint in (definite(1_000), under_min, under_max):
            c.add(f'factor {n} under {constraint[0]}', sheet([(auto, fr(n)), (auto, auto)], one, constraint), want=(7, 1) if far else None)
        c.add(f'factor {n} without inner size', sheet([(auto, fr(n)), (auto, auto)], one, inner=None), want=(7, 1) if far else None)
    c.add('the space before a track', sheet([(fixed(65_536), auto)], inner=SPACE_LIMIT + 1), want=(7, 0))
    c.add('a track before an item', sheet([(auto, auto), (auto, fr(100_001))], [item(0, 1, 0, 0, 65_536)]), want=(7, 2))
    c.add('the lower track', sheet([(auto, auto), (fixed(70_000), auto), (auto, fit(70_000))]), want=(7, 2))
    c.add('the lower item', sheet([(auto, auto)], one + [item(0, 1, 0, 70_000, 70_000), item(0, 1, 70_000, 70_000, 70_000)]), want=(7, 3))
    c.add('the last of 256 tracks', sheet([(auto, auto)] * 255 + [(auto, fixed(65_536))]), want=(7, 256))


def refused_by_spans(c):
    """8, on both sides of the last track."""
    c.group = '8'
    for tracks in (0, 1, 2, 3, 255, 256):
        for start in sorted({0, max(0, tracks - 2), max(0, tracks - 1), tracks, tracks + 1}):
            for span in sorted({0, 1, 2, max(1, tracks - start), max(1, tracks - start + 1)}):
                if tracks > 3 and (start < tracks - 1 and span not in (tracks - start, tracks - start + 1)):
                    continue
                is_bad = span == 0 or start + span > tracks
                data = sheet([(auto, auto)] * tracks, [item(start, span, 1, 2, 4)])
                c.add(f'start {start} and span {span} on {tracks} tracks', data, want=(8, 1 + tracks) if is_bad else None)
    for start, span in ((65_535, 1), (1, 65_535), (65_535, 65_535), (32_768, 32_768), (65_535, 0), (65_534, 2)):
        c.add(f'start {start} and span {span} on 2 tracks', sheet(AUTOS, [item(start, span, 1, 2, 3)]), want=(8, 3))
    c.add('span 0 with nothing given', sheet(AUTOS, [item(0, 0, None, None, None)]), want=(8, 3))
    c.add('on fixed tracks', sheet([(fixed(1), fixed(2))] * 2, [item(1, 2, None, None, None)]), want=(8, 3))
    c.add('the lower item', sheet(AUTOS, [item(0, 2, 1, 2, 3), item(2, 1, 1, 2, 3), item(0, 0, 1, 2, 3)]), want=(8, 4))


def refused_by_contributions(c):
    """9 and 10; on tracks fixed at both ends a contribution may lack, and may fall."""
    absent = [(None if a else 3, None if b else 5, None if d else 7) for a in (0, 1) for b in (0, 1) for d in (0, 1)][1:]
    c.group = '9'
    for row in absent:
        word = ' '.join('absent' if n is None else 'given' for n in row)
        c.add(f'{word}, fixed', sheet([(fixed(1), fixed(4))], [item(0, 1, *row)]), bases=[4], limits=[4])
        c.add(f'{word}, auto', sheet([(auto, auto)], [item(0, 1, *row)]), want=(9, 2))
        c.add(f'{word}, across fixed and auto', sheet([(fixed(1), fixed(4)), (auto, auto)], [item(0, 2, *row)]), want=(9, 3))
        c.add(f'{word}, across two fixed', sheet([(fixed(1), fixed(4))] * 2, [item(0, 2, *row)]), bases=[4, 4])
    nothing = (None, None, None)
    for minimum in (fixed(3), auto, min_content, max_content):
        for maximum in (fixed(3), auto, min_content, max_content, fit(3), fr(1_000)):
            want = None if minimum == maximum == fixed(3) else (9, 2)
            c.add(f'minimum {minimum[0]}, maximum {maximum[0]}', sheet([(minimum, maximum)], [item(0, 1, *nothing)]), want=want)
    c.add('zero is given', sheet([(auto, auto)], [item(0, 1, 0, 0, 0)]), bases=[0], limits=[0], free=100)
    c.add('the lower item', sheet(AUTOS, [item(0, 1, 1, 2, 3), item(1, 1, 1, None, 3), item(1, 1, *nothing)]), want=(9, 4))
    c.add('behind one that is not measured', sheet([(fixed(1), fixed(2)), (auto, auto)], [item(0, 1, *nothing), item(1, 1, 1, 2, None)]), want=(9, 4))
    c.group = '10'
    for row in ((2, 1, 3), (1, 3, 2), (3, 2, 1), (1, 0, 0), (0, 1, 0), (1, 1, 0), (65_535, 65_534, 65_535), (5, 4, 4)):
        word = ' '.join(map(str, row))
        c.add(f'{word}, auto', sheet([(auto, auto)], [item(0, 1, *row)]), want=(10, 2))
        c.add(f'{word}, fixed', sheet([(fixed(1), fixed(4))], [item(0, 1, *row)]), bases=[4])
        c.add(f'{word}, across both', sheet([(fixed(1), fixed(4)), (auto, auto)], [item(0, 2, *row)]), want=(10, 3))
    for row in ((1, 1, 1), (0, 0, 1), (0, 1, 1), (0, 65_535, 65_535)):
        c.add(f'{" ".join(map(str, row))}, level', sheet([(auto, auto)], [item(0, 1, *row)]))
    c.add('the lower item', sheet(AUTOS, [item(0, 1, 1, 2, 3), item(1, 1, 3, 2, 3), item(0, 2, 3, 2, 1)]), want=(10, 4))


def which_refusal(c):
    """6 to 10 by number, however their records stand."""
    c.group = 'order'
    tracks = [(auto, auto), (auto, auto), (auto, fr(1_000))]
    seven, eight, nine, ten, sound = item(0, 1, 1, 2, 70_000), item(3, 1, 1, 2, 3), item(0, 1, 1, None, 3), item(0, 1, 3, 2, 1), item(1, 2, 1, 2, 3)
    bad = {7: seven, 8: eight, 9: nine, 10: ten}
    for low in bad:
        for high in bad:
            if low < high:
                c.add(f'{low} behind {high}', sheet(tracks, [bad[high], bad[low]]), want=(low, 5))
                c.add(f'{low} before {high}', sheet(tracks, [bad[low], bad[high]]), want=(low, 4))
        c.add(f'{low} behind an item across fr', sheet(tracks, [sound, bad[low]]), want=(low, 5))
        c.add(f'{low} before an item across fr', sheet(tracks, [bad[low], sound]), want=(low, 4))
    c.add('all, from 10 down', sheet(tracks, [ten, nine, eight, seven]), want=(7, 7))
    c.add('all but 7', sheet(tracks, [ten, nine, eight]), want=(8, 6))
    c.add('9 and 10 of one item', sheet(tracks, [item(0, 1, 9, None, 3)]), want=(9, 4))
    c.add('9 of an item across fr', sheet(tracks, [item(1, 2, 9, None, 3)]), want=(9, 4))
    c.add('10 of an item across fr', sheet(tracks, [item(1, 2, 9, 3, 3)]), want=(10, 4))
    c.add('7 and 8 of one item', sheet(tracks, [item(9, 9, 0, 0, 65_536)]), want=(7, 4))
    c.add('8 and 9 of one item', sheet(tracks, [item(9, 9, None, None, None)]), want=(8, 4))


CONSTRAINT_WORDS = ((definite(150), 'definite'), (under_min, 'min-content'), (under_max, 'max-content'))


def kinds(c):
    """Every minimum against every maximum, beside an auto track."""
    c.group = 'kinds'
    for minimum in (fixed(15), auto, min_content, max_content):
        for maximum in (fixed(25), auto, min_content, max_content, fit(35), fr(1_500)):
            items = [item(0, 1, 10, 20, 45), item(1, 1, 5, 8, 13), item(0, 2, 30, 50, 90)]
            for constraint, word in CONSTRAINT_WORDS:
                for inner in (None, 120):
                    for stretch in (0, 1):
                        name = f'{minimum[0]} to {maximum[0]}, {word}, inner {inner}, stretch {stretch}'
                        c.add(name, sheet([(minimum, maximum), (auto, auto)], items, constraint, inner, stretch))


def kinds_alone(c):
    """Every minimum against every maximum, where one longer item is all there is; and behind a fixed gutter."""
    c.group = 'kinds across'
    for minimum in (fixed(15), auto, min_content, max_content):
        for maximum in (fixed(25), auto, min_content, max_content, fit(35), fr(1_500)):
            for constraint, word in CONSTRAINT_WORDS:
                across = [item(0, 3, 40, 71, 122)]
                gutter = (fixed(4), fixed(4))
                c.add(f'{minimum[0]} to {maximum[0]}, {word}', sheet([(minimum, maximum), gutter, (minimum, maximum)], across, constraint, None))
                c.add(f'{minimum[0]} to {maximum[0]}, {word}, beside max-content', sheet([(minimum, maximum), gutter, (max_content, max_content)], across, constraint, 100))


def letters(c):
    """Where (e) and (f) part, and what a batch leaves to the next."""
    c.group = 'letters'
    own = item(1, 1, 10, 10, 10)
    c.add('a limit that (e) brings takes all of (f)', sheet(AUTOS, [own, item(0, 2, 10, 30, 60)], inner=None), limits=[50, 10], bases=[50, 10])
    c.add('no limit comes in (e), (f) brings it', sheet(AUTOS, [own, item(0, 2, 10, 10, 60)], inner=None), limits=[50, 10])
    both = [item(0, 1, 10, 10, 10), own]
    c.add('limits that (e) only raises share in (f)', sheet(AUTOS, both + [item(0, 2, 20, 30, 60)], inner=None), limits=[30, 30])
    c.add('the odd dot of (e) does not mark its track', sheet(AUTOS, both + [item(0, 2, 20, 21, 60)], inner=None), limits=[31, 29])
    three = [(auto, auto)] * 3
    tens = [item(t, 1, 10, 10, 10) for t in range(3)]
    c.add('raised by one item, shared by another', sheet(three, tens + [item(0, 2, 20, 40, 40), item(1, 2, 20, 20, 60)], inner=None), limits=[20, 35, 25])
    for k, (least, most) in enumerate(((0, 50), (5, 61), (19, 44), (20, 99))):
        c.add(f'raised by one item, shared by another, {k}', sheet(three, tens + [item(0, 2, 0, 33, 33), item(1, 2, 0, least, most)], inner=None))
        c.add(f'raised by the later item, shared by the earlier, {k}', sheet(three, tens + [item(0, 2, 0, least, most), item(1, 2, 0, 37, 37)], inner=None))
    c.add('came by one item, all of another', sheet(three, tens[:1] + tens[2:] + [item(0, 2, 10, 30, 30), item(1, 2, 10, 10, 60)], inner=None), limits=[10, 50, 10])
    fives = [item(0, 1, 5, 5, 5), item(2, 1, 5, 5, 5)]
    c.add('came in a batch before, shares in the next', sheet(three, fives + [item(0, 2, 5, 25, 25), item(0, 3, 10, 30, 60)], inner=None))
    data = sheet(three, fives + [item(0, 2, 5, 25, 25), item(0, 3, 10, 45, 60)], inner=None)
    c.add('came in a batch before, shares in (e) of the next', data, limits=[15, 30, 15])
    c.add('came in (f), shares in the next batch', sheet(three, fives + [item(0, 2, 5, 5, 25), item(0, 3, 10, 30, 60)], inner=None))
    c.add('two limits from none', sheet(AUTOS, [item(0, 2, 0, 31, 60)], inner=None), limits=[31, 29])
    c.add('two limits from none, none in (e)', sheet(AUTOS, [item(0, 2, 0, 0, 61)], inner=None), limits=[31, 30])
    mins = [(auto, min_content), (auto, auto)]
    c.add('a min-content maximum takes part in (e) alone', sheet(mins, [item(0, 2, 0, 40, 100)], inner=None), limits=[20, 80])
    c.add('min-content maxima alone', sheet([(auto, min_content)] * 2, [item(0, 2, 0, 41, 100)], inner=None), limits=[21, 20])
    c.add('max-content beside min-content', sheet([(auto, max_content), (auto, min_content)], [item(0, 2, 0, 40, 100)], inner=None), limits=[80, 20])
    c.add('a limit of 0 is no missing limit', sheet(AUTOS, [item(0, 1, 0, 0, 0), item(0, 2, 0, 10, 20)], inner=None), limits=[0, 20])
    c.add('fixed maxima take nothing in (e)', sheet([(auto, fixed(9)), (auto, auto)], [item(0, 2, 0, 40, 60)], inner=None), limits=[9, 51])
    c.add('a fixed maximum grows by (a)', sheet([(auto, fixed(9))] * 2, [item(0, 2, 30, 40, 60)], inner=None), bases=[15, 15], limits=[15, 15])
    c.add('dots beyond the limits go to intrinsic maxima', sheet([(auto, fixed(9)), (auto, auto), (auto, fit(5))], [item(1, 1, 2, 2, 6), item(0, 3, 40, 40, 60)], inner=None))
    c.add('dots beyond the limits, none intrinsic', sheet([(auto, fixed(9)), (auto, fit(5))], [item(0, 2, 40, 40, 60)], inner=None), bases=[22, 18])
    c.add('(b) after (a)', sheet([(min_content, auto), (auto, auto)], [item(0, 2, 10, 30, 60)], inner=None))
    c.add('(d) after (b)', sheet([(max_content, auto), (min_content, auto), (auto, auto)], [item(0, 3, 10, 30, 60)], inner=None))
    for constraint, word in CONSTRAINT_WORDS:
        for first, second in ((min_content, max_content), (min_content, auto), (min_content, min_content), (fit(9), min_content), (fixed(9), min_content)):
            data = sheet([(max_content, first), (max_content, second)], [item(0, 1, 1, 2, 3), item(1, 1, 1, 2, 3), item(0, 2, 10, 30, 61)], constraint, None)
            c.add(f'(d) beyond limits, maxima {first[0]} and {second[0]}, {word}', data)
        c.add(f'(c), minimum auto beside min-content, {word}', sheet([(auto, auto), (min_content, min_content)], [item(0, 2, 10, 30, 61)], constraint, None))
        c.add(f'(c), limited by fixed maxima, {word}', sheet([(auto, fixed(12)), (max_content, fixed(9))], [item(0, 2, 15, 30, 61)], constraint, None))
        c.add(f'(c), limited below the minimum, {word}', sheet([(auto, fixed(6)), (auto, fit(5))], [item(0, 2, 15, 30, 61)], constraint, None))
        c.add(f'(a), limited, one maximum auto, {word}', sheet([(auto, fixed(6)), (auto, auto)], [item(0, 2, 15, 30, 61)], constraint, None))
        c.add(f'limited by a maximum below its minimum, {word}', sheet([(fixed(20), fixed(6)), (auto, fixed(5))], [item(0, 2, 15, 30, 61)], constraint, None))
        c.add(f'2, limited in one track, {word}', sheet([(auto, fixed(12)), (auto, fit(14)), (auto, auto)], [item(t, 1, 10, 30, 61) for t in range(3)], constraint, None))
        tracks = [(auto, fixed(2)), (auto, fit(4)), (min_content, fit(4)), (max_content, fixed(4))]
        c.add(f'2, limited below the minimum, {word}', sheet(tracks, [item(t, 1, 10, 30, 61) for t in range(4)], constraint, None))


def bases_at_limits(c):
    """Base and limit equal everywhere at the start: the rest is not skipped."""
    c.group = 'base is limit'
    for constraint, word in CONSTRAINT_WORDS:
        for minimum in (auto, min_content, max_content):
            c.add(f'one track, minimum {minimum[0]}, {word}', sheet([(minimum, fixed(0))], [item(0, 1, 20, 30, 40)], constraint))
            c.add(f'two tracks, minimum {minimum[0]}, {word}', sheet([(minimum, fixed(0)), (fixed(9), fixed(9))], [item(0, 2, 20, 30, 40)], constraint))


def fit_content(c):
    c.group = 'fit-content'
    c.add('first share up to the argument', sheet([(auto, fit(20)), (auto, auto)], [item(0, 2, 0, 60, 60)], inner=None), limits=[20, 40])
    c.add('first share of two up to their arguments', sheet([(auto, fit(20)), (auto, fit(9))], [item(0, 2, 0, 60, 60)], inner=None), limits=[20, 9])
    fives = [item(0, 1, 5, 5, 5), item(1, 1, 5, 5, 5)]
    c.add('second share up to the argument', sheet([(auto, fit(20)), (auto, auto)], fives + [item(0, 2, 10, 60, 60)], inner=None), limits=[20, 40])
    c.add('first share behind a limit', sheet([(auto, fit(20)), (auto, auto)], [item(1, 1, 5, 5, 5), item(0, 2, 10, 60, 60)], inner=None), limits=[20, 40])
    c.add('both shares', sheet([(auto, fit(30)), (auto, fit(8)), (auto, auto)], [item(0, 1, 4, 4, 4), item(2, 1, 5, 5, 5), item(0, 3, 10, 70, 70)], inner=None))
    c.add('first share, then second with what is left', sheet([(auto, fit(30)), (auto, auto)], [item(1, 1, 5, 5, 5), item(0, 2, 5, 20, 90)], inner=None))
    c.add('an argument of 0', sheet([(auto, fit(0)), (auto, auto)], [item(0, 2, 10, 40, 60)], inner=None))
    c.add('an argument below the base', sheet([(fixed(25), fit(10)), (auto, auto)], [item(0, 2, 10, 40, 60)], inner=None), limits=[25, 35])
    c.add('a present size above the argument', sheet([(min_content, fit(10)), (auto, auto)], [item(0, 1, 20, 30, 30), item(1, 1, 1, 1, 1), item(0, 2, 40, 60, 90)], inner=None))
    c.add('both arguments too small', sheet([(auto, fit(10)), (auto, fit(12))], [item(0, 2, 40, 60, 90)], inner=None))
    c.add('bases grow past arguments that bind', sheet([(auto, fit(10)), (auto, fit(30))], [item(0, 2, 60, 60, 90)], inner=None), bases=[20, 40])
    c.add('bases up to the argument first', sheet([(auto, fit(10)), (auto, auto)], [item(0, 2, 60, 60, 90)], inner=None))
    for constraint, word in CONSTRAINT_WORDS:
        for argument in (0, 10, 30, 60, 65_535):
            data = sheet([(auto, fit(argument)), (min_content, fit(argument))], [item(0, 1, 20, 25, 50), item(1, 1, 20, 25, 50)], constraint, 100)
            c.add(f'one track each, argument {argument}, {word}', data)


def factors(c):
    c.group = 'fr'
    for factor in (0, 1, 333, 500, 999, 1_000, 1_001, 2_000, 99_999, 100_000):
        for constraint, word in CONSTRAINT_WORDS:
            for inner in (None, 100):
                data = sheet([(auto, fr(factor)), (fixed(7), fr(1_000)), (fixed(3), fixed(3))], [item(0, 1, 5, 10, 37)], constraint, inner)
                c.add(f'factor {factor} beside 1000, {word}, inner {inner}', data)
        c.add(f'factor {factor} alone', sheet([(fixed(0), fr(factor))]))
        c.add(f'factor {factor} alone, base 60', sheet([(fixed(60), fr(factor))]))
        c.add(f'factor {factor} twice', sheet([(fixed(0), fr(factor))] * 2, inner=101))
    c.add('thirds leave a dot', sheet([(fixed(0), fr(1_000))] * 3), bases=[33, 33, 33], free=1)
    c.add('sum below 1 leaves the rest', sheet([(fixed(0), fr(250)), (fixed(0), fr(500))]), bases=[25, 50], free=25)
    c.add('one held, the rest below 1', sheet([(fixed(50), fr(700)), (fixed(0), fr(500))], inner=60), bases=[50, 5], free=5)
    c.add('held one after another', sheet([(fixed(50), fr(1_000)), (fixed(30), fr(1_000)), (fixed(0), fr(1_000))]), bases=[50, 30, 20])
    c.add('held in two rounds', sheet([(fixed(45), fr(1_000)), (fixed(30), fr(1_000)), (fixed(0), fr(1_000))], inner=90), bases=[45, 30, 15])
    c.add('factor equal to the base', sheet([(fixed(50), fr(1_000)), (fixed(0), fr(1_000))]), bases=[50, 50])
    c.add('factor equal to the base, a sum below 1', sheet([(fixed(50), fr(500)), (fixed(0), fr(250))]), bases=[50, 25], free=25)
    c.add('a fraction below the base', sheet([(fixed(34), fr(1_000)), (fixed(0), fr(2_000))]), bases=[34, 66])
    c.add('a fraction above the base', sheet([(fixed(33), fr(1_000)), (fixed(0), fr(2_000))]), bases=[33, 66])
    c.add('the most space', sheet([(fixed(0), fr(1_000)), (fixed(0), fr(99_999))], inner=SPACE_LIMIT))
    c.add('the most space, 256 tracks', sheet([(fixed(0), fr(1_000 + 7 * t)) for t in range(256)], inner=SPACE_LIMIT))
    c.add('1 in thousandths, 256 tracks', sheet([(fixed(0), fr(1))] * 256, inner=1_000), free=1_000 - 256)
    for maximum in (37, 5, 60, 0):
        for minimum in (fixed(0), fixed(60), auto, max_content):
            data = sheet([(minimum, fr(500)), (fixed(10), fr(3_000))], [item(0, 1, 0, 0, maximum)], inner=None)
            c.add(f'max-content, item {maximum} on {minimum[0]} {minimum[1]}', data)
    items = [item(0, 1, 5, 10, 30), item(1, 1, 5, 10, 50), item(1, 1, 5, 5, 61), item(2, 1, 1, 2, 99)]
    data = sheet([(auto, fr(1_000)), (auto, fr(2_000)), (auto, auto)], items, inner=None)
    c.add('max-content, items on each', data, bases=[30, 61, 90])
    c.add('max-content, an item held by the base', sheet([(fixed(60), fr(500)), (fixed(0), fr(1_000))], [item(0, 1, 0, 0, 100)], inner=None), bases=[60, 60])
    c.add('max-content, an item not held', sheet([(fixed(50), fr(500)), (fixed(0), fr(1_000))], [item(0, 1, 0, 0, 100)], inner=None), bases=[50, 100])
    c.add('max-content, base by its factor', sheet([(fixed(90), fr(3_000)), (auto, fr(1_000)), (fixed(0), fr(500))], inner=None), bases=[90, 30, 15])
    c.add('max-content, the largest sizes', sheet([(fixed(65_535), fr(1_000))] + [(fixed(0), fr(100_000))] * 255, inner=None))
    c.add('max-content, no items and no bases', sheet([(auto, fr(1_000))] * 2, inner=None), bases=[0, 0], free=None)
    for minimum in (fixed(12), auto, min_content, max_content):
        for constraint, word in CONSTRAINT_WORDS:
            data = sheet([(minimum, fr(1_000)), (auto, fr(0))], [item(0, 1, 10, 20, 40), item(0, 1, 11, 11, 30), item(1, 1, 4, 5, 6)], constraint, 30)
            c.add(f'the last batch, minimum {minimum[0]}, {word}', data)


def fr_tracks(minimum, *thousandths):
    """A track of that minimum for each factor."""
    return [(minimum, fr(factor)) for factor in thousandths]


def across_fr(c):
    """Items across fr tracks, whose bases stay as the last batch leaves them: an inner size of 0 lets nothing grow behind it."""
    c.group = 'across fr'

    def shown(name, tracks, items, bases, constraint=definite(100), **more):
        c.add(name, sheet(tracks, items, constraint, 0), bases=bases, **more)

    def across(name, thousandths, dots, bases):
        shown(f'{name}, {dots} dots', fr_tracks(auto, *thousandths), [item(0, len(thousandths), dots, dots, dots)], bases, limits=bases)

    # what an item gives to auto tracks of these factors
    across('1fr twice', (1_000, 1_000), 30, [15, 15])
    across('1fr twice', (1_000, 1_000), 31, [16, 15])
    across('1fr twice', (1_000, 1_000), 0, [0, 0])
    across('1fr and 2fr', (1_000, 2_000), 30, [10, 20])
    across('1fr and 2fr', (1_000, 2_000), 31, [11, 20])
    across('1fr and 2fr', (1_000, 2_000), 32, [11, 21])
    across('2fr and 1fr', (2_000, 1_000), 31, [21, 10])
    across('1fr three times', (1_000,) * 3, 32, [11, 11, 10])
    across('0.25fr and 1.5fr', (250, 1_500), 70, [10, 60])
    across('0.25fr and 1.5fr', (250, 1_500), 71, [11, 60])
    across('0.25fr, 1.5fr and 0.25fr', (250, 1_500, 250), 80, [10, 60, 10])
    across('0.25fr twice', (250, 250), 30, [15, 15])
    across('1 in thousandths twice', (1, 1), 7, [4, 3])
    across('0.333fr and 0.667fr', (333, 667), 100, [34, 66])
    across('0fr and 1fr', (0, 1_000), 30, [0, 30])
    across('1fr and 0fr', (1_000, 0), 30, [30, 0])
    across('1fr, 0fr and 1fr', (1_000, 0, 1_000), 31, [16, 0, 15])
    across('the odd dot passes 0fr by', (0, 1_000, 1_000), 31, [0, 16, 15])
    across('0fr twice and 1fr', (0, 0, 1_000), 1, [0, 0, 1])
    across('0fr twice', (0, 0), 31, [16, 15])
    across('0fr three times', (0, 0, 0), 32, [11, 11, 10])
    across('0fr three times', (0, 0, 0), 2, [1, 1, 0])
    across('fewer dots than tracks, 1fr three times', (1_000,) * 3, 2, [1, 1, 0])
    across('fewer dots than tracks, 5fr in front', (5_000, 1_000, 1_000), 2, [2, 0, 0])
    across('fewer dots than tracks, 5fr behind', (1_000, 1_000, 5_000), 2, [1, 0, 1])
    across('fewer dots than tracks, 0fr between', (0, 1_000, 0, 1_000, 1_000), 2, [0, 1, 0, 1, 0])
    across('one dot', (1_000, 99_000), 1, [1, 0])
    # numbers whose products pass 32 bits
    across('the most dots, the largest factors', (99_999, 100_000, 1), 65_535, [32_768, 32_767, 0])
    across('the most dots, 256 tracks of the largest factor', (100_000,) * 256, 65_535, [256] * 255 + [255])
    across('the most dots, the last of 256 tracks with the least factor', (100_000,) * 255 + (1,), 65_535, [257] * 255 + [0])
    across('the most dots, 256 tracks of 0fr', (0,) * 256, 65_535, [256] * 255 + [255])
    across('the most dots, one factor of 256', (0,) * 200 + (100_000,) + (0,) * 55, 65_535, [0] * 200 + [65_535] + [0] * 55)
    across('the most dots on one track', (100_000,), 65_535, [65_535])

    # beside tracks that are not raised
    fares = fr_tracks(auto, 1_000, 1_000)
    thirty = [item(0, 3, 30, 30, 30)]
    shown('beside a gutter', [(fixed(10), fixed(10))] + fares, thirty, [10, 10, 10])
    shown('around a gutter', [fares[0], (fixed(10), fixed(10)), fares[1]], thirty, [10, 10, 10])
    shown('gutters as wide as the item', [(fixed(30), fixed(30))] + fares, thirty, [30, 0, 0])
    shown('gutters wider than the item', [(fixed(31), fixed(31))] + fares, thirty, [31, 0, 0])
    for word, beside in (('auto', (auto, auto)), ('min-content', (min_content, min_content)), ('max-content', (max_content, max_content)),
                         ('fit-content', (auto, fit(40))), ('auto to fixed', (auto, fixed(0)))):
        own = [item(0, 1, 10, 10, 10)]
        shown(f'beside {word}', [beside] + fares, thirty, [0, 15, 15], limits=[0, 15, 15])
        shown(f'beside {word} with its own', [beside] + fares, own + thirty, [10, 10, 10], limits=[10, 10, 10])
        shown(f'beside {word} with its own, more wanted later', [beside] + fares, own + [item(0, 3, 30, 50, 90)], [10, 10, 10], limits=[10, 10, 10])
    shown('(e) and (f) would have raised a limit', [(auto, auto), (auto, fr(1_000))], [item(0, 2, 10, 30, 60)], [0, 10], limits=[0, 10])
    shown('(e) and (f) would have raised limits', [(auto, max_content), (auto, fit(50)), (auto, fr(0))], [item(0, 3, 10, 70, 90)], [0, 0, 10], limits=[0, 0, 10])
    data = sheet([(auto, auto), (auto, fr(1_000))], [item(0, 2, 10, 30, 60)], inner=100, stretch=1)
    c.add('(e) and (f) would have raised a limit, the rest to fr', data, bases=[0, 100], limits=[0, 10], free=0)

    # minima of fr tracks
    shown('a fixed minimum takes nothing', [(fixed(5), fr(1_000)), (auto, fr(1_000))], [item(0, 2, 30, 30, 30)], [5, 25])
    shown('a fixed minimum, its factor left out of the sum', [(fixed(0), fr(9_000)), (auto, fr(1_000)), (auto, fr(2_000))], thirty, [0, 10, 20])
    shown('a fixed minimum beside 0fr', [(fixed(6), fr(9_000)), (auto, fr(0)), (auto, fr(0))], [item(0, 3, 31, 31, 31)], [6, 13, 12])
    shown('fixed minima alone', [(fixed(5), fr(1_000)), (fixed(6), fr(1_000))], [item(0, 2, 30, 30, 30)], [5, 6])
    shown('fixed minima that hold the item', [(fixed(20), fr(1_000)), (auto, fr(1_000))], [item(0, 2, 20, 20, 20)], [20, 0])
    three = [(auto, fr(1_000)), (min_content, fr(1_000)), (max_content, fr(1_000))]
    rising = [item(0, 3, 30, 60, 90)]
    shown('each minimum, definite', three, rising, [10, 25, 55], limits=[10, 25, 55])
    shown('each minimum, min-content', three, rising, [20, 20, 50], under_min, limits=[20, 20, 50])
    shown('each minimum, max-content', three, rising, [35, 20, 35], under_max, limits=[35, 20, 35])
    unlike = [(auto, fr(1_000)), (min_content, fr(2_000)), (max_content, fr(3_000))]
    shown('each minimum and factor, definite', unlike, rising, [5, 22, 63])
    shown('each minimum and factor, max-content', unlike, rising, [18, 20, 52], under_max)
    zeros = [(auto, fr(1_000)), (min_content, fr(0)), (max_content, fr(0))]
    shown('factors all 0 in (b) alone', zeros, [item(0, 3, 30, 61, 61)], [30, 16, 15])
    shown('a limited contribution is not cut by the fixed', [(auto, fixed(3)), (auto, fr(1_000))], [item(0, 2, 10, 30, 60)], [0, 30], under_min)
    shown('a limited max-content one neither', [(auto, fixed(3)), (auto, fr(1_000))], [item(0, 2, 10, 30, 60)], [3, 60], under_max)

    # one batch of all spans
    tracks = fr_tracks(auto, 1_000, 1_000, 1_000)
    spans = [item(0, 1, 10, 10, 10), item(0, 2, 30, 30, 30), item(0, 3, 60, 60, 60)]
    shown('spans of 1, 2 and 3 at once', tracks, spans, [20, 20, 20])
    shown('spans of 3, 2 and 1 at once', tracks, spans[::-1], [20, 20, 20])
    shown('the short span asks for most', tracks, [item(2, 1, 40, 40, 40), item(0, 3, 60, 60, 60)], [20, 20, 40])
    shown('each track by another item', tracks, [item(0, 2, 50, 50, 50), item(1, 2, 70, 70, 70)], [25, 35, 35])
    shown('each track by another item, unequal', fr_tracks(auto, 1_000, 2_000, 500), [item(0, 2, 60, 60, 60), item(1, 2, 55, 55, 55)], [20, 44, 11])
    shown('the larger odd dots of two items', tracks, [item(0, 2, 31, 31, 31), item(1, 2, 31, 31, 31)], [16, 16, 15])
    shown('an item across fr behind a longer one that is not', [(auto, auto)] * 3 + fares[:1], [item(2, 2, 30, 30, 30), item(0, 3, 30, 30, 30)], [10, 10, 10, 20])
    shown('items in one fr track keep what they got', [(auto, fr(0)), (auto, fr(3_000))], [item(0, 1, 12, 20, 30), item(1, 1, 7, 8, 9)], [12, 7])


def flexible_across(c):
    """What items across fr tracks ask of an fr under max-content, where no inner size is given."""
    c.group = 'fr across'

    def shown(name, tracks, items, bases, constraint=definite(100)):
        c.add(name, sheet(tracks, items, constraint, None), bases=bases, free=None)

    def open_fr(*thousandths):
        return fr_tracks(fixed(0), *thousandths)

    def asks(name, tracks, dots, bases):
        for constraint, word in CONSTRAINT_WORDS[::2]:
            shown(f'{name}, {word}', tracks, [item(0, len(tracks), 0, 0, dots)], bases, constraint)

    gutter = (fixed(10), fixed(10))
    asks('1fr and 2fr', open_fr(1_000, 2_000), 90, [30, 60])
    asks('1fr and 2fr, rounded down', open_fr(1_000, 2_000), 100, [33, 66])
    asks('around a gutter', [*open_fr(1_000), gutter, *open_fr(2_000)], 100, [30, 10, 60])
    asks('a sum below 1', open_fr(250, 500), 100, [25, 50])
    asks('0fr and 1fr', open_fr(0, 1_000), 40, [0, 40])
    asks('0fr twice', open_fr(0, 0), 40, [0, 0])
    asks('a gutter wider than the item', [(fixed(50), fixed(50)), *open_fr(1_000)], 30, [50, 0])
    asks('a track held, its base decides', [(fixed(60), fr(1_000)), *open_fr(1_000)], 100, [60, 60])
    asks('a track held, the item decides', [(fixed(60), fr(500)), *open_fr(2_000)], 250, [60, 190])
    asks('two held one after another', [(fixed(60), fr(500)), (fixed(49), fr(500)), *open_fr(2_000)], 300, [60, 49, 191])
    asks('no track held', [(fixed(60), fr(3_000)), *open_fr(1_000)], 100, [75, 25])
    asks('a base in its own factor', [(fixed(60), fr(2_000)), *open_fr(1_000)], 80, [60, 30])
    asks('the most dots, 256 tracks of the largest factor', open_fr(*(100_000,) * 256), 65_535, [255] * 256)
    asks('the most dots, the largest factor and the least', open_fr(100_000, 1), 65_535, [65_534, 0])
    own = [item(0, 1, 10, 10, 40), item(0, 2, 0, 0, 100)]
    beside = [(auto, auto), *open_fr(1_000)]
    shown('an auto track at its limit', beside, own, [40, 60])
    shown('an auto track below its limit', beside, own, [30, 70], definite(30))
    shown('an auto track, max-content', beside, own, [40, 60], under_max)
    shown('nothing grows under min-content', beside, own, [10, 0], under_min)
    shown('the wider of two items', open_fr(1_000, 1_000, 1_000), [item(0, 2, 0, 0, 60), item(1, 2, 0, 0, 90)], [45, 45, 45])
    shown('an item on one track above those across', open_fr(1_000, 1_000, 1_000), [item(0, 2, 0, 0, 60), item(2, 1, 0, 0, 50)], [50, 50, 50])
    shown('an item across above one on one track', open_fr(1_000, 1_000, 1_000), [item(0, 3, 0, 0, 180), item(2, 1, 0, 0, 50)], [60, 60, 60])
    shown('the factors outside the item do not count', open_fr(1_000, 1_000, 7_000), [item(0, 2, 0, 0, 60)], [30, 30, 210])
    shown('behind the last batch', fr_tracks(auto, 1_000, 2_000), [item(0, 2, 10, 20, 61)], [20, 40])
    shown('behind the last batch, max-content', fr_tracks(auto, 1_000, 2_000), [item(0, 2, 10, 20, 61)], [21, 42], under_max)
    shown('behind the last batch, min-content', fr_tracks(auto, 1_000, 2_000), [item(0, 2, 10, 20, 61)], [7, 13], under_min)


def across_kinds(c):
    """An item across two fr tracks and one of each other kind, and pairs of factors: under each constraint, with and without inner size."""
    c.group = 'across kinds'
    neighbours = [(auto, auto), (fixed(12), fixed(12)), (auto, fit(35)), (min_content, min_content), (max_content, auto), (fixed(12), fr(700))]
    rows = [item(0, 1, 8, 11, 19), item(2, 1, 6, 9, 40), item(0, 3, 44, 61, 97), item(1, 2, 20, 45, 62)]
    pairs = [(1_000, 1_000), (1_000, 2_000), (250, 1_500), (0, 0), (0, 1_000), (1_000, 0), (333, 667)]
    for constraint, word in CONSTRAINT_WORDS:
        for inner in (None, 0, 150):
            for beside in neighbours:
                name = f'{beside[0][0]} to {beside[1][0]}, {word}, inner {inner}'
                c.add(name, sheet([beside, (auto, fr(1_000)), (min_content, fr(1_500))], rows, constraint, inner, inner == 150))
            for pair in pairs:
                name = f'factors {pair[0]} and {pair[1]}, {word}, inner {inner}'
                c.add(name, sheet(fr_tracks(auto, *pair) + [(fixed(3), fixed(3))], rows[1:], constraint, inner))


def axes(c):
    """Both axes: the block axis opens fr tracks under min-content where no inner size is given, and changes nothing else."""
    c.group = 'axis'
    words = ((INLINE, 'inline'), (BLOCK, 'block'))

    def shown(name, tracks, items, inline, block, constraint=under_min, inner=None, stretch=0, **more):
        for (axis, word), bases in zip(words, (inline, block)):
            c.add(f'{name}, {word}', sheet(tracks, items, constraint, inner, stretch, axis), bases=bases, **more)

    # a row from 0 to 1fr was shut
    one = [item(0, 1, 10, 20, 30)]
    shown('an fr row from 0', [(fixed(0), fr(1_000))], one, [0], [30], limits=[0], free=None, rounds=0)
    shown('an fr row from auto', [(auto, fr(1_000))], one, [20], [30], limits=[20], free=None)
    shown('an fr row from min-content', [(min_content, fr(1_000))], one, [20], [30], limits=[20])
    shown('an fr row from max-content', [(max_content, fr(1_000))], one, [30], [30], limits=[30])
    shown('an fr row without items', [(fixed(0), fr(1_000))], [], [0], [0])
    shown('no row', [], [], [], [], free=None)
    shown('no fr row', [(auto, auto), (min_content, fit(25))], [item(0, 1, 5, 8, 13), item(1, 1, 10, 20, 45)], [8, 20], [8, 20], limits=[13, 25])
    shown('0fr', [(fixed(0), fr(0))], one, [0], [0])
    shown('0.5fr', [(fixed(0), fr(500))], one, [0], [15])
    shown('1fr and 2fr', [(fixed(0), fr(1_000)), (fixed(0), fr(2_000))], one, [0, 0], [30, 60])
    shown('the base of a row decides', [(fixed(90), fr(2_000)), (fixed(0), fr(1_000))], one, [90, 0], [90, 45])
    shown('across two fr rows', [(fixed(0), fr(1_000)), (fixed(0), fr(2_000))], [item(0, 2, 10, 20, 61)], [0, 0], [20, 40])
    shown('across a fixed row and an fr row', [(fixed(4), fixed(4)), (fixed(0), fr(1_000))], [item(0, 2, 10, 20, 61)], [4, 0], [4, 57])

    # steps 2, 3 and 5 read the constraint as given: a row that is not fr stays at its min-content, and does not grow to its limit
    beside = [(auto, auto), (fixed(0), fr(1_000))]
    shown('a row beside stays at min-content', beside, [item(0, 1, 10, 20, 45), item(1, 1, 10, 20, 30)], [20, 0], [20, 30], limits=[45, 0], rounds=0)
    shown('rows beside, (c) has no part', [(auto, auto)] * 2 + beside[1:], [item(0, 2, 10, 30, 60), item(2, 1, 10, 20, 30)], [15, 15, 0], [15, 15, 30], limits=[30, 30, 0])
    shown('a row beside from 0 does not grow', [(fixed(0), fixed(50)), (fixed(0), fr(1_000))], one + [item(1, 1, 10, 20, 30)], [0, 0], [0, 30], limits=[50, 0])
    shown('an auto row from the last batch', [(auto, fr(1_000)), (auto, fr(1_000))], [item(0, 2, 10, 30, 61)], [15, 15], [30, 30], limits=[15, 15])

    # not stretched, since the expansion space is not definite
    shown('stretch is asked', beside, [item(0, 1, 10, 20, 45), item(1, 1, 10, 20, 30)], [20, 0], [20, 30], stretch=1, free=None)

    # an inner size of 0 is given, and not absent
    shown('inner size 0', [(fixed(0), fr(1_000))], one, [0], [0], inner=0, free=0)
    shown('inner size 0, from auto', [(auto, fr(1_000))], one, [20], [20], inner=0, free=-20)
    shown('inner size 50', [(fixed(0), fr(1_000))], one, [50], [50], inner=50, free=0)
    shown('definite without inner size', beside, [item(0, 1, 10, 20, 45), item(1, 1, 10, 20, 30)], [45, 30], [45, 30], definite(100), free=None)
    shown('max-content without inner size', beside, [item(0, 1, 10, 20, 45), item(1, 1, 10, 20, 30)], [45, 30], [45, 30], under_max, free=None)
    shown('W12', [(auto, fixed(0))], [item(0, 1, 30, 30, 30)], [30], [30], definite(100), 100, limits=[30], free=70, rounds=0)

    for value, want in ((0, None), (1, None), (2, (4, AXIS_AT)), (255, (4, AXIS_AT))):
        c.add(f'byte {AXIS_AT} of W12 is {value}', with_bytes(W12, (AXIS_AT, value)), want=want)
        rows = sheet([(fixed(0), fr(1_000))], one, under_min, None)
        c.add(f'byte {AXIS_AT} of an fr row is {value}', with_bytes(rows, (AXIS_AT, value)), want=want)

    # every constraint, with and without inner size, rows of every kind beside fr rows
    rows = [item(0, 1, 8, 11, 19), item(1, 1, 6, 9, 40), item(2, 1, 4, 7, 12), item(0, 2, 20, 45, 62), item(1, 2, 25, 30, 77)]
    neighbours = [(auto, auto), (fixed(12), fixed(12)), (auto, fit(35)), (min_content, min_content), (max_content, max_content), (fixed(12), fr(700))]
    for constraint, word in CONSTRAINT_WORDS:
        for inner in (None, 0, 150):
            for other in neighbours:
                for axis, along in words:
                    name = f'{other[0][0]} to {other[1][0]}, {word}, inner {inner}, {along}'
                    c.add(name, sheet([other, (auto, fr(1_000)), (fixed(0), fr(1_500))], rows, constraint, inner, inner == 150, axis))


def without_axis(c):
    """Sheets whose space ends with the stretch byte, as it once did: the table refuses them like any other bytes."""
    c.group = 'no axis byte'

    def earlier(data):
        return data[:AXIS_AT] + data[TRACKS_AT:]

    c.add('W12', earlier(W12), want=(3, 14))
    c.add('no tracks and no items', earlier(sheet([])), want=(1, 17))
    c.add('1 track of fixed minimum', earlier(sheet([(fixed(7), auto)])), places=300, want=(4, 16))
    c.add('2 tracks', earlier(sheet(AUTOS)), want=(4, 13))
    c.add('256 tracks', earlier(sheet([(auto, auto)] * 256)), places=256, want=(3, 14))
    for name in ('tariff', 'tariff_narrow', 'day_pass', 'rows'):
        c.add(f'the example {name}', earlier(examples()[name]), want=(4, 13))


def overfull(c):
    c.group = 'overfull'
    c.add('one fixed track', sheet([(fixed(150), fixed(150))]), bases=[150], free=-50, rounds=0)
    c.add('by one dot', sheet([(fixed(101), auto)]), free=-1)
    c.add('by none', sheet([(fixed(100), auto)], stretch=1), free=0)
    c.add('one dot free', sheet([(fixed(99), auto)], stretch=1), bases=[100], free=0)
    c.add('fr tracks stay at their bases', sheet([(fixed(80), fr(1_000)), (fixed(30), fr(1_000))]), bases=[80, 30], free=-10)
    c.add('nothing to stretch with', sheet([(fixed(80), auto), (fixed(30), auto)], stretch=1), free=-10)
    c.add('inner size 0', sheet([(auto, auto)], [item(0, 1, 5, 6, 7)], inner=0), bases=[7], free=-7)
    c.add('definite space 0', sheet([(auto, auto)], [item(0, 1, 5, 6, 7)], definite(0)), bases=[5], free=95)
    c.add('inner size far below the space', sheet([(auto, auto)] * 3, [item(t, 1, 5, 6, 70) for t in range(3)], definite(1_000), 20), free=-190)
    c.add('256 tracks of the most', sheet([(fixed(65_535), fixed(65_535))] * 256, inner=0), free=-256 * 65_535)
    for tracks in (255, 256):
        data = sheet([(fixed(65_535), fixed(65_535))] * tracks, constraint=definite(SPACE_LIMIT), inner=SPACE_LIMIT)
        c.add(f'{tracks} tracks of the most, the most space', data, free=SPACE_LIMIT - tracks * 65_535)
    for inner in (0, 59, 60, 61):
        for stretch in (0, 1):
            data = sheet([(auto, auto), (fixed(20), fr(1_000))], [item(0, 1, 40, 40, 40)], definite(60), inner, stretch)
            c.add(f'inner size {inner} about the sum, stretch {stretch}', data)


def many(c):
    """Many tracks, many items, long spans."""
    c.group = 'many'
    for tracks in (255, 256):
        c.add(f'{tracks} auto tracks, one item across', sheet([(auto, auto)] * tracks, [item(0, tracks, 700, 1_000, 2_000)], definite(1_500), 1_500))
        c.add(f'{tracks} fixed tracks', sheet([(fixed(1), fixed(9))] * tracks, constraint=definite(1_000), inner=2_000))
        c.add(f'{tracks} tracks, an item on the last', sheet([(auto, auto)] * tracks, [item(tracks - 1, 1, 7, 8, 9)], under_max, 2_000, 1))
    c.add('1,024 items alike', sheet(AUTOS, [item(0, 2, 10, 20, 31)] * 1_024))
    c.add('1,023 items alike, one wider', sheet(AUTOS, [item(0, 1, 10, 20, 31)] * 1_023 + [item(0, 2, 70, 80, 90)]))
    c.add('the longest sheet', sheet([(auto, auto)] * 256, [item(0, 256, 100, 200, 3_000)] * 1_024, definite(5_000), 5_000))
    gutter = (fixed(2), fixed(2))
    tracks = [(auto, auto), gutter, (min_content, auto), gutter, (auto, max_content), gutter, (auto, fit(40))]
    items = [item(0, 1, 10, 12, 30), item(2, 1, 4, 9, 9), item(0, 3, 30, 31, 70), item(2, 3, 25, 40, 80)]
    items += [item(4, 3, 30, 60, 100), item(0, 5, 40, 90, 150), item(0, 7, 100, 150, 300)]
    for constraint, word in CONSTRAINT_WORDS:
        for order in (1, -1):
            c.add(f'several spans, {word}, order {order}', sheet(tracks, items[::order], constraint, 260))
    c.add('several spans, each span twice', sheet(tracks, items + [item(i.start, i.span, *(n + 3 for _, n in i.row)) for i in items], definite(300), 300, 1))


def random_tracks(r, count, with_fr):
    """Tracks of any kind; fr stands so often beside the six other maxima that one is drawn from."""

    def number():
        return r.choice((0, 1, 3, 5, 8, 13, 20, 34, 55))

    def one():
        minimum = r.choice((fixed(number()), auto, auto, min_content, max_content))
        maxima = [fixed(number()), auto, auto, min_content, max_content, fit(number())]
        return minimum, r.choice(maxima + [fr(r.choice((0, 0, 250, 300, 500, 1_000, 1_000, 1_500, 2_000, 7_000)))] * with_fr)

    return [one() for _ in range(count)]


def random_items(r, tracks, count):
    found = []
    for _ in range(count):
        start = r.randrange(len(tracks))
        span = r.choice((1, 1, 1, 2, 2, 3, 4, 5))
        span = min(span, len(tracks) - start)
        row = sorted(r.choice((0, 1, 4, 7, 10, 16, 25, 33, 48, 70, 99)) for _ in range(3))
        found.append(item(start, span, *row))
    return found


def random_boards(c):
    c.group = 'random'
    r = random.Random(20_001)
    for k in range(360):
        tracks = random_tracks(r, r.choice((1, 2, 2, 3, 3, 3, 4, 4, 5, 6)), (2, 0, 0)[k % 3])
        items = random_items(r, tracks, r.choice((0, 1, 2, 3, 4, 5, 6)))
        constraint = r.choice((definite(r.randrange(0, 200)), definite(100), under_min, under_max))
        inner = r.choice((None, 100, r.randrange(0, 250)))
        c.add(f'{k}', sheet(tracks, items, constraint, inner, r.randrange(2), r.randrange(2)), places=len(tracks) + r.choice((0, 0, 1, 3)))
    for k in range(8):
        tracks = random_tracks(r, 20 + 4 * k, (2, 0)[k % 2])
        c.add(f'large {k}', sheet(tracks, random_items(r, tracks, 12 + 3 * k), (definite(700), under_max, under_min)[k % 3], (800, None)[k % 2], k % 2, k // 2 % 2))


def random_fr(c):
    """Most tracks are fr, and most items cross some of them."""
    c.group = 'random fr'
    r = random.Random(20_004)
    for k in range(160):
        tracks = random_tracks(r, r.choice((2, 3, 3, 4, 4, 5, 6, 7)), (6, 12, 40)[k % 3])
        items = random_items(r, tracks, r.choice((1, 2, 2, 3, 4, 5, 6)))
        constraint = (definite(r.randrange(0, 200)), under_min, under_max)[k // 3 % 3]
        inner = r.choice((None, 0, r.randrange(0, 300)))
        c.add(f'{k}', sheet(tracks, items, constraint, inner, r.randrange(2), r.randrange(2)), places=len(tracks) + r.choice((0, 0, 1)))
    for k in range(6):
        tracks = random_tracks(r, 20 + 5 * k, 6)
        c.add(f'large {k}', sheet(tracks, random_items(r, tracks, 12 + 4 * k), (definite(900), under_max, under_min)[k % 3], (None, 1_000)[k % 2], k % 2, k // 2 % 2))


def random_limits(c):
    """Every track has a limit before the longer items come, so that they share in the second share."""
    c.group = 'limited'
    r = random.Random(20_003)
    for k in range(150):
        minima = (auto, auto, min_content, min_content, max_content, fixed(6))
        maxima = (auto, max_content, min_content, fit(r.randrange(60)), fit(r.randrange(60)))
        tracks = [(r.choice(minima), r.choice(maxima)) for _ in range(r.choice((2, 2, 3, 4)))]
        small = [item(t, 1, *sorted(r.randrange(12) for _ in range(3))) for t in range(len(tracks)) if r.randrange(8)]
        long = []
        for _ in range(r.choice((1, 2, 2))):
            start = r.randrange(len(tracks) - 1)
            span = 2 if r.randrange(2) else len(tracks) - start
            long.append(item(start, span, *sorted(r.randrange(160) for _ in range(3))))
        c.add(f'{k}', sheet(tracks, small + long, r.choice((definite(150), under_min, under_max)), r.choice((None, 150)), r.randrange(2)), places=len(tracks))


def random_edits(c):
    """One byte of a small sheet changed."""
    c.group = 'edited'
    r = random.Random(20_002)
    base = sheet([(auto, auto), (min_content, fit(20)), (fixed(4), fr(1_000))], [item(0, 2, 10, 20, 30), item(2, 1, 5, 6, 7)])
    for k in range(100):
        at = r.randrange(len(base))
        value = r.choice((0, 1, 2, 3, 4, 5, 6, 7, 40, 255))
        c.add(f'{k}, byte {at} is {value}', with_bytes(base, (at, value)), places=r.choice((3, 3, 3, 4, 2)))


def examples():
    """The sheets of examples/, by name."""
    gutter = (fixed(4), fixed(4))
    columns = [(auto, auto), gutter, (min_content, max_content), gutter, (fixed(0), fr(1_000)), gutter, (auto, max_content)]
    fares = [
        item(0, 1, 30, 42, 96),
        item(2, 1, 18, 18, 40),
        item(6, 1, 28, 28, 28),
        item(0, 1, 30, 36, 60),
        item(2, 1, 24, 24, 52),
        item(6, 1, 34, 34, 34),
        item(0, 3, 70, 110, 190),
        item(6, 1, 40, 40, 46),
    ]
    days = [(auto, max_content), gutter, (auto, fr(1_000)), gutter, (auto, fr(1_500))]
    passes = [
        item(0, 1, 36, 52, 88),
        item(2, 1, 28, 28, 36),
        item(4, 1, 34, 34, 42),
        item(0, 1, 40, 46, 70),
        item(2, 1, 30, 30, 38),
        item(4, 1, 34, 34, 44),
        item(0, 1, 32, 38, 58),
        item(2, 3, 190, 204, 236),
    ]
    line = (fixed(2), fixed(2))
    rows = [(auto, auto), line, (fixed(0), fr(1_000)), line, (fixed(0), fr(1_000)), line, (fixed(0), fr(2_000)), line, (auto, max_content)]
    heights = [
        item(0, 1, 14, 14, 28),
        item(2, 1, 9, 9, 18),
        item(4, 1, 9, 9, 20),
        item(6, 1, 9, 18, 27),
        item(2, 3, 12, 24, 50),
        item(8, 1, 7, 7, 7),
    ]
    lacking = sheet([(auto, auto)], [item(0, 1, 30, None, 60)])
    return {
        'w12': W12,
        'tariff': sheet(columns, fares, definite(320), 320),
        'tariff_narrow': sheet(columns, fares, definite(150), 150),
        'day_pass': sheet(days, passes, definite(260), 260),
        'rows': sheet(rows, heights, under_min, None, axis=BLOCK),
        'lacking': lacking,
    }


def longest():
    """A sheet with all the tracks and items that are allowed."""
    tracks = [(auto, max_content if t % 2 == 0 else auto) for t in range(MOST_TRACKS)]
    items = []
    for i in range(MOST_ITEMS):
        start, span = i % MOST_TRACKS, 1 + i // MOST_TRACKS
        width = 37 * i % 200
        items.append(item(start, span if start + span <= MOST_TRACKS else 1, width, width + 5, width + 20))
    return sheet(tracks, items, definite(65_535), 65_535)


def write_examples(root):
    def write(path, data):
        with open(os.path.join(root, path), 'wb') as out:
            out.write(data)

    def lines(data):
        told, after, _ = board_of(data, lent_places(MOST_TRACKS))
        return printed(told, after).encode()

    for name, data in examples().items():
        write(f'examples/{name}.sheet', data)
        write(f'examples/{name}.txt', lines(data))

    # The reader's own run: every example, W12 on its standard input too, the longest sheet, and that with a byte more.
    run = dict(examples(), longest=longest(), longest_and_one=longest() + bytes(1))
    assert len(run['longest']) == LONGEST
    words = ['tariff.sheet', 'tariff_narrow.sheet', 'day_pass.sheet', 'rows.sheet', 'lacking.sheet', '-', 'longest.sheet', 'longest_and_one.sheet', '--', 'w12.sheet']
    for name, data in run.items():
        write(f'crates/reader/data/{name}.sheet', data)
    write('crates/reader/stdin', W12)
    write('crates/reader/args', ''.join(f'{word}\n' for word in words).encode())
    write('crates/reader/stdout', b''.join(lines(run['w12' if word == '-' else word[: -len('.sheet')]]) for word in words if word != '--'))


def main():
    if sys.argv[1:] == ['examples']:
        write_examples(os.path.join(os.path.dirname(os.path.abspath(__file__)), '..'))
        return
    c = Cases()
    for group in (
        paper,
        refused_by_bytes,
        refused_by_places,
        refused_by_limits,
        refused_by_spans,
        refused_by_contributions,
        which_refusal,
        kinds,
        kinds_alone,
        letters,
        bases_at_limits,
        fit_content,
        factors,
        across_fr,
        flexible_across,
        across_kinds,
        axes,
        without_axis,
        overfull,
        many,
        random_boards,
        random_fr,
        random_limits,
        random_edits,
    ):
        c.group = ''
        group(c)
    sys.stdout.write(c.text())
    print(c.heading(), file=sys.stderr)


main()
