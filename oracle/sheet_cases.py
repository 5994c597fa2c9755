"""Writes the cases of the sheet to standard output, worked out from the paper alone:

    python3 oracle/sheet_cases.py > crates/sheet_vectors/data/cases.txt

Each sheet is read front to back as the paper tells it. The refusal is then held to a second derivation, which gathers every
fault of the sheet and takes the one that stands first, and an accepted sheet to its own bytes, written by another road. The
same run gives the same bytes.

A case in the file, of reading:

    # NAME
    0
    N bytes           the sheet, in hex
    N rows            the lent rows of tracks, before
    N rows            the lent rows of items, before
    KIND A B          0 TRACKS ITEMS for a sheet, with the space's six numbers in the next line; 1 NUMBER PLACE for a refusal
    N rows            the rows of tracks, after
    N rows            the rows of items, after

of writing:

    # NAME
    1
    T N T N S A       the space: constraint tag and number, inner size tag and number, stretch, axis
    N rows            tracks
    N rows            items
    N bytes           the lent bytes, before
    KIND A B          0 LENGTH 0 for a sheet, 1 NUMBER PLACE for a refusal
    N bytes           the bytes, after

and of the end:

    # NAME
    2
    N bytes           a sheet, with or without bytes behind it
    KIND A B          0 PLACE 0 for an end, 1 NUMBER PLACE for a refusal

A track's row is its minimum tag and number and its maximum tag and number. An item's is start + 65536 * span, then three times
tag and number. 4x before a row or a group of bytes says that it stands there four times.
"""
import sys

from case_text import Front, Refused, runs

MOST_TRACKS, MOST_ITEMS = 256, 1_024
LARGEST = 4_294_967_295
READ, WRITE, END = 0, 1, 2

# What a tag may be, and whether it carries a number.
CONSTRAINT = {1: True, 2: False, 3: False}
GIVEN = {0: False, 1: True}
MINIMUM = {1: True, 2: False, 3: False, 4: False}
MAXIMUM = {1: True, 2: False, 3: False, 4: False, 5: True, 6: True}
STRETCH = (0, 1)
# inline, block
AXIS = (0, 1)


# ---- bytes, front to back


class Reader(Front):
    """The bytes from the front, part by part."""

    def count(self, allowed):
        self.whole(2)
        place = self.at
        count = self.number(2)
        if count not in allowed:
            raise Refused(3, place)
        return count

    def tagged(self, listed):
        place = self.at
        tag = self.number(1)
        if tag not in listed:
            raise Refused(4, place)
        place = self.at
        number = self.number(4)
        if not listed[tag] and number != 0:
            raise Refused(5, place)
        return [tag, number]

    def mark(self, listed):
        place = self.at
        mark = self.number(1)
        if mark not in listed:
            raise Refused(4, place)
        return [mark]

    def space(self):
        self.whole(12)
        return self.tagged(CONSTRAINT) + self.tagged(GIVEN) + self.mark(STRETCH) + self.mark(AXIS)

    def track(self):
        self.whole(10)
        return self.tagged(MINIMUM) + self.tagged(MAXIMUM)

    def item(self):
        self.whole(19)
        start, span = self.number(2), self.number(2)
        return [start + 65_536 * span] + self.tagged(GIVEN) + self.tagged(GIVEN) + self.tagged(GIVEN)


ONE, TRACK_COUNTS, ITEM_COUNTS = range(1, 2), range(MOST_TRACKS + 1), range(MOST_ITEMS + 1)


def sheet_in(data):
    """The space, the tracks and the items, or the refusal, 1 to 5."""
    reader = Reader(data)
    reader.count(ONE)
    space = reader.space()
    tracks = [reader.track() for _ in range(reader.count(TRACK_COUNTS))]
    items = [reader.item() for _ in range(reader.count(ITEM_COUNTS))]
    if reader.at < len(data):
        raise Refused(2, reader.at)
    return space, tracks, items


def end_of(data):
    """Where the sheet at the front ends: its three counts fix it, and nothing else is looked at."""
    reader = Reader(data)
    for allowed, size in ((ONE, 12), (TRACK_COUNTS, 10), (ITEM_COUNTS, 19)):
        count = reader.count(allowed)
        reader.at += size * count
    return reader.at


# ---- bytes of a sheet


def u16(n):
    return bytes([n % 256, n // 256])


def tagged(tag, number):
    return bytes([tag]) + number.to_bytes(4, 'little')


def space_bytes(row):
    return tagged(row[0], row[1]) + tagged(row[2], row[3]) + bytes(row[4:])


def track_bytes(row):
    return tagged(row[0], row[1]) + tagged(row[2], row[3])


def item_bytes(row):
    return u16(row[0] % 65_536) + u16(row[0] // 65_536) + tagged(row[1], row[2]) + tagged(row[3], row[4]) + tagged(row[5], row[6])


def sheet_bytes(space, tracks, items):
    return (
        u16(1) + space_bytes(space)
        + u16(len(tracks)) + b''.join(map(track_bytes, tracks))
        + u16(len(items)) + b''.join(map(item_bytes, items))
    )


def rows_refusal(tracks, items):
    """3 to 5, where the bytes of these rows would show them. A tag over 255 is no byte, and so not a listed one."""

    def look(row, place, tags):
        for listed, tag, number in tags:
            if tag not in listed:
                raise Refused(4, place)
            if not listed[tag] and number != 0:
                raise Refused(5, place + 1)
            place += 5

    place = 2 + 12
    if len(tracks) > MOST_TRACKS:
        raise Refused(3, place)
    place += 2
    for row in tracks:
        look(row, place, ((MINIMUM, row[0], row[1]), (MAXIMUM, row[2], row[3])))
        place += 10
    if len(items) > MOST_ITEMS:
        raise Refused(3, place)
    place += 2
    for row in items:
        look(row, place + 4, ((GIVEN, row[1], row[2]), (GIVEN, row[3], row[4]), (GIVEN, row[5], row[6])))
        place += 19


# ---- the second derivation


def all_faults(data):
    """Every fault of a sheet, each with the byte at which it shows: of what is not wholly there, its first byte."""
    faults = []
    at = 0
    for allowed, tags, skip in ((ONE, (CONSTRAINT, GIVEN), 0), (TRACK_COUNTS, (MINIMUM, MAXIMUM), 0), (ITEM_COUNTS, (GIVEN,) * 3, 4)):
        if at + 2 > len(data):
            return faults + [(at, 1, len(data))]
        count = data[at] + 256 * data[at + 1]
        if count not in allowed:
            return faults + [(at, 3, at)]
        at += 2
        size = skip + 5 * len(tags) + 2 * (allowed is ONE)
        for record in range(at, at + size * count, size):
            if record + size > len(data):
                faults.append((record, 1, len(data)))
                continue
            for k, listed in enumerate(tags):
                place = record + skip + 5 * k
                if data[place] not in listed:
                    faults.append((place, 4, place))
                elif not listed[data[place]] and any(data[place + 1:place + 5]):
                    faults.append((place + 1, 5, place + 1))
            if allowed is ONE:
                faults += [(mark, 4, mark) for mark in (record + 10, record + 11) if data[mark] > 1]
        at += size * count
    if at < len(data):
        faults.append((at, 2, at))
    return faults


def answer(call, *arguments):
    """What a call gives, with the refusal or None."""
    try:
        return call(*arguments), None
    except Refused as refused:
        return None, (refused.number, refused.place)


# ---- text


def listed_rows(rows):
    return ' '.join([str(len(rows))] + runs([' '.join(map(str, row)) for row in rows]))


def groups(data):
    """The bytes of a sheet as groups: counts, records, and in a sheet of few records their parts."""
    found = []
    at = 0
    for parts in ((5, 5, 1, 1), (5, 5), (2, 2, 5, 5, 5)):
        count = int.from_bytes(data[at:at + 2], 'little')
        found.append(data[at:at + 2])
        at += 2
        for _ in range(min(count, 2_000)):
            record = data[at:at + sum(parts)]
            at += sum(parts)
            if count > 8 or not record:
                found.append(record)
                continue
            for part in parts:
                found.append(record[:part])
                record = record[part:]
    found.append(data[at:])
    return [group.hex().upper() for group in found if group]


def listed_sheet(data):
    return ' '.join([str(len(data))] + runs(groups(data)))


def listed_bytes(data, sheet=b''):
    """Lent bytes, of which the first may be a sheet."""
    assert data[:len(sheet)] == sheet
    rest = data[len(sheet):]
    pieces = [rest[at:at + 16].hex().upper() for at in range(0, len(rest), 16)]
    return ' '.join([str(len(data))] + runs(groups(sheet) + pieces))


# ---- what is lent: no zero, and nothing that a sheet would put there


def lent_rows(count, width):
    return [[61 + (k if t == 0 else 10 * min(t, 3) + k) for k in range(width)] for t in range(count)]


def lent_bytes(count, start=0):
    return bytes(161 + (start + k) % 16 for k in range(count))


# ---- a case, with what holds of it


class Cases:
    def __init__(self):
        self.names = set()
        self.lines = []
        self.number = {READ: 0, WRITE: 0, END: 0}
        self.accepted = {}

    def begin(self, call, name):
        name = {READ: 'read', WRITE: 'write', END: 'end'}[call] + ' ' + name
        assert name not in self.names and '\n' not in name, name
        self.names.add(name)
        self.number[call] += 1
        self.lines += ['# ' + name, str(call)]

    def read(self, name, data, tracks=2, items=2, want=None):
        """Reading, with so many rows lent. An accepted sheet is kept, to be written. `want` is a refusal that the case is to show,
        or True for a sheet."""
        self.begin(READ, name)
        sheet, refused = answer(sheet_in, data)
        faults = all_faults(data)
        assert refused == (min(faults)[1:] if faults else None), name
        if sheet:
            assert sheet_bytes(*sheet) == data, name
            assert answer(rows_refusal, *sheet[1:])[1] is None and end_of(data) == len(data), name
            self.accepted.setdefault(data, name)
            if tracks < len(sheet[1]) or items < len(sheet[2]):
                refused = (6, 0)
        assert want is None or want == (refused or True), (name, refused)
        track_rows, item_rows = lent_rows(tracks, 4), lent_rows(items, 7)
        self.lines += [listed_sheet(data), listed_rows(track_rows), listed_rows(item_rows)]
        if refused:
            self.lines.append(f'1 {refused[0]} {refused[1]}')
        else:
            space, *read = sheet
            self.lines += [f'0 {len(read[0])} {len(read[1])}', ' '.join(map(str, space))]
            track_rows[:len(read[0])], item_rows[:len(read[1])] = read
        self.lines += [listed_rows(track_rows), listed_rows(item_rows)]

    def write(self, name, space, tracks, items, lent, want=None):
        self.begin(WRITE, name)
        data = b''
        _, refused = answer(rows_refusal, tracks, items)
        if not refused:
            data = sheet_bytes(space, tracks, items)
            assert answer(sheet_in, data)[0] == (space, tracks, items), name
            if lent < len(data):
                refused, data = (6, 0), b''
        elif all(row[0] < 256 and row[2] < 256 for row in tracks) and all(max(row[1::2]) < 256 for row in items):
            faults = all_faults(sheet_bytes(space, tracks, items))
            assert refused == min(faults)[1:], name
        assert want is None or want == (refused or True), (name, refused)
        before = lent_bytes(lent)
        self.lines += [' '.join(map(str, space)), listed_rows(tracks), listed_rows(items), listed_bytes(before)]
        self.lines.append(f'1 {refused[0]} {refused[1]}' if refused else f'0 {len(data)} 0')
        self.lines.append(listed_bytes(data + before[len(data):], data))

    def end(self, name, data, want=None):
        self.begin(END, name)
        place, refused = answer(end_of, data)
        sheet, first = answer(sheet_in, data)
        assert sheet is None or place == len(data), name
        assert first is None or first[0] != 2 or first[1] == place, name
        assert want is None or want == (refused or place), (name, refused, place)
        self.lines.append(listed_sheet(data))
        self.lines.append(f'1 {refused[0]} {refused[1]}' if refused else f'0 {place} 0')


# ---- the cases

SPACE = [1, 100, 1, 100, 0, 0]
TRACK = [2, 0, 1, 0]
ITEM = [65_536, 1, 30, 1, 30, 1, 30]
W12 = bytes.fromhex(
    '0100 0164000000 0164000000 00 00 0100 0200000000 0100000000 0100 0000 0100 011E000000 011E000000 011E000000'
)
# Where the counts of its tracks and of its items stand, and where it ends: places behind the space are told from these.
TRACKS_AT = 2 + 12
ITEMS_AT = TRACKS_AT + 2 + 10
W12_END = ITEMS_AT + 2 + 19
VALUES = (0, 1, 2, 3, 4, 5, 6, 7, 255)


def track(minimum, maximum):
    return [*minimum, *maximum]


def item(*contributions, start=0, span=1):
    return [start + 65_536 * span] + [n for c in contributions for n in c]


def with_byte(data, at, value):
    return data[:at] + bytes([value]) + data[at + 1:]


def paper(c):
    assert W12_END == 47 and sheet_bytes(SPACE, [TRACK], [ITEM]) == W12
    c.read('W12', W12, want=True)
    c.end('W12', W12, want=W12_END)


def truncations(c):
    for length in range(W12_END):
        c.read(f'W12 cut to {length} bytes', W12[:length], want=(1, length))
    for length in (0, 1, 12, ITEMS_AT + 20):
        c.read(f'W12 cut to {length} bytes, no rows lent', W12[:length], 0, 0, want=(1, length))


def byte_edits(c):
    """Each byte of W12 changed. The file has those of VALUES; every other value is held to the second derivation too."""
    for at in range(W12_END):
        for value in VALUES:
            c.read(f'W12, byte {at} is {value}', with_byte(W12, at, value))
        for value in set(range(256)) - set(VALUES):
            data = with_byte(W12, at, value)
            faults = all_faults(data)
            assert answer(sheet_in, data)[1] == (min(faults)[1:] if faults else None), (at, value)


def rows_lent(c):
    for tracks, items in ((0, 0), (0, 1), (1, 0), (0, 3), (3, 0)):
        c.read(f'W12 into {tracks} and {items} rows', W12, tracks, items, want=(6, 0))
    for tracks, items in ((1, 1), (1, 2), (2, 1), (5, 4)):
        c.read(f'W12 into {tracks} and {items} rows', W12, tracks, items, want=True)
    for tracks, items in ((0, 0), (0, 1), (1, 0), (3, 3)):
        c.read(f'no tracks and no items into {tracks} and {items} rows', sheet_bytes(SPACE, [], []), tracks, items, want=True)
    several = sheet_bytes(SPACE, [TRACK] * 3, [ITEM] * 4)
    for tracks, items, want in ((3, 4, True), (4, 5, True), (2, 4, (6, 0)), (3, 3, (6, 0)), (2, 3, (6, 0))):
        c.read(f'3 tracks and 4 items into {tracks} and {items} rows', several, tracks, items, want=want)


def counts(c):
    none = sheet_bytes(SPACE, [], [])
    c.read('no tracks and no items', none, want=True)
    c.read('no tracks, 1 item', sheet_bytes(SPACE, [], [ITEM]), want=True)
    c.read('1 track, no items', sheet_bytes(SPACE, [TRACK], []), want=True)
    for count in (0, 2, 3, 256, 257, 65_535):
        c.read(f'space count {count}', u16(count) + W12[2:], want=(3, 0))
    c.read('space count 0 and no space', u16(0) + none[TRACKS_AT:], want=(3, 0))
    for tracks in (255, 256, 257):
        many = [track((1, t), (1, t + 300)) if t in (0, tracks - 1) else TRACK for t in range(tracks)]
        for items in (0, 1):
            data = sheet_bytes(SPACE, many, [ITEM] * items)
            if tracks > MOST_TRACKS:
                c.read(f'{tracks} tracks, {items} items', data, want=(3, TRACKS_AT))
                c.read(f'{tracks} tracks, {items} items, rows for all', data, tracks, items, want=(3, TRACKS_AT))
                continue
            c.read(f'{tracks} tracks, {items} items, just enough rows', data, tracks, items, want=True)
            c.read(f'{tracks} tracks, {items} items, more rows', data, tracks + 2, items + 1, want=True)
            c.read(f'{tracks} tracks, {items} items, a track row too few', data, tracks - 1, items, want=(6, 0))
    for items in (1_023, 1_024, 1_025):
        many = [item((1, i), (1, i + 1), (0, 0), start=i) if i in (0, items - 1) else ITEM for i in range(items)]
        for tracks in (0, 2):
            data = sheet_bytes(SPACE, [TRACK] * tracks, many)
            if items > MOST_ITEMS:
                c.read(f'{items} items, {tracks} tracks', data, want=(3, TRACKS_AT + 2 + 10 * tracks))
                c.read(f'{items} items, {tracks} tracks, rows for all', data, tracks, items, want=(3, TRACKS_AT + 2 + 10 * tracks))
                continue
            c.read(f'{items} items, {tracks} tracks, just enough rows', data, tracks, items, want=True)
            c.read(f'{items} items, {tracks} tracks, more rows', data, tracks + 1, items + 2, want=True)
            c.read(f'{items} items, {tracks} tracks, an item row too few', data, tracks, items - 1, want=(6, 0))
    most = sheet_bytes(SPACE, [TRACK] * 256, [ITEM] * 1_024)
    c.read('the most tracks and items', most, 256, 1_024, want=True)
    c.read('the most tracks and items, one byte short', most[:-1], 256, 1_024, want=(1, len(most) - 1))
    c.read('the most tracks and items, one byte over', most + b'\0', 256, 1_024, want=(2, len(most)))
    c.read('the most tracks and items, the last tag not listed', with_byte(most, len(most) - 5, 2), want=(4, len(most) - 5))
    c.read('the most tracks and items, the last track stray', with_byte(most, TRACKS_AT + 2 + 255 * 10 + 4, 1), want=(5, TRACKS_AT + 2 + 255 * 10 + 1))
    for count in (258, 512, 65_535):
        c.read(f'a track count of {count}', W12[:TRACKS_AT] + u16(count) + W12[TRACKS_AT + 2:], want=(3, TRACKS_AT))
    for count in (1_026, 2_048, 65_535):
        c.read(f'an item count of {count}', W12[:ITEMS_AT] + u16(count) + W12[ITEMS_AT + 2:], want=(3, ITEMS_AT))
    c.read('a track more than there is', W12[:TRACKS_AT] + u16(2) + W12[TRACKS_AT + 2:])
    c.read('an item more than there is', W12[:ITEMS_AT] + u16(2) + W12[ITEMS_AT + 2:], want=(1, W12_END))
    c.read('an item fewer than there is', W12[:ITEMS_AT] + u16(0) + W12[ITEMS_AT + 2:], want=(2, ITEMS_AT + 2))


def stray_numbers(c):
    """A number beside each tag that carries none, in each of its bytes."""
    for name, sheet, place in bare_tags():
        c.read(f'{name}, with zero', sheet, want=True)
        for k in range(4):
            c.read(f'{name}, with {256 ** k}', with_byte(sheet, place + k, 1), want=(5, place))
        c.read(f'{name}, with {LARGEST}', sheet[:place] + b'\xff' * 4 + sheet[place + 4:], want=(5, place))


def bare_tags():
    """A sheet for each tag that carries no number, with the place of the number."""
    for tag in (2, 3):
        yield f'constraint {tag}', sheet_bytes([tag, 0, 1, 100, 1, 1], [TRACK], [ITEM]), 3
    yield 'inner size 0', sheet_bytes([1, 100, 0, 0, 1, 0], [TRACK], [ITEM]), 8
    for tag in (2, 3, 4):
        yield f'minimum {tag}', sheet_bytes(SPACE, [track((tag, 0), (1, 7))], [ITEM]), TRACKS_AT + 3
    for tag in (2, 3, 4):
        yield f'maximum {tag}', sheet_bytes(SPACE, [TRACK, track((1, 7), (tag, 0))], [ITEM]), TRACKS_AT + 18
    for k, word in enumerate(('minimum', 'min-content', 'max-content')):
        three = [(1, 30)] * 3
        three[k] = (0, 0)
        yield f'{word} contribution 0', sheet_bytes(SPACE, [TRACK], [item(*three)]), ITEMS_AT + 7 + 5 * k


def bytes_over(c):
    none = sheet_bytes(SPACE, [], [])
    for name, sheet in (('W12', W12), ('no tracks and no items', none)):
        for over, word in ((b'\0', 'a zero'), (b'\xff', '255'), (b'\1\0', 'two bytes'), (W12, 'W12')):
            c.read(f'{name}, then {word}', sheet + over, want=(2, len(sheet)))


def kinds(c):
    """Every tag that is listed, with the smallest and the largest number where it carries one: the format does not limit it."""
    for number in (0, 1, 65_536, LARGEST):
        for constraint in (1, 2, 3):
            for inner in (0, 1):
                for stretch in STRETCH:
                    for axis in AXIS:
                        space = [constraint, number * CONSTRAINT[constraint], inner, number * GIVEN[inner], stretch, axis]
                        if CONSTRAINT[constraint] or GIVEN[inner] or number == 0:
                            c.read(f'space {" ".join(map(str, space))}', sheet_bytes(space, [TRACK], [ITEM]), want=True)
        tracks = [track((a, number * MINIMUM[a]), (b, number * MAXIMUM[b])) for a in MINIMUM for b in MAXIMUM]
        c.read(f'every pair of track kinds, with {number}', sheet_bytes(SPACE, tracks, [ITEM]), 24, 1, want=True)
        three = [(number * GIVEN[a], number * GIVEN[b], number * GIVEN[d], a, b, d) for a in (0, 1) for b in (0, 1) for d in (0, 1)]
        items = [item((a, x), (b, y), (d, z)) for x, y, z, a, b, d in three]
        c.read(f'every row of contributions, with {number}', sheet_bytes(SPACE, [TRACK], items), 1, 8, want=True)
    for kind, word in (((1, LARGEST), 'fixed'), ((5, LARGEST), 'fit-content'), ((6, LARGEST), 'fr')):
        c.read(f'maximum {word} of {LARGEST}', sheet_bytes(SPACE, [track((2, 0), kind)], []), want=True)
    c.read(f'minimum fixed of {LARGEST}', sheet_bytes(SPACE, [track((1, LARGEST), (2, 0))], []), want=True)
    for start, span in ((0, 0), (0, 65_535), (65_535, 0), (65_535, 65_535), (258, 772)):
        c.read(f'start {start}, span {span}', sheet_bytes(SPACE, [TRACK], [item((0, 0), (1, 1), (1, 2), start=start, span=span)]), want=True)
    tracks = [track((1, 0x04030201), (5, 0x08070605)), track((3, 0), (6, 0x0C0B0A09))]
    items = [item((1, 0x14131211), (0, 0), (1, 0x18171615), start=0x1A19, span=0x1C1B)]
    c.read('every byte of a number another', sheet_bytes([1, 0x24232221, 1, 0x28272625, 1, 0], tracks, items), want=True)


def tags_not_listed(c):
    for at, word, listed in (
        (2, 'constraint', CONSTRAINT),
        (7, 'inner size', GIVEN),
        (12, 'stretch', STRETCH),
        (13, 'axis', AXIS),
        (TRACKS_AT + 2, 'minimum', MINIMUM),
        (TRACKS_AT + 7, 'maximum', MAXIMUM),
        (ITEMS_AT + 6, 'minimum contribution', GIVEN),
        (ITEMS_AT + 11, 'min-content contribution', GIVEN),
        (ITEMS_AT + 16, 'max-content contribution', GIVEN),
    ):
        for tag in (8, 16, 127, 128, 254):
            c.read(f'{word} tag {tag}', with_byte(W12, at, tag), want=(4, at))
    several = sheet_bytes(SPACE, [TRACK] * 3, [ITEM] * 3)
    for at in (TRACKS_AT + behind for behind in (12, 17, 22, 27, 38, 43, 48, 57, 62, 67, 76, 81, 86)):
        c.read(f'3 tracks and 3 items, byte {at} is 9', with_byte(several, at, 9), want=(4, at))


def which_fault(c):
    """The first byte at fault decides, and 1 comes before a look inside."""

    def edited(*edits, data=W12):
        for at, value in edits:
            data = with_byte(data, at, value)
        return data

    c.read('3 of the space before its tag', edited((0, 2), (2, 9)), want=(3, 0))
    c.read('constraint tag before inner size tag', edited((2, 9), (7, 9)), want=(4, 2))
    c.read('constraint tag before its number', edited((2, 0)), want=(4, 2))
    c.read('stray constraint number before inner size tag', edited((2, 2), (7, 9)), want=(5, 3))
    c.read('inner size tag before the stretch byte', edited((7, 9), (12, 9)), want=(4, 7))
    c.read('stray inner size before the stretch byte', edited((7, 0), (12, 2)), want=(5, 8))
    c.read('stretch byte before the axis byte', edited((12, 2), (13, 2)), want=(4, 12))
    c.read('inner size tag before the axis byte', edited((7, 9), (13, 255)), want=(4, 7))
    c.read('stray inner size before the axis byte', edited((7, 0), (13, 2)), want=(5, 8))
    c.read('axis byte before the track count', edited((13, 2), (TRACKS_AT + 1, 255)), want=(4, 13))
    c.read('axis byte before a track', edited((13, 255), (TRACKS_AT + 2, 9)), want=(4, 13))
    c.read('track count before a track', edited((TRACKS_AT + 1, 255), (TRACKS_AT + 2, 9)), want=(3, TRACKS_AT))
    c.read('minimum tag before its number', edited((TRACKS_AT + 2, 0), (TRACKS_AT + 3, 1)), want=(4, TRACKS_AT + 2))
    c.read('stray minimum before maximum tag', edited((TRACKS_AT + 6, 1), (TRACKS_AT + 7, 9)), want=(5, TRACKS_AT + 3))
    c.read('maximum tag before the item count', edited((TRACKS_AT + 7, 0), (ITEMS_AT + 1, 255)), want=(4, TRACKS_AT + 7))
    c.read('stray maximum before the item count', edited((TRACKS_AT + 7, 3), (TRACKS_AT + 11, 1), (ITEMS_AT + 1, 255)), want=(5, TRACKS_AT + 8))
    c.read('item count before an item', edited((ITEMS_AT + 1, 4), (ITEMS_AT + 6, 9)), want=(3, ITEMS_AT))
    c.read('item tag before the next', edited((ITEMS_AT + 6, 2), (ITEMS_AT + 11, 2)), want=(4, ITEMS_AT + 6))
    c.read('stray contribution before the next tag', edited((ITEMS_AT + 6, 0), (ITEMS_AT + 11, 2)), want=(5, ITEMS_AT + 7))
    c.read('item tag before bytes over', edited((ITEMS_AT + 16, 2)) + b'\0', want=(4, ITEMS_AT + 16))
    c.read('stray contribution before bytes over', edited((ITEMS_AT + 16, 0)) + b'\0', want=(5, ITEMS_AT + 17))
    two = sheet_bytes(SPACE, [TRACK] * 2, [ITEM] * 2)
    c.read('the earlier track', edited((TRACKS_AT + 2, 9), (TRACKS_AT + 12, 9), data=two), want=(4, TRACKS_AT + 2))
    c.read('the earlier track, a number before a tag', edited((TRACKS_AT + 3, 1), (TRACKS_AT + 12, 9), data=two), want=(5, TRACKS_AT + 3))
    c.read('the earlier item', edited((TRACKS_AT + 28, 9), (TRACKS_AT + 47, 9), data=two), want=(4, TRACKS_AT + 28))
    c.read('the earlier item, a number before a tag', edited((TRACKS_AT + 28, 0), (TRACKS_AT + 47, 9), data=two), want=(5, TRACKS_AT + 29))
    c.read('a space cut short, with a tag not listed', edited((2, 9))[:12], want=(1, 12))
    c.read('a whole space with a tag not listed, then nothing', edited((2, 9))[:TRACKS_AT], want=(4, 2))
    c.read('a stretch byte not listed, then nothing', edited((12, 7))[:TRACKS_AT], want=(4, 12))
    c.read('a stretch byte not listed, then half a count', edited((12, 7))[:TRACKS_AT + 1], want=(4, 12))
    c.read('an axis byte not listed, then nothing', edited((13, 2))[:TRACKS_AT], want=(4, 13))
    c.read('an axis byte not listed, then half a count', edited((13, 2))[:TRACKS_AT + 1], want=(4, 13))
    c.read('a stretch byte not listed, and no axis byte', edited((12, 7))[:13], want=(1, 13))
    c.read('a track cut short, with a tag not listed', edited((TRACKS_AT + 2, 9))[:TRACKS_AT + 11], want=(1, TRACKS_AT + 11))
    c.read('a whole track with a tag not listed, then nothing', edited((TRACKS_AT + 2, 9))[:ITEMS_AT], want=(4, TRACKS_AT + 2))
    c.read('a second track cut short, the first at fault', edited((TRACKS_AT + 2, 9), data=two)[:TRACKS_AT + 17], want=(4, TRACKS_AT + 2))
    c.read('a second track cut short, itself at fault', edited((TRACKS_AT + 12, 9), data=two)[:TRACKS_AT + 21], want=(1, TRACKS_AT + 21))
    c.read('an item cut short, with a tag not listed', edited((ITEMS_AT + 6, 9))[:ITEMS_AT + 20], want=(1, ITEMS_AT + 20))
    c.read('a second item cut short, the first at fault', edited((TRACKS_AT + 28, 0), data=two)[:TRACKS_AT + 47], want=(5, TRACKS_AT + 29))
    c.read('a second item cut short, itself at fault', edited((TRACKS_AT + 47, 9), data=two)[:TRACKS_AT + 61], want=(1, TRACKS_AT + 61))
    c.read('half a count of 255 tracks', edited((TRACKS_AT, 255))[:TRACKS_AT + 1], want=(1, TRACKS_AT + 1))
    c.read('half a count of 255 items', edited((ITEMS_AT, 255))[:ITEMS_AT + 1], want=(1, ITEMS_AT + 1))
    c.read('half a count of the space', b'\2', want=(1, 1))
    c.read('a count of the space that is not allowed, then nothing', b'\2\0', want=(3, 0))
    for tracks, items in ((0, 0), (0, 5), (5, 0)):
        rows = f'{tracks} and {items} rows'
        c.read(f'1 before 6, {rows}', W12[:ITEMS_AT + 20], tracks, items, want=(1, ITEMS_AT + 20))
        c.read(f'2 before 6, {rows}', W12 + b'\0', tracks, items, want=(2, W12_END))
        c.read(f'3 before 6, {rows}', edited((ITEMS_AT + 1, 255)), tracks, items, want=(3, ITEMS_AT))
        c.read(f'4 before 6, {rows}', edited((ITEMS_AT + 16, 2)), tracks, items, want=(4, ITEMS_AT + 16))
        c.read(f'5 before 6, {rows}', edited((ITEMS_AT + 16, 0)), tracks, items, want=(5, ITEMS_AT + 17))


def without_axis(c):
    """Sheets whose space ends with the stretch byte, as it once did: the table refuses them like any other bytes."""

    def earlier(tracks, items):
        data = sheet_bytes(SPACE, tracks, items)
        return data[:13] + data[14:]

    # the count of the tracks is taken for the axis, and what follows it for the count
    c.read('W12 without its axis byte', earlier([TRACK], [ITEM]), want=(3, 14))
    c.read('no axis byte, no tracks and no items', earlier([], []), want=(1, 17))
    c.read('no axis byte, 1 track of fixed minimum', earlier([track((1, 7), (1, 7))], [ITEM]), 256, want=(4, 16))
    c.read('no axis byte, 2 tracks', earlier([TRACK] * 2, [ITEM]), want=(4, 13))
    c.read('no axis byte, 255 tracks', earlier([TRACK] * 255, [ITEM]), 255, want=(4, 13))
    c.read('no axis byte, 256 tracks', earlier([TRACK] * 256, [ITEM]), 256, want=(3, 14))
    c.end('W12 without its axis byte', earlier([TRACK], [ITEM]), want=(3, 14))
    c.end('no axis byte, no tracks and no items', earlier([], []), want=(1, 17))
    c.end('no axis byte, 2 tracks', earlier([TRACK] * 2, [ITEM]), want=(3, 14))


def written_back(c):
    """Each sheet that was accepted, into bytes of its length, one more and one fewer."""
    for data, name in list(c.accepted.items()):
        name = name.removeprefix('read ')
        space, tracks, items = sheet_in(data)
        c.write(f'{name}, into its length', space, tracks, items, len(data), want=True)
        c.write(f'{name}, into one byte more', space, tracks, items, len(data) + 1, want=True)
        c.write(f'{name}, into one byte fewer', space, tracks, items, len(data) - 1, want=(6, 0))


def bytes_lent(c):
    for lent in (0, 1, 2, TRACKS_AT, TRACKS_AT + 2, ITEMS_AT + 2):
        c.write(f'W12 into {lent} bytes', SPACE, [TRACK], [ITEM], lent, want=(6, 0))
    for lent in (48, 100, 1_000):
        c.write(f'W12 into {lent} bytes', SPACE, [TRACK], [ITEM], lent, want=True)
    c.write('no tracks and no items into 0 bytes', SPACE, [], [], 0, want=(6, 0))
    c.write('the most tracks and items into 30,000 bytes', SPACE, [TRACK] * 256, [ITEM] * 1_024, 30_000, want=True)


def rows_with_tags(c):
    high = (255, 256, 257, 258, 261, 512, 65_536, 65_537, 16_777_217, LARGEST)
    for tag in (0, 5, 6, 7) + high:
        c.write(f'minimum tag {tag}', SPACE, [track((tag, 0), (1, 7))], [ITEM], W12_END, want=(4, TRACKS_AT + 2))
        c.write(f'minimum tag {tag} with a number, second track', SPACE, [TRACK, track((tag, 9), (1, 7))], [ITEM], W12_END + 10, want=(4, TRACKS_AT + 12))
    for tag in (0, 7, 8) + high:
        c.write(f'maximum tag {tag}', SPACE, [track((1, 7), (tag, 0))], [ITEM], W12_END, want=(4, TRACKS_AT + 7))
        c.write(f'maximum tag {tag} with a number, second track', SPACE, [TRACK, track((1, 7), (tag, 9))], [ITEM], W12_END + 10, want=(4, TRACKS_AT + 17))
    for tag in (2, 3, 4, 7) + high:
        for k, word in enumerate(('minimum', 'min-content', 'max-content')):
            three = [(1, 30)] * 3
            three[k] = (tag, 0)
            c.write(f'{word} contribution tag {tag}', SPACE, [TRACK], [item(*three)], W12_END, want=(4, ITEMS_AT + 6 + 5 * k))
            three[k] = (tag, 9)
            c.write(f'{word} contribution tag {tag} with a number, second item', SPACE, [], [ITEM, item(*three)], W12_END + 9, want=(4, TRACKS_AT + 27 + 5 * k))


def rows_with_stray_numbers(c):
    for number in (1, 256, 65_536, 16_777_216, LARGEST):
        for tag in (2, 3, 4):
            c.write(f'minimum {tag} with {number}', SPACE, [track((tag, number), (1, 7))], [ITEM], W12_END, want=(5, TRACKS_AT + 3))
            c.write(f'maximum {tag} with {number}', SPACE, [track((1, 7), (tag, number))], [ITEM], W12_END, want=(5, TRACKS_AT + 8))
        for k, word in enumerate(('minimum', 'min-content', 'max-content')):
            three = [(1, 30)] * 3
            three[k] = (0, number)
            c.write(f'{word} contribution 0 with {number}', SPACE, [TRACK], [item(*three)], W12_END, want=(5, ITEMS_AT + 7 + 5 * k))


def rows_too_many(c):
    for tracks in (257, 258, 300):
        for items in (0, 1):
            size = len(sheet_bytes(SPACE, [TRACK] * tracks, [ITEM] * items))
            c.write(f'{tracks} tracks, {items} items', SPACE, [TRACK] * tracks, [ITEM] * items, size, want=(3, TRACKS_AT))
    for items in (1_025, 1_026, 1_100):
        for tracks in (0, 2, 256):
            size = len(sheet_bytes(SPACE, [TRACK] * tracks, [ITEM] * items))
            c.write(f'{items} items, {tracks} tracks', SPACE, [TRACK] * tracks, [ITEM] * items, size, want=(3, TRACKS_AT + 2 + 10 * tracks))
    c.write('257 tracks and 1,025 items', SPACE, [TRACK] * 257, [ITEM] * 1_025, 100, want=(3, TRACKS_AT))


def which_fault_of_rows(c):
    bad_minimum, bad_maximum = track((0, 0), (1, 7)), track((1, 7), (0, 0))
    stray = track((2, 1), (1, 7))
    bad_item, stray_item = item((2, 0), (1, 1), (1, 1)), item((0, 1), (1, 1), (1, 1))
    c.write('3 of the tracks before a track', SPACE, [bad_minimum] * 257, [ITEM], W12_END, want=(3, TRACKS_AT))
    c.write('3 of the tracks before 3 of the items', SPACE, [TRACK] * 257, [ITEM] * 1_025, W12_END, want=(3, TRACKS_AT))
    c.write('a track before 3 of the items', SPACE, [bad_maximum], [ITEM] * 1_025, W12_END, want=(4, TRACKS_AT + 7))
    c.write('a stray number before 3 of the items', SPACE, [stray], [ITEM] * 1_025, W12_END, want=(5, TRACKS_AT + 3))
    c.write('3 of the items before an item', SPACE, [TRACK], [bad_item] * 1_025, W12_END, want=(3, ITEMS_AT))
    c.write('a track before an item', SPACE, [TRACK, bad_minimum], [bad_item], W12_END + 19, want=(4, TRACKS_AT + 12))
    c.write('a stray number before an item', SPACE, [stray], [bad_item], W12_END, want=(5, TRACKS_AT + 3))
    c.write('minimum tag before maximum tag', SPACE, [track((0, 0), (0, 0))], [ITEM], W12_END, want=(4, TRACKS_AT + 2))
    c.write('minimum tag before its number', SPACE, [track((0, 5), (1, 7))], [ITEM], W12_END, want=(4, TRACKS_AT + 2))
    c.write('stray minimum before maximum tag', SPACE, [track((2, 5), (0, 0))], [ITEM], W12_END, want=(5, TRACKS_AT + 3))
    c.write('the earlier track', SPACE, [TRACK, stray, bad_minimum], [ITEM], W12_END + 20, want=(5, TRACKS_AT + 13))
    c.write('the earlier item', SPACE, [TRACK], [ITEM, stray_item, bad_item], W12_END + 38, want=(5, W12_END + 5))
    c.write('the earlier contribution', SPACE, [TRACK], [item((1, 1), (2, 0), (0, 4))], W12_END, want=(4, ITEMS_AT + 11))
    c.write('the earlier contribution, stray', SPACE, [TRACK], [item((1, 1), (0, 4), (2, 0))], W12_END, want=(5, ITEMS_AT + 12))
    c.write('the last of 256 tracks', SPACE, [TRACK] * 255 + [bad_maximum], [bad_item], 2_600, want=(4, TRACKS_AT + 2 + 2_550 + 5))
    c.write('the last of 1,024 items', SPACE, [TRACK], [ITEM] * 1_023 + [stray_item], 20_000, want=(5, ITEMS_AT + 2 + 1_023 * 19 + 5))
    for lent in (0, 20, 45):
        c.write(f'3 before 6, {lent} bytes', SPACE, [TRACK] * 257, [], lent, want=(3, TRACKS_AT))
        c.write(f'3 of the items before 6, {lent} bytes', SPACE, [TRACK], [ITEM] * 1_025, lent, want=(3, ITEMS_AT))
        c.write(f'4 before 6, {lent} bytes', SPACE, [TRACK], [bad_item], lent, want=(4, ITEMS_AT + 6))
        c.write(f'5 before 6, {lent} bytes', SPACE, [stray], [ITEM], lent, want=(5, TRACKS_AT + 3))


def ends(c):
    none = sheet_bytes(SPACE, [], [])
    several = sheet_bytes(SPACE, [TRACK] * 3, [ITEM] * 2)
    most = sheet_bytes(SPACE, [TRACK] * 256, [ITEM] * 1_024)
    for name, sheet in (
        ('no tracks and no items', none),
        ('1 track, no items', sheet_bytes(SPACE, [TRACK], [])),
        ('no tracks, 1 item', sheet_bytes(SPACE, [], [ITEM])),
        ('3 tracks and 2 items', several),
        ('255 tracks', sheet_bytes(SPACE, [TRACK] * 255, [])),
        ('256 tracks', sheet_bytes(SPACE, [TRACK] * 256, [])),
        ('1,023 items', sheet_bytes(SPACE, [], [ITEM] * 1_023)),
        ('1,024 items', sheet_bytes(SPACE, [], [ITEM] * 1_024)),
        ('the most tracks and items', most),
    ):
        c.end(name, sheet, want=len(sheet))
        c.end(f'{name}, then a byte', sheet + b'\0', want=len(sheet))
        c.end(f'{name}, then W12', sheet + W12, want=len(sheet))
    for over in (b'\0', b'\xff', b'\1\0', W12, none):
        c.end(f'W12, then {len(over)} bytes, the first {over[0]}', W12 + over, want=W12_END)
    for length in range(ITEMS_AT + 2):
        c.end(f'W12 cut to {length} bytes', W12[:length], want=(1, length))
    for length in (ITEMS_AT + 2, ITEMS_AT + 3, ITEMS_AT + 20):
        c.end(f'W12 cut to {length} bytes', W12[:length], want=W12_END)
    for count in (0, 2, 256, 257, 65_535):
        c.end(f'space count {count}', u16(count) + W12[2:], want=(3, 0))
    for count in (257, 258, 512, 65_535):
        c.end(f'track count {count}', W12[:TRACKS_AT] + u16(count) + W12[TRACKS_AT + 2:], want=(3, TRACKS_AT))
    for count in (1_025, 1_026, 2_048, 65_535):
        c.end(f'item count {count}', W12[:ITEMS_AT] + u16(count) + W12[ITEMS_AT + 2:], want=(3, ITEMS_AT))
        c.end(f'item count {count}, behind 3 tracks', several[:TRACKS_AT + 32] + u16(count) + several[TRACKS_AT + 34:], want=(3, TRACKS_AT + 32))
    c.end('space count 2, then nothing', b'\2\0', want=(3, 0))
    c.end('track count 257, then nothing', W12[:TRACKS_AT] + u16(257), want=(3, TRACKS_AT))
    c.end('item count 1,025, then nothing', W12[:ITEMS_AT] + u16(1_025), want=(3, ITEMS_AT))
    c.end('half a track count of 255', W12[:TRACKS_AT] + b'\xff', want=(1, TRACKS_AT + 1))
    c.end('half an item count of 255', W12[:ITEMS_AT] + b'\xff', want=(1, ITEMS_AT + 1))
    c.end('3 of the space before 3 of the tracks', u16(0) + W12[2:TRACKS_AT] + u16(300) + W12[TRACKS_AT + 2:], want=(3, 0))
    c.end('3 of the tracks before 3 of the items', W12[:TRACKS_AT] + u16(300) + W12[TRACKS_AT + 2:ITEMS_AT] + u16(2_000) + W12[ITEMS_AT + 2:], want=(3, TRACKS_AT))
    c.end('2 tracks, of which 1 is there', W12[:TRACKS_AT] + u16(2) + W12[TRACKS_AT + 2:])
    c.end('200 tracks, of which 1 is there', W12[:TRACKS_AT] + u16(200) + W12[TRACKS_AT + 2:], want=(1, W12_END))
    c.end('300 items, of which 1 is there', W12[:ITEMS_AT] + u16(300) + W12[ITEMS_AT + 2:], want=ITEMS_AT + 2 + 300 * 19)
    for at in (2, 7, 12, 13, TRACKS_AT + 2, TRACKS_AT + 7, ITEMS_AT + 6, ITEMS_AT + 11, ITEMS_AT + 16):
        c.end(f'W12, tag at {at} not listed', with_byte(W12, at, 9), want=W12_END)
    c.end('W12, a stray number', with_byte(W12, TRACKS_AT + 3, 1), want=W12_END)


def main():
    c = Cases()
    for group in (
        paper,
        truncations,
        byte_edits,
        rows_lent,
        counts,
        stray_numbers,
        bytes_over,
        kinds,
        tags_not_listed,
        which_fault,
        without_axis,
        written_back,
        bytes_lent,
        rows_with_tags,
        rows_with_stray_numbers,
        rows_too_many,
        which_fault_of_rows,
        ends,
    ):
        group(c)
    sys.stdout.write('\n'.join(c.lines) + '\n')
    print(f'{len(c.names)} cases: {c.number[READ]} of reading, {c.number[WRITE]} of writing, {c.number[END]} of the end', file=sys.stderr)


main()
