//! The sheet: its bytes read, written and ended, with refusals 1 to 6.
//!
//! A record stands between bytes and kinds as a row of numbers. A row can say what no kind can, a tag that is not listed or a
//! number without use: so reader and writer find their faults in one place.
use crate::kinds::{Axis, Constraint, Item, Maximum, Minimum, Refusal, Sheet, Space, Track};

/// Constraint tag and number, inner size tag and number, stretch, axis.
pub type SpaceRow = [u32; 6];

/// Minimum tag and number, maximum tag and number.
pub type TrackRow = [u32; 4];

/// Start in the lower half and span in the upper half of the first number, then tag and number of each contribution.
pub type ItemRow = [u32; 7];

const COUNT_BYTES: usize = 2;
const SPACE_BYTES: usize = 12;
const TRACK_BYTES: usize = 10;
const ITEM_BYTES: usize = 19;
/// A tag and its u32.
const TAGGED_BYTES: usize = 5;

/// Where the record of the space stands, that of the first track, and behind so many tracks that of the first item.
const SPACE_AT: usize = COUNT_BYTES;
/// The bytes that stand alone in it.
pub const STRETCH_AT: usize = SPACE_AT + 2 * TAGGED_BYTES;
pub const AXIS_AT: usize = STRETCH_AT + 1;
pub const TRACKS_AT: usize = SPACE_AT + SPACE_BYTES + COUNT_BYTES;

pub fn items_at(tracks: usize) -> usize {
    TRACKS_AT + TRACK_BYTES * tracks + COUNT_BYTES
}

/// Refusals 1 to 5.
pub fn read(bytes: &[u8]) -> Result<Sheet, Refusal> {
    let mut front = Front { bytes, at: 0 };

    front.count(1, 1)?;
    let (record, at) = front.record::<SPACE_BYTES>()?;
    let space = space(row_of_space(record), at)?;

    let count = front.count(0, Track::MOST)?;
    let mut tracks = Vec::with_capacity(count);
    for _ in 0..count {
        let (record, at) = front.record::<TRACK_BYTES>()?;
        tracks.push(track(row_of_track(record), at)?);
    }

    let count = front.count(0, Item::MOST)?;
    let mut items = Vec::with_capacity(count);
    for _ in 0..count {
        let (record, at) = front.record::<ITEM_BYTES>()?;
        items.push(item(row_of_item(record), at)?);
    }

    if front.at < bytes.len() {
        return Err(Refusal::at(2, front.at));
    }
    Ok(Sheet {
        space,
        tracks,
        items,
    })
}

/// As `read`, with the records as rows in lent memory; 6 where that is too short. The counts are handed back beside the space.
pub fn read_rows(
    bytes: &[u8],
    tracks: &mut [TrackRow],
    items: &mut [ItemRow],
) -> Result<(Space, usize, usize), Refusal> {
    let sheet = read(bytes)?;
    if tracks.len() < sheet.tracks.len() || items.len() < sheet.items.len() {
        return Err(Refusal::at(6, 0));
    }
    for (row, track) in tracks.iter_mut().zip(&sheet.tracks) {
        *row = track_row(track);
    }
    for (row, item) in items.iter_mut().zip(&sheet.items) {
        *row = item_row(item);
    }
    Ok((sheet.space, sheet.tracks.len(), sheet.items.len()))
}

/// Writes a sheet's bytes and gives their number: 3 to 5 where the bytes would show them, then 6.
pub fn write(
    space_row: &SpaceRow,
    tracks: &[TrackRow],
    items: &[ItemRow],
    lent: &mut [u8],
) -> Result<usize, Refusal> {
    let items_at = items_at(tracks.len());
    space(*space_row, SPACE_AT)?;
    if tracks.len() > Track::MOST {
        return Err(Refusal::at(3, TRACKS_AT - COUNT_BYTES));
    }
    for (t, row) in tracks.iter().enumerate() {
        track(*row, TRACKS_AT + TRACK_BYTES * t)?;
    }
    if items.len() > Item::MOST {
        return Err(Refusal::at(3, items_at - COUNT_BYTES));
    }
    for (i, row) in items.iter().enumerate() {
        item(*row, items_at + ITEM_BYTES * i)?;
    }
    let length = items_at + ITEM_BYTES * items.len();
    if lent.len() < length {
        return Err(Refusal::at(6, 0));
    }

    let mut pen = Pen { lent, at: 0 };
    pen.count(1);
    pen.tagged(&space_row[..4]);
    pen.put([space_row[4] as u8, space_row[5] as u8]);
    pen.count(tracks.len());
    for row in tracks {
        pen.tagged(row);
    }
    pen.count(items.len());
    for row in items {
        pen.put(row[0].to_le_bytes());
        pen.tagged(&row[1..]);
    }
    Ok(length)
}

/// A sheet of kinds written whole: nothing in it can be at fault but too many records.
pub fn bytes_of(sheet: &Sheet) -> Vec<u8> {
    let tracks: Vec<TrackRow> = sheet.tracks.iter().map(track_row).collect();
    let items: Vec<ItemRow> = sheet.items.iter().map(item_row).collect();
    let mut bytes = vec![0; items_at(tracks.len()) + ITEM_BYTES * items.len()];
    write(&space_row(&sheet.space), &tracks, &items, &mut bytes)
        .expect("no more records than 3 allows");
    bytes
}

/// Where a sheet ends, by its three counts alone: refusals 1 and 3 of these.
pub fn end(bytes: &[u8]) -> Result<usize, Refusal> {
    let mut front = Front { bytes, at: 0 };
    front.count(1, 1)?;
    front.at += SPACE_BYTES;
    let tracks = front.count(0, Track::MOST)?;
    front.at += TRACK_BYTES * tracks;
    let items = front.count(0, Item::MOST)?;
    Ok(front.at + ITEM_BYTES * items)
}

/// The bytes of a sheet, with the place of the next.
struct Front<'a> {
    bytes: &'a [u8],
    at: usize,
}

impl<'a> Front<'a> {
    /// The next record and its place: 1 where it is not wholly there.
    fn record<const N: usize>(&mut self) -> Result<(&'a [u8; N], usize), Refusal> {
        let rest = self.bytes.get(self.at..).unwrap_or(&[]);
        let record = rest
            .first_chunk::<N>()
            .ok_or(Refusal::at(1, self.bytes.len()))?;
        let at = self.at;
        self.at += N;
        Ok((record, at))
    }

    /// The next count: 3 where it is not between these two.
    fn count(&mut self, least: usize, most: usize) -> Result<usize, Refusal> {
        let (bytes, at) = self.record::<COUNT_BYTES>()?;
        let count = usize::from(u16::from_le_bytes(*bytes));
        if count < least || count > most {
            return Err(Refusal::at(3, at));
        }
        Ok(count)
    }
}

/// The bytes to write, with the place of the next.
struct Pen<'a> {
    lent: &'a mut [u8],
    at: usize,
}

impl Pen<'_> {
    fn put<const N: usize>(&mut self, bytes: [u8; N]) {
        self.lent[self.at..self.at + N].copy_from_slice(&bytes);
        self.at += N;
    }

    fn count(&mut self, count: usize) {
        self.put((count as u16).to_le_bytes());
    }

    /// Tags and their numbers, tags of one byte.
    fn tagged(&mut self, pairs: &[u32]) {
        for pair in pairs.chunks_exact(2) {
            self.put([pair[0] as u8]);
            self.put(pair[1].to_le_bytes());
        }
    }
}

fn four_at(record: &[u8], at: usize) -> u32 {
    u32::from_le_bytes([record[at], record[at + 1], record[at + 2], record[at + 3]])
}

fn tagged(record: &[u8], at: usize) -> [u32; 2] {
    [u32::from(record[at]), four_at(record, at + 1)]
}

fn row_of_space(record: &[u8; SPACE_BYTES]) -> SpaceRow {
    let [constraint_tag, constraint] = tagged(record, 0);
    let [inner_tag, inner] = tagged(record, 5);
    let [stretch, axis] = [record[10], record[11]].map(u32::from);
    [constraint_tag, constraint, inner_tag, inner, stretch, axis]
}

fn row_of_track(record: &[u8; TRACK_BYTES]) -> TrackRow {
    let [minimum_tag, minimum] = tagged(record, 0);
    let [maximum_tag, maximum] = tagged(record, 5);
    [minimum_tag, minimum, maximum_tag, maximum]
}

fn row_of_item(record: &[u8; ITEM_BYTES]) -> ItemRow {
    let [a_tag, a] = tagged(record, 4);
    let [b_tag, b] = tagged(record, 9);
    let [c_tag, c] = tagged(record, 14);
    [four_at(record, 0), a_tag, a, b_tag, b, c_tag, c]
}

// From rows to kinds: 4 where a tag is not listed, 5 where a number has no use; `at` is the tag's place.

/// What a tag says that carries no number.
fn bare<K>(kind: K, number: u32, at: usize) -> Result<K, Refusal> {
    if number != 0 {
        return Err(Refusal::at(5, at + 1));
    }
    Ok(kind)
}

fn constraint([tag, number]: [u32; 2], at: usize) -> Result<Constraint, Refusal> {
    match tag {
        1 => Ok(Constraint::Definite(number)),
        2 => bare(Constraint::MinContent, number, at),
        3 => bare(Constraint::MaxContent, number, at),
        _ => Err(Refusal::at(4, at)),
    }
}

fn amount([tag, number]: [u32; 2], at: usize) -> Result<Option<u32>, Refusal> {
    match tag {
        0 => bare(None, number, at),
        1 => Ok(Some(number)),
        _ => Err(Refusal::at(4, at)),
    }
}

fn stretch(number: u32, at: usize) -> Result<bool, Refusal> {
    match number {
        0 => Ok(false),
        1 => Ok(true),
        _ => Err(Refusal::at(4, at)),
    }
}

fn axis(number: u32, at: usize) -> Result<Axis, Refusal> {
    match number {
        0 => Ok(Axis::Inline),
        1 => Ok(Axis::Block),
        _ => Err(Refusal::at(4, at)),
    }
}

fn minimum([tag, number]: [u32; 2], at: usize) -> Result<Minimum, Refusal> {
    match tag {
        1 => Ok(Minimum::Fixed(number)),
        2 => bare(Minimum::Auto, number, at),
        3 => bare(Minimum::MinContent, number, at),
        4 => bare(Minimum::MaxContent, number, at),
        _ => Err(Refusal::at(4, at)),
    }
}

fn maximum([tag, number]: [u32; 2], at: usize) -> Result<Maximum, Refusal> {
    match tag {
        1 => Ok(Maximum::Fixed(number)),
        2 => bare(Maximum::Auto, number, at),
        3 => bare(Maximum::MinContent, number, at),
        4 => bare(Maximum::MaxContent, number, at),
        5 => Ok(Maximum::FitContent(number)),
        6 => Ok(Maximum::Fr(number)),
        _ => Err(Refusal::at(4, at)),
    }
}

fn space(row: SpaceRow, at: usize) -> Result<Space, Refusal> {
    Ok(Space {
        constraint: constraint([row[0], row[1]], at)?,
        inner: amount([row[2], row[3]], at + TAGGED_BYTES)?,
        stretch: stretch(row[4], at + 2 * TAGGED_BYTES)?,
        axis: axis(row[5], at + 2 * TAGGED_BYTES + 1)?,
    })
}

fn track(row: TrackRow, at: usize) -> Result<Track, Refusal> {
    Ok(Track {
        minimum: minimum([row[0], row[1]], at)?,
        maximum: maximum([row[2], row[3]], at + TAGGED_BYTES)?,
    })
}

fn item(row: ItemRow, at: usize) -> Result<Item, Refusal> {
    let at = at + 4;
    Ok(Item {
        start: row[0] as u16,
        span: (row[0] >> 16) as u16,
        contributions: [
            amount([row[1], row[2]], at)?,
            amount([row[3], row[4]], at + TAGGED_BYTES)?,
            amount([row[5], row[6]], at + 2 * TAGGED_BYTES)?,
        ],
    })
}

// From kinds to rows.

pub fn space_row(space: &Space) -> SpaceRow {
    let [constraint_tag, constraint] = match space.constraint {
        Constraint::Definite(dots) => [1, dots],
        Constraint::MinContent => [2, 0],
        Constraint::MaxContent => [3, 0],
    };
    let [inner_tag, inner] = amount_row(space.inner);
    let stretch = u32::from(space.stretch);
    let axis = match space.axis {
        Axis::Inline => 0,
        Axis::Block => 1,
    };
    [constraint_tag, constraint, inner_tag, inner, stretch, axis]
}

fn amount_row(amount: Option<u32>) -> [u32; 2] {
    match amount {
        None => [0, 0],
        Some(dots) => [1, dots],
    }
}

pub fn track_row(track: &Track) -> TrackRow {
    let [minimum_tag, minimum] = match track.minimum {
        Minimum::Fixed(dots) => [1, dots],
        Minimum::Auto => [2, 0],
        Minimum::MinContent => [3, 0],
        Minimum::MaxContent => [4, 0],
    };
    let [maximum_tag, maximum] = match track.maximum {
        Maximum::Fixed(dots) => [1, dots],
        Maximum::Auto => [2, 0],
        Maximum::MinContent => [3, 0],
        Maximum::MaxContent => [4, 0],
        Maximum::FitContent(argument) => [5, argument],
        Maximum::Fr(factor) => [6, factor],
    };
    [minimum_tag, minimum, maximum_tag, maximum]
}

pub fn item_row(item: &Item) -> ItemRow {
    let [a, b, c] = item.contributions.map(amount_row);
    let place = u32::from(item.start) | u32::from(item.span) << 16;
    [place, a[0], a[1], b[0], b[1], c[0], c[1]]
}
