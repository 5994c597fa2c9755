//! Random inputs of every call: sound ones, and ones with every fault the paper has a number for. The same seed and index give the
//! same input.
use crate::calls::Call;
use crate::lent::{Lent, Value};
use crate::random::Random;
use dots::kinds::{Axis, Constraint, Item, Maximum, Minimum, Sheet, Space, Track};
use dots::sheet::{self, ItemRow, SpaceRow, TrackRow};

/// Half of all inputs are boards.
pub fn call(seed: u64, index: u64) -> Call {
    let random = &mut Random::new(seed, index);
    match index % 20 {
        0..=9 => board_call(random),
        10..=12 => fill_call(random),
        13..=15 => read_call(random),
        16..=18 => write_call(random),
        _ => end_call(random),
    }
}

/// A result to write to, with anything in it.
fn blank<T: Value>(random: &mut Random) -> Lent<T> {
    Lent::blank(random, 1)
}

/// Marks, each true so often in a hundred.
fn marks(random: &mut Random, count: usize, times: u32) -> Lent<u8> {
    let marks: Vec<u8> = (0..count)
        .map(|_| u8::from(random.percent(times)))
        .collect();
    Lent::of(random, &marks)
}

// Sheets to size, to read, and to end.

fn board_call(random: &mut Random) -> Call {
    let mut sheet = sound_sheet(random);
    let fate = random.between(0, 99);
    let mut faults = 0;
    if (60..80).contains(&fate) || fate >= 97 {
        faults = if random.percent(80) { 1 } else { 2 };
    }
    for _ in 0..faults {
        spoil_sheet(random, &mut sheet);
    }
    let mut sizes = sheet.tracks.len() + random.pick(&[0, 0, 0, 1, 7]);
    if fate == 59 || (faults > 0 && random.percent(5)) {
        sizes = random.pick(&[0, sheet.tracks.len().saturating_sub(1)]);
    }
    let bytes = sheet_bytes(random, &sheet, fate >= 80);
    board_of(random, &bytes, sizes)
}

/// The board of these bytes, with so many sizes lent.
fn board_of(random: &mut Random, bytes: &[u8], sizes: usize) -> Call {
    Call::Board {
        sheet: Lent::of(random, bytes),
        sizes: Lent::blank(random, sizes),
        tracks: blank(random),
        definite: marks(random, 1, 50),
        free: blank(random),
        rounds: blank(random),
        place: blank(random),
    }
}

fn read_call(random: &mut Random) -> Call {
    let sheet = sound_sheet(random);
    let is_damaged = random.percent(50);
    let bytes = sheet_bytes(random, &sheet, is_damaged);
    let mut rows = |count: usize| match random.between(0, 9) {
        0 => random.pick(&[0, count.saturating_sub(1)]),
        1..=5 => count,
        _ => count + random.pick(&[1, 7]),
    };
    let rows = [sheet.tracks.len(), sheet.items.len()].map(&mut rows);
    read_of(random, &bytes, rows)
}

/// Reading these bytes, with so many rows lent for tracks and for items.
fn read_of(random: &mut Random, bytes: &[u8], [tracks, items]: [usize; 2]) -> Call {
    Call::Read {
        sheet: Lent::of(random, bytes),
        space: blank(random),
        tracks: Lent::blank(random, tracks),
        items: Lent::blank(random, items),
        track_count: blank(random),
        item_count: blank(random),
        place: blank(random),
    }
}

/// The calls that take a sheet's bytes, on every sheet that W12 becomes where it is cut short or one of its bytes is another. What is lent
/// is as many as it takes.
pub fn made_of_w12(seed: u64) -> Vec<Call> {
    let random = &mut Random::new(seed, 0);
    let w12 = sheet::bytes_of(&w12());
    let mut sheets: Vec<Vec<u8>> = (0..w12.len())
        .map(|length| w12[..length].to_vec())
        .collect();
    for at in 0..w12.len() {
        for value in 0..=255 {
            let mut sheet = w12.clone();
            sheet[at] = value;
            sheets.push(sheet);
        }
    }
    let mut calls = Vec::with_capacity(3 * sheets.len());
    for sheet in sheets {
        calls.push(board_of(random, &sheet, 1));
        calls.push(read_of(random, &sheet, [1, 1]));
        calls.push(end_of(random, &sheet));
    }
    calls
}

/// A sheet, whole or damaged, alone or the first of a run.
fn end_call(random: &mut Random) -> Call {
    let sheet = sound_sheet(random);
    let is_damaged = random.percent(60);
    let mut bytes = sheet_bytes(random, &sheet, is_damaged);
    if random.percent(30) {
        let next = sound_sheet(random);
        bytes.extend(sheet::bytes_of(&next));
    }
    end_of(random, &bytes)
}

fn end_of(random: &mut Random, bytes: &[u8]) -> Call {
    Call::End {
        bytes: Lent::of(random, bytes),
        end: blank(random),
        place: blank(random),
    }
}

fn sheet_bytes(random: &mut Random, sheet: &Sheet, is_damaged: bool) -> Vec<u8> {
    let mut bytes = sheet::bytes_of(sheet);
    if is_damaged {
        damage(random, sheet, &mut bytes);
        if random.percent(15) {
            damage(random, sheet, &mut bytes);
        }
    }
    bytes
}

/// How large a board's numbers are.
#[derive(Clone, Copy)]
enum Mood {
    Small,
    Middle,
    Wide,
    AtLimits,
    /// Numbers that divide one another, so that fractions meet sizes exactly.
    Round,
}

const MOODS: [Mood; 5] = [
    Mood::Small,
    Mood::Middle,
    Mood::Wide,
    Mood::AtLimits,
    Mood::Round,
];

/// A part of the list that is not empty.
fn part<T: Copy>(random: &mut Random, of: &[T]) -> Vec<T> {
    let mut part = of.to_vec();
    for _ in 0..random.index(of.len()) {
        part.swap_remove(random.index(part.len()));
    }
    part
}

/// What a board is there for.
#[derive(Clone, Copy, PartialEq)]
enum Aim {
    Any,
    /// Few tracks and no fr, and items that span more than one: the lettered steps.
    Spans,
    /// Few tracks, most of them fr: the last batch, and the fr search.
    Flexible,
}

/// A fixed size, fit-content argument or contribution.
fn size(random: &mut Random, mood: Mood) -> u32 {
    let mood = if random.percent(4) {
        random.pick(&MOODS)
    } else {
        mood
    };
    match mood {
        Mood::Small => random.between(0, 12),
        Mood::Middle => random.between(0, 400),
        Mood::Wide => random.between(0, Track::MOST_SIZE),
        Mood::AtLimits => random.pick(&[0, 1, 2, 65_533, 65_534, 65_535]),
        Mood::Round => random.pick(&[0, 10, 20, 25, 30, 40, 50, 60, 75, 80, 100]),
    }
}

fn factor(random: &mut Random, mood: Mood) -> u32 {
    if let Mood::Round = mood {
        return random.pick(&[100, 200, 250, 400, 500, 600, 1000, 2000]);
    }
    match random.between(0, 3) {
        0 => random.pick(&[0, 1, 500, 999, 1000, 1001, 2000, 99_999, 100_000]),
        1 => random.pick(&[250, 500, 1000, 1000, 2000, 3000]),
        2 => random.between(0, 3000),
        _ => random.between(0, Track::MOST_FACTOR),
    }
}

/// A space that is near what the tracks need, or anywhere.
fn space(random: &mut Random, mood: Mood, tracks: usize) -> u32 {
    if let Mood::Round = mood {
        return random.pick(&[50, 100, 100, 150, 200, 300, 500, 1000]);
    }
    match random.between(0, 9) {
        0 => random.pick(&[0, 1, 100, Space::MOST - 1, Space::MOST]),
        1 => random.between(0, Space::MOST),
        2 => random.between(0, 100),
        _ => {
            let most = match mood {
                Mood::Small => 30,
                Mood::Middle | Mood::Round => 1000,
                Mood::Wide | Mood::AtLimits => 2 * Track::MOST_SIZE,
            };
            let dots = u64::from(random.between(0, most)) * tracks.max(1) as u64;
            dots.min(u64::from(Space::MOST)) as u32
        }
    }
}

fn track_count(random: &mut Random, aim: Aim) -> usize {
    if aim != Aim::Any {
        return random.between(2, 5) as usize;
    }
    let count = match random.between(0, 999) {
        0..=29 => 0,
        30..=699 => random.between(1, 6),
        700..=939 => random.between(7, 20),
        940..=979 => random.between(21, 100),
        980..=989 => random.between(101, 254),
        990..=993 => 255,
        _ => 256,
    };
    count as usize
}

fn item_count(random: &mut Random, aim: Aim, tracks: usize) -> usize {
    if aim != Aim::Any {
        return random.between(0, 6) as usize;
    }
    if tracks > 250 && random.percent(15) {
        return 1024;
    }
    let count = match random.between(0, 999) {
        0..=49 => 0,
        50..=749 => random.between(1, 8),
        750..=929 => random.between(9, 40),
        930..=984 => random.between(41, 200),
        985..=993 => random.between(201, 1022),
        994..=995 => 1023,
        _ => 1024,
    };
    count as usize
}

/// A sheet that makes a board.
fn sound_sheet(random: &mut Random) -> Sheet {
    let mood = random.pick(&MOODS);
    let aim = match random.between(0, 9) {
        0..=1 => Aim::Spans,
        2..=3 => Aim::Flexible,
        _ => Aim::Any,
    };
    let tracks = sound_tracks(random, mood, aim);
    let mut items = Vec::new();
    if !tracks.is_empty() {
        let (long, across) = match aim {
            Aim::Any => (random.pick(&[0, 20, 50, 90]), 50),
            Aim::Spans => (100, 0),
            Aim::Flexible => (random.pick(&[20, 60, 90]), 90),
        };
        for _ in 0..item_count(random, aim, tracks.len()) {
            items.push(sound_item(random, mood, &tracks, long, across));
        }
    }
    let constraint = match random.between(0, 4) {
        0 => Constraint::MinContent,
        1 => Constraint::MaxContent,
        _ => Constraint::Definite(space(random, mood, tracks.len())),
    };
    let inner = match (random.between(0, 5), constraint) {
        (0 | 1, _) => None,
        (2 | 3, Constraint::Definite(space)) => Some(space),
        _ => Some(space(random, mood, tracks.len())),
    };
    Sheet {
        space: Space {
            constraint,
            inner,
            stretch: random.percent(50),
            axis: random.pick(&[Axis::Inline, Axis::Block]),
        },
        tracks,
        items,
    }
}

fn sound_tracks(random: &mut Random, mood: Mood, aim: Aim) -> Vec<Track> {
    let minima = match aim {
        Aim::Spans => part(random, &[0, 0, 1, 2, 3, 4]),
        _ => part(random, &[1, 2, 3, 4]),
    };
    let maxima = match aim {
        Aim::Any => part(random, &[1, 2, 3, 4, 5, 6]),
        Aim::Spans => part(random, &[2, 3, 4, 5]),
        Aim::Flexible => part(random, &[6, 6, 6, 1, 2, 5]),
    };
    // On some boards only two factors, of which one is 0: so several are alike, or all are 0.
    let few = random.percent(20);
    let factors = [0, random.pick(&[0, 250, 1000, 1500])];
    let has_gutters = random.percent(15);
    let gutter = size(random, mood);
    let mut tracks = Vec::new();
    for t in 0..track_count(random, aim) {
        if has_gutters && t % 2 == 1 {
            tracks.push(Track {
                minimum: Minimum::Fixed(gutter),
                maximum: Maximum::Fixed(gutter),
            });
            continue;
        }
        let minimum = match random.pick(&minima) {
            0 => Minimum::Fixed(0),
            1 => Minimum::Fixed(size(random, mood)),
            2 => Minimum::Auto,
            3 => Minimum::MinContent,
            _ => Minimum::MaxContent,
        };
        let maximum = match random.pick(&maxima) {
            1 => Maximum::Fixed(size(random, mood)),
            2 => Maximum::Auto,
            3 => Maximum::MinContent,
            4 => Maximum::MaxContent,
            5 => Maximum::FitContent(size(random, mood)),
            _ if few => Maximum::Fr(random.pick(&factors)),
            _ => Maximum::Fr(factor(random, mood)),
        };
        tracks.push(Track { minimum, maximum });
    }
    tracks
}

/// An item on tracks that are there, with a longer span so often in a hundred. Of those so many in a hundred may cross the next fr
/// track; the others end before it, so that the batches by span have items too.
fn sound_item(random: &mut Random, mood: Mood, tracks: &[Track], long: u32, across: u32) -> Item {
    let mut start = random.index(tracks.len());
    let mut span = 1;
    if random.percent(long) {
        if random.percent(10) {
            start = 0;
        }
        let rest = &tracks[start..];
        let most = match rest.iter().position(|track| track.is_fr()) {
            Some(next_fr) if !random.percent(across) => next_fr,
            _ => rest.len(),
        };
        if most > 1 {
            span = match random.between(0, 3) {
                0 => most,
                1 => random.between(2, most as u32) as usize,
                _ => random.between(2, most.min(4) as u32) as usize,
            };
        }
    }
    let mut item = Item {
        start: start as u16,
        span: span as u16,
        contributions: contributions(random, mood, span).map(Some),
    };
    if item.is_measured(tracks) {
        return item;
    }
    for contribution in &mut item.contributions {
        if random.percent(40) {
            *contribution = None;
        }
    }
    if random.percent(30) {
        item.contributions.reverse();
    }
    item
}

/// A row of three that does not fall, the larger the more it spans.
fn contributions(random: &mut Random, mood: Mood, span: usize) -> [u32; 3] {
    let scale = match random.between(0, 2) {
        0 => 1,
        1 => span as u32,
        _ => 1 + span as u32 / 2,
    };
    let mut row = [0; 3].map(|_| (size(random, mood) * scale).min(Item::MOST_CONTRIBUTION));
    if random.percent(20) {
        row = [row[0]; 3];
    }
    row.sort();
    row
}

/// One of the faults 7 to 10 in a sheet that had none, where it has a place for it.
fn spoil_sheet(random: &mut Random, sheet: &mut Sheet) {
    if sheet.items.is_empty() && random.percent(50) {
        let contributions = contributions(random, Mood::Small, 1).map(Some);
        sheet.items.push(Item {
            start: 0,
            span: 1,
            contributions,
        });
    }
    let fault = random.between(7, 10);
    if fault == 7 {
        return exceed(random, sheet);
    }
    if sheet.items.is_empty() {
        return;
    }
    let tracks = sheet.tracks.len() as u32;
    let i = random.index(sheet.items.len());
    let item = &mut sheet.items[i];
    match fault {
        8 => {
            let start = random.pick(&[0, u32::from(item.start), tracks.saturating_sub(1), tracks]);
            let places = [
                (u32::from(item.start), 0),
                (start, tracks - start.min(tracks) + 1),
                (tracks, 1),
                (65_535, 1),
                (65_535, 65_535),
            ];
            let (start, span) = random.pick(&places);
            item.start = start as u16;
            item.span = span as u16;
        }
        9 => item.contributions[random.index(3)] = None,
        _ => {
            let high = random.between(1, Item::MOST_CONTRIBUTION);
            let low = random.pick(&[0, high - 1]);
            item.contributions = random
                .pick(&[[high, low, high], [low, high, low], [high, low, low]])
                .map(Some);
        }
    }
}

/// A number over its limit: by one, or by as much as can be.
fn exceed(random: &mut Random, sheet: &mut Sheet) {
    let mut over = |limit: u32| random.pick(&[limit + 1, limit + 1, u32::MAX]);
    let [size_over, factor_over, space_over] =
        [Track::MOST_SIZE, Track::MOST_FACTOR, Space::MOST].map(&mut over);
    let tracks = sheet.tracks.len();
    match random.between(0, 6) {
        0 => sheet.space.constraint = Constraint::Definite(space_over),
        1 => sheet.space.inner = Some(space_over),
        2 if tracks > 0 => {
            sheet.tracks[random.index(tracks)].minimum = Minimum::Fixed(size_over);
        }
        3 if tracks > 0 => {
            sheet.tracks[random.index(tracks)].maximum = random.pick(&[
                Maximum::Fixed(size_over),
                Maximum::FitContent(size_over),
                Maximum::Fr(factor_over),
            ]);
        }
        _ if !sheet.items.is_empty() => {
            let i = random.index(sheet.items.len());
            sheet.items[i].contributions[random.index(3)] = Some(size_over);
        }
        _ => sheet.space.inner = Some(space_over),
    }
}

// Damaged sheets.

/// The places of a sheet's tags, each before its four bytes.
fn tag_places(tracks: usize, items: usize) -> Vec<usize> {
    let mut places = vec![2, 7];
    places.extend((0..2 * tracks).map(|half| sheet::TRACKS_AT + 5 * half));
    for i in 0..items {
        let item = sheet::items_at(tracks) + 19 * i;
        places.extend([item + 4, item + 9, item + 14]);
    }
    places
}

/// One of the faults 1 to 5, or a byte that may be none.
fn damage(random: &mut Random, sheet: &Sheet, bytes: &mut Vec<u8>) {
    let tracks = sheet.tracks.len();
    let items = sheet.items.len();
    let tags = tag_places(tracks, items);
    let last = bytes.len().max(1) - 1;
    // Where the two counts stand.
    let track_count = sheet::TRACKS_AT - 2;
    let item_count = sheet::items_at(tracks) - 2;
    match random.between(0, 9) {
        0 => bytes.truncate(random.pick(&[
            0,
            1,
            2,
            track_count - 1,
            track_count,
            sheet::TRACKS_AT,
            last,
        ])),
        1 => bytes.truncate(random.index(last + 1)),
        2 => {
            for _ in 0..random.pick(&[1, 1, 2, 19, 300]) {
                bytes.push(random.number() as u8);
            }
        }
        3 => {
            let place = random.index(last + 1);
            if let Some(byte) = bytes.get_mut(place) {
                *byte = random.number() as u8;
            }
        }
        4 => {
            let place = random.index(last + 1);
            if let Some(byte) = bytes.get_mut(place) {
                *byte ^= 1 << random.between(0, 7);
            }
        }
        5 | 6 => {
            let mut place = random.pick(&tags);
            if random.percent(15) {
                place = random.pick(&[sheet::STRETCH_AT, sheet::AXIS_AT]);
            }
            if let Some(tag) = bytes.get_mut(place) {
                *tag = random.pick(&[0, 1, 2, 3, 4, 5, 6, 7, 255]);
            }
        }
        7 => {
            // A zero that a tag stands beside, most often one that carries no number.
            let start = random.index(tags.len());
            let from_start = tags[start..].iter().chain(&tags[..start]);
            let bare = from_start.copied().find(|&tag| {
                bytes
                    .get(tag..tag + 5)
                    .is_some_and(|five| five[1..] == [0; 4])
            });
            if let Some(tag) = bare {
                bytes[tag + random.between(1, 4) as usize] = random.pick(&[1, 128, 255]);
            }
        }
        8 => {
            let (place, count) = random.pick(&[
                (0, 0),
                (0, 2),
                (0, 256),
                (track_count, 257),
                (track_count, 65_535),
                (track_count, tracks + 1),
                (track_count, tracks.saturating_sub(1)),
                (item_count, 1025),
                (item_count, 65_535),
                (item_count, items + 1),
                (item_count, items.saturating_sub(1)),
            ]);
            if let Some(two) = bytes.get_mut(place..place + 2) {
                two.copy_from_slice(&(count as u16).to_le_bytes());
            }
        }
        _ if random.percent(50) => {
            // One record too many of a section, and all of them there.
            let mut more = sheet.clone();
            more.tracks.resize(256, NO_TRACK);
            if random.percent(50) {
                more.items.resize(1024, NO_ITEM);
                *bytes = sheet::bytes_of(&more);
                bytes[sheet::items_at(256) - 2..][..2].copy_from_slice(&1025u16.to_le_bytes());
                bytes.extend([0; 19]);
            } else {
                *bytes = sheet::bytes_of(&more);
                bytes[track_count..][..2].copy_from_slice(&257u16.to_le_bytes());
                bytes.splice(
                    sheet::TRACKS_AT..sheet::TRACKS_AT,
                    [1, 0, 0, 0, 0, 1, 0, 0, 0, 0],
                );
            }
        }
        _ => {
            for byte in bytes.iter_mut().skip(2) {
                if random.percent(5) {
                    *byte = random.number() as u8;
                }
            }
        }
    }
}

const NO_TRACK: Track = Track {
    minimum: Minimum::Fixed(0),
    maximum: Maximum::Fixed(0),
};

const NO_ITEM: Item = Item {
    start: 0,
    span: 1,
    contributions: [None; 3],
};

/// The paper's example: a track from auto to 0, and an item that needs 30 dots.
fn w12() -> Sheet {
    Sheet {
        space: Space {
            constraint: Constraint::Definite(100),
            inner: Some(100),
            stretch: false,
            axis: Axis::Inline,
        },
        tracks: vec![Track {
            minimum: Minimum::Auto,
            maximum: Maximum::Fixed(0),
        }],
        items: vec![Item {
            start: 0,
            span: 1,
            contributions: [Some(30); 3],
        }],
    }
}

// Rows to write.

fn write_call(random: &mut Random) -> Call {
    let sheet = sound_sheet(random);
    let mut space = sheet::space_row(&sheet.space);
    let mut tracks: Vec<TrackRow> = sheet.tracks.iter().map(sheet::track_row).collect();
    let mut items: Vec<ItemRow> = sheet.items.iter().map(sheet::item_row).collect();
    let faults = random.pick(&[0, 0, 0, 0, 1, 1, 2]);
    for _ in 0..faults {
        spoil_rows(random, &mut space, &mut tracks, &mut items);
    }
    let length = sheet::items_at(tracks.len()) + 19 * items.len();
    let lent = random.pick(&[
        length,
        length,
        length,
        length + 1,
        length + 40,
        length - 1,
        0,
    ]);
    Call::Write {
        space: Lent::of(random, &[space]),
        tracks: Lent::of(random, &tracks),
        items: Lent::of(random, &items),
        bytes: Lent::blank(random, lent),
        length: blank(random),
        place: blank(random),
    }
}

/// A tag, stretch or axis number that is not listed, a number without use, or too many rows.
fn spoil_rows(
    random: &mut Random,
    space: &mut SpaceRow,
    tracks: &mut Vec<TrackRow>,
    items: &mut Vec<ItemRow>,
) {
    let tag = random.pick(&[0, 1, 2, 3, 4, 5, 6, 7, 255, 256, 257, 300, u32::MAX]);
    let number = random.pick(&[0, 1, 256, 65_536, u32::MAX]);
    let changes_tag = random.percent(60);
    let change = |row: &mut [u32], tag_at: usize| {
        if changes_tag {
            row[tag_at] = tag;
        } else {
            row[tag_at + 1] = number;
        }
    };
    match random.between(0, 99) {
        0..=5 => tracks.resize(random.pick(&[257, 300]), [1, 0, 1, 0]),
        6..=11 => items.resize(random.pick(&[1025, 1100]), [65_536, 0, 0, 0, 0, 0, 0]),
        12..=15 => space[4] = tag,
        16..=19 => space[5] = tag,
        20..=39 => change(space, random.pick(&[0, 2])),
        40..=69 if !tracks.is_empty() => {
            let t = random.index(tracks.len());
            change(&mut tracks[t], random.pick(&[0, 2]));
        }
        _ if !items.is_empty() => {
            let i = random.index(items.len());
            change(&mut items[i], random.pick(&[1, 3, 5]));
        }
        _ => {}
    }
}

// Fills.

fn fill_call(random: &mut Random) -> Call {
    let tracks = match random.between(0, 99) {
        0..=3 => 0,
        4..=69 => random.between(1, 8),
        70..=89 => random.between(9, 60),
        90..=94 => random.between(61, 255),
        95..=97 => 256,
        98 => 257,
        _ => random.between(258, 300),
    } as usize;
    let mut lengths = [tracks; 4];
    if random.percent(6) {
        lengths[random.index(4)] = random.pick(&[tracks + 1, tracks.saturating_sub(1), 0]);
    }

    let most_room = random.pick(&[0, 1, 3, 20, 1000, 65_535, Space::MOST]);
    let affected_of_100 = random.pick(&[0, 50, 90, 100, 100]);
    let limited_of_100 = random.pick(&[0, 50, 90, 100, 100]);
    let affected = marks(random, lengths[0], affected_of_100);
    let limited = marks(random, lengths[1], limited_of_100);
    let mut rooms: Vec<u32> = (0..lengths[2])
        .map(|_| random.between(0, most_room))
        .collect();
    // A room at the limit or over it; over, it is refused only where the track is limited.
    if random.percent(10) && !rooms.is_empty() {
        let t = random.index(rooms.len());
        rooms[t] = random.pick(&[Space::MOST, Space::MOST + 1, u32::MAX]);
    }
    let total: u64 = rooms.iter().map(|room| u64::from(*room)).sum();
    let total = total.min(u64::from(Space::MOST)) as u32;
    let dots = match random.between(0, 19) {
        0 => 0,
        1 => random.pick(&[Space::MOST, Space::MOST + 1, u32::MAX]),
        2 => random.between(0, Space::MOST),
        3 => random.between(0, tracks as u32),
        4 => total,
        _ => random.between(0, total),
    };
    Call::Fill {
        dots,
        affected,
        limited,
        rooms: Lent::of(random, &rooms),
        gains: Lent::blank(random, lengths[3]),
        leftover: blank(random),
        rounds: blank(random),
        place: blank(random),
    }
}
