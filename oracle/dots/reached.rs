//! What a call of the plain Rust has reached, by the names in aims.rs.
use crate::counters::Counters;
use dots::board::{Board, Sizes};
use dots::fill::Filled;
use dots::kinds::{Axis, Constraint, Item, Maximum, Minimum, Refusal, Sheet, Space, Track};
use dots::sheet::{self, ItemRow, SpaceRow, TrackRow};

/// The section that a byte stands in, where there are so many tracks.
fn section_of_byte(tracks: usize, place: usize) -> &'static str {
    if place < sheet::TRACKS_AT - 2 {
        "space"
    } else if place < sheet::items_at(tracks) - 2 {
        "tracks"
    } else {
        "items"
    }
}

/// The count of tracks, 0 where it is not there.
fn tracks_told(bytes: &[u8]) -> usize {
    match bytes.get(sheet::TRACKS_AT - 2..sheet::TRACKS_AT) {
        Some(two) => usize::from(two[0]) + 256 * usize::from(two[1]),
        None => 0,
    }
}

/// A refusal of 1 to 5, with its section.
fn by_bytes(counters: &mut Counters, bytes: &[u8], refusal: Refusal) {
    let section = section_of_byte(tracks_told(bytes), refusal.place);
    counters.reach_if(refusal == Refusal::at(4, sheet::AXIS_AT), "refused 4, axis");
    counters.reach(&match refusal.number {
        2 => "refused 2".to_string(),
        number => format!("refused {number}, {section}"),
    });
}

pub fn by_board(
    counters: &mut Counters,
    bytes: &[u8],
    sizes: &[Sizes],
    told: Result<Board, Refusal>,
) {
    match told {
        Ok(board) => {
            let sheet = sheet::read(bytes).expect("a sheet that made a board");
            by_answer(counters, &sheet, &board, sizes);
        }
        Err(refusal) if refusal.number <= 5 => by_bytes(counters, bytes, refusal),
        Err(refusal) if refusal.number == 7 => counters.reach(match refusal.place {
            0 => "refused 7, space",
            record if record <= tracks_told(bytes) => "refused 7, tracks",
            _ => "refused 7, items",
        }),
        Err(refusal) => counters.reach(&format!("refused {}", refusal.number)),
    }
}

pub fn minimum_number(minimum: Minimum) -> u32 {
    match minimum {
        Minimum::Fixed(_) => 1,
        Minimum::Auto => 2,
        Minimum::MinContent => 3,
        Minimum::MaxContent => 4,
    }
}

pub fn maximum_number(maximum: Maximum) -> u32 {
    match maximum {
        Maximum::Fixed(_) => 1,
        Maximum::Auto => 2,
        Maximum::MinContent => 3,
        Maximum::MaxContent => 4,
        Maximum::FitContent(_) => 5,
        Maximum::Fr(_) => 6,
    }
}

/// What a board was made of, and its answer.
fn by_answer(counters: &mut Counters, sheet: &Sheet, board: &Board, sizes: &[Sizes]) {
    counters.reach("board");
    counters.reach(if sizes.len() == board.tracks {
        "as many sizes as tracks"
    } else {
        "sizes past the tracks"
    });
    count_space(counters, &sheet.space);
    for track in &sheet.tracks {
        count_track(counters, track);
    }
    for item in &sheet.items {
        count_item(counters, sheet, item);
    }
    let tracks = sheet.tracks.len();
    counters.reach_if(tracks == 0, "no track");
    counters.reach_if(tracks == 255, "255 tracks");
    counters.reach_if(tracks == 256, "256 tracks");
    let items = sheet.items.len();
    counters.reach_if(items == 0, "no item");
    counters.reach_if(items == 1023, "1,023 items");
    counters.reach_if(items == 1024, "1,024 items");
    let mut spans: Vec<u16> = sheet.items.iter().map(|item| item.span).collect();
    spans.sort();
    spans.dedup();
    counters.reach_if(spans.len() >= 3, "3 spans or more");
    spans.clear();
    spans.extend(
        sheet
            .items
            .iter()
            .filter(|item| fr_count(sheet, item) > 0)
            .map(|item| item.span),
    );
    spans.sort();
    spans.dedup();
    counters.reach_if(spans.len() >= 3, "3 spans or more across fr tracks");

    let is_definite = matches!(sheet.space.constraint, Constraint::Definite(_));
    match board.rounds {
        0 => counters.reach_if(is_definite, "5: no round under definite"),
        _ if !is_definite => counters.reach("5: a round under min- or max-content"),
        1 => counters.reach("5: 1 round"),
        2 => counters.reach("5: 2 rounds"),
        _ => counters.reach("5: more rounds"),
    }
    let is_below = sizes[..board.tracks]
        .iter()
        .any(|[base, limit]| limit < base);
    counters.reach_if(is_below, "a limit below its base");
    counters.reach(match board.free {
        None => "free none",
        Some(0) => "free 0",
        Some(free) if free > 0 => "free above 0",
        Some(_) => "free below 0",
    });
}

fn count_space(counters: &mut Counters, space: &Space) {
    let name = match space.constraint {
        Constraint::Definite(_) => "definite",
        Constraint::MinContent => "min-content",
        Constraint::MaxContent => "max-content",
    };
    let inner = match space.inner {
        Some(_) => "given",
        None => "absent",
    };
    counters.reach(name);
    counters.reach(&format!("{name}, inner size {inner}"));
    let axis = match space.axis {
        Axis::Inline => "inline",
        Axis::Block => "block",
    };
    counters.reach(&format!("{axis}, {name}, inner size {inner}"));
    counters.reach_if(space.stretch, "stretch asked");
    let is_most =
        space.constraint == Constraint::Definite(Space::MOST) || space.inner == Some(Space::MOST);
    counters.reach_if(is_most, "a space of 16,777,215");
}

fn count_track(counters: &mut Counters, track: &Track) {
    let minimum = minimum_number(track.minimum);
    let maximum = maximum_number(track.maximum);
    counters.reach(&format!("a track of minimum {minimum}"));
    counters.reach(&format!("a track of maximum {maximum}"));
    let most = Track::MOST_SIZE;
    let is_most = track.minimum == Minimum::Fixed(most)
        || track.maximum == Maximum::Fixed(most)
        || track.maximum == Maximum::FitContent(most);
    counters.reach_if(is_most, "a size of 65,535");
    counters.reach_if(track.maximum == Maximum::Fr(0), "a factor of 0");
    let is_most = track.maximum == Maximum::Fr(Track::MOST_FACTOR);
    counters.reach_if(is_most, "a factor of 100,000");
}

/// The fr tracks that an item spans.
fn fr_count(sheet: &Sheet, item: &Item) -> usize {
    let spanned = &sheet.tracks[item.tracks()];
    spanned.iter().filter(|track| track.is_fr()).count()
}

fn count_item(counters: &mut Counters, sheet: &Sheet, item: &Item) {
    counters.reach_if(item.span == 2, "a span of 2");
    counters.reach_if(item.span > 2, "a span over 2");
    counters.reach_if(item.span == 256, "a span of 256");
    let of_fr = fr_count(sheet, item);
    counters.reach_if(
        of_fr == 1 && item.span > 1,
        "a span across one fr track and others",
    );
    counters.reach_if(of_fr > 1, "a span across two fr tracks or more");
    let is_most = item.contributions.contains(&Some(Item::MOST_CONTRIBUTION));
    counters.reach_if(is_most, "a contribution of 65,535");
    let Some([minimum, min_content, _]) = item.row() else {
        return counters.reach("a contribution absent");
    };
    let maxima = sheet.tracks[item.tracks()]
        .iter()
        .map(|track| match track.maximum {
            Maximum::Fixed(dots) | Maximum::FitContent(dots) => Some(dots),
            _ => None,
        });
    let asks_limited = !matches!(sheet.space.constraint, Constraint::Definite(_));
    if let (true, Some(sum)) = (asks_limited, maxima.sum::<Option<u32>>()) {
        if item.is_measured(&sheet.tracks) && sum < min_content {
            counters.reach(if sum < minimum {
                "limited: cut, then raised to the minimum contribution"
            } else {
                "limited: cut to the maxima"
            });
        }
    }
}

pub fn by_fill(
    counters: &mut Counters,
    dots: u32,
    affected: &[bool],
    limited: &[bool],
    rooms: &[u32],
    gains: usize,
    told: Result<Filled, Refusal>,
) {
    let lengths = [affected.len(), limited.len(), rooms.len()];
    match told {
        Err(refusal) if refusal.number == 12 => {
            let is_one = lengths == [lengths[0]; 3];
            counters.reach(match is_one {
                true if gains == lengths[0] => "refused 12, over 256",
                true => "refused 12, gains alone",
                false => "refused 12, a length",
            });
        }
        Err(refusal) => counters.reach(match refusal.place {
            0 => "refused 7, dots",
            _ => "refused 7, a room",
        }),
        Ok(filled) => {
            counters.reach("filled");
            counters.reach(match filled.rounds {
                0 => "no round",
                1 => "1 round",
                2 => "2 rounds",
                _ => "more rounds",
            });
            counters.reach_if(filled.left > 0, "dots left");
            counters.reach_if(gains == 0, "no track");
            counters.reach_if(gains == 256, "256 tracks");
            counters.reach_if(dots == Space::MOST, "16,777,215 dots");
            for t in 0..gains {
                let (affected, limited, room) = (affected[t], limited[t], rooms[t]);
                counters.reach_if(!affected, "a track unaffected");
                counters.reach_if(affected && !limited, "a track without limit");
                let is_most = affected && limited && room == Space::MOST;
                counters.reach_if(is_most, "a room of 16,777,215");
                let is_beside = !limited && room > Space::MOST;
                counters.reach_if(is_beside, "a number over the limit beside no limit");
            }
        }
    }
}

/// Of so many rows lent for tracks and for items.
pub fn by_read(
    counters: &mut Counters,
    bytes: &[u8],
    lent: [usize; 2],
    told: Result<(Space, usize, usize), Refusal>,
) {
    match told {
        Err(refusal) if refusal.number == 6 => {
            let sheet = sheet::read(bytes).expect("a sheet that was read");
            let is_short = [lent[0] < sheet.tracks.len(), lent[1] < sheet.items.len()];
            counters.reach(match is_short {
                [true, true] => "refused 6, rows of both",
                [true, false] => "refused 6, rows of tracks",
                _ => "refused 6, rows of items",
            });
        }
        Err(refusal) => by_bytes(counters, bytes, refusal),
        Ok((_, tracks, items)) => {
            counters.reach("read");
            counters.reach(if tracks == lent[0] {
                "as many rows as tracks"
            } else {
                "rows past the tracks"
            });
            counters.reach(if items == lent[1] {
                "as many rows as items"
            } else {
                "rows past the items"
            });
        }
    }
}

/// Of so many bytes lent.
pub fn by_write(
    counters: &mut Counters,
    space: &SpaceRow,
    tracks: &[TrackRow],
    items: &[ItemRow],
    lent: usize,
    told: Result<usize, Refusal>,
) {
    let length = sheet::items_at(tracks.len()) + 19 * items.len();
    match told {
        Ok(written) => {
            counters.reach("written");
            counters.reach(if written == lent {
                "written to the last byte lent"
            } else {
                "written, with bytes behind"
            });
        }
        Err(refusal) if refusal.number == 6 => {
            counters.reach_if(lent + 1 == length, "refused 6, a byte short");
            counters.reach_if(lent == 0, "refused 6, no byte lent");
        }
        Err(refusal) => {
            let section = section_of_byte(tracks.len(), refusal.place);
            counters.reach(&format!("refused {}, {section}", refusal.number));
            let is_stretch = refusal == Refusal::at(4, sheet::STRETCH_AT);
            counters.reach_if(is_stretch, "refused 4, stretch");
            let is_axis = refusal == Refusal::at(4, sheet::AXIS_AT);
            counters.reach_if(is_axis, "refused 4, axis");
            let tags = [space[0], space[2], space[4], space[5]].into_iter();
            let tags = tags.chain(tracks.iter().flat_map(|row| [row[0], row[2]]));
            let mut tags = tags.chain(items.iter().flat_map(|row| [row[1], row[3], row[5]]));
            let is_wide = refusal.number == 4 && tags.any(|tag| tag > 255);
            counters.reach_if(is_wide, "refused 4, a number over 255");
            let name = "refused for its rows, with too few bytes lent";
            counters.reach_if(lent < length, name);
        }
    }
}

pub fn by_end(counters: &mut Counters, bytes: &[u8], told: Result<usize, Refusal>) {
    match told {
        Err(refusal) => by_bytes(counters, bytes, refusal),
        Ok(end) => counters.reach(match end.cmp(&bytes.len()) {
            std::cmp::Ordering::Less => "an end before the last byte",
            std::cmp::Ordering::Equal => "an end at the last byte",
            std::cmp::Ordering::Greater => "an end behind the last byte",
        }),
    }
}
