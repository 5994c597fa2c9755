//! Refusals 6 to 10, by number and then by record: space is record 0, track t is 1 + t, item i is 1 + tracks + i.
use crate::kinds::{Constraint, Item, Maximum, Minimum, Refusal, Sheet, Space, Track};

/// Whether a board can be made of the sheet in so many lent sizes.
pub fn check(sheet: &Sheet, sizes: usize) -> Result<(), Refusal> {
    if sizes < sheet.tracks.len() {
        return Err(Refusal::at(6, 0));
    }
    refuse(7, record_over_limit(sheet))?;
    refuse(8, item_where(sheet, is_outside))?;
    refuse(9, item_where(sheet, lacks_a_contribution))?;
    refuse(10, item_where(sheet, falls))
}

fn refuse(number: u32, record: Option<usize>) -> Result<(), Refusal> {
    match record {
        None => Ok(()),
        Some(record) => Err(Refusal::at(number, record)),
    }
}

/// The lowest record with a number over its limit.
fn record_over_limit(sheet: &Sheet) -> Option<usize> {
    if is_space_over(&sheet.space) {
        return Some(0);
    }
    if let Some(t) = sheet.tracks.iter().position(is_track_over) {
        return Some(1 + t);
    }
    item_where(sheet, |item, _| {
        let mut given = item.contributions.iter().flatten();
        given.any(|dots| *dots > Item::MOST_CONTRIBUTION)
    })
}

fn is_space_over(space: &Space) -> bool {
    let constraint = match space.constraint {
        Constraint::Definite(dots) => dots,
        Constraint::MinContent | Constraint::MaxContent => 0,
    };
    constraint > Space::MOST || space.inner.is_some_and(|dots| dots > Space::MOST)
}

fn is_track_over(track: &Track) -> bool {
    let minimum = match track.minimum {
        Minimum::Fixed(dots) => dots > Track::MOST_SIZE,
        _ => false,
    };
    let maximum = match track.maximum {
        Maximum::Fixed(dots) | Maximum::FitContent(dots) => dots > Track::MOST_SIZE,
        Maximum::Fr(factor) => factor > Track::MOST_FACTOR,
        _ => false,
    };
    minimum || maximum
}

/// The record of the first item at fault.
fn item_where(sheet: &Sheet, is_at_fault: impl Fn(&Item, &[Track]) -> bool) -> Option<usize> {
    let i = sheet
        .items
        .iter()
        .position(|item| is_at_fault(item, &sheet.tracks))?;
    Some(1 + sheet.tracks.len() + i)
}

fn is_outside(item: &Item, tracks: &[Track]) -> bool {
    item.span == 0 || item.tracks().end > tracks.len()
}

fn lacks_a_contribution(item: &Item, tracks: &[Track]) -> bool {
    item.row().is_none() && item.is_measured(tracks)
}

fn falls(item: &Item, tracks: &[Track]) -> bool {
    item.row().is_some_and(|row| !row.is_sorted()) && item.is_measured(tracks)
}
