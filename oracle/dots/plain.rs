//! The same calls of the plain Rust, with what they go through counted.
use crate::calls::Call;
use crate::counters::Counters;
use crate::lent::Lent;
use crate::reached;
use crate::watcher::Watcher;
use dots::board::{board, board_watched, Board, Sizes};
use dots::fill::fill;
use dots::kinds::Refusal;
use dots::sheet;

/// Makes the call and gives what it returns: 0, or the number of a refusal.
pub fn plain(call: &mut Call, counters: &mut Counters) -> u32 {
    match call {
        Call::Board {
            sheet,
            sizes,
            tracks,
            definite,
            free,
            rounds,
            place,
        } => {
            let told = watched(sheet.values(), sizes.values_mut(), counters);
            reached::by_board(counters, sheet.values(), sizes.values(), told);
            answered(told, place, |board| {
                tracks.set(board.tracks as u32);
                definite.set(u8::from(board.free.is_some()));
                if let Some(dots) = board.free {
                    free.set(dots);
                }
                rounds.set(board.rounds);
            })
        }
        Call::Fill {
            dots,
            affected,
            limited,
            rooms,
            gains,
            leftover,
            rounds,
            place,
        } => {
            let [affected, limited] = [affected, limited].map(|marks| marks_of(marks));
            let rooms = rooms.values();
            let told = fill(*dots, &affected, &limited, rooms, gains.values_mut());
            reached::by_fill(
                counters,
                *dots,
                &affected,
                &limited,
                rooms,
                gains.len(),
                told,
            );
            answered(told, place, |filled| {
                leftover.set(filled.left);
                rounds.set(filled.rounds);
            })
        }
        Call::Read {
            sheet,
            space,
            tracks,
            items,
            track_count,
            item_count,
            place,
        } => {
            let lent = [tracks.len(), items.len()];
            let told = sheet::read_rows(sheet.values(), tracks.values_mut(), items.values_mut());
            reached::by_read(counters, sheet.values(), lent, told);
            answered(told, place, |(its_space, its_tracks, its_items)| {
                space.set(sheet::space_row(&its_space));
                track_count.set(its_tracks as u32);
                item_count.set(its_items as u32);
            })
        }
        Call::Write {
            space,
            tracks,
            items,
            bytes,
            length,
            place,
        } => {
            let (space, tracks, items) = (&space.values()[0], tracks.values(), items.values());
            let told = sheet::write(space, tracks, items, bytes.values_mut());
            reached::by_write(counters, space, tracks, items, bytes.len(), told);
            answered(told, place, |written| length.set(written as u64))
        }
        Call::End { bytes, end, place } => {
            let told = sheet::end(bytes.values());
            reached::by_end(counters, bytes.values(), told);
            answered(told, place, |at| end.set(at as u64))
        }
    }
}

/// Writes an answer's results, or a refusal's place and nothing else.
fn answered<A>(told: Result<A, Refusal>, place: &mut Lent<u64>, write: impl FnOnce(A)) -> u32 {
    match told {
        Ok(answer) => {
            write(answer);
            0
        }
        Err(refusal) => {
            place.set(refusal.place as u64);
            refusal.number
        }
    }
}

fn marks_of(bytes: &Lent<u8>) -> Vec<bool> {
    bytes.values().iter().map(|byte| *byte == 1).collect()
}

fn watched(bytes: &[u8], sizes: &mut [Sizes], counters: &mut Counters) -> Result<Board, Refusal> {
    match sheet::read(bytes) {
        Ok(sheet) => board_watched(bytes, sizes, &mut Watcher::new(counters, sheet.space)),
        Err(_) => board(bytes, sizes),
    }
}
