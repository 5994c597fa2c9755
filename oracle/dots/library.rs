//! The calls of the proved library, through C.
use crate::calls::Call;
use torrivask::c::{
    torrivask_board, torrivask_fill, torrivask_read_sheet, torrivask_sheet_end,
    torrivask_write_sheet,
};

/// Makes the call and gives what it returns: 0, or the number of a refusal.
pub fn library(call: &mut Call) -> u32 {
    // The lengths are those of the lent memory, which lives on, and none of it is lent twice.
    unsafe {
        match call {
            Call::Board {
                sheet,
                sizes,
                tracks,
                definite,
                free,
                rounds,
                place,
            } => torrivask_board(
                sheet.pointer(),
                sheet.len(),
                sizes.pointer(),
                sizes.len(),
                tracks.pointer(),
                definite.pointer().cast(),
                free.pointer(),
                rounds.pointer(),
                place.pointer(),
            ),
            Call::Fill {
                dots,
                affected,
                limited,
                rooms,
                gains,
                leftover,
                rounds,
                place,
            } => torrivask_fill(
                *dots,
                affected.pointer().cast(),
                affected.len(),
                limited.pointer().cast(),
                limited.len(),
                rooms.pointer(),
                rooms.len(),
                gains.pointer(),
                gains.len(),
                leftover.pointer(),
                rounds.pointer(),
                place.pointer(),
            ),
            Call::Read {
                sheet,
                space,
                tracks,
                items,
                track_count,
                item_count,
                place,
            } => torrivask_read_sheet(
                sheet.pointer(),
                sheet.len(),
                space.pointer(),
                tracks.pointer(),
                tracks.len(),
                items.pointer(),
                items.len(),
                track_count.pointer(),
                item_count.pointer(),
                place.pointer(),
            ),
            Call::Write {
                space,
                tracks,
                items,
                bytes,
                length,
                place,
            } => torrivask_write_sheet(
                space.pointer(),
                tracks.pointer(),
                tracks.len(),
                items.pointer(),
                items.len(),
                bytes.pointer(),
                bytes.len(),
                length.pointer(),
                place.pointer(),
            ),
            Call::End { bytes, end, place } => {
                torrivask_sheet_end(bytes.pointer(), bytes.len(), end.pointer(), place.pointer())
            }
        }
    }
}
