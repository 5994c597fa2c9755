//! The board call: a sheet's bytes and lent sizes in, the board or a refusal out.
use crate::kinds::Refusal;
use crate::watch::Watch;
use crate::{checks, sheet, sizing};

/// A track's base and limit.
pub type Sizes = [u32; 2];

#[derive(Clone, Copy, Debug, PartialEq, Eq)]
pub struct Board {
    pub tracks: usize,
    pub free: Option<i32>,
    pub rounds: u32,
}

/// Writes a place for each track. Places past the tracks keep what they hold, and so do all where the sheet is refused.
pub fn board(bytes: &[u8], sizes: &mut [Sizes]) -> Result<Board, Refusal> {
    board_watched(bytes, sizes, &mut ())
}

pub fn board_watched(
    bytes: &[u8],
    sizes: &mut [Sizes],
    watch: &mut impl Watch,
) -> Result<Board, Refusal> {
    let sheet = sheet::read(bytes)?;
    checks::check(&sheet, sizes.len())?;
    let (lines, found) = sizing::size(&sheet, watch);
    for (place, line) in sizes.iter_mut().zip(&lines) {
        *place = [line.base, line.limit.unwrap_or(line.base)];
    }
    Ok(Board {
        tracks: lines.len(),
        free: found.free,
        rounds: found.rounds,
    })
}
