//! The fill: dots shared evenly below limits, in rounds.
use crate::kinds::{Refusal, Space, Track};

/// The room of a track without limit: more than there can be dots, so it is never full.
pub const NO_LIMIT: u32 = u32::MAX;

/// What a fill leaves, and how many rounds it took.
#[derive(Clone, Copy, Debug, PartialEq, Eq)]
pub struct Filled {
    pub left: u32,
    pub rounds: u32,
}

/// The fill called by itself, with refusals 12 and 7. A track has a room only where it is limited.
pub fn fill(
    dots: u32,
    affected: &[bool],
    limited: &[bool],
    rooms: &[u32],
    gains: &mut [u32],
) -> Result<Filled, Refusal> {
    let tracks = gains.len();
    let lengths = [affected.len(), limited.len(), rooms.len()];
    if tracks > Track::MOST || lengths.iter().any(|length| *length != tracks) {
        return Err(Refusal::at(12, 0));
    }
    if dots > Space::MOST {
        return Err(Refusal::at(7, 0));
    }
    if let Some(t) = (0..tracks).find(|&t| limited[t] && rooms[t] > Space::MOST) {
        return Err(Refusal::at(7, 1 + t));
    }

    let mut open_rooms = [0; Track::MOST];
    for t in 0..tracks {
        open_rooms[t] = match (affected[t], limited[t]) {
            (false, _) => 0,
            (true, true) => rooms[t],
            (true, false) => NO_LIMIT,
        };
    }
    Ok(share(dots, &open_rooms[..tracks], gains))
}

/// Shares the dots among the tracks with room and says what each has gained. A track that is not affected has a room of 0.
pub fn share(mut dots: u32, rooms: &[u32], gains: &mut [u32]) -> Filled {
    gains.fill(0);
    let mut rounds = 0;
    while dots > 0 {
        let (open, least_room) = open_and_least_room(rooms, gains);
        if open == 0 {
            break;
        }

        rounds += 1;
        let quotient = dots / open;
        if quotient == 0 {
            let open_gains = gains
                .iter_mut()
                .zip(rooms)
                .filter(|(gain, room)| **gain < **room)
                .map(|(gain, _)| gain);
            open_gains.take(dots as usize).for_each(|gain| *gain += 1);
            dots = 0;
        } else {
            let each = quotient.min(least_room);
            for (gain, room) in gains.iter_mut().zip(rooms) {
                // An open track has room for all of it, and a full one stays full.
                *gain = (*gain + each).min(*room);
            }
            dots -= each * open;
        }
    }
    Filled { left: dots, rounds }
}

/// How many tracks are open, and the least room of an open one, in one walk without a branch. A full track's room, less one, wraps around
/// and is never the least; where no track is open the second number says nothing.
fn open_and_least_room(rooms: &[u32], gains: &[u32]) -> (u32, u32) {
    let mut open = 0;
    let mut least_less_one = u32::MAX;
    for (gain, room) in gains.iter().zip(rooms) {
        let rest = room - gain;
        open += rest.min(1);
        least_less_one = least_less_one.min(rest.wrapping_sub(1));
    }
    (open, least_less_one.wrapping_add(1))
}
