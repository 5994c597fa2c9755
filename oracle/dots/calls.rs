//! The five calls, each with all that is lent to it.
use crate::lent::{Lent, Memory};
use dots::board::Sizes;
use dots::sheet::{ItemRow, SpaceRow, TrackRow};

/// In the order of the header's functions.
pub const NAMES: [&str; 5] = [
    "torrivask_board",
    "torrivask_fill",
    "torrivask_read_sheet",
    "torrivask_write_sheet",
    "torrivask_sheet_end",
];

/// The arguments in the header's order, before the call or after it.
#[derive(Clone)]
pub enum Call {
    Board {
        sheet: Lent<u8>,
        sizes: Lent<Sizes>,
        tracks: Lent<u32>,
        definite: Lent<u8>,
        free: Lent<i32>,
        rounds: Lent<u32>,
        place: Lent<u64>,
    },
    Fill {
        dots: u32,
        affected: Lent<u8>,
        limited: Lent<u8>,
        rooms: Lent<u32>,
        gains: Lent<u32>,
        leftover: Lent<u32>,
        rounds: Lent<u32>,
        place: Lent<u64>,
    },
    Read {
        sheet: Lent<u8>,
        space: Lent<SpaceRow>,
        tracks: Lent<TrackRow>,
        items: Lent<ItemRow>,
        track_count: Lent<u32>,
        item_count: Lent<u32>,
        place: Lent<u64>,
    },
    Write {
        space: Lent<SpaceRow>,
        tracks: Lent<TrackRow>,
        items: Lent<ItemRow>,
        bytes: Lent<u8>,
        length: Lent<u64>,
        place: Lent<u64>,
    },
    End {
        bytes: Lent<u8>,
        end: Lent<u64>,
        place: Lent<u64>,
    },
}

impl Call {
    /// Which of the names is its.
    pub fn number(&self) -> usize {
        match self {
            Call::Board { .. } => 0,
            Call::Fill { .. } => 1,
            Call::Read { .. } => 2,
            Call::Write { .. } => 3,
            Call::End { .. } => 4,
        }
    }

    pub fn memories(&self) -> Vec<(&'static str, &dyn Memory)> {
        match self {
            Call::Board {
                sheet,
                sizes,
                tracks,
                definite,
                free,
                rounds,
                place,
            } => vec![
                ("sheet", sheet),
                ("sizes", sizes),
                ("tracks", tracks),
                ("definite", definite),
                ("free", free),
                ("rounds", rounds),
                ("place", place),
            ],
            Call::Fill {
                dots: _,
                affected,
                limited,
                rooms,
                gains,
                leftover,
                rounds,
                place,
            } => vec![
                ("affected", affected),
                ("limited", limited),
                ("rooms", rooms),
                ("gains", gains),
                ("leftover", leftover),
                ("rounds", rounds),
                ("place", place),
            ],
            Call::Read {
                sheet,
                space,
                tracks,
                items,
                track_count,
                item_count,
                place,
            } => vec![
                ("sheet", sheet),
                ("space", space),
                ("tracks", tracks),
                ("items", items),
                ("track_count", track_count),
                ("item_count", item_count),
                ("place", place),
            ],
            Call::Write {
                space,
                tracks,
                items,
                bytes,
                length,
                place,
            } => vec![
                ("space", space),
                ("tracks", tracks),
                ("items", items),
                ("bytes", bytes),
                ("length", length),
                ("place", place),
            ],
            Call::End { bytes, end, place } => {
                vec![("bytes", bytes), ("end", end), ("place", place)]
            }
        }
    }

    pub fn print(&self) {
        if let Call::Fill { dots, .. } = self {
            println!("  dots {dots}");
        }
        for (name, memory) in self.memories() {
            println!("  {name} {}", memory.text());
        }
    }

    /// What differs in all that was lent, after the same call on two sides.
    pub fn differences(&self, other: &Call) -> Vec<String> {
        let mut differences = Vec::new();
        for ((name, mine), (_, others)) in self.memories().into_iter().zip(other.memories()) {
            let mut pairs = mine.bytes().iter().zip(others.bytes());
            if let Some(at) = pairs.position(|(mine, others)| mine != others) {
                let [mine, others] = [mine, others].map(|memory| memory.text_at(at));
                differences.push(format!("{name}: {mine}, not {others}"));
            }
        }
        differences
    }
}
