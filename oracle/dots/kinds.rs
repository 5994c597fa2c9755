//! Numbers and kinds: what a sheet says, the limits that belong to each kind, and a refusal.
use std::ops::Range;

/// What is refused, by the paper's number, and where.
#[derive(Clone, Copy, Debug, PartialEq, Eq)]
pub struct Refusal {
    pub number: u32,
    pub place: usize,
}

impl Refusal {
    pub fn at(number: u32, place: usize) -> Refusal {
        Refusal { number, place }
    }
}

#[derive(Clone, Copy, Debug, PartialEq, Eq)]
pub enum Constraint {
    Definite(u32),
    MinContent,
    MaxContent,
}

/// What the tracks lie along: columns along the inline axis, rows along the block axis.
#[derive(Clone, Copy, Debug, PartialEq, Eq)]
pub enum Axis {
    Inline,
    Block,
}

#[derive(Clone, Copy, Debug, PartialEq, Eq)]
pub struct Space {
    pub constraint: Constraint,
    pub inner: Option<u32>,
    pub stretch: bool,
    pub axis: Axis,
}

impl Space {
    pub const MOST: u32 = 16_777_215;
}

#[derive(Clone, Copy, Debug, PartialEq, Eq)]
pub enum Minimum {
    Fixed(u32),
    Auto,
    MinContent,
    MaxContent,
}

impl Minimum {
    pub fn is_intrinsic(self) -> bool {
        !matches!(self, Minimum::Fixed(_))
    }
}

#[derive(Clone, Copy, Debug, PartialEq, Eq)]
pub enum Maximum {
    Fixed(u32),
    Auto,
    MinContent,
    MaxContent,
    FitContent(u32),
    /// A flex factor in thousandths.
    Fr(u32),
}

impl Maximum {
    pub fn is_intrinsic(self) -> bool {
        !matches!(self, Maximum::Fixed(_) | Maximum::Fr(_))
    }
}

#[derive(Clone, Copy, Debug, PartialEq, Eq)]
pub struct Track {
    pub minimum: Minimum,
    pub maximum: Maximum,
}

impl Track {
    pub const MOST: usize = 256;
    pub const MOST_SIZE: u32 = 65_535;
    pub const MOST_FACTOR: u32 = 100_000;

    pub fn is_fixed(self) -> bool {
        matches!(
            (self.minimum, self.maximum),
            (Minimum::Fixed(_), Maximum::Fixed(_))
        )
    }

    pub fn is_fr(self) -> bool {
        matches!(self.maximum, Maximum::Fr(_))
    }
}

#[derive(Clone, Copy, Debug, PartialEq, Eq)]
pub struct Item {
    pub start: u16,
    pub span: u16,
    /// Minimum, min-content, max-content.
    pub contributions: [Option<u32>; 3],
}

impl Item {
    pub const MOST: usize = 1024;
    pub const MOST_CONTRIBUTION: u32 = 65_535;

    /// The tracks it spans, whether or not the board has them.
    pub fn tracks(&self) -> Range<usize> {
        let start = usize::from(self.start);
        start..start + usize::from(self.span)
    }

    /// Its row of three, where none is absent.
    pub fn row(&self) -> Option<[u32; 3]> {
        let [minimum, min_content, max_content] = self.contributions;
        Some([minimum?, min_content?, max_content?])
    }

    /// Of tracks that are there.
    pub fn is_measured(&self, tracks: &[Track]) -> bool {
        tracks[self.tracks()].iter().any(|track| !track.is_fixed())
    }
}

#[derive(Clone, Debug, PartialEq, Eq)]
pub struct Sheet {
    pub space: Space,
    pub tracks: Vec<Track>,
    pub items: Vec<Item>,
}
