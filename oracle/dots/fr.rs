//! The fr search, in exact fractions.
use crate::watch::Watch;

const THOUSAND: u64 = 1000;

/// The size of an fr: dots divided by a sum of factors, which is in thousandths and at least 1.
#[derive(Clone, Copy)]
pub struct Fr {
    dots: u64,
    thousandths: u64,
}

impl Fr {
    pub const ZERO: Fr = Fr::of(0, 0);

    /// So many dots divided by the larger of 1 and the factors.
    pub const fn of(dots: u64, thousandths: u64) -> Fr {
        let thousandths = if thousandths > THOUSAND {
            thousandths
        } else {
            THOUSAND
        };
        Fr { dots, thousandths }
    }

    pub fn is_above(self, other: Fr) -> bool {
        self.dots * other.thousandths > other.dots * self.thousandths
    }

    pub fn larger(self, other: Fr) -> Fr {
        if other.is_above(self) {
            other
        } else {
            self
        }
    }

    /// Factor times fr, rounded down.
    pub fn times(self, factor: u32) -> u32 {
        (u64::from(factor) * self.dots / self.thousandths) as u32
    }

    /// Whether factor times fr is below a size, nothing rounded.
    fn is_short_of(self, factor: u32, size: u32) -> bool {
        u64::from(factor) * self.dots < u64::from(size) * self.thousandths
    }
}

/// A track that the search may still find inflexible.
#[derive(Clone, Copy)]
pub struct Flexible {
    pub factor: u32,
    pub base: u32,
}

/// The search in so much space, of which the tracks that are inflexible from the start hold a part. It uses up the list of others.
pub fn search(
    space: u32,
    mut held: u64,
    flexible: &mut Vec<Flexible>,
    watch: &mut impl Watch,
) -> Fr {
    loop {
        let factors = flexible.iter().map(|track| u64::from(track.factor)).sum();
        let fr = Fr::of(u64::from(space).saturating_sub(held), factors);
        let before = flexible.len();
        flexible.retain(|track| {
            let is_short = fr.is_short_of(track.factor, track.base);
            if is_short {
                held += u64::from(track.base);
            }
            !is_short
        });
        if flexible.len() == before {
            return fr;
        }
        watch.restarted();
    }
}
