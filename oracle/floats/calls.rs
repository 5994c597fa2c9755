//! The seven calls: what each is given, what is seen of it afterwards, and the calls of the proved library through C.
use torrivask::c::{
    torrivask_compute_alignment_gutter_adjustment, torrivask_distribute_space_up_to_limits,
    torrivask_find_size_of_fr, torrivask_flush_planned_base_size_increases,
    torrivask_flush_planned_growth_limit_increases, torrivask_maximise_tracks,
    torrivask_stretch_auto_tracks,
};
pub use torrivask::FloatTrack as Row;

pub const DEFINITE: u32 = 1;
pub const MIN_CONTENT: u32 = 2;
pub const MAX_CONTENT: u32 = 3;

/// What a result float holds before the call, and what the place holds: values that no call gives.
pub const RESULT_BEFORE: u32 = 0xdead_beef;
const PLACE_BEFORE: u64 = 0xa5a5_5a5a_0f0f_f0f0;

/// What stands on either side of the lent rows, and must still stand there afterwards.
const BESIDE: Row = [-77.0; 5];

/// The arguments of a call in call order, without the lent result and place.
#[derive(Clone)]
pub enum Input {
    FlushBase {
        track: Row,
    },
    FlushLimit {
        track: Row,
        growable: bool,
        mark: bool,
    },
    Gutter {
        alignment: u32,
        given: bool,
        inner: f32,
        known: Vec<bool>,
        estimates: Vec<f32>,
    },
    Distribute {
        space: f32,
        tracks: Vec<Row>,
        affected: Vec<bool>,
        proportions: Vec<f32>,
        sizes: Vec<f32>,
        limits: Vec<f32>,
    },
    Fr {
        tracks: Vec<Row>,
        flexible: Vec<bool>,
        factors: Vec<f32>,
        space: f32,
    },
    Maximise {
        tracks: Vec<Row>,
        fits: Vec<f32>,
        kind: u32,
        space: f32,
    },
    Stretch {
        tracks: Vec<Row>,
        autos: Vec<bool>,
        given: bool,
        minimum: f32,
        kind: u32,
        space: f32,
    },
}

/// The names of the calls, in the order of their numbers.
pub const NAMES: [&str; 7] = [
    "flush_planned_base_size_increases",
    "flush_planned_growth_limit_increases",
    "compute_alignment_gutter_adjustment",
    "distribute_space_up_to_limits",
    "find_size_of_fr",
    "maximise_tracks",
    "stretch_auto_tracks",
];

impl Input {
    pub fn function(&self) -> usize {
        match self {
            Input::FlushBase { .. } => 0,
            Input::FlushLimit { .. } => 1,
            Input::Gutter { .. } => 2,
            Input::Distribute { .. } => 3,
            Input::Fr { .. } => 4,
            Input::Maximise { .. } => 5,
            Input::Stretch { .. } => 6,
        }
    }

    pub fn rows(&self) -> &[Row] {
        match self {
            Input::FlushBase { track } | Input::FlushLimit { track, .. } => {
                std::slice::from_ref(track)
            }
            Input::Gutter { .. } => &[],
            Input::Distribute { tracks, .. }
            | Input::Fr { tracks, .. }
            | Input::Maximise { tracks, .. }
            | Input::Stretch { tracks, .. } => tracks,
        }
    }

    /// Whether the call may write to the rows.
    pub fn lends_rows(&self) -> bool {
        !matches!(self, Input::Gutter { .. } | Input::Fr { .. })
    }
}

/// All that is seen of a call afterwards.
pub struct Outcome {
    /// 0, or the refusal's number.
    pub number: u32,
    /// The refusal's place; an answer leaves it as it was.
    pub place: u64,
    /// The result float, as it was where the call has none.
    pub result: f32,
    /// The rows that were lent for writing.
    pub rows: Vec<Row>,
    pub mark: bool,
    /// Whether what lies on either side of the lent rows is as it was.
    pub beside_kept: bool,
}

impl Outcome {
    /// An answer that has touched nothing.
    pub fn before(input: &Input) -> Outcome {
        Outcome {
            number: 0,
            place: PLACE_BEFORE,
            result: f32::from_bits(RESULT_BEFORE),
            rows: if input.lends_rows() {
                input.rows().to_vec()
            } else {
                Vec::new()
            },
            mark: matches!(input, Input::FlushLimit { growable: true, .. }),
            beside_kept: true,
        }
    }

    /// A refusal, which writes the place and nothing else.
    pub fn refused(input: &Input, number: u32, place: u64) -> Outcome {
        Outcome {
            number,
            place,
            ..Outcome::before(input)
        }
    }

    /// Whether two calls ended alike, bit for bit.
    pub fn is_same(&self, other: &Outcome) -> bool {
        let bits =
            |rows: &[Row]| -> Vec<u32> { rows.iter().flatten().map(|x| x.to_bits()).collect() };
        self.number == other.number
            && self.place == other.place
            && self.result.to_bits() == other.result.to_bits()
            && bits(&self.rows) == bits(&other.rows)
            && self.mark == other.mark
            && self.beside_kept == other.beside_kept
    }
}

/// What the proved library makes of an input.
pub fn library(input: &Input) -> Outcome {
    let mut seen = Outcome::before(input);
    let count = seen.rows.len();
    let mut lent = Vec::with_capacity(count + 2);
    lent.push(BESIDE);
    lent.extend_from_slice(&seen.rows);
    lent.push(BESIDE);
    let rows: *mut Row = lent[1..].as_mut_ptr();
    let (place, result, growable): (*mut u64, *mut f32, *mut bool) =
        (&mut seen.place, &mut seen.result, &mut seen.mark);
    // The lengths are those of the lists, and everything lent lives until the call is back.
    seen.number = unsafe {
        match input {
            Input::FlushBase { .. } => torrivask_flush_planned_base_size_increases(rows, place),
            Input::FlushLimit { mark, .. } => {
                torrivask_flush_planned_growth_limit_increases(rows, growable, *mark, place)
            }
            Input::Gutter {
                alignment,
                given,
                inner,
                known,
                estimates,
            } => torrivask_compute_alignment_gutter_adjustment(
                *alignment,
                *given,
                *inner,
                known.as_ptr(),
                known.len(),
                estimates.as_ptr(),
                estimates.len(),
                result,
                place,
            ),
            Input::Distribute {
                space,
                affected,
                proportions,
                sizes,
                limits,
                ..
            } => torrivask_distribute_space_up_to_limits(
                *space,
                rows,
                count,
                affected.as_ptr(),
                affected.len(),
                proportions.as_ptr(),
                proportions.len(),
                sizes.as_ptr(),
                sizes.len(),
                limits.as_ptr(),
                limits.len(),
                result,
                place,
            ),
            Input::Fr {
                tracks,
                flexible,
                factors,
                space,
            } => torrivask_find_size_of_fr(
                tracks.as_ptr(),
                tracks.len(),
                flexible.as_ptr(),
                flexible.len(),
                factors.as_ptr(),
                factors.len(),
                *space,
                result,
                place,
            ),
            Input::Maximise {
                fits, kind, space, ..
            } => torrivask_maximise_tracks(
                rows,
                count,
                fits.as_ptr(),
                fits.len(),
                *kind,
                *space,
                place,
            ),
            Input::Stretch {
                autos,
                given,
                minimum,
                kind,
                space,
                ..
            } => torrivask_stretch_auto_tracks(
                rows,
                count,
                autos.as_ptr(),
                autos.len(),
                *given,
                *minimum,
                *kind,
                *space,
                place,
            ),
        }
    };
    seen.beside_kept = lent[0] == BESIDE && lent[count + 1] == BESIDE;
    seen.rows = lent[1..=count].to_vec();
    seen
}
