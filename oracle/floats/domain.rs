//! Which calls are refused, by the paper's table: worked out from the paper alone, on bit patterns. With the sign bit clear,
//! floats rise with their bits, and the NaNs lie above infinity.
use crate::calls::{Input, Row, DEFINITE, MAX_CONTENT};

/// The most tracks of a board.
const MOST_TRACKS: usize = 256;

/// The last alignment, space around.
const LAST_ALIGNMENT: u32 = 9;

/// An unlisted kind or alignment, slices of the wrong length, a float outside its domain, a gutter count.
const UNLISTED: u32 = 4;
const LENGTHS: u32 = 12;
const OUTSIDE: u32 = 13;
const GUTTERS: u32 = 14;

#[derive(Clone, Copy)]
enum Kind {
    Size,
    Limit,
    Factor,
    Proportion,
}

/// A number of a call: what it is for, and its value; nothing where it is absent.
type Number = Option<(Kind, f32)>;

fn holds(kind: Kind, x: f32) -> bool {
    let bits = x.to_bits();
    let is_proportion = (0.001f32.to_bits()..=1000.0f32.to_bits()).contains(&bits);
    match kind {
        Kind::Size => bits <= 1_000_000.0f32.to_bits(),
        Kind::Limit => bits <= 1_000_000.0f32.to_bits() || bits == f32::INFINITY.to_bits(),
        Kind::Factor => bits == 0 || is_proportion,
        Kind::Proportion => is_proportion,
    }
}

/// The refusal's number and place, or none where the call is answered: 4, then 12, 14, 13.
pub fn refusal(input: &Input) -> Option<(u32, u64)> {
    if !is_listed(input) {
        return Some((UNLISTED, 0));
    }
    let lengths = lengths(input);
    if lengths
        .iter()
        .any(|length| *length != lengths[0] || *length > MOST_TRACKS)
    {
        return Some((LENGTHS, 0));
    }
    if let Input::Gutter { known, .. } = input {
        if known.len() == 3 || known.len() % 2 == 0 && !known.is_empty() {
            return Some((GUTTERS, 0));
        }
    }
    let fault = numbers(input)
        .iter()
        .position(|number| number.is_some_and(|(kind, x)| !holds(kind, x)));
    fault.map(|index| (OUTSIDE, index as u64))
}

fn is_listed(input: &Input) -> bool {
    match input {
        Input::Gutter { alignment, .. } => *alignment <= LAST_ALIGNMENT,
        Input::Maximise { kind, .. } | Input::Stretch { kind, .. } => {
            (DEFINITE..=MAX_CONTENT).contains(kind)
        }
        _ => true,
    }
}

fn lengths(input: &Input) -> Vec<usize> {
    match input {
        Input::FlushBase { .. } | Input::FlushLimit { .. } => Vec::new(),
        Input::Gutter {
            known, estimates, ..
        } => vec![known.len(), estimates.len()],
        Input::Distribute {
            tracks,
            affected,
            proportions,
            sizes,
            limits,
            ..
        } => {
            vec![
                tracks.len(),
                affected.len(),
                proportions.len(),
                sizes.len(),
                limits.len(),
            ]
        }
        Input::Fr {
            tracks,
            flexible,
            factors,
            ..
        } => vec![tracks.len(), flexible.len(), factors.len()],
        Input::Maximise { tracks, fits, .. } => vec![tracks.len(), fits.len()],
        Input::Stretch { tracks, autos, .. } => vec![tracks.len(), autos.len()],
    }
}

/// The call's numbers in the order in which 13 counts them: the scalars, then the slices.
fn numbers(input: &Input) -> Vec<Number> {
    match input {
        Input::FlushBase { track } | Input::FlushLimit { track, .. } => {
            rows(std::slice::from_ref(track))
        }
        Input::Gutter {
            given,
            inner,
            estimates,
            ..
        } => [vec![scalar(*given, *inner)], list(Kind::Size, estimates)].concat(),
        Input::Distribute {
            space,
            tracks,
            proportions,
            sizes,
            limits,
            ..
        } => [
            vec![scalar(true, *space)],
            rows(tracks),
            list(Kind::Proportion, proportions),
            list(Kind::Size, sizes),
            list(Kind::Limit, limits),
        ]
        .concat(),
        Input::Fr {
            tracks,
            factors,
            space,
            ..
        } => [
            vec![scalar(true, *space)],
            rows(tracks),
            list(Kind::Factor, factors),
        ]
        .concat(),
        Input::Maximise {
            tracks,
            fits,
            kind,
            space,
        } => [
            vec![scalar(*kind == DEFINITE, *space)],
            rows(tracks),
            list(Kind::Limit, fits),
        ]
        .concat(),
        Input::Stretch {
            tracks,
            given,
            minimum,
            kind,
            space,
            ..
        } => [
            vec![scalar(*given, *minimum), scalar(*kind == DEFINITE, *space)],
            rows(tracks),
        ]
        .concat(),
    }
}

/// A size or a space that stands by itself. One that is absent keeps its index.
fn scalar(is_there: bool, x: f32) -> Number {
    is_there.then_some((Kind::Size, x))
}

fn list(kind: Kind, xs: &[f32]) -> Vec<Number> {
    xs.iter().map(|x| Some((kind, *x))).collect()
}

fn rows(tracks: &[Row]) -> Vec<Number> {
    let kinds = [Kind::Size, Kind::Limit, Kind::Size, Kind::Size, Kind::Size];
    tracks
        .iter()
        .flat_map(|row| kinds.into_iter().zip(*row))
        .map(Some)
        .collect()
}
