//! What a run has reached, as far as inputs and answers tell: so that 'no difference' can be seen to say something.
use crate::calls::{Input, Outcome, Row, DEFINITE, MAX_CONTENT};
use crate::rust::Answer;

/// What an answered call shows, in the same order for every call of one function.
pub fn reached(input: &Input, answer: &Answer) -> Vec<(&'static str, bool)> {
    let after = &answer.outcome;
    match input {
        Input::FlushBase { track } => vec![
            ("planned above 0", track[2] > 0.0),
            ("planned 0", track[2] == 0.0),
            ("base past 1,000,000", after.rows[0][0] > 1_000_000.0),
            (
                "planned lost in rounding",
                track[2] > 0.0 && after.rows[0][0] == track[0],
            ),
        ],
        Input::FlushLimit { track, .. } => vec![
            (
                "infinite limit starts anew",
                track[1].is_infinite() && track[3] > 0.0,
            ),
            ("infinite limit stays", after.rows[0][1].is_infinite()),
            (
                "finite limit raised",
                track[1].is_finite() && track[3] > 0.0,
            ),
            ("planned 0", track[3] == 0.0),
            ("marked after", after.mark),
        ],
        Input::Gutter {
            alignment,
            given,
            known,
            ..
        } => {
            let is_weighed = known.len() > 1 && *alignment >= 7;
            let all_known = known.iter().all(|known| *known);
            vec![
                ("above 0", after.result > 0.0),
                (
                    "overfull or exact",
                    is_weighed && *given && all_known && after.result == 0.0,
                ),
                ("an estimate absent", is_weighed && *given && !all_known),
                ("inner size absent", is_weighed && !*given),
                ("no weight", known.len() > 1 && *alignment < 7),
                ("0 or 1 tracks", known.len() <= 1),
                ("over 200 tracks", known.len() > 200),
            ]
        }
        Input::Distribute {
            space,
            tracks,
            affected,
            sizes,
            limits,
            ..
        } => {
            let is_open = |t: usize| affected[t] && sizes[t] + after.rows[t][4] < limits[t];
            vec![
                ("no pass", answer.passes == 0),
                ("1 pass", answer.passes == 1),
                ("2 passes or more", answer.passes > 1),
                ("10 passes or more", answer.passes > 9),
                (
                    "all the passes that are allowed",
                    answer.passes == tracks.len() + 1,
                ),
                ("space over 0.01 left", after.result > 0.01),
                (
                    "the same with a track below its limit",
                    after.result > 0.01 && (0..tracks.len()).any(is_open),
                ),
                ("space at or below 0.01 at the start", *space <= 0.01),
                ("left below 0", after.result < 0.0),
                ("left -0.0", after.result.to_bits() == 0x8000_0000),
                (
                    "a track past its limit",
                    gained(tracks, after, 4).any(|t| sizes[t] + after.rows[t][4] > limits[t]),
                ),
                (
                    "an infinite limit affected",
                    (0..tracks.len()).any(|t| affected[t] && limits[t].is_infinite()),
                ),
                ("over 200 tracks", tracks.len() > 200),
            ]
        }
        Input::Fr {
            tracks,
            flexible,
            factors,
            space,
        } => {
            let flexible_tracks = || (0..tracks.len()).filter(|t| flexible[*t]);
            let factor_sum: f32 = flexible_tracks().map(|t| factors[t]).sum();
            vec![
                ("space 0", *space == 0.0),
                (
                    "NaN in the first pass, factor 0",
                    *space != 0.0 && flexible_tracks().any(|t| factors[t] == 0.0),
                ),
                (
                    "factors below 1 in sum",
                    *space != 0.0 && factor_sum > 0.0 && factor_sum < 1.0,
                ),
                ("1 pass", answer.passes == 1),
                ("2 passes or more", answer.passes > 1),
                ("4 passes or more", answer.passes > 3),
                (
                    "all the passes that are allowed",
                    answer.passes == tracks.len() + 1,
                ),
                (
                    "a flexible track held",
                    flexible_tracks().any(|t| factors[t] * after.result < tracks[t][0]),
                ),
                ("below 0", after.result < 0.0),
                ("-0.0", after.result.to_bits() == 0x8000_0000),
                ("no tracks", tracks.is_empty()),
                ("over 200 tracks", tracks.len() > 200),
            ]
        }
        Input::Maximise {
            tracks,
            fits,
            kind,
            space,
        } => {
            let used: f32 = tracks.iter().map(|row| row[0]).sum();
            let free = *space - used;
            let gains: Vec<f32> = gained(tracks, after, 0)
                .map(|t| after.rows[t][0] - tracks[t][0])
                .collect();
            let is_definite = *kind == DEFINITE;
            vec![
                ("infinite free space", *kind == MAX_CONTENT),
                (
                    "a base made infinite",
                    after.rows.iter().any(|row| row[0].is_infinite()),
                ),
                ("free above 0.01", is_definite && free > 0.01),
                (
                    "free above 0, at most 0.01",
                    is_definite && free > 0.0 && free <= 0.01,
                ),
                ("free 0 or less", is_definite && free <= 0.0),
                (
                    "two gains far apart",
                    is_definite && gains.iter().any(|gain| gain - gains[0] > 1.0),
                ),
                (
                    "fit-content below the limit",
                    is_definite && free > 0.01 && (0..tracks.len()).any(|t| fits[t] < tracks[t][1]),
                ),
                (
                    "an increase incurred before",
                    is_definite && free > 0.0 && tracks.iter().any(|row| row[4] > 0.0),
                ),
                ("no tracks", tracks.is_empty()),
                ("over 200 tracks", tracks.len() > 200),
            ]
        }
        Input::Stretch {
            tracks,
            autos,
            given,
            kind,
            ..
        } => {
            let has_auto = autos.iter().any(|auto| *auto);
            let grew = gained(tracks, after, 0).next().is_some();
            vec![
                ("stretched to definite space", *kind == DEFINITE && grew),
                ("stretched to the minimum size", *kind != DEFINITE && grew),
                ("no minimum size", has_auto && *kind != DEFINITE && !*given),
                ("nothing free", has_auto && !grew),
                ("no auto track", !has_auto),
                (
                    "some tracks not auto",
                    grew && autos.iter().any(|auto| !*auto),
                ),
                ("over 200 tracks", tracks.len() > 200),
            ]
        }
    }
}

/// The tracks in whose rows this number is larger than before.
fn gained<'a>(
    tracks: &'a [Row],
    after: &'a Outcome,
    number: usize,
) -> impl Iterator<Item = usize> + 'a {
    (0..tracks.len()).filter(move |t| after.rows[*t][number] > tracks[*t][number])
}
