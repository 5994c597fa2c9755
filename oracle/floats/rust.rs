//! The Rust's own answers. The routines themselves are the text that build.py cuts out of the Rust sources; here are only
//! the calls of them, from a case's values and back to what is compared.
use crate::calls::{Input, Outcome, Row, DEFINITE, MIN_CONTENT};
use crate::stand_ins::{AlignContent, Factor, GridTrack, MaxTrackSizingFunction};
use std::cell::Cell;

include!(env!("CUT_RUST"));

/// The Rust's answer, and how many passes the distribution or the fr search made (0 for the others).
pub struct Answer {
    pub outcome: Outcome,
    pub passes: usize,
}

/// What the Rust makes of an input, which must be in the domain.
pub fn answer(input: &Input) -> Answer {
    let mut outcome = Outcome::before(input);
    let mut passes = 0;
    let mut tracks: Vec<GridTrack> = input.rows().iter().map(track_of).collect();
    match input {
        Input::FlushBase { .. } => flush_planned_base_size_increases(&mut tracks),
        Input::FlushLimit { growable, mark, .. } => {
            tracks[0].infinitely_growable = *growable;
            flush_planned_growth_limit_increases(&mut tracks, *mark);
            outcome.mark = tracks[0].infinitely_growable;
        }
        Input::Gutter {
            alignment,
            given,
            inner,
            known,
            estimates,
        } => {
            let no_row = [0.0; 5];
            let tracks: Vec<GridTrack> = known
                .iter()
                .zip(estimates)
                .map(|(known, estimate)| GridTrack {
                    estimate: known.then_some(*estimate),
                    ..track_of(&no_row)
                })
                .collect();
            let inner = given.then_some(*inner);
            let alignment = AlignContent(keyword_of(*alignment));
            outcome.result = compute_alignment_gutter_adjustment(
                alignment,
                inner,
                |track, _| track.estimate,
                &tracks,
            );
        }
        Input::Distribute {
            space,
            affected,
            proportions,
            sizes,
            limits,
            ..
        } => {
            for (t, track) in tracks.iter_mut().enumerate() {
                track.is_affected = affected[t];
                track.proportion = proportions[t];
                track.size = sizes[t];
                track.limit = limits[t];
            }
            let runs = Runs::new();
            outcome.result = distribute_space_up_to_limits(
                *space,
                &mut tracks,
                |track| track.is_affected,
                |track| runs.asked(track, track.proportion),
                |track| track.size,
                |track| track.limit,
            );
            // A pass asks for proportions three times from the front: for their sum, the least increase and the shares.
            passes = runs.count.get() / 3;
        }
        Input::Fr {
            flexible,
            factors,
            space,
            ..
        } => {
            for (t, track) in tracks.iter_mut().enumerate() {
                track.max_track_sizing_function.0.is_fr = flexible[t];
                track.max_track_sizing_function.0.factor = factors[t];
            }
            outcome.result = find_size_of_fr(&tracks, *space);
            // A pass asks the first track twice.
            passes = tracks
                .first()
                .map_or(0, |track| track.max_track_sizing_function.0.asked.get() / 2);
        }
        Input::Maximise {
            fits, kind, space, ..
        } => {
            for (track, fit) in tracks.iter_mut().zip(fits) {
                track.fit = *fit;
            }
            maximise_tracks(&mut tracks, space_of(*kind, *space));
        }
        Input::Stretch {
            autos,
            given,
            minimum,
            kind,
            space,
            ..
        } => {
            for (track, auto) in tracks.iter_mut().zip(autos) {
                track.max_track_sizing_function.0.is_auto = *auto;
            }
            stretch_auto_tracks(
                &mut tracks,
                given.then_some(*minimum),
                space_of(*kind, *space),
            );
        }
    }
    if input.lends_rows() {
        outcome.rows = tracks.iter().map(row_of).collect();
    }
    Answer { outcome, passes }
}

fn track_of(row: &Row) -> GridTrack {
    GridTrack {
        base_size: row[0],
        growth_limit: row[1],
        base_size_planned_increase: row[2],
        growth_limit_planned_increase: row[3],
        item_incurred_increase: row[4],
        infinitely_growable: false,
        max_track_sizing_function: MaxTrackSizingFunction(Factor {
            is_fr: false,
            is_auto: false,
            factor: 0.0,
            asked: Cell::new(0),
        }),
        fit: f32::INFINITY,
        is_affected: false,
        proportion: 0.0,
        size: 0.0,
        limit: 0.0,
        estimate: None,
    }
}

fn row_of(track: &GridTrack) -> Row {
    [
        track.base_size,
        track.growth_limit,
        track.base_size_planned_increase,
        track.growth_limit_planned_increase,
        track.item_incurred_increase,
    ]
}

/// The keyword that has this number in the Rust's own order.
fn keyword_of(alignment: u32) -> AlignContentKeyword {
    use AlignContentKeyword::*;
    let all = [
        Normal,
        Start,
        End,
        FlexStart,
        FlexEnd,
        Center,
        Stretch,
        SpaceBetween,
        SpaceEvenly,
        SpaceAround,
    ];
    *all.iter()
        .find(|keyword| **keyword as u32 == alignment)
        .expect("an alignment that is listed")
}

fn space_of(kind: u32, space: f32) -> AvailableSpace {
    match kind {
        DEFINITE => AvailableSpace::Definite(space),
        MIN_CONTENT => AvailableSpace::MinContent,
        _ => AvailableSpace::MaxContent,
    }
}

/// Counts the rising runs in which a closure is asked about tracks.
struct Runs {
    count: Cell<usize>,
    last: Cell<usize>,
}

impl Runs {
    fn new() -> Runs {
        Runs {
            count: Cell::new(0),
            last: Cell::new(usize::MAX),
        }
    }

    fn asked(&self, track: &GridTrack, answer: f32) -> f32 {
        let at = track as *const GridTrack as usize;
        if at <= self.last.replace(at) {
            self.count.set(self.count.get() + 1);
        }
        answer
    }
}
