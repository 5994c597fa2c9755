//! Random inputs of each call: most of them wholly in the domain and close to where the routine changes its mind, the others
//! spoilt by a float, a length, a kind or an alignment.
use crate::calls::{Input, Row, DEFINITE, MAX_CONTENT, MIN_CONTENT};
use crate::random::{as_size, stepped, Mood, Random};

/// How long the lists of a case may be.
#[derive(Clone, Copy)]
pub enum Lengths {
    Any,
    Short,
    Long,
}

pub fn input(random: &mut Random, function: usize, lengths: Lengths) -> Input {
    let count = length(random, lengths);
    let mood = random.mood();
    let mut input = match function {
        0 => Input::FlushBase {
            track: row(random, mood),
        },
        1 => Input::FlushLimit {
            track: row(random, mood),
            growable: random.percent(50),
            mark: random.percent(50),
        },
        2 => gutter(random, mood, count),
        3 => distribute(random, mood, count),
        4 => fr(random, mood, count),
        5 => maximise(random, mood, count),
        _ => stretch(random, mood, count),
    };
    match random.below(100) {
        0..=69 => {}
        70..=84 => spoil_floats(random, &mut input, 1),
        85..=89 => {
            let times = random.between(2, 4);
            spoil_floats(random, &mut input, times);
        }
        90..=95 => spoil_length(random, &mut input),
        96..=97 => spoil_kind(random, &mut input),
        _ => {
            spoil_length(random, &mut input);
            spoil_kind(random, &mut input);
            spoil_floats(random, &mut input, 1);
        }
    }
    input
}

fn length(random: &mut Random, lengths: Lengths) -> usize {
    let count = match (lengths, random.below(100)) {
        (Lengths::Long, _) => random.between(255, 257),
        (_, 0..=3) => random.between(0, 1),
        (Lengths::Short, _) | (_, 4..=69) => random.between(1, 8),
        (_, 70..=90) => random.between(9, 24),
        (_, 91..=96) => random.between(25, 100),
        (_, 97) => random.between(101, 254),
        _ => random.pick(&[255, 256, 256, 257]),
    };
    count as usize
}

// ---- In the domain

/// A size of a case, or none of it.
fn size_or_zero(random: &mut Random, mood: Mood, zeros: u64) -> f32 {
    if random.percent(zeros) {
        return 0.0;
    }
    random.size(mood)
}

/// A limit for what already has this size: none, full to a step or two, a little or more room, or below it.
fn limit(random: &mut Random, mood: Mood, size: f32) -> f32 {
    let limit = match random.below(10) {
        0..=2 => return f32::INFINITY,
        3 => random.near(size),
        4 => size + random.near(0.01),
        5 => size + 0.01 * random.between(0, 5) as f32,
        6 => random.size(mood),
        7 => size * 0.5,
        _ => size + random.size(mood),
    };
    as_size(limit)
}

fn row(random: &mut Random, mood: Mood) -> Row {
    let base = random.size(mood);
    let planned = size_or_zero(random, mood, 30);
    [
        base,
        limit(random, mood, base),
        size_or_zero(random, mood, 30),
        planned,
        size_or_zero(random, mood, 60),
    ]
}

fn rows(random: &mut Random, mood: Mood, count: usize) -> Vec<Row> {
    (0..count).map(|_| row(random, mood)).collect()
}

fn marks(random: &mut Random, count: usize) -> Vec<bool> {
    let times = random.pick(&[100, 100, 90, 50, 20, 0]);
    (0..count).map(|_| random.percent(times)).collect()
}

/// A space for what uses so much and has so much room: none, at or near what is used, some of the room, all of it, or more.
fn space(random: &mut Random, mood: Mood, used: f32, room: f32) -> f32 {
    let space = match random.below(12) {
        0 => random.edge(),
        1 => random.near(used),
        2 => used + random.near(0.01),
        3 => used + 0.01 * random.between(0, 4) as f32,
        4 => used + room,
        5 => random.near(used + room),
        6 => used + room + 0.01 * random.between(0, 3) as f32,
        7 => used + room * 0.5,
        8 => used + room * random.between(0, 100) as f32 / 100.0,
        9 => used + room + random.size(mood),
        10 => 1_000_000.0,
        _ => random.size(mood),
    };
    as_size(space)
}

/// The sum of those that are finite.
fn sum(xs: impl Iterator<Item = f32>) -> f32 {
    xs.filter(|x| x.is_finite()).fold(0.0, |sum, x| sum + x)
}

fn used(tracks: &[Row]) -> f32 {
    sum(tracks.iter().map(|row| row[0]))
}

fn gutter(random: &mut Random, mood: Mood, count: usize) -> Input {
    // The adjustment takes 0, 1 and the odd numbers from 5 on; the others are left in now and then.
    let count = if count > 1 && random.percent(94) {
        (count | 1).max(5)
    } else {
        count
    };
    let estimates: Vec<f32> = (0..count).map(|_| random.size(mood)).collect();
    let known = if random.percent(85) {
        vec![true; count]
    } else {
        marks(random, count)
    };
    let inner = space(random, mood, sum(estimates.iter().copied()), 100.0);
    let alignment = if random.percent(80) {
        random.between(7, 9)
    } else {
        random.between(0, 9)
    };
    Input::Gutter {
        alignment: alignment as u32,
        given: random.percent(92),
        inner,
        known,
        estimates,
    }
}

fn distribute(random: &mut Random, mood: Mood, count: usize) -> Input {
    let tracks = rows(random, mood, count);
    let is_base = random.percent(50);
    let sizes: Vec<f32> = tracks
        .iter()
        .map(|row| if is_base { row[0] } else { random.size(mood) })
        .collect();
    let limits: Vec<f32> = tracks
        .iter()
        .zip(&sizes)
        .map(|(row, size)| limit(random, mood, size + row[4]))
        .collect();
    let shares = random.pick(&[
        Mood::Same(1.0),
        Mood::Same(1.0),
        Mood::Whole,
        Mood::Small,
        Mood::Wide,
    ]);
    let proportions = (0..count)
        .map(|_| {
            if let Mood::Same(x) = shares {
                x
            } else {
                random.proportion(shares)
            }
        })
        .collect();
    let room = sum((0..count).map(|t| (limits[t] - sizes[t] - tracks[t][4]).max(0.0)));
    let affected = marks(random, count);
    Input::Distribute {
        space: space(random, mood, 0.0, room),
        tracks,
        affected,
        proportions,
        sizes,
        limits,
    }
}

fn factor(random: &mut Random, mood: Mood, zeros: u64) -> f32 {
    if random.percent(zeros) {
        return 0.0;
    }
    random.proportion(mood)
}

fn fr(random: &mut Random, mood: Mood, count: usize) -> Input {
    let mut tracks = rows(random, mood, count);
    let flexible = marks(random, count);
    let shares = random.pick(&[
        Mood::Same(1.0),
        Mood::Whole,
        Mood::Small,
        Mood::Small,
        Mood::Wide,
    ]);
    let zeros = random.pick(&[0, 0, 10, 50]);
    let factors: Vec<f32> = (0..count).map(|_| factor(random, shares, zeros)).collect();
    let fixed = sum((0..count).filter(|t| !flexible[*t]).map(|t| tracks[t][0]));
    let room = random.size(mood) * count as f32;
    let space = space(random, mood, fixed, room);
    // Bases on either side of a flexible track's share, so that some are held and the search starts again.
    let shared = sum((0..count).filter(|t| flexible[*t]).map(|t| factors[t]));
    let guess = (space - fixed) / shared.max(1.0);
    let closeness = random.pick(&[0, 30, 90]);
    for t in 0..count {
        if flexible[t] && random.percent(closeness) {
            tracks[t][0] = match random.below(5) {
                0 => 0.0,
                1 => as_size(guess * factors[t] * random.between(50, 150) as f32 / 100.0),
                _ => as_size(random.near(as_size(guess * factors[t]))),
            };
        }
    }
    Input::Fr {
        tracks,
        flexible,
        factors,
        space,
    }
}

fn maximise(random: &mut Random, mood: Mood, count: usize) -> Input {
    let tracks = rows(random, mood, count);
    let with_fit = random.pick(&[0, 0, 30, 80]);
    let fits: Vec<f32> = tracks
        .iter()
        .map(|row| {
            if random.percent(with_fit) {
                limit(random, mood, row[0])
            } else {
                f32::INFINITY
            }
        })
        .collect();
    let room = sum(tracks
        .iter()
        .zip(&fits)
        .map(|(row, fit)| (row[1].min(*fit) - row[0]).max(0.0)));
    let space = space(random, mood, used(&tracks), room);
    let kind = random.pick(&[
        DEFINITE,
        DEFINITE,
        DEFINITE,
        DEFINITE,
        DEFINITE,
        MIN_CONTENT,
        MAX_CONTENT,
    ]);
    Input::Maximise {
        tracks,
        fits,
        kind,
        space,
    }
}

fn stretch(random: &mut Random, mood: Mood, count: usize) -> Input {
    let tracks = rows(random, mood, count);
    let autos = marks(random, count);
    let used = used(&tracks);
    let minimum = space(random, mood, used, 100.0);
    let space = space(random, mood, used, 100.0);
    let kind = random.pick(&[DEFINITE, DEFINITE, DEFINITE, MIN_CONTENT, MAX_CONTENT]);
    Input::Stretch {
        tracks,
        autos,
        given: random.percent(60),
        minimum,
        kind,
        space,
    }
}

// ---- Around the domain

fn floats_of_rows(tracks: &mut [Row]) -> Vec<&mut f32> {
    tracks.iter_mut().flatten().collect()
}

/// Every float of a call.
fn floats(input: &mut Input) -> Vec<&mut f32> {
    match input {
        Input::FlushBase { track } | Input::FlushLimit { track, .. } => track.iter_mut().collect(),
        Input::Gutter {
            inner, estimates, ..
        } => std::iter::once(inner).chain(estimates).collect(),
        Input::Distribute {
            space,
            tracks,
            proportions,
            sizes,
            limits,
            ..
        } => std::iter::once(space)
            .chain(floats_of_rows(tracks))
            .chain(proportions)
            .chain(sizes)
            .chain(limits)
            .collect(),
        Input::Fr {
            tracks,
            factors,
            space,
            ..
        } => std::iter::once(space)
            .chain(floats_of_rows(tracks))
            .chain(factors)
            .collect(),
        Input::Maximise {
            tracks,
            fits,
            space,
            ..
        } => std::iter::once(space)
            .chain(floats_of_rows(tracks))
            .chain(fits)
            .collect(),
        Input::Stretch {
            tracks,
            minimum,
            space,
            ..
        } => [minimum, space]
            .into_iter()
            .chain(floats_of_rows(tracks))
            .collect(),
    }
}

fn spoil_floats(random: &mut Random, input: &mut Input, times: u64) {
    let mut floats = floats(input);
    for _ in 0..times {
        // The scalars and the first row are met as often as all the rest.
        let most = if random.percent(50) {
            floats.len().min(7)
        } else {
            floats.len()
        };
        let at = random.below(most as u64) as usize;
        *floats[at] = if random.percent(10) {
            stepped(*floats[at], 1)
        } else {
            random.outside()
        };
    }
}

/// One place more or fewer, or a length of its own.
fn resize<T: Clone>(random: &mut Random, list: &mut Vec<T>, more: T) {
    let length = match random.below(5) {
        0 => 0,
        1 | 2 => list.len() + 1,
        3 => list.len().saturating_sub(1),
        _ => random.between(0, 257) as usize,
    };
    list.resize(length, more);
}

/// One list gets another length, or all of them one that is too large; the flushes have no list.
fn spoil_length(random: &mut Random, input: &mut Input) {
    let which = random.below(6);
    match input {
        Input::FlushBase { .. } | Input::FlushLimit { .. } => {}
        Input::Gutter {
            known, estimates, ..
        } => match which {
            0..=2 => resize(random, known, true),
            3..=4 => resize(random, estimates, 1.0),
            _ => {
                known.resize(257, true);
                estimates.resize(257, 1.0);
            }
        },
        Input::Distribute {
            tracks,
            affected,
            proportions,
            sizes,
            limits,
            ..
        } => match which {
            0 => resize(random, tracks, [1.0; 5]),
            1 => resize(random, affected, true),
            2 => resize(random, proportions, 1.0),
            3 => resize(random, sizes, 1.0),
            4 => resize(random, limits, 1.0),
            _ => {
                tracks.resize(257, [1.0; 5]);
                affected.resize(257, true);
                proportions.resize(257, 1.0);
                sizes.resize(257, 1.0);
                limits.resize(257, 1.0);
            }
        },
        Input::Fr {
            tracks,
            flexible,
            factors,
            ..
        } => match which {
            0 => resize(random, tracks, [1.0; 5]),
            1..=2 => resize(random, flexible, true),
            3..=4 => resize(random, factors, 1.0),
            _ => {
                tracks.resize(257, [1.0; 5]);
                flexible.resize(257, true);
                factors.resize(257, 1.0);
            }
        },
        Input::Maximise { tracks, fits, .. } => match which {
            0..=2 => resize(random, tracks, [1.0; 5]),
            3..=4 => resize(random, fits, 1.0),
            _ => {
                tracks.resize(257, [1.0; 5]);
                fits.resize(257, 1.0);
            }
        },
        Input::Stretch { tracks, autos, .. } => match which {
            0..=2 => resize(random, tracks, [1.0; 5]),
            3..=4 => resize(random, autos, true),
            _ => {
                tracks.resize(257, [1.0; 5]);
                autos.resize(257, true);
            }
        },
    }
}

fn spoil_kind(random: &mut Random, input: &mut Input) {
    match input {
        Input::Gutter { alignment, .. } => {
            *alignment = random.pick(&[10, 11, 255, 256, 263, u32::MAX])
        }
        Input::Maximise { kind, .. } | Input::Stretch { kind, .. } => {
            *kind = random.pick(&[0, 4, 5, 256, 257, u32::MAX])
        }
        _ => {}
    }
}
