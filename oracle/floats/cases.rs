//! Cases as text, for a program that runs them again (crates/float_vectors), and to show a difference. Every number is decimal, a
//! float is its bit pattern, and a case is:
//!
//!     # NAME
//!     the function's number, 0 to 6; its choice; its space; its mark; its size
//!     its tracks
//!     its marks
//!     its first list of floats
//!     its second
//!     its third
//!     0 0 0 for an answer, 1 NUMBER PLACE for a refusal; the result float after the call; the mark after the call
//!     the tracks after the call, where they are lent for writing
//!
//! What a function does not have is 0, and an empty list. The choice is the alignment, or the kind of the space less 1; the mark is
//! whether a size is given, or the one that a limit gets; the size is the inner or the minimum one. A bool is 0 or 1. A list is its
//! length, then its entries; tracks are their count, then five numbers each. A flush has one track, and one entry in its marks:
//! whether the track is infinitely growable. A result float holds RESULT_BEFORE before the call.
use crate::calls::{library, Input, Outcome, Row, DEFINITE, NAMES, RESULT_BEFORE};
use crate::domain;
use crate::inputs::{self, Lengths};
use crate::random::Random;
use crate::{expected, stream};

/// The refusals' numbers, as counted.
pub const REFUSALS: [u32; 4] = [4, 12, 13, 14];

/// No list of a short case is longer.
const SHORT: usize = 9;

/// What share of a sample each function has, in hundredths: the more, the more it does.
const SHARES: [usize; 7] = [6, 8, 16, 22, 20, 16, 12];

fn words(numbers: impl IntoIterator<Item = u32>) -> String {
    numbers
        .into_iter()
        .map(|n| n.to_string())
        .collect::<Vec<_>>()
        .join(" ")
}

fn floats(xs: &[f32]) -> String {
    words(std::iter::once(xs.len() as u32).chain(xs.iter().map(|x| x.to_bits())))
}

fn marks(marks: &[bool]) -> String {
    words(std::iter::once(marks.len() as u32).chain(marks.iter().map(|mark| *mark as u32)))
}

fn tracks(rows: &[Row]) -> String {
    words(std::iter::once(rows.len() as u32).chain(rows.iter().flatten().map(|x| x.to_bits())))
}

/// The arguments of any function: what it does not have is 0, or empty.
#[derive(Default)]
struct Arguments<'a> {
    choice: u32,
    space: f32,
    mark: bool,
    size: f32,
    tracks: &'a [Row],
    marks: &'a [bool],
    floats: [&'a [f32]; 3],
}

fn arguments_of(input: &Input) -> Arguments<'_> {
    let given = Arguments {
        tracks: input.rows(),
        ..Arguments::default()
    };
    match input {
        Input::FlushBase { .. } => Arguments {
            marks: &[false],
            ..given
        },
        Input::FlushLimit { growable, mark, .. } => Arguments {
            mark: *mark,
            marks: std::slice::from_ref(growable),
            ..given
        },
        Input::Gutter {
            alignment,
            given: is_given,
            inner,
            known,
            estimates,
        } => Arguments {
            choice: *alignment,
            mark: *is_given,
            size: *inner,
            marks: known,
            floats: [estimates, &[], &[]],
            ..given
        },
        Input::Distribute {
            space,
            affected,
            proportions,
            sizes,
            limits,
            ..
        } => Arguments {
            space: *space,
            marks: affected,
            floats: [proportions, sizes, limits],
            ..given
        },
        Input::Fr {
            flexible,
            factors,
            space,
            ..
        } => Arguments {
            space: *space,
            marks: flexible,
            floats: [factors, &[], &[]],
            ..given
        },
        Input::Maximise {
            fits, kind, space, ..
        } => Arguments {
            choice: kind.wrapping_sub(DEFINITE),
            space: *space,
            floats: [fits, &[], &[]],
            ..given
        },
        Input::Stretch {
            autos,
            given: is_given,
            minimum,
            kind,
            space,
            ..
        } => Arguments {
            choice: kind.wrapping_sub(DEFINITE),
            space: *space,
            mark: *is_given,
            size: *minimum,
            marks: autos,
            ..given
        },
    }
}

/// The function's number and its arguments.
pub fn arguments(input: &Input) -> Vec<String> {
    let given = arguments_of(input);
    let mut lines = vec![
        words([
            input.function() as u32,
            given.choice,
            given.space.to_bits(),
            given.mark as u32,
            given.size.to_bits(),
        ]),
        tracks(given.tracks),
        marks(given.marks),
    ];
    lines.extend(given.floats.map(floats));
    lines
}

/// What is seen after the call.
pub fn after(outcome: &Outcome) -> Vec<String> {
    let told = match outcome.number {
        0 => "0 0 0".to_string(),
        number => format!("1 {number} {}", outcome.place),
    };
    let result = outcome.result.to_bits();
    vec![
        format!("{told} {result} {}", outcome.mark as u32),
        tracks(&outcome.rows),
    ]
}

fn longest(input: &Input) -> usize {
    let given = arguments_of(input);
    let longest_of_floats = given.floats.iter().map(|list| list.len()).max();
    given
        .tracks
        .len()
        .max(given.marks.len())
        .max(longest_of_floats.unwrap_or(0))
}

/// Whether a function ever refuses by this number.
fn can_refuse(function: usize, number: u32) -> bool {
    match number {
        12 => function > 1,
        14 => function == 2,
        _ => true,
    }
}

/// A random input that is refused by this number, or answered for 0, with lists as long as asked for.
fn wanted(random: &mut Random, function: usize, number: u32, lengths: Lengths) -> Input {
    loop {
        let input = inputs::input(random, function, lengths);
        let fits = matches!(lengths, Lengths::Long) || longest(&input) <= SHORT;
        if fits && domain::refusal(&input).map_or(0, |(number, _)| number) == number {
            return input;
        }
    }
}

/// The inputs of a sample: of sixteen of one function, one for each refusal it has, four by 13, and the rest answered. None is
/// refused by 4: a number that stands for no alignment or kind can be handed over through C alone. The first sixteen end with a
/// long answered one, and the second begin with lists that are too long.
fn sample_inputs(count: usize, seed: u64) -> Vec<Input> {
    let mut inputs = Vec::with_capacity(count);
    for function in 0..NAMES.len() {
        let mut random = stream(seed, function);
        for i in 0..count * SHARES[function] / 100 {
            let number = match i % 16 {
                0 => 12,
                1 => 14,
                2..=5 => 13,
                _ => 0,
            };
            let number = if can_refuse(function, number) {
                number
            } else {
                0
            };
            let lengths = if function > 1 && (i == 15 || i == 16) {
                Lengths::Long
            } else {
                Lengths::Short
            };
            inputs.push(wanted(&mut random, function, number, lengths));
        }
    }
    inputs
}

/// How many of the cases are answered, and how many refused by each number.
fn counts(inputs: &[Input]) -> String {
    let of = |number: u32| {
        inputs
            .iter()
            .filter(|input| domain::refusal(input).map_or(0, |(n, _)| n) == number)
            .count()
    };
    let refused: Vec<String> = REFUSALS
        .iter()
        .filter(|number| of(**number) > 0)
        .map(|number| format!("{} by {number}", of(*number)))
        .collect();
    format!(
        "{} cases, {} answered, refused {}",
        inputs.len(),
        of(0),
        refused.join(", ")
    )
}

/// The head of the file. It is one line, and the name of the first case, since a case begins with one # line.
fn head(inputs: &[Input], count: usize, seed: u64) -> String {
    let names: Vec<String> = NAMES
        .iter()
        .enumerate()
        .map(|(n, name)| format!("{n} {name}"))
        .collect();
    format!(
        "Written by `target/oracle-floats/compare sample {count} {seed}` (oracle/floats), what is answered by the Rust: {}. \
         A case is a # line with its name; the function's number ({}), its choice (the alignment, in the Rust's order from 0, or \
         the space: 0 definite, 1 min-content, 2 max-content), its space, its mark (whether a size is given, or the one that a \
         limit gets) and its size; its tracks; its marks (of a flush: whether the track is infinitely growable); three lists of \
         floats in call order; 0 0 0 for an answer, 1 NUMBER PLACE for a refusal, the result float after the call (before it is \
         {RESULT_BEFORE}) and the mark after it; the tracks after the call, where they are lent for writing. What a function does \
         not have is 0, or empty. A float is its bit pattern in decimal, a bool 0 or 1, a list its length and its entries, tracks \
         their count and five numbers each (base size, growth limit, planned increase of the base, of the limit, incurred \
         increase). First case:",
        counts(inputs),
        names.join(", "),
    )
}

/// The sample as text, and how many of its cases the library ends otherwise.
pub fn sample(count: usize, seed: u64) -> (String, usize) {
    let inputs = sample_inputs(count, seed);
    let mut lines = Vec::new();
    let mut different = 0;
    for (i, input) in inputs.iter().enumerate() {
        let outcome = expected(input).0;
        different += !library(input).is_same(&outcome) as usize;
        let told = match outcome.number {
            0 => "answered".to_string(),
            number => format!("refused by {number}"),
        };
        let name = format!("{} {i}, {told}", NAMES[input.function()]);
        lines.push(if i == 0 {
            format!("# {} {name}", head(&inputs, count, seed))
        } else {
            format!("# {name}")
        });
        lines.extend(arguments(input));
        lines.extend(after(&outcome));
    }
    lines.push(String::new());
    (lines.join("\n"), different)
}
