//! Holds the ported float routines, as the proved library has them, against the Rust they were ported from, bit for bit.
//!
//!     compare [COUNT [SEED]]           so many random inputs of each function (200000), from a seed (1)
//!     compare sample [COUNT [SEED]]    writes so many cases (600) as text, with the Rust's answers (cases.rs has the format)
//!
//! What must come out of a call is worked out here: the refusal by domain.rs, and else the answer by the Rust's own text.
mod calls;
mod cases;
mod domain;
mod inputs;
mod random;
mod reached;
mod rust;
mod stand_ins;

use calls::{Input, Outcome, NAMES};
use cases::REFUSALS;
use inputs::Lengths;
use random::Random;

/// The random numbers of one function. Each has a stream of its own, so that none depends on what the others draw.
fn stream(seed: u64, function: usize) -> Random {
    Random::new(Random::new(seed).number() ^ Random::new(function as u64).number())
}

/// What must come of a call, with what it shows of the routine where it is answered.
fn expected(input: &Input) -> (Outcome, Vec<(&'static str, bool)>) {
    if let Some((number, place)) = domain::refusal(input) {
        return (Outcome::refused(input, number, place), Vec::new());
    }
    let answer = rust::answer(input);
    let shown = reached::reached(input, &answer);
    (answer.outcome, shown)
}

/// The counts of one function's run.
#[derive(Default)]
struct Tally {
    runs: usize,
    answered: usize,
    refused: [usize; REFUSALS.len()],
    different: usize,
    reached: Vec<(&'static str, usize)>,
}

impl Tally {
    fn count(&mut self, number: u32, shown: &[(&'static str, bool)], is_same: bool) {
        self.runs += 1;
        match REFUSALS.iter().position(|refusal| *refusal == number) {
            Some(at) => self.refused[at] += 1,
            None => self.answered += 1,
        }
        if self.reached.is_empty() {
            self.reached = shown.iter().map(|(name, _)| (*name, 0)).collect();
        }
        for (counter, (_, is_reached)) in self.reached.iter_mut().zip(shown) {
            counter.1 += *is_reached as usize;
        }
        if !is_same {
            self.different += 1;
        }
    }

    fn print(&self, name: &str) {
        let refused: Vec<String> = REFUSALS
            .iter()
            .zip(self.refused)
            .map(|(number, count)| format!("{count} by {number}"))
            .collect();
        println!(
            "{name}: {} runs, {} answered, refused {}, {} different",
            self.runs,
            self.answered,
            refused.join(", "),
            self.different
        );
        for (name, count) in &self.reached {
            println!("    {name}: {count}");
        }
    }
}

/// A call that came out otherwise, in the form of a case, with both outcomes.
fn print_difference(input: &Input, wanted: &Outcome, seen: &Outcome) {
    println!("# {}", NAMES[input.function()]);
    println!("{}", cases::arguments(input).join("\n"));
    for (told, outcome) in [("wanted", wanted), ("seen", seen)] {
        println!(
            "# {told}: returned {}, place {:#x}",
            outcome.number, outcome.place
        );
        println!("{}", cases::after(outcome).join("\n"));
    }
    if !seen.beside_kept {
        println!("# something was written beside the lent tracks");
    }
}

/// Runs every function on so many inputs, and says whether all came out the same.
fn compare(count: usize, seed: u64) -> bool {
    println!("{count} inputs of each function, seed {seed}");
    let mut first_shown = false;
    let (mut compared, mut different) = (0, 0);
    for (function, name) in NAMES.iter().enumerate() {
        let mut random = stream(seed, function);
        let mut tally = Tally::default();
        for _ in 0..count {
            let input = inputs::input(&mut random, function, Lengths::Any);
            let (wanted, shown) = expected(&input);
            let seen = calls::library(&input);
            let is_same = seen.is_same(&wanted);
            tally.count(wanted.number, &shown, is_same);
            if !is_same && !first_shown {
                first_shown = true;
                print_difference(&input, &wanted, &seen);
            }
        }
        tally.print(name);
        compared += tally.runs;
        different += tally.different;
    }
    println!("{compared} compared, {different} different");
    different == 0
}

/// Writes a sample to standard output, and says whether the library ends each case of it so.
fn write_sample(count: usize, seed: u64) -> bool {
    let (text, different) = cases::sample(count, seed);
    print!("{text}");
    if different > 0 {
        eprintln!("the library ends {different} of these cases otherwise");
    }
    different == 0
}

/// The word as a number, or the default where there is none.
fn number(word: Option<&String>, default: u64) -> u64 {
    match word.map(|word| word.parse()) {
        None => default,
        Some(Ok(number)) => number,
        Some(Err(_)) => {
            eprintln!("usage: compare [sample] [COUNT [SEED]]");
            std::process::exit(2);
        }
    }
}

fn main() {
    let words: Vec<String> = std::env::args().skip(1).collect();
    let is_same = if words.first().is_some_and(|word| word == "sample") {
        write_sample(number(words.get(1), 600) as usize, number(words.get(2), 1))
    } else {
        compare(
            number(words.first(), 200_000) as usize,
            number(words.get(1), 1),
        )
    };
    std::process::exit(if is_same { 0 } else { 1 });
}
