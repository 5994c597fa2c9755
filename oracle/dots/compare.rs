//! Compares the proved library, called through C, with the plain Rust on random inputs: what each call returns, and every byte
//! that was lent to it, with the places beside.
//!
//!     compare [COUNT [SEED]]     so many inputs (1000000) from a seed (1), and what they have reached
//!     compare --one SEED INDEX   a single input again, with what both leave
//!
//! The status is 1 where the two differ, and also where something that the inputs are to reach never occurred.
mod aims;
mod calls;
mod counters;
mod inputs;
mod lent;
mod library;
mod plain;
mod random;
mod reached;
mod watcher;

use aims::AIMS;
use calls::{Call, NAMES};
use counters::Counters;
use library::library;
use plain::plain;
use std::process::exit;

fn main() {
    let words: Vec<String> = std::env::args().skip(1).collect();
    let words: Vec<&str> = words.iter().map(String::as_str).collect();
    let is_fine = match words[..] {
        ["--one", seed, index] => show(number(seed), number(index)),
        [] => compare(1_000_000, 1),
        [count] => compare(number(count), 1),
        [count, seed] => compare(number(count), number(seed)),
        _ => usage(),
    };
    exit(if is_fine { 0 } else { 1 })
}

fn number(word: &str) -> u64 {
    word.parse().unwrap_or_else(|_| usage())
}

fn usage() -> ! {
    eprintln!("usage: compare [COUNT [SEED]], or compare --one SEED INDEX");
    exit(2)
}

/// An input, and how the call ended on either side.
struct Run {
    input: Call,
    returned: [u32; 2],
    left: [Call; 2],
}

impl Run {
    fn new(input: Call, counters: &mut [Counters; 5]) -> Run {
        let mut left = [input.clone(), input.clone()];
        let counters = &mut counters[input.number()];
        let returned = [library(&mut left[0]), plain(&mut left[1], counters)];
        counters.next();
        Run {
            input,
            returned,
            left,
        }
    }

    /// The library's side first.
    fn differences(&self) -> Vec<String> {
        let [library, plain] = self.returned;
        let mut differences = self.left[0].differences(&self.left[1]);
        if library != plain {
            differences.insert(0, format!("returned: {library}, not {plain}"));
        }
        differences
    }

    fn print_input(&self, which: &str) {
        let name = NAMES[self.input.number()];
        println!("{name}, {which}");
        self.input.print();
    }

    /// Whether both sides left the same; else the input and the differences are printed.
    fn is_same(&self, which: &str) -> bool {
        let differences = self.differences();
        if !differences.is_empty() {
            self.print_input(which);
            println!("the library differs from the plain Rust:");
            println!("  {}", differences.join("\n  "));
        }
        differences.is_empty()
    }
}

/// Runs all inputs, and says whether all came out the same and everything was reached.
fn compare(count: u64, seed: u64) -> bool {
    println!("{count} inputs, seed {seed}; compare --one {seed} INDEX runs one of them again");
    if !compare_w12(seed) {
        return false;
    }
    let mut counters = AIMS.map(|aims| Counters::new(&aims));
    for index in 0..count {
        let run = Run::new(inputs::call(seed, index), &mut counters);
        if !run.is_same(&format!("--one {seed} {index}")) {
            return false;
        }
    }
    let nevers = NAMES
        .iter()
        .zip(&counters)
        .map(|(name, its)| its.print(name));
    let nevers: usize = nevers.sum();
    println!("{count} compared, 0 different, {nevers} never reached");
    nevers == 0
}

/// Runs every call on W12 cut short and with one byte changed; what they reach is not counted.
fn compare_w12(seed: u64) -> bool {
    let mut counters = AIMS.map(|aims| Counters::new(&aims));
    let calls = inputs::made_of_w12(seed);
    let count = calls.len();
    for call in calls {
        if !Run::new(call, &mut counters).is_same("made of W12") {
            return false;
        }
    }
    println!("{count} calls on W12 cut short or with a byte changed compared, 0 different");
    true
}

/// One input with all that both sides leave.
fn show(seed: u64, index: u64) -> bool {
    let mut counters = AIMS.map(|aims| Counters::new(&aims));
    let run = Run::new(inputs::call(seed, index), &mut counters);
    run.print_input(&format!("--one {seed} {index}"));
    for (side, (returned, left)) in ["library", "plain Rust"]
        .iter()
        .zip(run.returned.iter().zip(&run.left))
    {
        println!("{side} returned {returned}");
        left.print();
    }
    let differences = run.differences();
    println!("{} different {}", differences.len(), differences.join("; "));
    differences.is_empty()
}
