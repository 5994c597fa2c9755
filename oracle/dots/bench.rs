//! Times the proved library, through C, against the plain Rust: the same calls on the same inputs, in one run.
//!
//!     bench                                      the table: time of a call on either side, and Rattle over Rust
//!     bench --fills                              fills alone, of few and many tracks, with rooms of three sorts
//!     bench --only N                             one input: 1 to 7 of the table, 8 to 16 of the fills
//!     bench --only N --side rattle|rust COUNT    its calls so many times on one side and nothing else, for a profiler
//!     bench --growth                             how the time of a call grows with tracks, items and spans
mod random;
mod recipes;

use dots::kinds::Refusal;
use recipes::{fills, Fill, Input, Rooms, Size};
use std::hint::black_box;
use std::ops::Range;
use std::process::exit;
use std::time::{Duration, Instant};

/// The sides take turns; of each the least time counts, which nothing else on the machine has lengthened.
const MOST_ROUNDS: usize = 100;
const LEAST_ROUNDS: usize = 10;

/// After so long an input has had its rounds.
const ENOUGH: Duration = Duration::from_secs(3);

/// Long enough for the clock, and short enough to be left alone now and then.
const LEAST_TURN: Duration = Duration::from_micros(200);

const BIG: Size = Size {
    tracks: 256,
    items: 1024,
    longest: 4,
};

const fn size(tracks: usize, items: usize, longest: usize) -> Size {
    Size {
        tracks,
        items,
        longest,
    }
}

type Make = fn() -> Input;

const TABLE: [(&str, Make); 7] = [
    ("3 tracks, 3 items", || size(3, 3, 2).boards()),
    ("12 tracks, 40 items", || size(12, 40, 3).boards()),
    ("256 tracks, 1,024 items, spans to 4", || BIG.boards()),
    ("256 tracks, 1,024 items, spans to 200", || {
        size(256, 1024, 200).boards()
    }),
    ("a fill of 256 tracks, all rooms different", || {
        fills(256, Rooms::Different)
    }),
    ("a sheet refused at its last byte", || {
        BIG.refused_at_the_last_byte()
    }),
    ("12 tracks, 40 items, many across fr", || {
        size(12, 40, 8).boards_across_fr()
    }),
];

const FILLS: [(&str, Make); 9] = [
    ("3 tracks, all rooms different", || {
        fills(3, Rooms::Different)
    }),
    ("16 tracks, all rooms different", || {
        fills(16, Rooms::Different)
    }),
    ("256 tracks, all rooms different", || {
        fills(256, Rooms::Different)
    }),
    ("3 tracks, equal rooms", || fills(3, Rooms::Equal)),
    ("16 tracks, equal rooms", || fills(16, Rooms::Equal)),
    ("256 tracks, equal rooms", || fills(256, Rooms::Equal)),
    ("3 tracks, no limits", || fills(3, Rooms::NoLimit)),
    ("16 tracks, no limits", || fills(16, Rooms::NoLimit)),
    ("256 tracks, no limits", || fills(256, Rooms::NoLimit)),
];

fn main() {
    let words: Vec<String> = std::env::args().skip(1).collect();
    let words: Vec<&str> = words.iter().map(String::as_str).collect();
    match words[..] {
        [] => print_table(&TABLE),
        ["--fills"] => print_table(&FILLS),
        ["--growth"] => growth(),
        ["--only", number] => print_table(&[only(number)]),
        ["--only", number, "--side", side, count] => {
            let side = match side {
                "rattle" => Side::Rattle,
                "rust" => Side::Rust,
                _ => usage(),
            };
            let times = count.parse().unwrap_or_else(|_| usage());
            let input = only(number).1();
            run(&input, 0..input.calls(), side, times);
        }
        _ => usage(),
    }
}

fn usage() -> ! {
    eprintln!("usage: bench [--fills | --growth | --only N [--side rattle|rust COUNT]]");
    exit(2)
}

fn only(number: &str) -> (&'static str, Make) {
    let chosen = number
        .parse()
        .ok()
        .and_then(|n: usize| TABLE.iter().chain(&FILLS).nth(n.wrapping_sub(1)));
    *chosen.unwrap_or_else(|| usage())
}

fn print_table(inputs: &[(&str, Make)]) {
    println!("{:42} {HEADER}", "a call");
    for (name, make) in inputs {
        print_times(&format!("{name:42}"), &make());
    }
}

/// One number grows and the others stay.
fn growth() {
    let grow = |what: &str, numbers: &[usize], make: &dyn Fn(usize) -> Input| {
        println!("{what}\n{:6} {HEADER}", "");
        for &n in numbers {
            print_times(&format!("{n:6}"), &make(n));
        }
    };
    let few = [16, 32, 64, 128, 256];
    let many = [16, 32, 64, 128, 256, 512, 1024];
    let spans = [2, 4, 8, 16, 32, 64, 128, 200];
    grow("tracks, with 256 items, spans to 4", &few, &|n| {
        size(n, 256, 4).boards()
    });
    grow("items, with 256 tracks, spans to 4", &many, &|n| {
        size(256, n, 4).boards()
    });
    grow(
        "spans to so many, with 256 tracks, 1,024 items",
        &spans,
        &|n| size(256, 1024, n).boards(),
    );
    grow("tracks of a fill, all rooms different", &few, &|n| {
        fills(n as u32, Rooms::Different)
    });
}

const HEADER: &str = "   Rattle ns      Rust ns   ratio";

fn print_times(name: &str, input: &Input) {
    assert_same(input);
    let [rattle, rust] = least_times(input);
    println!("{name} {rattle:12.0} {rust:12.0} {:7.2}", rattle / rust);
}

#[derive(Clone, Copy)]
enum Side {
    Rattle,
    Rust,
}

/// Nanoseconds of a call on either side, over the calls of an input. Where a call is long it is timed by itself; else all are timed
/// together, so that they follow one another.
fn least_times(input: &Input) -> [f64; 2] {
    let all = input.calls();
    let parts: Vec<Range<usize>> = if time(input, 0..all, Side::Rust, 1) > 5 * LEAST_TURN {
        (0..all).map(|call| call..call + 1).collect()
    } else {
        vec![0..all]
    };
    let sides = [Side::Rattle, Side::Rust];
    let times: Vec<[u32; 2]> = parts
        .iter()
        .map(|part| sides.map(|side| times_of_a_turn(input, part, side)))
        .collect();
    let mut least = vec![[Duration::MAX; 2]; parts.len()];
    let start = Instant::now();
    for round in 0..MOST_ROUNDS {
        if round >= LEAST_ROUNDS && start.elapsed() > ENOUGH {
            break;
        }
        for (p, part) in parts.iter().enumerate() {
            for s in [0, 1] {
                let turn = time(input, part.clone(), sides[s], times[p][s]);
                least[p][s] = least[p][s].min(turn);
            }
        }
    }
    [0, 1].map(|s| {
        let of_part = |p: usize| least[p][s].as_nanos() as f64 / f64::from(times[p][s]);
        (0..parts.len()).map(of_part).sum::<f64>() / all as f64
    })
}

fn times_of_a_turn(input: &Input, part: &Range<usize>, side: Side) -> u32 {
    let mut times = 1;
    while time(input, part.clone(), side, times) < LEAST_TURN {
        times *= 2;
    }
    times
}

fn time(input: &Input, part: Range<usize>, side: Side, times: u32) -> Duration {
    let start = Instant::now();
    run(input, part, side, times);
    start.elapsed()
}

/// A part of an input's calls, one after another, so many times.
fn run(input: &Input, part: Range<usize>, side: Side, times: u32) {
    let mut sizes = [[0; 2]; 256];
    let mut gains = [0; 256];
    for _ in 0..times {
        match (input, side) {
            (Input::Boards(sheets), Side::Rattle) => {
                for sheet in &sheets[part.clone()] {
                    let told = torrivask::board(black_box(sheet), black_box(&mut sizes));
                    let _ = black_box(told);
                }
            }
            (Input::Boards(sheets), Side::Rust) => {
                for sheet in &sheets[part.clone()] {
                    let told = dots::board::board(black_box(sheet), black_box(&mut sizes));
                    let _ = black_box(told);
                }
            }
            (Input::Fills(fills), Side::Rattle) => {
                for fill in &fills[part.clone()] {
                    let gains = black_box(&mut gains[..fill.rooms.len()]);
                    let _ = black_box(fill_rattle(black_box(fill), gains));
                }
            }
            (Input::Fills(fills), Side::Rust) => {
                for fill in &fills[part.clone()] {
                    let gains = black_box(&mut gains[..fill.rooms.len()]);
                    let _ = black_box(fill_rust(black_box(fill), gains));
                }
            }
        }
    }
}

fn fill_rattle(f: &Fill, gains: &mut [u32]) -> Result<torrivask::Filled, torrivask::Refusal> {
    torrivask::fill(f.dots, &f.affected, &f.limited, &f.rooms, gains)
}

fn fill_rust(f: &Fill, gains: &mut [u32]) -> Result<dots::fill::Filled, Refusal> {
    dots::fill::fill(f.dots, &f.affected, &f.limited, &f.rooms, gains)
}

/// Both sides give the same, once for each call: what is timed is one and the same answer.
fn assert_same(input: &Input) {
    match input {
        Input::Boards(sheets) => {
            for sheet in sheets {
                let (mut rattle_sizes, mut rust_sizes) = ([[7; 2]; 256], [[7; 2]; 256]);
                let rattle = torrivask::board(sheet, &mut rattle_sizes);
                let rust = dots::board::board(sheet, &mut rust_sizes);
                let rattle = rattle.map(|b| (b.tracks as usize, b.free, b.rounds));
                let rust = rust.map(|b| (b.tracks, b.free, b.rounds));
                assert_eq!(rattle.map_err(pair), rust.map_err(rust_pair));
                assert_eq!(rattle_sizes, rust_sizes);
            }
        }
        Input::Fills(fills) => {
            for fill in fills {
                let mut rattle_gains = vec![7; fill.rooms.len()];
                let mut rust_gains = rattle_gains.clone();
                let rattle = fill_rattle(fill, &mut rattle_gains).map(|f| (f.leftover, f.rounds));
                let rust = fill_rust(fill, &mut rust_gains).map(|f| (f.left, f.rounds));
                assert_eq!(rattle.map_err(pair), rust.map_err(rust_pair));
                assert_eq!(rattle_gains, rust_gains);
            }
        }
    }
}

fn pair(refusal: torrivask::Refusal) -> (u32, u64) {
    (refusal.number, refusal.place)
}

fn rust_pair(refusal: Refusal) -> (u32, u64) {
    (refusal.number, refusal.place as u64)
}
