//! Sizes the sheet in a file and prints its board as the reader does: board FILE. A refusal is an answer too, with status 0; a file
//! that cannot be read is one line on standard error, with status 1.
use std::process::exit;

/// As many as a board has tracks at most, so that no sheet is refused for want of sizes.
const MOST_TRACKS: usize = 256;

fn main() {
    let names: Vec<String> = std::env::args().skip(1).collect();
    let [name] = &names[..] else {
        eprintln!("board: one file name was expected");
        exit(1)
    };
    match std::fs::read(name) {
        Ok(sheet) => print_board(&sheet),
        Err(why) => {
            eprintln!("board: {name}: {why}");
            exit(1)
        }
    }
}

fn print_board(sheet: &[u8]) {
    let mut sizes = [[0; 2]; MOST_TRACKS];
    match torrivask::board(sheet, &mut sizes) {
        Err(refusal) => println!("refused {} at {}", refusal.number, refusal.place),
        Ok(board) => {
            let free = match board.free {
                Some(dots) => dots.to_string(),
                None => "none".to_string(),
            };
            println!(
                "tracks {} free {free} rounds {}",
                board.tracks, board.rounds
            );
            for (t, [base, limit]) in sizes[..board.tracks as usize].iter().enumerate() {
                println!("{t} {base} {limit}");
            }
        }
    }
}
