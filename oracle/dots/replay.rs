//! Replays the cases of the fill, the sheet and the board, and holds every answer and all lent memory to what the case says. The
//! headers of oracle/fill_cases.py, sheet_cases.py and board_cases.py tell the form of a case.
use dots::board::{board, Sizes};
use dots::fill::fill;
use dots::kinds::Refusal;
use dots::sheet::{self, ItemRow, TrackRow};
use std::process::exit;
use std::str::{Lines, SplitWhitespace};

fn main() {
    let folder = std::env::args().nth(1).unwrap_or_else(|| "crates".into());
    let kinds: [(&str, fn(&mut Case) -> bool); 3] = [
        ("fill", fill_agrees),
        ("sheet", sheet_agrees),
        ("board", board_agrees),
    ];
    for (kind, agrees) in kinds {
        let path = format!("{folder}/{kind}_vectors/data/cases.txt");
        let text = std::fs::read_to_string(&path).unwrap_or_else(|why| {
            eprintln!("{path}: {why}");
            exit(1)
        });
        let mut cases = 0;
        for text in text.split("# ").skip(1) {
            let mut case = Case {
                lines: text.lines(),
            };
            let name = case.lines.next().unwrap_or("");
            if !agrees(&mut case) {
                println!("{kind}: different in case {}: {name}", cases + 1);
                exit(1)
            }
            cases += 1;
        }
        println!("{kind}: {cases} cases agree");
    }
}

fn fill_agrees(case: &mut Case) -> bool {
    let [dots] = case.row();
    let affected = case.marks();
    let limited = case.marks();
    let rooms = case.numbers();
    let mut gains = case.numbers();
    let answer = case.answer();
    let gains_after = case.numbers();
    let told = fill(dots, &affected, &limited, &rooms, &mut gains);
    told.map(|filled| [filled.left as usize, filled.rounds as usize]) == answer
        && gains == gains_after
}

fn sheet_agrees(case: &mut Case) -> bool {
    match case.row() {
        [0] => read_agrees(case),
        [1] => write_agrees(case),
        [2] => {
            let bytes = case.bytes();
            sheet::end(&bytes).map(|end| [end, 0]) == case.answer()
        }
        [other] => panic!("{other} is no call of the sheet"),
    }
}

fn read_agrees(case: &mut Case) -> bool {
    let bytes = case.bytes();
    let mut tracks: Vec<TrackRow> = case.rows();
    let mut items: Vec<ItemRow> = case.rows();
    let told = sheet::read_rows(&bytes, &mut tracks, &mut items);
    let answer = case.answer();
    let same_answer = match (told, answer) {
        (Ok((space, tracks, items)), Ok(counts)) => {
            [tracks, items] == counts && case.row() == sheet::space_row(&space)
        }
        (Err(told), Err(answer)) => told == answer,
        _ => false,
    };
    same_answer && tracks == case.rows() && items == case.rows()
}

fn write_agrees(case: &mut Case) -> bool {
    let space = case.row();
    let tracks: Vec<TrackRow> = case.rows();
    let items: Vec<ItemRow> = case.rows();
    let mut lent = case.bytes();
    let told = sheet::write(&space, &tracks, &items, &mut lent);
    told.map(|length| [length, 0]) == case.answer() && lent == case.bytes()
}

fn board_agrees(case: &mut Case) -> bool {
    let bytes = case.bytes();
    let mut sizes: Vec<Sizes> = case.rows();
    let answer = case.answer();
    let free = match case.row() {
        [0, _, _] => None,
        [_, 0, dots] => Some(i64::from(dots)),
        [_, _, dots] => Some(-i64::from(dots)),
    };
    let sizes_after: Vec<Sizes> = case.rows();
    let same_answer = match (board(&bytes, &mut sizes), answer) {
        (Ok(told), Ok([tracks, rounds])) => {
            told.tracks == tracks
                && told.rounds as usize == rounds
                && told.free.map(i64::from) == free
        }
        (Err(told), Err(answer)) => told == answer,
        _ => false,
    };
    same_answer && sizes == sizes_after
}

/// The lines of a case that are still to be read.
struct Case<'a> {
    lines: Lines<'a>,
}

impl<'a> Case<'a> {
    fn words(&mut self) -> SplitWhitespace<'a> {
        self.lines
            .next()
            .expect("a line of the case")
            .split_whitespace()
    }

    /// A line of N numbers without a count.
    fn row<const N: usize>(&mut self) -> [u32; N] {
        let numbers: Vec<u32> = self.words().map(number).collect();
        numbers.try_into().expect("a line of so many numbers")
    }

    /// A count, then so many rows of N numbers.
    fn rows<const N: usize>(&mut self) -> Vec<[u32; N]> {
        let mut words = self.words();
        let count = number(words.next().expect("a count")) as usize;
        let mut rows = Vec::with_capacity(count);
        while let Some(first) = words.next() {
            let (times, first) = repeated(first);
            let mut row = [number(first); N];
            for place in &mut row[1..] {
                *place = number(words.next().expect("a whole row"));
            }
            rows.extend(std::iter::repeat_n(row, times));
        }
        assert_eq!(rows.len(), count, "as many rows as are told");
        rows
    }

    fn numbers(&mut self) -> Vec<u32> {
        self.rows().into_iter().map(|[number]| number).collect()
    }

    fn marks(&mut self) -> Vec<bool> {
        self.rows().into_iter().map(|[mark]| mark == 1).collect()
    }

    /// A count, then so many bytes in hex.
    fn bytes(&mut self) -> Vec<u8> {
        let mut words = self.words();
        let count = number(words.next().expect("a count")) as usize;
        let mut bytes = Vec::with_capacity(count);
        for word in words {
            let (times, digits) = repeated(word);
            for _ in 0..times {
                let pairs = digits.as_bytes().chunks(2);
                bytes.extend(pairs.map(|pair| {
                    let pair = std::str::from_utf8(pair).expect("hex");
                    u8::from_str_radix(pair, 16).expect("hex")
                }));
            }
        }
        assert_eq!(bytes.len(), count, "as many bytes as are told");
        bytes
    }

    /// 0 and two numbers for an answer, 1 with number and place for a refusal.
    fn answer(&mut self) -> Result<[usize; 2], Refusal> {
        match self.row() {
            [0, a, b] => Ok([a as usize, b as usize]),
            [_, number, place] => Err(Refusal::at(number, place as usize)),
        }
    }
}

fn number(word: &str) -> u32 {
    word.parse().expect("a number")
}

/// 4x before a word says that it stands there four times.
fn repeated(word: &str) -> (usize, &str) {
    match word.split_once('x') {
        Some((times, word)) => (number(times) as usize, word),
        None => (1, word),
    }
}
