//! What is timed: boards and fills by fixed recipes, the same in every run.
use crate::random::Random;
use dots::kinds::{Axis, Constraint, Item, Maximum, Minimum, Sheet, Space, Track};
use dots::sheet::bytes_of;

/// So many boards, three of each constraint, or so many fills: no call takes the path of the one before it.
const CALLS: u32 = 9;

/// What the calls of an input are given.
pub enum Input {
    Boards(Vec<Vec<u8>>),
    Fills(Vec<Fill>),
}

impl Input {
    pub fn calls(&self) -> usize {
        match self {
            Input::Boards(sheets) => sheets.len(),
            Input::Fills(fills) => fills.len(),
        }
    }
}

pub struct Fill {
    pub dots: u32,
    pub affected: Vec<bool>,
    pub limited: Vec<bool>,
    pub rooms: Vec<u32>,
}

/// Boards of so many tracks and items; the items span 1 track, 2 and so on to the longest, in turn.
#[derive(Clone, Copy)]
pub struct Size {
    pub tracks: usize,
    pub items: usize,
    pub longest: usize,
}

/// Where the fr tracks stand.
#[derive(Clone, Copy, PartialEq)]
enum Fr {
    /// In the last fifth, so that spans to 200 need not cross one, and no longer item does.
    Apart,
    /// Every third track, in the way of longer items, with a minimum that asks for a share of them.
    Among,
}

impl Size {
    pub fn boards(self) -> Input {
        let sheets = (0..CALLS).map(|b| self.sheet(b, Fr::Apart));
        Input::Boards(sheets.map(|sheet| bytes_of(&sheet)).collect())
    }

    /// The same with items across fr tracks.
    pub fn boards_across_fr(self) -> Input {
        let sheets = (0..CALLS).map(|b| self.sheet(b, Fr::Among));
        Input::Boards(sheets.map(|sheet| bytes_of(&sheet)).collect())
    }

    /// The last contribution of the last item is absent, with a stray number beside it that only the last byte shows: 5, found when
    /// all else is read.
    pub fn refused_at_the_last_byte(self) -> Input {
        let refused = |b| {
            let mut sheet = self.sheet(b, Fr::Apart);
            let last = sheet.items.last_mut().expect("an item");
            last.contributions[2] = None;
            let mut bytes = bytes_of(&sheet);
            *bytes.last_mut().expect("a byte") = 1;
            bytes
        };
        Input::Boards((0..CALLS).map(refused).collect())
    }

    fn sheet(self, b: u32, fr: Fr) -> Sheet {
        let random = &mut Random::new(1, u64::from(b));
        let tracks = self.sheet_tracks(random, 4 - b / 3, fr);
        let items = (0..self.items).map(|i| item(random, &tracks, 1 + i % self.longest, fr));
        let items = items.collect();
        // Room for what the items ask of a track, and more: dots are free for the steps behind them.
        let space = (self.tracks * (70 + 5 * self.longest / 4)) as u32;
        Sheet {
            space: Space {
                constraint: match b % 3 {
                    0 => Constraint::Definite(space),
                    1 => Constraint::MinContent,
                    _ => Constraint::MaxContent,
                },
                inner: (b / 3 != 1).then_some(space),
                stretch: b % 2 == 0,
                axis: Axis::Inline,
            },
            tracks,
            items,
        }
    }

    /// Every kind of maximum, and of minimum up to one: where none is min- or max-content, more is left for the limits.
    fn sheet_tracks(self, random: &mut Random, last_minimum: u32, fr: Fr) -> Vec<Track> {
        let mut tracks = Vec::with_capacity(self.tracks);
        for t in 0..self.tracks {
            let is_among = fr == Fr::Among && t % 3 == 1;
            let first_minimum = if is_among { 2 } else { 1 };
            let mut minimum = match random.between(first_minimum, last_minimum) {
                1 => Minimum::Fixed(random.between(5, 40)),
                2 => Minimum::Auto,
                3 => Minimum::MinContent,
                _ => Minimum::MaxContent,
            };
            let mut maximum = match random.between(1, 5) {
                1 => Maximum::Fixed(random.between(20, 100)),
                2 => Maximum::Auto,
                3 => Maximum::MinContent,
                4 => Maximum::MaxContent,
                _ => Maximum::FitContent(random.between(20, 100)),
            };
            let is_fr = match fr {
                Fr::Apart => t >= self.tracks - self.tracks.div_ceil(5) && random.percent(50),
                Fr::Among => is_among,
            };
            if is_fr {
                maximum = Maximum::Fr(random.pick(&[500, 1000, 1500, 2000]));
            } else if random.percent(10) {
                // A gutter.
                minimum = Minimum::Fixed(4);
                maximum = Maximum::Fixed(4);
            }
            tracks.push(Track { minimum, maximum });
        }
        tracks
    }
}

/// An item of that span anywhere that it may stand. The more it spans, the more it asks of each track, and the nearer to the mean:
/// else the shorter spans would have left it nothing to share.
fn item(random: &mut Random, tracks: &[Track], span: usize, fr: Fr) -> Item {
    let mut start = 0;
    let mut is_allowed = false;
    while !is_allowed {
        start = random.index(tracks.len() - span + 1);
        let spanned = &tracks[start..start + span];
        is_allowed = span == 1 || fr == Fr::Among || !spanned.iter().any(|track| track.is_fr());
    }
    let span = span as u32;
    let of_each = 20 + 5 * span / 4 + random.between(0, (60 / span).max(8));
    let max_content = span * of_each;
    let min_content = max_content * random.between(70, 80) / 100;
    let minimum = min_content * random.between(70, 80) / 100;
    Item {
        start: start as u16,
        span: span as u16,
        contributions: [minimum, min_content, max_content].map(Some),
    }
}

/// What rooms the tracks of a fill have.
#[derive(Clone, Copy)]
pub enum Rooms {
    /// All different: a round for each.
    Different,
    /// All the same: two rounds at most, one for all of them and one for the odd dots.
    Equal,
    /// No limits: the rounds of equal rooms.
    NoLimit,
}

/// Fills of so many tracks, with dots for nearly all of their rooms.
pub fn fills(tracks: u32, kind: Rooms) -> Input {
    let fill = |f| {
        let random = &mut Random::new(2, u64::from(f));
        let rooms = match kind {
            Rooms::Different => different_rooms(tracks, random),
            Rooms::Equal | Rooms::NoLimit => {
                vec![5 * tracks + random.between(0, 9); tracks as usize]
            }
        };
        Fill {
            dots: rooms.iter().sum::<u32>() - random.between(1, 5),
            affected: vec![true; rooms.len()],
            limited: vec![!matches!(kind, Rooms::NoLimit); rooms.len()],
            rooms,
        }
    };
    Input::Fills((0..CALLS).map(fill).collect())
}

fn different_rooms(tracks: u32, random: &mut Random) -> Vec<u32> {
    let mut rooms: Vec<u32> = (1..=tracks)
        .map(|t| 10 * t + random.between(0, 9))
        .collect();
    for t in 0..rooms.len() {
        rooms.swap(t, random.index(t + 1));
    }
    rooms
}
