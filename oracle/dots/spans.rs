//! Step 3 of the sizing: longer spans batch by batch, and last all items that cross an fr track.
use crate::fill::{self, NO_LIMIT};
use crate::kinds::{Constraint, Maximum, Minimum, Track};
use crate::sizing::{Line, Measured};
use crate::watch::{Step, Watch};

/// The lettered steps of a batch: (a) to (d) raise bases, (e) and (f) limits.
#[derive(Clone, Copy, Debug, PartialEq, Eq)]
pub enum Letter {
    A,
    B,
    C,
    D,
    E,
    F,
}

impl Letter {
    fn raises_limits(self) -> bool {
        matches!(self, Letter::E | Letter::F)
    }

    pub fn affects(self, track: Track) -> bool {
        use Maximum::{Auto, FitContent, MaxContent};
        match self {
            Letter::A => track.minimum.is_intrinsic(),
            Letter::B => matches!(track.minimum, Minimum::MinContent | Minimum::MaxContent),
            Letter::C => matches!(track.minimum, Minimum::Auto | Minimum::MaxContent),
            Letter::D => matches!(track.minimum, Minimum::MaxContent),
            Letter::E => track.maximum.is_intrinsic(),
            Letter::F => matches!(track.maximum, Auto | MaxContent | FitContent(_)),
        }
    }

    /// The factor of a track that it affects in the last batch, where only fr tracks are affected.
    fn factor(self, track: Track) -> Option<u32> {
        match track.maximum {
            Maximum::Fr(factor) if self.affects(track) => Some(factor),
            _ => None,
        }
    }

    fn contribution(self, item: &Measured) -> u32 {
        match self {
            Letter::A => item.for_auto,
            Letter::B | Letter::E => item.min_content,
            Letter::C => item.limited_max_content,
            Letter::D | Letter::F => item.max_content,
        }
    }

    /// The size that a contribution is held against; no limit counts as base.
    fn size(self, line: &Line) -> u32 {
        if self.raises_limits() {
            line.limit.unwrap_or(line.base)
        } else {
            line.base
        }
    }

    /// The room of a line in the first share.
    fn first_room(self, line: &Line) -> u32 {
        if !self.affects(line.track) {
            0
        } else if !self.raises_limits() {
            line.base_room()
        } else if line.limit.is_none() || line.is_growable {
            line.limit_room(0)
        } else {
            0
        }
    }

    /// Whether a track has the maximum that takes what remains for bases, before all affected do.
    fn takes_the_rest(self, track: Track) -> bool {
        let has_maximum = match track.maximum {
            Maximum::Auto | Maximum::MaxContent => true,
            Maximum::MinContent => matches!(self, Letter::A | Letter::B),
            _ => false,
        };
        self.affects(track) && has_maximum
    }
}

/// Runs every batch. The items come in any order; those in one track that is not fr are done with in step 2.
pub fn longer_spans(
    constraint: Constraint,
    lines: &mut [Line],
    items: &[Measured],
    watch: &mut impl Watch,
) {
    // What crosses an fr track is of the last batch, whatever its span.
    let batch_of = |item: &Measured| match item.crosses_fr {
        true => usize::MAX,
        false => item.tracks.len(),
    };
    let mut spanning: Vec<&Measured> = items
        .iter()
        .filter(|item| item.tracks.len() > 1 || item.crosses_fr)
        .collect();
    if spanning.is_empty() {
        return;
    }
    spanning.sort_by_key(|item| batch_of(item));

    // Letters that affect no track of this board are not run.
    let run = |letters: &[Letter]| -> Vec<Letter> {
        let is_run = |letter: &&Letter| {
            (**letter != Letter::C || constraint == Constraint::MaxContent)
                && lines.iter().any(|line| letter.affects(line.track))
        };
        letters.iter().filter(is_run).copied().collect()
    };
    let for_bases = run(&[Letter::A, Letter::B, Letter::C, Letter::D]);
    let for_limits = run(&[Letter::E, Letter::F]);

    let mut shares = Shares::new();
    for batch in spanning.chunk_by(|a, b| batch_of(a) == batch_of(b)) {
        for letter in &for_bases {
            shares.plan(*letter, lines, batch, watch);
            for (line, increase) in lines.iter_mut().zip(&mut shares.increases) {
                line.base += std::mem::take(increase);
            }
            watch.after(Step::Letter(*letter), lines);
        }
        for line in lines.iter_mut() {
            line.lift_limit();
        }
        watch.after(Step::Lifted, lines);
        if batch[0].crosses_fr {
            break; // the last batch, whose (e) and (f) change nothing
        }
        for letter in &for_limits {
            shares.plan(*letter, lines, batch, watch);
            for (line, increase) in lines.iter_mut().zip(&mut shares.increases) {
                line.raise_limit(std::mem::take(increase));
            }
            watch.after(Step::Letter(*letter), lines);
        }
        for line in lines.iter_mut() {
            line.is_growable = false;
        }
    }
}

/// What the items of a batch give to the tracks, and the lists that it takes to find this.
struct Shares {
    /// The largest that any one item gave each track; 0 between the letters.
    increases: [u32; Track::MOST],
    rooms: [u32; Track::MOST],
    gains: [u32; Track::MOST],
    more: [u32; Track::MOST],
}

impl Shares {
    fn new() -> Shares {
        Shares {
            increases: [0; Track::MOST],
            rooms: [0; Track::MOST],
            gains: [0; Track::MOST],
            more: [0; Track::MOST],
        }
    }

    /// The increases of a lettered step.
    fn plan(
        &mut self,
        letter: Letter,
        lines: &[Line],
        batch: &[&Measured],
        watch: &mut impl Watch,
    ) {
        for item in batch {
            let spanned = &lines[item.tracks.clone()];
            let mut tracks = spanned.iter().map(|line| line.track);
            let some_are_affected = if item.crosses_fr {
                tracks.any(|track| letter.factor(track).is_some())
            } else {
                tracks.any(|track| letter.affects(track))
            };
            if !some_are_affected {
                continue;
            }
            let sizes = spanned.iter().map(|line| letter.size(line)).sum();
            let extra = letter.contribution(item).saturating_sub(sizes);
            if extra == 0 {
                continue;
            }
            if item.crosses_fr {
                self.share_by_factor(letter, spanned, extra, watch);
            } else {
                self.share(letter, spanned, extra);
            }
            let increases = &mut self.increases[item.tracks.clone()];
            for (increase, gain) in increases.iter_mut().zip(&self.gains) {
                *increase = (*increase).max(*gain);
            }
        }
    }

    /// An item's extra, shared by the tracks it spans: first as far as they have room, then what remains.
    fn share(&mut self, letter: Letter, spanned: &[Line], extra: u32) {
        let rooms = &mut self.rooms[..spanned.len()];
        let gains = &mut self.gains[..spanned.len()];
        for (room, line) in rooms.iter_mut().zip(spanned) {
            *room = letter.first_room(line);
        }
        let remains = fill::share(extra, rooms, gains).left;
        if remains == 0 {
            return;
        }

        if letter.raises_limits() {
            for ((room, line), gain) in rooms.iter_mut().zip(spanned).zip(&*gains) {
                *room = if letter.affects(line.track) {
                    line.limit_room(*gain)
                } else {
                    0
                };
            }
        } else {
            let some_take = spanned.iter().any(|line| letter.takes_the_rest(line.track));
            for (room, line) in rooms.iter_mut().zip(spanned) {
                let takes = if some_take {
                    letter.takes_the_rest(line.track)
                } else {
                    letter.affects(line.track)
                };
                *room = if takes { NO_LIMIT } else { 0 };
            }
        }
        let more = &mut self.more[..spanned.len()];
        fill::share(remains, rooms, more);
        for (gain, more) in gains.iter_mut().zip(more) {
            *gain += *more;
        }
    }

    /// The extra of an item that crosses fr tracks, shared by those affected as their factors are, or evenly where all are 0.
    fn share_by_factor(
        &mut self,
        letter: Letter,
        spanned: &[Line],
        extra: u32,
        watch: &mut impl Watch,
    ) {
        let gains = &mut self.gains[..spanned.len()];
        let factor = |line: &Line| u64::from(letter.factor(line.track).unwrap_or(0));
        let sum: u64 = spanned.iter().map(factor).sum();
        if sum == 0 {
            let rooms = &mut self.rooms[..spanned.len()];
            for (room, line) in rooms.iter_mut().zip(spanned) {
                let is_affected = letter.factor(line.track).is_some();
                *room = if is_affected { NO_LIMIT } else { 0 };
            }
            fill::share(extra, rooms, gains);
            watch.shared(letter, spanned, gains, 0);
            return;
        }

        let mut over = extra;
        for (gain, line) in gains.iter_mut().zip(spanned) {
            *gain = (u64::from(extra) * factor(line) / sum) as u32;
            over -= *gain;
        }
        gains
            .iter_mut()
            .zip(spanned)
            .filter(|(_, line)| factor(line) > 0)
            .take(over as usize)
            .for_each(|(gain, _)| *gain += 1);
        watch.shared(letter, spanned, gains, over);
    }
}
