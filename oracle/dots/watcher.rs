//! Counts what the steps of a sizing change.
use crate::counters::Counters;
use crate::reached::{maximum_number, minimum_number};
use dots::kinds::{Constraint, Maximum, Minimum, Space};
use dots::sizing::{expansion, Line};
use dots::spans::Letter;
use dots::watch::{Step, Watch};

pub struct Watcher<'a> {
    counters: &'a mut Counters,
    space: Space,
    before: Vec<Line>,
    /// The limits that the (e) of the batch at hand has made.
    made: Vec<bool>,
    restarts: u32,
    /// The span of the item that asked for the largest fr.
    asked: Option<usize>,
}

impl<'a> Watcher<'a> {
    pub fn new(counters: &'a mut Counters, space: Space) -> Watcher<'a> {
        Watcher {
            counters,
            space,
            before: Vec::new(),
            made: Vec::new(),
            restarts: 0,
            asked: None,
        }
    }
}

impl Watch for Watcher<'_> {
    fn after(&mut self, step: Step, lines: &[Line]) {
        if step == Step::Start {
            self.started(lines);
        }
        for (t, line) in lines.iter().enumerate() {
            let before = self.before[t];
            if line.base == before.base && line.limit == before.limit {
                continue;
            }
            match step {
                Step::Start | Step::Flexible => {}
                Step::OneTrack => self.one_track(before, line),
                Step::Letter(letter) => self.letter(letter, t, before, line),
                Step::Lifted => {
                    let name = "3: a limit below base becomes base after (d)";
                    self.counters.reach(name);
                }
                Step::MissingLimits => self.counters.reach("4: a missing limit becomes base"),
                Step::Maximise => self.maximised(line),
                Step::Stretch => self.counters.reach("7: a track stretched"),
            }
        }
        if let Step::Letter(_) = step {
            let is_raised = |(line, before): &(&Line, &Line)| line.base > before.base;
            let pairs = lines.iter().zip(&self.before).filter(is_raised);
            let raised = pairs.filter(|(line, _)| line.track.is_fr()).count();
            let name = "3: a letter raises two fr tracks or more";
            self.counters.reach_if(raised > 1, name);
        }
        match step {
            Step::Letter(Letter::F) => self.made.fill(false),
            Step::Flexible => self.flexible(lines),
            Step::Stretch if self.before == lines => self.not_stretched(lines),
            _ => {}
        }
        self.before.copy_from_slice(lines);
    }

    fn shared(&mut self, letter: Letter, spanned: &[Line], gains: &[u32], over: u32) {
        let counters = &mut self.counters;
        let mut with_factor = 0;
        let mut with_none = 0;
        for (line, gain) in spanned.iter().zip(gains) {
            let is_affected = letter.affects(line.track);
            match line.track.maximum {
                Maximum::Fr(0) if is_affected => with_none += 1,
                Maximum::Fr(_) if is_affected => with_factor += 1,
                _ if *gain > 0 => {
                    counters.reach("3: the last batch raises a track that is not affected")
                }
                Maximum::Fr(_) => {
                    let is_fixed = matches!(line.track.minimum, Minimum::Fixed(_));
                    let name = "3: an fr track of fixed minimum gains nothing beside another";
                    counters.reach_if(is_fixed, name);
                }
                _ => {
                    let name = "3: a track that is not fr gains nothing beside one";
                    counters.reach_if(is_affected, name);
                }
            }
        }
        let dots = gains.iter().sum::<u32>() as usize;
        let is_few = with_factor > 1 && dots < with_factor;
        counters.reach_if(with_factor > 1, "3: shared by factor");
        counters.reach_if(is_few, "3: shared by factor, fewer dots than tracks");
        counters.reach_if(over > 0, "3: odd dots by factor");
        match (with_factor, with_none) {
            (0, 2..) => counters.reach("3: all factors 0, shared evenly"),
            (1.., 1..) => counters.reach("3: a factor of 0 beside another"),
            _ => {}
        }
    }

    fn restarted(&mut self) {
        self.restarts += 1;
    }

    fn asked(&mut self, span: usize) {
        self.asked = Some(span);
    }
}

impl Watcher<'_> {
    fn started(&mut self, lines: &[Line]) {
        self.before = lines.to_vec();
        self.made = vec![false; lines.len()];
        let is_lifted = |line: &Line| match line.track.maximum {
            Maximum::Fixed(dots) => Some(dots) != line.limit,
            _ => false,
        };
        let is_reached = lines.iter().any(is_lifted);
        self.counters
            .reach_if(is_reached, "1: a limit below base becomes base");
    }

    fn one_track(&mut self, before: Line, line: &Line) {
        let counters = &mut self.counters;
        let minimum = minimum_number(line.track.minimum);
        let maximum = maximum_number(line.track.maximum);
        if line.base > before.base {
            counters.reach(&format!("2: a base raised, minimum {minimum}"));
        }
        if before.limit.is_none() {
            counters.reach(&format!("2: a limit made, maximum {maximum}"));
        } else if line.limit != before.limit {
            counters.reach("2: a fixed limit below base becomes base");
        }
    }

    fn letter(&mut self, letter: Letter, t: usize, before: Line, line: &Line) {
        let counters = &mut self.counters;
        let name = match letter {
            Letter::A => "(a)",
            Letter::B => "(b)",
            Letter::C => "(c)",
            Letter::D => "(d)",
            Letter::E => "(e)",
            Letter::F => "(f)",
        };
        let argument = match line.track.maximum {
            Maximum::FitContent(argument) => Some(argument),
            _ => None,
        };
        if line.base > before.base {
            counters.reach(&format!("3: {name} with an increase"));
            if line.track.is_fr() {
                counters.reach(&format!("3: {name} raises an fr track"));
            }
            let is_past = |most: Option<u32>| most.is_some_and(|most| line.base > most);
            if is_past(line.limit) || is_past(argument) {
                let takers = match (letter, line.track.maximum) {
                    (
                        Letter::A | Letter::B,
                        Maximum::Auto | Maximum::MinContent | Maximum::MaxContent,
                    ) => "maxima 2 to 4",
                    (_, Maximum::Auto | Maximum::MaxContent) => "maxima 2 or 4",
                    _ => "all affected",
                };
                counters.reach(&format!("3: {name} what remains, to {takers}"));
            }
        }
        if line.limit == before.limit {
            return;
        }
        counters.reach_if(
            line.track.is_fr(),
            "3: (e) or (f) raises an fr track's limit",
        );
        counters.reach(&format!("3: {name} with an increase"));
        if argument.is_some() && line.limit == argument {
            counters.reach(&format!(
                "3: {name} raises a fit-content limit to its argument"
            ));
        }
        if before.limit.is_none() {
            counters.reach(&format!("3: {name} makes a limit of none"));
            self.made[t] = letter == Letter::E;
        } else if letter == Letter::E {
            counters.reach("3: (e) raises a limit");
        } else if self.made[t] {
            counters.reach("3: (f) raises an infinitely growable limit");
        } else {
            counters.reach("3: (f) raises another limit");
        }
    }

    fn maximised(&mut self, line: &Line) {
        let counters = &mut self.counters;
        match self.space.constraint {
            Constraint::MaxContent => {
                counters.reach("5: a base becomes its limit under max-content")
            }
            _ => counters.reach_if(line.limit == Some(line.base), "5: a base reaches its limit"),
        }
    }

    fn flexible(&mut self, lines: &[Line]) {
        let counters = &mut self.counters;
        let of_fr = lines.iter().filter(|line| line.track.is_fr()).count();
        if of_fr == 0 {
            return;
        }
        let has_grown = self.before != lines;
        let bases = self.before.iter().map(|line| i64::from(line.base));
        match expansion(&self.space) {
            Constraint::MinContent => counters.reach("6: an fr track without growth, min-content"),
            Constraint::Definite(space) => {
                counters.reach_if(has_grown, "6: an fr track grows, definite");
                let is_full = bases.sum::<i64>() >= i64::from(space);
                counters.reach_if(is_full, "6: an fr track without growth, free 0 or less");
                counters.reach_if(self.restarts > 0, "6: the search restarts, definite");
            }
            Constraint::MaxContent => {
                counters.reach_if(has_grown, "6: an fr track grows, max-content");
                if has_grown && self.space.constraint == Constraint::MinContent {
                    counters.reach("6: an fr track grows, min-content in the block axis");
                    let below = |line: &Line| !line.track.is_fr() && line.limit > Some(line.base);
                    let is_below = lines.iter().any(below);
                    let name = "6: an fr track grows beside one that step 5 leaves below its limit";
                    counters.reach_if(is_below, name);
                }
                match self.asked {
                    Some(1) if has_grown => {
                        counters.reach("6: fr tracks grow by an item in one track")
                    }
                    Some(_) if has_grown => {
                        counters.reach("6: fr tracks grow by an item across several tracks")
                    }
                    _ => {}
                }
                counters.reach_if(self.restarts > 0, "6: the search restarts, max-content");
            }
        }
        let is_definite = matches!(expansion(&self.space), Constraint::Definite(_));
        counters.reach_if(
            is_definite && self.restarts > 1,
            "6: the search restarts twice or more",
        );
    }

    fn not_stretched(&mut self, lines: &[Line]) {
        let sizes: i64 = lines.iter().map(|line| i64::from(line.base)).sum();
        self.counters.reach(match expansion(&self.space) {
            Constraint::Definite(space) if i64::from(space) <= sizes => {
                "7: stretch asked, nothing free"
            }
            Constraint::Definite(_) => "7: stretch asked, no auto maximum",
            _ => "7: stretch asked, not definite",
        });
    }
}
