//! Sizing in dots, step by step; step 3 has a file of its own.
use crate::fill::{self, NO_LIMIT};
use crate::fr::{self, Flexible, Fr};
use crate::kinds::{Axis, Constraint, Item, Maximum, Minimum, Sheet, Space, Track};
use crate::spans;
use crate::watch::{Step, Watch};
use std::ops::Range;

/// A track at work.
#[derive(Clone, Copy, Debug, PartialEq, Eq)]
pub struct Line {
    pub track: Track,
    pub base: u32,
    /// The growth limit, where there is one.
    pub limit: Option<u32>,
    /// Infinitely growable: the limit was none before this batch.
    pub is_growable: bool,
}

/// What a sizing finds beside the lines.
#[derive(Clone, Copy, Debug, PartialEq, Eq)]
pub struct Found {
    pub free: Option<i32>,
    pub rounds: u32,
}

/// A measured item, with its contributions as the steps ask for them.
pub struct Measured {
    pub tracks: Range<usize>,
    /// Whether any of its tracks is fr.
    pub crosses_fr: bool,
    /// The minimum contribution, or under a min- or max-content constraint the limited min-content one.
    pub for_auto: u32,
    pub min_content: u32,
    pub max_content: u32,
    pub limited_max_content: u32,
}

/// Sizes a sheet that the checks have let pass.
pub fn size(sheet: &Sheet, watch: &mut impl Watch) -> (Vec<Line>, Found) {
    let constraint = sheet.space.constraint;
    let expansion = expansion(&sheet.space);
    let items: Vec<Measured> = sheet
        .items
        .iter()
        .filter_map(|item| Measured::of(item, &sheet.tracks, constraint))
        .collect();

    let mut lines: Vec<Line> = sheet
        .tracks
        .iter()
        .map(|track| Line::start(*track))
        .collect();
    watch.after(Step::Start, &lines);
    items_in_one_track(&mut lines, &items);
    watch.after(Step::OneTrack, &lines);
    spans::longer_spans(constraint, &mut lines, &items, watch);
    missing_limits(&mut lines);
    watch.after(Step::MissingLimits, &lines);
    let rounds = maximise(constraint, &mut lines);
    watch.after(Step::Maximise, &lines);
    flexible(expansion, &mut lines, &items, watch);
    watch.after(Step::Flexible, &lines);
    if sheet.space.stretch {
        stretch(expansion, &mut lines);
        watch.after(Step::Stretch, &lines);
    }

    let free = match expansion {
        Constraint::Definite(space) => {
            let free = free_space(space, &lines);
            Some(i32::try_from(free).expect("the sizes of a board are far from the ends of i32"))
        }
        _ => None,
    };
    (lines, Found { free, rounds })
}

/// The expansion space: the inner size if given; without it, definite becomes max-content and the others stay, but that in the block
/// axis min-content becomes max-content too.
pub fn expansion(space: &Space) -> Constraint {
    match (space.inner, space.constraint, space.axis) {
        (Some(inner), _, _) => Constraint::Definite(inner),
        (None, Constraint::MinContent, Axis::Inline) => Constraint::MinContent,
        (None, Constraint::MinContent, Axis::Block) => Constraint::MaxContent,
        (None, Constraint::Definite(_) | Constraint::MaxContent, _) => Constraint::MaxContent,
    }
}

impl Measured {
    fn of(item: &Item, tracks: &[Track], constraint: Constraint) -> Option<Measured> {
        let [minimum, min_content, max_content] = item.row()?;
        if !item.is_measured(tracks) {
            return None;
        }
        let crosses_fr = tracks[item.tracks()].iter().any(|track| track.is_fr());
        // Only a constraint that is not definite asks for limited contributions.
        let (for_auto, limited_max_content) = match constraint {
            Constraint::Definite(_) => (minimum, max_content),
            _ => {
                let most = sum_of_maxima(&tracks[item.tracks()]);
                let limited = |contribution: u32| contribution.min(most).max(minimum);
                (limited(min_content), limited(max_content))
            }
        };
        Some(Measured {
            tracks: item.tracks(),
            crosses_fr,
            for_auto,
            min_content,
            max_content,
            limited_max_content,
        })
    }
}

/// The sum of the maxima when all are fixed or fit-content, else no limit.
fn sum_of_maxima(tracks: &[Track]) -> u32 {
    let mut sum = 0;
    for track in tracks {
        match track.maximum {
            Maximum::Fixed(dots) | Maximum::FitContent(dots) => sum += dots,
            _ => return NO_LIMIT,
        }
    }
    sum
}

impl Line {
    /// Step 1.
    fn start(track: Track) -> Line {
        let base = match track.minimum {
            Minimum::Fixed(dots) => dots,
            _ => 0,
        };
        let limit = match track.maximum {
            Maximum::Fixed(dots) => Some(dots.max(base)),
            _ => None,
        };
        Line {
            track,
            base,
            limit,
            is_growable: false,
        }
    }

    /// A limit below base becomes base.
    pub fn lift_limit(&mut self) {
        self.limit = self.limit.map(|limit| limit.max(self.base));
    }

    /// The end of a lettered step for limits. A limit of none becomes base plus increase, and infinitely growable; a limit that was
    /// there keeps the mark it has.
    pub fn raise_limit(&mut self, increase: u32) {
        if increase == 0 {
            return;
        }
        self.is_growable |= self.limit.is_none();
        self.limit = Some(self.limit.unwrap_or(self.base) + increase);
    }

    /// The room of a base: up to the growth limit, cut to a fit-content argument.
    pub fn base_room(&self) -> u32 {
        let most = match (self.limit, self.track.maximum) {
            (Some(limit), Maximum::FitContent(argument)) => limit.min(argument),
            (None, Maximum::FitContent(argument)) => argument,
            (Some(limit), _) => limit,
            (None, _) => return NO_LIMIT,
        };
        most.saturating_sub(self.base)
    }

    /// The room of a limit that takes any amount and has gained so much: a fit-content one only up to its argument.
    pub fn limit_room(&self, gained: u32) -> u32 {
        match self.track.maximum {
            Maximum::FitContent(argument) => {
                argument.saturating_sub(self.limit.unwrap_or(self.base) + gained)
            }
            _ => NO_LIMIT,
        }
    }
}

/// Step 2.
fn items_in_one_track(lines: &mut [Line], items: &[Measured]) {
    let in_one_track = |item: &&Measured| item.tracks.len() == 1 && !item.crosses_fr;
    for item in items.iter().filter(in_one_track) {
        let line = &mut lines[item.tracks.start];
        let base = match line.track.minimum {
            Minimum::Fixed(_) => 0,
            Minimum::Auto => item.for_auto,
            Minimum::MinContent => item.min_content,
            Minimum::MaxContent => item.max_content,
        };
        let limit = match line.track.maximum {
            Maximum::Fixed(_) | Maximum::Fr(_) => None,
            Maximum::MinContent => Some(item.min_content),
            Maximum::Auto | Maximum::MaxContent => Some(item.max_content),
            Maximum::FitContent(argument) => Some(item.max_content.min(argument)),
        };
        line.base = line.base.max(base);
        line.limit = line.limit.max(limit); // none is below every number
    }
    for line in lines {
        line.lift_limit();
    }
}

/// Step 4.
fn missing_limits(lines: &mut [Line]) {
    for line in lines {
        line.limit = line.limit.or(Some(line.base));
    }
}

/// Step 5; gives the rounds of its fill.
fn maximise(constraint: Constraint, lines: &mut [Line]) -> u32 {
    match constraint {
        Constraint::MinContent => 0,
        Constraint::MaxContent => {
            for line in lines {
                line.base = line.limit.unwrap_or(line.base);
            }
            0
        }
        Constraint::Definite(space) => {
            let free = free_space(space, lines).max(0) as u32;
            fill_bases(free, lines, Line::base_room)
        }
    }
}

/// Step 6.
fn flexible(expansion: Constraint, lines: &mut [Line], items: &[Measured], watch: &mut impl Watch) {
    let fr = match expansion {
        Constraint::MinContent => return,
        Constraint::Definite(space) if free_space(space, lines) <= 0 => return,
        Constraint::Definite(space) => {
            fr_of_tracks(space, lines, &mut Vec::with_capacity(lines.len()), watch)
        }
        Constraint::MaxContent => fr_of_contents(lines, items, watch),
    };
    for line in lines {
        if let Maximum::Fr(factor) = line.track.maximum {
            line.base = line.base.max(fr.times(factor));
        }
    }
}

/// The search over these tracks, with a list lent to it: the inflexible ones are held at their bases.
fn fr_of_tracks(
    space: u32,
    lines: &[Line],
    flexible: &mut Vec<Flexible>,
    watch: &mut impl Watch,
) -> Fr {
    let mut held = 0;
    flexible.clear();
    for line in lines {
        match line.track.maximum {
            Maximum::Fr(factor) => flexible.push(Flexible {
                factor,
                base: line.base,
            }),
            _ => held += u64::from(line.base),
        }
    }
    fr::search(space, held, flexible, watch)
}

/// The largest fr that a track's base or an item across fr tracks asks for.
fn fr_of_contents(lines: &[Line], items: &[Measured], watch: &mut impl Watch) -> Fr {
    let mut largest = Fr::ZERO;
    for line in lines {
        if let Maximum::Fr(factor) = line.track.maximum {
            largest = largest.larger(Fr::of(u64::from(line.base), u64::from(factor)));
        }
    }
    let mut flexible = Vec::new();
    for item in items.iter().filter(|item| item.crosses_fr) {
        let spanned = &lines[item.tracks.clone()];
        let fr = fr_of_tracks(item.max_content, spanned, &mut flexible, watch);
        if fr.is_above(largest) {
            largest = fr;
            watch.asked(spanned.len());
        }
    }
    largest
}

/// Step 7, where it is asked for.
fn stretch(expansion: Constraint, lines: &mut [Line]) {
    if let Constraint::Definite(space) = expansion {
        let free = free_space(space, lines).max(0) as u32;
        fill_bases(free, lines, |line| match line.track.maximum {
            Maximum::Auto => NO_LIMIT,
            _ => 0,
        });
    }
}

/// Space minus the sum of bases.
fn free_space(space: u32, lines: &[Line]) -> i64 {
    i64::from(space) - lines.iter().map(|line| i64::from(line.base)).sum::<i64>()
}

/// Fills bases and gives the rounds.
fn fill_bases(dots: u32, lines: &mut [Line], room: impl Fn(&Line) -> u32) -> u32 {
    let mut rooms = [0; Track::MOST];
    let mut gains = [0; Track::MOST];
    for (place, line) in rooms.iter_mut().zip(&*lines) {
        *place = room(line);
    }
    let filled = fill::share(dots, &rooms[..lines.len()], &mut gains[..lines.len()]);
    for (line, gain) in lines.iter_mut().zip(gains) {
        line.base += gain;
    }
    filled.rounds
}
