//! A look at a sizing from outside: what it does between the steps, for whoever counts or shows it.
use crate::sizing::Line;
use crate::spans::Letter;

#[derive(Clone, Copy, Debug, PartialEq, Eq)]
pub enum Step {
    /// 1
    Start,
    /// 2
    OneTrack,
    /// 3: a lettered step of a batch.
    Letter(Letter),
    /// 3: limits below their bases after (d).
    Lifted,
    /// 4
    MissingLimits,
    /// 5
    Maximise,
    /// 6
    Flexible,
    /// 7
    Stretch,
}

pub trait Watch {
    /// The lines as a step left them.
    fn after(&mut self, _step: Step, _lines: &[Line]) {}

    /// In a letter of the last batch an item's extra went to the tracks it spans, with so many odd dots by factor.
    fn shared(&mut self, _letter: Letter, _spanned: &[Line], _gains: &[u32], _over: u32) {}

    /// The fr search has held more tracks and begins again.
    fn restarted(&mut self) {}

    /// An item of that span asks for a larger fr than any before it.
    fn asked(&mut self, _span: usize) {}
}

/// Nobody watches.
impl Watch for () {}
