//! Stands in for the types of the Rust whose files are not at hand or bring in too much: what the cut text asks of them, and
//! what the comparison hands over in them. Written by us, not cut.
use crate::rust::{f32_min, AlignContentKeyword};
use std::cell::Cell;

/// A track. The fields up to the mark are the Rust's; the rest is what the closures and methods below answer from.
pub struct GridTrack {
    pub base_size: f32,
    pub growth_limit: f32,
    pub base_size_planned_increase: f32,
    pub growth_limit_planned_increase: f32,
    pub item_incurred_increase: f32,
    pub infinitely_growable: bool,
    pub max_track_sizing_function: MaxTrackSizingFunction,
    /// The argument of a fit-content maximum, +infinity where there is none.
    pub fit: f32,
    /// What the closures of the distribution and of the gutter adjustment say of this track.
    pub is_affected: bool,
    pub proportion: f32,
    pub size: f32,
    pub limit: f32,
    pub estimate: Option<f32>,
}

impl GridTrack {
    pub fn fit_content_limit(&self) -> f32 {
        self.fit
    }

    pub fn fit_content_limited_growth_limit(&self) -> f32 {
        f32_min(self.growth_limit, self.fit_content_limit())
    }
}

/// A maximum: flexible with its factor, auto, or neither.
pub struct MaxTrackSizingFunction(pub Factor);

pub struct Factor {
    pub is_fr: bool,
    pub is_auto: bool,
    pub factor: f32,
    /// How often it was asked whether the maximum is flexible, which tells how many passes there were.
    pub asked: Cell<usize>,
}

impl MaxTrackSizingFunction {
    pub fn is_fr(&self) -> bool {
        self.0.asked.set(self.0.asked.get() + 1);
        self.0.is_fr
    }

    pub fn is_auto(&self) -> bool {
        self.0.is_auto
    }
}

impl Factor {
    pub fn value(&self) -> f32 {
        self.factor
    }
}

/// An alignment, of which only the keyword is read.
pub struct AlignContent(pub AlignContentKeyword);

impl AlignContent {
    pub fn keyword(&self) -> AlignContentKeyword {
        self.0
    }
}
