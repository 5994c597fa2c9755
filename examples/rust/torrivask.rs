//! Torrivask for Rust: the functions of include/torrivask.h, which says what each does, as safe calls.
//! Every call gives its answer, or a refusal, and then nothing that was lent has changed. Link with libtorrivask.a.

/// What was refused, by number, and where.
#[derive(Clone, Copy, Debug, PartialEq, Eq)]
pub struct Refusal {
    pub number: u32,
    pub place: u64,
}

/// A track's base size and growth limit, in dots.
pub type Sizes = [u32; 2];

/// The numbers of a space's row.
pub const SPACE_NUMBERS: usize = 6;

/// Axes, the last number of a space's row: of columns, and of rows.
pub const INLINE: u32 = 0;
pub const BLOCK: u32 = 1;

/// Constraint tag and number, inner size tag and number, stretch, axis.
pub type SpaceRow = [u32; SPACE_NUMBERS];

/// Minimum tag and number, maximum tag and number.
pub type TrackRow = [u32; 4];

/// Start in the lower half and span in the upper half of the first number, then tag and number of each contribution.
pub type ItemRow = [u32; 7];

/// A float track: base size, growth limit, planned increase of either, incurred increase.
pub type FloatTrack = [f32; 5];

#[derive(Clone, Copy, Debug, PartialEq, Eq)]
pub struct Board {
    pub tracks: u32,
    /// None where the expansion space is not definite.
    pub free: Option<i32>,
    pub rounds: u32,
}

#[derive(Clone, Copy, Debug, PartialEq, Eq)]
pub struct Filled {
    pub leftover: u32,
    pub rounds: u32,
}

#[derive(Clone, Copy, Debug, PartialEq, Eq)]
pub struct SheetRead {
    pub space: SpaceRow,
    pub tracks: u32,
    pub items: u32,
}

/// A float available space: the header's kind, and the size that is read where it is definite.
#[derive(Clone, Copy, Debug, PartialEq)]
pub struct FloatSpace {
    pub kind: u32,
    pub size: f32,
}

fn told<A>(number: u32, place: u64, answer: A) -> Result<A, Refusal> {
    match number {
        0 => Ok(answer),
        _ => Err(Refusal { number, place }),
    }
}

// In every call the pointers are those of slices and variables that live until it is back, with their own lengths, and what is
// lent for writing is borrowed alone.

/// The size of a sheet's board, track t in sizes[t]; the sizes past the tracks stay as they are.
pub fn board(sheet: &[u8], sizes: &mut [Sizes]) -> Result<Board, Refusal> {
    let (mut tracks, mut definite, mut free, mut rounds, mut place) = (0, false, 0, 0, 0);
    let number = unsafe {
        c::torrivask_board(
            sheet.as_ptr(),
            sheet.len(),
            sizes.as_mut_ptr(),
            sizes.len(),
            &mut tracks,
            &mut definite,
            &mut free,
            &mut rounds,
            &mut place,
        )
    };
    let free = definite.then_some(free);
    let answer = Board {
        tracks,
        free,
        rounds,
    };
    told(number, place, answer)
}

/// Dots shared by the affected tracks, up to their rooms where they are limited; all lists are of one length.
pub fn fill(
    dots: u32,
    affected: &[bool],
    limited: &[bool],
    rooms: &[u32],
    gains: &mut [u32],
) -> Result<Filled, Refusal> {
    let (mut leftover, mut rounds, mut place) = (0, 0, 0);
    let number = unsafe {
        c::torrivask_fill(
            dots,
            affected.as_ptr(),
            affected.len(),
            limited.as_ptr(),
            limited.len(),
            rooms.as_ptr(),
            rooms.len(),
            gains.as_mut_ptr(),
            gains.len(),
            &mut leftover,
            &mut rounds,
            &mut place,
        )
    };
    told(number, place, Filled { leftover, rounds })
}

/// A sheet's records as rows; the rows past them stay as they are.
pub fn read_sheet(
    sheet: &[u8],
    tracks: &mut [TrackRow],
    items: &mut [ItemRow],
) -> Result<SheetRead, Refusal> {
    let (mut space, mut track_count, mut item_count, mut place) = ([0; SPACE_NUMBERS], 0, 0, 0);
    let number = unsafe {
        c::torrivask_read_sheet(
            sheet.as_ptr(),
            sheet.len(),
            &mut space,
            tracks.as_mut_ptr(),
            tracks.len(),
            items.as_mut_ptr(),
            items.len(),
            &mut track_count,
            &mut item_count,
            &mut place,
        )
    };
    let answer = SheetRead {
        space,
        tracks: track_count,
        items: item_count,
    };
    told(number, place, answer)
}

/// Rows as a sheet's bytes, and how many they are; the bytes past them stay as they are.
pub fn write_sheet(
    space: &SpaceRow,
    tracks: &[TrackRow],
    items: &[ItemRow],
    bytes: &mut [u8],
) -> Result<u64, Refusal> {
    let (mut length, mut place) = (0, 0);
    let number = unsafe {
        c::torrivask_write_sheet(
            space,
            tracks.as_ptr(),
            tracks.len(),
            items.as_ptr(),
            items.len(),
            bytes.as_mut_ptr(),
            bytes.len(),
            &mut length,
            &mut place,
        )
    };
    told(number, place, length)
}

/// Where the sheet at the front of these bytes ends, by its counts.
pub fn sheet_end(bytes: &[u8]) -> Result<u64, Refusal> {
    let (mut end, mut place) = (0, 0);
    let number =
        unsafe { c::torrivask_sheet_end(bytes.as_ptr(), bytes.len(), &mut end, &mut place) };
    told(number, place, end)
}

// The float routines.

pub fn flush_planned_base_size_increases(track: &mut FloatTrack) -> Result<(), Refusal> {
    let mut place = 0;
    let number = unsafe { c::torrivask_flush_planned_base_size_increases(track, &mut place) };
    told(number, place, ())
}

pub fn flush_planned_growth_limit_increases(
    track: &mut FloatTrack,
    growable: &mut bool,
    mark: bool,
) -> Result<(), Refusal> {
    let mut place = 0;
    let number = unsafe {
        c::torrivask_flush_planned_growth_limit_increases(track, growable, mark, &mut place)
    };
    told(number, place, ())
}

/// What a gutter gains; a track without an estimate is not known.
pub fn compute_alignment_gutter_adjustment(
    alignment: u32,
    inner: Option<f32>,
    known: &[bool],
    estimates: &[f32],
) -> Result<f32, Refusal> {
    let (mut gutter, mut place) = (0.0, 0);
    let number = unsafe {
        c::torrivask_compute_alignment_gutter_adjustment(
            alignment,
            inner.is_some(),
            inner.unwrap_or(0.0),
            known.as_ptr(),
            known.len(),
            estimates.as_ptr(),
            estimates.len(),
            &mut gutter,
            &mut place,
        )
    };
    told(number, place, gutter)
}

/// The space that is left.
pub fn distribute_space_up_to_limits(
    space: f32,
    tracks: &mut [FloatTrack],
    affected: &[bool],
    proportions: &[f32],
    sizes: &[f32],
    limits: &[f32],
) -> Result<f32, Refusal> {
    let (mut left, mut place) = (0.0, 0);
    let number = unsafe {
        c::torrivask_distribute_space_up_to_limits(
            space,
            tracks.as_mut_ptr(),
            tracks.len(),
            affected.as_ptr(),
            affected.len(),
            proportions.as_ptr(),
            proportions.len(),
            sizes.as_ptr(),
            sizes.len(),
            limits.as_ptr(),
            limits.len(),
            &mut left,
            &mut place,
        )
    };
    told(number, place, left)
}

pub fn find_size_of_fr(
    tracks: &[FloatTrack],
    flexible: &[bool],
    factors: &[f32],
    space: f32,
) -> Result<f32, Refusal> {
    let (mut size, mut place) = (0.0, 0);
    let number = unsafe {
        c::torrivask_find_size_of_fr(
            tracks.as_ptr(),
            tracks.len(),
            flexible.as_ptr(),
            flexible.len(),
            factors.as_ptr(),
            factors.len(),
            space,
            &mut size,
            &mut place,
        )
    };
    told(number, place, size)
}

pub fn maximise_tracks(
    tracks: &mut [FloatTrack],
    fits: &[f32],
    space: FloatSpace,
) -> Result<(), Refusal> {
    let mut place = 0;
    let number = unsafe {
        c::torrivask_maximise_tracks(
            tracks.as_mut_ptr(),
            tracks.len(),
            fits.as_ptr(),
            fits.len(),
            space.kind,
            space.size,
            &mut place,
        )
    };
    told(number, place, ())
}

pub fn stretch_auto_tracks(
    tracks: &mut [FloatTrack],
    autos: &[bool],
    minimum: Option<f32>,
    space: FloatSpace,
) -> Result<(), Refusal> {
    let mut place = 0;
    let number = unsafe {
        c::torrivask_stretch_auto_tracks(
            tracks.as_mut_ptr(),
            tracks.len(),
            autos.as_ptr(),
            autos.len(),
            minimum.is_some(),
            minimum.unwrap_or(0.0),
            space.kind,
            space.size,
            &mut place,
        )
    };
    told(number, place, ())
}

/// The functions as the header declares them, for whoever looks at what they leave: a list is a pointer and its length.
pub mod c {
    use super::{FloatTrack, ItemRow, Sizes, SpaceRow, TrackRow};

    #[link(name = "torrivask", kind = "static")]
    extern "C" {
        pub fn torrivask_board(
            sheet: *const u8,
            sheet_length: usize,
            sizes: *mut Sizes,
            place_count: usize,
            tracks: *mut u32,
            definite: *mut bool,
            free: *mut i32,
            rounds: *mut u32,
            place: *mut u64,
        ) -> u32;
        pub fn torrivask_fill(
            dots: u32,
            affected: *const bool,
            affected_count: usize,
            limited: *const bool,
            limited_count: usize,
            rooms: *const u32,
            room_count: usize,
            gains: *mut u32,
            gain_count: usize,
            leftover: *mut u32,
            rounds: *mut u32,
            place: *mut u64,
        ) -> u32;
        pub fn torrivask_read_sheet(
            sheet: *const u8,
            sheet_length: usize,
            space: *mut SpaceRow,
            tracks: *mut TrackRow,
            track_rows: usize,
            items: *mut ItemRow,
            item_rows: usize,
            track_count: *mut u32,
            item_count: *mut u32,
            place: *mut u64,
        ) -> u32;
        pub fn torrivask_write_sheet(
            space: *const SpaceRow,
            tracks: *const TrackRow,
            track_count: usize,
            items: *const ItemRow,
            item_count: usize,
            bytes: *mut u8,
            byte_count: usize,
            length: *mut u64,
            place: *mut u64,
        ) -> u32;
        pub fn torrivask_sheet_end(
            bytes: *const u8,
            byte_count: usize,
            end: *mut u64,
            place: *mut u64,
        ) -> u32;

        pub fn torrivask_flush_planned_base_size_increases(
            track: *mut FloatTrack,
            place: *mut u64,
        ) -> u32;
        pub fn torrivask_flush_planned_growth_limit_increases(
            track: *mut FloatTrack,
            growable: *mut bool,
            mark: bool,
            place: *mut u64,
        ) -> u32;
        pub fn torrivask_compute_alignment_gutter_adjustment(
            alignment: u32,
            given: bool,
            inner: f32,
            known: *const bool,
            known_count: usize,
            estimates: *const f32,
            estimate_count: usize,
            gutter: *mut f32,
            place: *mut u64,
        ) -> u32;
        pub fn torrivask_distribute_space_up_to_limits(
            space: f32,
            tracks: *mut FloatTrack,
            track_count: usize,
            affected: *const bool,
            affected_count: usize,
            proportions: *const f32,
            proportion_count: usize,
            sizes: *const f32,
            size_count: usize,
            limits: *const f32,
            limit_count: usize,
            left: *mut f32,
            place: *mut u64,
        ) -> u32;
        pub fn torrivask_find_size_of_fr(
            tracks: *const FloatTrack,
            track_count: usize,
            flexible: *const bool,
            flexible_count: usize,
            factors: *const f32,
            factor_count: usize,
            space: f32,
            size: *mut f32,
            place: *mut u64,
        ) -> u32;
        pub fn torrivask_maximise_tracks(
            tracks: *mut FloatTrack,
            track_count: usize,
            fits: *const f32,
            fit_count: usize,
            kind: u32,
            space: f32,
            place: *mut u64,
        ) -> u32;
        pub fn torrivask_stretch_auto_tracks(
            tracks: *mut FloatTrack,
            track_count: usize,
            autos: *const bool,
            auto_count: usize,
            given: bool,
            minimum: f32,
            kind: u32,
            space: f32,
            place: *mut u64,
        ) -> u32;
    }
}
