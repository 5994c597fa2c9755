//! Memory that is lent to a call, with guard places on either side: what a call leaves is all of it, to the byte.
use crate::random::Random;

/// On either side; an odd number, so that bytes are lent at an odd address.
const GUARDS: usize = 5;

#[derive(Clone)]
pub struct Lent<T> {
    /// The lent values between the guards.
    all: Vec<T>,
    /// Whether a list of length 0 is lent without an address.
    is_null: bool,
}

impl<T: Value> Lent<T> {
    pub fn of(random: &mut Random, given: &[T]) -> Lent<T> {
        let mut lent = Lent::blank(random, given.len());
        lent.values_mut().copy_from_slice(given);
        lent
    }

    /// So many values to write to, with anything in them.
    pub fn blank(random: &mut Random, count: usize) -> Lent<T> {
        let all = (0..GUARDS + count + GUARDS).map(|_| T::any(random));
        Lent {
            all: all.collect(),
            is_null: count == 0 && random.percent(50),
        }
    }

    pub fn len(&self) -> usize {
        self.all.len() - 2 * GUARDS
    }

    pub fn values(&self) -> &[T] {
        &self.all[GUARDS..GUARDS + self.len()]
    }

    pub fn values_mut(&mut self) -> &mut [T] {
        let end = GUARDS + self.len();
        &mut self.all[GUARDS..end]
    }

    /// Writes the first value, that of a result.
    pub fn set(&mut self, value: T) {
        self.values_mut()[0] = value;
    }

    /// Where the lent values stand. The guards are this memory's too: a call that writes there is seen to do so.
    pub fn pointer(&mut self) -> *mut T {
        if self.is_null {
            return std::ptr::null_mut();
        }
        self.all[..].as_mut_ptr().wrapping_add(GUARDS)
    }
}

/// Lent memory of any type.
pub trait Memory {
    /// The guards and what is between them.
    fn bytes(&self) -> &[u8];

    /// The lent values.
    fn text(&self) -> String;

    /// The value that has this of the bytes, and its place.
    fn text_at(&self, byte: usize) -> String;
}

impl<T: Value> Memory for Lent<T> {
    fn bytes(&self) -> &[u8] {
        // No value has a byte that is not its own.
        unsafe { std::slice::from_raw_parts(self.all.as_ptr().cast(), size_of_val(&self.all[..])) }
    }

    fn text(&self) -> String {
        T::text(self.values())
    }

    fn text_at(&self, byte: usize) -> String {
        let at = byte / size_of::<T>();
        let value = T::text(&self.all[at..=at]);
        if at < GUARDS {
            return format!("{value} before what is lent");
        }
        if at >= GUARDS + self.len() {
            return format!("{value} behind what is lent");
        }
        format!("{value} at {}", at - GUARDS)
    }
}

/// What can be lent. A mark is lent as a byte, so that one that is neither 0 nor 1 can be seen.
pub trait Value: Copy {
    fn any(random: &mut Random) -> Self;
    fn text(values: &[Self]) -> String;
}

fn words<T: std::fmt::Debug>(values: &[T]) -> String {
    let words: Vec<String> = values.iter().map(|value| format!("{value:?}")).collect();
    words.join(" ")
}

impl Value for u8 {
    fn any(random: &mut Random) -> u8 {
        random.number() as u8
    }

    /// In hex.
    fn text(values: &[u8]) -> String {
        values.iter().map(|byte| format!("{byte:02x}")).collect()
    }
}

impl Value for u32 {
    fn any(random: &mut Random) -> u32 {
        random.number() as u32
    }

    fn text(values: &[u32]) -> String {
        words(values)
    }
}

impl Value for i32 {
    fn any(random: &mut Random) -> i32 {
        random.number() as i32
    }

    fn text(values: &[i32]) -> String {
        words(values)
    }
}

impl Value for u64 {
    fn any(random: &mut Random) -> u64 {
        random.number()
    }

    fn text(values: &[u64]) -> String {
        words(values)
    }
}

impl<const N: usize> Value for [u32; N] {
    fn any(random: &mut Random) -> [u32; N] {
        [0; N].map(|_| u32::any(random))
    }

    fn text(values: &[[u32; N]]) -> String {
        words(values)
    }
}
