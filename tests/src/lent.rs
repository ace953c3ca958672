//! What the tests lend to the C calls: copies that stand between guard places, so that a call which writes
//! outside of the buffer that it is to fill is found out (document 01, "Grounds for refusing": all change no
//! buffer).

use crate::settings::{shown, Settings};
use std::fmt::Display;
use std::ptr;

/// Guard places before and after a lent slice.
const GUARD: usize = 16;

/// What a lent slice is made of.
pub trait Place: Copy + PartialEq {
    /// What guards and buffers hold before a call. It differs from place to place, so that a place left out,
    /// moved or written by mistake shows.
    fn filling(place: usize) -> Self;
}

fn mixed(place: usize) -> u64 {
    (place as u64 + 1).wrapping_mul(0x9e37_79b9_7f4a_7c15)
}

/// Never a letter, a line end or anything else that a call writes.
impl Place for u8 {
    fn filling(place: usize) -> u8 {
        0x80 | (mixed(place) >> 57) as u8
    }
}

impl Place for u32 {
    fn filling(place: usize) -> u32 {
        (mixed(place) >> 32) as u32
    }
}

/// Never a code, nor the number of a window without one.
impl Place for u64 {
    fn filling(place: usize) -> u64 {
        (1 << 62) + mixed(place) % (1 << 62)
    }
}

/// A buffer of this length as it is before a call.
pub fn filled<T: Place>(length: usize) -> Vec<T> {
    (GUARD..GUARD + length).map(T::filling).collect()
}

/// A slice between guards.
pub struct Lent<T> {
    places: Vec<T>,
    length: usize,
}

impl<T: Place> Lent<T> {
    pub fn filled(length: usize) -> Lent<T> {
        Lent { places: (0..GUARD + length + GUARD).map(T::filling).collect(), length }
    }

    pub fn new(slice: &[T]) -> Lent<T> {
        let mut lent = Lent::filled(slice.len());
        lent.slice_mut().copy_from_slice(slice);
        lent
    }

    pub fn len(&self) -> usize {
        self.length
    }

    pub fn is_empty(&self) -> bool {
        self.length == 0
    }

    pub fn slice(&self) -> &[T] {
        &self.places[GUARD..GUARD + self.length]
    }

    pub fn slice_mut(&mut self) -> &mut [T] {
        &mut self.places[GUARD..GUARD + self.length]
    }

    /// As C programs may do, an empty slice is passed as NULL.
    pub fn pointer(&mut self) -> *mut T {
        if self.is_empty() {
            ptr::null_mut()
        } else {
            self.slice_mut().as_mut_ptr()
        }
    }

    pub fn check_guards(&self, settings: &Settings, what: &str) {
        let end = GUARD + self.length;
        let whole = |place: usize| self.places[place] == T::filling(place);
        let kept = (0..GUARD).all(whole) && (end..end + GUARD).all(whole);
        assert!(kept, "{settings}: a place outside of the {what} changed");
    }
}

impl Lent<u8> {
    /// Bytes lent for reading are as they were.
    pub fn check_unchanged(&self, settings: &Settings, what: &str, before: &[u8]) {
        self.check_guards(settings, what);
        let after = self.slice();
        assert!(after == before, "{settings}: the {what} {} changed to {}", shown(before), shown(after));
    }
}

/// Compares a buffer after a call with what it should hold, and names the first place that differs.
pub fn check_places<T: Place + Display>(what: &str, left: &[T], right: &[T]) {
    assert_eq!(left.len(), right.len(), "{what}: places");
    if let Some(place) = (0..left.len()).find(|&place| left[place] != right[place]) {
        panic!("{what} left {} at place {place}, expected {}", left[place], right[place]);
    }
}
