//! The calls of include/ldvbi.h, from C's pointers and lengths.
//!
//! The caller has to ensure what that header says: a pointer points to as many bytes, or readings, as the length beside
//! it says, or to one value. It may be null only if the length is 0.
#![allow(clippy::missing_safety_doc)]
use crate::c::{self, LdvbiClock, LdvbiCode, LdvbiErased, LdvbiFieldReadings, LdvbiNear, LdvbiReading, LdvbiRecord};
use crate::c::{LdvbiChecked, LdvbiPlace, LdvbiSide, LdvbiSideRule, LdvbiSought};
use crate::plan::{Capture, Stretch};
use crate::side::{Number, Sightings};
use crate::whole_side::Gap;
use std::mem::size_of;
use std::slice::{from_raw_parts, from_raw_parts_mut};

/// The most bytes that a slice may have. No length from this one on is ever right.
const MOST: usize = isize::MAX as usize;

unsafe fn values<'a, T>(start: *const T, count: usize) -> &'a [T] {
    if count == 0 {
        return &[];
    }
    from_raw_parts(start, count.min(MOST / size_of::<T>()))
}

unsafe fn room<'a, T>(start: *mut T, length: usize) -> &'a mut [T] {
    if length == 0 {
        return &mut [];
    }
    from_raw_parts_mut(start, length.min(MOST / size_of::<T>()))
}

/// Says, by being there, that this library is built from the source without its contracts: the proved one has no such
/// call.
#[no_mangle]
pub extern "C" fn ldvbi_plain_rust() {}

macro_rules! exports {
    ($(fn $name:ident($($arguments:tt)*) -> $answer:ty;)*) => { $(export! { $name $answer, [] [] $($arguments)*, })* };
}

/// Takes one argument at a time into two lists: what C gives, and what is passed on.
macro_rules! export {
    ($name:ident $answer:ty, [$($given:tt)*] [$($passed:tt)*] $(,)?) => {
        #[no_mangle]
        pub unsafe extern "C" fn $name($($given)*) -> $answer {
            c::$name($($passed)*)
        }
    };
    ($name:ident $answer:ty, [$($given:tt)*] [$($passed:tt)*] $slice:ident: &[$of:ty], $($rest:tt)*) => {
        export! { $name $answer, [$($given)* $slice: *const $of, length: usize,]
            [$($passed)* values($slice, length),] $($rest)* }
    };
    ($name:ident $answer:ty, [$($given:tt)*] [$($passed:tt)*] $slice:ident: &mut [$of:ty], $($rest:tt)*) => {
        export! { $name $answer, [$($given)* $slice: *mut $of, length: usize,]
            [$($passed)* room($slice, length),] $($rest)* }
    };
    ($name:ident $answer:ty, [$($given:tt)*] [$($passed:tt)*] $one:ident: &mut $of:ty, $($rest:tt)*) => {
        export! { $name $answer, [$($given)* $one: *mut $of,] [$($passed)* &mut *$one,] $($rest)* }
    };
    ($name:ident $answer:ty, [$($given:tt)*] [$($passed:tt)*] $one:ident: &$of:ty, $($rest:tt)*) => {
        export! { $name $answer, [$($given)* $one: *const $of,] [$($passed)* &*$one,] $($rest)* }
    };
    ($name:ident $answer:ty, [$($given:tt)*] [$($passed:tt)*] $number:ident: $of:ty, $($rest:tt)*) => {
        export! { $name $answer, [$($given)* $number: $of,] [$($passed)* $number,] $($rest)* }
    };
}

exports! {
    fn ldvbi_abi() -> u32;
    fn ldvbi_version() -> u32;
    fn ldvbi_line_samples(system: u32) -> usize;
    fn ldvbi_line_bytes(system: u32) -> usize;
    fn ldvbi_lines(system: u32) -> usize;
    fn ldvbi_field_bytes(system: u32) -> usize;

    fn ldvbi_read_line(system: u32, black: u32, white: u32, samples: &[u8], out: &mut LdvbiReading) -> u32;
    fn ldvbi_read_rows(system: u32, black: u32, white: u32, samples: &[u8], out: &mut LdvbiFieldReadings) -> u32;
    fn ldvbi_read_field(system: u32, black: u32, white: u32, samples: &[u8], out: &mut LdvbiFieldReadings) -> u32;
    fn ldvbi_read_fields(system: u32, black: u32, white: u32, samples: &[u8], out: &mut [LdvbiFieldReadings]) -> u32;
    fn ldvbi_nearest(system: u32, black: u32, white: u32, samples: &[u8], out: &mut LdvbiNear) -> u32;
    fn ldvbi_recover_rows(system: u32, black: u32, white: u32, samples: &[u8], erased: &[LdvbiErased],
        out: &mut LdvbiFieldReadings) -> u32;
    fn ldvbi_recover_fields(system: u32, black: u32, white: u32, samples: &[u8], erased: &[LdvbiErased],
        out: &mut [LdvbiFieldReadings]) -> u32;
    fn ldvbi_recovered_record(system: u32, black: u32, white: u32, number: u32, samples: &[u8],
        erased: &[LdvbiErased], out: &mut LdvbiRecord) -> u32;
    fn ldvbi_recover_pile(system: u32, black: u32, white: u32, line: u32, known: u32, samples: &[u8],
        erased: &[LdvbiErased], word: &mut u32) -> u32;

    fn ldvbi_classify(word: u32, code: &mut LdvbiCode) -> u32;
    fn ldvbi_format(first: u32, second: u32, third: u32, format: &mut u32) -> u32;
    fn ldvbi_draw_line(system: u32, black: u32, white: u32, word: u32, samples: &mut [u8]) -> u32;

    fn ldvbi_judge(system: u32, counted: u32, pace: u32, readings: &[LdvbiFieldReadings], seen: &mut [Sightings],
        numbers: &mut [Number]) -> u32;
    fn ldvbi_judge_field(system: u32, counted: u32, pace: u32, readings: &[LdvbiFieldReadings], field: usize,
        number: &mut Number) -> u32;
    fn ldvbi_seek(system: u32, black: u32, white: u32, counted: u32, pace: u32, bytes: &[u8], number: u32,
        sought: &mut LdvbiSought) -> u32;
    fn ldvbi_find_pace(system: u32, counted: u32, readings: &[LdvbiFieldReadings], seen: &mut [Sightings],
        pace: &mut u32) -> u32;
    fn ldvbi_complete_times(system: u32, readings: &[LdvbiFieldReadings], seen: &mut [Sightings],
        completed: &mut [LdvbiFieldReadings]) -> u32;
    fn ldvbi_judge_chapters(readings: &[LdvbiFieldReadings], seen: &mut [Sightings], chapters: &mut [Number]) -> u32;
    fn ldvbi_seek_chapter(system: u32, black: u32, white: u32, bytes: &[u8], chapter: u32,
        place: &mut LdvbiPlace) -> u32;
    fn ldvbi_judge_stops(readings: &[LdvbiFieldReadings], stops: &mut [u32]) -> u32;
    fn ldvbi_next_stop(system: u32, black: u32, white: u32, bytes: &[u8], field: usize, most: usize,
        stop: &mut LdvbiPlace) -> u32;
    fn ldvbi_judge_ends(readings: &[LdvbiFieldReadings], ends: &mut [u32]) -> u32;
    fn ldvbi_find_both(numbers: &[Number]) -> u32;
    fn ldvbi_find_clock(rule: &LdvbiSideRule, numbers: &[Number], clock: &mut LdvbiClock) -> u32;
    fn ldvbi_judge_side(rule: &LdvbiSideRule, may_end: u32, seen: &[Sightings], numbers: &[Number], ends: &[u32],
        gaps: &mut [Gap], side: &mut LdvbiSide) -> u32;
    fn ldvbi_set_aside(rule: &LdvbiSideRule, gaps: &[Gap], numbers: &[Number], left: &mut [Number],
        count: &mut usize) -> u32;
    fn ldvbi_check_plan(spacing: u32, begin: usize, end: u32, clock: &LdvbiClock, numbers: &[Number],
        captures: &[Capture], plan: &[Stretch], checked: &mut LdvbiChecked) -> u32;
    fn ldvbi_first_of(numbers: &[Number], number: u32) -> usize;
}
