//! Fields one by one: an iterator that reads what it yields alone, and what the fields around one say of it.

use crate::numbers::{chapters_of, ends_of, Numbers};
use crate::side::{self, Counted, BELIEVED, LEAD_OUT};
use crate::sides::{Field, Number, Side};
use crate::words::Reading;

/// What a function makes of each item. It isn't called for items that are skipped, as it is by `Map`.
pub(crate) struct Each<I, F>(pub(crate) I, pub(crate) F);

impl<I: Iterator, B, F: FnMut(I::Item) -> B> Iterator for Each<I, F> {
    type Item = B;

    fn next(&mut self) -> Option<B> {
        self.0.next().map(&mut self.1)
    }

    fn nth(&mut self, n: usize) -> Option<B> {
        self.0.nth(n).map(&mut self.1)
    }

    fn size_hint(&self) -> (usize, Option<usize>) {
        self.0.size_hint()
    }

    fn count(self) -> usize {
        self.0.count()
    }

    fn last(mut self) -> Option<B> {
        self.0.last().map(&mut self.1)
    }
}

impl<I: DoubleEndedIterator, B, F: FnMut(I::Item) -> B> DoubleEndedIterator for Each<I, F> {
    fn next_back(&mut self) -> Option<B> {
        self.0.next_back().map(&mut self.1)
    }

    fn nth_back(&mut self, n: usize) -> Option<B> {
        self.0.nth_back(n).map(&mut self.1)
    }
}

impl<I: ExactSizeIterator, B, F: FnMut(I::Item) -> B> ExactSizeIterator for Each<I, F> {}

/// How many fields before a field, and after it, tell its chapter. Twice as many tell its number.
const REACH: usize = 24;

/// What is told of a field: chapters are between the two.
const BEFORE_CHAPTERS: i64 = -1;
const AFTER_CHAPTERS: i64 = 80;

impl Side<'_> {
    /// The number of a field, as [`numbers`](Side::numbers) has it at the same pace: it is judged by 48 fields before
    /// the field and as many after it, and the pace is found by these. `None` if there is no such field.
    pub fn number(&self, counted: Counted, index: usize) -> Option<Number> {
        let (first, readings) = self.around(index, 2 * REACH)?;
        Some(Number::of(&Numbers::of(self.system(), counted, &readings).numbers[index - first]))
    }

    /// The chapter of a field: the last one that is believed up to it. `None` before the first one, in lead-out, if
    /// there is none within 24 fields, or no such field.
    pub fn chapter(&self, index: usize) -> Option<u32> {
        self.told(index).filter(|told| *told < AFTER_CHAPTERS).and_then(|told| u32::try_from(told).ok())
    }

    /// The field in which the next chapter after that of this field begins, if halving finds one.
    pub fn next_chapter(&self, index: usize) -> Option<Field> {
        let (first, _) = self.first_from(u32::try_from(self.told(index)? + 1).ok()?)?;
        self.field(first)
    }

    /// The field in which the chapter before that of this field begins, if halving finds one.
    pub fn previous_chapter(&self, index: usize) -> Option<Field> {
        self.field((0..self.chapter(index)?).rev().find_map(|chapter| self.begin_of(chapter))?)
    }

    /// The field in which this chapter begins, or the next one that halving finds, and which it is.
    pub(crate) fn first_from(&self, least: u32) -> Option<(usize, u32)> {
        (least..AFTER_CHAPTERS as u32).find_map(|chapter| Some((self.begin_of(chapter)?, chapter)))
    }

    /// What the fields up to this one tell of its chapter.
    fn told(&self, index: usize) -> Option<i64> {
        let (first, readings) = self.around(index, REACH)?;
        let (chapters, ends) = (chapters_of(&readings), ends_of(&readings));
        let told = |(chapter, end): (&side::Number, &u32)| match (*end, chapter.state) {
            (LEAD_OUT, _) => Some(AFTER_CHAPTERS),
            (_, BELIEVED) => Some(i64::from(chapter.number)),
            _ => None,
        };
        let up_to = ..=index - first;
        Some(chapters[up_to].iter().zip(&ends[up_to]).rev().find_map(told).unwrap_or(BEFORE_CHAPTERS))
    }

    /// The readings of a field and of so many on either side of it, as far as there are any, and which is the first.
    fn around(&self, index: usize, reach: usize) -> Option<(usize, Vec<[Reading; 3]>)> {
        let first = index.saturating_sub(reach);
        (index < self.len()).then(|| (first, self.read(first).take(index - first + reach + 1).collect()))
    }
}
