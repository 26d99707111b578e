//! The judgement of a whole side: the numbers and the chapters of all its fields, and where each is found.

use crate::numbers::{chapters_of, Numbers};
use crate::side::{self, Counted};
use crate::sides::{Field, Number, Place};
use crate::words::{Reading, System};

/// What is judged of a side by the readings of all its fields. It takes 60 bytes a field, 6.5 MB for half an hour.
/// [`Side::judged`](crate::Side::judged) makes it, and no call of it reads the side again.
pub struct Judged {
    system: System,
    readings: Vec<[Reading; 3]>,
    pictures: Vec<side::Number>,
    times: Vec<side::Number>,
    chapters: Vec<side::Number>,
}

// Without the fields, of which there may be many
impl std::fmt::Debug for Judged {
    fn fmt(&self, f: &mut std::fmt::Formatter<'_>) -> std::fmt::Result {
        f.debug_struct("Judged").field("fields", &self.readings.len()).finish_non_exhaustive()
    }
}

impl Judged {
    /// Judges the pictures, the times and the chapters of these fields.
    pub(crate) fn of(system: System, readings: Vec<[Reading; 3]>) -> Judged {
        let numbers = |counted| Numbers::of(system, counted, &readings).numbers;
        let (pictures, times) = (numbers(Counted::Pictures), numbers(Counted::Times));
        let chapters = chapters_of(&readings);
        Judged { system, readings, pictures, times, chapters }
    }

    /// What lines 16, 17 and 18 of each field show.
    pub fn fields(&self) -> impl ExactSizeIterator<Item = [Reading; 3]> + DoubleEndedIterator + '_ {
        self.readings.iter().copied()
    }

    /// The number of each field, at the pace that is found, which is that of video or of film.
    pub fn numbers(&self, counted: Counted) -> impl ExactSizeIterator<Item = Number> + DoubleEndedIterator + '_ {
        self.judged(Some(counted)).iter().map(Number::of)
    }

    /// The chapter of each field that has a chapter code. Most fields have none: they are of the chapter before.
    pub fn chapters(&self) -> impl ExactSizeIterator<Item = Number> + DoubleEndedIterator + '_ {
        self.judged(None).iter().map(Number::of)
    }

    /// The first field of the whole side for which this number or chapter is believed or due.
    pub fn seek(&self, place: Place) -> Option<Field> {
        let (counted, number) = place.counted(self.system)?;
        let index = side::first_of(self.judged(counted), number)?;
        Some(Field { index, readings: self.readings[index] })
    }

    /// The readings of all fields.
    pub(crate) fn readings(&self) -> &[[Reading; 3]] {
        &self.readings
    }

    /// The judgement of the pictures or times, or of the chapters if nothing is named.
    fn judged(&self, counted: Option<Counted>) -> &[side::Number] {
        match counted {
            Some(Counted::Pictures) => &self.pictures,
            Some(Counted::Times) => &self.times,
            None => &self.chapters,
        }
    }
}
