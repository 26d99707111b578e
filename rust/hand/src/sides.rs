//! Sides: what their fields show, which number each field has, where a place is found, and where a player stops.

use crate::fields::Each;
use crate::judged::Judged;
use crate::lines::{check_lines, recover, rows_of, Error};
use crate::near::{nearest_of_lines, Near};
use crate::numbers::shown;
use crate::seek::{self, next_stop, seek_chapter, seek_number, Asked, Judging, Seek, Setup, Sought};
use crate::side::{self, judge_stop, Counted, BELIEVED};
use crate::words::{Levels, Reading, System};
use std::sync::{Arc, Mutex, PoisonError};

/// The number of a field, judged by the fields around it: a picture number, a chapter, or a time as pictures from the
/// disc's beginning, 30 (NTSC) or 25 (PAL) a second.
#[derive(Clone, Copy, Debug, PartialEq, Eq)]
pub enum Number {
    /// The field shows no number, and none is due.
    Nothing,
    /// The field shows this number, and enough around it supports that.
    Believed(u32),
    /// The field shows this number, but none is believed of the field, and none is due.
    Doubtful(u32),
    /// No number of the field is believed, but the believed ones before and after it count to this. Never a chapter.
    Due(u32),
}

impl Number {
    pub(crate) fn of(judged: &side::Number) -> Number {
        let n = judged.number;
        [Number::Nothing, Number::Believed(n), Number::Doubtful(n), Number::Due(n)][judged.state as usize]
    }

    /// As the check of plans takes it, which asks for believed ones alone.
    pub(crate) fn judged(self) -> side::Number {
        match self {
            Number::Believed(number) => side::Number { number, state: BELIEVED },
            _ => side::Number::default(),
        }
    }

    /// The number, if it is believed or due.
    pub fn known(self) -> Option<u32> {
        match self {
            Number::Believed(number) | Number::Due(number) => Some(number),
            Number::Nothing | Number::Doubtful(_) => None,
        }
    }
}

/// A place that is sought on a side.
#[derive(Clone, Copy, Debug, PartialEq, Eq)]
#[non_exhaustive]
pub enum Place {
    /// A picture of a CAV disc, from 0 to 79999.
    Picture(u32),
    /// A picture of a CLV disc: hours, minutes, seconds, and the picture within the second, from 0.
    Time(u32, u32, u32, u32),
    /// A chapter, from 0 to 79.
    Chapter(u32),
}

impl Place {
    /// What counts it (nothing for a chapter), and its number; `None` for a time that no disc of this system has.
    pub(crate) fn counted(self, system: System) -> Option<(Option<Counted>, u32)> {
        let rate = if system == System::Ntsc { 30 } else { 25 };
        match self {
            Place::Picture(number) => Some((Some(Counted::Pictures), number)),
            Place::Chapter(number) => Some((None, number)),
            Place::Time(hours @ 0..=9, minutes @ 0..=59, seconds @ 0..=59, picture) if picture < rate => {
                Some((Some(Counted::Times), ((hours * 60 + minutes) * 60 + seconds) * rate + picture))
            }
            Place::Time(..) => None,
        }
    }
}

/// A believed number beside one that is sought.
#[derive(Clone, Copy, Debug, PartialEq, Eq)]
#[non_exhaustive]
pub struct Neighbour {
    /// The picture's number, or the pictures from the disc's beginning.
    pub number: u32,
    /// Its field, counted from 0: of a lower number the last, of a higher one the first.
    pub field: usize,
}

/// The nearest lower and the nearest higher number of the fields in which a number was looked for, if they tell one.
#[derive(Clone, Copy, Debug, PartialEq, Eq)]
#[non_exhaustive]
pub struct Beside {
    /// The nearest lower one.
    pub before: Option<Neighbour>,
    /// The nearest higher one.
    pub after: Option<Neighbour>,
}

/// A field of a side.
#[derive(Clone, Copy, Debug, PartialEq, Eq)]
#[non_exhaustive]
pub struct Field {
    /// Its place on the side, counted from 0.
    pub index: usize,
    /// What its lines 16, 17 and 18 show.
    pub readings: [Reading; 3],
}

/// The samples of a side, field after field, as in a TBC file that is read or mapped. Words of worn lines are
/// recovered, as pass 3. Only lines 16, 17 and 18 of a field are read:
///
/// | Call | Reads |
/// |---|---|
/// | `new`, `open`, `len`, `cut_bytes`, `line`, `nearest` | nothing of the side |
/// | `field`; `fields`, `stops`, `next_stop` | one field; each that is yielded or stopped at, each time |
/// | `number`, `chapter` | at most 97 fields; at most 49 |
/// | `seek`, `seek_on`, `beside`, `next_chapter`, `previous_chapter` | at most 1,000 fields for each place asked for |
/// | `numbers`, `chapters`, `whole`, `gaps`, `find_clock`, `judged` | the whole side, once |
///
/// What is judged of the whole side is kept, 60 bytes a field, and clones and threads share it. `open` maps a file. If
/// you map it yourself, do so with `MADV_RANDOM`: without it, the system reads far more of the file. docs/RUST.md says
/// what the calls cost.
#[derive(Clone)]
pub struct Side<'a> {
    bytes: &'a [u8],
    system: System,
    levels: Levels,
    padding: Arc<[usize]>,
    // Not a OnceLock, which Rust has from 1.70 on
    kept: Arc<Mutex<Option<Arc<Judged>>>>,
}

// Without the samples, which may be many gigabytes
impl std::fmt::Debug for Side<'_> {
    fn fmt(&self, f: &mut std::fmt::Formatter<'_>) -> std::fmt::Result {
        let is_judged = matches!(self.kept.try_lock(), Ok(kept) if kept.is_some());
        f.debug_struct("Side").field("fields", &self.len()).field("is_judged", &is_judged).finish_non_exhaustive()
    }
}

impl<'a> Side<'a> {
    /// A side of these bytes. Bytes past the last whole field are left out: they are a cut field. No bytes at all are a
    /// side without a field, but fewer bytes than a field has are [`Error::NoField`].
    pub fn new(bytes: &'a [u8], system: System, levels: Levels) -> Result<Side<'a>, Error> {
        match (bytes.len(), system.field_bytes()) {
            (bytes, field) if 0 < bytes && bytes < field => Err(Error::NoField { bytes, field }),
            _ => Ok(Side { bytes, system, levels, padding: Arc::new([]), kept: Arc::default() }),
        }
    }

    /// The same side, of which these fields, counted from 0, stand for ones that the capture lacks, as `pad` in
    /// ld-decode's metadata says. With one of them it isn't whole. Fields that it doesn't have are left out.
    pub fn with_padding(self, fields: impl IntoIterator<Item = usize>) -> Side<'a> {
        Side { padding: fields.into_iter().collect(), ..self }
    }

    /// The bytes of the cut field at the end, or 0.
    pub fn cut_bytes(&self) -> usize {
        self.bytes.len() % self.system.field_bytes()
    }

    /// How many whole fields there are.
    pub fn len(&self) -> usize {
        self.bytes.len() / self.system.field_bytes()
    }

    /// Whether there is no whole field.
    pub fn is_empty(&self) -> bool {
        self.len() == 0
    }

    /// What lines 16, 17 and 18 of each field show. Fields that are skipped, as by `nth`, `skip` or `step_by`, aren't
    /// read.
    pub fn fields(&self) -> impl ExactSizeIterator<Item = [Reading; 3]> + DoubleEndedIterator + 'a {
        self.read(0)
    }

    /// The field with this index, counted from 0, if there is one. No other is read.
    pub fn field(&self, index: usize) -> Option<Field> {
        self.fields().nth(index).map(|readings| Field { index, readings })
    }

    /// What a line shows by itself, in pass 1 or 2. [`Error::NoLine`] if the bytes aren't those of a line.
    pub fn line(&self, bytes: &[u8]) -> Result<Reading, Error> {
        check_lines(self.system, bytes.len(), 1)?;
        Ok(crate::line::read_bytes_twice(bytes, self.system, self.levels))
    }

    /// The nearest word of 1 to 28 lines, one after the other, that all have the same word or none, such as lines 17
    /// and 18 of a field. [`Error::NoLine`] if the bytes aren't those of 1 to 28 lines.
    pub fn nearest(&self, lines: &[u8]) -> Result<Near, Error> {
        check_lines(self.system, lines.len(), 28)?;
        Ok(nearest_of_lines(self.system, self.levels, lines, lines.len() / self.system.line_bytes()))
    }

    /// What is judged of the whole side. The first call reads and judges it. Calls from other threads wait for that.
    /// All later calls return what it kept.
    pub fn judged(&self) -> Arc<Judged> {
        let mut kept = self.kept.lock().unwrap_or_else(PoisonError::into_inner);
        kept.get_or_insert_with(|| Arc::new(Judged::of(self.system, self.read(0).collect()))).clone()
    }

    /// The number of each field, at the pace that is found, which is that of video or of film.
    pub fn numbers(&self, counted: Counted) -> Vec<Number> {
        self.judged().numbers(counted).collect()
    }

    /// The chapter of each field that has a chapter code. Most fields have none: they are of the chapter before.
    pub fn chapters(&self) -> Vec<Number> {
        self.judged().chapters().collect()
    }

    /// The fields, from this one on, at which a player stops: line 16 or 17 shows a stop in pass 1, or both do.
    pub fn stops(&self, from: usize) -> impl Iterator<Item = Field> + 'a {
        self.read(from).enumerate().filter_map(move |(i, field)| {
            let [line_16, line_17, _] = shown(&field);
            let is_stop = judge_stop(&line_16, &line_17) == BELIEVED;
            is_stop.then_some(Field { index: from + i, readings: field })
        })
    }

    /// The first of these stops, among so many fields at most. None after it is read.
    pub fn next_stop(&self, from: usize, most: usize) -> Option<Field> {
        self.field(next_stop(self.setup(), self.bytes, from, most).field)
    }

    /// The first field for which this number or chapter is believed or due, if halving finds one. A picture or a time
    /// is sought as `ldvbi_seek` of the library for C does it, at the pace of the fields that are read.
    ///
    /// On the sides that were tried it is found if the player runs on and each line is read. Otherwise it may be
    /// missed; and if a capture goes back and has a number more than once, this may be a later field with the number.
    /// [`Judged::seek`] reads the whole side, misses none, and always finds the first.
    pub fn seek(&self, place: Place) -> Option<Field> {
        let index = match place.counted(self.system)? {
            (Some(counted), number) => self.halved(counted, number),
            (None, number) => self.begin_of(number),
        };
        self.field(index?)
    }

    /// The same, or else the field of the next place after it, among so many, that halving finds; and how many places
    /// were passed over. A player shows it for a picture that the capture lacks. After a chapter follows the next one
    /// that the side has. If what is lacking has several stretches, the place may be one after a later stretch.
    pub fn seek_on(&self, place: Place, most: u32) -> Option<(Field, u32)> {
        let (counted, number) = place.counted(self.system)?;
        let (index, passed) = match counted {
            Some(counted) => self.halved_on(counted, number, most)?,
            None => self.first_from(number).map(|(index, chapter)| (index, chapter - number))?,
        };
        (passed <= most).then_some((self.field(index)?, passed))
    }

    /// The first field of this number, or of one of so many after it, and how far that is from it: by steps that are
    /// doubled until one is found, and halved then.
    fn halved_on(&self, counted: Counted, number: u32, most: u32) -> Option<(usize, u32)> {
        let found = |passed: u32| Some((self.halved(counted, number.checked_add(passed)?)?, passed));
        let (mut had, mut lacked) = (found(0), 0);
        while had.is_none() && lacked < most {
            let further = (2 * u64::from(lacked) + 1).min(most.into()) as u32;
            had = found(further);
            if had.is_none() {
                lacked = further;
            }
        }
        let mut had = had?;
        while had.1 - lacked > 1 {
            let middle = lacked + (had.1 - lacked) / 2;
            match found(middle) {
                Some(nearer) => had = nearer,
                None => lacked = middle,
            }
        }
        Some(had)
    }

    /// The nearest lower and the nearest higher number that the fields tell around a picture or a time, as
    /// `ldvbi_seek` has them: also beside one that the capture lacks. None for a chapter.
    pub fn beside(&self, place: Place) -> Option<Beside> {
        let (counted, number) = place.counted(self.system)?;
        let sought = self.sought(counted?, number);
        let told = |one: seek::Neighbour| {
            (one.number.state != side::NOTHING).then_some(Neighbour { number: one.number.number, field: one.field })
        };
        Some(Beside { before: told(sought.before), after: told(sought.after) })
    }

    /// The first field in a row with this number, if halving finds one.
    fn halved(&self, counted: Counted, number: u32) -> Option<usize> {
        let sought = self.sought(counted, number);
        (sought.number.state != side::NOTHING).then_some(sought.field)
    }

    /// What the search answers, at the pace of the fields that it reads.
    fn sought(&self, counted: Counted, number: u32) -> Sought {
        let judging = Judging { system: self.system, counted, asked: Asked::Found };
        seek_number(Seek { setup: self.setup(), judging }, self.bytes, number)
    }

    /// The fields that are padding.
    pub(crate) fn padding(&self) -> &[usize] {
        &self.padding
    }

    /// The field in which this chapter begins, if halving finds it.
    pub(crate) fn begin_of(&self, chapter: u32) -> Option<usize> {
        let place = seek_chapter(self.setup(), self.bytes, chapter);
        Some(place.field).filter(|field| *field < self.len())
    }

    /// The system and the levels, as the searches take them.
    fn setup(&self) -> Setup {
        Setup { system: self.system, levels: self.levels }
    }

    /// The readings of the fields from this one on.
    pub(crate) fn read(&self, from: usize) -> impl ExactSizeIterator<Item = [Reading; 3]> + DoubleEndedIterator + 'a {
        let (bytes, system, levels, size) = (self.bytes, self.system, self.levels, self.system.field_bytes());
        let fields = bytes[from.saturating_mul(size).min(bytes.len())..].chunks_exact(size);
        Each(fields, move |field: &[u8]| recover(system, levels, &field[rows_of(system)]))
    }

    /// The television system.
    pub fn system(&self) -> System {
        self.system
    }
}
