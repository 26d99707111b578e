//! What lines show, and fields that come in pieces.

use crate::near::recover_rows;
use crate::words::{Levels, Reading, System};

/// Why what was given can't be right. Nothing was read.
#[derive(Clone, Copy, Debug, PartialEq, Eq, thiserror::Error)]
#[non_exhaustive]
pub enum Error {
    /// From [`Side::new`](crate::Side::new): there are bytes, but fewer than a field has.
    #[error("a field has {field} bytes, and these are {bytes}")]
    NoField { bytes: usize, field: usize },
    /// From [`Side::line`](crate::Side::line): not one line. From [`Side::nearest`](crate::Side::nearest): not 1 to 28.
    #[error("a line has {line} bytes, and these are {bytes}")]
    NoLine { bytes: usize, line: usize },
    /// From [`Side::whole_by_clock`](crate::Side::whole_by_clock) and
    /// [`Side::gaps_by_clock`](crate::Side::gaps_by_clock): no number leaves this remainder by the period.
    #[error("the phase {phase} is not below the period {period}")]
    NoClock { period: u32, phase: u32 },
}

/// The samples of the longest line, that of PAL.
const WIDEST: usize = 1135;

/// Refuses bytes that aren't 1 to `most` lines of this system.
pub(crate) fn check_lines(system: System, bytes: usize, most: usize) -> Result<(), Error> {
    let line = system.line_bytes();
    let is_right = bytes % line == 0 && (1..=most).contains(&(bytes / line));
    is_right.then_some(()).ok_or(Error::NoLine { bytes, line })
}

/// Where lines 16, 17 and 18 lie in a field.
pub(crate) fn rows_of(system: System) -> std::ops::Range<usize> {
    15 * system.line_bytes()..18 * system.line_bytes()
}

/// Reads these three lines, and recovers the words of worn ones.
pub(crate) fn recover(system: System, levels: Levels, rows: &[u8]) -> [Reading; 3] {
    let none_erased = [false; 3 * WIDEST];
    let lines = recover_rows(system, levels, rows, &none_erased[..3 * system.width()]);
    lines.map(|line| Reading { outcome: line.outcome, pass: line.pass })
}

/// A stream of fields that comes in pieces of any length. It holds three lines of the field that isn't whole yet.
#[derive(Clone, Debug)]
pub struct Feeder {
    system: System,
    levels: Levels,
    rows: Vec<u8>,
    at: usize,
}

impl Feeder {
    /// Before the first byte.
    pub fn new(system: System, levels: Levels) -> Feeder {
        Feeder { system, levels, rows: Vec::new(), at: 0 }
    }

    /// Takes the next piece, and returns the readings of each field that is whole now, wherever the pieces are cut.
    pub fn feed(&mut self, mut piece: &[u8]) -> Vec<[Reading; 3]> {
        let (size, rows, mut whole) = (self.system.field_bytes(), rows_of(self.system), Vec::new());
        while !piece.is_empty() {
            let (now, later) = piece.split_at(piece.len().min(size - self.at));
            let within = |byte: usize| byte.clamp(self.at, self.at + now.len()) - self.at;
            self.rows.extend_from_slice(&now[within(rows.start)..within(rows.end)]);
            self.at = (self.at + now.len()) % size;
            if self.at == 0 {
                let rows = std::mem::take(&mut self.rows);
                whole.push(recover(self.system, self.levels, &rows));
            }
            piece = later;
        }
        whole
    }

    /// How many bytes of the field that isn't whole have come. If the stream ends now, this field is cut.
    pub fn cut_bytes(&self) -> usize {
        self.at
    }
}
