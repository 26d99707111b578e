//! What fields show, and the numbers, chapters and ends that are judged of them, as the judge has them.

use crate::side::{chapters_shown, found_pace, judge, judge_chapters, judge_end, sightings, Counted};
use crate::side::{Number, Pace, Shown, Sightings};
use crate::words::{Reading, System};

/// What fields show of their numbers, and which they have, at the pace that is found.
pub(crate) struct Numbers {
    pub(crate) pace: Pace,
    pub(crate) seen: Vec<Sightings>,
    pub(crate) numbers: Vec<Number>,
}

impl Numbers {
    /// Those of fields of a disc that counts this.
    pub(crate) fn of(system: System, counted: Counted, readings: &[[Reading; 3]]) -> Numbers {
        let seen: Vec<_> = readings.iter().map(|field| sightings(system, counted, &shown(field))).collect();
        let (pace, mut numbers) = (found_pace(system, counted, &seen), vec![Number::default(); seen.len()]);
        judge(&seen, pace, &mut numbers);
        Numbers { pace, seen, numbers }
    }
}

/// What the lines of a field show.
pub(crate) fn shown(field: &[Reading; 3]) -> [Shown; 3] {
    field.map(|line| Shown { word: line.outcome.word(), pass: line.pass })
}

/// The chapters of fields.
pub(crate) fn chapters_of(readings: &[[Reading; 3]]) -> Vec<Number> {
    let seen: Vec<_> = readings
        .iter()
        .map(|field| {
            let [_, line_17, line_18] = shown(field);
            chapters_shown(&line_17, &line_18)
        })
        .collect();
    let mut chapters = vec![Number::default(); seen.len()];
    judge_chapters(&seen, &mut chapters);
    chapters
}

/// Which fields are of lead-in or lead-out.
pub(crate) fn ends_of(readings: &[[Reading; 3]]) -> Vec<u32> {
    readings
        .iter()
        .map(|field| {
            let [_, line_17, line_18] = shown(field);
            judge_end(&line_17, &line_18)
        })
        .collect()
}
