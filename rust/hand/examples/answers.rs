//! Prints what the crate answers of a side: of each field, counted from 0, what its lines show, its picture, its time,
//! its chapter and its stop; or, if places are given, where they are found.
//!
//!     cargo run --example answers -- side.tbc NTSC 16384 51200 12345 0:59:29.07 'chapter 3'

use ldvbi::{Counted, Feeder, Levels, Number, Outcome, Place, Reading, Side, System};
use std::error::Error;
use std::io::{self, Write};

fn line_text(line: Reading) -> String {
    match line.outcome {
        Outcome::Word(word) => format!("{:06X}/{}", word.value(), line.pass),
        Outcome::Blank => "blank".to_owned(),
        Outcome::Unfinished => "unfinished".to_owned(),
        Outcome::Change(column) => format!("change/{column}"),
        Outcome::Hold(column) => format!("hold/{column}"),
    }
}

fn number_text(number: Number) -> String {
    match number {
        Number::Nothing => "nothing".to_owned(),
        Number::Believed(number) => format!("believed/{number}"),
        Number::Doubtful(number) => format!("doubtful/{number}"),
        Number::Due(number) => format!("due/{number}"),
    }
}

/// A picture's number, a time, or `chapter` and its number.
fn place_of(text: &str) -> Result<Place, Box<dyn Error>> {
    if let Some(chapter) = text.strip_prefix("chapter ") {
        return Ok(Place::Chapter(chapter.parse()?));
    }
    let parts: Result<Vec<u32>, _> = text.split(&[':', '.'][..]).map(str::parse).collect();
    match parts?[..] {
        [picture] => Ok(Place::Picture(picture)),
        [hours, minutes, seconds, picture] => Ok(Place::Time(hours, minutes, seconds, picture)),
        _ => Err(format!("no place: {text}").into()),
    }
}

/// The fields of the same bytes in pieces, each a little longer than the one before.
fn fed(bytes: &[u8], system: System, levels: Levels) -> (Vec<[Reading; 3]>, usize) {
    let (mut feeder, mut fields, mut at) = (Feeder::new(system, levels), Vec::new(), 0);
    for length in (1..).step_by(4093) {
        let end = bytes.len().min(at + length);
        fields.extend(feeder.feed(&bytes[at..end]));
        if end == bytes.len() {
            break;
        }
        at = end;
    }
    (fields, feeder.cut_bytes())
}

/// What the crate answers of each field.
fn print_fields(bytes: &[u8], system: System, levels: Levels, out: &mut dyn Write) -> Result<(), Box<dyn Error>> {
    let side = Side::new(bytes, system, levels)?;
    let (pictures, times) = (side.numbers(Counted::Pictures), side.numbers(Counted::Times));
    let (chapters, stops) = (side.chapters(), side.stops(0).map(|stop| stop.index).collect::<Vec<_>>());
    let size = system.line_bytes();
    for (i, readings) in side.fields().enumerate() {
        let shown = readings.map(line_text).join(" ");
        let [picture, time, chapter] = [pictures[i], times[i], chapters[i]].map(number_text);
        writeln!(out, "{i} {shown} {picture} {time} {chapter} {}", stops.contains(&i))?;
        let rows = &bytes[i * system.field_bytes()..][16 * size..18 * size];
        let near = side.nearest(rows)?;
        let word = near.word.map_or("none".to_owned(), |word| format!("{:06X}", word.value()));
        let alone = line_text(side.line(&rows[..size])?);
        writeln!(out, "{alone} {word} {} {} {} {}", near.start, near.distance, near.rival, near.longer)?;
    }
    let is_same = fed(bytes, system, levels) == (side.fields().collect(), side.cut_bytes());
    Ok(writeln!(out, "{} bytes are cut, the same in pieces: {is_same}", side.cut_bytes())?)
}

fn main() -> Result<(), Box<dyn Error>> {
    let words: Vec<String> = std::env::args().skip(1).collect();
    let (path, system, black, white, places) = match &words[..] {
        [path, system, black, white, places @ ..] => (path, system, black, white, places),
        _ => return Err("usage: answers FILE SYSTEM BLACK WHITE [PLACE..]".into()),
    };
    let system = System::named(system).ok_or("system is neither NTSC nor PAL")?;
    let levels = Levels::new(black.parse()?, white.parse()?)?;
    let mut out = io::BufWriter::new(io::stdout().lock());
    let bytes = std::fs::read(path)?;
    let side = Side::new(&bytes, system, levels)?;
    for text in places {
        let found = side.seek(place_of(text)?).map(|field| field.index);
        writeln!(out, "{text}: {}", found.map_or("none".to_owned(), |index| index.to_string()))?;
    }
    if places.is_empty() {
        print_fields(&bytes, system, levels, &mut out)?;
    }
    Ok(out.flush()?)
}
