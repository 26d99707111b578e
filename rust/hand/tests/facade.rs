//! The crate's own interface, on drawn sides. What is expected was drawn, or follows from include/ldvbi.h's rules.

mod drawn;

use drawn::{digits, draw, levels, picture, time};
use ldvbi::{classify, format_of, Code, Counted, Error, Feeder, Format, Levels, LevelsFault, Near};
use ldvbi::{Number, Outcome, Place, Reading, Side, System, Word24, WordFault};
use std::sync::Arc;

const STOP: u32 = 0x82CFFF;
const CLV_MARK: u32 = 0x87FFFF;
const BLANK: Reading = Reading { outcome: Outcome::Blank, pass: 0 };

/// A system, the bytes of its lines and of its fields, the column of a drawn word, and the pictures of a second.
const SYSTEMS: [(System, usize, usize, u32, u32); 2] =
    [(System::Ntsc, 1820, 1820 * 263, 150, 30), (System::Pal, 2270, 2270 * 313, 190, 25)];

fn chapter(number: u32) -> u32 {
    0x800DDD + digits(number) * 0x1000
}

/// What a drawn line shows: its word in pass 1, or nothing.
fn shown(word: u32) -> Reading {
    Word24::new(word).map_or(BLANK, |word| Reading { outcome: Outcome::Word(word), pass: 1 })
}

/// Pictures 0 to 39 of a CAV disc, two fields each: chapter 0 to picture 19, then chapter 1. Picture 30 was misread as
/// 79999, and so was the chapter beside it, as 79. Pictures 5 and 33 have a stop, 33 on both of its fields.
fn cav() -> Vec<[u32; 3]> {
    let rows = (0..40).flat_map(|number| {
        let stop = if number == 5 || number == 33 { STOP } else { 0 };
        let also = if number == 33 { STOP } else { 0 };
        [[stop, picture(number), picture(number)], [also, chapter(number / 20), chapter(number / 20)]]
    });
    let mut rows: Vec<_> = rows.collect();
    rows[60] = [0, picture(79999), 0];
    rows[61] = [0, chapter(79), 0];
    rows
}

/// The pictures of a CLV disc from 8:59:58 on, for three seconds.
fn clv(rate: u32) -> Vec<[u32; 3]> {
    let fields = (0..3 * rate).flat_map(|number| {
        let [second, minutes] = match number / rate {
            2 => time(9, 0, 0, number % rate),
            second => time(8, 59, 58 + second, number % rate),
        };
        [[second, CLV_MARK, minutes], [0, CLV_MARK, chapter(7)]]
    });
    fields.collect()
}

#[test]
fn reads_what_was_drawn() {
    for (system, line, field, ..) in SYSTEMS {
        let rows = [[STOP, picture(12345), 0], [0, chapter(42), 0x8BA123], [0; 3]];
        let mut bytes = draw(system, &rows);
        assert_eq!(bytes.len(), 3 * field);
        bytes.extend([0; 7]);
        let side = Side::new(&bytes, system, levels()).unwrap();
        let drawn = rows.map(|row| row.map(shown));
        assert_eq!(side.fields().collect::<Vec<_>>(), drawn);
        assert_eq!((side.fields().len(), side.fields().next_back(), side.cut_bytes()), (3, Some(drawn[2]), 7));
        assert!(!side.is_empty() && !Side::new(&bytes[..field], system, levels()).unwrap().is_empty());
        assert_eq!(side.line(&bytes[16 * line..17 * line]), Ok(drawn[0][1]));
        let codes = drawn.map(|field| field[1].outcome.word().map(classify));
        assert_eq!(codes, [Some(Code::Picture(12345)), Some(Code::Chapter(42)), None]);
        assert_eq!(format_of(&drawn[0].map(|line| line.outcome.word())), Format::Cav);
        assert_eq!(format!("{side:?}"), "Side { fields: 3, is_judged: false, .. }");
    }
}

#[test]
fn names_why_a_line_has_no_word() {
    for (system, line, _, _, _) in SYSTEMS {
        let (width, longest) = (line / 2, 2 * system.half_max());
        let mut bytes = draw(system, &[[0; 3]]);
        // A run that is too short, one that is longer than two half cells, and one that the line's end cuts
        for (row, begin, end) in [(15, 400, 405), (16, 300, 360), (17, width - 5, width)] {
            bytes[row * line..][2 * begin..2 * end].fill(255);
        }
        let causes = [Outcome::Change(405), Outcome::Hold(300 + longest as u16), Outcome::Unfinished];
        let wanted = causes.map(|outcome| Reading { outcome, pass: 0 });
        let side = Side::new(&bytes, system, levels()).unwrap();
        assert_eq!(side.fields().next(), Some(wanted));
        for (row, reading) in (15..).zip(wanted) {
            assert_eq!(side.line(&bytes[row * line..(row + 1) * line]), Ok(reading));
        }
    }
}

#[test]
fn refuses_what_is_no_side_and_no_line() {
    for (system, line, field, ..) in SYSTEMS {
        let bytes = vec![0; 29 * line];
        let side = |count: usize| Side::new(&bytes[..count], system, levels());
        assert_eq!(side(0).map(|side| (side.len(), side.is_empty(), side.cut_bytes())), Ok((0, true, 0)));
        for count in [1, 28 * line] {
            assert_eq!(side(count).err(), Some(Error::NoField { bytes: count, field }));
        }
        let side = side(0).unwrap();
        for count in [0, 1, line - 1, line + 1, 2 * line] {
            assert_eq!(side.line(&bytes[..count]), Err(Error::NoLine { bytes: count, line }));
        }
        for count in [0, 1, line + 1, 28 * line - 2, 29 * line] {
            assert_eq!(side.nearest(&bytes[..count]), Err(Error::NoLine { bytes: count, line }));
        }
        assert!(side.nearest(&bytes[..line]).is_ok() && side.nearest(&bytes[..28 * line]).is_ok());
        assert_eq!(side.seek(Place::Picture(0)), None);
        assert_eq!((side.numbers(Counted::Times), side.chapters(), side.stops(0).next()), (vec![], vec![], None));
    }
    assert_eq!(Levels::new(7, 7), Err(LevelsFault::Order));
    assert_eq!(Word24::new(0x7FFFFF), Err(WordFault::TopBitClear));
    assert_eq!(Word24::new(0x1000000), Err(WordFault::TooWide));
    let fault: Box<dyn std::error::Error> = Error::NoField { bytes: 3, field: 478660 }.into();
    assert_eq!(fault.to_string(), "a field has 478660 bytes, and these are 3");
    assert_eq!(Error::NoLine { bytes: 3, line: 1820 }.to_string(), "a line has 1820 bytes, and these are 3");
    assert_eq!(Error::NoClock { period: 5, phase: 6 }.to_string(), "the phase 6 is not below the period 5");
}

#[test]
fn a_misread_number_is_never_answered() {
    for (system, ..) in SYSTEMS {
        let bytes = draw(system, &cav());
        let side = Side::new(&bytes, system, levels()).unwrap();
        let numbers = side.numbers(Counted::Pictures);
        for (field, number) in numbers.iter().enumerate() {
            let drawn = field as u32 / 2;
            let wanted = match field {
                60 => Number::Due(30),
                _ if field % 2 == 0 => Number::Believed(drawn),
                _ => Number::Nothing,
            };
            assert_eq!(*number, wanted, "field {field}");
        }
        for number in 0..40 {
            let found = side.seek(Place::Picture(number)).map(|field| field.index);
            assert_eq!(found, Some(2 * number as usize), "picture {number}");
        }
        let misread = [0, picture(79999), 0].map(shown);
        let found = side.seek(Place::Picture(30));
        assert_eq!(found.map(|field| (field.index, field.readings)), Some((60, misread)));
        for place in [Place::Picture(40), Place::Picture(79999), Place::Chapter(79), Place::Time(0, 0, 1, 0)] {
            assert_eq!(side.seek(place), None);
        }
    }
}

#[test]
fn finds_the_pace_of_film() {
    // Pictures with an odd number last three fields, the others two.
    let mut rows = Vec::new();
    for number in 0..40 {
        rows.push([0, picture(number), picture(number)]);
        rows.resize(rows.len() + 1 + number as usize % 2, [0; 3]);
    }
    let bytes = draw(System::Ntsc, &rows);
    let side = Side::new(&bytes, System::Ntsc, levels()).unwrap();
    let numbers = side.numbers(Counted::Pictures);
    for number in 0..40 {
        assert_eq!(numbers[(5 * number as usize) / 2], Number::Believed(number));
    }
}

#[test]
fn judges_chapters() {
    for (system, ..) in SYSTEMS {
        let bytes = draw(system, &cav());
        let side = Side::new(&bytes, system, levels()).unwrap();
        let chapters = side.chapters();
        assert_eq!((chapters.len(), chapters[0], chapters[1]), (80, Number::Nothing, Number::Believed(0)));
        assert_eq!((chapters[39], chapters[41]), (Number::Believed(0), Number::Believed(1)));
        assert_eq!((chapters[61], chapters[61].known()), (Number::Doubtful(79), None));
        assert_eq!(side.seek(Place::Chapter(0)).map(|field| field.index), Some(1));
        assert_eq!(side.seek(Place::Chapter(1)).map(|field| field.index), Some(41));
    }
}

#[test]
fn counts_times_from_the_beginning() {
    for (system, .., rate) in SYSTEMS {
        let bytes = draw(system, &clv(rate));
        let side = Side::new(&bytes, system, levels()).unwrap();
        let numbers = side.numbers(Counted::Times);
        for number in 0..3 * rate {
            let (field, count) = (2 * number as usize, (9 * 3600 - 2) * rate + number);
            assert_eq!((numbers[field], numbers[field + 1]), (Number::Believed(count), Number::Nothing));
        }
        let index = |place| side.seek(place).map(|field| field.index);
        assert_eq!(index(Place::Time(8, 59, 58, 0)), Some(0));
        assert_eq!(index(Place::Time(8, 59, 59, rate - 1)), Some(4 * rate as usize - 2));
        assert_eq!(index(Place::Time(9, 0, 0, 3)), Some(4 * rate as usize + 6));
        let early: Vec<_> =
            (0..20).map(|number| time(0, 0, 0, number)).map(|[one, two]| [one, CLV_MARK, two]).collect();
        let bytes = draw(system, &early.iter().flat_map(|row| [*row, [0; 3]]).collect::<Vec<_>>());
        let early = Side::new(&bytes, system, levels()).unwrap();
        assert_eq!(early.seek(Place::Time(0, 0, 0, 12)).map(|field| field.index), Some(24));
        // What no clock shows counts to none of these, though the sum would.
        for place in [Place::Time(8, 60, 0, 3), Place::Time(8, 59, 60, 3), Place::Time(8, 59, 59, rate)] {
            assert_eq!(index(place), None);
        }
        assert_eq!(index(Place::Time(u32::MAX, 0, 0, 3)), None);
        assert_eq!(index(Place::Picture((9 * 3600 - 1) * rate)), None);
    }
}

#[test]
fn a_side_of_a_few_fields_is_doubtful() {
    let bytes = draw(System::Pal, &cav()[..2]);
    let side = Side::new(&bytes, System::Pal, levels()).unwrap();
    assert_eq!(side.numbers(Counted::Pictures), [Number::Doubtful(0), Number::Nothing]);
    assert_eq!(side.seek(Place::Picture(0)), None);
}

#[test]
fn stops_from_a_field_on() {
    for (system, ..) in SYSTEMS {
        let bytes = draw(system, &cav());
        let side = Side::new(&bytes, system, levels()).unwrap();
        let from = |field| side.stops(field).map(|stop| stop.index).collect::<Vec<_>>();
        assert_eq!(from(0), [10, 66, 67]);
        assert_eq!((from(10), from(11), from(67)), (vec![10, 66, 67], vec![66, 67], vec![67]));
        assert_eq!((from(68), from(80), from(usize::MAX)), (vec![], vec![], vec![]));
        assert_eq!(side.stops(0).next().map(|stop| stop.readings), Some([STOP, picture(5), picture(5)].map(shown)));
        for (from, most, stop) in [
            (0, 10, None),
            (0, 11, Some(10)),
            (10, 1, Some(10)),
            (11, 55, None),
            (11, 56, Some(66)),
            (67, 0, None),
            (67, 1, Some(67)),
            (68, 99, None),
        ] {
            assert_eq!(side.next_stop(from, most), stop.and_then(|stop| side.field(stop)), "{from} {most}");
        }
    }
}

/// Whether a side was judged, as it says for who looks for a fault.
fn is_judged(side: &Side) -> bool {
    format!("{side:?}").contains("is_judged: true")
}

#[test]
fn judges_a_side_once() {
    for (system, ..) in SYSTEMS {
        let bytes = draw(system, &cav());
        let side = Side::new(&bytes, system, levels()).unwrap();
        let clone = side.clone();
        let found: Vec<_> = std::thread::scope(|scope| {
            let threads: Vec<_> = (0..4).map(|_| scope.spawn(|| side.judged())).collect();
            threads.into_iter().map(|thread| thread.join().unwrap()).collect()
        });
        assert!(found.iter().all(|judged| Arc::ptr_eq(judged, &clone.judged())));
        let judged = clone.judged();
        assert!(judged.fields().eq(side.fields()));
        assert!(judged.chapters().eq(side.chapters()));
        for counted in [Counted::Pictures, Counted::Times] {
            assert!(judged.numbers(counted).eq(side.numbers(counted)));
        }
        assert_eq!(format!("{judged:?}"), "Judged { fields: 80, .. }");
    }
}

#[test]
fn seeks_without_judging_the_whole_side() {
    for (system, .., rate) in SYSTEMS {
        let (cav, clv) = (draw(system, &cav()), draw(system, &clv(rate)));
        let [pictures, times] = [&cav, &clv].map(|bytes| Side::new(bytes, system, levels()).unwrap());
        for (side, place, found) in [
            (&pictures, Place::Picture(30), Some(60)),
            (&pictures, Place::Time(0, 0, 60, 0), None),
            (&pictures, Place::Picture(40), None),
            (&pictures, Place::Chapter(0), Some(1)),
            (&pictures, Place::Chapter(1), Some(41)),
            (&pictures, Place::Chapter(2), None),
            (&times, Place::Time(9, 0, 0, 3), Some(4 * rate as usize + 6)),
            (&times, Place::Time(9, 0, 1, 0), None),
            (&times, Place::Chapter(7), Some(1)),
        ] {
            assert_eq!(side.seek(place).map(|field| field.index), found, "{place:?}");
            assert_eq!(side.seek_on(place, 0).map(|(field, passed)| (field.index, passed)), found.map(|at| (at, 0)));
        }
        assert!(!is_judged(&pictures) && !is_judged(&times));
    }
}

/// Pictures 0 to 29 and 41 to 67, of chapters 0 and 78, with eight fields of lead-in before and of lead-out after them.
fn lacking() -> Vec<[u32; 3]> {
    let disc = (0..30).chain(41..68).flat_map(|number| {
        let chapter = chapter(if number < 30 { 0 } else { 78 });
        [[0, picture(number), picture(number)], [0, chapter, chapter]]
    });
    [[0, 0x88FFFF, 0x88FFFF]; 8].into_iter().chain(disc).chain([[0, 0x80EEEE, 0x80EEEE]; 8]).collect()
}

#[test]
fn goes_on_to_what_a_capture_has() {
    for (system, ..) in SYSTEMS {
        let bytes = draw(system, &lacking());
        let side = Side::new(&bytes, system, levels()).unwrap();
        let on = |place, most| side.seek_on(place, most).map(|(field, passed)| (field.index, passed));
        for (number, most) in (28..43).flat_map(|number| [0, 1, 2, 3, 10, 11, u32::MAX].map(|most| (number, most))) {
            let (passed, before) = if number < 30 { (0, 0) } else { (41_u32.saturating_sub(number), 11) };
            let found = (8 + 2 * (number + passed - before) as usize, passed);
            assert_eq!(on(Place::Picture(number), most), (passed <= most).then_some(found), "{number} {most}");
        }
        assert_eq!((on(Place::Picture(68), 9), on(Place::Picture(u32::MAX), u32::MAX)), (None, None));
        assert_eq!((on(Place::Chapter(1), 76), on(Place::Chapter(1), 77)), (None, Some((69, 77))));
        assert_eq!((on(Place::Chapter(78), 0), on(Place::Chapter(79), 80)), (Some((69, 0)), None));
        let beside = |place| {
            let beside = side.beside(place)?;
            Some([beside.before, beside.after].map(|one| one.map(|one| (one.number, one.field))))
        };
        assert_eq!(beside(Place::Picture(31)), Some([Some((29, 66)), Some((41, 68))]));
        assert_eq!(beside(Place::Picture(68)), Some([Some((67, 120)), None]));
        assert_eq!((beside(Place::Chapter(1)), beside(Place::Time(0, 60, 0, 0))), (None, None));
        let index = |field: Option<ldvbi::Field>| field.map(|field| field.index);
        for (at, next, previous) in [(0, Some(9), None), (9, Some(69), None), (69, None, Some(9)), (129, None, None)] {
            assert_eq!((index(side.next_chapter(at)), index(side.previous_chapter(at))), (next, previous), "{at}");
        }
    }
}

#[test]
fn a_field_is_told_by_those_around_it() {
    // Of pictures 30 to 49 nothing is read. After lead-out follows the last chapter that there may be.
    let disc = (0..90).flat_map(|number| match number {
        30..=49 => [[0; 3]; 2],
        _ => [[0, picture(number), picture(number)], [0, chapter(number / 60), chapter(number / 60)]],
    });
    let mut rows: Vec<_> = disc.chain([[0, 0x80EEEE, 0x80EEEE]; 8]).collect();
    rows.extend((0..40).map(|field| [0, if field < 10 { chapter(79) } else { 0 }, 0]));
    for (system, _, size, ..) in SYSTEMS {
        let bytes = draw(system, &rows);
        let cut = |from: usize, to: usize| Side::new(&bytes[from * size..to * size], system, levels()).unwrap();
        let (side, ends) = (cut(0, rows.len()), |field: usize| rows[field][1] == 0x80EEEE);
        for index in 0..rows.len() {
            let around = |reach: usize| (index.saturating_sub(reach), rows.len().min(index + reach + 1));
            let (from, to) = around(48);
            let numbers = cut(from, to).numbers(Counted::Pictures);
            assert_eq!(side.number(Counted::Pictures, index), Some(numbers[index - from]), "{index}");
            let (from, to) = around(24);
            let chapters = cut(from, to).chapters();
            let last = (from..=index).rev().find(|field| ends(*field) || chapters[field - from].known().is_some());
            let chapter = last.filter(|field| !ends(*field)).and_then(|field| chapters[field - from].known());
            assert_eq!(side.chapter(index), chapter, "{index}");
        }
        assert_eq!((side.number(Counted::Pictures, rows.len()), side.chapter(rows.len())), (None, None));
        assert_eq!(side.chapter(rows.len() - 20), Some(79));
    }
}

#[cfg(target_os = "linux")]
extern "C" {
    fn mmap(at: *mut u8, length: usize, access: i32, kind: i32, file: i32, offset: i64) -> *mut u8;
    fn mprotect(at: *mut u8, length: usize, access: i32) -> i32;
}

#[test]
#[cfg(target_os = "linux")]
fn reads_no_field_that_is_skipped() {
    // Only the last field's lines may be read at all: memory before them ends the process.
    const COUNT: usize = 1000;
    for (system, line, field, ..) in SYSTEMS {
        let (length, rows) = (COUNT * field, (COUNT - 1) * field + 15 * line);
        let readable = rows / 65536 * 65536;
        let bytes = unsafe {
            let start = mmap(std::ptr::null_mut(), length, 0, 0x22, -1, 0);
            assert_eq!(mprotect(start.add(readable), length - readable, 3), 0);
            std::slice::from_raw_parts_mut(start, length)
        };
        bytes[rows..rows + 3 * line].copy_from_slice(&draw(system, &[[0, picture(7), 0]])[15 * line..18 * line]);
        let side = Side::new(bytes, system, levels()).unwrap();
        let wanted = Some([0, picture(7), 0].map(shown));
        assert_eq!((side.len(), side.field(COUNT)), (COUNT, None));
        assert_eq!(side.field(COUNT - 1).map(|field| field.readings), wanted);
        assert_eq!((side.fields().nth(COUNT - 1), side.fields().last()), (wanted, wanted));
        let mut rest = side.fields().skip(COUNT - 1);
        assert_eq!((rest.next(), side.fields().nth_back(0)), (wanted, wanted));
        assert_eq!((side.fields().count(), side.stops(COUNT - 1).next()), (COUNT, None));
    }
}

#[test]
fn seeks_the_first_field_where_that_is_worn() {
    // Numbers on both fields of a picture, and a jump. Worn are the first fields of the side and of what follows it:
    // there no number is due by those before and after.
    let rows: Vec<_> = (0..20).chain(100..120).flat_map(|number| [[0, picture(number), picture(number)]; 2]).collect();
    for (system, line, field, start, _) in SYSTEMS {
        let mut bytes = draw(system, &rows);
        for begin in [0, 40].map(|worn| worn * field + 16 * line) {
            for at in [begin, begin + line] {
                drop_out(&mut bytes[at..at + line], start as usize + system.half_max(), 6);
            }
        }
        let side = Side::new(&bytes, system, levels()).unwrap();
        for worn in [0, 40] {
            assert_eq!(side.fields().nth(worn).map(|lines| lines.map(|line| line.pass)), Some([0, 3, 3]));
        }
        for (place, number) in (0..20).chain(100..120).enumerate() {
            let found = side.seek(Place::Picture(number)).map(|field| field.index);
            assert_eq!(found, Some(2 * place), "{number}");
        }
        assert!(!is_judged(&side));
    }
}

#[test]
fn seeks_where_a_capture_goes_back() {
    // Pictures 0 to 59, then 20 to 79
    let rows = (0..60).chain(20..80).flat_map(|number| [[0, picture(number), picture(number)], [0; 3]]);
    let rows: Vec<_> = rows.collect();
    for (system, ..) in SYSTEMS {
        let bytes = draw(system, &rows);
        let side = Side::new(&bytes, system, levels()).unwrap();
        for number in (0..15).chain(65..80) {
            let place = if number < 15 { 2 * number as usize } else { 2 * (60 + number as usize - 20) };
            assert_eq!(side.seek(Place::Picture(number)).map(|field| field.index), Some(place), "{number}");
        }
        for number in 25..55 {
            let first = 2 * number as usize;
            assert_eq!(side.judged().seek(Place::Picture(number)).map(|field| field.index), Some(first));
            let found = side.seek(Place::Picture(number)).map(|field| field.index);
            assert!([Some(first), Some(first + 80)].contains(&found), "{number}: {found:?}");
        }
    }
}

/// Makes so many samples of a line as low as a sample can be: each counts as much as one that is black, which is seven
/// tenths of white - black, rounded up.
fn drop_out(line: &mut [u8], column: usize, count: usize) {
    line[2 * column..2 * (column + count)].fill(0);
}

#[test]
fn recovers_a_worn_line() {
    for (system, line, _, start, _) in SYSTEMS {
        let mut bytes = draw(system, &[[0, picture(12345), 0]]);
        let row = 16 * line..17 * line;
        // Within the word's second half cell, which is high as its first bit is 1: more columns than smoothing bridges
        drop_out(&mut bytes[row.clone()], start as usize + system.half_max(), 6);
        let side = Side::new(&bytes, system, levels()).unwrap();
        let word = Word24::new(picture(12345)).unwrap();
        assert_eq!(side.line(&bytes[row.clone()]).map(|reading| reading.outcome.word()), Ok(None));
        let recovered = Reading { outcome: Outcome::Word(word), pass: 3 };
        assert_eq!(side.fields().next(), Some([BLANK, recovered, BLANK]));
        let near = side.nearest(&bytes[row]).unwrap();
        assert_eq!((near.word, near.start, near.distance), (Some(word), start as usize, 6 * 24372));
        assert!(near.rival > near.distance && near.longer > near.distance);
        let blank = Near { word: None, start: 0, distance: 0, rival: near.rival, longer: 0, shorter: 0 };
        let black = draw(system, &[[0; 3]]);
        let nothing = side.nearest(&black[15 * line..18 * line]).unwrap();
        assert_eq!(Near { rival: near.rival, ..nothing }, blank);
    }
}

#[test]
fn pieces_of_any_length_are_the_same_side() {
    for (system, _, field, ..) in SYSTEMS {
        let mut bytes = draw(system, &cav()[58..62]);
        bytes.extend(vec![0; field - 1]);
        let fields: Vec<_> = Side::new(&bytes, system, levels()).unwrap().fields().collect();
        for lengths in [[1, 1], [4095, 4097], [field, field], [field - 1, 2], [3 * field + 1, 17], [bytes.len(); 2]] {
            let (mut feeder, mut fed, mut rest) = (Feeder::new(system, levels()), Vec::new(), &bytes[..]);
            for length in lengths.iter().cycle() {
                let (piece, later) = rest.split_at(rest.len().min(*length));
                fed.extend(feeder.feed(piece));
                assert_eq!((fed.len() * field, feeder.cut_bytes()), {
                    let come = bytes.len() - later.len();
                    (come - come % field, come % field)
                });
                if later.is_empty() {
                    break;
                }
                rest = later;
            }
            assert_eq!(fed, fields);
        }
    }
}
