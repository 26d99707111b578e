//! Whether drawn sides are whole, and where their gaps are. What is expected follows from include/ldvbi.h's rules.

mod drawn;

use drawn::{draw, levels, picture, time};
use ldvbi::{Clock, Counted, Error, Gap, GapKind, Number, Reason, Side, SideOptions, System, Verdict, Whole};

type Rows = Vec<[u32; 3]>;

const BLANK: [u32; 3] = [0; 3];
const LEAD_OUT: [u32; 3] = [0, 0x80EEEE, 0x80EEEE];
const SYSTEMS: [System; 2] = [System::Ntsc, System::Pal];

/// These pictures, of two fields each, the first of which has the number.
fn pictures(first: u32, last: u32) -> Rows {
    (first..=last).flat_map(|number| [[0, picture(number), picture(number)], BLANK]).collect()
}

/// These times of the first hour of an NTSC CLV disc, or of the first second of one of PAL.
fn times(first: u32, last: u32) -> Rows {
    let rows = (first..=last).flat_map(|number| {
        let [second, minutes] = time(0, number / 1800, number / 30 % 60, number % 30);
        [[second, 0x87FFFF, minutes], BLANK]
    });
    rows.collect()
}

/// A disc that counts so, and a capture that may end before it.
fn cut_off(counted: Counted) -> SideOptions {
    SideOptions { may_end: true, ..SideOptions::new(counted) }
}

fn judged(system: System, rows: &Rows, options: SideOptions) -> (Whole, Vec<Parts>) {
    let bytes = draw(system, rows);
    let side = Side::new(&bytes, system, levels()).unwrap();
    (side.whole(options), side.gaps(options).iter().map(parts).collect())
}

#[test]
fn a_whole_side() {
    let mut rows = pictures(1, 20);
    rows[18] = BLANK;
    for system in SYSTEMS {
        let (whole, gaps) = judged(system, &rows, cut_off(Counted::Pictures));
        assert_eq!((whole.verdict, whole.reasons, gaps), (Verdict::Yes, vec![], vec![]));
        assert_eq!((whole.ends, whole.swap, whole.tally.unread), (Some((0, 38)), None, 1));
        assert_eq!(judged(system, &vec![], cut_off(Counted::Times)).0.ends, None);
    }
}

/// What a gap has: its kind, the fields and the numbers around it, how many fields, and how many that show a number.
type Parts = (GapKind, [usize; 2], [u32; 2], u64, u64);

fn parts(gap: &Gap) -> Parts {
    (gap.kind, [gap.after, gap.before], [gap.from, gap.to], gap.fields, gap.shown)
}

/// A gap between these fields and numbers, in which no field shows a number.
fn gap(kind: GapKind, around: [usize; 2], numbers: [u32; 2], fields: u64) -> Parts {
    (kind, around, numbers, fields, 0)
}

#[test]
fn a_gap_of_each_kind() {
    let (first, held, end) = (pictures(1, 20), vec![BLANK; 3], vec![LEAD_OUT; 2]);
    let lost = gap(GapKind::Lost, [38, 40], [20, 24], 6);
    let cases = [
        (vec![first.clone(), pictures(24, 40)], lost, Reason::IsLost),
        (vec![first.clone(), held, pictures(21, 40)], gap(GapKind::Held, [38, 43], [20, 21], 3), Reason::IsHeld),
        (vec![first.clone(), pictures(11, 30)], gap(GapKind::Back, [38, 40], [20, 11], 0), Reason::GoesBack),
        (vec![first.clone(), end, first.clone()], gap(GapKind::Joined, [38, 42], [20, 1], 0), Reason::IsJoined),
    ];
    for system in SYSTEMS {
        for (parts, wanted, reason) in &cases {
            let (whole, gaps) = judged(system, &parts.concat(), cut_off(Counted::Pictures));
            assert_eq!((whole.verdict, whole.reasons), (Verdict::No, vec![*reason, Reason::IsOff]));
            assert_eq!(gaps, [*wanted]);
        }
        // Picture 20 is there four times: three gaps of two fields, and one still
        let rows = [first.clone(), pictures(20, 20), pictures(20, 20), pictures(20, 40)].concat();
        let (whole, gaps) = judged(system, &rows, cut_off(Counted::Pictures));
        let wanted = [38, 40, 42].map(|after| gap(GapKind::Still, [after, after + 2], [20, 20], 2));
        assert_eq!((whole.verdict, gaps), (Verdict::Yes, wanted.to_vec()));
        assert_eq!((whole.tally.stills, whole.tally.stood, whole.tally.still_end), (1, 6, 45));
        // The clock of an NTSC disc leaves out one time or two.
        let (whole, gaps) = judged(system, &[times(0, 10), times(13, 24)].concat(), cut_off(Counted::Times));
        let (kind, verdict, reasons) = match system {
            System::Ntsc => (GapKind::Open, Verdict::CannotTell, vec![Reason::IsOpen]),
            System::Pal => (GapKind::Lost, Verdict::No, vec![Reason::IsLost, Reason::IsOff]),
        };
        assert_eq!(gaps, [gap(kind, [20, 22], [10, 13], 4)]);
        assert_eq!((whole.verdict, whole.reasons), (verdict, reasons));
    }
}

#[test]
fn detours() {
    let (before, run) = (pictures(1, 20), pictures(51, 60));
    let inserted = [gap(GapKind::Inserted, [38, 40], [20, 51], 20), gap(GapKind::Inserted, [58, 60], [60, 21], 0)];
    let replaced = [gap(GapKind::Replaced, [38, 40], [20, 51], 0), gap(GapKind::Replaced, [58, 60], [60, 31], 0)];
    for system in SYSTEMS {
        for (next, wanted, verdict, reason) in
            [(21, inserted, Verdict::No, Reason::IsInserted), (31, replaced, Verdict::CannotTell, Reason::IsOpen)]
        {
            let rows = [before.clone(), run.clone(), pictures(next, 40)].concat();
            let (whole, gaps) = judged(system, &rows, cut_off(Counted::Pictures));
            assert_eq!((whole.verdict, whole.reasons, gaps), (verdict, vec![reason], wanted.to_vec()));
        }
    }
}

#[test]
fn reasons_without_a_gap() {
    let (mut swapped, mut doubtful) = (pictures(1, 20), pictures(1, 20));
    swapped.swap(20, 21);
    for field in [11, 21, 31] {
        doubtful[field] = [0, picture(700), 0];
    }
    let cases = [
        (pictures(2, 20), Verdict::No, Reason::BeginsLate, None),
        (swapped, Verdict::No, Reason::IsSwapped, Some(21)),
        (vec![BLANK; 3], Verdict::CannotTell, Reason::NoNumbers, None),
        ([vec![BLANK; 101], pictures(2, 20)].concat(), Verdict::CannotTell, Reason::BeginUnseen, None),
        (doubtful, Verdict::CannotTell, Reason::ManyDoubtful, None),
    ];
    for system in SYSTEMS {
        for (rows, verdict, reason, swap) in &cases {
            let (whole, gaps) = judged(system, rows, cut_off(Counted::Pictures));
            assert_eq!((whole.verdict, whole.reasons, whole.swap), (*verdict, vec![*reason], *swap));
            assert_eq!(gaps, []);
        }
        // Lead-out, or none
        let (mut rows, options) = (pictures(1, 20), SideOptions::new(Counted::Pictures));
        let whole = judged(system, &rows, options).0;
        assert_eq!((whole.verdict, whole.reasons), (Verdict::CannotTell, vec![Reason::EndUnseen]));
        rows.push(LEAD_OUT);
        let whole = judged(system, &rows, options).0;
        assert_eq!((whole.verdict, whole.reasons), (Verdict::Yes, vec![]));
    }
}

#[test]
fn film_and_numbers_on_both_fields() {
    // Pictures with an odd number last three fields, the others two.
    let mut rows = Vec::new();
    for number in 1..40 {
        rows.push([0, picture(number), picture(number)]);
        rows.resize(rows.len() + 1 + number as usize % 2, BLANK);
    }
    let (whole, gaps) = judged(System::Ntsc, &rows, cut_off(Counted::Pictures));
    assert_eq!((whole.verdict, whole.reasons, gaps), (Verdict::Yes, vec![], vec![]));
    // Of 20 pictures with their numbers on both fields each second field has one too many, and each first one is early:
    // around the second field the numbers go on, but for the last one.
    let rows: Rows = (1..=20).flat_map(|number| [[0, picture(number), picture(number)]; 2]).collect();
    for (on_both, verdict, held, replaced) in
        [(None, Verdict::Yes, 0, 0), (Some(true), Verdict::Yes, 0, 0), (Some(false), Verdict::No, 1, 38)]
    {
        let options = SideOptions { on_both, ..cut_off(Counted::Pictures) };
        let (whole, gaps) = judged(System::Ntsc, &rows, options);
        assert_eq!((whole.verdict, whole.tally.held, whole.tally.open_gaps), (verdict, held, replaced));
        assert_eq!((gaps.len() as u64, whole.tally.gaps), (held + replaced, gaps.len()));
    }
}

#[test]
fn numbers_in_the_place_of_others() {
    // Those of pictures 31 to 40, with which fewer numbers go on than with the others; and of 31 to 80, with which as
    // many do.
    for (system, last, after, wanted) in SYSTEMS.into_iter().flat_map(|on| [(on, 210, 41, 10), (on, 250, 81, 0)]) {
        let bytes = draw(system, &[pictures(1, 30), pictures(201, last), pictures(after, after + 19)].concat());
        let (side, options) = (Side::new(&bytes, system, levels()).unwrap(), cut_off(Counted::Pictures));
        let kinds: Vec<_> = side.gaps(options).iter().map(|gap| gap.kind).collect();
        assert_eq!(kinds, [GapKind::Replaced; 2]);
        let mut numbers = side.numbers(Counted::Pictures);
        (0..wanted).for_each(|i| numbers[60 + 2 * i] = Number::Doubtful(201 + i as u32));
        assert_eq!(side.numbers_left(options), numbers);
        assert_eq!(side.numbers_left_by_clock(options, Clock::Plain), Ok(numbers));
        assert!(side.numbers_left_by_clock(options, Clock::OneIn { period: 5, phase: 5 }).is_err());
    }
}

#[test]
fn numbers_in_the_place_of_others_on_film_and_by_a_clock() {
    // On film pictures with an odd number last three fields, the others two. By the clock those before and after the
    // 15 of the last row are 20, of which 10 stand on either side.
    let film = |first: u32, last: u32| {
        let rows = (first..=last).flat_map(|number| {
            let shown = [0, picture(number), picture(number)];
            [shown].into_iter().chain(vec![BLANK; 1 + number as usize % 2])
        });
        rows.collect::<Rows>()
    };
    for (counted, parts, clock) in [
        (Counted::Pictures, [film(1, 30), film(201, 210), film(41, 60)], Clock::Plain),
        (Counted::Times, [times(0, 30), times(201, 210), times(41, 60)], Clock::Plain),
        (Counted::Times, [times(1790, 1799), times(601, 615), times(1817, 1826)], Clock::DropFrame),
    ] {
        let (bytes, begin) = (draw(System::Ntsc, &parts.concat()), parts[0].len());
        let (side, options) = (Side::new(&bytes, System::Ntsc, levels()).unwrap(), cut_off(counted));
        let mut numbers = side.numbers(counted);
        for number in &mut numbers[begin..begin + parts[1].len()] {
            *number = number.known().map_or(*number, Number::Doubtful);
        }
        assert_eq!(side.numbers_left_by_clock(options, clock), Ok(numbers.clone()), "{counted:?}");
        if clock == Clock::Plain {
            assert_eq!(side.numbers_left(options), numbers, "{counted:?}");
        }
    }
}

#[test]
fn over_a_hundred_fields_without_a_number() {
    let rows = [pictures(1, 20), vec![BLANK; 102], pictures(72, 90)].concat();
    for system in SYSTEMS {
        let (whole, gaps) = judged(system, &rows, cut_off(Counted::Pictures));
        assert_eq!((whole.verdict, whole.reasons, gaps), (Verdict::CannotTell, vec![Reason::IsBlank], vec![]));
        assert_eq!((whole.blank, whole.tally.unread), (Some(39), 51));
    }
}

#[test]
fn padding() {
    let bytes = draw(System::Pal, &pictures(1, 20));
    let side = Side::new(&bytes, System::Pal, levels()).unwrap();
    let judged = |fields: &[usize]| {
        let whole = side.clone().with_padding(fields.iter().copied()).whole(cut_off(Counted::Pictures));
        (whole.verdict, whole.reasons, whole.padded)
    };
    assert_eq!(judged(&[]), (Verdict::Yes, vec![], 0));
    assert_eq!(judged(&[0, 39, 40, 7, 7]), (Verdict::No, vec![Reason::IsPadded], 3));
}

#[test]
fn the_clock_of_a_disc() {
    // Around the first three minutes 0:00:59.29 and the like are followed by 0:01:00.02.
    let minute = |at: u32| [times(1800 * at - 10, 1800 * at - 1), times(1800 * at + 2, 1800 * at + 12)].concat();
    let rows = [minute(1), minute(2), minute(3)].concat();
    let thousand: Rows = (1..=3)
        .flat_map(|at| [times(1000 * at - 10, 1000 * at - 1), times(1000 * at + 1, 1000 * at + 10)].concat())
        .collect();
    let (options, found) = (cut_off(Counted::Times), |rows: &Rows, options| {
        let bytes = draw(System::Ntsc, rows);
        Side::new(&bytes, System::Ntsc, levels()).unwrap().find_clock(options)
    });
    assert_eq!(found(&rows, options), Clock::DropFrame);
    assert_eq!(found(&thousand, options), Clock::OneIn { period: 1000, phase: 0 });
    assert_eq!(found(&rows[..84].to_vec(), options), Clock::Plain);
    assert_eq!(found(&rows, SideOptions { counted: Counted::Pictures, ..options }), Clock::Plain);
    let both: Rows = (0..rows.len()).map(|field| rows[field - field % 2]).collect();
    assert_eq!(found(&both, options), Clock::DropFrame);
    assert_eq!(found(&both, SideOptions { on_both: Some(false), ..options }), Clock::Plain);
}

#[test]
fn a_side_by_its_clock() {
    let options = cut_off(Counted::Times);
    let judged = |rows: &Rows, phase| {
        let bytes = draw(System::Ntsc, rows);
        let side = Side::new(&bytes, System::Ntsc, levels()).unwrap();
        assert_eq!(side.whole_by_clock(options, Clock::Plain), Ok(side.whole(options)));
        assert_eq!(side.gaps_by_clock(options, Clock::Plain), Ok(side.gaps(options)));
        let clock = Clock::OneIn { period: 1000, phase };
        let whole = side.whole_by_clock(options, clock).unwrap();
        let gaps: Vec<_> = side.gaps_by_clock(options, clock).unwrap().iter().map(parts).collect();
        (whole.verdict, whole.reasons, whole.tally.lost_numbers, gaps)
    };
    // Number 12 is left out, and then also lost are the picture before it, or the one after it.
    let whole = [times(0, 11), times(13, 24)].concat();
    assert_eq!(judged(&whole, 12), (Verdict::Yes, vec![], 0, vec![]));
    for (rows, fields, numbers) in [
        ([times(0, 10), times(13, 24)].concat(), [20, 22], [10, 13]),
        ([times(0, 11), times(14, 24)].concat(), [22, 24], [11, 14]),
    ] {
        let lost = vec![gap(GapKind::Lost, fields, numbers, 2)];
        assert_eq!(judged(&rows, 12), (Verdict::No, vec![Reason::IsLost, Reason::IsOff], 1, lost));
    }
    // By another phase 12 is missing, and 13 has no fields: around 13 the numbers go on.
    let gaps = vec![gap(GapKind::Replaced, [22, 24], [11, 13], 0), gap(GapKind::Replaced, [24, 26], [13, 14], 0)];
    assert_eq!(judged(&whole, 13), (Verdict::CannotTell, vec![Reason::IsOpen], 0, gaps));
    let side = Side::new(&[], System::Ntsc, levels()).unwrap();
    for (period, phase) in [(0, 0), (1000, 1000), (1, u32::MAX)] {
        let (clock, refused) = (Clock::OneIn { period, phase }, Error::NoClock { period, phase });
        assert_eq!(side.whole_by_clock(options, clock), Err(refused));
        assert_eq!(side.gaps_by_clock(options, clock), Err(refused));
    }
    assert_eq!(side.find_clock(options), Clock::Plain);
}
