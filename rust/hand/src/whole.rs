//! Whole sides: whether a capture is whole, and where its numbers and fields don't go on together.

use crate::lines::Error;
use crate::numbers::{ends_of, Numbers};
use crate::side::{self, Counted, Pace, PADDING};
use crate::sides::{Number, Side};
use crate::whole_side::{self, is_on_both, judge_whole, set_aside, Finding, Numbering, Reasons, Rule, Tally, Verdict};

/// How a whole side is judged.
#[derive(Clone, Copy, Debug, PartialEq, Eq)]
pub struct SideOptions {
    /// What the disc counts.
    pub counted: Counted,
    /// Whether the disc has its numbers on both fields of a picture. `None` finds it.
    pub on_both: Option<bool>,
    /// Whether the capture may end before the disc does. If not, a capture that shows no lead-out isn't whole.
    pub may_end: bool,
}

impl SideOptions {
    /// The options for a disc that counts this: `on_both` is found, and the capture has to show the disc's lead-out.
    pub fn new(counted: Counted) -> SideOptions {
        SideOptions { counted, on_both: None, may_end: false }
    }
}

/// Which numbers a disc leaves out. NTSC counts 30 pictures to a second, which has 29.97; to keep to the clock, CLV
/// discs leave out numbers.
#[derive(Clone, Copy, Debug, PartialEq, Eq)]
#[non_exhaustive]
pub enum Clock {
    /// None, or it isn't known which.
    Plain,
    /// The first two of each minute but each tenth: 0:00:59.29 is followed by 0:01:00.02.
    DropFrame,
    /// One in `period`: those that leave the remainder `phase`, which is below it.
    OneIn { period: u32, phase: u32 },
}

impl Clock {
    /// As the judge takes it, if it is one.
    pub(crate) fn judged(self) -> Result<side::Clock, Error> {
        match self {
            Clock::Plain => Ok(side::Clock::Plain),
            Clock::DropFrame => Ok(side::Clock::DropFrame),
            Clock::OneIn { period, phase } if phase < period => Ok(side::Clock::OneIn { period, phase }),
            Clock::OneIn { period, phase } => Err(Error::NoClock { period, phase }),
        }
    }

    fn of(clock: side::Clock) -> Clock {
        match clock {
            side::Clock::Plain => Clock::Plain,
            side::Clock::DropFrame => Clock::DropFrame,
            side::Clock::OneIn { period, phase } => Clock::OneIn { period, phase },
        }
    }
}

/// A reason why a capture isn't whole, or why it can't be told.
#[derive(Clone, Copy, Debug, PartialEq, Eq)]
#[non_exhaustive]
pub enum Reason {
    /// Fields of the disc are lost.
    IsLost,
    /// There are more fields than the numbers count to.
    IsHeld,
    /// The numbers go back.
    GoesBack,
    /// Another side begins.
    IsJoined,
    /// There are fewer fields before the first number than the numbers before it take.
    BeginsLate,
    /// On video with numbers on one field of a picture: between two numbers that go on, a field shows one that belongs
    /// in a field beside it.
    IsSwapped,
    /// Numbers go on one by one, each to within a field, but not all from each other; or no gap is open or replaced,
    /// and the last number, less the stills and what detours insert, doesn't go on from the first.
    IsOff,
    /// No number is believed.
    NoNumbers,
    /// No lead-out is seen after the last number.
    EndUnseen,
    /// Over 100 fields are before the first number, which isn't the disc's first.
    BeginUnseen,
    /// A tenth or more of the numbers that were read are in doubt.
    ManyDoubtful,
    /// A gap is open, or replaced.
    IsOpen,
    /// Fields that don't belong there are inserted.
    IsInserted,
    /// Fields are padding ([`Side::with_padding`]).
    IsPadded,
    /// Between two believed numbers that go on are over 100 fields without one.
    IsBlank,
}

impl Reason {
    /// Those that hold, in order.
    fn all(found: &Reasons) -> Vec<Reason> {
        let each = [
            (found.is_lost, Reason::IsLost),
            (found.is_held, Reason::IsHeld),
            (found.goes_back, Reason::GoesBack),
            (found.is_joined, Reason::IsJoined),
            (found.begins_late, Reason::BeginsLate),
            (found.is_swapped, Reason::IsSwapped),
            (found.is_off, Reason::IsOff),
            (found.no_numbers, Reason::NoNumbers),
            (found.end_unseen, Reason::EndUnseen),
            (found.begin_unseen, Reason::BeginUnseen),
            (found.many_doubtful, Reason::ManyDoubtful),
            (found.is_open, Reason::IsOpen),
            (found.is_inserted, Reason::IsInserted),
            (found.is_padded, Reason::IsPadded),
            (found.is_blank, Reason::IsBlank),
        ];
        each.iter().filter(|(holds, _)| *holds).map(|(_, reason)| *reason).collect()
    }
}

/// The answer for the capture of a side.
#[derive(Clone, Debug, PartialEq, Eq)]
#[non_exhaustive]
pub struct Whole {
    /// Whether it is whole.
    pub verdict: Verdict,
    /// Why it isn't, or why that can't be told. Empty exactly if it is whole.
    pub reasons: Vec<Reason>,
    /// The first and the last field with a believed number, counted from 0, if there is one.
    pub ends: Option<(usize, usize)>,
    /// The first field of [`Reason::IsSwapped`], counted from 0.
    pub swap: Option<usize>,
    /// The first field of [`Reason::IsBlank`], counted from 0.
    pub blank: Option<usize>,
    /// How many fields are padding.
    pub padded: usize,
    /// The counts of its gaps.
    pub tally: Tally,
}

impl Whole {
    fn of(found: &Finding) -> Whole {
        let reasons = &found.reasons;
        Whole {
            verdict: found.verdict,
            reasons: Reason::all(reasons),
            ends: (!reasons.no_numbers).then_some((found.first, found.last)),
            swap: reasons.is_swapped.then_some(found.swap),
            blank: reasons.is_blank.then_some(found.blank),
            padded: found.padded,
            tally: found.tally,
        }
    }
}

/// The kind of a gap.
#[derive(Clone, Copy, Debug, PartialEq, Eq)]
#[non_exhaustive]
pub enum GapKind {
    /// Fields of the disc are lost.
    Lost,
    /// There are more fields than the numbers count to.
    Held,
    /// The numbers go back.
    Back,
    /// The same number an even count of fields later: the player stood still. Never for times.
    Still,
    /// Lead-in or lead-out stands between: another side begins.
    Joined,
    /// The disc itself may skip there, or fields are lost: the clock of an NTSC CLV disc, if it isn't known, leaves out
    /// one or two times; film that is cut over a number that wasn't read goes on a field off; and a disc of film may
    /// have video there, if there are just two fields for each number.
    Open,
    /// One of two neighbouring gaps of a detour: the numbers around go on as if fields between weren't there. The
    /// player left and came back.
    Inserted,
    /// One of two neighbouring gaps of a detour: the numbers around go on over the fields between. Those between were
    /// misread, or two cuts cancel each other.
    Replaced,
}

/// Two neighbouring believed numbers that don't go on, and what is between them.
#[derive(Clone, Copy, Debug, PartialEq, Eq)]
#[non_exhaustive]
pub struct Gap {
    /// Its kind.
    pub kind: GapKind,
    /// The field with the number before it, counted from 0.
    pub after: usize,
    /// The field with the number after it.
    pub before: usize,
    /// The number of the field before it.
    pub from: u32,
    /// The number of the field after it.
    pub to: u32,
    /// At least how many fields are lost or too many; how many a still has; for an open gap, how many more or fewer
    /// there are than the numbers count to; for the first gap of a detour, how many it inserts; else 0.
    pub fields: u64,
    /// How many fields between the two show a number between theirs, on both lines in pass 1.
    pub shown: u64,
}

impl Gap {
    fn of(gap: &whole_side::Gap) -> Gap {
        let kind = match gap.kind {
            whole_side::LOST => GapKind::Lost,
            whole_side::HELD => GapKind::Held,
            whole_side::BACK => GapKind::Back,
            whole_side::STILL => GapKind::Still,
            whole_side::JOINED => GapKind::Joined,
            whole_side::INSERTED => GapKind::Inserted,
            whole_side::REPLACED => GapKind::Replaced,
            _ => GapKind::Open,
        };
        let whole_side::Gap { after, before, from, to, fields, shown, .. } = *gap;
        Gap { kind, after, before, from, to, fields, shown }
    }
}

/// What was judged of the fields of a side: the rule by which its numbers go on, what each field shows, its number, and
/// the ends of the side.
struct Fields {
    rule: Rule,
    numbers: Numbers,
    ends: Vec<u32>,
}

impl Side<'_> {
    /// Says whether the capture is whole. The whole side is read and judged, at the pace that is found. An NTSC CLV
    /// disc leaves out numbers: ask [`whole_by_clock`](Side::whole_by_clock) with the clock of
    /// [`find_clock`](Side::find_clock).
    pub fn whole(&self, options: SideOptions) -> Whole {
        Whole::of(&self.judge_side(options, side::Clock::Plain).0)
    }

    /// The same of a disc that keeps to this clock. [`Error::NoClock`] if there is no such clock.
    pub fn whole_by_clock(&self, options: SideOptions, clock: Clock) -> Result<Whole, Error> {
        Ok(Whole::of(&self.judge_side(options, clock.judged()?).0))
    }

    /// The places where the numbers and the fields don't go on together, in order. The whole side is read and judged,
    /// at the pace that is found.
    pub fn gaps(&self, options: SideOptions) -> Vec<Gap> {
        self.judge_side(options, side::Clock::Plain).1.iter().map(Gap::of).collect()
    }

    /// The same of a disc that keeps to this clock. [`Error::NoClock`] if there is no such clock.
    pub fn gaps_by_clock(&self, options: SideOptions, clock: Clock) -> Result<Vec<Gap>, Error> {
        Ok(self.judge_side(options, clock.judged()?).1.iter().map(Gap::of).collect())
    }

    /// The number of each field, at the pace that is found. Those of a run that is [`GapKind::Replaced`] are in doubt
    /// if on this side more numbers go on with those around it, and it has none of the numbers that are due there.
    pub fn numbers_left(&self, options: SideOptions) -> Vec<Number> {
        self.set_aside(options, side::Clock::Plain)
    }

    /// The same of a disc that keeps to this clock. [`Error::NoClock`] if there is no such clock.
    pub fn numbers_left_by_clock(&self, options: SideOptions, clock: Clock) -> Result<Vec<Number>, Error> {
        Ok(self.set_aside(options, clock.judged()?))
    }

    /// The clock to which the believed numbers keep, at the pace that is found; [`Clock::Plain`] if they tell none, as
    /// those of PAL, of pictures, and of a few minutes.
    pub fn find_clock(&self, options: SideOptions) -> Clock {
        let Fields { rule, numbers, .. } = self.judge_fields(options, side::Clock::Plain);
        Clock::of(whole_side::find_clock(&numbers.numbers, rule))
    }

    /// Reads the side, and judges its fields.
    fn judge_fields(&self, options: SideOptions, clock: side::Clock) -> Fields {
        let (judged, system, counted) = (self.judged(), self.system(), options.counted);
        let (numbers, mut ends) = (Numbers::of(system, counted, judged.readings()), ends_of(judged.readings()));
        self.padding().iter().filter(|field| **field < self.len()).for_each(|field| ends[*field] = PADDING);
        // Of film it isn't asked.
        let is_both = || options.on_both.unwrap_or_else(|| is_on_both(&numbers.numbers));
        let slack = u64::from(matches!(numbers.pace, Pace::Video) && is_both());
        let rule = Rule { pace: numbers.pace, slack, numbering: Numbering { system, counted, clock } };
        Fields { rule, numbers, ends }
    }

    /// Reads and judges the side. Answers what is found of it, and all its gaps.
    fn judge_side(&self, options: SideOptions, clock: side::Clock) -> (Finding, Vec<whole_side::Gap>) {
        gaps_of(&self.judge_fields(options, clock), options)
    }

    /// The numbers of the fields, without those that are set aside.
    fn set_aside(&self, options: SideOptions, clock: side::Clock) -> Vec<Number> {
        let fields = self.judge_fields(options, clock);
        let numbers = &fields.numbers.numbers;
        let mut left = numbers.clone();
        set_aside(&gaps_of(&fields, options).1, numbers, fields.rule, &mut left);
        left.iter().map(Number::of).collect()
    }
}

/// What is found of a side by its fields, and all its gaps.
fn gaps_of(fields: &Fields, options: SideOptions) -> (Finding, Vec<whole_side::Gap>) {
    let Fields { rule, numbers: Numbers { seen, numbers, .. }, ends } = fields;
    // Each gap ends at a field of its own, so there is room for all.
    let mut gaps = vec![whole_side::Gap::default(); numbers.len()];
    let judged = whole_side::Side { rule: *rule, seen, numbers, ends };
    let found = judge_whole(&judged, options.may_end, &mut gaps);
    gaps.truncate(found.tally.gaps);
    (found, gaps)
}
