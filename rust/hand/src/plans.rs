//! Plans of a file that is made from several captures of a disc.

use crate::lines::Error;
use crate::plan;
use crate::sides::Number;
use crate::whole::Clock;

/// How far apart in the file two numbers stand, of which one has the next rank: how many numbers the disc has below it.
#[derive(Clone, Copy, Debug, PartialEq, Eq)]
pub enum Spacing {
    /// Two fields.
    Video,
    /// Two or three fields.
    Film,
    /// Two fields, or one or three: numbers are on both fields of a picture.
    Both,
    /// One field or more, as minutes have thousands.
    Rising,
}

/// Fields that stand one after the other in the file. A stretch stands for the disc's numbers from its own to before
/// that of the next one; for none if the two are the same.
#[derive(Clone, Copy, Debug, PartialEq, Eq)]
pub struct Stretch {
    /// The capture that they are taken from, and the first of them there, each counted from 0; `None` for padding.
    pub from: Option<(usize, usize)>,
    /// How many there are.
    pub fields: usize,
    /// The first number for which it stands.
    pub number: u32,
}

/// How the numbers of a plan are laid out in the file.
#[derive(Clone, Copy, Debug, PartialEq, Eq)]
pub struct Layout {
    /// How far apart numbers stand.
    pub spacing: Spacing,
    /// Which numbers the disc leaves out.
    pub clock: Clock,
    /// The field of the file, counted from 0, in which the first number begins.
    pub begin: usize,
    /// The number after the last one.
    pub end: u32,
}

/// What a stretch of a plan breaks.
#[derive(Clone, Copy, Debug, PartialEq, Eq)]
pub enum Rule {
    /// It has no field, fewer than numbers, or a number before that of an earlier stretch.
    Disordered,
    /// Its fields aren't all of its capture.
    NotThere,
    /// A stretch before it has one of its fields.
    Twice,
    /// A believed number of its fields is out of its place.
    Misplaced,
    /// It is padding, and a number for which it stands is believed of a field.
    Hidden,
}

/// The first stretch of a plan, counted from 0, that breaks a rule.
#[derive(Clone, Copy, Debug, PartialEq, Eq)]
pub struct PlanFault {
    /// The rule.
    pub rule: Rule,
    /// The stretch.
    pub stretch: usize,
}

/// `None` if a plan is done, else its first fault. Each capture is given by its numbers
/// ([`Side::numbers`](crate::Side::numbers)). [`Error::NoClock`] if there is no such clock.
pub fn check_plan(captures: &[&[Number]], plan: &[Stretch], layout: Layout) -> Result<Option<PlanFault>, Error> {
    let Layout { spacing, clock, begin, end } = layout;
    let layout = plan::Layout { spacing: spacing.of_plans(), clock: clock.judged()?, begin, end };
    let (mut numbers, mut spans) = (Vec::new(), Vec::new());
    for capture in captures {
        spans.push(plan::Capture { first: numbers.len(), fields: capture.len() });
        numbers.extend(capture.iter().map(|number| number.judged()));
    }
    let stretches: Vec<_> = plan.iter().map(|one| one.among(&spans)).collect();
    let asked = plan::Plan { layout, numbers: &numbers, captures: &spans, stretches: &stretches };
    Ok(plan::check_plan(&asked).map(|fault| PlanFault { rule: Rule::of(fault.rule), stretch: fault.stretch }))
}

impl Spacing {
    fn of_plans(self) -> plan::Spacing {
        match self {
            Spacing::Video => plan::Spacing::Video,
            Spacing::Film => plan::Spacing::Film,
            Spacing::Both => plan::Spacing::Both,
            Spacing::Rising => plan::Spacing::Rising,
        }
    }
}

impl Rule {
    fn of(rule: plan::PlanRule) -> Rule {
        match rule {
            plan::PlanRule::Disordered => Rule::Disordered,
            plan::PlanRule::NotThere => Rule::NotThere,
            plan::PlanRule::Twice => Rule::Twice,
            plan::PlanRule::Misplaced => Rule::Misplaced,
            plan::PlanRule::Hidden => Rule::Hidden,
        }
    }
}

impl Stretch {
    /// The stretch with its fields counted through all captures. A capture that isn't there becomes the greatest, which
    /// isn't there either.
    fn among(&self, spans: &[plan::Capture]) -> plan::Stretch {
        let Stretch { from, fields, number } = *self;
        match from {
            Some((capture, field)) => {
                let first = spans.get(capture).map_or(usize::MAX, |span| span.first);
                plan::Stretch { field: first.saturating_add(field), fields, capture, number, padding: 0 }
            }
            None => plan::Stretch { field: 0, fields, capture: 0, number, padding: 1 },
        }
    }
}
