//! The check of plans. What the rules are has tests/library/plans.txt.

use ldvbi::Spacing::{Rising, Video};
use ldvbi::{check_plan, Clock, Error, Layout, Number, PlanFault, Rule, Spacing, Stretch};

/// Numbers of video, of two fields each.
fn numbers(first: u32, last: u32) -> Vec<Number> {
    (first..=last).flat_map(|number| [Number::Believed(number), Number::Nothing]).collect()
}

fn layout(spacing: Spacing, end: u32) -> Layout {
    Layout { spacing, clock: Clock::Plain, begin: 0, end }
}

fn taken(capture: usize, field: usize, fields: usize, number: u32) -> Stretch {
    Stretch { from: Some((capture, field)), fields, number }
}

fn padding(fields: usize, number: u32) -> Stretch {
    Stretch { from: None, fields, number }
}

#[test]
fn plans() {
    let (a, b) = (numbers(1, 4), numbers(3, 6));
    let first = taken(0, 0, 4, 1);
    let found = |plan: &[Stretch]| check_plan(&[&a, &b], plan, layout(Video, 7)).unwrap();
    assert_eq!(found(&[first, taken(1, 0, 8, 3)]), None);
    for (plan, rule, stretch) in [
        (vec![taken(1, 0, 8, 3), first], Rule::Disordered, 0),
        (vec![taken(0, 0, 9, 1)], Rule::NotThere, 0),
        (vec![first, taken(2, 0, 8, 3)], Rule::NotThere, 1),
        (vec![first, taken(1, usize::MAX, 8, 3)], Rule::NotThere, 1),
        (vec![first, taken(1, 0, 8, 3), taken(0, 3, 1, 7)], Rule::Twice, 2),
        (vec![first, taken(1, 2, 6, 3)], Rule::Misplaced, 1),
        (vec![first, padding(4, 3), taken(1, 4, 4, 5)], Rule::Hidden, 1),
    ] {
        assert_eq!(found(&plan), Some(PlanFault { rule, stretch }), "{plan:?}");
    }
}

#[test]
fn layouts() {
    let times = [numbers(1799, 1799), numbers(1802, 1802)].concat();
    let plan = [padding(1, 1799), taken(0, 0, 4, 1799)];
    let asked = |clock| check_plan(&[&times], &plan, Layout { clock, begin: 1, ..layout(Video, 1803) });
    assert_eq!(asked(Clock::DropFrame), Ok(None));
    assert_eq!(asked(Clock::Plain), Ok(Some(PlanFault { rule: Rule::Misplaced, stretch: 1 })));
    let (period, phase) = (5, 5);
    assert_eq!(asked(Clock::OneIn { period, phase }), Err(Error::NoClock { period, phase }));
    let in_doubt = [Number::Doubtful(9), Number::Believed(57), Number::Due(9), Number::Believed(58)];
    assert_eq!(check_plan(&[&in_doubt], &[taken(0, 0, 4, 57)], layout(Rising, 59)), Ok(None));
    assert_eq!(check_plan(&[], &[], layout(Spacing::Film, 1)), Ok(None));
    assert_eq!(
        check_plan(&[&times], &[taken(0, 0, 4, 1799)], layout(Spacing::Both, 1801)).unwrap().map(|one| one.rule),
        Some(Rule::Misplaced)
    );
}
