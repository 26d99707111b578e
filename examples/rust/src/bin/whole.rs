//! Says whether a TBC file has a whole side, or why it hasn't, and where its numbers and fields don't go on together:
//! of its pictures, or of its times if it has none of those. An NTSC CLV disc is judged by the clock that its numbers
//! show. With the word `cut` the capture may end before the disc does. Fields count from 1. Status 0: it is whole;
//! 1: it isn't; 4: it can't be told; 2: something can't be read, and standard error says what.
//!     cargo run --bin whole -- side.tbc NTSC 16384 51200
use ldvbi::{Clock, Counted, Levels, Number, Reason, Side, SideOptions, System, Verdict};
use std::{error::Error, process::ExitCode};

fn run() -> Result<ExitCode, Box<dyn Error>> {
    let words: Vec<String> = std::env::args().skip(1).collect();
    let (path, system, black, white, may_end) = match words.iter().map(String::as_str).collect::<Vec<_>>()[..] {
        [path, system, black, white] => (path, system, black, white, false),
        [path, system, black, white, "cut"] => (path, system, black, white, true),
        _ => return Err("usage: whole FILE NTSC|PAL BLACK WHITE [cut]".into()),
    };
    let system = System::named(system).ok_or("system is neither NTSC nor PAL")?;
    let side = Side::new(player::map(path)?, system, Levels::new(black.parse()?, white.parse()?)?)?;
    let asked = |counted| SideOptions { may_end, ..SideOptions::new(counted) };
    let has_pictures = side.whole(asked(Counted::Pictures)).reasons != [Reason::NoNumbers];
    let options = asked(if has_pictures { Counted::Pictures } else { Counted::Times });
    // A few minutes don't show enough of drop-frame: what is whole by that is whole.
    let has_clock = system == System::Ntsc && options.counted == Counted::Times;
    let is_dropped = has_clock && side.whole_by_clock(options, Clock::DropFrame)?.verdict == Verdict::Yes;
    let clock = if is_dropped { Clock::DropFrame } else { side.find_clock(options) };
    let whole = side.whole_by_clock(options, clock)?;
    let (said, status) = match whole.verdict {
        Verdict::Yes => ("yes", 0),
        Verdict::No => ("no", 1),
        Verdict::CannotTell => ("can't tell", 4),
    };
    println!("whole: {said} {:?}", whole.reasons);
    for gap in side.gaps_by_clock(options, clock)? {
        let ldvbi::Gap { kind, fields, after, before, from, to, .. } = gap;
        let kind = format!("{kind:?}").to_lowercase();
        println!("{kind} {fields}: field {} has {from}, field {} has {to}", after + 1, before + 1);
    }
    // What these fields show stands in the place of other numbers.
    let left = side.numbers_left_by_clock(options, clock)?;
    for (field, (shown, left)) in side.numbers(options.counted).iter().zip(left).enumerate() {
        if let (Number::Believed(number), Number::Doubtful(_)) = (shown, left) {
            println!("aside: field {} has {number}", field + 1);
        }
    }
    Ok(ExitCode::from(status))
}

fn main() -> ExitCode {
    unsafe { libc::signal(libc::SIGPIPE, libc::SIG_DFL) }; // A closed pipe ends the program.
    run().map_err(|fault| eprintln!("whole: {fault}")).unwrap_or(ExitCode::from(2))
}
