//! A player. It does each command in turn, and prints the field that it shows then, from 1, and its picture.
//! `search N` or `search H:MM:SS.PP` goes to a picture; if the capture lacks it, to the nearest one beside it.
//! `chapter N`, `next` and `previous` go to where a chapter begins, `play` to the next stop, and `still` stays. All but
//! `play` find their way by halving and fetch a few MB. So numbers and chapters have to rise, and on a worn side one
//! may be missed. System and levels are those of the metadata beside the file. Status 1: something wasn't found; 2:
//! something can't be read.
//!     cargo run -- side.tbc search 12345 play chapter 3 next search 0:59:29.07
use ldvbi::{Counted, Field, Place, Side, System};
use std::{error::Error, io, io::Write, process::ExitCode};

fn place_of(text: &str) -> Result<Place, String> {
    match text.split(&[':', '.'][..]).map(|part| part.parse().ok()).collect::<Option<Vec<u32>>>().as_deref() {
        Some(&[picture]) => Ok(Place::Picture(picture)),
        Some(&[hours, minutes, seconds, picture]) => Ok(Place::Time(hours, minutes, seconds, picture)),
        _ => Err(format!("neither a picture nor a time: {text}")),
    }
}

fn picture_of(side: &Side, index: usize) -> Option<u32> {
    side.number(Counted::Pictures, index)?.known()
}

/// Where a picture or a time is, and that it is there; or else what to show in its place: the nearest one beside it.
fn search(side: &Side, place: Place) -> Option<(Field, u32)> {
    if let Some(field) = side.seek(place) {
        return Some((field, 0));
    }
    let rate = if side.system() == System::Ntsc { 30 } else { 25 };
    let number = match place {
        Place::Picture(picture) => picture,
        Place::Time(hours, minutes, seconds, picture) => ((hours * 60 + minutes) * 60 + seconds) * rate + picture,
        _ => return None,
    };
    let beside = side.beside(place)?;
    let near = [beside.before, beside.after].into_iter().flatten().min_by_key(|one| one.number.abs_diff(number))?;
    Some((side.field(near.field)?, near.number.abs_diff(number)))
}

/// The next stop. If all fields of a picture have its stop, the first one counts.
fn play(side: &Side, at: usize) -> Option<Field> {
    let mut next = at;
    side.stops(at).find(|stop| {
        let is_same = || [None, picture_of(side, stop.index - 1)].contains(&picture_of(side, stop.index));
        let is_passed = stop.index == at || stop.index == next && is_same();
        next = stop.index + 1;
        !is_passed
    })
}

fn run() -> Result<ExitCode, Box<dyn Error>> {
    let mut words = std::env::args().skip(1);
    let mut word = || words.next().ok_or("usage: player FILE search PLACE, chapter N, next, previous, play, still ..");
    let (side, mut at, mut status) = (Side::open(word()?)?, 0, 0);
    while let Ok(command) = word() {
        let alone = |field| (field, 0);
        let found = match command.as_str() {
            "search" => search(&side, place_of(&word()?)?),
            "chapter" => side.seek_on(Place::Chapter(word()?.parse()?), u32::MAX),
            "next" => side.next_chapter(at).map(alone),
            "previous" => side.previous_chapter(at).map(alone),
            "play" => play(&side, at).map(alone),
            "still" => side.field(at).map(alone),
            _ => return Err(format!("no such command: {command}").into()),
        };
        let said = match found {
            Some((field, passed)) => {
                at = field.index;
                status |= u8::from(passed > 0);
                let picture = picture_of(&side, at).map_or(String::new(), |number| format!(" picture {number}"));
                format!("{} field {}{picture}", if passed > 0 { " not found," } else { "" }, at + 1)
            }
            None => {
                status = 1;
                " not found".to_owned()
            }
        };
        writeln!(io::stdout(), "{command}:{said}")?;
    }
    Ok(ExitCode::from(status))
}

fn main() -> ExitCode {
    unsafe { libc::signal(libc::SIGPIPE, libc::SIG_DFL) }; // A closed pipe ends the program.
    run().map_err(|fault| eprintln!("player: {fault}")).unwrap_or(ExitCode::from(2))
}
