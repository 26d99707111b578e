//! The biphase code words of LaserDiscs (IEC 60857 and IEC 60856), from fields in ld-decode's TBC format.
//!
//! A [`Side`] is a capture whose samples are in memory. It has the capture's fields and the number that each one shows.
//! It finds a picture, a time, a chapter, or where a player stops, and says whether the capture is whole. It keeps what
//! is [`Judged`] of all its fields. A [`Feeder`] takes a stream in pieces. [`classify`] says what a word means, and
//! [`draw_line`] draws one.
//!
//! ```
//! use ldvbi::{classify, draw_line, Code, Counted, Levels, Number, Place, Side, SideOptions, System, Verdict, Word24};
//!
//! # fn main() -> Result<(), Box<dyn std::error::Error>> {
//! // Black and white are black16bIre and white16bIre of the .tbc.json. Read or map a TBC file for the samples.
//! let (system, levels) = (System::Ntsc, Levels::new(16384, 51200)?);
//! # let (size, mut file) = (system.line_bytes(), vec![0; 60 * system.field_bytes()]);
//! # let mut draw = |field: usize, row: usize, word: u32| {
//! #     let begin = field * system.field_bytes() + row * size;
//! #     Word24::new(word).map(|word| draw_line(system, levels, Some(word), &mut file[begin..begin + size]))
//! # };
//! # for picture in 0..30 {
//! #     let digits = 0xF00000 + picture / 10 * 16 + picture % 10;
//! #     draw(2 * picture as usize, 16, if picture == 20 { 0xF79999 } else { digits })?;
//! #     draw(2 * picture as usize + 1, 16, 0x801DDD)?;
//! # }
//! # draw(50, 15, 0x82CFFF)?;
//! let side = Side::new(&file, system, levels)?;
//!
//! // Line 17 of the first field, and what it says.
//! let [_, line_17, _] = side.fields().next().ok_or("no field")?;
//! assert_eq!(line_17.outcome.word().map(classify), Some(Code::Picture(0)));
//!
//! // The number of picture 20 was misread. Fields are counted from 0.
//! assert_eq!(side.numbers(Counted::Pictures)[40], Number::Due(20));
//! assert_eq!(side.seek(Place::Picture(20)).map(|field| field.index), Some(40));
//! assert_eq!(side.seek(Place::Picture(79999)), None);
//!
//! // From there the player stops at picture 25.
//! assert_eq!(side.next_stop(41, 100).map(|field| field.index), Some(50));
//! assert_eq!(side.next_stop(41, 9), None);
//!
//! // The capture is whole. It may end before the disc does, so it needn't show lead-out.
//! let options = SideOptions { may_end: true, ..SideOptions::new(Counted::Pictures) };
//! assert_eq!(side.whole(options).verdict, Verdict::Yes);
//! # Ok(())
//! # }
//! ```
//!
//! Errors: [`Levels::new`] returns [`LevelsFault`], and [`Word24::new`] returns [`WordFault`]. [`Error`] is returned if
//! bytes are no side or no line, or a clock is none; `Side::open` returns `OpenError`. Two calls panic on what they
//! can't take: [`draw_line`] on less than a line, and [`Word24::half`] from 48 on.
//!
//! The calls below this interface are the source of the library for C, without the contracts that were proved of it.
//! docs/PROMISES.md has what they promise. This interface itself is tested. With the feature `metadata` the crate also
//! has `Side::open`, which needs serde_json, and with `cli` the program `ldvbi`, which needs clap, too.
#![deny(unsafe_code)]
// Names that contracts alone speak of
#![allow(unused_labels, unused_variables)]
// The source's own forms, which are proved as they stand.
#![allow(
    clippy::identity_op,
    clippy::large_enum_variant,
    clippy::manual_find,
    clippy::manual_is_multiple_of,
    clippy::manual_map,
    clippy::manual_range_contains,
    clippy::match_like_matches_macro,
    clippy::module_inception,
    clippy::needless_range_loop,
    clippy::question_mark,
    clippy::redundant_closure,
    clippy::single_match,
    clippy::too_many_arguments,
    clippy::wrong_self_convention
)]

// The modules of the source. From the repository itself, as a git address has it, build.rs makes them one file.
#[cfg(one_file)]
include!(concat!(env!("OUT_DIR"), "/modules.rs"));

#[allow(unsafe_code)]
mod bits_above;
#[cfg(not(one_file))]
#[allow(dead_code, unused_imports)]
mod c;
#[cfg(feature = "cli")]
mod clap;
#[cfg(all(feature = "cli", not(one_file)))]
#[allow(dead_code, unused_imports)]
mod cli;
#[allow(unsafe_code)]
mod exports;
#[cfg(not(one_file))]
#[allow(dead_code, unused_imports)]
mod field;
mod fields;
mod judged;
#[cfg(not(one_file))]
#[allow(dead_code, unused_imports)]
mod line;
mod lines;
#[cfg(all(feature = "metadata", not(one_file)))]
#[allow(dead_code, unused_imports)]
mod meta;
#[cfg(not(one_file))]
#[allow(dead_code, unused_imports)]
mod near;
#[cfg(all(feature = "metadata", unix, target_pointer_width = "64"))]
#[allow(unsafe_code)]
mod opened;
#[cfg(not(one_file))]
#[allow(dead_code, unused_imports)]
mod plan;
mod plans;
mod numbers;
mod room;
#[cfg(not(one_file))]
#[allow(dead_code, unused_imports)]
mod seek;
#[cfg(not(one_file))]
#[allow(dead_code, unused_imports)]
mod side;
mod sides;
#[cfg(not(one_file))]
#[allow(dead_code, unused_imports)]
mod story;
mod whole;
#[cfg(not(one_file))]
#[allow(dead_code, unused_imports)]
mod whole_side;
#[cfg(not(one_file))]
#[allow(dead_code, unused_imports)]
mod words;

pub use crate::judged::Judged;
pub use crate::lines::{Error, Feeder};
#[cfg(feature = "metadata")]
pub use crate::meta::MetaFault;
pub use crate::near::Near;
#[cfg(all(feature = "metadata", unix, target_pointer_width = "64"))]
pub use crate::opened::OpenError;
pub use crate::plans::{check_plan, Layout, PlanFault, Rule, Spacing, Stretch};
pub use crate::side::Counted;
pub use crate::sides::{Beside, Field, Neighbour, Number, Place, Side};
pub use crate::whole::{Clock, Gap, GapKind, Reason, SideOptions, Whole};
pub use crate::whole_side::{Tally, Verdict};
pub use crate::words::{
    classify, draw_line, format_of, Code, Format, Levels, LevelsFault, Outcome, Reading, System, Word24, WordFault,
};

/// What only the program `ldvbi` needs of its crate.
#[cfg(feature = "cli")]
#[doc(hidden)]
pub mod program {
    pub use crate::cli::{read_words, run_job, status, AppFault, Input, Job, WordsFault};
    pub use crate::meta::{MetaFault, META_LIMIT};
}
