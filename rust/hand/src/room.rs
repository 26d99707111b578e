//! What a call of the library fills, before it does: each number is 0.
#![allow(clippy::derivable_impls)] // the source of these structs derives none

use crate::side::{Number, NOTHING};
use crate::whole_side::Gap;

impl Default for Number {
    fn default() -> Number {
        Number { number: 0, state: NOTHING }
    }
}

impl Default for Gap {
    fn default() -> Gap {
        Gap { after: 0, before: 0, fields: 0, shown: 0, from: 0, to: 0, kind: 0 }
    }
}
