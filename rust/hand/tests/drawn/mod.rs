//! Drawn sides, for the tests.

use ldvbi::{draw_line, Levels, System, Word24};

/// Black and white of what is drawn.
pub fn levels() -> Levels {
    Levels::new(16384, 51200).unwrap()
}

/// A decimal number as the hexadecimal one with the same digits.
pub fn digits(number: u32) -> u32 {
    u32::from_str_radix(&number.to_string(), 16).unwrap()
}

/// The word of a picture.
pub fn picture(number: u32) -> u32 {
    0xF00000 + digits(number)
}

/// The words of lines 16 and 17 of a picture of a CLV disc.
pub fn time(hours: u32, minutes: u32, seconds: u32, picture: u32) -> [u32; 2] {
    let second = 0x80E000 + (10 + seconds / 10) * 0x10000 + seconds % 10 * 0x100 + digits(picture);
    [second, 0xF0DD00 + hours * 0x10000 + digits(minutes)]
}

/// Draws a field for each row of the words of lines 16, 17 and 18, of which 0 is a blank line.
pub fn draw(system: System, rows: &[[u32; 3]]) -> Vec<u8> {
    let (line, field) = (system.line_bytes(), system.field_bytes());
    let mut bytes = vec![0; rows.len() * field];
    for (place, row) in rows.iter().enumerate() {
        for (y, word) in (15..).zip(row) {
            let begin = place * field + y * line;
            draw_line(system, levels(), Word24::new(*word).ok(), &mut bytes[begin..begin + line]);
        }
    }
    bytes
}
