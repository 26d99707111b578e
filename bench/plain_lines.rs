//! The plain reader that `read_line` is measured beside: sample by sample, a run machine with the same tolerances, in
//! Rust. Prints of each turn the lines read, the microseconds, and a sum of the words.
use std::time::Instant;

const WIDTH: usize = 910;
const LINES: u32 = 64;
const ROUNDS: u32 = 200;
const TURNS: u32 = 100;

fn drawn_line(word: u32) -> Vec<u8> {
    let mut bytes = Vec::new();
    for column in 0..WIDTH {
        let half = (0..48).find(|j| 150 + j * 315 / 22 <= column && column < 150 + (j + 1) * 315 / 22);
        let high = half.map_or(false, |j| (word >> (23 - j / 2) & 1 == 1) == (j % 2 == 1));
        bytes.extend_from_slice(&(if high { 51200u16 } else { 16384 }).to_le_bytes());
    }
    bytes
}

/// The word that the line shows, or 0.
fn word_of(line: &[u8], low: u16) -> u32 {
    let (mut level, mut run, mut word, mut cells, mut middle) = (false, 0u32, 0u32, 0u32, false);
    for pair in line.chunks_exact(2) {
        let high = u16::from_le_bytes([pair[0], pair[1]]) > low;
        if high == level {
            run += 1;
            continue;
        }
        if cells == 0 {
            // The lows before, joined by the first half cell: the change is the middle of the first cell.
            if run < 11 {
                return 0;
            }
            (word, cells, middle) = (1, 1, true);
        } else if (11..=18).contains(&run) {
            if middle {
                middle = false;
            } else {
                word = word << 1 | u32::from(high);
                cells += 1;
                middle = true;
            }
        } else if middle && (22..=36).contains(&run) {
            word = word << 1 | u32::from(high);
            cells += 1;
        } else {
            return 0;
        }
        if cells > 24 {
            return 0;
        }
        (level, run) = (high, 1);
    }
    let ended = cells == 24 && !level && (!middle || run >= 11);
    if ended { word } else { 0 }
}

fn main() {
    let lines: Vec<Vec<u8>> = (0..LINES).map(|i| drawn_line(0xF0_0000 + i * 0x357)).collect();
    for _ in 0..TURNS {
        let start = Instant::now();
        let mut sum = 0u32;
        for _ in 0..ROUNDS {
            for line in &lines {
                // As the intake does: the bytes come into a buffer of one line. The volatile read keeps the compiler
                // from seeing that each round has the same lines.
                let line: &[u8] = unsafe { std::ptr::read_volatile(&line.as_slice()) };
                let mut buffer = [0u8; 2270];
                buffer[..line.len()].copy_from_slice(line);
                sum = sum.wrapping_add(word_of(&buffer[..line.len()], 33792));
            }
        }
        println!("{} {} {sum}", LINES * ROUNDS, start.elapsed().as_micros());
    }
}
