//! The plain reader that a run of `ldvbi extract` is measured beside: it reads a stream in reads of one line, and does
//! nothing with them. Its first word is the number of a line's bytes. Prints how many bytes came.
use std::fs::File;
use std::io::Read;

fn main() -> std::io::Result<()> {
    let length = std::env::args().nth(1).and_then(|words| words.parse().ok()).unwrap_or(1820);
    let mut input: Box<dyn Read> = match std::env::args().nth(2) {
        Some(path) => Box::new(File::open(path)?),
        None => Box::new(std::io::stdin()),
    };
    let mut line = vec![0u8; length];
    let mut held = 0;
    let mut bytes = 0u64;
    loop {
        let count = input.read(&mut line[held..])?;
        if count == 0 {
            break;
        }
        bytes += count as u64;
        held = (held + count) % line.len();
    }
    println!("{bytes}");
    Ok(())
}
