//! The plain writer that a run of `ldvbi draw` is measured beside: it writes so many lines of zeros, in writes of one
//! NTSC line's bytes.
use std::fs::File;
use std::io::Write;
use std::os::unix::io::FromRawFd;

fn main() -> std::io::Result<()> {
    let lines: u64 = std::env::args().nth(1).and_then(|words| words.parse().ok()).unwrap_or(0);
    // Standard output without the buffer that `stdout` has.
    let mut output = unsafe { File::from_raw_fd(1) };
    let line = [0u8; 1820];
    for _ in 0..lines {
        output.write_all(&line)?;
    }
    Ok(())
}
