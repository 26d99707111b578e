//! What the examples share.
use std::{fs::File, io, os::unix::io::AsRawFd, ptr, slice};

/// Maps a file until the program ends. Nobody may make it shorter meanwhile. Few of its pages are read, and none ahead.
pub fn map(path: &str) -> io::Result<&'static [u8]> {
    let file = File::open(path)?;
    let size = file.metadata()?.len() as usize;
    if size == 0 {
        return Ok(&[]);
    }
    match unsafe { libc::mmap(ptr::null_mut(), size, libc::PROT_READ, libc::MAP_SHARED, file.as_raw_fd(), 0) } {
        libc::MAP_FAILED => Err(io::Error::last_os_error()),
        start => Ok(unsafe {
            libc::madvise(start, size, libc::MADV_RANDOM);
            slice::from_raw_parts(start.cast(), size)
        }),
    }
}
