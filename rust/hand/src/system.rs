//! What the program uses of the system: how it begins, its three streams as they are, and what ends it without memory.
use std::alloc::{GlobalAlloc, Layout, System};
use std::fs::File;
use std::io::{self, Read, Write};
use std::mem::ManuallyDrop;

/// The program begins here, not in Rust's own `main`, which opens each of the three streams that is closed. Then a
/// closed input would be read as an empty one, and what is written to a closed output would count as written.
#[no_mangle]
pub extern "C" fn main(_count: i32, _words: *const *const u8) -> i32 {
    ignore_closed_pipes();
    i32::from(crate::run())
}

/// A write to a pipe that nobody reads fails. It doesn't end the process.
fn ignore_closed_pipes() {
    #[cfg(unix)]
    {
        const SIGPIPE: i32 = 13;
        const IGNORED: usize = 1;
        extern "C" {
            fn signal(number: i32, handler: usize) -> usize;
        }
        unsafe {
            signal(SIGPIPE, IGNORED);
        }
    }
}

/// One of the three streams. Nothing is buffered: each call asks the system once.
pub(crate) struct Stream(ManuallyDrop<File>);

impl Stream {
    pub(crate) fn input() -> Stream {
        Stream::of(0, io::stdin)
    }

    pub(crate) fn output() -> Stream {
        Stream::of(1, io::stdout)
    }

    pub(crate) fn error() -> Stream {
        Stream::of(2, io::stderr)
    }

    /// That of this number, as Unix knows it; under Windows that of the handle which Rust's own has.
    #[cfg(unix)]
    fn of<Own>(number: i32, _own: fn() -> Own) -> Stream {
        use std::os::unix::io::FromRawFd;
        Stream(ManuallyDrop::new(unsafe { File::from_raw_fd(number) }))
    }

    #[cfg(windows)]
    fn of<Own: std::os::windows::io::AsRawHandle>(_number: i32, own: fn() -> Own) -> Stream {
        use std::os::windows::io::FromRawHandle;
        Stream(ManuallyDrop::new(unsafe { File::from_raw_handle(own().as_raw_handle()) }))
    }
}

impl Read for Stream {
    fn read(&mut self, buf: &mut [u8]) -> io::Result<usize> {
        self.0.read(buf)
    }
}

impl Write for Stream {
    fn write(&mut self, bytes: &[u8]) -> io::Result<usize> {
        self.0.write(bytes)
    }

    fn flush(&mut self) -> io::Result<()> {
        Ok(())
    }
}

/// The system's memory. If it is refused, the program says so and ends. Memory is taken only for the words and the
/// metadata, before anything is read from the input or written.
struct Memory;

fn granted(memory: *mut u8) -> *mut u8 {
    if memory.is_null() {
        let _ = Stream::error().write_all(b"ldvbi: out of memory\n");
        std::process::exit(1);
    }
    memory
}

unsafe impl GlobalAlloc for Memory {
    unsafe fn alloc(&self, layout: Layout) -> *mut u8 {
        granted(System.alloc(layout))
    }

    unsafe fn alloc_zeroed(&self, layout: Layout) -> *mut u8 {
        granted(System.alloc_zeroed(layout))
    }

    unsafe fn realloc(&self, memory: *mut u8, layout: Layout, size: usize) -> *mut u8 {
        granted(System.realloc(memory, layout, size))
    }

    unsafe fn dealloc(&self, memory: *mut u8, layout: Layout) {
        System.dealloc(memory, layout)
    }
}

#[global_allocator]
static MEMORY: Memory = Memory;
