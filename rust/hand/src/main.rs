//! The program `ldvbi`. It opens what the command line names, has the job done on that, and prints what went wrong.
//! What it uses of the system is in `system`.
#![deny(unsafe_code)]
#![no_main]

#[allow(unsafe_code)]
mod system;

use ldvbi::program::{read_words, run_job, status, AppFault, Input, Job, MetaFault, WordsFault, META_LIMIT};
use std::fs::File;
use std::io::{self, BufReader, ErrorKind, Read, Write};
use system::Stream;

/// Prints the line of a fault. If printing fails, there is no way left to say so.
fn complain(fault: &str) {
    let _ = Stream::error().write_all(format!("ldvbi: {fault}\n").as_bytes());
}

/// Runs the program, and returns its status.
fn run() -> u8 {
    let words: Result<Vec<String>, _> = std::env::args_os().map(|word| word.into_string()).collect();
    let words = match words {
        Ok(words) => words,
        Err(_) => {
            complain("arguments are not UTF-8");
            return 2;
        }
    };
    let job = match read_words(&words) {
        Ok(job) => job,
        Err(fault) => {
            if let WordsFault::Help(text) = &fault {
                return help(text);
            }
            let _ = Stream::error().write_all(fault.to_string().as_bytes());
            return fault.status();
        }
    };
    run_with_files(&job).unwrap_or_else(|fault| {
        complain(&fault);
        1
    })
}

/// Prints help or the version, as asked, and returns the status.
fn help(text: &str) -> u8 {
    if Stream::output().write_all(text.as_bytes()).is_ok() {
        return 0;
    }
    complain("cannot write output");
    1
}

/// Opens what the job names, does the job, and returns the status.
fn run_with_files(job: &Job) -> Result<u8, String> {
    let beside = name_beside(job);
    let meta = metadata_of(job, beside.as_deref())?;
    // A fault is the file's that nobody named only if there is one.
    let beside = beside.filter(|_| meta.is_some());
    let mut input = match &job.input {
        None => Input::Standard(Stream::input()),
        Some(path) => Input::File(File::open(path).map_err(|_| "cannot open input")?),
    };
    let mut output = Stream::output();
    let ended = run_job(job, meta.as_deref(), &mut input, &mut output);
    match (&ended, &beside) {
        (Err(AppFault::Meta(fault)), Some(name)) if is_in_metadata(fault) => complain(&format!("{name}: {fault}")),
        (Err(fault), _) => complain(&fault.to_string()),
        _ => {}
    }
    Ok(status(&ended))
}

/// Whether a fault may be one of the metadata: of the limit of fields it is one of the options, and memory is no fault
/// of theirs.
fn is_in_metadata(fault: &MetaFault) -> bool {
    !matches!(fault, MetaFault::BadMaxFields | MetaFault::OutOfMemory)
}

/// The name of the metadata that may be beside the job's input, if the job looks there: that of the input, with
/// `.json` after it.
fn name_beside(job: &Job) -> Option<String> {
    let input = job.input.as_ref().filter(|_| job.looks_beside())?;
    Some(format!("{input}.json"))
}

/// The bytes of the metadata file that the job names, else of the one beside its input, if there is one.
fn metadata_of(job: &Job, beside: Option<&str>) -> Result<Option<Vec<u8>>, String> {
    match (&job.meta, beside) {
        (Some(path), _) => Ok(Some(metadata(File::open(path))?)),
        (None, Some(path)) => match file_at(path) {
            Err(error) if is_absent(&error) => Ok(None),
            opened => metadata(opened).map(Some).map_err(|fault| format!("{path}: {fault}")),
        },
        _ => Ok(None),
    }
}

/// Opens a file that nobody has named. A pipe or a device in its place might have the program wait for ever.
fn file_at(path: &str) -> io::Result<File> {
    match std::fs::metadata(path)?.is_file() {
        true => File::open(path),
        false => Err(ErrorKind::InvalidInput.into()),
    }
}

/// Whether a file that can't be opened isn't there. Older compilers have no kind for error 20, a name below a file.
fn is_absent(error: &io::Error) -> bool {
    error.kind() == ErrorKind::NotFound || cfg!(unix) && error.raw_os_error() == Some(20)
}

/// The bytes of a metadata file, up to one more than is allowed. An interrupted read is tried again.
fn metadata(opened: io::Result<File>) -> Result<Vec<u8>, &'static str> {
    let mut bytes = Vec::new();
    let read = opened.and_then(|file| BufReader::new(file).take(META_LIMIT as u64 + 1).read_to_end(&mut bytes));
    read.map(|_| bytes).map_err(|_| "cannot read metadata")
}
