//! Files that are opened as sides: mapped, with the settings of the metadata beside them.

use crate::lines::Error;
use crate::meta::{read_meta, settings, MetaFault, Overrides, META_LIMIT};
use crate::sides::Side;
use serde_json::Value;
use std::fs::File;
use std::io::{self, Read};
use std::os::unix::io::AsRawFd;
use std::path::{Path, PathBuf};

/// Why a file can't be opened as a side.
#[derive(Debug, thiserror::Error)]
#[non_exhaustive]
pub enum OpenError {
    /// The file, or its metadata, can't be opened, read or mapped.
    #[error("{}: {fault}", .path.display())]
    File { path: PathBuf, fault: io::Error },
    /// The metadata is none, or gives no settings.
    #[error("{}: {fault}", .path.display())]
    Metadata { path: PathBuf, fault: MetaFault },
    /// The file has fewer bytes than a field.
    #[error("{}: {fault}", .path.display())]
    Side { path: PathBuf, fault: Error },
}

impl Side<'static> {
    /// Maps a TBC file. System, levels and the [fields of padding](Side::with_padding) are those of ld-decode's
    /// metadata beside it, in JSON: `side.tbc.json` for `side.tbc`. It is read as the program reads it, and is held in
    /// memory meanwhile.
    ///
    /// The file stays mapped until the process ends. Nobody may make it shorter before: reading what has gone ends the
    /// process by SIGBUS.
    pub fn open(path: impl AsRef<Path>) -> Result<Side<'static>, OpenError> {
        let path = path.as_ref();
        let mut beside = path.as_os_str().to_owned();
        beside.push(".json");
        let beside = PathBuf::from(beside);
        let text = bytes_of(&beside).map_err(|fault| OpenError::File { path: beside.clone(), fault })?;
        let none = Overrides { system: None, black: None, white: None, max_fields: None };
        let read = read_meta(&text).and_then(|value| Ok((settings(Some(&value), &none)?, padding_of(&value))));
        let (config, padding) = read.map_err(|fault| OpenError::Metadata { path: beside, fault })?;
        let bytes = map(path).map_err(|fault| OpenError::File { path: path.to_owned(), fault })?;
        let side = Side::new(bytes, config.system(), config.levels());
        let side = side.map_err(|fault| OpenError::Side { path: path.to_owned(), fault })?;
        Ok(side.with_padding(padding))
    }
}

/// The fields that the metadata calls padding, counted from 0.
fn padding_of(metadata: &Value) -> Vec<usize> {
    let fields = metadata["fields"].as_array().map_or(&[][..], Vec::as_slice);
    (0..fields.len()).filter(|field| fields[*field]["pad"] == true).collect()
}

/// Opens a file that nobody may have named. A pipe in its place would have the process wait.
fn open_regular(path: &Path) -> io::Result<File> {
    if std::fs::metadata(path)?.is_file() {
        File::open(path)
    } else {
        Err(io::Error::new(io::ErrorKind::InvalidInput, "it is no file"))
    }
}

/// The bytes of the metadata, up to one more than is allowed.
fn bytes_of(path: &Path) -> io::Result<Vec<u8>> {
    let mut bytes = Vec::new();
    open_regular(path)?.take(META_LIMIT as u64 + 1).read_to_end(&mut bytes)?;
    Ok(bytes)
}

extern "C" {
    fn mmap(at: *mut u8, length: usize, access: i32, kind: i32, file: i32, offset: i64) -> *mut u8;
    fn madvise(at: *mut u8, length: usize, advice: i32) -> i32;
}
// The same numbers under Linux, the BSDs and macOS
const PROT_READ: i32 = 1;
const MAP_SHARED: i32 = 1;
const MADV_RANDOM: i32 = 1;

/// Maps a file until the process ends. Few of its pages are wanted, and none is read ahead.
fn map(path: &Path) -> io::Result<&'static [u8]> {
    let file = open_regular(path)?;
    let length = usize::try_from(file.metadata()?.len()).map_err(|_| io::ErrorKind::OutOfMemory)?;
    if length == 0 {
        return Ok(&[]);
    }
    unsafe {
        let start = mmap(std::ptr::null_mut(), length, PROT_READ, MAP_SHARED, file.as_raw_fd(), 0);
        if start as isize == -1 {
            return Err(io::Error::last_os_error());
        }
        madvise(start, length, MADV_RANDOM);
        Ok(std::slice::from_raw_parts(start, length))
    }
}
