//! Reading texts, and writing outputs whole or not at all.

use crate::closed;
use crate::escape::escaped;
use sluicegnome::limits;
use std::ffi::OsStr;
use std::fs::{self, File};
use std::io::{self, Read, Write};
use std::os::fd::AsFd;
use std::path::{Path, PathBuf};

/// A text and where it came from.
pub struct Source {
    pub name: String,
    pub bytes: Vec<u8>,
}

/// What could not be read or written, in a sentence.
pub struct Trouble(pub String);

/// The longest order that is read: there is room for a comment on each number.
const ORDER_BYTES: usize = 1 << 20;

/// Reads a text. One byte more than it may have is enough to see that it is too long.
pub fn read(path: &OsStr) -> Result<Source, Trouble> {
    read_at_most(path, limits::TEXT_BYTES + 1)
}

/// Reads an order whole.
pub fn read_order(path: &OsStr) -> Result<Source, Trouble> {
    let source = read_at_most(path, ORDER_BYTES + 1)?;
    match source.bytes.len() > ORDER_BYTES {
        true => Err(Trouble(format!("cannot read {}: an order has at most {ORDER_BYTES} bytes", source.name))),
        false => Ok(source),
    }
}

/// Reads the first bytes of a file, or of standard input for `-`.
fn read_at_most(path: &OsStr, length: usize) -> Result<Source, Trouble> {
    let standard = path == "-";
    let name = match standard {
        true => "standard input".to_string(),
        false => escaped(path.as_encoded_bytes()),
    };
    let file = if standard { standard_input() } else { File::open(path) };
    let mut bytes = Vec::new();
    match file.and_then(|file| file.take(length as u64).read_to_end(&mut bytes)) {
        Ok(_) => Ok(Source { name, bytes }),
        Err(error) => Err(Trouble(format!("cannot read {name}: {}", reason(&error)))),
    }
}

/// Writes to standard output.
pub fn write_standard_output(bytes: &[u8]) -> Result<(), Trouble> {
    let written = standard_output().and_then(|mut file| file.write_all(bytes));
    written.map_err(|error| Trouble(format!("cannot write standard output: {}", reason(&error))))
}

/// Writes a file whole or not at all: beside it first, then by a change of names. What is no plain file, such as a device, is written to
/// directly.
pub fn write(path: &Path, bytes: &[u8]) -> Result<(), Trouble> {
    let written = match fs::metadata(path) {
        Ok(known) if known.is_file() => replace(&fs::canonicalize(path).unwrap_or(path.into()), bytes, Some(known.permissions())),
        Ok(_) => File::options().write(true).open(path).and_then(|mut file| file.write_all(bytes)),
        Err(_) => replace(path, bytes, None),
    };
    written.map_err(|error| Trouble(format!("cannot write {}: {}", path.display(), reason(&error))))
}

fn replace(path: &Path, bytes: &[u8], permissions: Option<fs::Permissions>) -> io::Result<()> {
    let beside = beside(path)?;
    let result = (|| {
        let mut file = File::options().write(true).create_new(true).open(&beside)?;
        file.write_all(bytes)?;
        if let Some(permissions) = permissions {
            file.set_permissions(permissions)?;
        }
        file.sync_all()?;
        fs::rename(&beside, path)
    })();
    if result.is_err() {
        let _ = fs::remove_file(&beside);
    }
    result
}

/// A name in the same folder that no other run has.
fn beside(path: &Path) -> io::Result<PathBuf> {
    let Some(name) = path.file_name() else {
        return Err(io::ErrorKind::IsADirectory.into());
    };
    let mut beside = std::ffi::OsString::from(".");
    beside.push(name);
    beside.push(format!(".{}", std::process::id()));
    Ok(path.with_file_name(beside))
}

fn standard_input() -> io::Result<File> {
    if closed::input_was_closed() {
        return Err(io::Error::from_raw_os_error(closed::BAD_DESCRIPTOR));
    }
    Ok(File::from(io::stdin().as_fd().try_clone_to_owned()?))
}

fn standard_output() -> io::Result<File> {
    if closed::output_was_closed() {
        return Err(io::Error::from_raw_os_error(closed::BAD_DESCRIPTOR));
    }
    Ok(File::from(io::stdout().as_fd().try_clone_to_owned()?))
}

/// The system's words without the number behind them.
fn reason(error: &io::Error) -> String {
    let words = error.to_string();
    match words.split_once(" (os error") {
        Some((words, _)) => words.to_string(),
        None => words,
    }
}
