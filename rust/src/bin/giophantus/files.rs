//! Files and standard input and output.

use std::fs::{self, File, OpenOptions};
use std::io::{self, IsTerminal, Read, Write};
use std::os::unix::fs::OpenOptionsExt;
use std::path::Path;

use crate::failure::Failure;

/// Text is read up to this many octets: more than the longest of a set can have.
const MOST_TEXT: u64 = 1 << 24;

/// Whether this name stands for standard input or output.
pub fn is_standard(path: &Path) -> bool {
    path.as_os_str() == "-"
}

/// A usage failure where more than one of these is standard input.
pub fn one_standard(inputs: &[&Path]) -> Result<(), Failure> {
    if inputs.iter().filter(|path| is_standard(path)).count() > 1 {
        return Err(Failure::usage("standard input (-) is given twice; name a file for all but one"));
    }
    Ok(())
}

/// A file, or standard input.
pub fn open(path: &Path) -> Result<Box<dyn Read>, Failure> {
    if is_standard(path) {
        return Ok(Box::new(io::stdin()));
    }
    File::open(path).map(|file| Box::new(file) as Box<dyn Read>).map_err(|error| Failure::io(path.display(), &error))
}

/// The octets of a file, and not more than one past those expected: what is longer is refused anyway.
pub fn read(path: &Path, expected: usize) -> Result<Vec<u8>, Failure> {
    let mut octets = Vec::new();
    open(path)?
        .take(expected as u64 + 1)
        .read_to_end(&mut octets)
        .map_err(|error| Failure::io(path.display(), &error))?;
    Ok(octets)
}

/// A file of text.
pub fn read_text(path: &Path) -> Result<String, Failure> {
    let mut octets = Vec::new();
    open(path)?.take(MOST_TEXT + 1).read_to_end(&mut octets).map_err(|error| Failure::io(path.display(), &error))?;
    if octets.len() as u64 > MOST_TEXT {
        return Err(Failure::data(format!("{}: the text is too long for any set", path.display())));
    }
    String::from_utf8(octets).map_err(|_| {
        Failure::data(format!("{}: this isn't text; give decimal numbers with spaces between", path.display()))
    })
}

/// Writes octets to a file, or to standard output, which must then be no terminal.
pub fn write_octets(path: &Path, octets: &[u8]) -> Result<(), Failure> {
    if is_standard(path) && io::stdout().is_terminal() {
        return Err(Failure::usage("standard output is a terminal; give --out FILE, or send the octets on"));
    }
    write(path, octets)
}

/// Writes to a file or to standard output.
pub fn write(path: &Path, octets: &[u8]) -> Result<(), Failure> {
    if is_standard(path) {
        let mut out = io::stdout().lock();
        return out
            .write_all(octets)
            .and_then(|()| out.flush())
            .map_err(|error| Failure::io("standard output", &error));
    }
    fs::write(path, octets).map_err(|error| Failure::io(path.display(), &error))
}

/// Writes a secret key to a file that only its owner reads, or to standard output.
pub fn write_secret(path: &Path, octets: &[u8]) -> Result<(), Failure> {
    if is_standard(path) {
        return write_octets(path, octets);
    }
    OpenOptions::new()
        .write(true)
        .create(true)
        .truncate(true)
        .mode(0o600)
        .open(path)
        .and_then(|mut file| file.write_all(octets))
        .map_err(|error| Failure::io(path.display(), &error))
}

/// Prints text on standard output.
pub fn print(text: &str) -> Result<(), Failure> {
    write(Path::new("-"), text.as_bytes())
}
