//! How a command fails: one line for the person, and the exit status.

use std::fmt::Display;
use std::io::{self, Write};
use std::path::Path;
use std::process::ExitCode;

use giophantus::Error;

// Statuses that are no refusal numbers, as sysexits.h has them.
const USAGE: u8 = 64;
const DATA: u8 = 65;
const SOFTWARE: u8 = 70;
const CANNOT_CREATE: u8 = 73;
const IO: u8 = 74;

/// Why a command stops: its exit status, and a line, or none where nobody reads any more.
#[derive(Debug)]
pub struct Failure {
    status: u8,
    line: Option<String>,
}

impl Failure {
    /// A refusal: its number is the exit status. `what` says what was refused.
    pub fn refused(what: impl Display, error: Error) -> Self {
        let status = match error {
            Error::RandomSource(_) => IO,
            Error::Unknown(_) => SOFTWARE,
            _ => error.number().and_then(|number| u8::try_from(number).ok()).unwrap_or(SOFTWARE),
        };
        Failure { status, line: Some(format!("{what}: {error}; {}", error.advice())) }
    }

    /// A command line that makes no sense.
    pub fn usage(line: impl Display) -> Self {
        Failure { status: USAGE, line: Some(line.to_string()) }
    }

    /// Text that isn't what was expected.
    pub fn data(line: impl Display) -> Self {
        Failure { status: DATA, line: Some(line.to_string()) }
    }

    /// A file that is there already.
    pub fn exists(path: &Path) -> Self {
        let line = format!("{} is there already: name another file, or replace it with --force", path.display());
        Failure { status: CANNOT_CREATE, line: Some(line) }
    }

    /// A file or stream that can't be read or written.
    pub fn io(what: impl Display, error: &io::Error) -> Self {
        let line = match error.kind() {
            io::ErrorKind::BrokenPipe => None,
            _ => Some(format!("{what}: {error}; check the name and its permissions")),
        };
        Failure { status: IO, line }
    }

    /// Tells the person and gives the exit status.
    pub fn report(self) -> ExitCode {
        if let Some(line) = self.line {
            // Control characters, which a file's name may have, would break the line.
            let line: String = line.chars().map(|c| if c.is_control() { '?' } else { c }).collect();
            // Where nobody hears it there is nobody to tell.
            let _ = writeln!(io::stderr(), "giophantus: {line}");
        }
        ExitCode::from(self.status)
    }
}

#[cfg(test)]
mod tests {
    use super::*;

    #[test]
    fn the_status_is_the_number_of_a_refusal_that_is_known() {
        let status = |error| u32::from(Failure::refused("it", error).status);
        for refusal in Error::REFUSALS {
            assert_eq!(Some(status(refusal)), refusal.number());
        }
        for number in [12, 64, 300] {
            assert_eq!(status(Error::Unknown(number)), 70);
        }
    }
}
