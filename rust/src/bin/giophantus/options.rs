//! The command line: options by name, and files.

use std::ffi::{OsStr, OsString};
use std::os::unix::ffi::OsStrExt;
use std::path::{Path, PathBuf};

use crate::failure::Failure;

/// What a command takes.
pub struct Takes {
    /// Options with a value.
    pub values: &'static [&'static str],
    /// Options without one.
    pub flags: &'static [&'static str],
    /// The most files that it takes.
    pub files: usize,
}

/// The options of a command line.
#[derive(Debug, Default)]
pub struct Options {
    values: Vec<(&'static str, OsString)>,
    flags: Vec<&'static str>,
    pub files: Vec<PathBuf>,
    pub help: bool,
}

impl Options {
    /// Reads `--name value`, `--name=value`, `--flag` and files; `--` ends the options, and `-` is a file.
    pub fn parse(arguments: &[OsString], takes: &Takes) -> Result<Self, Failure> {
        let mut options = Options::default();
        let mut rest = arguments.iter();
        let mut ended = false;
        while let Some(argument) = rest.next() {
            let octets = argument.as_bytes();
            if ended || octets == b"-" || !octets.starts_with(b"-") {
                options.files.push(PathBuf::from(argument));
            } else if octets == b"--" {
                ended = true;
            } else if octets == b"--help" || octets == b"-h" {
                options.help = true;
            } else {
                options.option(octets, &mut rest, takes)?;
            }
        }
        if options.files.len() > takes.files && !options.help {
            let extra = options.files[takes.files].display();
            return Err(Failure::usage(format!("{extra} is one argument too many; see --help")));
        }
        Ok(options)
    }

    fn option<'a>(
        &mut self,
        octets: &[u8],
        rest: &mut impl Iterator<Item = &'a OsString>,
        takes: &Takes,
    ) -> Result<(), Failure> {
        let (name, value) = match octets.iter().position(|&octet| octet == b'=') {
            Some(at) => (&octets[..at], Some(OsStr::from_bytes(&octets[at + 1..]).to_owned())),
            None => (octets, None),
        };
        let shown = OsStr::from_bytes(name).to_string_lossy().into_owned();
        if let Some(flag) = takes.flags.iter().find(|flag| flag.as_bytes() == name) {
            if value.is_some() {
                return Err(Failure::usage(format!("{flag} takes no value; leave it away")));
            }
            self.flags.push(flag);
            return Ok(());
        }
        let Some(known) = takes.values.iter().find(|known| known.as_bytes() == name) else {
            return Err(Failure::usage(format!("{shown} is no option of this command; see --help")));
        };
        if self.values.iter().any(|(given, _)| given == known) {
            return Err(Failure::usage(format!("{known} is given twice; give it once")));
        }
        let Some(value) = value.or_else(|| rest.next().cloned()) else {
            return Err(Failure::usage(format!("{known} needs a value behind it; see --help")));
        };
        self.values.push((known, value));
        Ok(())
    }

    /// The value of an option.
    pub fn value(&self, name: &str) -> Option<&OsStr> {
        self.values.iter().find(|(given, _)| *given == name).map(|(_, value)| value.as_os_str())
    }

    /// The value of an option that must be given.
    pub fn needed(&self, name: &str) -> Result<&OsStr, Failure> {
        self.value(name).ok_or_else(|| Failure::usage(format!("{name} is missing; see --help")))
    }

    /// The file that an option names.
    pub fn file(&self, name: &str) -> Option<&Path> {
        self.value(name).map(Path::new)
    }

    /// The file that an option names, which must be given.
    pub fn needed_file(&self, name: &str) -> Result<&Path, Failure> {
        self.needed(name).map(Path::new)
    }

    /// Whether a flag is given.
    pub fn flag(&self, name: &str) -> bool {
        self.flags.contains(&name)
    }
}
