//! The program giophantus: the single steps of adding encrypted counts. `giophantus --help` tells how to use it.
//!
//! Its exit status is 0 or the number of the refusal.

#![deny(missing_docs)]
#![forbid(unsafe_code)]

mod commands;
mod failure;
mod files;
mod help;
mod options;

use std::ffi::OsString;
use std::process::ExitCode;

use commands as c;
use failure::Failure;
use options::{Options, Takes};

/// A command: its name, what it takes, what it does and its help.
type Command = (&'static str, Takes, fn(&Options) -> Result<(), Failure>, &'static str);

const COMMANDS: [Command; 8] = [
    ("keygen", c::KEYGEN, c::keygen, help::KEYGEN),
    ("encrypt", c::ENCRYPT, c::encrypt, help::ENCRYPT),
    ("add", c::ADD, c::add, help::ADD),
    ("decrypt", c::DECRYPT, c::decrypt, help::DECRYPT),
    ("is-zero", c::IS_ZERO, c::is_zero, help::IS_ZERO),
    ("limits", c::LIMITS, c::limits, help::LIMITS),
    ("multiply-add", c::MULTIPLY_ADD, c::multiply_add, help::MULTIPLY_ADD),
    ("convert", c::CONVERT, c::convert, help::CONVERT),
];

fn main() -> ExitCode {
    let arguments: Vec<OsString> = std::env::args_os().skip(1).collect();
    match run(&arguments) {
        Ok(()) => ExitCode::SUCCESS,
        Err(failure) => failure.report(),
    }
}

fn run(arguments: &[OsString]) -> Result<(), Failure> {
    let Some((first, rest)) = arguments.split_first() else {
        return Err(Failure::usage("name a command; `giophantus --help` lists them"));
    };
    match first.to_str() {
        Some("--help" | "-h") => return files::print(help::PROGRAM),
        Some("--version" | "-V") => return files::print(concat!("giophantus ", env!("CARGO_PKG_VERSION"), "\n")),
        _ => {}
    }
    let Some((_, takes, command, help)) = COMMANDS.iter().find(|(name, ..)| first == name) else {
        let first = first.to_string_lossy();
        return Err(Failure::usage(format!("`{first}` is no command; `giophantus --help` lists them")));
    };
    let options = Options::parse(rest, takes)?;
    if options.help {
        return files::print(help);
    }
    command(&options)
}
