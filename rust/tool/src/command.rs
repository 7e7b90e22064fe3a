//! What the commands share: arguments, and how they end.

use std::ffi::OsString;
use std::io::{self, Write};
use std::path::Path;

/// Accepted, or true.
pub const YES: u8 = 0;
/// Refused, or false.
pub const NO: u8 = 1;

/// What ends a command with status 2.
pub enum Failure {
    /// Used wrongly: the message, and the command's usage behind it.
    Usage(String),
    Message(String),
    /// The reader of the output has gone.
    Gone,
}

impl From<String> for Failure {
    fn from(message: String) -> Failure {
        Failure::Message(message)
    }
}

impl From<io::Error> for Failure {
    fn from(error: io::Error) -> Failure {
        match error.kind() {
            io::ErrorKind::BrokenPipe => Failure::Gone,
            _ => Failure::Message(format!("the output cannot be written: {error}")),
        }
    }
}

/// The status.
pub type Ended = Result<u8, Failure>;

/// A command: its name, what it does in a line, its help, and itself.
pub struct Command {
    pub name: &'static str,
    pub what: &'static str,
    pub help: &'static str,
    pub run: fn(&[OsString], &mut dyn Write) -> Ended,
}

pub fn usage(message: &str) -> Failure {
    Failure::Usage(message.into())
}

/// Says something on stderr, whether or not anyone can hear it.
pub fn tell(message: &str) {
    let _ = writeln!(io::stderr(), "dulgaverk: {message}");
}

/// The arguments as paths: none is empty, and none an option (`-` is none).
pub fn paths(arguments: &[OsString]) -> Result<Vec<&Path>, Failure> {
    let mut paths = Vec::new();
    for argument in arguments {
        match argument.to_string_lossy().as_ref() {
            "" => return Err(usage("an empty argument")),
            "-" => {}
            text if text.starts_with('-') => {
                return Err(usage(&format!("no such option: {text}")));
            }
            _ => {}
        }
        paths.push(Path::new(argument));
    }
    Ok(paths)
}

/// So many paths; `what` says which.
pub fn exactly<'a, const N: usize>(
    arguments: &'a [OsString],
    what: &str,
) -> Result<[&'a Path; N], Failure> {
    let paths = paths(arguments)?;
    let found = paths.len();
    let wrong = |_| usage(&format!("expected {what}, found {found} arguments"));
    paths.try_into().map_err(wrong)
}
