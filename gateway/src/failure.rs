//! Lines on the standard error, and the gateway's own failure, which ends it at once.

use std::fmt::Display;
use std::io::{self, Write};

/// The status of a gateway that has failed, EX_SOFTWARE of sysexits.h. The program's statuses are lower.
pub const FAILED: i32 = 70;

/// Why the gateway has failed. From then on no client gets another byte, since it might be another's.
#[derive(Debug)]
pub struct Failure(pub String);

impl From<io::Error> for Failure {
    fn from(error: io::Error) -> Failure {
        Failure(error.to_string())
    }
}

/// Writes a line to the standard error. A failure of that is ignored.
pub fn tell(text: impl Display) {
    let _ = io::stderr().write_all(format!("duqishom: {text}\n").as_bytes());
}
