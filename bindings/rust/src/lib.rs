//! Plans scenes by the library of Kimorefo, in the thread of the caller, by one worker.

mod exports;

use std::error;
use std::fmt;

/// What a run reports.
#[derive(Clone, Debug, PartialEq, Eq)]
pub struct Report {
    /// Whether there is a path.
    pub found: bool,
    /// The bytes of the report, which are ASCII.
    pub text: Vec<u8>,
}

/// What a report is found to be.
#[derive(Clone, Copy, Debug, PartialEq, Eq)]
pub enum Verdict {
    /// That of a lawful run of the scene.
    Lawful,
    /// The line is the first one that breaks a law.
    Broken { line: u32, law: u32 },
}

/// Why a call has no answer.
#[derive(Clone, Copy, Debug, PartialEq, Eq)]
pub enum Error {
    /// The text is no scene, by a fault of this kind in this line; or a text is too long, and both are 0.
    Refused { line: u32, kind: u32 },
    /// The start is not clear.
    StartBlocked,
    /// There is too little memory.
    NoMemory,
    /// The library is another one.
    OtherStatus(u32),
}

impl fmt::Display for Error {
    fn fmt(&self, out: &mut fmt::Formatter) -> fmt::Result {
        match self {
            Error::Refused { line: 0, .. } => write!(out, "text too long"),
            Error::Refused { line, kind } => write!(out, "line {line} kind {kind}"),
            Error::StartBlocked => write!(out, "start blocked"),
            Error::NoMemory => write!(out, "no memory"),
            Error::OtherStatus(status) => write!(out, "status {status}"),
        }
    }
}

impl error::Error for Error {}

/// Plans the scene of a text; a full report has the tree, too.
///
/// # Errors
///
/// Each of [`Error`].
pub fn plan(text: &[u8], full: bool) -> Result<Report, Error> {
    // SAFETY: the slices and the numbers are as the header asks for
    reported(|room, count, line, kind| unsafe {
        exports::kimorefo_plan(
            text.as_ptr(),
            text.len(),
            full,
            room.as_mut_ptr(),
            room.len(),
            count,
            line,
            kind,
        )
    })
}

/// As [`plan`], with the path shortened, and the short report.
///
/// # Errors
///
/// Each of [`Error`].
pub fn smooth(text: &[u8]) -> Result<Report, Error> {
    // SAFETY: as in `plan`
    reported(|room, count, line, kind| unsafe {
        exports::kimorefo_smooth(
            text.as_ptr(),
            text.len(),
            room.as_mut_ptr(),
            room.len(),
            count,
            line,
            kind,
        )
    })
}

/// Judges a full report of the scene of a text.
///
/// # Errors
///
/// Each of [`Error`].
pub fn check(text: &[u8], report: &[u8]) -> Result<Verdict, Error> {
    let (mut line, mut kind, mut law) = (0, 0, 0);
    // SAFETY: as in `plan`
    let status = unsafe {
        let (text_at, report_at) = (text.as_ptr(), report.as_ptr());
        exports::kimorefo_check(
            text_at,
            text.len(),
            report_at,
            report.len(),
            &mut line,
            &mut kind,
            &mut law,
        )
    };
    match status {
        exports::LAWFUL => Ok(Verdict::Lawful),
        exports::BROKEN => Ok(Verdict::Broken { line, law }),
        _ => Err(error_of(status, line, kind)),
    }
}

/// The version of the library: 100000 for each major version, 100 for each minor one, and 1 for each patch.
pub fn version() -> u32 {
    // SAFETY: nothing is asked for
    unsafe { exports::kimorefo_version() }
}

/// The logic that the library was proved with.
pub fn logic() -> String {
    let mut room = [0; 64];
    let mut count = 0;
    // SAFETY: as in `plan`
    let status = unsafe { exports::kimorefo_logic(room.as_mut_ptr(), room.len(), &mut count) };
    let named = if status == 0 { &room[..count] } else { &[] };
    String::from_utf8_lossy(named).into_owned()
}

/// The report of a call, which is made again with the room that it asks for.
fn reported(
    call: impl Fn(&mut [u8], &mut usize, &mut u32, &mut u32) -> u32,
) -> Result<Report, Error> {
    let mut text = vec![0; 1 << 16];
    let (mut count, mut line, mut kind) = (0, 0, 0);
    let mut status = call(&mut text, &mut count, &mut line, &mut kind);
    if status == exports::NO_ROOM {
        text.resize(count, 0);
        status = call(&mut text, &mut count, &mut line, &mut kind);
    }
    match status {
        exports::FOUND | exports::NO_PATH => {
            text.truncate(count);
            Ok(Report {
                found: status == exports::FOUND,
                text,
            })
        }
        _ => Err(error_of(status, line, kind)),
    }
}

fn error_of(status: u32, line: u32, kind: u32) -> Error {
    match status {
        exports::REFUSED => Error::Refused { line, kind },
        exports::START_BLOCKED => Error::StartBlocked,
        exports::NO_MEMORY => Error::NoMemory,
        _ => Error::OtherStatus(status),
    }
}
