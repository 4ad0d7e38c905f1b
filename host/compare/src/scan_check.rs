//! One fresh state or scan by each implementation on the same bytes: answers and all buffers.

use crate::check::{self, differ, write_by_both};
use crate::scans::Buffers;
use crate::text::{self, slice, Answer};
use lane::ffi;
use reference::scan as rules;

/// What a scan left, as text.
fn left(answer: Answer, scan: &Buffers) -> String {
    text::left(answer, &[&scan.state, &scan.report, &scan.journal])
}

/// The call of a scan, as text.
pub fn line(scan: &Buffers) -> String {
    let slices = [
        &scan.image,
        &scan.state,
        &scan.frame,
        &scan.report,
        &scan.journal,
    ];
    format!("scan {}", slices.map(|bytes| slice(bytes)).join(" "))
}

/// A scan by the engine.
fn by_engine(scan: &mut Buffers) -> Answer {
    ffi::scan(
        &scan.image,
        &mut scan.state,
        &scan.frame,
        &mut scan.report,
        &mut scan.journal,
    )
}

/// A scan by the reference.
fn by_reference(scan: &mut Buffers) -> Answer {
    text::from_reference(rules::scan(
        &scan.image,
        &mut scan.state,
        &scan.frame,
        &mut scan.report,
        &mut scan.journal,
    ))
}

/// Runs a scan by both implementations: the answer, and the buffers as both left them. A refused one
/// must leave them as they were.
pub fn scan(given: &Buffers) -> Result<(Answer, Buffers), String> {
    let (mut engine, mut reference) = (given.clone(), given.clone());
    let answer = by_engine(&mut engine);
    let expected = by_reference(&mut reference);
    if answer != expected || engine != reference {
        let (engine, reference) = (left(answer, &engine), left(expected, &reference));
        return Err(differ(&line(given), &engine, &reference));
    }
    if answer.is_err() && engine != *given {
        let call = line(given);
        return Err(format!(
            "a refused scan wrote: {}\n{call}",
            left(answer, &engine)
        ));
    }
    Ok((answer, engine))
}

/// Makes a state fresh by both implementations: the answer, and the state as both left it.
pub fn fresh(image: &[u8], state: &[u8]) -> Result<(Answer, Vec<u8>), String> {
    write_by_both("fresh", image, state, ffi::fresh, rules::fresh)
}

/// Runs a call given in words: what it answers and leaves, as text.
pub fn run(words: &[&str]) -> Result<String, String> {
    match words {
        ["fresh", image, state] => {
            let (answer, state) = fresh(&text::parse_slice(image)?, &text::parse_slice(state)?)?;
            Ok(text::left(answer, &[&state]))
        }
        ["scan", image, state, frame, report, journal] => {
            let given = Buffers {
                image: text::parse_slice(image)?,
                state: text::parse_slice(state)?,
                frame: text::parse_slice(frame)?,
                report: text::parse_slice(report)?,
                journal: text::parse_slice(journal)?,
            };
            let (answer, after) = scan(&given)?;
            Ok(left(answer, &after))
        }
        _ => check::run(words),
    }
}
