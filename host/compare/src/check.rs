//! One call of each implementation on the same bytes. Where they differ, the call is given as a
//! line for `replay`.

use crate::text::{self, slice, Answer};
use lane::ffi;
use reference::{journal, table, tidy as rules};

/// The message of a difference, with the call as a line for `replay`.
pub(crate) fn differ(call: &str, engine: &str, reference: &str) -> String {
    format!(
        "the engine gives    {engine}\n\
         the reference gives {reference}\n\
         run it again: cargo run -p compare --bin replay -- {call}"
    )
}

/// What both implementations give. Fails with the case where they differ.
pub fn agreed<T>(case: u64, result: Result<T, String>) -> T {
    result.unwrap_or_else(|message| panic!("case {case}: {message}"))
}

/// What both implementations answered to a call that only reads: its word, and its slices.
fn read_by_both(
    word: &str,
    slices: &[&[u8]],
    engine: Answer,
    reference: Result<usize, table::Refusal>,
) -> Result<Answer, String> {
    let reference = text::from_reference(reference);
    if engine == reference {
        return Ok(engine);
    }
    let slices = slices.iter().map(|bytes| format!(" {}", slice(bytes)));
    let call = format!("{word}{}", slices.collect::<String>());
    let (engine, reference) = (text::answer(engine), text::answer(reference));
    Err(differ(&call, &engine, &reference))
}

/// The answer of both implementations to a table check.
pub fn check(image: &[u8]) -> Result<Answer, String> {
    read_by_both("check", &[image], ffi::check(image), table::check(image))
}

/// The answer of both implementations to a lookup.
pub fn find(image: &[u8], tag: &[u8]) -> Result<Answer, String> {
    let (engine, reference) = (ffi::find(image, tag), table::find(image, tag));
    read_by_both("find", &[image, tag], engine, reference)
}

/// The answer of both implementations to a journal check.
pub fn check_journal(image: &[u8], journal: &[u8]) -> Result<Answer, String> {
    let engine = ffi::check_journal(image, journal);
    let reference = journal::check_journal(image, journal);
    read_by_both("check_journal", &[image, journal], engine, reference)
}

/// A call that writes one buffer, by both implementations: the answer, and the buffer as both left
/// it. A refused one must leave it as it was.
pub(crate) fn write_by_both(
    word: &str,
    image: &[u8],
    given: &[u8],
    by_engine: fn(&[u8], &mut [u8]) -> Answer,
    by_reference: fn(&[u8], &mut [u8]) -> Result<usize, table::Refusal>,
) -> Result<(Answer, Vec<u8>), String> {
    let (mut engine, mut reference) = (given.to_vec(), given.to_vec());
    let answer = by_engine(image, &mut engine);
    let expected = text::from_reference(by_reference(image, &mut reference));
    let call = || format!("{word} {} {}", slice(image), slice(given));
    if answer != expected || engine != reference {
        let engine = text::left(answer, &[&engine]);
        let reference = text::left(expected, &[&reference]);
        return Err(differ(&call(), &engine, &reference));
    }
    if answer.is_err() && engine != given {
        return Err(format!("a refused call wrote: {}", call()));
    }
    Ok((answer, engine))
}

/// Tidies a table by both implementations: the answer, and the lent image as both left it.
pub fn tidy(image: &[u8], out: &[u8]) -> Result<(Answer, Vec<u8>), String> {
    write_by_both("tidy", image, out, ffi::tidy, rules::tidy)
}

/// Runs a call on the table, given in words: what it answers and leaves, as text.
pub fn run(words: &[&str]) -> Result<String, String> {
    match words {
        ["check", image] => check(&text::parse_slice(image)?).map(text::answer),
        ["find", image, tag] => {
            find(&text::parse_slice(image)?, &text::parse_slice(tag)?).map(text::answer)
        }
        ["check_journal", image, journal] => {
            check_journal(&text::parse_slice(image)?, &text::parse_slice(journal)?)
                .map(text::answer)
        }
        ["tidy", image, out] => {
            let (answer, out) = tidy(&text::parse_slice(image)?, &text::parse_slice(out)?)?;
            Ok(text::left(answer, &[&out]))
        }
        _ => Err(format!(
            "not `check IMAGE`, `find IMAGE TAG`, `check_journal IMAGE JOURNAL` or `tidy IMAGE OUT`: {words:?}"
        )),
    }
}
