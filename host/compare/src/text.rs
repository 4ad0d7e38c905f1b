//! Calls and answers as lines of text: `CALL SLICE .. = ANSWER ..`.
//!
//! A slice is `x` and its bytes in hex. An answer is `A value`, or `R number place` for a refusal.

use lane::Refusal;

/// What a call answered.
pub type Answer = Result<u32, Refusal>;

/// A slice as text.
pub fn slice(bytes: &[u8]) -> String {
    let digits = bytes.iter().map(|byte| format!("{byte:02x}"));
    format!("x{}", digits.collect::<String>())
}

/// The slice that a word stands for.
pub fn parse_slice(word: &str) -> Result<Vec<u8>, String> {
    let digits = word.strip_prefix('x').ok_or("a slice begins with x")?;
    if digits.len() % 2 != 0 || !digits.is_ascii() {
        return Err(format!("not pairs of hex digits: {word}"));
    }
    let pairs = (0..digits.len()).step_by(2).map(|at| &digits[at..at + 2]);
    pairs
        .map(|pair| u8::from_str_radix(pair, 16).map_err(|e| format!("{pair}: {e}")))
        .collect()
}

/// An answer as text.
pub fn answer(answer: Answer) -> String {
    match answer {
        Ok(value) => format!("A {value}"),
        Err(refusal) => format!("R {} {}", refusal.number(), refusal.place_number()),
    }
}

/// An answer, and the buffers that the call left, as text.
pub fn left(given: Answer, buffers: &[&[u8]]) -> String {
    let buffers = buffers.iter().map(|bytes| format!(" {}", slice(bytes)));
    format!("{}{}", answer(given), buffers.collect::<String>())
}

/// The answer at the front of these words, and the words after it.
pub fn parse_answer<'a, 'b>(words: &'b [&'a str]) -> Result<(Answer, &'b [&'a str]), String> {
    let number = |word: &str| word.parse().map_err(|e| format!("{word}: {e}"));
    match words {
        ["A", value, rest @ ..] => Ok((Ok(number(value)?), rest)),
        ["R", code, place, rest @ ..] => {
            Ok((Err(Refusal::new(number(code)?, number(place)?)), rest))
        }
        _ => Err(format!("not an answer: {words:?}")),
    }
}

/// An answer of `reference`, in the binding's terms.
pub fn from_reference(answer: Result<usize, reference::table::Refusal>) -> Answer {
    match answer {
        Ok(value) => Ok(value as u32),
        Err(refusal) => Err(Refusal::new(
            u32::from(refusal.number),
            refusal.place as u32,
        )),
    }
}
