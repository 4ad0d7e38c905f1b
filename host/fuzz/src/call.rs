//! A call of an exported function.

use compare::text::{parse_slice, slice};
use reference::{journal, scan, table, tidy};

/// An exported function.
#[derive(Clone, Copy, Debug, PartialEq, Eq)]
pub enum Name {
    Check,
    Find,
    Tidy,
    CheckJournal,
    Fresh,
    Scan,
}

impl Name {
    /// All of them, with the words and the number of slices of each.
    const ALL: [(Name, &'static str, usize); 6] = [
        (Name::Check, "check", 1),
        (Name::Find, "find", 2),
        (Name::Tidy, "tidy", 2),
        (Name::CheckJournal, "check_journal", 2),
        (Name::Fresh, "fresh", 2),
        (Name::Scan, "scan", 5),
    ];

    /// The word for it.
    pub fn word(self) -> &'static str {
        Name::ALL[self as usize].1
    }
}

/// A function and its slices, in the order of its arguments.
#[derive(Clone, Debug, PartialEq, Eq)]
pub struct Call {
    pub name: Name,
    pub slices: Vec<Vec<u8>>,
}

/// What a call answers, packed, and its slices afterwards.
pub type Left = (u64, Vec<Vec<u8>>);

impl Call {
    /// The call that these words stand for: the function, then its slices.
    ///
    /// # Errors
    /// Says what is wrong.
    pub fn parse(words: &[&str]) -> Result<Call, String> {
        let (word, slices) = words.split_first().ok_or("no words")?;
        let known = Name::ALL.iter().find(|(_, known, _)| known == word);
        let (name, _, count) = *known.ok_or_else(|| format!("no function {word}"))?;
        if slices.len() != count {
            return Err(format!("{word} has {count} slices, not {}", slices.len()));
        }
        let slices = slices.iter().map(|word| parse_slice(word));
        let slices = slices.collect::<Result<_, _>>()?;
        Ok(Call { name, slices })
    }

    /// The call as a line for `replay`.
    pub fn line(&self) -> String {
        let slices = self.slices.iter().map(|bytes| format!(" {}", slice(bytes)));
        format!("{}{}", self.name.word(), slices.collect::<String>())
    }

    /// What the reference leaves.
    ///
    /// # Panics
    /// If the call has not the slices of its function.
    pub fn by_reference(&self) -> Left {
        let mut left = self.slices.clone();
        let answer = match (self.name, &mut left[..]) {
            (Name::Check, [image]) => table::check(image),
            (Name::Find, [image, tag]) => table::find(image, tag),
            (Name::Tidy, [image, out]) => tidy::tidy(image, out),
            (Name::CheckJournal, [image, journal]) => journal::check_journal(image, journal),
            (Name::Fresh, [image, state]) => scan::fresh(image, state),
            (Name::Scan, [image, state, frame, report, journal]) => {
                scan::scan(image, state, frame, report, journal)
            }
            _ => panic!("{}", self.line()),
        };
        let answer = match answer {
            Ok(value) => value as u64,
            Err(refusal) => u64::from(refusal.number) << 32 | refusal.place as u64,
        };
        (answer, left)
    }
}
