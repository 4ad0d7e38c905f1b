//! The jobs of events: those that four bytes don't hold, and those that only some bytes tell apart. Each form is counted.

use crate::forms::{pairs, Forms};
use crate::records::{LONG, LOW};
use lane::{Event, EventKind};
use std::{fmt, iter};

/// Whether two jobs are alike in the low four bytes and differ above.
fn same_low([one, other]: &[u64; 2]) -> bool {
    one != other && one & LOW == other & LOW
}

/// Whether two jobs are alike in the high four bytes and differ below.
fn same_high([one, other]: &[u64; 2]) -> bool {
    one != other && one & !LOW == other & !LOW
}

/// Events by their jobs.
fn events() -> Forms<Event> {
    let forms = Forms::new()
        .with("with job 0", |event: &Event| event.job == 0)
        .with("with job 2^40 + 7", |event| event.job == LONG)
        .with("with a job of all ones", |event| event.job == u64::MAX)
        .with("with a job of the low four bytes", |event| {
            event.job > 0 && event.job & !LOW == 0
        })
        .with("with a job of the high four bytes", |event| {
            event.job > 0 && event.job & LOW == 0
        });
    EventKind::ALL.into_iter().fold(forms, |forms, kind| {
        let name = format!("{kind:?} with a job above 2^32");
        forms.with(name, move |event| event.kind == kind && event.job > LOW + 1)
    })
}

/// Two jobs that only some bytes tell apart.
fn alike() -> Forms<[u64; 2]> {
    Forms::new()
        .with("equal in the low four bytes, not above", same_low)
        .with("equal in the high four bytes, not below", same_high)
        .with("with one bit between them", |[one, other]| {
            (one ^ other).is_power_of_two()
        })
}

/// Counts over the events of all accepted scans.
pub struct Jobs {
    events: Forms<Event>,
    /// The jobs of two starts of a block, one after the other.
    turns: Forms<[u64; 2]>,
    /// The jobs of two blocks that start in one scan.
    scans: Forms<[u64; 2]>,
}

impl Default for Jobs {
    fn default() -> Jobs {
        Jobs {
            events: events(),
            turns: alike(),
            scans: alike(),
        }
    }
}

impl Jobs {
    /// Counts the events of the next accepted scan of a list; `last` has the job of each block's last start in it.
    pub fn add(&mut self, last: &mut [Option<u64>], events: &[Event]) {
        let mut started = Vec::new();
        for event in events {
            self.events.add(iter::once(*event));
            if event.kind == EventKind::Start {
                started.push(event.job);
                if let Some(last) = last[event.position.index()].replace(event.job) {
                    self.turns.add(iter::once([last, event.job]));
                }
            }
        }
        if started.len() > 1 {
            self.scans.add(pairs(&started));
        }
    }

    /// Fails unless each form was met often.
    pub fn expect_often(&self) {
        self.events.expect(100);
        self.turns.expect(100);
        self.scans.expect(20);
    }
}

impl fmt::Display for Jobs {
    fn fmt(&self, f: &mut fmt::Formatter<'_>) -> fmt::Result {
        write!(f, "events\n{}", self.events)?;
        write!(f, "jobs of a block, one after the other\n{}", self.turns)?;
        write!(f, "scans with two jobs started\n{}", self.scans)
    }
}
