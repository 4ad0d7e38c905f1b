//! What the rules of request 6/14 say of a journal, and journals counted by it: accepted ones by what they hold, the
//! first bad events by the rule that they break and by their place.

use crate::forms::Forms;
use crate::journals::events;
use crate::records::{Has, LOW};
use crate::seen::ByKind;
use crate::tables::Table;
use crate::tally::{Tally, EVENT, JOURNAL_LENGTH};
use crate::text::Answer;
use lane::{Refusal, EVENT_BYTES, MAX_BLOCKS};
use reference::machine::Event;
use std::{fmt, iter};

/// A rule that an event may break.
#[derive(Clone, Copy, Debug, PartialEq, Eq)]
pub enum Rule {
    /// "each event has kind 1 to 5"
    Kind,
    /// "and a position in the table"
    Position,
    /// "each block's events alternate beginning with a start"
    Turn,
    /// "each finish has its start's job"
    Job,
    /// "aborted stands only on kinds 5-8"
    Aborted,
    /// "withdrawn only on 9-14"
    Withdrawn,
    /// "done not on 13 and 14"
    Done,
    /// "a failed code is nonzero"
    FailedCode,
    /// "and is 1 only on To kinds"
    TimeOut,
    /// "and other codes are 0"
    OtherCode,
}

impl Rule {
    /// All of them.
    const ALL: [Rule; 10] = [
        Rule::Kind,
        Rule::Position,
        Rule::Turn,
        Rule::Job,
        Rule::Aborted,
        Rule::Withdrawn,
        Rule::Done,
        Rule::FailedCode,
        Rule::TimeOut,
        Rule::OtherCode,
    ];

    /// Whether an event of a block with these properties can break it.
    fn can_break(self, has: Has) -> bool {
        match self {
            Rule::Position => false,
            Rule::Aborted => !has.abort,
            Rule::Withdrawn => !has.level,
            Rule::Done => has.continuous,
            Rule::TimeOut => !has.time_out,
            _ => true,
        }
    }
}

/// An event of a journal beside what it is judged by.
#[derive(Clone, Copy, Debug)]
struct Judged {
    event: Event,
    /// The kind of its block, if the table has one there.
    kind: Option<u8>,
    /// The event of its block before it.
    last: Option<Event>,
    /// Its number from 1, and that of all events.
    number: usize,
    of: usize,
    /// The blocks of the table.
    blocks: usize,
    /// Whether its position is the number of a slot with a block.
    slot: bool,
    /// The rule that it breaks, if it is only one.
    only: Option<Rule>,
}

impl Judged {
    /// The job of the start that its block's last event is, if it is one.
    fn open(&self) -> Option<u64> {
        let last = self.last.filter(|last| last.kind == 1);
        last.map(|start| start.job)
    }

    /// Whether it breaks a rule.
    fn breaks(&self, rule: Rule) -> bool {
        let Event { kind, code, .. } = self.event;
        let start = kind == 1;
        let lacks = |so: fn(Has) -> bool| self.kind.is_some_and(|kind| !so(Has::of(kind)));
        match rule {
            Rule::Kind => !(1..=5).contains(&kind),
            Rule::Position => self.kind.is_none(),
            Rule::Turn => self.kind.is_some() && start == self.open().is_some(),
            Rule::Job => !start && self.open().is_some_and(|job| job != self.event.job),
            Rule::Aborted => kind == 4 && lacks(|has| has.abort),
            Rule::Withdrawn => kind == 5 && lacks(|has| has.level),
            Rule::Done => kind == 2 && lacks(|has| !has.continuous),
            Rule::FailedCode => kind == 3 && code == 0,
            Rule::TimeOut => kind == 3 && code == 1 && lacks(|has| has.time_out),
            Rule::OtherCode => kind != 3 && code != 0,
        }
    }

    /// The bits in which its job differs from its start's.
    fn difference(&self) -> u64 {
        self.open().map_or(0, |job| job ^ self.event.job)
    }
}

/// The first bad event of a journal, if it has one.
fn first_bad(table: &Table, events: &[Event]) -> Option<Judged> {
    let kinds = table.kinds();
    let mut last = [None; 256];
    for (number, &event) in (1..).zip(events) {
        let place = usize::from(event.position);
        let mut judged = Judged {
            event,
            kind: place.checked_sub(1).and_then(|at| kinds.get(at)).copied(),
            last: last[place],
            number,
            of: events.len(),
            blocks: kinds.len(),
            slot: table.chain.contains(&event.position),
            only: None,
        };
        let mut broken = Rule::ALL.into_iter().filter(|&rule| judged.breaks(rule));
        if let Some(rule) = broken.next() {
            judged.only = broken.next().is_none().then_some(rule);
            return Some(judged);
        }
        last[place] = Some(event);
    }
    None
}

/// A journal that is accepted.
#[derive(Clone, Copy, Debug)]
struct Accepted {
    events: usize,
    /// The blocks of the table, and those with events.
    blocks: usize,
    busy: usize,
    /// The most starts of a block.
    starts: usize,
    /// The jobs open at the end.
    open: usize,
    /// Whether the blocks lie in other slots than their positions.
    moved: bool,
    wired: bool,
}

impl Accepted {
    fn new(table: &Table, events: &[Event]) -> Accepted {
        let of = |position: usize| {
            let of_block = |event: &&Event| usize::from(event.position) == position;
            let kinds = events.iter().filter(of_block).map(|event| event.kind);
            kinds.collect::<Vec<u8>>()
        };
        let blocks = table.chain.len();
        let lists: Vec<Vec<u8>> = (1..=blocks).map(of).collect();
        let starts = |list: &Vec<u8>| list.iter().filter(|&&kind| kind == 1).count();
        Accepted {
            events: events.len(),
            blocks,
            busy: lists.iter().filter(|list| !list.is_empty()).count(),
            starts: lists.iter().map(starts).max().unwrap_or(0),
            open: lists.iter().filter(|list| list.last() == Some(&1)).count(),
            moved: !table.chain.iter().copied().eq(1..=blocks as u8),
            wired: table.is_wired(),
        }
    }
}

/// Journals that are accepted.
fn accepted() -> Forms<Accepted> {
    Forms::new()
        .with("empty", |journal: &Accepted| journal.events == 0)
        .with("empty, by a table of no blocks", |journal| {
            (journal.events, journal.blocks) == (0, 0)
        })
        .with("of one event", |journal| journal.events == 1)
        .with("of more than 255 events", |journal| journal.events > 255)
        .with("with events of several blocks", |journal| journal.busy > 1)
        .with("with five starts of a block", |journal| journal.starts > 4)
        .with("with no job open", |journal| {
            journal.open == 0 && journal.events > 0
        })
        .with("with several jobs open", |journal| journal.open > 1)
        .with("by a table of 64 blocks", |journal| {
            journal.blocks == MAX_BLOCKS && journal.events > 0
        })
        .with("by a table with blocks in other slots", |journal| {
            journal.moved && journal.events > 0
        })
        .with("by a table without wires", |journal| {
            !journal.wired && journal.events > 0
        })
}

/// Journals that are accepted, by the wires of their table.
fn wired() -> Forms<Accepted> {
    Forms::new().with("by a table with wires", |journal: &Accepted| {
        journal.wired && journal.events > 0
    })
}

/// Journals of a wrong length, by that.
fn lengths() -> Forms<usize> {
    let over = |bytes: usize| {
        let name = format!("with {bytes} bytes after the last event");
        (name, move |length: &usize| length % EVENT_BYTES == bytes)
    };
    let forms = Forms::new().with("shorter than an event", |&length: &usize| {
        length < EVENT_BYTES
    });
    (1..EVENT_BYTES)
        .map(over)
        .fold(forms, |forms, (name, is)| forms.with(name, is))
}

/// First bad events by the only rule that they break.
fn rules() -> Forms<Judged> {
    Rule::ALL.into_iter().fold(Forms::new(), |forms, rule| {
        let name = format!("for {rule:?} alone");
        forms.with(name, move |bad: &Judged| bad.only == Some(rule))
    })
}

/// The same by the kind of their block.
fn kinds() -> Forms<Judged> {
    let pairs = (1..=14).flat_map(|kind| Rule::ALL.map(|rule| (kind, rule)));
    let pairs = pairs.filter(|&(kind, rule)| rule.can_break(Has::of(kind)));
    pairs.fold(Forms::new(), |forms, (kind, rule)| {
        let name = format!("for {rule:?} alone on kind {kind}");
        forms.with(name, move |bad: &Judged| {
            (bad.only, bad.kind) == (Some(rule), Some(kind))
        })
    })
}

/// First bad events by what their fields hold.
fn fields() -> Forms<Judged> {
    let is = |rule| move |bad: &Judged| bad.only == Some(rule);
    let (turn, job) = (is(Rule::Turn), is(Rule::Job));
    let forms = Forms::new()
        .with("a start after a start", move |bad| {
            turn(bad) && bad.event.kind == 1
        })
        .with("a finish of a block without events", move |bad| {
            turn(bad) && bad.last.is_none()
        })
        .with("a finish after a finish", move |bad| {
            turn(bad) && bad.last.is_some() && bad.event.kind > 1
        })
        .with(
            "a job that is its start's in the low four bytes",
            move |bad| job(bad) && bad.difference() & LOW == 0,
        )
        .with(
            "a job that is its start's in the high four bytes",
            move |bad| job(bad) && bad.difference() <= LOW,
        )
        .with("a job that is its start's but for one bit", move |bad| {
            job(bad) && bad.difference().is_power_of_two()
        });
    let kind = is(Rule::Kind);
    let forms = [0, 6, 255].into_iter().fold(forms, |forms, number| {
        let name = format!("kind {number}");
        forms.with(name, move |bad| kind(bad) && bad.event.kind == number)
    });
    let code = is(Rule::OtherCode);
    [1, 2, 4, 5].into_iter().fold(forms, |forms, number| {
        let name = format!("kind {number} with a code");
        forms.with(name, move |bad| code(bad) && bad.event.kind == number)
    })
}

/// First bad events by a position that the table has not.
fn positions() -> Forms<Judged> {
    let is = |bad: &Judged| bad.only == Some(Rule::Position);
    let forms = Forms::new()
        .with("position 1 above the last", move |bad: &Judged| {
            is(bad) && usize::from(bad.event.position) == bad.blocks + 1
        })
        .with("the position of a slot with a block", move |bad| {
            is(bad) && bad.slot
        })
        .with("a position by a table of no blocks", move |bad| {
            is(bad) && bad.blocks == 0
        });
    [0, 64, 65, 255].into_iter().fold(forms, |forms, number| {
        let name = format!("position {number}");
        forms.with(name, move |bad| is(bad) && bad.event.position == number)
    })
}

/// First bad events by where they stand.
fn places() -> Forms<Judged> {
    Forms::new()
        .with("the only event", |bad: &Judged| bad.of == 1)
        .with("the first of several", |bad| bad.number == 1 && bad.of > 1)
        .with("in the middle", |bad| bad.number > 1 && bad.number < bad.of)
        .with("the last of several", |bad| {
            bad.number > 1 && bad.number == bad.of
        })
        .with("after more than 255 good ones", |bad| bad.number > 256)
}

/// What a journal check by this valid table must answer.
pub fn expected(table: &Table, journal: &[u8]) -> Answer {
    let events = events(journal);
    if journal.len() > EVENT_BYTES * events.len() {
        return Err(Refusal::new(JOURNAL_LENGTH, 0));
    }
    match first_bad(table, &events) {
        Some(bad) => Err(Refusal::new(EVENT, bad.number as u32)),
        None => Ok(events.len() as u32),
    }
}

/// Counts over journals.
pub struct Verdicts {
    tally: Tally,
    events: ByKind,
    accepted: Forms<Accepted>,
    wired: Forms<Accepted>,
    lengths: Forms<usize>,
    bad: [Forms<Judged>; 5],
}

impl Default for Verdicts {
    fn default() -> Verdicts {
        Verdicts {
            tally: Tally::default(),
            events: ByKind::default(),
            accepted: accepted(),
            wired: wired(),
            lengths: lengths(),
            bad: [rules(), kinds(), fields(), positions(), places()],
        }
    }
}

impl Verdicts {
    /// Counts a journal by what a valid table answers to it.
    pub fn add(&mut self, table: &Table, journal: &[u8], answer: Answer) {
        self.tally.add(answer);
        let list = events(journal);
        match (answer, first_bad(table, &list)) {
            (Ok(_), _) => {
                let accepted = Accepted::new(table, &list);
                self.accepted.add(iter::once(accepted));
                self.wired.add(iter::once(accepted));
                let (list, _) = journal.as_chunks();
                for event in list.iter().filter_map(lane::Event::decode) {
                    self.events.add(table, &event);
                }
            }
            (Err(refusal), Some(bad)) if refusal.number() == EVENT => {
                for forms in &mut self.bad {
                    forms.add(iter::once(bad));
                }
            }
            _ => self.lengths.add(iter::once(journal.len())),
        }
    }

    /// Fails unless each form of accepted journals was met more than once in so many, and each finish on each kind.
    pub fn expect_accepted(&self, times: u64) {
        self.events.expect_all();
        self.accepted.expect(times);
    }

    /// Fails unless tables with wires accepted journals more than once in so many.
    pub fn expect_wired(&self, times: u64) {
        self.wired.expect(times);
    }

    /// Fails unless each form of refused journals was met more than once in so many.
    pub fn expect_refused(&self, times: u64) {
        self.tally.expect([JOURNAL_LENGTH, EVENT]);
        self.lengths.expect(times);
        self.bad.iter().for_each(|forms| forms.expect(times));
    }

    /// How often each answer was seen.
    pub fn tally(&self) -> &Tally {
        &self.tally
    }
}

impl fmt::Display for Verdicts {
    fn fmt(&self, f: &mut fmt::Formatter<'_>) -> fmt::Result {
        write!(f, "{}accepted\n{}{}", self.tally, self.accepted, self.wired)?;
        write!(f, "{}", self.events)?;
        write!(f, "refused 70\n{}refused 71\n", self.lengths)?;
        self.bad.iter().try_for_each(|forms| write!(f, "{forms}"))
    }
}
