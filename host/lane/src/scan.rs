//! Fresh states and scans over an accepted table.

use crate::{ffi, Engine, Frame, Journal, Refusal, Report, State, RECORD_BYTES};

/// What a scan gave: the report of all blocks, and the events.
#[derive(Clone, Debug, PartialEq, Eq, Hash)]
pub struct Outcome {
    /// The report.
    pub report: Report,
    /// The events.
    pub journal: Journal,
}

impl Engine {
    /// A fresh state of the table: every block Dormant.
    pub fn fresh(&self) -> State {
        let mut state = State::from_bytes(&vec![0; RECORD_BYTES * self.blocks()]);
        let made = ffi::fresh(self.image(), state.as_bytes_mut());
        debug_assert!(
            made.is_ok(),
            "an accepted table has a fresh state: {made:?}"
        );
        state
    }

    /// A frame that starts nothing, to be filled in.
    pub fn frame(&self) -> Frame {
        Frame::new(self.blocks())
    }

    /// Runs one scan: every block is called once, in chain order.
    ///
    /// ```
    /// use lane::{image, Block, Engine, Entry, EventKind, Kind, Piece, Reply, Step};
    ///
    /// let tag = "LANE0".parse()?;
    /// let engine = Engine::new(&image(&[Block::new(Kind::ETrigTo, tag)]))?;
    /// let lane0 = engine.find(tag)?;
    /// let mut state = engine.fresh();
    /// let mut frame = engine.frame();
    /// let mut entry = Entry {
    ///     start: true,
    ///     job: (1 << 40) + 7,
    ///     time_out: 100,
    ///     clock: 4_294_967_290,
    ///     pieces: [Piece::new(Reply::Working, 4)].into(),
    ///     ..Entry::default()
    /// };
    /// frame.set(lane0, &entry);
    /// let outcome = engine.scan(&mut state, &frame)?;
    /// assert_eq!(outcome.report.entry(lane0).unwrap().step, Step::Executing);
    /// assert_eq!(state.record(lane0).unwrap().elapsed, 10);
    ///
    /// // The reply comes too late: the job fails with code 1.
    /// entry.clock = 95;
    /// entry.pieces = [Piece::new(Reply::Complete, 95)].into();
    /// frame.set(lane0, &entry);
    /// let outcome = engine.scan(&mut state, &frame)?;
    /// let event = outcome.journal.events().next().unwrap();
    /// assert_eq!((event.kind, event.code, event.job), (EventKind::Failed, 1, (1 << 40) + 7));
    ///
    /// // A frame out of form is turned back, and the state stays.
    /// entry.abort_reply = Reply::Error(1);
    /// frame.set(lane0, &entry);
    /// let before = state.clone();
    /// let refusal = engine.scan(&mut state, &frame).unwrap_err();
    /// assert_eq!(refusal.to_string(), "refused 31 at position 1: its frame entry is out of form");
    /// assert_eq!(state, before);
    /// # Ok::<(), Box<dyn std::error::Error>>(())
    /// ```
    ///
    /// # Errors
    /// 20 and 21 for a state of another table or altered outside the engine, 30 and 31 for a frame out
    /// of form. A refused scan leaves the state alone.
    pub fn scan(&self, state: &mut State, frame: &Frame) -> Result<Outcome, Refusal> {
        let mut report = Report::new(self.blocks());
        let mut journal = Journal::new(self.blocks());
        self.scan_into(state, frame, &mut report, &mut journal)?;
        Ok(Outcome { report, journal })
    }

    /// Runs one scan into a report and a journal that the caller keeps: the number of events.
    ///
    /// # Errors
    /// Those of [`scan`](Engine::scan), and 40 and 41 for a report or journal of another table. A refused
    /// scan leaves the state and the report alone, and has no events.
    pub fn scan_into(
        &self,
        state: &mut State,
        frame: &Frame,
        report: &mut Report,
        journal: &mut Journal,
    ) -> Result<usize, Refusal> {
        journal.set_len(0);
        let events = ffi::scan(
            self.image(),
            state.as_bytes_mut(),
            frame.as_bytes(),
            report.as_bytes_mut(),
            journal.buffer(),
        )? as usize;
        journal.set_len(events);
        Ok(events)
    }
}
