//! A table that the engine has accepted.

use crate::offset::{header, slot};
use crate::{ffi, Position, Refusal, Tag, EVENT_BYTES, HEADER_BYTES, SLOT_BYTES};

/// The engine over one accepted table, of which it keeps a copy.
///
/// ```
/// use lane::{image, Block, Engine, Kind, Tag};
///
/// let gate: Tag = "GATE1".parse()?;
/// let mut bytes = image(&[Block::new(Kind::LCon, gate)]);
/// let engine = Engine::new(&bytes)?;
/// let position = engine.find(gate)?;
/// assert_eq!(position.number(), 1);
/// assert_eq!(engine.tag(position), Some(gate));
///
/// bytes[4] = 15; // no such kind
/// let refusal = Engine::new(&bytes).unwrap_err();
/// assert_eq!((refusal.number(), refusal.place_number()), (7, 1));
/// # Ok::<(), Box<dyn std::error::Error>>(())
/// ```
#[derive(Clone, Debug, PartialEq, Eq)]
pub struct Engine {
    image: Vec<u8>,
    blocks: usize,
}

impl Engine {
    /// Checks a table image and keeps a copy of it.
    ///
    /// # Errors
    /// Refusals 1 to 11.
    pub fn new(image: &[u8]) -> Result<Engine, Refusal> {
        let blocks = ffi::check(image)? as usize;
        let image = image.to_vec();
        Ok(Engine { image, blocks })
    }

    /// The number of blocks on the chain.
    pub fn blocks(&self) -> usize {
        self.blocks
    }

    /// The table image.
    pub fn image(&self) -> &[u8] {
        &self.image
    }

    /// The positions of all blocks, in chain order.
    pub fn positions(&self) -> impl DoubleEndedIterator<Item = Position> {
        Position::first(self.blocks)
    }

    /// The position of the block with this tag.
    ///
    /// # Errors
    /// 51 if no block has it.
    ///
    /// # Panics
    /// Never: what the engine finds has a position, 1 to 64.
    pub fn find(&self, tag: Tag) -> Result<Position, Refusal> {
        let number = ffi::find(&self.image, tag.as_bytes())?;
        Ok(Position::new(number as usize).expect("a position"))
    }

    /// The tag of the block at a position, `None` above the number of blocks.
    pub fn tag(&self, position: Position) -> Option<Tag> {
        let on_chain = position.number() <= self.blocks;
        let bytes = on_chain.then(|| self.slot(position))?;
        Tag::from_bytes(*bytes[slot::TAG..].first_chunk()?)
    }

    /// The slot of the block with this tag, as a part of the image.
    ///
    /// ```
    /// use lane::{image, Block, Engine, Kind};
    ///
    /// let blocks = [
    ///     Block::new(Kind::ETrig, "LANE0".parse()?),
    ///     Block::new(Kind::ETrigA, "LANEO".parse()?),
    /// ];
    /// let engine = Engine::new(&image(&blocks))?;
    /// assert_eq!(engine.show("LANEO".parse()?)?, b"\x05\0\0\0\0\0\0\0LANEO   ");
    /// assert_eq!(engine.show("LANE1".parse()?).unwrap_err().number(), 51);
    /// # Ok::<(), Box<dyn std::error::Error>>(())
    /// ```
    ///
    /// # Errors
    /// Those of [`find`](Engine::find).
    pub fn show(&self, tag: Tag) -> Result<&[u8; SLOT_BYTES], Refusal> {
        self.find(tag).map(|position| self.slot(position))
    }

    /// The engine over the same table written anew: the blocks in chain order in slots 1, 2, 3 and on, wires
    /// renumbered, no spare slots; of a table of no blocks, one zero slot.
    ///
    /// Fresh states, scans, positions and the check of a journal are the same over both, so that a state goes on
    /// under either; what [`show`](Engine::show) hands back is not.
    ///
    /// ```
    /// use lane::{image, Block, Engine, Flag, Kind, Wire};
    ///
    /// let lane0 = Block::new(Kind::ETrig, "LANE0".parse()?);
    /// let lane1 = Block::new(Kind::ETrig, "LANE1".parse()?);
    /// let mut bytes = image(&[lane1.start(Wire::new(2, Flag::Done)), lane0]);
    /// (bytes[2], bytes[5], bytes[21]) = (2, 0, 1); // the chain is slot 2, slot 1
    /// let engine = Engine::new(&bytes)?;
    /// let tidy = engine.tidy();
    /// assert_eq!(tidy.image(), image(&[lane0, lane1.start(Wire::new(1, Flag::Done))]));
    /// assert_eq!(tidy.find(lane1.tag)?, engine.find(lane1.tag)?);
    /// assert_ne!(tidy.show(lane1.tag)?, engine.show(lane1.tag)?);
    /// assert_eq!(tidy.tidy(), tidy);
    /// # Ok::<(), Box<dyn std::error::Error>>(())
    /// ```
    #[must_use]
    pub fn tidy(&self) -> Engine {
        let mut image = vec![0; HEADER_BYTES + SLOT_BYTES * self.blocks.max(1)];
        let written = ffi::tidy(&self.image, &mut image);
        debug_assert!(written.is_ok(), "an accepted table has a tidy: {written:?}");
        let blocks = self.blocks;
        Engine { image, blocks }
    }

    /// Checks a journal against the table, such as one from another maker's box: the number of its events.
    ///
    /// The journal is the [bytes](crate::Event::encode) of its events, one after the other; several scans'
    /// [journals](crate::Journal::as_bytes) are joined in the order of the scans. Each block's events take turns,
    /// a start and then a finish with the same job; every finish and every code is one that a block of its kind
    /// can have. At the end jobs may be open.
    ///
    /// What a list of scans from a fresh state writes is accepted; and of a table without wires each accepted
    /// journal is what some such list writes.
    ///
    /// ```
    /// use lane::{image, Block, Engine, Event, EventKind, Kind, Place};
    ///
    /// let tag = "LANE0".parse()?;
    /// let engine = Engine::new(&image(&[Block::new(Kind::ETrigTo, tag)]))?;
    /// let start = Event {
    ///     kind: EventKind::Start,
    ///     position: engine.find(tag)?,
    ///     code: 0,
    ///     job: (1 << 40) + 7,
    /// };
    /// let failed = Event { kind: EventKind::Failed, code: 1, ..start };
    /// let journal = [start, failed, start].map(|event| event.encode()).concat();
    /// assert_eq!(engine.check_journal(&journal), Ok(3));
    ///
    /// // A finish whose job differs in its high half, and a journal cut short.
    /// let other = Event { job: 7, ..failed };
    /// let wrong = [start, other, start].map(|event| event.encode()).concat();
    /// let refusal = engine.check_journal(&wrong).unwrap_err();
    /// assert_eq!((refusal.number(), refusal.place()), (71, Place::Event(2)));
    /// assert_eq!(engine.check_journal(&journal[1..]).unwrap_err().number(), 70);
    /// # Ok::<(), Box<dyn std::error::Error>>(())
    /// ```
    ///
    /// # Errors
    /// 70 if the length is not a multiple of an event's 12 bytes, 71 with the number of the first bad event.
    pub fn check_journal(&self, journal: &[u8]) -> Result<usize, Refusal> {
        // What the archive answers stops at 2^32 - 1; the number of events does not.
        ffi::check_journal(&self.image, journal)?;
        Ok(journal.len() / EVENT_BYTES)
    }

    /// The slot of the block at a position of the chain, by its links.
    fn slot(&self, position: Position) -> &[u8; SLOT_BYTES] {
        let (slots, _) = self.image[HEADER_BYTES..].as_chunks();
        let numbered = |number: u8| &slots[usize::from(number) - 1];
        let mut found: &[u8; SLOT_BYTES] = numbered(self.image[header::HEAD]);
        for _ in 0..position.index() {
            found = numbered(found[slot::NEXT]);
        }
        found
    }
}
