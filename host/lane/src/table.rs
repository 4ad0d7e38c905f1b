//! Blocks, and the table image that holds them.

use crate::offset::slot;
use std::error::Error;
use std::fmt;
use std::str::FromStr;

/// Bytes of an image's header.
pub const HEADER_BYTES: usize = 4;

/// Bytes of one slot.
pub const SLOT_BYTES: usize = 16;

/// Bytes of a tag.
pub const TAG_BYTES: usize = 8;

/// The greatest number of blocks, and of slots.
pub const MAX_BLOCKS: usize = 64;

/// The kind of a block, by its PLCopen name: A abort input, TI time limit, To time-out,
/// C continuous.
#[derive(Clone, Copy, Debug, PartialEq, Eq, Hash)]
#[non_exhaustive]
#[repr(u8)]
pub enum Kind {
    /// Edge triggered.
    ETrig = 1,
    /// Edge triggered, time limit.
    ETrigTI,
    /// Edge triggered, time-out.
    ETrigTo,
    /// Edge triggered, time limit and time-out.
    ETrigTITo,
    /// Edge triggered, abort.
    ETrigA,
    /// Edge triggered, abort and time limit.
    ETrigATI,
    /// Edge triggered, abort and time-out.
    ETrigATo,
    /// Edge triggered, abort, time limit and time-out.
    ETrigATITo,
    /// Level controlled.
    LCon,
    /// Level controlled, time limit.
    LConTI,
    /// Level controlled, time-out.
    LConTo,
    /// Level controlled, time limit and time-out.
    LConTITo,
    /// Level controlled, continuous.
    LConC,
    /// Level controlled, continuous, time limit.
    LConTIC,
}

impl Kind {
    /// All kinds, in the order of their numbers.
    pub const ALL: &'static [Kind] = &[
        Kind::ETrig,
        Kind::ETrigTI,
        Kind::ETrigTo,
        Kind::ETrigTITo,
        Kind::ETrigA,
        Kind::ETrigATI,
        Kind::ETrigATo,
        Kind::ETrigATITo,
        Kind::LCon,
        Kind::LConTI,
        Kind::LConTo,
        Kind::LConTITo,
        Kind::LConC,
        Kind::LConTIC,
    ];

    /// The number of the kind, 1 to 14.
    pub const fn number(self) -> u8 {
        self as u8
    }
}

/// A tag in its form: one or more of A-Z, 0-9 and, except first, the underscore, then spaces to eight
/// bytes. As text it has no spaces.
///
/// ```
/// use lane::Tag;
///
/// let tag: Tag = "LANE0".parse()?;
/// assert_eq!(tag.as_bytes(), b"LANE0   ");
/// assert_eq!(tag.to_string(), "LANE0");
/// assert_ne!(tag, "LANEO".parse()?);
/// assert_ne!("IN_1".parse::<Tag>()?, "IN1".parse()?);
/// for text in ["", "lane0", "LANE 0", "LANE00001", "_IN1"] {
///     assert!(text.parse::<Tag>().is_err());
/// }
/// # Ok::<(), lane::TagError>(())
/// ```
#[derive(Clone, Copy, Debug, PartialEq, Eq, Hash, PartialOrd, Ord)]
pub struct Tag([u8; TAG_BYTES]);

/// Whether a byte is a tag character in this place of a tag, from 0.
const fn is_tag_char(place: usize, byte: u8) -> bool {
    byte.is_ascii_uppercase() || byte.is_ascii_digit() || (byte == b'_' && place > 0)
}

impl Tag {
    /// The tag in these bytes, `None` if they are out of form.
    pub fn from_bytes(bytes: [u8; TAG_BYTES]) -> Option<Tag> {
        let places = bytes.iter().enumerate();
        let name = places
            .take_while(|&(place, &byte)| is_tag_char(place, byte))
            .count();
        let spaces = bytes[name..].iter().all(|&byte| byte == b' ');
        (name > 0 && spaces).then_some(Tag(bytes))
    }

    /// Its eight bytes.
    pub const fn as_bytes(&self) -> &[u8; TAG_BYTES] {
        &self.0
    }
}

/// A text that is no tag.
#[derive(Clone, Copy, Debug, PartialEq, Eq, Hash)]
#[non_exhaustive]
pub struct TagError;

impl fmt::Display for TagError {
    fn fmt(&self, f: &mut fmt::Formatter<'_>) -> fmt::Result {
        f.write_str("a tag is 1 to 8 of A-Z, 0-9 and, except first, underscore")
    }
}

impl Error for TagError {}

impl FromStr for Tag {
    type Err = TagError;

    /// The tag with this name, 1 to 8 of A-Z, 0-9 and, except first, underscore.
    fn from_str(name: &str) -> Result<Tag, TagError> {
        let mut bytes = [b' '; TAG_BYTES];
        let front = bytes.get_mut(..name.len()).ok_or(TagError)?;
        front.copy_from_slice(name.as_bytes());
        let tag = Tag::from_bytes(bytes).ok_or(TagError)?;
        (!name.contains(' ')).then_some(tag).ok_or(TagError)
    }
}

impl fmt::Display for Tag {
    fn fmt(&self, f: &mut fmt::Formatter<'_>) -> fmt::Result {
        let name: String = self.0.iter().map(|&byte| char::from(byte)).collect();
        f.pad(name.trim_end())
    }
}

/// A flag of a block that a wire can read.
#[derive(Clone, Copy, Debug, PartialEq, Eq, Hash)]
#[repr(u8)]
pub enum Flag {
    /// A job is open, or its withdrawal is being reset.
    Busy,
    /// The job is done.
    Done,
    /// The job failed.
    Error,
    /// The job was aborted.
    Aborted,
}

/// An input that reads a flag of a block instead of the frame's bit.
#[derive(Clone, Copy, Debug, PartialEq, Eq, Hash)]
pub struct Wire {
    /// The slot of the block whose flag is read.
    pub slot: u8,
    /// The flag.
    pub flag: Flag,
    /// Whether the input is the flag's opposite.
    pub inverted: bool,
}

impl Wire {
    /// The wire that reads this flag as it is.
    pub const fn new(slot: u8, flag: Flag) -> Wire {
        Wire {
            slot,
            flag,
            inverted: false,
        }
    }

    /// The wire that reads the flag's opposite.
    #[must_use]
    pub const fn inverted(self) -> Wire {
        Wire {
            inverted: !self.inverted,
            ..self
        }
    }

    /// The two bytes of a wire in its slot.
    const fn encode(self) -> [u8; 2] {
        [self.slot, self.flag as u8 | (self.inverted as u8) << 7]
    }
}

/// One block of a table.
#[derive(Clone, Copy, Debug, PartialEq, Eq, Hash)]
pub struct Block {
    /// Its kind.
    pub kind: Kind,
    /// Its tag.
    pub tag: Tag,
    /// The wire of its start input (Execute or Enable), if it doesn't come from the frame.
    pub start: Option<Wire>,
    /// The wire of its abort input, if it doesn't come from the frame.
    pub abort: Option<Wire>,
}

impl Block {
    /// The block of this kind and tag without wires.
    pub const fn new(kind: Kind, tag: Tag) -> Block {
        Block {
            kind,
            tag,
            start: None,
            abort: None,
        }
    }

    /// The block with its start input from a wire.
    #[must_use]
    pub const fn start(self, wire: Wire) -> Block {
        Block {
            start: Some(wire),
            ..self
        }
    }

    /// The block with its abort input from a wire.
    #[must_use]
    pub const fn abort(self, wire: Wire) -> Block {
        Block {
            abort: Some(wire),
            ..self
        }
    }

    /// The sixteen bytes of the block's slot.
    fn encode(&self, next: u8) -> [u8; SLOT_BYTES] {
        let mut to = [0; SLOT_BYTES];
        let mut put = |at: usize, bytes: &[u8]| to[at..at + bytes.len()].copy_from_slice(bytes);
        put(slot::KIND, &[self.kind.number()]);
        put(slot::NEXT, &[next]);
        put(slot::START_WIRE, &self.start.map_or([0, 0], Wire::encode));
        put(slot::ABORT_WIRE, &self.abort.map_or([0, 0], Wire::encode));
        put(slot::TAG, self.tag.as_bytes());
        to
    }
}

/// The table image of these blocks: the k-th block in slot k, at position k, without spare slots;
/// of no blocks, one spare slot.
///
/// Only [`Engine::new`](crate::Engine::new) says whether the engine accepts it.
///
/// # Panics
/// With more than 64 blocks.
pub fn image(blocks: &[Block]) -> Vec<u8> {
    assert!(
        blocks.len() <= MAX_BLOCKS,
        "more than {MAX_BLOCKS} blocks in one table"
    );
    let count = blocks.len() as u8;
    let mut image = vec![1, count.max(1), count.min(1), 0];
    for (block, slot) in blocks.iter().zip(1..) {
        let next = if slot < count { slot + 1 } else { 0 };
        image.extend_from_slice(&block.encode(next));
    }
    image.resize(image.len().max(HEADER_BYTES + SLOT_BYTES), 0);
    image
}
