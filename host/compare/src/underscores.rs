//! Underscores in tags: the tables that have them, pairs of tags that one of them tells apart, and bytes that are no tag
//! because of one alone. Each form is counted.

use crate::forms::Forms;
use reference::table::is_tag;

/// The bytes of a tag, or of what is none.
pub type Bytes = [u8; 8];

/// The bytes with another one at an index.
fn with(bytes: &Bytes, at: usize, byte: u8) -> Bytes {
    let mut other = *bytes;
    other[at] = byte;
    other
}

/// The characters before the first space, and the bytes from there on.
fn parts(bytes: &Bytes) -> (&[u8], &[u8]) {
    let end = bytes.iter().position(|&byte| byte == b' ').unwrap_or(8);
    bytes.split_at(end)
}

/// Whether an underscore in the first place is all that keeps the bytes from being a tag.
fn only_first(bytes: &Bytes) -> bool {
    bytes[0] == b'_' && is_tag(&with(bytes, 0, b'A'))
}

/// Whether underscores after a space are all that keeps the bytes from being a tag.
fn only_after_space(bytes: &Bytes) -> bool {
    let (name, rest) = parts(bytes);
    let mut tag = [b' '; 8];
    tag[..name.len()].copy_from_slice(name);
    is_tag(&tag) && rest.contains(&b'_') && rest.iter().all(|byte| b"_ ".contains(byte))
}

/// The bytes without the underscores.
fn dropped(bytes: &Bytes) -> Bytes {
    let mut left = [b' '; 8];
    let kept = bytes.iter().filter(|&&byte| byte != b'_');
    left.iter_mut()
        .zip(kept)
        .for_each(|(left, byte)| *left = *byte);
    left
}

/// Whether two tags differ, but not without their underscores.
fn same_dropped([one, other]: &[Bytes; 2]) -> bool {
    one != other && dropped(one) == dropped(other)
}

/// The bytes in which two tags differ, if they do in one place alone.
fn difference([one, other]: &[Bytes; 2]) -> Option<(u8, u8)> {
    let mut places = one.iter().zip(other).filter(|(one, other)| one != other);
    let (&one, &other) = places.next()?;
    places.next().is_none().then_some((one, other))
}

impl Forms<Bytes> {
    /// Tags with underscores.
    pub fn tags() -> Forms<Bytes> {
        let characters = (1..8).fold(Forms::new(), |forms, place| {
            let name = format!("with an underscore as character {}", place + 1);
            forms.with(name, move |tag: &Bytes| tag[place] == b'_')
        });
        let two = |tag: &Bytes, two: &[u8; 2]| tag.windows(2).any(|window| window == two);
        characters
            .with("with one character and an underscore", |tag| {
                tag[1..] == *b"_      "
            })
            .with("with an underscore before spaces", move |tag| {
                two(tag, b"_ ")
            })
            .with("with two underscores in a row", move |tag| two(tag, b"__"))
            .with("with seven underscores", |tag| tag[1..] == [b'_'; 7])
    }

    /// Bytes that are no tag because of underscores alone, or of a byte on either side of 0x5F.
    pub fn no_tags() -> Forms<Bytes> {
        let forms = Forms::new()
            .with("for an underscore first", only_first)
            .with("for an underscore alone", |bytes| bytes == b"_       ")
            .with("for eight underscores", |bytes| *bytes == [b'_'; 8])
            .with("for an underscore after a space", only_after_space)
            .with("for one after an underscore and a space", |bytes| {
                only_after_space(bytes) && bytes.windows(3).any(|three| three == b"_ _")
            })
            .with("for an underscore after spaces, last", |bytes| {
                only_after_space(bytes) && bytes.ends_with(b" _")
            });
        let places = (0..8).flat_map(|place| [(place, b'^'), (place, b'`')]);
        places.fold(forms, |forms, (place, beside)| {
            let name = format!("for 0x{beside:x} as character {}", place + 1);
            forms.with(name, move |bytes: &Bytes| {
                bytes[place] == beside && is_tag(&with(bytes, place, b'A'))
            })
        })
    }
}

impl Forms<[Bytes; 2]> {
    /// Two tags that an underscore tells apart.
    pub fn pairs() -> Forms<[Bytes; 2]> {
        Forms::new()
            .with("like another without underscores", same_dropped)
            .with("like another but for an underscore at the end", |pair| {
                matches!(difference(pair), Some((b'_', b' ') | (b' ', b'_')))
            })
            .with("with an underscore for another's character", |pair| {
                matches!(difference(pair), Some((b'_', byte) | (byte, b'_')) if byte != b' ')
            })
    }
}
