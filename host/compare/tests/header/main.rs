//! The C header is held to the binding: every constant that it defines, what its functions say of an answer,
//! the slot of each position, the tag of a name, the length of a table and of a journal, and every field that its
//! readers and writers read and write.
//! What it says of the archive is held to the archive: its stack, what it needs, and that it has no data that
//! changes.
//!
//! `header.c` shows what the header says; the C compiler (`CC`, or `cc`) compiles it here.

mod constants;
mod parts;

use compare::rng::{settings, Rng};
use compare::tables::{Size, Table};
use compare::text::slice;
use lane::{Place, Refusal, Tag, EVENT_BYTES, HEADER_BYTES, MAX_BLOCKS, SLOT_BYTES, TAG_BYTES};
use std::collections::BTreeMap;
use std::env;
use std::fs::{self, File};
use std::path::{Path, PathBuf};
use std::process::Command;
use std::sync::OnceLock;

const HEADER: &str = include_str!("../../../../include/lane.h");

/// A folder to write in.
const FOLDER: &str = env!("CARGO_TARGET_TMPDIR");

/// Compiles a program of this folder, with all warnings that the header is free of.
fn compile(name: &str, archive: Option<PathBuf>) -> PathBuf {
    let here = Path::new(env!("CARGO_MANIFEST_DIR"));
    let program = Path::new(FOLDER).join(name);
    let status = Command::new(env::var_os("CC").unwrap_or_else(|| "cc".into()))
        .args(["-std=c99", "-Wall", "-Wextra", "-Wpedantic", "-Werror"])
        .args(["-Wconversion", "-Wsign-conversion", "-I"])
        .arg(here.join("../../include"))
        .args(["-I", FOLDER, "-o"])
        .arg(&program)
        .arg(here.join("tests/header").join(name).with_extension("c"))
        .args(archive)
        .status();
    assert!(status.is_ok_and(|status| status.success()), "{name}.c");
    program
}

/// The name that a line of the header defines: a macro with a value, or a constant of an enum. Each has a line of
/// its own and a plain number, so that none is passed over.
fn name(line: &'static str) -> Option<&'static str> {
    let line = line.trim_start();
    let line = line.strip_prefix("#define ").unwrap_or(line);
    if !line.starts_with("LANE_") || line == "LANE_H" {
        assert!(!line.starts_with("enum ") || !line.contains('='), "{line}");
        return None;
    }
    let code = line.split("/*").next().expect("a first part").trim_end();
    let (name, value) = code.split_once(' ').expect("NAME VALUE");
    let value = value.trim_start_matches("= ").trim_end_matches(',');
    let plain = value.bytes().all(|byte| byte.is_ascii_alphanumeric());
    assert!(
        plain && value.starts_with(|first: char| first.is_ascii_digit()),
        "{line}"
    );
    Some(name)
}

/// The names that the header defines.
fn names() -> Vec<&'static str> {
    HEADER.lines().filter_map(name).collect()
}

/// The program that shows what the header says.
fn program() -> &'static PathBuf {
    static PROGRAM: OnceLock<PathBuf> = OnceLock::new();
    PROGRAM.get_or_init(|| {
        let names: String = names().iter().map(|name| format!("X({name})\n")).collect();
        fs::write(Path::new(FOLDER).join("names.inc"), names).expect("a folder to write in");
        compile("header", None)
    })
}

/// What the header makes of these lines: its constants, and a line for each.
fn shown(test: &str, lines: &[String]) -> (BTreeMap<String, u64>, Vec<String>) {
    let input = Path::new(FOLDER).join(test).with_extension("txt");
    let text: String = lines.iter().map(|line| format!("{line}\n")).collect();
    fs::write(&input, text).expect("a folder to write in");
    let output = Command::new(program())
        .stdin(File::open(input).expect("the lines"))
        .output()
        .expect("the program runs");
    assert!(output.status.success(), "{test}: {output:?}");
    let text = String::from_utf8(output.stdout).expect("plain text");
    let (constants, shown) = text.split_once("\n\n").expect("a line between");
    let constants = constants.lines().map(|line| {
        let (name, value) = line.split_once(' ').expect("NAME VALUE");
        (name.to_owned(), value.parse().expect("a number"))
    });
    let shown: Vec<String> = shown.lines().map(str::to_owned).collect();
    assert_eq!(lines.len(), shown.len(), "{test}");
    (constants.collect(), shown)
}

/// Fails unless the header makes these of the lines.
fn expect(test: &str, cases: Vec<(String, String)>) {
    let (lines, expected): (Vec<_>, Vec<_>) = cases.into_iter().unzip();
    let (_, shown) = shown(test, &lines);
    for ((line, expected), shown) in lines.iter().zip(&expected).zip(&shown) {
        assert_eq!(shown, expected, "{line}");
    }
}

/// The line that has the header take an answer apart, and what it must say by the binding.
fn answer((number, place): (u32, u32)) -> (String, String) {
    let refusal = Refusal::new(number, place);
    let kind = match refusal.place() {
        Place::Slot(_) => "slot",
        Place::Position(_) => "position",
        Place::Event(_) => "event",
        _ => "",
    };
    let expected = match number {
        0 => format!("1 {place} 0 0 [] the call was accepted"),
        _ => format!("0 0 {number} {place} [{kind}] {}", refusal.reason()),
    };
    (format!("answer {number} {place}"), expected)
}

/// The number, the place, its kind and the sentence of every refusal, and of numbers that are none; the greatest
/// value of an accepted call, and the greatest number of an event.
#[test]
fn answers() {
    let answers = (0..=120).flat_map(|number| [0, 1, 64].map(|place| (number, place)));
    let answers = answers.chain([(0, u32::MAX), (71, u32::MAX)]);
    expect("answers", answers.map(answer).collect());
    let known = |number: &u32| Refusal::new(*number, 0).reason() != Refusal::new(999, 0).reason();
    let known: Vec<u64> = (1..=120).filter(known).map(u64::from).collect();
    let named = constants::refusals()
        .into_iter()
        .filter(|(name, _)| name.starts_with("REFUSED"));
    assert!(known.into_iter().eq(named.map(|(_, number)| number)));
}

/// The slot at each position of a chain, and 0 at the others.
#[test]
fn slots_of_positions() {
    let (seed, tables) = settings("slots of positions", 301, 2_000);
    let cases = (0..tables).map(|case| {
        let mut rng = Rng::for_case(seed, case);
        let size = Size::any(&mut rng);
        let table = Table::new(&mut rng, size);
        let slot = |position: usize| position.checked_sub(1).and_then(|at| table.chain.get(at));
        let slots = (0..=65).map(|position| format!("{} ", slot(position).unwrap_or(&0)));
        (
            format!("chain {}", &slice(&table.image)[1..]),
            slots.collect(),
        )
    });
    expect("slots", cases.collect());
}

/// The tag of a name is the binding's, and none where the name is too long; its name is the same again.
#[test]
fn tags_of_names() {
    let names = [
        "",
        "A",
        "LANE0",
        "LANEO",
        "LANE0001",
        "IN_1",
        "IN1",
        "A_",
        "A_______",
        "LANE00012",
        "ABCDEFGHIJKLMNOP",
    ];
    let cases = names.map(|name| {
        let bytes = name
            .parse()
            .map_or([b' '; TAG_BYTES], |tag: Tag| *tag.as_bytes());
        let fits = name.len() <= TAG_BYTES;
        let back = if fits { name } else { "" };
        (
            format!("tag {name}"),
            format!("{} [{back}] {}", u8::from(fits), &slice(&bytes)[1..]),
        )
    });
    expect("tags", cases.into());
}

/// The length of a journal of few events and of the most that an answer can count.
#[test]
fn journal_lengths() {
    let cases = [0, 1, 2, 1_000, u32::MAX].map(|events| {
        let length = EVENT_BYTES as u64 * u64::from(events);
        (format!("journal {events}"), length.to_string())
    });
    expect("journal", cases.into());
}

/// The length of the tidy table of any number of blocks.
#[test]
fn tidy_lengths() {
    let cases = (0..=MAX_BLOCKS).map(|blocks| {
        let length = HEADER_BYTES + SLOT_BYTES * blocks.max(1);
        (format!("tidy {blocks}"), length.to_string())
    });
    expect("tidy", cases.collect());
}

/// The archive that the binding links.
fn archive() -> PathBuf {
    let default = || Path::new(env!("CARGO_MANIFEST_DIR")).join("../../target/staticlib");
    let folder = env::var_os("LANE_LIB_DIR").map_or_else(default, PathBuf::from);
    folder.join("liblane.a")
}

/// Of the C library the archive needs memset only, and it holds code and constants only.
#[test]
fn symbols() {
    let output = Command::new("nm").arg(archive()).output().expect("nm runs");
    let text = String::from_utf8(output.stdout).expect("plain text");
    let symbols = text.lines().map(|line| line.split_whitespace().collect());
    let symbols: Vec<Vec<&str>> = symbols.filter(|words: &Vec<_>| words.len() > 1).collect();
    for symbol in &symbols {
        let known = matches!(symbol[..], [_, "T" | "t" | "R" | "r", ..] | ["U", "memset"]);
        assert!(known, "{symbol:?}");
    }
    assert!(symbols
        .iter()
        .any(|symbol| symbol.ends_with(&["lane_scan"])));
}

/// No call takes more stack than the header says.
#[test]
fn stack() {
    let program = compile("stack", Some(archive()));
    let output = Command::new(program).output().expect("the program runs");
    assert!(output.status.success(), "{output:?}");
    let text = String::from_utf8(output.stdout).expect("plain text");
    let deepest: u64 = text.trim().parse().expect("a number");
    println!("{deepest} bytes of stack");
    assert!((1..=lane::STACK_BYTES).contains(&deepest), "{deepest}");
}
