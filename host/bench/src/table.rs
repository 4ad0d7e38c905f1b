//! The table check, the lookup and tidying at 1, 8 and 64 blocks, all wired.

use crate::baseline::{self, PLAIN_C};
use crate::timing::{head, line, nanoseconds};
use lane::{ffi, image, Block, Engine, Flag, Kind, Tag, Wire};
use reference::{table, tidy};
use std::hint::black_box;

/// Numbers of blocks that are measured.
pub const SIZES: [usize; 3] = [1, 8, 64];

/// The others that are measured beside the engine.
pub const OTHERS: [&str; 2] = ["reference", "plain C"];

/// The tag of a position.
pub fn tag(position: usize) -> Tag {
    format!("LANE{position}").parse().expect("a tag in form")
}

/// A table of blocks with a wire on each input, of all kinds in turn.
pub fn wired(blocks: usize) -> Vec<u8> {
    let block = |index: usize| {
        let kind = Kind::ALL[(index + 4) % Kind::ALL.len()];
        let from = |step: usize, flag| Wire::new(((index + step) % blocks) as u8 + 1, flag);
        let block = Block::new(kind, tag(index + 1)).start(from(blocks - 1, Flag::Done));
        match kind.number() {
            5..=8 => block.abort(from(1, Flag::Error).inverted()),
            _ => block,
        }
    };
    image(&(0..blocks).map(block).collect::<Vec<_>>())
}

/// Tidying, which all have to do alike.
fn tidying(table: &[u8]) -> [f64; 3] {
    let image = || black_box(table);
    let mut outs = [0, 1, 2].map(|_| vec![0; table.len()]);
    let [engine, other, plain] = &mut outs;
    ffi::tidy(table, engine).expect("an accepted table");
    tidy::tidy(table, other).expect("an accepted table");
    baseline::tidy(table, plain);
    assert!(engine == other && engine == plain);
    nanoseconds([
        &mut || _ = black_box(ffi::tidy(image(), engine)),
        &mut || _ = black_box(tidy::tidy(image(), other)),
        &mut || _ = black_box(baseline::tidy(image(), plain)),
    ])
}

/// Measures and prints.
pub fn run() {
    println!("Nanoseconds a call (median), the engine's ratio to the others, its growth.");
    println!("Table: every input has a wire. No buffer is cleared between calls.");
    head(&OTHERS);
    let mut first = [None; 4];
    for blocks in SIZES {
        let table = wired(blocks);
        Engine::new(&table).expect("an accepted table");
        let image = || black_box(&table[..]);
        let (last, absent) = (tag(blocks), tag(99));
        let check = nanoseconds([
            &mut || _ = black_box(ffi::check(image())),
            &mut || _ = black_box(table::check(image())),
            &mut || _ = black_box(PLAIN_C.check(image())),
        ]);
        let [found, absent] = [last, absent].map(|tag| {
            nanoseconds([
                &mut || _ = black_box(ffi::find(image(), tag.as_bytes())),
                &mut || _ = black_box(table::find(image(), tag.as_bytes())),
                &mut || _ = black_box(baseline::find(image(), tag.as_bytes())),
            ])
        });
        let names = ["check", "find, the last", "find, absent", "tidy"];
        let all = [check, found, absent, tidying(&table)];
        for ((name, times), first) in names.iter().zip(all).zip(&mut first) {
            line(name, blocks, &OTHERS, &times, first);
        }
    }
}
