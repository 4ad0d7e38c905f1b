//! The scan at 1, 8 and 64 blocks: idle, working, and turning jobs over.

use crate::baseline::PLAIN_C;
use crate::table::{tag, OTHERS, SIZES};
use crate::timing::{head, line, nanoseconds};
use lane::{ffi, image, Block, Engine, Entry, Frame, Kind, Piece, Position, Reply, Step};
use std::hint::black_box;

/// All buffers of scans that are measured.
#[derive(Clone, PartialEq, Eq, Debug)]
pub struct Buffers {
    pub state: Vec<u8>,
    pub report: Vec<u8>,
    pub journal: Vec<u8>,
}

impl Buffers {
    /// Those of a table before its first scan.
    fn fresh(image: &[u8], blocks: usize) -> Buffers {
        let engine = Engine::new(image).expect("an accepted table");
        Buffers {
            state: engine.fresh().as_bytes().to_vec(),
            report: vec![0; lane::REPORT_BYTES * blocks],
            journal: vec![0; 2 * lane::EVENT_BYTES * blocks],
        }
    }
}

/// A function that runs a scan over an image and a frame, into the buffers: the number of events.
pub type Scan<'a> = dyn Fn(&[u8], &[u8], &mut Buffers) -> u64 + 'a;

/// What the blocks do, as the frames of scans that are run in turn.
pub struct Load {
    pub name: &'static str,
    pub frames: Vec<Frame>,
    /// The step of every block after each of the frames.
    steps: Vec<Step>,
}

impl Load {
    /// Runs the load once, from fresh: the buffers after it.
    pub fn settle(&self, scan: &Scan, image: &[u8], blocks: usize) -> Buffers {
        let mut buffers = Buffers::fresh(image, blocks);
        for (frame, step) in self.frames.iter().zip(&self.steps) {
            assert_eq!(scan(image, frame.as_bytes(), &mut buffers) >> 32, 0);
            let steps = buffers.state.chunks_exact(lane::RECORD_BYTES).map(|r| r[0]);
            assert!(steps.into_iter().all(|found| found == step.number()));
        }
        buffers
    }

    /// What is measured: the load run once more.
    pub fn work<'a>(
        &'a self,
        scan: &'a Scan,
        image: &'a [u8],
        mut buffers: Buffers,
    ) -> impl FnMut() + 'a {
        move || {
            for frame in &self.frames {
                let frame = black_box(frame.as_bytes());
                black_box(scan(black_box(image), frame, &mut buffers));
            }
        }
    }
}

fn by_engine(image: &[u8], frame: &[u8], b: &mut Buffers) -> u64 {
    let answer = ffi::scan(image, &mut b.state, frame, &mut b.report, &mut b.journal);
    answer.map_or(u64::MAX, u64::from)
}

fn by_reference(image: &[u8], frame: &[u8], b: &mut Buffers) -> u64 {
    let answer = reference::scan::scan(image, &mut b.state, frame, &mut b.report, &mut b.journal);
    answer.map_or(u64::MAX, |events| events as u64)
}

fn by_baseline(image: &[u8], frame: &[u8], b: &mut Buffers) -> u64 {
    PLAIN_C.scan(image, &mut b.state, frame, &mut b.report, &mut b.journal)
}

const ALL: [&Scan<'static>; 3] = [&by_engine, &by_reference, &by_baseline];

/// A table of blocks without wires, of kinds 1 to 12 in turn: those that can be done.
pub fn table(blocks: usize) -> Vec<u8> {
    let block = |index: usize| Block::new(Kind::ALL[index % 12], tag(index + 1));
    image(&(0..blocks).map(block).collect::<Vec<_>>())
}

/// The frame that gives every block the same entry.
fn frame(blocks: usize, entry: &Entry) -> Frame {
    let mut frame = Frame::new(blocks);
    let positions = (1..=blocks).filter_map(Position::new);
    positions.for_each(|position| frame.set(position, entry));
    frame
}

/// The loads of so many blocks.
pub fn loads(blocks: usize) -> [Load; 3] {
    let idle = Entry {
        reset_complete: true,
        ..Entry::default()
    };
    let start = |reply| Entry {
        start: true,
        job: (1 << 40) + 7,
        time_limit: 50,
        time_out: 1_000,
        clock: 100,
        pieces: [Piece::new(reply, 100)].into(),
        ..idle
    };
    let load = |name, entries: &[Entry], steps: &[Step]| Load {
        name,
        frames: entries.iter().map(|entry| frame(blocks, entry)).collect(),
        steps: steps.to_vec(),
    };
    [
        load("scan, idle", &[idle], &[Step::Dormant]),
        load(
            "scan, working",
            &[start(Reply::Working)],
            &[Step::Executing],
        ),
        load(
            "scan, turning over",
            &[start(Reply::Complete), idle],
            &[Step::Done, Step::Dormant],
        ),
    ]
}

/// The times of a scan of a load by each implementation, all of which have to leave the same buffers.
fn measure(image: &[u8], load: &Load, blocks: usize) -> [f64; 3] {
    let after = ALL.map(|scan| load.settle(scan, image, blocks));
    assert!(after.iter().all(|buffers| *buffers == after[0]));
    let mut works = ALL.map(|scan| load.work(scan, image, after[0].clone()));
    let works = works.each_mut().map(|work| work as &mut dyn FnMut());
    nanoseconds(works).map(|time| time / load.frames.len() as f64)
}

/// Measures and prints.
pub fn run() {
    println!(
        "\nScan: kinds 1 to 12 in turn, no wires. Idle: Dormant, start false. Working: one piece a"
    );
    println!(
        "call. Turning over: every block starts and is done in one scan, and is reset in the next;"
    );
    println!("the time is that of one. State, report and journal are not cleared between calls.");
    head(&OTHERS);
    let mut first = [None; 3];
    for blocks in SIZES {
        let table = table(blocks);
        for (load, first) in loads(blocks).iter().zip(&mut first) {
            let times = measure(&table, load, blocks);
            line(load.name, blocks, &OTHERS, &times, first);
        }
    }
}
