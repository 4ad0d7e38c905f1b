//! Every call of the benchmark by several builds of the engine and by plain C, in turns.

use crate::baseline::PLAIN_C;
use crate::builds::Build;
use crate::scan::{self, Buffers, Load};
use crate::table::{wired, SIZES};
use crate::timing::medians;
use std::hint::black_box;

/// A call by each build, then by plain C: the name of the call, the blocks, and the median times.
struct Line {
    name: &'static str,
    blocks: usize,
    times: Vec<f64>,
}

impl Line {
    /// Prints the times, then each build's ratio to plain C.
    fn print(&self) {
        print!("{:<18}{:>6}", self.name, self.blocks);
        self.times.iter().for_each(|time| print!("{time:>10.1}"));
        let (plain, builds) = self.times.split_last().expect("plain C");
        builds
            .iter()
            .for_each(|time| print!("{:>8.2}", time / plain));
        println!();
    }
}

/// The median times of works, in turns.
fn times(mut works: Vec<Box<dyn FnMut() + '_>>) -> Vec<f64> {
    let mut works: Vec<&mut dyn FnMut()> = works.iter_mut().map(|work| &mut **work as _).collect();
    medians(&mut works)
}

/// The check of a table with a wire on each input.
fn check(builds: &[Build], blocks: usize) -> Line {
    let image = wired(blocks);
    let image = &image[..];
    let works = builds.iter().map(|build| {
        let work = || _ = black_box(build.check(black_box(image)));
        Box::new(work) as Box<dyn FnMut() + '_>
    });
    let times = times(works.collect());
    let name = "check";
    Line {
        name,
        blocks,
        times,
    }
}

/// The scans of a load, whose buffers all builds have to leave alike.
fn load(builds: &[Build], blocks: usize, load: &Load) -> Line {
    let image = scan::table(blocks);
    let scans = builds.iter().map(|build| {
        let scan = |image: &[u8], frame: &[u8], b: &mut Buffers| {
            build.scan(image, &mut b.state, frame, &mut b.report, &mut b.journal)
        };
        Box::new(scan) as Box<scan::Scan<'_>>
    });
    let scans: Vec<_> = scans.collect();
    let after = scans
        .iter()
        .map(|scan| load.settle(&**scan, &image, blocks))
        .collect::<Vec<_>>();
    assert!(after.iter().all(|buffers| *buffers == after[0]));
    let works = scans.iter().zip(after).map(|(scan, buffers)| {
        let work = load.work(&**scan, &image, buffers);
        Box::new(work) as Box<dyn FnMut() + '_>
    });
    let times = times(works.collect());
    let times = times.iter().map(|time| time / load.frames.len() as f64);
    Line {
        name: load.name,
        blocks,
        times: times.collect(),
    }
}

/// Measures the builds and plain C, and prints.
pub fn print_calls(paths: &[String], builds: &[Build]) {
    println!("Nanoseconds a call (median) by each build and by plain C, and the builds' ratios to plain C.");
    for (number, path) in paths.iter().enumerate() {
        println!("build {}: {path}", number + 1);
    }
    println!();
    let all = [builds, &[PLAIN_C]].concat();
    for blocks in SIZES {
        check(&all, blocks).print();
        for one in &scan::loads(blocks) {
            load(&all, blocks, one).print();
        }
    }
}
