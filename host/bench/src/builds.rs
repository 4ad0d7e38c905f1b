//! Several builds of the engine, each a shared library made of its archive, measured in turns in one run: every call of the benchmark beside plain C, and
//! the parts of an idle scan.

use crate::calls::print_calls;
use crate::scan::table;
use crate::timing::medians;
use lane::MAX_BLOCKS;
use std::ffi::{c_char, c_int, c_void, CString};
use std::hint::black_box;
use std::mem::transmute;
use std::process::ExitCode;

#[link(name = "dl")]
extern "C" {
    fn dlopen(path: *const c_char, flags: c_int) -> *mut c_void;
    fn dlsym(library: *mut c_void, name: *const c_char) -> *mut c_void;
}

/// Every symbol is resolved when the library is loaded.
const RTLD_NOW: c_int = 2;

/// `lane_check`, as this repository's header declares it.
pub type Check = unsafe extern "C" fn(*const u8, usize) -> u64;

/// `lane_scan`, as this repository's header declares it.
pub type Scan = unsafe extern "C" fn(
    *const u8,
    usize,
    *mut u8,
    usize,
    *const u8,
    usize,
    *mut u8,
    usize,
    *mut u8,
    usize,
) -> u64;

/// Where the reset reply of an entry and the passes of a report entry stand.
const RESET_REPLY: usize = 3;
const PASSES: usize = 2;

/// The functions of a build that are measured, or those of plain C.
#[derive(Clone, Copy)]
pub struct Build {
    pub check: Check,
    pub scan: Scan,
}

impl Build {
    /// The build in a library; none if there is no such library, or it does not export them.
    fn load(path: &str) -> Option<Build> {
        let path = CString::new(path).ok()?;
        // SAFETY: all names end in a zero byte, and the library is never unloaded. That it is a build of the engine, whose functions have
        // these types, is the word of whoever names it.
        unsafe {
            let library = dlopen(path.as_ptr(), RTLD_NOW);
            if library.is_null() {
                return None;
            }
            let check = dlsym(library, c"lane_check".as_ptr());
            let scan = dlsym(library, c"lane_scan".as_ptr());
            let both = !check.is_null() && !scan.is_null();
            both.then(|| Build {
                check: transmute::<*mut c_void, Check>(check),
                scan: transmute::<*mut c_void, Scan>(scan),
            })
        }
    }

    /// The answer to the check of a table.
    pub fn check(&self, image: &[u8]) -> u64 {
        // SAFETY: the pointer and the length are those of a borrowed slice.
        unsafe { (self.check)(image.as_ptr(), image.len()) }
    }

    /// The answer to a scan.
    pub fn scan(
        &self,
        image: &[u8],
        state: &mut [u8],
        frame: &[u8],
        report: &mut [u8],
        journal: &mut [u8],
    ) -> u64 {
        // SAFETY: pointers and lengths are those of borrowed slices; those written are borrowed as mutable.
        unsafe {
            (self.scan)(
                image.as_ptr(),
                image.len(),
                state.as_mut_ptr(),
                state.len(),
                frame.as_ptr(),
                frame.len(),
                report.as_mut_ptr(),
                report.len(),
                journal.as_mut_ptr(),
                journal.len(),
            )
        }
    }
}

/// A build, and what it is given for scans of a table whose blocks are idle.
struct Idle {
    build: Build,
    image: Vec<u8>,
    state: Vec<u8>,
    frame: Vec<u8>,
    report: Vec<u8>,
    journal: Vec<u8>,
}

impl Idle {
    /// Buffers as long as the build asks for: one that it refuses as too short grows by a byte a block.
    fn new(build: Build, blocks: usize) -> Idle {
        let (image, none) = (table(blocks), Vec::new);
        let (state, frame, report, journal) = (none(), none(), none(), none());
        let mut idle = Idle {
            build,
            image,
            state,
            frame,
            report,
            journal,
        };
        loop {
            let buffer = match idle.run() >> 32 {
                0 => break,
                20 => &mut idle.state,
                30 => &mut idle.frame,
                40 => &mut idle.report,
                41 => &mut idle.journal,
                number => panic!("refused with {number}"),
            };
            buffer.resize(buffer.len() + blocks, 0);
        }
        idle.settle(blocks);
        idle
    }

    /// The frame that is measured, whose reset replies are complete; and that a scan leaves the blocks idle.
    fn settle(&mut self, blocks: usize) {
        let (entry, report) = (self.frame.len() / blocks, self.report.len() / blocks);
        self.frame
            .iter_mut()
            .skip(RESET_REPLY)
            .step_by(entry)
            .for_each(|reply| *reply = 1);
        assert_eq!(self.run(), 0, "events");
        assert!(self.state.iter().all(|byte| *byte == 0), "a record");
        let mut bytes = self.report.iter().enumerate();
        let is_idle = |(at, byte): (usize, &u8)| *byte == u8::from(at % report == PASSES);
        assert!(bytes.all(is_idle), "a report entry");
    }

    /// One scan: its answer.
    fn run(&mut self) -> u64 {
        let (state, report) = (&mut self.state, &mut self.report);
        self.build
            .scan(&self.image, state, &self.frame, report, &mut self.journal)
    }
}

/// A part of a scan: its name, and what makes a scan stop right after it.
type Part = (&'static str, fn(&mut Idle));

/// The parts of a scan, which is refused for the length of the next buffer after each but the last.
const PARTS: [Part; 4] = [
    ("table", |idle| _ = idle.state.pop()),
    ("state", |idle| _ = idle.frame.pop()),
    ("frame", |idle| _ = idle.report.pop()),
    ("serving", |_| ()),
];

/// The median times of scans, in turns.
fn times(mut scans: Vec<Idle>) -> Vec<f64> {
    let mut works: Vec<_> = scans
        .iter_mut()
        .map(|idle| || _ = black_box(idle.run()))
        .collect();
    let mut works: Vec<_> = works.iter_mut().map(|w| w as &mut dyn FnMut()).collect();
    medians(&mut works)
}

/// Prints the time of each part of an idle scan of 64 blocks by each build: that of a scan which ends after the part, less that of
/// one which ends before it.
fn print_parts(paths: &[String], builds: &[Build]) {
    let idle = builds.iter().flat_map(|build| {
        PARTS.map(|(_, shorten)| {
            let mut idle = Idle::new(*build, MAX_BLOCKS);
            shorten(&mut idle);
            idle
        })
    });
    let times = times(idle.collect());
    println!(
        "\nThe parts of an idle scan of 64 blocks: checks of the table, the state and the frame, and serving.\n"
    );
    print!("{:<10}", "");
    PARTS.iter().for_each(|(name, _)| print!("{name:>10}"));
    println!();
    for (times, path) in times.chunks(PARTS.len()).zip(paths) {
        print!("{:<10}", "");
        let mut before = 0.0;
        for time in times {
            print!("{:>10.1}", time - before);
            before = *time;
        }
        println!("  {path}");
    }
}

/// Measures the builds and prints the times.
pub fn run(paths: &[String]) -> ExitCode {
    let mut builds = Vec::new();
    for path in paths {
        let Some(build) = Build::load(path) else {
            eprintln!("{path}: no shared library with lane_check and lane_scan");
            return ExitCode::FAILURE;
        };
        builds.push(build);
    }
    print_calls(paths, &builds);
    print_parts(paths, &builds);
    ExitCode::SUCCESS
}
