//! Times of the engine beside the reference and a plain C implementation, measured in turns in one run:
//!
//!     cargo run --release -p bench
//!
//! With arguments: times of the same calls by each build of the engine that they name, beside plain C, and of the parts of an idle scan; a
//! build is a shared library made of its archive. At the root of each checkout, then in `host`:
//!
//!     .ci/archive
//!     gcc -shared -o target/lane.so -Wl,--whole-archive target/staticlib/liblane.a -Wl,--no-whole-archive
//!     cargo run --release -p bench -- BEFORE/target/lane.so ../target/lane.so
//!
//! No test: it prints times and ratios, and judges nothing.

mod baseline;
mod builds;
mod calls;
mod journal;
mod scan;
mod table;
mod timing;

use std::process::ExitCode;

fn main() -> ExitCode {
    let paths: Vec<String> = std::env::args().skip(1).collect();
    if !paths.is_empty() {
        return builds::run(&paths);
    }
    table::run();
    scan::run();
    journal::run();
    ExitCode::SUCCESS
}
