//! Runs one call again through the engine, or its program, and the reference:
//!
//!     cargo run -p compare --bin replay -- check xIMAGE
//!     cargo run -p compare --bin replay -- find xIMAGE xTAG
//!     cargo run -p compare --bin replay -- tidy xIMAGE xOUT
//!     cargo run -p compare --bin replay -- check_journal xIMAGE xJOURNAL
//!     cargo run -p compare --bin replay -- fresh xIMAGE xSTATE
//!     cargo run -p compare --bin replay -- scan xIMAGE xSTATE xFRAME xREPORT xJOURNAL
//!     cargo run -p compare --bin replay -- totals xINPUT

use std::env;
use std::process::ExitCode;

fn main() -> ExitCode {
    let words: Vec<String> = env::args().skip(1).collect();
    let words: Vec<&str> = words.iter().map(String::as_str).collect();
    match compare::sheets::run(&words) {
        Ok(text) => {
            println!("both give {text}");
            ExitCode::SUCCESS
        }
        Err(message) => {
            eprintln!("{message}");
            ExitCode::FAILURE
        }
    }
}
