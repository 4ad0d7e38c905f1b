//! The program `totals`, run on an input over real pipes or from a regular file.
//!
//! It stands in `crates/totals/out` of the repository, or where the environment variable `LANE_TOTALS` says (absolute).

use crate::rng::Rng;
use std::env;
use std::fs::{self, File};
use std::io::{self, Read, Seek, Write};
use std::path::{Path, PathBuf};
use std::process::{self, Child, ChildStdin, Command, ExitStatus, Stdio};
use std::sync::atomic::{AtomicU64, Ordering};
use std::sync::mpsc::{channel, sync_channel, Receiver, RecvTimeoutError, Sender};
use std::thread;
use std::time::{Duration, Instant};

/// How long a run may take before the program counts as hanging.
const LIMIT: Duration = Duration::from_secs(20);

/// More bytes than any sheet has.
const TOO_MUCH: usize = 65_536;

/// The pause after the first piece of an input, in which the program begins to read, and after each other.
const FIRST_PAUSE: Duration = Duration::from_millis(2);
const PAUSE: Duration = Duration::from_micros(200);

/// How the program gets its input.
#[derive(Clone, Copy, Debug, PartialEq, Eq)]
pub enum Feed {
    /// By a pipe, all at once.
    Whole,
    /// By a pipe, in pieces of so many bytes with a short pause after each.
    Pieces(usize),
    /// By a regular file.
    File,
}

impl Feed {
    /// Any way that is quick for an input of this length: byte by byte if it is short.
    pub fn any(rng: &mut Rng, length: usize) -> Feed {
        match rng.below(16) {
            0 if length < 100 => Feed::Pieces(1),
            0..=3 => Feed::Pieces(length.div_ceil(rng.range(2, 8)).max(1)),
            4..=6 => Feed::File,
            _ => Feed::Whole,
        }
    }
}

/// `crates/totals/out/totals` at the root of the repository.
fn default_path() -> PathBuf {
    let root = Path::new(env!("CARGO_MANIFEST_DIR")).ancestors().nth(2);
    root.map(|root| root.join("crates/totals/out/totals"))
        .unwrap_or_default()
}

/// The program's path.
pub fn path() -> Result<PathBuf, String> {
    let path = env::var_os("LANE_TOTALS").map_or_else(default_path, PathBuf::from);
    match path.is_file() {
        true => Ok(path),
        false => Err(format!(
            "no {}\n\
             Run `rt run <stdin` in crates/totals, or set LANE_TOTALS to the program (absolute).",
            path.display()
        )),
    }
}

/// A file with these bytes, to be read from its start. It has no name any more.
fn file_of(bytes: &[u8]) -> io::Result<File> {
    static NEXT: AtomicU64 = AtomicU64::new(0);
    let number = NEXT.fetch_add(1, Ordering::Relaxed);
    let path = env::temp_dir().join(format!("totals-{}-{number}", process::id()));
    let mut options = File::options();
    let mut file = options
        .read(true)
        .write(true)
        .create_new(true)
        .open(&path)?;
    fs::remove_file(&path)?;
    file.write_all(bytes)?;
    file.rewind()?;
    Ok(file)
}

/// Writes an input in pieces of so many bytes, then closes the pipe. The program may close it before.
fn write_pieces(mut pipe: ChildStdin, input: &[u8], size: usize) {
    let mut pause = FIRST_PAUSE;
    for piece in input.chunks(size) {
        if pipe.write_all(piece).is_err() {
            return;
        }
        if size < input.len() {
            thread::sleep(pause);
        }
        pause = PAUSE;
    }
}

/// Hands on what comes out of a pipe, as it comes, until its end.
fn chunks(mut pipe: impl Read + Send + 'static) -> Receiver<Vec<u8>> {
    let (sender, receiver) = sync_channel(16);
    thread::spawn(move || {
        let mut buffer = [0; 4096];
        while let Ok(count @ 1..) = pipe.read(&mut buffer) {
            if sender.send(buffer[..count].to_vec()).is_err() {
                return;
            }
        }
    });
    receiver
}

/// The program under way. Dropped, it is ended.
pub struct Running {
    child: Child,
    /// What it prints, if that is read.
    printed: Option<Receiver<Vec<u8>>>,
}

impl Drop for Running {
    fn drop(&mut self) {
        // Where it has ended, neither does anything.
        let _ = self.child.kill();
        let _ = self.child.wait();
    }
}

impl Running {
    /// Starts this command with this input, pipes for what it prints, and one for its input if it asks for that.
    fn start(command: &mut Command, input: Stdio) -> Result<(Running, Option<ChildStdin>), String> {
        let command = command.stdin(input);
        let command = command.stdout(Stdio::piped()).stderr(Stdio::piped());
        let child = command.spawn();
        let mut child = child.map_err(|e| format!("the program doesn't start: {e}"))?;
        let pipe = child.stdin.take();
        let running = Running {
            child,
            printed: None,
        };
        Ok((running, pipe))
    }

    /// The program with pipes for its input and output.
    pub fn piped() -> Result<(Running, ChildStdin), String> {
        let (running, pipe) = Running::start(&mut Command::new(path()?), Stdio::piped())?;
        Ok((running.read(), pipe.ok_or("no pipe for the input")?))
    }

    /// The program with a pipe for its input and one for its output that the reader has closed. Writing to that one
    /// sends a signal, which the program ignores by itself and so gets an error; or the shell has it ignored before.
    pub fn unread(ignored: bool) -> Result<(Running, ChildStdin), String> {
        let mut command = Command::new(path()?);
        if ignored {
            command = Command::new("sh");
            command
                .args(["-c", "trap '' PIPE; exec \"$0\""])
                .arg(path()?);
        }
        let (mut running, pipe) = Running::start(&mut command, Stdio::piped())?;
        drop(running.child.stdout.take());
        Ok((running, pipe.ok_or("no pipe for the input")?))
    }

    /// Reads what it prints.
    fn read(mut self) -> Running {
        self.printed = self.child.stdout.take().map(chunks);
        self
    }

    /// Whether it neither prints anything nor closes its output for so long.
    pub fn is_silent(&self, time: Duration) -> bool {
        let printed = self.printed.as_ref();
        let next = printed.map(|printed| printed.recv_timeout(time));
        matches!(next, Some(Err(RecvTimeoutError::Timeout)))
    }

    /// All that it prints from now on, if that is read.
    fn rest(&self, begun: Instant) -> Result<Vec<u8>, String> {
        let mut printed = Vec::new();
        while let Some(chunks) = &self.printed {
            match chunks.recv_timeout(LIMIT.saturating_sub(begun.elapsed())) {
                Ok(chunk) if printed.len() < TOO_MUCH => printed.extend(chunk),
                Ok(_) => return Err(String::from("it prints too much")),
                Err(RecvTimeoutError::Disconnected) => break,
                Err(RecvTimeoutError::Timeout) => return Err(String::from("it doesn't end")),
            }
        }
        Ok(printed)
    }

    /// How it ends.
    fn status(&mut self, begun: Instant) -> Result<ExitStatus, String> {
        loop {
            match self.child.try_wait() {
                Ok(Some(status)) => return Ok(status),
                Ok(None) if begun.elapsed() < LIMIT => thread::sleep(PAUSE / 4),
                Ok(None) => return Err(String::from("it doesn't end")),
                Err(e) => return Err(format!("it can't be waited for: {e}")),
            }
        }
    }

    /// What it prints to its end, which must come by itself and in time, without a word on the standard error.
    pub fn end(mut self) -> Result<Vec<u8>, String> {
        let begun = Instant::now();
        let printed = self.rest(begun)?;
        let status = self.status(begun)?;
        let mut errors = Vec::new();
        let pipe = self.child.stderr.take();
        let read = pipe.map_or(Ok(0), |mut pipe| pipe.read_to_end(&mut errors));
        if read.is_err() || !errors.is_empty() {
            let errors = errors.escape_ascii();
            return Err(format!("it says on the standard error: {errors}"));
        }
        // Where nobody reads what it prints, a program that ignores no signal is ended by one. This one ends with 0.
        if self.printed.is_some() && !status.success() {
            return Err(format!("it ends with {status}"));
        }
        Ok(printed)
    }
}

/// Feeds an input from a thread, so that neither side waits for the other.
pub fn feed(pipe: ChildStdin, input: Vec<u8>, size: usize) {
    thread::spawn(move || write_pieces(pipe, &input, size));
}

/// Keeps an input open: what is sent is written, from a thread as well; the input ends when the sender is dropped.
pub fn keep_open(mut pipe: ChildStdin) -> Sender<Vec<u8>> {
    let (sender, receiver) = channel::<Vec<u8>>();
    thread::spawn(move || {
        // An error says that the program has closed its side.
        receiver
            .iter()
            .try_for_each(|bytes| pipe.write_all(&bytes).ok())
    });
    sender
}

/// What the program prints on an input.
pub fn run(input: &[u8], by: Feed) -> Result<Vec<u8>, String> {
    let size = match by {
        Feed::Whole => input.len().max(1),
        Feed::Pieces(size) => size,
        Feed::File => {
            let file = file_of(input).map_err(|e| format!("no file for the input: {e}"))?;
            let (running, _) = Running::start(&mut Command::new(path()?), file.into())?;
            return running.read().end();
        }
    };
    let (running, pipe) = Running::piped()?;
    feed(pipe, input.to_vec(), size);
    running.end()
}
