//! Another program, run with pipes and watched by the clock.
//!
//! One thread writes to the program and one reads from it, so that nothing here waits for
//! longer than the time limit, whatever the program does. It is ended when it is let go.

use std::fs::File;
use std::io::{Read, Write};
use std::process::{Child, ChildStdin, ChildStdout, Command, Stdio};
use std::sync::mpsc::{channel, sync_channel, Receiver, RecvTimeoutError, Sender, SyncSender};
use std::time::{Duration, Instant};

/// How long an answer may take.
pub const TIME_LIMIT: Duration = Duration::from_secs(10);

/// What to run, and how long it may take over an answer.
#[derive(Clone)]
pub struct Program {
    path: String,
    arguments: Vec<String>,
    limit: Duration,
}

impl Program {
    pub fn new(path: &str) -> Program {
        Program {
            path: path.to_string(),
            arguments: Vec::new(),
            limit: TIME_LIMIT,
        }
    }

    pub fn argument(mut self, argument: &str) -> Program {
        self.arguments.push(argument.to_string());
        self
    }

    pub fn limit(mut self, limit: Duration) -> Program {
        self.limit = limit;
        self
    }

    pub fn path(&self) -> &str {
        &self.path
    }

    /// Starts the program, its input to be sent piece by piece.
    pub fn start(&self) -> Result<Running, String> {
        let mut running = self.spawn(Stdio::piped())?;
        let input = running.child.stdin.take().expect("a pipe to the program");
        let (send, pieces) = channel();
        std::thread::spawn(move || write_pieces(input, pieces));
        running.input = Some(send);
        Ok(running)
    }

    /// Starts the program with a file as its whole input.
    pub fn start_on_file(&self, file: File) -> Result<Running, String> {
        self.spawn(Stdio::from(file))
    }

    fn spawn(&self, input: Stdio) -> Result<Running, String> {
        let mut child = Command::new(&self.path)
            .args(&self.arguments)
            .stdin(input)
            .stdout(Stdio::piped())
            .spawn()
            .map_err(|error| format!("{} does not start: {error}", self.path))?;
        let output = child.stdout.take().expect("a pipe from the program");
        let (send, pieces) = sync_channel(16);
        std::thread::spawn(move || read_pieces(output, send));
        Ok(Running {
            child,
            input: None,
            output: pieces,
            unread: Vec::new(),
            limit: self.limit,
        })
    }
}

// A program that has gone early shows by its missing answers.
fn write_pieces(mut input: ChildStdin, pieces: Receiver<Vec<u8>>) {
    for piece in pieces {
        if input.write_all(&piece).is_err() {
            return;
        }
    }
}

fn read_pieces(mut output: ChildStdout, pieces: SyncSender<Vec<u8>>) {
    let mut buffer = vec![0; 1 << 16];
    while let Ok(read @ 1..) = output.read(&mut buffer) {
        if pieces.send(buffer[..read].to_vec()).is_err() {
            return;
        }
    }
}

/// A program at work.
pub struct Running {
    child: Child,
    input: Option<Sender<Vec<u8>>>,
    output: Receiver<Vec<u8>>,
    /// What came from the program and has not been looked at yet.
    unread: Vec<u8>,
    limit: Duration,
}

/// Answers that are not the expected ones: the first of them that is different.
#[derive(Debug)]
pub struct Difference {
    /// How many answers before it were as expected.
    pub after: usize,
    pub expected: String,
    pub answered: String,
}

impl Running {
    /// Sends a piece in one write, without waiting until it has been taken.
    pub fn send(&mut self, piece: Vec<u8>) {
        if let Some(input) = &self.input {
            let _ = input.send(piece);
        }
    }

    /// Ends the program's input.
    pub fn close(&mut self) {
        self.input = None;
    }

    /// Waits until just the expected answers have come.
    pub fn answers(&mut self, expected: &[u8]) -> Result<(), Difference> {
        let end = Instant::now() + self.limit;
        let mut problem = "no answer in time";
        // How many bytes have been found the same.
        let mut same = 0;
        loop {
            let length = expected.len().min(self.unread.len());
            if self.unread[same..length] != expected[same..length] {
                return Err(self.difference(expected, "a part of it"));
            }
            same = length;
            if length == expected.len() {
                self.unread.drain(..length);
                return Ok(());
            }
            let left = end.saturating_duration_since(Instant::now());
            match self.output.recv_timeout(left) {
                Ok(piece) => self.unread.extend(piece),
                Err(RecvTimeoutError::Timeout) => break,
                Err(RecvTimeoutError::Disconnected) => {
                    problem = "no answer, the output has ended";
                    break;
                }
            }
        }
        Err(self.difference(expected, problem))
    }

    fn difference(&self, expected: &[u8], missing: &str) -> Difference {
        let mut theirs = self.unread.split_inclusive(|&byte| byte == b'\n');
        for (after, answer) in expected.split_inclusive(|&byte| byte == b'\n').enumerate() {
            let other = theirs.next();
            if other != Some(answer) {
                let answered = match other {
                    Some(other) if other.ends_with(b"\n") => text(other),
                    Some(other) => format!("{} ({missing})", text(other)),
                    None => format!("({missing})"),
                };
                return Difference {
                    after,
                    expected: text(answer),
                    answered,
                };
            }
        }
        unreachable!("the answers differ")
    }

    /// Waits for so many answers, whatever they are, and gives them without their line feeds.
    pub fn any_answers(&mut self, count: usize) -> Result<Vec<Vec<u8>>, String> {
        let end = Instant::now() + self.limit;
        let mut answers = Vec::with_capacity(count);
        // The bytes of the answers so far.
        let mut whole = 0;
        loop {
            while answers.len() < count {
                let rest = &self.unread[whole..];
                let Some(length) = rest.iter().position(|&byte| byte == b'\n') else {
                    break;
                };
                answers.push(rest[..length].to_vec());
                whole += length + 1;
            }
            if answers.len() == count {
                self.unread.drain(..whole);
                return Ok(answers);
            }
            let left = end.saturating_duration_since(Instant::now());
            match self.output.recv_timeout(left) {
                Ok(piece) => self.unread.extend(piece),
                Err(RecvTimeoutError::Timeout) => {
                    return Err(format!("no answer in time after {} answers", answers.len()))
                }
                Err(RecvTimeoutError::Disconnected) => {
                    return Err(format!(
                        "the output has ended after {} answers",
                        answers.len()
                    ))
                }
            }
        }
    }

    /// Waits a while, perhaps none, in which nothing may come.
    pub fn silence(&mut self, pause: Duration) -> Result<(), String> {
        if self.unread.is_empty() {
            match self.output.recv_timeout(pause) {
                Ok(piece) => self.unread = piece,
                Err(RecvTimeoutError::Timeout) => return Ok(()),
                Err(RecvTimeoutError::Disconnected) => return Err("it has left".to_string()),
            }
        }
        Err(format!("answered too early: {}", text(&self.unread)))
    }

    /// Ends the input and waits for the end of the program, with no more answers.
    pub fn end(mut self) -> Result<(), String> {
        self.close();
        let end = Instant::now() + self.limit;
        let left = end.saturating_duration_since(Instant::now());
        if self.unread.is_empty() {
            match self.output.recv_timeout(left) {
                Ok(piece) => self.unread = piece,
                Err(RecvTimeoutError::Disconnected) => {}
                Err(RecvTimeoutError::Timeout) => {
                    return Err("its output goes on after the end of its input".to_string())
                }
            }
        }
        if !self.unread.is_empty() {
            let first = self.unread.split(|&byte| byte == b'\n').next();
            let first = text(first.unwrap_or_default());
            return Err(format!("after the last line, another answer: {first}"));
        }
        loop {
            match self.child.try_wait() {
                Ok(Some(status)) if status.success() => return Ok(()),
                Ok(Some(status)) => {
                    return Err(format!("all answers agree, but it left with {status}"))
                }
                Ok(None) if Instant::now() < end => std::thread::sleep(Duration::from_micros(200)),
                Ok(None) => return Err("it does not leave at the end of its input".to_string()),
                Err(error) => return Err(format!("waiting for it: {error}")),
            }
        }
    }
}

impl Drop for Running {
    fn drop(&mut self) {
        let _ = self.child.kill();
        let _ = self.child.wait();
    }
}

/// Bytes as text, those that cannot be shown escaped; shortened if they are many.
pub fn text(bytes: &[u8]) -> String {
    let bytes = bytes.strip_suffix(b"\n").unwrap_or(bytes);
    if bytes.len() > 2_000 {
        return format!("{} .. ({} bytes)", bytes[..200].escape_ascii(), bytes.len());
    }
    bytes.escape_ascii().to_string()
}
