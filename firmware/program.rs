//! A run of a line program, with a pipe at each end.

use std::fs;
use std::io::{Read, Write};
use std::process::{Child, ChildStdin, Command, Stdio};
use std::sync::mpsc::{channel, Receiver, RecvTimeoutError};
use std::thread;
use std::time::Duration;

/// After a silence of this length the program is taken to hold its answers back.
const PATIENCE: Duration = Duration::from_secs(8);

pub struct Run {
    child: Child,
    input: Option<ChildStdin>,
    blocks: Receiver<Vec<u8>>,
    pub output: Vec<u8>,
    answers: usize,
}

/// Reads in a thread of its own, so that neither side waits for the other with a full pipe.
fn read_blocks(mut from: impl Read + Send + 'static) -> Receiver<Vec<u8>> {
    let (sender, blocks) = channel();
    thread::spawn(move || {
        let mut block = vec![0; 1 << 16];
        while let Ok(count @ 1..) = from.read(&mut block) {
            let _ = sender.send(block[..count].to_vec());
        }
    });
    blocks
}

fn spawn(path: &str) -> Child {
    Command::new(path)
        .stdin(Stdio::piped())
        .stdout(Stdio::piped())
        .spawn()
        .unwrap_or_else(|error| panic!("{path}: {error}"))
}

extern "C" {
    fn kill(process: i32, signal: i32) -> i32;
}

/// The signals that stop a process and let it go on.
const STOP_AND_GO: [i32; 2] = [19, 18];

/// What a program writes for an input, and whether it ends well, when it is stopped for a moment
/// before each block of its output is read: a write that waits for room is then cut short.
pub fn run_with_stops(path: &str, input: &[u8]) -> (Vec<u8>, bool) {
    let mut child = spawn(path);
    let mut to = child.stdin.take().unwrap();
    let mut from = child.stdout.take().unwrap();
    let mut output = Vec::new();
    thread::scope(|scope| {
        scope.spawn(move || to.write_all(input));
        // Little is read at once, so that there is room for a part of a write only.
        let mut block = vec![0; 10_000];
        loop {
            // By the end of this pause the program has filled the pipe and waits.
            thread::sleep(Duration::from_millis(1));
            for signal in STOP_AND_GO {
                unsafe { kill(child.id() as i32, signal) };
            }
            let Ok(count @ 1..) = from.read(&mut block) else { break };
            output.extend(&block[..count]);
        }
    });
    (output, child.wait().is_ok_and(|status| status.success()))
}

impl Run {
    pub fn start(path: &str) -> Run {
        let mut child = spawn(path);
        let input = child.stdin.take();
        let blocks = read_blocks(child.stdout.take().unwrap());
        Run { child, input, blocks, output: Vec::new(), answers: 0 }
    }

    /// A program that has ended reads no more; what it answered tells.
    pub fn write(&mut self, piece: &[u8]) {
        let _ = self.input.as_mut().unwrap().write_all(piece);
    }

    fn take_block(&mut self) -> Result<(), RecvTimeoutError> {
        let block = self.blocks.recv_timeout(PATIENCE)?;
        self.answers += block.iter().filter(|&&c| c == b'\n').count();
        self.output.extend(block);
        Ok(())
    }

    /// Waits until so many answers are there. False if they do not come.
    pub fn wait_for(&mut self, answers: usize) -> bool {
        while self.answers < answers {
            if self.take_block().is_err() {
                return false;
            }
        }
        true
    }

    /// Writes an input, so often, in a thread of its own, and waits for its answers. The program's
    /// input stays open.
    pub fn feed(&mut self, input: &[u8], times: usize, answers: usize) -> bool {
        let mut to = self.input.take().unwrap();
        thread::scope(|scope| {
            let writer = scope.spawn(move || {
                let _ = (0..times).try_for_each(|_| to.write_all(input));
                to
            });
            let answered = self.wait_for(answers);
            if !answered {
                let _ = self.child.kill();
            }
            self.input = writer.join().ok();
            answered
        })
    }

    /// The most memory that the program has had, in kilobytes.
    pub fn memory(&self) -> usize {
        let path = format!("/proc/{}/status", self.child.id());
        let status = fs::read_to_string(path).expect("the state of the program");
        let line = status.lines().find(|line| line.starts_with("VmHWM:")).expect("its memory");
        line.split_whitespace().nth(1).unwrap().parse().unwrap()
    }

    /// Closes the input and takes the rest of the output. True if the program ends well.
    pub fn end(&mut self) -> bool {
        drop(self.input.take());
        loop {
            match self.take_block() {
                Ok(()) => (),
                Err(RecvTimeoutError::Disconnected) => break,
                Err(RecvTimeoutError::Timeout) => {
                    let _ = self.child.kill();
                    break;
                }
            }
        }
        self.child.wait().is_ok_and(|status| status.success())
    }
}
