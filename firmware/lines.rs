//! Runs a line program on many inputs and compares what it writes with document 01, line by line.
//! Its arguments are the path of the program, and those of stored sessions to run besides.

mod answers;
#[allow(dead_code)]
mod images;
#[allow(dead_code)]
mod model;
mod pairs;
mod program;
mod sessions;

use answers::{answers, lines, Answer, Lines, OF_HEARD};
use images::Random;
use model::{Form, LEAST, MOST};
use program::{run_with_stops, Run};
use std::process::exit;
use std::thread;
use std::time::Duration;

const SEED: u64 = 0x5eed_0011;

/// In kilobytes: the most that any run may have, and the most that a long one may have above a
/// short one.
const MOST_MEMORY: usize = 16 * 1024;
const MOST_GROWTH: usize = 2 * 1024;

/// Bytes as text, long ones cut short.
fn shown(bytes: &[u8]) -> String {
    match bytes.len() {
        0 => String::from("nothing"),
        1..=400 => format!("{:?}", String::from_utf8_lossy(bytes)),
        len => format!("{:?} and so on, {len} bytes", String::from_utf8_lossy(&bytes[..60])),
    }
}

struct Test {
    path: String,
    sessions: usize,
    lines: usize,
    by_number: [usize; 12],
    /// How many heard lists showed each of these things.
    of_heard: [usize; OF_HEARD.len()],
    /// Of the lines that ask what is settled: how often each number, and how often something was.
    settled_by_number: [usize; 12],
    settled: usize,
}

impl Test {
    fn fail(&self, name: &str, what: &str) -> ! {
        println!("{}: {name}: {what}", self.path);
        exit(1);
    }

    fn count(&mut self, expected: &[Answer]) {
        self.lines += expected.len();
        for answer in expected {
            self.by_number[answer.number as usize] += 1;
            for (times, is_shown) in self.of_heard.iter_mut().zip(answer.shows_of_heard()) {
                *times += is_shown as usize;
            }
            self.settled_by_number[answer.number as usize] += answer.is_of_settled() as usize;
            self.settled += answer.shows_settled() as usize;
        }
    }

    /// Ends the run if one of the numbers that a line can be answered never came up, or one of the
    /// things that heard lists can show, or nothing was settled.
    fn print(&self) {
        println!("  {} sessions, {} lines; how often each number:", self.sessions, self.lines);
        for (number, count) in self.by_number.iter().enumerate().filter(|(_, &count)| count > 0) {
            println!("    {number:02x}{count:>9}");
        }
        if let Some(number) = [0, 1, 3, 4, 7, 10, 11].iter().find(|&&n| self.by_number[n] == 0) {
            self.fail("all sessions", &format!("number {number} never came up"));
        }
        for (what, times) in OF_HEARD.iter().zip(self.of_heard) {
            println!("  {times} heard lists with {what}");
            if times == 0 {
                self.fail("all sessions", &format!("{what} never came up"));
            }
        }
        self.print_settled();
        println!("  no difference");
    }

    fn print_settled(&self) {
        let times = [0, 3, 11].map(|number| self.settled_by_number[number]);
        print!("  asked what is settled: {} taken, {} with 03, ", times[0], times[1]);
        println!("{} with 0b; something was, {} times", times[2], self.settled);
        if times.contains(&0) || self.settled == 0 {
            self.fail("all sessions", "one of these never came up");
        }
    }

    /// Ends the run at the first line that is answered otherwise.
    fn compare(&self, name: &str, input: &[u8], expected: &[Answer], output: &[u8]) {
        let mut written = output.split_inclusive(|&c| c == b'\n');
        for (at, (line, answer)) in lines(input).zip(expected).enumerate() {
            let found = written.next().unwrap_or(b"");
            if found.strip_suffix(b"\n") != Some(&answer.text) {
                let [line, found, text] = [line, found, &answer.text].map(shown);
                self.fail(
                    name,
                    &format!("line {}\n  {line}\n  program: {found}\n  model:   {text}", at + 1),
                );
            }
        }
        if let Some(more) = written.next() {
            self.fail(name, &format!("after the last answer comes {}", shown(more)));
        }
    }

    /// Gives the program an input as fast as it reads.
    fn run(&mut self, name: &str, input: &[u8]) {
        let expected = answers(input);
        let due = input.iter().filter(|&&c| c == b'\n').count();
        let mut run = Run::start(&self.path);
        let answered = run.feed(input, 1, due);
        let ended = run.end();
        self.compare(name, input, &expected, &run.output);
        if !answered || !ended {
            self.fail(name, "an answer was held back, or the program did not end well");
        }
        self.sessions += 1;
        self.count(&expected);
    }

    /// Gives the program an input piece by piece: a piece is written when all answers to the lines
    /// before are there.
    fn converse<'a>(&mut self, name: &str, pieces: impl Iterator<Item = &'a [u8]>) {
        let mut run = Run::start(&self.path);
        let mut input = Vec::new();
        let mut due = 0;
        for piece in pieces {
            run.write(piece);
            input.extend(piece);
            due += piece.iter().filter(|&&c| c == b'\n').count();
            if !run.wait_for(due) {
                self.fail(name, &format!("line {due}: its answer, or one before, does not come"));
            }
            if !piece.contains(&b'\n') {
                // The program shall read this part of a line before the rest is there.
                thread::sleep(Duration::from_micros(500));
            }
        }
        let ended = run.end();
        let expected = answers(&input);
        self.compare(name, &input, &expected, &run.output);
        if !ended {
            self.fail(name, "the program did not end well");
        }
        self.sessions += 1;
        self.count(&expected);
    }

    /// Gives the program an input while its writes are cut short.
    fn stop_and_go(&mut self, name: &str, input: &[u8]) {
        let expected = answers(input);
        let (output, ended) = run_with_stops(&self.path, input);
        self.compare(name, input, &expected, &output);
        if !ended {
            self.fail(name, "the program did not end well");
        }
        self.sessions += 1;
        self.count(&expected);
    }

    /// The most memory that the program has for an input that it is given so often.
    fn memory(&mut self, name: &str, input: &[u8], times: usize) -> usize {
        let rounds = rounds(input, times);
        let count = rounds[0].len();
        let mut run = Run::start(&self.path);
        if !run.feed(input, times, times * count) {
            self.compare(name, input, &rounds[0], &run.output);
            self.fail(name, "an answer does not come");
        }
        let memory = run.memory();
        let ended = run.end();
        let written: Vec<&[u8]> = lines(&run.output).collect();
        if !ended || written.len() != times * count {
            self.fail(name, "too many answers, or the program did not end well");
        }
        for (time, written) in written.chunks(count).enumerate() {
            let round = &rounds[time.min(1)];
            if !round.iter().zip(written).all(|(answer, written)| answer.text == *written) {
                self.fail(
                    name,
                    &format!("wrong answers to the input when given {time} times before"),
                );
            }
            self.count(round);
        }
        self.sessions += 1;
        memory
    }
}

/// The answers to an input the first time and, if it is given again, each later time. These must be
/// the same ones.
fn rounds(input: &[u8], times: usize) -> Vec<Vec<Answer>> {
    let mut parlour = Lines::default();
    let mut round = || lines(input).map(|line| parlour.answer(line)).collect();
    let rounds: Vec<Vec<Answer>> = (0..times.min(3)).map(|_| round()).collect();
    if let [_, second, third] = &rounds[..] {
        assert!(second.iter().zip(third).all(|(answer, again)| answer.text == again.text));
    }
    rounds
}

/// Document 01's examples and those of the requests, which hold the model to these too.
fn examples(test: &mut Test) {
    for (input, output) in sessions::EXAMPLES {
        let expected = answers(input.as_bytes());
        let model: String =
            expected.iter().map(|answer| String::from_utf8_lossy(&answer.text) + "\n").collect();
        assert_eq!(model, output);
        test.run("an example", input.as_bytes());
        test.run("an example without its last newline", input.trim_end().as_bytes());
    }
}

/// Each value of each byte of a frame.
fn all_values(test: &mut Test) {
    test.run("all kinds", &sessions::all_kinds());
    test.run("all pairs of bytes", &sessions::all_pairs());
    test.run("all yields", &sessions::all_yields());
    for n in LEAST..=MOST {
        test.run("all openings", &sessions::all_openings(n));
    }
    for n in [2, 8, 16] {
        test.run("all pairs of stalls", &sessions::all_meetings(n));
    }
}

fn long_sessions(test: &mut Test, random: &mut Random) {
    for n in LEAST..=MOST {
        test.run("a long session", &sessions::session(random, n, 30_000, 0));
        test.run("a long session with odd lines", &sessions::session(random, n, 30_000, 30));
    }
    let longest = [b"0110\n", &b"0410\n".repeat(6_000)[..]].concat();
    test.run("the longest answers", &longest);
    test.stop_and_go("the longest answers, their writes cut short", &longest);
    test.run("long lines", &sessions::long_lines(random));
    test.run("a line of 10 MB", &sessions::huge_line(random, 10_000_000));
    test.run("a line of 10 MB alone", &vec![b'0'; 10_000_000]);
    test.run("a million empty lines", &vec![b'\n'; 1_000_000]);
}

fn short_sessions(test: &mut Test, random: &mut Random) {
    for _ in 0..200 {
        for odd in [0, 10, 50, 100] {
            let (n, count) = (random.size(Form::Plain), random.below(60));
            test.run("a short session", &sessions::session(random, n, count, odd));
        }
        test.run("noise", &sessions::noise(random));
    }
}

/// Cuts an input after so many bytes, drawn anew for each piece.
fn cut<'a>(mut input: &'a [u8], mut draw: impl FnMut() -> usize) -> Vec<&'a [u8]> {
    let mut pieces = Vec::new();
    while !input.is_empty() {
        let (piece, rest) = input.split_at(draw().min(input.len()));
        pieces.push(piece);
        input = rest;
    }
    pieces
}

/// Nothing may be held back while the program waits for input.
fn conversations(test: &mut Test, random: &mut Random) {
    for (n, odd) in [(8, 0), (8, 20), (16, 0), (16, 20)] {
        let input = sessions::session(random, n, 300, odd);
        let by_line = input.split_inclusive(|&c| c == b'\n');
        test.converse("line by line", by_line);
        test.converse("byte by byte", input[..800].chunks(1));
        test.converse("part by part", cut(&input, || 1 + random.below(12)).into_iter());
        let input = sessions::session(random, n, 10_000, odd);
        test.converse("burst by burst", cut(&input, || random.below(8_000)).into_iter());
        test.converse("page by page", input.chunks(4_096));
        test.converse("block by block", input.chunks(65_536));
    }
}

fn memory(test: &mut Test, random: &mut Random) {
    let lines = b"0102\n02010012\n030102\n0201\n030201\n0402\n0501\n0602\n020203e8\n";
    let block = lines.repeat(1_000);
    let short = test.memory("a short session", b"0102\n030102\n030102\n", 1);
    let huge = test.memory("a line of 10 MB", &sessions::huge_line(random, 10_000_000), 1);
    let many = test.memory("many lines", &block, 3_000_000 / 9_000);
    print!("  most memory, in kB: {short} for 3 lines, {huge} for a line of 10 MB, ");
    println!("{many} for 3 million lines");
    if short.max(huge).max(many) > MOST_MEMORY.min(short + MOST_GROWTH) {
        test.fail("memory", "it grows with the input");
    }
}

fn main() {
    let path = std::env::args().nth(1).expect("the path of a line program");
    println!("lines: {path}, seed {SEED:#x}");
    let mut test = Test {
        path,
        sessions: 0,
        lines: 0,
        by_number: [0; 12],
        of_heard: [0; OF_HEARD.len()],
        settled_by_number: [0; 12],
        settled: 0,
    };
    let mut random = Random(SEED);
    examples(&mut test);
    for stored in std::env::args().skip(2) {
        test.run(&stored, &std::fs::read(&stored).expect("a stored session"));
    }
    all_values(&mut test);
    long_sessions(&mut test, &mut random);
    short_sessions(&mut test, &mut random);
    conversations(&mut test, &mut random);
    memory(&mut test, &mut random);
    test.print();
}
