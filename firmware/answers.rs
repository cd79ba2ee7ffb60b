//! The line program of document 01 with requests 2026-05 and 2026-09 in plain Rust, over the model:
//! what each line is answered.

use crate::model::{Form, Table, NOT_MILKED};

/// A line that has a meaning.
#[derive(Clone, Copy)]
enum Frame {
    Opening(u8),
    Milking(u8, u16),
    Meeting(u8, u8),
    Image(u8),
    Heard(u8),
    Settled(u8),
}

/// The bytes of a line, if it is whole pairs of digits.
fn bytes(line: &[u8]) -> Option<Vec<u8>> {
    let value = |c: &u8| b"0123456789abcdef".iter().position(|digit| digit == c);
    let pair = |two: &[u8]| Some((16 * value(&two[0])? + value(two.get(1)?)?) as u8);
    line.chunks(2).map(pair).collect()
}

fn frame(line: &[u8]) -> Option<Frame> {
    match bytes(line)?[..] {
        [1, n] => Some(Frame::Opening(n)),
        [2, stall, high, low] => Some(Frame::Milking(stall, high as u16 * 256 + low as u16)),
        [3, first, second] => Some(Frame::Meeting(first, second)),
        [4, stall] => Some(Frame::Image(stall)),
        [5, stall] => Some(Frame::Heard(stall)),
        [6, stall] => Some(Frame::Settled(stall)),
        _ => None,
    }
}

/// What a line must be answered.
pub struct Answer {
    pub text: Vec<u8>,
    /// 0, or the number of the refusal.
    pub number: u8,
    /// What the line asks for, if it has a meaning.
    frame: Option<Frame>,
}

/// What heard lists can show.
pub const OF_HEARD: [&str; 4] = [
    "0 beside not milked",
    "equal yields",
    "not milked behind a higher stall",
    "a yield behind that of a higher stall",
];

impl Answer {
    /// Whether the line asks what is settled, taken or refused.
    pub fn is_of_settled(&self) -> bool {
        matches!(self.frame, Some(Frame::Settled(_)))
    }

    /// Whether it says of a meeting that all stalls have heard it. There are as many numbers as
    /// stalls.
    pub fn shows_settled(&self) -> bool {
        let numbers = &self.text[2..];
        let all = digits(&[(numbers.len() / 2) as u8]);
        self.is_of_settled() && numbers.chunks(2).any(|number| number == all)
    }

    /// The yields of a heard list by rising stall; none of another answer.
    fn yields(&self) -> Vec<u16> {
        if self.number != 0 || !matches!(self.frame, Some(Frame::Heard(_))) {
            return vec![];
        }
        let text = bytes(&self.text).expect("an answer is whole pairs of digits");
        let mut records: Vec<&[u8]> = text[2..].chunks(3).collect();
        records.sort();
        records.iter().map(|record| u16::from_be_bytes([record[1], record[2]])).collect()
    }

    /// Which of these it shows, if it is a heard list.
    pub fn shows_of_heard(&self) -> [bool; OF_HEARD.len()] {
        let yields = self.yields();
        let some_two = |are_so: fn(u16, u16) -> bool| {
            (1..yields.len()).any(|at| yields[..at].iter().any(|&one| are_so(one, yields[at])))
        };
        [
            yields.contains(&0) && yields.contains(&NOT_MILKED),
            some_two(|lower, higher| lower == higher && lower != NOT_MILKED),
            some_two(|lower, higher| lower == NOT_MILKED && higher != NOT_MILKED),
            some_two(|lower, higher| lower < higher && higher != NOT_MILKED),
        ]
    }
}

fn digits(bytes: &[u8]) -> Vec<u8> {
    bytes.iter().flat_map(|byte| format!("{byte:02x}").into_bytes()).collect()
}

/// The parlour between lines: the images by stall from 1, none before the opening.
#[derive(Default)]
pub struct Lines {
    images: Vec<Vec<u8>>,
}

impl Lines {
    pub fn answer(&mut self, line: &[u8]) -> Answer {
        let frame = frame(line);
        match self.reply(frame) {
            Ok(more) => Answer { text: digits(&[&[0], &more[..]].concat()), number: 0, frame },
            Err(number) => Answer { text: digits(&[number]), number, frame },
        }
    }

    /// The bytes after 00, or the number of the refusal.
    fn reply(&mut self, frame: Option<Frame>) -> Result<Vec<u8>, u8> {
        let frame = frame.ok_or(10)?;
        let is_open = !self.images.is_empty();
        match frame {
            Frame::Opening(_) if is_open => Err(11),
            Frame::Opening(n) => self.open(n),
            _ if !is_open => Err(11),
            Frame::Milking(stall, new) => self.milk(stall, new),
            Frame::Meeting(first, second) => self.meet(first, second),
            Frame::Image(stall) => Ok(self.images[self.place(stall)?].clone()),
            Frame::Heard(stall) => self.heard(stall),
            Frame::Settled(stall) => self.settled(stall),
        }
    }

    fn place(&self, stall: u8) -> Result<usize, u8> {
        let heads = self.images.len() - 1;
        if (1..=heads).contains(&(stall as usize)) {
            Ok(stall as usize)
        } else {
            Err(3)
        }
    }

    fn open(&mut self, n: u8) -> Result<Vec<u8>, u8> {
        let n = n as usize;
        if !Form::Plain.sizes().contains(&n) {
            return Err(1);
        }
        self.images = vec![vec![]];
        self.images.extend((1..=n).map(|stall| Table::fresh(n, stall).to_bytes()));
        Ok(vec![])
    }

    fn milk(&mut self, stall: u8, new: u16) -> Result<Vec<u8>, u8> {
        let place = self.place(stall)?;
        match Form::Plain.milking(&mut self.images[place], new) {
            0 => Ok(vec![]),
            number => Err(number as u8),
        }
    }

    fn meet(&mut self, first: u8, second: u8) -> Result<Vec<u8>, u8> {
        let (a, b) = (self.place(first)?, self.place(second)?);
        if a == b {
            return Err(7);
        }
        let mut verdicts = vec![0; self.images.len() - 1];
        let mut second = self.images[b].clone();
        match Form::Plain.meeting(&mut self.images[a], &mut second, &mut verdicts) {
            label @ 0..=255 => {
                self.images[b] = second;
                Ok([&[label as u8], &verdicts[..]].concat())
            }
            refused => Err((refused - 256) as u8),
        }
    }

    fn heard(&self, stall: u8) -> Result<Vec<u8>, u8> {
        let mut records = vec![0; 3 * (self.images.len() - 1)];
        match Form::Plain.heard(&self.images[self.place(stall)?], &mut records) {
            count @ 0..=255 => Ok([&[count as u8], &records[..3 * count as usize]].concat()),
            refused => Err((refused - 256) as u8),
        }
    }

    /// Request 2026-05: "Line kind `06` with a stall answers `00`, then for each stall the number".
    fn settled(&self, stall: u8) -> Result<Vec<u8>, u8> {
        let mut numbers = vec![0; self.images.len() - 1];
        match Form::Plain.settled(&self.images[self.place(stall)?], &mut numbers) {
            0 => Ok(numbers),
            number => Err(number as u8),
        }
    }
}

/// The lines of an input: the last may lack its newline.
pub fn lines(input: &[u8]) -> impl Iterator<Item = &[u8]> {
    input.split_inclusive(|&c| c == b'\n').map(|line| line.strip_suffix(b"\n").unwrap_or(line))
}

/// The answers to a whole input.
pub fn answers(input: &[u8]) -> Vec<Answer> {
    let mut parlour = Lines::default();
    lines(input).map(|line| parlour.answer(line)).collect()
}
