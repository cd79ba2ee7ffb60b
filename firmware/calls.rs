//! The calls, each made in the library and in the model. The first difference ends the run. Every
//! run is lent in a heap block of exactly its length.

use crate::model::{Form, Table};
use std::collections::BTreeMap;
use std::process::exit;

extern "C" {
    fn wilbryn_fresh(image: *mut u8, len: usize, n: u8, stall: u8) -> u32;
    fn wilbryn_check(image: *const u8, len: usize) -> u32;
    fn wilbryn_milking(image: *mut u8, len: usize, new: u16) -> u32;
    fn wilbryn_heard(image: *const u8, len: usize, records: *mut u8, records_len: usize) -> u32;
    fn wilbryn_settled(image: *const u8, len: usize, counts: *mut u8, counts_len: usize) -> u32;
    fn wilbryn_meeting(
        first: *mut u8,
        first_len: usize,
        second: *mut u8,
        second_len: usize,
        verdicts: *mut u8,
        verdicts_len: usize,
    ) -> u32;
    fn wilbryn_panel(image: *const u8, len: usize, text: *mut u8, text_len: usize) -> u32;
}

/// A call that reads an image and writes into a buffer.
pub type Reading = unsafe extern "C" fn(*const u8, usize, *mut u8, usize) -> u32;

/// The library's calls on images of a form.
pub struct Calls {
    pub form: Form,
    pub fresh: unsafe extern "C" fn(*mut u8, usize, u8, u8) -> u32,
    pub check: unsafe extern "C" fn(*const u8, usize) -> u32,
    pub milking: unsafe extern "C" fn(*mut u8, usize, u16) -> u32,
    pub heard: Reading,
    pub settled: Reading,
    pub meeting: unsafe extern "C" fn(*mut u8, usize, *mut u8, usize, *mut u8, usize) -> u32,
    pub panel: Reading,
}

pub static PLAIN: Calls = Calls {
    form: Form::Plain,
    fresh: wilbryn_fresh,
    check: wilbryn_check,
    milking: wilbryn_milking,
    heard: wilbryn_heard,
    settled: wilbryn_settled,
    meeting: wilbryn_meeting,
    panel: wilbryn_panel,
};

pub type Run = Box<[u8]>;

/// What a call leaves: its answer, and each run that it was lent.
#[derive(Clone, PartialEq)]
pub struct Outcome {
    pub answer: u32,
    pub runs: Vec<Run>,
}

/// How many calls were compared, by kind and by the number of the refusal (0: none).
#[derive(Default)]
pub struct Counts(BTreeMap<&'static str, [u64; 10]>);

impl Counts {
    pub fn add(&mut self, kind: &'static str, answer: u32) {
        let number = if answer < 256 { 0 } else { answer - 256 };
        self.add_number(kind, number);
    }

    pub fn add_number(&mut self, kind: &'static str, number: u32) {
        self.0.entry(kind).or_default()[number as usize] += 1;
    }

    pub fn of(&self, kind: &str, number: usize) -> u64 {
        self.0.get(kind).map_or(0, |by_number| by_number[number])
    }

    pub fn print(&self) {
        print!("  {:<22}{:>9}{:>9}", "calls", "all", "taken");
        (1..10).for_each(|number| print!("{:>8}", format!("no. {number}")));
        println!();
        for (kind, by_number) in &self.0 {
            print!("  {kind:<22}{:>9}{:>9}", by_number.iter().sum::<u64>(), by_number[0]);
            by_number[1..].iter().for_each(|count| print!("{count:>8}"));
            println!();
        }
    }

    /// Ends the run unless yields in each place were taken, and refused in each way that there is.
    pub fn require_yields(&self) {
        self.require("current yields", [0, 4]);
        self.require("yields of heard stalls", [0, 4]);
        self.require("yields never heard", [0, 4, 5]);
    }

    /// Ends the run if one of these numbers never came up.
    pub fn require(&self, kind: &str, numbers: impl IntoIterator<Item = usize>) {
        for number in numbers {
            if self.of(kind, number) == 0 {
                println!("{kind}: number {number} never came up");
                exit(1);
            }
        }
    }
}

/// How often labels came up, by N and label.
#[derive(Default)]
pub struct Labels(BTreeMap<(usize, usize), u64>);

impl Labels {
    pub fn add(&mut self, n: usize, label: usize) {
        *self.0.entry((n, label)).or_default() += 1;
    }

    pub fn of(&self, n: usize, label: usize) -> u64 {
        self.0.get(&(n, label)).copied().unwrap_or(0)
    }

    /// Ends the run if one of these labels never came up.
    pub fn require(&self, n: usize, labels: impl IntoIterator<Item = usize>) {
        for label in labels {
            if self.of(n, label) == 0 {
                println!("{n} heads: label {label} never came up");
                exit(1);
            }
        }
    }
}

/// What calls on a table with another yield in this place (0: the current one, r: that of stall r)
/// are counted as.
pub fn yields_at(table: &Table, place: usize) -> &'static str {
    match place {
        0 => "current yields",
        r if table.heard(r) => "yields of heard stalls",
        _ => "yields never heard",
    }
}

/// What part of the calls to make: all, or one in K when the program is given the argument K.
pub fn share_of(all: usize) -> usize {
    let divisor = std::env::args().nth(1).map_or(1, |k| k.parse().expect("a whole number"));
    all / divisor
}

pub fn hex(bytes: &[u8]) -> String {
    bytes.iter().map(|byte| format!("{byte:02x}")).collect()
}

/// A record of a heard list: the stall and its yield.
pub type Record = (usize, u16);

pub fn records(list: &[u8]) -> Vec<Record> {
    let record = |three: &[u8]| (three[0] as usize, u16::from_be_bytes([three[1], three[2]]));
    list.chunks(3).map(record).collect()
}

fn show(who: &str, outcome: &Outcome) {
    println!("  {who} answers {}", outcome.answer);
    outcome.runs.iter().for_each(|run| println!("    {}", hex(run)));
}

/// Ends the run unless both sides left the same.
pub fn agree(call: &str, lent: &[&[u8]], library: &Outcome, model: &Outcome) {
    if library == model {
        return;
    }
    println!("{call}: library and model differ\n  lent");
    lent.iter().for_each(|run| println!("    {}", hex(run)));
    show("library", library);
    show("model", model);
    exit(1);
}

/// What such a call leaves in the library and in the model.
pub fn read_into(
    reading: Reading,
    modelled_reading: impl Fn(&[u8], &mut [u8]) -> u32,
    image: &[u8],
    before: &[u8],
) -> [Outcome; 2] {
    let [lent, mut written] = [image, before].map(Run::from);
    let (len, written_len) = (lent.len(), written.len());
    let answer = unsafe { reading(lent.as_ptr(), len, written.as_mut_ptr(), written_len) };
    let library = Outcome { answer, runs: vec![lent, written] };
    let mut modelled = Run::from(before);
    let answer = modelled_reading(image, &mut modelled);
    [library, Outcome { answer, runs: vec![Run::from(image), modelled] }]
}

impl Calls {
    pub fn fresh(&self, counts: &mut Counts, before: &[u8], n: u8, stall: u8) -> Run {
        let (mut image, mut modelled) = (Run::from(before), Run::from(before));
        let answer = unsafe { (self.fresh)(image.as_mut_ptr(), image.len(), n, stall) };
        let library = Outcome { answer, runs: vec![image] };
        let answer = self.form.fresh(&mut modelled, n, stall);
        let model = Outcome { answer, runs: vec![modelled] };
        agree(&format!("fresh {n} {stall}"), &[before], &library, &model);
        counts.add_number("fresh", answer);
        library.runs.into_iter().next().unwrap()
    }

    pub fn check(&self, counts: &mut Counts, image: &[u8]) -> u32 {
        let lent = Run::from(image);
        let answer = unsafe { (self.check)(lent.as_ptr(), lent.len()) };
        let library = Outcome { answer, runs: vec![lent] };
        let model = Outcome { answer: self.form.check(image), runs: vec![Run::from(image)] };
        agree("check", &[image], &library, &model);
        counts.add_number("check", answer);
        answer
    }

    pub fn milking(&self, counts: &mut Counts, image: &mut [u8], new: u16) -> u32 {
        let (mut lent, mut modelled) = (Run::from(&*image), Run::from(&*image));
        let answer = unsafe { (self.milking)(lent.as_mut_ptr(), lent.len(), new) };
        let library = Outcome { answer, runs: vec![lent] };
        let answer = self.form.milking(&mut modelled, new);
        let model = Outcome { answer, runs: vec![modelled] };
        agree(&format!("milking {new}"), &[image], &library, &model);
        counts.add_number("milking", answer);
        image.copy_from_slice(&library.runs[0]);
        answer
    }

    pub fn heard(&self, counts: &mut Counts, image: &[u8], records: &[u8]) -> Outcome {
        let modelled = |image: &[u8], records: &mut [u8]| self.form.heard(image, records);
        let [library, model] = read_into(self.heard, modelled, image, records);
        agree("heard", &[image, records], &library, &model);
        counts.add("heard", library.answer);
        library
    }

    pub fn settled(&self, counts: &mut Counts, image: &[u8], before: &[u8]) -> Outcome {
        let modelled = |image: &[u8], numbers: &mut [u8]| self.form.settled(image, numbers);
        let [library, model] = read_into(self.settled, modelled, image, before);
        agree("settled", &[image, before], &library, &model);
        counts.add_number("settled", library.answer);
        library
    }

    pub fn meeting(&self, first: &[u8], second: &[u8], verdicts: &[u8]) -> Outcome {
        let lent = [first, second, verdicts];
        let [mut a, mut b, mut v] = lent.map(Run::from);
        let (a_len, b_len, v_len) = (a.len(), b.len(), v.len());
        let answer = unsafe {
            (self.meeting)(a.as_mut_ptr(), a_len, b.as_mut_ptr(), b_len, v.as_mut_ptr(), v_len)
        };
        let library = Outcome { answer, runs: vec![a, b, v] };
        let [mut a, mut b, mut v] = lent.map(Run::from);
        let answer = self.form.meeting(&mut a, &mut b, &mut v);
        let model = Outcome { answer, runs: vec![a, b, v] };
        agree("meeting", &lent, &library, &model);
        library
    }
    pub fn panel(&self, counts: &mut Counts, image: &[u8], before: &[u8]) -> Outcome {
        let modelled = |image: &[u8], text: &mut [u8]| self.form.panel(image, text);
        let [library, model] = read_into(self.panel, modelled, image, before);
        agree("panel", &[image, before], &library, &model);
        counts.add("panel", library.answer);
        library
    }
}
