//! Meetings in the library and in the model, alone and as the lists of a parlour.

use crate::calls::{hex, Calls, Counts, Labels, Outcome, Run};
use crate::images::Random;
use crate::model::{Form, Meeting, Table, NOT_MILKED};
use crate::pairs::{next_pair, Way, WAYS};
use std::process::exit;

/// What calls on images of a form showed.
pub struct Seen {
    pub calls: &'static Calls,
    pub counts: Counts,
    /// Of the accepted meetings, as what follows.
    pub verdicts: [u64; 3],
    pub labels: Labels,
    /// How many left one of the two that met, and how many passed on another, as not milked.
    pub not_milked: [u64; 2],
}

impl Seen {
    pub fn new(calls: &'static Calls) -> Seen {
        let (counts, labels) = (Counts::default(), Labels::default());
        Seen { calls, counts, verdicts: [0; 3], labels, not_milked: [0; 2] }
    }

    /// One meeting in the library and in the model.
    pub fn meet(
        &mut self,
        kind: &'static str,
        first: &[u8],
        second: &[u8],
        verdicts: &[u8],
    ) -> Outcome {
        let outcome = self.calls.meeting(first, second, verdicts);
        let is_bad = |image: &Run| self.calls.form.check(image) != 0;
        if outcome.answer < 256 && outcome.runs[..2].iter().any(is_bad) {
            let lent = [first, second, verdicts].map(hex);
            println!("an accepted meeting left a bad image: {lent:?}");
            exit(1);
        }
        self.note(kind, &outcome);
        outcome
    }

    fn note(&mut self, kind: &'static str, outcome: &Outcome) {
        self.counts.add(kind, outcome.answer);
        self.counts.add("meetings in all", outcome.answer);
        if outcome.answer < 256 {
            self.labels.add(outcome.runs[2].len(), outcome.answer as usize);
            outcome.runs[2].iter().for_each(|&verdict| self.verdicts[verdict as usize] += 1);
            self.note_not_milked(outcome);
        }
    }

    fn note_not_milked(&mut self, outcome: &Outcome) {
        let first = self.calls.form.read(&outcome.runs[0]).ok().unwrap();
        let second_stall = outcome.runs[1][1] as usize;
        let met = |r| r == first.stall || r == second_stall;
        let passed_on = |r: usize| !met(r) && outcome.runs[2][r - 1] != 0;
        let is_not_milked = |&r: &usize| first.heard(r) && first.yields[r] == NOT_MILKED;
        self.not_milked[0] += first.stalls().filter(is_not_milked).any(met) as u64;
        self.not_milked[1] += first.stalls().filter(is_not_milked).any(passed_on) as u64;
    }
}

/// A verdict buffer with something in it: now and then of a wrong length.
pub fn buffer(random: &mut Random, n: usize, wrong_percent: usize) -> Vec<u8> {
    let mut len = n;
    if random.percent(wrong_percent) {
        len = random.pick(&[0, 1, 2, n - 1, n + 1, 3 * n, 156, 300, 580]);
    }
    random.bytes(len)
}

/// The images of one parlour, as the calls leave them. Index 0 is unused.
pub struct Parlour {
    form: Form,
    pub n: usize,
    pub images: Vec<Run>,
    pub way: Way,
    /// The two that met last.
    pub pair: (usize, usize),
}

impl Parlour {
    pub fn open(random: &mut Random, n: usize, seen: &mut Seen) -> Parlour {
        let form = seen.calls.form;
        let before = vec![0xee; form.length(n)];
        let mut images = vec![Run::default()];
        for stall in 1..=n {
            images.push(seen.calls.fresh(&mut seen.counts, &before, n as u8, stall as u8));
        }
        Parlour { form, n, images, way: random.pick(&WAYS), pair: (1, 2) }
    }

    pub fn next_pair(&mut self, random: &mut Random) -> (usize, usize) {
        self.pair = next_pair(random, self.n, self.way, self.pair);
        self.pair
    }

    pub fn meet(&mut self, seen: &mut Seen, kind: &'static str, verdicts: &[u8]) -> Outcome {
        let (a, b) = self.pair;
        let outcome = seen.meet(kind, &self.images[a], &self.images[b], verdicts);
        self.images[a] = outcome.runs[0].clone();
        self.images[b] = outcome.runs[1].clone();
        outcome
    }

    pub fn milk(&mut self, seen: &mut Seen, stall: usize, new: u16) -> u32 {
        seen.calls.milking(&mut seen.counts, &mut self.images[stall], new)
    }

    /// Some milkings and one meeting, then a check, a heard list and what is settled.
    pub fn step(&mut self, random: &mut Random, seen: &mut Seen) {
        while random.percent(40) {
            self.milk(seen, random.stall(self.n), random.any_yield());
        }
        let (a, b) = self.next_pair(random);
        self.meet(seen, "from lists", &buffer(random, self.n, 5));
        seen.calls.check(&mut seen.counts, &self.images[a]);
        seen.calls.heard(&mut seen.counts, &self.images[b], &vec![0xee; 3 * self.n]);
        seen.calls.settled(&mut seen.counts, &self.images[b], &vec![0xee; self.n]);
    }

    pub fn fail(&self, what: &str) -> ! {
        println!("{what}\n  the last pair was {:?}; the images", self.pair);
        self.images[1..].iter().for_each(|image| println!("    {}", hex(image)));
        exit(1);
    }

    pub fn table(&self, head: usize) -> Table {
        let table = self.form.read(&self.images[head]);
        table.unwrap_or_else(|_| self.fail("a list left a bad image"))
    }

    /// Each meeting that an own row names, with the place that it stands for.
    fn named(&self, place: impl Fn(usize, usize) -> usize) -> Vec<(Meeting, usize)> {
        let mut named = Vec::new();
        for head in 1..=self.n {
            let table = self.table(head);
            for r in 1..=self.n {
                named.extend(table.named(head, r).map(|meeting| (meeting, place(head, r))));
            }
        }
        named
    }

    /// Two names in own rows are the same exactly when they stand for the same meeting.
    pub fn expect_clear_names(&self, place: impl Fn(usize, usize) -> usize) {
        let mut named = self.named(place);
        named.sort();
        named.dedup();
        let mut places: Vec<usize> = named.iter().map(|&(_, place)| place).collect();
        places.sort();
        places.dedup();
        let one_name_twice = named.windows(2).any(|two| two[0].0 == two[1].0);
        if one_name_twice || places.len() != named.len() {
            self.fail("names and meetings do not go together");
        }
    }
}
