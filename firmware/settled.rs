//! Whether what heads call settled is so and stays so: lists from fresh heads, plain and packed,
//! against a history that knows meetings by their places.

#[allow(dead_code)]
mod calls;
#[allow(dead_code)]
mod history;
#[allow(dead_code)]
mod images;
#[allow(dead_code)]
mod lists;
#[allow(dead_code)]
mod model;
#[allow(dead_code)]
mod packed_calls;
mod pairs;
#[allow(dead_code)]
mod parlour;
#[allow(dead_code)]
mod tally;

use calls::{share_of, Calls, PLAIN};
use history::{History, Pasts};
use images::Random;
use lists::Item;
use model::{Meeting, STALLS};
use packed_calls::PACKED;
use parlour::{buffer, Parlour, Seen};
use tally::{Tally, LONG, LONG_LISTS};

/// What is counted and required. A number is how many stalls a head knows to have heard its latest
/// of one stall.
const OF_ALL: &str = "numbers of N";
const FELL: &str = "numbers below N after one of N";
const ONE_LACKS_IT: &str = "numbers of N - 1, a head lacks it";
const ALL_HAVE_IT: &str = "numbers of N - 1, all have it";
const OTHER_WAY: &str = "numbers that marks (s, r) would not give";
const SETTLED: &str = "meetings settled for a stall";
const KEPT: &str = "latests of a stall with one settled";
const NEWS: &str = "news of a stall with one settled";

/// What the calls and the lists showed.
struct Test {
    seen: Seen,
    tally: Tally,
}

/// What a head said of a stall: of which latest, and the number.
#[derive(Clone, Copy, Default)]
struct Said {
    latest: Option<usize>,
    number: usize,
}

/// A list under way.
struct Watched {
    parlour: Parlour,
    history: History,
    /// The meetings by place, each with the label that it was answered.
    made: Vec<Meeting>,
    /// Of each stall the newest meeting that a head gave the number N: from then on every head must
    /// have it or a newer one. Then it has each older one that was given N, or a newer one, too.
    settled: [Option<usize>; STALLS],
    /// What each head said last of each stall.
    said: [[Said; STALLS]; STALLS],
}

impl Watched {
    fn open(random: &mut Random, seen: &mut Seen, n: usize, pasts: Pasts) -> Watched {
        Watched {
            parlour: Parlour::open(random, n, seen),
            history: History::new(n, pasts),
            made: Vec::new(),
            settled: [None; STALLS],
            said: [[Said::default(); STALLS]; STALLS],
        }
    }

    fn make(&mut self, random: &mut Random, test: &mut Test, item: Item) {
        let outcome = item.make(random, &mut test.seen, &mut self.parlour);
        match item {
            _ if !item.counts(self.parlour.n) => (),
            Item::Milking { stall, new } => self.history.milking(stall, new),
            Item::Meeting { first, second, .. } => {
                self.expect_news_unsettled(test, [first, second], &outcome.runs[2]);
                self.history.meeting(first, second);
                self.made.push((first.min(second), first.max(second), outcome.answer as u8));
            }
        }
    }

    /// Neither of two that meet takes a settled meeting, or an older one, from the other as news.
    fn expect_news_unsettled(&self, test: &mut Test, two: [usize; 2], verdicts: &[u8]) {
        let n = self.parlour.n;
        for r in (1..=n).filter(|&r| self.settled[r].is_some() && verdicts[r - 1] != 0) {
            let newer = two[verdicts[r - 1] as usize - 1];
            test.tally.add(NEWS, n, 1);
            if self.history.latest(newer, r) <= self.settled[r] {
                self.parlour.fail(&format!("{two:?} meet: head {newer} has settled news of {r}"));
            }
        }
    }

    /// Every head has what is settled, or a newer meeting, and its own row names what it has.
    fn expect_kept(&self, test: &mut Test) {
        let n = self.parlour.n;
        for head in 1..=n {
            let table = self.parlour.table(head);
            for r in 1..=n {
                let latest = self.history.latest(head, r);
                if latest < self.settled[r] {
                    self.parlour.fail(&format!("head {head} lacks what is settled of {r}"));
                }
                if table.named(head, r) != latest.map(|place| self.made[place]) {
                    self.parlour.fail(&format!("head {head} names another latest of {r}"));
                }
                test.tally.add(KEPT, n, self.settled[r].is_some() as usize);
            }
        }
    }

    /// A head says what it knows to be settled, now and then into a buffer of a wrong length.
    fn ask(&mut self, random: &mut Random, test: &mut Test, head: usize) {
        let n = self.parlour.n;
        let before = buffer(random, n, 3);
        let image = &self.parlour.images[head];
        let outcome = test.seen.calls.settled(&mut test.seen.counts, image, &before);
        if outcome.answer != if before.len() == n { 0 } else { 8 } {
            self.parlour.fail(&format!("head {head} does not say what is settled"));
        }
        if outcome.answer == 0 {
            for r in 1..=n {
                self.hear(test, head, r, outcome.runs[1][r - 1] as usize);
            }
        }
    }

    /// A head gives a number for stall r. For one meeting it never falls.
    fn hear(&mut self, test: &mut Test, head: usize, r: usize, number: usize) {
        let (n, before) = (self.parlour.n, self.said[head][r]);
        let said = Said { latest: self.history.latest(head, r), number };
        let wanted = (1..=n).filter(|&s| self.history.is_before(head, r, s)).count();
        if number != wanted || said.latest == before.latest && number < before.number {
            let what = format!("head {head}, stall {r}: {number}, before {}", before.number);
            self.parlour.fail(&format!("{what}, by the history {wanted}"));
        }
        let other_way = (1..=n).filter(|&s| self.history.is_before(head, s, r)).count();
        test.tally.add(OTHER_WAY, n, (number != other_way) as usize);
        test.tally.add(FELL, n, (before.number == n && number < n) as usize);
        if number == n {
            test.tally.add(OF_ALL, n, 1);
            test.tally.add(SETTLED, n, (said.latest > self.settled[r]) as usize);
            self.settled[r] = self.settled[r].max(said.latest);
        } else if number == n - 1 {
            let lacks = (1..=n).any(|other| self.history.latest(other, r) < said.latest);
            test.tally.add(if lacks { ONE_LACKS_IT } else { ALL_HAVE_IT }, n, 1);
        }
        self.said[head][r] = said;
    }
}

/// After each item of a list all heads are asked; in a long one just some.
fn watch(random: &mut Random, test: &mut Test, n: usize, list: &[Item]) {
    let is_long = list.len() >= LONG;
    let (pasts, asked) = if is_long { (Pasts::Counted, 20) } else { (Pasts::Listed, 100) };
    let mut watched = Watched::open(random, &mut test.seen, n, pasts);
    for item in lists::sprinkled(random, n, list) {
        watched.make(random, test, item);
        for head in 1..=n {
            if random.percent(asked) {
                watched.ask(random, test, head);
            }
        }
        watched.expect_kept(test);
    }
}

/// Each thing came up with every number of heads that it can come up with. With 2 heads every heard
/// stall has the number 2 and both have the same news; so no number is below 2 again, or 1, or
/// another with the marks the other way.
fn require(test: &Test) {
    let (counts, tally) = (&test.seen.counts, &test.tally);
    let most = *test.seen.calls.form.sizes().end();
    counts.require("settled", [0, 8]);
    counts.require("milking", [0, 4]);
    counts.require("from lists", [0, 8]);
    for kind in [LONG_LISTS, OF_ALL, SETTLED, KEPT] {
        tally.require(kind, 2..=most);
    }
    for kind in [FELL, ONE_LACKS_IT, ALL_HAVE_IT, OTHER_WAY, NEWS] {
        tally.require(kind, 3..=most);
        tally.require_never(kind, 2);
    }
}

fn main() {
    let forms: [(&str, u64, &'static Calls, usize); 2] =
        [("plain", 0x5eed_0041, &PLAIN, 120), ("packed", 0x5eed_0042, &PACKED, 600)];
    for (form, seed, calls, rounds) in forms {
        println!("settled: {form}: seed {seed:#x}");
        let mut random = Random(seed);
        let mut test = Test { seen: Seen::new(calls), tally: Tally::default() };
        for n in calls.form.sizes() {
            for round in 0..share_of(rounds) {
                let list = lists::draw_round(&mut random, n, round);
                test.tally.add_list(n, list.len());
                watch(&mut random, &mut test, n, &list);
            }
        }
        test.seen.counts.print();
        test.tally.print();
        require(&test);
    }
}
