//! Lists of calls on the heads of one parlour: drawn, made from fresh, and put in another order.

use crate::calls::{hex, Outcome, Run};
use crate::images::Random;
use crate::model::STALLS;
use crate::pairs::{next_pair, WAYS};
use crate::parlour::{Parlour, Seen};
use crate::tally::LONG;

/// A call of a list. A meeting has a verdict buffer of so many bytes; what is in them is drawn anew
/// each time that the call is made.
#[derive(Clone, Copy, PartialEq, Debug)]
pub enum Item {
    Milking { stall: usize, new: u16 },
    Meeting { first: usize, second: usize, buffer: usize },
}

impl Item {
    /// Its heads; that of a milking twice.
    pub fn heads(self) -> [usize; 2] {
        match self {
            Item::Milking { stall, .. } => [stall, stall],
            Item::Meeting { first, second, .. } => [first, second],
        }
    }

    pub fn is_meeting(self) -> bool {
        matches!(self, Item::Meeting { .. })
    }

    fn has(self, head: usize) -> bool {
        self.heads().contains(&head)
    }

    pub fn shares_head(self, other: Item) -> bool {
        self.heads().iter().any(|&head| other.has(head))
    }

    /// Document 01: "A milking counts when its yield is at most 999, a meeting when its buffer has
    /// N bytes".
    pub fn counts(self, n: usize) -> bool {
        match self {
            Item::Milking { new, .. } => new <= 999,
            Item::Meeting { buffer, .. } => buffer == n,
        }
    }

    /// The same with the two heads named the other way.
    pub fn renamed(self) -> Item {
        match self {
            Item::Milking { .. } => self,
            Item::Meeting { first, second, buffer } => {
                Item::Meeting { first: second, second: first, buffer }
            }
        }
    }

    /// Document 01: "accepted are exactly the items that count; the others are refused, a milking
    /// with 4 and a meeting with 8".
    fn fits(self, answer: u32, n: usize) -> bool {
        match (self, self.counts(n)) {
            (Item::Milking { .. }, true) => answer == 0,
            (Item::Milking { .. }, false) => answer == 4,
            (Item::Meeting { .. }, true) => answer < 256,
            (Item::Meeting { .. }, false) => answer == 256 + 8,
        }
    }

    /// Makes the call. Of a refused one, which changes no byte, only the answer is kept.
    pub fn make(self, random: &mut Random, seen: &mut Seen, parlour: &mut Parlour) -> Outcome {
        let mut outcome = match self {
            Item::Milking { stall, new } => {
                let answer = parlour.milk(seen, stall, new);
                Outcome { answer, runs: vec![parlour.images[stall].clone()] }
            }
            Item::Meeting { first, second, buffer } => {
                parlour.pair = (first, second);
                parlour.meet(seen, "from lists", &random.bytes(buffer))
            }
        };
        if !self.fits(outcome.answer, parlour.n) {
            parlour.fail(&format!("{self:?} is answered {}", outcome.answer));
        }
        if !self.counts(parlour.n) {
            outcome.runs.clear();
        }
        outcome
    }
}

/// The items of a list, all of which count. In one round of 20 it is long.
pub fn draw_round(random: &mut Random, n: usize, round: usize) -> Vec<Item> {
    let count = match round % 20 {
        0 => LONG + random.below(400),
        1..=6 => 2 + random.below(10),
        _ => 12 + random.below(60),
    };
    draw(random, n, count)
}

/// So many items that count.
pub fn draw(random: &mut Random, n: usize, count: usize) -> Vec<Item> {
    let (way, milkings) = (random.pick(&WAYS), random.pick(&[20, 40, 60]));
    let mut pair = (1, 2);
    let mut item = || {
        if random.percent(milkings) {
            return Item::Milking { stall: random.stall(n), new: random.good_yield() };
        }
        pair = next_pair(random, n, way, pair);
        Item::Meeting { first: pair.0, second: pair.1, buffer: n }
    };
    (0..count).map(|_| item()).collect()
}

/// An item that does not count.
fn refused(random: &mut Random, n: usize) -> Item {
    let stall = random.stall(n);
    if random.percent(50) {
        return Item::Milking { stall, new: 1000 + random.below(65_536 - 1000) as u16 };
    }
    let buffer = random.pick(&[0, 1, n - 1, n + 1, 3 * n, 300]);
    Item::Meeting { first: stall, second: random.other_stall(n, stall), buffer }
}

/// A list with items that do not count put in here and there, also before the first and after the
/// last.
pub fn sprinkled(random: &mut Random, n: usize, list: &[Item]) -> Vec<Item> {
    let mut mixed = Vec::new();
    for at in 0..=list.len() {
        while random.percent(8) {
            mixed.push(refused(random, n));
        }
        mixed.extend(list.get(at));
    }
    mixed
}

/// The items of a list at other places: which one of the list comes first, second, and so on.
pub type Order = Vec<usize>;

/// The order after many trades of neighbours with no head in common, and how many these were.
pub fn by_trades(random: &mut Random, list: &[Item]) -> (Order, usize) {
    let mut order: Order = (0..list.len()).collect();
    let mut trades = 0;
    for _ in 0..20 * list.len() {
        let at = 1 + random.below(list.len() - 1);
        if !list[order[at - 1]].shares_head(list[order[at]]) {
            order.swap(at - 1, at);
            trades += 1;
        }
    }
    (order, trades)
}

/// An order made from the start: next comes any item whose heads have no earlier one left. For half
/// of the lists that is mostly the last such item, so that some heads run far ahead of the others.
pub fn by_turns(random: &mut Random, n: usize, list: &[Item]) -> Order {
    let last_percent = random.pick(&[0, 80]);
    let mut left: Order = (0..list.len()).collect();
    let mut order = Order::new();
    while !left.is_empty() {
        let ready = ready(n, list, &left);
        let last = random.percent(last_percent);
        let next = if last { ready[ready.len() - 1] } else { random.pick(&ready) };
        order.push(left.remove(next));
    }
    order
}

/// Where those are among the items left, given by rising place, that share no head with one before.
fn ready(n: usize, list: &[Item], left: &[usize]) -> Vec<usize> {
    let mut ready = Vec::new();
    let mut waiting = [false; STALLS];
    for (at, &place) in left.iter().enumerate() {
        let heads = list[place].heads();
        if heads.iter().all(|&head| !waiting[head]) {
            ready.push(at);
        }
        heads.iter().for_each(|&head| waiting[head] = true);
        if waiting[1..=n].iter().all(|&is_waiting| is_waiting) {
            break;
        }
    }
    ready
}

/// A list made from fresh heads, and what it left: the images, index 0 unused, and what each item
/// left.
pub struct Made {
    pub n: usize,
    pub list: Vec<Item>,
    pub images: Vec<Run>,
    pub outcomes: Vec<Outcome>,
}

pub fn make(random: &mut Random, seen: &mut Seen, n: usize, list: Vec<Item>) -> Made {
    let mut parlour = Parlour::open(random, n, seen);
    let outcomes = list.iter().map(|item| item.make(random, seen, &mut parlour)).collect();
    Made { n, list, images: parlour.images, outcomes }
}

impl Made {
    /// The items that count, each with what it left.
    pub fn counted(&self) -> impl Iterator<Item = (Item, &Outcome)> {
        let items = self.list.iter().copied().zip(&self.outcomes);
        items.filter(|(item, _)| item.counts(self.n))
    }

    /// A head's own items that count, in order, each as if this head had been named first.
    pub fn own(&self, head: usize) -> (Vec<Item>, Vec<Outcome>) {
        let own = self.counted().filter(|(item, _)| item.has(head));
        let head_first = |(item, outcome): (Item, &Outcome)| {
            if item.heads()[0] == head {
                (item, outcome.clone())
            } else {
                (item.renamed(), renamed(outcome))
            }
        };
        own.map(head_first).unzip()
    }

    pub fn show(&self) {
        println!("  a list, and the images that it left:");
        self.list.iter().for_each(|item| println!("    {item:?}"));
        self.images[1..].iter().for_each(|image| println!("    {}", hex(image)));
    }
}

/// What an accepted meeting left, read with the two named the other way: the images change places,
/// and the verdicts 1 and 2 are exchanged.
pub fn renamed(outcome: &Outcome) -> Outcome {
    let [first, second, verdicts] = &outcome.runs[..] else { panic!("a meeting has three runs") };
    let exchanged = verdicts.iter().map(|&verdict| [0, 2, 1][verdict as usize]).collect();
    Outcome { answer: outcome.answer, runs: vec![second.clone(), first.clone(), exchanged] }
}
