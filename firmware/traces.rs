//! Whether it shows which of two heads was named first, or which of two calls with no head in
//! common was made first: lists from fresh heads, made again with ends renamed and calls traded.

#[allow(dead_code)]
mod calls;
#[allow(dead_code)]
mod images;
mod lists;
#[allow(dead_code)]
mod model;
mod pairs;
#[allow(dead_code)]
mod parlour;
mod tally;

use calls::{share_of, Outcome, PLAIN};
use images::Random;
use lists::{Item, Made, Order};
use model::{LEAST, MOST};
use pairs::{next_pair, Way};
use parlour::{Parlour, Seen};
use std::collections::BTreeMap;
use std::process::exit;
use tally::{Tally, LONG_LISTS};

/// What is counted and required. Trades are by how many of the two are meetings.
const EITHER_END_VERDICTS: [&str; 2] = ["either end: verdicts 1", "either end: verdicts 2"];
const FROM_NO_LIST: &str = "from no list: other bytes";
const ONE_REFUSED: &str = "trade: one refused";
const NO_COMMON_HEAD: [&str; 3] =
    ["trade: two milkings", "trade: milking and meeting", "trade: two meetings"];
const COMMON_HEAD: [&str; 3] =
    ["common head: two milkings", "common head: milking and meeting", "common head: two meetings"];
const OTHER_BYTES: [&str; 3] = [
    "common head: two milkings, other bytes",
    "common head: milking and meeting, other bytes",
    "common head: two meetings, other bytes",
];
const REORDERED: &str = "own order: lists";
const REORDERED_DIFFERENT: &str = "own order: lists that differ";
const REORDERED_ITEMS: &str = "own order: items";
const REORDERED_MOVED: &str = "own order: items moved";
const RENAMED_VERDICTS: [&str; 2] =
    ["own order: renamed, verdicts 1", "own order: renamed, verdicts 2"];

/// What the calls and the lists showed.
struct Test {
    seen: Seen,
    tally: Tally,
}

impl Test {
    /// Two images meet, each of them first once, with buffers that differ in every byte. Answers
    /// what is left, the second time as if the two had been named as the first time.
    fn meet_both_ways(
        &mut self,
        random: &mut Random,
        kind: &'static str,
        one: &[u8],
        other: &[u8],
    ) -> [Outcome; 2] {
        let buffer = random.bytes(one[0] as usize);
        let inverted: Vec<u8> = buffer.iter().map(|byte| !byte).collect();
        let outcome = self.seen.meet(kind, one, other, &buffer);
        let turned = self.seen.meet(kind, other, one, &inverted);
        if outcome.answer != turned.answer || outcome.answer > 255 {
            println!("{kind}: answers {} and {}", outcome.answer, turned.answer);
            exit(1);
        }
        [outcome, lists::renamed(&turned)]
    }

    /// Counts the verdicts that would be others, were 1 and 2 not exchanged.
    fn note_verdicts(&mut self, kinds: [&'static str; 2], n: usize, verdicts: &[u8]) {
        for (kind, verdict) in kinds.into_iter().zip([1, 2]) {
            self.tally.add(kind, n, verdicts.iter().filter(|&&found| found == verdict).count());
        }
    }
}

/// At each moment of a list two heads meet with either named first.
fn either_end(random: &mut Random, test: &mut Test, n: usize, list: &[Item]) {
    let mut parlour = Parlour::open(random, n, &mut test.seen);
    for item in list {
        item.make(random, &mut test.seen, &mut parlour);
        let (a, b) = next_pair(random, n, Way::Any, (1, 2));
        let (one, other) = (&parlour.images[a], &parlour.images[b]);
        let [outcome, turned] = test.meet_both_ways(random, "either end", one, other);
        if outcome != turned {
            parlour.fail(&format!("heads {a} and {b} meet otherwise when named the other way"));
        }
        test.tally.add("either end: meetings", n, 1);
        test.note_verdicts(EITHER_END_VERDICTS, n, &outcome.runs[2]);
        if random.percent(25) {
            other_yield(random, test, &parlour, (a, b), &outcome.runs[2]);
        }
    }
}

/// Two heads of a list meet with either named first, but one has another yield of a third stall, of
/// which both have the same news: such images come from no list. Label and verdicts are still as in
/// a list, but both are left with the yield that the first has.
fn other_yield(
    random: &mut Random,
    test: &mut Test,
    parlour: &Parlour,
    (a, b): (usize, usize),
    verdicts: &[u8],
) {
    let mut tables = [a, b].map(|head| parlour.table(head));
    let same_news = |&r: &usize| verdicts[r - 1] == 0 && tables[0].heard(r) && r != a && r != b;
    let stalls: Vec<usize> = (1..=parlour.n).filter(same_news).collect();
    if stalls.is_empty() {
        return;
    }
    let (r, changed) = (random.pick(&stalls), random.below(2));
    let drawn = random.below(999) as u16;
    let new = if drawn < tables[changed].yields[r] { drawn } else { drawn + 1 };
    images::put_yield(&mut tables[changed], r, new);
    let [one, other] = tables.map(|table| table.to_bytes());
    let [outcome, turned] = test.meet_both_ways(random, "from no list", &one, &other);
    if outcome.runs[2] != turned.runs[2] {
        parlour.fail(&format!("with another yield of {r} the verdicts on {a} and {b} differ"));
    }
    if outcome.runs[0] == turned.runs[0] || outcome.runs[1] == turned.runs[1] {
        parlour.fail(&format!("another yield of {r} in the images of {a} or {b} is not noticed"));
    }
    test.tally.add(FROM_NO_LIST, parlour.n, 1);
}

/// What a trade of two neighbours is counted as.
fn trade_kind(n: usize, two: &[Item]) -> &'static str {
    let meetings = two.iter().filter(|item| item.is_meeting()).count();
    if two.iter().any(|item| !item.counts(n)) {
        ONE_REFUSED
    } else if two[0].shares_head(two[1]) {
        COMMON_HEAD[meetings]
    } else {
        NO_COMMON_HEAD[meetings]
    }
}

/// Neighbours of a list trade places, two at a time: one trade of each kind that it has.
fn trades(random: &mut Random, test: &mut Test, n: usize, list: &[Item]) {
    let list = lists::sprinkled(random, n, list);
    let mut places: BTreeMap<&str, Vec<usize>> = BTreeMap::new();
    for (place, two) in list.windows(2).enumerate() {
        places.entry(trade_kind(n, two)).or_default().push(place);
    }
    let made = lists::make(random, &mut test.seen, n, list);
    for (kind, places) in places {
        let place = random.pick(&places);
        trade(random, test, &made, place, kind);
    }
}

/// An item and the next trade places. If they have no head in common, or one is refused, every call
/// leaves what it left before. Of the others some must leave other bytes at the end.
fn trade(random: &mut Random, test: &mut Test, made: &Made, place: usize, kind: &'static str) {
    let mut list = made.list.clone();
    list.swap(place, place + 1);
    let mut traded = lists::make(random, &mut test.seen, made.n, list);
    traded.outcomes.swap(place, place + 1);
    let other_bytes = made.images != traded.images;
    test.tally.add(kind, made.n, 1);
    if let Some(meetings) = COMMON_HEAD.iter().position(|&common| common == kind) {
        test.tally.add(OTHER_BYTES[meetings], made.n, other_bytes as usize);
    } else if other_bytes || made.outcomes != traded.outcomes {
        differ(&format!("{kind}, at item {} and the next: it shows", place + 1), made, &traded);
    }
}

/// Ends the run: two lists do not leave the same.
fn differ(what: &str, one: &Made, other: &Made) -> ! {
    println!("{what}; {} heads", one.n);
    one.show();
    other.show();
    exit(1);
}

/// The items of a list in two other orders, in which every head has its own as before.
fn own_orders(random: &mut Random, test: &mut Test, n: usize, list: &[Item]) {
    let given = lists::sprinkled(random, n, list);
    let made = lists::make(random, &mut test.seen, n, given);
    let (by_trades, trades) = lists::by_trades(random, list);
    test.tally.add("own order: trades", n, trades);
    for order in [by_trades, lists::by_turns(random, n, list)] {
        let again = named_anew(random, order.iter().map(|&place| list[place]));
        let again = lists::sprinkled(random, n, &again);
        let again = lists::make(random, &mut test.seen, n, again);
        expect_same(&made, &again);
        note_order(test, n, &order);
        note_renamed(test, list, &order, &again);
    }
}

/// Items of which some meetings are named the other way.
fn named_anew(random: &mut Random, items: impl Iterator<Item = Item>) -> Vec<Item> {
    items.map(|item| if random.percent(50) { item.renamed() } else { item }).collect()
}

/// Two lists in which every head has its own items in the same order leave the same: each call of
/// each head, and every image at the end.
fn expect_same(one: &Made, other: &Made) {
    for head in 1..=one.n {
        let [(items, left), (other_items, other_left)] = [one, other].map(|made| made.own(head));
        assert_eq!(items, other_items);
        if left != other_left {
            differ(&format!("in another order the calls of head {head} differ"), one, other);
        }
    }
    if one.images != other.images {
        differ("in another order other bytes are left", one, other);
    }
}

/// Counts the items that have moved.
fn note_order(test: &mut Test, n: usize, order: &Order) {
    let moved = order.iter().enumerate().filter(|&(at, &place)| at != place).count();
    test.tally.add(REORDERED, n, 1);
    test.tally.add(REORDERED_DIFFERENT, n, (moved > 0) as usize);
    test.tally.add(REORDERED_ITEMS, n, order.len());
    test.tally.add(REORDERED_MOVED, n, moved);
}

/// Counts the meetings of a list that are named the other way in another order of it.
fn note_renamed(test: &mut Test, list: &[Item], order: &Order, again: &Made) {
    for (&place, (item, outcome)) in order.iter().zip(again.counted()) {
        test.tally.add("own order: meetings", again.n, item.is_meeting() as usize);
        if item != list[place] {
            test.tally.add("own order: meetings renamed", again.n, 1);
            test.note_verdicts(RENAMED_VERDICTS, again.n, &outcome.runs[2]);
        }
    }
}

/// Each thing came up with every number of heads that it can come up with.
fn require(test: &Test) {
    let tally = &test.tally;
    tally.require(LONG_LISTS, LEAST..=MOST);
    tally.require(ONE_REFUSED, LEAST..=MOST);
    for meetings in 0..=2 {
        tally.require(NO_COMMON_HEAD[meetings], 2 + meetings..=MOST);
        // Two meetings of 2 heads are the same meeting twice.
        tally.require(OTHER_BYTES[meetings], 2.max(1 + meetings)..=MOST);
    }
    tally.require(REORDERED_DIFFERENT, LEAST..=MOST);
    tally.require_most(REORDERED_DIFFERENT, REORDERED);
    tally.require_most(REORDERED_MOVED, REORDERED_ITEMS);
    test.seen.counts.require("milking", [0, 4]);
    test.seen.counts.require("from lists", [0, 8]);
    require_of_third(tally);
}

/// What takes a third stall: 2 heads of one parlour always have the same news.
fn require_of_third(tally: &Tally) {
    let verdicts = EITHER_END_VERDICTS.into_iter().chain(RENAMED_VERDICTS);
    for kind in verdicts.chain([FROM_NO_LIST]) {
        tally.require(kind, 3..=MOST);
        tally.require_never(kind, 2);
    }
}

/// What is done with a list of so many heads.
type Part = fn(&mut Random, &mut Test, usize, &[Item]);

fn main() {
    let mut test = Test { seen: Seen::new(&PLAIN), tally: Tally::default() };
    let parts: [(&str, u64, usize, Part); 3] = [
        ("either end of the cable", 0x5eed_0021, 300, either_end),
        ("trading places", 0x5eed_0022, 240, trades),
        ("each head's own order", 0x5eed_0023, 240, own_orders),
    ];
    for (kind, seed, rounds, part) in parts {
        println!("traces: {kind}: seed {seed:#x}");
        let mut random = Random(seed);
        for n in LEAST..=MOST {
            for round in 0..share_of(rounds) {
                let list = lists::draw_round(&mut random, n, round);
                test.tally.add_list(n, list.len());
                part(&mut random, &mut test, n, &list);
            }
        }
    }
    test.seen.counts.print();
    test.tally.print();
    require(&test);
}
