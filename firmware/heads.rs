//! Heads whose yields have every order, for what is written in ranking order, and what came up.

use crate::images::{self, Random};
use crate::model::{Table, NOT_MILKED};
use crate::tally::Tally;
use std::ops::RangeInclusive;

/// What is counted and required. Not milked is among milked where a milked stall has a higher
/// number.
const HEADS: &str = "heads";
const OF_ONE: &str = "heads: one stall heard";
const EQUAL: &str = "heads: equal yields";
const DRY: &str = "heads: 0 beside not milked";
const AMONG: &str = "heads: not milked among milked";
const NONE_MILKED: &str = "heads: all of two or more not milked";
const REVERSED: &str = "heads: all stalls, the last first";

/// What a head has of each stall, the first at 0: nothing heard, or a yield.
pub type Yields = Vec<Option<u16>>;

/// What a stall can have: as many different yields as 6 stalls need for every order of theirs. Of
/// 255 and 256 the smaller has the larger low byte.
const KINDS: [Option<u16>; 8] =
    [None, Some(NOT_MILKED), Some(0), Some(999), Some(255), Some(256), Some(1), Some(512)];

/// How many of these each stall has, by number of heads: as many as are soon tried in turn.
fn kinds_of(n: usize) -> usize {
    match n {
        7 => 6,
        8 => 5,
        _ => KINDS.len(),
    }
}

/// A different one for each of so many stalls, 0 among them.
const DIFFERENT: [u16; 16] = [0, 1, 7, 255, 256, 511, 512, 999, 9, 10, 99, 100, 257, 640, 768, 998];

/// The most heads of which all are tried in turn.
const MOST_IN_TURN: usize = 8;

/// A head that has this, whatever else it has.
fn head(random: &mut Random, yields: &Yields) -> Table {
    let n = yields.len();
    let heard: Vec<usize> = (1..=n).filter(|&r| yields[r - 1].is_some()).collect();
    let stall = if heard.is_empty() { random.stall(n) } else { random.pick(&heard) };
    let mut table = images::that_heard(random, n, stall, &heard);
    heard.iter().for_each(|&r| images::put_yield(&mut table, r, yields[r - 1].unwrap()));
    table
}

/// What a head has.
pub fn yields_of(table: &Table) -> Yields {
    table.stalls().map(|r| table.heard(r).then_some(table.yields[r])).collect()
}

/// The order with this number, of all that so many places can have.
fn order(n: usize, mut number: usize) -> impl Iterator<Item = usize> {
    let mut left: Vec<usize> = (0..n).collect();
    (1..=n).rev().map(move |count| {
        let at = number % count;
        number /= count;
        left.remove(at)
    })
}

/// Any yields; few, so that many are equal; none milked; one stall; or rising with the stall.
fn draw(random: &mut Random, n: usize) -> Yields {
    let few = [random.good_yield(), random.good_yield(), NOT_MILKED];
    let heard_percent = random.pick(&[50, 80, 100]);
    let step = 1 + random.below(999 / n);
    let alone = random.stall(n);
    let kind = random.below(5);
    let draw_one = |r: usize| match kind {
        0 => random.percent(heard_percent).then(|| random.image_yield()),
        1 => random.percent(heard_percent).then(|| random.pick(&few)),
        2 => random.percent(heard_percent).then_some(NOT_MILKED),
        3 => (r == alone).then(|| random.image_yield()),
        _ => Some((step * r) as u16),
    };
    (1..=n).map(draw_one).collect()
}

/// Numbers of such heads, of this many that there are: so many in a thousand, or all if they are few;
/// of large parlours some are drawn.
fn numbers(random: &mut Random, n: usize, all: usize, share: usize) -> Vec<usize> {
    if n > MOST_IN_TURN {
        return (0..10 * share).map(|_| random.below(all)).collect();
    }
    (0..all).filter(|_| all < 1_000 || random.below(1_000) < share).collect()
}

/// Each of the kinds for each stall.
fn each_kind(random: &mut Random, n: usize, share: usize, each: &mut impl FnMut(&Table)) {
    let kinds = kinds_of(n);
    for number in numbers(random, n, kinds.pow(n as u32), share) {
        let kind = |r: u32| KINDS[number / kinds.pow(r) % kinds];
        each(&head(random, &(0..n as u32).map(kind).collect()));
    }
}

/// Each order of stalls that differ in their yields, the lowest of these milked or not.
fn each_order(random: &mut Random, n: usize, share: usize, each: &mut impl FnMut(&Table)) {
    for number in numbers(random, n, (1..=n).product(), share) {
        let mut rising = DIFFERENT[..n].to_vec();
        rising.sort();
        rising[0] = random.pick(&[0, NOT_MILKED]);
        each(&head(random, &order(n, number).map(|place| Some(rising[place])).collect()));
    }
}

/// So many in a thousand of all these heads in parlours of these sizes, and of those that are drawn
/// enough for each thing to come up.
pub fn each_head(
    random: &mut Random,
    sizes: RangeInclusive<usize>,
    share: usize,
    mut each: impl FnMut(&Table),
) {
    for n in sizes {
        each_kind(random, n, share, &mut each);
        each_order(random, n, share, &mut each);
        for _ in 0..(5 * share).max(50) {
            let yields = draw(random, n);
            each(&head(random, &yields));
        }
    }
}

/// Counts what a head shows.
pub fn note(tally: &mut Tally, yields: &Yields) {
    let n = yields.len();
    let heard: Vec<u16> = yields.iter().copied().flatten().collect();
    let milked: Vec<u16> = heard.iter().copied().filter(|&new| new != NOT_MILKED).collect();
    let mut different = milked.clone();
    different.sort();
    different.dedup();
    let among = |two: &[u16]| two[0] == NOT_MILKED && two[1] != NOT_MILKED;
    let shown = [
        (HEADS, true),
        (OF_ONE, heard.len() == 1),
        (EQUAL, different.len() < milked.len()),
        (DRY, heard.contains(&0) && heard.contains(&NOT_MILKED)),
        (AMONG, heard.windows(2).any(among)),
        (NONE_MILKED, milked.is_empty() && heard.len() > 1),
        (REVERSED, milked.len() == n && different == milked),
    ];
    shown.iter().for_each(|&(kind, is_so)| tally.add(kind, n, is_so as usize));
}

/// Ends the run if one of these things never came up with one of these numbers of heads.
pub fn require(tally: &Tally, sizes: RangeInclusive<usize>) {
    for kind in [HEADS, OF_ONE, EQUAL, DRY, AMONG, NONE_MILKED, REVERSED] {
        tally.require(kind, sizes.clone());
    }
}
