//! Heard lists of heads whose yields have every order, of one form: the library's against the
//! model's, and against the order that request 2026-07 states.

use crate::calls::{hex, records, Calls, Counts, Outcome, Record};
use crate::heads::{self, Yields};
use crate::images::Random;
use crate::model::NOT_MILKED;
use crate::tally::Tally;
use std::process::exit;

/// Request 2026-07: "the largest yield first, equal yields by lower stall number, and heard but not
/// milked last, again by stall number".
fn comes_before((stall, one): Record, (other_stall, other): Record) -> bool {
    match (one == NOT_MILKED, other == NOT_MILKED) {
        (false, true) => true,
        (true, false) => false,
        (false, false) if one != other => one > other,
        _ => stall < other_stall,
    }
}

/// Ends the run unless each heard stall has one record, with its yield; the records are in ranking
/// order; and zeros follow.
fn expect_ranking(yields: &Yields, outcome: &Outcome) {
    let count = yields.iter().flatten().count();
    let (list, rest) = outcome.runs[1].split_at(3 * count);
    let list = records(list);
    let mut by_stall = list.clone();
    by_stall.sort();
    let heard = (1..).zip(yields).filter_map(|(stall, &new)| Some((stall, new?)));
    let is_ranking = list.windows(2).all(|two| comes_before(two[0], two[1]));
    let is_whole = outcome.answer as usize == count && heard.eq(by_stall);
    if !is_whole || !is_ranking || rest.iter().any(|&byte| byte != 0) {
        println!("no ranking of {yields:?}: {}, {}", outcome.answer, hex(&outcome.runs[1]));
        exit(1);
    }
}

/// So many in a thousand of all these lists. No byte of a buffer is zero before.
pub fn compare(random: &mut Random, calls: &Calls, counts: &mut Counts, share: usize) {
    let mut tally = Tally::default();
    heads::each_head(random, calls.form.sizes(), share, |table| {
        let outcome = calls.heard(counts, &calls.form.bytes(table), &vec![0xee; 3 * table.n]);
        let yields = heads::yields_of(table);
        expect_ranking(&yields, &outcome);
        heads::note(&mut tally, &yields);
    });
    tally.print();
    heads::require(&tally, calls.form.sizes());
}
