//! Images of every kind, and the calls on one image.

use crate::calls::{Calls, Counts};
use crate::images::{self, Random};
use crate::model::{Form, Table, MOST};

/// An image of some kind: fresh, accepted, damaged, or any bytes at all.
pub fn image(random: &mut Random, form: Form) -> Vec<u8> {
    let n = random.size(form);
    let stall = random.stall(n);
    let table = match random.below(8) {
        0 => Table::fresh(n, stall),
        _ => images::accepted(random, n, stall),
    };
    let mut image = form.bytes(&table);
    match random.below(10) {
        0..=3 => (),
        4..=8 => images::damage(random, form, &mut image),
        _ => image = any_bytes(random, form),
    }
    image
}

/// Bytes that no head wrote; with a good start and length often enough, and most others as in a fresh
/// image.
fn any_bytes(random: &mut Random, form: Form) -> Vec<u8> {
    let n = if random.percent(90) { random.below(MOST + 2) } else { 255 };
    let len = if random.percent(60) { form.length(n.min(MOST + 1)) } else { random.below(600) };
    let mut image = random.bytes(len);
    let is_size = form.sizes().contains(&n);
    let fresh = if is_size { form.bytes(&Table::fresh(n, 1)) } else { vec![] };
    for (at, byte) in image.iter_mut().enumerate() {
        match at {
            0 => *byte = n as u8,
            1 => *byte = random.below(MOST + 2) as u8,
            _ if random.percent(90) => *byte = fresh.get(at).copied().unwrap_or(0),
            _ => (),
        }
    }
    image
}

/// The length of a buffer: now and then a wrong one.
pub fn buffer_len(random: &mut Random, right: usize) -> usize {
    match random.below(12) {
        0 => 0,
        1 => right.saturating_sub(1),
        2 => right + 1,
        3 => random.below(600),
        _ => right,
    }
}

/// One call of fresh, with every part of it right or wrong.
fn fresh(random: &mut Random, calls: &Calls, counts: &mut Counts) {
    let n = if random.percent(80) { random.size(calls.form) } else { random.byte() as usize };
    let stall = if random.percent(70) { random.stall(n.max(1)) } else { random.below(20) };
    let len = buffer_len(random, calls.form.length(n.min(MOST + 1)));
    let before = random.bytes(len);
    calls.fresh(counts, &before, n as u8, stall as u8);
}

/// The length of a buffer of N bytes: right or nearly so, or any that is right for another N.
pub fn counts_len(random: &mut Random, n: usize) -> usize {
    if random.percent(70) {
        buffer_len(random, n)
    } else {
        random.below(MOST + 3)
    }
}

/// Each call of the tables on one image, with every part of it right or wrong.
pub fn call_each(random: &mut Random, calls: &Calls, counts: &mut Counts) {
    let mut image = image(random, calls.form);
    calls.check(counts, &image);
    let n = image.first().map_or(2, |&n| n as usize);
    let len = buffer_len(random, 3 * n);
    calls.heard(counts, &image, &random.bytes(len));
    let len = counts_len(random, n);
    calls.settled(counts, &image, &random.bytes(len));
    calls.milking(counts, &mut image, random.any_yield());
    fresh(random, calls, counts);
}
