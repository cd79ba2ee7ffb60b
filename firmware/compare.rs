//! Compares the library's fresh, check, milking, heard and settled with the model, on images of
//! every kind, and heard lists of every order.

#[allow(dead_code)]
mod calls;
mod heads;
mod heard;
#[allow(dead_code)]
mod images;
#[allow(dead_code)]
mod model;
mod singles;
#[allow(dead_code)]
mod tally;

use calls::{hex, share_of, Counts, Labels, PLAIN};
use images::{edge_labels, twin, Random, EDGES};
use model::{label_limit, order_width, Form, Name, Table, LEAST, MOST};
use std::process::exit;

const SEED: u64 = 0x5eed_0001;

/// The check of an image that has this yield in this place; answers the image.
fn check_yield(counts: &mut Counts, table: &Table, place: usize, new: u16) -> Vec<u8> {
    let mut changed = table.clone();
    images::put_yield(&mut changed, place, new);
    let image = changed.to_bytes();
    let number = PLAIN.check(counts, &image);
    counts.add_number(calls::yields_at(table, place), number);
    image
}

/// What an image has heard and what is settled, and a milking with a yield at an edge.
fn list_and_milk(random: &mut Random, counts: &mut Counts, image: &mut [u8]) {
    let n = image[0] as usize;
    PLAIN.heard(counts, image, &random.bytes(3 * n));
    PLAIN.settled(counts, image, &random.bytes(n));
    PLAIN.milking(counts, image, random.pick(&EDGES));
}

/// Each yield at an edge in each place of a table.
fn edges_of(random: &mut Random, counts: &mut Counts, table: &Table) {
    for place in 0..=table.n {
        for new in EDGES {
            let mut image = check_yield(counts, table, place, new);
            list_and_milk(random, counts, &mut image);
        }
    }
}

/// Fresh and other accepted images of every size, so often, with each yield at an edge.
fn edges(random: &mut Random, counts: &mut Counts, rounds: usize) {
    for n in (LEAST..=MOST).flat_map(|n| vec![n; rounds]) {
        let stall = random.stall(n);
        let other = images::accepted(random, n, stall);
        edges_of(random, counts, &Table::fresh(n, stall));
        edges_of(random, counts, &other);
    }
}

/// The labels of images that are good but for the label: of those taken, of those refused with 5.
#[derive(Default)]
struct Tried {
    taken: Labels,
    refused: Labels,
}

/// The calls on a table with this label in row s, column r: there alone, then in its twin too,
/// which leaves no other fault.
fn try_label(
    random: &mut Random,
    counts: &mut Counts,
    tried: &mut Tried,
    mut table: Table,
    (s, r, label): (usize, usize, u8),
) {
    let [_, number] = [(s, r), twin(&table, s, r)].map(|(s, r)| {
        table.rows[s][r].label = label;
        let mut image = table.to_bytes();
        let number = PLAIN.check(counts, &image);
        list_and_milk(random, counts, &mut image);
        number
    });
    match number {
        0 => tried.taken.add(table.n, label as usize),
        5 => tried.refused.add(table.n, label as usize),
        _ => (),
    }
}

/// Images of every size with a name in every place, so often, with each label at an edge in each; in
/// large ones, where few calls are to be made, in some.
fn labels(random: &mut Random, counts: &mut Counts, rounds: usize) -> Tried {
    let mut tried = Tried::default();
    for n in (LEAST..=MOST).flat_map(|n| vec![n; rounds]) {
        let stall = random.stall(n);
        let table = images::full(random, n, stall);
        for (s, r) in (1..=n).flat_map(|s| (1..=n).map(move |r| (s, r))) {
            if n > 8 && random.below(1_000) >= share_of(1_000).max(100) {
                continue;
            }
            for label in edge_labels(n) {
                try_label(random, counts, &mut tried, table.clone(), (s, r, label));
            }
        }
    }
    tried
}

/// Of each size the labels up to the limit were taken, and the one above was refused.
fn require_labels(tried: &Tried) {
    for n in LEAST..=MOST {
        let limit = label_limit(n);
        let [below, at, above] = [limit - 1, limit, limit + 1];
        print!("  {n} heads: label {below} taken {} times, ", tried.taken.of(n, below));
        print!("{at} taken {} times, ", tried.taken.of(n, at));
        println!("{above} refused {} times", tried.refused.of(n, above));
        tried.taken.require(n, [below, at]);
        tried.refused.require(n, [above]);
    }
}

/// Bytes at which a test of several bytes in one word could go wrong: about none, about the limits
/// of partners, labels and yields, and about the eighth bit.
fn edge_bytes(n: usize) -> [u8; 13] {
    let [n, limit] = [n, label_limit(n)].map(|edge| edge as u8);
    [0, 1, 3, n, n + 1, limit, limit + 1, 127, 128, 129, 0xe7, 0xe8, 255]
}

fn pairs_of(bytes: &[u8]) -> impl Iterator<Item = (u8, u8)> + '_ {
    bytes.iter().flat_map(move |&first| bytes.iter().map(move |&second| (first, second)))
}

/// Accepted images of every size with each two such bytes side by side in each place, so many in a
/// thousand: no byte may show in the judgement of its neighbour.
fn neighbours(random: &mut Random, counts: &mut Counts, share: usize) {
    for n in LEAST..=MOST {
        let stall = random.stall(n);
        let image = images::accepted(random, n, stall).to_bytes();
        for at in 2..image.len() - 1 {
            for (first, second) in pairs_of(&edge_bytes(n)) {
                if random.below(1_000) >= share {
                    continue;
                }
                let mut changed = image.clone();
                changed[at] = first;
                changed[at + 1] = second;
                PLAIN.check(counts, &changed);
            }
        }
    }
}

/// Ends the run unless an image is refused with this number, or taken where it is 0.
fn expect_number(counts: &mut Counts, wanted: u32, image: &[u8]) {
    let number = PLAIN.check(counts, image);
    if number != wanted {
        println!("number {number}, not {wanted}: {}", hex(image));
        exit(1);
    }
}

/// The length of an image with order entries of so many bytes.
fn length_with(n: usize, width: usize) -> usize {
    Form::Plain.orders_at(n) + width * n
}

/// Fresh images and their buffers, of every size and with every other N, or some, cut off or made
/// longer to lengths next to the right one of each size, be order entries of one byte or of two.
fn lengths(counts: &mut Counts) {
    let of_size = |n| [1, 2].map(|width| length_with(n, width));
    let near = |len: usize| [len - 1, len, len + 1];
    let lens: Vec<usize> = (LEAST..=MOST).flat_map(of_size).flat_map(near).chain([0, 1]).collect();
    for n in (0..=255).filter(|&n| share_of(256) == 256 || n < MOST + 3 || n == 255) {
        let is_size = Form::Plain.sizes().contains(&n);
        let fresh = Table::fresh(n.clamp(LEAST, MOST), 1).to_bytes();
        for &len in &lens {
            let mut image = fresh.clone();
            image.resize(len, 0);
            PLAIN.fresh(counts, &image, n as u8, 1);
            image.iter_mut().take(1).for_each(|first| *first = n as u8);
            let is_right = is_size && len == length_with(n, order_width(n));
            let number = if !is_size || len == 0 { 1 } else { 2 };
            expect_number(counts, if is_right { 0 } else { number }, &image);
        }
    }
}

/// Heads that have heard of all stalls, so often of every size, with each bit of each order entry
/// the other way: a mark that check 6 asks for, one of those that may be there or not, or one above
/// N.
fn marks(random: &mut Random, counts: &mut Counts, rounds: usize) {
    for n in (LEAST..=MOST).flat_map(|n| vec![n; rounds]) {
        let stall = random.stall(n);
        let table = images::full(random, n, stall);
        for (r, s) in (1..=n).flat_map(|r| (1..=8 * order_width(n)).map(move |s| (r, s))) {
            let mut changed = table.clone();
            changed.order[r] ^= 1 << (s - 1);
            let must_stay = s == r || s == stall || s > n;
            expect_number(counts, if must_stay { 6 } else { 0 }, &changed.to_bytes());
        }
    }
}

/// Every yield: milked, and in each place of an image whose head has heard of itself alone.
fn all_yields(counts: &mut Counts) {
    let mut table = Table::fresh(2, 1);
    table.rows[1][1] = Name { partner: 2, label: 0 };
    table.set_mark(1, 1);
    for new in (0..=u16::MAX).filter(|new| share_of(65_536) == 65_536 || new % 997 < 3) {
        PLAIN.milking(counts, &mut Table::fresh(2, 1).to_bytes(), new);
        for place in 0..=2 {
            check_yield(counts, &table, place, new);
        }
    }
}

fn main() {
    println!("compare: seed {SEED:#x}");
    let mut random = Random(SEED);
    let mut counts = Counts::default();
    for _ in 0..share_of(70_000) {
        singles::call_each(&mut random, &PLAIN, &mut counts);
    }
    edges(&mut random, &mut counts, share_of(12).max(1));
    let tried = labels(&mut random, &mut counts, share_of(5).max(1));
    neighbours(&mut random, &mut counts, share_of(1_000));
    lengths(&mut counts);
    marks(&mut random, &mut counts, share_of(50).max(1));
    all_yields(&mut counts);
    heard::compare(&mut random, &PLAIN, &mut counts, share_of(1_000));
    counts.print();
    counts.require("fresh", 0..=3);
    counts.require("check", 0..=6);
    counts.require("milking", 0..=6);
    for kind in ["heard", "settled"] {
        counts.require(kind, (0..=6).chain([8]));
    }
    counts.require_yields();
    require_labels(&tried);
}
