//! Compares the library's calls on packed images with the model, on images of every kind, heard
//! lists of every order, and heads that are packed with heads that are not.

#[allow(dead_code)]
mod calls;
mod heads;
mod heard;
#[allow(dead_code)]
mod images;
#[allow(dead_code)]
mod lists;
#[allow(dead_code)]
mod model;
mod packed_calls;
mod pairs;
#[allow(dead_code)]
mod parlour;
mod singles;
#[allow(dead_code)]
mod tally;

use calls::{hex, share_of, Outcome, PLAIN};
use images::{twin, Random};
use lists::Item;
use model::{label_limit, Form, Table, MOST, MOST_PACKED};
use packed_calls::{convert, PACKED};
use parlour::{buffer, Parlour, Seen};
use singles::{buffer_len, counts_len};
use std::process::exit;

/// What the calls showed on plain images and on packed ones.
struct Test {
    plain: Seen,
    packed: Seen,
}

impl Test {
    /// An image and a packed one say the same: each turns into the other, and their heard lists and
    /// what is settled are equal to the byte.
    fn expect_same(&mut self, random: &mut Random, plain: &[u8], packed: &[u8]) {
        let counts = &mut self.packed.counts;
        let turned = [
            convert(counts, Form::Plain, plain, &random.bytes(packed.len())),
            convert(counts, Form::Packed, packed, &random.bytes(plain.len())),
        ];
        let n = plain[0] as usize;
        let lens = [buffer_len(random, 3 * n), counts_len(random, n)];
        let [records, numbers] = lens.map(|len| random.bytes(len));
        let said = [
            PLAIN.heard(&mut self.plain.counts, plain, &records),
            PLAIN.settled(&mut self.plain.counts, plain, &numbers),
        ];
        let packed_said =
            [PACKED.heard(counts, packed, &records), PACKED.settled(counts, packed, &numbers)];
        let same = |(one, other): (&Outcome, &Outcome)| {
            one.answer == other.answer && one.runs[1] == other.runs[1]
        };
        let same_said = said.iter().zip(&packed_said).all(same);
        if *turned[0].runs[1] != *packed || *turned[1].runs[1] != *plain || !same_said {
            println!("not the same: {} and {}", hex(plain), hex(packed));
            exit(1);
        }
    }

    /// Every call of the tables on a packed image of any kind. It meets two others: the first of
    /// them as first and as second, the other as first. Answers the number of the check.
    fn call_all(&mut self, random: &mut Random, image: &[u8], others: [&[u8]; 2]) -> u32 {
        let n = image.first().map_or(2, |&n| n.min(MOST as u8) as usize);
        let counts = &mut self.packed.counts;
        let number = PACKED.check(counts, image);
        let [unpacked_len, records_len] =
            [Form::Plain.length(n), 3 * n].map(|len| buffer_len(random, len));
        convert(counts, Form::Packed, image, &random.bytes(unpacked_len));
        PACKED.heard(counts, image, &random.bytes(records_len));
        let numbers_len = counts_len(random, n);
        PACKED.settled(counts, image, &random.bytes(numbers_len));
        PACKED.milking(counts, &mut image.to_vec(), random.any_yield());
        let [other, damaged_too] = others;
        let verdicts = buffer(random, n.max(2), 3);
        self.packed.meet("damaged, as first", image, other, &verdicts);
        self.packed.meet("damaged, as second", other, image, &verdicts);
        self.packed.meet("damaged, both", image, damaged_too, &verdicts);
        number
    }
}

/// Ends the run unless the same call on plain and on packed heads has the same answer, and leaves
/// the same verdicts.
fn expect_same_answers(what: &str, plain: &Outcome, packed: &Outcome) {
    if plain.answer != packed.answer || plain.runs.get(2) != packed.runs.get(2) {
        println!("{what}: plain answers {}, packed {}", plain.answer, packed.answer);
        exit(1);
    }
}

/// Lists of every size with items that do not count, on plain and on packed heads side by side.
fn side_by_side(random: &mut Random, test: &mut Test, rounds: usize) {
    for n in Form::Packed.sizes().flat_map(|n| vec![n; rounds]) {
        let count = 10 + random.below(90);
        let list = lists::draw(random, n, count);
        let list = lists::sprinkled(random, n, &list);
        make_both(random, test, n, &list);
    }
}

fn make_both(random: &mut Random, test: &mut Test, n: usize, list: &[Item]) {
    let mut plain = Parlour::open(random, n, &mut test.plain);
    let mut packed = Parlour::open(random, n, &mut test.packed);
    for head in 1..=n {
        test.expect_same(random, &plain.images[head], &packed.images[head]);
    }
    for item in list {
        let one = item.make(random, &mut test.plain, &mut plain);
        let other = item.make(random, &mut test.packed, &mut packed);
        expect_same_answers(&format!("{item:?}"), &one, &other);
        for head in item.heads() {
            test.expect_same(random, &plain.images[head], &packed.images[head]);
        }
    }
}

/// Accepted images from no list, plain and packed: some with names up to the highest label, some of
/// which do not go together.
fn from_no_list(random: &mut Random, test: &mut Test, steps: usize) {
    for step in 0..steps {
        let n = 3 + step / 8 % (MOST_PACKED - 2);
        let lowest = random.pick(&[0, 1, label_limit(n) as u8]);
        let (first, second) = match step % 8 {
            0 => images::used_up(random, n, lowest),
            1 => {
                let (first, _) = images::related(random, Form::Packed);
                let odd = images::mismatch(random, Form::Packed, &first);
                (first, odd)
            }
            _ => images::related(random, Form::Packed),
        };
        meet_both(random, test, [first, second]);
    }
}

fn meet_both(random: &mut Random, test: &mut Test, tables: [Table; 2]) {
    let [plain, packed] =
        [Form::Plain, Form::Packed].map(|form| tables.each_ref().map(|table| form.bytes(table)));
    let verdicts = buffer(random, tables[0].n, 5);
    let met = test.plain.meet("from no list", &plain[0], &plain[1], &verdicts);
    let packed_met = test.packed.meet("from no list", &packed[0], &packed[1], &verdicts);
    expect_same_answers("images from no list", &met, &packed_met);
    for head in 0..2 {
        test.expect_same(random, &plain[head], &packed[head]);
        test.expect_same(random, &met.runs[head], &packed_met.runs[head]);
    }
}

/// Calls on one packed image of any kind; images of any kind, plain and packed, turned into the
/// other form.
fn of_any_kind(random: &mut Random, test: &mut Test, steps: usize) {
    let counts = &mut test.packed.counts;
    for _ in 0..steps {
        singles::call_each(random, &PACKED, counts);
        for form in [Form::Plain, Form::Packed] {
            let image = singles::image(random, form);
            let n = image.first().map_or(2, |&n| n.min(MOST as u8) as usize);
            let len = buffer_len(random, form.other().length(n));
            convert(counts, form, &image, &random.bytes(len));
        }
    }
}

/// A packed image with this byte in place of these names, given by row and column.
fn with_byte(packed: &[u8], places: &[(usize, usize)], byte: u8) -> Vec<u8> {
    let (mut changed, n) = (packed.to_vec(), packed[0] as usize);
    places.iter().for_each(|&(s, r)| changed[4 + n * (s - 1) + r - 1] = byte);
    changed
}

/// Each byte in place of a name, and of its twin, of a full image: there each name is taken that is
/// good by itself. Then each label with a stall's own number in place of none.
fn each_byte(random: &mut Random, test: &mut Test, rounds: usize) {
    for n in Form::Packed.sizes().flat_map(|n| vec![n; rounds]) {
        let stall = random.stall(n);
        let full = images::full(random, n, stall);
        for byte in 0..=255 {
            let (partner, label) = (1 + byte as usize / 32, byte as usize % 32);
            let column = if partner > n { random.stall(n) } else { random.other_stall(n, partner) };
            let is_name = partner <= n && label <= label_limit(n);
            let place = (random.stall(n), column);
            expect_name(test, "each byte", &full, place, byte, if is_name { 0 } else { 5 });
        }
        for table in [Table::fresh(n, stall), images::accepted(random, n, stall)] {
            own_numbers(random, test, &table);
        }
    }
}

fn own_numbers(random: &mut Random, test: &mut Test, table: &Table) {
    let none = |&(s, r): &(usize, usize)| table.named(s, r).is_none();
    let nones: Vec<(usize, usize)> = places(table.n).filter(none).collect();
    for label in (0..32).filter(|_| !nones.is_empty()) {
        let (s, r) = random.pick(&nones);
        let wanted = if label == 0 { 0 } else { 5 };
        expect_name(test, "own number", table, (s, r), 32 * (r as u8 - 1) + label, wanted);
    }
}

/// A table with this byte in a place and in its twin must be taken, or refused with this number.
fn expect_name(
    test: &mut Test,
    kind: &'static str,
    table: &Table,
    (s, r): (usize, usize),
    byte: u8,
    wanted: u32,
) {
    let changed = with_byte(&Form::Packed.bytes(table), &[(s, r), twin(table, s, r)], byte);
    let counts = &mut test.packed.counts;
    let number = PACKED.check(counts, &changed);
    convert(counts, Form::Packed, &changed, &vec![0xee; Form::Plain.length(table.n)]);
    counts.add_number(kind, number);
    if number != wanted {
        println!("{kind}: number {number}, not {wanted}: {}", hex(&changed));
        exit(1);
    }
}

/// Each row with each column.
fn places(n: usize) -> impl Iterator<Item = (usize, usize)> {
    (1..=n).flat_map(move |s| (1..=n).map(move |r| (s, r)))
}

/// Two heads just before they meet: fresh, from a list, from no list, with a name in every place.
fn bases(random: &mut Random, test: &mut Test, n: usize) -> [(Table, Table); 4] {
    let list = lists::draw(random, n, 60);
    let made = lists::make(random, &mut test.packed, n, list);
    let a = random.stall(n);
    let b = random.other_stall(n, a);
    let left = |head: usize| Form::Packed.read(&made.images[head]).ok().unwrap();
    [
        (Table::fresh(n, a), Table::fresh(n, b)),
        (left(a), left(b)),
        images::related_of(random, n),
        (images::full(random, n, a), images::full(random, n, b)),
    ]
}

/// Every byte in place of every name, and in its twin too: so many in 256 of them.
fn all_bytes(random: &mut Random, test: &mut Test, share: usize) {
    for n in Form::Packed.sizes().flat_map(|n| [n; 2]) {
        for (one, other) in bases(random, test, n) {
            for place in places(n) {
                let bytes = (0..=255).filter(|_| random.below(256) < share);
                for byte in bytes.collect::<Vec<u8>>() {
                    put_byte(random, test, [&one, &other], place, byte);
                }
            }
        }
    }
}

fn put_byte(
    random: &mut Random,
    test: &mut Test,
    [one, other]: [&Table; 2],
    (s, r): (usize, usize),
    byte: u8,
) {
    let [packed, other] = [one, other].map(|table| Form::Packed.bytes(table));
    let other_damaged = with_byte(&other, &[(s, r)], byte);
    let both = [(s, r), twin(one, s, r)];
    let tries = if both[0] == both[1] { 1 } else { 2 };
    for put in 1..=tries {
        let damaged = with_byte(&packed, &both[..put], byte);
        let number = test.call_all(random, &damaged, [&other, &other_damaged]);
        test.packed.counts.add_number("damaged: a name", number);
    }
}

/// Packed images of every size cut off or made longer to every length up to 160, and with every
/// first byte: so many in 256 of them.
fn lengths(random: &mut Random, test: &mut Test, share: usize) {
    for n in Form::Packed.sizes() {
        let (one, other) = images::related_of(random, n);
        let [packed, other] = [one, other].map(|table| Form::Packed.bytes(&table));
        let values = (0..=255).filter(|_| random.below(256) < share);
        for value in values.collect::<Vec<u8>>() {
            let mut resized = packed.clone();
            resized.resize(value as usize % 161, value);
            let mut renamed = packed.clone();
            renamed[0] = value;
            for damaged in [&resized, &renamed] {
                let number = test.call_all(random, damaged, [&other, &resized]);
                test.packed.counts.add_number("damaged: length or N", number);
            }
        }
    }
}

/// Packed images damaged in some places.
fn damaged(random: &mut Random, test: &mut Test, steps: usize) {
    for _ in 0..steps {
        let (one, other) = images::related(random, Form::Packed);
        let [mut damaged, other] = [one, other].map(|table| Form::Packed.bytes(&table));
        let mut other_damaged = other.clone();
        images::damage(random, Form::Packed, &mut damaged);
        images::damage(random, Form::Packed, &mut other_damaged);
        let number = test.call_all(random, &damaged, [&other, &other_damaged]);
        test.packed.counts.add_number("damaged: any", number);
    }
}

/// Images of more heads than a packed one can have, so often of every such size, good and damaged:
/// they are not packed, and runs that could be taken for their packed forms are none.
fn over_eight(random: &mut Random, test: &mut Test, rounds: usize) {
    for n in (MOST_PACKED + 1..=MOST).flat_map(|n| vec![n; rounds]) {
        let stall = random.stall(n);
        let good = images::accepted(random, n, stall).to_bytes();
        let mut damaged = good.clone();
        damaged[1..].iter_mut().filter(|_| random.percent(2)).for_each(|byte| *byte ^= 1);
        let other = Form::Packed.bytes(&images::related(random, Form::Packed).0);
        for len in [1, 92, n * n + 3 * n + 4, Form::Packed.length(n), good.len()] {
            for image in [&good[..], &damaged, &good[..len]] {
                let packed =
                    convert(&mut test.packed.counts, Form::Plain, image, &random.bytes(len));
                expect_one(&mut test.packed, "over eight: packing", image, packed.answer);
            }
            let mut run = random.bytes(len);
            PACKED.fresh(&mut test.packed.counts, &run, n as u8, stall as u8);
            run[0] = n as u8;
            let number = test.call_all(random, &run, [&other, &run]);
            expect_one(&mut test.packed, "over eight: packed", &run, number);
        }
    }
}

/// Ends the run unless the number is 1.
fn expect_one(seen: &mut Seen, kind: &'static str, image: &[u8], number: u32) {
    seen.counts.add_number(kind, number);
    if number != 1 {
        println!("{kind}: number {number}, not 1: {}", hex(image));
        exit(1);
    }
}

/// Heard lists of every order: so many in a thousand of them.
fn heard_lists(random: &mut Random, test: &mut Test, share: usize) {
    heard::compare(random, &PACKED, &mut test.packed.counts, share);
}

/// Each call was accepted, and refused in each way that it can be; each verdict came up, and the
/// highest labels.
fn require(test: &Test) {
    let counts = &test.packed.counts;
    counts.require("fresh", 0..=3);
    for kind in ["check", "milking", "damaged: any"] {
        counts.require(kind, 0..=6);
    }
    for kind in ["pack", "unpack", "heard", "settled"] {
        counts.require(kind, (0..=6).chain([8]));
    }
    counts.require("meetings in all", 0..=9);
    for kind in ["damaged, as first", "damaged, as second", "damaged, both"] {
        counts.require(kind, (0..=6).chain([8, 9]));
    }
    counts.require("each byte", [0, 5]);
    counts.require("own number", [0, 5]);
    counts.require("damaged: a name", [0, 5, 6]);
    counts.require("damaged: length or N", [1, 2]);
    counts.require("from lists", [0, 8]);
    counts.require("from no list", [0, 7, 8, 9]);
    counts.require("over eight: packing", [1]);
    counts.require("over eight: packed", [1]);
    println!("  verdicts 0, 1, 2: {:?}", test.packed.verdicts);
    if test.packed.verdicts.contains(&0) {
        println!("a verdict never came up");
        exit(1);
    }
    (3..=MOST_PACKED).for_each(|n| test.packed.labels.require(n, [label_limit(n)]));
}

fn main() {
    let mut test = Test { plain: Seen::new(&PLAIN), packed: Seen::new(&PACKED) };
    let parts: [(&str, u64, usize, fn(&mut Random, &mut Test, usize)); 9] = [
        ("side by side", 0x5eed_0031, share_of(300), side_by_side),
        ("from no list", 0x5eed_0032, share_of(60_000), from_no_list),
        ("of any kind", 0x5eed_0033, share_of(100_000), of_any_kind),
        ("each byte", 0x5eed_0034, share_of(50).max(1), each_byte),
        ("all bytes", 0x5eed_0035, share_of(256), all_bytes),
        ("lengths", 0x5eed_0036, share_of(256), lengths),
        ("damaged", 0x5eed_0037, share_of(100_000), damaged),
        ("heard lists", 0x5eed_0038, share_of(1_000), heard_lists),
        ("over eight", 0x5eed_0039, share_of(200), over_eight),
    ];
    for (kind, seed, share, part) in parts {
        println!("packed: {kind}: seed {seed:#x}");
        part(&mut Random(seed), &mut test, share);
    }
    println!("  plain images");
    test.plain.counts.print();
    println!("  packed images");
    test.packed.counts.print();
    require(&test);
}
