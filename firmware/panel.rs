//! Compares the library's wall panels with the model, on images and on their packed forms side by
//! side, and reads the lines back: they must say what the heard list says.

#[allow(dead_code)]
mod calls;
mod heads;
#[allow(dead_code)]
mod images;
#[allow(dead_code)]
mod lists;
#[allow(dead_code)]
mod model;
#[allow(dead_code)]
mod packed_calls;
mod pairs;
#[allow(dead_code)]
mod parlour;
#[allow(dead_code)]
mod singles;
#[allow(dead_code)]
mod tally;

use calls::{hex, records, share_of, Outcome, Record, PLAIN};
use images::{twin, Random};
use model::{label_limit, Form, Table, LEAST, MOST, NOT_MILKED, PANEL_LENGTH};
use packed_calls::PACKED;
use parlour::{Parlour, Seen};
use std::collections::BTreeSet;
use std::process::exit;
use tally::Tally;

/// What is counted and required besides what heads show. No line is longer than one with 10.0
/// litres or more, and the longest text has such a line for every stall.
const NOBODY: &str = "heads: nobody heard";
const DASH: &str = "lines: not milked";
const BELOW_ONE: &str = "lines: 0.0 to 0.9 litres";
const BELOW_TEN: &str = "lines: 1.0 to 9.9 litres";
const FROM_TEN: &str = "lines: 10.0 to 99.9 litres";
const LONGEST: &str = "texts: the longest";

/// How many different yields a text can have: 0 to 999, and not milked.
const YIELDS: usize = 1001;

/// Lengths of buffers: the right one and those next to it, others, and some that have the lowest
/// byte or the two lowest bytes of the right one.
const LENGTHS: [usize; 10] = [
    0,
    1,
    48,
    PANEL_LENGTH / 2,
    PANEL_LENGTH - 1,
    PANEL_LENGTH,
    PANEL_LENGTH + 1,
    2 * PANEL_LENGTH,
    PANEL_LENGTH + 512,
    PANEL_LENGTH + 65_536,
];

/// The length of the longest text: each rank and each stall up to n once, and in each line two blanks
/// and a yield of 10.0 litres or more.
fn longest(n: usize) -> usize {
    let digits: usize = (1..=n).map(|number| number.to_string().len()).sum();
    2 * digits + n * "  99.9\n".len()
}

/// A line of a text: its rank, and what it says as a record.
type Line = (usize, Record);

/// A number without leading zeros.
fn number(text: &str) -> Option<u16> {
    let is_number =
        text.bytes().all(|c| c.is_ascii_digit()) && (text == "0" || !text.starts_with('0'));
    text.parse().ok().filter(|_| is_number)
}

/// Litres with one decimal, or not milked.
fn decilitres(text: &str) -> Option<u16> {
    if text == "-" {
        return Some(NOT_MILKED);
    }
    let (whole, decimal) = text.split_once('.')?;
    let decimal = number(decimal).filter(|&decimal| decimal < 10)?;
    Some(10 * number(whole)? + decimal)
}

fn line(text: &str) -> Option<Line> {
    let [rank, stall, litres] = text.strip_suffix('\n')?.split(' ').collect::<Vec<_>>()[..] else {
        return None;
    };
    Some((number(rank)? as usize, (number(stall)? as usize, decilitres(litres)?)))
}

/// The lines of a text, if it is nothing but lines.
fn lines(text: &[u8]) -> Option<Vec<Line>> {
    std::str::from_utf8(text).ok()?.split_inclusive('\n').map(line).collect()
}

fn fail(what: &str, image: &[u8], panel: &Outcome) -> ! {
    println!("{what}\n  the image is {}, the answer {}", hex(image), panel.answer);
    println!("  the text is {:?}", String::from_utf8_lossy(&panel.runs[1]));
    exit(1);
}

/// Ends the run unless 1 to 6 come before 8, which is for a buffer of another length alone.
fn expect_number(number: u32, image: &[u8], panel: &Outcome) {
    let is_so = match (number, panel.runs[1].len()) {
        (1.., _) => panel.answer == 256 + number,
        (0, PANEL_LENGTH) => panel.answer as usize <= PANEL_LENGTH,
        (0, _) => panel.answer == 256 + 8,
    };
    if !is_so {
        fail(&format!("number {number} in a panel"), image, panel);
    }
}

/// An image and its packed form, if its size has one.
type Both = Vec<Vec<u8>>;

fn both(table: &Table) -> Both {
    let has = |form: &Form| form.sizes().contains(&table.n);
    [Form::Plain, Form::Packed].into_iter().filter(has).map(|form| form.bytes(table)).collect()
}

/// What the calls showed on plain images and on packed ones, and the texts.
struct Test {
    forms: [Seen; 2],
    tally: Tally,
    /// The yields that stood in a text.
    yields: BTreeSet<u16>,
}

impl Test {
    /// The panel of an image of a form, in a buffer that has no zero before. It is refused as the
    /// check refuses the image, or for its buffer. The lines of an accepted one are ranked from 1
    /// and say what the heard list says; zeros follow.
    fn write(&mut self, form: usize, image: &[u8], len: usize) -> Outcome {
        let Seen { calls, counts, .. } = &mut self.forms[form];
        let panel = calls.panel(counts, image, &vec![0xee; len]);
        expect_number(calls.check(counts, image), image, &panel);
        if panel.answer < 256 {
            let list = calls.heard(counts, image, &vec![0xee; 3 * image[0] as usize]);
            let list = records(&list.runs[1][..3 * list.answer as usize]);
            let (text, rest) = panel.runs[1].split_at(panel.answer as usize);
            let is_list = lines(text) == Some((1..).zip(list).collect());
            if !is_list || rest.iter().any(|&byte| byte != 0) {
                fail("the lines are not those of the heard list", image, &panel);
            }
        }
        panel
    }

    /// The panels of an image and of its packed form: the same answer and text.
    fn write_both(&mut self, images: &Both, len: usize) -> u32 {
        let plain = self.write(0, &images[0], len);
        for packed in images[1..].iter().map(|packed| self.write(1, packed, len)) {
            if plain.answer != packed.answer || plain.runs[1] != packed.runs[1] {
                fail("another panel than that of the packed form", &images[0], &plain);
            }
        }
        plain.answer
    }

    /// The panels of an accepted table.
    fn show(&mut self, table: &Table) {
        let len = self.write_both(&both(table), PANEL_LENGTH);
        let (n, yields) = (table.n, heads::yields_of(table));
        heads::note(&mut self.tally, &yields);
        self.tally.add(NOBODY, n, (len == 0) as usize);
        self.tally.add(LONGEST, n, (len as usize == longest(n)) as usize);
        for new in yields.into_iter().flatten() {
            let kind = match new {
                NOT_MILKED => DASH,
                0..=9 => BELOW_ONE,
                10..=99 => BELOW_TEN,
                _ => FROM_TEN,
            };
            self.tally.add(kind, n, 1);
            self.yields.insert(new);
        }
    }
}

/// Each yield, of one stall and of all, in texts of so many sizes.
fn each_yield(random: &mut Random, test: &mut Test, sizes: usize) {
    for new in (0..=999).chain([NOT_MILKED]) {
        for n in (0..sizes).map(|size| LEAST + (new as usize + size) % (MOST - LEAST + 1)) {
            let stall = random.stall(n);
            let mut table = images::full(random, n, stall);
            images::put_yield(&mut table, random.stall(n), new);
            test.show(&table);
            (1..=n).for_each(|r| images::put_yield(&mut table, r, new));
            test.show(&table);
        }
    }
}

/// Heads whose yields have every order: so many in a thousand.
fn each_order(random: &mut Random, test: &mut Test, share: usize) {
    heads::each_head(random, LEAST..=MOST, share, |table| test.show(table));
}

/// Heads of lists: fresh, and those of each item after it.
fn from_lists(random: &mut Random, test: &mut Test, rounds: usize) {
    for n in LEAST..=MOST {
        for round in 1..=rounds {
            let list = lists::draw_round(random, n, round);
            let mut parlour = Parlour::open(random, n, &mut test.forms[0]);
            (1..=n).for_each(|head| test.show(&parlour.table(head)));
            for item in list {
                item.make(random, &mut test.forms[0], &mut parlour);
                item.heads().iter().for_each(|&head| test.show(&parlour.table(head)));
            }
        }
    }
}

/// Both forms of a head that has heard all, with one fault: the one that has this number, or none.
fn with_fault(random: &mut Random, n: usize, number: u32) -> Both {
    let own = random.stall(n);
    let mut table = images::full(random, n, own);
    let (s, r) = (random.stall(n), random.stall(n));
    match number {
        3 => table.stall = random.pick(&[0, n + 1, 255]),
        4 => images::put_yield(&mut table, random.below(n + 1), 1000 + random.below(64_535) as u16),
        5 => [(s, r), twin(&table, s, r)]
            .iter()
            .for_each(|&(s, r)| table.rows[s][r].label = label_limit(n) as u8 + 1),
        6 => table.order[r] &= !(1 << (own - 1)),
        _ => (),
    }
    let (first, change) = (random.pick(&[0, 1, MOST as u8 + 1, 255]), 1 + random.below(5));
    let (is_empty, is_longer) = (random.percent(20), random.percent(50));
    let mut images = both(&table);
    for image in &mut images {
        match number {
            1 if is_empty => image.clear(),
            1 => image[0] = first,
            2 if is_longer => image.resize(image.len() + change, 0),
            2 => image.truncate(image.len() - change),
            _ => (),
        }
    }
    images
}

/// Each fault, and none, with buffers of each length.
fn each_fault(random: &mut Random, test: &mut Test, rounds: usize) {
    for n in (LEAST..=MOST).flat_map(|n| vec![n; rounds]) {
        for number in 0..=6 {
            let images = with_fault(random, n, number);
            for len in LENGTHS.into_iter().chain([random.below(300)]) {
                let answer = test.write_both(&images, len);
                if number != 0 && answer != 256 + number {
                    println!("fault {number} is answered {answer}: {}", hex(&images[0]));
                    exit(1);
                }
            }
        }
    }
}

/// Images of any kind in either form, many of them damaged, with buffers of any length.
fn of_any_kind(random: &mut Random, test: &mut Test, steps: usize) {
    for _ in 0..steps {
        for form in [0, 1] {
            let image = singles::image(random, test.forms[form].calls.form);
            let len = singles::buffer_len(random, PANEL_LENGTH);
            test.write(form, &image, len);
        }
    }
}

/// Each number came up in both forms, each yield in a text, and each thing with every number of
/// heads.
fn require(test: &Test) {
    test.forms.iter().for_each(|seen| seen.counts.require("panel", (0..=6).chain([8])));
    heads::require(&test.tally, LEAST..=MOST);
    for kind in [NOBODY, DASH, BELOW_ONE, BELOW_TEN, FROM_TEN, LONGEST] {
        test.tally.require(kind, LEAST..=MOST);
    }
    println!("  {} different yields in texts", test.yields.len());
    if test.yields.len() != YIELDS {
        println!("a yield never came up");
        exit(1);
    }
}

fn main() {
    let forms = [&PLAIN, &PACKED].map(Seen::new);
    let mut test = Test { forms, tally: Tally::default(), yields: BTreeSet::new() };
    let parts: [(&str, u64, usize, fn(&mut Random, &mut Test, usize)); 5] = [
        ("each yield", 0x5eed_0051, share_of(15).max(1), each_yield),
        ("each order", 0x5eed_0052, share_of(100), each_order),
        ("from lists", 0x5eed_0053, share_of(60), from_lists),
        ("each fault", 0x5eed_0054, share_of(100), each_fault),
        ("of any kind", 0x5eed_0055, share_of(100_000), of_any_kind),
    ];
    for (kind, seed, share, part) in parts {
        println!("panel: {kind}: seed {seed:#x}");
        part(&mut Random(seed), &mut test, share);
    }
    for (form, seen) in ["plain", "packed"].iter().zip(&test.forms) {
        println!("  {form} images");
        seen.counts.print();
    }
    test.tally.print();
    require(&test);
}
