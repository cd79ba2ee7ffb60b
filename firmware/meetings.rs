//! Compares the library's meeting with the model, and what lists leave with their history.

#[allow(dead_code)]
mod calls;
mod history;
#[allow(dead_code)]
mod images;
#[allow(dead_code)]
mod model;
mod pairs;
mod parlour;

use calls::{hex, share_of, Counts, Run, PLAIN};
use history::{History, Pasts};
use images::{Random, EDGES};
use model::{label_limit, Form, Table, LEAST, MOST};
use pairs::{next_pair, Way, WAYS};
use parlour::{buffer, Parlour, Seen};
use std::process::exit;

/// Runs lists from fresh; `each` sees the parlour after each step, `steps` times in all.
fn run_lists(
    random: &mut Random,
    seen: &mut Seen,
    steps: usize,
    mut each: impl FnMut(&mut Random, &mut Seen, &Parlour, usize),
) {
    let mut done = 0;
    while done < steps {
        let n = random.size(Form::Plain);
        let mut parlour = Parlour::open(random, n, seen);
        for age in 0..(20 + random.below(180)).min(steps - done) {
            parlour.step(random, seen);
            each(random, seen, &parlour, age);
            done += 1;
        }
    }
}

/// Images of two heads from any two moments of one list.
fn moments(random: &mut Random, seen: &mut Seen, steps: usize) {
    let mut kept: Vec<Run> = Vec::new();
    run_lists(random, seen, steps, |random, seen, parlour, age| {
        if age == 0 {
            kept.clear();
        }
        let (a, b) = parlour.pair;
        kept.extend([parlour.images[a].clone(), parlour.images[b].clone()]);
        for _ in 0..2 {
            let recent = kept.len().min(60);
            let first = &kept[kept.len() - 1 - random.below(recent)];
            let second = &kept[kept.len() - 1 - random.below(recent)];
            seen.meet("two moments of a list", first, second, &buffer(random, parlour.n, 3));
        }
    });
}

/// Own rows from a list, the rest from none.
fn shaken(random: &mut Random, seen: &mut Seen, steps: usize) {
    run_lists(random, seen, steps, |random, seen, parlour, _| {
        let (a, b) = next_pair(random, parlour.n, Way::Any, (1, 2));
        let [first, second] =
            [a, b].map(|stall| images::shaken(random, &parlour.table(stall)).to_bytes());
        seen.meet("rows from no list", &first, &second, &buffer(random, parlour.n, 3));
    });
}

/// Accepted images from no list.
fn loose(random: &mut Random, seen: &mut Seen, steps: usize) {
    for _ in 0..steps {
        let (first, second) = images::related(random, Form::Plain);
        let verdicts = buffer(random, first.n, 3);
        seen.meet("from no list", &first.to_bytes(), &second.to_bytes(), &verdicts);
    }
}

/// Damaged images, one or both, and pairs that fit in all but N or stall.
fn damaged(random: &mut Random, seen: &mut Seen, steps: usize) {
    for _ in 0..steps {
        let (first, second) = images::related(random, Form::Plain);
        let verdicts = buffer(random, first.n, 10);
        let odd = images::mismatch(random, Form::Plain, &first).to_bytes();
        let (mut first, mut second) = (first.to_bytes(), second.to_bytes());
        match random.below(4) {
            0 => images::damage(random, Form::Plain, &mut first),
            1 => images::damage(random, Form::Plain, &mut second),
            2 => {
                images::damage(random, Form::Plain, &mut first);
                images::damage(random, Form::Plain, &mut second);
            }
            _ => second = odd,
        }
        seen.meet("damaged or mismatched", &first, &second, &verdicts);
    }
}

/// Images from no list, one of them with a yield at an edge in one place.
fn edges(random: &mut Random, seen: &mut Seen, steps: usize) {
    for _ in 0..steps {
        let (mut first, mut second) = images::related(random, Form::Plain);
        let verdicts = buffer(random, first.n, 3);
        let one = if random.percent(50) { &mut first } else { &mut second };
        let place = random.below(one.n + 1);
        images::put_yield(one, place, random.pick(&EDGES));
        let kind = calls::yields_at(one, place);
        seen.meet(kind, &first.to_bytes(), &second.to_bytes(), &verdicts);
    }
}

/// Images from no list whose pair has as many names as there can be, each label in turn the lowest
/// free one, often enough for each to be answered. Of 2 heads all images meet instead.
fn used_up(random: &mut Random, seen: &mut Seen, steps: usize) {
    let labels = |n| (0..=label_limit(n)).map(move |lowest| (n, lowest as u8));
    let turns: Vec<(usize, u8)> = (3..=MOST).flat_map(labels).collect();
    for step in 0..steps.max(12 * turns.len()) {
        let (n, lowest) = turns[step % turns.len()];
        let (first, second) = images::used_up(random, n, lowest);
        let (first, second) = (first.to_bytes(), second.to_bytes());
        let answer = seen.meet("labels used up", &first, &second, &random.bytes(n)).answer;
        if answer != lowest as u32 && answer != 256 + 9 {
            let images = [first, second].map(|image| hex(&image));
            println!("label {lowest} is free, the answer is {answer}: {images:?}");
            exit(1);
        }
    }
}

/// How many accepted images one of 2 heads can have, apart from yields: fresh; with its own latest
/// alone; with both latests, one more name or none in the other row, and one mark set or not.
const IMAGES_OF_TWO: usize = 1 + 7 + 7 * 7 * 8 * 2;

/// Every image of one with every image of the other, each of them first once.
const PAIRS_OF_TWO: usize = 2 * IMAGES_OF_TWO * IMAGES_OF_TWO;

/// The sizes of parlours that run for ten years, and the kinds of their meetings.
const TEN_YEARS: [(usize, &str); 2] = [(8, "ten years of 8"), (16, "ten years of 16")];

/// The kinds of these pairs: by whether their names are all different.
const SIX_NAMES: &str = "2 heads, six names";
const FEWER_NAMES: &str = "2 heads, fewer names";

/// Every pair of accepted images of 2 heads, or so many of them.
fn all_of_two(random: &mut Random, seen: &mut Seen, steps: usize) {
    let [ones, twos] = [1, 2].map(|stall| images::all_of_two(random, stall));
    assert_eq!([ones.len(), twos.len()], [IMAGES_OF_TWO; 2]);
    let twos: Vec<(Vec<u8>, u8)> = twos.iter().map(with_labels).collect();
    for (one, labels_of_one) in ones.iter().map(with_labels) {
        for (two, labels_of_two) in &twos {
            let names = (labels_of_one | labels_of_two).count_ones();
            let kind = if names == 6 { SIX_NAMES } else { FEWER_NAMES };
            for (first, second) in [(&one, two), (two, &one)] {
                if random.below(PAIRS_OF_TWO) < steps {
                    seen.meet(kind, first, second, &[0xee; 2]);
                }
            }
        }
    }
}

/// An image of one of 2 heads and the labels in it, a bit for each: all its names are of one pair.
fn with_labels(table: &Table) -> (Vec<u8>, u8) {
    let mut labels = 0;
    for s in table.stalls() {
        for (_, _, label) in table.stalls().filter_map(|r| table.named(s, r)) {
            labels |= 1 << label;
        }
    }
    (table.to_bytes(), labels)
}

/// Lists of every size against their whole history: each answer, and each byte of each image.
fn against_history(random: &mut Random, seen: &mut Seen, items: usize) {
    for n in LEAST..=MOST {
        let mut parlour = Parlour::open(random, n, seen);
        let mut history = History::new(n, Pasts::Listed);
        for item in 0..items / Form::Plain.sizes().count() {
            if item % 150 == 149 {
                parlour = Parlour::open(random, n, seen);
                history = History::new(n, Pasts::Listed);
            }
            if random.percent(30) {
                history_milking(random, seen, &mut parlour, &mut history);
            } else {
                history_meeting(random, seen, "against history", &mut parlour, &mut history);
            }
            expect_all_left(&parlour, &history);
        }
    }
}

/// Ten years of a parlour of 8 and of one of 16 against unbounded counters: each answer, and each
/// byte of each image that a call was lent; now and then all images.
fn ten_years(random: &mut Random, seen: &mut Seen, meetings: usize) {
    for (n, kind) in TEN_YEARS {
        let mut parlour = Parlour::open(random, n, seen);
        let mut history = History::new(n, Pasts::Counted);
        for age in 0..meetings {
            if age % 1000 == 0 {
                parlour.way = random.pick(&WAYS);
            }
            while random.percent(40) {
                history_milking(random, seen, &mut parlour, &mut history);
            }
            history_meeting(random, seen, kind, &mut parlour, &mut history);
            if age % 16 == 0 {
                expect_all_left(&parlour, &history);
            }
        }
        expect_all_left(&parlour, &history);
    }
}

/// The image of a head is what the list leaves.
fn expect_left(parlour: &Parlour, history: &History, head: usize) {
    let wanted = history.table(head).to_bytes();
    if *parlour.images[head] != wanted {
        println!("history: {}", hex(&wanted));
        parlour.fail(&format!("image {head} is not what the list leaves"));
    }
}

/// Every image, and what its names stand for, is what the list leaves.
fn expect_all_left(parlour: &Parlour, history: &History) {
    (1..=parlour.n).for_each(|head| expect_left(parlour, history, head));
    parlour.expect_clear_names(|head, r| history.latest(head, r).unwrap());
}

fn history_milking(
    random: &mut Random,
    seen: &mut Seen,
    parlour: &mut Parlour,
    history: &mut History,
) {
    let (stall, new) = (random.stall(parlour.n), random.any_yield());
    let counts = new <= 999;
    if parlour.milk(seen, stall, new) != if counts { 0 } else { 4 } {
        parlour.fail("a milking answers wrongly");
    }
    if counts {
        history.milking(stall, new);
    }
    expect_left(parlour, history, stall);
}

fn history_meeting(
    random: &mut Random,
    seen: &mut Seen,
    kind: &'static str,
    parlour: &mut Parlour,
    history: &mut History,
) {
    let (a, b) = parlour.next_pair(random);
    let before = buffer(random, parlour.n, 10);
    let outcome = parlour.meet(seen, kind, &before);
    if before.len() != parlour.n {
        if outcome.answer != 256 + 8 {
            parlour.fail("a meeting that does not count is not refused with 8");
        }
        [a, b].iter().for_each(|&head| expect_left(parlour, history, head));
        return;
    }
    let verdicts: Vec<u8> = (1..=parlour.n).map(|r| history.verdict(a, b, r)).collect();
    let label = history.label(a, b);
    if outcome.answer != label as u32 || *outcome.runs[2] != verdicts {
        println!("history: label {label}, verdicts {}", hex(&verdicts));
        println!("library: answer {}, verdicts {}", outcome.answer, hex(&outcome.runs[2]));
        parlour.fail("label or verdicts are not those of the history");
    }
    history.meeting(a, b);
    [a, b].iter().for_each(|&head| expect_left(parlour, history, head));
}

/// Each verdict came up, and yields of heads not milked.
fn require_answers(seen: &Seen) {
    println!("  verdicts 0, 1, 2: {:?}", seen.verdicts);
    if seen.verdicts.contains(&0) {
        println!("a verdict never came up");
        exit(1);
    }
    let [met, passed_on] = seen.not_milked;
    println!("  not milked: one that met, {met} times; another, passed on, {passed_on} times");
    if seen.not_milked.contains(&0) {
        println!("not milked never came up");
        exit(1);
    }
}

/// Each label up to the limit was answered, but for the limit of 2 heads: only six different names
/// leave none below it, and then the own rows have no meeting in common, which is 9.
fn require_labels(seen: &Seen) {
    for n in LEAST..=MOST {
        let highest = if n == 2 { label_limit(n) - 1 } else { label_limit(n) };
        let two = [highest - 1, highest];
        let times = two.map(|label| seen.labels.of(n, label));
        println!("  {n} heads: highest labels {two:?}, answered {times:?} times");
        seen.labels.require(n, 0..=highest);
    }
    seen.counts.require(SIX_NAMES, [9]);
    if seen.labels.of(2, label_limit(2)) > 0 || seen.counts.of(SIX_NAMES, 0) > 0 {
        println!("2 heads with six different names, or with the limit as their label, met");
        exit(1);
    }
}

/// Each kind of meeting was accepted, and refused in each way that it can be.
fn require_numbers(counts: &Counts) {
    counts.require("meetings in all", 0..=9);
    counts.require_yields();
    let from_no_list = ["rows from no list", "from no list", "labels used up", FEWER_NAMES];
    for kind in from_no_list.into_iter().chain(["two moments of a list"]) {
        counts.require(kind, [0, 9]);
    }
    for kind in TEN_YEARS.map(|(_, kind)| kind).into_iter().chain(["against history"]) {
        counts.require(kind, [0, 8]);
    }
}

fn main() {
    let mut seen = Seen::new(&PLAIN);
    let parts: [(&str, u64, usize, fn(&mut Random, &mut Seen, usize)); 9] = [
        ("two moments of a list", 0x5eed_0002, 40_000, moments),
        ("rows from no list", 0x5eed_0003, 40_000, shaken),
        ("from no list", 0x5eed_0004, 100_000, loose),
        ("damaged or mismatched", 0x5eed_0005, 60_000, damaged),
        ("a yield at an edge", 0x5eed_0008, 50_000, edges),
        ("labels used up", 0x5eed_0009, 51_800, used_up),
        ("all of 2 heads", 0x5eed_000a, PAIRS_OF_TWO, all_of_two),
        ("against history", 0x5eed_0006, 70_000, against_history),
        ("ten years", 0x5eed_0007, 450_000, ten_years),
    ];
    for (kind, seed, steps, part) in parts {
        println!("meetings: {kind}: seed {seed:#x}");
        part(&mut Random(seed), &mut seen, share_of(steps));
    }
    seen.counts.print();
    require_answers(&seen);
    require_labels(&seen);
    require_numbers(&seen.counts);
}
