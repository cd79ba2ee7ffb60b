//! Times two line programs on the same sessions, round by round in turn. Its arguments: a folder
//! for the sessions, what the first program is called, both programs, and the sizes of parlours.

#[allow(dead_code)]
mod images;
#[allow(dead_code)]
mod model;

use images::Random;
use std::fs::{self, File};
use std::io::Read;
use std::process::{exit, Command, Stdio};
use std::time::Instant;

const LINES: usize = 1_000_000;

const MEETINGS: &str = "meetings, 1 in 4 a milking";
const MILKINGS: &str = "milkings";

/// A parlour of n, then lines of which so many in a hundred are meetings and the others milkings.
fn session(random: &mut Random, n: usize, meetings: usize) -> String {
    let mut input = format!("01{n:02x}\n");
    for _ in 1..LINES {
        let stall = random.stall(n);
        input += &if random.percent(meetings) {
            format!("03{stall:02x}{:02x}\n", random.other_stall(n, stall))
        } else {
            format!("02{stall:02x}{:04x}\n", random.good_yield())
        };
    }
    input
}

/// What a program writes for a session.
fn output(program: &str, session: &str) -> Vec<u8> {
    let input = File::open(session).expect(session);
    Command::new(program).stdin(input).output().expect(program).stdout
}

/// The seconds that a program takes, its output to a pipe or to /dev/null.
fn time_of(program: &str, session: &str, pipe: bool) -> f64 {
    let input = File::open(session).expect(session);
    let to = if pipe { Stdio::piped() } else { Stdio::null() };
    let mut block = vec![0; 1 << 16];
    let start = Instant::now();
    let mut child = Command::new(program).stdin(input).stdout(to).spawn().expect(program);
    if let Some(mut from) = child.stdout.take() {
        while from.read(&mut block).is_ok_and(|count| count > 0) {}
    }
    let ended = child.wait().is_ok_and(|status| status.success());
    assert!(ended, "{program} did not end well");
    start.elapsed().as_secs_f64()
}

/// The value below which this part of the values lies.
fn quantile(values: &[f64], part: f64) -> f64 {
    let mut values = values.to_vec();
    values.sort_by(f64::total_cmp);
    values[(part * (values.len() - 1) as f64) as usize]
}

/// The times of each program, in rounds that take the programs in turn. The first round warms up.
fn times(programs: &[String], session: &str, pipe: bool, rounds: usize) -> Vec<Vec<f64>> {
    let mut times = vec![Vec::new(); programs.len()];
    for round in 0..=rounds {
        for turn in 0..programs.len() {
            let at = (round + turn) % programs.len();
            let time = time_of(&programs[at], session, pipe);
            if round > 0 {
                times[at].push(time);
            }
        }
    }
    times
}

fn print_heads(other: &str) {
    println!("lines: sessions of {LINES}, medians of interleaved rounds");
    println!("{:40}        lines a second      time, wilbryn / {other}", "");
    println!(" N session{:20}output to  {other:>10}    wilbryn    ratio     quartiles", "");
}

fn print_row(n: usize, name: &str, to: &str, times: &[Vec<f64>]) {
    print!("{n:>2} {name:<27}{to:<10}");
    for times in times {
        print!("{:>11.0}", LINES as f64 / quantile(times, 0.5));
    }
    if let [other, proved] = times {
        let ratios: Vec<f64> = proved.iter().zip(other).map(|(b, a)| b / a).collect();
        let [middle, low, high] = [0.5, 0.25, 0.75].map(|part| quantile(&ratios, part));
        print!("{middle:>9.2}{low:>8.2} to {high:>5.2}");
    }
    println!();
}

/// Both must write the same, or the times mean nothing.
fn expect_same(programs: &[String], session: &str) {
    let first = output(&programs[0], session);
    if programs.iter().any(|program| output(program, session) != first) {
        println!("{session}: the programs differ");
        exit(1);
    }
}

fn main() {
    let arguments: Vec<String> = std::env::args().skip(1).collect();
    let [folder, other, first, second, sizes @ ..] = &arguments[..] else {
        panic!("a folder, a name, two programs and sizes");
    };
    let programs = [first.clone(), second.clone()];
    print_heads(other);
    let mut random = Random(0x5eed_0012);
    let sizes = sizes.iter().map(|size| size.parse().expect("a size"));
    // Milkings alone are soon done, so that there is time for more rounds.
    let sessions = sizes.flat_map(|n| [(n, MEETINGS, 75, 7), (n, MILKINGS, 0, 15)]);
    for (n, name, meetings, rounds) in sessions {
        let path = format!("{folder}/session-{n}-{meetings}");
        fs::write(&path, session(&mut random, n, meetings)).expect("a session is written");
        expect_same(&programs, &path);
        print_row(n, name, "/dev/null", &times(&programs, &path, false, rounds));
        print_row(n, name, "a pipe", &times(&programs, &path, true, rounds));
        fs::remove_file(&path).expect("a session is removed");
    }
}
