//! Inputs for a line program: taken lines, refused ones, and bytes that are no lines at all.

use crate::images::{Random, EDGES};
use crate::model::Form;
use crate::pairs::{next_pair, Way, WAYS};

/// Document 01's listing and its examples of lines, and what requests 2026-01, 2026-05, 2026-07 and
/// 2026-09 say of lines: input and output. In the listing heads 2 and 3 know that all have heard of
/// the meeting of 1 and 2. The order entries of 9 heads have the mark for stall 9 in their first
/// byte.
pub const EXAMPLES: [(&str, &str); 17] = [
    (
        "0103\n02010012\n030102\n030203\n0403\n",
        "00\n00\n0000000000\n0000010100\n\
         000303ffff0200010000000200030002000200030002000012ffffffff070606\n",
    ),
    ("0\n", "0a\n"),
    ("030102\n", "0b\n"),
    ("\n", "0a\n"),
    ("", ""),
    ("0102\n030102\n030102\n030102\n030102\n", "00\n00000000\n00010000\n00000000\n00010000\n"),
    (
        "0103\n030102\n030103\n030102\n030102\n030102\n",
        "00\n0000000000\n0000010100\n0001010001\n0002000000\n0001000000\n",
    ),
    ("0102\n020103e7\n020103e8\n", "00\n00\n04\n"),
    ("0102\n0201ffff\n0401\n", "00\n04\n000201ffff0000000000000000ffffffff0000\n"),
    (
        "0103\n0601\n02010012\n030102\n030203\n0601\n0602\n0603\n",
        "00\n00000000\n00\n0000000000\n0000010100\n00020200\n00030202\n00030202\n",
    ),
    (
        "0102\n0602\n030102\n0601\n030201\n0602\n",
        "00\n000000\n00000000\n000202\n00010000\n000202\n",
    ),
    ("0601\n06\n060101\n0701\n", "0b\n0a\n0a\n0a\n"),
    ("0103\n0600\n0604\n06ff\n06\n0603ff\n0703\n", "00\n03\n03\n03\n0a\n0a\n0a\n"),
    (
        "0103\n02020000\n02030012\n030102\n0501\n030103\n0501\n0502\n",
        "00\n00\n00\n0000000000\n000202000001ffff\n0000010100\n\
         000303001202000001ffff\n000202000001ffff\n",
    ),
    (
        "0103\n02010007\n02020012\n02030012\n030102\n030203\n0503\n",
        "00\n00\n00\n00\n0000000000\n0000010100\n0003020012030012010007\n",
    ),
    ("0100\n0101\n0111\n01ff\n0410\n0110\n0411\n0109\n", "01\n01\n01\n01\n0b\n00\n03\n0b\n"),
    (
        "0109\n02090012\n030209\n0402\n0509\n0609\n030a01\n",
        "00\n00\n0000000000000000000000\n\
         000902ffff\
         000000000000000000000000000000000000\
         000009000000000000000000000000000200\
         000000000000000000000000000000000000\
         000000000000000000000000000000000000\
         000000000000000000000000000000000000\
         000000000000000000000000000000000000\
         000000000000000000000000000000000000\
         000000000000000000000000000000000000\
         000009000000000000000000000000000200\
         ffffffffffffffffffffffffffffffff0012\
         000001020000000000000000000000000102\n\
         000209001202ffff\n00000200000000000002\n03\n",
    ),
];

/// Lines to a parlour of n heads.
pub struct Talk {
    n: usize,
    way: Way,
    pair: (usize, usize),
}

impl Talk {
    pub fn new(random: &mut Random, n: usize) -> Talk {
        Talk { n, way: random.pick(&WAYS), pair: (1, 2) }
    }

    /// A line that an open parlour takes.
    pub fn taken(&mut self, random: &mut Random) -> Vec<u8> {
        let stall = random.stall(self.n);
        let line = match random.below(20) {
            0..=5 => format!("02{stall:02x}{:04x}", random.good_yield()),
            6 => format!("04{stall:02x}"),
            7 => format!("05{stall:02x}"),
            8 => format!("06{stall:02x}"),
            _ => {
                self.pair = next_pair(random, self.n, self.way, self.pair);
                format!("03{:02x}{:02x}", self.pair.0, self.pair.1)
            }
        };
        line.into_bytes()
    }

    /// A stall that is often none of the parlour's.
    fn any_stall(&self, random: &mut Random) -> u8 {
        let n = self.n as u8;
        let any = random.byte();
        random.pick(&[0, 1, n - 1, n, n + 1, 8, 9, 16, 17, n << 4, 128 + n, 255, any])
    }

    /// A frame whose values are often refused.
    fn odd_values(&self, random: &mut Random) -> Vec<u8> {
        let (one, other) = (self.any_stall(random), self.any_stall(random));
        let stall = random.stall(self.n);
        let new = if random.percent(90) { random.pick(&EDGES) } else { random.any_yield() };
        let line = match random.below(9) {
            0 => format!("02{one:02x}{new:04x}"),
            1 => format!("02{stall:02x}{new:04x}"),
            2 => format!("03{one:02x}{other:02x}"),
            3 => format!("03{one:02x}{stall:02x}"),
            4 => format!("03{stall:02x}{other:02x}"),
            5 => format!("03{one:02x}{one:02x}"),
            6 => format!("03{stall:02x}{stall:02x}"),
            7 => format!("0{}{one:02x}", random.pick(&[4, 5, 6])),
            _ => opening(random),
        };
        line.into_bytes()
    }

    /// A line of digits that is mostly no frame: an unknown kind or a wrong length.
    fn odd_digits(&mut self, random: &mut Random) -> Vec<u8> {
        let mut line = self.taken(random);
        match random.below(7) {
            0 => line[..2].copy_from_slice(random.pick(&[b"00", b"07", b"10", b"20", b"ff"])),
            1 => line.truncate(random.below(line.len())),
            2 => line.extend(&digits(random, 1)),
            3 => line.extend(&digits(random, 2)),
            4 => line.clear(),
            5 => {
                let many = 1 + random.below(600);
                line.extend(digits(random, many));
            }
            _ => {
                let many = 1 + random.below(600);
                line.splice(0..0, digits(random, many));
            }
        }
        line
    }

    /// A taken line with one to three bytes wrong.
    fn damaged(&mut self, random: &mut Random) -> Vec<u8> {
        let mut line = self.taken(random);
        for _ in 0..random.pick(&[1, 1, 2, 3]) {
            damage(random, &mut line);
        }
        line
    }

    /// Any line: so many in a hundred are refused for one reason or another.
    pub fn line(&mut self, random: &mut Random, odd: usize) -> Vec<u8> {
        if !random.percent(odd) {
            return self.taken(random);
        }
        match random.below(3) {
            0 => self.odd_values(random),
            1 => self.odd_digits(random),
            _ => self.damaged(random),
        }
    }
}

fn opening(random: &mut Random) -> String {
    let n = random.size(Form::Plain);
    format!("01{:02x}", random.pick(&[0, 1, n, n, 17, 255]))
}

fn digits(random: &mut Random, count: usize) -> Vec<u8> {
    (0..count).map(|_| random.pick(b"0123456789abcdef")).collect()
}

/// Bytes next to the digits, blanks, and what a careless reader takes for a digit or for no byte.
const NO_DIGITS: &[u8] = b"/:`g@GAF \t\r\0\x0b\x1a\x7f\x80\xb0\xff-+x.";

fn damage(random: &mut Random, line: &mut Vec<u8>) {
    let wrong = if random.percent(50) { random.pick(NO_DIGITS) } else { random.byte() };
    let at = random.below(line.len().max(1));
    match random.below(8) {
        _ if line.is_empty() => line.push(wrong),
        0 => line[at] = wrong,
        1 => line.insert(at, wrong),
        2 => drop(line.remove(at)),
        3 => line.make_ascii_uppercase(),
        4 => line.push(b'\r'),
        5 => line.insert(0, b' '),
        6 => line.push(random.pick(b" \t\0")),
        _ => line[at] ^= 0x80,
    }
}

/// So many lines: some before the opening, the opening, then lines of which so many in a hundred
/// are odd.
pub fn session(random: &mut Random, n: usize, count: usize, odd: usize) -> Vec<u8> {
    let mut talk = Talk::new(random, n);
    let mut input = Vec::new();
    while odd > 0 && random.percent(60) {
        let early =
            if random.percent(50) { talk.line(random, odd) } else { refused_opening(random) };
        input.extend(early);
        input.push(b'\n');
    }
    input.extend(format!("01{n:02x}\n").bytes());
    for _ in 0..count {
        input.extend(talk.line(random, odd));
        input.push(b'\n');
    }
    if random.percent(30) {
        input.pop();
    }
    input
}

fn refused_opening(random: &mut Random) -> Vec<u8> {
    format!("01{:02x}", random.pick(&[0, 1, 17, 18, 32, 128, 130, 255])).into_bytes()
}

/// Any bytes, or bytes of which most are digits and newlines.
pub fn noise(random: &mut Random) -> Vec<u8> {
    let count = random.below(3000);
    if random.percent(30) {
        return random.bytes(count);
    }
    let any = random.byte();
    (0..count)
        .map(|_| random.pick(&[b'0', b'0', b'0', b'1', b'2', b'3', b'\n', b'\n', any]))
        .collect()
}

/// A line with something before it and something after it, in a parlour of 3.
fn around(line: &[u8]) -> Vec<u8> {
    [b"0103\n02010012\n030102\n", line, b"\n030203\n0403\n0503\n0603\n"].concat()
}

/// Lines longer than a frame. Their ends look like frames, and so do their lengths to a counter of
/// 8 or 16 bits.
pub fn long_lines(random: &mut Random) -> Vec<u8> {
    let mut input = around(b"");
    for length in [9, 10, 12, 16, 256, 260, 262, 264, 4096, 65_535, 65_536, 65_540, 65_542, 131_078]
    {
        for (start, end) in [("030102", ""), ("", "030102"), ("0403", "0403"), ("02010001", "")] {
            let middle = length - length.min(start.len() + end.len());
            input.extend([start.as_bytes(), &digits(random, middle), end.as_bytes()].concat());
            input.extend(b"\n0401\n");
        }
    }
    input
}

/// A line of so many digits in the middle of taken ones.
pub fn huge_line(random: &mut Random, count: usize) -> Vec<u8> {
    around(&digits(random, count))
}

/// Each kind with every count of bytes from none to five, each before and after the opening.
pub fn all_kinds() -> Vec<u8> {
    let mut input = Vec::new();
    for opening in ["", "0104\n"] {
        input.extend(opening.bytes());
        for kind in (0..=255).filter(|&kind| !opening.is_empty() || kind != 1) {
            for more in 0..=5 {
                input.extend(format!("{kind:02x}{}\n", "02".repeat(more)).bytes());
            }
        }
    }
    input
}

/// Each two bytes in the place of the last two digits of a line.
pub fn all_pairs() -> Vec<u8> {
    let mut input = b"0110\n031001\n030102\n".to_vec();
    for kind in [b"05", b"06"] {
        for pair in 0..=u16::MAX {
            input.extend([kind, &pair.to_be_bytes()[..], b"\n"].concat());
        }
    }
    input
}

/// Each opening that is refused, and then one that is taken.
pub fn all_openings(n: usize) -> Vec<u8> {
    let mut input = Vec::new();
    for refused in (0..=255).filter(|refused| !Form::Plain.sizes().contains(refused)) {
        input.extend(format!("01{refused:02x}\n0401\n0601\n").bytes());
    }
    for opening in [n, n, 0] {
        input.extend(format!("01{opening:02x}\n04{n:02x}\n").bytes());
    }
    input
}

/// Each two stalls.
pub fn all_meetings(n: usize) -> Vec<u8> {
    let mut input = format!("01{n:02x}\n").into_bytes();
    for pair in 0..=u16::MAX {
        input.extend(format!("03{pair:04x}\n").bytes());
    }
    input
}

/// Each yield.
pub fn all_yields() -> Vec<u8> {
    let mut input = b"0102\n".to_vec();
    for new in 0..=u16::MAX {
        input.extend(format!("0202{new:04x}\n").bytes());
    }
    input.extend(b"0402\n030102\n0501");
    input
}
