//! Document 01 with requests 2026-01, 2026-02, 2026-04, 2026-05 and 2026-07 to 2026-09 in plain
//! Rust: the other side of every comparison.
//! Stalls, rows and columns count from 1 as they do there, so index 0 of each array is unused.

use std::cmp::Reverse;
use std::ops::RangeInclusive;

/// Request 2026-09: "N may be 2 to 16", "but a packed table over 8 is still number 1".
pub const LEAST: usize = 2;
pub const MOST: usize = 16;
pub const MOST_PACKED: usize = 8;

/// The length of an array with a place for each stall.
pub const STALLS: usize = MOST + 1;

/// The most that a milking may bring.
const YIELD_LIMIT: u16 = 999;

/// Not milked. Request 2026-01, in place of "0 when fresh" and "None has yield 0": "it is the current
/// yield of a fresh head, and the stall yield of a stall never heard".
pub const NOT_MILKED: u16 = 0xffff;

/// Request 2026-09, of the panel: "its buffer becomes 256 bytes for every N".
pub const PANEL_LENGTH: usize = 256;

/// Request 2026-08: "yield in litres with one decimal (18 becomes `1.8`), or `-` for not milked",
/// "numbers without leading zeros (0 becomes `0.0`)". Of at least two digits the last is the decimal.
fn litres(decilitres: u16) -> String {
    if decilitres == NOT_MILKED {
        return String::from("-");
    }
    let digits = format!("{decilitres:02}");
    let (whole, decimal) = digits.split_at(digits.len() - 1);
    [whole, decimal].join(".")
}

/// What a yield in an image may be, be it current or a stall's, heard or not. Request 2026-01:
/// "Check 4 admits it in images".
fn may_be_in_image(value: u16) -> bool {
    value <= YIELD_LIMIT || value == NOT_MILKED
}

/// A meeting as a column names it: the other stall and the label.
#[derive(Clone, Copy, PartialEq, Eq)]
pub struct Name {
    pub partner: u8,
    pub label: u8,
}

pub const NONE: Name = Name { partner: 0, label: 0 };

/// A name read with its column: lower stall, higher stall, label.
pub type Meeting = (usize, usize, u8);

pub type Row = [Name; STALLS];

/// An image taken apart, good or bad.
#[derive(Clone)]
pub struct Table {
    pub n: usize,
    pub stall: usize,
    pub current: u16,
    pub rows: [Row; STALLS],
    pub yields: [u16; STALLS],
    pub order: [u16; STALLS],
}

/// How a table stands in bytes: as document 01 has it, or as request 2026-04 packs it.
#[derive(Clone, Copy, PartialEq, Eq)]
pub enum Form {
    Plain,
    Packed,
}

impl Form {
    pub fn other(self) -> Form {
        match self {
            Form::Plain => Form::Packed,
            Form::Packed => Form::Plain,
        }
    }

    /// The sizes of parlours that have images of this form.
    pub fn sizes(self) -> RangeInclusive<usize> {
        match self {
            Form::Plain => LEAST..=MOST,
            Form::Packed => LEAST..=MOST_PACKED,
        }
    }

    /// How many bytes a name has.
    pub fn name_len(self) -> usize {
        match self {
            Form::Plain => 2,
            Form::Packed => 1,
        }
    }

    /// Request 2026-04: "so the length is N × N + 3 × N + 4". Request 2026-09: "From 9 up", "the
    /// length 2 × N × N + 4 × N + 4".
    pub fn length(self, n: usize) -> usize {
        self.orders_at(n) + order_width(n) * n
    }

    /// Where the yields begin, and where the order entries do.
    pub fn yields_at(self, n: usize) -> usize {
        4 + self.name_len() * n * n
    }

    pub fn orders_at(self, n: usize) -> usize {
        self.yields_at(n) + 2 * n
    }

    /// Request 2026-04: "partner minus 1 in the upper three bits, label in the lower five; a stall's
    /// own number as partner, with label 0, means none".
    fn read_name(self, bytes: &[u8], column: usize) -> Name {
        match self {
            Form::Plain => Name { partner: bytes[0], label: bytes[1] },
            Form::Packed if bytes[0] == 32 * (column as u8 - 1) => NONE,
            Form::Packed => Name { partner: bytes[0] / 32 + 1, label: bytes[0] % 32 },
        }
    }

    fn write_name(self, image: &mut Vec<u8>, name: Name, column: usize) {
        match self {
            Form::Plain => image.extend([name.partner, name.label]),
            Form::Packed if name == NONE => image.push(32 * (column as u8 - 1)),
            Form::Packed => image.push(32 * (name.partner - 1) + name.label),
        }
    }

    /// Takes an image of the right length apart. Request 2026-04: "Header, yields and marks keep
    /// their order".
    fn take_apart(self, image: &[u8]) -> Table {
        let word = |at: usize| u16::from_be_bytes([image[at], image[at + 1]]);
        let mut table = Table::fresh(image[0] as usize, image[1] as usize);
        let (n, name_len, width) = (table.n, self.name_len(), order_width(table.n));
        table.current = word(2);
        for s in 1..=n {
            for r in 1..=n {
                let at = 4 + name_len * (n * (s - 1) + r - 1);
                table.rows[s][r] = self.read_name(&image[at..], r);
            }
            table.yields[s] = word(self.yields_at(n) + 2 * (s - 1));
            let entry = &image[self.orders_at(n) + width * (s - 1)..][..width];
            table.order[s] = entry.iter().fold(0, |marks, &byte| 256 * marks + byte as u16);
        }
        table
    }

    pub fn bytes(self, table: &Table) -> Vec<u8> {
        let mut image = vec![table.n as u8, table.stall as u8];
        image.extend(table.current.to_be_bytes());
        for s in table.stalls() {
            for r in table.stalls() {
                self.write_name(&mut image, table.rows[s][r], r);
            }
        }
        for r in table.stalls() {
            image.extend(table.yields[r].to_be_bytes());
        }
        for r in table.stalls() {
            let [high, low] = table.order[r].to_be_bytes();
            image.extend(&[high, low][2 - order_width(table.n)..]);
        }
        image
    }
}

/// How many bytes an order entry has. Request 2026-09: "From 9 up, an order byte becomes two bytes,
/// high first", "images of 2 to 8 heads keep their bytes".
pub fn order_width(n: usize) -> usize {
    if n < 9 {
        1
    } else {
        2
    }
}

/// Request 2026-02: "The label limit becomes 4 × N − 2 wherever labels are chosen or checked".
pub fn label_limit(n: usize) -> usize {
    4 * n - 2
}

impl Table {
    /// Nothing heard and not milked. Request 2026-01, in place of "then zeros": "its names and marks
    /// are still zeros".
    pub fn fresh(n: usize, stall: usize) -> Table {
        let (rows, yields) = ([[NONE; STALLS]; STALLS], [NOT_MILKED; STALLS]);
        Table { n, stall, current: NOT_MILKED, rows, yields, order: [0; STALLS] }
    }

    pub fn to_bytes(&self) -> Vec<u8> {
        Form::Plain.bytes(self)
    }

    pub fn stalls(&self) -> RangeInclusive<usize> {
        1..=self.n
    }

    pub fn own_row(&self) -> &Row {
        &self.rows[self.stall]
    }

    pub fn heard(&self, r: usize) -> bool {
        self.own_row()[r] != NONE
    }

    /// The heard stalls in ranking order. Request 2026-07: "The records now come with the largest
    /// yield first, equal yields by lower stall number, and heard but not milked last, again by
    /// stall number".
    fn ranking(&self) -> Vec<usize> {
        let heard = self.stalls().filter(|&r| self.heard(r));
        let (mut milked, mut not_milked): (Vec<usize>, Vec<usize>) =
            heard.partition(|&r| self.yields[r] != NOT_MILKED);
        milked.sort_by_key(|&r| (Reverse(self.yields[r]), r));
        not_milked.sort();
        [milked, not_milked].concat()
    }

    /// Request 2026-08: "rank, stall, yield", "single blanks between, newline after each"; "Each
    /// heard stall has one line, and rank counts the lines from 1, equal yields too. Order as in
    /// 2026-07".
    fn panel(&self) -> String {
        let ranked = (1..).zip(self.ranking());
        ranked.map(|(rank, r)| format!("{rank} {r} {}\n", litres(self.yields[r]))).collect()
    }

    pub fn mark(&self, r: usize, s: usize) -> bool {
        self.order[r] >> (s - 1) & 1 == 1
    }

    pub fn set_mark(&mut self, r: usize, s: usize) {
        self.order[r] |= 1 << (s - 1);
    }

    /// Request 2026-05: "0 where never heard. It counts stall s when the latest of r lies in the
    /// past of the latest of s".
    fn known_to(&self, r: usize) -> usize {
        if self.heard(r) {
            self.stalls().filter(|&s| self.mark(r, s)).count()
        } else {
            0
        }
    }

    /// The meeting that row s names in column r.
    pub fn named(&self, s: usize, r: usize) -> Option<Meeting> {
        let Name { partner, label } = self.rows[s][r];
        let partner = partner as usize;
        (partner != 0).then_some((r.min(partner), r.max(partner), label))
    }

    fn bad_yields(&self) -> bool {
        !may_be_in_image(self.current) || self.stalls().any(|r| !may_be_in_image(self.yields[r]))
    }

    fn bad_name_itself(&self, name: Name, column: usize) -> bool {
        let partner = name.partner as usize;
        partner == 0 && name.label != 0
            || partner > self.n
            || partner == column
            || name.label as usize > label_limit(self.n)
    }

    /// Request 2026-01, in place of "a yield not 0 for a stall never heard": "check 5 wants it for
    /// stalls never heard".
    fn bad_names(&self) -> bool {
        self.stalls().any(|s| {
            self.stalls().any(|r| self.bad_name_itself(self.rows[s][r], r))
                || self.rows[s][s] != self.own_row()[s]
                || !self.heard(s) && self.stalls().any(|r| self.rows[s][r] != NONE)
                || !self.heard(s) && self.yields[s] != NOT_MILKED
        })
    }

    fn bad_marks(&self) -> bool {
        self.stalls().any(|r| {
            (1..=MOST).any(|s| self.mark(r, s) && (s > self.n || !self.heard(r) || !self.heard(s)))
                || self.heard(r) && !self.mark(r, r)
                || self.heard(r) && !self.mark(r, self.stall)
        })
    }
}

/// The calls on images of a form.
impl Form {
    /// The table of an image, or the first of the refusals 1 to 6 that applies. Request 2026-04:
    /// "unpacking refuses what 01's checks refuse of the unpacked form, and own number with another
    /// label is 5. Check 2 takes the new length for a packed table".
    pub fn read(self, image: &[u8]) -> Result<Table, u32> {
        let Some(&n) = image.first() else { return Err(1) };
        if !self.sizes().contains(&(n as usize)) {
            return Err(1);
        }
        if image.len() != self.length(n as usize) {
            return Err(2);
        }
        let table = self.take_apart(image);
        if !table.stalls().contains(&table.stall) {
            return Err(3);
        }
        if table.bad_yields() {
            return Err(4);
        }
        if table.bad_names() {
            return Err(5);
        }
        if table.bad_marks() {
            return Err(6);
        }
        Ok(table)
    }

    pub fn check(self, image: &[u8]) -> u32 {
        self.read(image).err().unwrap_or(0)
    }

    pub fn fresh(self, image: &mut [u8], n: u8, stall: u8) -> u32 {
        if !self.sizes().contains(&(n as usize)) {
            return 1;
        }
        if image.len() != self.length(n as usize) {
            return 2;
        }
        if !(1..=n).contains(&stall) {
            return 3;
        }
        image.copy_from_slice(&self.bytes(&Table::fresh(n as usize, stall as usize)));
        0
    }

    /// Request 2026-01: "A milking with ffff is still number 4".
    pub fn milking(self, image: &mut [u8], new: u16) -> u32 {
        match self.read(image) {
            Err(number) => number,
            Ok(_) if new > YIELD_LIMIT => 4,
            Ok(table) => {
                image.copy_from_slice(&self.bytes(&Table { current: new, ..table }));
                0
            }
        }
    }

    /// Document 01: "writes, for each heard stall, the stall byte and two yield bytes, then zeros to
    /// the end, and returns how many". Request 2026-07: "No choice of order is left".
    pub fn heard(self, image: &[u8], records: &mut [u8]) -> u32 {
        let table = match self.read(image) {
            Err(number) => return 256 + number,
            Ok(table) => table,
        };
        if records.len() != 3 * table.n {
            return 256 + 8;
        }
        records.fill(0);
        let ranking = table.ranking();
        for (record, &r) in records.chunks_mut(3).zip(&ranking) {
            let [high, low] = table.yields[r].to_be_bytes();
            record.copy_from_slice(&[r as u8, high, low]);
        }
        ranking.len() as u32
    }

    /// Request 2026-05: "for each stall the number of stalls that this head knows to have heard its
    /// latest of that stall".
    pub fn settled(self, image: &[u8], counts: &mut [u8]) -> u32 {
        match self.read(image) {
            Err(number) => number,
            Ok(table) if counts.len() != table.n => 8,
            Ok(table) => {
                table.stalls().for_each(|r| counts[r - 1] = table.known_to(r) as u8);
                0
            }
        }
    }

    pub fn meeting(self, first: &mut [u8], second: &mut [u8], verdicts: &mut [u8]) -> u32 {
        match self.join(first, second, verdicts.len()) {
            Err(number) => 256 + number,
            Ok(joined) => {
                first.copy_from_slice(&self.bytes(&joined.first));
                second.copy_from_slice(&self.bytes(&joined.second));
                verdicts.copy_from_slice(&joined.verdicts[1..=joined.first.n]);
                joined.label as u32
            }
        }
    }

    fn join(self, first: &[u8], second: &[u8], buffer: usize) -> Result<Joined, u32> {
        let first = self.read(first)?;
        let second = self.read(second)?;
        if first.n != second.n || first.stall == second.stall {
            return Err(7);
        }
        if buffer != first.n {
            return Err(8);
        }
        let mut verdicts = [0; STALLS];
        let common = [common(&first, &second), common(&second, &first)];
        for r in first.stalls() {
            verdicts[r] = verdict(&first, &second, &common, r)?;
        }
        let label = free_label(&first, &second);
        let merged = merge(&first, &second, &verdicts, label);
        Ok(Joined {
            first: Table { stall: first.stall, current: first.current, ..merged.clone() },
            second: Table { stall: second.stall, current: second.current, ..merged },
            verdicts,
            label,
        })
    }

    /// Request 2026-08: "the rest of the buffer is zeros and the written length comes back. 01's
    /// checks 1 to 6 come first. It refuses with 8 a buffer of another length".
    pub fn panel(self, image: &[u8], text: &mut [u8]) -> u32 {
        match self.read(image) {
            Err(number) => 256 + number,
            Ok(_) if text.len() != PANEL_LENGTH => 256 + 8,
            Ok(table) => {
                let lines = table.panel();
                text.fill(0);
                text[..lines.len()].copy_from_slice(lines.as_bytes());
                lines.len() as u32
            }
        }
    }

    /// Writes what an image says in the other form: packs it, or unpacks it. Request 2026-04: "an
    /// output buffer of the wrong length is 8, after 1 to 6". Request 2026-09, of number 1: "and so
    /// is a plain one over 8 that is to be packed". Numbers are tried in order, so 1 comes first.
    pub fn convert(self, image: &[u8], output: &mut [u8]) -> u32 {
        let other = self.other();
        let fits_other = |&n: &u8| other.sizes().contains(&(n as usize));
        match self.read(image) {
            _ if !image.first().is_some_and(fits_other) => 1,
            Err(number) => number,
            Ok(table) if output.len() != other.length(table.n) => 8,
            Ok(table) => {
                output.copy_from_slice(&other.bytes(&table));
                0
            }
        }
    }
}

/// What an accepted meeting leaves.
struct Joined {
    first: Table,
    second: Table,
    verdicts: [u8; STALLS],
    label: u8,
}

/// The columns of one's own row that name a meeting which the other's names too, in whatever column.
fn common(one: &Table, other: &Table) -> Vec<usize> {
    let names_too = |meeting| other.stalls().any(|t| other.named(other.stall, t) == Some(meeting));
    one.stalls().filter(|&s| one.named(one.stall, s).is_some_and(names_too)).collect()
}

/// Whether one's latest of r is known to the other, given what they have in common.
fn known(one: &Table, common: &[usize], r: usize) -> bool {
    !one.heard(r) || common.iter().any(|&s| one.mark(r, s))
}

fn verdict(first: &Table, second: &Table, common: &[Vec<usize>; 2], r: usize) -> Result<u8, u32> {
    match (known(first, &common[0], r), known(second, &common[1], r)) {
        (true, false) => Ok(2),
        (false, true) => Ok(1),
        (true, true) if first.own_row()[r] == second.own_row()[r] => Ok(0),
        _ => Err(9),
    }
}

/// The lowest label that no name of the pair has in any row of either image. Request 2026-02: "In
/// each table the latest of the partner stands in two rows, so a pair has at most 4 × N − 2
/// different names in both tables".
fn free_label(first: &Table, second: &Table) -> u8 {
    let pair = (first.stall.min(second.stall), first.stall.max(second.stall));
    let mut is_used = [false; 256];
    for table in [first, second] {
        for (s, r) in table.stalls().flat_map(|s| table.stalls().map(move |r| (s, r))) {
            match table.named(s, r) {
                Some((low, high, label)) if (low, high) == pair => is_used[label as usize] = true,
                _ => (),
            }
        }
    }
    (0..=label_limit(first.n) as u8)
        .find(|&label| !is_used[label as usize])
        .expect("4 * N - 2 different names cannot have 4 * N - 1 labels")
}

/// The rows, yields and marks that both heads have after the meeting.
fn merge(first: &Table, second: &Table, verdicts: &[u8; STALLS], label: u8) -> Table {
    let (a, b) = (first.stall, second.stall);
    let met = |r| r == a || r == b;
    let mut merged = first.clone();
    let mut latests = [NONE; STALLS];
    for r in first.stalls() {
        let newer = if verdicts[r] == 2 { second } else { first };
        latests[r] = newer.own_row()[r];
        merged.yields[r] = newer.yields[r];
        merged.rows[r] = newer.rows[r];
    }
    latests[a] = Name { partner: b as u8, label };
    latests[b] = Name { partner: a as u8, label };
    merged.yields[a] = first.current;
    merged.yields[b] = second.current;
    merged.rows[a] = latests;
    merged.rows[b] = latests;

    let first_has = |r: usize| verdicts[r] == 1 || verdicts[r] == 0;
    let second_has = |r: usize| verdicts[r] == 2 || verdicts[r] == 0;
    let between_others = |r, s| {
        if first_has(r) && first_has(s) {
            first.mark(r, s)
        } else if second_has(r) && second_has(s) {
            second.mark(r, s)
        } else {
            false
        }
    };
    merged.order = [0; STALLS];
    for r in first.stalls().filter(|&r| latests[r] != NONE) {
        for s in first.stalls() {
            if met(s) || !met(r) && between_others(r, s) {
                merged.set_mark(r, s);
            }
        }
    }
    merged
}
