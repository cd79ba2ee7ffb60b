//! Random images: accepted ones that come from no list, related pairs of them, and damaged ones;
//! and every accepted image of 2 heads.

use crate::model::{label_limit, order_width, Form, Name, Table};
use crate::model::{NONE, NOT_MILKED, STALLS};
use std::iter::once;

/// Yields on both sides of each limit, and those that a reader of one byte, of a signed number or of
/// the low byte first takes for others.
pub const EDGES: [u16; 18] = [
    0, 1, 255, 256, 998, 999, 1000, 1001, 0x03ff, 0x0400, 0x0fe7, 0x7fff, 0x8000, 0xe703, 0xfe00,
    0xff00, 0xfffe, 0xffff,
];

/// Labels on both sides of the limit and of 4 * N, which is one for each place of a name.
pub fn edge_labels(n: usize) -> [u8; 8] {
    let limit = label_limit(n) as u8;
    [0, 1, limit - 1, limit, limit + 1, limit + 2, limit + 3, 255]
}

/// Splitmix64.
pub struct Random(pub u64);

impl Random {
    pub fn next(&mut self) -> u64 {
        self.0 = self.0.wrapping_add(0x9e3779b97f4a7c15);
        let mut z = self.0;
        z = (z ^ z >> 30).wrapping_mul(0xbf58476d1ce4e5b9);
        z = (z ^ z >> 27).wrapping_mul(0x94d049bb133111eb);
        z ^ z >> 31
    }

    pub fn below(&mut self, limit: usize) -> usize {
        (self.next() % limit as u64) as usize
    }

    pub fn percent(&mut self, chance: usize) -> bool {
        self.below(100) < chance
    }

    pub fn pick<T: Copy>(&mut self, from: &[T]) -> T {
        from[self.below(from.len())]
    }

    fn shuffle<T>(&mut self, list: &mut [T]) {
        for at in 1..list.len() {
            list.swap(at, self.below(at + 1));
        }
    }

    pub fn byte(&mut self) -> u8 {
        self.next() as u8
    }

    pub fn bytes(&mut self, len: usize) -> Vec<u8> {
        (0..len).map(|_| self.byte()).collect()
    }

    /// A size that images of a form have.
    pub fn size(&mut self, form: Form) -> usize {
        form.sizes().start() + self.below(form.sizes().count())
    }

    pub fn stall(&mut self, n: usize) -> usize {
        1 + self.below(n)
    }

    pub fn other_stall(&mut self, n: usize, stall: usize) -> usize {
        (stall + self.below(n - 1)) % n + 1
    }

    /// A yield that a milking may bring.
    pub fn good_yield(&mut self) -> u16 {
        match self.below(8) {
            0 => 999,
            1 => 0,
            2 => self.below(3) as u16 + 255,
            _ => self.below(1000) as u16,
        }
    }

    /// A yield that an accepted image may have, its current one or a heard stall's.
    pub fn image_yield(&mut self) -> u16 {
        if self.percent(20) {
            NOT_MILKED
        } else {
            self.good_yield()
        }
    }

    /// Any yield, often close to a limit.
    pub fn any_yield(&mut self) -> u16 {
        match self.below(6) {
            0 => 990 + self.below(20) as u16,
            1 => self.next() as u16,
            2 | 3 => self.pick(&EDGES),
            _ => self.good_yield(),
        }
    }
}

/// How an accepted image is filled: how many labels it draws from, and chances in percent.
struct Style {
    labels: usize,
    heard: usize,
    named: usize,
    marked: usize,
}

fn style(random: &mut Random, n: usize) -> Style {
    Style {
        labels: random.pick(&[1, 2, 4, label_limit(n) + 1]),
        heard: random.pick(&[30, 60, 90, 100]),
        named: random.pick(&[0, 50, 80, 100]),
        marked: random.pick(&[0, 15, 50, 85, 100]),
    }
}

/// Every stall heard, and a name in every place.
fn full_style(random: &mut Random, n: usize) -> Style {
    Style { labels: label_limit(n) + 1, heard: 100, named: 100, ..style(random, n) }
}

fn name(random: &mut Random, n: usize, column: usize, labels: usize) -> Name {
    let partner = random.other_stall(n, column) as u8;
    Name { partner, label: random.below(labels) as u8 }
}

/// Fills the rows, yields and marks that the own row leaves open, by any values that are accepted.
fn fill(random: &mut Random, table: &mut Table, style: &Style) {
    let (n, own) = (table.n, *table.own_row());
    table.rows = [[NONE; STALLS]; STALLS];
    table.rows[table.stall] = own;
    table.order = [0; STALLS];
    draw_yields(random, table);
    for s in (1..=n).filter(|&s| own[s] != NONE) {
        for r in (1..=n).filter(|_| s != table.stall) {
            let draw = random.percent(style.named);
            table.rows[s][r] = if draw { name(random, n, r, style.labels) } else { NONE };
        }
        table.rows[s][s] = own[s];
        for r in (1..=n).filter(|&r| own[r] != NONE) {
            if r == s || s == table.stall || random.percent(style.marked) {
                table.set_mark(r, s);
            }
        }
    }
}

/// The current yield, and that of each stall that is heard.
fn draw_yields(random: &mut Random, table: &mut Table) {
    table.current = random.image_yield();
    for r in table.stalls() {
        table.yields[r] = if table.heard(r) { random.image_yield() } else { NOT_MILKED };
    }
}

/// A table that has an own row and nothing else yet.
fn with_own_row(random: &mut Random, n: usize, stall: usize, style: &Style) -> Table {
    let mut table = Table::fresh(n, stall);
    for r in table.stalls() {
        if r == stall || random.percent(style.heard) {
            table.rows[stall][r] = name(random, n, r, style.labels);
        }
    }
    table
}

/// An accepted image that comes from no list.
pub fn accepted(random: &mut Random, n: usize, stall: usize) -> Table {
    let style = style(random, n);
    let mut table = with_own_row(random, n, stall, &style);
    if random.percent(5) {
        table.rows[stall] = [NONE; STALLS];
    }
    fill(random, &mut table, &style);
    table
}

/// An accepted image from no list of a head that has heard of just these stalls, its own among them
/// unless there are none.
pub fn that_heard(random: &mut Random, n: usize, stall: usize, heard: &[usize]) -> Table {
    let style = style(random, n);
    let mut table = Table::fresh(n, stall);
    for &r in heard {
        table.rows[stall][r] = name(random, n, r, style.labels);
    }
    fill(random, &mut table, &style);
    table
}

/// An accepted image from no list that has a name in every place.
pub fn full(random: &mut Random, n: usize, stall: usize) -> Table {
    let style = full_style(random, n);
    let mut table = with_own_row(random, n, stall, &style);
    fill(random, &mut table, &style);
    table
}

/// Two accepted images from no list that have meetings in common, of a size that a form has. For
/// most stalls one side's latest is made known to the other, so that many pairs are accepted.
pub fn related(random: &mut Random, form: Form) -> (Table, Table) {
    let n = random.size(form);
    related_of(random, n)
}

/// The same with so many heads.
pub fn related_of(random: &mut Random, n: usize) -> (Table, Table) {
    let a = random.stall(n);
    let b = random.other_stall(n, a);
    let style = style(random, n);
    let mut first = accepted(random, n, a);
    let mut second = accepted(random, n, b);
    relate(random, &mut first, &mut second, &style);
    if random.percent(30) {
        let next = crowd(random, &mut first, b, 0);
        crowd(random, &mut second, a, next);
    }
    if random.percent(85) {
        settle(random, &mut first, &mut second);
    }
    (first, second)
}

/// An accepted image to meet the one given: of the same stall, or of any size of a form, which is
/// mostly another.
pub fn mismatch(random: &mut Random, form: Form, table: &Table) -> Table {
    let same_n = random.percent(50);
    let n = if same_n { table.n } else { random.size(form) };
    let stall = if same_n { table.stall } else { random.stall(n) };
    accepted(random, n, stall)
}

/// Two accepted images from no list whose pair has as many different names as there can be: one
/// with each label up to the limit but `lowest`. In some a part of the higher labels is missing.
pub fn used_up(random: &mut Random, n: usize, lowest: u8) -> (Table, Table) {
    let a = random.stall(n);
    let b = random.other_stall(n, a);
    let style = full_style(random, n);
    let mut first = with_own_row(random, n, a, &style);
    let mut second = with_own_row(random, n, b, &style);
    relate(random, &mut first, &mut second, &style);
    let all = 0..=label_limit(n) as u8;
    let mut labels: Vec<u8> = all.filter(|&label| label != lowest).collect();
    random.shuffle(&mut labels);
    let (of_first, of_second) = labels.split_at(2 * n - 1);
    for (table, other, labels) in [(&mut first, b, of_first), (&mut second, a, of_second)] {
        name_pair(table, other, labels);
        thin_out(random, table, other, lowest);
        // The latest of the partner stands in its row too.
        table.rows[other][other] = table.own_row()[other];
    }
    settle(random, &mut first, &mut second);
    (first, second)
}

/// Gives the own rows of two images names in common, and fills the rest of both.
fn relate(random: &mut Random, first: &mut Table, second: &mut Table, style: &Style) {
    let shared = random.pick(&[20, 50, 80]);
    for r in first.stalls() {
        if first.heard(r) && second.heard(r) && random.percent(shared) {
            share(random, first, second, r);
        }
    }
    fill(random, first, style);
    fill(random, second, style);
}

/// Gives the second the name that the first has in column r: there, or in the partner's column.
fn share(random: &mut Random, first: &mut Table, second: &mut Table, r: usize) {
    let (a, b) = (first.stall, second.stall);
    let Name { partner, label } = first.rows[a][r];
    let across = partner as usize;
    if second.heard(across) && random.percent(40) {
        second.rows[b][across] = Name { partner: r as u8, label };
    } else {
        second.rows[b][r] = first.rows[a][r];
    }
}

/// Where an image can name the pair of its stall and `other`: row, column and partner. Row `other`,
/// column `other` is left out, for it has the name that the own row has in that column.
fn pair_places(table: &Table, other: usize) -> Vec<(usize, usize, u8)> {
    let own = table.stall;
    let heard = table.stalls().filter(|&s| table.heard(s));
    heard
        .flat_map(|s| [(s, own, other as u8), (s, other, own as u8)])
        .filter(|&(s, column, _)| (s, column) != (other, other))
        .collect()
}

/// Gives the pair of an image's stall and `other` names with labels from `label` on in the rows
/// other than the own; answers the label after the last.
fn crowd(random: &mut Random, table: &mut Table, other: usize, mut label: u8) -> u8 {
    for (s, column, partner) in pair_places(table, other) {
        if s != table.stall && random.percent(95) {
            table.rows[s][column] = Name { partner, label };
            label += 1;
        }
    }
    label
}

/// Names the pair of an image's stall and `other` in each place, with one of these labels each.
fn name_pair(table: &mut Table, other: usize, labels: &[u8]) {
    let places = pair_places(table, other);
    assert_eq!(places.len(), labels.len());
    for ((s, column, partner), &label) in places.into_iter().zip(labels) {
        table.rows[s][column] = Name { partner, label };
    }
}

/// Puts any names in place of some of the pair's with labels above `lowest`, which stays free.
fn thin_out(random: &mut Random, table: &mut Table, other: usize, lowest: u8) {
    let chance = random.pick(&[0, 20, 60]);
    for (s, column, partner) in pair_places(table, other) {
        let any = name(random, table.n, column, label_limit(table.n) + 1);
        let stays_free = any != Name { partner, label: lowest };
        if table.rows[s][column].label > lowest && stays_free && random.percent(chance) {
            table.rows[s][column] = any;
        }
    }
}

/// Chooses marks so that of two different latests of a stall just one is known, where that can be.
fn settle(random: &mut Random, first: &mut Table, second: &mut Table) {
    let first_common = common(first, second);
    let second_common = common(second, first);
    for r in first.stalls() {
        let know_first =
            match (must_know(first, &first_common, r), must_know(second, &second_common, r)) {
                (true, false) => true,
                (false, true) => false,
                _ => random.percent(50),
            };
        know(random, first, r, &first_common, know_first);
        know(random, second, r, &second_common, !know_first);
    }
}

/// Whether a latest is known whatever the marks that are free to choose.
fn must_know(table: &Table, common: &[usize], r: usize) -> bool {
    !table.heard(r) || common.contains(&r) || common.contains(&table.stall)
}

/// The columns of one's own row that name a meeting which the other's names too.
fn common(one: &Table, other: &Table) -> Vec<usize> {
    let names_too = |s: &usize| {
        let meeting = one.named(one.stall, *s);
        meeting.is_some() && other.stalls().any(|t| other.named(other.stall, t) == meeting)
    };
    one.stalls().filter(names_too).collect()
}

fn know(random: &mut Random, table: &mut Table, r: usize, common: &[usize], known: bool) {
    if !table.heard(r) || common.is_empty() {
        return;
    }
    if known {
        table.set_mark(r, random.pick(common));
        return;
    }
    for &s in common.iter().filter(|&&s| s != r && s != table.stall) {
        table.order[r] &= !(1 << (s - 1));
    }
}

/// Every accepted image of one of 2 heads, but for the yields, which are drawn.
pub fn all_of_two(random: &mut Random, stall: usize) -> Vec<Table> {
    let other = 3 - stall;
    let mut all = vec![Table::fresh(2, stall)];
    for (s, r) in [(stall, stall), (stall, other), (other, stall)] {
        let named = (0..=label_limit(2) as u8).map(|label| Name { partner: 3 - r as u8, label });
        all = with_each(&all, once(NONE).chain(named), |table, name| table.rows[s][r] = name);
    }
    for r in [1, 2] {
        all = with_each(&all, 0..4, |table, marks| table.order[r] = marks);
    }
    for table in &mut all {
        table.rows[other][other] = table.own_row()[other];
        draw_yields(random, table);
    }
    all.retain(|table| Form::Plain.check(&table.to_bytes()) == 0);
    all
}

/// Each of the tables with each of the choices put in.
fn with_each<T: Copy>(
    tables: &[Table],
    choices: impl Iterator<Item = T>,
    put: impl Fn(&mut Table, T),
) -> Vec<Table> {
    let mut all = Vec::new();
    for choice in choices {
        for table in tables {
            let mut table = table.clone();
            put(&mut table, choice);
            all.push(table);
        }
    }
    all
}

/// The same own row, with other rows, yields and some marks of its own: no list leaves this.
pub fn shaken(random: &mut Random, table: &Table) -> Table {
    let mut shaken = table.clone();
    let style = style(random, table.n);
    fill(random, &mut shaken, &style);
    for r in table.stalls() {
        if random.percent(85) {
            shaken.order[r] = table.order[r];
        }
        if random.percent(30) {
            shaken.rows[r] = table.rows[r];
        }
    }
    shaken
}

/// Puts another yield in one place of a table: 0 is for the current one, r for that of stall r.
pub fn put_yield(table: &mut Table, place: usize, new: u16) {
    match place {
        0 => table.current = new,
        r => table.yields[r] = new,
    }
}

/// Where the name of row s, column r must stand too: a latest stands in the own row and in the row
/// of its stall.
pub fn twin(table: &Table, s: usize, r: usize) -> (usize, usize) {
    if s == table.stall {
        (r, r)
    } else if s == r {
        (table.stall, r)
    } else {
        (s, r)
    }
}

/// Damages an image of a form in one to three places.
pub fn damage(random: &mut Random, form: Form, image: &mut Vec<u8>) {
    for _ in 0..1 + random.below(3) {
        damage_once(random, form, image);
    }
}

fn damage_once(random: &mut Random, form: Form, image: &mut Vec<u8>) {
    let n = image.first().map_or(0, |&n| n as usize);
    if !form.sizes().contains(&n) || image.len() != form.length(n) {
        return;
    }
    let (yields, orders) = (form.yields_at(n), form.orders_at(n));
    match random.below(12) {
        0 => image[0] = random.pick(&[0, 1, 2, 3, 7, 8, 9, 10, 15, 16, 17, 255]),
        1 => image.truncate(random.below(form.length(n))),
        2 => image.extend(vec![0; 1 + random.below(40)]),
        3 => image[1] = random.pick(&[0, 1, n as u8, n as u8 + 1, 255]),
        4 => write_yield(image, 2, random.any_yield()),
        5 | 6 => write_yield(image, yields + 2 * random.below(n), random.any_yield()),
        7..=9 => damage_name(random, form, n, &mut image[4..yields]),
        10 => damage_order(random, n, &mut image[orders..]),
        _ => {
            let at = random.below(image.len());
            image[at] = random.byte();
        }
    }
}

/// Puts something else in place of one of the names, given row by row: half of a name, or a whole
/// one that is good by itself.
fn damage_name(random: &mut Random, form: Form, n: usize, names: &mut [u8]) {
    let column = random.below(n);
    let at = form.name_len() * (n * random.below(n) + column);
    let Name { partner, label } = name(random, n, column + 1, label_limit(n) + 1);
    match (random.below(3), form) {
        (0, Form::Plain) => names[at] = random.below(n + 2) as u8,
        (1, Form::Plain) => names[at + 1] = random.pick(&edge_labels(n)),
        (_, Form::Plain) => (names[at], names[at + 1]) = (partner, label),
        (0, Form::Packed) => names[at] = 32 * random.below(8) as u8 + names[at] % 32,
        (1, Form::Packed) => names[at] = names[at] / 32 * 32 + random.below(32) as u8,
        (_, Form::Packed) => names[at] = 32 * (partner - 1) + label,
    }
}

/// Another mark in one of the order entries, or its bytes in the other order.
fn damage_order(random: &mut Random, n: usize, orders: &mut [u8]) {
    let width = order_width(n);
    let entry = &mut orders[width * random.below(n)..][..width];
    match random.below(3) {
        0 => entry.reverse(),
        _ => entry[random.below(width)] ^= 1 << random.below(8),
    }
}

fn write_yield(image: &mut [u8], at: usize, new: u16) {
    image[at..at + 2].copy_from_slice(&new.to_be_bytes());
}
