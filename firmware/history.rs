//! What a list leaves, read from its items alone: no image and no answer is looked at here.

use crate::model::{Name, Table, NONE, NOT_MILKED, STALLS};
use std::cmp::Ordering;

/// How a history knows what lies in a past.
#[derive(Clone, Copy)]
pub enum Pasts {
    /// Each past is listed, as document 01 defines it.
    Listed,
    /// For lists too long for that: the meetings of one stall are a chain, so the newest of each
    /// stall, an unbounded number, stands for all in a past.
    Counted,
}

/// A meeting of the history. It is its place there, counted from 0 among the meetings.
pub struct Event {
    stalls: [usize; 2],
    label: u8,
    /// The yields that the two stalls had.
    yields: [u16; 2],
    /// For each earlier meeting and this one: whether it lies in the past of this one. Empty where
    /// pasts are counted.
    past: Vec<bool>,
    /// The newest meeting of each stall in the past of this one.
    newest: [Option<usize>; STALLS],
}

impl Event {
    fn has(&self, stall: usize) -> bool {
        self.stalls.contains(&stall)
    }
}

pub struct History {
    n: usize,
    pasts: Pasts,
    events: Vec<Event>,
    /// The last meeting of each head.
    last: [Option<usize>; STALLS],
    /// The yield of each head's last milking that counts, or not milked.
    current: [u16; STALLS],
}

impl History {
    pub fn new(n: usize, pasts: Pasts) -> History {
        let (last, current) = ([None; STALLS], [NOT_MILKED; STALLS]);
        History { n, pasts, events: Vec::new(), last, current }
    }

    pub fn milking(&mut self, stall: usize, new: u16) {
        self.current[stall] = new;
    }

    /// The newest meeting of r in the past of the head's last meeting.
    pub fn latest(&self, head: usize, r: usize) -> Option<usize> {
        self.events[self.last[head]?].newest[r]
    }

    /// The verdict on the latests of two heads; none is older than any meeting.
    pub fn verdict(&self, first: usize, second: usize, r: usize) -> u8 {
        match self.latest(first, r).cmp(&self.latest(second, r)) {
            Ordering::Greater => 1,
            Ordering::Less => 2,
            Ordering::Equal => 0,
        }
    }

    /// The lowest label that no meeting of the two has among their latests and the newest meetings
    /// in the pasts of these.
    pub fn label(&self, first: usize, second: usize) -> u8 {
        let mut held = Vec::new();
        for head in [first, second] {
            for latest in (1..=self.n).filter_map(|s| self.latest(head, s)) {
                held.push(latest);
                held.extend(self.events[latest].newest.iter().flatten());
            }
        }
        let taken = |label| {
            held.iter()
                .map(|&place| &self.events[place])
                .any(|event| event.has(first) && event.has(second) && event.label == label)
        };
        (0..).find(|&label| !taken(label)).unwrap()
    }

    pub fn meeting(&mut self, first: usize, second: usize) {
        let place = self.events.len();
        let mut event = Event {
            stalls: [first, second],
            label: self.label(first, second),
            yields: [self.current[first], self.current[second]],
            past: Vec::new(),
            newest: [None; STALLS],
        };
        if let Pasts::Listed = self.pasts {
            event.past = self.past(first, second);
        }
        for r in 1..=self.n {
            event.newest[r] = match self.pasts {
                _ if event.has(r) => Some(place),
                Pasts::Listed => {
                    (0..place).rev().find(|&at| event.past[at] && self.events[at].has(r))
                }
                Pasts::Counted => self.latest(first, r).max(self.latest(second, r)),
            };
        }
        self.events.push(event);
        (self.last[first], self.last[second]) = (Some(place), Some(place));
    }

    /// The past of a new meeting: itself, and the past of every earlier one that shares a stall.
    fn past(&self, first: usize, second: usize) -> Vec<bool> {
        let mut past = vec![false; self.events.len()];
        for event in self.events.iter().filter(|event| event.has(first) || event.has(second)) {
            for (place, _) in event.past.iter().enumerate().filter(|(_, in_past)| **in_past) {
                past[place] = true;
            }
        }
        past.push(true);
        past
    }

    /// Meeting a lies in the past of meeting b.
    fn is_in_past(&self, a: usize, b: usize) -> bool {
        match self.pasts {
            Pasts::Listed => self.events[b].past.get(a) == Some(&true),
            Pasts::Counted => self.events[b].newest[self.events[a].stalls[0]] >= Some(a),
        }
    }

    /// For a head: its latest of r lies in the past of its latest of s.
    pub fn is_before(&self, head: usize, r: usize, s: usize) -> bool {
        let latests = self.latest(head, r).zip(self.latest(head, s));
        latests.is_some_and(|(latest_r, latest_s)| self.is_in_past(latest_r, latest_s))
    }

    /// How column r names a meeting of stall r.
    fn name(&self, place: Option<usize>, r: usize) -> Name {
        let Some(place) = place else { return NONE };
        let Event { stalls: [a, b], label, .. } = self.events[place];
        Name { partner: if r == a { b } else { a } as u8, label }
    }

    /// The table that a head has at the end of the list. Of a stall never heard it has what a fresh
    /// one has.
    pub fn table(&self, head: usize) -> Table {
        let mut table = Table::fresh(self.n, head);
        table.current = self.current[head];
        for s in 1..=self.n {
            let Some(latest) = self.latest(head, s) else { continue };
            let event = &self.events[latest];
            table.yields[s] = event.yields[(event.stalls[1] == s) as usize];
            for r in 1..=self.n {
                table.rows[s][r] = self.name(event.newest[r], r);
                if self.is_before(head, r, s) {
                    table.set_mark(r, s);
                }
            }
        }
        for r in 1..=self.n {
            table.rows[head][r] = self.name(self.latest(head, r), r);
        }
        table
    }
}
