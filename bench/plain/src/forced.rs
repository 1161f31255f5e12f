//! The forced pairs of a recording in which no load overlooks a store, their least order and their
//! least cycle.

use crate::newer::Newer;
use crate::recording::{Op, Recording};

/// Each pair's reason, `NONE` where it is not forced.
pub struct Forced {
    len: usize,
    reasons: Vec<u8>,
}

/// The first of the shortest cycles, with the row of each event.
pub struct Cycle {
    pub events: Vec<usize>,
    pub rows: Vec<Vec<u16>>,
}

/// A set of at most `64 * WORDS` events.
type Bits<const WORDS: usize> = [u64; WORDS];

const NONE: u8 = 0;
const PROGRAM_ORDER: u8 = 1;
const WRITE_ORDER: u8 = 2;
const READS_FROM: u8 = 3;
const FROM_READ: u8 = 4;

impl Forced {
    pub fn of(recording: &Recording, newer: &Newer) -> Forced {
        let len = recording.events.len();
        let reasons = vec![NONE; len * len];
        let mut forced = Forced { len, reasons };
        forced.put_program_order(recording);
        forced.put_write_order(recording);
        forced.put_reads(recording, newer);
        forced
    }

    fn put(&mut self, first: usize, second: usize, reason: u8) {
        let cell = &mut self.reasons[first * self.len + second];
        if *cell == NONE {
            *cell = reason;
        }
    }

    fn put_program_order(&mut self, recording: &Recording) {
        for (first, event) in recording.events.iter().enumerate() {
            let is_store = matches!(event.op, Op::Store { .. });
            let later = recording.events.iter().enumerate().skip(first + 1);
            for (second, other) in later.take_while(|(_, other)| other.core == event.core) {
                if !(is_store && matches!(other.op, Op::Load { .. })) {
                    self.put(first, second, PROGRAM_ORDER);
                }
            }
        }
    }

    fn put_write_order(&mut self, recording: &Recording) {
        for list in &recording.writes {
            for (i, first) in list.iter().enumerate() {
                for second in &list[i + 1..] {
                    self.put(*first, *second, WRITE_ORDER);
                }
            }
        }
    }

    fn put_reads(&mut self, recording: &Recording, newer: &Newer) {
        for (load, event) in recording.events.iter().enumerate() {
            let Some((address, source)) = event.read() else {
                continue;
            };
            if let Some(source) = source.filter(|source| !newer.is_own(*source, load)) {
                self.put(source, load, READS_FROM);
            }
            for store in newer
                .than(address, source)
                .iter()
                .filter(|store| **store != load)
            {
                self.put(load, *store, FROM_READ);
            }
        }
    }

    fn row(&self, first: usize) -> &[u8] {
        &self.reasons[first * self.len..][..self.len]
    }

    /// The word of a pair's reason.
    pub fn reason(&self, first: usize, second: usize) -> &'static str {
        ["", "Po", "Wo", "Rf", "Fr"][usize::from(self.row(first)[second])]
    }

    /// The first order in dictionary order, if there is one.
    pub fn order(&self) -> Option<Vec<usize>> {
        let mut waits = vec![1u16; self.len];
        for first in 0..self.len {
            for (wait, reason) in waits.iter_mut().zip(self.row(first)) {
                *wait += u16::from(*reason != NONE);
            }
        }
        let mut order = Vec::with_capacity(self.len);
        for _ in 0..self.len {
            let event = waits.iter().position(|wait| *wait == 1)?;
            for (wait, reason) in waits.iter_mut().zip(self.row(event)) {
                *wait = wait.saturating_sub(u16::from(*reason != NONE));
            }
            waits[event] = 0;
            order.push(event);
        }
        Some(order)
    }

    /// The least cycle, if there is one.
    pub fn cycle(&self) -> Cycle {
        let (cap, rows) = match self.len.div_ceil(64) {
            0..=1 => self.rows::<1>(),
            2 => self.rows::<2>(),
            3..=4 => self.rows::<4>(),
            _ => self.rows::<8>(),
        };
        let closes =
            |v: usize| (0..self.len).any(|e| self.row(e)[v] != NONE && rows[v][e] + 1 == cap);
        let first = (0..self.len).find(|v| closes(*v)).expect("a cycle");
        let mut events = vec![first];
        let mut last = first;
        for left in (1..cap).rev() {
            let leads_on = |f: &usize| self.row(last)[*f] != NONE && rows[*f][first] == left;
            last = (0..self.len).find(leads_on).expect("a next event");
            events.push(last);
        }
        Cycle { events, rows }
    }

    /// The length of the shortest cycles, and the rows of all events.
    fn rows<const WORDS: usize>(&self) -> (u16, Vec<Vec<u16>>) {
        let bits = self.bits::<WORDS>();
        let mut cap = self.len as u16;
        let mut rows = Vec::with_capacity(self.len);
        for source in 0..self.len {
            let (row, closing) = distances(&bits, source, cap);
            cap = cap.min(closing);
            rows.push(row);
        }
        rows.iter_mut()
            .flatten()
            .for_each(|label| *label = (*label).min(cap));
        (cap, rows)
    }

    /// The events that each is forced before.
    fn bits<const WORDS: usize>(&self) -> Vec<Bits<WORDS>> {
        let bits_of = |row: &[u8]| {
            let mut bits = [0; WORDS];
            for (event, _) in row
                .iter()
                .enumerate()
                .filter(|(_, reason)| **reason != NONE)
            {
                bits[event / 64] |= 1 << (event % 64);
            }
            bits
        };
        (0..self.len)
            .map(|first| bits_of(self.row(first)))
            .collect()
    }
}

/// The number of steps from a source to each event, below the cap, and to itself by a cycle.
fn distances<const WORDS: usize>(bits: &[Bits<WORDS>], source: usize, cap: u16) -> (Vec<u16>, u16) {
    let mut labels = vec![cap; bits.len()];
    let (mut level, mut seen, mut closing) = ([0; WORDS], [0; WORDS], cap);
    level[source / 64] |= 1 << (source % 64);
    for label in 0..cap {
        let mut next = [0; WORDS];
        for (word, events) in level.iter().enumerate() {
            let mut rest: u64 = *events;
            while rest != 0 {
                let event = 64 * word + rest.trailing_zeros() as usize;
                rest &= rest - 1;
                labels[event] = label;
                (0..WORDS).for_each(|i| next[i] |= bits[event][i]);
            }
        }
        if closing == cap && next[source / 64] >> (source % 64) & 1 == 1 {
            closing = label + 1;
        }
        (0..WORDS).for_each(|i| seen[i] |= level[i]);
        (0..WORDS).for_each(|i| next[i] &= !seen[i]);
        if next == [0; WORDS] {
            break;
        }
        level = next;
    }
    (labels, closing)
}
