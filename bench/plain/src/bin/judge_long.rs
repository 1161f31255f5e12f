//! Judges a long recording as plainly as can be, once it has seen that each value read is its source's and each write list has the writes of its
//! address: the least overlook, or the first memory order by Kahn's algorithm and a heap over few forced pairs from
//! which all follow, or a cycle, found by walking back along pairs that wait. Prints what `tsotest judge --long` does, but for the pairs of a cycle.

use std::cmp::Reverse;
use std::collections::BinaryHeap;
use std::io::Write;

const NONE: u32 = u32::MAX;

/// An event: its core, its kind, its address, its source, the values that it read and wrote, and its place in the write list of its address.
#[derive(Clone, Copy)]
struct Event {
    core: u32,
    kind: u8,
    address: u32,
    source: u32,
    read: u32,
    written: u32,
    place: u32,
}

impl Event {
    fn reads(&self) -> bool {
        matches!(self.kind, b'L' | b'R' | b'C')
    }

    fn writes(&self) -> bool {
        matches!(self.kind, b'S' | b'R')
    }
}

struct Recording {
    events: Vec<Event>,
    writes: Vec<Vec<u32>>,
    init: Vec<u32>,
}

impl Recording {
    /// Puts the writes at their places, and says whether each is there once, and each value that was read is its source's.
    fn is_well_formed(&mut self) -> bool {
        let mut listed = 0;
        for (address, list) in self.writes.iter().enumerate() {
            for (place, write) in list.iter().enumerate() {
                let Some(event) = self.events.get_mut(*write as usize) else {
                    return false;
                };
                if !event.writes() || event.address as usize != address || event.place != NONE {
                    return false;
                }
                event.place = place as u32;
                listed += 1;
            }
        }
        listed == self.events.iter().filter(|it| it.writes()).count() && self.events.iter().all(|it| self.is_read_right(it))
    }

    fn is_read_right(&self, event: &Event) -> bool {
        if !event.reads() {
            return true;
        }
        if event.source == NONE {
            return event.read == self.init.get(event.address as usize).copied().unwrap_or(0);
        }
        let source = self.events.get(event.source as usize);
        source.is_some_and(|it| it.writes() && it.address == event.address && it.written == event.read)
    }
}

struct Reader<'a> {
    bytes: &'a [u8],
    at: usize,
}

impl Reader<'_> {
    fn takes(&mut self, text: &[u8]) -> bool {
        let is_there = self.bytes[self.at..].starts_with(text);
        if is_there {
            self.at += text.len();
        }
        is_there
    }

    fn number(&mut self) -> u32 {
        let mut value = 0;
        while let byte @ b'0'..=b'9' = self.bytes[self.at] {
            value = value * 10 + u32::from(byte - b'0');
            self.at += 1;
        }
        value
    }

    /// One object of an event, in the layout of `write_recording`.
    fn event(&mut self, core: u32) -> Event {
        let mut event = Event { core, kind: b'F', address: NONE, source: NONE, read: 0, written: 0, place: NONE };
        if self.takes(b"\"a\":") {
            event.address = self.number();
            self.at += 1;
        }
        assert!(self.takes(b"\"k\":\""));
        event.kind = self.bytes[self.at];
        self.at += 2;
        for key in [b",\"r\":", b",\"s\":", b",\"w\":"] {
            if self.takes(key) {
                let value = if self.takes(b"null") { NONE } else { self.number() };
                match key[2] {
                    b'r' => event.read = value,
                    b's' => event.source = value,
                    _ => event.written = value,
                }
            }
        }
        event
    }

    /// The numbers of a list that has begun, and its end.
    fn list(&mut self) -> Vec<u32> {
        let mut list = Vec::new();
        while self.bytes[self.at] != b']' {
            list.push(self.number());
            self.takes(b",");
        }
        self.at += 1;
        list
    }

    fn recording(&mut self) -> Recording {
        let (mut events, mut writes) = (Vec::new(), Vec::new());
        assert!(self.takes(b"{\"cores\":["));
        let mut core = 0;
        while self.takes(b"[") {
            while self.takes(b"{") {
                events.push(self.event(core));
                assert!(self.takes(b"}"));
                self.takes(b",");
            }
            assert!(self.takes(b"]"));
            self.takes(b",");
            core += 1;
        }
        while !self.takes(b"\"init\":[") {
            self.at += 1;
        }
        let init = self.list();
        while !self.takes(b"\"writes\":[") {
            self.at += 1;
        }
        while self.takes(b"[") {
            writes.push(self.list());
            self.takes(b",");
        }
        Recording { events, writes, init }
    }
}

/// The least overlook: a read, and the first write of its core before it that is newer than its source.
fn overlook(recording: &Recording) -> Option<(usize, u32)> {
    let mut own: Vec<Vec<u32>> = vec![Vec::new(); recording.writes.len()];
    let (mut core, mut used) = (NONE, Vec::new());
    for (number, event) in recording.events.iter().enumerate() {
        if event.core != core {
            core = event.core;
            for address in used.drain(..) {
                own[address as usize].clear();
            }
        }
        if event.reads() {
            let after = if event.source == NONE { 0 } else { recording.events[event.source as usize].place + 1 };
            let newer = own[event.address as usize].iter().find(|it| recording.events[**it as usize].place >= after);
            if let Some(write) = newer {
                return Some((number, *write));
            }
        }
        if event.writes() {
            own[event.address as usize].push(number as u32);
            used.push(event.address);
        }
    }
    None
}

/// Few forced pairs from which all follow.
fn pairs(recording: &Recording) -> Vec<(u32, u32)> {
    let mut found = Vec::with_capacity(3 * recording.events.len());
    let (mut core, mut store, mut other) = (NONE, NONE, NONE);
    for (number, event) in recording.events.iter().enumerate() {
        let number = number as u32;
        if event.core != core {
            (core, store, other) = (event.core, NONE, NONE);
        }
        if other != NONE {
            found.push((other, number));
        }
        if event.kind != b'L' && store != NONE {
            found.push((store, number));
        }
        if event.kind == b'S' {
            store = number;
        } else {
            other = number;
        }
        if event.reads() {
            let list = &recording.writes[event.address as usize];
            let after = if event.source == NONE { 0 } else { recording.events[event.source as usize].place as usize + 1 };
            if event.source != NONE && (recording.events[event.source as usize].core != event.core || event.source >= number) {
                found.push((event.source, number));
            }
            let next = if list.get(after) == Some(&number) { list.get(after + 1) } else { list.get(after) };
            if let Some(write) = next {
                found.push((number, *write));
            }
        }
    }
    for list in &recording.writes {
        found.extend(list.windows(2).map(|it| (it[0], it[1])));
    }
    found
}

fn main() {
    let bytes = std::fs::read(std::env::args().nth(1).expect("a recording")).expect("a file");
    let mut recording = Reader { bytes: &bytes, at: 0 }.recording();
    let out = std::io::stdout();
    let mut out = std::io::BufWriter::new(out.lock());
    if !recording.is_well_formed() {
        writeln!(out, "refused").unwrap();
        return;
    }
    if let Some((read, write)) = overlook(&recording) {
        writeln!(out, "overlook: load {read} store {write}").unwrap();
        return;
    }
    let pairs = pairs(&recording);
    let count = recording.events.len();
    let (mut starts, mut waits) = (vec![0u32; count + 1], vec![0u32; count]);
    for (before, after) in &pairs {
        starts[*before as usize + 1] += 1;
        waits[*after as usize] += 1;
    }
    for at in 0..count {
        starts[at + 1] += starts[at];
    }
    let (mut ends, mut fill) = (vec![0u32; pairs.len()], starts.clone());
    for (before, after) in &pairs {
        ends[fill[*before as usize] as usize] = *after;
        fill[*before as usize] += 1;
    }
    let mut ready: BinaryHeap<Reverse<u32>> = (0..count as u32).filter(|it| waits[*it as usize] == 0).map(Reverse).collect();
    let mut order = Vec::with_capacity(count);
    while let Some(Reverse(number)) = ready.pop() {
        order.push(number);
        for next in &ends[starts[number as usize] as usize..starts[number as usize + 1] as usize] {
            waits[*next as usize] -= 1;
            if waits[*next as usize] == 0 {
                ready.push(Reverse(*next));
            }
        }
    }
    if order.len() < count {
        // A walk back along events that wait comes to one that it passed.
        let mut before = vec![NONE; count];
        for (first, second) in &pairs {
            if waits[*first as usize] > 0 && waits[*second as usize] > 0 {
                before[*second as usize] = *first;
            }
        }
        let mut passed = vec![false; count];
        let mut at = (0..count).find(|it| waits[*it] > 0).unwrap();
        while !passed[at] {
            passed[at] = true;
            at = before[at] as usize;
        }
        let (mut length, mut next) = (1, before[at] as usize);
        while next != at {
            length += 1;
            next = before[next] as usize;
        }
        writeln!(out, "cycle of {length} or fewer").unwrap();
        return;
    }
    write!(out, "ordered:").unwrap();
    for number in order {
        write!(out, " {number}").unwrap();
    }
    writeln!(out).unwrap();
}
