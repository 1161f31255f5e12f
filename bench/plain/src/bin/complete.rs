//! Says whether TSO allows values alone, as plainly as can be: a search over frontiers, with pairs that are forced and tries, as
//! `tsotest complete` makes it. It reads the one layout that bench/completions writes, and prints `completed`, `impossible` or
//! `unfinished`, and how many states it saw; it makes no recording, no circle and no part.
use std::collections::HashSet;

#[derive(Clone, Copy, PartialEq, Eq)]
enum Kind {
    L,
    S,
    R,
    C,
    F,
}

/// What an event did: its address, the value that it read, and the one that it wrote.
#[derive(Clone, Copy)]
struct Event {
    k: Kind,
    a: u8,
    r: u32,
    w: u32,
}

impl Event {
    fn reads(&self) -> bool {
        matches!(self.k, Kind::L | Kind::R | Kind::C)
    }

    fn writes(&self) -> bool {
        matches!(self.k, Kind::S | Kind::R)
    }
}

/// What was seen: events, and initial values; what memory has at the end, where it is known.
struct Values {
    cores: Vec<Vec<Event>>,
    init: Vec<u32>,
    last: Vec<Option<u32>>,
}

enum Found {
    Completed,
    Impossible,
    Unfinished,
}

#[derive(Clone, PartialEq, Eq, Hash)]
struct State {
    pc: Vec<u16>,
    drained: Vec<u16>,
    /// last write of each address in memory: its number, or none
    last: Vec<u32>,
}

const NONE: u32 = u32::MAX;

struct Search<'a> {
    v: &'a Values,
    start: Vec<usize>,
    stores: Vec<Vec<u16>>,
    /// (address, value) by number of the remaining writes is counted from states, so all writes by address and value
    seen: HashSet<State>,
    bound: usize,
    path: Vec<(usize, usize)>,
    /// what has to be before what, here
    known: Inference,
    /// states in this try, and what mixes the order of its choices, 0 for none
    count: usize,
    mix: u64,
}

impl Search<'_> {
    fn event(&self, c: usize, i: usize) -> &Event {
        &self.v.cores[c][i]
    }
    fn value(&self, last: u32, a: usize) -> u32 {
        if last == NONE {
            return self.v.init[a];
        }
        let c = self.start.partition_point(|&s| s <= last as usize) - 1;
        self.event(c, last as usize - self.start[c]).w
    }
    /// the newest own store to an address that is executed and waits
    fn own(&self, s: &State, c: usize, a: u8) -> Option<u16> {
        let l = &self.stores[c];
        let mut k = l.partition_point(|&i| i < s.pc[c]);
        while k > s.drained[c] as usize {
            k -= 1;
            if self.event(c, l[k] as usize).a == a {
                return Some(l[k]);
            }
        }
        None
    }
    fn waits(&self, s: &State, c: usize) -> bool {
        let l = &self.stores[c];
        l.get(s.drained[c] as usize).is_some_and(|&i| i < s.pc[c])
    }
    /// free steps, until none is left; each is written to the path
    fn free(&mut self, s: &mut State) {
        loop {
            let mut moved = false;
            for c in 0..s.pc.len() {
                while (s.pc[c] as usize) < self.v.cores[c].len() {
                    let i = s.pc[c] as usize;
                    let e = *self.event(c, i);
                    let go = match e.k {
                        Kind::S => true,
                        Kind::F => !self.waits(s, c),
                        Kind::L => match self.own(s, c, e.a) {
                            Some(j) => self.event(c, j as usize).w == e.r,
                            None => self.value(s.last[e.a as usize], e.a as usize) == e.r,
                        },
                        Kind::C => !self.waits(s, c) && self.value(s.last[e.a as usize], e.a as usize) == e.r,
                        Kind::R => false,
                    };
                    if !go {
                        break;
                    }
                    if e.k != Kind::S {
                        self.path.push((c, i));
                    }
                    s.pc[c] += 1;
                    moved = true;
                }
            }
            if !moved {
                return;
            }
        }
    }
    /// a waiting read whose value is not in memory and that no write to come has
    fn dead(&self, s: &State) -> bool {
        (0..s.pc.len()).any(|c| {
            let i = s.pc[c] as usize;
            if i >= self.v.cores[c].len() {
                return false;
            }
            let e = self.event(c, i);
            if !e.reads() || self.value(s.last[e.a as usize], e.a as usize) == e.r {
                return false;
            }
            !(0..s.pc.len()).any(|d| {
                let from = self.stores[d].get(s.drained[d] as usize).map_or(s.pc[d] as usize, |&k| (k as usize).min(s.pc[d] as usize));
                (from..self.v.cores[d].len()).any(|j| {
                    let x = self.event(d, j);
                    let to_come = match x.k {
                        Kind::S => !(d == c && j > i),
                        Kind::R => j >= s.pc[d] as usize && !(d == c && j >= i),
                        _ => false,
                    };
                    to_come && x.a == e.a && x.w == e.r
                })
            })
        })
    }
    fn go(&mut self, s: &State) -> Option<bool> {
        let n = s.pc.len();
        if (0..n).all(|c| s.pc[c] as usize == self.v.cores[c].len() && !self.waits(s, c)) {
            return Some((0..self.v.last.len()).all(|a| self.v.last[a].is_none_or(|w| w == self.value(s.last[a], a))));
        }
        if self.dead(s) {
            return Some(false);
        }
        // choices: first those whose write a waiting read wants
        let mut choices: Vec<(bool, usize, usize)> = vec![];
        for c in 0..n {
            let i = if self.waits(s, c) {
                self.stores[c][s.drained[c] as usize] as usize
            } else {
                let i = s.pc[c] as usize;
                match self.v.cores[c].get(i) {
                    Some(e) if e.k == Kind::R && self.value(s.last[e.a as usize], e.a as usize) == e.r => i,
                    _ => continue,
                }
            };
            let x = *self.event(c, i);
            let number = self.start[c] + i;
            let early = self.known.before[number].iter().enumerate().any(|(k, &word)| {
                let mut word = word;
                while word != 0 {
                    let y = k * 64 + word.trailing_zeros() as usize;
                    word &= word - 1;
                    let d = self.start.partition_point(|&s| s <= y) - 1;
                    let j = y - self.start[d];
                    let done = j < s.pc[d] as usize
                        && (self.event(d, j).k != Kind::S || self.stores[d].partition_point(|&k| (k as usize) < j) < s.drained[d] as usize);
                    if !done {
                        return true;
                    }
                }
                false
            });
            if early {
                continue;
            }
            let wanted = (0..n).any(|d| self.v.cores[d].get(s.pc[d] as usize).is_some_and(|e| e.reads() && e.a == x.a && e.r == x.w));
            let spoils = (0..n).any(|d| {
                (s.pc[d] as usize..self.v.cores[d].len()).any(|j| {
                    let e = self.event(d, j);
                    e.reads() && e.a == x.a && e.r == self.value(s.last[x.a as usize], x.a as usize) && (d, j) != (c, i)
                })
            });
            // a read still needs what is overwritten, and no write to come has it
            let now = self.value(s.last[x.a as usize], x.a as usize);
            if spoils && x.w != now {
                let again = (0..n).any(|d| {
                    let from = self.stores[d].get(s.drained[d] as usize).map_or(s.pc[d] as usize, |&k| (k as usize).min(s.pc[d] as usize));
                    (from..self.v.cores[d].len()).any(|j| {
                        let e = self.event(d, j);
                        (e.k == Kind::S || e.k == Kind::R && j >= s.pc[d] as usize) && (d, j) != (c, i) && e.a == x.a && e.w == now
                    })
                });
                // a read of the own core that takes it from the buffer is no such read
                if !again && (0..n).any(|d| {
                    (s.pc[d] as usize..self.v.cores[d].len()).any(|j| {
                        let e = self.event(d, j);
                        e.reads() && e.a == x.a && e.r == now && (d, j) != (c, i)
                    })
                }) {
                    continue;
                }
            }
            choices.push((!wanted && spoils, c, i));
        }
        if self.mix != 0 {
            for x in choices.iter_mut() {
                self.mix = self.mix.wrapping_mul(6364136223846793005).wrapping_add(1442695040888963407);
                if self.mix >> 60 == 0 {
                    x.0 = !x.0;
                }
            }
            let k = (self.mix >> 33) as usize % choices.len().max(1);
            choices.rotate_left(k);
        }
        choices.sort_by_key(|x| x.0);
        for (_, c, i) in choices {
            let mark = self.path.len();
            let mut t = s.clone();
            let x = *self.event(c, i);
            if x.k == Kind::R {
                t.pc[c] += 1;
            } else {
                t.drained[c] += 1;
            }
            t.last[x.a as usize] = (self.start[c] + i) as u32;
            self.path.push((c, i));
            self.free(&mut t);
            if !self.seen.contains(&t) {
                self.count += 1;
                if self.count > self.bound {
                    return None;
                }
                match self.go(&t) {
                    Some(false) => {}
                    other => return other,
                }
            }
            self.path.truncate(mark);
        }
        self.seen.insert(s.clone());
        Some(false)
    }
}

/// What every memory order of any completion has in order, by rules after TSOtool: program order, sources, and what a read's
/// last visible write says of other writes.
#[derive(Clone)]
struct Inference {
    core: Vec<usize>,
    reads: Vec<Option<usize>>,
    writes: Vec<Vec<usize>>,
    address: Vec<usize>,
    /// the only source that a read can have, where there is one: Some(None) is the initial value
    source: Vec<Option<Option<usize>>>,
    /// before[y] has x: x is before y in memory order
    before: Vec<Vec<u64>>,
}

impl Inference {
    fn has(&self, x: usize, y: usize) -> bool {
        self.before[y][x / 64] >> (x % 64) & 1 == 1
    }
    fn put(&mut self, x: usize, y: usize) -> bool {
        let new = !self.has(x, y);
        self.before[y][x / 64] |= 1 << (x % 64);
        new
    }
    fn of(v: &Values) -> Inference {
        let start: Vec<usize> = v.cores.iter().scan(0, |s, l| Some(std::mem::replace(s, *s + l.len()))).collect();
        let ev: Vec<(usize, Event)> = v.cores.iter().enumerate().flat_map(|(c, l)| l.iter().map(move |e| (c, *e))).collect();
        let n = ev.len();
        let mut writes = vec![vec![]; v.init.len()];
        for (i, (_, e)) in ev.iter().enumerate() {
            if e.writes() {
                writes[e.a as usize].push(i);
            }
        }
        let source = ev
            .iter()
            .enumerate()
            .map(|(i, (_, e))| {
                if !e.reads() {
                    return None;
                }
                let from: Vec<usize> = writes[e.a as usize].iter().copied().filter(|&w| w != i && ev[w].1.w == e.r).collect();
                match (from.len(), v.init[e.a as usize] == e.r) {
                    (1, false) => Some(Some(from[0])),
                    (0, true) => Some(None),
                    _ => None,
                }
            })
            .collect();
        let reads = ev.iter().enumerate().map(|(i, (_, e))| e.reads().then_some(i)).collect();
        let mut t = Inference {
            core: ev.iter().map(|x| x.0).collect(),
            reads,
            writes,
            address: ev.iter().map(|x| x.1.a as usize).collect(),
            source,
            before: vec![vec![0u64; n.div_ceil(64)]; n],
        };
        for (c, l) in v.cores.iter().enumerate() {
            for j in 0..l.len() {
                for i in 0..j {
                    if !(l[i].k == Kind::S && l[j].k == Kind::L) {
                        t.put(start[c] + i, start[c] + j);
                    }
                }
            }
        }
        for (a, w) in v.last.iter().enumerate() {
            let of: Vec<usize> = t.writes[a].iter().copied().filter(|&e| Some(ev[e].1.w) == *w).collect();
            if of.len() == 1 {
                for x in t.writes[a].clone() {
                    if x != of[0] {
                        t.put(x, of[0]);
                    }
                }
            }
        }
        t
    }
    /// Puts what follows; false where there is a circle or a read can't be.
    fn close(&mut self) -> bool {
        let n = self.before.len();
        let own = |t: &Inference, x: usize, y: usize| t.core[x] == t.core[y] && x < y;
        loop {
            let mut changed = false;
            for k in 0..n {
                let row = self.before[k].clone();
                for y in 0..n {
                    if y != k && self.has(k, y) {
                        for (a, b) in self.before[y].iter_mut().zip(&row) {
                            changed |= *b & !*a != 0;
                            *a |= b;
                        }
                    }
                }
            }
            if (0..n).any(|y| self.has(y, y)) {
                return false;
            }
            for l in self.reads.clone().into_iter().flatten() {
                let Some(src) = self.source[l] else { continue };
                if let Some(w) = src {
                    if !own(self, w, l) {
                        changed |= self.put(w, l);
                    }
                }
                for i in 0..self.writes[self.address[l]].len() {
                    let x = self.writes[self.address[l]][i];
                    if x == l || Some(x) == src {
                        continue;
                    }
                    let seen = own(self, x, l) || self.has(x, l);
                    match src {
                        None if seen => return false,
                        None => changed |= self.put(l, x),
                        Some(w) => {
                            if seen {
                                changed |= self.put(x, w);
                            }
                            if self.has(w, x) {
                                if own(self, x, l) {
                                    return false;
                                }
                                changed |= self.put(l, x);
                            }
                        }
                    }
                }
            }
            if !changed {
                return true;
            }
        }
    }
}

/// The answer, and how many states were seen.
fn complete(v: &Values, bound: usize) -> (Found, usize) {
    let n = v.cores.len();
    let start: Vec<usize> = v.cores.iter().scan(0, |s, l| Some(std::mem::replace(s, *s + l.len()))).collect();
    let stores = v.cores.iter().map(|l| (0..l.len() as u16).filter(|&i| l[i as usize].k == Kind::S).collect()).collect();
    let mut known = Inference::of(v);
    if !known.close() {
        return (Found::Impossible, 0);
    }
    let mut search = Search { v, known, start, stores, seen: HashSet::new(), bound, path: vec![], count: 0, mix: 0 };
    let mut s = State { pc: vec![0; n], drained: vec![0; n], last: vec![NONE; v.init.len()] };
    search.free(&mut s);
    let mark = search.path.len();
    let mut states = 0;
    let mut found = None;
    for k in 0..40u64 {
        search.path.truncate(mark);
        (search.count, search.mix) = (0, k * 0x9e37_79b9_7f4a_7c15);
        search.bound = (if k == 39 { bound } else { 1000 + 50 * k as usize }).min(bound);
        found = search.go(&s);
        states += search.count;
        if found.is_some() || states > bound {
            break;
        }
    }
    match found {
        None => (Found::Unfinished, states),
        Some(false) => (Found::Impossible, states),
        Some(true) => (Found::Completed, states),
    }
}

struct Reader<'a> {
    bytes: &'a [u8],
    at: usize,
}

impl Reader<'_> {
    fn takes(&mut self, text: &[u8]) -> bool {
        let is_there = self.bytes[self.at..].starts_with(text);
        if is_there {
            self.at += text.len();
        }
        is_there
    }

    fn number(&mut self) -> u32 {
        let mut value = 0;
        while let byte @ b'0'..=b'9' = self.bytes[self.at] {
            value = value * 10 + u32::from(byte - b'0');
            self.at += 1;
        }
        value
    }

    fn event(&mut self) -> Event {
        let mut event = Event { k: Kind::F, a: 0, r: 0, w: 0 };
        if self.takes(b"\"a\":") {
            event.a = self.number() as u8;
            self.at += 1;
        }
        assert!(self.takes(b"\"k\":\""));
        event.k = match self.bytes[self.at] {
            b'L' => Kind::L,
            b'S' => Kind::S,
            b'R' => Kind::R,
            b'C' => Kind::C,
            _ => Kind::F,
        };
        self.at += 2;
        if self.takes(b",\"r\":") {
            event.r = self.number();
        }
        if self.takes(b",\"w\":") {
            event.w = self.number();
        }
        event
    }

    fn values(&mut self) -> Values {
        let (mut cores, mut init) = (Vec::new(), Vec::new());
        assert!(self.takes(b"{\"cores\":["));
        while self.takes(b"[") {
            let mut events = Vec::new();
            while self.takes(b"{") {
                events.push(self.event());
                assert!(self.takes(b"}"));
                self.takes(b",");
            }
            assert!(self.takes(b"]"));
            self.takes(b",");
            cores.push(events);
        }
        assert!(self.takes(b"],\"init\":["));
        while self.bytes[self.at] != b']' {
            init.push(self.number());
            self.takes(b",");
        }
        let last = vec![None; init.len()];
        Values { cores, init, last }
    }
}

fn main() {
    let mut bytes = Vec::new();
    std::io::Read::read_to_end(&mut std::io::stdin(), &mut bytes).expect("values");
    let (found, states) = complete(&Reader { bytes: &bytes, at: 0 }.values(), 1_000_000);
    let said = match found {
        Found::Completed => "completed",
        Found::Impossible => "impossible",
        Found::Unfinished => "unfinished",
    };
    println!("{said} {states}");
}
