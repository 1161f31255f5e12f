//! A plain survey for comparison: judges recordings, one a line, by threads, and counts the verdicts.

use crate::by_key;
use plain::{self, Kind};
use std::collections::BTreeMap;
use std::io::{BufRead, BufReader};
use std::sync::{Mutex, mpsc};
use std::{fs, thread};

/// How many lines a thread is given at once.
const LINES: usize = 64;

/// How many recordings there are of each kind, and which violation is the first.
#[derive(Default)]
struct Counts {
    recordings: usize,
    ordered: usize,
    overlook: usize,
    cycles: BTreeMap<usize, usize>,
    first: Option<usize>,
}

impl Counts {
    fn count(&mut self, number: usize, line: &str) {
        self.recordings += 1;
        match plain::kind(&by_key::read(line).expect("a recording")) {
            Kind::Ordered => {
                self.ordered += 1;
                return;
            }
            Kind::Overlook => self.overlook += 1,
            Kind::Cycle(length) => *self.cycles.entry(length).or_default() += 1,
        }
        self.first = Some(self.first.map_or(number, |first| first.min(number)));
    }

    fn add(&mut self, other: Counts) {
        self.recordings += other.recordings;
        self.ordered += other.ordered;
        self.overlook += other.overlook;
        for (length, count) in other.cycles {
            *self.cycles.entry(length).or_default() += count;
        }
        self.first = self.first.into_iter().chain(other.first).min();
    }

    fn print(&self) {
        println!("recordings {}\nordered {}", self.recordings, self.ordered);
        println!("refused 0\noverlook {}", self.overlook);
        for (length, count) in &self.cycles {
            println!("cycle {length}: {count}");
        }
        let first = self.first.map(|number| format!("recording {number}"));
        println!("first violation: {}", first.unwrap_or("none".into()));
        println!("first refused: none");
    }
}

/// The lines of a file, this many at once, each lot with the number of its first.
fn lots(file: &str) -> impl Iterator<Item = (usize, Vec<String>)> {
    let file = fs::File::open(file).expect("a file");
    let mut lines = BufReader::with_capacity(1 << 20, file).lines();
    let mut next = 0;
    std::iter::from_fn(move || {
        let lot: Vec<String> = lines.by_ref().take(LINES).map(Result::unwrap).collect();
        let first = next;
        next += lot.len();
        (!lot.is_empty()).then_some((first, lot))
    })
}

fn count_lot(counts: &mut Counts, (first, lot): (usize, Vec<String>)) {
    for (i, line) in lot.iter().enumerate() {
        counts.count(first + i, line);
    }
}

/// Prints the counts of the recordings of a file, by this many threads.
pub fn print(file: &str, threads: usize) {
    let mut all = Counts::default();
    if threads == 1 {
        lots(file).for_each(|lot| count_lot(&mut all, lot));
        return all.print();
    }
    let (give, take) = mpsc::sync_channel(4 * threads);
    let take = Mutex::new(take);
    let work = || {
        let mut counts = Counts::default();
        loop {
            let lot = take.lock().unwrap().recv();
            match lot {
                Ok(lot) => count_lot(&mut counts, lot),
                Err(_) => return counts,
            }
        }
    };
    thread::scope(|scope| {
        let workers: Vec<_> = (0..threads).map(|_| scope.spawn(&work)).collect();
        lots(file).for_each(|lot| give.send(lot).expect("a worker"));
        drop(give);
        for worker in workers {
            all.add(worker.join().expect("counts"));
        }
    });
    all.print();
}
