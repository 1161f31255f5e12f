//! A campaign by plain Rust: the counts of `tsotest trials`, and how long they took.
//!
//! campaigning CORES OPS ADDRESSES TRIALS FAULT WORKERS [SEED [ATTEMPTS [SHOW]]]
//!
//! campaigning run PROGRAM SEED ATTEMPTS FAULT
//!
//! With SHOW it prints, instead of the counts, what `tsotest trials --show` does.

mod machine;
mod program;
mod run;

use machine::{Fault, Machine};
use plain::{Kind, Recording};
use program::{Program, Words};
use std::collections::BTreeMap;
use std::sync::atomic::{AtomicUsize, Ordering};
use std::time::Instant;

#[derive(Clone, Copy)]
struct Campaign {
    cores: usize,
    ops: usize,
    addresses: usize,
    trials: usize,
    fault: Fault,
    seed: u64,
    attempts: usize,
}

#[derive(Default)]
struct Counts {
    ordered: usize,
    unfinished: usize,
    overlook: usize,
    cycles: BTreeMap<usize, usize>,
    first: Option<usize>,
}

impl Counts {
    fn violation(&mut self, k: usize) {
        self.first = Some(self.first.map_or(k, |it| it.min(k)));
    }

    fn count(&mut self, k: usize, kind: Option<Kind>) {
        match kind {
            None => self.unfinished += 1,
            Some(Kind::Ordered) => self.ordered += 1,
            Some(Kind::Overlook) => {
                self.overlook += 1;
                self.violation(k);
            }
            Some(Kind::Cycle(length)) => {
                *self.cycles.entry(length).or_default() += 1;
                self.violation(k);
            }
        }
    }

    fn join(&mut self, other: Counts) {
        self.ordered += other.ordered;
        self.unfinished += other.unfinished;
        self.overlook += other.overlook;
        for (length, n) in other.cycles {
            *self.cycles.entry(length).or_default() += n;
        }
        if let Some(k) = other.first {
            self.violation(k);
        }
    }

    fn print(&self, trials: usize) {
        println!("trials {trials}\nordered {}\nunfinished {}\noverlook {}", self.ordered, self.unfinished, self.overlook);
        for (length, n) in &self.cycles {
            println!("cycle {length}: {n}");
        }
        match self.first {
            Some(k) => println!("first violation: trial {k}"),
            None => println!("first violation: none"),
        }
    }
}

struct Worker {
    program: Program,
    machine: Machine,
    recording: Recording,
}

impl Worker {
    fn new() -> Worker {
        Worker { program: Program::new(), machine: Machine::new(), recording: Recording::default() }
    }

    /// The recording of a trial; none where it is unfinished.
    fn trial(&mut self, campaign: &Campaign, k: usize) -> Option<&Recording> {
        let mut words = Words::seeded(campaign.seed.wrapping_add(k as u64));
        self.program.draw(campaign.cores, campaign.ops, campaign.addresses, &mut words);
        self.run(campaign, words)
    }

    /// The recording of the run of the program by these words; none where it is unfinished.
    fn run(&mut self, campaign: &Campaign, mut words: Words) -> Option<&Recording> {
        self.machine.open(&self.program, 8, campaign.fault);
        for _ in 0..campaign.attempts {
            if self.machine.is_complete() {
                break;
            }
            self.machine.attempt(&self.program, words.next());
        }
        if !self.machine.is_complete() {
            return None;
        }
        run::record(&self.program, &self.machine, &mut self.recording);
        Some(&self.recording)
    }

    fn shown(&mut self, campaign: &Campaign, k: usize) -> String {
        let verdict = self.trial(campaign, k).map(plain::judge);
        self.program.text() + "\n" + &self.text(verdict)
    }

    /// What `tsotest run` prints of the run, and of the verdict on it.
    fn text(&self, verdict: Option<Vec<u8>>) -> String {
        match verdict {
            None => "unfinished\n".to_string(),
            Some(it) => run::line(&self.program, &self.machine) + &String::from_utf8(it).expect("a text"),
        }
    }
}

fn work(campaign: &Campaign, next: &AtomicUsize) -> Counts {
    let (mut worker, mut counts) = (Worker::new(), Counts::default());
    loop {
        let k = next.fetch_add(1, Ordering::Relaxed);
        if k >= campaign.trials {
            return counts;
        }
        counts.count(k, worker.trial(campaign, k).map(plain::kind));
    }
}

fn fault(name: &str) -> Fault {
    match name {
        "none" => Fault::None,
        "no-bypass" => Fault::NoBypass,
        "youngest-first" => Fault::YoungestFirst,
        "open-fence" => Fault::OpenFence,
        "stale-share" => Fault::StaleShare,
        "early-rmw" => Fault::EarlyRmw,
        _ => panic!("no fault {name}"),
    }
}

fn main() {
    let words: Vec<String> = std::env::args().skip(1).collect();
    let number = |i: usize, or: usize| words.get(i).map_or(or, |it| it.parse().expect("a number"));
    let size = |i: usize, or: usize| words.get(i).and_then(|it| it.parse().ok()).unwrap_or(or);
    let campaign = Campaign {
        cores: size(0, 2),
        ops: size(1, 4),
        addresses: size(2, 2),
        trials: number(3, 64),
        fault: fault(words.get(4).map_or("none", |it| it)),
        seed: number(6, 0) as u64,
        attempts: number(7, 100_000),
    };
    if words.first().is_some_and(|it| it == "run") {
        let campaign = Campaign { seed: number(2, 0) as u64, attempts: number(3, 100_000), ..campaign };
        let mut worker = Worker::new();
        worker.program = Program::parse(&std::fs::read_to_string(&words[1]).expect("a program"));
        let verdict = worker.run(&campaign, Words::seeded(campaign.seed)).map(plain::judge);
        return print!("{}", worker.text(verdict));
    }
    if words.len() > 8 {
        return print!("{}", Worker::new().shown(&campaign, number(8, 0)));
    }
    let begun = Instant::now();
    let next = AtomicUsize::new(0);
    let mut counts = Counts::default();
    std::thread::scope(|scope| {
        let threads: Vec<_> = (0..number(5, 1)).map(|_| scope.spawn(|| work(&campaign, &next))).collect();
        threads.into_iter().for_each(|it| counts.join(it.join().expect("a worker")));
    });
    let seconds = begun.elapsed().as_secs_f64();
    counts.print(campaign.trials);
    eprintln!("{:.0} trials a second", campaign.trials as f64 / seconds);
}
