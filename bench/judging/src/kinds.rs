//! Recordings of four kinds, each of 8 cores, or of 16 past 256 events, from a seed.

use crate::making::Making;
use plain::{Op, Recording};

/// How many addresses the cores use that take turns.
const ADDRESSES: usize = 8;

/// What the verdict on a recording is.
#[derive(Clone, Copy, PartialEq)]
pub enum Kind {
    Ordered,
    Cyclic,
    Overlook,
    Ring,
}

impl Kind {
    pub const ALL: [Kind; 4] = [Kind::Ordered, Kind::Cyclic, Kind::Overlook, Kind::Ring];

    pub fn name(self) -> &'static str {
        match self {
            Kind::Ordered => "ordered",
            Kind::Cyclic => "cyclic",
            Kind::Overlook => "overlook",
            Kind::Ring => "ring",
        }
    }

    pub fn named(name: &str) -> Option<Kind> {
        Kind::ALL.into_iter().find(|kind| kind.name() == name)
    }

    /// What the verdict on a recording of this many events begins with.
    pub fn beginning(self, events: usize) -> String {
        match self {
            Kind::Ordered => "ordered: ".to_string(),
            Kind::Cyclic => "cycle of 4\n".to_string(),
            Kind::Overlook => "overlook: ".to_string(),
            Kind::Ring => format!("cycle of {}\n", 3 * cores_of(events)),
        }
    }
}

/// How many cores a recording of this many events has.
fn cores_of(events: usize) -> usize {
    if events > 256 { 16 } else { 8 }
}

/// The recording of a kind, of this many events, at least four to a core and as many on each.
pub fn recording(events: usize, kind: Kind, seed: u64) -> Recording {
    let cores = cores_of(events);
    assert!(
        events >= 4 * cores && events.is_multiple_of(cores),
        "no such number of events"
    );
    let making = Making::new(cores, events / cores, seed);
    match kind {
        Kind::Ordered => turns(making).made(),
        Kind::Cyclic => pass_a_message(turns(making)),
        Kind::Overlook => overlook_a_store(turns(making)),
        Kind::Ring => ring(making),
    }
}

/// The cores take turns at random: half of the events are loads, which read the last store, and half
/// are stores.
fn turns(mut making: Making) -> Making {
    while !making.is_full() {
        let core = making.random.below(making.cores);
        if making.is_done(core) {
            continue;
        }
        let address = making.random.below(ADDRESSES);
        let op = match making.random.below(2) {
            0 => making.load_of(address),
            _ => Op::Store { address },
        };
        making.put(core, op);
    }
    making
}

/// Core 0 stores to two new addresses at its end; core 1 loads the second at its end, and then the
/// old value of the first.
fn pass_a_message(mut making: Making) -> Recording {
    let (data, flag) = (ADDRESSES, ADDRESSES + 1);
    let [before, last] = [making.per_core - 2, making.per_core - 1];
    let [store_data, store_flag] = [making.number(0, before), making.number(0, last)];
    let [load_flag, load_data] = [making.number(1, before), making.number(1, last)];
    making.clear(&[store_data, store_flag, load_flag, load_data]);
    making.set(store_data, Op::Store { address: data });
    making.set(store_flag, Op::Store { address: flag });
    making.set(load_flag, making.load_of(flag));
    let (address, source) = (data, None);
    making.set(load_data, Op::Load { address, source });
    making.made()
}

/// The last core stores to a new address halfway, and its last event loads the initial value there.
fn overlook_a_store(mut making: Making) -> Recording {
    let core = making.cores - 1;
    let store = making.number(core, making.per_core / 2);
    let load = making.number(core, making.per_core - 1);
    making.clear(&[store, load]);
    let (address, source) = (ADDRESSES, None);
    making.set(store, Op::Store { address });
    making.set(load, Op::Load { address, source });
    making.made()
}

/// As many rounds as there is room for, and one or two private events on each core at random places
/// between them. No pair leads back from a round to an earlier one or to a private event before it,
/// since each load reads what was there when its round began; so each cycle stays in a round, and goes
/// round the whole ring.
fn ring(mut making: Making) -> Recording {
    let (rounds, spare) = (making.per_core / 3, making.per_core % 3);
    let mut places = Vec::new();
    for core in 0..making.cores {
        for _ in 0..spare {
            places.push((making.random.below(rounds + 1), core));
        }
    }
    for round in 0..=rounds {
        for (_, core) in places.iter().filter(|(place, _)| *place == round) {
            put_private(&mut making, *core);
        }
        if round < rounds {
            put_round(&mut making);
        }
    }
    making.made()
}

/// Each core stores to its own address, fences, and loads from the next core's address what was there
/// before that core's store.
fn put_round(making: &mut Making) {
    let next = |core| (core + 1) % making.cores;
    let loads: Vec<Op> = (0..making.cores)
        .map(|core| making.load_of(next(core)))
        .collect();
    for (core, load) in loads.into_iter().enumerate() {
        making.put(core, Op::Store { address: core });
        making.put(core, Op::Fence);
        making.put(core, load);
    }
}

/// A core loads from its own address what it stored there last, or stores to it, or fences.
fn put_private(making: &mut Making, core: usize) {
    let op = match making.random.below(3) {
        0 => making.load_of(core),
        1 => Op::Store { address: core },
        _ => Op::Fence,
    };
    making.put(core, op);
}
