//! A recording while it is made.

use plain::{Event, Op, Recording};

/// Xorshift of 64 bits.
pub struct Random(u64);

impl Random {
    pub fn below(&mut self, limit: usize) -> usize {
        self.0 ^= self.0 << 13;
        self.0 ^= self.0 >> 7;
        self.0 ^= self.0 << 17;
        (self.0 % limit as u64) as usize
    }
}

/// As many events on each core; those that are not put yet are fences.
pub struct Making {
    pub cores: usize,
    pub per_core: usize,
    pub random: Random,
    /// How many events each core has put.
    done: Vec<usize>,
    recording: Recording,
}

impl Making {
    pub fn new(cores: usize, per_core: usize, seed: u64) -> Making {
        let fences = |core| {
            vec![
                Event {
                    core,
                    op: Op::Fence
                };
                per_core
            ]
        };
        Making {
            cores,
            per_core,
            random: Random(0x9E37_79B9_7F4A_7C15_u64.wrapping_mul(seed + 1)),
            done: vec![0; cores],
            recording: Recording {
                events: (0..cores).flat_map(fences).collect(),
                writes: Vec::new(),
            },
        }
    }

    pub fn number(&self, core: usize, place: usize) -> usize {
        core * self.per_core + place
    }

    pub fn is_done(&self, core: usize) -> bool {
        self.done[core] == self.per_core
    }

    pub fn is_full(&self) -> bool {
        (0..self.cores).all(|core| self.is_done(core))
    }

    /// A load that reads the last store.
    pub fn load_of(&self, address: usize) -> Op {
        let list = self.recording.writes.get(address);
        let source = list.and_then(|list| list.last().copied());
        Op::Load { address, source }
    }

    /// Puts a core's next event.
    pub fn put(&mut self, core: usize, op: Op) {
        self.set(self.number(core, self.done[core]), op);
        self.done[core] += 1;
    }

    /// Makes an event of a fence; a store is the last of its write list.
    pub fn set(&mut self, number: usize, op: Op) {
        if let Op::Store { address } = op {
            let writes = &mut self.recording.writes;
            writes.resize(writes.len().max(address + 1), Vec::new());
            writes[address].push(number);
        }
        self.recording.events[number].op = op;
    }

    /// Makes fences of some events and of the loads that read from them.
    pub fn clear(&mut self, numbers: &[usize]) {
        for list in &mut self.recording.writes {
            list.retain(|write| !numbers.contains(write));
        }
        for (number, event) in self.recording.events.iter_mut().enumerate() {
            let from =
                |op| matches!(op, Op::Load { source: Some(it), .. } if numbers.contains(&it));
            if numbers.contains(&number) || from(event.op) {
                event.op = Op::Fence;
            }
        }
    }

    /// The recording; each address of a load has a write list.
    pub fn made(self) -> Recording {
        let Recording { events, mut writes } = self.recording;
        let used = |event: &Event| match event.op {
            Op::Load { address, .. } | Op::Store { address } | Op::Rmw { address, .. } => {
                address + 1
            }
            Op::Fence => 0,
        };
        let addresses = events.iter().map(used).max().unwrap_or(0);
        writes.resize(writes.len().max(addresses), Vec::new());
        Recording { events, writes }
    }
}
