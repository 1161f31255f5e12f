//! A recording: what each event did, and the write lists.

/// What an event did. Addresses are numbers of write lists; a source is the number of a store.
#[derive(Clone, Copy, Debug, PartialEq)]
pub enum Op {
    Load {
        address: usize,
        source: Option<usize>,
    },
    Store {
        address: usize,
    },
    /// A load and a store at once.
    Rmw {
        address: usize,
        source: Option<usize>,
    },
    Fence,
}

#[derive(Clone, Copy, Debug, PartialEq)]
pub struct Event {
    pub core: usize,
    pub op: Op,
}

impl Event {
    /// What it reads: an address, and the store that wrote the value.
    pub fn read(&self) -> Option<(usize, Option<usize>)> {
        match self.op {
            Op::Load { address, source } | Op::Rmw { address, source } => Some((address, source)),
            Op::Store { .. } | Op::Fence => None,
        }
    }
}

/// Events are numbered core by core. A write list holds the stores to its address, in memory order.
#[derive(Debug, Default, PartialEq)]
pub struct Recording {
    pub events: Vec<Event>,
    pub writes: Vec<Vec<usize>>,
}
