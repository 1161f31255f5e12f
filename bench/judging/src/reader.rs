//! Reads a recording that is laid out as `Form::Own` has it, byte by byte, and no other text. It refuses what the
//! library refuses.

use plain::{Event, Op, Recording};

const CORES: usize = 16;
const EVENTS: usize = 512;
const ADDRESSES: usize = 16;

/// The bytes that are left of a text.
struct Left<'a>(&'a [u8]);

impl Left<'_> {
    /// Passes over a text that stands here, and says whether it does.
    fn take(&mut self, text: &[u8]) -> bool {
        match self.0.strip_prefix(text) {
            Some(left) => {
                self.0 = left;
                true
            }
            None => false,
        }
    }

    /// The number below 2^32 that stands here.
    fn number(&mut self) -> Option<u32> {
        let (mut number, mut digits) = (0u64, 0);
        while let [digit @ b'0'..=b'9', left @ ..] = self.0 {
            number = 10 * number + (digit - b'0') as u64;
            digits += 1;
            self.0 = left;
        }
        (1..=10).contains(&digits).then_some(())?;
        number.try_into().ok()
    }

    /// The number that stands here, or none for `null`.
    fn source(&mut self) -> Option<Option<usize>> {
        if self.take(b"null") {
            return Some(None);
        }
        Some(Some(self.number()? as usize))
    }

    /// The event that stands here after its brace, with the value that it reads or writes.
    fn op(&mut self) -> Option<(Op, u32)> {
        if self.take(b"\"k\":\"F\"}") {
            return Some((Op::Fence, 0));
        }
        self.take(b"\"a\":").then_some(())?;
        let address = self.number()? as usize;
        if self.take(b",\"k\":\"S\",\"w\":") {
            let value = self.number()?;
            self.take(b"}").then_some(())?;
            return Some((Op::Store { address }, value));
        }
        self.take(b",\"k\":\"L\",\"r\":").then_some(())?;
        let value = self.number()?;
        self.take(b",\"s\":").then_some(())?;
        let source = self.source()?;
        self.take(b"}").then_some(())?;
        Some((Op::Load { address, source }, value))
    }

    /// The numbers of the list that stands here.
    fn list(&mut self) -> Option<Vec<usize>> {
        self.take(b"[").then_some(())?;
        let mut numbers = Vec::new();
        while !self.take(b"]") {
            if !numbers.is_empty() {
                self.take(b",").then_some(())?;
            }
            numbers.push(self.number()? as usize);
        }
        Some(numbers)
    }
}

/// Whether each event read what its source wrote, and each store stands once, in the list of its address.
fn is_well_formed(recording: &Recording, values: &[u32]) -> bool {
    let Recording { events, writes } = recording;
    let mut stores = 0;
    for (event, value) in events.iter().zip(values) {
        let is_right = match event.op {
            Op::Load {
                address,
                source: None,
            } => address < writes.len() && *value == 0,
            Op::Load {
                address,
                source: Some(source),
            } => {
                source < events.len()
                    && events[source].op == Op::Store { address }
                    && values[source] == *value
            }
            Op::Store { address } => {
                stores += 1;
                address < writes.len()
            }
            // This layout has no read-modify-write.
            Op::Fence | Op::Rmw { .. } => true,
        };
        if !is_right {
            return false;
        }
    }
    let mut listed = [false; EVENTS];
    for (address, list) in writes.iter().enumerate() {
        for number in list {
            if *number >= events.len()
                || events[*number].op != (Op::Store { address })
                || listed[*number]
            {
                return false;
            }
            listed[*number] = true;
            stores -= 1;
        }
    }
    stores == 0
}

/// The recording of a text without blanks whose keys stand in ascending order.
#[inline(never)]
pub fn read(text: &str) -> Option<Recording> {
    let mut left = Left(text.as_bytes());
    left.take(b"{\"cores\":[[").then_some(())?;
    let (mut events, mut values, mut writes) = (Vec::new(), Vec::new(), Vec::new());
    let mut core = 0;
    loop {
        if left.take(b"{") {
            let (op, value) = left.op()?;
            events.push(Event { core, op });
            values.push(value);
            left.take(b",");
        } else if left.take(b"],[") {
            core += 1;
        } else {
            left.take(b"]]").then_some(())?;
            break;
        }
    }
    left.take(b",\"version\":1,\"writes\":[").then_some(())?;
    while !left.take(b"]") {
        if !writes.is_empty() {
            left.take(b",").then_some(())?;
        }
        writes.push(left.list()?);
    }
    left.take(b"}").then_some(())?;
    if core >= CORES || events.len() > EVENTS || writes.len() > ADDRESSES {
        return None;
    }
    let recording = Recording { events, writes };
    is_well_formed(&recording, &values).then_some(recording)
}
