//! Reads a recording by way of a tree of any JSON. It tests the shape, and not whether the sources and
//! write lists are those of the events.

use crate::tree::{self, Value};
use plain::{Event, Op, Recording};

/// The recording of a text of any layout.
pub fn read(text: &str) -> Option<Recording> {
    let value = tree::read(text.as_bytes())?;
    if value.get("version")?.as_u64()? != 1 {
        return None;
    }
    let mut events = Vec::new();
    for (core, list) in value.get("cores")?.as_array()?.iter().enumerate() {
        for event in list.as_array()? {
            let op = op(event)?;
            events.push(Event { core, op });
        }
    }
    let writes = value.get("writes")?.as_array()?;
    let writes = writes.iter().map(numbers).collect::<Option<_>>()?;
    Some(Recording { events, writes })
}

fn op(event: &Value) -> Option<Op> {
    match event.get("k")?.as_str()? {
        "L" => {
            event.get("r")?.as_u64()?;
            Some(Op::Load {
                address: number(event.get("a")?)?,
                source: source(event.get("s")?)?,
            })
        }
        "S" => {
            event.get("w")?.as_u64()?;
            Some(Op::Store {
                address: number(event.get("a")?)?,
            })
        }
        "F" => Some(Op::Fence),
        _ => None,
    }
}

fn number(value: &Value) -> Option<usize> {
    value.as_u64()?.try_into().ok()
}

fn source(value: &Value) -> Option<Option<usize>> {
    match value.is_null() {
        true => Some(None),
        false => number(value).map(Some),
    }
}

fn numbers(value: &Value) -> Option<Vec<usize>> {
    value.as_array()?.iter().map(number).collect()
}
