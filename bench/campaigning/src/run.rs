//! A run as a recording, and as the program shows it.

use crate::machine::{Machine, NONE};
use crate::program::{Op, Program};
use plain::{Event, Recording};

fn source_of(machine: &Machine, e: usize) -> Option<usize> {
    let source = machine.reads[e].1;
    (source != NONE).then_some(source as usize)
}

/// The recording of a run, in the place of the last one.
pub fn record(program: &Program, machine: &Machine, recording: &mut Recording) {
    recording.events.clear();
    for c in 0..program.cores() {
        for e in program.first[c]..program.first[c + 1] {
            let source = source_of(machine, e);
            let op = match program.ops[e] {
                Op::St(address, _) => plain::Op::Store { address },
                Op::Ld(address) => plain::Op::Load { address, source },
                Op::Fence => plain::Op::Fence,
                Op::Swap(address, _) | Op::Add(address, _) => plain::Op::Rmw { address, source },
            };
            recording.events.push(Event { core: c, op });
        }
    }
    recording.writes.resize_with(machine.writes.len(), Vec::new);
    for (list, writes) in recording.writes.iter_mut().zip(&machine.writes) {
        list.clear();
        list.extend(writes.iter().map(|e| usize::from(*e)));
    }
}

/// The recording of a run as a line of JSON.
pub fn line(program: &Program, machine: &Machine) -> String {
    let cores: Vec<String> = (0..program.cores())
        .map(|c| {
            let events: Vec<String> = (program.first[c]..program.first[c + 1]).map(|e| event(program, machine, e)).collect();
            format!("[{}]", events.join(","))
        })
        .collect();
    let writes: Vec<String> = machine.writes.iter().map(|it| format!("{it:?}").replace(' ', "")).collect();
    format!("{{\"cores\":[{}],\"version\":1,\"writes\":[{}]}}\n", cores.join(","), writes.join(","))
}

fn event(program: &Program, machine: &Machine, e: usize) -> String {
    let value = machine.reads[e].0;
    let source = source_of(machine, e).map_or("null".to_string(), |it| it.to_string());
    match program.ops[e] {
        Op::St(a, v) => format!("{{\"a\":{a},\"k\":\"S\",\"w\":{v}}}"),
        Op::Ld(a) => format!("{{\"a\":{a},\"k\":\"L\",\"r\":{value},\"s\":{source}}}"),
        Op::Fence => "{\"k\":\"F\"}".to_string(),
        Op::Swap(a, v) => format!("{{\"a\":{a},\"k\":\"R\",\"r\":{value},\"s\":{source},\"w\":{v}}}"),
        Op::Add(a, v) => {
            let sum = value.wrapping_add(v);
            format!("{{\"a\":{a},\"k\":\"R\",\"r\":{value},\"s\":{source},\"w\":{sum}}}")
        }
    }
}
