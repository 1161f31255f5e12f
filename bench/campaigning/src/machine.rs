//! The machine, as plain arrays that are kept from run to run.

use crate::program::{Op, Program};
use std::collections::VecDeque;

pub const NONE: u16 = u16::MAX;

#[derive(Clone, Copy, PartialEq, Eq, Debug)]
pub enum Fault {
    None,
    NoBypass,
    YoungestFirst,
    OpenFence,
    StaleShare,
    EarlyRmw,
}

#[derive(Clone, Copy, PartialEq, Eq)]
enum State {
    I,
    S,
    E,
    O,
    M,
}

#[derive(Clone, Copy)]
struct Line {
    state: State,
    value: u32,
    event: u16,
}

const EMPTY: Line = Line { state: State::I, value: 0, event: NONE };

pub struct Machine {
    cores: usize,
    addresses: usize,
    capacity: usize,
    fault: Fault,
    place: Vec<usize>,
    buffers: Vec<VecDeque<(usize, u32, u16)>>,
    lines: Vec<Line>,
    memory: Vec<(u32, u16)>,
    /// What each event read, and the event that wrote it.
    pub reads: Vec<(u32, u16)>,
    pub writes: Vec<Vec<u16>>,
    left: usize,
}

impl Machine {
    pub fn new() -> Machine {
        Machine {
            cores: 0,
            addresses: 0,
            capacity: 0,
            fault: Fault::None,
            place: Vec::new(),
            buffers: Vec::new(),
            lines: Vec::new(),
            memory: Vec::new(),
            reads: Vec::new(),
            writes: Vec::new(),
            left: 0,
        }
    }

    /// The opening state of a program.
    pub fn open(&mut self, program: &Program, capacity: usize, fault: Fault) {
        self.cores = program.cores();
        self.addresses = program.names.len();
        self.capacity = capacity;
        self.fault = fault;
        self.place.clear();
        self.place.extend_from_slice(&program.first[..self.cores]);
        self.buffers.resize_with(self.cores, VecDeque::new);
        self.buffers.iter_mut().for_each(|it| it.clear());
        self.lines.clear();
        self.lines.resize(self.cores * self.addresses, EMPTY);
        self.memory.clear();
        self.memory.resize(self.addresses, (0, NONE));
        self.reads.clear();
        self.reads.resize(program.ops.len(), (0, NONE));
        self.writes.resize_with(self.addresses, Vec::new);
        self.writes.iter_mut().for_each(|it| it.clear());
        self.left = program.ops.len();
    }

    pub fn is_complete(&self) -> bool {
        self.left == 0 && self.buffers.iter().all(|it| it.is_empty())
    }

    fn write(&mut self, line: usize, address: usize, value: u32, event: u16) {
        self.lines[line] = Line { state: State::M, value, event };
        self.writes[address].push(event);
    }

    fn may_write(&self, line: usize) -> bool {
        matches!(self.lines[line].state, State::M | State::E)
    }

    pub fn exec(&mut self, program: &Program, c: usize) -> bool {
        let e = self.place[c];
        if e == program.first[c + 1] {
            return false;
        }
        match program.ops[e] {
            Op::St(a, v) => {
                if self.buffers[c].len() == self.capacity {
                    return false;
                }
                self.buffers[c].push_back((a, v, e as u16));
            }
            Op::Ld(a) => {
                let own = if self.fault == Fault::NoBypass {
                    None
                } else {
                    self.buffers[c].iter().rev().find(|it| it.0 == a)
                };
                self.reads[e] = match own {
                    Some(it) => (it.1, it.2),
                    None => {
                        let line = self.lines[c * self.addresses + a];
                        if line.state == State::I {
                            return false;
                        }
                        (line.value, line.event)
                    }
                };
            }
            Op::Fence => {
                if self.fault != Fault::OpenFence && !self.buffers[c].is_empty() {
                    return false;
                }
            }
            Op::Swap(a, v) | Op::Add(a, v) => {
                let line = c * self.addresses + a;
                if self.fault != Fault::EarlyRmw && !self.buffers[c].is_empty() || !self.may_write(line) {
                    return false;
                }
                let old = self.lines[line];
                self.reads[e] = (old.value, old.event);
                let new = if let Op::Swap(..) = program.ops[e] { v } else { old.value.wrapping_add(v) };
                self.write(line, a, new, e as u16);
            }
        }
        self.place[c] += 1;
        self.left -= 1;
        true
    }

    pub fn drain(&mut self, c: usize) -> bool {
        let youngest = self.fault == Fault::YoungestFirst;
        let oldest = if youngest { self.buffers[c].back() } else { self.buffers[c].front() };
        let Some(&(a, v, e)) = oldest else { return false };
        let line = c * self.addresses + a;
        if !self.may_write(line) {
            return false;
        }
        if youngest {
            self.buffers[c].pop_back();
        } else {
            self.buffers[c].pop_front();
        }
        self.write(line, a, v, e);
        true
    }

    /// The data of the owner of an address, or of memory.
    fn current(&self, a: usize) -> (u32, u16) {
        for c in 0..self.cores {
            let line = self.lines[c * self.addresses + a];
            if matches!(line.state, State::M | State::O | State::E) {
                return (line.value, line.event);
            }
        }
        self.memory[a]
    }

    pub fn get_s(&mut self, c: usize, a: usize) -> bool {
        let at = c * self.addresses + a;
        if self.lines[at].state != State::I {
            return false;
        }
        let (value, event) = self.current(a);
        let mut others = false;
        for d in 0..self.cores {
            let line = &mut self.lines[d * self.addresses + a];
            others |= line.state != State::I;
            line.state = match line.state {
                State::M => State::O,
                State::E => State::S,
                state => state,
            };
        }
        self.lines[at] = Line { state: if others { State::S } else { State::E }, value, event };
        true
    }

    pub fn get_m(&mut self, c: usize, a: usize) -> bool {
        let at = c * self.addresses + a;
        if self.may_write(at) {
            return false;
        }
        let (value, event) = self.current(a);
        for d in 0..self.cores {
            let line = &mut self.lines[d * self.addresses + a];
            if !(self.fault == Fault::StaleShare && line.state == State::S) {
                *line = EMPTY;
            }
        }
        self.lines[at] = Line { state: State::M, value, event };
        true
    }

    pub fn put(&mut self, c: usize, a: usize) -> bool {
        let at = c * self.addresses + a;
        let line = self.lines[at];
        if line.state == State::I {
            return false;
        }
        if matches!(line.state, State::M | State::O) {
            self.memory[a] = (line.value, line.event);
        }
        self.lines[at] = EMPTY;
        true
    }

    /// The step that a word names.
    pub fn attempt(&mut self, program: &Program, word: u64) -> bool {
        let (cores, lines) = (self.cores, self.cores * self.addresses);
        let i = (word % (2 * cores + 3 * lines) as u64) as usize;
        if i < cores {
            return self.exec(program, i);
        }
        if i < 2 * cores {
            return self.drain(i - cores);
        }
        let i = i - 2 * cores;
        let (c, a) = (i % lines / self.addresses, i % self.addresses);
        match i / lines {
            0 => self.get_s(c, a),
            1 => self.get_m(c, a),
            _ => self.put(c, a),
        }
    }
}
