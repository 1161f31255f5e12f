//! A plain judge for comparison: the same verdicts, without proofs. It takes for granted that its
//! recording is well formed.

mod forced;
mod newer;
mod recording;

pub use recording::{Event, Op, Recording};

use forced::{Cycle, Forced};
use newer::Newer;

/// The text of the verdict on a recording.
pub fn judge(recording: &Recording) -> Vec<u8> {
    let newer = Newer::of(recording);
    if let Some((load, store)) = newer.overlook() {
        return format!("overlook: load {load} store {store}\n").into_bytes();
    }
    let forced = Forced::of(recording, &newer);
    match forced.order() {
        Some(order) => order_text(&order),
        None => cycle_text(&forced, &forced.cycle()),
    }
}

/// The kind of a verdict.
pub enum Kind {
    Ordered,
    Overlook,
    Cycle(usize),
}

/// The kind of the verdict on a recording.
pub fn kind(recording: &Recording) -> Kind {
    let newer = Newer::of(recording);
    if newer.overlook().is_some() {
        return Kind::Overlook;
    }
    let forced = Forced::of(recording, &newer);
    match forced.order() {
        Some(_) => Kind::Ordered,
        None => Kind::Cycle(forced.cycle().events.len()),
    }
}

fn order_text(order: &[usize]) -> Vec<u8> {
    let mut out = b"ordered:".to_vec();
    push_numbers(&mut out, order.iter().copied());
    out
}

fn cycle_text(forced: &Forced, Cycle { events, rows }: &Cycle) -> Vec<u8> {
    let mut out = format!("cycle of {}\n", events.len()).into_bytes();
    for (i, first) in events.iter().enumerate() {
        let second = events[(i + 1) % events.len()];
        let reason = forced.reason(*first, second);
        out.extend_from_slice(format!("{first} -> {second} {reason}\n").as_bytes());
    }
    for (event, row) in rows.iter().enumerate() {
        out.extend_from_slice(b"labels");
        push_number(&mut out, event);
        out.push(b':');
        push_numbers(&mut out, row.iter().map(|label| usize::from(*label)));
    }
    out
}

/// A space before each number, and a newline after the last.
fn push_numbers(out: &mut Vec<u8>, numbers: impl Iterator<Item = usize>) {
    numbers.for_each(|number| push_number(out, number));
    out.push(b'\n');
}

/// A space and a number. Few numbers have more than two digits.
#[inline(always)]
fn push_number(out: &mut Vec<u8>, number: usize) {
    match number {
        0..10 => out.extend_from_slice(&[b' ', digit(number)]),
        10..100 => out.extend_from_slice(&[b' ', digit(number / 10), digit(number)]),
        _ => push_large(out, number),
    }
}

/// A space and a number of more than two digits.
fn push_large(out: &mut Vec<u8>, number: usize) {
    match number {
        100..1000 => {
            let tens = number / 10;
            out.extend_from_slice(&[b' ', digit(tens / 10), digit(tens), digit(number)]);
        }
        _ => out.extend_from_slice(format!(" {number}").as_bytes()),
    }
}

/// The last digit of a number.
fn digit(number: usize) -> u8 {
    b'0' + (number % 10) as u8
}
