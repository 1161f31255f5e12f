//! Times the judge in process, from the text of a recording to the text of its verdict, beside a plain
//! Rust judge that does the same after two readers, one of any JSON and one of this layout alone, and
//! compares the texts.
//!
//! judging [--spaced] [EVENTS [KIND [SEED]]]
//! judging --lines EVENTS COUNT
//! judging --survey FILE THREADS
//! judging --library FILE
//! judging --compare FILE
//!
//! `bench/judge_in_process` builds it against the library, `out/libtsotest.a`, and runs it.
//! With EVENTS it prints a recording of this many events instead: of the kind `ordered`, `cyclic`,
//! `overlook` or `ring`, or else a cyclic one, from the seed SEED, or else 0. With `--spaced` the texts
//! have their keys in another order and a blank after each comma and colon; the reader of one layout is
//! then left out.
//!
//! With `--lines` it prints this many recordings of this many events, one a line, of which three of four are
//! ordered and the others of the other kinds; with `--survey` it counts the verdicts of such a file, by
//! threads; with `--library` it judges each line of it by one call of the library and prints the seconds;
//! with `--compare` all programs judge the recording of a file once, and their texts must be equal.

mod by_key;
mod kinds;
mod library;
mod making;
mod reader;
mod survey;
mod table;
mod text;
mod timing;
mod tree;

use kinds::{Kind, recording};
use std::hint::black_box;
use std::io::Write;
use table::Line;
use text::Form;
use timing::Program;

const SIZES: [usize; 5] = [32, 64, 128, 256, 512];

/// How many recordings of each size and kind there are, each from a seed of its own.
const SEEDS: u64 = 16;

/// How often each program judges them.
const ROUNDS: usize = 201;

/// The room for the text of a verdict, in bytes: 512 rows of 512 labels take less than 1 MB.
const ROOM: usize = 2 << 20;

/// The verdict of the plain judge, by way of a tree of any JSON.
fn by_tree(text: &str) -> Vec<u8> {
    plain::judge(&by_key::read(text).expect("a recording"))
}

/// The verdict of the plain judge, by the reader of one layout.
fn by_form(text: &str) -> Vec<u8> {
    plain::judge(&reader::read(text).expect("a recording"))
}

/// Compares the verdicts of all programs.
fn compare(text: &str, form: Form, beginning: &str, out: &mut [u8]) {
    let verdict = library::judge(text, out);
    assert!(
        verdict.starts_with(beginning.as_bytes()),
        "no verdict {beginning}"
    );
    assert!(verdict == by_tree(text), "tree: another verdict");
    if let Form::Own = form {
        assert!(verdict == by_form(text), "form: another verdict");
    }
}

fn timed(events: usize, kind: Kind, form: Form, out: &mut [u8]) -> Line {
    let text = |seed| form.text(&recording(events, kind, seed));
    let row: Vec<String> = (0..SEEDS).map(text).collect();
    for text in &row {
        compare(text, form, &kind.beginning(events), out);
    }
    let mut proved = |text: &str| {
        black_box(library::judge(black_box(text), out));
    };
    let mut tree = |text: &str| {
        black_box(by_tree(black_box(text)));
    };
    let mut one_layout = |text: &str| {
        black_box(by_form(black_box(text)));
    };
    let mut programs: Vec<Program> = vec![&mut proved, &mut tree];
    if let Form::Own = form {
        programs.push(&mut one_layout);
    }
    let times = timing::in_turn(ROUNDS, &row, &mut programs);
    Line {
        events,
        kind,
        times,
    }
}

fn time_all(form: Form) {
    let mut out = vec![0; ROOM];
    let mut lines = Vec::new();
    table::print_head(match form {
        Form::Own => 2,
        Form::Spaced => 1,
    });
    for events in SIZES {
        for kind in Kind::ALL {
            let line = timed(events, kind, form, &mut out);
            line.print();
            lines.push(line);
        }
    }
    table::print_growth(&lines, &SIZES);
}

/// Recordings of all kinds.
fn print_lines(events: usize, count: usize) {
    let mut out = std::io::BufWriter::new(std::io::stdout());
    for seed in 0..count as u64 {
        let kind = match seed % 12 {
            3 => Kind::Cyclic,
            7 => Kind::Overlook,
            11 => Kind::Ring,
            _ => Kind::Ordered,
        };
        let text = Form::Own.text(&recording(events, kind, seed));
        writeln!(out, "{text}").expect("a line is written");
    }
}

/// Compares the verdicts of all programs on the recording of a file.
fn compare_file(file: &str) {
    let text = std::fs::read_to_string(file).expect("a file");
    compare(text.trim_end(), Form::Own, "", &mut vec![0; ROOM]);
}

/// The seconds that the library takes for the recordings of a file, one call each.
fn time_library(file: &str) {
    let text = std::fs::read_to_string(file).expect("a file");
    let mut out = vec![0; ROOM];
    let begun = std::time::Instant::now();
    for line in text.lines() {
        black_box(library::judge(black_box(line), &mut out));
    }
    println!("{}", begun.elapsed().as_secs_f64());
}

fn main() {
    let (flags, words): (Vec<String>, Vec<String>) = std::env::args()
        .skip(1)
        .partition(|word| word.starts_with("--"));
    let number = |at: usize| words[at].parse::<usize>().expect("a number");
    let form = match flags.as_slice() {
        [flag] if flag == "--lines" => return print_lines(number(0), number(1)),
        [flag] if flag == "--survey" => return survey::print(&words[0], number(1)),
        [flag] if flag == "--library" => return time_library(&words[0]),
        [flag] if flag == "--compare" => return compare_file(&words[0]),
        [] => Form::Own,
        [flag] if flag == "--spaced" => Form::Spaced,
        _ => panic!("no such option"),
    };
    let Some(events) = words.first() else {
        time_all(form);
        return;
    };
    let events = events.parse().expect("a number of events");
    let kind = words
        .get(1)
        .map_or(Some(Kind::Cyclic), |name| Kind::named(name));
    let seed = words.get(2).map_or(0, |seed| seed.parse().expect("a seed"));
    println!(
        "{}",
        form.text(&recording(events, kind.expect("a kind"), seed))
    );
}
