//! The tables of what was timed.

use crate::kinds::Kind;
use crate::timing::Times;

/// The programs, in the order of each line's times; the first is the proved library.
const PROGRAMS: [&str; 3] = ["proved", "tree", "form"];

/// The times of the programs on the recordings of one size and kind; those at the end may be left out.
pub struct Line {
    pub events: usize,
    pub kind: Kind,
    pub times: Vec<Times>,
}

/// Prints the head of the ratios to this many counterparts.
pub fn print_head(counterparts: usize) {
    println!(
        "The proved library's time over that of a plain judge behind a tree of any JSON (tree)"
    );
    println!("or behind a reader of this one layout (form), and its own time for a verdict.");
    print!("{:6}  {:8}", "events", "kind");
    for name in &PROGRAMS[1..=counterparts] {
        print!("  {name}, median  {name}, least");
    }
    println!("  {:>10}  {:>10}", "median ms", "least ms");
}

impl Line {
    pub fn print(&self) {
        print!("{:6}  {:8}", self.events, self.kind.name());
        let proved = self.times[0];
        for (times, name) in self.times.iter().zip(PROGRAMS).skip(1) {
            let (median, least) = (proved.median / times.median, proved.least / times.least);
            let width = name.len();
            print!("  {median:>0$.2}  {least:>1$.2}", width + 8, width + 7);
        }
        println!("  {:>10.4}  {:>10.4}", proved.median, proved.least);
    }
}

/// Prints by how much the least time grows where the events double.
pub fn print_growth(lines: &[Line], sizes: &[usize]) {
    println!("\nThe least time over that of half the events.");
    print!("{:8}  {:7}", "kind", "program");
    sizes[1..].iter().for_each(|events| print!("  {events:>6}"));
    println!();
    for kind in Kind::ALL {
        let lines: Vec<&Line> = lines.iter().filter(|line| line.kind == kind).collect();
        for (program, name) in PROGRAMS.iter().enumerate().take(lines[0].times.len()) {
            print!("{:8}  {name:7}", kind.name());
            for pair in lines.windows(2) {
                let [before, after] = [pair[0], pair[1]].map(|line| line.times[program].least);
                print!("  {:>6.2}", after / before);
            }
            println!();
        }
    }
}
