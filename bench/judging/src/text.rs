//! The text of a recording.

use plain::{Event, Op, Recording};

/// How a text is laid out.
#[derive(Clone, Copy)]
pub enum Form {
    /// Without blanks, keys in ascending order.
    Own,
    /// With a blank after each comma and colon, keys in descending order.
    Spaced,
}

impl Form {
    fn blank(self) -> &'static str {
        match self {
            Form::Own => "",
            Form::Spaced => " ",
        }
    }

    fn joined(self, items: impl Iterator<Item = String>) -> String {
        let items: Vec<String> = items.collect();
        items.join(&format!(",{}", self.blank()))
    }

    fn list(self, items: impl Iterator<Item = String>) -> String {
        format!("[{}]", self.joined(items))
    }

    /// The object of these keys, which are in ascending order.
    fn object<const KEYS: usize>(self, mut keys: [(&str, String); KEYS]) -> String {
        if let Form::Spaced = self {
            keys.reverse();
        }
        let blank = self.blank();
        let pairs = keys
            .iter()
            .map(|(key, value)| format!("\"{key}\":{blank}{value}"));
        format!("{{{}}}", self.joined(pairs))
    }

    /// The text of an event. What it writes is its number and 1.
    fn event(self, number: usize, event: &Event) -> String {
        let kind = |letter: &str| ("k", format!("\"{letter}\""));
        let read = |source: Option<usize>| ("r", source.map_or(0, |store| store + 1).to_string());
        let source_of = |source: Option<usize>| {
            (
                "s",
                source.map_or("null".to_string(), |store| store.to_string()),
            )
        };
        let written = ("w", (number + 1).to_string());
        match event.op {
            Op::Load { address, source } => self.object([
                ("a", address.to_string()),
                kind("L"),
                read(source),
                source_of(source),
            ]),
            Op::Rmw { address, source } => self.object([
                ("a", address.to_string()),
                kind("R"),
                read(source),
                source_of(source),
                written,
            ]),
            Op::Store { address } => self.object([("a", address.to_string()), kind("S"), written]),
            Op::Fence => self.object([kind("F")]),
        }
    }

    /// The text of a recording.
    pub fn text(self, recording: &Recording) -> String {
        let events = &recording.events;
        let mut texts = events
            .iter()
            .enumerate()
            .map(|(number, event)| self.event(number, event));
        let cores = events.chunk_by(|first, second| first.core == second.core);
        let writes = recording.writes.iter();
        self.object([
            (
                "cores",
                self.list(cores.map(|core| self.list(texts.by_ref().take(core.len())))),
            ),
            ("version", "1".to_string()),
            (
                "writes",
                self.list(writes.map(|list| self.list(list.iter().map(usize::to_string)))),
            ),
        ])
    }
}
