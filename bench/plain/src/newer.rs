//! Which stores are newer than what a load reads.

use crate::recording::Recording;

/// A recording, with the place of each store in its write list.
pub struct Newer<'a> {
    recording: &'a Recording,
    places: Vec<usize>,
}

impl Newer<'_> {
    pub fn of(recording: &Recording) -> Newer<'_> {
        let mut places = vec![0; recording.events.len()];
        for list in &recording.writes {
            for (place, store) in list.iter().enumerate() {
                places[*store] = place;
            }
        }
        Newer { recording, places }
    }

    /// The stores to an address that are newer than a source.
    pub fn than(&self, address: usize, source: Option<usize>) -> &[usize] {
        &self.recording.writes[address][source.map_or(0, |store| self.places[store] + 1)..]
    }

    /// Whether a store stands before a load on its core.
    pub fn is_own(&self, store: usize, load: usize) -> bool {
        let events = &self.recording.events;
        store < load && events[store].core == events[load].core
    }

    /// The least load that overlooks a store of its own core, and the least store that it overlooks.
    pub fn overlook(&self) -> Option<(usize, usize)> {
        let mut events = self.recording.events.iter().enumerate();
        events.find_map(|(load, event)| {
            let (address, source) = event.read()?;
            let newer = self.than(address, source).iter().copied();
            let store = newer.filter(|store| self.is_own(*store, load)).min()?;
            Some((load, store))
        })
    }
}
