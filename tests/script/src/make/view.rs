//! What the store shows to whoever makes up the next line.

use std::collections::BTreeSet;

use crate::model::{Region, Store, PAGE};

#[derive(Clone, Copy)]
pub struct Held {
    pub address: u64,
    pub size: u64,
    pub zeroed: bool,
    pub kernel: bool,
    pub queued: bool,
}

impl Held {
    pub fn contains(&self, address: u64) -> bool {
        (self.address..self.address + self.size).contains(&address)
    }
}

/// The managed part of a region, and where its tables start.
#[derive(Clone, Copy)]
pub struct Stretch {
    pub start: u64,
    pub first: u64,
    pub end: u64,
}

pub struct View {
    pub held: Vec<Held>,
    /// Addresses and sizes of the listed frames.
    pub listed: Vec<(u64, u64)>,
    pub regions: Vec<Stretch>,
    pub queue: Vec<u64>,
    /// How many places are left in the queue.
    pub room: usize,
    /// Whether a 2 MiB frame is on a list.
    pub medium_listed: bool,
    /// Whether a zeroed frame is on a list, and one of 2 MiB.
    pub zeroed_listed: bool,
    pub zeroed_medium_listed: bool,
    pub outstanding: u64,
}

impl View {
    /// Of a store and its lent queue.
    pub fn of(store: &Store, queue: &[u64]) -> View {
        let is_listed = |lists: &[usize]| {
            let on = |region: &Region| lists.iter().any(|&list| !region.lists[list].is_empty());
            store.regions.iter().any(on)
        };
        let mut view = View {
            held: Vec::new(),
            listed: Vec::new(),
            regions: store.regions.iter().map(stretch).collect(),
            queue: queue[..store.queued].to_vec(),
            room: queue.len() - store.queued,
            medium_listed: is_listed(&[2, 3]),
            zeroed_listed: is_listed(&[1, 3, 5]),
            zeroed_medium_listed: is_listed(&[3]),
            outstanding: store.outstanding,
        };
        view.add_frames(store);
        view
    }

    fn add_frames(&mut self, store: &Store) {
        let queue: BTreeSet<u64> = self.queue.iter().copied().collect();
        for (&address, frame) in store.regions.iter().flat_map(|region| &region.frames) {
            let (size, zeroed, kernel) = (frame.size(), frame.zeroed, frame.kernel);
            let queued = queue.contains(&address);
            if frame.held {
                self.held.push(Held { address, size, zeroed, kernel, queued });
            } else {
                self.listed.push((address, size));
            }
        }
    }

    /// The bytes of the frame that is held at an address, or of a page.
    pub fn size_at(&self, address: u64) -> u64 {
        let frame = self.held.iter().find(|frame| frame.address == address);
        frame.map_or(PAGE, |frame| frame.size)
    }
}

fn stretch(region: &Region) -> Stretch {
    Stretch { start: region.start, first: region.first(), end: region.end() }
}
