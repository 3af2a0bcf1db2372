//! Searches over any memory.

use crate::matcher::Matcher;
use crate::memory::Memory;

/// 0, which is no ID, and one ID more than there can be templates.
const LOW_IDS: usize = 502;

/// The IDs from the least to the greatest.
#[derive(Clone, Copy)]
pub(crate) struct IdRange {
    pub least: u16,
    pub greatest: u16,
}

impl IdRange {
    pub fn contains(self, id: u16) -> bool {
        (self.least..=self.greatest).contains(&id)
    }
}

/// A template that agrees: its ID, and how many older templates that ID has.
pub(crate) struct Found {
    pub id: u16,
    pub number: usize,
}

/// A scan that is looked for by a matcher.
pub(crate) struct Search<'a, M> {
    pub matcher: &'a M,
    pub scan: &'a [u8],
    pub strictness: usize,
}

impl<M: Matcher> Search<'_, M> {
    pub fn agrees(&self, stored: &[u8]) -> bool {
        self.matcher.agrees(stored, self.scan, self.strictness)
    }

    /// The oldest template that agrees, of an ID that is allowed.
    pub fn oldest<S: Memory>(&self, memory: &S, allows: impl Fn(u16) -> bool) -> Option<Found> {
        let (place, id) = memory
            .ids()
            .enumerate()
            .find(|&(place, id)| allows(id) && self.agrees(memory.template(place)))?;
        let number = memory
            .ids()
            .take(place)
            .filter(|&older| older == id)
            .count();
        Some(Found { id, number })
    }
}

/// How many templates the ID has.
pub(crate) fn count_of<S: Memory>(memory: &S, id: u16) -> usize {
    memory.ids().filter(|&held| held == id).count()
}

/// The lowest ID without any template.
pub(crate) fn lowest_free_id<S: Memory>(memory: &S) -> u16 {
    let mut taken = [false; LOW_IDS];
    for id in memory.ids() {
        if let Some(taken) = taken.get_mut(usize::from(id)) {
            *taken = true;
        }
    }
    1 + taken[1..].iter().take_while(|taken| **taken).count() as u16
}

/// The first place of the ID's from a place on.
fn next_place_of<S: Memory>(memory: &S, id: u16, from: usize) -> Option<usize> {
    let more = memory.ids().skip(from).position(|held| held == id)?;
    Some(from + more)
}

/// Takes all templates of the ID out, and says how many those were.
pub(crate) fn remove_all_of<S: Memory>(memory: &mut S, id: u16) -> usize {
    let before = memory.count();
    let mut place = 0;
    while let Some(next) = next_place_of(memory, id, place) {
        memory.remove(next);
        place = next;
    }
    before - memory.count()
}
