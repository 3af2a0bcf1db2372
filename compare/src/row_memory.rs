use crate::memory::{Memory, NotAdded};

/// The bytes of an ID.
const ID: usize = 2;
/// The bytes of a template.
const TEMPLATE: usize = 384;
/// The bytes of a row: an ID, low byte first, and a template.
const ROW: usize = ID + TEMPLATE;
/// The rows that are used at most.
const MOST_ROWS: usize = 500;

/// A chip whose first `count` rows hold templates, oldest first.
pub struct RowMemory {
    bytes: Vec<u8>,
    count: usize,
}

impl RowMemory {
    pub fn new(bytes: Vec<u8>) -> RowMemory {
        RowMemory { bytes, count: 0 }
    }

    /// The rows that hold templates.
    fn held(&self) -> &[[u8; ROW]] {
        &self.bytes.as_chunks().0[..self.count]
    }
}

impl Memory for RowMemory {
    const T: usize = TEMPLATE;

    fn capacity(&self) -> usize {
        (self.bytes.len() / ROW).min(MOST_ROWS)
    }

    fn count(&self) -> usize {
        self.count
    }

    fn ids(&self) -> impl ExactSizeIterator<Item = u16> + '_ {
        self.held()
            .iter()
            .map(|row| u16::from_le_bytes([row[0], row[1]]))
    }

    fn template(&self, place: usize) -> &[u8] {
        &self.held()[place][ID..]
    }

    fn add(&mut self, id: u16, template: &[u8]) -> Result<(), NotAdded> {
        if id == 0 || template.len() != TEMPLATE {
            return Err(NotAdded::Malformed);
        }
        if self.count >= self.capacity() {
            return Err(NotAdded::Full);
        }
        let row = &mut self.bytes.as_chunks_mut::<ROW>().0[self.count];
        row[..ID].copy_from_slice(&id.to_le_bytes());
        row[ID..].copy_from_slice(template);
        self.count += 1;
        Ok(())
    }

    fn remove(&mut self, place: usize) {
        let rows = self.bytes.as_chunks_mut::<ROW>().0;
        rows.copy_within(place + 1..self.count, place);
        self.count -= 1;
    }

    fn clear(&mut self) {
        self.count = 0;
    }
}
