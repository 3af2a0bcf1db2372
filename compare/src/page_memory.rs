use crate::memory::{Memory, NotAdded};

/// The bytes of a page, which is one template.
const PAGE: usize = 256;
/// The pages that are used at most.
const MOST_PAGES: usize = 64;

/// A page, and the ID of the template on it.
#[derive(Clone, Copy)]
struct Record {
    id: u16,
    page: u16,
}

/// A chip in which no template leaves its page.
pub struct PageMemory {
    bytes: Vec<u8>,
    /// The first `count` records are the templates, oldest first; the others name the free pages.
    directory: [Record; MOST_PAGES],
    count: usize,
}

impl PageMemory {
    pub fn new(bytes: Vec<u8>) -> PageMemory {
        PageMemory {
            bytes,
            directory: std::array::from_fn(|page| Record {
                id: 0,
                page: page as u16,
            }),
            count: 0,
        }
    }
}

impl Memory for PageMemory {
    const T: usize = PAGE;

    fn capacity(&self) -> usize {
        (self.bytes.len() / PAGE).min(MOST_PAGES)
    }

    fn count(&self) -> usize {
        self.count
    }

    fn ids(&self) -> impl ExactSizeIterator<Item = u16> + '_ {
        self.directory[..self.count].iter().map(|record| record.id)
    }

    fn template(&self, place: usize) -> &[u8] {
        let start = usize::from(self.directory[place].page) * PAGE;
        &self.bytes[start..start + PAGE]
    }

    fn add(&mut self, id: u16, template: &[u8]) -> Result<(), NotAdded> {
        if id == 0 || template.len() != PAGE {
            return Err(NotAdded::Malformed);
        }
        if self.count >= self.capacity() {
            return Err(NotAdded::Full);
        }
        let record = &mut self.directory[self.count];
        record.id = id;
        let start = usize::from(record.page) * PAGE;
        self.bytes[start..start + PAGE].copy_from_slice(template);
        self.count += 1;
        Ok(())
    }

    /// The record goes behind those that stay, and its page is the first free one.
    fn remove(&mut self, place: usize) {
        self.directory[place..self.count].rotate_left(1);
        self.count -= 1;
    }

    fn clear(&mut self) {
        self.count = 0;
    }
}
