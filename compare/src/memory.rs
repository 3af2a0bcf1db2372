/// Why a template is not added.
#[derive(Clone, Copy, PartialEq, Eq, Debug)]
pub enum NotAdded {
    /// The ID is 0, or the template has another length than the memory's.
    Malformed,
    /// All places are taken.
    Full,
}

/// A memory of templates of `T` bytes each, oldest first.
pub trait Memory {
    /// The bytes of a template, from 256 to 384.
    const T: usize;

    /// How many templates can be held, at most 500.
    fn capacity(&self) -> usize;

    /// How many templates are held.
    fn count(&self) -> usize;

    /// The IDs of the templates, oldest first.
    fn ids(&self) -> impl ExactSizeIterator<Item = u16> + '_;

    /// The template at a place. There has to be one.
    fn template(&self, place: usize) -> &[u8];

    /// Adds a template as the youngest.
    fn add(&mut self, id: u16, template: &[u8]) -> Result<(), NotAdded>;

    /// Takes the template at a place out. There has to be one.
    fn remove(&mut self, place: usize);

    /// Takes all templates out.
    fn clear(&mut self);
}
