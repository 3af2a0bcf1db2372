//! The command engine of a fingerprint module in plain Rust, to measure the proved one against.

mod administrators;
mod codes;
mod line;
mod matcher;
mod memory;
mod module;
mod packet;
mod page_memory;
mod phases;
mod point_matcher;
mod requests;
mod row_memory;
mod search;
mod settings;

pub use codes::{Code, Command, EnrollFlag, NetworkMode, Parameter, Refusal};
pub use line::{Answer, Outcome};
pub use matcher::{ByteMatcher, Matcher, SecurityLevel};
pub use memory::{Memory, NotAdded};
pub use module::Module;
pub use packet::{Form, Request};
pub use page_memory::PageMemory;
pub use point_matcher::PointMatcher;
pub use row_memory::RowMemory;
