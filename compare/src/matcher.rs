use crate::codes::numbered;

/// Says whether a scan agrees with a stored template, at a strictness from 0 to 14.
pub trait Matcher {
    fn agrees(&self, stored: &[u8], scan: &[u8], strictness: usize) -> bool;
}

/// Says yes for equal bytes, however strict.
#[derive(Clone, Copy)]
pub struct ByteMatcher;

impl Matcher for ByteMatcher {
    fn agrees(&self, stored: &[u8], scan: &[u8], _strictness: usize) -> bool {
        stored == scan
    }
}

numbered! {
    /// The values of the parameter Security Level, by their false acceptance rates.
    SecurityLevel {
        OneIn10 = 0x30,
        OneIn100 = 0x31,
        OneIn1k = 0x32,
        OneIn10k = 0x33,
        OneIn100k = 0x34,
        OneIn1M = 0x35,
        OneIn10M = 0x36,
        OneIn100M = 0x37,
        ThreeIn100 = 0x40,
        ThreeIn1k = 0x41,
        ThreeIn10k = 0x42,
        ThreeIn100k = 0x43,
        ThreeIn1M = 0x44,
        ThreeIn10M = 0x45,
        ThreeIn100M = 0x46,
    }
}

impl SecurityLevel {
    /// Its place among the levels by falling rate: those of 1 and of 3 take turns.
    pub fn strictness(self) -> usize {
        let code = self as usize;
        if code < 0x40 {
            2 * (code - 0x30)
        } else {
            2 * (code - 0x40) + 1
        }
    }
}
