//! Where each field stands in an image, counted in 32-bit words: the rules' table (docs/RULES.md, I).

pub const ROOT: usize = 2;
pub const NODE_SIZE: usize = 4;
pub const NODE_BUMP: usize = 6;
pub const NODE_HEAD: usize = 7;
pub const NODES: usize = 8;

/// Within a node's twelve words.
pub const LEFT: usize = 0;
pub const RIGHT: usize = 1;
pub const PARENT: usize = 2;
pub const VALUE: usize = 3;
pub const KEY: usize = 4;
pub const PREFIX: usize = 8;
pub const PADDING: usize = 10;
pub const NODE_WORDS: usize = 12;

/// Within the four words before the value records.
pub const VALUE_SIZE: usize = 0;
pub const VALUE_BUMP: usize = 2;
pub const VALUE_HEAD: usize = 3;

/// Within a value record's eight words, after its four registers.
pub const CONTENT: usize = 4;
pub const RECORD_WORDS: usize = 8;

/// An image's capacity M and its node count N.
#[derive(Clone, Copy, Debug, PartialEq, Eq)]
pub struct Layout {
    pub m: u32,
    pub n: u32,
}

impl Layout {
    pub fn words(self) -> usize {
        12 + NODE_WORDS * self.n as usize + RECORD_WORDS * self.m as usize
    }

    /// The first word of node `index`, which counts from 1.
    pub fn node(self, index: u32) -> usize {
        NODES + NODE_WORDS * (index as usize - 1)
    }

    /// The first of the four words before the value records.
    pub fn value_header(self) -> usize {
        NODES + NODE_WORDS * self.n as usize
    }

    /// The first word of value record `index`, which counts from 1.
    pub fn record(self, index: u32) -> usize {
        self.value_header() + 4 + RECORD_WORDS * (index as usize - 1)
    }
}
