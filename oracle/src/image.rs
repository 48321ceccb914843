//! An image that the original works on in place, and the original's calls on it. The counts M and N
//! are const generics there; here they are chosen at run time from a fixed list.
//!
//! On a damaged image the original can panic, and it can run for ever: round a node that is below
//! itself, or in a listing round index 0, which it takes for an inner node, with memory growing all
//! the while. There is no time limit here. On damaged images ask only for what visits records that
//! pass the rules' tests, where every path ends.

use crate::layout::Layout;
use original::critbit::{Critbit, CritbitNode};
use original::node_allocator::{NodeAllocatorMap, OrderedNodeAllocatorMap, ZeroCopy};

#[cfg(not(target_endian = "little"))]
compile_error!("the image's words are those of the memory only where the lowest byte comes first");

pub type Key = u128;
pub type Value = [u64; 2];
pub type Entry = (Key, Value);
pub type Listing<'a> = Box<dyn DoubleEndedIterator<Item = (&'a Key, &'a Value)> + 'a>;

/// The original's calls, for whatever M and N, and what its public functions show of its records.
pub trait Map {
    fn start(&mut self);
    fn insert(&mut self, key: Key, value: Value) -> Option<u32>;
    fn remove(&mut self, key: Key) -> Option<Value>;
    fn get(&self, key: Key) -> Option<Value>;
    fn contains(&self, key: Key) -> bool;
    /// Replaces a present key's value through `get_mut`; false if the key is absent.
    fn write(&mut self, key: Key, value: Value) -> bool;
    fn length(&self) -> u64;
    fn capacity(&self) -> u64;
    fn smallest(&mut self) -> Option<Entry>;
    fn largest(&mut self) -> Option<Entry>;
    /// Panics on an empty map, as the original does.
    fn address(&self, key: Key) -> u32;
    fn listing(&self) -> Listing<'_>;

    fn root(&self) -> u32;
    fn node(&self, index: u32) -> NodeSeen;
    fn value(&self, index: u32) -> Value;
}

/// A node's fields as the original's public functions give them. Of the register Value they only
/// tell whether it is 0, which makes the node an inner one.
pub struct NodeSeen {
    pub left: u32,
    pub right: u32,
    pub parent: u32,
    pub inner: bool,
    pub content: CritbitNode,
}

impl<const N: usize, const M: usize> Map for Critbit<Value, N, M> {
    fn start(&mut self) {
        self.initialize()
    }

    fn insert(&mut self, key: Key, value: Value) -> Option<u32> {
        NodeAllocatorMap::insert(self, key, value)
    }

    fn remove(&mut self, key: Key) -> Option<Value> {
        NodeAllocatorMap::remove(self, &key)
    }

    fn get(&self, key: Key) -> Option<Value> {
        NodeAllocatorMap::get(self, &key).copied()
    }

    fn contains(&self, key: Key) -> bool {
        NodeAllocatorMap::contains(self, &key)
    }

    fn write(&mut self, key: Key, value: Value) -> bool {
        self.get_mut(&key).map(|held| *held = value).is_some()
    }

    fn length(&self) -> u64 {
        self.len() as u64
    }

    fn capacity(&self) -> u64 {
        NodeAllocatorMap::capacity(self) as u64
    }

    fn smallest(&mut self) -> Option<Entry> {
        self.get_min()
    }

    fn largest(&mut self) -> Option<Entry> {
        self.get_max()
    }

    fn address(&self, key: Key) -> u32 {
        self.get_addr(key)
    }

    fn listing(&self) -> Listing<'_> {
        self.iter()
    }

    fn root(&self) -> u32 {
        self.root
    }

    fn node(&self, index: u32) -> NodeSeen {
        NodeSeen {
            left: self.get_left(index),
            right: self.get_right(index),
            parent: self.get_parent(index),
            inner: self.is_inner_node(index),
            content: self.get_node(index),
        }
    }

    fn value(&self, index: u32) -> Value {
        *self.get_leaf(index)
    }
}

type View = fn(&mut [u8]) -> &mut dyn Map;

fn view<const N: usize, const M: usize>(bytes: &mut [u8]) -> &mut dyn Map {
    Critbit::<Value, N, M>::load_mut_bytes(bytes).expect("an image of the right size and alignment")
}

macro_rules! sizes {
    ($(($m:literal, $n:literal)),*) => {
        /// The pairs M, N that an image can have here.
        pub const SIZES: &[(u32, u32)] = &[$(($m, $n)),*];

        fn view_of(m: u32, n: u32) -> Option<View> {
            match (m, n) {
                $(($m, $n) => Some(view::<$n, $m>),)*
                _ => None,
            }
        }
    };
}

sizes!((1, 2), (2, 4), (4, 8), (8, 16), (7, 20), (256, 512), (4096, 8192));

/// The memory of one map, aligned as the original wants it.
pub struct Image {
    layout: Layout,
    blocks: Vec<u128>,
    view: View,
}

impl Image {
    /// Memory of zeros, or nothing if the pair is not one of `SIZES`.
    pub fn blank(m: u32, n: u32) -> Option<Image> {
        let view = view_of(m, n)?;
        let layout = Layout { m, n };
        let blocks = vec![0; layout.words() / 4];
        Some(Image { layout, blocks, view })
    }

    pub fn layout(&self) -> Layout {
        self.layout
    }

    pub fn map(&mut self) -> &mut dyn Map {
        (self.view)(bytemuck::cast_slice_mut(&mut self.blocks))
    }

    pub fn words(&self) -> &[u32] {
        bytemuck::cast_slice(&self.blocks)
    }

    pub fn words_mut(&mut self) -> &mut [u32] {
        bytemuck::cast_slice_mut(&mut self.blocks)
    }

    /// Takes any words of the image's count, sound or damaged.
    pub fn load(&mut self, words: &[u32]) {
        self.words_mut().copy_from_slice(words)
    }
}
