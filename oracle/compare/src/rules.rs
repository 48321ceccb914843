//! An independent reading of the rules' tests of a record: the full check, and lookup with its tests. It stands on
//! the rules alone, is written for clearness and keeps marks in memory of its own; the port and the original are judged by it.

use oracle::image::{Key, Value};

/// The number for a shape, a damaged image, an absent key.
pub const SHAPE: u32 = 1;
pub const DAMAGED: u32 = 2;
pub const ABSENT: u32 = 4;

/// An image's words with its M and N; the shape is right.
struct Record<'a> {
    words: &'a [u32],
    m: u32,
    n: u32,
}

/// One arena's counters: how many records are taken, the first never used, the first free.
#[derive(Clone, Copy)]
struct Counters {
    size: u64,
    bump: u32,
    head: u32,
}

#[derive(Clone, Copy)]
struct Node {
    left: u32,
    right: u32,
    parent: u32,
    value: u32,
    key: Key,
    prefix: u64,
    padding: [u32; 2],
}

/// Where the walk stands: a node, the node we came from, and the inner nodes above with the side taken at each.
struct Place {
    at: u32,
    from: u32,
    above: Vec<(u32, bool)>,
}

/// Whether M, N and the number of words fit the limits.
pub fn shape(words: &[u32], m: u32, n: u32) -> bool {
    (1..=4096).contains(&m)
        && n >= 2 * m
        && n <= 8192
        && words.len() as u64 == 12 + 12 * u64::from(n) + 8 * u64::from(m)
}

/// Whether the full check accepts the image: the answer is 0, and 1 or 2 otherwise.
pub fn accepted(words: &[u32], m: u32, n: u32) -> bool {
    if !shape(words, m, n) {
        return false;
    }
    let record = Record { words, m, n };
    if !record.header() {
        return false;
    }
    let Some((nodes, values)) = record.tree() else {
        return false;
    };
    let Some((free_nodes, free_values)) = record.chains() else {
        return false;
    };
    // Each record is in the tree, on the chain or never used, one of the three.
    once(&nodes, &free_nodes, record.nodes().bump)
        && once(&values, &free_values, record.values().bump)
        && record.never_used()
}

/// Lookup's number and value by the rules' steps and tests, on any image.
pub fn lookup(words: &[u32], m: u32, n: u32, key: Key) -> (u32, Value) {
    if !shape(words, m, n) {
        return (SHAPE, [0, 0]);
    }
    let record = Record { words, m, n };
    if !record.header() {
        return (DAMAGED, [0, 0]);
    }
    if record.values().size == 0 {
        return (ABSENT, [0, 0]);
    }
    let (mut at, mut from) = (record.words[2], 0);
    loop {
        if !record.visited(at, from) {
            return (DAMAGED, [0, 0]);
        }
        let node = record.node(at);
        if u64::from((node.key ^ key).leading_zeros()) < node.prefix {
            return (ABSENT, [0, 0]);
        }
        if node.value != 0 {
            return match record.registers(node.value) {
                [0, 0, 0, 0] => (0, record.value(node.value)),
                _ => (DAMAGED, [0, 0]),
            };
        }
        (at, from) = (if bit(key, node.prefix) { node.right } else { node.left }, at);
    }
}

/// A key's bit; bit 0 is the most significant.
fn bit(key: Key, at: u64) -> bool {
    key >> (127 - at) & 1 == 1
}

/// Whether the two lists together hold each index below bump exactly once.
fn once(taken: &[u32], free: &[u32], bump: u32) -> bool {
    let mut all: Vec<u32> = taken.iter().chain(free).copied().collect();
    all.sort_unstable();
    all.into_iter().eq(1..bump)
}

fn wide(low: u32, high: u32) -> u64 {
    u64::from(high) << 32 | u64::from(low)
}

impl Record<'_> {
    fn counters(&self, at: usize) -> Counters {
        let words = &self.words[at..at + 4];
        Counters { size: wide(words[0], words[1]), bump: words[2], head: words[3] }
    }

    fn nodes(&self) -> Counters {
        self.counters(4)
    }

    fn values(&self) -> Counters {
        self.counters(8 + 12 * self.n as usize)
    }

    /// The twelve words of node 1..N.
    fn node_words(&self, index: u32) -> &[u32] {
        let at = 8 + 12 * (index as usize - 1);
        &self.words[at..at + 12]
    }

    /// The eight words of value record 1..M.
    fn value_words(&self, index: u32) -> &[u32] {
        let at = 12 + 12 * self.n as usize + 8 * (index as usize - 1);
        &self.words[at..at + 8]
    }

    fn node(&self, index: u32) -> Node {
        let words = self.node_words(index);
        let key = Key::from(wide(words[6], words[7])) << 64 | Key::from(wide(words[4], words[5]));
        Node {
            left: words[0],
            right: words[1],
            parent: words[2],
            value: words[3],
            key,
            prefix: wide(words[8], words[9]),
            padding: [words[10], words[11]],
        }
    }

    fn registers(&self, index: u32) -> [u32; 4] {
        let words = self.value_words(index);
        [words[0], words[1], words[2], words[3]]
    }

    fn value(&self, index: u32) -> Value {
        let words = self.value_words(index);
        [wide(words[4], words[5]), wide(words[6], words[7])]
    }

    fn header(&self) -> bool {
        let (nodes, values, words) = (self.nodes(), self.values(), self.words);
        let n = values.size;
        words[0] == 0
            && words[1] == 0
            && words[3] == 0
            && n <= u64::from(self.m)
            && nodes.size == if n == 0 { 0 } else { 2 * n - 1 }
            && words[2] == u32::from(n > 0)
            && counters_ok(nodes, self.n)
            && counters_ok(values, self.m)
            && (n > 0 || nodes.head == 1)
    }

    /// The visited-node test, the node come from being 0 at the root.
    fn visited(&self, at: u32, from: u32) -> bool {
        if at < 1 || at >= self.nodes().bump {
            return false;
        }
        let node = self.node(at);
        let leaf = node.value >= 1
            && node.value < self.values().bump
            && node.left == 0
            && node.right == 0
            && node.prefix == 128;
        let inner = node.value == 0
            && node.left != 0
            && node.right != 0
            && node.left != node.right
            && node.prefix <= 127;
        let order = if from == 0 {
            leaf == (self.values().size == 1)
        } else {
            node.prefix > self.node(from).prefix
        };
        node.padding == [0, 0] && node.parent == from && (leaf || inner) && order
    }

    /// The indexes of the tree's nodes and of its leaves' value records, if every node and leaf passes and the counts are right.
    fn tree(&self) -> Option<(Vec<u32>, Vec<u32>)> {
        let (mut nodes, mut values) = (Vec::new(), Vec::new());
        let mut places = Vec::new();
        if self.values().size > 0 {
            places.push(Place { at: self.words[2], from: 0, above: Vec::new() });
        }
        while let Some(Place { at, from, above }) = places.pop() {
            if !self.visited(at, from) || nodes.len() as u64 == self.nodes().size {
                return None;
            }
            nodes.push(at);
            let node = self.node(at);
            if node.value != 0 {
                if !self.in_place(node.key, &above) || self.registers(node.value) != [0; 4] {
                    return None;
                }
                values.push(node.value);
                continue;
            }
            for (child, side) in [(node.left, false), (node.right, true)] {
                let mut above = above.clone();
                above.push((at, side));
                places.push(Place { at: child, from: at, above });
            }
        }
        let counted =
            nodes.len() as u64 == self.nodes().size && values.len() as u64 == self.values().size;
        counted.then_some((nodes, values))
    }

    /// Whether a leaf's key shares the prefix of each inner node above it and lies on its side.
    fn in_place(&self, key: Key, above: &[(u32, bool)]) -> bool {
        above.iter().all(|&(index, right)| {
            let node = self.node(index);
            u64::from((node.key ^ key).leading_zeros()) >= node.prefix
                && bit(key, node.prefix) == right
        })
    }

    /// The indexes on the free chains of nodes and of value records, if each record passes and each chain ends in time.
    fn chains(&self) -> Option<(Vec<u32>, Vec<u32>)> {
        let bump = self.nodes().bump;
        let nodes = chain(self.nodes(), |index| {
            let node = self.node(index);
            let parent = if index == 1 { node.parent == 0 } else { node.parent < bump };
            (node.value == 0
                && node.right == 0
                && node.padding == [0, 0]
                && parent
                && node.prefix <= 128)
                .then_some(node.left)
        })?;
        let values = chain(self.values(), |index| {
            let [next, rest @ ..] = self.registers(index);
            (rest == [0; 3]).then_some(next)
        })?;
        Some((nodes, values))
    }

    fn never_used(&self) -> bool {
        (self.nodes().bump..=self.n).all(|index| self.node_words(index) == [0; 12])
            && (self.values().bump..=self.m).all(|index| self.value_words(index) == [0; 8])
    }
}

fn counters_ok(counters: Counters, limit: u32) -> bool {
    let Counters { size, bump, head } = counters;
    bump >= 1
        && bump <= limit + 1
        && head >= 1
        && head <= bump
        && size < u64::from(bump)
        && (head == bump) == (size == u64::from(bump) - 1)
}

/// The indexes from head to bump, if there are bump-1-size of them; `next` gives a free record's Left, if the rest of it passes.
fn chain(counters: Counters, next: impl Fn(u32) -> Option<u32>) -> Option<Vec<u32>> {
    let Counters { size, bump, head } = counters;
    let mut indexes = Vec::new();
    let mut at = head;
    while at != bump {
        if indexes.len() as u64 == u64::from(bump) - 1 - size {
            return None;
        }
        indexes.push(at);
        let left = next(at)?;
        if left < 1 || left > bump || left == at {
            return None;
        }
        at = left;
    }
    (indexes.len() as u64 == u64::from(bump) - 1 - size).then_some(indexes)
}
