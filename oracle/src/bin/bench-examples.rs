//! Replays on the original the bench examples of the rules B, its whole case of the command program, and
//! the places where it says that the original panics or tests less.

use oracle::apply::guarded;
use oracle::history::Call;
use oracle::image::{Image, Key, NodeSeen};
use oracle::layout::*;

const B: Key = 0;

fn main() {
    start();
    inserts();
    listing();
    remove_and_again();
    capacity_one();
    capacity_two();
    leading_equal_bits();
    largest_image();
    powers_of_two((0..128).collect());
    powers_of_two((0..128).rev().collect());
    whole_case();
    departures();
    println!("bench-examples: all agree");
}

/// An image and calls on it written as in a history, in which A, B and C stand for their keys.
struct Bench(Image);

impl Bench {
    fn new(m: u32, n: u32) -> Bench {
        let mut bench = Bench(Image::blank(m, n).expect("one of the pairs"));
        bench.says("s", "0");
        bench
    }

    /// M 4, N 8, with A, B and C.
    fn three() -> Bench {
        let mut bench = Bench::new(4, 8);
        bench.says("i A 0 1", "0 1");
        bench.says("i B 0 2", "0 2");
        bench.says("i C 0 3", "0 4");
        bench
    }

    fn says(&mut self, call: &str, answer: &str) {
        let spelled: Call = spell(call).parse().expect("a call");
        assert_eq!(guarded(&mut self.0, &spelled).to_string(), spell(answer), "{call}");
    }

    fn word(&self, place: usize) -> u32 {
        self.0.words()[place]
    }

    fn set(&mut self, place: usize, word: u32) {
        self.0.words_mut()[place] = word;
    }

    fn node(&mut self, index: u32) -> NodeSeen {
        self.0.map().node(index)
    }

    fn is_inner(&mut self, index: u32, prefix: u64, left: u32, right: u32) {
        let node = self.node(index);
        assert!(node.inner, "node {index}");
        assert_eq!((node.content.prefix_len, node.left, node.right), (prefix, left, right));
    }
}

fn spell(text: &str) -> String {
    let word = |field| match field {
        "A" => "8000000000000000 0",
        "B" => "0 0",
        "C" => "0 1",
        other => other,
    };
    text.split(' ').map(word).collect::<Vec<_>>().join(" ")
}

fn start() {
    let bench = Bench::new(4, 8);
    let mut expected = vec![0; 140];
    for place in [6, 7, 8 + 12 * 8 + 2, 8 + 12 * 8 + 3] {
        expected[place] = 1;
    }
    assert_eq!(bench.0.words(), expected);
}

fn inserts() {
    let mut bench = Bench::new(4, 8);
    bench.says("i A 0 1", "0 1");
    bench.says("i B 0 2", "0 2");
    bench.is_inner(1, 0, 2, 3);
    bench.says("i C 0 3", "0 4");
    bench.is_inner(2, 127, 5, 4);
    bench.says("d B", "0 5");
}

fn listing() {
    let mut bench = Bench::three();
    bench.says("a", "0 B 0 2; 0 C 0 3; 0 A 0 1; 4");
    bench.says("z FBFBF", "0 B 0 2; 0 A 0 1; 0 C 0 3; 4; 4");
}

fn remove_and_again() {
    let mut bench = Bench::three();
    bench.says("r A", "0 0 1");
    let layout = bench.0.layout();
    assert_eq!(bench.word(NODE_SIZE), 3);
    assert_eq!(bench.word(NODE_HEAD), 2);
    assert_eq!(bench.word(layout.node(2) + LEFT), 3);
    assert_eq!(bench.word(layout.node(3) + LEFT), bench.word(NODE_BUMP));
    assert_eq!(bench.word(layout.value_header() + VALUE_HEAD), 1);
    bench.says("i A 0 4", "0 2");
    bench.is_inner(1, 0, 3, 2);
}

fn capacity_one() {
    let mut bench = Bench::new(1, 2);
    bench.says("i A 0 1", "0 1");
    bench.says("i A 0 2", "3");
    bench.says("g A", "0 0 1");
}

fn capacity_two() {
    let mut bench = Bench::new(2, 4);
    bench.says("i A 0 1", "0 1");
    bench.says("i A 0 2", "0 1");
    bench.says("g A", "0 0 2");
}

/// The number of leading equal bits of two keys is the prefix length of the root that parts them.
fn leading_equal_bits() {
    let pairs =
        [("A", "B", 0), ("1 0", "0 0", 63), ("0 8000000000000000", "0 0", 64), ("B", "C", 127)];
    for (first, second, equal) in pairs {
        let mut bench = Bench::new(2, 4);
        bench.says(&format!("i {first} 0 1"), "0 1");
        bench.says(&format!("i {second} 0 2"), "0 2");
        assert_eq!(bench.node(1).content.prefix_len, equal);
    }
}

fn largest_image() {
    let mut bench = Bench::new(4096, 8192);
    bench.says("i A 0 1", "0 1");
    bench.says("p", "0 1000");
    bench.says("g A", "0 0 1");
}

/// B and the powers of two with these exponents, inserted in this order: B's path, always to the
/// left, is 129 nodes.
fn powers_of_two(exponents: Vec<u32>) {
    let mut bench = Bench::new(256, 512);
    bench.0.map().insert(B, [0, 0]).expect("room");
    for exponent in exponents {
        bench.0.map().insert(1 << exponent, [0, 0]).expect("room");
    }
    let mut last = bench.0.map().root();
    let mut path = 1;
    while bench.node(last).inner {
        last = bench.node(last).left;
        path += 1;
    }
    assert_eq!(path, 129);
    assert_eq!(bench.node(last).content.key, B);
}

/// The command program's whole case, as a history.
fn whole_case() {
    let mut bench = Bench::new(256, 512);
    bench.says("i A 0 1", "0 1");
    bench.says("i B 0 2", "0 2");
    bench.says("i C 0 3", "0 4");
    bench.says("r A", "0 0 1");
    bench.says("a", "0 B 0 2; 0 C 0 3; 4");
    bench.says("l", "0 2");
}

/// Where the port answers otherwise, or refuses.
fn departures() {
    let mut bench = Bench::new(4, 8);
    bench.says("d A", "panic");
    bench.says("s", "panic");

    let mut bench = Bench::three();
    bench.set(ROOT, 9);
    bench.says("g A", "panic");

    let mut bench = Bench(Image::blank(4, 8).expect("one of the pairs"));
    bench.set(NODES, 7);
    bench.says("s", "0");

    let mut bench = Bench::new(4, 8);
    bench.says("i A 0 1", "0 1");
    bench.set(bench.0.layout().value_header() + VALUE_SIZE, 2);
    bench.says("r A", "panic");
}
