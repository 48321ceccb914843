//! Compares the layout table of the rules I with the original's memory, for every pair M, N: the sizes,
//! every field that the original's public functions read, and all words after known calls.

use oracle::apply::apply;
use oracle::history::{high, low, Call};
use oracle::image::{Image, Key, Value, SIZES};
use oracle::layout::*;
use std::mem::{align_of_val, size_of_val};

const A: Key = 1 << 127;
const B: Key = 0;
const C: Key = 1;
/// A key with four different words, which shows their order.
const D: Key = 0x4444_4444_3333_3333_2222_2222_1111_1111;

fn main() {
    for &(m, n) in SIZES {
        let mut image = Image::blank(m, n).expect("one of the pairs");
        check_size(&mut image);
        check_places(&mut image);
        for picture in PICTURES.iter().filter(|picture| picture.capacity <= m) {
            check_picture(picture, m, n);
        }
        println!("layout: M {m} N {n}: {} words agree", image.layout().words());
    }
}

// ---- sizes

fn check_size(image: &mut Image) {
    let Layout { m, n } = image.layout();
    let bytes = 48 + 48 * n as usize + 32 * m as usize;
    assert_eq!(size_of_val(image.map()), bytes);
    assert_eq!(align_of_val(image.map()), 16);
    assert_eq!(image.layout().words() * 4, bytes);
    assert_eq!(size_of_val(image.words()), bytes);
}

// ---- places

/// Gives each word its own place as its content, and reads the fields through the original.
fn check_places(image: &mut Image) {
    let layout = image.layout();
    for (place, word) in image.words_mut().iter_mut().enumerate() {
        *word = place as u32;
    }
    assert_eq!(image.map().root(), ROOT as u32);
    assert_eq!(image.map().length(), two_words(layout.value_header() + VALUE_SIZE));
    assert_eq!(image.map().capacity(), layout.m as u64);
    (1..=layout.n).for_each(|index| check_node_places(image, index));
    (1..=layout.m).for_each(|index| check_record_places(image, index));
}

fn check_node_places(image: &mut Image, index: u32) {
    let place = image.layout().node(index);
    let node = image.map().node(index);
    assert_eq!(node.left as usize, place + LEFT);
    assert_eq!(node.right as usize, place + RIGHT);
    assert_eq!(node.parent as usize, place + PARENT);
    assert_eq!(low(node.content.key), two_words(place + KEY));
    assert_eq!(high(node.content.key), two_words(place + KEY + 2));
    assert_eq!(node.content.prefix_len, two_words(place + PREFIX));
    assert_eq!(node.content._padding, two_words(place + PADDING));
    assert!(!node.inner);
    let value = std::mem::take(&mut image.words_mut()[place + VALUE]);
    assert!(image.map().node(index).inner);
    image.words_mut()[place + VALUE] = value;
}

fn check_record_places(image: &mut Image, index: u32) {
    let place = image.layout().record(index) + CONTENT;
    assert_eq!(image.map().value(index), [two_words(place), two_words(place + 2)]);
}

/// The number that stands in two words which hold their own places, lower word first.
fn two_words(place: usize) -> u64 {
    place as u64 | (place as u64 + 1) << 32
}

// ---- pictures: all words after known calls

/// What an image of at least this capacity holds after the calls; all words not named are zero.
struct Picture {
    capacity: u32,
    calls: &'static [Call],
    root: u32,
    /// Size, bump and head.
    nodes_header: [u32; 3],
    nodes: &'static [Node],
    values_header: [u32; 3],
    values: &'static [Record],
}

/// Left, Right, Parent, Value, key, prefix length.
struct Node(u32, u32, u32, u32, Key, u32);

/// Register 0, value.
struct Record(u32, Value);

const VA: Value = [0xa1a1_a1a1_a0a0_a0a0, 0xa3a3_a3a3_a2a2_a2a2];
const VB: Value = [0xb1b1_b1b1_b0b0_b0b0, 0xb3b3_b3b3_b2b2_b2b2];
const VC: Value = [0xc1c1_c1c1_c0c0_c0c0, 0xc3c3_c3c3_c2c2_c2c2];
const VD: Value = [0xd1d1_d1d1_d0d0_d0d0, 0xd3d3_d3d3_d2d2_d2d2];

const START: Call = Call::Start;
const INSERT_A: Call = Call::Insert(A, VA);
const INSERT_B: Call = Call::Insert(B, VB);
const INSERT_C: Call = Call::Insert(C, VC);
const INSERT_D: Call = Call::Insert(D, VD);
const REMOVE_A: Call = Call::Remove(A);
const AGAIN_A: Call = Call::Insert(A, VD);

const PICTURES: &[Picture] = &[
    Picture {
        capacity: 1,
        calls: &[START],
        root: 0,
        nodes_header: [0, 1, 1],
        nodes: &[],
        values_header: [0, 1, 1],
        values: &[],
    },
    Picture {
        capacity: 1,
        calls: &[START, INSERT_D],
        root: 1,
        nodes_header: [1, 2, 2],
        nodes: &[Node(0, 0, 0, 1, D, 128)],
        values_header: [1, 2, 2],
        values: &[Record(0, VD)],
    },
    Picture {
        capacity: 1,
        calls: &[START, INSERT_A, REMOVE_A],
        root: 0,
        nodes_header: [0, 2, 1],
        nodes: &[Node(2, 0, 0, 0, A, 128)],
        values_header: [0, 2, 1],
        values: &[Record(2, VA)],
    },
    Picture {
        capacity: 2,
        calls: &[START, INSERT_A, INSERT_B],
        root: 1,
        nodes_header: [3, 4, 4],
        nodes: &[Node(2, 3, 0, 0, B, 0), Node(0, 0, 1, 2, B, 128), Node(0, 0, 1, 1, A, 128)],
        values_header: [2, 3, 3],
        values: &[Record(0, VA), Record(0, VB)],
    },
    Picture {
        capacity: 4,
        calls: &[START, INSERT_A, INSERT_B, INSERT_C],
        root: 1,
        nodes_header: [5, 6, 6],
        nodes: &[
            Node(2, 3, 0, 0, B, 0),
            Node(5, 4, 1, 0, C, 127),
            Node(0, 0, 1, 1, A, 128),
            Node(0, 0, 2, 3, C, 128),
            Node(0, 0, 2, 2, B, 128),
        ],
        values_header: [3, 4, 4],
        values: &[Record(0, VA), Record(0, VB), Record(0, VC)],
    },
    Picture {
        capacity: 4,
        calls: &[START, INSERT_A, INSERT_B, INSERT_C, REMOVE_A],
        root: 1,
        nodes_header: [3, 6, 2],
        nodes: &[
            Node(5, 4, 0, 0, C, 127),
            Node(3, 0, 1, 0, C, 127),
            Node(6, 0, 0, 0, A, 128),
            Node(0, 0, 1, 3, C, 128),
            Node(0, 0, 1, 2, B, 128),
        ],
        values_header: [2, 4, 1],
        values: &[Record(4, VA), Record(0, VB), Record(0, VC)],
    },
    Picture {
        capacity: 4,
        calls: &[START, INSERT_A, INSERT_B, INSERT_C, REMOVE_A, AGAIN_A],
        root: 1,
        nodes_header: [5, 6, 6],
        nodes: &[
            Node(3, 2, 0, 0, A, 0),
            Node(0, 0, 1, 1, A, 128),
            Node(5, 4, 1, 0, C, 127),
            Node(0, 0, 3, 3, C, 128),
            Node(0, 0, 3, 2, B, 128),
        ],
        values_header: [3, 4, 4],
        values: &[Record(0, VD), Record(0, VB), Record(0, VC)],
    },
];

fn check_picture(picture: &Picture, m: u32, n: u32) {
    let mut image = Image::blank(m, n).expect("one of the pairs");
    for call in picture.calls {
        apply(&mut image, call);
    }
    let expected = paint(picture, image.layout());
    assert_eq!(image.words().len(), expected.len());
    for (place, (found, wanted)) in image.words().iter().zip(&expected).enumerate() {
        assert_eq!(found, wanted, "word {place} after {:?}", picture.calls);
    }
}

/// The words of a picture, in the table's order.
fn paint(picture: &Picture, layout: Layout) -> Vec<u32> {
    let mut words = vec![0, 0, picture.root, 0];
    words.extend(header(picture.nodes_header));
    picture.nodes.iter().for_each(|node| words.extend(node_words(node)));
    words.resize(8 + 12 * layout.n as usize, 0);
    words.extend(header(picture.values_header));
    picture.values.iter().for_each(|record| words.extend(record_words(record)));
    words.resize(12 + 12 * layout.n as usize + 8 * layout.m as usize, 0);
    words
}

fn header([size, bump, head]: [u32; 3]) -> [u32; 4] {
    [size, 0, bump, head]
}

fn node_words(&Node(left, right, parent, value, key, prefix): &Node) -> [u32; 12] {
    let [[k0, k1], [k2, k3]] = [halves(low(key)), halves(high(key))];
    [left, right, parent, value, k0, k1, k2, k3, prefix, 0, 0, 0]
}

fn record_words(&Record(next, value): &Record) -> [u32; 8] {
    let [[v0, v1], [v2, v3]] = value.map(halves);
    [next, 0, 0, 0, v0, v1, v2, v3]
}

fn halves(word: u64) -> [u32; 2] {
    [word as u32, (word >> 32) as u32]
}
