//! Parks to compare on: every shape and size to 256 nodes and 1,024 links, with costs, groups and
//! stored state of every kind. All of it follows from one seed.

use crate::independent;
use crate::numbers::Numbers;
use std::collections::BTreeMap;

/// "No path", in cost units.
pub const CEILING: u32 = 16_777_215;
/// The largest count, in rounds.
pub const MOST_ROUNDS: u32 = 16_777_217;
/// The most links of a park.
const MOST_LINKS: usize = 1024;

/// Xorshift numbers: the same seed gives the same numbers everywhere.
pub struct Rng(u64);

impl Rng {
    pub fn new(seed: u64) -> Rng {
        // Spreads small seeds over all bits; the state may not be zero.
        Rng(seed.wrapping_add(1).wrapping_mul(0x9E37_79B9_7F4A_7C15) | 1)
    }

    pub fn next(&mut self) -> u64 {
        self.0 ^= self.0 >> 12;
        self.0 ^= self.0 << 25;
        self.0 ^= self.0 >> 27;
        self.0.wrapping_mul(0x2545_F491_4F6C_DD1D)
    }

    /// A number from 0 to `end` - 1.
    pub fn below(&mut self, end: usize) -> usize {
        ((self.next() >> 32) as usize) % end
    }

    /// A number from `low` to `high`, both included.
    pub fn from_to(&mut self, low: usize, high: usize) -> usize {
        low + self.below(high - low + 1)
    }

    pub fn one_of<T: Copy>(&mut self, choices: &[T]) -> T {
        choices[self.below(choices.len())]
    }

    pub fn bytes(&mut self, length: usize) -> Vec<u8> {
        (0..length).map(|_| (self.next() >> 56) as u8).collect()
    }
}

/// A park by its numbers, owned; the fields and units are those of [`Numbers`].
#[derive(Clone)]
pub struct Made {
    pub nodes: u16,
    pub root: u16,
    pub links: Vec<u16>,
    pub group: Vec<u8>,
    pub distances: Vec<u32>,
    pub parents: Vec<u16>,
    pub marks: Vec<u8>,
}

impl Made {
    /// A park with all state zero.
    pub fn new(nodes: u16, root: u16, links: &[[u16; 3]], members: &[u16]) -> Made {
        let mut group = vec![0; 32];
        for member in members.iter().map(|&node| usize::from(node) - 1) {
            group[member / 8] |= 1 << (member % 8);
        }
        let n = usize::from(nodes);
        Made {
            nodes,
            root,
            links: links.concat(),
            group,
            distances: vec![0; n],
            parents: vec![0; n],
            marks: vec![0; n],
        }
    }

    pub fn numbers(&self) -> Numbers<'_> {
        Numbers {
            nodes: self.nodes,
            root: self.root,
            links: &self.links,
            group: &self.group,
            distances: &self.distances,
            parents: &self.parents,
            marks: &self.marks,
        }
    }

    pub fn file(&self) -> Vec<u8> {
        independent::encode(&self.numbers())
    }

    /// Takes over the state stored in a file of this park.
    fn take_state(&mut self, file: &[u8]) {
        for (i, cell) in cells(file, self.nodes).into_iter().enumerate() {
            (self.distances[i], self.parents[i], self.marks[i]) = cell;
        }
    }

    /// This park's file with the exact table as its state.
    pub fn exact_file(&self) -> Vec<u8> {
        let file = self.file();
        let mut area = file.clone();
        independent::exact(&file, &mut area, 0);
        area
    }
}

/// Distance in cost units, parent and mark of each node, from the end of a park's file.
pub fn cells(file: &[u8], nodes: u16) -> Vec<(u32, u16, u8)> {
    let state = &file[file.len() - 7 * usize::from(nodes)..];
    let cell = |b: &[u8]| {
        let distance = u32::from_be_bytes([b[0], b[1], b[2], b[3]]);
        (distance, u16::from_be_bytes([b[4], b[5]]), b[6])
    };
    state.chunks(7).map(cell).collect()
}

/// A park of any shape; most are small, one in forty is as large as parks get.
pub fn park(rng: &mut Rng) -> Made {
    let nodes = match rng.below(40) {
        0 => 256,
        1 => rng.from_to(100, 256),
        2..=5 => rng.from_to(30, 99),
        6..=13 => rng.from_to(9, 29),
        _ => rng.from_to(1, 8),
    };
    let mut made = bare(rng, nodes);
    store(rng, &mut made);
    made
}

/// The largest park: 256 nodes, 1,024 links.
pub fn full(rng: &mut Rng, costs: (usize, usize)) -> Made {
    let mut links = BTreeMap::new();
    while links.len() < MOST_LINKS {
        let (a, b) = (rng.from_to(1, 256) as u16, rng.from_to(1, 256) as u16);
        if a != b {
            links.insert((a.min(b), a.max(b)), rng.from_to(costs.0, costs.1) as u16);
        }
    }
    let links: Vec<[u16; 3]> = links.iter().map(|(&(a, b), &cost)| [a, b, cost]).collect();
    Made::new(256, rng.from_to(1, 256) as u16, &links, &[3, 77, 256])
}

/// A park with all state zero: shape, names, costs, root and group by chance.
fn bare(rng: &mut Rng, n: usize) -> Made {
    let mut names: Vec<u16> = (1..=n as u16).collect();
    match rng.below(3) {
        0 => names.reverse(),
        1 => (1..n).for_each(|i| names.swap(i, rng.below(i + 1))),
        _ => {}
    }
    let costs = rng.below(7);
    let same = rng.from_to(1, 65_535);
    let mut links = BTreeMap::new();
    for (a, b) in shape(rng, n) {
        let (a, b) = (names[a], names[b]);
        if a != b && links.len() < MOST_LINKS {
            links.insert((a.min(b), a.max(b)), cost(rng, costs, same) as u16);
        }
    }
    let links: Vec<[u16; 3]> = links.iter().map(|(&(a, b), &cost)| [a, b, cost]).collect();
    let any = rng.from_to(1, n);
    let root = rng.one_of(&[1, n, any]) as u16;
    let members = group(rng, n as u16, root);
    Made::new(n as u16, root, &links, &members)
}

/// Pairs of places from 0 to n - 1; equal pairs and pairs of one place are dropped by the caller.
fn shape(rng: &mut Rng, n: usize) -> Vec<(usize, usize)> {
    let chain = (1..n).map(|i| (i - 1, i));
    let side = (1..).find(|side| side * side >= n).unwrap_or(1);
    match rng.below(12) {
        0 => vec![],
        1 => chain.collect(),
        2 => chain.chain([(n - 1, 0)]).collect(),
        3 => (1..n).map(|i| (0, i)).collect(),
        4 => (1..n).map(|i| (rng.below(i), i)).collect(),
        5 => (0..n).flat_map(|i| (0..i).map(move |j| (j, i))).collect(),
        6 => {
            let across = (0..n).filter(|i| i % side != 0).map(|i| (i - 1, i));
            across.chain((side..n).map(|i| (i - side, i))).collect()
        }
        // Two parts, at times joined by nothing.
        7 => chain.filter(|&(_, i)| i != n / 2).chain([(n / 2, n - 1)]).collect(),
        // Layers of two, each node linked to both of the layer before: many equal ways.
        8 => (2..n).flat_map(|i| [(i - i % 2 - 2, i), (i - i % 2 - 1, i)]).chain([(0, n / 2)]).collect(),
        9 => (0..n / 2).map(|_| (rng.below(n), rng.below(n))).collect(),
        _ => (0..4 * n).map(|_| (rng.below(n), rng.below(n))).collect(),
    }
}

/// A link's cost in cost units, from 1 to 65,535.
fn cost(rng: &mut Rng, style: usize, same: usize) -> usize {
    match style {
        0 => 1,
        1 => 65_535,
        2 => same,
        3 => rng.from_to(1, 3),
        4 => rng.one_of(&[1, 65_535]),
        5 => rng.from_to(1000, 1100),
        _ => rng.from_to(1, 65_535),
    }
}

fn group(rng: &mut Rng, n: u16, root: u16) -> Vec<u16> {
    match rng.below(6) {
        0 => vec![],
        1 => (1..=n).collect(),
        2 => vec![root],
        3 => vec![n],
        4 => vec![rng.from_to(1, n.into()) as u16],
        _ => (1..=n).filter(|_| rng.below(3) == 0).collect(),
    }
}

/// Stores rubbish, or something near the exact table, as the park's state.
fn store(rng: &mut Rng, made: &mut Made) {
    let style = rng.below(10);
    if style >= 7 {
        let exact = made.exact_file();
        made.take_state(&exact);
    }
    let near = [0, 1, 2, 5, CEILING - 65_535, CEILING - 1, CEILING, CEILING + 1, u32::MAX - 1, u32::MAX];
    for i in 0..usize::from(made.nodes) {
        let node = rng.below(usize::from(made.nodes) + 2) as u16;
        let rubbish = rng.next();
        let (distance, parent, mark) = match style {
            0 => (0, 0, 0),
            1 => (u32::MAX, u16::MAX, u8::MAX),
            2 => (rubbish as u32, (rubbish >> 32) as u16, (rubbish >> 48) as u8),
            3 => (rubbish as u32 % 200_000, node, (rubbish >> 32) as u8 % 2),
            4 => (rng.one_of(&near), node, rng.one_of(&[0, 1, 7, 255])),
            5 => (CEILING, node, 1),
            6 => (rubbish as u32 % 4, neighbour(rng, made, i), 1),
            _ => (made.distances[i], made.parents[i], made.marks[i]),
        };
        (made.distances[i], made.parents[i], made.marks[i]) = (distance, parent, mark);
    }
    if style == 8 {
        nudge(rng, made);
    }
}

/// Some neighbour of the node at index i, 0 if it has none.
fn neighbour(rng: &mut Rng, made: &Made, i: usize) -> u16 {
    let node = i as u16 + 1;
    let other = |link: &[u16]| match (link[0] == node, link[1] == node) {
        (true, _) => Some(link[1]),
        (_, true) => Some(link[0]),
        _ => None,
    };
    let all: Vec<u16> = made.links.chunks(3).filter_map(other).collect();
    if all.is_empty() {
        0
    } else {
        rng.one_of(&all)
    }
}

/// Changes one stored value by a little.
fn nudge(rng: &mut Rng, made: &mut Made) {
    let i = rng.below(made.nodes.into());
    match rng.below(3) {
        0 => made.distances[i] = made.distances[i].wrapping_add(rng.one_of(&[1, u32::MAX])),
        1 => made.parents[i] = made.parents[i].wrapping_add(rng.one_of(&[1, u16::MAX])),
        _ => made.marks[i] = made.marks[i].wrapping_add(rng.one_of(&[1, 2, 6])),
    }
}

/// The most rounds that this park can need before it is quiet, by the bounds of demand 3.
pub fn rounds_to_quiet(made: &Made) -> u64 {
    let Some(least) = made.links.chunks(3).map(|link| u64::from(link[2])).min() else {
        return 1;
    };
    let exact = cells(&made.exact_file(), made.nodes);
    let cut_off = |link: &[u16]| exact[usize::from(link[0]) - 1].0 == CEILING;
    if made.links.chunks(3).any(cut_off) {
        return u64::from(CEILING) / least + 2;
    }
    let reached = exact.iter().filter(|cell| cell.0 < CEILING);
    let farthest = reached.clone().map(|cell| u64::from(cell.0)).max().unwrap_or(0);
    farthest / least + 1 + reached.count() as u64
}
