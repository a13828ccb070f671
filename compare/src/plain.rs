//! The measured calls in plain Rust, for the benchmark: the same work as the library's base form,
//! over the same file in and file out, with slices and bounds checks and without allocation.
//! Each node searches the whole link list; the nearest node is found by a linear search.

use crate::numbers::Answer;

/// "No path", in cost units.
const CEILING: u32 = 16_777_215;
/// The largest count, in rounds.
const MOST_ROUNDS: u32 = 16_777_217;

/// Number and place in bytes.
type Refusal = (u64, usize);

#[derive(Clone, Copy, Default)]
struct Link {
    lower: u16,
    higher: u16,
    /// In cost units.
    cost: u16,
}

/// Stored state of nodes 1 to n, at indices 0 to n - 1; distances in cost units.
#[derive(Clone)]
struct State {
    distances: [u32; 256],
    parents: [u16; 256],
    marks: [u8; 256],
}

/// The sizes of a checked file, in nodes and links, and its root.
struct Sizes {
    nodes: usize,
    root: u16,
    links: usize,
}

struct Park {
    nodes: usize,
    root: u16,
    links: [Link; 1024],
    links_len: usize,
    group: [u8; 32],
}

fn at16(file: &[u8], place: usize) -> u16 {
    u16::from_be_bytes([file[place], file[place + 1]])
}

fn link_at(file: &[u8], place: usize) -> Link {
    Link { lower: at16(file, place), higher: at16(file, place + 2), cost: at16(file, place + 4) }
}

/// The field at `place`: its length in bytes, a multiple of `step` from `low` to `high`.
fn field(file: &[u8], place: usize, tag: u8, step: usize, low: usize, high: usize) -> Result<usize, Refusal> {
    if file.len() - place < 3 {
        return Err((1, place));
    }
    if file[place] != tag {
        return Err((2, place));
    }
    let length = at16(file, place + 1) as usize;
    if length % step != 0 || length < low || length > high {
        return Err((3, place));
    }
    if file.len() - place - 3 < length {
        return Err((1, place));
    }
    Ok(length)
}

fn links_checked(file: &[u8], nodes: usize, length: usize) -> Result<(), Refusal> {
    let mut before = 0;
    for place in (10..10 + length).step_by(6) {
        let link = link_at(file, place);
        if link.lower == 0 || link.higher <= link.lower || link.higher as usize > nodes || link.cost == 0 {
            return Err((5, place));
        }
        let key = u32::from(link.lower) << 16 | u32::from(link.higher);
        if key <= before {
            return Err((6, place));
        }
        before = key;
    }
    Ok(())
}

fn checked(file: &[u8]) -> Result<Sizes, Refusal> {
    field(file, 0, 1, 1, 4, 4)?;
    let (nodes, root) = (at16(file, 3) as usize, at16(file, 5));
    if nodes == 0 || nodes > 256 || root == 0 || root as usize > nodes {
        return Err((4, 0));
    }
    let links = field(file, 7, 2, 6, 0, 6144)?;
    links_checked(file, nodes, links)?;
    let place = 10 + links;
    field(file, place, 3, 1, 32, 32)?;
    for i in 0..32 {
        let bits = nodes.saturating_sub(8 * i).min(8);
        if u16::from(file[place + 3 + i]) >= 1 << bits {
            return Err((7, place));
        }
    }
    field(file, place + 35, 4, 1, 7 * nodes, 7 * nodes)?;
    let end = place + 38 + 7 * nodes;
    if file.len() > end {
        return Err((8, end));
    }
    Ok(Sizes { nodes, root, links: links / 6 })
}

/// Takes a checked file apart.
fn taken(file: &[u8], sizes: &Sizes) -> (Park, State) {
    let mut park = Park {
        nodes: sizes.nodes,
        root: sizes.root,
        links: [Link::default(); 1024],
        links_len: sizes.links,
        group: [0; 32],
    };
    for i in 0..sizes.links {
        park.links[i] = link_at(file, 10 + 6 * i);
    }
    let group = 13 + 6 * sizes.links;
    park.group.copy_from_slice(&file[group..group + 32]);
    let mut state = State { distances: [0; 256], parents: [0; 256], marks: [0; 256] };
    for i in 0..sizes.nodes {
        let place = group + 35 + 7 * i;
        state.distances[i] = u32::from(at16(file, place)) << 16 | u32::from(at16(file, place + 2));
        state.parents[i] = at16(file, place + 4);
        state.marks[i] = file[place + 6];
    }
    (park, state)
}

/// Writes the file with another state.
fn put(file: &[u8], state: &State, nodes: usize, part: &mut [u8]) {
    let start = file.len() - 7 * nodes;
    part[..start].copy_from_slice(&file[..start]);
    for i in 0..nodes {
        let place = start + 7 * i;
        part[place..place + 4].copy_from_slice(&state.distances[i].to_be_bytes());
        part[place + 4..place + 6].copy_from_slice(&state.parents[i].to_be_bytes());
        part[place + 6] = state.marks[i];
    }
}

fn member(group: &[u8], i: usize) -> u8 {
    group[i / 8] >> (i % 8) & 1
}

/// The other end of a link that has `node` for an end.
fn other_end(link: &Link, node: u16) -> Option<u16> {
    if link.lower == node {
        return Some(link.higher);
    }
    if link.higher == node {
        return Some(link.lower);
    }
    None
}

/// The least offer that `node` hears, in cost units, and the lowest neighbour that gives it. The
/// file's order names a node's neighbours ascending, so the first that gives the least is lowest.
fn search(links: &[Link], node: u16, old: &State, mark: &mut u8) -> (u32, u16) {
    let (mut least, mut parent) = (CEILING, 0);
    for link in links {
        if let Some(from) = other_end(link, node) {
            let j = from as usize - 1;
            let offer = old.distances[j].min(CEILING) + u32::from(link.cost);
            if offer < least {
                least = offer;
                parent = from;
            }
            if old.parents[j] == node && old.marks[j] != 0 {
                *mark = 1;
            }
        }
    }
    (least, parent)
}

/// One round from `old` into `new`; whether it changed anything.
fn round(park: &Park, links: &[Link], old: &State, new: &mut State) -> bool {
    let mut changed = false;
    for i in 0..park.nodes {
        let node = i as u16 + 1;
        let mut mark = member(&park.group, i);
        let (mut least, mut parent) = search(links, node, old, &mut mark);
        if node == park.root {
            (least, parent) = (0, 0);
        }
        changed |= (least, parent, mark) != (old.distances[i], old.parents[i], old.marks[i]);
        (new.distances[i], new.parents[i], new.marks[i]) = (least, parent, mark);
    }
    changed
}

fn answer(outcome: Result<[u64; 2], Refusal>) -> Answer {
    match outcome {
        Ok([a, b]) => [0, 0, a, b, 0, 0, 0, 0],
        Err((number, place)) => [number, place as u64, 0, 0, 0, 0, 0, 0],
    }
}

pub fn check(file: &[u8]) -> Answer {
    answer(checked(file).map(|sizes| [sizes.nodes as u64, sizes.links as u64]))
}

/// The part of the area that the file goes to.
fn room(area: &mut [u8], place: usize, length: usize) -> Result<&mut [u8], Refusal> {
    if place > area.len() || area.len() - place < length {
        return Err((9, 0));
    }
    Ok(&mut area[place..place + length])
}

pub fn run(file: &[u8], count: u32, area: &mut [u8], place: usize) -> Answer {
    answer(run_outcome(file, count, area, place))
}

fn run_outcome(file: &[u8], count: u32, area: &mut [u8], place: usize) -> Result<[u64; 2], Refusal> {
    let sizes = checked(file)?;
    if count > MOST_ROUNDS {
        return Err((10, 0));
    }
    let part = room(area, place, file.len())?;
    let (park, mut now) = taken(file, &sizes);
    let links = &park.links[..park.links_len];
    let mut next = now.clone();
    let mut done = 0;
    let mut changed = round(&park, links, &now, &mut next);
    while changed && done < count {
        std::mem::swap(&mut now, &mut next);
        done += 1;
        changed = round(&park, links, &now, &mut next);
    }
    if count == MOST_ROUNDS && changed {
        return Err((11, 0));
    }
    put(file, &now, sizes.nodes, part);
    Ok([done.into(), (!changed).into()])
}

pub fn exact(file: &[u8], area: &mut [u8], place: usize) -> Answer {
    answer(exact_outcome(file, area, place))
}

fn exact_outcome(file: &[u8], area: &mut [u8], place: usize) -> Result<[u64; 2], Refusal> {
    let sizes = checked(file)?;
    let part = room(area, place, file.len())?;
    let (park, mut state) = taken(file, &sizes);
    let links = &park.links[..park.links_len];
    let order = settle(&park, links, &mut state.distances);
    let settled = state.clone();
    for i in 0..park.nodes {
        let node = i as u16 + 1;
        let (_, parent) = search(links, node, &settled, &mut 0);
        let has_one = node != park.root && settled.distances[i] < CEILING;
        state.parents[i] = if has_one { parent } else { 0 };
        state.marks[i] = member(&park.group, i);
    }
    // From the farthest to the nearest, each hands its mark to its parent.
    for &i in order[..park.nodes].iter().rev() {
        let parent = state.parents[i as usize] as usize;
        if parent != 0 && state.marks[i as usize] != 0 {
            state.marks[parent - 1] = 1;
        }
    }
    put(file, &state, sizes.nodes, part);
    Ok([0, 0])
}

/// Exact distances in cost units; the indices of all nodes from the nearest to the farthest.
fn settle(park: &Park, links: &[Link], distances: &mut [u32; 256]) -> [u8; 256] {
    let mut order = [0; 256];
    let mut open = [true; 256];
    distances[..park.nodes].fill(CEILING);
    distances[park.root as usize - 1] = 0;
    for turn in 0..park.nodes {
        let mut nearest = park.nodes;
        for i in 0..park.nodes {
            if open[i] && (nearest == park.nodes || distances[i] < distances[nearest]) {
                nearest = i;
            }
        }
        open[nearest] = false;
        order[turn] = nearest as u8;
        offer(links, nearest, distances);
    }
    order
}

/// Offers a settled node's distance over each of its links.
fn offer(links: &[Link], i: usize, distances: &mut [u32; 256]) {
    let node = i as u16 + 1;
    for link in links {
        if let Some(to) = other_end(link, node) {
            let sum = (distances[i] + u32::from(link.cost)).min(CEILING);
            let j = to as usize - 1;
            if sum < distances[j] {
                distances[j] = sum;
            }
        }
    }
}
