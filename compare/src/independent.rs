//! Document 01 once more, written from the document alone: the seven calls over byte files, with
//! every refusal in its order. It differs from the library where it can: a round is one pass over
//! the links, the exact table comes from a queue, marks from walking each member's way.

use crate::numbers::{Answer, Numbers};
use std::cmp::Reverse;
use std::collections::BinaryHeap;

/// "No path", in cost units.
const CEILING: u32 = 16_777_215;
/// The largest count, in rounds.
const MOST_ROUNDS: u32 = 16_777_217;
/// The length of the group field, in bytes.
const GROUP_LEN: usize = 32;

/// Number and place in bytes.
struct Refusal(u64, usize);

/// A call's own values, or its refusal.
type Outcome = Result<[u64; 3], Refusal>;

#[derive(Clone, Copy)]
struct Link {
    lower: u16,
    higher: u16,
    /// In cost units.
    cost: u16,
}

#[derive(Clone, Copy, PartialEq)]
struct Cell {
    /// In cost units.
    distance: u32,
    parent: u16,
    mark: u8,
}

struct Park {
    nodes: u16,
    root: u16,
    links: Vec<Link>,
    group: [u8; GROUP_LEN],
    state: Vec<Cell>,
}

fn number16(bytes: &[u8]) -> u16 {
    u16::from_be_bytes([bytes[0], bytes[1]])
}

/// One field that starts at `place`: its body, after head, tag, length and end are accepted.
fn field(file: &[u8], place: usize, tag: u8, fits: impl Fn(usize) -> bool) -> Result<&[u8], Refusal> {
    let rest = &file[place..];
    if rest.len() < 3 {
        return Err(Refusal(1, place));
    }
    if rest[0] != tag {
        return Err(Refusal(2, place));
    }
    let length = number16(&rest[1..]) as usize;
    if !fits(length) {
        return Err(Refusal(3, place));
    }
    rest.get(3..3 + length).ok_or(Refusal(1, place))
}

fn head_numbers(nodes: u16, root: u16) -> Result<(), Refusal> {
    let good = (1..=256).contains(&nodes) && (1..=nodes).contains(&root);
    if good {
        Ok(())
    } else {
        Err(Refusal(4, 0))
    }
}

/// Links as stored from byte `start` on: 5 before 6 in each.
fn link_numbers(nodes: u16, links: &[Link], start: usize) -> Result<(), Refusal> {
    for (i, link) in links.iter().enumerate() {
        let place = start + 6 * i;
        let ends = 1 <= link.lower && link.lower < link.higher && link.higher <= nodes;
        if !ends || link.cost == 0 {
            return Err(Refusal(5, place));
        }
        if i > 0 && (links[i - 1].lower, links[i - 1].higher) >= (link.lower, link.higher) {
            return Err(Refusal(6, place));
        }
    }
    Ok(())
}

fn in_group(group: &[u8], node: u16) -> bool {
    let bit = usize::from(node) - 1;
    group[bit / 8] >> (bit % 8) & 1 == 1
}

fn group_bits(nodes: u16, group: &[u8], place: usize) -> Result<(), Refusal> {
    match (nodes + 1..=256).any(|node| in_group(group, node)) {
        true => Err(Refusal(7, place)),
        false => Ok(()),
    }
}

fn read(file: &[u8]) -> Result<Park, Refusal> {
    let head = field(file, 0, 1, |length| length == 4)?;
    let (nodes, root) = (number16(head), number16(&head[2..]));
    head_numbers(nodes, root)?;

    let body = field(file, 7, 2, |length| length % 6 == 0 && length <= 6144)?;
    let link = |b: &[u8]| Link { lower: number16(b), higher: number16(&b[2..]), cost: number16(&b[4..]) };
    let links: Vec<Link> = body.chunks(6).map(link).collect();
    link_numbers(nodes, &links, 10)?;

    let group_place = 10 + body.len();
    let bits = field(file, group_place, 3, |length| length == GROUP_LEN)?;
    group_bits(nodes, bits, group_place)?;
    let mut group = [0; GROUP_LEN];
    group.copy_from_slice(bits);

    let state_place = group_place + 3 + GROUP_LEN;
    let body = field(file, state_place, 4, |length| length == 7 * usize::from(nodes))?;
    let cell = |b: &[u8]| Cell {
        distance: u32::from_be_bytes([b[0], b[1], b[2], b[3]]),
        parent: number16(&b[4..]),
        mark: b[6],
    };
    let state = body.chunks(7).map(cell).collect();

    let end = state_place + 3 + body.len();
    if file.len() > end {
        return Err(Refusal(8, end));
    }
    Ok(Park { nodes, root, links, group, state })
}

/// The file with another state: all that comes before the state stays as it was read.
fn with_state(file: &[u8], state: &[Cell]) -> Vec<u8> {
    let mut new = file[..file.len() - 7 * state.len()].to_vec();
    for cell in state {
        new.extend(cell.distance.to_be_bytes());
        new.extend(cell.parent.to_be_bytes());
        new.push(cell.mark);
    }
    new
}

/// Where `length` bytes from `place` on lie in the area.
fn room(area: &[u8], place: usize, length: usize) -> Result<std::ops::Range<usize>, Refusal> {
    match place.checked_add(length) {
        Some(end) if end <= area.len() => Ok(place..end),
        _ => Err(Refusal(9, 0)),
    }
}

/// What `node` hears from its neighbour `from` over a link.
fn hear(node: u16, from: u16, cost: u16, old: &[Cell], new: &mut [Cell]) {
    let heard = old[usize::from(from) - 1];
    let cell = &mut new[usize::from(node) - 1];
    let offer = (heard.distance.min(CEILING) + u32::from(cost)).min(CEILING);
    let lower_tie = offer == cell.distance && offer < CEILING && from < cell.parent;
    if offer < cell.distance || lower_tie {
        cell.distance = offer;
        cell.parent = from;
    }
    if heard.parent == node && heard.mark != 0 {
        cell.mark = 1;
    }
}

/// One round from `old` into `new`, all nodes together.
fn round(park: &Park, old: &[Cell], new: &mut [Cell]) {
    for (cell, node) in new.iter_mut().zip(1..) {
        *cell = Cell { distance: CEILING, parent: 0, mark: in_group(&park.group, node).into() };
    }
    for link in &park.links {
        hear(link.lower, link.higher, link.cost, old, new);
        hear(link.higher, link.lower, link.cost, old, new);
    }
    let root = &mut new[usize::from(park.root) - 1];
    root.distance = 0;
    root.parent = 0;
}

/// Each node's neighbours with the link's cost in cost units; index 0 is no node.
fn neighbours(park: &Park) -> Vec<Vec<(u16, u32)>> {
    let mut of = vec![Vec::new(); usize::from(park.nodes) + 1];
    for link in &park.links {
        of[usize::from(link.lower)].push((link.higher, u32::from(link.cost)));
        of[usize::from(link.higher)].push((link.lower, u32::from(link.cost)));
    }
    of
}

/// Exact distances in cost units; index 0 is no node.
fn exact_distances(park: &Park, of: &[Vec<(u16, u32)>]) -> Vec<u32> {
    let mut distance = vec![CEILING; of.len()];
    let mut queue = BinaryHeap::from([Reverse((0, park.root))]);
    distance[usize::from(park.root)] = 0;
    while let Some(Reverse((reached, node))) = queue.pop() {
        if reached > distance[usize::from(node)] {
            continue;
        }
        for &(next, cost) in &of[usize::from(node)] {
            if reached + cost < distance[usize::from(next)] {
                distance[usize::from(next)] = reached + cost;
                queue.push(Reverse((reached + cost, next)));
            }
        }
    }
    distance
}

fn exact_table(park: &Park) -> Vec<Cell> {
    let of = neighbours(park);
    let distance = exact_distances(park, &of);
    let parent = |node: usize| {
        let gives = |&&(from, cost): &&(u16, u32)| distance[usize::from(from)] + cost == distance[node];
        let has_one = node != usize::from(park.root) && distance[node] < CEILING;
        let lowest = of[node].iter().filter(gives).map(|&(from, _)| from).min();
        if has_one {
            lowest.unwrap_or(0)
        } else {
            0
        }
    };
    let mut table: Vec<Cell> =
        (1..of.len()).map(|node| Cell { distance: distance[node], parent: parent(node), mark: 0 }).collect();
    for member in (1..=park.nodes).filter(|&node| in_group(&park.group, node)) {
        let mut node = member;
        while node != 0 {
            table[usize::from(node) - 1].mark = 1;
            node = table[usize::from(node) - 1].parent;
        }
    }
    table
}

fn answer(outcome: Outcome) -> Answer {
    match outcome {
        Ok([a, b, c]) => [0, 0, a, b, c, 0, 0, 0],
        Err(Refusal(number, place)) => [number, place as u64, 0, 0, 0, 0, 0, 0],
    }
}

pub fn check(file: &[u8]) -> Answer {
    answer(read(file).map(|park| [park.nodes.into(), park.links.len() as u64, 0]))
}

pub fn run(file: &[u8], count: u32, area: &mut [u8], place: usize) -> Answer {
    answer(run_outcome(file, count, area, place))
}

fn run_outcome(file: &[u8], count: u32, area: &mut [u8], place: usize) -> Outcome {
    let park = read(file)?;
    if count > MOST_ROUNDS {
        return Err(Refusal(10, 0));
    }
    let part = room(area, place, file.len())?;
    let mut now = park.state.clone();
    let mut next = now.clone();
    let mut done = 0;
    round(&park, &now, &mut next);
    while done < count && next != now {
        std::mem::swap(&mut now, &mut next);
        done += 1;
        round(&park, &now, &mut next);
    }
    let quiet = next == now;
    if count == MOST_ROUNDS && !quiet {
        return Err(Refusal(11, 0));
    }
    area[part].copy_from_slice(&with_state(file, &now));
    Ok([done.into(), quiet.into(), 0])
}

pub fn exact(file: &[u8], area: &mut [u8], place: usize) -> Answer {
    answer(exact_outcome(file, area, place))
}

fn exact_outcome(file: &[u8], area: &mut [u8], place: usize) -> Outcome {
    let park = read(file)?;
    let part = room(area, place, file.len())?;
    area[part].copy_from_slice(&with_state(file, &exact_table(&park)));
    Ok([0, 0, 0])
}

pub fn write(park: &Numbers, area: &mut [u8], place: usize) -> Answer {
    answer(write_outcome(park, area, place))
}

fn write_outcome(park: &Numbers, area: &mut [u8], place: usize) -> Outcome {
    head_numbers(park.nodes, park.root)?;
    if park.links.len() % 3 != 0 || park.links.len() > 3072 {
        return Err(Refusal(3, 7));
    }
    let link = |l: &[u16]| Link { lower: l[0], higher: l[1], cost: l[2] };
    let links: Vec<Link> = park.links.chunks(3).map(link).collect();
    link_numbers(park.nodes, &links, 10)?;
    let group_place = 10 + 6 * links.len();
    if park.group.len() != GROUP_LEN {
        return Err(Refusal(3, group_place));
    }
    group_bits(park.nodes, park.group, group_place)?;
    let lengths = [park.distances.len(), park.parents.len(), park.marks.len()];
    if lengths != [usize::from(park.nodes); 3] {
        return Err(Refusal(3, group_place + 3 + GROUP_LEN));
    }
    let file = encode(park);
    let part = room(area, place, file.len())?;
    area[part].copy_from_slice(&file);
    Ok([0, 0, 0])
}

/// The bytes that the numbers make, be they a park or not; lengths wrap at 16 bits.
pub fn encode(park: &Numbers) -> Vec<u8> {
    let mut file = Vec::new();
    let mut open = |tag: u8, body: Vec<u8>| {
        file.push(tag);
        file.extend((body.len() as u16).to_be_bytes());
        file.extend(body);
    };
    open(1, [park.nodes.to_be_bytes(), park.root.to_be_bytes()].concat());
    open(2, park.links.iter().flat_map(|number| number.to_be_bytes()).collect());
    open(3, park.group.to_vec());
    let cells = park.distances.iter().zip(park.parents).zip(park.marks);
    let bytes = cells.flat_map(|((distance, parent), &mark)| {
        let (d, p) = (distance.to_be_bytes(), parent.to_be_bytes());
        [d[0], d[1], d[2], d[3], p[0], p[1], mark]
    });
    open(4, bytes.collect());
    file
}

pub fn right(file: &[u8]) -> Answer {
    answer(read(file).map(|park| [(exact_table(&park) == park.state).into(), 0, 0]))
}

pub fn way(file: &[u8], node: u16) -> Answer {
    answer(way_outcome(file, node))
}

fn way_outcome(file: &[u8], node: u16) -> Outcome {
    let park = read(file)?;
    if !(1..=park.nodes).contains(&node) {
        return Err(Refusal(12, 0));
    }
    let of = neighbours(&park);
    let mut met = node;
    for hops in 0..=park.nodes {
        if met == park.root {
            return Ok([node.into(), 0, hops.into()]);
        }
        let parent = park.state[usize::from(met) - 1].parent;
        if !of[usize::from(met)].iter().any(|&(neighbour, _)| neighbour == parent) {
            return Ok([node.into(), 1, met.into()]);
        }
        met = parent;
    }
    Ok([node.into(), 2, 0])
}

pub fn summary(file: &[u8]) -> Answer {
    answer(read(file).map(|park| {
        let count = |holds: &dyn Fn(u16, bool) -> bool| {
            let nodes = (1..=park.nodes).zip(&park.state);
            nodes.filter(|(node, cell)| holds(*node, cell.mark != 0)).count() as u64
        };
        let member = |node| in_group(&park.group, node);
        [count(&|node, _| member(node)), count(&|_, set| set), count(&|node, set| set && member(node))]
    }))
}
