//! Faults for park files and for a park's numbers, one at a time; two calls make two faults at once.
//! A fault may leave a good file: both sides must then agree on that.

use crate::parks::{Made, Rng};

/// Where the four fields of a park's file start, and where it ends, in bytes.
fn fields(made: &Made) -> [usize; 5] {
    let group = 10 + 2 * made.links.len();
    [0, 7, group, group + 35, group + 38 + 7 * usize::from(made.nodes)]
}

/// Writes a 16-bit number, high byte first, as far as the file reaches.
fn put16(file: &mut [u8], place: usize, number: u16) {
    for (byte, new) in file.iter_mut().skip(place).zip(number.to_be_bytes()) {
        *byte = new;
    }
}

/// Puts one fault into a file of the park.
pub fn file(rng: &mut Rng, made: &Made, file: &mut Vec<u8>) {
    let starts = fields(made);
    let start = rng.one_of(&starts[..4]);
    let any = rng.below(file.len() + 1);
    match rng.below(10) {
        0 => file.truncate(any),
        1 => {
            let length = rng.from_to(1, 9);
            file.extend(rng.bytes(length));
        }
        2 | 3 => {
            let place = if rng.below(2) == 0 { any } else { start + rng.below(3) };
            let (old, new) = (file.get(place).copied().unwrap_or(0), rng.next() as u8);
            let byte = rng.one_of(&[new, old.wrapping_add(1), old.wrapping_sub(1)]);
            file.iter_mut().skip(place).take(1).for_each(|at| *at = byte);
        }
        4 => put16(file, rng.one_of(&[3, 5]), head_number(rng, made)),
        5 | 6 => record(rng, made, file),
        7 => {
            let bit = bit_about(rng, made.nodes);
            file.iter_mut().skip(starts[2] + 3 + bit / 8).take(1).for_each(|at| *at |= 1 << (bit % 8));
        }
        8 => length(rng, file, start),
        _ => whole_field(rng, &starts, file),
    }
}

/// A bit of the group, from that of node n on: often the first above n, or the last.
fn bit_about(rng: &mut Rng, nodes: u16) -> usize {
    let last = usize::from(nodes).clamp(1, 256) - 1;
    let any = rng.from_to(last, 255);
    rng.one_of(&[any, (last + 1).min(255), 255])
}

/// A number of nodes, or a root, at or beyond an edge.
fn head_number(rng: &mut Rng, made: &Made) -> u16 {
    rng.one_of(&[0, 1, made.nodes - 1, made.nodes + 1, 255, 256, 257, 512, 65_535])
}

/// Changes a field's length, by little or to one that another field would have.
fn length(rng: &mut Rng, file: &mut [u8], start: usize) {
    let old = match file.get(start + 1..start + 3) {
        Some(bytes) => u16::from_be_bytes([bytes[0], bytes[1]]),
        None => return,
    };
    let by = rng.one_of(&[1, 6, 7, 256]);
    let far = rng.one_of(&[0, 4, 32, 6144, 6145, 6150, 65_535]);
    let new = rng.one_of(&[old.wrapping_add(by), old.wrapping_sub(by), far]);
    put16(file, start + 1, new);
}

/// Changes one link record of the file: an end, the cost, or its order among the others.
fn record(rng: &mut Rng, made: &Made, file: &mut [u8]) {
    let links = made.links.len() / 3;
    if links == 0 {
        return;
    }
    let place = 10 + 6 * rng.below(links);
    let before = 10 + 6 * rng.below(links);
    if file.len() < 10 + 6 * links {
        return;
    }
    match rng.below(5) {
        0 => put16(file, place + 4, 0),
        1 => {
            put16(file, place + rng.one_of(&[0, 2]), rng.one_of(&[0, 1, made.nodes, made.nodes + 1, 65_535]))
        }
        2 => (0..2).for_each(|i| file.swap(place + i, place + 2 + i)),
        3 => file.copy_within(before..before + 4, place),
        _ => (0..6).for_each(|i| file.swap(place + i, before + i)),
    }
}

/// Drops, repeats or moves a whole field, or makes the file all rubbish.
fn whole_field(rng: &mut Rng, starts: &[usize; 5], file: &mut Vec<u8>) {
    let i = rng.below(4);
    let Some(body) = file.get(starts[i]..starts[i + 1]).map(<[u8]>::to_vec) else {
        return;
    };
    match rng.below(4) {
        0 => drop(file.drain(starts[i]..starts[i + 1])),
        1 => drop(file.splice(starts[i]..starts[i], body)),
        2 => {
            file.drain(starts[i]..starts[i + 1]);
            file.extend(body);
        }
        _ => {
            let length = rng.below(120);
            *file = rng.bytes(length);
        }
    }
}

/// Puts one fault into a park's numbers.
pub fn numbers(rng: &mut Rng, made: &mut Made) {
    match rng.below(10) {
        0 => made.root = head_number(rng, made),
        1 => made.nodes = head_number(rng, made).max(1),
        2 => made.nodes = rng.one_of(&[0, 257, 65_535]),
        3 | 4 => link(rng, made),
        5 => {
            let length = rng.one_of(&[made.links.len() + 1, made.links.len() + 2, 3072, 3073, 3075, 9000]);
            grow_links(made, length);
        }
        6 => made.group.resize(rng.one_of(&[0, 1, 31, 33, 64]), 0),
        7 => {
            let bit = bit_about(rng, made.nodes);
            made.group.iter_mut().skip(bit / 8).take(1).for_each(|at| *at |= 1 << (bit % 8));
        }
        _ => {
            let n = usize::from(made.nodes).min(300);
            let length = rng.one_of(&[0, n + 1, n.saturating_sub(1), n]);
            match rng.below(3) {
                0 => made.distances.resize(length, 9),
                1 => made.parents.resize(length, 1),
                _ => made.marks.resize(length, 1),
            }
        }
    }
}

/// Makes the links' numbers as many as asked; those added count up and need make no link.
fn grow_links(made: &mut Made, length: usize) {
    let mut next = made.links.len() as u16;
    made.links.resize_with(length, || {
        next = next.wrapping_add(1);
        next
    });
}

/// Changes one of the links' numbers, or copies one link over another.
fn link(rng: &mut Rng, made: &mut Made) {
    let links = made.links.len() / 3;
    if links == 0 {
        return;
    }
    let (at, from) = (3 * rng.below(links), 3 * rng.below(links));
    match rng.below(4) {
        0 => made.links[at + 2] = 0,
        1 => {
            made.links[at + rng.below(2)] =
                rng.one_of(&[0, 1, made.nodes, made.nodes.wrapping_add(1), 65_535])
        }
        2 => made.links.swap(at, at + 1),
        _ => made.links.copy_within(from..from + 2, at),
    }
}
