//! The cases of document 01 as fixed inputs: both sides must give what the document says.

use crate::harness::{Ask, Harness, Lent};
use crate::parks::{cells, Made, CEILING, MOST_ROUNDS};

/// An answer without refusal.
fn done(values: [u64; 3]) -> [u64; 8] {
    [0, 0, values[0], values[1], values[2], 0, 0, 0]
}

/// A refusal, its place in bytes.
fn refused(number: u64, place: u64) -> [u64; 8] {
    [number, place, 0, 0, 0, 0, 0, 0]
}

pub fn all(h: &mut Harness) {
    case_a(h);
    case_b(h);
    cases_c_d(h);
    case_e(h);
    case_f_l(h);
    cases_g_to_k(h);
    longest_run(h);
}

/// Runs `count` rounds and expects `rounds` of them and `quiet`; the new file.
fn run(h: &mut Harness, name: &str, file: &[u8], count: u32, rounds: u64, quiet: u64) -> Vec<u8> {
    h.expect(name, Ask::Run(file, count, Lent::exactly(file.len())), done([rounds, quiet, 0]))
}

fn case_a(h: &mut Harness) {
    let park = Made::new(3, 1, &[[1, 2, 10], [2, 3, 1]], &[3]);
    let file = park.file();
    h.hold("A, 81 bytes", file.len() == 81);
    h.expect("A, check", Ask::Check(&file), done([3, 2, 0]));
    let written = h.expect("A, write", Ask::Write(park.numbers(), Lent::exactly(81)), done([0; 3]));
    h.hold("A, written", written == file);
    let first = run(h, "A, round 1", &file, 1, 1, 0);
    h.hold("A, round 1", cells(&first, 3) == [(0, 0, 0), (1, 3, 0), (1, 2, 1)]);
    let tenth = cells(&run(h, "A, round 10", &file, 10, 10, 0), 3);
    h.hold("A, round 10", [tenth[0].0, tenth[1].0, tenth[2].0] == [0, 10, 10] && tenth[1].1 == 1);
    let last = run(h, "A, quiet", &file, MOST_ROUNDS, 11, 1);
    for (from, count, rounds, quiet, to) in
        [(&file, 11, 11, 1, &last), (&file, 0, 0, 0, &file), (&last, 0, 0, 1, &last)]
    {
        let new = run(h, "A, counts 11 and 0", from, count, rounds, quiet);
        h.hold("A, counts 11 and 0", new == *to);
    }
    h.hold("A, settled", cells(&last, 3) == [(0, 0, 1), (10, 1, 1), (11, 2, 1)]);
    h.expect("A, right", Ask::Right(&last), done([1, 0, 0]));
    h.expect("A, not right", Ask::Right(&first), done([0, 0, 0]));
    h.expect("A, summary", Ask::Summary(&last), done([1, 3, 1]));
    h.expect("A1, looping", Ask::Way(&first, 3), done([3, 2, 0]));
    h.expect("A1, reached", Ask::Way(&last, 3), done([3, 0, 2]));
}

fn case_b(h: &mut Harness) {
    let file = Made::new(3, 3, &[[1, 2, 1], [2, 3, 10]], &[1]).file();
    for (count, parent, mark) in [(10, 1, 0), (11, 3, 0)] {
        let after = cells(&run(h, "B", &file, count, count.into(), 0), 3);
        h.hold("B, parent of 2", after[1].1 == parent && after[2].2 == mark);
    }
    let last = cells(&run(h, "B, quiet", &file, MOST_ROUNDS, 12, 1), 3);
    h.hold("B, root's mark", last[2] == (0, 0, 1));
}

fn cases_c_d(h: &mut Harness) {
    let mut park = Made::new(1, 1, &[], &[]);
    (park.distances, park.parents, park.marks) = (vec![u32::MAX], vec![u16::MAX], vec![u8::MAX]);
    let last = run(h, "C", &park.file(), MOST_ROUNDS, 1, 1);
    h.hold("C", cells(&last, 1) == [(0, 0, 0)]);
    let last = run(h, "D", &Made::new(2, 1, &[], &[2]).file(), MOST_ROUNDS, 1, 1);
    h.hold("D", cells(&last, 2) == [(0, 0, 0), (CEILING, 0, 1)]);
}

fn case_e(h: &mut Harness) {
    let file = Made::new(3, 1, &[[2, 3, 65_535]], &[]).file();
    let after = cells(&run(h, "E, 256 rounds", &file, 256, 256, 0), 3);
    h.hold("E, distances", after[1].0 == 16_776_960 && after[2].0 == 16_776_960);
    let last = cells(&run(h, "E, quiet", &file, MOST_ROUNDS, 257, 1), 3);
    h.hold("E, settled", last == [(0, 0, 0), (CEILING, 0, 0), (CEILING, 0, 0)]);
}

fn case_f_l(h: &mut Harness) {
    let mut file = Made::new(4, 1, &[[1, 2, 5], [1, 3, 5], [2, 4, 2], [3, 4, 2]], &[]).file();
    let length = file.len();
    let table = h.expect("F", Ask::Exact(&file, Lent::exactly(length)), done([0; 3]));
    h.hold("F", cells(&table, 4)[3] == (7, 2, 0));
    h.expect("L, short", Ask::Exact(&file, Lent::exactly(length - 1)), refused(9, 0));
    h.expect("L, short", Ask::Run(&file, 1, Lent::exactly(length - 1)), refused(9, 0));
    run(h, "L, long enough", &file, 1, 1, 0);
    file.push(0);
    h.expect("L, one byte more", Ask::Check(&file), refused(8, length as u64));
}

fn cases_g_to_k(h: &mut Harness) {
    h.expect("G", Ask::Check(&[]), refused(1, 0));
    let link = [[1, 2, 10]];
    let large = Made::new(257, 1, &link, &[]);
    let free = Made::new(3, 1, &[[1, 2, 0]], &[]);
    let twice = Made::new(3, 1, &[link[0], link[0]], &[]);
    for (name, park, expected) in
        [("H", large, refused(4, 0)), ("I", free, refused(5, 10)), ("J", twice, refused(6, 16))]
    {
        h.expect(name, Ask::Check(&park.file()), expected);
        h.expect(name, Ask::Write(park.numbers(), Lent::exactly(9000)), expected);
    }
    let file = Made::new(3, 1, &link, &[]).file();
    h.expect("K", Ask::Run(&file, MOST_ROUNDS + 1, Lent::exactly(file.len())), refused(10, 0));
}

/// The longest wait there is: two nodes without a path count up to the ceiling one by one, and the
/// mark that one gave the other falls a round later.
fn longest_run(h: &mut Harness) {
    let file = Made::new(3, 1, &[[2, 3, 1]], &[2]).file();
    let last = run(h, "longest run", &file, MOST_ROUNDS, 16_777_216, 1);
    h.hold("longest run", cells(&last, 3) == [(0, 0, 0), (CEILING, 0, 1), (CEILING, 0, 0)]);
}
