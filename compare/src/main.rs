//! Compares the library, through its C header, with the independent implementation: the same inputs
//! to both, all seven calls, answers and every byte of the lent area.
//! `compare [SEED [INPUTS]]`; the same seed gives the same inputs. Ends in 'N passed, 0 failed'.

mod cases;
mod damage;
mod harness;
mod independent;
mod numbers;
mod ours;
mod parks;

use harness::{Ask, Harness, Lent};
use parks::{Made, Rng, MOST_ROUNDS};

/// Steps (a node looking at a link) that one run may take, so that all inputs stay quick.
const STEPS: u64 = 4_000_000;
/// Inputs kept for the largest parks, which come last.
const FOR_LARGEST: u64 = 10_000;

fn main() {
    let mut words =
        std::env::args().skip(1).map(|word| word.parse::<u64>().expect("SEED and INPUTS are numbers"));
    let seed = words.next().unwrap_or(1);
    let inputs = words.next().unwrap_or(100_000);
    let mut h = Harness::new(seed);
    let mut rng = Rng::new(seed);
    cases::all(&mut h);
    while h.inputs() < inputs.saturating_sub(FOR_LARGEST) {
        match rng.below(8) {
            0..=2 => whole(&mut h, &mut rng),
            3..=5 => damaged(&mut h, &mut rng),
            6 => no_park(&mut h, &mut rng),
            _ => cut_everywhere(&mut h, &mut rng),
        }
    }
    largest(&mut h, &mut rng);
    while h.inputs() < inputs {
        damaged(&mut h, &mut rng);
    }
    h.finish();
}

/// Rounds that a run of this park may take.
fn affordable(made: &Made) -> u64 {
    STEPS / (u64::from(made.nodes) * (1 + made.links.len() as u64 / 3))
}

/// A count in rounds: 0, small, the largest, beyond; small where the park would run for long.
fn count(rng: &mut Rng, made: &Made) -> u32 {
    let affordable = affordable(made);
    let few = affordable.clamp(1, 300) as usize;
    match rng.below(10) {
        0 => 0,
        1 => 1,
        2 => rng.from_to(0, few) as u32,
        3 => rng.one_of(&[MOST_ROUNDS + 1, MOST_ROUNDS + 2, u32::MAX]),
        _ if parks::rounds_to_quiet(made) > affordable => rng.from_to(0, few) as u32,
        4 => MOST_ROUNDS - 1,
        5 => rng.from_to(0, 2 * few) as u32,
        _ => MOST_ROUNDS,
    }
}

/// An area for a file of `length` bytes: exact, long, short by one, none at all; the place inside,
/// at the end, beyond, or so far that adding the length would wrap.
fn lent(rng: &mut Rng, length: usize) -> Lent {
    let place = rng.one_of(&[0, 1, 7, 50]);
    let end = place + length;
    let (len, place) = match rng.below(16) {
        0 => (end.saturating_sub(1), place),
        1 => (length, length),
        2 => (length, length + rng.from_to(1, 9)),
        3 => (end, usize::MAX - rng.below(3)),
        4 => (end, (usize::MAX - length).wrapping_add(rng.below(3))),
        5 => (0, place),
        6..=10 => (end, place),
        _ => (end + rng.from_to(1, 60), place),
    };
    Lent { len, place }
}

/// A node of the park, now and then one that is none.
fn node(rng: &mut Rng, made: &Made) -> u16 {
    match rng.below(8) {
        0 => rng.one_of(&[0, made.nodes + 1, 257, 65_535]),
        _ => rng.from_to(1, made.nodes.into()) as u16,
    }
}

/// One of the six calls that read a file, with arguments by chance.
fn any_call(h: &mut Harness, rng: &mut Rng, made: &Made, file: &[u8]) -> Option<Vec<u8>> {
    let ask = match rng.below(8) {
        0 => Ask::Check(file),
        1 => Ask::Right(file),
        2 => Ask::Summary(file),
        3 => Ask::Way(file, node(rng, made)),
        4 => Ask::Exact(file, lent(rng, file.len())),
        _ => Ask::Run(file, count(rng, made), lent(rng, file.len())),
    };
    let (answer, area) = h.same(ask);
    match ask {
        Ask::Run(_, _, lent) | Ask::Exact(_, lent) if answer[0] == 0 => {
            Some(area[lent.place..lent.place + file.len()].to_vec())
        }
        _ => None,
    }
}

/// A whole park through every call, then what came of it through some more.
fn whole(h: &mut Harness, rng: &mut Rng) {
    let made = parks::park(rng);
    let mut file = made.file();
    h.same(Ask::Check(&file));
    h.same(Ask::Right(&file));
    h.same(Ask::Summary(&file));
    h.same(Ask::Exact(&file, lent(rng, file.len())));
    h.same(Ask::Write(made.numbers(), lent(rng, file.len())));
    h.same(Ask::Way(&file, node(rng, &made)));
    around_quiet(h, &made, &file);
    for _ in 0..6 {
        if let Some(new) = any_call(h, rng, &made, &file) {
            file = new;
            h.same(Ask::Right(&file));
            h.same(Ask::Way(&file, node(rng, &made)));
        }
    }
}

/// Runs until quiet, then with one round less, as many, and one more.
fn around_quiet(h: &mut Harness, made: &Made, file: &[u8]) {
    if parks::rounds_to_quiet(made) > affordable(made) {
        return;
    }
    let lent = Lent::exactly(file.len());
    let rounds = h.same(Ask::Run(file, MOST_ROUNDS, lent)).0[2] as u32;
    for count in rounds.saturating_sub(1)..=rounds + 1 {
        h.same(Ask::Run(file, count, lent));
    }
}

/// A file with one fault or two, through Check and one other call.
fn damaged(h: &mut Harness, rng: &mut Rng) {
    let made = parks::park(rng);
    let mut file = made.file();
    for _ in 0..rng.from_to(1, 2) {
        damage::file(rng, &made, &mut file);
    }
    h.same(Ask::Check(&file));
    // A fault may leave a park that runs for long, so its own numbers no longer bound a run.
    let lent = lent(rng, file.len());
    h.same(match rng.below(5) {
        0 => Ask::Right(&file),
        1 => Ask::Summary(&file),
        2 => Ask::Way(&file, node(rng, &made)),
        3 => Ask::Exact(&file, lent),
        _ => Ask::Run(&file, rng.one_of(&[0, 1, 3, MOST_ROUNDS + 1, u32::MAX]), lent),
    });
}

/// Numbers with one fault or two, through Write; and the file that they would make, through Check.
fn no_park(h: &mut Harness, rng: &mut Rng) {
    let mut made = parks::park(rng);
    for _ in 0..rng.from_to(1, 2) {
        damage::numbers(rng, &mut made);
    }
    let file = made.file();
    h.same(Ask::Write(made.numbers(), lent(rng, file.len())));
    h.same(Ask::Check(&file));
}

/// A small file cut at every length, each through one call.
fn cut_everywhere(h: &mut Harness, rng: &mut Rng) {
    // Rarely, so that cuts do not crowd out the rest.
    if rng.below(20) > 0 {
        return;
    }
    let made = parks::park(rng);
    let file = made.file();
    for end in 0..file.len().min(400) {
        any_call(h, rng, &made, &file[..end]);
    }
}

/// The largest file: cut at every length, run, settled, and with one link or byte too many.
fn largest(h: &mut Harness, rng: &mut Rng) {
    for costs in [(1, 1), (1, 65_535), (40_000, 65_535), (65_535, 65_535)] {
        let made = parks::full(rng, costs);
        let file = made.file();
        h.same(Ask::Check(&file));
        h.same(Ask::Write(made.numbers(), lent(rng, file.len())));
        let (_, exact) = h.same(Ask::Exact(&file, Lent::exactly(file.len())));
        h.same(Ask::Right(&exact));
        let quick = parks::rounds_to_quiet(&made) < 1000;
        let count = if quick { MOST_ROUNDS } else { 300 };
        let (_, after) = h.same(Ask::Run(&file, count, Lent::exactly(file.len())));
        h.same(Ask::Right(&after));
        (0..=257).for_each(|node| drop(h.same(Ask::Way(&after, node))));
    }
    let made = parks::full(rng, (1, 65_535));
    let file = made.file();
    for end in 0..file.len() {
        h.same(Ask::Check(&file[..end]));
    }
}
