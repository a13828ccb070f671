//! Puts one input to both sides and compares the answers and every byte of the lent area, with the
//! guard bytes around it. The first difference is printed and ends the program.

use crate::numbers::{Answer, Numbers};
use crate::parks::Rng;
use crate::{independent, ours};

/// Guard bytes on each side of the lent area.
const GUARD: usize = 64;

/// A lent area: its length, and where in it the file is to start, in bytes.
#[derive(Clone, Copy, Debug)]
pub struct Lent {
    pub len: usize,
    pub place: usize,
}

impl Lent {
    /// An area that is as long as the file.
    pub fn exactly(len: usize) -> Lent {
        Lent { len, place: 0 }
    }
}

/// One call with its arguments; a count is in rounds.
#[derive(Clone, Copy)]
pub enum Ask<'a> {
    Check(&'a [u8]),
    Run(&'a [u8], u32, Lent),
    Exact(&'a [u8], Lent),
    Write(Numbers<'a>, Lent),
    Right(&'a [u8]),
    Way(&'a [u8], u16),
    Summary(&'a [u8]),
}

const NAMES: [&str; 7] = ["check", "run", "exact", "write", "right", "way", "summary"];

impl Ask<'_> {
    /// The call's index in `NAMES`.
    fn call(&self) -> usize {
        match self {
            Ask::Check(_) => 0,
            Ask::Run(..) => 1,
            Ask::Exact(..) => 2,
            Ask::Write(..) => 3,
            Ask::Right(_) => 4,
            Ask::Way(..) => 5,
            Ask::Summary(_) => 6,
        }
    }

    fn lent(&self) -> Lent {
        match *self {
            Ask::Run(_, _, lent) | Ask::Exact(_, lent) | Ask::Write(_, lent) => lent,
            _ => Lent::exactly(0),
        }
    }

    /// The arguments other than the file, for the report of a difference.
    fn arguments(&self) -> String {
        match self {
            Ask::Run(_, count, lent) => format!("count {count} rounds, {lent:?} bytes"),
            Ask::Exact(_, lent) => format!("{lent:?} bytes"),
            Ask::Write(park, lent) => format!(
                "nodes {} root {} lengths: links {} group {} distances {} parents {} marks {}, {lent:?} bytes",
                park.nodes, park.root, park.links.len(), park.group.len(),
                park.distances.len(), park.parents.len(), park.marks.len(),
            ),
            Ask::Way(_, node) => format!("node {node}"),
            _ => String::new(),
        }
    }

    /// The file offered; for Write the one that the numbers would make.
    fn file(&self) -> Vec<u8> {
        match self {
            Ask::Check(file) | Ask::Right(file) | Ask::Summary(file) => file.to_vec(),
            Ask::Run(file, ..) | Ask::Exact(file, _) | Ask::Way(file, _) => file.to_vec(),
            Ask::Write(park, _) => independent::encode(park),
        }
    }
}

/// The same call of one side or the other.
macro_rules! put {
    ($side:ident, $ask:expr, $area:expr) => {
        match $ask {
            Ask::Check(file) => $side::check(file),
            Ask::Run(file, count, lent) => $side::run(file, *count, $area, lent.place),
            Ask::Exact(file, lent) => $side::exact(file, $area, lent.place),
            Ask::Write(park, lent) => $side::write(park, $area, lent.place),
            Ask::Right(file) => $side::right(file),
            Ask::Way(file, node) => $side::way(file, *node),
            Ask::Summary(file) => $side::summary(file),
        }
    };
}

/// Counts the inputs and remembers what they met.
pub struct Harness {
    seed: u64,
    inputs: u64,
    /// Fills areas and guards; apart from the numbers that make the inputs.
    filler: Rng,
    calls: [u64; 7],
    /// Inputs by refusal number, 0 for none.
    refusals: [u64; 13],
    /// Inputs without refusal by quiet (0 or 1), right (0 or 1) and the way's outcome (0 to 2).
    outcomes: [[u64; 3]; 3],
}

impl Harness {
    pub fn new(seed: u64) -> Harness {
        Harness {
            seed,
            inputs: 0,
            filler: Rng::new(!seed),
            calls: [0; 7],
            refusals: [0; 13],
            outcomes: [[0; 3]; 3],
        }
    }

    pub fn inputs(&self) -> u64 {
        self.inputs
    }

    /// Puts the input to both; the answer and the lent area that both gave.
    pub fn same(&mut self, ask: Ask) -> (Answer, Vec<u8>) {
        self.inputs += 1;
        let lent = GUARD..GUARD + ask.lent().len;
        let mut by_ours = self.filler.bytes(lent.end + GUARD);
        let mut by_independent = by_ours.clone();
        let area = ours::Area { buffer: &mut by_ours, lent: lent.clone() };
        let ours = put!(ours, &ask, area);
        let independent = put!(independent, &ask, &mut by_independent[lent.clone()]);
        if ours != independent || by_ours != by_independent {
            self.report(&ask, "the two differ", ours, independent);
            if let Some(at) = (0..by_ours.len()).find(|&i| by_ours[i] != by_independent[i]) {
                let place = at as i64 - GUARD as i64;
                println!("area     ours {} independent {} at byte {place}", by_ours[at], by_independent[at]);
            }
            self.fail();
        }
        self.note(&ask, &ours);
        (ours, by_ours[lent].to_vec())
    }

    fn note(&mut self, ask: &Ask, answer: &Answer) {
        self.calls[ask.call()] += 1;
        self.refusals[answer[0] as usize] += 1;
        let (kind, value) = match ask {
            Ask::Run(..) => (0, answer[3]),
            Ask::Right(_) => (1, answer[2]),
            Ask::Way(..) => (2, answer[3]),
            _ => return,
        };
        if answer[0] == 0 {
            self.outcomes[kind][value as usize] += 1;
        }
    }

    /// As `same`, where document 01 says what the answer is.
    pub fn expect(&mut self, name: &str, ask: Ask, expected: Answer) -> Vec<u8> {
        let (answer, area) = self.same(ask);
        if answer != expected {
            self.report(&ask, name, answer, expected);
            println!("here `independent` is what document 01 expects");
            self.fail();
        }
        area
    }

    /// A fact that document 01 states about a case.
    pub fn hold(&mut self, name: &str, fact: bool) {
        if !fact {
            println!("case {name}: not as document 01 says, seed {} input {}", self.seed, self.inputs);
            self.fail();
        }
    }

    fn report(&self, ask: &Ask, what: &str, ours: Answer, independent: Answer) {
        println!("seed {} input {}: {}", self.seed, self.inputs, what);
        println!("call     {} {}", NAMES[ask.call()], ask.arguments());
        println!("ours        {ours:?}");
        println!("independent {independent:?}");
        let file = ask.file();
        let hex: Vec<String> = file.iter().take(400).map(|byte| format!("{byte:02x}")).collect();
        println!("file     {} bytes: {}", file.len(), hex.concat());
    }

    fn fail(&self) -> ! {
        println!("{} passed, 1 failed", self.inputs - 1);
        std::process::exit(1)
    }

    /// What the inputs met, then the count.
    pub fn finish(&self) {
        let calls = NAMES.iter().zip(self.calls).map(|(name, count)| format!(" {name} {count}"));
        println!("inputs by call:{}", calls.collect::<String>());
        let refusals = self.refusals.iter().enumerate().map(|(number, count)| format!(" {number}: {count}"));
        println!("inputs by refusal, 0 for none:{}", refusals.collect::<String>());
        let [run, right, way] = self.outcomes;
        println!("run: quiet {}, not {}; right: yes {}, no {};", run[1], run[0], right[1], right[0]);
        println!("way: reached {}, broken {}, looping {}", way[0], way[1], way[2]);
        println!("{} passed, 0 failed", self.inputs);
    }
}

/// A server that dies, or writes beside the answer, ends this program too: says at which input.
impl Drop for Harness {
    fn drop(&mut self) {
        if std::thread::panicking() {
            println!("seed {} input {}: no answer to compare", self.seed, self.inputs);
            println!("{} passed, 1 failed", self.inputs - 1);
        }
    }
}
