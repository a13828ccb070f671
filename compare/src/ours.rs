//! A safe wrapper over `include/chandvreksh.h`: slices in, answer and lent area out. Units, answers
//! and refusals are the header's. The library is built for x86-64 and this program for whatever
//! machine it is on, so a child process makes the calls: `serve.c`, which says how it is asked.

use crate::numbers::{Answer, Numbers};
use std::cell::RefCell;
use std::io::{Read, Result, Write};
use std::ops::Range;
use std::process::{Child, Command, Stdio};

/// What `serve.c` puts on both sides of the answer.
const UNWRITTEN: u64 = 0xA5A5_5A5A_A5A5_5A5A;

/// A lent area: a part of a buffer whose other bytes are guards. The call sees the area alone.
pub struct Area<'a> {
    pub buffer: &'a mut [u8],
    pub lent: Range<usize>,
}

thread_local! {
    static SERVER: RefCell<Child> = RefCell::new(start().expect("`serve` stands beside this program"));
}

fn start() -> Result<Child> {
    let serve = std::env::current_exe()?.with_file_name("serve");
    Command::new(serve).stdin(Stdio::piped()).stdout(Stdio::piped()).spawn()
}

/// Sends a request; reads the answer between its guards, and the buffer after the call.
fn exchange(server: &mut Child, request: &[u8], slots: &mut [u8], buffer: &mut [u8]) -> Result<()> {
    if let (Some(to), Some(from)) = (&mut server.stdin, &mut server.stdout) {
        to.write_all(request)?;
        from.read_exact(slots)?;
        from.read_exact(buffer)?;
    }
    Ok(())
}

/// A request as `serve.c` reads it.
struct Request(Vec<u8>);

impl Request {
    fn new(call: u64) -> Request {
        Request(Vec::new()).number(call)
    }

    fn number(mut self, number: u64) -> Request {
        self.0.extend(number.to_le_bytes());
        self
    }

    fn bytes(self, slice: &[u8]) -> Request {
        let mut request = self.number(slice.len() as u64);
        request.0.extend(slice);
        request
    }

    fn slice<T: Copy, const WIDTH: usize>(self, slice: &[T], bytes: fn(T) -> [u8; WIDTH]) -> Request {
        let mut request = self.number(slice.len() as u64);
        request.0.extend(slice.iter().flat_map(|&element| bytes(element)));
        request
    }

    fn answer(self) -> Answer {
        self.answer_and_buffer(&mut [])
    }

    fn answer_with(self, area: Area, place: usize) -> Answer {
        let request = self.bytes(area.buffer).number(area.lent.start as u64).number(area.lent.len() as u64);
        request.number(place as u64).answer_and_buffer(area.buffer)
    }

    fn answer_and_buffer(self, buffer: &mut [u8]) -> Answer {
        let mut slots = [0; 80];
        SERVER.with(|server| {
            let server = &mut *server.borrow_mut();
            if let Err(error) = exchange(server, &self.0, &mut slots, buffer) {
                panic!("no answer: {error}; the server ended: {:?}", server.wait());
            }
        });
        let slot = |i: usize| u64::from_le_bytes(std::array::from_fn(|byte| slots[8 * i + byte]));
        assert!(slot(0) == UNWRITTEN && slot(9) == UNWRITTEN, "a call wrote beside its answer");
        std::array::from_fn(|i| slot(i + 1))
    }
}

pub fn check(file: &[u8]) -> Answer {
    Request::new(0).bytes(file).answer()
}

pub fn run(file: &[u8], count: u32, area: Area, place: usize) -> Answer {
    Request::new(1).bytes(file).number(count.into()).answer_with(area, place)
}

pub fn exact(file: &[u8], area: Area, place: usize) -> Answer {
    Request::new(2).bytes(file).answer_with(area, place)
}

pub fn write(park: &Numbers, area: Area, place: usize) -> Answer {
    let request = Request::new(3).number(park.nodes.into()).number(park.root.into());
    let request = request.slice(park.links, u16::to_le_bytes).bytes(park.group);
    let request = request.slice(park.distances, u32::to_le_bytes).slice(park.parents, u16::to_le_bytes);
    request.bytes(park.marks).answer_with(area, place)
}

pub fn right(file: &[u8]) -> Answer {
    Request::new(4).bytes(file).answer()
}

pub fn way(file: &[u8], node: u16) -> Answer {
    Request::new(5).bytes(file).number(node.into()).answer()
}

pub fn summary(file: &[u8]) -> Answer {
    Request::new(6).bytes(file).answer()
}
