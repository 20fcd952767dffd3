//! What is run, and on which bytes.

use crate::seen::Seen;
use crate::{ours, theirs};
use std::hint::black_box;

/// The size of a record that is sent.
const RECORD: usize = 300;
/// Records sent in a run.
const ROUNDS: usize = 800;
/// Characters received in a run: 16 divides this, and 255.
const ROOM: usize = 16 * 255 * 50;
/// Set-ups in a run.
const SET_UPS: usize = 20_000;
/// The rates that they go through in turn.
const RATES: [u32; 8] = [115_200, 57_600, 38_400, 9_600, 4_800, 2_400, 1_200, 300];

#[derive(Clone, Copy, PartialEq, Eq)]
pub enum Side {
    Rust,
    Ours,
}

#[derive(Clone, Copy)]
enum Call {
    /// `receive_bytes` into so many places.
    Receive(usize),
    /// `send_bytes_exact` of a record.
    Send,
    /// `init`.
    Init,
}

pub struct Case {
    pub name: &'static str,
    /// What the names of its runs begin with.
    pub run: &'static str,
    call: Call,
    /// The bytes of the scripted device, or none where the device is the small chip.
    script: Option<Vec<u8>>,
    record: Vec<u8>,
    rates: Vec<u32>,
}

/// The same numbers at every run.
struct Random(u32);

impl Random {
    fn byte(&mut self) -> u8 {
        self.0 ^= self.0 << 13;
        self.0 ^= self.0 >> 17;
        self.0 ^= self.0 << 5;
        (self.0 >> 8) as u8
    }
}

const CALLS: [(&str, &str, Call); 4] = [
    ("receive, 16 places", "receive", Call::Receive(16)),
    ("receive, 255 places", "receive", Call::Receive(255)),
    ("send, 300 bytes", "send", Call::Send),
    ("init", "init", Call::Init),
];

/// The bytes that a call reads: a line status and a character by turns; line status bytes; or what
/// an `init` reads. The line status always shows a character and room, with errors at random.
fn script(call: Call, random: &mut Random) -> Vec<u8> {
    match call {
        Call::Receive(_) => {
            (0..ROOM).flat_map(|_| [random.byte() & 0x1E | 0x61, random.byte()]).collect()
        }
        Call::Send => {
            (0..ROUNDS * RECORD.div_ceil(16)).map(|_| random.byte() & 0x1E | 0x60).collect()
        }
        Call::Init => (0..SET_UPS)
            .flat_map(|_| {
                let old = random.byte();
                [old, 0x42, 0x73, 0xC1, 0x60, random.byte() | 0x40, 0x60, 0xC1, random.byte()]
            })
            .collect(),
    }
}

/// All cases, the scripted ones first.
pub fn all() -> Vec<Case> {
    let mut random = Random(2_463_534_242);
    let record: Vec<u8> = (0..RECORD).map(|_| random.byte()).collect();
    let rates: Vec<u32> = RATES.into_iter().cycle().take(SET_UPS).collect();
    let mut cases = Vec::new();
    for scripted in [true, false] {
        for (name, run, call) in CALLS {
            let script = scripted.then(|| script(call, &mut random));
            cases.push(Case { name, run, call, script, record: record.clone(), rates: rates.clone() });
        }
    }
    cases
}

impl Case {
    /// The name of its device, as the names of runs end.
    pub fn device(&self) -> &'static str {
        if self.script.is_some() { "scripted" } else { "simulated" }
    }

    /// The characters or set-ups of a run.
    pub fn units(&self) -> usize {
        match self.call {
            Call::Receive(_) => ROOM,
            Call::Send => ROUNDS * RECORD,
            Call::Init => SET_UPS,
        }
    }

    /// A buffer for the run.
    pub fn buffer(&self) -> Vec<u8> {
        match self.call {
            Call::Receive(_) => vec![0xA5; ROOM],
            _ => Vec::new(),
        }
    }

    /// One run by one side.
    pub fn play(&self, side: Side, buffer: &mut [u8]) -> Seen {
        let script = black_box(self.script.as_deref());
        match (self.call, side) {
            (Call::Receive(places), Side::Rust) => theirs::receive(script, buffer, black_box(places)),
            (Call::Receive(places), Side::Ours) => ours::receive(script, buffer, black_box(places)),
            (Call::Send, Side::Rust) => theirs::send(script, &self.record, black_box(ROUNDS)),
            (Call::Send, Side::Ours) => ours::send(script, &self.record, black_box(ROUNDS)),
            (Call::Init, Side::Rust) => theirs::init(script, &self.rates),
            (Call::Init, Side::Ours) => ours::init(script, &self.rates),
        }
    }
}
