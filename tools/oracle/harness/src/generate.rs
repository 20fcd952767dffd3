//! Makes the cases: the same ones at every run.

use crate::chip::{Chip, Manner};
use crate::device::{Device, Source};
use crate::edges;
use crate::facts;
use crate::play::Player;
use crate::pure::pure;
use crate::random::Random;
use crate::text::{NAMED_RATES, hex, number, wrong};

pub const LEVELS: [&str; 4] = ["1", "4", "8", "14"];
pub const LENGTHS: [&str; 4] = ["5", "6", "7", "8"];
pub const PARITIES: [&str; 5] = ["disabled", "odd", "even", "forced1", "forced0"];

/// The cases so far.
pub struct Cases {
    pub random: Random,
    text: String,
}

/// A budget word that is not settled yet: at most so many fruitless polls.
pub const OPEN: char = '~';

/// No stored call makes more fruitless polls than this, whatever its budget.
const MOST_POLLS: u32 = 60;

impl Cases {
    fn push(&mut self, line: &str, marks: &[&str]) {
        self.text += line;
        if !marks.is_empty() {
            self.text += &format!(" !{}", marks.join(","));
        }
        self.text.push('\n');
    }

    /// A line without a device.
    pub fn line(&mut self, line: String) {
        let words: Vec<&str> = line.split_whitespace().collect();
        let outcome = pure(&words, false).unwrap_or_else(|| wrong(&format!("needs a device: {line}")));
        self.push(&line, &outcome.marks);
    }

    /// A list of calls on a scripted device. Calls after a cut loopback test are left out.
    pub fn script(&mut self, bytes: &[u8], calls: &[String]) {
        // the device gives 0xFF after the end of its list
        let end = bytes.iter().rposition(|byte| *byte != 0xFF).map_or(0, |place| place + 1);
        let mut player = Player::new(Device::new(Source::Script(bytes[..end].to_vec())));
        let mut lines = Vec::new();
        for call in calls {
            if player.ended {
                break;
            }
            lines.push(play_short(&mut player, call));
        }
        let used = player.given().len();
        self.push(&format!("device {}", hex(&bytes[..end.min(used)])), &[]);
        for (line, marks) in lines {
            self.push(&line, &marks);
        }
    }

    /// Plays calls on a chip; gives the bytes that it gave, and the calls with their budgets settled and
    /// their fruitless polls.
    pub fn record(&mut self, manner: &Manner, calls: &[String]) -> (Vec<u8>, Vec<(String, u32)>) {
        let chip = Chip::new(manner.clone(), &mut self.random);
        let mut player = Player::new(Device::new(Source::Chip(chip)));
        let mut settled = Vec::new();
        for call in calls {
            if player.ended {
                break;
            }
            let plain = call.replace(OPEN, "");
            let words: Vec<&str> = plain.split_whitespace().collect();
            let outcome = player.call(&words);
            let polls = outcome.fruitless.unwrap_or(0);
            if call.contains(OPEN) && !outcome.marks.contains(&"budget") {
                let budget = match self.random.below(20) {
                    0 if polls > 0 => polls - 1,
                    1..=10 => polls,
                    11..=15 => polls + 1,
                    _ => 65535,
                };
                let head = words[..words.len() - 1].join(" ");
                settled.push((format!("{head} {budget}"), polls));
            } else {
                settled.push((plain, polls));
            }
        }
        (player.given().to_vec(), settled)
    }

    /// A list of calls on what a chip gave.
    pub fn list(&mut self, manner: &Manner, calls: &[String]) {
        let (bytes, settled) = self.record(manner, calls);
        let calls: Vec<String> = settled.into_iter().map(|(call, _)| call).collect();
        self.script(&bytes, &calls);
    }

    /// The same list, its last call once with each budget from 0 to what it needs.
    pub fn each_budget(&mut self, manner: &Manner, calls: &[String]) {
        let (bytes, settled) = self.record(manner, calls);
        let mut calls: Vec<String> = settled.iter().map(|(call, _)| call.clone()).collect();
        let (last, polls) = settled[settled.len() - 1].clone();
        let head = last.rsplit_once(' ').map_or(String::new(), |(head, _)| head.to_string());
        for budget in 0..=polls {
            let end = calls.len() - 1;
            calls[end] = format!("{head} {budget}");
            self.script(&bytes, &calls);
        }
    }

    /// An init that can succeed at the usual frequency, with random words otherwise.
    pub fn any_init(&mut self) -> String {
        let random = &mut self.random;
        let rate = NAMED_RATES[random.below(10) as usize].0;
        let level = random.pick(&["-", "1", "4", "8", "14", "14"]);
        let bits = random.pick(&["5", "6", "7", "8", "8"]);
        let stop = random.below(2);
        let parity = random.pick(&PARITIES);
        let ier = random.byte();
        let cts = random.below(2);
        format!("init 1843200 {rate} - {level} {bits} {stop} {parity} {ier:02X} {cts} {OPEN}30")
    }

    fn size(&mut self) -> usize {
        self.random.pick(&[0, 1, 1, 2, 3, 5, 8, 15, 16, 17, 20, 33])
    }

    /// Any call but `init` and the loopback test.
    pub fn any_call(&mut self) -> String {
        const SIMPLE: [&str; 18] = [
            "try_receive",
            "ready_receive",
            "ready_send",
            "connected",
            "present",
            "ier",
            "isr",
            "lcr",
            "mcr",
            "lsr",
            "lsr",
            "msr",
            "msr",
            "spr",
            "dll_dlm",
            "config",
            "fifo",
            "dump",
        ];
        let size = self.size();
        let value = self.random.byte();
        match self.random.below(20) {
            0 | 1 => format!("receive {size}"),
            2 | 3 => format!("send {}", hex(&self.random.bytes(size))),
            4 | 5 => format!("receive_exact {} {OPEN}25", size.min(17)),
            6 | 7 => format!("send_exact {} {OPEN}25", hex(&self.random.bytes(size))),
            8 => format!("try_send {value:02X}"),
            9 => format!("enable {value:02X}"),
            10 => format!("disable {value:02X}"),
            11 if value < 0x20 => format!("raw_read {}", value % 8),
            11 if value < 0x30 => format!("raw_write {} {:02X}", value % 8, self.random.byte()),
            _ => self.random.pick(&SIMPLE).to_string(),
        }
    }

    /// Every call once, `init` and the loopback test last.
    pub fn every_call(&mut self) -> Vec<String> {
        let mut calls: Vec<String> = [
            "config",
            "fifo",
            "ready_receive",
            "ready_send",
            "try_receive",
            "try_send 55",
            "receive 3",
            "send 010203",
            "lsr",
            "connected",
            "msr",
            "receive_exact 2 ~8",
            "send_exact 0A0B0C ~8",
            "enable 05",
            "config",
            "disable 04",
            "ier",
            "isr",
            "lcr",
            "mcr",
            "lsr",
            "msr",
            "spr",
            "dll_dlm",
            "dump",
            "present",
            "raw_read 3",
            "raw_write 7 5A",
        ]
        .map(String::from)
        .to_vec();
        let init = self.any_init();
        calls.push(init);
        calls.push("config".into());
        calls.push("loopback ~8".into());
        calls
    }
}

/// Plays a call; one that needs more polls than are stored is given a smaller budget.
fn play_short(player: &mut Player, call: &str) -> (String, Vec<&'static str>) {
    let waits = ["init ", "loopback ", "receive_exact ", "send_exact "];
    let (head, budget) = match call.rsplit_once(' ') {
        Some((head, budget)) if waits.iter().any(|name| call.starts_with(name)) => (head, number(budget)),
        _ => (call, 0),
    };
    let short = format!("{head} {MOST_POLLS}");
    let played = if budget > MOST_POLLS { &short } else { call };
    let words: Vec<&str> = played.split_whitespace().collect();
    let outcome = player.call(&words);
    let line = if outcome.marks.contains(&"budget") { played } else { call };
    (line.into(), outcome.marks)
}

/// Lists of random calls on devices of random manners.
fn random_lists(cases: &mut Cases) {
    for _ in 0..330 {
        let manner = Manner::any(&mut cases.random);
        let mut calls = Vec::new();
        if cases.random.percent(75) {
            calls.push(cases.any_init());
        }
        for _ in 0..3 + cases.random.below(9) {
            let call = match cases.random.below(25) {
                0 => cases.any_init(),
                1 => "loopback ~12".into(),
                _ => cases.any_call(),
            };
            calls.push(call);
        }
        let (mut bytes, settled) = cases.record(&manner, &calls);
        // some lists end early, so that the last calls see nothing but 0xFF
        if cases.random.percent(15) {
            let end = cases.random.below(bytes.len() as u64 + 1) as usize;
            bytes.truncate(end);
        }
        let calls: Vec<String> = settled.into_iter().map(|(call, _)| call).collect();
        cases.script(&bytes, &calls);
    }
}

/// Lists of random calls over random bytes: any, and such as status registers often show.
fn random_bytes(cases: &mut Cases) {
    const USUAL: [u8; 12] = [0x00, 0x01, 0x20, 0x21, 0x60, 0x60, 0x61, 0x61, 0x63, 0xC1, 0xE1, 0x73];
    for round in 0..150 {
        let number = cases.random.below(60) as usize;
        let bytes: Vec<u8> = if round % 2 == 0 {
            cases.random.bytes(number)
        } else {
            (0..number).map(|_| cases.random.pick(&USUAL)).collect()
        };
        let mut calls = Vec::new();
        for _ in 0..2 + cases.random.below(8) {
            let call = match cases.random.below(12) {
                0 => cases.any_init(),
                1 => "loopback ~12".into(),
                _ => cases.any_call(),
            };
            // a list of bytes comes to its end, so these calls do too
            let budget = cases.random.pick(&["20", "60", "60", "65535"]);
            let open = if call.starts_with("loopback") { "12" } else { budget };
            let head = call.split(OPEN).next().unwrap_or("").to_string();
            calls.push(if call.contains(OPEN) { format!("{head}{open}") } else { call });
        }
        cases.script(&bytes, &calls);
    }
}

pub fn generate() -> String {
    let mut cases = Cases { random: Random::new(16550), text: String::new() };
    facts::facts(&mut cases);
    facts::calculations(&mut cases);
    edges::calls(&mut cases);
    random_lists(&mut cases);
    random_bytes(&mut cases);
    cases.text
}
