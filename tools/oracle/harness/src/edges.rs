//! The lists of calls that are not left to chance.

use crate::chip::Manner;
use crate::generate::{Cases, LENGTHS, PARITIES};
use crate::text::{NAMED_RATES, hex, optional_text};

const SIZES: [usize; 7] = [0, 1, 15, 16, 17, 33, 255];

fn init(frame: &str, budget: &str) -> String {
    format!("init 1843200 Baud9600 - {frame} {budget}")
}

/// Lists of calls for each edge.
pub fn calls(cases: &mut Cases) {
    inits(cases);
    buffers(cases);
    absences(cases);
    status_lines(cases);
    loopbacks(cases);
    line_changes(cases);
    budgets(cases);
}

/// All frames and levels; all prescalers with all named rates.
fn inits(cases: &mut Cases) {
    for level in ["-", "1", "4", "8", "14"] {
        let mut list = Vec::new();
        for bits in LENGTHS {
            for stop in 0..2 {
                for parity in PARITIES {
                    let ier = cases.random.byte();
                    list.push(init(&format!("{level} {bits} {stop} {parity} {ier:02X} 0"), "0"));
                }
            }
            list.push("config".into());
        }
        let manner = Manner { ready: 5, ..Manner::GOOD };
        cases.list(&manner, &list);
    }
    for p in 0..=16 {
        let p = (p < 16).then_some(p);
        let mut list = Vec::new();
        for (name, rate) in NAMED_RATES {
            let step = 16 * (p.unwrap_or(0) + 1) * rate.to_integer();
            let largest = (u32::MAX / step).min(65_535);
            let divisor = 1 + cases.random.below(largest.into()) as u32;
            let p = optional_text(p);
            list.push(format!("init {} {name} {p} 14 8 0 disabled 00 0 0", step * divisor));
        }
        list.push("config".into());
        list.push("dll_dlm".into());
        cases.list(&Manner { ready: 0, ..Manner::GOOD }, &list);
    }
    // stale characters, up to one more than a FIFO holds
    for ready in [0, 30, 60, 80, 90, 100] {
        for level in ["-", "14"] {
            let list = [init(&format!("{level} 8 0 disabled 0F 0"), "~30"), "lsr".into(), "msr".into()];
            cases.list(&Manner { ready, errors: 30, ..Manner::GOOD }, &list);
        }
    }
}

/// Buffers of all sizes, with and without FIFOs.
fn buffers(cases: &mut Cases) {
    for (level, fifo_bits) in [("14", 0xC0), ("-", 0xC0), ("8", 0x00), ("1", 0x40), ("4", 0x80)] {
        let start = init(&format!("{level} 8 0 disabled 00 0"), "0");
        let manner = Manner { fifo_bits, ..Manner::GOOD };
        for size in SIZES {
            let bytes = hex(&cases.random.bytes(size));
            let list = [
                start.clone(),
                "fifo".into(),
                format!("send {bytes}"),
                format!("receive {size}"),
                format!("send_exact {bytes} 0"),
                format!("receive_exact {size} 0"),
            ];
            // an init that finds nothing to discard, then a device that has all that is asked
            let (mut given, _) = cases.record(&Manner { ready: 0, ..manner.clone() }, &list[..1]);
            let (rest, _) = cases.record(&manner, &list[1..]);
            given.extend(rest);
            if size < 255 || level == "14" || level == "-" {
                cases.script(&given, &list);
            }
            let list = [
                start.clone(),
                format!("receive {size}"),
                format!("send {bytes}"),
                "lsr".into(),
                format!("send_exact {} ~20", hex(&cases.random.bytes(size.min(17)))),
                format!("receive_exact {} ~20", size.min(17)),
            ];
            cases.list(&Manner { ready: 85, room: 60, errors: 20, ..manner.clone() }, &list);
        }
    }
}

/// A device that is not there; calls before any init, and after a refused one.
fn absences(cases: &mut Cases) {
    for keeps in [[false, false], [false, true], [true, false], [true, true]] {
        for level in ["-", "14"] {
            let manner = Manner { keeps, ready: 50, errors: 20, ..Manner::GOOD };
            let list =
                ["lsr", "present", "ready_send", "INIT", "config", "fifo", "send 010203", "lsr", "msr", "present"];
            let start = init(&format!("{level} 6 1 even 03 1"), "~5");
            let list = list.map(|call| if call == "INIT" { start.clone() } else { call.into() });
            cases.list(&manner, &list);
        }
    }
    let manners = [
        Manner::GOOD,
        Manner { ready: 0, room: 0, cts: 0, dsr: 0, idle: 50, ..Manner::GOOD },
        Manner { ready: 40, room: 40, idle: 40, cts: 40, dsr: 40, errors: 40, ..Manner::GOOD },
        Manner { errors: 100, ..Manner::GOOD },
        Manner { noise: 100, ..Manner::GOOD },
        Manner { loop_bit: 100, cts: 0, fifo_bits: 0, ..Manner::GOOD },
    ];
    let refused = [
        "",
        "init 1843200 Baud110 - 1 5 1 odd 0F 1 3",
        "init 1843200 1 - - 7 0 forced1 FF 1 0",
        "init 0 Baud9600 - - 5 1 odd 0F 1 7",
        "init 1843200 0 16 1 6 0 even 01 1 0",
        "init 1843200 Baud9600 16 4 5 0 even 02 1 9",
        "init 4294967295 4294967295 15 - 5 0 even 03 1 65535",
    ];
    for manner in &manners {
        for first in refused {
            let mut list = cases.every_call();
            if !first.is_empty() {
                list.insert(0, first.into());
            }
            cases.list(manner, &list);
        }
        let mut list = cases.every_call();
        list.insert(0, init("14 5 0 disabled 08 1", "0"));
        list.insert(0, init("- 7 0 disabled 01 0", "0"));
        cases.list(&Manner { keeps: [true, false], ..manner.clone() }, &list);
    }
    let list = cases.every_call().iter().map(|call| call.replace('~', "")).collect::<Vec<_>>();
    cases.script(&[], &list);
    cases.script(&[0x00, 0x42, 0x73], &list);
}

/// Clear-to-send checked, raised and lowered, in loop mode and not; errors on every poll.
fn status_lines(cases: &mut Cases) {
    for cts in [0, 50, 100] {
        for loop_bit in [0, 50, 100] {
            for checked in 0..2 {
                let manner = Manner { cts, loop_bit, room: 80, dsr: 60, ready: 30, ..Manner::GOOD };
                let list = [
                    init(&format!("14 8 0 disabled 00 {checked}"), "~40"),
                    "ready_send".into(),
                    "try_send 31".into(),
                    "send 32333435".into(),
                    "msr".into(),
                    "send_exact 363738393A3B3C3D3E3F404142434445464748 ~12".into(),
                    "connected".into(),
                    "msr".into(),
                    "dump".into(),
                    "lsr".into(),
                    "msr".into(),
                    "loopback ~12".into(),
                    "msr".into(),
                ];
                cases.list(&manner, &list);
            }
        }
    }
    for level in ["-", "14"] {
        for cts in [0, 30] {
            let manner = Manner { cts, ready: 20, ..Manner::GOOD };
            let mut list = vec![init(&format!("{level} 7 0 odd 00 1"), "~40")];
            for call in ["ready_send", "try_send 31", "send 3233", "ready_send", "msr", "ready_send", "msr"] {
                list.push(call.into());
            }
            list.push("send_exact 3435 ~3".into());
            cases.list(&manner, &list);
            cases.list(&manner, &list);
        }
    }
    for (ready, room) in [(100, 100), (60, 60), (0, 0)] {
        let manner = Manner { errors: 100, ready, room, idle: 60, ..Manner::GOOD };
        let list = [
            init("14 8 0 disabled 04 0", "~40"),
            "receive 3".into(),
            "lsr".into(),
            "lsr".into(),
            "send 0102".into(),
            "dump".into(),
            "ready_receive".into(),
            "receive_exact 2 ~9".into(),
            "send_exact 0304 ~9".into(),
            "lsr".into(),
            "try_receive".into(),
            "loopback ~6".into(),
            "lsr".into(),
        ];
        cases.list(&manner, &list);
    }
}

/// The loopback test: its answers at each number of data bits, with FIFOs, without, and where they do not
/// come on.
fn loopbacks(cases: &mut Cases) {
    for (level, fifo_bits) in [("14", 0xC0), ("-", 0xC0), ("4", 0x40)] {
        for (place, bits) in LENGTHS.iter().enumerate() {
            let top = 1_u8 << (place + 4);
            for (turn_byte, turn_message, dirty, stale, room) in [
                (0, 0, false, 0, 100),
                (0, 0, true, 1, 100),
                (0x01, 0, false, 0, 100),
                (top, 0, true, 0, 100),
                (0, top, false, 0, 100),
                (0, 0x04, true, 3, 100),
                (0, 0, false, 0, 0),
            ] {
                let manner =
                    Manner { turn_byte, turn_message, dirty, stale, room, fifo_bits, errors: 10, ..Manner::GOOD };
                let list = [
                    init(&format!("{level} {bits} 0 disabled 01 0"), "~40"),
                    "loopback ~20".into(),
                    "lsr".into(),
                    "msr".into(),
                    "fifo".into(),
                ];
                cases.list(&manner, &list);
            }
        }
    }
    // clear-to-send is asked for where the loop bit does not read as set
    for hides_loop in [50, 100] {
        for cts in [60, 100] {
            for level in ["14", "-"] {
                let manner = Manner { hides_loop, cts, ready: 90, ..Manner::GOOD };
                let start = init(&format!("{level} 8 0 disabled 01 1"), "~40");
                cases.list(&manner, &[start, "loopback ~40".into(), "msr".into()]);
            }
        }
    }
    // before any init, where the configuration asks for FIFOs
    for fifo_bits in [0xC0, 0x00] {
        let manner = Manner { fifo_bits, stale: 2, ready: 70, idle: 70, ..Manner::GOOD };
        cases.list(&manner, &["loopback ~40".into(), "fifo".into(), "send 0102".into()]);
    }
}

/// The modem lines before and after a loopback test, all of them; the test itself is refused early.
fn line_changes(cases: &mut Cases) {
    for old in 0..16_u8 {
        let mut bytes = Vec::new();
        let mut list: Vec<String> = Vec::new();
        for new in 0..16_u8 {
            let change = cases.random.byte() & 0x0F;
            bytes.extend([0x0B, 0x05, 0x60, old << 4 | change, 0xC1, 0x60, 0x40, new << 4 | change, new << 4]);
            list.push("loopback 0".into());
            list.push("msr".into());
        }
        cases.script(&bytes, &list);
    }
}

/// Every budget up to what a call needs, so that each of its waits is cut once.
fn budgets(cases: &mut Cases) {
    let slow = Manner { ready: 50, room: 50, idle: 30, stale: 2, errors: 10, ..Manner::GOOD };
    for (level, checked, cts) in [("14", 0, 100), ("-", 1, 60), ("-", 0, 100)] {
        let start = init(&format!("{level} 8 0 disabled 00 {checked}"), "~60");
        let manner = Manner { cts, ..slow.clone() };
        for last in ["receive_exact 5 ~60", "send_exact 0102030405060708090A0B0C0D0E0F101112 ~60"] {
            cases.each_budget(&manner, &[start.clone(), last.into()]);
        }
        cases.each_budget(&manner, &["lsr".into(), start.clone()]);
    }
    // few fruitless polls in each wait, as each budget is a list of its own
    for seed in 0..8 {
        let room = if seed < 4 { 100 } else { 85 };
        let manner = Manner { ready: 85, room, idle: 60, stale: seed % 3, ..slow.clone() };
        let level = if seed % 2 == 0 { "14" } else { "-" };
        let start = init(&format!("{level} {} 0 disabled 0D 0", 8 - seed % 4), "~60");
        cases.each_budget(&manner, &[start, "lsr".into(), "loopback ~60".into()]);
    }
    for call in ["receive_exact 0 0", "send_exact - 0", "receive_exact 1 65535", "send_exact 55 65535"] {
        cases.list(&slow, &[call.into()]);
    }
    for bytes in [&[0x00; 40][..], &[0x20; 40][..]] {
        cases.script(bytes, &["receive_exact 3 1".into(), "receive_exact 3 65535".into()]);
        cases.script(bytes, &["init 1843200 Baud9600 - 14 8 0 disabled 00 0 0".into(), "lsr".into()]);
        cases.script(bytes, &["loopback 0".into(), "loopback 1".into(), "loopback 65535".into()][..2]);
    }
}
