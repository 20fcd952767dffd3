//! The cases that need no device: encodings, constants, calculations and the constructors' questions.

use crate::generate::{Cases, LENGTHS, LEVELS, PARITIES};
use crate::random::Random;
use crate::text::{NAMED_RATES, optional_text};

/// All encodings and constants, and the constructors' questions.
pub fn facts(cases: &mut Cases) {
    for line in ["constants", "divisors", "default"] {
        cases.line(line.into());
    }
    for register in ["ier", "isr", "fcr", "lcr", "mcr", "lsr", "msr", "psd"] {
        cases.line(format!("bits {register}"));
    }
    for byte in 0..=255_u8 {
        for name in [
            "interrupt",
            "level_from_raw",
            "fcr_level",
            "word_from_raw",
            "parity_from_raw",
            "lcr_fields",
            "has_error",
            "pdf",
        ] {
            cases.line(format!("{name} {byte:02X}"));
        }
        cases.line(format!("word_from_integer {byte}"));
        let other = cases.random.byte();
        cases.line(format!("set_pdf {byte:02X} {}", other % 16));
        cases.line(format!("set_pdf {other:02X} {byte}"));
    }
    for level in LEVELS {
        cases.line(format!("level_to_raw {level}"));
        for byte in 0..=255_u8 {
            cases.line(format!("fcr_set_level {byte:02X} {level}"));
        }
    }
    for length in LENGTHS {
        cases.line(format!("word_to_raw {length}"));
        for byte in 0..=255_u8 {
            cases.line(format!("lcr_set_word {byte:02X} {length}"));
        }
    }
    for parity in PARITIES {
        cases.line(format!("parity_to_raw {parity}"));
        for byte in 0..=255_u8 {
            cases.line(format!("lcr_set_parity {byte:02X} {parity}"));
        }
    }
    rates(cases);
    for base in [0, 1, 0x2F8, 0x3F8, 65527, 65528, 65529, 65535] {
        cases.line(format!("port {base}"));
    }
    for stride in [0_u64, 1, 2, 3, 4, 8, 16, 32, 64, 127, 128, 255] {
        for base in [1, 0x1000, u64::MAX - 7 * stride] {
            cases.line(format!("mmio {base} {stride}"));
        }
        if stride > 0 {
            cases.line(format!("mmio {} {stride}", u64::MAX - 7 * stride + 1));
        }
        if stride.is_power_of_two() {
            for offset in 0..8 {
                cases.line(format!("mmio_place {stride} {offset}"));
            }
        }
    }
}

fn rates(cases: &mut Cases) {
    let mut words = vec!["0".to_string(), "1".into(), "9601".into(), u32::MAX.to_string()];
    for (name, rate) in NAMED_RATES {
        let value = rate.to_integer();
        cases.line(format!("baud_to_integer {name}"));
        words.push(name.into());
        words.push(value.to_string());
        for near in [value - 1, value, value + 1] {
            cases.line(format!("baud_from_integer {near}"));
        }
    }
    for _ in 0..100 {
        let value = cases.random.next() as u32 >> cases.random.below(32);
        cases.line(format!("baud_from_integer {value}"));
        cases.line(format!("baud_to_integer {value}"));
    }
    for a in &words {
        for b in &words {
            cases.line(format!("baud_order {a} {b}"));
        }
    }
}

/// A prescaler that is allowed, or none.
fn prescaler(random: &mut Random) -> Option<u32> {
    match random.below(20) {
        0..=3 => None,
        p => Some(p as u32 - 4),
    }
}

/// A rate, a divisor and a prescaler whose frequency fits 32 bits.
fn fitting(random: &mut Random) -> (u32, u32, Option<u32>, u32) {
    loop {
        let rate = 1 + (random.next() as u32 >> (1 + random.below(31)));
        let divisor = 1 + (random.next() as u32 >> (12 + random.below(19)));
        let p = prescaler(random);
        let product = u128::from(rate) * u128::from(divisor) * 16 * u128::from(p.unwrap_or(0) + 1);
        if let Ok(frequency) = u32::try_from(product) {
            return (rate, divisor, p, frequency);
        }
    }
}

/// Divisors, rates and frequencies.
pub fn calculations(cases: &mut Cases) {
    let large = u32::MAX;
    for p in ["-", "0", "1", "15"] {
        for f in [1, 16, 17, 1_843_200, 1_843_199, 4_294_967_280, large] {
            for r in [1, 110, 300, 7200, 9600, 115_200, large] {
                cases.line(format!("divisor {f} {r} {p}"));
            }
            for d in [1, 7, 12, 1047, 65_535, 65_536, large] {
                cases.line(format!("rate {f} {d} {p}"));
            }
        }
        for r in [0, 1, 9600, 115_200, large] {
            for d in [0, 1, 12, 40_000, 65_535] {
                cases.line(format!("frequency {r} {d} {p}"));
            }
        }
    }
    // values that are refused, and which refusal comes first
    for name in ["divisor", "rate"] {
        for p in ["-", "0", "15", "16", "4294967295"] {
            cases.line(format!("{name} 0 0 {p}"));
            cases.line(format!("{name} 0 12 {p}"));
            cases.line(format!("{name} 1843200 0 {p}"));
        }
        for (f, other, p) in [
            (1_843_200, 9600, 16),
            (1_843_200, 12, 16),
            (1_958_400, 7200, 16),
            (1_958_400, 17, 16),
            (large, large, large),
            (1_843_200, 1 << 28, large),
            // 16 × (p + 1) × other is 524,288 more than a power of 2 that 64 bits do not hold
            (524_288, 1_073_709_057, 1_073_774_591),
        ] {
            cases.line(format!("{name} {f} {other} {p}"));
        }
    }
    for p in [16, large] {
        for (r, d) in [(0, 12), (9600, 0), (1, 1), (9600, 12), (large, large)] {
            cases.line(format!("frequency {r} {d} {p}"));
        }
    }
    for (_, rate) in NAMED_RATES {
        for p in 0..=15 {
            let frequency = 1_843_200 * (p + 1);
            cases.line(format!("divisor {frequency} {} {p}", rate.to_integer()));
            cases.line(format!("divisor 1843200 {} {p}", rate.to_integer()));
        }
    }
    // the largest divisor, and one more
    for (f, r) in [(1_048_560, 1), (1_048_576, 1), (2_097_120, 2), (2_097_152, 2), (1_048_592, 1)] {
        cases.line(format!("divisor {f} {r} -"));
    }
    for _ in 0..900 {
        let (rate, divisor, p, frequency) = fitting(&mut cases.random);
        let p = optional_text(p);
        let off = cases.random.pick(&[0, 0, 0, 1, 15, 16]);
        let frequency = frequency.saturating_add(off);
        cases.line(format!("divisor {frequency} {rate} {p}"));
        cases.line(format!("rate {frequency} {divisor} {p}"));
        cases.line(format!("frequency {rate} {divisor} {p}"));
    }
    for _ in 0..150 {
        let f = 1 + (cases.random.next() as u32 >> cases.random.below(31));
        let r = 1 + (cases.random.next() as u32 >> (1 + cases.random.below(30)));
        let p = optional_text(prescaler(&mut cases.random));
        cases.line(format!("divisor {f} {r} {p}"));
        cases.line(format!("rate {f} {r} {p}"));
    }
    dumps(cases);
}

/// A dump's divisor and its rate.
fn dumps(cases: &mut Cases) {
    for (dll, dlm, f, p) in [
        (0_u8, 0_u8, 1_843_200, "-"),
        (7, 0, 1_843_200, "-"),
        (12, 0, 0, "-"),
        (0, 0, 0, "16"),
        (0, 0, 1_843_200, "16"),
        (12, 0, 1_843_200, "16"),
        (12, 0, 1_843_200, "17"),
        (1, 0, 29_491_200, "15"),
    ] {
        cases.line(format!("dump_divisor {dll:02X} {dlm:02X}"));
        cases.line(format!("dump_rate {dll:02X} {dlm:02X} {f} {p}"));
    }
    for _ in 0..200 {
        let (_, divisor, p, frequency) = fitting(&mut cases.random);
        let [dll, dlm] = (divisor as u16).to_le_bytes();
        cases.line(format!("dump_divisor {dll:02X} {dlm:02X}"));
        if divisor < 65536 {
            cases.line(format!("dump_rate {dll:02X} {dlm:02X} {frequency} {}", optional_text(p)));
        }
    }
    for (_, rate) in NAMED_RATES {
        let [dll, dlm] = (rate.to_integer() as u16 % 1000 + 1).to_le_bytes();
        let frequency = 16 * rate.to_integer() * (rate.to_integer() % 65536 % 1000 + 1);
        cases.line(format!("dump_rate {dll:02X} {dlm:02X} {frequency} -"));
    }
}
