//! Words of cases and answers, both ways.

use uart_16550::spec::registers::{FifoTriggerLevel, IER, Parity, WordLength};
use uart_16550::{BaudRate, Config};

/// What a case file may not hold.
pub fn wrong(what: &str) -> ! {
    eprintln!("oracle: {what}");
    std::process::exit(1)
}

/// Bytes as hexadecimal digits, `-` where there are none.
pub fn hex(bytes: &[u8]) -> String {
    if bytes.is_empty() {
        return "-".into();
    }
    bytes.iter().map(|byte| format!("{byte:02X}")).collect()
}

pub fn unhex(word: &str) -> Vec<u8> {
    if word == "-" {
        return Vec::new();
    }
    if word.len() % 2 != 0 {
        wrong(&format!("odd number of digits: {word}"));
    }
    (0..word.len() / 2).map(|k| byte(&word[2 * k..2 * k + 2])).collect()
}

/// A byte of two hexadecimal digits.
pub fn byte(word: &str) -> u8 {
    match u8::from_str_radix(word, 16) {
        Ok(value) if word.len() == 2 => value,
        _ => wrong(&format!("not a byte: {word}")),
    }
}

/// A decimal number.
pub fn number<T: std::str::FromStr>(word: &str) -> T {
    word.parse().unwrap_or_else(|_| wrong(&format!("not a number: {word}")))
}

pub fn flag(word: &str) -> bool {
    match word {
        "0" => false,
        "1" => true,
        _ => wrong(&format!("not a flag: {word}")),
    }
}

pub fn flag_text(value: bool) -> &'static str {
    if value { "1" } else { "0" }
}

/// A decimal number, or `-` for none.
pub fn optional(word: &str) -> Option<u32> {
    (word != "-").then(|| number(word))
}

pub fn optional_text(value: Option<u32>) -> String {
    value.map_or("-".into(), |value| value.to_string())
}

pub const NAMED_RATES: [(&str, BaudRate); 11] = [
    ("Baud115200", BaudRate::Baud115200),
    ("Baud57600", BaudRate::Baud57600),
    ("Baud38400", BaudRate::Baud38400),
    ("Baud9600", BaudRate::Baud9600),
    ("Baud4800", BaudRate::Baud4800),
    ("Baud2400", BaudRate::Baud2400),
    ("Baud1200", BaudRate::Baud1200),
    ("Baud600", BaudRate::Baud600),
    ("Baud300", BaudRate::Baud300),
    ("Baud150", BaudRate::Baud150),
    ("Baud110", BaudRate::Baud110),
];

/// A named rate by its name, a custom one as a number.
pub fn rate(word: &str) -> BaudRate {
    match NAMED_RATES.iter().find(|(name, _)| *name == word) {
        Some((_, rate)) => *rate,
        None => BaudRate::Custom(number(word)),
    }
}

pub fn rate_text(rate: BaudRate) -> String {
    match NAMED_RATES.iter().find(|(_, named)| *named == rate) {
        Some((name, _)) => (*name).into(),
        None => rate.to_integer().to_string(),
    }
}

pub fn level(word: &str) -> FifoTriggerLevel {
    match word {
        "1" => FifoTriggerLevel::One,
        "4" => FifoTriggerLevel::Four,
        "8" => FifoTriggerLevel::Eight,
        "14" => FifoTriggerLevel::Fourteen,
        _ => wrong(&format!("not a trigger level: {word}")),
    }
}

pub fn level_text(level: FifoTriggerLevel) -> &'static str {
    match level {
        FifoTriggerLevel::One => "1",
        FifoTriggerLevel::Four => "4",
        FifoTriggerLevel::Eight => "8",
        FifoTriggerLevel::Fourteen => "14",
    }
}

pub fn word_length(word: &str) -> WordLength {
    match word {
        "5" => WordLength::FiveBits,
        "6" => WordLength::SixBits,
        "7" => WordLength::SevenBits,
        "8" => WordLength::EightBits,
        _ => wrong(&format!("not a word length: {word}")),
    }
}

pub fn word_length_text(length: WordLength) -> &'static str {
    match length {
        WordLength::FiveBits => "5",
        WordLength::SixBits => "6",
        WordLength::SevenBits => "7",
        WordLength::EightBits => "8",
    }
}

pub fn parity(word: &str) -> Parity {
    match word {
        "disabled" => Parity::Disabled,
        "odd" => Parity::Odd,
        "even" => Parity::Even,
        "forced1" => Parity::Forced1,
        "forced0" => Parity::Forced0,
        _ => wrong(&format!("not a parity: {word}")),
    }
}

pub fn parity_text(parity: Parity) -> &'static str {
    match parity {
        Parity::Disabled => "disabled",
        Parity::Odd => "odd",
        Parity::Even => "even",
        Parity::Forced1 => "forced1",
        Parity::Forced0 => "forced0",
    }
}

/// The nine words of a configuration, in the order that `init` has them.
pub fn config(words: &[&str]) -> Config {
    Config {
        frequency: number(words[0]),
        baud_rate: rate(words[1]),
        prescaler_division_factor: optional(words[2]),
        fifo_trigger_level: (words[3] != "-").then(|| level(words[3])),
        data_bits: word_length(words[4]),
        extra_stop_bits: flag(words[5]),
        parity: parity(words[6]),
        interrupts: IER::from_bits_retain(byte(words[7])),
        check_cts_before_sending: flag(words[8]),
    }
}

pub fn config_text(config: &Config) -> String {
    format!(
        "{} {} {} {} {} {} {} {:02X} {}",
        config.frequency,
        rate_text(config.baud_rate),
        optional_text(config.prescaler_division_factor),
        config.fifo_trigger_level.map_or("-", level_text),
        word_length_text(config.data_bits),
        flag_text(config.extra_stop_bits),
        parity_text(config.parity),
        config.interrupts.bits(),
        flag_text(config.check_cts_before_sending),
    )
}
