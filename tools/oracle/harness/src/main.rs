//! The oracle: what the crate uart_16550 answers to lists of calls on scripted devices.
//!
//! `oracle generate` writes the cases, `oracle answers` reads cases and writes an answer a line, `oracle told`
//! reads lines and writes what the compared functions themselves answer where a rule of ours replaces it,
//! `oracle count` counts the lines of cases by call and by mark.

mod chip;
mod device;
mod edges;
mod facts;
mod generate;
mod play;
mod pure;
mod random;
mod text;
mod watch;

use device::{Device, Source};
use play::{Player, told_init};
use std::collections::BTreeMap;
use std::io::{Read, Write, stdin, stdout};
use text::{unhex, wrong};

/// A line's words, and its marks.
fn words(line: &str) -> (Vec<&str>, Vec<&str>) {
    let mut words: Vec<&str> = line.split_whitespace().collect();
    match words.last().and_then(|word| word.strip_prefix('!')) {
        Some(marks) => {
            words.pop();
            (words, marks.split(',').collect())
        }
        None => (words, Vec::new()),
    }
}

fn answers(cases: &str) -> String {
    let mut answers = String::new();
    let mut player = None;
    let mut devices = 0;
    for (place, line) in cases.lines().enumerate() {
        let (words, marks) = words(line);
        let fault = |what: &str| -> ! { wrong(&format!("line {}: {what}: {line}", place + 1)) };
        if words.is_empty() {
            fault("an empty line");
        }
        if words[0] == "device" && words.len() == 2 {
            player = Some(Player::new(Device::new(Source::Script(unhex(words[1])))));
            devices += 1;
            answers += &format!("device {devices}\n");
            continue;
        }
        let outcome = pure::pure(&words, false)
            .unwrap_or_else(|| player.as_mut().unwrap_or_else(|| fault("no device")).call(&words));
        if outcome.marks != marks {
            fault(&format!("its marks should be: {}", outcome.marks.join(",")));
        }
        answers += &outcome.answer;
        answers.push('\n');
    }
    answers
}

fn told(cases: &str) -> String {
    let mut answers = String::new();
    for line in cases.lines() {
        let (words, _) = words(line);
        let answer = match words[0] {
            "init" => told_init(&words),
            _ => pure::pure(&words, true).unwrap_or_else(|| wrong("a line that needs a device")).answer,
        };
        answers += &format!("{line} -> {answer}\n");
    }
    answers
}

fn count(cases: &str) -> String {
    let mut counts = BTreeMap::new();
    for line in cases.lines() {
        let (words, marks) = words(line);
        *counts.entry(words[0].to_string()).or_insert(0) += 1;
        for mark in marks {
            *counts.entry(format!("!{mark}")).or_insert(0) += 1;
        }
    }
    counts.iter().map(|(what, number)| format!("{number:6} {what}\n")).collect()
}

fn main() {
    // a panic of the compared code is caught and told in the answer
    std::panic::set_hook(Box::new(|info| {
        if !info.to_string().contains("should be able to calculate baud rate") {
            eprintln!("{info}");
        }
    }));
    let cases = || {
        let mut text = String::new();
        if let Err(e) = stdin().read_to_string(&mut text) {
            wrong(&e.to_string());
        }
        text
    };
    let output = match std::env::args().nth(1).as_deref() {
        Some("generate") => generate::generate(),
        Some("answers") => answers(&cases()),
        Some("told") => told(&cases()),
        Some("count") => count(&cases()),
        _ => wrong("usage: oracle generate | answers | told | count"),
    };
    if let Err(e) = stdout().write_all(output.as_bytes()) {
        wrong(&e.to_string());
    }
}
