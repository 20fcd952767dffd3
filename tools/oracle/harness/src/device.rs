//! The device under the compared driver: it answers reads from a source and records all accesses.

use crate::chip::Chip;
use crate::watch::Watch;
use std::fmt;
use std::panic::resume_unwind;
use uart_16550::backend::Backend;

/// Where the bytes of reads come from.
pub enum Source {
    /// A list, and 0xFF after its end.
    Script(Vec<u8>),
    /// Something that behaves like a chip, for making lists.
    Chip(Box<Chip>),
}

#[derive(Clone, Copy)]
pub enum Access {
    Read(u8, u8),
    Write(u8, u8),
}

impl fmt::Display for Access {
    fn fmt(&self, f: &mut fmt::Formatter<'_>) -> fmt::Result {
        match self {
            Access::Read(offset, value) => write!(f, "r{offset}={value:02X}"),
            Access::Write(offset, value) => write!(f, "w{offset}={value:02X}"),
        }
    }
}

/// Thrown to end a call whose budget is used up.
pub struct Cut;

pub struct Device {
    source: Source,
    /// All bytes given so far.
    pub given: Vec<u8>,
    /// The accesses of the call.
    pub log: Vec<Access>,
    pub watch: Watch,
}

impl Device {
    pub fn new(source: Source) -> Device {
        Device { source, given: Vec::new(), log: Vec::new(), watch: Watch::idle() }
    }

    fn cut_if_used_up(&self) {
        if self.watch.used_up.is_some() {
            resume_unwind(Box::new(Cut));
        }
    }
}

impl fmt::Debug for Device {
    fn fmt(&self, f: &mut fmt::Formatter<'_>) -> fmt::Result {
        f.write_str("Device")
    }
}

impl Backend for Device {
    unsafe fn read(&mut self, offset: u8) -> u8 {
        self.cut_if_used_up();
        let value = match &mut self.source {
            Source::Script(bytes) => bytes.get(self.given.len()).copied().unwrap_or(0xFF),
            Source::Chip(chip) => chip.read(offset),
        };
        self.given.push(value);
        self.log.push(Access::Read(offset, value));
        self.watch.read(offset, value)
    }

    unsafe fn write(&mut self, offset: u8, value: u8) {
        self.cut_if_used_up();
        if let Source::Chip(chip) = &mut self.source {
            chip.write(offset, value);
        }
        self.log.push(Access::Write(offset, value));
        self.watch.write(offset);
    }
}
