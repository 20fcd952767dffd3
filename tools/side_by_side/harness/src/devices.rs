//! The two devices, as in crates/measured.

use crate::seen::{Seen, mix};
use uart_16550::backend::Backend;

/// A device that tells how far it has come, and the sum over all writes to it.
pub trait Watched: Backend {
    fn place(&self) -> usize;

    fn sum(&self) -> u32;

    /// What the device saw of a run that did so much and left this line status.
    fn seen(&self, done: usize, lsr: u8) -> Seen {
        Seen { done, place: self.place(), sum: self.sum(), lsr }
    }
}

/// A device that answers each read with the next byte of a list, and with 0xFF after its end.
pub struct Tape<'a> {
    bytes: &'a [u8],
    at: usize,
    sum: u32,
}

impl<'a> Tape<'a> {
    pub fn new(bytes: &'a [u8]) -> Self {
        Tape { bytes, at: 0, sum: 0 }
    }
}

impl Watched for Tape<'_> {
    fn place(&self) -> usize {
        self.at
    }

    fn sum(&self) -> u32 {
        self.sum
    }
}

impl Backend for Tape<'_> {
    unsafe fn read(&mut self, offset: u8) -> u8 {
        if offset >= 8 || self.at >= self.bytes.len() {
            return 0xFF;
        }
        let byte = self.bytes[self.at];
        self.at += 1;
        byte
    }

    unsafe fn write(&mut self, offset: u8, value: u8) {
        if offset < 8 {
            self.sum = mix(self.sum, offset, value);
        }
    }
}

/// The wired bits of the chip that is measured.
pub const WIRED: u8 = 0xFF;

/// A chip with a receive ring of 16 places. While the line has characters left, one arrives
/// before each read of the line status. The transmitter is always empty. Of the registers that
/// keep what is written, only the wired bits can be read back.
pub struct SmallChip {
    ring: [u8; 16],
    head: u8,
    tail: u8,
    left: usize,
    registers: [u8; 8],
    wired: u8,
    sum: u32,
}

impl SmallChip {
    pub fn new(left: usize, wired: u8) -> Self {
        SmallChip { ring: [0; 16], head: 0, tail: 0, left, registers: [0; 8], wired, sum: 0 }
    }

    fn arrive(&mut self) {
        if self.left > 0 {
            self.ring[(self.head % 16) as usize] = (self.left % 256) as u8;
            self.head = self.head.wrapping_add(1);
            self.left -= 1;
        }
    }

    fn status(&self) -> u8 {
        if self.head == self.tail { 0x60 } else { 0x61 }
    }

    fn take(&mut self) -> u8 {
        if self.head == self.tail {
            return 0;
        }
        let byte = self.ring[(self.tail % 16) as usize];
        self.tail = self.tail.wrapping_add(1);
        byte
    }

    fn identity(&self) -> u8 {
        if (self.registers[2] & self.wired) % 2 == 1 { 0xC1 } else { 0x01 }
    }

    fn store(&mut self, offset: u8, value: u8) {
        self.sum = mix(self.sum, offset, value);
        self.registers[offset as usize] = value;
        if offset == 2 {
            self.tail = self.head;
        }
    }
}

impl Watched for SmallChip {
    fn place(&self) -> usize {
        self.left
    }

    fn sum(&self) -> u32 {
        self.sum
    }
}

impl Backend for SmallChip {
    unsafe fn read(&mut self, offset: u8) -> u8 {
        if offset >= 8 {
            return 0xFF;
        }
        match offset {
            0 => self.take(),
            5 => {
                self.arrive();
                self.status()
            }
            2 => self.identity(),
            _ => self.registers[offset as usize] & self.wired,
        }
    }

    unsafe fn write(&mut self, offset: u8, value: u8) {
        if offset < 8 {
            self.store(offset, value);
        }
    }
}
