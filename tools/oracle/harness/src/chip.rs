//! A source of plausible bytes for the making of cases. It need not keep any rule of a real chip: the bytes
//! that it gave are stored as a list, and only the list is compared.

use crate::random::Random;
use std::collections::VecDeque;

/// How a device behaves. Numbers are percentages.
#[derive(Clone)]
pub struct Manner {
    /// A character waits.
    pub ready: u32,
    /// There is room to send.
    pub room: u32,
    /// The transmitter is empty.
    pub idle: u32,
    /// Each of the four error bits shows.
    pub errors: u32,
    pub cts: u32,
    pub dsr: u32,
    /// The loop bit reads as set though it was not written.
    pub loop_bit: u32,
    /// The loop bit reads as clear though it was written.
    pub hides_loop: u32,
    /// Any byte at all instead of a plausible one.
    pub noise: u32,
    /// Whether the scratch register keeps the first and the second pattern.
    pub keeps: [bool; 2],
    /// The upper two bits of the interrupt status while FIFOs are switched on.
    pub fifo_bits: u8,
    /// Characters that wait when the loop mode is entered.
    pub stale: usize,
    /// Bits turned in the test byte on its way back, and in one byte of the message.
    pub turn_byte: u8,
    pub turn_message: u8,
    /// Bits above the data bits come back at random.
    pub dirty: bool,
}

impl Manner {
    /// A device that does what is asked.
    pub const GOOD: Manner = Manner {
        ready: 100,
        room: 100,
        idle: 100,
        errors: 0,
        cts: 100,
        dsr: 100,
        loop_bit: 0,
        hides_loop: 0,
        noise: 0,
        keeps: [true, true],
        fifo_bits: 0xC0,
        stale: 0,
        turn_byte: 0,
        turn_message: 0,
        dirty: false,
    };

    pub fn any(random: &mut Random) -> Manner {
        let often = [0, 30, 60, 60, 90, 90, 100, 100];
        Manner {
            ready: random.pick(&often),
            room: random.pick(&often),
            idle: random.pick(&[50, 80, 100]),
            errors: random.pick(&[0, 0, 10, 40, 100]),
            cts: random.pick(&often),
            dsr: random.pick(&often),
            loop_bit: random.pick(&[0, 0, 20, 100]),
            hides_loop: random.pick(&[0, 0, 50]),
            noise: random.pick(&[0, 0, 0, 3]),
            keeps: if random.percent(10) { [random.percent(50), false] } else { [true, true] },
            fifo_bits: random.pick(&[0xC0, 0xC0, 0xC0, 0x00, 0x40, 0x80]),
            stale: random.pick(&[0, 0, 1, 2, 5]),
            turn_byte: if random.percent(15) { random.byte() } else { 0 },
            turn_message: if random.percent(15) { random.byte() } else { 0 },
            dirty: random.percent(20),
        }
    }
}

pub struct Chip {
    manner: Manner,
    random: Random,
    /// The registers as last written, by offset, and the divisor bytes.
    written: [u8; 8],
    divisor: [u8; 2],
    turning: VecDeque<u8>,
    looped: usize,
}

impl Chip {
    pub fn new(manner: Manner, random: &mut Random) -> Box<Chip> {
        Box::new(Chip {
            manner,
            random: Random::new(random.next()),
            written: [0, 0, 0, 3, 0x0B, 0, 0, 0],
            divisor: [12, 0],
            turning: VecDeque::new(),
            looped: 0,
        })
    }

    fn loops(&self) -> bool {
        self.written[4] & 0x10 != 0
    }

    fn latched(&self) -> bool {
        self.written[3] & 0x80 != 0
    }

    fn bit(&mut self, chance: u32, bit: u8) -> u8 {
        if self.random.percent(chance) { bit } else { 0 }
    }

    fn line_status(&mut self) -> u8 {
        let waits = !self.loops() || !self.turning.is_empty();
        let mut status = self.bit(if waits { self.manner.ready } else { 0 }, 0x01);
        for error in [0x02, 0x04, 0x08, 0x10] {
            status |= self.bit(self.manner.errors, error);
        }
        let room = self.bit(self.manner.room, 0x20);
        let idle = self.bit(self.manner.idle, 0x40);
        status | room | idle | self.bit(self.manner.errors, 0x80)
    }

    fn modem_status(&mut self) -> u8 {
        let changes = self.random.byte() & self.random.byte() & 0x0F;
        let lines = self.random.byte() & 0xC0;
        changes | lines | self.bit(self.manner.cts, 0x10) | self.bit(self.manner.dsr, 0x20)
    }

    pub fn read(&mut self, offset: u8) -> u8 {
        if self.random.percent(self.manner.noise) {
            return self.random.byte();
        }
        match offset {
            0 | 1 if self.latched() => self.divisor[usize::from(offset)],
            0 => match self.turning.pop_front() {
                Some(byte) => byte,
                None => self.random.byte(),
            },
            2 => {
                let fifos = if self.written[2] & 1 != 0 { self.manner.fifo_bits } else { 0 };
                fifos | self.random.byte() & 0x0F
            }
            4 => {
                let shown = self.written[4] & !self.bit(self.manner.hides_loop, 0x10);
                shown | self.bit(self.manner.loop_bit, 0x10)
            }
            5 => self.line_status(),
            6 => self.modem_status(),
            7 => match self.written[7] {
                0x42 if !self.manner.keeps[0] => 0xFF,
                0x73 if !self.manner.keeps[1] => 0x72,
                kept => kept,
            },
            _ => self.written[usize::from(offset)],
        }
    }

    pub fn write(&mut self, offset: u8, value: u8) {
        let entering = offset == 4 && value & 0x10 != 0 && !self.loops();
        if offset == 0 || offset == 1 {
            if self.latched() {
                self.divisor[usize::from(offset)] = value;
                return;
            }
            if offset == 0 {
                if self.loops() {
                    self.turn(value);
                }
                return;
            }
        }
        self.written[usize::from(offset)] = value;
        if entering {
            self.looped = 0;
            self.turning = (0..self.manner.stale).map(|_| self.random.byte()).collect();
        } else if offset == 4 && value & 0x10 == 0 {
            self.turning.clear();
        }
    }

    /// A byte goes round: it keeps its data bits.
    fn turn(&mut self, value: u8) {
        let mask = 0xFF >> (3 - (self.written[3] & 3));
        let mut byte = value;
        if self.looped == 0 {
            byte ^= self.manner.turn_byte;
        } else if self.looped == 7 {
            byte ^= self.manner.turn_message;
        }
        byte &= mask;
        if self.manner.dirty {
            byte |= self.random.byte() & !mask;
        }
        self.looped += 1;
        self.turning.push_back(byte);
    }
}
