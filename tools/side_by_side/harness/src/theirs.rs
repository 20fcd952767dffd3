//! The same runs of the Rust's driver.
//!
//! Each run is a function of its own that stays in the symbol table, so that its instructions can
//! be counted by its name.

use crate::devices::{SmallChip, Tape, WIRED, Watched};
use crate::seen::Seen;
use std::hint::black_box;
use uart_16550::{BaudRate, Config, Uart16550};

fn receive_on<D: Watched>(device: D, buffer: &mut [u8], places: usize) -> Seen {
    // SAFETY: the device reaches no memory but its own.
    let mut uart = unsafe { Uart16550::new_with_backend(device) };
    let mut done = 0;
    for piece in buffer.chunks_exact_mut(places.max(1)) {
        done += uart.receive_bytes(piece);
    }
    let lsr = uart.lsr().bits();
    uart.backend().seen(done, lsr)
}

fn send_on<D: Watched>(device: D, bytes: &[u8], rounds: usize) -> Seen {
    // SAFETY: as above.
    let mut uart = unsafe { Uart16550::new_with_backend(device) };
    for _ in 0..rounds {
        uart.send_bytes_exact(bytes);
    }
    let lsr = uart.lsr().bits();
    uart.backend().seen(rounds, lsr)
}

fn init_on<D: Watched>(device: D, rates: &[u32]) -> Seen {
    // SAFETY: as above.
    let mut uart = unsafe { Uart16550::new_with_backend(device) };
    let mut done = 0;
    for rate in rates {
        let config = Config { baud_rate: BaudRate::Custom(*rate), ..Config::DEFAULT };
        if uart.init(config).is_ok() {
            done += 1;
        }
    }
    let lsr = uart.lsr().bits();
    uart.backend().seen(done, lsr)
}

#[unsafe(no_mangle)]
#[inline(never)]
fn rust_receive_scripted(script: &[u8], buffer: &mut [u8], places: usize) -> Seen {
    receive_on(Tape::new(script), buffer, places)
}

#[unsafe(no_mangle)]
#[inline(never)]
fn rust_receive_simulated(left: usize, wired: u8, buffer: &mut [u8], places: usize) -> Seen {
    receive_on(SmallChip::new(left, wired), buffer, places)
}

#[unsafe(no_mangle)]
#[inline(never)]
fn rust_send_scripted(script: &[u8], bytes: &[u8], rounds: usize) -> Seen {
    send_on(Tape::new(script), bytes, rounds)
}

#[unsafe(no_mangle)]
#[inline(never)]
fn rust_send_simulated(left: usize, wired: u8, bytes: &[u8], rounds: usize) -> Seen {
    send_on(SmallChip::new(left, wired), bytes, rounds)
}

#[unsafe(no_mangle)]
#[inline(never)]
fn rust_init_scripted(script: &[u8], rates: &[u32]) -> Seen {
    init_on(Tape::new(script), rates)
}

#[unsafe(no_mangle)]
#[inline(never)]
fn rust_init_simulated(left: usize, wired: u8, rates: &[u32]) -> Seen {
    init_on(SmallChip::new(left, wired), rates)
}

pub fn receive(script: Option<&[u8]>, buffer: &mut [u8], places: usize) -> Seen {
    match script {
        Some(s) => rust_receive_scripted(s, buffer, places),
        None => rust_receive_simulated(buffer.len(), black_box(WIRED), buffer, places),
    }
}

pub fn send(script: Option<&[u8]>, bytes: &[u8], rounds: usize) -> Seen {
    match script {
        Some(s) => rust_send_scripted(s, bytes, rounds),
        None => rust_send_simulated(0, black_box(WIRED), bytes, rounds),
    }
}

pub fn init(script: Option<&[u8]>, rates: &[u32]) -> Seen {
    match script {
        Some(s) => rust_init_scripted(s, rates),
        None => rust_init_simulated(0, black_box(WIRED), rates),
    }
}
