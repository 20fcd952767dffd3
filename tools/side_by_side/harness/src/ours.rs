//! The runs of our driver, from the static library of crates/measured.

use crate::devices::WIRED;
use crate::seen::Seen;

// A slice crosses as a pointer and a length.
#[link(name = "measured", kind = "static")]
unsafe extern "C" {
    fn receive_scripted(script: *const u8, len: usize, buffer: *mut u8, room: usize, places: usize) -> Seen;
    fn send_scripted(script: *const u8, len: usize, bytes: *const u8, size: usize, rounds: usize) -> Seen;
    fn init_scripted(script: *const u8, len: usize, rates: *const u32, count: usize) -> Seen;
    fn receive_simulated(left: usize, wired: u8, buffer: *mut u8, room: usize, places: usize) -> Seen;
    fn send_simulated(left: usize, wired: u8, bytes: *const u8, size: usize, rounds: usize) -> Seen;
    fn init_simulated(left: usize, wired: u8, rates: *const u32, count: usize) -> Seen;
}

pub fn receive(script: Option<&[u8]>, buffer: &mut [u8], places: usize) -> Seen {
    let (to, room) = (buffer.as_mut_ptr(), buffer.len());
    // SAFETY: pointers and lengths come from slices that live through the call.
    match script {
        Some(s) => unsafe { receive_scripted(s.as_ptr(), s.len(), to, room, places) },
        None => unsafe { receive_simulated(room, WIRED, to, room, places) },
    }
}

pub fn send(script: Option<&[u8]>, bytes: &[u8], rounds: usize) -> Seen {
    // SAFETY: pointers and lengths come from slices that live through the call.
    match script {
        Some(s) => unsafe { send_scripted(s.as_ptr(), s.len(), bytes.as_ptr(), bytes.len(), rounds) },
        None => unsafe { send_simulated(0, WIRED, bytes.as_ptr(), bytes.len(), rounds) },
    }
}

pub fn init(script: Option<&[u8]>, rates: &[u32]) -> Seen {
    // SAFETY: pointers and lengths come from slices that live through the call.
    match script {
        Some(s) => unsafe { init_scripted(s.as_ptr(), s.len(), rates.as_ptr(), rates.len()) },
        None => unsafe { init_simulated(0, WIRED, rates.as_ptr(), rates.len()) },
    }
}
