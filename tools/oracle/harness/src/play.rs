//! Plays the calls of a list on the compared driver and writes their answers.

use crate::device::{Access, Cut, Device};
use crate::text::*;
use crate::watch::{TEST_BYTE, TEST_MESSAGE, Waiting, Watch};
use std::panic::{AssertUnwindSafe, catch_unwind, resume_unwind};
use uart_16550::backend::Backend;
use uart_16550::spec::registers::IER;
use uart_16550::spec::{InvalidDivisorError, calc_divisor};
use uart_16550::{ByteReceiveError, ByteSendError, InitError, LoopbackError, RemoteReadyToReceiveError, Uart16550};

/// What the places of a receive hold before it.
pub const PATTERN: u8 = 0xA5;

/// The answer to a line, and the marks that it must carry.
pub struct Outcome {
    pub answer: String,
    pub marks: Vec<&'static str>,
    /// The fruitless polls, of a call that has a budget.
    pub fruitless: Option<u32>,
}

impl Outcome {
    pub fn plain(answer: String) -> Outcome {
        Outcome { answer, marks: Vec::new(), fruitless: None }
    }

    pub fn marked(answer: String, mark: &'static str) -> Outcome {
        Outcome { answer, marks: vec![mark], fruitless: None }
    }
}

pub fn divisor_refusal(error: InvalidDivisorError) -> String {
    match error {
        InvalidDivisorError::NonInteger(e) => {
            format!("no 6 {} {} {}", e.frequency, e.baud_rate, optional_text(e.prescaler_division_factor))
        }
        InvalidDivisorError::OutOfRange { divisor } => format!("no 7 {divisor}"),
        _ => wrong("an unknown divisor error"),
    }
}

/// The refusal of values that the compared sources only assert in a debug build.
pub fn divisor_rule(frequency: u32, rate: u32, prescaler: Option<u32>) -> Option<Outcome> {
    if frequency == 0 {
        Some(Outcome::marked("no 3".into(), "zero-frequency"))
    } else if rate == 0 {
        Some(Outcome::marked("no 4".into(), "zero-rate"))
    } else if prescaler.is_some_and(|p| p > 15) {
        Some(Outcome::marked("no 5".into(), "prescaler"))
    } else {
        None
    }
}

fn send_refusal(error: ByteSendError) -> u8 {
    match error {
        ByteSendError::NoCapacity => 11,
        ByteSendError::RemoteNotClearToSend => 12,
    }
}

/// A list of calls on one device.
pub struct Player {
    uart: Uart16550<Device>,
    /// A loopback test was cut after it had switched the device over: the compared driver cannot go on.
    pub ended: bool,
}

impl Player {
    pub fn new(device: Device) -> Player {
        // SAFETY: the device answers every offset.
        let uart = unsafe { Uart16550::new_with_backend(device) };
        Player { uart, ended: false }
    }

    pub fn given(&self) -> &[u8] {
        &self.uart.backend().given
    }

    /// The saved line status and modem status bits, which only the driver's Debug text shows.
    fn saved(&self) -> (u8, u8) {
        let text = format!("{:?}", self.uart);
        let after = |start: &str| -> u8 {
            let at = text.rfind(start).unwrap_or_else(|| wrong("no saved bits in the Debug text"));
            let rest = &text[at + start.len()..];
            number(&rest[..rest.find(')').unwrap_or_else(|| wrong("no end of the saved bits"))])
        };
        (after("lsr_saved: LSR("), after("msr_saved: MSR("))
    }

    /// Runs a call that may wait. Answers nothing where its budget was used up.
    fn wait<T>(&mut self, call: Waiting, budget: u16, run: impl FnOnce(&mut Uart16550<Device>) -> T) -> Option<T> {
        let mask = ((1_u16 << self.uart.config().data_bits.to_integer()) - 1) as u8;
        self.uart.backend_mut().watch = Watch::new(call, budget, mask);
        let answer = match catch_unwind(AssertUnwindSafe(|| run(&mut self.uart))) {
            Ok(answer) => Some(answer),
            Err(thrown) if thrown.is::<Cut>() => None,
            Err(thrown) => resume_unwind(thrown),
        };
        assert_eq!(answer.is_none(), self.uart.backend().watch.used_up.is_some());
        answer
    }

    /// Plays one call.
    pub fn call(&mut self, words: &[&str]) -> Outcome {
        if self.ended {
            wrong("a call after a loopback test that was cut");
        }
        self.uart.backend_mut().log.clear();
        self.uart.backend_mut().watch = Watch::idle();
        let before = self.saved();
        let mut marks = Vec::new();
        let mut fruitless = None;
        let mut saved = None;
        let uart = &mut self.uart;
        let answer = match (words[0], &words[1..]) {
            ("init", rest) if rest.len() == 10 => {
                let config = config(&rest[..9]);
                let rule =
                    divisor_rule(config.frequency, config.baud_rate.to_integer(), config.prescaler_division_factor);
                let answer = if let Some(refused) = rule {
                    marks = refused.marks;
                    refused.answer
                } else {
                    match self.wait(Waiting::Init, number(rest[9]), |uart| uart.init(config)) {
                        Some(Ok(())) => "ok".into(),
                        Some(Err(InitError::DeviceNotPresent)) => "no 8".into(),
                        Some(Err(InitError::InvalidBaudRate(e))) => divisor_refusal(e),
                        Some(Err(_)) => wrong("an unknown init error"),
                        None => "no 9 transmitter".into(),
                    }
                };
                let polls = self.uart.backend().watch.fruitless;
                fruitless = Some(polls);
                format!("{answer} fruitless {polls}")
            }
            ("receive", [places]) => {
                let mut buffer = vec![PATTERN; number(places)];
                let taken = uart.receive_bytes(&mut buffer);
                format!("ok {taken} {}", hex(&buffer))
            }
            ("send", [bytes]) => format!("ok {}", uart.send_bytes(&unhex(bytes))),
            ("receive_exact", [places, budget]) => {
                let mut buffer = vec![PATTERN; number(places)];
                let done = self.wait(Waiting::Receive, number(budget), |uart| uart.receive_bytes_exact(&mut buffer));
                let (head, polls) = self.exact(done);
                let moved = self.moved(|access| matches!(access, Access::Read(0, _)));
                fruitless = Some(polls);
                format!("{head} moved {moved} fruitless {polls} {}", hex(&buffer))
            }
            ("send_exact", [bytes, budget]) => {
                let bytes = unhex(bytes);
                let done = self.wait(Waiting::Send, number(budget), |uart| uart.send_bytes_exact(&bytes));
                let (head, polls) = self.exact(done);
                let moved = self.moved(|access| matches!(access, Access::Write(0, _)));
                fruitless = Some(polls);
                format!("{head} moved {moved} fruitless {polls}")
            }
            ("try_receive", []) => match uart.try_receive_byte() {
                Ok(byte) => format!("ok {byte:02X}"),
                Err(ByteReceiveError) => "no 10".into(),
            },
            ("try_send", [byte_word]) => match uart.try_send_byte(byte(byte_word)) {
                Ok(()) => "ok".into(),
                Err(e) => format!("no {}", send_refusal(e)),
            },
            ("ready_receive", []) => match uart.ready_to_receive() {
                Ok(()) => "ok".into(),
                Err(ByteReceiveError) => "no 10".into(),
            },
            ("ready_send", []) => match uart.ready_to_send() {
                Ok(()) => "ok".into(),
                Err(e) => format!("no {}", send_refusal(e)),
            },
            ("connected", []) => match uart.check_connected() {
                Ok(()) => "ok".into(),
                Err(RemoteReadyToReceiveError::NoRemoteConnectedNoDSR) => "no 13".into(),
                Err(RemoteReadyToReceiveError::RemoteNotClearToSend) => "no 14".into(),
                Err(_) => wrong("an unknown answer of the connection check"),
            },
            ("present", []) => format!("ok {}", flag_text(uart.check_present())),
            ("loopback", [budget]) => {
                let done = self.wait(Waiting::Loopback, number(budget), |uart| uart.test_loopback());
                let (answer, place, cut_saved) = self.loopback(done, before.0);
                saved = cut_saved;
                let watch = &self.uart.backend().watch;
                if watch.byte_completed || (watch.message_completed && answer == "ok") {
                    marks.push("data-bits");
                }
                fruitless = Some(watch.fruitless);
                format!("{answer} fruitless {} {}", watch.fruitless, hex(&place))
            }
            ("enable", [bits]) => {
                uart.enable_interrupts(IER::from_bits_retain(byte(bits)));
                "ok".into()
            }
            ("disable", [bits]) => {
                uart.disable_interrupts(IER::from_bits_retain(byte(bits)));
                "ok".into()
            }
            ("ier", []) => format!("ok {:02X}", uart.ier().bits()),
            ("isr", []) => format!("ok {:02X}", uart.isr().bits()),
            ("lcr", []) => format!("ok {:02X}", uart.lcr().bits()),
            ("mcr", []) => format!("ok {:02X}", uart.mcr().bits()),
            ("lsr", []) => format!("ok {:02X}", uart.lsr().bits()),
            ("msr", []) => format!("ok {:02X}", uart.msr().bits()),
            ("spr", []) => format!("ok {:02X}", uart.spr()),
            ("dll_dlm", []) => {
                let (dll, dlm) = uart.dll_dlm();
                format!("ok {dll:02X} {dlm:02X}")
            }
            ("config", []) => format!("ok {}", config_text(uart.config())),
            ("fifo", []) => format!("ok {}", flag_text(uart.fifo_enabled())),
            ("dump", []) => {
                let dump = uart.config_register_dump();
                let bytes = [
                    dump.ier.bits(),
                    dump.isr.bits(),
                    dump.lcr.bits(),
                    dump.mcr.bits(),
                    dump.lsr.bits(),
                    dump.msr.bits(),
                    dump.spr,
                    dump.dll,
                    dump.dlm,
                ];
                format!("ok {}", hex(&bytes))
            }
            // SAFETY: the device answers every offset.
            ("raw_read", [offset]) => {
                format!("ok {:02X}", unsafe { uart.backend_mut().read(number(offset)) })
            }
            ("raw_write", [offset, value]) => {
                // SAFETY: the device takes every offset.
                unsafe { uart.backend_mut().write(number(offset), byte(value)) };
                "ok".into()
            }
            _ => wrong(&format!("not a call: {}", words.join(" "))),
        };
        if self.uart.backend().watch.used_up.is_some() {
            marks.push("budget");
        }
        let (lsr_saved, msr_saved) = saved.unwrap_or_else(|| self.saved());
        let accesses: Vec<String> = self.uart.backend().log.iter().map(Access::to_string).collect();
        let accesses = if accesses.is_empty() { "-".into() } else { accesses.join(" ") };
        let line = format!(
            "{answer} | {lsr_saved:02X} {msr_saved:02X} {:02X} {} | {accesses}",
            self.uart.config().interrupts.bits(),
            flag_text(self.uart.fifo_enabled()),
        );
        Outcome { answer: line, marks, fruitless }
    }

    /// The answer of an exact transfer, and its fruitless polls.
    fn exact(&self, done: Option<()>) -> (String, u32) {
        let watch = &self.uart.backend().watch;
        let head = match (done, watch.used_up) {
            (None, Some(wait)) => format!("no 9 {wait}"),
            _ => "ok".into(),
        };
        (head, watch.fruitless)
    }

    fn moved(&self, counts: impl Fn(&Access) -> bool) -> usize {
        self.uart.backend().log.iter().filter(|access| counts(access)).count()
    }

    /// The answer of the loopback test, the caller's 16 places, and the saved bits where the test was cut
    /// after it had switched the device over.
    fn loopback(
        &mut self,
        done: Option<Result<(), LoopbackError>>,
        lsr_before: u8,
    ) -> (String, Vec<u8>, Option<(u8, u8)>) {
        let place = vec![PATTERN; 16];
        let message_returned = self.uart.backend().watch.message_returned();
        match done {
            Some(Ok(())) => {
                assert!(message_returned);
                ("ok".into(), place, None)
            }
            Some(Err(LoopbackError::SendError(e))) => (format!("no 15 {}", send_refusal(e)), place, None),
            Some(Err(LoopbackError::UnexpectedLoopbackByte { expected, actual })) => {
                assert_eq!(expected, TEST_BYTE);
                (format!("no 16 {actual:02X}"), place, None)
            }
            Some(Err(LoopbackError::UnexpectedLoopbackMsg { expected, .. })) => {
                assert_eq!(expected, TEST_MESSAGE);
                assert!(message_returned);
                let read: Vec<u8> = self
                    .uart
                    .backend()
                    .log
                    .iter()
                    .filter_map(|access| match access {
                        Access::Read(0, value) => Some(*value),
                        _ => None,
                    })
                    .collect();
                // drained bytes and the test byte were read before
                ("no 17".into(), read[read.len() - 16..].to_vec(), None)
            }
            None => {
                let wait = self.uart.backend().watch.used_up.unwrap_or_default();
                let answer = format!("no 9 {wait}");
                if !self.uart.backend().watch.entered {
                    return (answer, place, None);
                }
                self.ended = true;
                (answer, place, Some(self.restore(lsr_before)))
            }
        }
    }

    /// What the loopback test does at its end, done for a test that was cut: the accesses, and the saved
    /// bits after them. A rule of ours, as the compared driver is still waiting.
    fn restore(&mut self, lsr_before: u8) -> (u8, u8) {
        let (mut old_mcr, mut old_ier, mut old_msr) = (0, 0, 0);
        let mut lsr_saved = lsr_before;
        for (place, access) in self.uart.backend().log.iter().enumerate() {
            match *access {
                Access::Read(4, value) if place == 0 => old_mcr = value,
                Access::Read(1, value) => old_ier = value,
                Access::Read(5, value) => lsr_saved |= value & 0x1E,
                Access::Read(6, value) => {
                    old_msr = value;
                    break;
                }
                _ => {}
            }
        }
        let msr_saved = self.saved().1;
        let device = self.uart.backend_mut();
        let wait = device.watch.used_up.take();
        device.watch.stop();
        // SAFETY: the device answers every offset.
        let msr = unsafe {
            device.write(4, old_mcr & !0x08);
            let msr = device.read(6);
            device.write(4, old_mcr);
            device.write(1, old_ier);
            msr
        };
        device.watch.used_up = wait;
        let changed = old_msr ^ msr;
        let changes = (changed >> 4 & 1)
            | (changed >> 5 & 1) << 1
            | (changed >> 6 & !msr >> 6 & 1) << 2
            | (changed >> 7 & 1) << 3;
        (lsr_saved, msr_saved | changes)
    }
}

/// What the compared functions themselves answer to an `init` line that carries a mark for its values.
pub fn told_init(words: &[&str]) -> String {
    let config = config(&words[1..10]);
    match calc_divisor(config.frequency, config.baud_rate.to_integer(), config.prescaler_division_factor) {
        Ok(divisor) => format!("goes on with divisor {divisor}"),
        Err(e) => divisor_refusal(e),
    }
}
