//! Counts the fruitless polls of a call by looking at its accesses.
//!
//! The compared driver has no budgets: where it finds nothing, it asks again for ever. The watch counts
//! those polls by the rule of the budgets, so that a call can be cut where its budget is used up.

/// The byte and the message that the loopback test sends.
pub const TEST_BYTE: u8 = 0x42;
pub const TEST_MESSAGE: [u8; 16] = *b"hello world!1337";

const DATA: u8 = 0;
const FCR: u8 = 2;
const MCR: u8 = 4;
const LSR: u8 = 5;
const MSR: u8 = 6;

const DATA_READY: u8 = 0x01;
const THR_EMPTY: u8 = 0x20;
const TRANSMITTER_EMPTY: u8 = 0x40;
const CTS: u8 = 0x10;

/// Where a call stands.
#[derive(Clone, Copy, PartialEq)]
enum Step {
    /// Nothing is counted: another call, or a part of a call without a wait.
    Other,
    /// `init` before its modem control write.
    SettingUp,
    /// A wait for the transmitter, of `init` or of the loopback test.
    Transmitter,
    /// The loopback test between that wait and its FIFO control write.
    Entering,
    Drain,
    SendByte,
    TestByte,
    SendMessage,
    ReceiveMessage,
    Receive,
    Send,
}

/// The calls that wait.
#[derive(Clone, Copy, PartialEq)]
pub enum Waiting {
    Init,
    Loopback,
    Receive,
    Send,
}

pub struct Watch {
    step: Step,
    loopback: bool,
    budget: u32,
    /// The configured data bits, as a mask.
    mask: u8,
    pub fruitless: u32,
    /// The wait in which the budget was used up: the next access is not made.
    pub used_up: Option<&'static str>,
    /// Whether the loopback test has switched the device over, so that something is to be restored.
    pub entered: bool,
    /// Message bytes written in a row, and read.
    written: usize,
    burst: usize,
    returned: usize,
    /// Whether the bits above the data bits of a returned byte were set right, for the driver to go on.
    pub byte_completed: bool,
    pub message_completed: bool,
}

impl Watch {
    pub fn idle() -> Watch {
        Watch {
            step: Step::Other,
            loopback: false,
            budget: 0,
            mask: 0xFF,
            fruitless: 0,
            used_up: None,
            entered: false,
            written: 0,
            burst: 0,
            returned: 0,
            byte_completed: false,
            message_completed: false,
        }
    }

    pub fn new(call: Waiting, budget: u16, mask: u8) -> Watch {
        Watch {
            step: match call {
                Waiting::Init => Step::SettingUp,
                Waiting::Loopback => Step::Transmitter,
                Waiting::Receive => Step::Receive,
                Waiting::Send => Step::Send,
            },
            loopback: call == Waiting::Loopback,
            budget: budget.into(),
            mask,
            ..Watch::idle()
        }
    }

    /// Whether the whole message went out and came back.
    pub fn message_returned(&self) -> bool {
        self.written == TEST_MESSAGE.len() && self.returned == TEST_MESSAGE.len()
    }

    /// Counts nothing from here on.
    pub fn stop(&mut self) {
        self.step = Step::Other;
    }

    fn fruitless(&mut self, wait: &'static str) {
        self.fruitless += 1;
        if self.fruitless > self.budget {
            self.used_up = Some(wait);
        }
    }

    /// A byte that came back in the loopback test: where its data bits are those of the expected byte,
    /// the driver is shown the expected byte.
    fn completed(&self, expected: u8, raw: u8) -> u8 {
        if (raw ^ expected) & self.mask == 0 { expected } else { raw }
    }

    /// Looks at a read; answers the byte that the driver is shown.
    pub fn read(&mut self, offset: u8, value: u8) -> u8 {
        let ready = value & DATA_READY != 0;
        match (self.step, offset) {
            (Step::Transmitter, LSR) => {
                if value & TRANSMITTER_EMPTY == 0 {
                    self.fruitless("transmitter");
                } else {
                    self.step = if self.loopback { Step::Entering } else { Step::Other };
                }
            }
            (Step::Drain, LSR) if !ready => self.step = Step::SendByte,
            (Step::Drain, DATA) => self.fruitless("drain"),
            (Step::TestByte, LSR) if !ready => self.fruitless("test-byte"),
            (Step::TestByte, DATA) => {
                self.step = Step::SendMessage;
                let shown = self.completed(TEST_BYTE, value);
                self.byte_completed = shown != value;
                return shown;
            }
            // without FIFOs each byte of the message is read before the next is written
            (Step::SendMessage, LSR) if self.burst > 0 => {
                self.step = Step::ReceiveMessage;
                if !ready {
                    self.fruitless("test-message-received");
                }
            }
            (Step::SendMessage, LSR) if value & THR_EMPTY == 0 => self.fruitless("test-message-sent"),
            (Step::SendMessage, MSR) if value & CTS == 0 => self.fruitless("test-message-sent"),
            (Step::ReceiveMessage, LSR) if !ready => self.fruitless("test-message-received"),
            (Step::ReceiveMessage, DATA) => {
                let shown = self.completed(TEST_MESSAGE[self.returned], value);
                self.message_completed |= shown != value;
                self.returned += 1;
                if self.returned == TEST_MESSAGE.len() {
                    self.step = Step::Other;
                } else if self.written < TEST_MESSAGE.len() {
                    self.step = Step::SendMessage;
                    self.burst = 0;
                }
                return shown;
            }
            (Step::Receive, LSR) if !ready => self.fruitless("receive"),
            (Step::Send, LSR) if value & THR_EMPTY == 0 => self.fruitless("send"),
            (Step::Send, MSR) if value & CTS == 0 => self.fruitless("send"),
            _ => {}
        }
        value
    }

    /// Looks at a write.
    pub fn write(&mut self, offset: u8) {
        match (self.step, offset) {
            (Step::SettingUp, MCR) => self.step = Step::Transmitter,
            (Step::Entering, MCR) => self.entered = true,
            (Step::Entering, FCR) => self.step = Step::Drain,
            (Step::SendByte, DATA) => self.step = Step::TestByte,
            (Step::SendMessage, DATA) => {
                self.written += 1;
                self.burst += 1;
            }
            // the loopback test has its answer and restores
            (Step::SendByte | Step::SendMessage, MCR) => self.step = Step::Other,
            _ => {}
        }
    }
}
