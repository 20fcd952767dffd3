//! Lines that need no device: calculations, encodings, constants and the constructors' refusals.

use crate::play::{Outcome, divisor_refusal, divisor_rule};
use crate::text::*;
use std::cmp::Ordering;
use std::num::NonZeroUsize;
use std::panic::catch_unwind;
use std::ptr::NonNull;
use uart_16550::backend::{Backend, MmioBackend, PioBackend};
use uart_16550::spec::registers::*;
use uart_16550::spec::*;
use uart_16550::{BaudRate, Config, ConfigRegisterDump, InvalidAddressError, Uart16550};

fn rate_refusal(error: NonIntegerBaudRateError) -> String {
    format!("no 19 {} {} {}", error.frequency, error.divisor, optional_text(error.prescaler_division_factor))
}

fn address_refusal(error: InvalidAddressError) -> String {
    match error {
        InvalidAddressError::InvalidStride(stride) => format!("no 1 {stride}"),
        InvalidAddressError::InvalidBaseAddress(base) => format!("no 2 {base}"),
    }
}

/// The refusal of values that the compared sources only assert in a debug build.
fn rate_rule(frequency: u32, divisor: u32, prescaler: Option<u32>) -> Option<Outcome> {
    if frequency == 0 {
        Some(Outcome::marked("no 3".into(), "zero-frequency"))
    } else if divisor == 0 {
        Some(Outcome::marked("no 18".into(), "zero-divisor"))
    } else if prescaler.is_some_and(|p| p > 15) {
        Some(Outcome::marked("no 5".into(), "prescaler"))
    } else {
        None
    }
}

fn interrupt_text(interrupt: InterruptType) -> &'static str {
    match interrupt {
        InterruptType::ReceiverLineStatus => "ReceiverLineStatus",
        InterruptType::ReceivedDataReady => "ReceivedDataReady",
        InterruptType::ReceptionTimeout => "ReceptionTimeout",
        InterruptType::TransmitterHoldingRegisterEmpty => "TransmitterHoldingRegisterEmpty",
        InterruptType::ModemStatus => "ModemStatus",
        InterruptType::DmaReceptionEndOfTransfer => "DmaReceptionEndOfTransfer",
        InterruptType::DmaTransmissionEndOfTransfer => "DmaTransmissionEndOfTransfer",
    }
}

/// The named bits of a register, in the order of their declaration.
fn bits(register: &str) -> String {
    macro_rules! list {
        ($Name:ident: $($Flag:ident)*) => {
            [$($Name::$Flag.bits()),*].map(|bit| format!("{bit:02X}")).join(" ")
        };
    }
    match register {
        "ier" => list!(IER: DATA_READY THR_EMPTY RECEIVER_LINE_STATUS MODEM_STATUS
            _RESERVED0 _RESERVED1 DMA_RX_END DMA_TX_END),
        "isr" => list!(ISR: INTERRUPT_STATUS IIC_0 IIC_1 IIC_2 DMA_RX_END DMA_TX_END
            FIFOS_ENABLED0 FIFOS_ENABLED1),
        "fcr" => list!(FCR: FIFO_ENABLE RX_FIFO_RESET TX_FIFO_RESET DMA_MODE ENABLE_DMA_END
            _RESERVED0 RX_FIFO_TRIGGER_LEVEL0 RX_FIFO_TRIGGER_LEVEL1),
        "lcr" => list!(LCR: WORD_LENGTH0 WORD_LENGTH1 MORE_STOP_BITS PARITY0 PARITY1 PARITY2
            SET_BREAK DLAB),
        "mcr" => list!(MCR: DTR RTS OUT_1 OUT_2_INT_ENABLE LOOP_BACK _RESERVED0 _RESERVED1
            _RESERVED2),
        "lsr" => list!(LSR: DATA_READY OVERRUN_ERROR PARITY_ERROR FRAMING_ERROR BREAK_INTERRUPT
            THR_EMPTY TRANSMITTER_EMPTY FIFO_DATA_ERROR),
        "msr" => list!(MSR: DELTA_CTS DELTA_DSR TRAILING_EDGE_RI DELTA_CD CTS DSR RI CD),
        "psd" => list!(PSD: PDF0 PDF1 PDF2 PDF3 _RESERVED0 _RESERVED1 _RESERVED2 _RESERVED3),
        _ => wrong(&format!("not a register: {register}")),
    }
}

/// The values of the listed divisors, in their order: the number in each variant's name.
fn divisors() -> String {
    let last = Divisor::Divisor57600 as u16;
    let names = (0..=last).map(|place| {
        // SAFETY: the places of the variants run from 0 to that of the last one without a gap.
        let divisor: Divisor = unsafe { std::mem::transmute(place) };
        format!("{divisor:?}").trim_start_matches("Divisor").to_string()
    });
    names.collect::<Vec<_>>().join(" ")
}

/// Where a write to a register lands, counted from the base address.
fn mmio_place(stride: u8, offset: u8) -> usize {
    let mut memory = vec![0_u8; 8 * 256];
    let base = NonNull::new(memory.as_mut_ptr()).unwrap_or_else(|| wrong("no memory"));
    // SAFETY: all eight registers lie in the memory that was just made.
    unsafe {
        let Ok(mut uart) = Uart16550::<MmioBackend>::new_mmio(base, stride) else {
            wrong("a stride without registers");
        };
        uart.backend_mut().write(offset, 0x5A);
        assert_eq!(uart.backend_mut().read(offset), 0x5A);
    }
    memory.iter().position(|byte| *byte == 0x5A).unwrap_or_else(|| wrong("a write that left no trace"))
}

/// The answer of a line without a device; nothing where it is no such line. With `told` the compared
/// function's own answer is given where a rule of ours would replace it.
pub fn pure(words: &[&str], told: bool) -> Option<Outcome> {
    let ok = |text: String| Some(Outcome::plain(format!("ok {text}")));
    match (words[0], &words[1..]) {
        ("divisor", [f, r, p]) => {
            let (f, r, p) = (number(f), number(r), optional(p));
            let answer = match calc_divisor(f, r, p) {
                Ok(divisor) => format!("ok {divisor}"),
                Err(e) => divisor_refusal(e),
            };
            divisor_rule(f, r, p).filter(|_| !told).or(Some(Outcome::plain(answer)))
        }
        ("rate", [f, d, p]) => {
            let (f, d, p) = (number(f), number(d), optional(p));
            let answer = match calc_baud_rate(f, d, p) {
                Ok(rate) => format!("ok {rate}"),
                Err(e) => rate_refusal(e),
            };
            rate_rule(f, d, p).filter(|_| !told).or(Some(Outcome::plain(answer)))
        }
        ("frequency", [r, d, p]) => {
            let (r, d, p): (u32, u32, _) = (number(r), number(d), optional(p));
            let answer = calc_frequency(r, d, p);
            let product = u128::from(r) * u128::from(d) * 16 * (u128::from(p.unwrap_or(0)) + 1);
            if !told && product != u128::from(answer) {
                return Some(Outcome::marked(format!("ok {product}"), "wrapped-frequency"));
            }
            ok(answer.to_string())
        }
        ("dump_divisor", [dll, dlm]) => {
            let dump = ConfigRegisterDump { dll: byte(dll), dlm: byte(dlm), ..Default::default() };
            ok(dump.divisor().to_string())
        }
        ("dump_rate", [dll, dlm, f, p]) => {
            let dump = ConfigRegisterDump { dll: byte(dll), dlm: byte(dlm), ..Default::default() };
            let (frequency, prescaler) = (number(f), optional(p));
            let config = Config { frequency, prescaler_division_factor: prescaler, ..Config::DEFAULT };
            let answer = catch_unwind(|| rate_text(dump.baud_rate(&config)));
            if told {
                return Some(Outcome::plain(answer.map_or("panics".into(), |rate| format!("ok {rate}"))));
            }
            if let Some(refused) = rate_rule(frequency, dump.divisor().into(), prescaler) {
                let mark = if answer.is_err() { "panics" } else { refused.marks[0] };
                return Some(Outcome::marked(refused.answer, mark));
            }
            match answer {
                Ok(rate) => ok(rate),
                Err(_) => {
                    let refusal = format!("no 19 {f} {} {p}", dump.divisor());
                    Some(Outcome::marked(refusal, "panics"))
                }
            }
        }
        ("interrupt", [bits]) => {
            let isr = ISR::from_bits_retain(byte(bits));
            assert_eq!(isr.interrupt_type(), InterruptType::from_bits(byte(bits)));
            let (name, priority) = match isr.interrupt_type() {
                Some(interrupt) => (interrupt_text(interrupt), interrupt.priority().to_string()),
                None => ("-", "-".into()),
            };
            ok(format!(
                "{name} {priority} {} {}",
                flag_text(isr.has_pending_interrupt()),
                flag_text(isr.fifo_enabled())
            ))
        }
        ("level_from_raw", [bits]) => ok(level_text(FifoTriggerLevel::from_raw_bits(byte(bits))).into()),
        ("level_to_raw", [word]) => ok(format!("{:02X}", level(word).to_raw_bits())),
        ("fcr_level", [bits]) => ok(level_text(FCR::from_bits_retain(byte(bits)).fifo_trigger_level()).into()),
        ("fcr_set_level", [bits, word]) => {
            let fcr = FCR::from_bits_retain(byte(bits)).set_fifo_trigger_level(level(word));
            ok(format!("{:02X}", fcr.bits()))
        }
        ("word_from_raw", [bits]) => ok(word_length_text(WordLength::from_raw_bits(byte(bits))).into()),
        ("word_to_raw", [word]) => ok(format!("{:02X}", word_length(word).to_raw_bits())),
        ("word_from_integer", [value]) => {
            let length = WordLength::from_integer(number(value));
            ok(format!("{} {}", word_length_text(length), length.to_integer()))
        }
        ("parity_from_raw", [bits]) => ok(parity_text(Parity::from_raw_bits(byte(bits))).into()),
        ("parity_to_raw", [word]) => ok(format!("{:02X}", parity(word).to_raw_bits())),
        ("lcr_fields", [bits]) => {
            let lcr = LCR::from_bits_retain(byte(bits));
            ok(format!("{} {}", word_length_text(lcr.word_length()), parity_text(lcr.parity())))
        }
        ("lcr_set_word", [bits, word]) => {
            let lcr = LCR::from_bits_retain(byte(bits)).set_word_length(word_length(word));
            ok(format!("{:02X}", lcr.bits()))
        }
        ("lcr_set_parity", [bits, word]) => {
            let lcr = LCR::from_bits_retain(byte(bits)).set_parity(parity(word));
            ok(format!("{:02X}", lcr.bits()))
        }
        ("has_error", [bits]) => ok(flag_text(LSR::from_bits_retain(byte(bits)).has_error()).into()),
        ("pdf", [bits]) => ok(PSD::from_bits_retain(byte(bits)).pdf().to_string()),
        ("set_pdf", [bits, factor]) => {
            let psd = PSD::from_bits_retain(byte(bits)).set_pdf(number(factor));
            ok(format!("{:02X}", psd.bits()))
        }
        ("baud_from_integer", [value]) => ok(rate_text(BaudRate::from_integer(number(value)))),
        ("baud_to_integer", [word]) => ok(rate(word).to_integer().to_string()),
        ("baud_order", [a, b]) => {
            let (a, b) = (rate(a), rate(b));
            let order = match a.cmp(&b) {
                Ordering::Less => "less",
                Ordering::Equal => "equal",
                Ordering::Greater => "greater",
            };
            ok(format!("{order} {}", flag_text(a == b)))
        }
        ("port", [base]) => Some(Outcome::plain(
            // SAFETY: no access is made.
            match unsafe { Uart16550::<PioBackend>::new_port(number(base)) } {
                Ok(uart) => format!("ok {}", uart.backend().base()),
                Err(e) => address_refusal(e),
            },
        )),
        ("mmio", [base, stride]) => {
            let base: NonZeroUsize = number(base);
            // SAFETY: no access is made.
            let made = unsafe { Uart16550::<MmioBackend>::new_mmio_from_address(base, number(stride)) };
            Some(Outcome::plain(match made {
                Ok(uart) => format!("ok {} {}", uart.backend().base().addr(), uart.backend().stride()),
                Err(e) => address_refusal(e),
            }))
        }
        ("mmio_place", [stride, offset]) => ok(mmio_place(number(stride), number(offset)).to_string()),
        ("constants", []) => {
            let o = [
                offsets::DATA,
                offsets::IER,
                offsets::ISR,
                offsets::FCR,
                offsets::LCR,
                offsets::MCR,
                offsets::LSR,
                offsets::MSR,
                offsets::SPR,
                offsets::DLL,
                offsets::DLM,
                offsets::PSD,
            ];
            let o = o.map(|offset| offset.to_string()).join(" ");
            ok(format!("{CLK_FREQUENCY_HZ} {FIFO_SIZE} {NUM_REGISTERS} {o}"))
        }
        ("bits", [register]) => ok(bits(register)),
        ("divisors", []) => ok(divisors()),
        ("default", []) => ok(config_text(&Config::default())),
        _ => None,
    }
}
