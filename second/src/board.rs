//! A host at the registers (K14): it sends packets, reads their answers run by run, and
//! prints what it met. The text of the board's example is made by it.

use std::fmt::Write;

use crate::cases::packets::{capacity, inquiry, request_sense, toc, Packet};
use crate::cases::sheet::disc_e;
use crate::drive::State;
use crate::limits::BOUND;
use crate::registers::{Register, Registers, Transfer, PACKET};
use crate::replay::hex;

/// The limit that the example writes before each packet.
const LIMIT: u16 = 16;

const CHECK_CONDITION: u8 = 0x02;

/// Times that a packet is sent again: more than there are attentions to be told.
const AGAIN: usize = 8;

/// The registers with all that is lent to them.
pub struct Board {
    pub registers: Registers,
    pub state: State,
    pub table: Vec<u8>,
    pub memory: Vec<u8>,
}

/// What the host met of one packet: its status, the number of answer runs, the bytes.
#[derive(Clone, Debug, PartialEq, Eq)]
pub struct Sent {
    pub status: u8,
    pub runs: usize,
    pub bytes: Vec<u8>,
}

impl Board {
    /// "a drive with tray closed and disc E in", its response memory all 0.
    pub fn with_disc_e() -> Board {
        Board {
            registers: Registers::START,
            state: State::READY,
            table: disc_e().bytes(),
            memory: vec![0; BOUND],
        }
    }

    pub fn reset(&mut self) {
        self.state = self.registers.reset(self.state);
    }

    fn write(&mut self, register: Register, value: u8) {
        let (table, memory) = (&self.table, &mut self.memory);
        let written = self
            .registers
            .write(register, value, self.state, table, memory);
        self.state = written.next;
    }

    /// The limit, the command and the packet; then each run as long as the byte count says,
    /// until status ends it.
    pub fn send(&mut self, limit: u16, packet: &Packet) -> Sent {
        let [high, low] = limit.to_be_bytes();
        self.write(Register::CountLow, low);
        self.write(Register::CountHigh, high);
        self.write(Register::Command, PACKET);
        for &byte in packet {
            self.write(Register::Data, byte);
        }
        let (mut runs, mut bytes) = (0, Vec::new());
        while matches!(self.registers.transfer, Transfer::Answer(_)) {
            runs += 1;
            for _ in 0..self.registers.count {
                bytes.extend(self.registers.read(&self.memory));
            }
        }
        Sent {
            status: self.registers.status,
            runs,
            bytes,
        }
    }
}

/// The example's text: a header, then a line for each packet sent. Behind a CHECK
/// CONDITION the sense is asked for, and the packet sent again, until it is GOOD.
pub fn example() -> String {
    let mut text = String::from("code st runs data\n");
    let mut board = Board::with_disc_e();
    board.reset();
    for packet in [inquiry(36), toc(false, 0, 0, 804), capacity()] {
        for _ in 0..AGAIN {
            if told(&mut board, &packet, &mut text) != CHECK_CONDITION {
                break;
            }
            told(&mut board, &request_sense(18), &mut text);
        }
    }
    text
}

/// Sends a packet, adds its line, and gives its status.
fn told(board: &mut Board, packet: &Packet, text: &mut String) -> u8 {
    let sent = board.send(LIMIT, packet);
    let (code, data) = (packet[0], hex(&sent.bytes));
    writeln!(text, "{code:02X} {:02X} {} {data}", sent.status, sent.runs)
        .expect("a String takes it");
    sent.status
}
