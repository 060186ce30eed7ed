//! What a host does at the registers (K14), as records.

use crate::cases::packets::{mode_select, Packet};
use crate::cases::stream::Stream;
use crate::limits::BOUND;
use crate::registers::{Register, Transfer, PACKET};

/// The byte count, low then high.
pub fn limit(stream: &mut Stream, limit: u16) {
    let [high, low] = limit.to_be_bytes();
    stream.write(Register::CountLow, low);
    stream.write(Register::CountHigh, high);
}

/// The command A0h.
pub fn begin(stream: &mut Stream) {
    stream.write(Register::Command, PACKET);
}

/// Data writes, of a packet or a list.
pub fn enter(stream: &mut Stream, bytes: &[u8]) {
    for &byte in bytes {
        stream.write(Register::Data, byte);
    }
}

/// The command and a whole packet.
pub fn packet(stream: &mut Stream, packet: &Packet) {
    begin(stream);
    enter(stream, packet);
}

/// So many data reads.
pub fn read(stream: &mut Stream, count: usize) {
    for _ in 0..count {
        stream.read();
    }
}

/// Data reads up to the end of the run that is on its way, if one is.
pub fn read_run(stream: &mut Stream) {
    let registers = stream.registers();
    if matches!(registers.transfer, Transfer::Answer(_)) {
        let left = registers.left();
        read(stream, left);
    }
}

/// Data reads until status ends the transfer: no answer has more runs than bytes.
pub fn read_all(stream: &mut Stream) {
    for _ in 0..BOUND {
        if !matches!(stream.registers().transfer, Transfer::Answer(_)) {
            return;
        }
        read_run(stream);
    }
}

/// A packet with this limit, and all of its answer.
pub fn ask(stream: &mut Stream, count: u16, asked: &Packet) {
    limit(stream, count);
    ask_again(stream, asked);
}

/// A packet with the limit that the registers hold, and all of its answer.
pub fn ask_again(stream: &mut Stream, asked: &Packet) {
    packet(stream, asked);
    read_all(stream);
}

/// 55h for 16 bytes and its list.
pub fn select(stream: &mut Stream, list: &[u8; 16]) {
    packet(stream, &mode_select(16));
    enter(stream, list);
}
