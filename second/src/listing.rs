//! What the listing program must print for a table file and a packet file.

use std::fmt::Write;

use crate::drive::State;
use crate::limits::{BOUND, LISTING_PACKETS, PACKET};
use crate::packet;
use crate::replay::hex;

pub fn print(table_file: &[u8], packet_file: &[u8]) -> String {
    // "Over 49,152 bytes it prints only "too long"."
    if packet_file.len() > LISTING_PACKETS {
        return "too long\n".to_string();
    }
    // "A table file over the bound is cut one byte past it, and so unfit."
    let table = &table_file[..table_file.len().min(BOUND + 1)];
    let mut memory = vec![0u8; BOUND];
    // "powers on loaded"; K3: "A second form, which the listing program calls"
    let mut state = State::READY.power_on_without_change();
    // K4's parameter list: none is lent.
    let list = [];
    let mut out = "n st key asc ascq len data start count\n".to_string();
    // "a short last packet is handed on as it is"
    for (packet, n) in packet_file.chunks(PACKET).zip(1..) {
        let reply = packet::perform(state, table, &list, packet, &mut memory);
        state = reply.next;
        match reply.refusal {
            // K6: "the listing program prints it after the 4"
            Some(refusal) => writeln!(out, "{n} refused {}", refusal.text(' ')),
            None => writeln!(
                out,
                "{n} {:02X} {} {} {} {} {}",
                reply.status,
                state.sense.text(),
                reply.length,
                hex(&memory[..reply.length]),
                reply.start,
                reply.count,
            ),
        }
        .expect("a String takes it");
    }
    out
}
