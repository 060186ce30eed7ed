//! Short ways to make a call, for the tests.
#![allow(dead_code)]

use second::cases::sheet::disc_e;
use second::drive::State;
use second::limits::BOUND;
use second::packet::{perform, Reply};
use second::refusal::Refusal;
use second::sense::Sense;

/// A packet on Table E with a memory of the bound's size, filled with EEh.
pub fn on_e(state: State, packet: &[u8]) -> (Reply, Vec<u8>) {
    on(state, &disc_e().bytes(), packet)
}

pub fn on(state: State, table: &[u8], packet: &[u8]) -> (Reply, Vec<u8>) {
    on_with(state, table, &[], packet)
}

/// A packet with a parameter list lent (K4).
pub fn on_with(state: State, table: &[u8], list: &[u8], packet: &[u8]) -> (Reply, Vec<u8>) {
    let mut memory = vec![0xEE; BOUND];
    let reply = perform(state, table, list, packet, &mut memory);
    assert!(memory[reply.length..].iter().all(|&byte| byte == 0xEE));
    if reply.status == 2 || reply.refusal.is_some() {
        assert_eq!((reply.length, reply.start, reply.count), (0, 0, 0));
    }
    (reply, memory)
}

pub fn good(state: State, packet: &[u8]) -> Vec<u8> {
    let (reply, memory) = on_e(state, packet);
    assert_eq!((reply.refusal, reply.status), (None, 0));
    memory[..reply.length].to_vec()
}

/// The bytes of a GOOD packet on this table, loaded.
pub fn good_on(table: &[u8], packet: &[u8]) -> Vec<u8> {
    let (reply, memory) = on(State::READY, table, packet);
    assert_eq!((reply.refusal, reply.status), (None, 0));
    memory[..reply.length].to_vec()
}

pub fn check(state: State, packet: &[u8]) -> Sense {
    let (reply, _) = on_e(state, packet);
    assert_eq!((reply.refusal, reply.status), (None, 2));
    reply.next.sense
}

pub fn number(state: State, table: &[u8], packet: &[u8]) -> u8 {
    told(state, table, packet).0
}

/// The number of a packet's refusal and the rule that it carries.
pub fn told(state: State, table: &[u8], packet: &[u8]) -> (u8, u8) {
    let (reply, _) = on(state, table, packet);
    if reply.refusal.is_some() {
        assert_eq!((reply.status, reply.next), (0, state));
    }
    both(reply.refusal)
}

/// A refusal's number and rule, or zeros.
pub fn both(refusal: Option<Refusal>) -> (u8, u8) {
    refusal.map_or((0, 0), |refusal| (refusal.number(), refusal.rule()))
}

pub fn number_of<T>(result: &Result<T, Refusal>) -> u8 {
    result.as_ref().err().map_or(0, |refusal| refusal.number())
}
