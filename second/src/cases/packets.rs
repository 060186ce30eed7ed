//! Packets by name, the bits that rules name, and packets drawn at random.

use crate::mode_page::SETTINGS;
use crate::rng::Rng;
use crate::table::{Disc, Mode};

pub type Packet = [u8; 12];

pub fn test_ready() -> Packet {
    [0; 12]
}

pub fn plain(code: u8) -> Packet {
    let mut p = [0; 12];
    p[0] = code;
    p
}

pub fn with_byte_4(code: u8, byte_4: u8) -> Packet {
    let mut p = plain(code);
    p[4] = byte_4;
    p
}

pub fn request_sense(length: u8) -> Packet {
    with_byte_4(0x03, length)
}

pub fn inquiry(length: u8) -> Packet {
    with_byte_4(0x12, length)
}

pub fn start_stop(low_bits: u8) -> Packet {
    with_byte_4(0x1B, low_bits)
}

pub const EJECT: u8 = 2;
pub const LOAD: u8 = 3;

pub fn prevent(on: u8) -> Packet {
    with_byte_4(0x1E, on)
}

pub fn capacity() -> Packet {
    plain(0x25)
}

pub fn seek(address: u32) -> Packet {
    let mut p = plain(0x2B);
    p[2..6].copy_from_slice(&address.to_be_bytes());
    p
}

pub fn read10(address: u32, count: u16) -> Packet {
    let mut p = plain(0x28);
    p[2..6].copy_from_slice(&address.to_be_bytes());
    p[7..9].copy_from_slice(&count.to_be_bytes());
    p
}

pub fn read12(address: u32, count: u32) -> Packet {
    let mut p = plain(0xA8);
    p[2..6].copy_from_slice(&address.to_be_bytes());
    p[6..10].copy_from_slice(&count.to_be_bytes());
    p
}

pub fn toc(msf: bool, format: u8, number: u8, length: u16) -> Packet {
    let mut p = plain(0x43);
    p[1] = u8::from(msf) * 2;
    p[2] = format;
    p[6] = number;
    p[7..9].copy_from_slice(&length.to_be_bytes());
    p
}

pub fn play(address: u32, count: u16) -> Packet {
    let mut p = read10(address, count);
    p[0] = 0x45;
    p
}

pub fn pause() -> Packet {
    plain(0x4B)
}

pub fn resume() -> Packet {
    let mut p = pause();
    p[8] = 1;
    p
}

pub fn sub_channel(msf: bool, sub_q: bool, format: u8, length: u16) -> Packet {
    let mut p = plain(0x42);
    p[1] = u8::from(msf) * 2;
    p[2] = u8::from(sub_q) * 0x40;
    p[3] = format;
    p[7..9].copy_from_slice(&length.to_be_bytes());
    p
}

/// 42h for the whole answer, by block address or by M:S:F.
pub fn position(msf: bool) -> Packet {
    sub_channel(msf, true, 1, 16)
}

/// MODE SENSE of this page control and page (K4).
pub fn mode_sense(control: u8, page: u8, length: u16) -> Packet {
    let mut p = plain(0x5A);
    p[2] = control << 6 | page;
    p[7..9].copy_from_slice(&length.to_be_bytes());
    p
}

/// MODE SELECT of this list length (K4).
pub fn mode_select(length: u16) -> Packet {
    let mut p = plain(0x55);
    p[7..9].copy_from_slice(&length.to_be_bytes());
    p
}

/// A sound list of 16 bytes for `mode_select`, zeros where nothing is looked at.
pub fn page_list(recovery: u8, retries: u8) -> [u8; 16] {
    let mut list = [0; 16];
    list[8..12].copy_from_slice(&[0x01, 0x06, recovery, retries]);
    list
}

/// GET EVENT STATUS NOTIFICATION of these classes, Polled (K7).
pub fn event_status(classes: u8, length: u16) -> Packet {
    let mut p = with_byte_4(0x4A, classes);
    p[1] = 1;
    p[7..9].copy_from_slice(&length.to_be_bytes());
    p
}

/// LOAD/UNLOAD of this pair of LoUnlo and Start, and of this slot (K11).
pub fn load_unload(low_bits: u8, slot: u8) -> Packet {
    let mut p = with_byte_4(0xA6, low_bits);
    p[8] = slot;
    p
}

pub fn load(slot: u8) -> Packet {
    load_unload(3, slot)
}

pub fn unload() -> Packet {
    load_unload(2, 0)
}

/// MECHANISM STATUS of this length (K11).
pub fn mechanism_status(length: u16) -> Packet {
    let mut p = plain(0xBD);
    p[8..10].copy_from_slice(&length.to_be_bytes());
    p
}

/// The codes the board answers, K2's three, K4's two and K7's one last.
pub const CODES: [u8; 16] = [
    0x00, 0x03, 0x12, 0x1B, 0x1E, 0x25, 0x28, 0x2B, 0x43, 0xA8, 0x45, 0x4B, 0x42, 0x5A, 0x55, 0x4A,
];

/// One packet for every command and branch, on any small disc.
pub fn one_of_each() -> Vec<Packet> {
    let mut evpd = inquiry(36);
    evpd[1] = 1;
    vec![
        test_ready(),
        request_sense(18),
        request_sense(0),
        inquiry(36),
        evpd,
        start_stop(0),
        start_stop(1),
        start_stop(EJECT),
        start_stop(LOAD),
        prevent(0),
        prevent(1),
        capacity(),
        read10(0, 1),
        read12(149, 1),
        seek(0),
        toc(false, 0, 0, 804),
        toc(true, 1, 0, 804),
        toc(false, 2, 1, 12),
        play(150, 1),
        pause(),
        resume(),
        position(false),
        sub_channel(true, false, 0, 3),
        mode_sense(0, 1, 16),
        mode_select(0),
        mode_select(16),
        event_status(0x18, 8),
        plain(0x47),
    ]
}

/// The bits of a packet that some rule names, by operation code.
pub fn named_bits(code: u8) -> Packet {
    let mut bits = plain(0xFF);
    match code {
        0x03 => bits[4] = 0xFF,
        0x12 => {
            bits[1] = 0x01;
            bits[4] = 0xFF;
        }
        0x1B => bits[4] = 0x03,
        0x1E => bits[4] = 0x01,
        0x28 | 0x45 => {
            bits[2..6].fill(0xFF);
            bits[7..9].fill(0xFF);
        }
        0x2B => bits[2..6].fill(0xFF),
        0x42 => {
            bits[1] = 0x02;
            bits[2] = 0x40;
            bits[3] = 0xFF;
            bits[7..9].fill(0xFF);
        }
        0x4A => {
            bits[1] = 0x01;
            bits[4] = 0xFF;
            bits[7..9].fill(0xFF);
        }
        0x4B => bits[8] = 0x01,
        0x55 => bits[7..9].fill(0xFF),
        0x5A => {
            bits[2] = 0xFF;
            bits[7..9].fill(0xFF);
        }
        0x43 => {
            bits[1] = 0x02;
            bits[2] = 0x0F;
            bits[6..9].fill(0xFF);
        }
        0xA8 => bits[2..10].fill(0xFF),
        0xA6 => {
            bits[4] = 0x03;
            bits[8] = 0xFF;
        }
        0xBD => bits[8..10].fill(0xFF),
        _ => {}
    }
    bits
}

/// "Bits of a packet that no rule names are not looked at": fills them.
pub fn with_junk(rng: &mut Rng, packet: Packet) -> Packet {
    let named = named_bits(packet[0]);
    let mut p = packet;
    for i in 0..12 {
        p[i] |= rng.byte() & !named[i];
    }
    p
}

/// The numbers of a disc around which things change.
#[derive(Clone, Debug)]
pub struct Marks {
    pub blocks: Vec<u32>,
    pub end: u32,
    /// First block and end of each audio track.
    pub audio: Vec<(u32, u32)>,
    pub numbers: Vec<u8>,
}

impl Marks {
    /// Marks of a disc; Disc E's numbers where there is none.
    pub fn of(disc: Option<&Disc>) -> Marks {
        let Some(disc) = disc else {
            return Marks {
                blocks: vec![0, 150, 300],
                end: 300,
                audio: vec![(150, 300)],
                numbers: vec![0, 1, 2, 3, 0xAA],
            };
        };
        let mut blocks = vec![0];
        for session in &disc.sessions {
            blocks.extend(session.tracks.iter().map(|track| track.start));
            blocks.push(session.lead_out);
        }
        blocks.dedup();
        let (first, last) = (disc.first_track(), disc.last_track());
        let sessions = disc.last_session().number;
        let mut numbers = vec![0, 1, 2, 99, 100, 0x9F, 0xA0, 0xA9, 0xAA, 0xAB, 0xFF];
        numbers.extend([first - 1, first, first + 1, last - 1, last, last + 1]);
        numbers.extend([sessions - 1, sessions, sessions + 1]);
        let audio = disc.extents().into_iter();
        let audio = audio.filter(|(track, _, _)| track.is(Mode::Audio));
        Marks {
            blocks,
            end: disc.end(),
            audio: audio.map(|(_, start, end)| (start, end)).collect(),
            numbers,
        }
    }

    /// A run of audio blocks, where the disc has some: all or the end of a
    /// track, or any part of it.
    pub fn audio_run(&self, rng: &mut Rng) -> (u32, u16) {
        if self.audio.is_empty() {
            return (self.address(rng), rng.below(3) as u16);
        }
        let (start, end) = rng.pick(&self.audio);
        let from = match rng.below(3) {
            0 => start,
            1 => end - 1,
            _ => rng.range(start as usize, end as usize - 1) as u32,
        };
        let left = (end - from).min(65_535) as usize;
        let count = match rng.below(3) {
            0 => left,
            1 => rng.range(1, left.min(40)),
            _ => rng.range(0, left),
        };
        (from, count as u16)
    }

    pub fn address(&self, rng: &mut Rng) -> u32 {
        match rng.below(12) {
            0..=5 => {
                let mark = rng.pick(&self.blocks);
                mark.wrapping_add(rng.below(5) as u32).wrapping_sub(2)
            }
            6 | 7 => rng.below(self.end as usize) as u32,
            8 => rng.pick(&[self.end - 1, self.end, self.end + 1]),
            9 => rng.pick(&[0, 1, 449_848, 449_849, 449_850, 0x7FFF_FFFF, 0x8000_0000]),
            10 => rng.pick(&[u32::MAX, u32::MAX - 1, u32::MAX - self.end]),
            _ => rng.long(),
        }
    }

    /// A count that ends at, before or after something.
    pub fn count(&self, rng: &mut Rng, address: u32) -> u32 {
        let near = rng.below(3) as u32;
        match rng.below(14) {
            0..=2 => near,
            3..=7 => {
                let mark = rng.pick(&self.blocks);
                let to = mark.wrapping_add(near).wrapping_sub(1);
                to.wrapping_sub(address)
            }
            8 | 9 => self
                .end
                .wrapping_sub(address)
                .wrapping_add(near)
                .wrapping_sub(1),
            10 => rng.pick(&[65_535, 65_536, 0x7FFF_FFFF, 0x8000_0000, u32::MAX]),
            // A sum that would come round past 32 bits.
            11 | 12 => 0u32
                .wrapping_sub(address)
                .wrapping_add(rng.below(400) as u32),
            _ => rng.long() >> rng.below(32),
        }
    }
}

/// Lengths around every answer's size.
pub const LENGTHS: [u16; 35] = [
    0, 1, 2, 3, 4, 5, 7, 8, 11, 12, 13, 15, 16, 17, 18, 19, 20, 28, 35, 36, 37, 47, 48, 255, 256,
    803, 804, 805, 4_359, 4_360, 4_361, 6_537, 6_538, 6_539, 65_535,
];

/// 45h, 4Bh or 42h (K2): a PLAY that is GOOD as often as one near a boundary, a
/// 42h that is GOOD most of the time.
pub fn any_audio(rng: &mut Rng, marks: &Marks) -> Packet {
    match rng.below(12) {
        0 | 1 => {
            let (address, count) = marks.audio_run(rng);
            play(address, count)
        }
        2 | 3 => {
            let address = marks.address(rng);
            play(address, marks.count(rng, address) as u16)
        }
        4 | 5 => pause(),
        6 | 7 => resume(),
        8 => {
            let (format, length) = (rng.byte() % 4, rng.pick(&LENGTHS));
            sub_channel(rng.one_in(2), rng.one_in(2), format, length)
        }
        _ => position(rng.one_in(2)),
    }
}

/// 5Ah or 55h (K4), most often of page 01h, and of a length that a list may have.
pub fn any_mode(rng: &mut Rng) -> Packet {
    match rng.below(9) {
        0..=3 => {
            let length = rng.pick(&LENGTHS);
            mode_sense(rng.byte() % 4, 1, length)
        }
        4 => mode_sense(rng.byte() % 4, rng.byte() & 0x3F, 16),
        5 | 6 => mode_select(16),
        7 => mode_select(0),
        _ => mode_select(rng.pick(&[1, 8, 12, 15, 17, 24, 256, 4_096, 65_535])),
    }
}

/// 4Ah (K7), Polled but for a few, most often of classes that are supported and of
/// a length next to the five that clear or the eight that there are.
pub fn any_event_status(rng: &mut Rng) -> Packet {
    let classes = match rng.below(8) {
        0 => rng.byte(),
        1 => rng.byte() & !0x18,
        2 => 0x08,
        3 | 4 => 0x10,
        5 => rng.byte() | 0x10,
        _ => 0x18,
    };
    let length = rng.pick(&[
        0, 2, 3, 4, 4, 5, 5, 6, 7, 8, 8, 8, 9, 255, 256, 0x0400, 65_535,
    ]);
    let mut p = event_status(classes, length);
    p[1] = u8::from(rng.below(10) > 0);
    p
}

/// A parameter list (K4): sound, empty, of another length, or wrong in a place.
pub fn any_list(rng: &mut Rng) -> Vec<u8> {
    let mut list = page_list(rng.pick(&SETTINGS), rng.byte()).to_vec();
    if rng.one_in(2) {
        // Nothing here is looked at.
        for place in (0..8).chain(12..16) {
            list[place] = rng.byte();
        }
    }
    match rng.below(10) {
        0 => list.clear(),
        1 => {
            let length = rng.pick(&[1, 7, 8, 9, 12, 15, 17, 24, 32, 272]);
            list.resize(length, 0x01);
        }
        2 => list[8] = rng.pick(&[0x81, 0x00, 0x02, 0x41, 0x3F]),
        3 => list[9] = rng.pick(&[0x0A, 0x05, 0x07, 0x00, 0x86]),
        4 => list[10] = rng.byte(),
        5 => list[10] ^= 1 << rng.below(8),
        _ => {}
    }
    list
}

/// Any packet of 12 bytes, most often a known command near a boundary.
pub fn any_packet(rng: &mut Rng, marks: &Marks) -> Packet {
    let length = rng.pick(&LENGTHS);
    let short = if rng.one_in(4) {
        rng.byte()
    } else {
        length.min(255) as u8
    };
    let packet = match rng.below(144) {
        100..=123 => any_audio(rng, marks),
        124..=133 => any_mode(rng),
        134..=143 => any_event_status(rng),
        0..=5 => test_ready(),
        6..=13 => request_sense(short),
        14..=20 => {
            let mut p = inquiry(short);
            p[1] = u8::from(rng.one_in(4));
            p
        }
        21..=26 => start_stop(rng.pick(&[0, 1, 1, 2, 3, 3])),
        27..=31 => prevent(rng.byte() & 1),
        32..=35 => capacity(),
        36..=41 => seek(marks.address(rng)),
        42..=54 => {
            let address = marks.address(rng);
            read10(address, marks.count(rng, address) as u16)
        }
        55..=68 => {
            let address = marks.address(rng);
            read12(address, marks.count(rng, address))
        }
        69..=92 => {
            let format = match rng.below(12) {
                0..=5 => 0,
                6 | 7 => 1,
                8 | 9 => 2,
                _ => rng.below(16) as u8,
            };
            let number = if rng.one_in(5) {
                rng.byte()
            } else {
                rng.pick(&marks.numbers)
            };
            toc(rng.one_in(2), format, number, length)
        }
        93..=97 => plain(rng.byte()),
        _ => rng.bytes(12).try_into().expect("12 bytes"),
    };
    if rng.one_in(2) {
        with_junk(rng, packet)
    } else {
        packet
    }
}
