//! P1 to P12, Table E and the four-line listing of 01.

mod common;

use common::{check, good, on_e};
use second::address::{to_msf, Msf};
use second::cases::packets::{capacity, read10, read12, toc};
use second::cases::sheet::disc_e;
use second::drive::State;
use second::{examples, listing, sense};

const E: [u8; 59] = [
    0x00, 0x39, 0x01, 0x01, //
    0x01, 0x14, 0x00, 0xA0, 0x00, 0x00, 0x00, 0x00, 0x01, 0x00, 0x00, //
    0x01, 0x10, 0x00, 0xA1, 0x00, 0x00, 0x00, 0x00, 0x02, 0x00, 0x00, //
    0x01, 0x10, 0x00, 0xA2, 0x00, 0x00, 0x00, 0x00, 0x00, 0x06, 0x00, //
    0x01, 0x14, 0x00, 0x01, 0x00, 0x00, 0x00, 0x00, 0x00, 0x02, 0x00, //
    0x01, 0x10, 0x00, 0x02, 0x00, 0x00, 0x00, 0x00, 0x00, 0x04, 0x00,
];

const READY: State = State::READY;

#[test]
fn table_e() {
    assert_eq!(disc_e().bytes(), E);
}

#[test]
fn p1_capacity() {
    assert_eq!(good(READY, &capacity()), [0, 0, 1, 0x2B, 0, 0, 8, 0]);
}

#[test]
fn p2_p3_toc() {
    let full = [
        0x00, 0x1A, 0x01, 0x02, 0x00, 0x14, 0x01, 0x00, 0x00, 0x00, 0x00, 0x00, 0x00, 0x10, 0x02,
        0x00, 0x00, 0x00, 0x00, 0x96, 0x00, 0x10, 0xAA, 0x00, 0x00, 0x00, 0x01, 0x2C,
    ];
    assert_eq!(good(READY, &toc(false, 0, 0, 804)), full);
    assert_eq!(good(READY, &toc(false, 0, 0, 4)), full[..4]);
}

#[test]
fn p4_p5_toc() {
    let lead_out = [0, 0x0A, 1, 2, 0, 0x10, 0xAA, 0, 0, 0, 6, 0];
    assert_eq!(good(READY, &toc(true, 0, 0xAA, 804)), lead_out);
    assert_eq!(check(READY, &toc(false, 0, 3, 804)), sense::BAD_FIELD);
}

#[test]
fn p6_to_p10_reads() {
    for long in [false, true] {
        let read = |address, count| {
            if long {
                read12(address, count)
            } else {
                read10(address, count as u16)
            }
        };
        let (six, _) = on_e(READY, &read(149, 1));
        assert_eq!((six.status, six.start, six.count), (0, 149, 1));
        assert_eq!(check(READY, &read(149, 2)), sense::WRONG_MODE);
        assert_eq!(check(READY, &read(149, 152)), sense::OUT_OF_RANGE);
        let (nine, _) = on_e(READY, &read(150, 0));
        assert_eq!((nine.status, nine.start, nine.count), (0, 150, 0));
        assert_eq!(check(READY, &read(300, 0)), sense::OUT_OF_RANGE);
    }
}

#[test]
fn p11_p12_addresses() {
    assert_eq!(Msf::new(99, 59, 74).address(), Ok(449_849));
    assert_eq!(to_msf(449_850).unwrap_err().number(), 8);
    assert_eq!(to_msf(449_849), Ok(Msf::new(99, 59, 74)));
    assert_eq!(to_msf(0), Ok(Msf::new(0, 2, 0)));
}

#[test]
fn every_address_there_and_back() {
    for address in 0..=449_849 {
        assert_eq!(to_msf(address).unwrap().address(), Ok(address));
    }
    for m in 0..=99 {
        for s in 0..=59 {
            for f in (0..=74).filter(|_| (m, s) >= (0, 2)) {
                let time = Msf::new(m, s, f);
                assert_eq!(time.address().and_then(to_msf), Ok(time));
            }
        }
    }
    for (m, s, f) in second::cases::breaks::OUTSIDE {
        assert_eq!(Msf::new(m, s, f).address().unwrap_err().number(), 8);
    }
}

#[test]
fn four_lines() {
    let expected = "\
n st key asc ascq len data start count
1 02 06 29 00 0 - 0 0
2 00 00 00 00 18 700006000000000A00000000290000000000 0 0
3 00 00 00 00 8 0000012B00000800 0 0
4 02 05 64 00 0 - 0 0
";
    assert_eq!(listing::print(&E, &examples::four().concat()), expected);
}
