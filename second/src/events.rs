//! K7: "The lab polls for events." The media event that the state holds, and GET
//! EVENT STATUS NOTIFICATION.

use crate::answers::{Good, Outcome};
use crate::drive::State;
use crate::sense;

/// "one media event, the latest of: 1 button pressed on a locked closed tray, 2
/// loading, 3 opening with a disc"; 0 is none.
pub const NO_EVENT: u8 = 0;
pub const PRESSED: u8 = 1;
pub const LOADED: u8 = 2;
pub const OPENED: u8 = 3;

/// "classes external request (3) and media (4), supported byte 18h": bit n is
/// class n.
pub const EXTERNAL: u8 = 3;
pub const MEDIA: u8 = 4;
pub const SUPPORTED: u8 = 0x18;

/// "A media answer of at least five bytes clears the event": the fifth holds it.
pub const CLEARING: usize = 5;

/// Refusal 2 "also covers an event over 3".
pub fn is_event(event: u8) -> bool {
    event <= OPENED
}

/// 4Ah. Fields are 003's: byte 1 bit 0 Polled (Immed there), byte 4 classes,
/// length in 7 to 8.
pub fn status_notification(state: &mut State, p: &[u8; 12]) -> Outcome {
    // "Polled bit clear is 05/24/00."
    if p[1] & 1 == 0 {
        return Err(sense::BAD_FIELD);
    }
    let class = class_answered(p[4], state.event);
    let answer = answer_of(class, *state);
    let allocation = usize::from(u16::from_be_bytes([p[7], p[8]]));
    if class == Some(MEDIA) && answer.len().min(allocation) >= CLEARING {
        state.event = NO_EVENT;
    }
    Ok(Good {
        answer,
        allocation: Some(allocation),
        ..Good::default()
    })
}

/// "the lowest set bit of the classes both asked for and supported that have an
/// event waiting, or of all those where none has"; None "With none supported".
pub fn class_answered(asked: u8, event: u8) -> Option<u8> {
    let asked = asked & SUPPORTED;
    let waiting = asked & waiting_classes(event);
    let among = if waiting != 0 { waiting } else { asked };
    (among != 0).then(|| among.trailing_zeros() as u8)
}

/// The classes with an event waiting: "the class external" never has one.
fn waiting_classes(event: u8) -> u8 {
    if event == NO_EVENT {
        0
    } else {
        1 << MEDIA
    }
}

/// "00 06, class, 18, event, status .., 00 00; the class external always reports
/// zeros. With none supported: 00 02 80 18."
fn answer_of(class: Option<u8>, state: State) -> Vec<u8> {
    let Some(class) = class else {
        return vec![0x00, 0x02, 0x80, SUPPORTED];
    };
    let (event, status) = match class {
        MEDIA => (state.event, media_status(state)),
        _ => (0, 0),
    };
    vec![0x00, 0x06, class, SUPPORTED, event, status, 0x00, 0x00]
}

/// "status (bit 1 disc in, bit 0 tray open)".
fn media_status(state: State) -> u8 {
    u8::from(state.disc_in) << 1 | u8::from(state.tray_open)
}
