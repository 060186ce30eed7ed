//! "Drive state and what moves it": power-on in its two forms (K3), button,
//! laying and lifting, and the outside call that moves a play on (K2). Of K7 the
//! media event and what makes it.

use crate::events;
use crate::mode_page::ModePage;
use crate::play::Play;
use crate::refusal::Refusal;
use crate::sense::{self, Sense};

#[derive(Clone, Copy, Debug, PartialEq, Eq)]
pub struct State {
    pub tray_open: bool,
    pub disc_in: bool,
    pub lock: bool,
    pub power: bool,
    pub change: bool,
    pub sense: Sense,
    pub play: Play,
    pub mode: ModePage,
    /// K7: the media event, 0 where none is waiting.
    pub event: u8,
}

impl State {
    /// Tray closed, no disc, nothing pending.
    pub const EMPTY: State = State {
        tray_open: false,
        disc_in: false,
        lock: false,
        power: false,
        change: false,
        sense: sense::NONE,
        play: Play::NONE,
        mode: ModePage::DEFAULT,
        event: events::NO_EVENT,
    };

    /// Tray closed, disc in, nothing pending.
    pub const READY: State = State {
        disc_in: true,
        ..State::EMPTY
    };

    /// "Loaded means tray closed with a disc in."
    pub fn loaded(self) -> bool {
        self.disc_in && !self.tray_open
    }

    /// K3, the default form: "Power-on with a loaded disc now leaves both
    /// attentions pending by default". All else, and a drive that is not loaded,
    /// is as under the second form.
    pub fn power_on(self) -> State {
        State {
            change: self.loaded(),
            ..self.power_on_without_change()
        }
    }

    /// K3: "A second form .. keeps 01's behaviour", that is "keeps the handed
    /// state's tray and disc and is never refused: lock off, sense 00/00/00,
    /// power attention pending, change attention not." K2's record is reset, K4's
    /// page restored and K7's event cleared in both forms.
    pub fn power_on_without_change(self) -> State {
        State {
            tray_open: self.tray_open,
            disc_in: self.disc_in,
            power: true,
            ..State::EMPTY
        }
    }

    /// "an open tray closes; a closed one opens, unless locked (5). The lock
    /// never stops closing." What a refused press hands back, `pressed` says.
    pub fn button(self) -> Result<State, Refusal> {
        self.tested()?;
        if self.tray_open {
            return Ok(self.closed());
        }
        if self.lock {
            return Err(Refusal::Locked);
        }
        Ok(self.opened())
    }

    /// The state that a press hands back. K7: "A press under refusal 5 now changes
    /// that event only", the one refusal that leaves another state behind.
    pub fn pressed(self) -> State {
        match self.button() {
            Ok(next) => next,
            Err(Refusal::Locked) => State {
                event: events::PRESSED,
                ..self
            },
            Err(_) => self,
        }
    }

    /// "Laying a disc needs an open tray without one (6)".
    pub fn lay(self) -> Result<State, Refusal> {
        self.tested()?;
        if !self.tray_open || self.disc_in {
            return Err(Refusal::CannotLay);
        }
        Ok(State {
            disc_in: true,
            ..self
        })
    }

    /// "lifting needs an open tray with one (7)".
    pub fn lift(self) -> Result<State, Refusal> {
        self.tested()?;
        if !self.tray_open || !self.disc_in {
            return Err(Refusal::CannotLift);
        }
        Ok(State {
            disc_in: false,
            ..self
        })
    }

    /// K2, the outside call, "testing 2": it "moves a playing position on by k
    /// blocks".
    pub fn move_on(self, k: u64) -> Result<State, Refusal> {
        self.tested()?;
        Ok(State {
            play: self.play.moved_on(k),
            ..self
        })
    }

    /// Opens a closed tray. K2: "opening" resets the record, with a disc in or
    /// not. K7: "3 opening with a disc", by button or packet.
    pub fn opened(self) -> State {
        State {
            tray_open: true,
            play: Play::NONE,
            event: if self.disc_in {
                events::OPENED
            } else {
                self.event
            },
            ..self
        }
    }

    /// Closes an open tray. "Loading is any closing of the tray, by button or
    /// packet, with a disc in: the change attention becomes pending." K2: and
    /// "loading" resets the record, which a closing without a disc leaves. K7: "2
    /// loading".
    pub fn closed(self) -> State {
        State {
            tray_open: false,
            change: self.change || self.disc_in,
            play: if self.disc_in { Play::NONE } else { self.play },
            event: if self.disc_in {
                events::LOADED
            } else {
                self.event
            },
            ..self
        }
    }

    /// Refusal 2 is of the held sense, with K2 of the play record, with K4 of the
    /// recovery byte, and with K7 of the event.
    pub fn is_sound(self) -> bool {
        self.sense.is_known()
            && self.play.is_sound()
            && self.mode.is_sound()
            && events::is_event(self.event)
    }

    /// "Button, laying and lifting test 2 before 5 to 7."
    fn tested(self) -> Result<(), Refusal> {
        if self.is_sound() {
            Ok(())
        } else {
            Err(Refusal::UnsoundState)
        }
    }
}
