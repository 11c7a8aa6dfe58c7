//! One downstream port: its states, events, features and status.

#[derive(Clone, Copy, Debug, PartialEq, Eq)]
pub enum Speed {
    Low,
    Full,
    High,
}

#[derive(Clone, Copy, Debug, PartialEq, Eq)]
pub enum State {
    NotConfigured,
    PoweredOff,
    Disconnected,
    Disabled(Speed),
    /// With the ticks so far.
    Resetting(Speed, u8),
    Enabled(Speed),
    Suspended(Speed),
    /// With the ticks so far.
    Resuming(Speed, u8),
}

use State::*;

/// The tick that ends a reset, and the one that ends a resume.
pub const RESET_END: u8 = 15;
pub const RESUME_END: u8 = 22;

#[derive(Clone, Copy, Debug, PartialEq, Eq)]
pub enum Change {
    Connection,
    Enable,
    Suspend,
    OverCurrent,
    Reset,
}

impl Change {
    pub const ALL: [Change; 5] =
        [Change::Connection, Change::Enable, Change::Suspend, Change::OverCurrent, Change::Reset];
}

#[derive(Clone, Copy, Debug, PartialEq, Eq)]
pub enum Event {
    AttachLow,
    AttachFull,
    Detach,
    Chirp,
    Wake,
    PortError,
    OverCurrentOn,
    OverCurrentOff,
}

impl Event {
    /// In the order of their numbers.
    pub const ALL: [Event; 8] = [
        Event::AttachLow,
        Event::AttachFull,
        Event::Detach,
        Event::Chirp,
        Event::Wake,
        Event::PortError,
        Event::OverCurrentOn,
        Event::OverCurrentOff,
    ];
}

#[derive(Clone, Copy, Debug, PartialEq, Eq)]
pub enum SetFeature {
    Suspend,
    Reset,
    Power,
}

#[derive(Clone, Copy, Debug, PartialEq, Eq)]
pub enum ClearFeature {
    Enable,
    Suspend,
    Power,
    Change(Change),
}

#[derive(Clone, Debug)]
pub struct Port {
    pub state: State,
    pub over_current: bool,
    /// The change bits that are set.
    pub changes: Vec<Change>,
}

impl State {
    pub fn speed(self) -> Option<Speed> {
        match self {
            NotConfigured | PoweredOff | Disconnected => None,
            Disabled(speed) | Enabled(speed) | Suspended(speed) => Some(speed),
            Resetting(speed, _) | Resuming(speed, _) => Some(speed),
        }
    }

    /// What PORT_ENABLE reads.
    pub fn reads_enable(self) -> bool {
        matches!(self, Enabled(_) | Suspended(_) | Resuming(..))
    }
}

impl Port {
    pub fn new() -> Port {
        Port { state: NotConfigured, over_current: false, changes: Vec::new() }
    }

    pub fn changed(&self, change: Change) -> bool {
        self.changes.contains(&change)
    }

    fn mark(&mut self, change: Change) {
        if !self.changed(change) {
            self.changes.push(change);
        }
    }

    pub fn set(&mut self, feature: SetFeature) {
        self.state = match (feature, self.state) {
            (SetFeature::Power, PoweredOff) if !self.over_current => Disconnected,
            (
                SetFeature::Reset,
                Disabled(speed) | Enabled(speed) | Suspended(speed) | Resuming(speed, _),
            ) => Resetting(if speed == Speed::High { Speed::Full } else { speed }, 0),
            (SetFeature::Suspend, Enabled(speed)) => Suspended(speed),
            (_, state) => state,
        }
    }

    pub fn clear(&mut self, feature: ClearFeature) {
        match feature {
            ClearFeature::Enable => {
                if let Some(speed) = self.state.speed() {
                    self.state = Disabled(speed);
                }
            }
            ClearFeature::Suspend => {
                if let Suspended(speed) = self.state {
                    self.state = Resuming(speed, 0);
                }
            }
            ClearFeature::Power => self.state = PoweredOff,
            ClearFeature::Change(change) => self.changes.retain(|&set| set != change),
        }
    }

    /// Whether the event is named for the state.
    pub fn permits(&self, event: Event) -> bool {
        match event {
            Event::AttachLow | Event::AttachFull => self.state == Disconnected,
            Event::Detach => matches!(self.state, Disabled(_) | Enabled(_) | Suspended(_)),
            Event::Chirp => matches!(self.state, Resetting(Speed::Full, _)),
            Event::Wake => matches!(self.state, Suspended(_)),
            Event::PortError => matches!(self.state, Enabled(_)),
            Event::OverCurrentOn | Event::OverCurrentOff => self.state != NotConfigured,
        }
    }

    /// A permitted event.
    pub fn happen(&mut self, event: Event) {
        match (event, self.state) {
            (Event::AttachLow, _) => self.connect(Disabled(Speed::Low)),
            (Event::AttachFull, _) => self.connect(Disabled(Speed::Full)),
            (Event::Detach, _) => self.connect(Disconnected),
            (Event::Chirp, Resetting(_, ticks)) => self.state = Resetting(Speed::High, ticks),
            (Event::Wake, Suspended(speed)) => self.state = Resuming(speed, 0),
            (Event::PortError, Enabled(speed)) => {
                self.state = Disabled(speed);
                self.mark(Change::Enable);
            }
            (Event::OverCurrentOn, _) => {
                if !self.over_current {
                    self.over_current = true;
                    self.mark(Change::OverCurrent);
                    self.state = PoweredOff;
                }
            }
            (Event::OverCurrentOff, _) => {
                if self.over_current {
                    self.over_current = false;
                    self.mark(Change::OverCurrent);
                }
            }
            (event, state) => unreachable!("{event:?} in {state:?}"),
        }
    }

    fn connect(&mut self, state: State) {
        self.state = state;
        self.mark(Change::Connection);
    }

    pub fn tick(&mut self) {
        self.state = match self.state {
            Resetting(speed, ticks) if ticks + 1 < RESET_END => Resetting(speed, ticks + 1),
            Resetting(speed, _) => {
                self.mark(Change::Reset);
                Enabled(speed)
            }
            Resuming(speed, ticks) if ticks + 1 < RESUME_END => Resuming(speed, ticks + 1),
            Resuming(speed, _) => {
                self.mark(Change::Suspend);
                Enabled(speed)
            }
            state => state,
        }
    }

    /// The four bytes of GetPortStatus.
    pub fn status(&self) -> [u8; 4] {
        let speed = self.state.speed();
        let bits = [
            (0, speed.is_some()),
            (1, self.state.reads_enable()),
            (2, matches!(self.state, Suspended(_) | Resuming(..))),
            (3, self.over_current),
            (4, matches!(self.state, Resetting(..))),
            (8, !matches!(self.state, NotConfigured | PoweredOff)),
            (9, speed == Some(Speed::Low)),
            (10, speed == Some(Speed::High)),
        ];
        let status: u16 = bits.iter().filter(|(_, set)| *set).map(|(bit, _)| 1 << bit).sum();
        let [low, high] = status.to_le_bytes();
        [low, high, self.change_bits(), 0]
    }

    pub fn change_bits(&self) -> u8 {
        self.changes.iter().map(|&change| 1 << change as u8).sum()
    }
}
