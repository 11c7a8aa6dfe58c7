//! The hub: configuration, ports and translator, and every call on it.

use crate::answer::{self, Answer};
use crate::port::{Event, Port, State};
use crate::request::Request;
use crate::translator::{flag, Key, Lane, LowSide, Outcome, Start, Token, Transfer, Translator};

#[derive(Clone, Debug)]
pub struct Hub {
    pub power_good: u8,
    pub current: u8,
    pub removable: u8,
    pub configured: bool,
    pub ports: Vec<Port>,
    pub translator: Translator,
}

/// A call with any numbers, as the C caller makes it.  `space` is the length
/// of the reply space.
#[derive(Clone, Debug, PartialEq, Eq)]
pub enum Call {
    Control { lane: u32, setup: Vec<u8>, space: usize },
    Poll { lane: u32, space: usize },
    StartSplit { numbers: StartNumbers, payload: Vec<u8> },
    CompleteSplit { lane: u32, address: u32, endpoint: u32, direction: u32, space: usize },
    Launch { space: usize },
    Deliver { result: u32, payload: Vec<u8> },
    LineEvent { event: u32, port: u32 },
    Tick,
    BusReset,
}

#[derive(Clone, Debug, PartialEq, Eq)]
pub struct StartNumbers {
    pub lane: u32,
    pub pid: u32,
    pub transfer: u32,
    pub low_speed: u32,
    pub toggle: u32,
    pub address: u32,
    pub endpoint: u32,
}

impl Call {
    /// The reply space's length, if the call takes one.
    pub fn space(&self) -> Option<usize> {
        match *self {
            Call::Control { space, .. }
            | Call::Poll { space, .. }
            | Call::CompleteSplit { space, .. }
            | Call::Launch { space } => Some(space),
            _ => None,
        }
    }
}

/// A call with its numbers understood.
enum Ask {
    Control(Lane, [u8; 8]),
    Poll,
    Start(Start, Vec<u8>),
    Complete(Key),
    Launch,
    Deliver(Outcome),
    LineEvent(Event, usize),
    Tick,
    BusReset,
}

impl StartNumbers {
    pub fn understand(&self) -> Option<Start> {
        let start = Start {
            lane: Lane::from_number(self.lane)?,
            token: Token::from_number(self.pid)?,
            transfer: Transfer::from_number(self.transfer)?,
            low_speed: flag(self.low_speed)?,
            toggle: flag(self.toggle)?,
            address: u8::try_from(self.address).ok()?,
            endpoint: u8::try_from(self.endpoint).ok()?,
        };
        start.is_permitted().then_some(start)
    }
}

impl Ask {
    fn silent_unconfigured(&self) -> bool {
        matches!(
            self,
            Ask::Poll | Ask::Launch | Ask::Deliver(_) | Ask::Start(..) | Ask::Complete(_)
        )
    }
}

impl Hub {
    /// None if a number is outside the rules.
    pub fn new(
        ports: u32,
        buffers: u32,
        power_good: u32,
        current: u32,
        removable: u32,
    ) -> Option<Hub> {
        if !(1..=7).contains(&ports) || !(2..=4).contains(&buffers) {
            return None;
        }
        let hub = Hub {
            power_good: u8::try_from(power_good).ok()?,
            current: u8::try_from(current).ok()?,
            removable: u8::try_from(removable).ok()?,
            configured: false,
            ports: vec![Port::new(); ports as usize],
            translator: Translator::new(buffers as usize),
        };
        hub.removable_is_permitted().then_some(hub)
    }

    fn removable_is_permitted(&self) -> bool {
        (0..8).all(|bit| (1..=self.ports.len()).contains(&bit) || self.removable >> bit & 1 == 0)
    }

    /// What document 01 asks of the hub as a whole.  The numbers of single
    /// ports and buffers are tested where they are read.
    pub fn is_permitted(&self) -> bool {
        let buffers = &self.translator.buffers;
        let keys: Vec<_> = buffers.iter().filter_map(|buffer| buffer.key()).collect();
        let places: Vec<_> = buffers.iter().filter_map(|buffer| buffer.place()).collect();
        let running_is_pending = match self.translator.low_side {
            LowSide::Running(number) => {
                buffers.get(number).map_or(false, |buffer| buffer.place().is_some())
            }
            LowSide::Idle | LowSide::Abandoned => true,
        };
        let within_limit = |lane: Lane| self.translator.held(lane) <= self.translator.limit();
        let unconfigured = |port: &Port| port.state == State::NotConfigured;
        self.removable_is_permitted()
            && all_differ(&keys)
            && all_differ(&places)
            && running_is_pending
            && Lane::ALL.into_iter().all(within_limit)
            && self.ports.iter().all(|port| unconfigured(port) != self.configured)
    }

    pub fn step(&mut self, call: &Call) -> Answer {
        let ask = match self.understand(call) {
            Some(ask) => ask,
            None => return Answer::plain(answer::OUTSIDE),
        };
        if call.space().map_or(false, |space| space < 64) {
            return Answer::plain(answer::NO_SPACE);
        }
        if !self.configured && ask.silent_unconfigured() {
            return Answer::plain(answer::SILENT);
        }
        if !self.permits(&ask) {
            return Answer::plain(answer::NOT_NOW);
        }
        self.perform(ask)
    }

    fn understand(&self, call: &Call) -> Option<Ask> {
        Some(match call {
            Call::Control { lane, setup, .. } => {
                Ask::Control(Lane::from_number(*lane)?, setup.as_slice().try_into().ok()?)
            }
            Call::Poll { lane, .. } => Lane::from_number(*lane).map(|_| Ask::Poll)?,
            Call::StartSplit { numbers, payload } => {
                let start = numbers.understand()?;
                if !start.permits_payload(payload.len()) {
                    return None;
                }
                Ask::Start(start, payload.clone())
            }
            Call::CompleteSplit { lane, address, endpoint, direction, .. } => {
                Ask::Complete(Key::from_numbers(*lane, *address, *endpoint, *direction)?)
            }
            Call::Launch { .. } => Ask::Launch,
            Call::Deliver { result, payload } => {
                Ask::Deliver(Outcome::from_number(*result, payload)?)
            }
            Call::LineEvent { event, port } => {
                let event = Event::ALL.get(*event as usize)?;
                let place = (*port as usize).checked_sub(1)?;
                self.ports.get(place)?;
                Ask::LineEvent(*event, place)
            }
            Call::Tick => Ask::Tick,
            Call::BusReset => Ask::BusReset,
        })
    }

    fn permits(&self, ask: &Ask) -> bool {
        match ask {
            Ask::Launch => self.translator.is_idle(),
            Ask::Deliver(outcome) => self.translator.permits_delivery(outcome),
            Ask::LineEvent(event, place) => self.configured && self.ports[*place].permits(*event),
            _ => true,
        }
    }

    fn perform(&mut self, ask: Ask) -> Answer {
        match ask {
            Ask::Control(lane, setup) => self.control(lane, &setup),
            Ask::Poll => self.poll(),
            Ask::Start(start, payload) => self.translator.start(start, payload),
            Ask::Complete(key) => self.translator.complete(key),
            Ask::Launch => self.translator.launch(),
            Ask::Deliver(outcome) => self.translator.deliver(outcome),
            Ask::LineEvent(event, place) => {
                self.ports[place].happen(event);
                Answer::plain(answer::DONE)
            }
            Ask::Tick => {
                if self.configured {
                    self.ports.iter_mut().for_each(Port::tick);
                }
                Answer::plain(answer::DONE)
            }
            Ask::BusReset => {
                self.configured = false;
                self.ports.fill(Port::new());
                self.translator.stop();
                Answer::plain(answer::DONE)
            }
        }
    }

    fn poll(&self) -> Answer {
        let changed = (1..).zip(&self.ports).filter(|(_, port)| !port.changes.is_empty());
        match changed.map(|(number, _)| 1 << number).sum() {
            0 => Answer::plain(answer::NAK),
            bitmap => Answer::data(&[bitmap]),
        }
    }

    /// The request that the hub serves, if these bytes are one.
    pub fn served(&self, lane: Lane, setup: &[u8; 8]) -> Option<Request> {
        let request = Request::read(lane, setup)?;
        let port_exists = match request.port() {
            Some(port) => (1..=self.ports.len()).contains(&usize::from(port)),
            None => true,
        };
        (port_exists && (self.configured || request.served_unconfigured())).then_some(request)
    }

    fn control(&mut self, lane: Lane, setup: &[u8; 8]) -> Answer {
        let request = match self.served(lane, setup) {
            Some(request) => request,
            None => return Answer::plain(answer::STALL),
        };
        let port = request.port().map(|port| &mut self.ports[usize::from(port) - 1]);
        match (request, port) {
            (Request::GetConfiguration, _) => return Answer::data(&[self.configured.into()]),
            (Request::GetHubDescriptor(length), _) => {
                let descriptor = self.descriptor();
                let length = usize::from(length).min(descriptor.len());
                return Answer::data(&descriptor[..length]);
            }
            (Request::GetHubStatus, _) => return Answer::data(&[0; 4]),
            (Request::GetPortStatus(_), Some(port)) => return Answer::data(&port.status()),
            (Request::SetConfiguration(value), _) => self.configure(value),
            (Request::ClearHubFeature, _) => {}
            (Request::ClearPortFeature(feature, _), Some(port)) => port.clear(feature),
            (Request::SetPortFeature(feature, _), Some(port)) => port.set(feature),
            (Request::ClearTtBuffer(key), _) => self.translator.clear(key),
            (Request::ResetTt(lane), _) => self.translator.reset(lane),
            (request, None) => unreachable!("{request:?} names a port"),
        }
        Answer::plain(answer::DONE)
    }

    fn descriptor(&self) -> [u8; 9] {
        let ports = self.ports.len() as u8;
        [9, 0x29, ports, 9, 0, self.power_good, self.current, self.removable, 0xFF]
    }

    fn configure(&mut self, value: bool) {
        self.configured = value;
        for port in &mut self.ports {
            port.state = if value { State::PoweredOff } else { State::NotConfigured };
            port.over_current &= value;
        }
        self.translator.stop();
    }
}

fn all_differ<T: PartialEq>(values: &[T]) -> bool {
    values.iter().enumerate().all(|(place, value)| !values[..place].contains(value))
}
