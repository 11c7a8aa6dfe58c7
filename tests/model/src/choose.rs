//! Random calls, hubs and damage, weighted so that deep states are reached.

use crate::damage::{self, Damage};
use crate::form;
use crate::hub::{Call, Hub, StartNumbers};
use crate::library::NewNumbers;
use crate::port::{Change, Event, Port, Speed, State, RESET_END, RESUME_END};
use crate::random::Random;
use crate::translator::{
    Buffer, Direction, Key, Lane, LowSide, Outcome, Start, Toggle, Token, Transfer, Translator,
};

/// What a session mostly does.
#[derive(Clone, Copy)]
enum Style {
    Mixed,
    Ports,
    Splits,
}

pub struct Chooser {
    pub random: Random,
    style: Style,
    /// The lanes that calls come from, the busier one more often.
    lanes: &'static [Lane],
    /// The addresses and endpoints that splits mostly use.
    pairs: Vec<(u32, u32)>,
    /// Ticks still to come in a row.
    ticks: usize,
}

const EVEN_LANES: &[Lane] = &Lane::ALL;
const BUSY_ZERO: &[Lane] = &[Lane::Zero, Lane::Zero, Lane::Zero, Lane::Zero, Lane::One];
const BUSY_ONE: &[Lane] = &[Lane::One, Lane::One, Lane::One, Lane::One, Lane::Zero];

const SET_FEATURES: [u8; 3] = [2, 4, 8];
const CLEAR_FEATURES: [u8; 8] = [1, 2, 8, 16, 17, 18, 19, 20];
const RESULTS: [u32; 6] = [0, 2, 3, 10, 11, 14];

impl Chooser {
    pub fn new(seed: u64) -> Chooser {
        Chooser {
            random: Random::new(seed),
            style: Style::Mixed,
            lanes: EVEN_LANES,
            pairs: Vec::new(),
            ticks: 0,
        }
    }

    /// Begins a session: the numbers of its new hub.
    pub fn session(&mut self) -> NewNumbers {
        self.style = self.random.pick(&[Style::Mixed, Style::Ports, Style::Splits]);
        self.lanes = self.random.pick(&[EVEN_LANES, EVEN_LANES, BUSY_ZERO, BUSY_ONE]);
        let addresses = [0, 1, 5, 6, 126, 127];
        let endpoints = [0, 1, 2, 15];
        self.pairs = (0..self.random.within(2..=5))
            .map(|_| (self.random.pick(&addresses), self.random.pick(&endpoints)))
            .collect();
        self.ticks = 0;
        self.new_numbers()
    }

    fn new_numbers(&mut self) -> NewNumbers {
        let ports = self.random.within(1..=7) as u32;
        NewNumbers {
            ports,
            buffers: self.random.within(2..=4) as u32,
            power_good: self.random.byte().into(),
            current: self.random.byte().into(),
            removable: u32::from(self.random.byte()) & ((2 << ports) - 2),
        }
    }

    /// Numbers of which one is mostly outside the rules.
    pub fn odd_new_numbers(&mut self) -> NewNumbers {
        let mut numbers = self.new_numbers();
        match self.random.below(7) {
            0 => numbers.ports = self.random.pick(&[0, 8, 9, 255, 256 + numbers.ports, u32::MAX]),
            1 => numbers.buffers = self.random.pick(&[0, 1, 5, 258, u32::MAX]),
            2 => numbers.power_good = far(&mut self.random, numbers.power_good, 255),
            3 => numbers.current = far(&mut self.random, numbers.current, 255),
            4 => numbers.removable = far(&mut self.random, numbers.removable, 255),
            5 => numbers.removable ^= 1 << self.random.below(10),
            _ => {}
        }
        numbers
    }

    pub fn call(&mut self, hub: &Hub) -> Call {
        if self.ticks > 0 && hub.configured {
            self.ticks -= 1;
            return Call::Tick;
        }
        if !hub.configured && self.random.one_in(3) {
            return self.request([0x00, 0x09, 1, 0, 0, 0, 0, 0]);
        }
        if self.random.one_in(if hub.configured { 40 } else { 8 }) {
            return self.odd_request(hub);
        }
        let (ports, splits) = match self.style {
            Style::Mixed => (45, 45),
            Style::Ports => (80, 12),
            Style::Splits => (12, 80),
        };
        match self.random.below(100) {
            roll if roll < ports => self.port_call(hub),
            roll if roll < ports + splits => self.split_call(hub),
            _ => self.hub_call(hub),
        }
    }

    /// Any call; the state of the hub has little to do with it.
    pub fn any_call(&mut self, hub: &Hub) -> Call {
        match self.random.below(3) {
            0 => self.port_call(hub),
            1 => self.split_call(hub),
            _ => self.hub_call(hub),
        }
    }

    fn hub_call(&mut self, hub: &Hub) -> Call {
        let port = self.port(hub) as u8;
        match self.random.below(40) {
            0 => Call::BusReset,
            1 => self.request([0x00, 0x09, 0, 0, 0, 0, 0, 0]),
            2 => self.request([0x00, 0x09, 1, 0, 0, 0, 0, 0]),
            3..=4 => self.request([0x80, 0x08, 0, 0, 0, 0, 1, 0]),
            5..=8 => {
                let length = self.random.pick(&[0, 1, 8, 9, 10, 64, 255]);
                let high = self.random.pick(&[0, 0, 0, 1, 255]);
                self.request([0xA0, 0x06, 0, 0x29, 0, 0, length, high])
            }
            9..=10 => self.request([0xA0, 0x00, 0, 0, 0, 0, 4, 0]),
            11..=20 => self.request([0xA3, 0x00, 0, 0, port, 0, 4, 0]),
            21..=22 => {
                let feature = self.random.below(2) as u8;
                self.request([0x20, 0x01, feature, 0, 0, 0, 0, 0])
            }
            23..=24 => self.request([0x23, 0x09, 0, 0, 1, 0, 0, 0]),
            25..=26 => {
                let setup = self.random.bytes(8);
                Call::Control { lane: self.any_lane(), setup, space: self.space() }
            }
            _ => Call::Poll { lane: self.any_lane(), space: self.space() },
        }
    }

    fn port_call(&mut self, hub: &Hub) -> Call {
        let port = self.port(hub);
        match self.random.below(20) {
            0..=7 => self.leading_on(&hub.ports[port - 1], port),
            8..=11 => {
                let event = self.random.below(Event::ALL.len()) as u32;
                self.event(event, port)
            }
            12..=13 => {
                let feature = self.random.pick(&SET_FEATURES);
                self.request([0x23, 0x03, feature, 0, port as u8, 0, 0, 0])
            }
            14..=17 => {
                let feature = self.random.pick(&CLEAR_FEATURES);
                self.request([0x23, 0x01, feature, 0, port as u8, 0, 0, 0])
            }
            _ => Call::Tick,
        }
    }

    /// What brings the port to a state further on.
    fn leading_on(&mut self, state: &Port, port: usize) -> Call {
        let event = |event: Event| event as u32;
        match state.state {
            State::PoweredOff if state.over_current => {
                self.event(event(Event::OverCurrentOff), port)
            }
            State::NotConfigured | State::PoweredOff => {
                self.request([0x23, 0x03, 8, 0, port as u8, 0, 0, 0])
            }
            State::Disconnected => {
                let attach = self.random.pick(&[Event::AttachLow, Event::AttachFull]);
                self.event(event(attach), port)
            }
            State::Disabled(_) => self.request([0x23, 0x03, 4, 0, port as u8, 0, 0, 0]),
            State::Resetting(Speed::Full, _) => self.event(event(Event::Chirp), port),
            State::Enabled(_) if self.random.one_in(3) => self.event(event(Event::PortError), port),
            State::Enabled(_) => self.request([0x23, 0x03, 2, 0, port as u8, 0, 0, 0]),
            State::Suspended(_) => self.event(event(Event::Wake), port),
            State::Resetting(..) | State::Resuming(..) => {
                self.ticks = self.random.within(0..=20);
                Call::Tick
            }
        }
    }

    fn split_call(&mut self, hub: &Hub) -> Call {
        let (address, endpoint) = self.pair();
        match self.random.below(100) {
            0..=27 => self.start_split(hub, address, endpoint),
            28..=48 => Call::Launch { space: self.space() },
            49..=72 => self.deliver(hub),
            73..=94 => self.complete_split(hub, address, endpoint),
            95 => self.request([0x23, 0x09, 0, 0, 1, 0, 0, 0]),
            _ => self.clear_buffer(hub, address, endpoint),
        }
    }

    /// Sometimes for a key that a buffer holds, mostly for one of an old
    /// buffer of a lane that is at its limit.
    fn start_split(&mut self, hub: &Hub, address: u32, endpoint: u32) -> Call {
        let held = match limited_key(hub) {
            Some(key) if self.random.one_in(2) => Some(key),
            _ => self.held_key(hub).filter(|_| self.random.one_in(3)),
        };
        match held {
            Some(key) => {
                let pids: &[u32] = match key.direction {
                    Direction::In => &[9],
                    Direction::Out => &[1, 13],
                };
                self.start_numbers(key.lane as u32, pids, key.address.into(), key.endpoint.into())
            }
            None => {
                let lane = self.any_lane();
                self.start_numbers(lane, &[1, 1, 9, 9, 9, 13], address, endpoint)
            }
        }
    }

    fn start_numbers(&mut self, lane: u32, pids: &[u32], address: u32, endpoint: u32) -> Call {
        let pid = self.number(|random| random.pick(pids), 13);
        let transfer = match pid {
            13 if !self.random.one_in(20) => 0,
            _ => self.number(|random| random.pick(&[0, 2]), 2),
        };
        let length = match pid {
            _ if self.random.one_in(25) => self.random.within(0..=70),
            13 => 8,
            1 => self.random.pick(&[0, 1, 8, 63, 64, 64, 30]),
            _ => 0,
        };
        let numbers = StartNumbers {
            lane,
            pid,
            transfer,
            low_speed: self.number(|random| random.below(2) as u32, 1),
            toggle: self.number(|random| random.below(2) as u32, 1),
            address,
            endpoint,
        };
        Call::StartSplit { numbers, payload: self.random.bytes(length) }
    }

    /// Mostly for a key that a buffer holds.
    fn complete_split(&mut self, hub: &Hub, address: u32, endpoint: u32) -> Call {
        let space = self.space();
        match self.held_key(hub).filter(|_| !self.random.one_in(3)) {
            Some(key) => Call::CompleteSplit {
                lane: key.lane as u32,
                address: key.address.into(),
                endpoint: key.endpoint.into(),
                direction: key.direction as u32,
                space,
            },
            None => {
                let lane = self.any_lane();
                let direction = self.number(|random| random.below(2) as u32, 1);
                Call::CompleteSplit { lane, address, endpoint, direction, space }
            }
        }
    }

    pub fn deliver(&mut self, hub: &Hub) -> Call {
        let suiting: &[u32] = match hub.translator.running().map(|start| start.token) {
            Some(Token::In) => &[3, 3, 11, 11, 10, 14, 0],
            Some(Token::Out) => &[2, 2, 10, 14, 0],
            Some(Token::Setup) => &[2, 0],
            None => &RESULTS,
        };
        let result = match self.random.below(10) {
            0 => self.number(|random| random.pick(&RESULTS), 14),
            _ => self.random.pick(suiting),
        };
        let length = match result {
            _ if self.random.one_in(20) => self.random.within(0..=70),
            3 | 11 => self.random.pick(&[0, 1, 3, 8, 40, 63, 64, 64]),
            _ => 0,
        };
        Call::Deliver { result, payload: self.random.bytes(length) }
    }

    fn clear_buffer(&mut self, hub: &Hub, address: u32, endpoint: u32) -> Call {
        let mut lane = self.any_lane();
        let (mut address, mut endpoint) = (address & 127, endpoint & 15);
        let mut direction = self.random.below(2) as u32;
        let running = hub.translator.running().map(Start::key);
        if let Some(key) = running.filter(|_| !self.random.one_in(3)) {
            let key = self.mostly_own(key);
            lane = key.lane as u32;
            (address, endpoint) = (key.address.into(), key.endpoint.into());
            direction = key.direction as u32;
        }
        let kind = self.random.pick(&[0, 2, 0, 2, 0, 2, 1, 3]);
        let value = endpoint | address << 4 | kind << 11 | direction << 15;
        self.request_from(lane, [0x23, 0x08, value as u8, (value >> 8) as u8, 1, 0, 0, 0])
    }

    fn request(&mut self, setup: [u8; 8]) -> Call {
        let lane = self.any_lane();
        self.request_from(lane, setup)
    }

    /// The request, sometimes with one field wrong or a wrong length.
    fn request_from(&mut self, lane: u32, mut setup: [u8; 8]) -> Call {
        if self.random.one_in(15) {
            let place = self.random.below(8);
            setup[place] = match self.random.below(3) {
                0 => self.random.byte(),
                1 => setup[place] ^ 1 << self.random.below(8),
                _ => setup[place].wrapping_add(self.random.pick(&[1, 255])),
            };
        }
        let mut setup = setup.to_vec();
        if self.random.one_in(60) {
            setup.resize(self.random.pick(&[0, 1, 7, 9, 16]), 0);
        }
        Call::Control { lane, setup, space: self.space() }
    }

    /// A request of the table, each field of which is wrong as often as right.
    fn odd_request(&mut self, hub: &Hub) -> Call {
        let port = self.port(hub) as u16;
        let (type_and_code, fields) = self.random.pick(&[
            ([0x00, 0x09], [1, 0, 0]),
            ([0x80, 0x08], [0, 0, 1]),
            ([0xA0, 0x06], [0x2900, 0, 9]),
            ([0xA0, 0x00], [0, 0, 4]),
            ([0xA3, 0x00], [0, port, 4]),
            ([0x20, 0x01], [1, 0, 0]),
            ([0x23, 0x01], [16, port, 0]),
            ([0x23, 0x03], [8, port, 0]),
            ([0x23, 0x08], [0x9051, 1, 0]),
            ([0x23, 0x09], [0, 1, 0]),
        ]);
        let mut setup = Vec::from(type_and_code);
        for field in fields {
            let given = match self.random.below(6) {
                0 => self.random.next() as u16,
                1 => field ^ 1 << self.random.below(16),
                2 => field.wrapping_add(self.random.pick(&[1, u16::MAX])),
                _ => field,
            };
            setup.extend_from_slice(&given.to_le_bytes());
        }
        Call::Control { lane: self.any_lane(), setup, space: self.space() }
    }

    fn event(&mut self, event: u32, port: usize) -> Call {
        let event = self.number(|_| event, 7);
        let port = self.number(|_| port as u32, 7);
        Call::LineEvent { event, port }
    }

    fn port(&mut self, hub: &Hub) -> usize {
        self.random.within(1..=hub.ports.len())
    }

    fn any_lane(&mut self) -> u32 {
        let lane = self.random.pick(self.lanes) as u32;
        self.number(|_| lane, 1)
    }

    /// The key of a buffer, sometimes in the other lane.
    fn held_key(&mut self, hub: &Hub) -> Option<Key> {
        let buffers = &hub.translator.buffers;
        let key = buffers[self.random.below(buffers.len())].key()?;
        Some(self.mostly_own(key))
    }

    fn mostly_own(&mut self, key: Key) -> Key {
        if self.random.one_in(6) {
            key.twin()
        } else {
            key
        }
    }

    fn pair(&mut self) -> (u32, u32) {
        let (address, endpoint) = match self.random.below(20) {
            0 => (self.random.below(128) as u32, self.random.below(16) as u32),
            _ => self.random.pick(&self.pairs),
        };
        (self.number(|_| address, 127), self.number(|_| endpoint, 15))
    }

    /// The number, sometimes replaced by one outside the rules.
    fn number(&mut self, choose: impl Fn(&mut Random) -> u32, limit: u32) -> u32 {
        let valid = choose(&mut self.random);
        if self.random.one_in(50) {
            far(&mut self.random, valid, limit)
        } else {
            valid
        }
    }

    /// The length of a reply space.
    fn space(&mut self) -> usize {
        match self.random.below(20) {
            0 => self.random.within(0..=70),
            1 => self.random.pick(&[0, 1, 62, 63, 63, 65]),
            2..=4 => self.random.within(64..=70),
            _ => 64,
        }
    }

    /// A permitted hub, mostly one that no calls reach.
    pub fn hub(&mut self) -> Hub {
        loop {
            let numbers = self.new_numbers();
            let configured = !self.random.one_in(6);
            let ports = (0..numbers.ports).map(|_| self.any_port(configured)).collect();
            let buffers = (0..numbers.buffers).map(|_| self.any_buffer()).collect::<Vec<_>>();
            let low_side = match self.random.below(4) {
                0 => LowSide::Idle,
                1 => LowSide::Abandoned,
                _ => LowSide::Running(self.random.below(buffers.len())),
            };
            let hub = Hub {
                power_good: numbers.power_good as u8,
                current: numbers.current as u8,
                removable: numbers.removable as u8,
                configured,
                ports,
                translator: Translator { buffers, low_side },
            };
            if hub.is_permitted() {
                return hub;
            }
        }
    }

    fn any_port(&mut self, configured: bool) -> Port {
        let random = &mut self.random;
        let speed = random.pick(&[Speed::Low, Speed::Full, Speed::High]);
        let state = match random.below(7) {
            _ if !configured => State::NotConfigured,
            0 => State::PoweredOff,
            1 => State::Disconnected,
            2 => State::Disabled(speed),
            3 => State::Resetting(speed, random.below(RESET_END.into()) as u8),
            4 => State::Enabled(speed),
            5 => State::Suspended(speed),
            _ => State::Resuming(speed, random.below(RESUME_END.into()) as u8),
        };
        let over_current = random.one_in(3);
        let changes = Change::ALL.into_iter().filter(|_| random.one_in(3)).collect();
        Port { state, over_current, changes }
    }

    fn any_buffer(&mut self) -> Buffer {
        let (address, endpoint) = self.random.pick(&self.pairs);
        let token = self.random.pick(&[Token::In, Token::Out, Token::Setup]);
        let transfer = match token {
            Token::Setup => Transfer::Control,
            _ => self.random.pick(&[Transfer::Control, Transfer::Bulk]),
        };
        let start = Start {
            lane: self.random.pick(&Lane::ALL),
            token,
            transfer,
            low_speed: self.random.one_in(2),
            toggle: self.random.one_in(2),
            address: address as u8,
            endpoint: endpoint as u8,
        };
        match self.random.below(5) {
            0 => Buffer::Empty,
            1 | 2 => {
                let length = match token {
                    Token::In => 0,
                    Token::Out => self.random.within(0..=64),
                    Token::Setup => 8,
                };
                let payload = self.random.bytes(length);
                Buffer::Pending { start, payload, place: self.random.byte() }
            }
            status => {
                let outcome = self.any_outcome();
                if status == 3 {
                    Buffer::Ready(start, outcome)
                } else {
                    Buffer::Old(start, outcome)
                }
            }
        }
    }

    /// A result that suits the PID, or one that doesn't.
    fn any_outcome(&mut self) -> Outcome {
        let length = self.random.within(0..=64);
        let bytes = self.random.bytes(length);
        let outcomes = [
            Outcome::Failure,
            Outcome::Ack,
            Outcome::Data(Toggle::Data0, bytes.clone()),
            Outcome::Nak,
            Outcome::Data(Toggle::Data1, bytes),
            Outcome::Stall,
        ];
        self.random.pick(&outcomes)
    }

    /// The hub's written form with damage, and what was damaged.
    pub fn damaged(&mut self, hub: &Hub) -> (Vec<u8>, Damage) {
        let mut area = form::write(hub);
        let random = &mut self.random;
        match random.below(10) {
            0 => {
                let length = other_length(random, area.len());
                let kept = length == area.len();
                area.resize(length, 0);
                (area, if kept { Damage::None } else { Damage::Length })
            }
            1 => {
                for _ in 0..random.within(2..=4) {
                    damage_byte(random, &mut area);
                }
                (area, Damage::Several)
            }
            2 => {
                let number = random.below(hub.translator.buffers.len());
                let damage = damage::lane_flip(hub, number);
                if !matches!(damage, Damage::None) {
                    area[form::flags(hub, number)] ^= form::LANE_BIT;
                }
                (area, damage)
            }
            _ => {
                let before = area.clone();
                let place = damage_byte(random, &mut area);
                let damage = match area == before {
                    true => Damage::None,
                    false => Damage::Byte(damage::field(hub, place)),
                };
                (area, damage)
            }
        }
    }
}

/// The key of an old buffer whose lane is at its limit.
fn limited_key(hub: &Hub) -> Option<Key> {
    let translator = &hub.translator;
    let mut old = translator.buffers.iter().filter(|buffer| buffer.is_free());
    let key = old.find_map(Buffer::key)?;
    (translator.held(key.lane) == translator.limit()).then_some(key)
}

/// A length for an area of this one, mostly another.
fn other_length(random: &mut Random, length: usize) -> usize {
    match random.below(4) {
        0 => random.pick(&[0, 1, 7, 8, 9]),
        1 => length - 1,
        2 => length + random.pick(&[1, 4, 72]),
        _ => random.below(400),
    }
}

/// Changes one byte, mostly in the header, a port or the head of a buffer.
fn damage_byte(random: &mut Random, area: &mut [u8]) -> usize {
    let ports = usize::from(area[0]);
    let buffers = usize::from(area[1]);
    let any_buffer = form::length(ports, 0) + form::BUFFER * random.below(buffers.clamp(1, 4));
    let place = match random.below(8) {
        0 | 1 => random.below(form::HEADER),
        2 | 3 => form::HEADER + random.below(form::PORT * ports.clamp(1, 7)),
        4..=6 => any_buffer + random.below(form::BUFFER_HEAD),
        _ => random.below(area.len()),
    }
    .min(area.len() - 1);
    let old = area[place];
    area[place] = match random.below(4) {
        0 => random.byte(),
        1 => old ^ 1 << random.below(8),
        2 => old.wrapping_add(random.pick(&[1, 255])),
        _ => random.pick(&[0, 1, 2, 3, 4, 5, 6, 7, 9, 10, 11, 13, 14, 15, 22, 64, 65, 255]),
    };
    place
}

fn far(random: &mut Random, valid: u32, limit: u32) -> u32 {
    let any = random.next() as u32;
    let far = [limit + 1, 255, 256 + valid, 65_536 + valid, 1 << 31 | valid, any, 0];
    match random.below(4) {
        0 => u32::MAX - random.below(2) as u32,
        _ => random.pick(&far),
    }
}
