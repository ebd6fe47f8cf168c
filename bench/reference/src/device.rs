//! Devices: the simulated projector, the layers trail and patch over any device, and rigs.

use crate::protocol::{ANSWERS, AWAY, Edges, JAMMED, LETTERS, NO_ANSWER, NOWHERE, ROW, STATIONS, place};

pub trait Device {
    fn edge(&self, station: u8, letter: u8, answer: u8) -> Option<u8>;
    fn station(&self) -> u8;
    fn heard(&self) -> u32;
    fn ask(&mut self, letter: u8) -> u8;
}

/// Whether a device shows exactly these edges. All that is known of it is what it answers for each.
#[inline]
fn shows(device: &impl Device, edges: &Edges) -> bool {
    (0..STATIONS).all(|station| {
        // All successors of a station first, so that they are compared side by side.
        let mut shown = [NOWHERE; ROW];
        for letter in 0..LETTERS {
            for answer in 0..ANSWERS {
                shown[place(letter, answer)] = device.edge(station, letter, answer).unwrap_or(NOWHERE);
            }
        }
        shown == *edges.from(station)
    })
}

/// The simulated projector, which answers the lamp query from a list of replies.
pub struct Projector {
    station: u8,
    heard: u32,
    replies: Vec<u8>,
    replied: usize,
}

const LAMP_QUERY: u8 = 3;

/// Station, letter, answer and successor of each edge of a projector.
const PROJECTOR_EDGES: [[u8; 4]; 10] = [
    [0, 0, 0, 1],
    [1, 1, 0, 0],
    [1, 2, 0, 2],
    [2, 3, 0, 3],
    [2, 3, 1, 2],
    [2, 3, 2, 1],
    [3, 4, 0, 4],
    [4, 5, 0, 3],
    [2, 6, 0, 1],
    [3, 6, 0, 1],
];

static PROJECTOR: Edges = {
    let mut edges = Edges::none();
    let mut row = 0;
    while row < PROJECTOR_EDGES.len() {
        let [station, letter, answer, to] = PROJECTOR_EDGES[row];
        edges.add(station, letter, answer, to);
        row += 1;
    }
    edges
};

impl Projector {
    pub fn new(replies: Vec<u8>) -> Projector {
        Projector { station: AWAY, heard: 0, replies, replied: 0 }
    }
}

impl Device for Projector {
    #[inline]
    fn edge(&self, station: u8, letter: u8, answer: u8) -> Option<u8> {
        PROJECTOR.edge(station, letter, answer)
    }

    #[inline]
    fn station(&self) -> u8 {
        self.station
    }

    fn heard(&self) -> u32 {
        self.heard
    }

    #[inline]
    fn ask(&mut self, letter: u8) -> u8 {
        self.heard = self.heard.wrapping_add(1);
        if self.station >= STATIONS || letter >= LETTERS || !PROJECTOR.allows(self.station, letter) {
            self.station = JAMMED;
            return NO_ANSWER;
        }
        let mut answer = 0;
        if letter == LAMP_QUERY
            && let Some(reply) = self.replies.get(self.replied)
        {
            answer = reply % 3;
            self.replied += 1;
        }
        self.station = PROJECTOR.successors(self.station, letter)[answer as usize & 3];
        answer
    }
}

const KEPT: usize = 32;

/// A layer that keeps the last letters and answers, and hands all on.
pub struct Trail<D> {
    below: D,
    last: [(u8, u8); KEPT],
    next: usize,
}

impl<D> Trail<D> {
    pub fn new(below: D) -> Trail<D> {
        Trail { below, last: [(0, 0); KEPT], next: 0 }
    }
}

impl<D: Device> Device for Trail<D> {
    #[inline]
    fn edge(&self, station: u8, letter: u8, answer: u8) -> Option<u8> {
        self.below.edge(station, letter, answer)
    }

    #[inline]
    fn station(&self) -> u8 {
        self.below.station()
    }

    fn heard(&self) -> u32 {
        self.below.heard()
    }

    #[inline]
    fn ask(&mut self, letter: u8) -> u8 {
        let answer = self.below.ask(letter);
        self.last[self.next % KEPT] = (letter, answer);
        self.next = (self.next + 1) % KEPT;
        answer
    }
}

/// A letter below for each letter, or `UNMAPPED`.
pub type Map = [u8; LETTERS as usize];
pub const UNMAPPED: u8 = 0xFF;

/// A layer that renames letters.
pub struct Patch<D> {
    below: D,
    map: Map,
    jammed: bool,
    heard: u32,
}

impl<D> Patch<D> {
    /// None where the map breaks its rule.
    pub fn new(map: Map, below: D) -> Option<Patch<D>> {
        let lawful = map.iter().all(|&letter| letter < LETTERS || letter == UNMAPPED);
        lawful.then_some(Patch { below, map, jammed: false, heard: 0 })
    }
}

impl<D: Device> Device for Patch<D> {
    #[inline]
    fn edge(&self, station: u8, letter: u8, answer: u8) -> Option<u8> {
        match self.map.get(letter as usize) {
            None | Some(&UNMAPPED) => None,
            Some(&below) => self.below.edge(station, below, answer),
        }
    }

    #[inline]
    fn station(&self) -> u8 {
        if self.jammed { JAMMED } else { self.below.station() }
    }

    fn heard(&self) -> u32 {
        self.heard
    }

    #[inline]
    fn ask(&mut self, letter: u8) -> u8 {
        self.heard = self.heard.wrapping_add(1);
        let station = self.station();
        if (0..ANSWERS).all(|answer| self.edge(station, letter, answer).is_none()) {
            self.jammed = true;
            return NO_ANSWER;
        }
        self.below.ask(self.map[letter as usize & 15])
    }
}

/// A device of any make.
pub enum Any {
    Projector(Projector),
    Trail(Box<Trail<Any>>),
    Patch(Box<Patch<Any>>),
}

impl Any {
    fn shows(&self, edges: &Edges) -> bool {
        match self {
            Any::Projector(projector) => shows(projector, edges),
            Any::Trail(trail) => shows(&**trail, edges),
            Any::Patch(patch) => shows(&**patch, edges),
        }
    }
}

impl Device for Any {
    #[inline]
    fn edge(&self, station: u8, letter: u8, answer: u8) -> Option<u8> {
        match self {
            Any::Projector(projector) => projector.edge(station, letter, answer),
            Any::Trail(trail) => trail.edge(station, letter, answer),
            Any::Patch(patch) => patch.edge(station, letter, answer),
        }
    }

    #[inline]
    fn station(&self) -> u8 {
        match self {
            Any::Projector(projector) => projector.station(),
            Any::Trail(trail) => trail.station(),
            Any::Patch(patch) => patch.station(),
        }
    }

    fn heard(&self) -> u32 {
        match self {
            Any::Projector(projector) => projector.heard(),
            Any::Trail(trail) => trail.heard(),
            Any::Patch(patch) => patch.heard(),
        }
    }

    #[inline]
    fn ask(&mut self, letter: u8) -> u8 {
        match self {
            Any::Projector(projector) => projector.ask(letter),
            Any::Trail(trail) => trail.ask(letter),
            Any::Patch(patch) => patch.ask(letter),
        }
    }
}

/// A row of 1 to 8 devices, numbered from 0.
pub struct Rig {
    devices: Vec<Any>,
}

impl Rig {
    pub fn new(devices: Vec<Any>) -> Rig {
        Rig { devices }
    }

    pub fn count(&self) -> usize {
        self.devices.len()
    }

    pub fn devices(&self) -> impl Iterator<Item = &Any> {
        self.devices.iter()
    }

    /// Whether the device at a port shows exactly these edges.
    #[inline]
    pub fn shows(&self, port: usize, edges: &Edges) -> bool {
        self.devices[port].shows(edges)
    }

    #[inline]
    pub fn station(&self, port: usize) -> u8 {
        self.devices[port].station()
    }

    #[inline]
    pub fn ask(&mut self, port: usize, letter: u8) -> u8 {
        self.devices[port].ask(letter)
    }
}
