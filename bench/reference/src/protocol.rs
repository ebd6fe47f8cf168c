//! Stations, letters and answers, the table of edges of one kind of device, and refusals.

pub const STATIONS: u8 = 16;
pub const LETTERS: u8 = 16;
pub const ANSWERS: u8 = 4;

pub const AWAY: u8 = 0;
/// What a jammed device shows in place of a station.
pub const JAMMED: u8 = 16;
/// What a device answers to a letter that is not allowed.
pub const NO_ANSWER: u8 = 255;

/// Where no edge is. No station has this number.
pub const NOWHERE: u8 = 255;
/// Where the answers to a letter lead to different stations.
const APART: u8 = 254;

/// A refusal: its number and its place.
#[derive(Clone, Copy)]
pub struct Fault {
    pub number: u8,
    pub place: u16,
}

/// The place of a refusal that has none.
pub const NO_PLACE: usize = 65_535;

pub fn fault(number: u8, place: usize) -> Fault {
    Fault { number, place: place as u16 }
}

/// Where all answers to a letter lead.
pub enum Leads {
    Nowhere,
    To(u8),
    Apart,
}

/// The successors of a station under a letter, by answer; `NOWHERE` for an answer that is not declared.
pub type Successors = [u8; ANSWERS as usize];

/// How many successors a station has at most, one for each letter and answer.
pub const ROW: usize = LETTERS as usize * ANSWERS as usize;

/// Where a letter and an answer within the ranges stand among the successors of a station.
#[inline]
pub const fn place(letter: u8, answer: u8) -> usize {
    (letter as usize & 15) * ANSWERS as usize + (answer as usize & 3)
}

/// The edges of one kind: for each station its successors, by letter and answer, and for each letter the one station to
/// which all its answers lead.
pub struct Edges {
    rows: [[u8; ROW]; STATIONS as usize],
    joint: [[u8; LETTERS as usize]; STATIONS as usize],
}

impl Edges {
    pub const fn none() -> Edges {
        Edges { rows: [[NOWHERE; ROW]; STATIONS as usize], joint: [[NOWHERE; LETTERS as usize]; STATIONS as usize] }
    }

    /// Adds an edge within the ranges; false if that answer was declared before.
    pub const fn add(&mut self, station: u8, letter: u8, answer: u8, to: u8) -> bool {
        let successor = &mut self.rows[station as usize & 15][place(letter, answer)];
        if *successor != NOWHERE {
            return false;
        }
        *successor = to;
        let joint = &mut self.joint[station as usize & 15][letter as usize & 15];
        *joint = if *joint == NOWHERE || *joint == to { to } else { APART };
        true
    }

    /// All successors of a station within the range.
    #[inline]
    pub fn from(&self, station: u8) -> &[u8; ROW] {
        &self.rows[station as usize & 15]
    }

    /// The successors at a station and a letter within the ranges.
    #[inline]
    pub fn successors(&self, station: u8, letter: u8) -> Successors {
        self.from(station).as_chunks().0[letter as usize & 15]
    }

    #[inline]
    pub fn leads(&self, station: u8, letter: u8) -> Leads {
        match self.joint[station as usize & 15][letter as usize & 15] {
            NOWHERE => Leads::Nowhere,
            APART => Leads::Apart,
            to => Leads::To(to),
        }
    }

    #[inline]
    pub fn allows(&self, station: u8, letter: u8) -> bool {
        self.joint[station as usize & 15][letter as usize & 15] != NOWHERE
    }

    /// The edge at any three numbers; none outside the ranges.
    #[inline]
    pub fn edge(&self, station: u8, letter: u8, answer: u8) -> Option<u8> {
        if station >= STATIONS || letter >= LETTERS || answer >= ANSWERS {
            return None;
        }
        match self.from(station)[place(letter, answer)] {
            NOWHERE => None,
            to => Some(to),
        }
    }
}
