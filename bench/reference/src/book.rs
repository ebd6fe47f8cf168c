//! Books: the row of commands that declares kinds of device, and its check.

use crate::protocol::{ANSWERS, AWAY, Edges, Fault, LETTERS, NO_PLACE, NOWHERE, STATIONS, fault};

pub const LONGEST: usize = 8_192;
const KINDS: usize = 8;

#[derive(Clone, Copy)]
struct Retreat {
    letter: u8,
    rank: u8,
}

pub struct Kind {
    pub edges: Edges,
    retreats: [Retreat; STATIONS as usize],
}

impl Kind {
    /// The letter that leads a named station home.
    #[inline]
    pub fn retreat(&self, station: u8) -> u8 {
        self.retreats[station as usize & 15].letter
    }
}

pub struct Book {
    pub kinds: Vec<Kind>,
}

impl Book {
    pub fn empty() -> Book {
        Book { kinds: Vec::new() }
    }

    pub fn check(bytes: &[u8]) -> Result<Book, Fault> {
        if bytes.len() > LONGEST {
            return Err(fault(1, NO_PLACE));
        }
        let mut kinds: Vec<Kind> = Vec::with_capacity(KINDS);
        let mut draft = Draft::none();
        let mut rest = bytes;
        while let [command, operands @ ..] = rest {
            let place = bytes.len() - rest.len();
            match command {
                1 => {
                    if let Some(kind) = kinds.last() {
                        draft.close(kind)?;
                    }
                    let [number, after @ ..] = operands else { return Err(fault(3, place)) };
                    if *number as usize != kinds.len() || kinds.len() == KINDS {
                        return Err(fault(4, place));
                    }
                    kinds.push(Kind { edges: Edges::none(), retreats: [Retreat { letter: 0, rank: 0 }; 16] });
                    draft = Draft { place, ..Draft::none() };
                    rest = after;
                }
                2 => {
                    let [station, letter, answer, to, after @ ..] = operands else { return Err(fault(3, place)) };
                    let kind = kinds.last_mut().ok_or(fault(4, place))?;
                    if *station >= STATIONS || *letter >= LETTERS || *answer >= ANSWERS || *to >= STATIONS {
                        return Err(fault(4, place));
                    }
                    if !kind.edges.add(*station, *letter, *answer, *to) {
                        return Err(fault(5, place));
                    }
                    draft.named |= 1 << station | 1 << to;
                    rest = after;
                }
                3 => {
                    let [station, letter, rank, after @ ..] = operands else { return Err(fault(3, place)) };
                    let kind = kinds.last_mut().ok_or(fault(4, place))?;
                    if !(1..STATIONS).contains(station) || *letter >= LETTERS || !(1..=15).contains(rank) {
                        return Err(fault(4, place));
                    }
                    let retreat = &mut kind.retreats[*station as usize & 15];
                    if retreat.rank != 0 {
                        return Err(fault(5, place));
                    }
                    *retreat = Retreat { letter: *letter, rank: *rank };
                    draft.note(*station, place);
                    rest = after;
                }
                _ => return Err(fault(2, place)),
            }
        }
        if let Some(kind) = kinds.last() {
            draft.close(kind)?;
        }
        Ok(Book { kinds })
    }
}

/// What is needed to close the kind that is being read.
struct Draft {
    place: usize,
    /// A bit for each station that stands in an edge.
    named: u16,
    /// A bit for each station with a retreat.
    homed: u16,
    /// The stations of the retreats and their places, in the order of the bytes.
    order: [(u8, u16); 15],
    count: usize,
}

impl Draft {
    fn none() -> Draft {
        Draft { place: 0, named: 0, homed: 0, order: [(0, 0); 15], count: 0 }
    }

    fn note(&mut self, station: u8, place: usize) {
        self.homed |= 1 << station;
        self.order[self.count] = (station, place as u16);
        self.count += 1;
    }

    /// Every named station comes home: it has a retreat, whose letter is allowed and leads to smaller ranks.
    fn close(&self, kind: &Kind) -> Result<(), Fault> {
        if self.named & !self.homed & !(1 << AWAY) != 0 {
            return Err(fault(6, self.place));
        }
        for &(station, place) in &self.order[..self.count] {
            let Retreat { letter, rank } = kind.retreats[station as usize & 15];
            let falls = |&to: &u8| to == NOWHERE || kind.retreats[to as usize & 15].rank < rank;
            if !kind.edges.allows(station, letter) || !kind.edges.successors(station, letter).iter().all(falls) {
                return Err(fault(7, place as usize));
            }
        }
        Ok(())
    }
}
