//! The player: runs a passed script on a rig, a step at a time.

use crate::book::Kind;
use crate::device::Rig;
use crate::protocol::{AWAY, Fault, NO_PLACE, fault};
use crate::script::{Block, Command, HANDLES, REGISTERS, Script, read};
use std::rc::Rc;

const MOST_STEPS: u32 = 1_000;
/// The letters that a fault exit sends at most: 15 to each of 8 ports.
const EXIT_ROOM: usize = 120;
const MOST_OPEN: usize = 128;

/// One letter sent.
#[derive(Clone, Copy, Default)]
pub struct Entry {
    pub port: u8,
    pub letter: u8,
    pub answer: u8,
    pub station: u8,
}

pub enum Stop {
    End,
    Spent,
    Cue(u16),
    Failed { code: u8, place: usize },
}

pub struct Gone {
    pub stop: Stop,
    pub steps: u32,
    pub letters: usize,
}

/// An open block: what is left of it, and the port of each handle.
#[derive(Clone, Copy)]
struct Open {
    left: Block,
    ports: [u8; HANDLES],
}

pub struct Player {
    over: bool,
    script: Option<Rc<Script>>,
    registers: [u8; REGISTERS as usize],
    stations: Vec<u8>,
    /// The open blocks, the topmost last; the first `depth` are in use.
    open: [Open; MOST_OPEN],
    depth: usize,
}

impl Player {
    pub fn new() -> Player {
        Player {
            over: true,
            script: None,
            registers: [0; 8],
            stations: Vec::with_capacity(HANDLES),
            open: [Open { left: Block { at: 0, end: 0 }, ports: [0; 8] }; MOST_OPEN],
            depth: 0,
        }
    }

    pub fn begin(&mut self, script: &Rc<Script>, rig: &Rig) -> Result<usize, Fault> {
        if !self.over {
            return Err(fault(23, NO_PLACE));
        }
        let count = rig.count();
        let main = script.main().filter(|main| main.handles as usize == count).ok_or(fault(24, NO_PLACE))?;
        for port in 0..count {
            if !rig.shows(port, &kind(script, main.kinds[port]).edges) {
                return Err(fault(25, port));
            }
        }
        if let Some(port) = (0..count).find(|&port| rig.station(port) != AWAY) {
            return Err(fault(26, port));
        }
        self.over = false;
        self.registers = [0; 8];
        self.stations.clear();
        self.stations.resize(count, AWAY);
        self.open[0] = Open { left: main.body, ports: [0, 1, 2, 3, 4, 5, 6, 7] };
        self.depth = 1;
        self.script = Some(script.clone());
        Ok(count)
    }

    /// At most so many steps. Each letter sent stands in the log, from its first entry on.
    pub fn go(&mut self, steps: u32, rig: &mut Rig, log: &mut [Entry]) -> Result<Gone, Fault> {
        let script = self.begun()?.clone();
        if !(1..=MOST_STEPS).contains(&steps) {
            return Err(fault(28, NO_PLACE));
        }
        if log.len() < steps as usize + EXIT_ROOM {
            return Err(fault(29, NO_PLACE));
        }
        self.compare(&script, rig)?;
        let mut log = Log { entries: log, count: 0 };
        let mut done = 0;
        let stop = self.run(&script, steps, &mut done, rig, &mut log);
        Ok(Gone { stop, steps: done, letters: log.count })
    }

    fn run(&mut self, script: &Script, steps: u32, done: &mut u32, rig: &mut Rig, log: &mut Log) -> Stop {
        let mut top = self.open[self.depth - 1];
        loop {
            while top.left.at == top.left.end {
                self.depth -= 1;
                if self.depth == 0 {
                    self.over = true;
                    return Stop::End;
                }
                top = self.open[self.depth - 1];
            }
            if *done == steps {
                self.open[self.depth - 1] = top;
                return Stop::Spent;
            }
            let place = top.left.at;
            // A passed script has only whole commands.
            let Some((command, next)) = read(&script.bytes, top.left) else { return Stop::End };
            *done += 1;
            match command {
                Command::Send { handle, letter, register } => {
                    let answer = self.tell(top.ports[handle as usize & 7], letter, rig, log);
                    self.registers[register as usize & 7] = answer;
                }
                Command::Ask { handle, letter, blocks } => {
                    let answer = self.tell(top.ports[handle as usize & 7], letter, rig, log);
                    top.left.at = next;
                    top = self.push(top, blocks[answer as usize & 3], top.ports);
                    continue;
                }
                Command::Repeat { register, block } => {
                    // A loop stays at its own place until its register is 0.
                    if self.registers[register as usize & 7] != 0 {
                        top = self.push(top, block, top.ports);
                        continue;
                    }
                }
                Command::Run { part, bindings } => {
                    let ports = bindings.map(|handle| top.ports[handle as usize & 7]);
                    top.left.at = next;
                    top = self.push(top, script.parts[part as usize].body, ports);
                    continue;
                }
                Command::Set { register, value } => self.registers[register as usize & 7] = value,
                Command::Dec { register } => {
                    let register = &mut self.registers[register as usize & 7];
                    *register = register.saturating_sub(1);
                }
                Command::Cue { number } => {
                    top.left.at = next;
                    self.open[self.depth - 1] = top;
                    return Stop::Cue(number);
                }
                Command::Fail { code } => {
                    self.exit(script, rig, log);
                    return Stop::Failed { code, place };
                }
            }
            top.left.at = next;
        }
    }

    /// Puts the outer block away and opens an inner one.
    #[inline]
    fn push(&mut self, outer: Open, left: Block, ports: [u8; HANDLES]) -> Open {
        self.open[self.depth - 1] = outer;
        self.depth += 1;
        Open { left, ports }
    }

    pub fn strike(&mut self, rig: &mut Rig, log: &mut [Entry]) -> Result<usize, Fault> {
        let script = self.begun()?.clone();
        if log.len() < EXIT_ROOM {
            return Err(fault(29, NO_PLACE));
        }
        self.compare(&script, rig)?;
        let mut log = Log { entries: log, count: 0 };
        self.exit(&script, rig, &mut log);
        Ok(log.count)
    }

    /// The station kept for a port, and whether the player is over.
    pub fn look(&self, port: u8) -> Result<(u8, bool), Fault> {
        let station = self.stations.get(port as usize).ok_or(fault(31, port as usize))?;
        Ok((*station, self.over))
    }

    fn begun(&self) -> Result<&Rc<Script>, Fault> {
        self.script.as_ref().filter(|_| !self.over).ok_or(fault(27, NO_PLACE))
    }

    /// The rig must be as the player keeps it: its count of ports, their edges and their stations.
    fn compare(&self, script: &Script, rig: &Rig) -> Result<(), Fault> {
        let main = script.main().filter(|_| self.stations.len() == rig.count()).ok_or(fault(30, NO_PLACE))?;
        for (port, &station) in self.stations.iter().enumerate() {
            if rig.station(port) != station || !rig.shows(port, &kind(script, main.kinds[port]).edges) {
                return Err(fault(30, port));
            }
        }
        Ok(())
    }

    /// Sends a letter and gives the answer.
    #[inline]
    fn tell(&mut self, port: u8, letter: u8, rig: &mut Rig, log: &mut Log) -> u8 {
        let answer = rig.ask(port as usize, letter);
        let station = rig.station(port as usize);
        self.stations[port as usize] = station;
        log.note(Entry { port, letter, answer, station });
        answer
    }

    /// Leads every port away by its retreats, in rising order.
    fn exit(&mut self, script: &Script, rig: &mut Rig, log: &mut Log) {
        let kinds = script.main().map_or([0; HANDLES], |main| main.kinds);
        for port in 0..self.stations.len() {
            while self.stations[port] != AWAY {
                let letter = kind(script, kinds[port]).retreat(self.stations[port]);
                self.tell(port as u8, letter, rig, log);
            }
        }
        self.over = true;
    }
}

fn kind(script: &Script, number: u8) -> &Kind {
    &script.book.kinds[number as usize]
}

struct Log<'a> {
    entries: &'a mut [Entry],
    count: usize,
}

impl Log<'_> {
    #[inline]
    fn note(&mut self, entry: Entry) {
        self.entries[self.count] = entry;
        self.count += 1;
    }
}
