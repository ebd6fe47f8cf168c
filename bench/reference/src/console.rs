//! The console: a line in, its answer out.

use crate::book::Book;
use crate::device::{Any, Device, Rig};
use crate::hex::{decode, is_blank};
use crate::player::{Entry, Player, Stop};
use crate::protocol::{Fault, NO_PLACE, fault};
use crate::script::Script;
use crate::text::{entries, say};
use crate::words::{Written, number};
use std::rc::Rc;

const MOST_ROOM: usize = 4_096;
const USUAL_ROOM: usize = 2_000;
const MOST_PORTS: usize = 8;

pub struct Console {
    book: Rc<Book>,
    script: Rc<Script>,
    rig: Option<Rig>,
    player: Player,
    log: Vec<Entry>,
}

impl Console {
    pub fn new() -> Console {
        let book = Rc::new(Book::empty());
        Console {
            script: Rc::new(Script::empty(book.clone())),
            book,
            rig: None,
            player: Player::new(),
            log: vec![Entry::default(); MOST_ROOM],
        }
    }

    /// Answers a line, which has this number.
    pub fn answer(&mut self, line_number: usize, line: &[u8], out: &mut Vec<u8>) {
        let Some(from) = line.iter().position(|byte| !is_blank(byte)) else { return };
        let line = &line[from..];
        if line[0] == b'#' {
            return;
        }
        let length = line.iter().position(is_blank).unwrap_or(line.len());
        let (command, rest) = line.split_at(length);
        if self.command(command, rest, out).is_none() {
            say!(out, "line ", line_number, ": not understood\n");
        }
    }

    /// Answers a command; none, with nothing said and nothing changed, where it is not understood.
    fn command(&mut self, command: &[u8], rest: &[u8], out: &mut Vec<u8>) -> Option<()> {
        match command {
            b"book" => self.book(decode(rest)?, out),
            b"script" => self.script(decode(rest)?, out),
            b"go" => {
                let [steps, room] = words(rest)?;
                let steps = u32::try_from(number(steps?)?).ok()?;
                self.go(steps, self::room(room)?, out)?;
            }
            b"look" => {
                let [port] = words(rest)?;
                self.look(u8::try_from(number(port?)?).ok()?, out);
            }
            b"strike" => {
                let [room] = words(rest)?;
                self.strike(self::room(room)?, out)?;
            }
            b"ports" => {
                let [] = words(rest)?;
                self.ports(out)?;
            }
            b"begin" => {
                let [] = words(rest)?;
                self.begin(out)?;
            }
            b"player" => {
                let [] = words(rest)?;
                self.player = Player::new();
                say!(out, "player new\n");
            }
            b"rig" => {
                let devices: [_; MOST_PORTS] = words(rest)?;
                let devices: Option<Vec<Written>> = devices.into_iter().flatten().map(Written::read).collect();
                self.rig(devices.filter(|devices| !devices.is_empty())?, out);
            }
            _ => return None,
        }
        Some(())
    }

    fn book(&mut self, bytes: Vec<u8>, out: &mut Vec<u8>) {
        match Book::check(&bytes) {
            Ok(book) => {
                say!(out, "book passed, ", book.kinds.len(), " kinds\n");
                self.book = Rc::new(book);
                self.script = Rc::new(Script::empty(self.book.clone()));
            }
            Err(fault) => refuse("book", fault, out),
        }
    }

    fn script(&mut self, bytes: Vec<u8>, out: &mut Vec<u8>) {
        match Script::check(&self.book, bytes) {
            Ok(script) => {
                say!(out, "script passed, ", script.parts.len(), " parts\n");
                self.script = Rc::new(script);
            }
            Err(fault) => refuse("script", fault, out),
        }
    }

    fn rig(&mut self, devices: Vec<Written>, out: &mut Vec<u8>) {
        let built: Option<Vec<Any>> = devices.into_iter().map(Written::build).collect();
        match built {
            Some(devices) => {
                say!(out, "rig ", devices.len(), " ports\n");
                self.rig = Some(Rig::new(devices));
            }
            None => refuse("rig", fault(31, NO_PLACE), out),
        }
    }

    fn begin(&mut self, out: &mut Vec<u8>) -> Option<()> {
        match self.player.begin(&self.script, self.rig.as_ref()?) {
            Ok(count) => say!(out, "begun, ", count, " ports\n"),
            Err(fault) => refuse("begin", fault, out),
        }
        Some(())
    }

    fn go(&mut self, steps: u32, room: usize, out: &mut Vec<u8>) -> Option<()> {
        match self.player.go(steps, self.rig.as_mut()?, &mut self.log[..room]) {
            Ok(gone) => {
                match gone.stop {
                    Stop::End => say!(out, "go end"),
                    Stop::Spent => say!(out, "go spent"),
                    Stop::Cue(cue) => say!(out, "go cue ", cue),
                    Stop::Failed { code, place } => say!(out, "go failed ", code, " at ", place),
                }
                say!(out, ", ", gone.steps, " steps, ", gone.letters, " letters\n");
                entries(&self.log[..gone.letters], out);
            }
            Err(fault) => refuse("go", fault, out),
        }
        Some(())
    }

    fn strike(&mut self, room: usize, out: &mut Vec<u8>) -> Option<()> {
        match self.player.strike(self.rig.as_mut()?, &mut self.log[..room]) {
            Ok(letters) => {
                say!(out, "strike ", letters, " letters\n");
                entries(&self.log[..letters], out);
            }
            Err(fault) => refuse("strike", fault, out),
        }
        Some(())
    }

    fn look(&self, port: u8, out: &mut Vec<u8>) {
        match self.player.look(port) {
            Ok((station, over)) => {
                say!(out, "look station ", station, if over { ", over\n" } else { ", begun\n" });
            }
            Err(fault) => refuse("look", fault, out),
        }
    }

    fn ports(&self, out: &mut Vec<u8>) -> Option<()> {
        for (port, device) in self.rig.as_ref()?.devices().enumerate() {
            say!(out, "port ", port, " station ", device.station(), ", heard ", device.heard(), "\n");
        }
        Some(())
    }
}

fn refuse(what: &str, fault: Fault, out: &mut Vec<u8>) {
    say!(out, what, " refused ", fault.number, " at ", fault.place, "\n");
}

/// The words of a text, the missing ones none; none at all where there are more.
fn words<const MOST: usize>(text: &[u8]) -> Option<[Option<&[u8]>; MOST]> {
    let mut all = text.split(is_blank).filter(|word| !word.is_empty());
    let words = std::array::from_fn(|_| all.next());
    all.next().is_none().then_some(words)
}

/// The length of a log, which may be left out.
fn room(word: Option<&[u8]>) -> Option<usize> {
    let Some(word) = word else { return Some(USUAL_ROOM) };
    usize::try_from(number(word)?).ok().filter(|&room| room <= MOST_ROOM)
}
