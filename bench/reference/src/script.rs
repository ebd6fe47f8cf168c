//! Scripts: their parts, their commands, and the check, which follows the key of each handle.

use crate::book::{Book, Kind};
use crate::protocol::{AWAY, Fault, LETTERS, Leads, NO_PLACE, NOWHERE, STATIONS, fault};
use std::rc::Rc;

pub const LONGEST: usize = 16_384;
pub const HANDLES: usize = 8;
pub const REGISTERS: u8 = 8;
const PARTS: usize = 16;
const HEADER: usize = 28;
const DEEPEST: u8 = 8;

/// A station for each handle.
type Keys = [u8; HANDLES];

/// Where a block or a body stands in the script.
#[derive(Clone, Copy)]
pub struct Block {
    pub at: usize,
    pub end: usize,
}

impl Block {
    #[inline]
    fn is_empty(self) -> bool {
        self.at == self.end
    }
}

pub struct Part {
    pub handles: u8,
    pub kinds: [u8; HANDLES],
    ins: Keys,
    outs: Keys,
    pub body: Block,
}

pub enum Command {
    Send { handle: u8, letter: u8, register: u8 },
    Ask { handle: u8, letter: u8, blocks: [Block; 4] },
    Repeat { register: u8, block: Block },
    Run { part: u8, bindings: [u8; HANDLES] },
    Set { register: u8, value: u8 },
    Dec { register: u8 },
    Cue { number: u16 },
    Fail { code: u8 },
}

/// The first command of a block, and where the next one begins; none if it is unknown or runs past the block.
#[inline(always)]
pub fn read(bytes: &[u8], block: Block) -> Option<(Command, usize)> {
    let Block { at, end } = block;
    let word = |low: u8, high: u8| low as usize | (high as usize) << 8;
    let (opcode, operands) = bytes.get(at..end)?.split_first()?;
    match opcode {
        0x20 => {
            let &[handle, letter, register, ..] = operands else { return None };
            Some((Command::Send { handle, letter, register }, at + 4))
        }
        0x21 => {
            let &[handle, letter, a, b, c, d, e, f, g, h, ..] = operands else { return None };
            let mut next = at + 11;
            let blocks = [word(a, b), word(c, d), word(e, f), word(g, h)].map(|length| {
                let from = next;
                next += length;
                Block { at: from, end: next }
            });
            (next <= end).then_some((Command::Ask { handle, letter, blocks }, next))
        }
        0x23 => {
            let &[register, low, high, ..] = operands else { return None };
            let block = Block { at: at + 4, end: at + 4 + word(low, high) };
            (block.end <= end).then_some((Command::Repeat { register, block }, block.end))
        }
        0x24 => {
            let &[part, a, b, c, d, e, f, g, h, ..] = operands else { return None };
            Some((Command::Run { part, bindings: [a, b, c, d, e, f, g, h] }, at + 10))
        }
        0x25 => {
            let &[register, value, ..] = operands else { return None };
            Some((Command::Set { register, value }, at + 3))
        }
        0x26 => {
            let &[register, ..] = operands else { return None };
            Some((Command::Dec { register }, at + 2))
        }
        0x27 => {
            let &[low, high, ..] = operands else { return None };
            Some((Command::Cue { number: word(low, high) as u16 }, at + 3))
        }
        0x28 => {
            let &[code, ..] = operands else { return None };
            Some((Command::Fail { code }, at + 2))
        }
        _ => None,
    }
}

/// A passed script over a passed book.
pub struct Script {
    pub book: Rc<Book>,
    pub bytes: Vec<u8>,
    pub parts: Vec<Part>,
}

impl Script {
    pub fn empty(book: Rc<Book>) -> Script {
        Script { book, bytes: Vec::new(), parts: Vec::new() }
    }

    pub fn check(book: &Rc<Book>, bytes: Vec<u8>) -> Result<Script, Fault> {
        if bytes.len() > LONGEST {
            return Err(fault(8, NO_PLACE));
        }
        let mut parts: Vec<Part> = Vec::with_capacity(PARTS);
        let mut at = 0;
        while at < bytes.len() {
            let part = header(&book.kinds, &bytes, at, parts.len())?;
            let check = Check { kinds: &book.kinds, bytes: &bytes, parts: &parts, part: &part };
            if check.block(part.body, part.ins, 1)? != part.outs {
                return Err(fault(21, at));
            }
            at = part.body.end;
            parts.push(part);
        }
        if let Some(main) = parts.last() {
            let handles = main.handles as usize;
            if main.ins[..handles].iter().chain(&main.outs[..handles]).any(|&station| station != AWAY) {
                return Err(fault(22, main.body.at - HEADER));
            }
        }
        Ok(Script { book: book.clone(), bytes, parts })
    }

    pub fn main(&self) -> Option<&Part> {
        self.parts.last()
    }
}

/// The header of the part that begins at a place, with `before` parts before it.
fn header(kinds: &[Kind], bytes: &[u8], at: usize, before: usize) -> Result<Part, Fault> {
    let Some([0x10, handles, triples @ .., low, high]) = bytes[at..].first_chunk::<HEADER>() else {
        return Err(fault(9, at));
    };
    let body = Block { at: at + HEADER, end: at + HEADER + (*low as usize | (*high as usize) << 8) };
    let mut part = Part { handles: *handles, kinds: [0; 8], ins: [0; 8], outs: [0; 8], body };
    let mut whole = before < PARTS && (1..=HANDLES as u8).contains(handles) && body.end <= bytes.len();
    for (handle, triple) in triples.chunks_exact(3).enumerate() {
        let [kind, station_in, station_out] = [triple[0], triple[1], triple[2]];
        whole &= if handle < *handles as usize {
            (kind as usize) < kinds.len() && station_in < STATIONS && station_out < STATIONS
        } else {
            [kind, station_in, station_out] == [0xFF; 3]
        };
        part.kinds[handle] = kind;
        part.ins[handle] = station_in;
        part.outs[handle] = station_out;
    }
    if whole { Ok(part) } else { Err(fault(10, at)) }
}

/// The check of one part's body.
struct Check<'a> {
    kinds: &'a [Kind],
    bytes: &'a [u8],
    /// The parts before this one, which it may run.
    parts: &'a [Part],
    part: &'a Part,
}

impl Check<'_> {
    /// The keys at the end of a block, from those at its beginning.
    fn block(&self, block: Block, mut keys: Keys, depth: u8) -> Result<Keys, Fault> {
        let Block { mut at, end } = block;
        while at < end {
            let Some((command, next)) = read(self.bytes, Block { at, end }) else {
                return Err(fault(11, at));
            };
            match command {
                Command::Send { handle, letter, register } => {
                    if handle >= self.part.handles || letter >= LETTERS || register >= REGISTERS {
                        return Err(fault(12, at));
                    }
                    let key = &mut keys[handle as usize & 7];
                    match self.kind(handle).edges.leads(*key, letter) {
                        Leads::Nowhere => return Err(fault(14, at)),
                        Leads::Apart => return Err(fault(15, at)),
                        Leads::To(station) => *key = station,
                    }
                }
                Command::Ask { handle, letter, blocks } => {
                    if handle >= self.part.handles || letter >= LETTERS {
                        return Err(fault(12, at));
                    }
                    keys = self.ask(at, handle, letter, &blocks, keys, depth)?;
                }
                Command::Repeat { register, block } => {
                    if register >= REGISTERS {
                        return Err(fault(12, at));
                    }
                    if depth >= DEEPEST {
                        return Err(fault(13, at));
                    }
                    if self.block(block, keys, depth + 1)? != keys {
                        return Err(fault(18, at));
                    }
                }
                Command::Run { part, bindings } => self.run(at, part, &bindings, &mut keys)?,
                Command::Set { register, .. } | Command::Dec { register } => {
                    if register >= REGISTERS {
                        return Err(fault(12, at));
                    }
                }
                Command::Cue { .. } | Command::Fail { .. } => {}
            }
            at = next;
        }
        Ok(keys)
    }

    fn ask(&self, at: usize, handle: u8, letter: u8, blocks: &[Block; 4], keys: Keys, depth: u8) -> Result<Keys, Fault> {
        if depth >= DEEPEST {
            return Err(fault(13, at));
        }
        let edges = &self.kind(handle).edges;
        let station = keys[handle as usize & 7];
        if !edges.allows(station, letter) {
            return Err(fault(14, at));
        }
        let branches = edges.successors(station, letter).into_iter().zip(blocks);
        if branches.clone().any(|(to, block)| to == NOWHERE && !block.is_empty()) {
            return Err(fault(16, at));
        }
        let mut joined = None;
        let mut alike = true;
        for (to, block) in branches.filter(|&(to, _)| to != NOWHERE) {
            let mut branch = keys;
            branch[handle as usize & 7] = to;
            let ends = self.block(*block, branch, depth + 1)?;
            alike &= *joined.get_or_insert(ends) == ends;
        }
        if alike { Ok(joined.unwrap_or(keys)) } else { Err(fault(17, at)) }
    }

    fn run(&self, at: usize, number: u8, bindings: &[u8; HANDLES], keys: &mut Keys) -> Result<(), Fault> {
        let part = self.parts.get(number as usize).ok_or(fault(12, at))?;
        let (bound, beyond) = bindings.split_at(part.handles as usize);
        if bound.iter().any(|&handle| handle >= self.part.handles) || beyond.iter().any(|&byte| byte != 0xFF) {
            return Err(fault(12, at));
        }
        let mut taken = 0u8;
        for handle in bound {
            if taken & 1 << handle != 0 {
                return Err(fault(19, at));
            }
            taken |= 1 << handle;
        }
        let differs = |(inner, &outer): (usize, &u8)| {
            let outer = outer as usize & 7;
            self.part.kinds[outer] != part.kinds[inner] || keys[outer] != part.ins[inner]
        };
        if bound.iter().enumerate().any(differs) {
            return Err(fault(20, at));
        }
        for (&outer, &station) in bound.iter().zip(&part.outs) {
            keys[outer as usize & 7] = station;
        }
        Ok(())
    }

    #[inline]
    fn kind(&self, handle: u8) -> &Kind {
        &self.kinds[self.part.kinds[handle as usize & 7] as usize]
    }
}
