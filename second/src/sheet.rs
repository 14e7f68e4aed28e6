//! "The decision sheet": its bytes, the decoder that writes it, and the check.
use crate::code::{good_length, refused, Answer, Code};
use crate::decode::{settled, Asked, Known, Search};
use crate::trellis::{Block, Node, ORIGIN};
use std::collections::HashMap;

const KIND: u64 = 257;

/// A sheet's parts, each held so wide that it can also hold what no good sheet has.
#[derive(Clone, Debug, PartialEq, Eq)]
pub struct Sheet {
    pub kind: u64,
    pub length: u64,
    pub metric: u64,
    pub message: Vec<u8>,
    pub entries: Vec<Entry>,
}

/// In the order in which entries rise, level and state first.
#[derive(Clone, Copy, Debug, PartialEq, Eq, PartialOrd, Ord)]
pub struct Entry {
    pub level: u64,
    pub state: u64,
    pub cost: u64,
}

impl Entry {
    pub fn new(node: Node, cost: u64) -> Entry {
        Entry { level: node.level as u64, state: u64::from(node.state), cost }
    }

    pub fn node(&self) -> Node {
        Node { level: self.level as usize, state: self.state as u32 }
    }
}

fn put(bytes: &mut Vec<u8>, number: u64, width: usize) {
    bytes.extend(&number.to_le_bytes()[..width]);
}

/// The message in bytes, first bit highest, unused bits 0.
fn packed(message: &[u8]) -> Vec<u8> {
    message.chunks(8).map(|bits| bits.iter().enumerate().map(|(i, bit)| bit << (7 - i)).sum()).collect()
}

impl Sheet {
    pub fn honest(block: &Block, known: &Known) -> Sheet {
        Sheet {
            kind: KIND,
            length: block.length as u64,
            metric: known.metric,
            message: known.message.clone(),
            entries: known.listed.iter().map(|&(node, cost)| Entry::new(node, cost)).collect(),
        }
    }

    pub fn bytes(&self) -> Vec<u8> {
        let mut body = Vec::new();
        put(&mut body, self.kind, 2);
        put(&mut body, self.length, 2);
        put(&mut body, self.metric, 4);
        put(&mut body, self.entries.len() as u64, 2);
        body.extend(packed(&self.message));
        for entry in &self.entries {
            put(&mut body, entry.level, 2);
            put(&mut body, entry.state, 2);
            put(&mut body, entry.cost, 4);
        }
        let mut bytes = Vec::new();
        put(&mut bytes, body.len() as u64, 4);
        bytes.extend(body);
        bytes
    }

    /// The parts of a sheet of good form for this code and message length; nothing if the form is bad.
    pub fn read(code: &Code, length: usize, bytes: &[u8]) -> Option<Sheet> {
        let mut rest = bytes;
        let following = take(&mut rest, 4)?;
        if following != rest.len() as u64 {
            return None;
        }
        let kind = take(&mut rest, 2)?;
        let told_length = take(&mut rest, 2)?;
        if kind != KIND || told_length != length as u64 {
            return None;
        }
        let metric = take(&mut rest, 4)?;
        let count = take(&mut rest, 2)?;
        if !(1..=4096).contains(&count) {
            return None;
        }
        let mut bits = Vec::new();
        for _ in 0..length.div_ceil(8) {
            let byte = take(&mut rest, 1)?;
            bits.extend((0..8).rev().map(|place| (byte >> place & 1) as u8));
        }
        let unused = bits.split_off(length);
        if unused.contains(&1) {
            return None;
        }
        let mut entries = Vec::new();
        for _ in 0..count {
            let level = take(&mut rest, 2)?;
            let state = take(&mut rest, 2)?;
            let cost = take(&mut rest, 4)?;
            if level > length as u64 + u64::from(code.memory) || state >= 1 << code.memory {
                return None;
            }
            entries.push(Entry { level, state, cost });
        }
        let rise = |pair: &[Entry]| (pair[0].level, pair[0].state) < (pair[1].level, pair[1].state);
        if !entries.windows(2).all(rise) || !rest.is_empty() {
            return None;
        }
        Some(Sheet { kind, length: told_length, metric, message: bits, entries })
    }

    /// Conditions A to D. Costs are added in 64 bits: a sheet's may be the largest of 32.
    pub fn carries(&self, block: &Block) -> bool {
        let listed: HashMap<Node, u64> =
            self.entries.iter().map(|entry| (entry.node(), entry.cost)).collect();
        let path = path(block, &self.message);
        let origin_is_free = listed.get(&ORIGIN) == Some(&0);
        let successors_are_listed = listed.iter().all(|(&from, cost)| {
            block.branches(from).all(|(next, branch)| {
                let through = cost + branch;
                through > self.metric || listed.get(&next).is_some_and(|&there| there <= through)
            })
        });
        let path_is_exact = path.iter().all(|(step, so_far)| listed.get(step) == Some(so_far))
            && path.last().is_some_and(|&(_, whole)| whole == self.metric);
        let others_cost_more = listed.iter().all(|(&from, cost)| {
            block.branches(from).all(|(next, branch)| {
                // Two branches from one node part, so a branch into the path is one of the path if it starts on it.
                let enters = path[next.level].0 == next && path[from.level].0 != from;
                !enters || cost + branch > path[next.level].1
            })
        });
        origin_is_free && successors_are_listed && path_is_exact && others_cost_more
    }
}

fn take(rest: &mut &[u8], width: usize) -> Option<u64> {
    let (field, behind) = rest.split_at_checked(width)?;
    *rest = behind;
    Some(field.iter().rev().fold(0, |number, &byte| number * 256 + u64::from(byte)))
}

/// The nodes of a message's path, each with the metric so far.
pub fn path(block: &Block, message: &[u8]) -> Vec<(Node, u64)> {
    let mut here = ORIGIN;
    let mut metric = 0;
    let mut path = vec![(here, metric)];
    for level in 0..block.last_level() {
        let bit = message.get(level).copied().unwrap_or(0);
        let register = block.code.register(u32::from(bit), here.state);
        metric += block.branch_cost(level, register);
        here = Node { level: level + 1, state: register / 2 };
        path.push((here, metric));
    }
    path
}

pub fn decode_sheet(search: Search, asked: &Asked, message: &mut [u8], sheet: &mut [u8]) -> Answer {
    let known = match settled(search, asked, message.len()) {
        Err(answer) => return answer,
        Ok(known) => known,
    };
    let block = Block { code: asked.code, length: asked.length, symbols: asked.symbols };
    let bytes = Sheet::honest(&block, &known).bytes();
    let length = bytes.len() as u32;
    if sheet.len() < bytes.len() {
        return Answer { length, ..refused(9) };
    }
    message[..asked.length].copy_from_slice(&known.message);
    sheet[..bytes.len()].copy_from_slice(&bytes);
    Answer { number: 0, metric: known.metric as u32, steps: known.steps, length }
}

pub fn check(code: &Code, length: usize, symbols: &[i8], sheet: &[u8], message: &mut [u8]) -> Answer {
    if !code.lawful() {
        return refused(1);
    }
    if !good_length(length) || symbols.len() != code.block(length) || message.len() < length {
        return refused(2);
    }
    let Some(sheet) = Sheet::read(code, length, sheet) else {
        return refused(6);
    };
    if !sheet.carries(&Block { code: *code, length, symbols }) {
        return refused(7);
    }
    message[..length].copy_from_slice(&sheet.message);
    Answer { metric: sheet.metric as u32, ..Answer::default() }
}

#[cfg(test)]
mod tests {
    use super::*;
    use crate::code::house;
    use crate::decode::{literal, ordered};

    const FOUR: [i8; 6] = [3, -5, -2, 1, -4, -6];
    const FOURTEEN: [u8; 47] = [
        0x2B, 0, 0, 0, 1, 1, 1, 0, 3, 0, 0, 0, 4, 0, 0x80, 0, 0, 0, 0, 0, 0, 0, 0, 1, 0, 2, 0, 3, 0, 0, 0, 2,
        0, 1, 0, 3, 0, 0, 0, 3, 0, 0, 0, 3, 0, 0, 0,
    ];

    fn checked(sheet: &[u8]) -> (Answer, [u8; 2]) {
        let mut message = [9; 2];
        (check(&house(0), 1, &FOUR, sheet, &mut message), message)
    }

    #[test]
    fn case_14() {
        let asked = Asked { code: house(0), length: 1, symbols: &FOUR, room: 5, allowance: 3, words: 15 };
        for search in [literal as Search, ordered] {
            let mut message = [9; 2];
            let mut sheet = [9; 48];
            let answer = decode_sheet(search, &asked, &mut message, &mut sheet);
            assert_eq!(answer, Answer { number: 0, metric: 3, steps: 3, length: 47 });
            assert_eq!((message, &sheet[..47], sheet[47]), ([1, 9], &FOURTEEN[..], 9));
            let mut short = [9; 46];
            message = [9; 2];
            assert_eq!(
                decode_sheet(search, &asked, &mut message, &mut short),
                Answer { length: 47, ..refused(9) }
            );
            assert_eq!((message, short), ([9; 2], [9; 46]));
        }
        assert_eq!(checked(&FOURTEEN), (Answer { metric: 3, ..Answer::default() }, [1, 9]));
        assert_eq!(checked(&FOURTEEN[..46]), (refused(6), [9; 2]));
        let mut dearer = FOURTEEN;
        dearer[8] = 4;
        assert_eq!(checked(&dearer), (refused(7), [9; 2]));
    }

    #[test]
    fn form() {
        let changed = |at: usize, to: u8| {
            let mut sheet = FOURTEEN;
            sheet[at] = to;
            checked(&sheet).0.number
        };
        // Following bytes, kind, length, count, an unused bit of the message, an entry that falls, a level and a state too high.
        for (at, to) in [(0, 42), (4, 2), (6, 2), (12, 3), (14, 0x81), (39, 2), (39, 4), (33, 4)] {
            assert_eq!(changed(at, to), 6, "byte {at} made {to}");
        }
        let mut longer = FOURTEEN.to_vec();
        longer.push(0);
        assert_eq!(checked(&longer).0.number, 6);
        longer[0] += 1;
        assert_eq!(checked(&longer).0.number, 6);
        assert_eq!(checked(&[]).0.number, 6);
        // The message's bit, the origin's cost, an entry's cost.
        for (at, to) in [(14, 0), (19, 1), (27, 2), (27, 4)] {
            assert_eq!(changed(at, to), 7, "byte {at} made {to}");
        }
    }

    #[test]
    fn costs_do_not_wrap() {
        let block = Block { code: house(0), length: 1, symbols: &FOUR };
        let mut sheet = Sheet::read(&house(0), 1, &FOURTEEN).expect("case 14 has good form");
        sheet.entries.insert(1, Entry { level: 0, state: 1, cost: u64::from(u32::MAX) });
        assert!(sheet.carries(&block));
        assert_eq!(checked(&sheet.bytes()).0, Answer { metric: 3, ..Answer::default() });
    }
}
