//! Sheets that an honest decoder would not write.
use crate::decode::cheap;
use crate::random::Random;
use crate::sheet::{path, Entry, Sheet};
use crate::trellis::{Block, Node};
use std::collections::BTreeMap;

/// One of many kinds of damage, or several at once. Some leave the sheet as good as it was: an entry of great cost more.
pub fn damaged(random: &mut Random, block: &Block, honest: &Sheet) -> Vec<u8> {
    let mut sheet = honest.clone();
    let mut rounds = random.pick(&[0, 1, 1, 1, 1, 2, 3]);
    if rounds == 0 {
        return hurt(random, honest.bytes());
    }
    while rounds > 0 {
        rewrite(random, block, &mut sheet);
        rounds -= 1;
    }
    let bytes = sheet.bytes();
    if random.one_in(12) {
        hurt(random, bytes)
    } else {
        bytes
    }
}

/// Damage to the bytes, whatever they mean.
fn hurt(random: &mut Random, mut bytes: Vec<u8>) -> Vec<u8> {
    let at = random.below(bytes.len() as u64) as usize;
    match random.below(7) {
        0 | 1 => bytes[at] ^= 1 << random.below(8),
        2 => bytes[at] = random.number() as u8,
        3 => bytes.truncate(at),
        4 => bytes.push(random.number() as u8),
        5 => {
            // Cut or lengthened, with a length field that fits.
            bytes.resize(bytes.len().max(5) - 1 + random.pick(&[0, 2, 8, 9]), 0);
            let following = bytes.len() as u32 - 4;
            bytes[..4].copy_from_slice(&following.to_le_bytes());
        }
        _ => {
            // The leading fields are few among many bytes: they get a turn of their own.
            let at = random.below(14.min(bytes.len() as u64)) as usize;
            bytes[at] ^= 1 << random.below(8);
        }
    }
    bytes
}

/// Damage to what the sheet says, in good form for the most part.
fn rewrite(random: &mut Random, block: &Block, sheet: &mut Sheet) {
    let count = sheet.entries.len() as u64;
    if count == 0 {
        return;
    }
    let at = random.below(count) as usize;
    match random.below(12) {
        0 => drop(sheet.entries.remove(at)),
        1..=3 => {
            let entry = Entry {
                level: random.within(0, block.last_level() as u64),
                state: random.below(1 << block.code.memory),
                cost: any_cost(random, sheet.metric),
            };
            let place = sheet
                .entries
                .partition_point(|other| (other.level, other.state) < (entry.level, entry.state));
            let known = sheet
                .entries
                .get(place)
                .is_some_and(|other| (other.level, other.state) == (entry.level, entry.state));
            // Now and then an entry stands twice, and the form is bad.
            if !known || random.one_in(8) {
                sheet.entries.insert(place, entry);
            }
        }
        4 => {
            let cost = sheet.entries[at].cost;
            sheet.entries[at].cost = random.pick(&[cost.saturating_sub(1), cost + 1]);
        }
        5 => sheet.entries[at].cost = any_cost(random, sheet.metric),
        6 => {
            sheet.metric =
                random.pick(&[sheet.metric.saturating_sub(1), sheet.metric + 1, u64::from(u32::MAX)])
        }
        7 => {
            let bit = random.below(sheet.message.len() as u64) as usize;
            sheet.message[bit] ^= 1;
        }
        8 => forge(random, block, sheet),
        9 if random.one_in(2) => sheet.entries.swap(at, random.below(count) as usize),
        9 => {
            sheet.entries[at].state = random.below(1 << block.code.memory);
            sheet.entries.sort();
        }
        10 if random.one_in(2) => sheet.kind += random.pick(&[1, 255, 256]),
        _ => sheet.length += random.pick(&[1, 255, 256]),
    }
}

fn any_cost(random: &mut Random, metric: u64) -> u64 {
    match random.below(4) {
        0 => u64::from(u32::MAX) - random.below(2),
        1 => random.within(0, metric),
        _ => metric + random.within(0, 300),
    }
}

/// A sheet for another message: its metric as M, its path at its own costs. Where the trellis is small, all nodes that such an M
/// asks for are listed too, so that only the claim itself is wrong.
fn forge(random: &mut Random, block: &Block, sheet: &mut Sheet) {
    let bit = random.below(sheet.message.len() as u64) as usize;
    sheet.message[bit] ^= 1;
    for bit in &mut sheet.message {
        *bit ^= u8::from(random.one_in(6));
    }
    let path = path(block, &sheet.message);
    let (_, metric) = path[path.len() - 1];
    let mut costs: BTreeMap<Node, u64> = BTreeMap::new();
    if block.last_level() << block.code.memory <= 512 {
        costs.extend(cheap(block, metric));
    } else {
        costs.extend(sheet.entries.iter().map(|entry| (entry.node(), entry.cost)));
    }
    costs.extend(path);
    sheet.metric = metric;
    sheet.entries = costs.iter().map(|(&node, &cost)| Entry::new(node, cost)).collect();
}
