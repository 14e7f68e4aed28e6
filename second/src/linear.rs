//! The baseline of the bench: the search as one writes it first, in records of fixed size, with a scan over all of them for the
//! next node and another for a node met before.
use crate::code::{refused, Answer};
use crate::trellis::{Block, Node};

#[derive(Clone, Copy, Default)]
pub struct Record {
    level: u16,
    state: u16,
    cost: u32,
    before: u16,
    closed: bool,
    tied: bool,
}

impl Record {
    fn node(&self) -> Node {
        Node { level: usize::from(self.level), state: u32::from(self.state) }
    }

    fn rank(&self) -> (u32, u16, u16) {
        (self.cost, self.level, self.state)
    }
}

/// A decode of a good question: there are as many records as the room has nodes, and the message buffer holds a message.
pub fn linear(block: &Block, allowance: u32, records: &mut [Record], message: &mut [u8]) -> Answer {
    if records.is_empty() {
        return refused(3);
    }
    let room = records.len();
    // The origin, at cost 0.
    records[0] = Record::default();
    let mut count = 1;
    let mut steps = 0;
    loop {
        let open = records[..count].iter().enumerate().filter(|(_, record)| !record.closed);
        let (place, _) = open.min_by_key(|(_, record)| record.rank()).expect("the terminal stays open");
        let first = records[place];
        if first.node() == block.terminal() {
            return ended(block, &records[..count], place, steps, message);
        }
        if steps == allowance {
            return Answer { steps, ..refused(4) };
        }
        records[place].closed = true;
        for (next, branch) in block.branches(first.node()) {
            let reached = Record {
                level: next.level as u16,
                state: next.state as u16,
                cost: first.cost + branch as u32,
                before: place as u16,
                closed: false,
                tied: first.tied,
            };
            match records[..count]
                .iter_mut()
                .find(|record| record.level == reached.level && record.state == reached.state)
            {
                None if count == room => return Answer { steps, ..refused(3) },
                None => {
                    records[count] = reached;
                    count += 1;
                }
                Some(there) if reached.cost < there.cost => *there = reached,
                Some(there) if reached.cost == there.cost => there.tied = true,
                Some(_) => {}
            }
        }
        steps += 1;
    }
}

fn ended(block: &Block, records: &[Record], terminal: usize, steps: u32, message: &mut [u8]) -> Answer {
    let answer = Answer { number: 0, metric: records[terminal].cost, steps, length: 0 };
    if records[terminal].tied {
        return Answer { number: 5, ..answer };
    }
    let mut here = records[terminal];
    while here.level > 0 {
        if usize::from(here.level) <= block.length {
            message[usize::from(here.level) - 1] = block.newest(here.node());
        }
        here = records[usize::from(here.before)];
    }
    answer
}

#[cfg(test)]
mod tests {
    use super::*;
    use crate::cases::{filled, numbers, Case, Outcome};
    use crate::decode::ordered;
    use crate::draw::decoding;
    use crate::random::Random;
    use crate::stored::LIMITS;

    #[test]
    fn as_the_other_searches() {
        let mut random = Random::new(11);
        let mut records = vec![Record::default(); 4096];
        let mut tried = 0;
        while tried < 1000 {
            let case = decoding(&mut random, &LIMITS, false);
            let Outcome { numbers: expected, buffers } = case.outcome(ordered);
            let Case::Decode { asked, message } = case else { continue };
            if expected[0] == 1 || expected[0] == 2 {
                continue;
            }
            let block = Block { code: asked.code, length: asked.length as usize, symbols: &asked.symbols };
            let mut written = filled(message);
            let room = asked.room as usize;
            let answer = linear(&block, asked.allowance, &mut records[..room], &mut written);
            assert_eq!(numbers(answer), expected);
            assert_eq!(written, buffers[0]);
            tried += 1;
        }
    }
}
