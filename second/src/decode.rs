//! "Node order" and the decoder, twice: once by the letter of the paper, over all reachable nodes, and once by a search that
//! looks only at the nodes that it needs. Tests and the program `agree` hold the two together.
use crate::code::{good_length, refused, Answer, Code};
use crate::trellis::{Block, Node, ORIGIN};
use std::collections::{BTreeMap, BTreeSet, HashMap, HashSet};

/// What room and allowance leave of a block, before any buffer is looked at.
#[derive(Debug, PartialEq, Eq)]
pub enum Verdict {
    Room { steps: u32 },
    Allowance,
    Known(Known),
}

/// The least metric is known.
#[derive(Debug, PartialEq, Eq)]
pub struct Known {
    pub metric: u64,
    /// E.
    pub steps: u32,
    /// D(E).
    pub discovered: usize,
    /// How many messages have the least metric, held at the largest number there is.
    pub sharing: u64,
    /// One of them; it is asked for only if it is the only one.
    pub message: Vec<u8>,
    /// The reachable nodes of cost at most the least metric, in the order of a sheet.
    pub listed: Vec<(Node, u64)>,
}

/// A way to the verdict from a block, a room and an allowance.
pub type Search = fn(&Block, usize, u32) -> Verdict;

/// A node's cost and the number of its paths that have it.
#[derive(Clone, Copy)]
struct Reached {
    cost: u64,
    paths: u64,
}

/// The reachable states of each level. All paths to a level pass through the level before.
fn reachable(block: &Block) -> Vec<BTreeMap<u32, Reached>> {
    let mut levels = vec![BTreeMap::from([(ORIGIN.state, Reached { cost: 0, paths: 1 })])];
    for level in 0..block.last_level() {
        let mut following = BTreeMap::new();
        for (&state, &from) in &levels[level] {
            for (next, branch) in block.branches(Node { level, state }) {
                let cost = from.cost + branch;
                let there = following.entry(next.state).or_insert(Reached { cost, paths: 0 });
                if cost < there.cost {
                    *there = Reached { cost, paths: 0 };
                }
                if cost == there.cost {
                    there.paths = there.paths.saturating_add(from.paths);
                }
            }
        }
        levels.push(following);
    }
    levels
}

/// The reachable nodes of cost at most some metric, in the order of a sheet.
pub fn cheap(block: &Block, metric: u64) -> Vec<(Node, u64)> {
    let mut nodes = Vec::new();
    for (level, states) in reachable(block).iter().enumerate() {
        nodes.extend(states.iter().map(|(&state, reached)| (Node { level, state }, reached.cost)));
    }
    nodes.retain(|&(_, cost)| cost <= metric);
    nodes
}

/// D(0), D(1), ..., D(j) for the first j nodes of an order.
fn discovered(block: &Block, first: &[(u64, Node)]) -> Vec<usize> {
    let mut nodes = HashSet::from([ORIGIN]);
    let mut counts = vec![nodes.len()];
    for &(_, node) in first {
        nodes.extend(block.branches(node).map(|(next, _)| next));
        counts.push(nodes.len());
    }
    counts
}

/// A message of least metric, traced from the terminal to the origin: at each level some node before this one lies on a path
/// that costs no more than this one does.
fn traced(block: &Block, levels: &[BTreeMap<u32, Reached>]) -> Vec<u8> {
    let mut message = Vec::new();
    let mut here = block.terminal();
    while here.level > 0 {
        message.push(block.newest(here));
        let cost = levels[here.level][&here.state].cost;
        let leads = |level, state, from: &Reached| {
            block
                .branches(Node { level, state })
                .any(|(next, branch)| next == here && from.cost + branch == cost)
        };
        let level = here.level - 1;
        let before = levels[level].iter().find(|&(&state, from)| leads(level, state, from));
        let (&state, _) = before.expect("a cost above the origin comes from the level before");
        here = Node { level, state };
    }
    message.reverse();
    message.truncate(block.length);
    message
}

/// The paper's words, one after another: costs level by level, all reachable nodes ranked, then E, D and the verdict.
pub fn literal(block: &Block, room: usize, allowance: u32) -> Verdict {
    let levels = reachable(block);
    let mut order = Vec::new();
    for (level, states) in levels.iter().enumerate() {
        order.extend(states.iter().map(|(&state, reached)| (reached.cost, Node { level, state })));
    }
    order.sort();
    let terminal = block.terminal();
    let steps = order.iter().position(|&(_, node)| node == terminal).expect("the terminal is reachable");
    let counts = discovered(block, &order[..steps]);
    let stop = steps.min(allowance as usize);
    if counts[stop] > room {
        // D never falls, so the greatest j lies before the stop.
        let greatest = (0..stop).rev().find(|&j| counts[j] <= room).unwrap_or(0);
        return Verdict::Room { steps: greatest as u32 };
    }
    if (allowance as usize) < steps {
        return Verdict::Allowance;
    }
    let Reached { cost: metric, paths: sharing } = levels[terminal.level][&terminal.state];
    Verdict::Known(Known {
        metric,
        steps: steps as u32,
        discovered: counts[steps],
        sharing,
        message: traced(block, &levels),
        listed: cheap(block, metric),
    })
}

struct Met {
    cost: u64,
    paths: u64,
    /// The node before this one on a path of that cost.
    before: Node,
}

/// The same by a search that takes the first open node in node order and expands it.
///
/// A branch costs nothing or more and leads one level up, so a node comes after every node on its least paths. Hence the first
/// open node always is the next of the order, with its cost and its number of least paths settled; the nodes met after j
/// expansions are those that D(j) counts; and, the terminal being the last node of its cost, the nodes expanded before it are
/// those of cost at most the least metric.
pub fn ordered(block: &Block, room: usize, allowance: u32) -> Verdict {
    let terminal = block.terminal();
    let mut met = HashMap::from([(ORIGIN, Met { cost: 0, paths: 1, before: ORIGIN })]);
    let mut open = BTreeSet::from([(0, ORIGIN)]);
    let mut listed = Vec::new();
    loop {
        let steps = listed.len() as u32;
        if met.len() > room {
            return Verdict::Room { steps: steps.saturating_sub(1) };
        }
        let (cost, node) = open.pop_first().expect("the terminal stays open until it is first");
        if node == terminal {
            listed.push((node, cost));
            listed.sort();
            return Verdict::Known(Known {
                metric: cost,
                steps,
                discovered: met.len(),
                sharing: met[&node].paths,
                message: followed(block, &met),
                listed,
            });
        }
        if steps == allowance {
            return Verdict::Allowance;
        }
        listed.push((node, cost));
        let paths = met[&node].paths;
        for (next, branch) in block.branches(node) {
            let reached = Met { cost: cost + branch, paths, before: node };
            match met.get_mut(&next) {
                None => {
                    open.insert((reached.cost, next));
                    met.insert(next, reached);
                }
                Some(there) if reached.cost < there.cost => {
                    open.remove(&(there.cost, next));
                    open.insert((reached.cost, next));
                    *there = reached;
                }
                Some(there) if reached.cost == there.cost => there.paths = there.paths.saturating_add(paths),
                Some(_) => {}
            }
        }
    }
}

fn followed(block: &Block, met: &HashMap<Node, Met>) -> Vec<u8> {
    let mut message = vec![0; block.length];
    let mut here = block.terminal();
    while here.level > 0 {
        if here.level <= block.length {
            message[here.level - 1] = block.newest(here);
        }
        here = met[&here].before;
    }
    message
}

/// What a decode is asked, but for its output buffers. `words` is the size of the working memory, in words of 8 bytes.
#[derive(Clone, Copy)]
pub struct Asked<'a> {
    pub code: Code,
    pub length: usize,
    pub symbols: &'a [i8],
    pub room: usize,
    pub allowance: u32,
    pub words: usize,
}

/// Three words, so 24 bytes, for each node of the room.
const WORDS: usize = 3;

/// The answer where it holds no message, or else what is known.
pub fn settled(search: Search, asked: &Asked, message_length: usize) -> Result<Known, Answer> {
    let Asked { code, length, symbols, room, allowance, words } = *asked;
    if !code.lawful() {
        return Err(refused(1));
    }
    let sizes = good_length(length) && room <= 4096 && symbols.len() == code.block(length);
    if !sizes || message_length < length || words < WORDS * room {
        return Err(refused(2));
    }
    match search(&Block { code, length, symbols }, room, allowance) {
        Verdict::Room { steps } => Err(Answer { steps, ..refused(3) }),
        Verdict::Allowance => Err(Answer { steps: allowance, ..refused(4) }),
        Verdict::Known(known) if known.sharing > 1 => {
            Err(Answer { metric: known.metric as u32, steps: known.steps, ..refused(5) })
        }
        Verdict::Known(known) => Ok(known),
    }
}

pub fn decode(search: Search, asked: &Asked, message: &mut [u8]) -> Answer {
    match settled(search, asked, message.len()) {
        Err(answer) => answer,
        Ok(known) => {
            message[..asked.length].copy_from_slice(&known.message);
            Answer { metric: known.metric as u32, steps: known.steps, ..Answer::default() }
        }
    }
}

#[cfg(test)]
mod tests {
    use super::*;
    use crate::brute;
    use crate::code::house;

    const FOUR: [i8; 6] = [3, -5, -2, 1, -4, -6];

    /// Both searches, and what the message buffer holds at the end.
    fn tried(asked: &Asked) -> (Answer, Vec<u8>) {
        let run = |search: Search| {
            let mut message = vec![9; asked.length + 1];
            (decode(search, asked, &mut message), message)
        };
        let answered = run(literal);
        assert_eq!(answered, run(ordered));
        answered
    }

    fn case(length: usize, symbols: &[i8], room: usize, allowance: u32) -> (Answer, Vec<u8>) {
        tried(&Asked { code: house(0), length, symbols, room, allowance, words: 3 * 4096 })
    }

    fn answer(number: u32, metric: u32, steps: u32) -> Answer {
        Answer { number, metric, steps, length: 0 }
    }

    #[test]
    fn cases_4_to_9() {
        assert_eq!(case(1, &FOUR, 5, 3), (answer(0, 3, 3), vec![1, 9]));
        let block = Block { code: house(0), length: 1, symbols: &FOUR };
        assert_eq!(brute::metric(&block, &[0]), 17);
        assert_eq!(case(1, &FOUR, 4, 3), (answer(3, 0, 2), vec![9, 9]));
        assert_eq!(case(1, &FOUR, 4, 2), (answer(4, 0, 2), vec![9, 9]));
        assert_eq!(case(1, &FOUR, 3, 2), (answer(3, 0, 1), vec![9, 9]));
        assert_eq!(case(1, &FOUR, 0, 3), (answer(3, 0, 0), vec![9, 9]));
        assert_eq!(case(1, &FOUR, 1, 0), (answer(4, 0, 0), vec![9, 9]));
    }

    #[test]
    fn cases_10_and_11() {
        assert_eq!(case(1, &[0; 6], 6, 5), (answer(5, 0, 5), vec![9, 9]));
        assert_eq!(case(1, &[-1, -1, 2, 9, 0, 0], 6, 5), (answer(5, 2, 5), vec![9, 9]));
    }

    #[test]
    fn case_12() {
        let symbols: Vec<i8> =
            b"10100101100111".iter().map(|&bit| if bit == b'1' { -1 } else { 1 }).collect();
        let (answer, message) = case(5, &symbols, 4096, u32::MAX);
        assert_eq!((answer.number, answer.metric), (0, 2));
        assert_eq!(message, [1, 0, 1, 1, 1, 9]);
    }

    #[test]
    fn case_16() {
        let code = Code { memory: 16, ..house(0) };
        let asked = |code, length, symbols| Asked { code, length, symbols, room: 0, allowance: 0, words: 0 };
        assert_eq!(tried(&asked(house(0), 200, &[1; 404])).0, answer(3, 0, 0));
        assert_eq!(tried(&asked(house(0), 201, &[1; 406])).0, refused(2));
        assert_eq!(tried(&asked(code, 1, &[1; 34])).0, answer(3, 0, 0));
        assert_eq!(tried(&asked(Code { memory: 17, ..code }, 1, &[1; 36])).0, refused(1));
        assert_eq!(case(1, &FOUR, 4097, 3).0, refused(2));
    }

    #[test]
    fn sizes_come_before_the_search_and_behind_the_code() {
        let good = Asked { code: house(0), length: 1, symbols: &FOUR, room: 5, allowance: 3, words: 15 };
        assert_eq!(tried(&good).0.number, 0);
        assert_eq!(tried(&Asked { words: 14, ..good }).0, refused(2));
        assert_eq!(tried(&Asked { symbols: &FOUR[1..], ..good }).0, refused(2));
        assert_eq!(tried(&Asked { length: 0, ..good }).0, refused(2));
        assert_eq!(decode(ordered, &good, &mut []), refused(2));
        let room = usize::MAX;
        assert_eq!(decode(ordered, &Asked { room, ..good }, &mut [9]), refused(2));
        let code = Code { outputs: 1, ..house(0) };
        assert_eq!(
            decode(ordered, &Asked { code, room, length: usize::MAX - 9, ..good }, &mut [9]),
            refused(1)
        );
    }
}
