//! "Weight, metric, node": what a symbol weighs, which nodes there are and what a branch between two of them costs.
use crate::code::Code;

pub fn hard_bit(symbol: i8) -> u8 {
    u8::from(symbol < 0)
}

pub fn weight(symbol: i8) -> u64 {
    u64::from(symbol.unsigned_abs())
}

/// In the order of a sheet's entries: by level, then state.
#[derive(Clone, Copy, Debug, PartialEq, Eq, PartialOrd, Ord, Hash)]
pub struct Node {
    pub level: usize,
    pub state: u32,
}

pub const ORIGIN: Node = Node { level: 0, state: 0 };

/// A lawful code, a length within its limits and exactly N symbols.
#[derive(Clone, Copy)]
pub struct Block<'a> {
    pub code: Code,
    pub length: usize,
    pub symbols: &'a [i8],
}

impl Block<'_> {
    pub fn last_level(&self) -> usize {
        self.length + self.code.memory as usize
    }

    pub fn terminal(&self) -> Node {
        Node { level: self.last_level(), state: 0 }
    }

    /// The weights of the branch's symbols where its outputs differ from the hard bits.
    pub fn branch_cost(&self, level: usize, register: u32) -> u64 {
        let outputs = self.code.outputs as usize;
        (0..outputs)
            .map(|which| (which, self.symbols[level * outputs + which]))
            .filter(|&(which, symbol)| self.code.output(register, which) != hard_bit(symbol))
            .map(|(_, symbol)| weight(symbol))
            .sum()
    }

    /// The allowed successors of a node, each with the cost of its branch.
    pub fn branches(&self, node: Node) -> impl Iterator<Item = (Node, u64)> + '_ {
        let inputs = if node.level < self.length {
            0..2
        } else if node.level < self.last_level() {
            0..1
        } else {
            0..0
        };
        inputs.map(move |bit| {
            let register = self.code.register(bit, node.state);
            (Node { level: node.level + 1, state: register / 2 }, self.branch_cost(node.level, register))
        })
    }

    /// The newest bit that a node remembers: the input of every branch that enters it.
    pub fn newest(&self, node: Node) -> u8 {
        (node.state >> (self.code.memory - 1)) as u8
    }
}

#[cfg(test)]
mod tests {
    use super::*;

    #[test]
    fn case_13() {
        assert_eq!([-128, -1, 0, 127].map(weight), [128, 1, 0, 127]);
        assert_eq!([-128, -1, 0, 127].map(hard_bit), [1, 1, 0, 0]);
    }
}
