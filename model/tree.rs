//! A tree of units, whatever they say: its bytes, its units in their order, and where each stands.

use crate::builder::Request;
use crate::rules::MARK;

#[derive(Clone)]
pub struct Tree {
    pub unit: Request,
    pub nested: Vec<Tree>,
}

impl Tree {
    /// The bytes; lengths are written modulo 65,536.
    pub fn bytes(&self) -> Vec<u8> {
        let mut bytes = Vec::new();
        self.put(&mut bytes);
        bytes
    }

    fn put(&self, bytes: &mut Vec<u8>) {
        let start = bytes.len();
        let Request { id, action, data } = &self.unit;
        bytes.extend([MARK[0], MARK[1], 0, 0, *action as u8, *id as u8]);
        bytes.extend(data);
        self.nested.iter().for_each(|tree| tree.put(bytes));
        let length = (bytes.len() - start) as u16;
        bytes[start + 2..start + 4].copy_from_slice(&length.to_be_bytes());
    }

    /// What the units say, each before those nested in it.
    pub fn requests(&self) -> Vec<Request> {
        let nested = self.nested.iter().flat_map(Tree::requests);
        std::iter::once(self.unit.clone()).chain(nested).collect()
    }

    /// Depth and rank of each, in the same order, where it stands so deep and is of this rank.
    pub fn levels(&self, depth: u64, rank: u64) -> Vec<(u64, u64)> {
        let nested = self.nested.iter().zip(0..).flat_map(|(tree, rank)| tree.levels(depth + 1, rank));
        std::iter::once((depth, rank)).chain(nested).collect()
    }

    pub fn size(&self) -> usize {
        let nested: usize = self.nested.iter().map(Tree::size).sum();
        6 + self.unit.data.len() + nested
    }

    pub fn count(&self) -> usize {
        1 + self.nested.iter().map(Tree::count).sum::<usize>()
    }

    /// The unit with this place in the order of `requests`.
    pub fn unit_mut(&mut self, mut index: usize) -> &mut Tree {
        if index == 0 {
            return self;
        }
        index -= 1;
        for tree in &mut self.nested {
            let count = tree.count();
            if index < count {
                return tree.unit_mut(index);
            }
            index -= count;
        }
        unreachable!("a place beyond the tree")
    }
}
