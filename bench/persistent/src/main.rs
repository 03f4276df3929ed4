//! The comparison with a persistent vector, `im_rc::Vector`: (c).

use compare::lists::{Block, List, Lists};
use compare::versions::{replies, run};
use im_rc::Vector;

#[derive(Clone, Default)]
struct Shared(Vector<Block>);

impl List for Shared {
    fn len(&self) -> usize {
        self.0.len()
    }

    fn with(&self, place: usize, block: Block) -> Self {
        let mut list = self.0.clone();
        if place == list.len() {
            list.push_back(block);
        } else {
            list.insert(place, block);
        }
        Self(list)
    }

    fn blocks(&self) -> impl Iterator<Item = &Block> {
        self.0.iter()
    }
}

fn main() {
    compare::main_with(Some(compare::More { run: run::<Lists<Shared>>, replies: replies::<Lists<Shared>> }));
}
