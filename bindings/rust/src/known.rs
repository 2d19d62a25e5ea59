//! Changes that a dictionary has made, each kept once, to which breaks can refer as long as the dictionary is not changed.

use crate::extended::Subregion;
use std::collections::hash_map::DefaultHasher;
use std::hash::{Hash, Hasher};
use std::sync::OnceLock;

const ROWS: usize = 256;

// A change, and the ones after it in its row.
struct Node {
    subregion: Subregion,
    next: Next,
}

type Next = OnceLock<Box<Node>>;

/// The changes that are known. One that is known is found without a lock; a new one is put behind the last of its row.
pub struct Known {
    rows: Box<[Next]>,
}

impl Known {
    /// None yet.
    pub fn new() -> Known {
        Known { rows: (0..ROWS).map(|_| OnceLock::new()).collect() }
    }

    /// The change that is equal to this one, which is kept from now on.
    pub fn keep(&self, subregion: Subregion) -> &Subregion {
        let mut hasher = DefaultHasher::new();
        subregion.hash(&mut hasher);
        let mut next = &self.rows[hasher.finish() as usize % ROWS];
        loop {
            match next.get() {
                Some(node) if node.subregion == subregion => return &node.subregion,
                Some(node) => next = &node.next,
                // If another thread is first, its change is looked at in the next turn.
                None => drop(next.set(Box::new(Node { subregion: subregion.clone(), next: OnceLock::new() }))),
            }
        }
    }
}

impl Drop for Known {
    // One after the other, so that a long row needs no long stack.
    fn drop(&mut self) {
        for row in &mut self.rows {
            let mut next = row.take();
            while let Some(mut node) = next {
                next = node.next.take();
            }
        }
    }
}
