//! The two ways to a word: with its index tested, or without. The tree is written once over both.

/// The words of a node.
pub const NODE_WORDS: usize = 16;

/// Words before node 1, less one node: node k starts at word 56 + 16k.
const NODES_BASE: usize = 56;

pub type Node = [u64; NODE_WORDS];

/// The word at which node k starts.
pub fn node_at(node: u64) -> usize {
    NODES_BASE + NODE_WORDS * node as usize
}

pub trait Reach {
    fn get(words: &[u64], at: usize) -> u64;
    fn set(words: &mut [u64], at: usize, value: u64);
    fn node(words: &[u64], node: u64) -> &Node;
    fn within(node: &Node, at: usize) -> u64;
}

/// Every index is tested against the slice.
pub struct Safe;

/// No index is tested: what the caller has found out about the pool keeps it inside.
pub struct Unchecked;

impl Reach for Safe {
    #[inline(always)]
    fn get(words: &[u64], at: usize) -> u64 {
        words[at]
    }

    #[inline(always)]
    fn set(words: &mut [u64], at: usize, value: u64) {
        words[at] = value;
    }

    #[inline(always)]
    fn node(words: &[u64], node: u64) -> &Node {
        let at = node_at(node);
        words[at..at + NODE_WORDS].try_into().expect("a node's words")
    }

    #[inline(always)]
    fn within(node: &Node, at: usize) -> u64 {
        node[at]
    }
}

impl Reach for Unchecked {
    #[inline(always)]
    fn get(words: &[u64], at: usize) -> u64 {
        // SAFETY: the header's tests keep `at` below the pool's total words, which the slice has.
        unsafe { *words.get_unchecked(at) }
    }

    #[inline(always)]
    fn set(words: &mut [u64], at: usize, value: u64) {
        // SAFETY: as in `get`.
        unsafe { *words.get_unchecked_mut(at) = value }
    }

    #[inline(always)]
    fn node(words: &[u64], node: u64) -> &Node {
        // SAFETY: the number was tested to be 1..used, and used to be at most the capacity.
        unsafe { &*words.as_ptr().add(node_at(node)).cast::<Node>() }
    }

    #[inline(always)]
    fn within(node: &Node, at: usize) -> u64 {
        // SAFETY: entry numbers were tested to be at most 6.
        unsafe { *node.get_unchecked(at) }
    }
}
