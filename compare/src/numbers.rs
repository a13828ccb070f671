//! What both sides of the comparison are handed and hand back: a park by its numbers, as Write
//! takes it, and the eight numbers of an answer.

/// Refusal number, place in bytes, then the call's own values; slots not in use are 0.
pub type Answer = [u64; 8];

/// A park by its numbers. Nothing here need be a park.
#[derive(Clone, Copy)]
pub struct Numbers<'a> {
    /// n, in nodes.
    pub nodes: u16,
    /// The root, a node.
    pub root: u16,
    /// Three numbers a link: lower node, higher node, cost in cost units.
    pub links: &'a [u16],
    /// Node i is bit (i - 1) mod 8 of byte (i - 1) / 8.
    pub group: &'a [u8],
    /// Stored distances in cost units, node 1 first.
    pub distances: &'a [u32],
    /// Stored parents, nodes, 0 for none.
    pub parents: &'a [u16],
    /// Stored marks, 0 for clear.
    pub marks: &'a [u8],
}
