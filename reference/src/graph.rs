//! What the rules find out about a document that keeps them.

use crate::binding::Binding;

/// The records of the lent tables, and the bindings of all arguments in a row.
pub struct Graph {
    /// For each call its operation's index and its name's place, and how many
    /// identifiers it assigns and uses.
    pub calls: Vec<[u32; 4]>,
    /// For each use its place and the index of the assigning call.
    pub wires: Vec<[u32; 2]>,
    pub bindings: Vec<Binding>,
}
