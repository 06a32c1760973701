//! What the crate's prelude hands out, and the solver's text once more with its table open.
pub use crate::facelet_cube::FaceletCube;
pub use crate::generic_cube::{Cube, Face, Move, MoveVariant};

pub mod open {
    #![allow(dead_code)]
    include!("generic_solver.rs");

    impl PruningTable {
        /// The entries of a table.
        pub fn entries(&self) -> Vec<(Vec<Face>, i32)> {
            self.pruning_table.iter().map(|(k, v)| (k.clone(), *v)).collect()
        }

        /// A table of given entries.
        pub fn of_entries(entries: &[(Vec<Face>, i32)], depth: i32) -> Self {
            Self { pruning_table: entries.iter().cloned().collect(), depth }
        }
    }
}
