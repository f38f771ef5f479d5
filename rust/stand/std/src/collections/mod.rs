//! Maps.

pub mod btree_map;
mod fold;
pub mod hash_map;

pub use btree_map::BTreeMap;
pub use fold::FoldHasher;
pub use hash_map::HashMap;
