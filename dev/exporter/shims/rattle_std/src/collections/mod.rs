//! Maps whose growth may fail: as much of the kit's as these crates use.

mod btree_map;
mod hash_map;

pub use btree_map::BTreeMap;
pub use hash_map::HashMap;
