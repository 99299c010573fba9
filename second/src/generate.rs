//! Random inputs for the comparisons.

pub mod damage;
pub mod deltas;
pub mod entries;
pub mod flaws;
pub mod grids;
pub mod maps;
pub mod mutations;
pub mod numbers;
pub mod pgms;
pub mod places;
pub mod rows;
pub mod runs;
pub mod scans;
pub mod sheets;
pub mod shelves;
pub mod tables;
