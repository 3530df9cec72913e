//! Inputs for comparisons: random and hand-made, sound and damaged.

pub mod chains;
pub mod coherent;
pub mod damage;
pub mod document01;
pub mod edges;
pub mod histories;
pub mod pairs;
pub mod plans;
pub mod positions;
pub mod random;
pub mod runs;
pub mod scripts;
pub mod values;
