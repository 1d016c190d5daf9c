//! The proved marker in process, against markers A, B and C.

pub mod c_api;
pub mod model;
pub mod sheets;
pub mod steps;
pub mod tails;
pub mod whole;
