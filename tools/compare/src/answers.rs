//! The lists of known answers: what is asked, and how each answer is written down.

pub mod cuts;
pub mod folds;
pub mod keys;
pub mod lines;
pub mod numbers;
pub mod packets;
pub mod sections;
pub mod sound;
pub mod wrong;
