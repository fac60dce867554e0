//! Inputs of `replay`. What it is to print for them is what the model prints (`crate::replay`).

pub mod cases;
pub mod input;
pub mod office;

mod random;

use crate::replay::replay;

/// An input with a name.
pub struct Sample {
    pub name: String,
    pub input: Vec<u8>,
}

impl Sample {
    pub fn new(name: &str, input: impl Into<Vec<u8>>) -> Self {
        Sample {
            name: name.to_string(),
            input: input.into(),
        }
    }

    pub fn output(&self) -> String {
        replay(&self.input)
    }

    /// The output for each beginning of the input, from none of it to all, behind a line `cut LENGTH`.
    pub fn outputs_of_cuts(&self) -> String {
        (0..=self.input.len())
            .map(|length| format!("cut {length}\n{}", replay(&self.input[..length])))
            .collect()
    }
}

pub use random::{mixed, short_script, spoilt};
